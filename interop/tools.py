"""The clients of S3 that are other people's commands, for `interop/run`."""

import json
import time
from datetime import datetime
from pathlib import Path

from clients import HOUR, MIB, PART, Lacking, in_order, ran, told
from commands import Command, environment
from documents import JSON
from server import BUCKET, ID, REGION


class S3cmd(Command):
    """`s3cmd`, which lists by the first version of the call alone."""

    name = program = "s3cmd"
    limits = {
        "presigned get": "it signs addresses by Signature Version 2 alone",
        "control bytes v1": "it doesn't ask for encoding-type=url, and XML 1.0 has no character for them",
    }
    adds_metadata = True

    def s3cmd(self, *words, in_parts=False):
        config = [f"access_key = {ID}", f"secret_key = {self.secret}", f"host_base = {self.address}"]
        config += [f"multipart_chunk_size_mb = {PART // MIB}", f"host_bucket = {self.address}"]
        config += [f"multipart_copy_chunk_size_mb = {PART // MIB}"]
        config += [f"bucket_location = {REGION}", "use_https = False"]
        config += [f"enable_multipart = {in_parts}", "signature_v2 = False", "max_retries = 1"]
        path = self.path(("[default]\n" + "\n".join(config) + "\n").encode())
        status, wrote, said = ran(["s3cmd", "-c", path, "--no-progress", *words], environment())
        missing, refused = ["404", "NoSuchKey", "does not exist"], ["403", "SignatureDoesNotMatch"]
        told(status, said, missing, refused, unread=["Error parsing xml"])
        return wrote

    def put(self, key, data):
        self.s3cmd("put", self.path(data), f"s3://{BUCKET}/{key}")

    def put_parts(self, key, data):
        self.s3cmd("put", self.path(data), f"s3://{BUCKET}/{key}", in_parts=True)

    def get(self, key):
        path = self.path()
        self.s3cmd("get", "--force", f"s3://{BUCKET}/{key}", path)
        return Path(path).read_bytes()

    def head(self, key):
        lines = self.s3cmd("info", f"s3://{BUCKET}/{key}").decode().splitlines()
        return int([line.split(":")[1] for line in lines if "File size" in line][0])

    def presigned(self, method, key):
        if method != "GET":
            raise Lacking()
        return self.s3cmd("signurl", f"s3://{BUCKET}/{key}", f"+{HOUR}").decode().strip()

    def copy(self, key, other):
        self.s3cmd("cp", f"s3://{BUCKET}/{key}", f"s3://{BUCKET}/{other}")

    def copy_anew(self, key, other, media, metadata):
        added = [f"--add-header=x-amz-meta-{name}:{value}" for name, value in metadata.items()]
        words = ["modify"] if key == other else ["cp", f"s3://{BUCKET}/{key}"]
        self.s3cmd(*words, f"s3://{BUCKET}/{other}", f"--mime-type={media}", *added)

    def copy_large(self, key, bucket, other):
        self.s3cmd("cp", f"s3://{BUCKET}/{key}", f"s3://{bucket}/{other}", in_parts=True)

    def move_large(self, key, other):
        self.s3cmd("mv", f"s3://{BUCKET}/{key}", f"s3://{BUCKET}/{other}", in_parts=True)

    def copy_all(self, prefix, bucket, other):
        self.s3cmd("sync", f"s3://{BUCKET}/{prefix}", f"s3://{bucket}/{other}", in_parts=True)

    def delete(self, key):
        self.s3cmd("del", f"s3://{BUCKET}/{key}")

    def listed_first(self, prefix, delimiter, page=None):
        if page is not None or self.dialect == JSON:
            raise Lacking()
        words = ["ls", *([] if delimiter else ["--recursive"]), f"s3://{BUCKET}/{prefix}"]
        rows, front = [line.split(maxsplit=3) for line in self.s3cmd(*words).decode().splitlines()], f"s3://{BUCKET}/"
        objects = [(row[3].removeprefix(front), int(row[2])) for row in rows if row[0] != "DIR"]
        return in_order(objects, [row[1].removeprefix(front) for row in rows if row[0] == "DIR"])

    def total(self, prefix):
        return int(self.s3cmd("du", f"s3://{BUCKET}/{prefix}").split()[0])

    def move(self, key, other):
        self.s3cmd("mv", f"s3://{BUCKET}/{key}", f"s3://{BUCKET}/{other}")

    def remove_all(self, prefix):
        self.s3cmd("del", "--recursive", "--force", f"s3://{BUCKET}/{prefix}")

    def sync_up(self, folder, prefix):
        self.s3cmd("sync", "--delete-removed", f"{folder}/", f"s3://{BUCKET}/{prefix}")

    def sync_down(self, prefix, folder):
        self.s3cmd("sync", "--delete-removed", f"s3://{BUCKET}/{prefix}", f"{folder}/")

    def add_up(self, folder, prefix):
        self.s3cmd("sync", f"{folder}/", f"s3://{BUCKET}/{prefix}", in_parts=True)

    def make_bucket(self, bucket, region=None):
        self.s3cmd("mb", *([f"--bucket-location={region}"] if region else []), f"s3://{bucket}")

    def remove_bucket(self, bucket):
        self.s3cmd("rb", f"s3://{bucket}")

    def purge(self, bucket):
        self.s3cmd("rb", "--recursive", "--force", f"s3://{bucket}")

    def location(self):
        lines = self.s3cmd("info", f"s3://{BUCKET}").decode().splitlines()
        return [line.split(":")[1].strip() for line in lines if "Location" in line][0]


# The size from which rclone sends, gets and copies in parts.
PARTS = f"{PART // MIB}Mi"
# rclone tells a control byte by the character that is its picture. In JSON that byte has an escape.
CONTROLS = {0x2400 + byte: f"\\u{byte:04x}" for byte in range(32)} | {0x2421: "\x7f"}


class Rclone(Command):
    """`rclone`. It tells a get that was refused as one of an object that isn't there. Which version of the call it
    lists by it chooses itself: the first one, where it isn't told which server this is."""

    name = program = "rclone"
    EMPTY = "it takes an answer that is no XML for a list with nothing in it"
    limits_in_json = dict.fromkeys(["list", "1,001 keys", "pages"], EMPTY)

    def rclone(self, *words, cutoff="1Gi", more=None):
        env = environment(
            RCLONE_CONFIG=self.path(),
            RCLONE_CONFIG_PAIL_TYPE="s3",
            RCLONE_CONFIG_PAIL_PROVIDER="Other",
            RCLONE_CONFIG_PAIL_ACCESS_KEY_ID=ID,
            RCLONE_CONFIG_PAIL_SECRET_ACCESS_KEY=self.secret,
            RCLONE_CONFIG_PAIL_REGION=REGION,
            RCLONE_CONFIG_PAIL_ENDPOINT=f"http://{self.address}",
            RCLONE_S3_FORCE_PATH_STYLE="true",
            RCLONE_S3_NO_CHECK_BUCKET="true",
            RCLONE_S3_UPLOAD_CUTOFF=cutoff,
            RCLONE_S3_COPY_CUTOFF=cutoff,
            RCLONE_MULTI_THREAD_CUTOFF=cutoff,
            RCLONE_S3_LIST_VERSION="2" if self.dialect == JSON else "0",
            RCLONE_RETRIES="1",
            RCLONE_LOW_LEVEL_RETRIES="1",
        )
        env |= more or {}
        status, wrote, said = ran(["rclone", *words], env)
        missing, refused = ["404", "not found", "doesn't exist"], ["403", "Forbidden", "SignatureDoesNotMatch"]
        told(status, said, missing, refused, unread=["SerializationError", "UploadPartInput.UploadId"])
        return wrote

    def put(self, key, data):
        self.rclone("copyto", "--ignore-times", self.path(data), f"pail:{BUCKET}/{key}")

    def put_parts(self, key, data):
        self.rclone("copyto", "--ignore-times", self.path(data), f"pail:{BUCKET}/{key}", cutoff=PARTS)

    def get(self, key, cutoff="1Gi"):
        path = self.path()
        self.rclone("copyto", "--ignore-times", f"pail:{BUCKET}/{key}", path, cutoff=cutoff)
        return Path(path).read_bytes()

    def get_parts(self, key):
        return self.get(key, PARTS)

    def part(self, key, first, count):
        words = ["--no-traverse", "--offset", str(first), "--count", str(count)]
        return self.rclone("cat", *words, f"pail:{BUCKET}/{key}")

    def head(self, key):
        return json.loads(self.rclone("lsjson", "--stat", f"pail:{BUCKET}/{key}"))["Size"]

    def presigned(self, method, key):
        if method != "GET":
            raise Lacking()
        return self.rclone("link", "--expire", f"{HOUR}s", f"pail:{BUCKET}/{key}").decode().strip()

    def copy(self, key, other):
        self.rclone("copyto", "--ignore-times", f"pail:{BUCKET}/{key}", f"pail:{BUCKET}/{other}")

    def copy_large(self, key, bucket, other):
        self.rclone("copyto", f"pail:{BUCKET}/{key}", f"pail:{bucket}/{other}", cutoff=PARTS)

    def move_large(self, key, other):
        self.rclone("moveto", f"pail:{BUCKET}/{key}", f"pail:{BUCKET}/{other}", cutoff=PARTS)

    def copy_all(self, prefix, bucket, other):
        self.rclone("copy", f"pail:{BUCKET}/{prefix}", f"pail:{bucket}/{other}", cutoff=PARTS)
        self.rclone("check", "--download", f"pail:{BUCKET}/{prefix}", f"pail:{bucket}/{other}")

    def listed(self, prefix, delimiter, page=None, version="2"):
        more = {"RCLONE_S3_LIST_VERSION": version} | ({} if page is None else {"RCLONE_S3_LIST_CHUNK": str(page)})
        words = ["lsjson", *([] if delimiter else ["--recursive", "--fast-list"])]
        rows = json.loads(self.rclone(*words, f"pail:{BUCKET}/{prefix}", more=more).decode().translate(CONTROLS))
        objects = [(prefix + row["Path"], row["Size"]) for row in rows if not row["IsDir"]]
        return in_order(objects, [f"{prefix}{row['Path']}/" for row in rows if row["IsDir"] and delimiter])

    def listed_first(self, prefix, delimiter, page=None):
        return self.listed(prefix, delimiter, page, "1")

    def total(self, prefix):
        return json.loads(self.rclone("size", "--json", f"pail:{BUCKET}/{prefix}"))["bytes"]

    def touch(self, key, moment):
        stamp = time.strftime("%Y-%m-%dT%H:%M:%S", time.gmtime(moment))
        self.rclone("touch", "--timestamp", stamp, f"pail:{BUCKET}/{key}")

    def moment(self, key):
        told = json.loads(self.rclone("lsjson", "--stat", f"pail:{BUCKET}/{key}"))["ModTime"]
        return datetime.fromisoformat(told).timestamp()

    def delete(self, key):
        self.rclone("deletefile", f"pail:{BUCKET}/{key}")

    def move(self, key, other):
        self.rclone("moveto", f"pail:{BUCKET}/{key}", f"pail:{BUCKET}/{other}")

    def remove_all(self, prefix):
        self.rclone("delete", f"pail:{BUCKET}/{prefix}")

    def sync_up(self, folder, prefix):
        self.rclone("sync", str(folder), f"pail:{BUCKET}/{prefix}")
        self.rclone("check", "--download", str(folder), f"pail:{BUCKET}/{prefix}")
        told = sorted(self.rclone("lsf", "-R", "--files-only", f"pail:{BUCKET}/{prefix}").decode().splitlines())
        files = sorted(str(path.relative_to(folder)) for path in Path(folder).rglob("*") if path.is_file())
        if told != files:
            raise AssertionError(f"lsf tells {told[:5]}, and not {files[:5]}")

    def sync_down(self, prefix, folder):
        self.rclone("sync", f"pail:{BUCKET}/{prefix}", str(folder))

    def add_up(self, folder, prefix):
        self.rclone("copy", str(folder), f"pail:{BUCKET}/{prefix}", cutoff=PARTS)

    def make_bucket(self, bucket, region=None):
        # It makes none where it isn't to check for one.
        more = {"RCLONE_S3_NO_CHECK_BUCKET": "false", "RCLONE_S3_LOCATION_CONSTRAINT": region or ""}
        self.rclone("mkdir", f"pail:{bucket}", more=more)

    def remove_bucket(self, bucket):
        self.rclone("rmdir", f"pail:{bucket}")

    def purge(self, bucket):
        self.rclone("purge", f"pail:{bucket}")


class S4cmd(Command):
    """`s4cmd`, which lists by the first version of the call alone."""

    name = program = "s4cmd"
    LISTS = "it asks for a list of objects first"
    ASKING = ["get", "put again", "head", "delete", "missing key", "wrong secret", "wrong, 8 MiB"]
    limits_in_json = dict.fromkeys([*ASKING, "empty", "8 MiB", "odd key", "copy", "in parts"], LISTS)
    limits = dict.fromkeys(["move", "copy all"], "it fails where a key that it tells of has a `%`")

    def s4cmd(self, *words, threshold=1024 * MIB):
        env = environment(S3_ACCESS_KEY=ID, S3_SECRET_KEY=self.secret)
        kinds = ("upload", "download", "copy")
        sizes = [f"--multipart-split-size={PART}", *(f"--max-singlepart-{kind}-size={threshold}" for kind in kinds)]
        where = ["--retry", "1", "--endpoint-url", f"http://{self.address}"]
        status, wrote, said = ran(["s4cmd", *where, *sizes, *words], env)
        told(status, said, ["404", "Source doesn't exist"], ["403", "SignatureDoesNotMatch"])
        return wrote

    def put(self, key, data, threshold=1024 * MIB):
        self.s4cmd("put", "-f", self.path(data), f"s3://{BUCKET}/{key}", threshold=threshold)

    def put_parts(self, key, data):
        self.put(key, data, PART)

    def get(self, key, threshold=1024 * MIB):
        path = self.path()
        self.s4cmd("get", "-f", f"s3://{BUCKET}/{key}", path, threshold=threshold)
        return Path(path).read_bytes()

    def get_parts(self, key):
        return self.get(key, PART)

    def head(self, key):
        return int(self.s4cmd("ls", f"s3://{BUCKET}/{key}").split()[2])

    def copy(self, key, other):
        self.s4cmd("cp", "-f", f"s3://{BUCKET}/{key}", f"s3://{BUCKET}/{other}")

    def copy_large(self, key, bucket, other):
        self.s4cmd("cp", "-f", f"s3://{BUCKET}/{key}", f"s3://{bucket}/{other}", threshold=PART)

    def move_large(self, key, other):
        self.s4cmd("mv", "-f", f"s3://{BUCKET}/{key}", f"s3://{BUCKET}/{other}", threshold=PART)

    def copy_all(self, prefix, bucket, other):
        self.s4cmd("cp", "-r", "-f", f"s3://{BUCKET}/{prefix}", f"s3://{bucket}/{other}", threshold=PART)

    def listed_first(self, prefix, delimiter, page=None):
        if page is not None or not delimiter:
            raise Lacking()
        told = self.s4cmd("ls", f"s3://{BUCKET}/{prefix}").decode()
        rows, front = [line.split(maxsplit=3) for line in told.splitlines()], f"s3://{BUCKET}/"
        return [(row[-1].removeprefix(front), None if row[0] == "DIR" else int(row[2])) for row in rows]

    def total(self, prefix):
        return int(self.s4cmd("du", "-r", f"s3://{BUCKET}/{prefix}").split()[0])

    def move(self, key, other):
        self.s4cmd("mv", "-f", f"s3://{BUCKET}/{key}", f"s3://{BUCKET}/{other}")

    def delete(self, key):
        self.s4cmd("del", f"s3://{BUCKET}/{key}")

    def remove_all(self, prefix):
        self.s4cmd("del", "-r", f"s3://{BUCKET}/{prefix}")

    def sync_up(self, folder, prefix):
        self.s4cmd("dsync", "-r", "-f", "-s", "-D", f"{folder}/", f"s3://{BUCKET}/{prefix}")

    def sync_down(self, prefix, folder):
        self.s4cmd("dsync", "-r", "-f", "-s", "-D", f"s3://{BUCKET}/{prefix}", f"{folder}/")

    def add_up(self, folder, prefix):
        self.s4cmd("dsync", "-r", "-f", f"{folder}/", f"s3://{BUCKET}/{prefix}", threshold=PART)

    def make_bucket(self, bucket, region=None):
        if region:
            raise Lacking()
        self.s4cmd("mb", f"s3://{bucket}")
