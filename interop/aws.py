"""AWS's command line, for `interop/run`: both of its generations, and both of its forms."""

import json
import os
import re
import shutil
from pathlib import Path

from clients import HOUR, PART, Lacking, first_line, in_order, in_parts, of_page, ran, span_told, told
from commands import Command, environment
from server import BUCKET, ID, REGION

# Files that are larger are sent in parts: none that is tried here, or as it is by default.
WHOLE, PARTS = "1GB", str(PART)
AWS_CONFIG = f"""[default]
region = {REGION}
s3 =
    addressing_style = path
    signature_version = s3v4
    multipart_threshold = """
# What the generations of AWS's command line say of an answer that they can't read.
UNREAD = ["(500)", "Unable to parse response"]



def option_of(name):
    """The option of a parameter of the API, as `--response-content-type` is that of ResponseContentType."""
    return "-" + re.sub("([A-Z])", r"-\1", name).lower()


class Aws(Command):
    """What the forms of the AWS command line share. Both of its generations may be installed."""

    program = "aws"
    generation = 1
    takes_certificate = True

    @classmethod
    def found(cls):
        """The first `aws` of this generation on the path, and its version."""
        for folder in os.environ["PATH"].split(":"):
            if (path := shutil.which("aws", path=folder)) is not None:
                version = first_line([path, "--version"]).split()[0]
                if version.startswith(f"aws-cli/{cls.generation}."):
                    return path, version
        return None

    @classmethod
    def absent(cls):
        return None if cls.found() else f"generation {cls.generation} of it is not installed"

    @classmethod
    def version(cls):
        return cls.found()[1]

    def aws(self, *words, threshold=WHOLE):
        config = self.path(f"{AWS_CONFIG}{threshold}\n".encode())
        env = environment(
            AWS_ACCESS_KEY_ID=ID,
            AWS_SECRET_ACCESS_KEY=self.secret,
            AWS_CONFIG_FILE=config,
            AWS_SHARED_CREDENTIALS_FILE=config,
            AWS_EC2_METADATA_DISABLED="true",
            AWS_MAX_ATTEMPTS="1",
            **({"AWS_CA_BUNDLE": self.certificate} if self.certificate else {}),
        )
        status, wrote, said = ran([self.found()[0], "--endpoint-url", self.endpoint(), *words], env)
        missing, refused = ["(404)", "NoSuchKey", "NoSuchUpload"], ["(403)", "SignatureDoesNotMatch"]
        told(status, said, missing, refused, ["(304)"], ["(412)", "PreconditionFailed"], UNREAD)
        return wrote

    def api(self, operation, key, *words):
        return self.aws("s3api", operation, "--bucket", BUCKET, "--key", key, *words)

    def json(self, *words):
        """What a command tells in JSON."""
        return json.loads(self.aws(*words, "--output", "json") or "{}")

    def head(self, key, *words):
        return int(self.api("head-object", key, *words, "--query", "ContentLength", "--output", "text"))


class AwsApi(Aws):
    """`aws s3api`: one request a command."""

    name = "aws1 s3api"

    def put(self, key, data):
        self.api("put-object", key, "--body", self.path(data))

    def put_new(self, key, data):
        self.api("put-object", key, "--body", self.path(data), "--if-none-match", "*")

    def put_if(self, key, data, tag):
        self.api("put-object", key, "--body", self.path(data), "--if-match", tag)

    def delete_if(self, key, tag):
        self.api("delete-object", key, "--if-match", tag)

    def get(self, key, *words):
        path = self.path()
        self.api("get-object", key, *words, path)
        return Path(path).read_bytes()

    def part(self, key, first, count):
        return self.get(key, "--range", f"bytes={first}-{first + count - 1}")

    def get_unless(self, key, tag):
        return self.get(key, "--if-none-match", tag)

    def head_if(self, key, tag):
        return self.head(key, "--if-match", tag)

    def told_as(self, key, named):
        words = [word for name, value in named.items() for word in (option_of(f"Response{name}"), value)]
        return json.loads(self.api("get-object", key, *words, "--output", "json", self.path()))

    def told_summed(self, key):
        words = ["--checksum-mode", "ENABLED", "--output", "json"]
        return json.loads(self.api("get-object", key, *words, self.path()))

    def copy(self, key, other, *words):
        self.api("copy-object", other, "--copy-source", f"{BUCKET}/{key}", *words)

    def copy_anew(self, key, other, media, metadata):
        named = ["--content-type", media, "--metadata", json.dumps(metadata)]
        self.copy(key, other, "--metadata-directive", "REPLACE", *named)

    def copy_if(self, key, other, conditions):
        pairs = [(f"--copy-source-{name}", value) for name, value in conditions.items()]
        self.copy(key, other, *(word for pair in pairs for word in pair))

    def copy_version(self, bucket, key, version, other):
        self.of_bucket("copy-object", bucket, "--key", other, "--copy-source", f"{bucket}/{key}?versionId={version}")

    def copy_part(self, key, upload, number, source, span=None):
        words = ["--upload-id", upload, "--part-number", str(number), "--copy-source", f"{BUCKET}/{source}"]
        words += ["--copy-source-range", span_told(span)] if span else []
        return json.loads(self.api("upload-part-copy", key, *words, "--output", "json"))["CopyPartResult"]["ETag"]

    def put_parts(self, key, data):
        in_parts(self, key, data)

    def begin(self, key):
        return json.loads(self.api("create-multipart-upload", key, "--output", "json"))["UploadId"]

    def send_part(self, key, upload, data, number=1):
        words = ["--upload-id", upload, "--part-number", str(number), "--body", self.path(data)]
        return json.loads(self.api("upload-part", key, *words, "--output", "json"))["ETag"]

    def complete(self, key, upload, tags):
        parts = [{"ETag": tag, "PartNumber": number} for number, tag in enumerate(tags, 1)]
        words = ["--upload-id", upload, "--multipart-upload", json.dumps({"Parts": parts})]
        self.api("complete-multipart-upload", key, *words)

    def abort(self, key, upload):
        self.api("abort-multipart-upload", key, "--upload-id", upload)

    def listed(self, prefix, delimiter, page=None, operation="list-objects-v2"):
        words = ["--prefix", prefix, "--delimiter", delimiter, *([] if page is None else ["--page-size", str(page)])]
        return of_page(self.of_bucket(operation, BUCKET, *words))

    def listed_first(self, prefix, delimiter, page=None):
        return self.listed(prefix, delimiter, page, "list-objects")

    def delete(self, key):
        self.api("delete-object", key)

    def of_bucket(self, operation, bucket, *words):
        return self.json("s3api", operation, "--bucket", bucket, *words)

    def make_bucket(self, bucket, region=None):
        place = ["--create-bucket-configuration", f"LocationConstraint={region}"] if region else []
        self.of_bucket("create-bucket", bucket, *place)

    def remove_bucket(self, bucket):
        self.of_bucket("delete-bucket", bucket)

    def set_versioning(self, bucket, status):
        self.of_bucket("put-bucket-versioning", bucket, "--versioning-configuration", f"Status={status}")
        return self.of_bucket("get-bucket-versioning", bucket).get("Status")

    def put_version(self, bucket, key, data):
        return self.of_bucket("put-object", bucket, "--key", key, "--body", self.path(data))["VersionId"]

    def delete_version(self, bucket, key, version=None):
        named = ["--version-id", version] if version else []
        return self.of_bucket("delete-object", bucket, "--key", key, *named)["VersionId"]

    def get_version(self, bucket, key, version):
        path = self.path()
        self.of_bucket("get-object", bucket, "--key", key, "--version-id", version, path)
        return Path(path).read_bytes()

    def versions(self, bucket, page):
        told = self.of_bucket("list-object-versions", bucket, "--page-size", str(page))
        kinds = ("Versions", "DeleteMarkers")
        return [[(row["Key"], row["VersionId"]) for row in told.get(kind) or []] for kind in kinds]

    def location(self):
        return self.of_bucket("get-bucket-location", BUCKET)["LocationConstraint"] or REGION

    def configuration(self, resource, call):
        self.of_bucket(call, BUCKET)

    def delete_many(self, keys):
        self.of_bucket("delete-objects", BUCKET, "--delete", json.dumps({"Objects": [{"Key": key} for key in keys]}))


class AwsCopy(Aws):
    """`aws s3`: `cp`, `rm`, `ls`, `mv`, `sync`, `mb`, `rb` and `presign`."""

    name = "aws1 s3 cp"

    def s3(self, command, source, other, *words, threshold=WHOLE):
        """`cp`, `mv` or `sync` of files and of what is at addresses."""
        self.aws("s3", command, "--only-show-errors", source, other, *words, threshold=threshold)

    def put(self, key, data, threshold=WHOLE):
        self.s3("cp", self.path(data), f"s3://{BUCKET}/{key}", threshold=threshold)

    def put_parts(self, key, data):
        self.put(key, data, PARTS)

    def get(self, key, threshold=WHOLE):
        path = self.path()
        self.s3("cp", f"s3://{BUCKET}/{key}", path, threshold=threshold)
        return Path(path).read_bytes()

    def get_parts(self, key):
        return self.get(key, PARTS)

    def presigned(self, method, key):
        if method != "GET":
            raise Lacking()
        return self.aws("s3", "presign", "--expires-in", str(HOUR), f"s3://{BUCKET}/{key}").decode().strip()

    def copy(self, key, other):
        self.s3("cp", f"s3://{BUCKET}/{key}", f"s3://{BUCKET}/{other}")

    def copy_anew(self, key, other, media, metadata):
        words = ["--metadata-directive", "REPLACE", "--content-type", media, "--metadata", json.dumps(metadata)]
        self.s3("cp", f"s3://{BUCKET}/{key}", f"s3://{BUCKET}/{other}", *words)

    def copy_large(self, key, bucket, other):
        self.s3("cp", f"s3://{BUCKET}/{key}", f"s3://{bucket}/{other}", threshold=PARTS)

    def move_large(self, key, other):
        self.s3("mv", f"s3://{BUCKET}/{key}", f"s3://{BUCKET}/{other}", threshold=PARTS)

    def ls(self, *words):
        """What a list tells. Where there is nothing to tell, its status is 1, without a word."""
        try:
            return self.aws("s3", "ls", *words).decode()
        except RuntimeError as error:
            if str(error) != "status 1: ":
                raise
            return ""

    def listed(self, prefix, delimiter, page=None):
        words = [*([] if delimiter else ["--recursive"]), *([] if page is None else ["--page-size", str(page)])]
        told = self.ls(*words, f"s3://{BUCKET}/{prefix}")
        rows, front = [line.split(maxsplit=3) for line in told.splitlines()], "" if "--recursive" in words else prefix
        objects = [(front + row[3], int(row[2])) for row in rows if row[0] != "PRE"]
        return in_order(objects, [prefix + row[1] for row in rows if row[0] == "PRE"])

    def total(self, prefix):
        told = self.ls("--recursive", "--summarize", f"s3://{BUCKET}/{prefix}")
        return int(told.rpartition("Total Size:")[2])

    def delete(self, key):
        self.aws("s3", "rm", "--only-show-errors", f"s3://{BUCKET}/{key}")

    def move(self, key, other):
        self.s3("mv", f"s3://{BUCKET}/{key}", f"s3://{BUCKET}/{other}")

    def remove_all(self, prefix):
        self.aws("s3", "rm", "--recursive", "--only-show-errors", f"s3://{BUCKET}/{prefix}")

    def sync_up(self, folder, prefix):
        self.s3("sync", str(folder), f"s3://{BUCKET}/{prefix}", "--delete")

    def sync_down(self, prefix, folder):
        self.s3("sync", f"s3://{BUCKET}/{prefix}", str(folder), "--delete", threshold=PARTS)

    def add_up(self, folder, prefix):
        self.s3("sync", str(folder), f"s3://{BUCKET}/{prefix}", threshold=PARTS)

    def copy_all(self, prefix, bucket, other):
        self.s3("sync", f"s3://{BUCKET}/{prefix}", f"s3://{bucket}/{other}", threshold=PARTS)

    def make_bucket(self, bucket, region=None):
        self.aws("s3", "mb", f"s3://{bucket}", *(["--region", region] if region else []))

    def remove_bucket(self, bucket):
        self.aws("s3", "rb", f"s3://{bucket}")

    def purge(self, bucket):
        self.aws("s3", "rb", "--force", f"s3://{bucket}")


class Aws2Api(AwsApi):
    name, generation = "aws2 s3api", 2
    limits = dict.fromkeys(["if new", "write if"], "its older versions have no such option")


class Aws2Copy(AwsCopy):
    name, generation = "aws2 s3 cp", 2
