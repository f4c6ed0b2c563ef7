"""The clients of S3 that are libraries of Go, for `interop/run`: a program of each is built from its folder here."""

import atexit
import json
import re
import shutil
import subprocess
import tempfile
from pathlib import Path

from clients import TOLD, Client, Lacking, Missing, in_order, ran
from commands import environment
from server import BUCKET, ID, REGION

# Where Debian's packages have the sources of libraries.
SOURCES = Path("/usr/share/gocode")
LIBRARY = SOURCES / "src/github.com/minio/minio-go/v7"


class MinioGo(Client):
    """MinIO's library for Go. With trailing checksums, as its own command `mc` uses it, it sends a body in signed chunks
    with a signed trailer, and over TLS in unsigned ones."""

    name = "minio-go"
    takes_certificate = True
    skipped_in_json = "it sends trailers of chunks, which JSON doesn't have"
    limits = {
        "64 MiB": "with the frames of its chunks the body is over the limit",
        "bucket else": "it signs by the other region too",
    }
    program = None

    @classmethod
    def absent(cls):
        return None if shutil.which("go") and LIBRARY.is_dir() else "not installed"

    @classmethod
    def version(cls):
        return re.search(r'libraryVersion = "([^"]*)"', (LIBRARY / "api.go").read_text())[1]

    @classmethod
    def built(cls):
        """The program, which is built once."""
        if cls.program is None:
            folder = tempfile.mkdtemp()
            atexit.register(shutil.rmtree, folder, ignore_errors=True)
            env = environment(GOPATH=str(SOURCES), GO111MODULE="off", GOCACHE=f"{folder}/cache", GOFLAGS="")
            words, place = ["go", "build", "-o", f"{folder}/minio_go", "."], Path(__file__).parent / "minio_go"
            subprocess.run(words, cwd=place, env=env, check=True, stdin=subprocess.DEVNULL)
            cls.program = f"{folder}/minio_go"
        return cls.program

    def call(self, *words):
        """What the program writes for a call."""
        env = environment(PAIL_ADDRESS=self.address, PAIL_BUCKET=BUCKET, PAIL_REGION=REGION, PAIL_ID=ID)
        env |= {"PAIL_SECRET": self.secret, "PAIL_SECURE": "1" if self.certificate else ""}
        status, wrote, said = ran([self.built(), *map(str, words)], env)
        if status:
            found = re.match(r"status (\d+)", said)
            if "does not exist" in said:
                raise Missing(said)
            raise TOLD.get(int(found[1]) if found else 0, RuntimeError)(said)
        return wrote

    def told(self, *words):
        return json.loads(self.call(*words))

    def put(self, key, data):
        self.call("put", key, self.path(data))

    def put_parts(self, key, data):
        self.call("put-parts", key, self.path(data))

    def get(self, key):
        return self.call("get", key)

    def part(self, key, first, count):
        return self.call("part", key, first, count)

    def get_unless(self, key, tag):
        return self.call("get-unless", key, tag.strip('"'))

    def head(self, key):
        return self.told("head", key)

    def head_if(self, key, tag):
        return self.told("head-if", key, tag.strip('"'))

    def delete(self, key):
        self.call("delete", key)

    def copy(self, key, other):
        self.call("copy", key, other)

    def presigned(self, method, key):
        return self.told("presign", method, key)

    def listed(self, prefix, delimiter, page=None, call="list"):
        if delimiter not in ("", "/"):
            raise Lacking()
        rows = self.told(call, prefix, delimiter, page or 0)
        return in_order([(key, size) for key, size in rows if size is not None], [key for key, size in rows if size is None])

    def listed_first(self, prefix, delimiter, page=None):
        return self.listed(prefix, delimiter, page, "list-v1")

    def remove_all(self, prefix):
        self.call("remove", prefix)

    def begin(self, key):
        return self.told("begin", key)

    def send_part(self, key, upload, data, number=1):
        return self.told("send", key, upload, number, self.path(data))

    def complete(self, key, upload, tags):
        self.call("complete", key, upload, *tags)

    def abort(self, key, upload):
        self.call("abort", key, upload)

    def make_bucket(self, bucket, region=None):
        self.call("make-bucket", bucket, region or REGION)

    def remove_bucket(self, bucket):
        self.call("remove-bucket", bucket)
