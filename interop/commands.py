"""The clients of S3 that are commands, for `interop/run`, and those of them that send single requests: `s3d sign` and
curl."""

import hashlib
import os
import re
import shutil
import socket
import sys
import time
import urllib.parse
from pathlib import Path

from clients import HOUR, PATIENCE, TOLD, Client
from clients import first_line, in_pages, in_parts, ran, span_told, told
from documents import JSON, completion, copied_tag, location_of, upload_of
from server import BUCKET, ID, PROGRAM, REGION, TOP


def environment(**more):
    """This program's environment without what AWS's tools read there, and with more."""
    kept = {name: value for name, value in os.environ.items() if not name.startswith(("AWS_", "RCLONE_", "S3_"))}
    return {**kept, "no_proxy": "127.0.0.1", **more}


class Command(Client):
    """A client that is a program."""

    program = ""

    @classmethod
    def absent(cls):
        return None if shutil.which(cls.program) else "not installed"

    @classmethod
    def version(cls):
        return first_line([cls.program, "--version"])


class Single(Command):
    """A client that sends one request at a time, whose documents are written and read here."""

    def answer(self, method, key, query="", lines=()):
        """The document that a request with these header lines is answered. In the query names rise, and each has its
        `=`."""
        raise NotImplementedError

    def copy(self, key, other):
        self.copy_if(key, other, {})

    def copy_if(self, key, other, conditions):
        lines = [f"x-amz-copy-source-{name}:{value}" for name, value in conditions.items()]
        self.answer("PUT", other, lines=[f"x-amz-copy-source:/{BUCKET}/{key}", *lines])

    def copy_anew(self, key, other, media, metadata):
        lines = [f"content-type:{media}", *(f"x-amz-meta-{name}:{value}" for name, value in metadata.items())]
        lines += [f"x-amz-copy-source:/{BUCKET}/{key}", "x-amz-metadata-directive:REPLACE"]
        self.answer("PUT", other, lines=lines)

    def copy_part(self, key, upload, number, source, span=None):
        lines = [f"x-amz-copy-source-range:{span_told(span)}"] if span else []
        lines += [f"x-amz-copy-source:/{BUCKET}/{source}"]
        return copied_tag(self.answer("PUT", key, f"partNumber={number}&uploadId={upload}", lines))

    def listed(self, prefix, delimiter, page=None, version=2):
        return in_pages(self.dialect, lambda it: self.answer("GET", "", it), prefix, delimiter, page, version)

    def listed_first(self, prefix, delimiter, page=None):
        return Single.listed(self, prefix, delimiter, page, version=1)

    def location(self):
        return location_of(self.answer("GET", "", "location="))

    def configuration(self, resource, call):
        self.answer("GET", "", f"{resource}=")

    def begin(self, key):
        return upload_of(self.dialect, self.answer("POST", key, "uploads="))

    def abort(self, key, upload):
        self.answer("DELETE", key, f"uploadId={upload}")

    def delete(self, key):
        self.answer("DELETE", key)


class Signer(Single):
    """`s3d sign`, each of whose requests goes over a connection of its own. Lists and uploads are those of
    `examples/` where documents are JSON."""

    name = "s3d sign"
    program = PROGRAM

    def keys(self):
        """The path of a keys file with the one credential."""
        return self.path(f"{ID} {self.secret}\n".encode())

    def signed(self, method, key, words, query=""):
        """What `s3d sign` writes."""
        target = f"/{BUCKET}/{urllib.parse.quote(key, safe='/~')}{query}"
        common = ["--keys", self.keys(), "--id", ID, "--moment", str(int(time.time()))]
        common += ["--region", REGION, "--host", self.address, "--method", method, "--target", target]
        status, request, said = ran([self.program, "sign", *common, *words])
        told(status, said)
        return request

    def asked(self, method, key, data=b"", lines=(), query=""):
        """The head and the body that a request is answered."""
        request = self.signed(method, key, ["--body", self.path(data), *lines], query)
        host, port = self.address.rsplit(":", 1)
        with socket.create_connection((host, int(port)), PATIENCE) as stream:
            stream.sendall(request)
            stream.shutdown(socket.SHUT_WR)
            head, _, body = b"".join(iter(lambda: stream.recv(262_144), b"")).partition(b"\r\n\r\n")
        code = int(head.split(b" ", 2)[1])
        if code // 100 != 2:
            raise TOLD.get(code, RuntimeError)(f"{code}: {body[:300]}")
        return head.decode(), body

    def answer(self, method, key, query="", lines=()):
        return self.asked(method, key, lines=lines, query=f"?{query}" if query else "")[1]

    def line(self, name, answer):
        """The value of a header line of an answer."""
        return dict(line.split(": ", 1) for line in answer[0].split("\r\n")[1:])[name]

    def put(self, key, data):
        self.asked("PUT", key, data)

    def get(self, key, *lines):
        return self.asked("GET", key, lines=lines)[1]

    def part(self, key, first, count):
        return self.get(key, f"range:bytes={first}-{first + count - 1}")

    def get_unless(self, key, tag):
        return self.get(key, f"if-none-match:{tag}")

    def head(self, key, *lines):
        return int(self.line("Content-Length", self.asked("HEAD", key, lines=lines)))

    def head_if(self, key, tag):
        return self.head(key, f"if-match:{tag}")

    def put_new(self, key, data):
        self.asked("PUT", key, data, ["if-none-match:*"])

    def put_if(self, key, data, tag):
        self.asked("PUT", key, data, [f"if-match:{tag}"])

    def delete_if(self, key, tag):
        self.asked("DELETE", key, lines=[f"if-match:{tag}"])

    def presigned(self, method, key):
        return self.signed(method, key, ["--presign", str(HOUR), "--url"]).decode().strip()

    def listed(self, prefix, delimiter, page=None):
        if self.dialect != JSON:
            return super().listed(prefix, delimiter, page)
        words = [sys.executable, TOP / "examples/list.py", "--keys", self.keys(), "--region", REGION]
        words += ["--prefix", prefix, "--delimiter", delimiter, *([] if page is None else ["--page", str(page)])]
        status, wrote, said = ran([*words, self.address, BUCKET])
        told(status, said)
        lines = [(line[13:], line[:12].strip()) for line in wrote.decode().split("\n") if line]
        return [(key, None if size == "-" else int(size)) for key, size in lines]

    def put_parts(self, key, data):
        if self.dialect != JSON:
            return in_parts(self, key, data)
        words = [sys.executable, TOP / "examples/upload.py", "--keys", self.keys(), "--region", REGION]
        status, _, said = ran([*words, self.address, BUCKET, key, self.path(data)])
        told(status, said)

    def send_part(self, key, upload, data, number=1):
        return self.line("ETag", self.asked("PUT", key, data, query=f"?partNumber={number}&uploadId={upload}"))

    def complete(self, key, upload, tags):
        self.asked("POST", key, completion(self.dialect, tags), query=f"?uploadId={upload}")


class Curl(Single):
    """`curl --aws-sigv4`, which signs a request and knows nothing else of S3."""

    name = "curl"
    SORTED = "it signs a line after one whose name is the same and goes on"
    limits = dict.fromkeys(["copy if", "part copied"], SORTED)

    @classmethod
    def absent(cls):
        if not shutil.which("curl"):
            return "not installed"
        _, wrote, _ = ran(["curl", "--help", "all"])
        return None if b"--aws-sigv4" in wrote else "this curl can't sign"

    @classmethod
    def version(cls):
        return " ".join(first_line(["curl", "--version"]).split()[:2])

    def asked(self, method, key, data=b"", more=(), query=""):
        """The bytes that a request is answered. (It signs a query as it stands, so its names have to rise, each with
        its `=`, and its values to have their escapes.)"""
        url = f"http://{self.address}/{BUCKET}/{urllib.parse.quote(key, safe='/~')}{query}"
        out = self.path()
        words = ["curl", "-sS", "--path-as-is", "-o", out, "-w", "%{http_code}", "--aws-sigv4", f"aws:amz:{REGION}:s3"]
        words += ["--user", f"{ID}:{self.secret}", "-H", f"x-amz-content-sha256: {hashlib.sha256(data).hexdigest()}"]
        words += [*more, *(["-X", method] if method != "HEAD" else ["--head"])]
        status, wrote, said = ran([*words, url])
        if status:
            raise RuntimeError(f"status {status}: {said.strip()}")
        body = Path(out).read_bytes()
        code = int(wrote.decode()[-3:])
        if code // 100 != 2:
            raise TOLD.get(code, RuntimeError)(f"{code}: {body[:300]}")
        return body

    def answer(self, method, key, query="", lines=()):
        more = [word for line in lines for word in ("-H", line.replace(":", ": ", 1))]
        return self.asked(method, key, more=more, query=f"?{query}" if query else "")

    def put(self, key, data):
        self.asked("PUT", key, data, ["-T", self.path(data)])

    def get(self, key):
        return self.asked("GET", key)

    def part(self, key, first, count):
        return self.asked("GET", key, more=["-r", f"{first}-{first + count - 1}"])

    def get_unless(self, key, tag):
        return self.asked("GET", key, more=["-H", f"If-None-Match: {tag}"])

    def head(self, key, more=()):
        lines = self.asked("HEAD", key, more=more).decode().split("\r\n")
        sizes = [line.split(":")[1] for line in lines if line.lower().startswith("content-length:")]
        return int(sizes[-1])

    def head_if(self, key, tag):
        return self.head(key, ["-H", f"If-Match: {tag}"])

    def put_new(self, key, data):
        self.asked("PUT", key, data, ["-T", self.path(data), "-H", "If-None-Match: *"])

    def put_if(self, key, data, tag):
        self.asked("PUT", key, data, ["-T", self.path(data), "-H", f"If-Match: {tag}"])

    def delete_if(self, key, tag):
        self.asked("DELETE", key, more=["-H", f"If-Match: {tag}"])

    def put_parts(self, key, data):
        in_parts(self, key, data)

    def complete(self, key, upload, tags):
        listed = completion(self.dialect, tags)
        self.asked("POST", key, listed, ["-T", self.path(listed)], f"?uploadId={upload}")

    def send_part(self, key, upload, data, number=1):
        lines = self.path()
        self.asked("PUT", key, data, ["-T", self.path(data), "-D", lines], f"?partNumber={number}&uploadId={upload}")
        return re.search('\nETag: "([0-9a-f]{32})"', Path(lines).read_text())[1]
