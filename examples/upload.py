#!/usr/bin/env python3
"""Puts a file into a bucket in parts, over several connections at once, with nothing but Python, and reads it back.

    examples/upload.py [--part MIB] [--connections N] HOST:PORT BUCKET KEY FILE

An object that is larger than a body may be is sent so: the upload begins, its parts are sent in any order, and a
document that lists them with their tags completes it. Where something fails, the upload is aborted, and nothing of it
is left. `signing.py` beside this file signs the requests.
"""

import argparse
import contextlib
import hashlib
import http.client
import json
import sys
import threading
import urllib.parse
from concurrent.futures import ThreadPoolExecutor
from pathlib import Path

from signing import Signer, first_key, sha256

KEYS = Path(__file__).resolve().parent / "keys"
MIB = 1 << 20
# Seconds that the server may take for one answer.
PATIENCE = 120


class Refused(Exception):
    """The server refuses a request."""


class Client:
    """Asks a server, over a connection of its own in each thread."""

    def __init__(self, asked):
        self.asked, self.key, self.kept = asked, first_key(asked.keys), threading.local()

    def ask(self, method, target, data=b""):
        """The reply to a request, whose body isn't read yet."""
        signer = Signer(*self.key, self.asked.region)
        lines = signer.signed(method, target, {"host": self.asked.address}, sha256(data))
        if not hasattr(self.kept, "connection"):
            self.kept.connection = http.client.HTTPConnection(self.asked.address, timeout=PATIENCE)
        self.kept.connection.request(method, target, data or None, lines)
        reply = self.kept.connection.getresponse()
        if reply.status // 100 != 2:
            refusal = json.load(reply)
            raise Refused(f"{method} {target}: {refusal['Code']}: {refusal['Message']}")
        return reply

    def document(self, method, target, data=b""):
        """The document that a request is answered."""
        return json.load(self.ask(method, target, data))


def parts_of(path, size):
    """The numbers of a file's parts, from 1, and where each begins. A file without a byte has one, without a byte."""
    return list(enumerate(range(0, max(path.stat().st_size, 1), size), 1))


def send(client, path, size, target, part):
    """Sends a part, and gives how the completion lists it: the tag has to be that of its bytes."""
    number, first = part
    with path.open("rb") as file:
        file.seek(first)
        data = file.read(size)
    reply = client.ask("PUT", f"{target}&partNumber={number}", data)
    reply.read()
    tag = reply.headers["ETag"]
    if tag != f'"{hashlib.md5(data).hexdigest()}"':
        raise Refused(f"part {number} is told to be other bytes")
    return {"ETag": tag, "PartNumber": number}


def upload(client, asked, path, target):
    """Sends the file in parts, some at a time. Gives how many there were."""
    name = client.document("POST", f"{target}?uploads")["UploadId"]
    of_upload, size = f"{target}?uploadId={name}", asked.part * MIB
    try:
        with ThreadPoolExecutor(asked.connections) as pool:
            parts = list(pool.map(lambda part: send(client, path, size, of_upload, part), parts_of(path, size)))
        client.document("POST", of_upload, json.dumps({"Parts": parts}).encode())
    except BaseException:
        # What went wrong before is what is told.
        with contextlib.suppress(Refused, OSError, http.client.HTTPException):
            client.ask("DELETE", of_upload).read()
        raise
    return len(parts)


def comes_back(client, path, target):
    """Whether a get gives the bytes of the file."""
    reply = client.ask("GET", target)
    with path.open("rb") as file:
        while piece := reply.read(MIB):
            if piece != file.read(len(piece)):
                return False
        return file.read(1) == b""


def main():
    words = argparse.ArgumentParser(description=__doc__, formatter_class=argparse.RawDescriptionHelpFormatter)
    words.add_argument("address", metavar="HOST:PORT")
    words.add_argument("bucket", metavar="BUCKET")
    words.add_argument("key", metavar="KEY")
    words.add_argument("file", metavar="FILE", type=Path)
    words.add_argument("--part", type=int, default=8, metavar="MIB")
    words.add_argument("--connections", type=int, default=4)
    words.add_argument("--keys", default=KEYS)
    words.add_argument("--region", default="us-east-1")
    asked = words.parse_args()
    client, target = Client(asked), f"/{asked.bucket}/{urllib.parse.quote(asked.key, safe='/~')}"
    try:
        count = upload(client, asked, asked.file, target)
        if not comes_back(client, asked.file, target):
            raise Refused("other bytes came back")
    except (Refused, OSError, http.client.HTTPException) as error:
        sys.exit(f"upload.py: {error}")
    print(f"{asked.file.stat().st_size} bytes in {count} parts: they came back")


if __name__ == "__main__":
    main()
