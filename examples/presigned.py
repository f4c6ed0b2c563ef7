#!/usr/bin/env python3
"""Lets somebody without a key put an object, and get it, for an hour, with nothing but Python.

    examples/presigned.py [--keys FILE] HOST:PORT BUCKET KEY FILE

`put` and `get` are all that the other side needs: they know an address, and no secret. `signing.py` beside this file
signs the addresses.
"""

import argparse
import sys
import urllib.parse
import urllib.request
from pathlib import Path

from signing import Signer, first_key

KEYS = Path(__file__).resolve().parent / "keys"
HOUR = 3600
# The addresses are signed for the server itself, so that no proxy is asked.
DIRECT = urllib.request.build_opener(urllib.request.ProxyHandler({}))


def address_for(asked, method):
    """An address that may be asked by this method, by whoever has it, for an hour."""
    target = f"/{asked.bucket}/{urllib.parse.quote(asked.key, safe='/~')}"
    signer = Signer(*first_key(asked.keys), asked.region)
    return f"http://{asked.address}{signer.presigned(method, target, asked.address, HOUR)}"


def put(address, data):
    DIRECT.open(urllib.request.Request(address, data, method="PUT")).close()


def get(address):
    with DIRECT.open(address) as reply:
        return reply.read()


def main():
    words = argparse.ArgumentParser(description=__doc__, formatter_class=argparse.RawDescriptionHelpFormatter)
    words.add_argument("address", metavar="HOST:PORT")
    words.add_argument("bucket", metavar="BUCKET")
    words.add_argument("key", metavar="KEY")
    words.add_argument("file", metavar="FILE", type=Path)
    words.add_argument("--keys", default=KEYS)
    words.add_argument("--region", default="us-east-1")
    asked = words.parse_args()
    to_put, to_get = address_for(asked, "PUT"), address_for(asked, "GET")
    print(f"put to {to_put}\nget from {to_get}")
    put(to_put, asked.file.read_bytes())
    if get(to_get) != asked.file.read_bytes():
        sys.exit("presigned.py: other bytes came back")
    print(f"{asked.file.stat().st_size} bytes: they came back")


if __name__ == "__main__":
    main()
