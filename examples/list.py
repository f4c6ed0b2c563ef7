#!/usr/bin/env python3
"""Lists the objects of a bucket, page by page, with nothing but Python: a page is a JSON document.

    examples/list.py [--prefix P] [--delimiter D] [--start-after K] [--page N] HOST:PORT BUCKET

prints a line for each key, with the object's size in front of it. With a delimiter, keys that are alike up to the
first of it after the prefix are one line, with `-` in the place of a size. `--page` says how many items the server is
asked for at once. `signing.py` beside this file signs the requests.
"""

import argparse
import json
import sys
import urllib.error
import urllib.parse
import urllib.request
from pathlib import Path

from signing import Signer, first_key, sha256

KEYS = Path(__file__).resolve().parent / "keys"
# The requests are signed for the server itself, so that no proxy is asked.
DIRECT = urllib.request.build_opener(urllib.request.ProxyHandler({}))


def document(asked, target):
    """The document that a GET of this target is answered."""
    signer = Signer(*first_key(asked.keys), asked.region)
    lines = signer.signed("GET", target, {"host": asked.address}, sha256(b""))
    request = urllib.request.Request(f"http://{asked.address}{target}", headers=lines)
    try:
        with DIRECT.open(request) as reply:
            return json.load(reply)
    except urllib.error.HTTPError as error:
        refusal = json.load(error)
        sys.exit(f"list.py: {refusal['Code']}: {refusal['Message']}")


def pages(asked):
    """The pages of the list: each but the last tells the token after which the next one goes on."""
    query = {"list-type": "2", "prefix": asked.prefix, "delimiter": asked.delimiter}
    query |= {} if asked.start_after is None else {"start-after": asked.start_after}
    query |= {} if asked.page is None else {"max-keys": asked.page}
    while True:
        text = urllib.parse.urlencode(query, quote_via=urllib.parse.quote, safe="")
        page = document(asked, f"/{asked.bucket}?{text}")
        yield page
        if not page["IsTruncated"]:
            return
        query["continuation-token"] = page["NextContinuationToken"]


def lines(page):
    """The lines of a page, in the order of the keys' bytes."""
    items = [(row["Key"], row["Size"]) for row in page["Contents"]]
    items += [(row["Prefix"], "-") for row in page["CommonPrefixes"]]
    return [f"{size:>12} {key}" for key, size in sorted(items, key=lambda item: item[0].encode())]


def main():
    words = argparse.ArgumentParser(description=__doc__, formatter_class=argparse.RawDescriptionHelpFormatter)
    words.add_argument("address", metavar="HOST:PORT")
    words.add_argument("bucket", metavar="BUCKET")
    words.add_argument("--prefix", default="")
    words.add_argument("--delimiter", default="")
    words.add_argument("--start-after")
    words.add_argument("--page")
    words.add_argument("--keys", default=KEYS)
    words.add_argument("--region", default="us-east-1")
    asked = words.parse_args()
    for page in pages(asked):
        for line in lines(page):
            print(line)


if __name__ == "__main__":
    main()
