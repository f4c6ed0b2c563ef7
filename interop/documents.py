"""The documents of the server's two dialects, for clients of `interop/run` that read and write them by themselves, and
a connection that knows what is in the bucket whatever a client tells."""

import http.client
import json
import sys
import xml.etree.ElementTree as ElementTree
from urllib.parse import unquote

from server import BUCKET, ID, REGION, SECRET, TOP

sys.path.append(str(TOP / "examples"))

from signing import Signer, encoded, sha256  # noqa: E402

JSON, S3 = DIALECTS = ("json", "s3")
SPACE = "http://s3.amazonaws.com/doc/2006-03-01/"
# Seconds that one request may take.
PATIENCE = 120


def root_of(body, name):
    """The root of a document in XML, which has to have this name. The names of its elements are cut to their own
    part."""
    root = ElementTree.fromstring(body)
    for element in root.iter():
        if not element.tag.startswith(f"{{{SPACE}}}"):
            raise ValueError(f"{element.tag} isn't of the namespace of S3")
        element.tag = element.tag.rpartition("}")[2]
    if root.tag != name:
        raise ValueError(f"the root is {root.tag}, and not {name}")
    return root


def row_of(element, is_escaped):
    """A row of a list, by the names of its fields."""
    row = {field.tag: field.text or "" for field in element}
    if is_escaped:
        row |= {name: unquote(row[name], errors="strict") for name in ("Key", "Prefix") if name in row}
    return row | ({"Size": int(row["Size"])} if "Size" in row else {})


def page_of(dialect, body):
    """A page of objects, as it is told in JSON."""
    if dialect == JSON:
        return json.loads(body)
    root = root_of(body, "ListBucketResult")
    page, is_escaped = {element.tag: element.text or "" for element in root}, root.findtext("EncodingType") == "url"
    for name in ("Contents", "CommonPrefixes"):
        page[name] = [row_of(element, is_escaped) for element in root.findall(name)]
    if is_escaped and "NextMarker" in page:
        page["NextMarker"] = unquote(page["NextMarker"], errors="strict")
    return page | {"IsTruncated": page["IsTruncated"] == "true"}


def upload_of(dialect, body):
    """The id of an upload that was begun."""
    if dialect == JSON:
        return json.loads(body)["UploadId"]
    return root_of(body, "InitiateMultipartUploadResult").findtext("UploadId")


def copied_tag(body):
    """The tag of a part that was copied."""
    return root_of(body, "CopyPartResult").findtext("ETag")


def location_of(body):
    """The region that a bucket's location tells. It has no text where that is the first one that S3 had."""
    return root_of(body, "LocationConstraint").text or REGION


def completion(dialect, tags):
    """The document of a completion, by parts from the first one on with these tags."""
    if dialect == JSON:
        rows = [{"ETag": tag, "PartNumber": number} for number, tag in enumerate(tags, 1)]
        return json.dumps({"Parts": rows}).encode()
    root = ElementTree.Element("CompleteMultipartUpload", xmlns=SPACE)
    for number, tag in enumerate(tags, 1):
        part = ElementTree.SubElement(root, "Part")
        ElementTree.SubElement(part, "PartNumber").text = str(number)
        ElementTree.SubElement(part, "ETag").text = tag
    return ElementTree.tostring(root)


def page_query(dialect, prefix, delimiter, page=None, after=None, version=2):
    """The query of a page of objects, by this version of the call, as it is signed. In XML keys are asked for in
    escapes, since a control byte can't be read there."""
    asked = {"delimiter": delimiter, "encoding-type": "url" if dialect == S3 else None}
    asked |= {"max-keys": page, "prefix": prefix}
    asked |= {"list-type": 2, "continuation-token": after} if version == 2 else {"marker": after}
    return "&".join(f"{name}={encoded(str(value))}" for name, value in sorted(asked.items()) if value is not None)


class Direct:
    """A connection that is kept, whose requests are signed by `examples/signing.py`. It fills buckets for checks, and
    tells what a client left there."""

    def __init__(self, address, dialect):
        self.address, self.dialect = address, dialect
        self.connection = http.client.HTTPConnection(address, timeout=PATIENCE)

    def asked(self, method, key, body=b"", query="", bucket=BUCKET, lines=None):
        """The header lines and the body that a request is answered. Without a bucket it is one of the service."""
        target = encoded(f"/{bucket}/{key}" if bucket else "/", "/") + (f"?{query}" if query else "")
        lines = Signer(ID, SECRET, REGION).signed(method, target, {"host": self.address, **(lines or {})}, sha256(body))
        self.connection.request(method, target, body, lines)
        reply = self.connection.getresponse()
        told = reply.read()
        if reply.status // 100 != 2:
            raise RuntimeError(f"{method} {target} is answered {reply.status}: {told[:300]}")
        return reply.headers, told

    def make_bucket(self, bucket):
        self.asked("PUT", "", bucket=bucket)

    def is_bucket(self, bucket):
        """Whether there is such a bucket."""
        told = root_of(self.asked("GET", "", bucket="")[1], "ListAllMyBucketsResult")
        return bucket in [name.text for name in told.iter("Name")]

    def put(self, key, data, bucket=BUCKET, lines=None):
        self.asked("PUT", key, data, bucket=bucket, lines=lines)

    def get(self, key, bucket=BUCKET):
        return self.asked("GET", key, bucket=bucket)[1]

    def told(self, key, bucket=BUCKET):
        """What is told of an object: its media type, its metadata by its names, its tag and when it was changed."""
        lines = self.asked("HEAD", key, bucket=bucket)[0]
        pairs = [(name.lower().removeprefix("x-amz-meta-"), name, value) for name, value in lines.items()]
        metadata = {short: value for short, name, value in pairs if short != name.lower()}
        return lines["Content-Type"], metadata, lines["ETag"], lines["Last-Modified"]

    def begin(self, key):
        return upload_of(self.dialect, self.asked("POST", key, query="uploads=")[1])

    def send_part(self, key, upload, data, number):
        return self.asked("PUT", key, data, f"partNumber={number}&uploadId={upload}")[0]["ETag"]

    def complete(self, key, upload, tags):
        self.asked("POST", key, completion(self.dialect, tags), f"uploadId={upload}")

    def keys(self, prefix, bucket=BUCKET):
        """All keys that begin so."""
        keys, page = [], {"IsTruncated": True}
        while page["IsTruncated"]:
            query = page_query(self.dialect, prefix, "", after=page.get("NextContinuationToken"))
            page = page_of(self.dialect, self.asked("GET", "", query=query, bucket=bucket)[1])
            keys += [row["Key"] for row in page["Contents"]]
        return keys

    def objects(self, prefix, bucket=BUCKET):
        """The objects whose keys begin so, by what comes after that: but for those that a disk keeps for folders."""
        keys = [key for key in self.keys(prefix, bucket) if not key.endswith("/")]
        return {key.removeprefix(prefix): self.get(key, bucket) for key in keys}
