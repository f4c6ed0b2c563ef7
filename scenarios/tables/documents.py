"""Documents by their facts, in both dialects: compact JSON, and XML with the elements of the Amazon S3 API Reference,
in the order of its response syntaxes. Facts are the members of the JSON document. What XML 1.0 has characters for is
read back by Python's own reader."""

import json
import re
from urllib.parse import quote
from xml.etree import ElementTree

JSON, S3 = "json", "s3"
CONTENT_TYPES = {JSON: "application/json", S3: "application/xml"}
DECLARATION = '<?xml version="1.0" encoding="UTF-8"?>\n'
NAMESPACE = "http://s3.amazonaws.com/doc/2006-03-01/"
# What stands in each element, in its order. An element that has no fact isn't there.
ORDER = {
    "ListAllMyBucketsResult": "Buckets Owner",
    "Bucket": "CreationDate Name",
    "Owner": "ID",
    "ListBucketResult": """IsTruncated Marker NextMarker Contents Name Prefix Delimiter MaxKeys CommonPrefixes
        EncodingType KeyCount ContinuationToken NextContinuationToken StartAfter""",
    "Contents": "ETag Key LastModified Owner Size StorageClass",
    "CommonPrefixes": "Prefix",
    "ListVersionsResult": """IsTruncated KeyMarker VersionIdMarker NextKeyMarker NextVersionIdMarker Versions Name
        Prefix Delimiter MaxKeys CommonPrefixes EncodingType""",
    "Version": "ETag IsLatest Key LastModified Owner Size StorageClass VersionId",
    "DeleteMarker": "IsLatest Key LastModified Owner VersionId",
    "ListMultipartUploadsResult": """Bucket KeyMarker UploadIdMarker NextKeyMarker Prefix Delimiter NextUploadIdMarker
        MaxUploads IsTruncated Uploads CommonPrefixes EncodingType""",
    "Upload": "Initiated Key Owner StorageClass UploadId",
    "ListPartsResult": """Bucket Key UploadId PartNumberMarker NextPartNumberMarker MaxParts IsTruncated Parts Owner
        StorageClass""",
    "Part": "ETag LastModified PartNumber Size",
    "InitiateMultipartUploadResult": "Bucket Key UploadId",
    "CompleteMultipartUploadResult": "Location Bucket Key ETag",
    "CopyObjectResult": "ETag LastModified",
    "CopyPartResult": "ETag LastModified",
    "VersioningConfiguration": "Status",
    "Tagging": "TagSet",
    "TagSet": "",
    "DeleteResult": "Results",
    "Deleted": "DeleteMarker DeleteMarkerVersionId Key VersionId",
    # A refusal tells no key and no version; the error of a key tells no request.
    "Error": "Code Key Message VersionId RequestId",
}
# The document of which members a JSON document has, or would have: the first row whose names are all there.
ROOTS = {
    "Error": "Code Message",
    "ListAllMyBucketsResult": "Buckets",
    "ListBucketResult": "Contents",
    "ListVersionsResult": "Versions",
    "ListMultipartUploadsResult": "Uploads",
    "ListPartsResult": "Parts",
    "LocationConstraint": "LocationConstraint",
    "DeleteResult": "Results",
    "InitiateMultipartUploadResult": "Bucket Key UploadId",
    "CompleteMultipartUploadResult": "Bucket ETag Key",
    "CopyObjectResult": "ETag LastModified",
    "Tagging": "TagSet",
    "VersioningConfiguration": "",
}
# What XML tells that isn't a fact of JSON: whom all belongs to, and how it is stored.
OWNED, STORED = {"Owner": {"ID": "s3d"}}, {"StorageClass": "STANDARD"}
ADDED = {
    "ListAllMyBucketsResult": OWNED,
    "Contents": STORED,
    "Version": OWNED | STORED,
    "DeleteMarker": OWNED,
    "Upload": OWNED | STORED,
    "ListPartsResult": OWNED | STORED,
}
# What `encoding-type=url` asks to be UriEncoded.
ENCODED = {"Key", "Prefix", "Delimiter", "Marker", "NextMarker", "StartAfter", "KeyMarker", "NextKeyMarker"}
# What stands as a reference: a carriage return, and what XML 1.0 has no character for, which its readers refuse.
REFERRED, UNREADABLE = re.compile("[\0-\x08\x0b-\x1f\ufffe\uffff]"), re.compile("&#x(?!d;)")


def uri_encoded(text):
    """A text UriEncoded, with its slashes."""
    return quote(text, safe="-._~/")


def url_encoded(facts):
    """The facts of a list as `encoding-type=url` asks for them."""

    def told(name, value):
        if isinstance(value, list):
            return [{key: told(key, text) for key, text in row.items()} for row in value]
        return uri_encoded(value) if name in ENCODED else value

    return {name: told(name, value) for name, value in facts.items()} | {"EncodingType": "url"}


def in_json(facts):
    return json.dumps(facts, ensure_ascii=False, sort_keys=True, separators=(",", ":"))


# XML. An element is a pair: its name, and its text or the elements in it.


def element(name, value):
    """The elements that tell a fact."""
    if name == "Buckets":
        return [(name, [it for row in value for it in element("Bucket", row)])]
    if isinstance(value, list):
        return [it for row in value for it in element(row_name(name, row), row)]
    if isinstance(value, dict):
        return [(name, elements(name, value))]
    return [(name, str(value).lower() if isinstance(value, bool) else str(value))]


def row_name(name, row):
    """The name of the element of a row, by that of the member that has all of them."""
    if name == "Versions":
        return "DeleteMarker" if row["DeleteMarker"] else "Version"
    if name == "Results":
        return "Error" if "Code" in row else "Deleted"
    return {"Uploads": "Upload", "Parts": "Part"}.get(name, name)


def elements(name, facts):
    """What stands in an element of this name."""
    told = facts | ADDED.get(name, {})
    return [it for child in ORDER[name].split() if child in told for it in element(child, told[child])]


def escaped(text):
    """A text as it stands in an element."""
    for letter, entity in {"&": "&amp;", "<": "&lt;", ">": "&gt;", '"': "&quot;"}.items():
        text = text.replace(letter, entity)
    return REFERRED.sub(lambda found: f"&#x{ord(found[0]):x};", text)


def spelled(pair):
    name, inner = pair
    text = escaped(inner) if isinstance(inner, str) else "".join(map(spelled, inner))
    return f"<{name}>{text}</{name}>"


def read_back(node):
    """An element of Python's reader as a pair."""
    inner = [read_back(child) for child in node]
    return node.tag.rpartition("}")[2], inner or node.text or ""


def is_same(one, other):
    """Whether two elements tell the same. One with nothing in it is read as one with the empty text."""
    if isinstance(one[1], str) or isinstance(other[1], str):
        return one[0] == other[0] and (one[1] or "") == (other[1] or "")
    return one[0] == other[0] and len(one[1]) == len(other[1]) and all(map(is_same, one[1], other[1]))


def in_xml(root, facts):
    """The text of a document with this root, which may be the one element there is."""
    told = (root, facts[root] if root in facts else elements(root, facts))
    space = "" if root == "Error" else f' xmlns="{NAMESPACE}"'
    text = DECLARATION + spelled(told).replace(f"<{root}>", f"<{root}{space}>", 1)
    if not UNREADABLE.search(text):
        assert is_same(read_back(ElementTree.fromstring(text.encode())), told), text
    return text


def document(dialect, facts, number, root=None):
    """A document in a dialect, where the answer has this number. Where no root is named, its members tell it."""
    if dialect == JSON:
        return in_json(facts)
    root = root or next(root for root, names in ROOTS.items() if all(name in facts for name in names.split()))
    if root == "Error":
        facts = facts | {"RequestId": number}
    if root == "CompleteMultipartUploadResult":
        facts = facts | {"Location": f"/{facts['Bucket']}/{uri_encoded(facts['Key'])}"}
    return in_xml(root, facts)
