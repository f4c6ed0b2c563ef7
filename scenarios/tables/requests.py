"""What the connection reads of a request, and which it refuses: the tables "Which operation a request asks for",
"Documents" and "By the connection" of docs/PROTOCOL.md. Requests are signed and whole."""

import base64
import hashlib
import json
import math
import re
from urllib.parse import unquote_to_bytes

from .bodies import Body
from .documents import JSON, S3
from .markup import NotXml, last_text, read, rows, trimmed
from .replies import METADATA, SYSTEM
from .sums import CHECKSUM, KINDS, is_met

SUB_RESOURCES = set(
    b"""accelerate acl analytics attributes cors delete encryption intelligent-tiering inventory legal-hold lifecycle
    location logging metrics notification object-lock ownershipControls policy policyStatus publicAccessBlock
    replication requestPayment restore retention select tagging torrent website""".split()
)
# What no bucket has, and by which code the dialect s3 says so of one that is read.
CONFIGURATIONS = {
    b"cors": "NoSuchCORSConfiguration",
    b"encryption": "ServerSideEncryptionConfigurationNotFoundError",
    b"lifecycle": "NoSuchLifecycleConfiguration",
    b"object-lock": "ObjectLockConfigurationNotFoundError",
    b"ownershipControls": "OwnershipControlsNotFoundError",
    b"policy": "NoSuchBucketPolicy",
    b"publicAccessBlock": "NoSuchPublicAccessBlockConfiguration",
    b"replication": "ReplicationConfigurationNotFoundError",
    b"tagging": "NoSuchTagSet",
    b"website": "NoSuchWebsiteConfiguration",
}
# Which sub-resources of a bucket that dialect answers, and which of a key, by the method.
OF_BUCKETS = {"GET": {b"location", *CONFIGURATIONS}, "POST": {b"delete"}}
OF_KEYS = {"GET": {b"tagging"}}
# What header lines ask of operations that the dialect s3 hasn't: how the names of such lines begin of those that write, and
# of those that read; and the names of others of those that write, with the values that ask for nothing more.
WRITES = {
    "create_bucket",
    "put_object",
    "copy_object",
    "create_multipart_upload",
    "upload_part",
    "upload_part_copy",
    "complete_multipart_upload",
}
UNSERVED_OF_WRITES = (
    "x-amz-server-side-encryption",
    "x-amz-copy-source-server-side-encryption-",
    "x-amz-object-lock-",
    "x-amz-grant-",
)
UNSERVED_OF_READS = ("x-amz-server-side-encryption-customer-",)
# Conditions for what a copy replaces, and for the date and the size of what is deleted.
UNSERVED_CONDITIONS = {
    "copy_object": ("if-match", "if-none-match"),
    "delete_object": ("x-amz-if-match-last-modified-time", "x-amz-if-match-size"),
}
UNSERVED_VALUES = {
    "x-amz-acl": {"private", "bucket-owner-full-control", "bucket-owner-read"},
    "x-amz-bucket-object-lock-enabled": {"false"},
    "x-amz-tagging": set(),
    "x-amz-tagging-directive": {"COPY"},
    "x-amz-website-redirect-location": set(),
}
# What makes an object of a storage class, and the classes of S3.
CLASSED = {"put_object", "copy_object", "create_multipart_upload"}
CLASSES = set(
    """STANDARD REDUCED_REDUNDANCY STANDARD_IA ONEZONE_IA INTELLIGENT_TIERING GLACIER DEEP_ARCHIVE OUTPOSTS GLACIER_IR SNOW
    EXPRESS_ONEZONE FSX_OPENZFS FSX_ONTAP""".split()
)
# The conditions of a key that is to be deleted with others, which aren't there; and how a document says yes and no.
CONDITIONS, TRUTHS = {"ETag", "LastModifiedTime", "Size"}, {"true": True, "false": False}
VERSION_ID, UPLOAD_ID = re.compile(rb"null|v[0-9a-f]{16}"), re.compile(rb"u[0-9a-f]{16}")
BUCKET_NAME, FOUR_NUMBERS = re.compile(rb"[a-z0-9][a-z0-9.-]{1,61}[a-z0-9]"), re.compile(rb"[0-9]+(\.[0-9]+){3}")


class Refused(Exception):
    """The connection refuses the message, and ends."""


def refuse(is_so, code="InvalidArgument"):
    if is_so:
        raise Refused(code)


def text_of(value, code="InvalidArgument"):
    """A value as a text."""
    try:
        return value.decode()
    except UnicodeDecodeError:
        raise Refused(code) from None


def as_told(value):
    """A value, whatever bytes it has."""
    return value.decode(errors="surrogateescape")


def token_of(value):
    """The text behind which a list goes on."""
    refuse(not re.fullmatch(rb"([0-9a-f]{2})*", value))
    return text_of(bytes.fromhex(value.decode()))


def number_of(digits):
    """A number of a JSON text without a point: a whole one where it is of 64 bits, and else another."""
    is_whole = digits != "-0" and -(2**63) <= int(digits) < 2**64
    return int(digits) if is_whole else finite(digits)


def finite(digits):
    if math.isinf(float(digits)):
        raise ValueError(digits)
    return float(digits)


def no_number(word):
    raise ValueError(word)


def json_of(body):
    """What a JSON text says, as `serde_json` reads it."""
    try:
        said = json.loads(body.decode(), parse_int=number_of, parse_float=finite, parse_constant=no_number)
        # Half of a pair of surrogates is no text.
        json.dumps(said, ensure_ascii=False).encode()
        return said
    except ValueError:
        raise Refused("MalformedBody") from None


def xml_of(body, root):
    """What an XML document with this root says, as `markup` reads it."""
    try:
        return read(body, root)
    except NotXml:
        raise Refused("MalformedXML") from None


def encoding_kept(value):
    """The codings of a body, but for that of its transfer."""
    return ",".join(it for it in value.split(",") if it.strip(" \t").lower() != "aws-chunked").strip(" \t")


class Request:
    """A request: its method, what its target names, the pairs of its query and of these its parameters, its header
    lines and its body. The server says in which dialect it reads it."""

    dialect, version = JSON, "1.1"

    def __init__(self, method, target, lines=(), body=Body()):
        self.path, _, query = target.partition("?")
        self.method, self.target, self.lines, self.body, self.asked = method, target, lines, body, {}
        # The checksum that was found of the body, by the name of its header.
        self.summed = {}
        pieces = [piece.partition("=") for piece in query.split("&") if piece]
        self.pairs = [(unquote_to_bytes(name), unquote_to_bytes(value)) for name, _, value in pieces]
        for name, value in self.pairs:
            self.asked.setdefault(name, value)
        bucket, _, key = self.path[1:].partition("/")
        self.bucket, self.key = unquote_to_bytes(bucket), unquote_to_bytes(key)

    # Header lines.

    def values(self, name):
        """The values of a header, by their names behind this beginning."""
        pairs = [line.partition(":") for line in self.lines]
        pairs = [(key.lower(), value.strip(" \t")) for key, _, value in pairs]
        return [(key.removeprefix(name), value) for key, value in pairs if key.startswith(name)]

    def all_of(self, name):
        """The values of the header lines of a name."""
        return [value for behind, value in self.values(name) if behind == ""]

    def line(self, name):
        """The value of the first header line of a name."""
        return next(iter(self.all_of(name)), None)

    def asks_for_more(self, operation):
        """Whether a line asks an operation for what isn't here."""
        if any(map(self.all_of, UNSERVED_CONDITIONS.get(operation, ()))):
            return True
        if operation in WRITES:
            others = (value not in said for name, said in UNSERVED_VALUES.items() for value in self.all_of(name))
            return any(map(self.values, UNSERVED_OF_WRITES)) or any(others)
        return operation == "get_object" and any(map(self.values, UNSERVED_OF_READS))

    def asks_for_no_class(self, operation):
        """Whether a line asks what makes an object for a storage class that is none."""
        return operation in CLASSED and not CLASSES.issuperset(self.all_of("x-amz-storage-class"))

    def checksums(self):
        """The checksums that its lines tell of its body, by their kinds."""
        is_read = is_s3(self) and self.method == "PUT"
        return [(kind, value) for kind, value in self.values(CHECKSUM) if is_read and kind in KINDS]

    def metadata(self):
        """The metadata of what is made, by its whole names: that of users, and in XML that of the system too."""
        user, system = {}, {}
        for name, value in self.values(""):
            kept = user if name.startswith(METADATA) else system if is_s3(self) and name in SYSTEM else {}
            kept[name] = f"{kept[name]},{value}" if name in kept else value
        system = {name: encoding_kept(value) if name == "content-encoding" else value for name, value in system.items()}
        size = sum(len(f"{name}{value}".encode()) - len(METADATA) for name, value in user.items())
        refuse(size > 2048, "MetadataTooLarge")
        refuse(any(len(value.encode()) > 255 or re.search("[\0-\x1f\x7f]", value) for value in system.values()))
        return user | {name: value for name, value in system.items() if value}

    def description(self):
        """The media type and the metadata of what is made."""
        content_type = self.line("content-type")
        refuse(content_type is not None and len(content_type.encode()) > 255)
        return "binary/octet-stream" if content_type is None else content_type, self.metadata()

    def tags_wanted(self):
        """The tags one of which the object has to have that a write replaces or deletes, where they are named."""
        return self.line("if-match") if is_s3(self) else None

    def condition(self):
        """Whether a write is to be refused where its key has an object, and the tags one of which that has to have."""
        found, tags = self.line("if-none-match"), self.tags_wanted()
        refuse(found not in (None, "*") or (found is not None and tags is not None), "NotImplemented")
        return found is not None, tags

    def replaces(self):
        """Whether a copy has the media type and the metadata of its own head, and not those of its source. JSON has
        neither such copies nor conditions of copies."""
        found, conditions = self.line("x-amz-metadata-directive"), self.values("x-amz-copy-source-if-")
        refuse(not is_s3(self) and (found not in (None, "COPY") or conditions), "NotImplemented")
        refuse(found not in (None, "COPY", "REPLACE"))
        return found == "REPLACE"

    def source(self):
        """The bucket and the key that a copy is of, and the id of the version, where there is one."""
        place, mark, version = self.line("x-amz-copy-source").partition("?")
        refuse(mark and not re.fullmatch(f"versionId=({VERSION_ID.pattern.decode()})", version))
        refuse(re.search("%(?![0-9A-Fa-f]{2})", place))
        bucket, key = (unquote_to_bytes(name) for name in place.removeprefix("/").partition("/")[::2])
        refuse(not is_bucket_name(bucket) or not 1 <= len(key) <= 1024)
        text_of(key)
        return bucket, key, version.removeprefix("versionId=") or None

    def source_range(self):
        """The first and the last of the bytes that a part is copied of, where they are named."""
        line = self.line("x-amz-copy-source-range")
        found = re.fullmatch("bytes=([0-9]{1,18})-([0-9]{1,18})", line or "")
        refuse(line is not None and not found)
        named = found and (int(found[1]), int(found[2]))
        refuse(named and named[0] > named[1])
        return named

    # Parameters.

    def has(self, *names):
        return any(name.encode() in self.asked for name in names)

    def value(self, name, read=text_of, otherwise=None):
        """A parameter, or what stands for one that isn't there."""
        return read(self.asked[name.encode()]) if self.has(name) else otherwise

    def count(self, name):
        """How many items a page has at most."""
        return min(self.digits(name, b"1000"), 1000)

    def digits(self, name, otherwise):
        """A number of 1 to 9 digits."""
        found = self.value(name, bytes, otherwise)
        refuse(not re.fullmatch(rb"[0-9]{1,9}", found))
        return int(found)

    def is_encoded(self):
        """Whether a list is to tell texts UriEncoded."""
        found = None if self.dialect == JSON else self.value("encoding-type", bytes)
        refuse(found not in (None, b"url"))
        return found is not None

    def wants_owners(self):
        """Whether a list is to tell whom objects belong to."""
        return self.dialect != JSON and self.value("fetch-owner", bytes) == b"true"

    def version_id(self, name="versionId"):
        found = self.value(name, bytes)
        refuse(found is not None and not VERSION_ID.fullmatch(found))
        return found and found.decode()

    def overrides(self):
        """The header lines that a read wants in the place of those that are kept, by their names."""
        names = (*SYSTEM, "content-type") if is_s3(self) else ()
        found = {name: self.value(f"response-{name}", as_told) for name in sorted(names)}
        found = {name: value for name, value in found.items() if value}
        refuse(any(re.search("[\0-\x1f\x7f]", value) for value in found.values()))
        refuse(sum(len(name) + len(value.encode(errors="surrogateescape")) for name, value in found.items()) > 2048)
        return found

    def upload_id(self):
        found = self.value("uploadId", bytes)
        refuse(not UPLOAD_ID.fullmatch(found), "NoSuchUpload")
        return found.decode()

    def part_number(self):
        refuse(not self.has("partNumber") or not self.has("uploadId"))
        found = self.value("partNumber", bytes)
        refuse(not re.fullmatch(rb"[0-9]{1,5}", found) or not 1 <= int(found) <= 10_000)
        return int(found)

    # Bodies.

    def received(self):
        """The body, which has to be the one that Content-MD5 and a checksum tell, where they are there."""
        told, body = self.line("content-md5"), self.body.bytes()
        refuse(told is not None and base64.b64decode(told) != hashlib.md5(body).digest(), "BadDigest")
        refuse(not all(is_met(kind, value, body) for kind, value in self.checksums()), "BadDigest")
        self.summed = {f"{CHECKSUM}{kind}": value for kind, value in self.checksums()}
        return self.body

    def wants_checksums(self):
        """Whether a read wants to be told checksums."""
        return is_s3(self) and self.line("x-amz-checksum-mode") == "ENABLED"

    def versioning(self):
        """The versioning that a bucket gets."""
        body = self.received().bytes()
        if self.dialect == JSON:
            said, fault = json_of(body), "MalformedBody"
            said = said.get("Status") if isinstance(said, dict) else None
        else:
            said, fault = last_text(xml_of(body, "VersioningConfiguration"), "Status"), "MalformedXML"
        refuse(said not in ("Enabled", "Suspended"), fault)
        return said

    def judge_location(self):
        """Refuses a bucket that is to be made elsewhere."""
        body = b"" if self.dialect == JSON else self.received().bytes()
        said = last_text(xml_of(body, "CreateBucketConfiguration"), "LocationConstraint") if body else None
        refuse(said not in (None, "", "us-east-1"), "InvalidLocationConstraint")

    def listed_parts(self):
        """The numbers and the tags of the parts that a completion lists."""
        body = self.received().bytes()
        parts = parts_in_json(json_of(body)) if self.dialect == JSON else parts_in_xml(body)
        refuse(not all(1 <= number <= 10_000 for number, _ in parts))
        return [(number, tag.strip('"')) for number, tag in parts]

    def is_protected(self):
        """Whether its head says what its body is: by the MD5, or by a hash, which is there where it isn't presigned."""
        return self.line("content-md5") is not None or not is_presigned(self)

    def deletion(self):
        """Whether only faults are to be told of the objects that are to be deleted, and these."""
        refuse(not self.is_protected(), "InvalidRequest")
        said = xml_of(self.received().bytes(), "Delete")
        quiet = last_text(said, "Quiet")
        is_quiet = False if quiet is None else TRUTHS.get(trimmed(quiet))
        refuse(is_quiet is None, "MalformedXML")
        return is_quiet, objects_in_xml(said)


def parts_in_json(said):
    parts = said.get("Parts") if isinstance(said, dict) else None
    refuse(not isinstance(parts, list) or not 1 <= len(parts) <= 10_000, "MalformedBody")
    for part in parts:
        refuse(not isinstance(part, dict), "MalformedBody")
        refuse(not isinstance(part.get("ETag"), str) or type(part.get("PartNumber")) is not int, "MalformedBody")
    return [(part["PartNumber"], part["ETag"]) for part in parts]


def parts_in_xml(body):
    parts = rows(xml_of(body, "CompleteMultipartUpload"), "Part")
    refuse(not 1 <= len(parts) <= 10_000, "MalformedXML")
    told = [(trimmed(last_text(part, "PartNumber") or ""), last_text(part, "ETag")) for part in parts]
    refuse(not all(re.fullmatch("[0-9]+", number) and tag is not None for number, tag in told), "MalformedXML")
    # Of a number with many digits the first say that it is too large.
    return [(int(number.lstrip("0")[:9] or "0"), tag) for number, tag in told]


def objects_in_xml(said):
    """The objects that are to be deleted: of each its key, the id of its version, where one is named, and its fault, if
    it has one."""
    objects = rows(said, "Object")
    refuse(not 1 <= len(objects) <= 1000 or not all(last_text(it, "Key") for it in objects), "MalformedXML")
    refuse(any(field.name in CONDITIONS for it in objects for field in it), "NotImplemented")
    named = [(last_text(it, "Key").encode(), last_text(it, "VersionId")) for it in objects]
    return [(key, name, fault_of(key, name)) for key, name in named]


def fault_of(key, name):
    """Why an object can't be deleted that is named so, if it can't."""
    if len(key) > 1024:
        return "KeyTooLongError"
    return None if name is None or VERSION_ID.fullmatch(name.encode()) else "InvalidArgument"


def always(_request):
    return True


def has(*names):
    return lambda request: request.has(*names)


def is_bucket_name(name):
    return BUCKET_NAME.fullmatch(name) and b".." not in name and not FOUR_NUMBERS.fullmatch(name)


def is_s3(request):
    return request.dialect == S3


def is_presigned(request):
    return request.has("X-Amz-Signature")


def has_in_s3(*names):
    return lambda request: is_s3(request) and request.has(*names)


def is_copy(request):
    return request.line("x-amz-copy-source") is not None


def is_part(request):
    return request.has("partNumber", "uploadId")


# The method, whether a key is named, where, and the operation, which is none where S3 has one that isn't here, or not
# in this dialect.
OPERATIONS = [
    ("PUT", False, has("versioning"), "put_bucket_versioning"),
    ("GET", False, has("versioning"), "get_bucket_versioning"),
    ("GET", False, has("uploads"), "list_multipart_uploads"),
    ("GET", False, has("versions"), "list_object_versions"),
    ("GET", False, has_in_s3("location"), "get_bucket_location"),
    ("GET", False, has_in_s3(*(name.decode() for name in CONFIGURATIONS)), "get_bucket_configuration"),
    ("GET", False, lambda request: request.value("list-type", bytes) == b"2", "list_objects_v2"),
    ("GET", False, lambda request: is_s3(request) and not request.has("list-type"), "list_objects"),
    ("GET", False, always, None),
    ("POST", False, has_in_s3("delete"), "delete_objects"),
    ("POST", False, always, None),
    ("PUT", False, always, "create_bucket"),
    ("HEAD", False, always, "head_bucket"),
    ("DELETE", False, always, "delete_bucket"),
    ("PUT", True, lambda request: is_part(request) and is_copy(request) and is_s3(request), "upload_part_copy"),
    ("PUT", True, lambda request: is_part(request) and is_copy(request), None),
    ("PUT", True, is_part, "upload_part"),
    ("PUT", True, is_copy, "copy_object"),
    ("PUT", True, always, "put_object"),
    ("GET", True, has_in_s3("tagging"), "get_object_tagging"),
    ("GET", True, has("uploadId"), "list_parts"),
    ("GET", True, has("partNumber"), None),
    ("HEAD", True, has("partNumber"), None),
    ("GET", True, always, "get_object"),
    ("HEAD", True, always, "get_object"),
    ("DELETE", True, has("uploadId"), "abort_multipart_upload"),
    ("DELETE", True, always, "delete_object"),
    ("POST", True, has("uploads"), "create_multipart_upload"),
    ("POST", True, has("uploadId"), "complete_multipart_upload"),
]


def operation(request):
    """The operation that a request asks for: the first row that applies."""
    answered = OF_KEYS if request.key else OF_BUCKETS
    is_answered = is_s3(request) and request.path != "/"
    lacking = SUB_RESOURCES - (answered.get(request.method, set()) if is_answered else set())
    refuse(lacking & set(request.asked), "NotImplemented")
    if request.path == "/":
        refuse(request.method != "GET", "MethodNotAllowed")
        return "list_buckets"
    refuse(not is_bucket_name(request.bucket), "InvalidBucketName")
    text_of(request.key, "InvalidURI")
    refuse(len(request.key) > 1024, "KeyTooLongError")
    for method, is_key, is_so, found in OPERATIONS:
        if method == request.method and is_key == (request.key != b"") and is_so(request):
            refuse(found is None, "NotImplemented")
            refuse(is_s3(request) and request.asks_for_more(found), "NotImplemented")
            refuse(is_s3(request) and request.asks_for_no_class(found), "InvalidStorageClass")
            return found
    raise Refused("MethodNotAllowed")
