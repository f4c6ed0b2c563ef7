"""What the connections of `checks/growths` send, and what they are answered, reply by reply."""

import re

from client import ID, REGION, SECRET, head_of
from signing import CHUNKED, Signer, length_in_chunks, sha256

MOMENT = 1369353600
INTERNAL_ERROR = (
    b"HTTP/1.1 500 Internal Server Error\r\nConnection: close\r\nContent-Length: 0\r\n"
    b"x-amz-request-id: 0000000000000000\r\n\r\n"
)
# What the 14 messages are answered.
STATUSES = [200, 200, 200, 200, 204, 404, 200, 200, 200, 200, 200, 200, 200, 200]
# So many come before the first that names the upload.
BEFORE_PARTS = 7
TAGS = {1: "5d41402abc4b2a76b9719d911017c592", 2: "9033e0e305f247c0c3c80d0c7848c8b3"}


def signed(method, target, body=b"", **more):
    """One signed request, with more header lines."""
    lines = {"host": "localhost", **{name.replace("_", "-"): value for name, value in more.items()}}
    lines = Signer(ID, SECRET, REGION, MOMENT).signed(method, target, lines, sha256(body))
    return head_of(method, target, lines, len(body)) + body


def in_chunks(target, data, size):
    """A signed put whose body comes in signed chunks."""
    signer = Signer(ID, SECRET, REGION, MOMENT)
    told = {"host": "localhost", "x-amz-decoded-content-length": str(len(data))}
    lines = signer.signed("PUT", target, told, CHUNKED)
    return head_of("PUT", target, lines, length_in_chunks(data, size)) + signer.in_chunks(lines, data, size)


def documents(dialect):
    """The bodies that enable versioning, and that complete the upload by its parts `hello` and `!`."""
    if dialect == "json":
        parts = ",".join(f'{{"ETag":"{tag}","PartNumber":{number}}}' for number, tag in TAGS.items())
        return b'{"Status":"Enabled"}', f'{{"Parts":[{parts}]}}'.encode()
    parts = "".join(f"<Part><PartNumber>{number}</PartNumber><ETag>{tag}</ETag></Part>" for number, tag in TAGS.items())
    enabled = b"<VersioningConfiguration><Status>Enabled</Status></VersioningConfiguration>"
    return enabled, f"<CompleteMultipartUpload>{parts}</CompleteMultipartUpload>".encode()


def lists(bucket):
    """Three lists of a bucket."""
    return [signed("GET", f"/{bucket}?{what}") for what in ("list-type=2", "versions", "uploads")]


def script(dialect, upload):
    """The 14 messages, where the upload has this id."""
    enabled, completion = documents(dialect)
    return [
        signed("PUT", "/pail/a", b"hello", content_type="text/plain", x_amz_meta_colour="blue"),
        in_chunks("/pail/b", bytes(range(200)), 90),
        signed("GET", "/pail/a"),
        signed("PUT", "/pail?versioning", enabled),
        signed("DELETE", "/pail/a"),
        signed("GET", "/pail/a"),
        signed("POST", "/pail/c?uploads", content_type="text/plain", x_amz_meta_colour="red"),
        signed("PUT", f"/pail/c?partNumber=1&uploadId={upload}", b"hello"),
        signed("PUT", f"/pail/c?partNumber=2&uploadId={upload}", b"!"),
        signed("POST", f"/pail/c?uploadId={upload}", completion),
        signed("PUT", "/pail/d", x_amz_copy_source="/pail/b"),
        *lists("pail"),
    ]


def beside():
    """What another connection sends, to another bucket."""
    puts = [signed("PUT", "/vat/e", b"first"), in_chunks("/vat/f", b"other", 3)]
    return [*puts, signed("GET", "/vat/e"), signed("DELETE", "/vat/e"), signed("GET", "/vat/f"), *lists("vat")[:2]]


def reading(upload, buckets):
    """What a connection sends that reads all that is there."""
    parts = signed("GET", f"/pail/c?uploadId={upload}")
    listed = [message for bucket in buckets for message in lists(bucket)]
    return [*listed, parts, *(signed("GET", f"/pail/{key}") for key in "abcd")]


def replies_in(output):
    """The replies of an output, each with its body."""
    replies = []
    while output:
        head, found, _ = output.partition(b"\r\n\r\n")
        length = re.search(rb"(?i)\r\ncontent-length: (\d+)", head)
        size = len(head) + len(found) + (int(length[1]) if length else 0)
        replies.append(output[:size])
        output = output[size:]
    return replies


def masked(output):
    """An output without the numbers of entries, which stand in the ids of requests, versions and uploads."""
    return re.sub(rb"(?<![0-9a-f])[0-9a-f]{16}(?![0-9a-f])", b"NUMBER", output)


class Wrong(Exception):
    """Something that must not come of a refused growth."""


def count_of(name, output, replies, mask=bytes, may_stop=False):
    """How many of these replies an output has, and whether InternalError stands in the place of one more. Else it has
    to have all, or it may have stopped."""
    is_cut = output.endswith(INTERNAL_ERROR)
    rest, count = mask(output.removesuffix(INTERNAL_ERROR)), 0
    for reply in map(mask, replies):
        if not rest.startswith(reply):
            break
        rest, count = rest[len(reply) :], count + 1
    if rest or (is_cut and count == len(replies)) or not (is_cut or may_stop or count == len(replies)):
        told = f"InternalError {'stands' if is_cut else 'does not stand'} behind"
        raise Wrong(f"{name} has {count} of {len(replies)} replies and then {rest[:300]!r}; {told}")
    return count, is_cut
