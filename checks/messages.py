"""The messages that `checks/bytes` changes, and what a reader makes of a message: which of it is signed, and which isn't.
It is read here, by RFC 9112 and docs/PROTOCOL.md, and no program is asked."""

import base64
import hashlib
import json
import re
import sys
import zlib
from pathlib import Path
from urllib.parse import unquote_to_bytes

sys.path.insert(0, str(Path(__file__).resolve().parent.parent / "bench"))

from client import BUCKET, CHUNKED, ID, REGION, SECRET, Signer, sha256  # noqa: E402

JSON, XML = "json", "s3"
KINDS = ("put", "put in signed chunks", "put in unsigned chunks", "list", "completion", "presigned get")
HELLO = b"hello"
UNSIGNED_CHUNKS = "STREAMING-UNSIGNED-PAYLOAD-TRAILER"
CRC = "x-amz-checksum-crc32"
# The header lines of each kind that aren't signed, beside its length.
UNSIGNED = {
    "put": {
        "content-type": "text/plain",
        "content-md5": base64.b64encode(hashlib.md5(HELLO).digest()).decode(),
        "cache-control": "no-store",
        "expect": "100-continue",
        "user-agent": "checks/1.0",
    },
    "put in signed chunks": {"content-encoding": "aws-chunked,gzip"},
    "put in unsigned chunks": {"content-type": "text/plain"},
    "list": {"connection": "keep-alive"},
    "completion": {"content-type": "application/xml", "if-none-match": "*"},
    "presigned get": {"range": "bytes=1-3", "if-match": '"5d41402abc4b2a76b9719d911017c592"'},
}


def tag(data):
    return f'"{hashlib.md5(data).hexdigest()}"'


def crc_of(data):
    return base64.b64encode(zlib.crc32(data).to_bytes(4, "big")).decode()


def parts_listed(dialect):
    """The document that completes an upload by its first part, which is `hello`."""
    if dialect == JSON:
        return json.dumps({"Parts": [{"ETag": tag(HELLO), "PartNumber": 1}]}).encode()
    part = f"<Part><PartNumber>1</PartNumber><ETag>{tag(HELLO)}</ETag></Part>"
    return f"<CompleteMultipartUpload>{part}</CompleteMultipartUpload>".encode()


class Sender:
    """Makes the requests of one client, at a moment, to a host."""

    def __init__(self, host, moment=None, credential=(ID, SECRET)):
        self.host, self.signer = host, Signer(*credential, REGION, moment)

    def head(self, method, target, lines, unsigned):
        """A head, in which the lines that aren't signed stand before those that sign it."""
        told = [*unsigned.items(), *lines.items()]
        return "".join([f"{method} {target} HTTP/1.1\r\n", *(f"{name}: {it}\r\n" for name, it in told), "\r\n"]).encode()

    def request(self, method, target, body=b"", signed=None, unsigned=None):
        """A request that is signed in its head, with its body's hash."""
        lines = self.signer.signed(method, target, {"host": self.host, **(signed or {})}, sha256(body))
        sized = {"content-length": str(len(body))} if method in ("PUT", "POST") else {}
        return self.head(method, target, lines, {**sized, **(unsigned or {})}) + body

    def in_chunks(self, target, unsigned):
        """A put of `hello` in signed chunks, whose body has 263 bytes."""
        told = {"host": self.host, "x-amz-decoded-content-length": "5"}
        lines = self.signer.signed("PUT", target, told, CHUNKED)
        body = self.signer.in_chunks(lines, HELLO, 3)
        return self.head("PUT", target, lines, {"content-length": str(len(body)), **unsigned}) + body

    def with_trailer(self, target, unsigned):
        """A put of `hello` in unsigned chunks, with its checksum behind them."""
        told = {"host": self.host, "x-amz-decoded-content-length": "5", "x-amz-trailer": CRC}
        lines = self.signer.signed("PUT", target, told, UNSIGNED_CHUNKS)
        body = f"3\r\nhel\r\n2\r\nlo\r\n0\r\n{CRC}:{crc_of(HELLO)}\r\n\r\n".encode()
        return self.head("PUT", target, lines, {"content-length": str(len(body)), **unsigned}) + body

    def message(self, kind, dialect, upload):
        """The message of a kind; `upload` is the id of the one that a completion ends."""
        path, unsigned = f"/{BUCKET}/k", UNSIGNED[kind]
        if kind == "put":
            return self.request("PUT", path, HELLO, {"x-amz-meta-a": "1"}, unsigned)
        if kind == "put in signed chunks":
            return self.in_chunks(path, unsigned)
        if kind == "put in unsigned chunks":
            return self.with_trailer(path, unsigned)
        if kind == "list":
            return self.request("GET", f"/{BUCKET}?list-type=2&max-keys=9&prefix=k", unsigned=unsigned)
        if kind == "completion":
            target = f"/{BUCKET}/m?uploadId={upload}"
            return self.request("POST", target, parts_listed(dialect), unsigned=unsigned)
        target = self.signer.presigned("GET", path, self.host, 600)
        return self.head("GET", target, {"host": self.host}, unsigned)


TOKEN = rb"[!#$%&'*+.^_`|~0-9A-Za-z-]+"
FIRST = re.compile(rb"(%b) ([!-~\x80-\xff]+) HTTP/1\.([01])" % TOKEN)
LINE = re.compile(rb"(%b):[ \t]*([\t\x20-\x7e\x80-\xff]*?)[ \t]*" % TOKEN)
SCHEME = re.compile(rb"AWS4-HMAC-SHA256 +([^ ,]+=.*)")
CHUNK = re.compile(rb"([0-9A-Fa-f]{1,8});chunk-signature=([0-9a-f]{64})\r\n")
BARE_CHUNK = re.compile(rb"([0-9A-Fa-f]{1,8})\r\n")


class Reading:
    """What the bytes of a message say: the method, the target, the version's last digit, the header lines by their
    names in lower case, and what follows the head."""

    def __init__(self, method, target, version, lines, rest):
        self.method, self.target, self.version, self.lines, self.rest = method, target, version, lines, rest

    @staticmethod
    def of(data):
        """That of these bytes, or `None` where no head stands at their front."""
        while data.startswith(b"\r\n"):
            data = data[2:]
        head, mark, rest = data.partition(b"\r\n\r\n")
        first, *told = re.split(rb"\r?\n", head)
        asked, told = FIRST.fullmatch(first), [LINE.fullmatch(line) for line in told]
        if not mark or not asked or not all(told) or len(told) > 64:
            return None
        lines = {}
        for line in told:
            lines.setdefault(line[1].lower(), []).append(line[2])
        return Reading(*asked.groups(), lines, rest)

    def count(self):
        """How many header lines it has."""
        return sum(len(values) for values in self.lines.values())

    def one(self, name):
        """The value of the line of a name, or `None` where there is none or several."""
        values = self.lines.get(name, [])
        return values[0] if len(values) == 1 else None

    def parameters(self):
        """The names and values of its query, in order."""
        pieces = [piece.partition(b"=")[::2] for piece in self.target.partition(b"?")[2].split(b"&") if piece]
        return sorted((unquote_to_bytes(name), unquote_to_bytes(value)) for name, value in pieces)

    def signing(self):
        """The names that are signed, and what signs them: the values of its Authorization line; `None` without one."""
        if any(name == b"X-Amz-Signature" for name, _ in self.parameters()):
            return dict(self.parameters()).get(b"X-Amz-SignedHeaders", b"").split(b";"), None
        found = SCHEME.fullmatch(self.one(b"authorization") or b"")
        if not found:
            return None
        values = dict(it.strip(b" ").partition(b"=")[::2] for it in found[1].split(b","))
        return values.get(b"SignedHeaders", b"").split(b";"), values

    def length(self):
        """How many bytes its body has; `None` where that isn't told in digits."""
        if b"content-length" not in self.lines:
            return 0
        told = self.one(b"content-length")
        return int(told) if told is not None and re.fullmatch(rb"[0-9]{1,18}", told) else None

    def body(self):
        """What its body means: the bytes, or the sizes, data and signatures of its chunks; `None` where it isn't whole or
        not of its form."""
        length, word = self.length(), self.one(b"x-amz-content-sha256")
        if length is None or len(self.rest) < length:
            return None
        sent = self.rest[:length]
        if word == CHUNKED.encode():
            return chunks_of(sent, CHUNK)[0]
        if word == UNSIGNED_CHUNKS.encode():
            chunks, behind = chunks_of(sent, BARE_CHUNK)
            name, _, value = behind.partition(b":")
            return chunks and (*chunks, name.lower(), value)
        return sent if word in (None, sha256(sent).encode()) else None

    def covered(self):
        """All that its signature covers and the signature itself; `None` where that can't be."""
        signing, body = self.signing(), self.body()
        if signing is None or body is None:
            return None
        names, values = signing
        told = [(it, b",".join(re.sub(rb" +", b" ", v) for v in self.lines.get(it, []))) for it in names]
        path = unquote_to_bytes(self.target.partition(b"?")[0])
        return self.method, path, self.parameters(), told, values, body

    def behind(self):
        """What follows the message."""
        return self.rest[self.length() or 0 :]


def chunks_of(sent, form):
    """The chunks of a body, each as its size, signature and data, and what follows the last one's first line; `None` in
    place of the chunks where they aren't of this form."""
    chunks = []
    while found := form.match(sent):
        size, sent = int(found[1], 16), sent[found.end() :]
        if not size:
            is_ended = form is BARE_CHUNK or sent == b"\r\n"
            return (tuple([*chunks, found.groups()[1:]]) if is_ended else None), sent
        if sent[size : size + 2] != b"\r\n":
            return None, b""
        chunks.append((size, found.groups()[1:], sent[:size]))
        sent = sent[size + 2 :]
    return None, b""


def differences(one, other):
    """How two readings differ in what no signature covers, in words."""
    found, gone = [], {name for name in one.lines if name not in other.lines}
    found += [f"`{name.decode()}` isn't told" for name in sorted(gone)]
    both = [name for name in one.lines if name in other.lines and one.lines[name] != other.lines[name]]
    found += [f"`{name.decode()}` is told otherwise" for name in sorted(both) if name != b"authorization"]
    if len(other.lines) > len(one.lines):
        found.append("one more line")
    if one.version != other.version:
        found.append("HTTP/1.0")
    if other.behind():
        found.append("more bytes after it")
    return found or ["it reads the same"]
