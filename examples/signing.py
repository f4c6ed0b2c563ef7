"""AWS Signature Version 4 for S3 in plain Python: it signs a request in its header lines, in its query, or in its
chunks.

    signer = Signer(*first_key("examples/keys"))
    lines = signer.signed("PUT", "/pail/k", {"host": "127.0.0.1:9000"}, sha256(b"hello"))

`lines` are the header lines to send with the body `hello`. Names and values of a target are percent-encoded already.
"""

import hashlib
import hmac
import re
import time
from functools import lru_cache
from pathlib import Path
from urllib.parse import quote, unquote_to_bytes

ALGORITHM = "AWS4-HMAC-SHA256"
# What a request tells in place of the SHA-256 of its body: that it comes in signed chunks, or that nothing signs it.
CHUNKED, UNSIGNED = "STREAMING-AWS4-HMAC-SHA256-PAYLOAD", "UNSIGNED-PAYLOAD"
DIGITS = 64


def first_key(file):
    """The id and the secret of the first line of a keys file."""
    return Path(file).read_text().splitlines()[0].split(" ", 1)


def sha256(data):
    return hashlib.sha256(data).hexdigest()


def stamp_of(moment=None):
    """The stamp of a moment in seconds, or of now."""
    return time.strftime("%Y%m%dT%H%M%SZ", time.gmtime(moment))


def encoded(text, safe=""):
    """A text, or bytes, percent-encoded as it is signed. A path has `/` besides."""
    return quote(text, safe=f"-._~{safe}")


def raw(text):
    return text.encode() if isinstance(text, str) else text


def code(key, *lines):
    """The HMAC of these lines, each a text or bytes."""
    return hmac.new(key, b"\n".join(map(raw, lines)), hashlib.sha256).digest()


@lru_cache
def signing_key(secret, scope):
    """The key of a secret under a scope: a date, a region, a service and one word more, with `/` between."""
    key = b"AWS4" + raw(secret)
    for part in raw(scope).split(b"/"):
        key = code(key, part)
    return key


def canonical_request(method, target, lines, payload):
    """The bytes that a signature is made of: of the lines to be signed, pairs in their order, and of the target but
    for a signature in its query."""
    path, _, query = target.partition("?")
    pairs = [map(unquote_to_bytes, piece.partition("=")[::2]) for piece in query.split("&") if piece]
    pairs = sorted((encoded(name), encoded(value)) for name, value in pairs if name != b"X-Amz-Signature")
    asked, path = "&".join(f"{name}={value}" for name, value in pairs), encoded(unquote_to_bytes(path), "/")
    told = [(name, re.sub(" +", " ", value.strip(" \t"))) for name, value in lines]
    lines, names = "".join(f"{name}:{value}\n" for name, value in told), ";".join(name for name, _ in told)
    return "\n".join([method, path, asked, lines, names, payload]).encode()


def signature(secret, scope, stamp, canonical):
    """The signature of a canonical request."""
    return code(signing_key(secret, scope), ALGORITHM, stamp, scope, sha256(canonical)).hex()


class Signer:
    """Signs by an access key, for a region, at a moment, which is now where none is given."""

    def __init__(self, key_id, secret, region="us-east-1", moment=None):
        self.secret, self.stamp = secret, stamp_of(moment)
        self.scope = f"{self.stamp[:8]}/{region}/s3/aws4_request"
        self.credential = f"{key_id}/{self.scope}"

    def signature(self, method, target, lines, payload):
        canonical = canonical_request(method, target, lines, payload)
        return signature(self.secret, self.scope, self.stamp, canonical)

    def signed(self, method, target, lines, payload):
        """These header lines and those that sign them. The payload is the SHA-256 of the body, or `CHUNKED` or
        `UNSIGNED`."""
        told = {**lines, "x-amz-content-sha256": payload, "x-amz-date": self.stamp}
        lines = sorted((name.lower(), value) for name, value in told.items())
        value, names = self.signature(method, target, lines, payload), ";".join(name for name, _ in lines)
        authorization = f"{ALGORITHM} Credential={self.credential}, SignedHeaders={names}, Signature={value}"
        return {**dict(lines), "authorization": authorization}

    def presigned(self, method, target, host, seconds):
        """The target with a query that signs it: whoever has it may send it to this host, for so many seconds."""
        values = {"Algorithm": ALGORITHM, "Credential": self.credential, "Date": self.stamp}
        values |= {"Expires": str(seconds), "SignedHeaders": "host"}
        query = "&".join(f"X-Amz-{name}={encoded(value)}" for name, value in values.items())
        target = f"{target}{'&' if '?' in target else '?'}{query}"
        return f"{target}&X-Amz-Signature={self.signature(method, target, [('host', host)], UNSIGNED)}"

    def in_chunks(self, lines, data, size):
        """The body of a request with these signed header lines, where its data comes in signed chunks of this size."""
        before, body, nothing = lines["authorization"][-DIGITS:], [], sha256(b"")
        for chunk in chunks_of(data, size):
            told = [f"{ALGORITHM}-PAYLOAD", self.stamp, self.scope, before, nothing, sha256(chunk)]
            before = code(signing_key(self.secret, self.scope), *told).hex()
            body += [f"{len(chunk):x};chunk-signature={before}\r\n".encode(), chunk, b"\r\n"]
        return b"".join(body)


def chunks_of(data, size):
    """The data in chunks: all but the last have this size, and one more is empty."""
    return [*(data[at : at + size] for at in range(0, len(data), size)), b""]


def length_in_chunks(data, size):
    """How many bytes the body of `in_chunks` has."""
    around = len(";chunk-signature=\r\n\r\n") + DIGITS
    return sum(len(f"{len(chunk):x}") + around + len(chunk) for chunk in chunks_of(data, size))
