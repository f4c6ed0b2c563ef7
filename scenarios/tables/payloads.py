"""Requests by the bytes that come behind their heads: docs/PROTOCOL.md, "Bodies", and of the table "By the connection" what
it refuses of a body. Chunks are read byte by byte where they aren't data."""

import re
import sys

from signing import CHUNKED, DIGITS, UNSIGNED, sha256

from .bodies import Body
from .chains import Chain
from .codings import is_coded, uncoded
from .requests import Request, refuse
from .sums import CHECKSUM, is_met, is_read

# What a request tells whose data comes in chunks with a checksum behind them: unsigned ones, or signed ones.
UNSIGNED_CHUNKS, TRAILED_CHUNKS = "STREAMING-UNSIGNED-PAYLOAD-TRAILER", f"{CHUNKED}-TRAILER"
# At most so many bytes a body has.
BODY_LIMIT = 67_108_864
# How many bytes such a trailer of signed chunks has beside its name and its value.
FRAME = len(":\r\nx-amz-trailer-signature:\r\n\r\n") + DIGITS


class Sent:
    """The bytes of a body, to the end of Content-Length or to that of the input; of an open one more are to come."""

    def __init__(self, text, is_open=False):
        self.left, self.is_open = text, is_open

    def take(self, size):
        """The next bytes, so many."""
        if self.is_open and len(self.left) < size:
            sys.exit("neither the body has ended nor the input")
        refuse(len(self.left) < size, "IncompleteBody")
        found, self.left = self.left[:size], self.left[size:]
        return found

    def pass_by(self, text):
        """Reads these bytes, whose letters may be capitals."""
        for byte in text:
            refuse(self.take(1).lower() != bytes([byte]), "InvalidRequest")

    def before(self, mark, form, most):
        """The bytes before the next of this one, and reads that: one or more of this form, and so many at most."""
        found = b""
        while (byte := self.take(1)) != mark or not found:
            found += byte
            refuse(not re.fullmatch(form, byte) or len(found) > most, "InvalidRequest")
        return found

    def before_cr(self, form, most):
        return self.before(b"\r", form, most)

    def value(self):
        """The value of a trailer, up to the CR of its line, before which one line feed may stand."""
        found = b""
        while (byte := self.take(1)) not in (b"\r", b"\n") or not found:
            found += byte
            refuse(not re.fullmatch(rb"[!-~]", byte) or len(found) > 64, "InvalidRequest")
        if byte == b"\n":
            self.pass_by(b"\r")
        return found.decode()

    def each(self, forms):
        """The next bytes, each of its form."""
        found = b""
        for form in forms:
            found += self.take(1)
            refuse(not re.fullmatch(form, found[-1:]), "InvalidRequest")
        return found


def in_unsigned_chunks(text, decoded, name):
    """The data that comes so, and the value of the trailer of this name behind it, of a body of which so many bytes are
    data."""
    sent, data = Sent(text), b""
    while size := int(sent.before_cr(rb"[0-9A-Fa-f]", 8), 16):
        sent.pass_by(b"\n")
        refuse(len(data) + size > decoded, "InvalidRequest")
        data += sent.take(size)
        sent.pass_by(b"\r\n")
    sent.pass_by(f"\n{name}:".encode())
    value = sent.value()
    sent.pass_by(b"\n\r\n")
    refuse(len(data) < decoded, "IncompleteBody")
    refuse(sent.left, "InvalidRequest")
    return data, value


def first_line(sent):
    """The size of a signed chunk, and its signature."""
    size = int(sent.before(b";", rb"[0-9A-Fa-f]", 8), 16)
    sent.each(bytes([byte]) for byte in b"chunk-signature=")
    told = sent.each([rb"[0-9a-f]"] * DIGITS).decode()
    sent.each([b"\r", b"\n"])
    return size, told


def in_signed_chunks(text, decoded, chain):
    """The data that comes in chunks signed by this chain, of a body of which so many bytes are data."""
    sent, data, size = Sent(text), b"", None
    while size != 0:
        size, told = first_line(sent)
        refuse(len(data) + size > decoded, "InvalidRequest")
        chunk = sent.take(size)
        sent.each([b"\r", b"\n"])
        refuse(told != chain.next(chunk), "SignatureDoesNotMatch")
        data += chunk
    refuse(len(data) < decoded, "IncompleteBody")
    refuse(sent.left, "InvalidRequest")
    return data


def in_trailed_chunks(text, length, decoded, name, chain):
    """The data that comes in chunks signed by this chain, and the value of the trailer of this name behind them, which is
    signed too, of a body of so many bytes, of which so many are data."""
    sent, data, size = Sent(text), b"", None
    while size != 0:
        size, told = first_line(sent)
        refuse(len(data) + size > decoded, "InvalidRequest")
        chunk, left = sent.take(size), length - (len(text) - len(sent.left))
        if size != 0:
            sent.each([b"\r", b"\n"])
        refuse(left == 0, "IncompleteBody")
        refuse(told != chain.next(chunk), "SignatureDoesNotMatch")
        data += chunk
    refuse(len(data) < decoded, "IncompleteBody")
    least = len(name) + FRAME
    refuse(not least + 1 <= left <= least + 65, "InvalidRequest")
    form = f"(?i:{name}):([!-~]{{1,64}})\n?\r\n(?i:x-amz-trailer-signature):([0-9a-f]{{{DIGITS}}})\r\n\r\n"
    found = re.fullmatch(form.encode(), sent.take(left))
    refuse(not found, "InvalidRequest")
    value, told = found[1].decode(), found[2].decode()
    refuse(told != chain.seal(f"{name}:{value}"), "SignatureDoesNotMatch")
    return data, value


class Payload(Request):
    """A request behind whose head these bytes come, and no more; the input may end there."""

    def __init__(self, method, target, lines, behind, body, is_last=False):
        super().__init__(method, target, lines, body)
        self.behind, self.is_last = behind, is_last

    def sent(self):
        """The bytes of the body, out of a transfer coding, and how many there have to be."""
        if not is_coded(self):
            length = int(self.line("content-length") or 0)
            return self.behind[:length], length
        sent = Sent(self.behind, is_open=not self.is_last)
        data = uncoded(sent, BODY_LIMIT)
        if sent.left:
            sys.exit(f"{sent.left} stands behind a body in a transfer coding")
        return data, len(data)

    def received(self):
        word, (sent, length) = self.line("x-amz-content-sha256"), self.sent()
        if word in (CHUNKED, UNSIGNED_CHUNKS, TRAILED_CHUNKS):
            self.body = self.in_chunks(sent, word, length)
            return self.body
        refuse(len(sent) < length, "IncompleteBody")
        refuse(is_coded(self) and length != self.decoded_length(), "IncompleteBody")
        refuse(word not in (None, UNSIGNED, sha256(sent)), "XAmzContentSHA256Mismatch")
        self.body = Body.of(sent.decode())
        return super().received()

    def decoded_length(self):
        return int(self.line("x-amz-decoded-content-length"))

    def in_chunks(self, sent, word, length):
        """The data that comes in chunks, which has to have the checksum behind them, where one is there."""
        if word == CHUNKED:
            return Body.of(in_signed_chunks(sent, self.decoded_length(), self.chain()).decode())
        name = self.line("x-amz-trailer").lower()
        if word == TRAILED_CHUNKS:
            data, value = in_trailed_chunks(sent, length, self.decoded_length(), name, self.chain())
        else:
            data, value = in_unsigned_chunks(sent, self.decoded_length(), name)
        kind = name.removeprefix(CHECKSUM)
        refuse(not is_read(kind, value), "InvalidRequest")
        refuse(not is_met(kind, value, data), "BadDigest")
        self.summed = {name: value}
        return Body.of(data.decode())

    def chain(self):
        """The chain of the signatures of its chunks."""
        return Chain(self.line("authorization"), self.line("x-amz-date"))
