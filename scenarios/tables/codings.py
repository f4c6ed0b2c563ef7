"""Bodies in the chunked transfer coding: RFC 9112, 6.1, 6.3 and 7.1, and docs/PROTOCOL.md, "Bodies without
Content-Length". They are read byte by byte where they aren't data, and to the byte at which they are refused."""

import re

from .requests import is_s3, refuse

# How many digits a size has at most, and what may stand in an extension.
DIGITS_MOST, PASSED = 16, rb"[\t\x20-\x7e\x80-\xff]"


def is_coded(request):
    return bool(request.all_of("transfer-encoding"))


def judge_coding(request, limit):
    """Refuses a request in a transfer coding whose head tells of that what can't be."""
    codings, sizes = request.all_of("transfer-encoding"), request.all_of("x-amz-decoded-content-length")
    refuse(not is_s3(request), "NotImplemented")
    refuse(request.version != "1.1" or [coding.lower() for coding in codings] != ["chunked"], "InvalidRequest")
    refuse(request.all_of("content-length"), "InvalidRequest")
    refuse(not sizes, "NotImplemented")
    refuse(len(sizes) != 1 or not re.fullmatch("[0-9]{1,18}", sizes[0]), "InvalidRequest")
    refuse(int(sizes[0]) > limit, "EntityTooLarge")


def uncoded(sent, limit):
    """The data of the chunks that are sent, of which so many bytes are taken; what stands behind the last is left."""
    data = b""
    while size := size_read(sent, limit - len(data)):
        data += sent.take(size)
        sent.pass_by(b"\r\n")
    # A trailer field would stand here.
    sent.pass_by(b"\r\n")
    return data


def size_read(sent, most):
    """The size of the next chunk, which may have so many bytes, by its line."""
    digits = b""
    while re.fullmatch(rb"[0-9A-Fa-f]", byte := sent.take(1)):
        digits += byte
        refuse(len(digits) > DIGITS_MOST, "InvalidRequest")
    refuse(not digits or byte not in (b" ", b"\t", b";", b"\r"), "InvalidRequest")
    refuse(int(digits, 16) > most, "EntityTooLarge")
    if byte != b"\r":
        pass_extension(sent, byte)
    sent.pass_by(b"\n")
    return int(digits, 16)


def pass_extension(sent, byte):
    """Reads an extension, of which this is the first byte, and the CR behind it."""
    while byte != b";":
        refuse(byte not in (b" ", b"\t"), "InvalidRequest")
        byte = sent.take(1)
    while (byte := sent.take(1)) != b"\r":
        refuse(not re.fullmatch(PASSED, byte), "InvalidRequest")
