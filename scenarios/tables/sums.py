"""The checksums that header lines and trailers tell: docs/PROTOCOL.md, "Bodies". They are computed here, and by Python."""

import base64
import hashlib
import zlib

# The lines that tell checksums begin so, and the name of their kind follows.
CHECKSUM = "x-amz-checksum-"
# The polynomials of CRC-32C (RFC 3720) and of CRC-64/NVME (NVM Express).
CASTAGNOLI, NVME = 0x1EDC6F41, 0xAD93D23594C93659


def crc(polynomial, width, data):
    """The CRC of data by a polynomial of so many bits: the lowest bit of each byte comes first, and all bits of the
    register are turned at the start and at the end."""
    turned = int(f"{polynomial:0{width}b}"[::-1], 2)
    register = ones = (1 << width) - 1
    for byte in data:
        register ^= byte
        for _ in range(8):
            register = register >> 1 ^ (turned if register & 1 else 0)
    return (register ^ ones).to_bytes(width // 8, "big")


KINDS = {
    "crc32": lambda data: zlib.crc32(data).to_bytes(4, "big"),
    "crc32c": lambda data: crc(CASTAGNOLI, 32, data),
    "crc64nvme": lambda data: crc(NVME, 64, data),
    "sha1": lambda data: hashlib.sha1(data).digest(),
    "sha256": lambda data: hashlib.sha256(data).digest(),
}
SIZES = {kind: len(made(b"")) for kind, made in KINDS.items()}


def in_base64(data):
    return base64.b64encode(data).decode()


def read(text, size):
    """The bytes whose Base64 a text is, where it is that of so many."""
    try:
        found = base64.b64decode(text, validate=True)
    except ValueError:
        return None
    return found if len(found) == size and in_base64(found) == text else None


def is_read(kind, text):
    """Whether a text tells a checksum of a kind."""
    return read(text, SIZES[kind]) is not None


def is_met(kind, text, data):
    """Whether the checksum of a kind that a text tells is that of this data."""
    return in_base64(KINDS[kind](data)) == text
