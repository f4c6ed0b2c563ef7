"""Replies by their facts, printed: the table "Replies" of docs/PROTOCOL.md."""

import time

from .bodies import Body
from .codes import REASONS
from .documents import CONTENT_TYPES
from .sums import CHECKSUM

# The moment of a reply, where none is said.
START = 1369353600
# How the names of user-defined metadata begin, and all names of system-defined metadata.
METADATA = "x-amz-meta-"
SYSTEM = ("cache-control", "content-disposition", "content-encoding", "content-language", "expires")
# What stands before the name of a line that a read asks for in the place of what is kept.
INSTEAD = "="
# What a 304 has of the lines that a 200 to the same request would have (RFC 9110, section 15.4.5).
OF_UNCHANGED = ("cache-control", "content-location", "date", "etag", "expires", "vary")
# The headers that replies have, in their order.
ORDER = (
    "Date",
    "Connection",
    "x-amz-request-id",
    "x-amz-version-id",
    "x-amz-copy-source-version-id",
    "x-amz-delete-marker",
    "x-amz-bucket-region",
    "Location",
    "ETag",
    "Last-Modified",
    "Accept-Ranges",
    "Content-Range",
    "Content-Type",
    METADATA,
    "Content-Length",
)


def date(moment):
    """A moment as header lines tell it."""
    return time.strftime("%a, %d %b %Y %H:%M:%S GMT", time.gmtime(moment))


def place(name):
    """Where a header stands among others. Those of metadata are sorted by their names, and those that stand in the place
    of others by theirs."""
    if name.startswith(INSTEAD):
        return ORDER.index("Content-Length") - 0.5, name
    is_kept = name.startswith((METADATA, CHECKSUM)) or name in SYSTEM
    return ORDER.index(METADATA if is_kept else name), name


def reply(status, number, lines=(), body=Body(), moment=START):
    """The lines of a reply: its headers in the table's order, which are those that each reply has, and these, which may
    stand in the place of others with their names; and its body, each line of which has a bar at its end."""
    told = {"Date": date(moment), "x-amz-request-id": f"{number:016x}"}
    told |= {} if status in (204, 304) else {"Content-Length": str(body.size)}
    for name, _, value in (line.partition(":") for line in lines):
        told[name] = value.removeprefix(" ")
    head = [f"{name.removeprefix(INSTEAD)}: {told[name]}" for name in sorted(told, key=place)]
    return [f"HTTP/1.1 {status} {REASONS[status]}", *head, "", *(f"{line}|" for line in body.lines())]


# The header lines that each reply of a kind has beside those of all.


def of_stored(tag):
    """Those about an object or a part that was stored."""
    return [f'ETag: "{tag}"']


def of_unmodified(tag, moment):
    """Those about an object that a condition holds back."""
    return [f'ETag: "{tag}"', f"Last-Modified: {date(moment)}"]


def of_got(tag, moment, content_type):
    """Those about an object that is sent, or a range of it; its type is told unless another one is."""
    kind = [] if content_type is None else [f"Content-Type: {content_type}"]
    return [*of_unmodified(tag, moment), "Accept-Ranges: bytes", *kind]


def of_told(dialect):
    """Those about a document."""
    return [f"Content-Type: {CONTENT_TYPES[dialect]}"]
