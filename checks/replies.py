"""What connections are answered, read here and not by the program, for `checks/bytes` and `checks/devices`."""

import re
import sys
from pathlib import Path

sys.path.append(str(Path(__file__).resolve().parent.parent / "scenarios"))

from tables.codes import CODES, REASONS  # noqa: E402

XML = "s3"
CONTINUE = b"HTTP/1.1 100 Continue\r\n\r\n"
# What a refusal has in place of the number of an entry.
NO_NUMBER = "0" * 16


class Wrong(Exception):
    """An answer that must not be given."""


def replies_in(out):
    """The replies in what a connection was answered: the status, the lines in lower case and the body of each."""
    found = []
    out = out.removeprefix(CONTINUE)
    while out:
        head, mark, rest = out.partition(b"\r\n\r\n")
        first, *lines = head.decode("latin-1").split("\r\n")
        status = int(first[9:12])
        lines = dict(line.split(": ", 1) for line in lines)
        lines = {name.lower(): value for name, value in lines.items()}
        size = int(lines.get("content-length", "0"))
        if not mark or first != f"HTTP/1.1 {status} {REASONS.get(status)}" or len(rest) < size:
            raise Wrong(f"no reply: {out[:300]}")
        found.append((status, lines, rest[:size]))
        out = rest[size:]
    return found


def code_of(status, body, dialect):
    """The code of a refusal, which has its status and its message."""
    form = rb'\{"Code":"(\w+)","Message":"([^"]+)"\}'
    if dialect == XML:
        form = rb".*<Error><Code>(\w+)</Code><Message>([^<]+)</Message><RequestId>[0-9a-f]{16}</RequestId></Error>"
    found = re.fullmatch(form, body, re.S)
    code = found[1].decode() if found else None
    if not found or CODES.get(code) != (status, found[2].decode()):
        raise Wrong(f"a refusal with {status} that isn't one: {body}")
    return code


def served(replies, entries):
    """The honest connection after so many entries was answered its put and its get, under the next numbers."""
    numbers = [int(lines["x-amz-request-id"], 16) for _, lines, _ in replies]
    if [status for status, _, _ in replies] != [200, 200] or replies[1][2] != b"hello":
        raise Wrong(f"an honest connection isn't served: {replies}")
    if numbers != [entries, entries + 1]:
        raise Wrong(f"{numbers[0]} entries were made, and {entries} told")


def lines_apart(one, other):
    """Which lines of two replies differ, but for their numbers and their moment; and whether their status and body do."""
    names = (set(one[1]) | set(other[1])) - {"x-amz-request-id", "date"}
    told = [f"{it}: {other[1].get(it, '-')}" for it in sorted(names) if one[1].get(it) != other[1].get(it)]
    return [*[f"status {other[0]}"] * (one[0] != other[0]), *told, *["its body"] * (one[2] != other[2])]
