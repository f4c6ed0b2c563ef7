"""Replies as scripts say them, each in a line: a word for its kind, its number, and what it is about. `scenarios/make`
tells the words."""

import hashlib
import json
import sys

from .bodies import Body
from .codes import CODES
from .documents import DECLARATION, JSON, document
from .replies import START, of_got, of_stored, of_told, of_unmodified, reply


class Said:
    """A reply in a dialect: its number, what stands after that, and the lines that belong to it."""

    def __init__(self, number, what, lines, dialect):
        self.number, self.what, self.dialect = int(number), what, dialect
        whole = [line.removeprefix("of ") for line in lines if line.startswith("of ")]
        self.tag = hashlib.md5(Body.read(whole or [what]).bytes()).hexdigest()
        self.lines = [line for line in lines if not line.startswith("of ")]

    def reply(self, status, lines=(), body=Body()):
        return reply(status, self.number, [*lines, *self.lines], body)

    def told(self, status, text, lines=()):
        """The lines of a reply with this document."""
        return self.reply(status, [*lines, *of_told(self.dialect)], Body.of(text))

    def spelled(self, facts):
        """The document with these facts."""
        return document(self.dialect, facts, f"{self.number:016x}")

    def refusal(self, lines=()):
        status, message = CODES[self.what]
        return self.told(status, self.spelled({"Code": self.what, "Message": message}), lines)

    def do_stored(self):
        return self.reply(200, of_stored(self.tag))

    def do_done(self):
        return self.reply(200)

    def do_got(self):
        is_range = any(line.startswith("Content-Range: ") for line in self.lines)
        lines = of_got(self.tag, START, "binary/octet-stream")
        return self.reply(206 if is_range else 200, lines, Body.read([self.what]))

    def do_unmodified(self):
        return self.reply(304, of_unmodified(self.tag, START))

    def do_told(self):
        if self.what.startswith("<"):
            return self.told(200, DECLARATION + self.what)
        return self.told(200, self.what if self.dialect == JSON else self.spelled(json.loads(self.what)))

    def do_gone(self):
        return self.reply(204)

    def do_denied(self):
        return self.refusal()

    def do_refused(self):
        return self.refusal(["Connection: close"])


def reply_said(line, lines, dialect):
    """The lines of the reply that a line says with those that belong to it."""
    if line == "continue":
        return ["HTTP/1.1 100 Continue", ""]
    word, _, rest = line.removeprefix("HEAD ").partition(" ")
    if not hasattr(Said, f"do_{word}"):
        sys.exit(f"what is {line!r}?")
    # What the connection refuses has no number, and tells zeros.
    number, _, what = ("0", "", rest) if word == "refused" else rest.partition(" ")
    told = getattr(Said(number, what, lines, dialect), f"do_{word}")()
    return told[: told.index("") + 1] if line.startswith("HEAD ") else told


def replies_said(lines, dialect):
    """The lines of the replies that lines say, each with those after it that begin with two spaces."""
    said = []
    for line in lines:
        if line.startswith("  "):
            said[-1][1].append(line[2:])
        elif line:
            said.append((line, []))
    return [it for line, more in said for it in reply_said(line, more, dialect)]
