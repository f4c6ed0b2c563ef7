"""Scenarios, as `crates/s3_scenarios/src/scenario.rt` reads them, made of a text of one line a request; what is
answered is worked out by the tables. Each is made in both dialects, its bodies too, but for one whose name ends with
`.s3`: that says its bodies in XML itself."""

import sys
from functools import partial
from urllib.parse import quote

from . import data
from .bodies import Body
from .documents import JSON, S3, in_json
from .lists import Server
from .requests import Request
from .turned import body_lines, bytes_of


def markers_of(page):
    """What asks for the versions after those of a page; after a common prefix no id is asked for."""
    behind = page.get("NextVersionIdMarker")
    return f"&key-marker={quote(page['NextKeyMarker'])}" + ("" if behind is None else f"&version-id-marker={behind}")


def marker_of(page):
    """What asks for the objects after those of a page of ListObjects: after its last key, where none else is told."""
    return f"&marker={quote(page.get('NextMarker') or page['Contents'][-1]['Key'])}"


def is_told(reply):
    """Whether the lines of a file stand for a reply, which they don't for each line's end within a body."""
    end = reply.index("") + 1
    text = "".join(f"{line}\r\n" for line in reply[:end]) + "".join(map(bytes_of, ([line] for line in reply[end:])))
    return bytes_of("\n".join(reply).split("\n")) == text


class Connection:
    """The requests of a connection to a server of its own, and what they are answered, in a dialect, to which bodies
    that are said in JSON may have to be turned. A kind of it knows further words by its methods."""

    def __init__(self, dialect, is_turned):
        self.server, self.requests, self.answers, self.is_over = Server(dialect), [], [], False
        self.is_turned = is_turned

    def ask(self, method, target, body=(), lines=()):
        """Adds a request, and gives the facts of the document that it is answered. Nothing is answered after a refusal
        by the connection."""
        body = body_lines(method, target, body) if self.is_turned else body
        shown = [f"{method} {target}", *lines, *(["", "|\n".join(body)] if any(body) else [])]
        self.requests.append("\n".join(shown))
        if self.is_over:
            return None
        reply, self.is_over = self.server.answer(Request(method, target, lines, Body.read(body)))
        assert is_told(reply), reply
        self.answers.append(reply)
        return self.server.facts

    def follow(self, target, next_of):
        """Asks for a list, and for its next pages to the last."""
        page = self.ask("GET", target)
        while page["IsTruncated"]:
            page = self.ask("GET", target + next_of(page))

    def do(self, line, lines):
        """Does what a line says, with the lines that belong to it."""
        word, _, rest = line.partition(" ")
        if word == "is":
            told = self.answers[-1][-1][:-1].rpartition("\n")[2]
            # An answer that is said in JSON isn't the one in XML.
            if rest != told and not self.is_turned:
                sys.exit(f"worked out {told}\nin place of {rest}")
        elif not hasattr(self, f"do_{word}"):
            sys.exit(f"what is {line!r}?")
        elif self.is_over and not word == "unread":
            sys.exit(f"nothing is answered after a refusal by the connection: {line!r}")
        else:
            getattr(self, f"do_{word}")(rest, lines)

    def do_send(self, rest, lines):
        method, target, *body = rest.split(" ", 2)
        body += [line.removeprefix("body ") for line in lines if line.startswith("body ")]
        self.ask(method, target, body, [line for line in lines if not line.startswith("body ")])

    do_unread = do_send

    def do_versioning(self, rest, _lines):
        self.ask_by("PUT", "/pail?versioning", {"Status": rest})

    def do_keys(self, rest, _lines):
        for key in rest.split(" "):
            self.ask("PUT", f"/pail/{key}", ["!"])

    def do_list(self, rest, _lines):
        self.ask("GET", f"/pail?list-type=2&{rest}".rstrip("&"))

    def do_objects(self, rest, _lines):
        self.ask("GET", f"/pail?{rest}".rstrip("?"))

    def do_object_pages(self, rest, _lines):
        self.follow(f"/pail?{rest}", marker_of)

    def do_versions(self, rest, _lines):
        self.ask("GET", f"/pail?versions&{rest}".rstrip("&"))

    def do_version_pages(self, rest, _lines):
        self.follow(f"/pail?versions&{rest}", markers_of)

    def ask_by(self, method, target, facts, lines=()):
        """Adds a request with a document of these facts."""
        body = [in_json(facts)]
        self.ask(method, target, body_lines(method, target, body) if self.server.dialect == S3 else body, lines)

    def text(self):
        answers = "\n".join("\n".join(reply) for reply in self.answers)
        return "\n--\n".join(self.requests) + "\n=>\n" + answers


def connections(kind, lines):
    """The connections that the lines of one file say, each of which is made so."""
    made, is_new = [], True
    for line, more in lines:
        if line == "==":
            is_new = True
        elif line.startswith("alone "):
            made.append(kind())
            made[-1].do(line.removeprefix("alone "), more)
            is_new = True
        else:
            if is_new and not line.startswith("is "):
                made.append(kind())
                is_new = False
            made[-1].do(line, more)
    return made


def files(*sources):
    """The lines of each file that these say, by its name: each with those after it that begin with two spaces."""
    found = {}
    for line in "".join(source.read_text() for source in sources).split("\n"):
        if line.startswith("= "):
            last = found.setdefault(line[2:], [])
        elif line.startswith("  "):
            last[-1][1].append(line[2:])
        elif line and not line.startswith("#"):
            last.append((line, []))
    return found


def text_of(kind, lines):
    """The text of a file, whose connections these lines say."""
    return "\n==\n".join(it.text() for it in connections(kind, lines)) + "\n"


def made(kind, name, lines):
    """The files of this name, in each dialect."""
    if name.endswith(f".{S3}"):
        return {f"{name}.scenario": text_of(partial(kind, S3, False), lines)}
    texts = {f"{name}.scenario": text_of(partial(kind, JSON, False), lines)}
    return data.in_both(texts, {f"{name}.{S3}.scenario": text_of(partial(kind, S3, True), lines)})


def run(about, kind, *sources):
    """Makes the files of these sources, as the command line says."""
    data.run(about, {name: partial(made, kind, name, lines) for name, lines in files(*sources).items()})
