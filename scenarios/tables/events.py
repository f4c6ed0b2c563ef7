"""Event files: what connections of one server are sent, each request with its turn at once, and what they are answered,
worked out by the tables."""

import re
import sys

from .bodies import Body
from .documents import S3
from .heads import judge_head
from .lists import Server

# So many connections an event file has at most.
MOST = 64


def head_of(request):
    """The bytes of a request's head."""
    return "\r\n".join([f"{request.method} {request.target} HTTP/{request.version}", *request.lines, "", ""]).encode()


def bytes_of_reply(lines):
    """The bytes that the lines of a reply stand for."""
    end = lines.index("") + 1
    head = "".join(f"{line}\r\n" for line in lines[:end])
    return head.encode() + Body.read([line[:-1] for line in lines[end:]]).bytes()


class Connection:
    """A connection: the moments of its messages, what it is answered, and which refusal ended it, if one did."""

    def __init__(self):
        self.moments, self.reply, self.fault = [], b"", None


class World:
    """The connections of a file, and the server that they ask. A kind of it knows words by its methods."""

    def __init__(self, dialect):
        self.server, self.events, self.connections = Server(dialect), [], []
        self.asked, self.last = None, None

    def do(self, line, lines):
        """Does what a line says, with the lines that belong to it."""
        word, _, rest = line.partition(" ")
        if not hasattr(self, f"do_{word}"):
            sys.exit(f"what is {line!r}?")
        getattr(self, f"do_{word}")(rest, lines)

    def do_is(self, rest, _lines):
        in_json, _, in_xml = rest.partition(" s3 ")
        rest = in_xml if in_xml and self.server.dialect == S3 else in_json
        # A document that is said in JSON isn't the one in XML.
        is_other = self.server.dialect == S3 and "{" in rest
        if " ".join(self.told()) != rest and not is_other:
            sys.exit(f"worked out {self.told()}\nin place of {rest}\nfor {self.asked}")

    def told(self):
        """What the request before is answered: the code of a refusal, or a status, and the body where there is one."""
        if self.last is None:
            return ["unread"]
        head, _, body = self.last.decode().partition("\r\n\r\n")
        found = re.search('"Code":"(.*?)"|<Code>(.*?)</Code>', body)
        return [found[1] or found[2]] if found else [it for it in (head.split(" ")[1], body) if it]

    def begin(self):
        """Another connection."""
        self.connections.append(Connection())
        if len(self.connections) > MOST:
            sys.exit(f"an event file has at most {MOST} connections")
        return self.connections[-1]

    def ask(self, connection, request, sent, moment, is_last=False):
        """Has a request come over a connection, with these bytes of its body, behind which the input may end, and works
        out what it is answered. Nothing is, after a refusal by the connection."""
        self.asked, self.last, c = request, None, self.connections.index(connection)
        connection.moments.append(moment)
        piece = (head_of(request) + sent).hex()
        self.events += [f"piece {c} {piece}", *[f"end {c}"] * is_last, f"turn {c}"]
        if connection.fault is None:
            self.server.moment = moment
            lines, is_over = self.server.answer(request, lambda: judge_head(request, moment))
            self.last = bytes_of_reply(lines)
            connection.reply += self.last
            if is_over:
                connection.fault = f"{len(connection.moments) - 1} {self.server.facts['Code']}"

    def events_text(self):
        moments = [" ".join(map(str, connection.moments)) for connection in self.connections]
        moments = [f"moments {c} {told}" for c, told in enumerate(moments)]
        return "".join(f"{line}\n" for line in [*moments, *self.events])

    def out_text(self):
        return "".join(f"{c} {connection.reply.hex()}\n" for c, connection in enumerate(self.connections))

    def faults_text(self):
        """What is told of the first message of each connection that is refused."""
        faults = [(c, connection.fault) for c, connection in enumerate(self.connections)]
        return "".join(f"refused {c} {fault}\n" for c, fault in faults if fault is not None)
