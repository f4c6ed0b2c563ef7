"""The XML of requests, as Python's own reader (expat) reads it: documents of XML 1.0 in UTF-8, without a document type
and without processing instructions, in which at most 16 elements stand in each other."""

from xml.parsers import expat

MOST_LEVELS, WHITE = 16, " \t\r\n"


class NotXml(Exception):
    """The bytes are no such document."""


class Element:
    """An element: its name without a prefix, the elements in it, and its text, which is that of an element with none in
    it."""

    def __init__(self, name):
        self.name, self.children, self.content = name.rpartition(":")[2], [], ""

    @property
    def text(self):
        return "" if self.children else self.content


class Reader:
    """Reads one document."""

    def __init__(self):
        self.open, self.root = [], None
        self.parser = expat.ParserCreate("utf-8")
        self.parser.buffer_text = True
        self.parser.StartElementHandler = self.begin
        self.parser.EndElementHandler = self.end
        self.parser.CharacterDataHandler = self.text
        self.parser.StartDoctypeDeclHandler = self.refuse
        self.parser.ProcessingInstructionHandler = self.refuse

    def refuse(self, *_):
        raise NotXml

    def begin(self, name, _attributes):
        if len(self.open) == MOST_LEVELS:
            raise NotXml
        made = Element(name)
        if self.open:
            self.open[-1].children.append(made)
        self.open.append(made)

    def end(self, _name):
        self.root = self.open.pop()

    def text(self, text):
        self.open[-1].content += text


def read(body, root):
    """What stands in the root of this name of a document."""
    reader = Reader()
    try:
        reader.parser.Parse(body, True)
    except (expat.ExpatError, UnicodeDecodeError):
        raise NotXml from None
    if reader.root.name != root:
        raise NotXml
    return reader.root.children


def last_text(elements, name):
    """The text of the last element of a name, where there is one."""
    return next((it.text for it in reversed(elements) if it.name == name), None)


def rows(elements, name):
    """What stands in each element of a name."""
    return [it.children for it in elements if it.name == name]


def trimmed(text):
    """A text without white space at its ends."""
    return text.strip(WHITE)
