"""The bytes of a body, as scenarios write them."""

import re

# A body of at most so many bytes is written out.
SHORT = 100


class Body:
    """The bytes of a body: texts that stand over and over, and how many bytes of each there are."""

    def __init__(self, runs=()):
        self.runs = [(text, size) for text, size in runs if size > 0]
        self.size = sum(size for _, size in self.runs)

    @classmethod
    def of(cls, text):
        """The bytes of a text."""
        return cls([(text, len(text.encode()))])

    @classmethod
    def read(cls, lines):
        """The bytes of lines: `TEXT*N` is N bytes of a text over and over, and any other stands for itself."""
        found = [(re.fullmatch(r"([^*]+)\*([0-9]+)", line), line) for line in lines]
        return cls([(it[1], int(it[2])) if it else (line, len(line.encode())) for it, line in found])

    def __add__(self, other):
        return Body(self.runs + other.runs)

    def cut(self, first, last):
        """The bytes from one place to another, which is the last one."""
        kept, at = [], 0
        for text, size in self.runs:
            begin, end = max(first - at, 0), min(last + 1 - at, size)
            turned = begin % len(text)
            kept.append((text[turned:] + text[:turned], end - begin))
            at += size
        return Body(kept)

    def bytes(self):
        return b"".join((text.encode() * (size // len(text) + 1))[:size] for text, size in self.runs)

    def lines(self):
        """The lines that stand for it: one where it is short, and else one for each run."""
        if self.size <= SHORT:
            return [self.bytes().decode()] if self.size else []
        return [text if size == len(text.encode()) else f"{text}*{size}" for text, size in self.runs]
