"""A disk that forgets what wasn't synced, by the calls that `device_checker/record.c` recorded, for `checks/forgets`.

What was synced is there: a file's bytes by a sync of the file, a name by a sync of the folder that it stands in, and
nothing else, also where a file system would have more. Of what waits for its sync a variant says what is there."""

import bisect
import collections
import itertools
import os
import struct
from pathlib import Path
from typing import NamedTuple

SECTOR = 512
MADE_FILE, MADE_FOLDER, WROTE, SIZED, SYNCED = range(5)
WORDS, NAMES = ("make", "make folder", "write", "size", "sync"), (MADE_FILE, MADE_FOLDER)
# The fate of a piece in whose place anything stands: zeros, or bytes by chance.
LITTER = "litter"


class Call(NamedTuple):
    """A call, or what it does in one sector. A new size stands in `at`."""

    kind: int
    path: str
    at: int
    data: bytes

    def __str__(self):
        more = {WROTE: f" {len(self.data)} bytes at {self.at}", SIZED: f" {self.at}"}
        return f"{WORDS[self.kind]} {self.path or '.'}{more.get(self.kind, '')}"

    def pieces(self):
        """What may be there or not, each by itself."""
        if self.kind != WROTE:
            return [self]
        ends = range(self.at - self.at % SECTOR + SECTOR, self.at + len(self.data) + SECTOR, SECTOR)
        return [self._replace(at=a, data=self.data[a - self.at : b - self.at]) for a, b in zip([self.at, *ends], ends)]

    def make(self, names, files):
        """Does it to the kinds of the names and the bytes of the files."""
        if self.kind in NAMES:
            names[self.path] = self.kind
            return
        data = files.setdefault(self.path, bytearray())
        data.extend(bytes(max(0, self.at - len(data))))
        data[self.at : self.at + len(self.data) if self.kind == WROTE else None] = self.data


class Trace:
    """The calls that are recorded in a file. Those of the file `unread`, whose bytes nobody reads, are without bytes."""

    def __init__(self, file, unread=None):
        self.file, self.unread, self.calls, self.ends = file, unread, [], [0]

    def size(self):
        return self.file.stat().st_size

    def read(self):
        """Reads the calls that came since it was last read."""
        with self.file.open("rb") as file:
            file.seek(self.ends[-1])
            data = file.read()
        head, at = struct.Struct("=IIQQ"), 0
        while at + head.size < len(data):
            kind, length, place, size = head.unpack_from(data, at)
            begin = at + head.size + length
            path, at = data[at + head.size : begin].decode(), begin + size
            self.calls.append(Call(kind, path, place, data[begin:at] if path != self.unread else b""))
            self.ends.append(self.ends[-1] + head.size + length + size)

    def count(self, size):
        """How many calls there were when the trace had this size."""
        return bisect.bisect_right(self.ends, size) - 1

    def end(self, path):
        """Where the last write to a file ended that wasn't of zeros alone."""
        writes = (it for it in reversed(self.calls) if it.path == path and it.data.strip(b"\0"))
        return next(it.at + len(it.data) for it in writes)


def kept(rule):
    return lambda calls, chance: [[rule(it)] * len(it.pieces()) for it in calls]


def of(name):
    """What waits of the files of this name, and all names."""
    return kept(lambda it: it.kind in NAMES or os.path.basename(it.path) == name)


def up_to_one(calls, chance):
    """All that comes before some piece."""
    ends = list(itertools.accumulate((len(it.pieces()) for it in calls), initial=0))
    left = chance.randint(0, ends[-1])
    return [[number < left for number in range(*span)] for span in zip(ends, ends[1:])]


def by_calls(calls, chance):
    return [[chance.random() < 0.5] * len(it.pieces()) for it in calls]


def by_pieces(*fates):
    return lambda calls, chance: [[chance.choice(fates) for _ in it.pieces()] for it in calls]


# What is there of the calls that wait for one sync: of each call, and of each of its pieces, whether it is. Those of the
# second table are by chance.
CERTAIN = {
    "nothing": kept(lambda it: False),
    "names": kept(lambda it: it.kind in NAMES),
    "blocks": of("blocks"),
    "the log": of("records.db-wal"),
    "the database": of("records.db"),
    "all": kept(lambda it: True),
}
BY_CHANCE = {
    "up to some sector": up_to_one,
    "some calls": by_calls,
    "some sectors": by_pieces(True, False),
    "some sectors and litter": by_pieces(True, False, LITTER),
}


def litter(size, chance):
    return bytes(size) if chance.random() < 0.5 else chance.randbytes(size)


class Disk:
    """What is there for certain, and the calls that wait for a sync of a file, or of the folder that has their name. Syncs
    of `lies` are answered, and aren't done."""

    def __init__(self, lies=None):
        self.lies, self.names, self.files, self.waiting = lies, {}, {}, collections.defaultdict(list)

    def take(self, call):
        if call.kind != SYNCED:
            self.waiting[os.path.dirname(call.path) if call.kind in NAMES else call.path].append(call)
        elif call.path != self.lies:
            for it in self.waiting.pop(call.path, ()):
                it.make(self.names, self.files)

    def left(self, rule, chance=None):
        """What a cut leaves: the bytes of each file, None for a folder, each folder before what is in it."""
        names, files = dict(self.names), dict(self.files)
        for path, calls in self.waiting.items():
            if path in files:
                files[path] = bytearray(files[path])
            for call, fates in zip(calls, rule(calls, chance)):
                for piece, fate in zip(call.pieces(), fates):
                    if fate == LITTER:
                        piece = piece._replace(data=litter(len(piece.data), chance))
                    if fate:
                        piece.make(names, files)
        there = (it for it in sorted(names) if all(str(above) in names for above in Path(it).parents[:-1]))
        return {it: bytes(files.get(it, b"")) if names[it] == MADE_FILE else None for it in there}


def lay(left, folder):
    """Makes the files and folders of what a cut left, in a new folder."""
    folder.mkdir()
    for path, data in left.items():
        (folder / path).mkdir() if data is None else (folder / path).write_bytes(data)


def seen_in(folder):
    """What is in a folder, in the same form."""
    paths = sorted(folder.rglob("*"))
    return {str(it.relative_to(folder)): it.read_bytes() if it.is_file() else None for it in paths}
