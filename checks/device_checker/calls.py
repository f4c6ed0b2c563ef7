"""Connections and runs of the program in one process, over devices that fail at a call: has the Rattle program beside this
file built, and judges the lines that it tells. It is the part `calls` of `checks/devices`."""

import subprocess
import sys
import tempfile
from collections import Counter
from pathlib import Path

sys.path.append(str(Path(__file__).resolve().parent.parent))

from messages import BUCKET, ID, SECRET, Sender  # noqa: E402
from replies import Wrong, replies_in  # noqa: E402
from unproved import build  # noqa: E402

MOMENT = 1_369_353_600
OTHER = ("AKIAI44QH8DHBEXAMPLE", "je7MtGbClwBF/2Zp9Utk/h3yCo8nvbEXAMPLEKEY")
KEYS = f"{ID} {SECRET}\n{OTHER[0]} {OTHER[1]}\n".encode()
CHECKER = "device_checker"
BELOW = (
    "s3_names s3_terms s3_calendar s3_config s3_events s3_devices s3_settings s3_records s3_store s3_machine s3_history "
    "s3_journal s3_driver s3_keepers s3_cli"
)
REPLAY = ["replay", "--keys", "keys", "--bucket", BUCKET]
SIGN = ["sign", "--keys", "keys", "--id", OTHER[0], "--moment", str(MOMENT), "--method", "PUT", "--target", f"/{BUCKET}/k"]
# What a call does that is asked again; and how many bytes one moves that moves all, as the lines tell it.
LATE, WHOLE = ("interrupted", "later"), "1000000"


def need(holds, what, *more):
    if not holds:
        raise Wrong(" ".join(map(str, [what, *more])))


def messages(host, moment=None):
    """A put by one credential and a get by another."""
    return Sender(host, moment).request("PUT", f"/{BUCKET}/k", b"hello"), Sender(host, moment, OTHER).request("GET", f"/{BUCKET}/k")


class Runs:
    """What the checker is run on: its words and its input, by the names of the runs."""

    def __init__(self):
        put, get = messages("localhost", MOMENT)
        self.put, self.sent = put, put + get
        events = f"moments 0 {MOMENT}\npiece 0 {self.sent.hex()}\nturn 0\nturn 0\nend 0\n".encode()
        self.cases = {
            "connection": (["connection"], f"piece 0 {self.sent.hex()}\npiece 1 {get.hex()}\n".encode()),
            "replay": (["program", *REPLAY, "--moment", str(MOMENT)], self.sent),
            "events": (["program", *REPLAY, "--events"], events),
            "sign": (["program", *SIGN, "--host", "localhost", "--body", "hello"], b""),
            "no keys": (["program", "replay", "--keys", "none", "--moment", "0"], b""),
            "help": (["program", "sign", "--help"], b""),
        }


def checker_lines(asked, runs):
    """The lines that the checker tells of each run, by their names."""
    with tempfile.TemporaryDirectory() as folder:
        program = build(asked.tree, CHECKER, Path(folder, CHECKER), BELOW)
        for name, (words, given) in runs.cases.items():
            ran = subprocess.run([program, *words], input=given, capture_output=True, timeout=asked.seconds)
            need(ran.returncode == 0, "the checker of", name, "ends with status", ran.returncode, ran.stderr[-3000:])
            yield name, ran.stdout.decode().splitlines()


def judge_connection(line, calls, runs, replies):
    """What a line says that came of a connection, in words; `calls` are those that it takes without a fault."""
    most, what, fault, call, ending, written, begins, answered, entries, reads, writes, next_ending, *shown = line.split(" ")
    most, call, written, entries, reads, writes = map(int, (most, call, written, entries, reads, writes))
    whole, first, is_hit = sum(replies), replies[0], what != "both" and call <= calls[what]
    need(begins == "true" and int(answered) == entries, "no beginning, or other entries:", line)
    status, number, then = "200" if entries else "404", int(shown[1], 16), int(shown[2])
    need((next_ending, shown[0], number, then) == ("closed", status, entries, entries + 1), "another store:", line)
    if not is_hit or fault in LATE:
        late = {it: is_hit and it == what for it in ("read", "write")}
        need((ending, written, entries) == ("closed", whole, 2), "not all is answered:", line)
        need((reads, writes) == (calls["read"] + late["read"], calls["write"] + late["write"]), "other calls:", line)
        return "all is answered"
    if what == "read":
        given = min(most * (call - 1), len(runs.sent))
        wanted = (given >= len(runs.put)) + (given >= len(runs.sent))
        need((ending, entries, written, reads) == ("read_failed", wanted, sum(replies[:wanted]), call), "read:", line)
        return "read failed"
    begun = written - (fault == "unflushed")
    need((ending, writes, entries) == ("write_failed", call, 1 + (begun >= first)), "write:", line)
    return "write failed"


def judge_run(line, calls, full, told):
    """The same of a run of the program, which writes and tells these bytes where no call goes wrong."""
    most, what, fault, call, status, written, begins, reads, writes, tellings, said = line.split(" ")
    most, call, status, written = map(int, (most, call, status, written))
    is_hit, said = what != "both" and call <= calls[what], bytes.fromhex(said)
    need(begins == "true", "no beginning:", line)
    plain = 1 if told.startswith(b"s3d: ") else 2 if told else 0
    if not is_hit or fault in LATE:
        need((status, written, said) == (plain, len(full), told), "not all is done:", line)
        return "all is done"
    if what == "tell":
        is_cut = said == told if fault == "unflushed" and call == calls[what] else len(said) < len(told)
        need(status == plain and told.startswith(said) and int(tellings) == call and is_cut, "told:", line)
        return f"status {status}, a beginning of what is told"
    moved = min(most * (call - (fault != "unflushed")), len(full)) if what == "write" else 0
    wanted = b"s3d: input failed\n" if what == "read" else b"s3d: output failed\n"
    need((status, written, said, int(reads if what == "read" else writes)) == (1, moved, wanted, call), "run:", line)
    return f"{what} failed, status 1"


def calls_of(lines):
    """How many calls of each kind there are at each size: one less than the greatest that is told."""
    most = Counter()
    for line in lines:
        size, what, _, call, *_ = line.split(" ")
        most[size, what] = max(most[size, what], int(call) - 1)
    return {size: {what: most[size, what] for what in ("read", "write", "tell")} for size, _ in most}


def calls(asked):
    """The runs of the checker."""
    runs, total = Runs(), 0
    for name, (first, *lines) in checker_lines(asked, runs):
        full, told, *_ = (bytes.fromhex(it) for it in first.split(" ")[:2])
        counted, found = calls_of(lines), Counter()
        if name == "connection":
            replies = replies_in(full)
            need([it[0] for it in replies] == [200, 200] and replies[1][2] == b"hello", "not answered:", full)
            cut = full.index(b"HTTP/1.1", 1)
            sizes = [cut, len(full) - cut]
        for line in lines:
            size, what, fault, *_ = line.split(" ")
            # The streams of which no call goes wrong move all at once.
            taken = counted[size] if what == "both" else {**counted[WHOLE], what: counted[size][what]}
            if name == "connection":
                ends = judge_connection(line, taken, runs, sizes)
            else:
                ends = judge_run(line, taken, full, told)
            found[what, fault, ends] += 1
        print(f"{name}: {len(lines)} runs; calls by size: {counted}")
        for (what, fault, ends), count in sorted(found.items()):
            print(f"  {count:6}  {what} {fault}: {ends}", flush=True)
        total += len(lines)
    return total
