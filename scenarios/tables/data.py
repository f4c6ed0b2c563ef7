"""The committed data of `s3_scenarios`, and of other programs, which makers write, or compare with what they make."""

import argparse
import sys
from pathlib import Path

from . import TOP

DATA = TOP / "crates/s3_scenarios/data"


def in_both(in_json, in_xml):
    """The files of an example in both dialects, or in JSON alone where it has no document."""
    return in_json | in_xml if list(in_json.values()) != list(in_xml.values()) else in_json


def run(about, makers):
    """Has the makers of the names of the command line, or all, write their files; with `--check` it writes none, says
    which files are others, and ends with status 1 where there is one. A maker gives texts by the names of their files, or
    by whole paths where they aren't of `s3_scenarios`."""
    words = argparse.ArgumentParser(description=about, formatter_class=argparse.RawDescriptionHelpFormatter)
    words.add_argument("--check", action="store_true", help="write nothing, and say what differs")
    words.add_argument("names", nargs="*", metavar="NAME", help="what to make (all, where none is named)")
    asked = words.parse_args()
    if unknown := [name for name in asked.names if name not in makers]:
        words.error(f"nothing here makes {' '.join(unknown)}")
    made = {file: text.encode() for name in asked.names or makers for file, text in makers[name]().items()}
    if asked.check:
        others = [file for file in made if not (DATA / file).is_file() or (DATA / file).read_bytes() != made[file]]
        for file in others:
            print(f"{(DATA / file).relative_to(TOP)} isn't what scenarios/{Path(sys.argv[0]).name} makes", flush=True)
        sys.exit(1 if others else 0)
    for file, text in made.items():
        (DATA / file).write_bytes(text)
