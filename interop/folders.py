"""The checks of `interop/run` with whole folders, which it makes with `--dialect s3` alone."""

import os
import tempfile
from pathlib import Path

from clients import MIB
from expected import same
from for_s3 import filled, large_data, new_bucket

FILES = {"a b.txt": b"1", "a+b": b"22", "a%20b": b"333", "a&b<c>'d": b"4", "ü €/漢字": b"5", "deep/er/file": b"6"}
# Some clients compare files by size and time alone: each change is one of the size.
CHANGED = {"a b.txt": b"another", "deep/er/new": b""}


def write(folder, files):
    for name, data in files.items():
        path = Path(folder, name)
        path.parent.mkdir(parents=True, exist_ok=True)
        path.write_bytes(data)


def read(folder):
    """The files of a folder with their bytes, by their paths."""
    files = [path for path in Path(folder).rglob("*") if path.is_file()]
    return {str(path.relative_to(folder)): path.read_bytes() for path in files}


def same_files(told, wanted, what):
    """These are the same names and the same bytes. Only names are told, since files are large."""
    same(sorted(told), sorted(wanted), what)
    same([name for name in wanted if told[name] != wanted[name]], [], f"{what} with other bytes")


def sync(client, _other):
    direct, prefix = filled(client, [])
    with tempfile.TemporaryDirectory() as here, tempfile.TemporaryDirectory() as there:
        write(here, FILES)
        client.sync_up(here, prefix)
        same_files(direct.objects(prefix), FILES, "the objects")
        Path(here, "a+b").unlink()
        write(here, CHANGED)
        client.sync_up(here, prefix)
        same_files(direct.objects(prefix), read(here), "the objects after a change")
        write(there, {"only there": b"x"})
        client.sync_down(prefix, there)
        same_files(read(there), read(here), "the files")


def add(client, _other):
    direct, prefix = filled(client, ["only there"])
    with tempfile.TemporaryDirectory() as here, tempfile.TemporaryDirectory() as there:
        write(here, {**FILES, "8 MiB": os.urandom(8 * MIB), "large": large_data(client)})
        for changed in ({}, CHANGED):
            write(here, changed)
            client.add_up(here, prefix)
            same_files(direct.objects(prefix), {**read(here), "only there": b"hello"}, "the objects")
        client.sync_down(prefix, there)
        same_files(read(there), direct.objects(prefix), "the files")


def copy_all(client, _other):
    direct, prefix = filled(client, [])
    bucket, files = new_bucket(direct), {**FILES, "large": os.urandom(20 * MIB)}
    for name, data in files.items():
        direct.put(prefix + name, data)
    client.copy_all(prefix, bucket, "other/")
    same_files(direct.objects("other/", bucket), files, "the objects")


def remove_all(client, _other):
    direct, folder = filled(client, ["a", "b/c", "b/d e", "f+%"])
    client.remove_all(folder)
    same(direct.keys(folder), [], "the keys")


def backups(client, _other):
    with tempfile.TemporaryDirectory() as here:
        write(here, {**FILES, "large": os.urandom(20 * MIB)})
        first, before = client.back_up(here), read(here)
        Path(here, "a+b").unlink()
        write(here, CHANGED)
        second, after = client.back_up(here), read(here)
        restored(client, {first: before, second: after})
        client.forget(first)
        same(client.backups(), [second], "the backups")
        restored(client, {second: after})


def restored(client, backups):
    """These files come of these backups."""
    for backup, files in backups.items():
        with tempfile.TemporaryDirectory() as there:
            client.restore(backup, there)
            same_files(read(there), files, "the files")


# By name, in their order, as those of `interop/run`.
CHECKS_OF_FOLDERS = {
    "sync": sync,
    "add": add,
    "copy all": copy_all,
    "remove all": remove_all,
    "backups": backups,
}
