"""The clients of S3 that are disks, or that keep backups, for `interop/run`."""

import contextlib
import json
import os
import re
import shutil
import stat
import subprocess
import time
import urllib.parse
from pathlib import Path

from clients import Lacking, Missing, first_line, in_order, ran, told
from commands import Command, environment
from server import BUCKET, ID, REGION


class Disk(Command):
    """A client whose objects are seen as files. Each call mounts it anew, so that nothing is told from a cache."""

    NO_FILES = "it is a disk, and has no such operation"

    @classmethod
    def absent(cls):
        has_fuse = Path("/dev/fuse").exists() and shutil.which("fusermount")
        return super().absent() or (None if has_fuse else "no FUSE here")

    def words(self, mount, *options):
        """The command that mounts it there with these options, and stays."""
        raise NotImplementedError

    def is_there(self, mount):
        """Whether it is mounted and answers: one whose secret is wrong is mounted, and ends once it has asked."""
        try:
            return mount.is_mount() and os.listdir(mount) is not None
        except OSError:
            return False

    @contextlib.contextmanager
    def mounted(self, *options):
        """The folder where it is mounted, with options of its own besides."""
        mount, said = Path(self.path() + "-disk"), Path(self.path())
        mount.mkdir()
        with said.open("wb") as log:
            running = subprocess.Popen(self.words(mount, *options), stdin=subprocess.DEVNULL, stdout=log, stderr=log)
        try:
            for _ in range(100):
                if self.is_there(mount) or running.poll() is not None:
                    break
                time.sleep(0.1)
            if running.poll() is not None:
                # What went wrong comes first. s3fs tries once more by Signature Version 2, and tells what came of that.
                lines = sorted(said.read_text(errors="replace").splitlines(), key=lambda line: "[INF]" in line)
                told(1, "\n".join(lines), refused=["403", "invalid credentials", "retry to connect"])
            yield mount
        finally:
            subprocess.run(["fusermount", "-u", mount], capture_output=True)
            try:
                running.wait(60)
            except subprocess.TimeoutExpired:
                running.kill()
                running.wait()


class S3backer(Disk):
    """`s3backer`, a disk whose blocks are objects: a put writes to the front of a new disk that is named as the key,
    and a get reads that from the disk."""

    name = program = "s3backer"
    SIZE = 8 << 20
    limits = dict.fromkeys(["head", "delete", "missing key", "wrong, 8 MiB", "wrong secret", "odd key"], Disk.NO_FILES)
    SIGNED = "their key is odd, which it signs otherwise than it asks"
    limits |= dict.fromkeys(["presigned get", "presigned head"], SIGNED)
    limits |= {"64 MiB": "the disk that is tried has 8 MiB"}

    def __init__(self, *words, **more):
        super().__init__(*words, **more)
        self.sizes, self.key = {}, ""

    def words(self, mount, *options):
        words = ["s3backer", "-f", f"--baseURL=http://{self.address}/"]
        words += [f"--accessId={ID}", f"--accessKey={self.secret}", "--blockSize=64k", f"--size={self.SIZE}"]
        words += [f"--prefix={urllib.parse.quote(self.key, safe='')}-", "--force", "--maxRetryPause=500"]
        return [*words, BUCKET, mount]

    def is_there(self, mount):
        return (mount / "file").exists()

    def put(self, key, data):
        self.key = key
        with self.mounted() as mount, (mount / "file").open("r+b") as disk:
            disk.write(data)
            disk.flush()
            os.fsync(disk.fileno())
        self.sizes[key] = len(data)

    def get(self, key):
        self.key = key
        with self.mounted() as mount, (mount / "file").open("rb") as disk:
            return disk.read(self.sizes[key])


class S3fs(Disk):
    """`s3fs`, a disk whose files are objects. It lists by the first version of the call where it isn't told otherwise,
    and keeps who may do what, and when a file was changed, in the metadata of objects."""

    name = program = "s3fs"
    skipped_in_json = "it asks for a list of objects before it mounts"
    limits = dict.fromkeys(["control bytes", "control bytes v1"], "its files have names without them")

    @classmethod
    def version(cls):
        return re.search(r"V([\d.]+)", first_line(["s3fs", "--version"]))[1]

    def words(self, mount, *options):
        keys = Path(self.path(f"{ID}:{self.secret}\n".encode()))
        keys.chmod(0o600)
        where = [f"url=http://{self.address}", "use_path_request_style", f"endpoint={REGION}"]
        return ["s3fs", BUCKET, mount, "-f", "-o", ",".join([f"passwd_file={keys}", *where, "retries=1", *options])]

    def put(self, key, data):
        with self.mounted() as mount:
            (mount / key).parent.mkdir(parents=True, exist_ok=True)
            (mount / key).write_bytes(data)

    def put_parts(self, key, data):
        # It chooses parts of 10 MiB by itself.
        self.put(key, data)

    @contextlib.contextmanager
    def found(self, *options):
        """The folder where it is mounted, whose files have to be there."""
        try:
            with self.mounted(*options) as mount:
                yield mount
        except FileNotFoundError as error:
            raise Missing(str(error)) from error

    def get(self, key):
        with self.found() as mount:
            return (mount / key).read_bytes()

    def part(self, key, first, count):
        with self.found() as mount, (mount / key).open("rb") as file:
            file.seek(first)
            return file.read(count)

    def head(self, key):
        with self.found() as mount:
            return (mount / key).stat().st_size

    def delete(self, key):
        with self.found() as mount:
            (mount / key).unlink()

    def move(self, key, other):
        with self.found() as mount:
            (mount / key).rename(mount / other)

    def move_large(self, key, other):
        with self.found("singlepart_copy_limit=16", "multipart_copy_size=16") as mount:
            (mount / key).rename(mount / other)

    def touch(self, key, moment):
        with self.found() as mount:
            os.utime(mount / key, (moment, moment))

    def moment(self, key):
        with self.found() as mount:
            return int((mount / key).stat().st_mtime)

    def set_mode(self, key, mode):
        with self.found() as mount:
            (mount / key).chmod(mode)

    def mode(self, key):
        with self.found() as mount:
            return stat.S_IMODE((mount / key).stat().st_mode)

    def patch(self, key, first, data):
        with self.found() as mount, (mount / key).open("r+b") as file:
            file.seek(first)
            file.write(data)

    def total(self, prefix):
        return sum(size for _, size in self.listed_first(prefix, ""))

    def listed(self, prefix, delimiter, page=None):
        return self.listed_first(prefix, delimiter, page, "listobjectsv2")

    def listed_first(self, prefix, delimiter, page=None, *options):
        if page is not None:
            raise Lacking()
        with self.found(*options) as mount:
            found = list((mount / prefix).glob("*" if delimiter else "**/*"))
            files = [(str(path.relative_to(mount)), path.stat().st_size) for path in found if path.is_file()]
            folders = [f"{path.relative_to(mount)}/" for path in found if path.is_dir()]
        return in_order(files, folders if delimiter else [])

    def remove_all(self, prefix):
        with self.found() as mount:
            shutil.rmtree(mount / prefix)

    def sync_up(self, folder, prefix):
        with self.mounted() as mount:
            shutil.rmtree(mount / prefix, ignore_errors=True)
            shutil.copytree(folder, mount / prefix)

    def sync_down(self, prefix, folder):
        shutil.rmtree(folder)
        with self.found() as mount:
            shutil.copytree(mount / prefix, folder)

    def add_up(self, folder, prefix):
        with self.mounted() as mount:
            shutil.copytree(folder, mount / prefix, dirs_exist_ok=True)


class Restic(Command):
    """`restic`: each key is a repository, whose one file is put by a backup, and got by a restore."""

    name = program = "restic"
    skipped_in_json = "it asks for lists of objects"
    limits = {"empty": "it keeps no backup of nothing", "head": "it has no such operation"}
    # The repository of the backups of folders.
    FOLDERS = "folders"

    @classmethod
    def version(cls):
        return first_line(["restic", "version"])

    def restic(self, key, *words, data=b"", folder=None):
        env = environment(AWS_ACCESS_KEY_ID=ID, AWS_SECRET_ACCESS_KEY=self.secret, RESTIC_PASSWORD="a password")
        place = f"s3:http://{self.address}/{BUCKET}/backup/{urllib.parse.quote(key, safe='')}"
        options = ["--no-cache", "-o", "s3.bucket-lookup=path", "-r", place]
        with open(self.path(data), "rb") as given:
            status, wrote, said = ran(["restic", *options, *words], env, given, folder)
        missing = ["does not exist", "no snapshot found", "no such file", "no matching ID"]
        told(status, said, missing, ["403", "signature", "Access Denied"])
        return wrote

    def begin_in(self, key):
        """Makes a repository, where there is none."""
        try:
            self.restic(key, "cat", "config")
        except Missing:
            self.restic(key, "init")

    def put(self, key, data):
        self.begin_in(key)
        self.restic(key, "backup", "--stdin", "--stdin-filename", "data", data=data)
        self.restic(key, "check", "--read-data")

    def put_parts(self, key, data):
        self.put(key, data)

    def get(self, key):
        return self.restic(key, "dump", "latest", "/data")

    def delete(self, key):
        self.restic(key, "forget", "--prune", *self.backups(key))

    def back_up(self, folder):
        self.begin_in(self.FOLDERS)
        before = self.backups()
        self.restic(self.FOLDERS, "backup", ".", folder=folder)
        return [it for it in self.backups() if it not in before][0]

    def backups(self, key=FOLDERS):
        return [it["id"] for it in json.loads(self.restic(key, "snapshots", "--json"))]

    def restore(self, backup, folder):
        self.restic(self.FOLDERS, "restore", backup, "--target", str(folder))

    def forget(self, backup):
        self.restic(self.FOLDERS, "forget", "--prune", backup)
        self.restic(self.FOLDERS, "check", "--read-data")


# Clients that can't work with this server at all: their names, their programs, and why.
UNABLE = [("libs3", "s3", "it signs by Signature Version 2 alone")]
