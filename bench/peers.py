"""The servers that `bench/run` compares with: those of Debian's packages that take a put and a get of an object."""

import os
import pwd
import shutil
import signal
import socket
import subprocess
import tempfile
import time
from pathlib import Path

from client import BUCKET, Connection, request

# What nginx serves stands in memory, as s3d's objects do. It verifies nothing.
NGINX = """daemon off;
pid {folder}/pid;
error_log {folder}/errors;
worker_processes auto;
user {user};
events {{ worker_connections 4096; }}
http {{
    access_log off;
    sendfile on;
    tcp_nodelay on;
    keepalive_requests 1000000000;
    client_max_body_size 64m;
    client_body_buffer_size 64k;
    client_body_temp_path {folder}/bodies;
    proxy_temp_path {folder}/proxy;
    fastcgi_temp_path {folder}/fastcgi;
    uwsgi_temp_path {folder}/uwsgi;
    scgi_temp_path {folder}/scgi;
    server {{
        listen {address};
        root {folder}/files;
        dav_methods PUT DELETE;
        create_full_put_path on;
    }}
}}
"""


def free_address():
    """An address on the loopback whose port is free."""
    with socket.socket() as free:
        free.bind(("127.0.0.1", 0))
        return f"127.0.0.1:{free.getsockname()[1]}"


def descendants(pid):
    """A process and all that it started."""
    for line in Path(f"/proc/{pid}/task/{pid}/children").read_text().split():
        yield from descendants(int(line))
    yield pid


class Started:
    """A server that is started for the measurement, and ends with it."""

    name, program, about = "", "", ""

    @classmethod
    def absent(cls):
        """Why it can't be started here, or None."""
        return None if shutil.which(cls.program) else "not installed"

    def __enter__(self):
        # A folder in memory, where there is one.
        self.folder = tempfile.mkdtemp(dir="/dev/shm" if os.path.isdir("/dev/shm") else None)
        self.address = free_address()
        words = self.words()
        silent = dict.fromkeys(("stdin", "stdout", "stderr"), subprocess.DEVNULL)
        self.running = subprocess.Popen(words, **silent)
        for _ in range(150):
            try:
                Connection(self.address, 5).open()
                break
            except OSError:
                time.sleep(0.2)
        else:
            self.__exit__()
            raise SystemExit(f"{self.name} doesn't listen")
        self.prepare()
        return self

    def __exit__(self, *_):
        self.running.send_signal(signal.SIGTERM)
        try:
            self.running.wait(20)
        except subprocess.TimeoutExpired:
            self.running.kill()
        shutil.rmtree(self.folder, ignore_errors=True)

    def prepare(self):
        """What has to be done before it takes objects."""

    def processor_seconds(self):
        """The seconds of processor time that it and what it started took."""
        total = 0
        for pid in descendants(self.running.pid):
            fields = Path(f"/proc/{pid}/stat").read_text().rsplit(")", 1)[1].split()
            total += int(fields[11]) + int(fields[12])
        return total / os.sysconf("SC_CLK_TCK")


class Nginx(Started):
    name, program = "nginx", "nginx"
    about = "WebDAV over files in memory; verifies no signature and no hash"

    @classmethod
    def absent(cls):
        return super().absent() or cls.without_dav()

    @classmethod
    def without_dav(cls):
        said = subprocess.run([cls.program, "-V"], capture_output=True, text=True).stderr
        return None if "http_dav_module" in said else "it has no module for WebDAV"

    @classmethod
    def version(cls):
        return subprocess.run([cls.program, "-v"], capture_output=True, text=True).stderr.split("/")[-1].strip()

    def words(self):
        files = Path(self.folder, "files", BUCKET)
        files.mkdir(parents=True)
        config = Path(self.folder, "config")
        user = pwd.getpwuid(os.getuid()).pw_name
        config.write_text(NGINX.format(folder=self.folder, address=self.address, user=user))
        return [self.program, "-p", self.folder, "-c", config]


class Moto(Started):
    name, program = "moto", "moto_server"
    about = "a test double of S3 in Python; verifies no signature"

    @classmethod
    def version(cls):
        said = subprocess.run(
            ["python3", "-c", "import moto; print(moto.__version__)"], capture_output=True, text=True
        )
        return said.stdout.strip()

    def words(self):
        host, port = self.address.split(":")
        return [self.program, "-H", host, "-p", port]

    def prepare(self):
        status, _ = Connection(self.address).ask(request(self.address, "PUT", ""))
        if status != 200:
            raise SystemExit(f"moto answers {status} in place of making a bucket")


PEERS = [Nginx, Moto]
