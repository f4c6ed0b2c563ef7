"""What fetches presigned addresses for `interop/run`: curl and Python's urllib, which know nothing of S3."""

import os
import shutil
import subprocess
import tempfile
import urllib.error
import urllib.request
from pathlib import Path

from clients import PATIENCE

# The server itself is asked, and no proxy.
DIRECT = urllib.request.build_opener(urllib.request.ProxyHandler({}))


def by_urllib(method, address, data=None):
    """The status, the body and the length that a request is answered."""
    request = urllib.request.Request(address, data, method=method)
    try:
        with DIRECT.open(request, timeout=PATIENCE) as reply:
            return reply.status, reply.read(), int(reply.headers.get("Content-Length", 0))
    except urllib.error.HTTPError as error:
        with error:
            return error.code, error.read(), int(error.headers.get("Content-Length", 0))


def by_curl(method, address, data=None):
    """The same of curl."""
    with tempfile.TemporaryDirectory() as folder:
        body, lines, sent = (os.path.join(folder, name) for name in ("body", "lines", "sent"))
        Path(sent).write_bytes(data or b"")
        words = ["curl", "-sS", "--noproxy", "*", "--path-as-is", "--globoff", "-o", body, "-D", lines]
        words += {"GET": [], "HEAD": ["--head"], "PUT": ["-T", sent]}[method]
        subprocess.run([*words, address], stdin=subprocess.DEVNULL, check=True, timeout=PATIENCE)
        # The last head is that of the reply: one that asks for the body comes before it.
        head = Path(lines).read_bytes().decode().strip().split("\r\n\r\n")[-1].split("\r\n")
        length = dict(line.lower().split(": ", 1) for line in head[1:]).get("content-length", "0")
        got = Path(body).read_bytes() if Path(body).exists() and method != "HEAD" else b""
        return int(head[0].split(" ")[1]), got, int(length)


def fetchers():
    """Those of the two that are on this machine."""
    return [by_urllib, *([by_curl] if shutil.which("curl") else [])]
