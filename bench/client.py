"""A client of S3 for `bench/` and `checks/`: signed requests as bytes, and connections that stay."""

import itertools
import json
import socket
import sys
from pathlib import Path

TOP = Path(__file__).resolve().parent.parent
sys.path += [str(TOP / "interop"), str(TOP / "examples")]

from server import BUCKET, ID, REGION, SECRET, Peer, Server  # noqa: E402,F401
from signing import CHUNKED, Signer, encoded, length_in_chunks, sha256  # noqa: E402


def asked_for(key, query=None):
    """The target of a key of the bucket, or of the bucket where that is empty, with these parameters."""
    path = encoded(f"/{BUCKET}/{key}", "/")
    asked = "&".join(sorted(f"{name}={encoded(value)}" for name, value in (query or {}).items()))
    return f"{path}?{asked}" if asked else path


def head_of(method, target, lines, length):
    """A head as bytes, which tells the length of its body where it has one, as the last line but one."""
    *signed, authorization = lines.items()
    sized = [("content-length", length)] if method in ("PUT", "POST") else []
    told = [f"{name}: {value}\r\n" for name, value in [*signed, *sized, authorization]]
    return f"{method} {target} HTTP/1.1\r\n{''.join(told)}\r\n".encode()


def request(address, method, key, body=b"", moment=None, more=None, query=None):
    """One signed request, as bytes, with more header lines and with parameters, where some are given."""
    target, signer = asked_for(key, query), Signer(ID, SECRET, REGION, moment)
    lines = signer.signed(method, target, {"host": address, **(more or {})}, sha256(body))
    return head_of(method, target, lines, len(body)) + body


def chunked(address, key, data, size):
    """A signed put, as bytes, whose body comes in signed chunks of this size."""
    target, signer = asked_for(key), Signer(ID, SECRET, REGION)
    told = {"host": address, "x-amz-decoded-content-length": str(len(data))}
    lines = signer.signed("PUT", target, told, CHUNKED)
    return head_of("PUT", target, lines, length_in_chunks(data, size)) + signer.in_chunks(lines, data, size)


def place_of(address):
    """The host and the port of an address."""
    host, port = address.rsplit(":", 1)
    return host, int(port)


class Cut(Exception):
    """The connection ended before its reply."""


class Connection:
    """A connection that stays, and is made again where it ended."""

    def __init__(self, address, patience=60):
        self.place = place_of(address)
        self.patience = patience
        self.socket = None
        self.kept = b""

    def open(self):
        if self.socket is None:
            self.socket = socket.create_connection(self.place, self.patience)
            self.socket.setsockopt(socket.IPPROTO_TCP, socket.TCP_NODELAY, 1)
            self.kept = b""
        return self.socket

    def close(self):
        if self.socket is not None:
            self.socket.close()
            self.socket = None

    def send(self, data):
        self.open().sendall(data)

    def more(self):
        piece = self.socket.recv(262144)
        if not piece:
            self.close()
            raise Cut()
        return piece

    def reply(self, has_body=True):
        """The status and the body of the next reply."""
        while (end := self.kept.find(b"\r\n\r\n")) < 0:
            self.kept += self.more()
        head, rest = self.kept[:end].split(b"\r\n"), self.kept[end + 4 :]
        status = int(head[0].split()[1])
        if status == 100:
            self.kept = rest
            return self.reply(has_body)
        fields = dict(line.split(b":", 1) for line in head[1:])
        fields = {name.lower(): value.strip() for name, value in fields.items()}
        size = int(fields.get(b"content-length", b"0")) if has_body else 0
        pieces, got = [rest], len(rest)
        while got < size:
            pieces.append(self.more())
            got += len(pieces[-1])
        whole = b"".join(pieces)
        self.kept = whole[size:]
        if fields.get(b"connection", b"").lower() == b"close" or head[0].startswith(b"HTTP/1.0"):
            self.close()
        return status, whole[:size]

    def ask(self, data):
        """Sends a request, and gives the status and the body of its reply."""
        self.send(data)
        return self.reply()


ROW = 64


def ask_rows(connection, requests):
    """Sends requests in rows, whose replies are read together. Each has to be answered with success."""
    requests = iter(requests)
    while row := list(itertools.islice(requests, ROW)):
        connection.send(b"".join(row))
        for _ in row:
            if connection.reply()[0] // 100 != 2:
                raise SystemExit("a request was refused")


def put_rows(connection, address, keys, data):
    """Puts an object under each of these keys, in rows."""
    ask_rows(connection, (request(address, "PUT", key, data) for key in keys))


def begin(connection, address, key):
    """The id of an upload that begins."""
    status, body = connection.ask(request(address, "POST", key, query={"uploads": ""}))
    if status != 200:
        raise SystemExit("an upload was refused")
    return json.loads(body)["UploadId"]


def part(address, key, upload, number, data):
    """The request that sends a part of an upload."""
    return request(address, "PUT", key, data, query={"partNumber": str(number), "uploadId": upload})


def completion(address, key, upload, tags, more=None):
    """The request that completes an upload, by the parts of these numbers with their tags, with more header lines."""
    listed = {"Parts": [{"ETag": tag, "PartNumber": number} for number, tag in sorted(tags.items())]}
    return request(address, "POST", key, json.dumps(listed).encode(), more=more, query={"uploadId": upload})


def abort(address, key, upload):
    """The request that aborts an upload."""
    return request(address, "DELETE", key, query={"uploadId": upload})
