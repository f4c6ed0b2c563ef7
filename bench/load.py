"""Load for the scripts of this folder: processes with kept connections, each of which sends signed requests in
turn."""

import multiprocessing
import re
import select
import socket
import time

from client import place_of

LENGTH = re.compile(rb"\r\ncontent-length: *(\d+)", re.IGNORECASE)
ENDS = re.compile(rb"\r\nconnection: *close", re.IGNORECASE)
BUFFER = bytearray(1 << 20)


class Failed(Exception):
    """A request wasn't answered with success."""


class Lane:
    """A kept connection: a request is sent once the reply to the one before is there. Where the server ends the
    connection behind a reply, as moto's does, another one is made."""

    def __init__(self, address, requests):
        self.address, self.requests, self.done = address, requests, 0
        self.unsent, self.head, self.missing, self.ends = memoryview(b""), b"", None, False
        self.connect()

    def connect(self):
        self.socket = socket.create_connection(place_of(self.address), 60)
        self.socket.setsockopt(socket.IPPROTO_TCP, socket.TCP_NODELAY, 1)
        self.socket.setblocking(False)

    def begin(self):
        """Begins the next request, and tells whether it is sent whole."""
        self.unsent = memoryview(self.requests[self.done % len(self.requests)])
        self.head, self.missing = b"", None
        return self.send()

    def send(self):
        """Sends what goes, and tells whether nothing is left."""
        try:
            while self.unsent:
                self.unsent = self.unsent[self.socket.send(self.unsent) :]
        except BlockingIOError:
            pass
        return not self.unsent

    def read(self):
        """Reads what came, and tells whether the reply is whole."""
        got = self.socket.recv_into(BUFFER)
        if got == 0:
            raise Failed("the connection ended in place of a reply")
        if self.missing is not None:
            self.missing -= got
        else:
            self.head += BUFFER[:got]
            self.read_head()
        return self.missing == 0

    def read_head(self):
        end = self.head.find(b"\r\n\r\n")
        if end < 0:
            return
        if not self.head.startswith((b"HTTP/1.1 2", b"HTTP/1.0 2")):
            raise Failed(f"a request was answered {self.head[:12]!r}")
        self.ends = self.head[7] == ord("0") or ENDS.search(self.head, 0, end + 2) is not None
        length = LENGTH.search(self.head, 0, end + 2)
        self.missing = (int(length[1]) if length else 0) - (len(self.head) - end - 4)


class Drive:
    """Some lanes, which are served as they are ready."""

    def __init__(self, address, sets):
        self.poll, self.lanes = select.epoll(), {}
        for requests in sets:
            self.take(Lane(address, requests))

    def take(self, lane):
        """Has a lane begin whose connection is new."""
        self.lanes[lane.socket.fileno()] = lane
        self.poll.register(lane.socket, select.EPOLLIN | (0 if lane.begin() else select.EPOLLOUT))

    def go_on(self, fd, what):
        """Serves a lane that is ready."""
        lane = self.lanes[fd]
        if what & select.EPOLLOUT and lane.send():
            self.poll.modify(fd, select.EPOLLIN)
        if what & ~select.EPOLLOUT and lane.read():
            lane.done += 1
            if lane.ends:
                self.again(fd, lane)
            elif not lane.begin():
                self.poll.modify(fd, select.EPOLLIN | select.EPOLLOUT)

    def again(self, fd, lane):
        """Makes another connection for a lane."""
        self.poll.unregister(fd)
        del self.lanes[fd]
        lane.socket.close()
        lane.connect()
        self.take(lane)

    def run(self, seconds):
        """How many requests were answered in so many seconds."""
        until = time.monotonic() + seconds
        while (now := time.monotonic()) < until:
            for fd, what in self.poll.poll(until - now):
                self.go_on(fd, what)
        for lane in self.lanes.values():
            lane.socket.close()
        return sum(lane.done for lane in self.lanes.values())


def process(address, make, numbers, seconds, ready, start, told):
    """One process, with a connection for each of these numbers."""
    try:
        sets = [make(number) for number in numbers]
        ready.release()
        start.wait()
        told.put(Drive(address, sets).run(seconds))
    except Exception as error:
        ready.release()
        told.put(repr(error))


def rate(address, make, seconds, processes=2, connections=4):
    """How many requests a second are answered; `make` gives the requests of a connection by its number."""
    ready, start, told = multiprocessing.Semaphore(0), multiprocessing.Event(), multiprocessing.Queue()
    running = []
    for number in range(processes):
        numbers = range(number * connections, (number + 1) * connections)
        words = (address, make, numbers, seconds, ready, start, told)
        running.append(multiprocessing.Process(target=process, args=words, daemon=True))
        running[-1].start()
    for _ in running:
        ready.acquire()
    began = time.monotonic()
    start.set()
    counts = [told.get(timeout=seconds + 60) for _ in running]
    took = time.monotonic() - began
    for one in running:
        one.join()
    for count in counts:
        if isinstance(count, str):
            raise SystemExit(f"the load failed: {count}")
    return sum(counts) / took
