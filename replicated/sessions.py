"""Sessions of clients on the port of a replica, as docs/CLIENTS.md says of `recline serve`."""
from __future__ import annotations

import collections
import queue
import re
import socket
import threading
import time
from collections.abc import Callable, Iterable
from typing import TYPE_CHECKING

from faults import Taken

if TYPE_CHECKING:
    from replica import Replica

LONGEST = 8192
# How many bytes are read at once, and how many lines are taken out of them and wait at once.
PIECE, GROUP = 16384, 100
METHODS = tuple(method + b" " for method in (b"GET", b"POST", b"PUT", b"HEAD", b"OPTIONS", b"DELETE", b"PATCH", b"CONNECT", b"TRACE"))
# What has an answer of some hundred kilobytes.
LARGE = re.compile(b"LINE |GARBAGE$")


def is_last(line: bytes) -> bool:
    """Whether a session ends with the reply to this line."""
    return line == b"BYE" or len(line) > LONGEST


class Rested(Exception):
    """The client rested for longer than it may."""


class Over(Exception):
    """The replica answers nothing any more."""


class Session:
    """One client. Its thread reads a piece, takes some lines at a time out of it, has them answered, and sends each reply as it comes. So what is kept for
    a client are a piece and the beginning of a line, a hundred lines of them, and their replies, of which one at most is large."""

    def __init__(self, connection: socket.socket, replica: Replica, idle: int) -> None:
        self.connection = connection
        self.replica = replica
        self.idle = idle
        self.waited = 0.0
        # None comes after the last reply, if the replica answers nothing any more.
        self.replies: queue.SimpleQueue[bytes | None] = queue.SimpleQueue()
        self.is_asking = False

    def receive(self) -> bytes:
        """The next bytes, or none at the end."""
        begun = time.monotonic()
        if self.idle:
            self.connection.settimeout(max(0.001, self.idle - self.waited))
        piece = self.connection.recv(PIECE)
        self.waited = 0 if b"\n" in piece else self.waited + time.monotonic() - begun
        if self.idle and self.waited >= self.idle:
            raise Rested()
        return piece

    def send(self, text: bytes) -> None:
        """Sends it all. The client has the whole limit each time that it takes some of it."""
        if self.idle:
            self.connection.settimeout(self.idle)
        view = memoryview(text)
        while view:
            view = view[self.connection.send(view):]

    def answer(self, asked: Iterable[bytes]) -> bool:
        """Sends the replies to these lines, and answers whether the session goes on."""
        lines = collections.deque(asked)
        while lines and not is_last(lines[0]):
            group = [lines.popleft()]
            while lines and len(group) < GROUP and not is_last(lines[0]) and not LARGE.match(group[-1]):
                group.append(lines.popleft())
            self.answer_group(group)
        if lines:
            self.send(b"BYE\n" if lines[0] == b"BYE" else b"BAD 2\n")
        return not lines

    def answer_group(self, group: list[bytes]) -> None:
        left, self.is_asking = len(group), True
        self.replica.submit(group, self.replies)
        while left:
            text = [self.replies.get()]
            while len(text) < left and not self.replies.empty():
                text.append(self.replies.get())
            left -= len(text)
            is_over = text[-1] is None
            self.send(b"".join(reply + b"\n" for reply in text if reply is not None))
            if is_over:
                raise Over()
        self.is_asking = False

    def serve(self) -> None:
        rest, is_first = b"", True
        while True:
            piece = self.receive()
            rest += piece
            if not piece or is_first and rest.startswith(METHODS):
                return
            while b"\n" in rest:
                is_first = False
                *lines, rest = rest.split(b"\n", GROUP)
                if not self.answer(lines):
                    return
            if len(rest) > LONGEST:
                self.answer([rest])
                return

    def end(self) -> None:
        """The client sees the end behind all replies. What it sent beyond is read for a second, lest the system throw away replies that it has not
        read yet."""
        limit = time.monotonic() + 1
        try:
            self.connection.shutdown(socket.SHUT_WR)
            while time.monotonic() < limit:
                self.connection.settimeout(max(0.001, limit - time.monotonic()))
                if not self.connection.recv(PIECE):
                    break
        except OSError:
            pass
        self.connection.close()

    def run(self) -> None:
        try:
            self.serve()
        except (OSError, Rested, Over):
            pass
        self.end()


class Door:
    """The port, on which so many clients are served at once. Further ones wait in the system's queue."""

    def __init__(self, port: int, clients: int, idle: int) -> None:
        self.socket = socket.socket()
        self.socket.setsockopt(socket.SOL_SOCKET, socket.SO_REUSEADDR, 1)
        self.claim_port(lambda: self.socket.bind(("127.0.0.1", port)), port)
        self.port = self.socket.getsockname()[1]
        self.free = threading.BoundedSemaphore(clients)
        self.idle = idle
        self.sessions: set[Session] = set()
        self.lock = threading.Lock()

    def claim_port(self, call: Callable[[], object], port: int) -> None:
        try:
            call()
        except OSError as fault:
            raise Taken("cannot listen on 127.0.0.1:%d: %s" % (port, fault))

    def open(self, replica: Replica) -> None:
        """Takes clients. Before that connecting is refused, so that they go to another replica."""
        self.claim_port(lambda: self.socket.listen(256), self.port)
        threading.Thread(target=self.admit, args=[replica], daemon=True).start()

    def admit(self, replica: Replica) -> None:
        while True:
            self.free.acquire()
            try:
                connection, _ = self.socket.accept()
                connection.setsockopt(socket.IPPROTO_TCP, socket.TCP_NODELAY, 1)
                session = Session(connection, replica, self.idle)
                threading.Thread(target=self.run, args=[session], daemon=True).start()
            except (OSError, RuntimeError):
                # A client that is gone again, or no descriptor or thread left for it: it waits, or connects anew.
                self.free.release()
                time.sleep(0.1)

    def run(self, session: Session) -> None:
        with self.lock:
            self.sessions.add(session)
        try:
            session.run()
        finally:
            with self.lock:
                self.sessions.discard(session)
            self.free.release()

    def shut(self) -> None:
        """Connecting is refused from now on."""
        try:
            self.socket.shutdown(socket.SHUT_RDWR)
        except OSError:
            pass

    def end(self) -> None:
        """Gives those whose lines were answered a second to take the replies, behind which they see the end."""
        with self.lock:
            asking = [session for session in self.sessions if session.is_asking]
        for session in asking:
            session.replies.put(None)
        limit = time.monotonic() + 1
        while time.monotonic() < limit and not self.sessions.isdisjoint(asking):
            time.sleep(0.01)
