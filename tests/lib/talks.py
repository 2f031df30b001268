"""Many clients of a service at once, in one thread: each sends its text as far as it is taken, and keeps what comes."""
from __future__ import annotations

import selectors
import socket
import time
from collections.abc import Callable

from harness import HANG, Service

READ, WRITE = selectors.EVENT_READ, selectors.EVENT_WRITE
# So many bytes are read at once.
PIECE = 1 << 18


class Talk:
    """A client, what it has still to send, and what it got."""

    def __init__(self, service: Service, text: bytes = b"", buffer: int | None = None, reads: bool = True) -> None:
        self.socket = service.client(buffer)
        self.socket.setblocking(False)
        self.unsent = text
        # Whether it reads what comes, and whether it sends its end behind its text.
        self.reads, self.shuts = reads, False
        self.got = bytearray()
        # How many lines came.
        self.count = 0
        # How the connection ended: "end" or "reset".
        self.end = ""
        self.watched = 0

    def say(self, text: bytes) -> None:
        """Sends this behind the rest of its text."""
        self.unsent += text

    def shut(self) -> None:
        """Sends its end once the text is sent."""
        self.shuts = True

    def wanted(self) -> int:
        """What it waits for."""
        if self.end:
            return 0
        return (READ if self.reads else 0) | (WRITE if self.unsent or self.shuts else 0)

    def step(self, events: int) -> None:
        """Sends and reads once."""
        try:
            if events & WRITE:
                self.send()
            if events & READ:
                self.read()
        except BlockingIOError:
            pass
        except OSError:
            self.end = "reset"

    def send(self) -> None:
        """Sends once."""
        if self.unsent:
            self.unsent = self.unsent[self.socket.send(self.unsent[:PIECE]):]
        if self.shuts and not self.unsent:
            self.shuts = False
            self.socket.shutdown(socket.SHUT_WR)

    def read(self) -> None:
        """Reads once."""
        piece = self.socket.recv(PIECE)
        if not piece:
            self.end = "end"
        self.got += piece
        self.count += piece.count(b"\n")

    def close(self) -> None:
        """Closes the connection."""
        self.socket.close()


class Asker:
    """A client that asks one line after the other, each once the reply to the one before has come and so many seconds have passed, and notes
    the longest time that it waited for a reply."""

    def __init__(self, crowd: Crowd, service: Service, lines: list[bytes], pause: float = 0) -> None:
        self.talk = crowd.talk(service)
        self.lines, self.pause = lines, pause
        self.sent = 0
        self.slowest = 0.0
        self.begun = self.next = time.monotonic()

    def tick(self) -> None:
        """Notes a reply, and asks the next line if its time has come."""
        now = time.monotonic()
        if self.sent > self.talk.count:
            self.slowest = max(self.slowest, now - self.begun)
            return
        if self.sent < len(self.lines) and now >= self.next:
            self.talk.say(self.lines[self.sent])
            self.sent += 1
            self.begun, self.next = now, now + self.pause

    def is_done(self) -> bool:
        """Whether each line has its reply, or none comes any more."""
        return self.talk.count >= len(self.lines) or bool(self.talk.end)


class Crowd:
    """Clients that send and read at once."""

    def __init__(self) -> None:
        self.talks: list[Talk] = []
        self.poll = selectors.DefaultSelector()

    def __enter__(self) -> Crowd:
        return self

    def __exit__(self, *_: object) -> None:
        for talk in self.talks:
            talk.close()
        self.poll.close()

    def talk(self, service: Service, text: bytes = b"", buffer: int | None = None, reads: bool = True) -> Talk:
        """One client more."""
        talk = Talk(service, text, buffer, reads)
        self.talks.append(talk)
        return talk

    def leave(self, talk: Talk) -> None:
        """Closes one of them, which is none any more."""
        talk.end = talk.end or "closed"
        self.watch(talk)
        self.talks.remove(talk)
        talk.close()

    def watch(self, talk: Talk) -> None:
        """Has the poller tell of what a client waits for."""
        wanted = talk.wanted()
        if wanted == talk.watched:
            return
        if not talk.watched:
            self.poll.register(talk.socket, wanted, talk)
        elif wanted:
            self.poll.modify(talk.socket, wanted, talk)
        else:
            self.poll.unregister(talk.socket)
        talk.watched = wanted

    def until(self, holds: Callable[[], object], seconds: float = HANG, each: Callable[[], object] | None = None) -> bool:
        """Sends and reads until it holds, and does something each time that something came. Answers whether it holds before the limit."""
        limit = time.monotonic() + seconds
        while not holds():
            if time.monotonic() > limit:
                return False
            if each:
                each()
            for talk in self.talks:
                self.watch(talk)
            for key, events in self.poll.select(0.005):
                key.data.step(events)
        return True

    def during(self, seconds: float, each: Callable[[], object] | None = None) -> None:
        """Sends and reads for so long."""
        self.until(lambda: False, seconds, each)

    def all_end(self, talks: list[Talk] | None = None) -> bool:
        """Sends and reads until the connections of all are at their end."""
        ending = self.talks if talks is None else talks
        return self.until(lambda: all(talk.end for talk in ending))
