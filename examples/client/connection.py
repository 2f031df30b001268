"""A session with `recline serve`: lines and their replies, questions and settlements. It needs Python's standard library alone."""
from __future__ import annotations

import json
import socket
from collections.abc import Iterable
from typing import Any


class Refused(Exception):
    """A reply that is not the one that was hoped for. What it says stands in docs/FORMATS.md."""


def names_of(names: Iterable[str]) -> str:
    """The names as a line has them."""
    return ",".join(names) or "-"


class Connection:
    """A session with `recline serve` on this machine."""

    def __init__(self, port: int, host: str = "127.0.0.1", timeout: float = 60) -> None:
        self.socket = socket.create_connection((host, port), timeout=timeout)
        self.socket.setsockopt(socket.IPPROTO_TCP, socket.TCP_NODELAY, 1)
        self.replies = self.socket.makefile("rb")

    def ask(self, line: str) -> str:
        """Sends one line and waits for its reply."""
        self.socket.sendall(line.encode() + b"\n")
        reply = self.replies.readline()
        if not reply.endswith(b"\n"):
            raise ConnectionError("the session ended before the reply to: " + line)
        return reply[:-1].decode()

    def report(self, line: str) -> int:
        """Sends a report; answers the number of accepted reports, and raises Refused if it was not accepted."""
        reply = self.ask(line)
        word, _, front = reply.partition(" ")
        if word not in ("OK", "OLD"):
            raise Refused(reply)
        return int(front)

    def line(self, names: Iterable[str]) -> dict[str, Any]:
        """The certificate for these failed processes, or for nobody."""
        return self.certificate("LINE " + names_of(names))

    def garbage(self) -> dict[str, Any]:
        """The certificate with every process failed."""
        return self.certificate("GARBAGE")

    def settle(self, names: Iterable[str]) -> tuple[int, dict[str, Any]]:
        """Has all processes return to the line for these failed processes. Answers the number of the settlement, which is the epoch of what
        is reported after it, and the certificate of the line."""
        failed = list(names)
        while True:
            certificate = self.line(failed)
            reply = self.ask("SETTLE %d %s" % (certificate["front"], names_of(failed)))
            words = reply.split(" ")
            if words[0] == "SETTLED":
                return int(words[1]), certificate
            # Something was accepted after the line was asked, so another one may be right.
            if words[:2] != ["NO", "18"]:
                raise Refused(reply)

    def certificate(self, question: str) -> dict[str, Any]:
        """The certificate that answers a question."""
        reply = self.ask(question)
        word, _, certificate = reply.partition(" ")
        if word != "LINE":
            raise Refused(reply)
        return json.loads(certificate)

    def close(self) -> None:
        """Says goodbye. What was answered OK stays, whether that is said or not."""
        try:
            self.ask("BYE")
        finally:
            self.replies.close()
            self.socket.close()
