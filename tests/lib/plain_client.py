"""A process that stamps its steps by the plain stamps beside this file, where examples/client has the library. So it can leave out rules.

Connections, and what they refuse, are those of examples/client.
"""
from __future__ import annotations

import sys
from collections.abc import Callable, Iterable
from typing import Any

from harness import CLIENT
from stamps import Events, Stamp, parse, text

sys.path.append(CLIENT)
from connection import Connection, Refused

__all__ = ["Behind", "Connection", "Process", "Refused", "stamp_of"]


class Behind(Exception):
    """What came is of a settlement to which this process has not returned. It has to wait until the process has."""


def stamp_of(words: str) -> Stamp:
    """The stamp of a text."""
    i, events = words.split(";")
    return Stamp(parse(i), parse(events))


class Process:
    """A process of a computation: its name, its stamp, how many reports it made, its newest position and its epoch."""

    def __init__(
            self, connection: Any, name: str, stamp: Stamp | None = None, number: int = 0, position: int = 1, epoch: int = 0) -> None:
        self.connection = connection
        self.name = name
        self.stamp = stamp or Stamp()
        self.number = number
        self.position = position
        self.epoch = epoch
        self.at_present: tuple[Stamp, int] | None = None

    def begin(self) -> None:
        """Reports the birth of the root."""
        self.connection.report("BEGIN " + self.name)

    def report(self, kind: str, rest: str = "", stamp: Stamp | None = None) -> str:
        """Reports a step, and answers the line. Behind a settlement the report bears its mark."""
        self.number += 1
        mark = "@%d" % self.epoch if self.epoch else ""
        line = "%s%s %s %d %s%s" % (kind, mark, self.name, self.number, stamp or self.stamp, rest)
        self.connection.report(line)
        return line

    def work(self) -> None:
        self.stamp.event()

    def send(self) -> Events:
        """The events that the message carries. Whenever it is handed over, the epoch that this process has by then goes with it."""
        return self.stamp.event()

    def is_of_now(self, epoch: int) -> bool:
        """Whether what bears this epoch is of this process's own, and not older. What is newer waits."""
        if epoch > self.epoch:
            raise Behind("settlement %d" % epoch)
        return epoch == self.epoch

    def receive(self, epoch: int, events: Events) -> bool:
        """Receives a message of this epoch, and answers whether it does. An older one is dropped, since it may be undone: where it is not, its
        sender hands it over once more."""
        if not self.is_of_now(epoch):
            return False
        self.stamp.receive(events)
        return True

    def checkpoint(self, store: Callable[[int, dict[str, Any]], object] | None = None) -> int:
        """Takes a checkpoint and answers its position. Before it is reported, store(position, kept) has to have its state on disk, and with it
        what is kept of the process."""
        self.stamp.event()
        if store:
            store(self.position + 1, {"stamp": str(self.stamp), "number": self.number + 1})
        self.report("CHECK")
        self.position += 1
        return self.position

    def present(self) -> None:
        """Reports the present state. It is an element until the next report, which tells of the next step: there is no step between, and that
        one is taken back where it is refused. The state is lost where the process fails."""
        self.stamp.event()
        self.report("PRESENT")
        self.at_present = self.stamp.copy(), self.number

    def stay(self, epoch: int) -> None:
        """Goes on as it was, where the line has its present state. All that comes behind it is of this epoch."""
        self.stamp, self.number = self.at_present[0].copy(), self.at_present[1]
        self.epoch = epoch

    def fork(self, name: str, depth: int | None = None, store: Callable[[dict[str, Any]], object] | None = None) -> Stamp:
        """Reports a fork, and answers the stamp of the child, whose position 1 is its birth, and whose epoch is this one's. The child gets
        half of the id, or, where a depth is given, a leaf of that depth (docs/STAMPING.md, "How wide and how long a family can be"). Before
        the fork is reported, store(kept) has to have the state of the child at its birth on disk."""
        before = self.stamp.id
        child = self.stamp.fork(depth)
        if store:
            store({"stamp": str(child), "number": 0})
        self.report("FORK", " %s %s %s" % (text(self.stamp.id), name, text(child.id)), Stamp(before, self.stamp.events))
        return child

    def retire(self, into: str) -> str:
        """Reports the end, and answers the report, which has to reach the process that takes it up: it has the stamp and the epoch."""
        self.stamp.event()
        return self.report("RETIRE", " " + into)

    def absorb(self, retirement: str) -> None:
        """Takes up the process that ended by this report. One of an older epoch is sent once more: Refused by 19 or 3 says that it is undone,
        and is not absorbed."""
        word, name, _, stamp, _ = retirement.split(" ")
        if not self.is_of_now(int(word.partition("@")[2] or 0)):
            self.connection.report(retirement)
        self.stamp.absorb(stamp_of(stamp))
        self.report("ABSORB", " " + name)

    def line(self, failed: Iterable[str]) -> dict[str, int | str]:
        """For each process the position to which it returns, 0 for unborn, or "retired"."""
        return dict(self.connection.line(failed)["line"])

    def settle(self, failed: Iterable[str]) -> tuple[int, dict[str, int | str]]:
        """Settles, and answers the epoch and the line as line() does. This process has to return to its position, too."""
        epoch, certificate = self.connection.settle(failed)
        return epoch, dict(certificate["line"])

    def return_to(self, position: int, kept: dict[str, Any], epoch: int) -> None:
        """Returns to a checkpoint with what was kept there. All that comes behind it is of this epoch."""
        self.stamp = stamp_of(kept["stamp"])
        self.number = kept["number"]
        self.position = position
        self.epoch = epoch
