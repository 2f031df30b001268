"""A client of `recline serve`: one process that stamps its steps by the library, reports them, asks for lines and returns to them.

    process = Process(Connection(port), first("a"))
    process.begin()
    child = process.fork("b")               # what the new process is made of: Process(Connection(port), child)
    process.checkpoint(store)               # store(position, kept) has the state on disk, and what is kept of the process with it
    message = process.send()                # it goes with the message
    process.receive(message)                # False if the message is dropped
    line = process.line(["b"])              # for each process its position, 0 if it is unborn, or "retired"

After a failure one process settles, and each process returns to its position:

    epoch, line = process.settle(["b"])     # the number of this settlement, and the line to which all return
    process.return_to(position, kept, epoch)

The library is linked by bindings/python/build; bindings/python/recline.py calls it.
"""
from __future__ import annotations

import os
import sys
from collections.abc import Callable, Iterable

sys.path.append(os.path.join(os.path.dirname(os.path.abspath(__file__)), "..", "..", "bindings", "python"))
import recline
from connection import Connection, Refused

__all__ = ["Behind", "Connection", "Process", "Refused", "first"]


class Behind(Exception):
    """What came is of a settlement to which this process has not returned. It has to wait until the process has."""


def first(name: str) -> str:
    """What is kept of the root of a computation at its birth."""
    return recline.Process.root(name)[0].state


class Process:
    """A process of a computation, made of what was kept at a position: its clock, its connection and its newest position."""

    def __init__(self, connection: Connection, kept: str, position: int = 1) -> None:
        self.connection = connection
        self.clock = recline.Process(kept)
        self.position = position
        self.at_present = kept

    @classmethod
    def started_again(cls, connection: Connection, kept: str, position: int, epoch: int) -> Process:
        """A process that was started at this position of the line of the settlement of this epoch, or before any settlement (0)."""
        process = cls(connection, kept, position)
        if epoch:
            process.clock.returned(epoch)
        return process

    def begin(self) -> None:
        """Reports the birth of the root."""
        self.connection.report("BEGIN " + self.clock.state.split(" ")[1])

    def work(self) -> None:
        self.clock.work()

    def send(self) -> str:
        """What goes with the message."""
        return self.clock.send()

    def again(self, message: str) -> str:
        """What goes with a message of this process when it is handed over once more: the epoch that the process has by now is in it."""
        return self.clock.again(message)

    def receive(self, message: str) -> bool:
        """Receives a message, and answers whether it does. One of an older epoch is dropped, since it may be undone: if it is not, its sender
        hands it over once more."""
        try:
            self.clock.receive(message)
        except recline.Fault as fault:
            if fault.number == recline.NEWER:
                raise Behind() from fault
            if fault.number != recline.OLDER:
                raise
            return False
        return True

    def checkpoint(self, store: Callable[[int, str], object] | None = None) -> int:
        """Takes a checkpoint and answers its position. Before it is reported, store(position, kept) has to have its state on disk, and with it
        what is kept of the process."""
        line = self.clock.check()
        if store:
            store(self.position + 1, self.clock.state)
        self.connection.report(line)
        self.position += 1
        return self.position

    def present(self) -> None:
        """Reports the present state. It is an element until the next report, which tells of the next step: there is no step between, and that
        one is taken back if it is refused. The state is lost if the process fails."""
        self.connection.report(self.clock.present())
        self.at_present = self.clock.state

    def stay(self, epoch: int) -> None:
        """Goes on as it was, if the line has its present state. All that comes after it is of this epoch."""
        self.clock.return_to(self.at_present, epoch)

    def fork(self, name: str, depth: int | None = None, store: Callable[[str], object] | None = None) -> str:
        """Reports a fork, and answers what is kept of the child at its birth, which is its position 1. The child gets half of the id, or, with
        a depth, a leaf of that depth (docs/STAMPING.md, "How wide and how long a family can be"). Before the fork is reported, store(kept) has
        to have the state of the child at its birth on disk."""
        line, start = self.clock.fork(name, depth)
        kept = recline.Process.born(start).state
        if store:
            store(kept)
        self.connection.report(line)
        return kept

    def retire(self, into: str) -> str:
        """Reports the end, and answers the retirement, which has to reach the process that takes it up."""
        line, retirement = self.clock.retire(into)
        self.connection.report(line)
        return retirement

    def absorb(self, retirement: str, is_kept: bool = False) -> None:
        """Takes up the process that ended by this retirement. One of an older epoch is taken up only if it is kept: if the line of each
        settlement since has that process at "retired"."""
        self.connection.report(self.clock.absorb(retirement, is_kept))

    def line(self, failed: Iterable[str]) -> dict[str, int | str]:
        """For each process the position to which it returns, 0 for unborn, or "retired"."""
        return dict(self.connection.line(failed)["line"])

    def settle(self, failed: Iterable[str]) -> tuple[int, dict[str, int | str]]:
        """Settles, and answers the epoch and the line as line() does. This process has to return to its position, too."""
        epoch, certificate = self.connection.settle(failed)
        return epoch, dict(certificate["line"])

    def return_to(self, position: int, kept: str, epoch: int) -> None:
        """Returns to a checkpoint with what was kept there. All that comes after it is of this epoch."""
        self.clock.return_to(kept, epoch)
        self.position = position
