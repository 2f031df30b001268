#!/usr/bin/env python3
"""One teller of the demonstration: it sends money to the next teller and takes money from the one before, round for round.

Usage: teller.py FOLDER NAME FROM TO POSITION HAS [PORT EPOCH [ROUND]]

FROM and TO are the descriptors of two pipes. POSITION is the number of the checkpoint to begin with, and HAS the number of the last
message that the next teller has received by the checkpoint that it begins with. With a port and an epoch the teller reports to recline,
and with a round it waits behind that one, to be killed there.
"""
from __future__ import annotations

import json
import os
import random
import signal
import sys
from typing import Any, TextIO

from client import Connection, Process

ROUNDS = 32


def write_state(folder: str, name: str, position: int, state: dict[str, Any]) -> None:
    """The state of a checkpoint, on disk before the checkpoint is reported."""
    path = os.path.join(folder, "%s.%d" % (name, position))
    with open(path + ".new", "w") as file:
        json.dump(state, file)
        file.flush()
        os.fsync(file.fileno())
    os.rename(path + ".new", path)


def read_state(folder: str, name: str, position: int) -> dict[str, Any]:
    """The state of a checkpoint."""
    with open(os.path.join(folder, "%s.%d" % (name, position))) as file:
        return json.load(file)


class Teller:
    """A teller at a checkpoint: its state is what was stored there, and its process goes on with what was kept of it, if there is a connection."""

    def __init__(
            self, folder: str, name: str, source: TextIO, target: TextIO, position: int, connection: Connection | None, epoch: int) -> None:
        self.folder = folder
        self.name = name
        self.source = source
        self.target = target
        self.state = read_state(folder, name, position)
        self.process = Process.started_again(connection, self.state["kept"], position, epoch) if connection else None

    def send(self, number: int) -> None:
        """Hands over a message that was sent. What goes with it has the events of its sending, also if it is handed over once more, and the
        epoch of this teller."""
        amount, message = self.state["sent"][number - 1]
        print(json.dumps([number, amount, self.process.again(message) if self.process else ""]), file=self.target, flush=True)

    def pay(self) -> None:
        """Sends what chance says to the next teller. What was sent stays known, so that it can be handed over once more."""
        amount = random.SystemRandom().randrange(1_000_000)
        message = self.process.send() if self.process else ""
        self.state["balance"] -= amount
        self.state["sent"].append([amount, message])
        self.send(len(self.state["sent"]))

    def collect(self) -> None:
        """Takes the next message. One that it has already is passed over, and so is one of an older epoch. The pipes are new after a settlement, and what is
        sent again comes first, so the number of the last message is enough."""
        while True:
            line = self.source.readline()
            if not line:
                sys.exit("%s: the teller before is gone" % self.name)
            number, amount, message = json.loads(line)
            if number <= self.state["received"] or self.process and not self.process.receive(message):
                continue
            self.state["balance"] += amount
            self.state["received"] = number
            return

    def store(self, position: int, kept: str) -> None:
        """Has the state of a checkpoint on disk, with what is kept of the process."""
        write_state(self.folder, self.name, position, dict(self.state, kept=kept))

    def run(self, has: int, last_round: int) -> None:
        """Goes on to the last round, or to the one after which this teller is killed."""
        # What was sent before this checkpoint, and not received before that of the next teller, is in flight on the line.
        for number in range(has + 1, len(self.state["sent"]) + 1):
            self.send(number)
        while self.state["received"] < ROUNDS:
            # A checkpoint lies between a payment and the receipt of the same round.
            if len(self.state["sent"]) == self.state["received"]:
                self.pay()
                if self.process and len(self.state["sent"]) % self.state["every"] == 0:
                    self.process.checkpoint(self.store)
            self.collect()
            print("round %d" % self.state["received"], flush=True)
            if self.state["received"] == last_round:
                signal.pause()
        print("balance %d" % self.state["balance"], flush=True)


def main() -> None:
    folder, name, source, target, position, has = sys.argv[1:7]
    port, epoch, last_round = (int(word) for word in (sys.argv[7:] + ["0"] * 3)[:3])
    connection = Connection(port) if port else None
    with os.fdopen(int(source), "r") as reader, os.fdopen(int(target), "w") as writer:
        Teller(folder, name, reader, writer, int(position), connection, epoch).run(int(has), last_round)


if __name__ == "__main__":
    try:
        main()
    except BrokenPipeError:
        sys.exit("the next teller is gone")
