"""How a replica comes to put its lines beside others that are nearer to etcd, or whose recline is faster, and that move the end of the log each time.

A replica whose lines are held up for a tenth of a second, by attempts in vain and by what its recline has still to answer, asks: it puts the key
asks/RUN, in the branch of its transaction that is carried out where the lines are not put. Each transaction that puts or reads lines reads all asks,
too, so the others know it by their next answer. They hold back their own lines until the ask is gone, for a second at most; and of several that ask the
one goes first that asked first. The transaction that puts the lines takes the ask away.

All of this is by consent: what is put in the log is decided by its end alone. So an ask that is lost, comes late or twice, or whose replica is gone
costs the others a second, and nothing else."""
from __future__ import annotations

import os
import time
from typing import Any

from etcd_log import Ask, Log

# For how many seconds lines are held up before their replica asks.
ASK = 0.1
# For so many seconds of each minute it asks: one that never comes to its turn, since its recline hardly moves, holds up the others no longer.
ASKING, OUT_OF = 10, 60
# How many seconds lines are held back at most, and behind how many an ask that was not put again is of a replica that is gone.
HOLD = 1
# Behind so many seconds an ask is put again.
RENEW = 0.3
# How many lines one transaction puts and asks it takes away, both together; etcd takes 128 operations.
AT_ONCE = 120


class Asks:
    """The asks of a computation as one run of a replica sees them. The value of its own one says to people whose it is."""

    def __init__(self, log: Log, run: bytes, identity: str) -> None:
        self.log = log
        self.run = run
        self.value = os.fsencode(identity)
        self.begun = self.renewed = time.monotonic()
        self.is_contended = False

    def begin(self, is_contended: bool) -> None:
        """From now on lines are tried. Where nobody else puts any this replica never asks, however slow it is."""
        self.begun = time.monotonic()
        self.is_contended = is_contended

    def own(self) -> Ask | None:
        """The own ask, where etcd has one."""
        return next((ask for ask in self.log.asks if ask.run == self.run), None)

    def is_turn_of_another(self) -> bool:
        """Whether lines are held back for one that asked before."""
        now, own = time.monotonic(), self.own()
        return now - self.begun < HOLD and any(ask.run != self.run and now - seen < HOLD and (own is None or ask.created < own.created)
                                               for ask, seen in self.log.asks.items())

    def due(self, backlog: float) -> list[dict[str, Any]]:
        """The request that asks, where it is time for it, by how many seconds recline takes for what it has."""
        now = time.monotonic()
        tried = now - self.begun
        if not self.is_contended or tried + backlog < ASK or tried % OUT_OF > ASKING or self.own() and now - self.renewed < RENEW:
            return []
        self.renewed = now
        return [self.log.put_ask(self.run, self.value)]

    def over(self, lines: int = 0) -> list[dict[str, Any]]:
        """The requests that take away the own ask, and those of replicas that are gone, as many as have room beside so many lines."""
        gone = {ask.run for ask, seen in self.log.asks.items() if ask.run == self.run or self.log.asked - seen > HOLD}
        return [self.log.take_ask(run) for run in sorted(gone, key=lambda run: run != self.run)[:AT_ONCE - lines]]
