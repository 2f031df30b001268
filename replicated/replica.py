"""One replica of a computation: it follows the log, has recline answer each line, and keeps its snapshot.

Two threads do that. The follower is the only one that speaks with etcd: it puts in the log what sessions wait for, reads what others put, and hands on
each line once, in the order of the log. The other one gives line after line to recline, and each reply to whoever waits for it."""
from __future__ import annotations

import collections
import queue
import secrets
import threading
import time
from collections.abc import Callable
from typing import Any

from asks import Asks
from coordinator import Coordinator
from etcd_log import Entry, Log
from faults import Fault, Silent, Stopped
from grammar import is_logged
from snapshot import EVERY, Place, find

# How many lines one transaction puts; etcd takes 128 operations and one and a half megabytes.
AT_ONCE = 100
# How many lines and questions may wait for recline.
AHEAD = 1000
# The place is written behind so many lines, or so many seconds.
PLACE_LINES, PLACE_SECONDS = 1000, 600
# A replica for which nobody waits looks into the log after a second where it found a hundred lines there, and else after twice as long as before, up to
# this, and costs etcd little. Behind a burst that comes while it rests it is thousands of lines behind, which the first question waits for.
REST = 30
# Where no node of etcd has answered for so many seconds the replica lets its clients go. What they sent and lost is put in the log by then or never,
# but for a request that one of the nodes still has.
PATIENCE = 30
# Digests of others are looked at after so many seconds at least.
COMPARE_SECONDS = 30
# How long etcd is asked to take a place or digests while clients are served, and behind how many seconds it is asked again.
MOMENT, PUBLISH_SECONDS = 0.1, 30
# How many seconds a replica whose lines are held back waits before it looks again, and how many seconds of work recline may have when they are tried
# once more.
HELD, FINISHING, LATE = 0.01, 0.005, 0.05


class Waiting:
    """A line of a session, whose replies go to that in order. Reports and settlements are put in the log. All other lines change nothing, so this
    replica alone asks its recline."""

    __slots__ = "line", "is_logged", "number", "replies"

    def __init__(self, line: bytes, replies: queue.SimpleQueue[bytes | None]) -> None:
        self.line = line
        self.is_logged = is_logged(line)
        self.number: int | None = None
        self.replies = replies


class Replica:
    """The replica of the computation `name` over a record file, known among the others by its identity."""

    def __init__(self, name: str, log: Log, program: str, file: str, identity: str) -> None:
        self.name = name
        self.log = log
        self.file = file
        self.identity = identity
        self.stopping = log.etcd.stopping
        self.fault: Fault | None = None
        # Each line of this run is known in the log by it and a number, so one that stands there is answered as the first time, however often it was put.
        self.run = secrets.token_hex(8).encode()
        self.numbers = 0
        self.asks = Asks(log, self.run, identity)
        self.waiting: collections.deque[Waiting] = collections.deque()
        self.work = threading.Condition()
        # Lines of the log and questions, each with whoever waits for its reply; None is the mark of the end.
        self.turns: queue.Queue[tuple[Entry | None, Waiting | None] | None] = queue.Queue(AHEAD)
        self.coordinator = Coordinator(program, file)
        try:
            self.place, self.accepted = find(log, file, name)
        except Exception:
            self.coordinator.kill()
            raise
        # The last line of the log that was handed on, and the last one that was answered.
        self.known = self.answered = self.place.last
        # The number of the last line that another run put.
        self.foreign = 0
        self.published: Place | None = None
        self.exchanged, self.compared = 0, 0.0
        # Before this time nothing is published.
        self.publishing = 0.0
        # How many seconds recline takes for a line of the log, the last ones above all. Before there are any it is taken for slow.
        self.pace = LATE / 10
        self.threads: list[threading.Thread] = []

    def start(self) -> None:
        # It counts for whoever cuts off the log before its first client comes.
        self.publish()
        self.log.etcd.patience = PATIENCE
        for work in (self.follow, self.run_turns):
            self.threads.append(threading.Thread(target=self.guard, args=[work], daemon=True))
            self.threads[-1].start()

    def guard(self, work: Callable[[], object]) -> None:
        """Runs a thread. What ends it ends the replica."""
        try:
            work()
        except Stopped:
            pass
        except Fault as fault:
            self.fail(fault)
        except Exception as fault:
            self.fail(Fault("%s: %s" % (type(fault).__name__, fault), again=True))

    def fail(self, fault: Fault) -> None:
        self.fault = self.fault or fault
        self.stopping.set()

    def stop(self) -> None:
        """Ends in order: what this run has put in the log is answered, and the place is kept."""
        self.stopping.set()
        with self.work:
            self.work.notify()
        follower, turns = self.threads
        follower.join()
        # Nothing is handed on any more. The mark of the end may find no room yet, and nobody who makes some where that thread has failed.
        while turns.is_alive():
            try:
                self.turns.put(None, timeout=0.1)
                break
            except queue.Full:
                pass
        turns.join()
        if not self.fault:
            self.guard(self.end)

    def end(self) -> None:
        self.coordinator.end()
        self.keep_place()
        self.publish()
        self.take_back_ask()

    # ---- What sessions ask for

    def submit(self, lines: list[bytes], replies: queue.SimpleQueue[bytes | None]) -> None:
        """Has the lines of a session answered, in order."""
        waiting = [Waiting(line, replies) for line in lines]
        with self.work:
            self.waiting.extend(waiting)
            self.work.notify()

    # ---- The follower

    def follow(self) -> None:
        rest = 1
        while not self.stopping.is_set():
            batch: collections.deque[Waiting] = collections.deque()
            before = self.known.position
            self.fill(batch, rest)
            if any(item.is_logged for item in batch):
                self.append(batch)
            else:
                self.come_to_end()
            # All that was in the log when these questions came is handed on before them.
            for item in batch:
                self.hand_on(None, item)
            rest = 1 if self.known.position - before >= AT_ONCE else min(2 * rest, REST)
            self.publish_by_the_way()

    def fill(self, batch: collections.deque[Waiting], rest: float = 0) -> None:
        """Fills a batch with lines that wait, up to as many as one transaction puts, and with the questions between them. Where there is none it waits
        so long for the first one."""
        logged = sum(item.is_logged for item in batch)
        limit = time.monotonic() + rest
        with self.work:
            while not self.waiting and not self.stopping.is_set() and time.monotonic() < limit:
                self.work.wait(rest)
            while self.waiting and logged < AT_ONCE and len(batch) < AHEAD:
                batch.append(self.waiting.popleft())
                if batch[-1].is_logged:
                    logged += 1
                    self.numbers += 1
                    batch[-1].number = self.numbers

    def append(self, batch: collections.deque[Waiting]) -> None:
        """Puts the lines of a batch in the log, and hands on the log up to the last of them. What is left of the batch are questions behind it."""
        found = False
        self.asks.begin(self.foreign > self.answered.position)
        while any(item.is_logged for item in batch):
            if found:
                # One transaction put all of them: where the first one was found the others follow.
                _, entries = self.log.read(self.known)
            elif self.stopping.is_set():
                # None of them is in the log, or ever will be.
                raise Stopped()
            elif self.is_held_back():
                _, entries = self.log.read(self.known, self.ask())
            else:
                # Others were there first, or this is the first time. Of what was asked for before nothing comes any more, so the batch may grow.
                self.fill(batch)
                lines = [(item.number, item.line) for item in batch if item.is_logged]
                _, entries = self.log.append(self.known, self.run, lines, self.ask(), self.asks.over(len(lines)))
                self.asks.is_contended = True
            for entry in entries:
                own = self.placed(batch, entry) if entry.run == self.run else None
                found = found or own is not None
                self.hand_on(entry, own)
        self.take_back_ask()

    def backlog(self) -> float:
        """How many seconds recline takes for the lines that were handed on to it."""
        return self.pace * (self.known.position - self.answered.position)

    def ask(self) -> list[dict[str, Any]]:
        """The request that asks for the turn of this replica, where it is time for it."""
        return self.asks.due(self.backlog())

    def is_held_back(self) -> bool:
        """Whether another is to put its lines first, which is waited for a little. Beside others lines are not tried before recline has answered almost all
        that was handed on: so they are answered soon when they are put, and the others do not run away from a slow recline."""
        while self.asks.is_contended and self.backlog() > LATE and not self.stopping.wait(FINISHING):
            ask = self.ask()
            if ask:
                self.log.change_asks(ask)
        held = self.asks.is_turn_of_another()
        if held:
            self.stopping.wait(HELD)
        return held

    def take_back_ask(self) -> None:
        """Where lines were put by a transaction whose answer was lost the ask may be left, and so it may be where the replica ends."""
        if self.asks.own():
            self.log.change_asks(self.asks.over())

    def placed(self, batch: collections.deque[Waiting], entry: Entry) -> Waiting:
        """The line of the batch that stands in this entry. Questions that came before it are asked before it."""
        while batch:
            item = batch.popleft()
            if item.number == entry.number:
                return item
            if item.is_logged:
                break
            self.hand_on(None, item)
        raise Fault("line %d of the log bears a number that this run did not wait for" % entry.last.position, again=True)

    def come_to_end(self) -> None:
        """Hands on the log up to the end that it has at the first read."""
        end, entries = self.log.read(self.known)
        while True:
            for entry in entries:
                self.hand_on(entry, None)
            if self.known.position >= end:
                return
            if self.stopping.is_set():
                # A question may not be answered before that end.
                raise Stopped()
            _, entries = self.log.read(self.known)

    def hand_on(self, entry: Entry | None, item: Waiting | None) -> None:
        """Hands on a line of the log with whoever waits for its reply, or a question."""
        while True:
            try:
                self.turns.put((entry, item), timeout=1)
                break
            except queue.Full:
                # What is in the log is handed on to its end, also where the replica is to end. Only without the other thread nothing goes on.
                if self.fault:
                    raise Stopped()
        if entry:
            self.known = entry.last
            if entry.run != self.run:
                self.foreign = self.known.position

    def publish(self) -> None:
        """Puts the place that is kept, and the digests that are new, and compares digests. The log is cut off by places that are on the device already."""
        place, digests = self.place, dict(self.accepted.digests)
        if self.published != place:
            self.log.put_place(self.identity, place.last.position, place.front)
            self.published = place
        if len(digests) > self.exchanged or digests and time.monotonic() - self.compared > COMPARE_SECONDS:
            new = {front: digest for front, digest in digests.items() if front > EVERY * self.exchanged}
            found = self.log.exchange_digests(self.identity, new)
            self.exchanged, self.compared = len(digests), time.monotonic()
            for front, replica, digest in found:
                if digests.get(front, digest) != digest:
                    raise Fault("the first %d accepted lines are others than those of replica %s" % (front, replica), status=4)

    def publish_by_the_way(self) -> None:
        """An etcd that has no room still answers questions: what it does not take at once it is given later."""
        if time.monotonic() < self.publishing:
            return
        self.log.etcd.patience = MOMENT
        try:
            self.publish()
        except Silent:
            self.publishing = time.monotonic() + PUBLISH_SECONDS
        finally:
            self.log.etcd.patience = PATIENCE

    # ---- The turns

    def run_turns(self) -> None:
        kept = time.monotonic()
        while True:
            try:
                turn = self.turns.get(timeout=PLACE_SECONDS)
            except queue.Empty:
                turn = None, None
            if turn is None:
                return
            entry, item = turn
            if entry or item:
                self.coordinator.renew()
                begun = time.monotonic()
                reply = self.coordinator.ask(entry.line if entry else item.line)
                if entry:
                    self.pace += (time.monotonic() - begun - self.pace) / 16
                    self.judge_reply(entry, reply)
                elif reply.startswith((b"OK ", b"OLD ", b"SETTLED ", b"FAIL ", b"NO 17 ")):
                    raise Fault("a question was answered %s" % reply[:40].decode(errors="replace"), again=True)
                if item:
                    item.replies.put(reply)
            behind = self.answered.position - self.place.last.position
            if behind >= PLACE_LINES or behind and time.monotonic() - kept > PLACE_SECONDS:
                self.keep_place()
                kept = time.monotonic()

    def judge_reply(self, entry: Entry, reply: bytes) -> None:
        """Holds the reply to a line of the log against the front. One that stands for a fault of this machine is not that of the log: the others took
        the line, or may have."""
        word, _, rest = reply.partition(b" ")
        code = rest.partition(b" ")[0]
        front = None
        if word in (b"OK", b"SETTLED"):
            self.accepted.add(entry.line)
            front = int(rest.rpartition(b" ")[2])
        elif word == b"OLD":
            front = int(rest)
        elif word == b"FAIL" or word == b"NO" and code in (b"16", b"17"):
            raise Fault("line %d of the log was answered %s" % (entry.last.position, reply.decode()), again=True)
        if front not in (None, self.accepted.front):
            raise Fault("line %d of the log was answered front %d, and %d is right" % (entry.last.position, front, self.accepted.front), again=True)
        self.answered = entry.last

    def keep_place(self) -> None:
        if self.answered != self.place.last:
            place = Place(self.name, self.answered, self.accepted.front, self.accepted.hash.hexdigest())
            place.write(self.file)
            self.place = place
