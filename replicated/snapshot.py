"""The snapshot of a replica: its record file FILE, and FILE.place beside it, which says up to which line of the log FILE stands."""
from __future__ import annotations

import hashlib
import os
import re
from collections.abc import Iterator
from typing import NamedTuple

from etcd_log import BEGINNING, Last, Log
from faults import Foreign, Stopped, Unkept

# Digests are exchanged for each such number of accepted lines.
EVERY = 1000

MARKED = (b"CHECK", b"PRESENT", b"FORK", b"RETIRE", b"ABSORB")

WORDS = re.compile("([^ ]+) ([0-9]+) ([0-9]+) ([0-9a-f]+ [0-9]+) ([0-9]+) ([0-9a-f]{64})\n")


def records(path: str) -> Iterator[bytes]:
    """The accepted lines of a record file, with their marks, as they stand in the log. recline has opened the file, so it is whole up to its closed
    gate (docs/FORMATS.md, "The record file")."""
    with open(path, "rb") as file:
        file.read(8)
        while file.read(1) == b"\1":
            length, epoch = int.from_bytes(file.read(2), "big"), 0
            if length >= 32768:
                length, epoch = length - 32768, int.from_bytes(file.read(4), "big")
            line = file.read(length)
            word, space, rest = line.partition(b" ")
            yield b"%s@%d%s%s" % (word, epoch, space, rest) if epoch and word in MARKED else line


class Accepted:
    """The accepted lines of a replica, of which it keeps how many they are and their digest, and each digest of a multiple of 1,000 lines."""

    def __init__(self) -> None:
        self.front = 0
        self.hash = hashlib.sha256()
        self.digests: dict[int, str] = {}

    def add(self, line: bytes) -> None:
        self.front += 1
        self.hash.update(line + b"\n")
        if self.front % EVERY == 0:
            self.digests[self.front] = self.hash.hexdigest()


class Place(NamedTuple):
    """It says that the first `front` records of FILE, which have this digest, are what is accepted of the log of the computation `name` up to this
    last line.

    What it says once stays true: neither those lines nor those records ever change. It is written when recline has answered those lines, so the
    records are on the device by then, and whatever crash comes FILE has them. A place that is old costs only that more of the log is read."""

    name: str
    last: Last
    front: int
    digest: str

    @classmethod
    def read(cls, file: str, name: str) -> Place:
        """The place of a file, or the beginning where there is none."""
        try:
            with open(file + ".place", encoding="ascii") as source:
                words = WORDS.fullmatch(source.read())
        except FileNotFoundError:
            return cls(name, BEGINNING, 0, hashlib.sha256().hexdigest())
        except ValueError:
            words = None
        if not words:
            raise Foreign("%s.place is not whole" % file)
        return cls(words[1], Last(int(words[2]), int(words[3]), words[4].encode()), int(words[5]), words[6])

    def write(self, file: str) -> None:
        """The new one is whole and on the device before it takes the place of the old one, so there is always one of both."""
        try:
            with open(file + ".place.new", "w", encoding="ascii") as target:
                target.write("%s %d %d %s %d %s\n" % (self.name, self.last.position, self.last.revision, self.last.mark.decode(), self.front, self.digest))
                target.flush()
                os.fsync(target.fileno())
            os.replace(file + ".place.new", file + ".place")
            folder = os.open(os.path.dirname(os.path.abspath(file)), os.O_RDONLY)
            try:
                os.fsync(folder)
            finally:
                os.close(folder)
        except OSError as fault:
            raise Unkept("%s.place cannot be written: %s" % (file, fault.strerror))


def find(log: Log, file: str, name: str) -> tuple[Place, Accepted]:
    """The newest place of FILE in the log, and what is accepted in FILE. recline holds the file, and takes no line meanwhile.

    Behind the old place the lines of the log and the records of FILE are walked through side by side. Whether a line is accepted follows from the
    records before it alone, so the line that is the next record was accepted, and each other one was not. Behind the last record the walk ends: all
    lines that follow are given to recline, be it that it was given some of them before. It accepted none of those, and refuses them again.
    So no line is ever given to recline behind a record that it does not follow in the log, as a report that was refused since its parent's FORK
    came later, and that would be accepted now."""
    old, accepted = Place.read(file, name), Accepted()
    found: list[bytes] = []
    place = old
    for line in records(file):
        if accepted.front < place.front:
            accepted.add(line)
        else:
            found.append(line)
    if place.name != name:
        raise Foreign("%s is of the computation %s" % (file, place.name))
    if accepted.front < place.front:
        raise Foreign("%s has %d records, and by its place %d at least" % (file, accepted.front, place.front))
    if accepted.hash.hexdigest() != place.digest:
        raise Foreign("%s has other records than its place says" % file)
    end, entries = log.read(place.last)
    walked = 0
    while walked < len(found):
        for entry in entries:
            if walked < len(found) and entry.line == found[walked]:
                accepted.add(entry.line)
                walked += 1
                place = Place(name, entry.last, accepted.front, accepted.hash.hexdigest())
        # What recline was given stood in the log before, so all records are found by its end.
        if walked < len(found):
            if log.etcd.stopping.is_set():
                raise Stopped()
            if not entries or entries[-1].last.position >= end:
                raise Foreign("record %d of %s does not come from this log" % (accepted.front + 1, file))
            _, entries = log.read(entries[-1].last)
    if place != old:
        place.write(file)
    return place, accepted
