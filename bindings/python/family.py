#!/usr/bin/env python3
"""Four processes over pipes, whose reports go to standard output: family.py | recline run. A message goes round them three times, and each takes a
checkpoint after each receipt. Then b, c and d retire into a."""
import os
from typing import TextIO
from recline import Process


def tell(to: int, text: str) -> None:
    os.write(to, text.encode() + b"\n")


def hear(source: TextIO) -> str:
    return source.readline().rstrip("\n")


def pass_on(process: Process, source: TextIO, to: int) -> None:
    for _ in range(3):
        process.receive(hear(source))
        tell(1, process.check())
        tell(to, process.send())


ring = [(os.fdopen(out), into) for out, into in (os.pipe() for _ in range(5))]  # ring[k] leads to process k, the last one to a
process, line = Process.root("a")
tell(1, line)
for k, name in enumerate("bcd", 1):
    line, start = process.fork(name)
    tell(1, line)
    if os.fork() == 0:
        process = Process.born(start)
        pass_on(process, ring[k][0], ring[(k + 1) % 4][1])
        line, retirement = process.retire("a")
        tell(1, line)
        tell(ring[4][1], retirement)
        os._exit(0)
tell(ring[1][1], process.send())
pass_on(process, ring[0][0], ring[1][1])
for _ in range(3):
    tell(1, process.absorb(hear(ring[4][0])))
