"""What the measures in Python share: the program, reports, and clients that report as fast as they are answered."""
from __future__ import annotations

import multiprocessing
import os
import subprocess
import sys
import time

TOP = os.path.dirname(os.path.dirname(os.path.abspath(__file__)))
sys.path.insert(0, os.path.join(TOP, "tests", "lib"))
from harness import TRAFFIC
from plain_client import Connection, Process

RECLINE = os.path.join(TOP, "crates", "recline_program", "out", "recline_program")


def traffic(*words: str) -> list[str]:
    """The lines of a stream of tests/traffic. Ends with the cause, if the program is not built."""
    if not os.access(RECLINE, os.X_OK):
        print("bench: %s is not built; rt run in its crate or rt ci builds it" % RECLINE, file=sys.stderr)
        sys.exit(2)
    wrote = subprocess.run([TRAFFIC, *words], env={**os.environ, "RECLINE_PROGRAM": RECLINE}, stdout=subprocess.PIPE, text=True, check=True)
    return wrote.stdout.splitlines()


class Kept:
    """A connection that keeps the lines in place of sending them."""

    def __init__(self):
        self.lines = []

    def report(self, line):
        """Keeps a line, which is accepted as the next one."""
        self.lines.append(line)
        return len(self.lines)


def computation(count, reports):
    """The reports that make so many processes, and those of each, of so many in all: checkpoints alone."""
    start, processes = Kept(), [Process(Kept(), "p0")]
    processes[0].connection = start
    processes[0].begin()
    for k in range(1, count):
        parent = processes[(k - 1) // 2]
        parent.connection = start
        processes.append(Process(start, "p%d" % k, parent.fork("p%d" % k)))
    shares = []
    for process in processes:
        process.connection = Kept()
        for _ in range(reports // count):
            process.checkpoint()
        shares.append(process.connection.lines)
    return start.lines, shares


def send(port, lines, go):
    """Reports lines from the moment when all do."""
    connection = Connection(port)
    go.wait()
    for line in lines:
        connection.report(line)
    connection.close()


def send_first(port, lines):
    """Reports lines by one connection."""
    connection = Connection(port)
    for line in lines:
        connection.report(line)
    connection.close()


def seconds_of(ports, shares, meanwhile=lambda: None):
    """How many seconds it takes until all shares are reported, each by a client of its own, spread over the ports. What is to be done just
    before they begin is done then."""
    go = multiprocessing.Event()
    clients = [multiprocessing.Process(target=send, args=(ports[k % len(ports)], lines, go)) for k, lines in enumerate(shares)]
    for client in clients:
        client.start()
    time.sleep(1)
    meanwhile()
    begun = time.monotonic()
    go.set()
    for client in clients:
        client.join()
    return time.monotonic() - begun
