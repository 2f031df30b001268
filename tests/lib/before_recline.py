#!/usr/bin/env python3
"""Stands before recline for tests/suites/replicas: it hands on each line and its reply.

Usage: tests/lib/before_recline.py slow RECLINE WORD..
       tests/lib/before_recline.py refusing RECLINE ONCE REPLY WORD..

The words are those of recline. The first kind takes five milliseconds longer for each line. The second answers the third CHECK with this
reply, and does so once: then the file ONCE is there.
"""
import os
import subprocess
import sys
import time


class Run:
    """A run of recline, to which lines are handed on."""

    def __init__(self, words):
        self.process = subprocess.Popen(words, stdin=subprocess.PIPE, stdout=subprocess.PIPE)

    def ask(self, line):
        """The reply to a line."""
        self.process.stdin.write(line)
        self.process.stdin.flush()
        return self.process.stdout.readline()

    def end(self):
        """Its status, when the input has ended."""
        self.process.stdin.close()
        return self.process.wait()


def slow(run):
    """Replies, each five milliseconds late."""
    for line in sys.stdin.buffer:
        time.sleep(0.005)
        yield run.ask(line)


def refusing(run, once, reply):
    """Replies, of which the third to a checkpoint is this one, once."""
    seen = 0
    for line in sys.stdin.buffer:
        seen += line.startswith(b"CHECK")
        if seen == 3 and not os.path.exists(once):
            with open(once, "wb"):
                yield reply.encode() + b"\n"
        else:
            yield run.ask(line)


def main(kind, recline, *words):
    """Hands on replies to the end of the input."""
    own, words = ((), words) if kind == "slow" else (words[:2], words[2:])
    run = Run([recline, *words])
    for reply in slow(run) if kind == "slow" else refusing(run, *own):
        os.write(1, reply)
    return run.end()


if __name__ == "__main__":
    sys.exit(main(*sys.argv[1:]))
