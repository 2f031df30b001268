#!/usr/bin/env python3
"""Compares the reader of lines that replicas use (replicated/grammar.py) with the program.

Usage: tests/lib/lines.py RECLINE REPLICATED LINES SEED

Over right lines and lines with a fault, of all kinds, the reader has to refuse each line that `recline run` answers `BAD 1`, and no other.
tests/suites/replicas does this first. The last line is 'N passed, M failed'; each line counts once.
"""
import random
import subprocess
import sys

from harness import HANG, last_line

GREATEST = 2 ** 32 - 1
LONGEST = 8192
# How many lines one run is asked: it has 65,536 turns.
AT_ONCE = 20000
# Lines on both sides of each limit.
WRITTEN_OUT = [
    "", " ", "BEGIN", "BEGIN ", "BEGIN a", "BEGIN a ", " BEGIN a", "BEGIN  a", "begin a", "BEGIN A", "BEGIN 1a", "BEGIN a1-_", "BEGIN -a",
    "BEGIN a.b",
    "BEGIN " + "a" * 32, "BEGIN " + "a" * 33, "BEGIN@1 a", "BEGIN a\r", "BEGIN a\0", "BEGIN \xe4",
    "CHECK a 1 1;0", "CHECK a 0 1;0", "CHECK a 01 1;0", "CHECK a +1 1;0", "CHECK a -1 1;0", "CHECK a 4294967295 1;0", "CHECK a 4294967296 1;0",
    "CHECK a 9999999999 1;0", "CHECK a 10000000000 1;0", "CHECK@1 a 1 1;0", "CHECK@0 a 1 1;0", "CHECK@01 a 1 1;0", "CHECK@ a 1 1;0",
    "CHECK@1@1 a 1 1;0",
    "CHECK@4294967295 a 1 1;0", "CHECK@4294967296 a 1 1;0", "CHECK @1 a 1 1;0", "CHECK a 1 1", "CHECK a 1 1;", "CHECK a 1 ;0", "CHECK a 1 1;0;0",
    "CHECK a 1 1; 0", "CHECK a 1 1;0 b", "CHECK a,b 1 1;0", "CHECK a 1 0;0", "CHECK a 1 2;0", "CHECK a 1 00;0", "CHECK a 1 (0,0);0",
    "CHECK a 1 (1,1);0",
    "CHECK a 1 (1,0;0", "CHECK a 1 (1,0));0", "CHECK a 1 (1);0", "CHECK a 1 (1,0,0);0", "CHECK a 1 ();0", "CHECK a 1 1;00", "CHECK a 1 1;01",
    "CHECK a 1 1;4294967295", "CHECK a 1 1;4294967296", "CHECK a 1 1;" + "9" * 8000, "CHECK a 1 1;(1,0,1)", "CHECK a 1 1;(1,1,1)",
    "CHECK a 1 1;(1,1,2)",
    "CHECK a 1 1;(0,0,0)", "CHECK a 1 1;(01,0,1)", "CHECK a 1 1;(4294967295,0,0)", "CHECK a 1 1;(4294967294,0,1)", "CHECK a 1 1;(4294967294,0,2)",
    "CHECK a 1 1;(4294967294,0,(1,0,1))", "CHECK a 1 1;(1,(1,0,1),(1,0,1))", "CHECK a 1 1;(1,(0,0,1),(0,0,1))", "CHECK a 1 1;(1,0)",
    "CHECK a 1 1;((1,0,1),0,1)",
    "PRESENT a 1 1;0", "PRESENT@7 a 1 1;0", "PRESENT a 1 1;0 a", "FORK a 1 1;0 (1,0) b (0,1)", "FORK@2 a 1 1;0 (1,0) b (0,1)", "FORK a 1 1;0 1 b 1",
    "FORK a 1 1;0 0 a 0", "FORK a 1 1;0 (1,1) b 0", "FORK a 1 1;0 1 b (0,0)", "FORK a 1 1;0 1;0 b 1", "FORK a 1 1;0 b", "FORK a 1 1;0 1 b",
    "FORK a 1 1;0 1 b 1 ",
    "RETIRE a 1 1;0 b", "RETIRE@3 a 1 1;0 a", "RETIRE a 1 1;0", "RETIRE a 1 1;0 b c", "ABSORB a 1 1;0 b", "ABSORB@3 a 1 1;0 b", "ABSORB a 1 1;0 -",
    "SETTLE 1 -", "SETTLE 1 a", "SETTLE 1 a,b,a", "SETTLE 1 a,", "SETTLE 1 ,a", "SETTLE 1 a,-", "SETTLE 1 -,a", "SETTLE 1", "SETTLE 1 ",
    "SETTLE 0 -", "SETTLE 01 -",
    "SETTLE 4294967295 a", "SETTLE 4294967296 a", "SETTLE@1 1 -", "SETTLE 1 a b", "LINE -", "LINE a", "LINE a,b", "LINE", "LINE ", "LINE a,,b",
    "LINE A", "LINE@1 -",
    "LINE " + ",".join(["a"] * 4000), "GARBAGE", "GARBAGE ", "GARBAGE -", "GARBAGE@1", "STATE a", "STATE", "STATE a,b", "STATE -", "STATE@1 a",
    "BYE ", "BYE a", "BYE@1",
    "OK 1", "BAD 1", "HELP", "x" * LONGEST,
]


def nested(levels, left, right, leaf):
    """A tree of so many levels, of these parts."""
    return left * levels + leaf + right * levels


class Writer:
    """Writes lines of a seed."""

    def __init__(self, chance):
        self.chance = chance

    def id_text(self, leaves):
        """An id with so many leaves, in normal form."""
        if leaves < 2:
            return self.chance.choice("01")
        part = self.chance.randrange(1, leaves)
        left, right = self.id_text(part), self.id_text(leaves - part)
        if left == right and left in "01":
            right = "10"[int(left)]
        return "(%s,%s)" % (left, right)

    def value(self):
        """A value of an event tree, small or great."""
        most = self.chance.choice([2, 10, 1000, 10 ** 6, 10 ** 9, GREATEST])
        return self.chance.randrange(most + 1)

    def events_text(self, leaves, least=None):
        """An event tree with so many leaves, in normal form; its values may be above the greatest one."""
        base = self.value() if least is None else least
        if leaves < 2:
            return str(base)
        part = self.chance.randrange(1, leaves)
        low = self.chance.randrange(2)
        left = self.events_text(part, 0 if low == 0 else None)
        right = self.events_text(leaves - part, 0 if low == 1 else None)
        if left == right and "(" not in left:
            right = str(int(right) + 1)
        return "(%d,%s,%s)" % (base, left, right)

    def size(self):
        """How many leaves a tree has."""
        return self.chance.choice([1, 1, 1, 2, 3, 5, 8, 40, 41, 42, 300])

    def an_id(self):
        """An id, now and then one that is about as deep as may be."""
        if self.chance.randrange(20) == 0:
            return nested(self.chance.randrange(38, 43), "(", ",0)", "1")
        return self.id_text(self.size())

    def events(self):
        """An event tree, now and then one that is about as deep as may be."""
        if self.chance.randrange(20) == 0:
            return nested(self.chance.randrange(38, 43), "(%d," % self.chance.randrange(3), ",0)", str(self.chance.randrange(1, 3)))
        return self.events_text(self.size())

    def name(self):
        """A name, short or about as long as may be."""
        return self.chance.choice("abz") + "".join(self.chance.choice("az09_-") for _ in range(self.chance.choice([0, 0, 1, 5, 31, 32])))

    def number(self):
        """A number of a report or an epoch."""
        return self.chance.choice(["1", "2", "10", str(GREATEST), str(self.value())])

    def names(self):
        """A list of names, or none."""
        return ",".join(self.name() for _ in range(self.chance.randrange(1, 5))) if self.chance.randrange(4) else "-"

    def head(self, kind):
        """The words with which each report begins."""
        mark = self.chance.choice(["", "", "@1", "@" + self.number()])
        return "%s%s %s %s %s;%s" % (kind, mark, self.name(), self.number(), self.an_id(), self.events())

    def line(self):
        """A line of the grammar, or nearly so: its numbers, names and values may be beyond the limits."""
        kind = self.chance.choice(["BEGIN", "CHECK", "CHECK", "PRESENT", "FORK", "FORK", "RETIRE", "ABSORB", "SETTLE", "LINE", "STATE", "GARBAGE"])
        if kind in ("CHECK", "PRESENT"):
            return self.head(kind)
        if kind == "FORK":
            return "%s %s %s %s" % (self.head(kind), self.an_id(), self.name(), self.an_id())
        if kind in ("RETIRE", "ABSORB"):
            return "%s %s" % (self.head(kind), self.name())
        if kind == "SETTLE":
            return "SETTLE %s %s" % (self.number(), self.names())
        return kind if kind == "GARBAGE" else "%s %s" % (kind, self.names() if kind == "LINE" else self.name())

    def changed(self, line):
        """The line with some signs dropped, doubled, replaced or swapped, or two lines that are cut and joined."""
        for _ in range(self.chance.choice([1, 1, 1, 2, 3])):
            at = self.chance.randrange(len(line) + 1)
            way = self.chance.randrange(6)
            if way == 0:
                line = line[:at] + line[at + 1:]
            elif way == 1:
                line = line[:at] + line[at:at + 1] + line[at:]
            elif way == 2:
                line = line[:at] + self.chance.choice("(),;@ -019azAZ\r\t\0\x7f\xff") + line[at + 1:]
            elif way == 3:
                line = line[:at] + self.chance.choice("(),;@ -019az_") + line[at:]
            elif way == 4:
                line = line[:at] + line[at + 1:at + 2] + line[at:at + 1] + line[at + 2:]
            else:
                other = self.line()
                line = line[:at] + other[self.chance.randrange(len(other) + 1):]
        return line

    def lines(self, count):
        """So many lines, of which every second one is changed."""
        for k in range(count):
            line = self.line()
            yield self.changed(line) if k % 2 else line


def replies(recline, lines):
    """The replies of one run to lines."""
    given = b"".join(line + b"\n" for line in lines)
    return subprocess.run([recline, "run"], input=given, stdout=subprocess.PIPE, timeout=HANG, check=True).stdout.split(b"\n")[:-1]


def compare(recline, folder, count, seed):
    """Compares both on those that are written out and on so many more; how many passed, and how many failed."""
    sys.path.insert(0, folder)
    from grammar import is_call

    lines = [line.encode("latin-1") for line in WRITTEN_OUT + list(Writer(random.Random(seed)).lines(count))]
    lines = [line for line in lines if line != b"BYE" and len(line) <= LONGEST]
    passed = failed = calls = 0
    for start in range(0, len(lines), AT_ONCE):
        some = lines[start:start + AT_ONCE]
        answered = replies(recline, some)
        failed += len(some) - len(answered)
        for line, reply in zip(some, answered):
            calls += is_call(line)
            if is_call(line) == (reply != b"BAD 1"):
                passed += 1
            else:
                failed += 1
                if failed < 5:
                    print("tests: recline answers %s to %s, and replicas take it for %s (seed %s)"
                          % (reply[:60], line[:300], "a call" if is_call(line) else "no call", seed), file=sys.stderr)
    # Each kind shows only if there are enough of both.
    if not len(lines) // 4 < calls < len(lines) * 3 // 4:
        failed += 1
        print("tests: of %d lines %d are calls, and both kinds are wanted" % (len(lines), calls), file=sys.stderr)
    return passed, failed


def main(recline, folder, count, seed):
    """Compares both, and prints the counts."""
    passed, failed = compare(recline, folder, int(count), seed)
    print(last_line(passed, failed))
    return 0 if passed and not failed else 1


if __name__ == "__main__":
    sys.exit(main(*sys.argv[1:]))
