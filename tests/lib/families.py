#!/usr/bin/env python3
"""Random families of processes, which each binding makes.

Usage: tests/lib/families.py FAMILIES SEED NAME=COMMAND..

tests/suites/bindings calls it with how many families, a seed, and the command of each binding. A command takes steps, one a line, and writes the line
of each step that reports:

    root p                p begins as the root, in a family of its own
    work p, check p, present p
    send p m, receive p m
    fork p c, fork p c d  the child c gets half of the id, or a leaf of depth d
    retire p q, absorb q p, absorb_kept q p
    keep p k              the state of p is kept as k
    return_to p k e       p, which is alive, returns to the state k, in the epoch e
    return p k e          the same if p has no state any more
    again p m             p hands m over once more, which has its epoch from now on

What is refused is written as FAULT and its number. The reports have to be those of stamps.py beside this file, and, if all parts of ids are
halves, those of `recline drive`; and `recline run` has to accept all of them. Every eighth family settles.
The last line is 'N passed, M failed'.
"""
import functools
import json
import random
import subprocess
import sys

from harness import HANG, Suite
from stamps import Stamp, join, leaves, text

OLDER, NEWER, NOT_WAITING, SELF_TARGET, NAME_TAKEN, OVERLAP, OTHER_PROCESS, NOT_KNOWN = -8, -9, -7, -5, -6, -14, -15, -16
LARGEST = 64

suite = Suite()


class Family:
    """Processes, the steps that they take, and the lines that report them."""

    def __init__(self, chance, depth):
        self.chance, self.depth = chance, depth
        self.steps, self.script, self.lines, self.told = [], [], [], []
        self.stamps, self.numbers, self.epochs, self.elements = {}, {}, {}, {}
        self.messages, self.retired, self.absorbed = {}, {}, {}
        self.names = self.sent = 0
        name = self.new_name()
        self.step("root " + name)
        self.report("BEGIN " + name)
        self.birth(name, Stamp(), 0)

    def new_name(self):
        """A name that no process has."""
        self.names += 1
        return "p%d" % (self.names - 1)

    def step(self, step, script=True):
        """Adds a step, which a script of recline may have, too."""
        self.steps.append(step)
        if script:
            self.script.append(step)

    def report(self, line):
        """Adds the line that a step reports."""
        self.lines.append(line)
        self.told.append(line)

    def refused(self, step, fault):
        """Adds a step that is refused for this fault."""
        self.step(step, False)
        self.told.append("FAULT %d" % fault)

    def report_of(self, kind, name, stamp, rest=""):
        """Adds the report of a process."""
        self.numbers[name] += 1
        mark = "@%d" % self.epochs[name] if self.epochs[name] else ""
        self.report("%s%s %s %d %s%s" % (kind, mark, name, self.numbers[name], stamp, rest))

    def birth(self, name, stamp, epoch):
        """Adds a process."""
        self.stamps[name], self.numbers[name], self.epochs[name] = stamp, 0, epoch
        self.elements[name], self.absorbed[name] = [], set()
        self.keep(name)

    def keep(self, name):
        """A new element, whose state is kept."""
        self.elements[name].append((self.stamps[name].copy(), self.numbers[name], set(self.absorbed[name])))
        self.step("keep %s %s.%d" % (name, name, len(self.elements[name])), False)

    def live(self):
        """The names of the processes that are alive."""
        return sorted(self.stamps)

    def work(self, name):
        """A step without a report."""
        self.stamps[name].event()
        self.step("work " + name)

    def tell(self, kind, name):
        """A checkpoint or a present state."""
        self.stamps[name].event()
        self.step("%s %s" % (kind, name))
        self.report_of(kind.upper(), name, self.stamps[name])
        if kind == "check":
            self.keep(name)

    def send(self, name):
        """A message of a process."""
        message = "m%d" % self.sent
        self.sent += 1
        self.step("send %s %s" % (name, message))
        self.messages[message] = self.stamps[name].event(), self.epochs[name], name, len(self.elements[name])

    def receive(self, name):
        """A message for a process, if one is on its way."""
        if not self.messages:
            return
        message = self.chance.choice(list(self.messages))
        events, epoch, _, _ = self.messages[message]
        step = "receive %s %s" % (name, message)
        if epoch == self.epochs[name]:
            self.stamps[name].receive(events)
            self.step(step)
        else:
            self.refused(step, OLDER if epoch < self.epochs[name] else NEWER)

    def fork(self, name):
        """A child of a process."""
        if len(self.stamps) == LARGEST:
            return
        stamp, child, depth = self.stamps[name], self.new_name(), None
        if self.depth is not None and self.chance.random() < 0.8:
            # If there is no leaf of this depth, examples/client carves one, which is not given here.
            depth, paths = self.depth, [len(path) for path in leaves(stamp.id)]
            if min(paths) > depth or paths == [depth]:
                depth = None
        before = stamp.id
        other = stamp.fork(depth)
        self.step("fork %s %s" % (name, child) + ("" if depth is None else " %d" % depth))
        self.report_of("FORK", name, Stamp(before, stamp.events), " %s %s %s" % (text(stamp.id), child, text(other.id)))
        self.birth(child, other, self.epochs[name])

    def retire(self, name):
        """The retirement of a process."""
        if name == "p0":
            return
        target = self.chance.choice([other for other in self.live() if other != name])
        self.stamps[name].event()
        self.step("retire %s %s" % (name, target))
        self.report_of("RETIRE", name, self.stamps[name], " " + target)
        self.retired[name] = target, self.stamps.pop(name), self.epochs[name]

    def waiting(self):
        """Who waits for a process that lives."""
        return [gone for gone, (target, _, _) in self.retired.items() if target in self.stamps and gone not in self.absorbed[target]]

    def absorb(self, kept=False):
        """An absorption, if one is waiting."""
        waiting = self.waiting()
        if not waiting:
            return
        gone = self.chance.choice(waiting)
        target, stamp, epoch = self.retired[gone]
        others = [name for name in self.live() if name != target]
        if others and self.chance.random() < 0.1:
            self.refused("absorb %s %s" % (self.chance.choice(others), gone), NOT_WAITING)
        call = "absorb"
        if epoch < self.epochs[target]:
            self.refused("absorb %s %s" % (target, gone), OLDER)
            call = "absorb_kept"
        self.stamps[target].absorb(stamp)
        self.absorbed[target].add(gone)
        self.step("%s %s %s" % (call, target, gone), False)
        self.script.append("absorb %s %s" % (target, gone))
        self.report_of("ABSORB", target, self.stamps[target], " " + gone)
        if self.chance.random() < 0.1:
            self.refused("absorb_kept %s %s" % (target, gone), OVERLAP)

    def refuse(self, name):
        """A step that is refused."""
        if self.chance.random() < 0.5:
            self.refused("retire %s %s" % (name, name), SELF_TARGET)
        else:
            self.refused("fork %s %s" % (name, name), NAME_TAKEN)

    def go(self, steps, presents=True):
        """So many steps that chance chooses."""
        kinds = ["work", "check", "send", "send", "receive", "receive", "fork", "fork", "retire", "absorb"] + ["present"] * presents
        for _ in range(steps):
            name, what = self.chance.choice(self.live()), self.chance.choice(kinds)
            if what in ("check", "present"):
                self.tell(what, name)
            elif what == "absorb":
                self.absorb()
            else:
                getattr(self, what)(name)
            if name in self.stamps and self.chance.random() < 0.02:
                self.refuse(name)

    def settle(self):
        """Some processes fail, and each returns to the line that recline has then: from the state that it has, if it has not failed or retired."""
        names = list(self.elements)
        crashed = sorted(self.chance.sample(names, min(len(names), self.chance.randrange(1, 3))))
        failed = ",".join(crashed)
        reply = replies_to(self.lines + ["LINE " + failed])[-1]
        line = dict(json.loads(reply.partition(" ")[2])["line"])
        self.lines.append("SETTLE %d %s" % (len(self.lines), failed))
        self.script.append("settle " + failed)
        before = self.messages
        self.messages = {m: sent for m, sent in before.items() if line[sent[2]] == "retired" or sent[3] < line[sent[2]]}
        undone = [(message, sent[2]) for message, sent in before.items() if message not in self.messages]
        self.retired = {name: gone for name, gone in self.retired.items() if line[name] == "retired" and line[gone[0]] != 0}
        late = list(self.stamps)
        alive = [name for name in late if name not in crashed]
        self.stamps = {}
        order = [name for name, position in line.items() if position not in (0, "retired")]
        self.chance.shuffle(order)
        for name in order:
            self.return_to(name, line[name], name in alive)
            for message, sender in undone:
                if sender == name and self.chance.random() < 0.3:
                    self.refused("again %s %s" % (name, message), NOT_KNOWN)
            late = [other for other in late if other not in self.stamps]
            if late and self.chance.random() < 0.3:
                # One that has not returned yet lets wait what another one hands over.
                self.send(name)
                for call in ("receive", "again"):
                    self.refused("%s %s %s" % (call, self.chance.choice(late), list(self.messages)[-1]), NEWER)
        for message, (events, epoch, sender, count) in list(self.messages.items()):
            if epoch == 0 and self.chance.random() < 0.7 and self.hand_over(message, events, sender):
                self.messages[message] = events, 1, sender, count
        self.elements = {name: elements for name, elements in self.elements.items() if line[name] != 0}

    def hand_over(self, message, events, sender):
        """Whether it is handed over once more: by its sender, or if that ended by one that knows what it says, if there is one."""
        knows = [name for name in self.live() if join(events, self.stamps[name].events) == self.stamps[name].events]
        others = [name for name in self.live() if name not in knows and name != sender]
        if others and self.chance.random() < 0.2:
            self.refused("again %s %s" % (self.chance.choice(others), message), NOT_KNOWN)
        if sender not in self.stamps and not knows:
            return False
        self.step("again %s %s" % (sender if sender in self.stamps else self.chance.choice(knows), message), False)
        return True

    def return_to(self, name, position, is_alive):
        """A process returns to a position of the line."""
        stamp, number, absorbed = self.elements[name][position - 1]
        self.stamps[name], self.numbers[name], self.absorbed[name] = stamp.copy(), number, set(absorbed)
        self.epochs[name] = 1
        self.elements[name] = self.elements[name][:position]
        if is_alive and len(self.elements) > 1 and self.chance.random() < 0.3:
            other = self.chance.choice([other for other in self.elements if other != name])
            self.refused("return_to %s %s.1 1" % (name, other), OTHER_PROCESS)
        self.step("%s %s %s.%d 1" % ("return_to" if is_alive else "return", name, name, position), False)
        if self.chance.random() < 0.3:
            # What was kept is of an older epoch, but it has returned.
            self.refused("return_to %s %s.%d 1" % (name, name, position), OLDER)


def in_lines(words):
    """Each of them as a line."""
    return "".join(word + "\n" for word in words)


def replies_to(lines):
    """The replies of one run to lines."""
    return suite.run("run", input=in_lines(lines), text=True).stdout.splitlines()


def drive(script):
    """The reports of a script."""
    return suite.run("drive", "-", input=in_lines(script), text=True).stdout.splitlines()


def a_family(k):
    """Of every four families one carves, and of every eight one settles."""
    chance = random.Random("%s %d" % (suite.seed, k))
    family = Family(chance, chance.choice([6, 8, 10]) if k % 4 == 0 else None)
    family.go(chance.randrange(120) if k % 50 else 600, presents=k % 8 != 1)
    if k % 8 == 1:
        family.settle()
        family.go(chance.randrange(60), presents=False)
        while family.waiting():
            family.absorb()
    return family


def compare(name, got, wanted):
    """Judges lines, of which the first that differ are shown."""
    at = next((k for k, (one, two) in enumerate(zip(got, wanted)) if one != two), min(len(got), len(wanted)))
    suite.expect(name, got == wanted, "at line %d: %s, and %s is wanted" % (at + 1, got[at:at + 1], wanted[at:at + 1]))


def accepted(lines):
    """The replies if each line is accepted."""
    return ["SETTLED 1 %d" % (k + 1) if line.startswith("SETTLE ") else "OK %d" % (k + 1) for k, line in enumerate(lines)]


def try_families(families):
    """The reports of families are accepted, and are those of recline; and there are enough of each kind."""
    for k, family in enumerate(families):
        compare("recline run on family %d" % k, replies_to(family.lines), accepted(family.lines))
        if family.depth is None:
            compare("recline drive on family %d" % k, drive(family.script), family.lines)
    largest = max(len(family.elements) for family in families)
    suite.expect("%d processes are in one family" % largest, largest >= LARGEST or len(families) < 100)
    ways = {kind: sum(step.startswith(kind + " ") for family in families for step in family.steps) for kind in ("return_to", "return", "again")}
    suite.expect("processes return in both ways, and hand messages over once more", len(families) < 100 or min(ways.values()) > 0, ways)


def try_binding(families, name, command):
    """The reports of families are those of a binding."""
    ran = subprocess.run(
        [command], input=in_lines(step for family in families for step in family.steps), capture_output=True, text=True, timeout=HANG, check=False)
    got, at = ran.stdout.splitlines(), 0
    for k, family in enumerate(families):
        compare("family %d by %s" % (k, name), got[at:at + len(family.told)], family.told)
        at += len(family.told)
    suite.expect("the end of the steps by %s" % name, (ran.returncode, len(got), ran.stderr) == (0, at, ""), (ran.returncode, len(got), ran.stderr))


def try_all(count, makers):
    """Makes so many families, and tries them by each binding."""
    families = [a_family(k) for k in range(count)]
    try_families(families)
    for maker in makers:
        name, _, command = maker.partition("=")
        try_binding(families, name, command)


def main(count, seed, *makers):
    """Tries so many families of this seed by each binding."""
    suite.seed = seed
    suite.main(functools.partial(try_all, int(count), makers))


if __name__ == "__main__":
    main(*sys.argv[1:])
