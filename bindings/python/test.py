#!/usr/bin/env python3
"""Tests recline.py. The last line is "N passed, M failed"."""
from __future__ import annotations

import sys
import threading
from collections.abc import Callable

import recline
from recline import Fault, Process

passed = failed = 0


def expect(what: str, told: object, wanted: object) -> None:
    global passed, failed
    if told == wanted:
        passed += 1
    else:
        failed += 1
        print("bindings/python: %s FAILED: %r, and not %r" % (what, told, wanted))


def fault_of(call: Callable[..., object], *handed: object) -> object:
    try:
        return "no fault: %r" % (call(*handed),)
    except Fault as fault:
        return fault.number


def example() -> None:
    """What stands in docs/STAMPING.md: two processes, two messages, and an end."""
    a, line = Process.root("a")
    expect("BEGIN", line, "BEGIN a")
    line, start = a.fork("b")
    b = Process.born(start)
    expect("FORK", line, "FORK a 1 1;1 (1,0) b (0,1)")
    expect("CHECK", a.check(), "CHECK a 2 (1,0);(1,1,0)")
    kept = a.state
    a.receive(b.send())
    expect("CHECK behind a receipt", a.check(), "CHECK a 3 (1,0);(2,2,0)")
    sent = a.send()
    b.receive(sent)
    expect("CHECK of b", b.check(), "CHECK b 1 (0,1);(5,0,1)")
    line, retirement = b.retire("a")
    expect("RETIRE", (line, retirement), ("RETIRE b 2 (0,1);(5,0,2) a", "retirement b 0 a (0,1);(5,0,2)"))
    expect("ABSORB", a.absorb(retirement), "ABSORB a 4 1;(6,0,1) b")
    expect("a step behind the end", fault_of(b.check), recline.NO_STATE)
    state = a.state
    expect("an absorption once more", fault_of(a.absorb, retirement), recline.OVERLAP)
    expect("what is refused changes nothing", a.state, state)
    expect("a return to a state of another process", fault_of(a.return_to, start.replace("start b 0", "process b 0 0"), 1), recline.OTHER_PROCESS)
    expect("a return that is refused changes nothing", a.state, state)
    crashed = Process(kept)
    crashed.returned(1)
    a.return_to(kept, 1)
    expect("a return", a.state, "process a 1 2 (1,0);(1,1,0)")
    expect("a process that crashed returns to the same", crashed.state, a.state)
    expect("a return once more", fault_of(a.return_to, kept, 1), recline.OLDER)
    expect("a message once more", a.again("message 0 (1,1,0)"), "message 1 (1,1,0)")
    expect("a message that is undone", fault_of(a.again, sent), recline.NOT_KNOWN)
    expect("a hand-over is no step", a.state, crashed.state)
    a.work()
    expect("PRESENT with a mark", a.present(), "PRESENT@1 a 3 (1,0);(1,3,0)")
    expect("an older retirement", fault_of(a.absorb, retirement), recline.OLDER)
    expect("an older retirement that was kept", a.absorb(retirement, kept=True), "ABSORB@1 a 4 1;(5,0,2) b")


def faults() -> None:
    expect("no name", fault_of(Process.root, "A"), recline.NO_NAME)
    expect("no state", fault_of(Process("process a").check), recline.NO_STATE)
    expect("no start", fault_of(Process.born, "process a 0 0 1;0"), recline.NO_TEXT)
    a = Process("process a 0 0 (1,0);1")
    expect("its own name", fault_of(a.fork, "a"), recline.NAME_TAKEN)
    expect("into itself", fault_of(a.retire, "a"), recline.SELF_TARGET)
    expect("the only leaf", fault_of(a.fork, "b", 1), recline.TOO_DEEP)
    expect("a newer message", fault_of(a.receive, "message 1 9"), recline.NEWER)
    expect("a newer message once more", fault_of(a.again, "message 1 0"), recline.NEWER)
    expect("no message once more", fault_of(a.again, "message 0"), recline.NO_TEXT)
    expect("its own retirement", fault_of(a.absorb, "retirement a 0 a (0,1);2"), recline.NOT_WAITING)
    expect("the same epoch once more", fault_of(a.returned, 0), recline.OLDER)
    expect("a return to no process", fault_of(a.return_to, "message 0 1", 1), recline.NO_TEXT)
    expect("the epoch of the live state", fault_of(a.return_to, "process a 0 0 1;0", 0), recline.OLDER)
    expect("the epoch of the state that was kept", fault_of(a.return_to, "process a 1 0 1;0", 1), recline.OLDER)
    expect("an older epoch of another process", fault_of(a.return_to, "process b 0 0 1;0", 0), recline.OLDER)
    expect("another process", fault_of(a.return_to, "process b 0 0 1;0", 1), recline.OTHER_PROCESS)
    expect("what is refused changes nothing", a.state, "process a 0 0 (1,0);1")


def numbers() -> None:
    """What is no number of 8 or of 32 bits is not cut to one."""
    a = Process("process a 0 0 (1,0);1")
    for call in (lambda: a.fork("b", 257), lambda: a.returned(-1), lambda: a.return_to("process a 0 0 1;0", 2 ** 32 + 1)):
        try:
            call()
            expect("a number that is too large or too small", "taken", "refused")
        except ValueError:
            expect("a number that is too large or too small", a.state, "process a 0 0 (1,0);1")


def long_texts() -> None:
    """More than there is room for at first."""
    a, _ = Process.root("a")
    for k in range(255):
        line, start = a.fork("c%d" % k, 8)
        child = Process.born(start)
        for _ in range(k % 9 + 1):
            child.work()
        a.receive(child.send())
    expect("a state of some length", len(a.state) > 1024, True)
    expect("what is sent with it", a.send()[10:], a.state.partition(";")[2])


def threads() -> None:
    """Calls from many threads at once give what they give one by one."""
    def run(name: str, lines: list[str]) -> None:
        process, line = Process.root(name)
        lines.append(line)
        for k in range(20):
            lines += process.fork("%s%d" % (name, k))
    told: list[list[str]] = [[] for _ in range(8)]
    running = [threading.Thread(target=run, args=("p", lines)) for lines in told]
    for thread in running:
        thread.start()
    for thread in running:
        thread.join()
    wanted: list[str] = []
    run("p", wanted)
    expect("threads", told, [wanted] * len(told))


for test in (example, faults, numbers, long_texts, threads):
    test()
print("%d passed, %d failed" % (passed, failed))
sys.exit(failed != 0)
