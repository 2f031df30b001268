#!/usr/bin/env python3
"""Takes the steps that standard input says, and writes the line of each that reports; of one that is refused "FAULT n". tests/suites/bindings says
what the steps are."""
from __future__ import annotations

import sys

from recline import Fault, Process

processes: dict[str, Process] = {}
texts: dict[str, str] = {}  # of one family: texts that were handed out or kept, by their names


def step(kind: str, name: str, *words: str) -> str | None:
    """The line of the step, where it has one."""
    line = None
    if kind == "root":
        processes.clear(), texts.clear()
        processes[name], line = Process.root(name)
    elif kind in ("work", "check", "present"):
        line = getattr(processes[name], kind)()
    elif kind == "send":
        texts[words[0]] = processes[name].send()
    elif kind == "receive":
        processes[name].receive(texts[words[0]])
    elif kind == "fork":
        line, start = processes[name].fork(words[0], *map(int, words[1:]))
        processes[words[0]] = Process.born(start)
    elif kind == "retire":
        line, texts[name] = processes[name].retire(words[0])
    elif kind in ("absorb", "absorb_kept"):
        line = processes[name].absorb(texts[words[0]], kind == "absorb_kept")
    elif kind == "keep":
        texts[words[0]] = processes[name].state
    elif kind == "again":
        texts[words[0]] = processes[name].again(texts[words[0]])
    elif kind == "return_to":
        processes[name].return_to(texts[words[0]], int(words[1]))
    elif kind == "return":
        processes[name] = Process(texts[words[0]])
        processes[name].returned(int(words[1]))
    return line


for asked in sys.stdin:
    try:
        told = step(*asked.split())
    except Fault as fault:
        told = "FAULT %d" % fault.number
    if told:
        print(told)
