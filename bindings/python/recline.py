"""A process of a computation that recline coordinates, over librecline.

    process, line = Process.root("a")            # line is "BEGIN a"
    line, start = process.fork("b")              # the start is for the child: Process.born(start)
    line = process.check()                       # process.state is kept with the checkpoint: Process(state)
    message = process.send()                     # what goes with a message
    process.receive(message)                     # raises Fault, whose number is OLDER or NEWER, where it is not of this epoch

Each call is one step. A call that reports answers the line of its report. A call that is refused raises Fault, and the process stays as it was.
"""
from __future__ import annotations

import ctypes
import os
from typing import Any

(MEMORY, NO_STATE, NO_TEXT, NO_NAME, SELF_TARGET, NAME_TAKEN, NOT_WAITING, OLDER, NEWER, WORN, NOTHING_OWNED, CLOCK_FULL, TOO_DEEP, OVERLAP,
 OTHER_PROCESS, NOT_KNOWN) = range(-1, -17, -1)

HERE = os.path.dirname(os.path.abspath(__file__))
try:
    library = ctypes.CDLL(os.environ.get("RECLINE_LIBRARY") or os.path.join(HERE, "librecline.so"))
except OSError as fault:
    raise ImportError("%s; %s links it from librecline.a" % (fault, os.path.join(HERE, "build"))) from fault


class Fault(Exception):
    """Why a call is refused: its number is one of those of recline.h."""

    def __init__(self, number: int) -> None:
        super().__init__("fault %d" % number)
        self.number = number


def texts(call: str, *handed: Any) -> list[str]:
    """The texts that a call of recline.h gives. What is handed to it are texts and numbers of 8 or 32 bits."""
    passed: list[Any] = []
    for one in handed:
        if isinstance(one, str):
            passed += [ctypes.c_char_p(one.encode()), ctypes.c_size_t(len(one.encode()))]
        else:
            passed.append(one)
    function = getattr(library, "recline_" + call)
    function.restype = ctypes.c_int64
    room = 1024
    while True:
        out = ctypes.create_string_buffer(room)
        size = function(*passed, out, ctypes.c_size_t(room))
        if size < 0:
            raise Fault(size)
        if size <= room:
            return out.raw[:size].decode().splitlines()
        room = size


def number(kind: Any, value: int) -> Any:
    """The value as a number of C. One that is too great or too small for it is no such number, and is not cut."""
    if kind(value).value != value:
        raise ValueError("%d is no number of %d bits" % (value, 8 * ctypes.sizeof(kind)))
    return kind(value)


class Process:
    """A process. Its state is a text, to be kept with each checkpoint; a process is made of it again."""

    def __init__(self, state: str) -> None:
        self.state = state

    @classmethod
    def root(cls, name: str) -> tuple[Process, str]:
        """The root of a computation begins: the process and the line of its BEGIN."""
        state, line = texts("root", name)
        return cls(state), line

    @classmethod
    def born(cls, start: str) -> Process:
        """A child begins with what its parent handed over."""
        return cls(*texts("born", start))

    def step(self, call: str, *handed: Any) -> list[str]:
        self.state, *others = texts(call, self.state, *handed)
        return others

    def work(self) -> None:
        self.step("work")

    def check(self) -> str:
        """Takes a checkpoint. The line is reported once the new state is on disk with it."""
        return self.step("check")[0]

    def present(self) -> str:
        """Tells the present state. The next step has to be one that is reported."""
        return self.step("present")[0]

    def send(self) -> str:
        return self.step("send")[0]

    def again(self, message: str) -> str:
        """The same message with the epoch that this process has: to be handed over once more behind a settlement, where its sending is not undone."""
        return self.step("again", message)[0]

    def receive(self, message: str) -> None:
        self.step("receive", message)

    def fork(self, child: str, depth: int | None = None) -> list[str]:
        """Makes a child: the line, and the start of the child, which gets half of the id, or a leaf of this depth."""
        return self.step("fork", child) if depth is None else self.step("fork_small", child, number(ctypes.c_uint8, depth))

    def retire(self, target: str) -> tuple[str, str]:
        """Ends: the line, and the retirement for the target. The process has no state any more."""
        line, retirement = texts("retire", self.state, target)
        self.state = ""
        return line, retirement

    def absorb(self, retirement: str, kept: bool = False) -> str:
        """Absorbs a retirement of this epoch; or, where it is kept, of an older one, too: the line of each settlement since has it at "retired"."""
        return self.step("absorb_kept" if kept else "absorb", retirement)[0]

    def return_to(self, kept: str, epoch: int) -> None:
        """Returns to this state, which was kept at its position in the line of the settlement of this epoch."""
        self.step("return_to", kept, number(ctypes.c_uint32, epoch))

    def returned(self, epoch: int) -> None:
        """The same where the process crashed and was made of that state. Whether it had returned to this settlement and gone on by then,
        or to a later one, is the caller's to know."""
        self.step("returned", number(ctypes.c_uint32, epoch))
