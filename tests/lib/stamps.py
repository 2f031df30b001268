"""Stamps of interval tree clocks, by the rules of docs/STAMPING.md: a reading of its own, with which the program and the library are compared.

An id is 0, 1 or a pair (left, right). An event tree is a number, or a triple (base, left, right). All values are immutable,
so a stamp may be kept, sent and compared as it is.
"""
from __future__ import annotations

from collections.abc import Iterator
from typing import Any, Tuple, Union

Id = Union[int, Tuple[Any, Any]]
Events = Union[int, Tuple[int, Any, Any]]
Path = Tuple[int, ...]


# ---- ids

def pair(left: Id, right: Id) -> Id:
    """The id with these halves, in its shortest form."""
    if left == right and left in (0, 1):
        return left
    return (left, right)


def split(i: Id) -> tuple[Id, Id]:
    """Two ids that share no point and own together what the id owns."""
    if i == 0:
        return 0, 0
    if i == 1:
        return (1, 0), (0, 1)
    left, right = i
    if left == 0:
        one, two = split(right)
        return (0, one), (0, two)
    if right == 0:
        one, two = split(left)
        return (one, 0), (two, 0)
    return (left, 0), (0, right)


def leaves(i: Id, path: Path = ()) -> Iterator[Path]:
    """The paths of the leaves that the id owns, from left to right. A path has 0 for each left half and 1 for each right one."""
    if i == 1:
        yield path
    elif isinstance(i, tuple):
        yield from leaves(i[0], path + (0,))
        yield from leaves(i[1], path + (1,))


def leaf(path: Path) -> Id:
    """The id that owns what is below this path, and nothing else."""
    if not path:
        return 1
    return (leaf(path[1:]), 0) if path[0] == 0 else (0, leaf(path[1:]))


def without(i: Id, path: Path) -> Id:
    """What the id owns but for what is below this path, all of which it owns."""
    if not path:
        return 0
    left, right = i if isinstance(i, tuple) else (i, i)
    if path[0] == 0:
        return pair(without(left, path[1:]), right)
    return pair(left, without(right, path[1:]))


def carve(i: Id, depth: int) -> tuple[Id, Id]:
    """Two ids that share no point and own together what the id owns: what is kept, and one leaf that is given away.

    The leaf has this depth where the id owns something as shallow as that: it is cut from the deepest such leaf, so that the greater
    ones stay whole. Else it is the shallowest leaf that the id owns; and of an id that is one leaf, half of it, since something is kept.
    """
    paths = sorted(leaves(i), key=len)
    if not paths:
        return 0, 0
    fitting = [path for path in paths if len(path) <= depth]
    path = max(fitting, key=len) if fitting else paths[0]
    if len(paths) == 1:
        depth = max(depth, len(path) + 1)
    path += (0,) * (depth - len(path))
    return without(i, path), leaf(path)


def total(i: Id, j: Id) -> Id:
    """What either of two ids owns that share no point."""
    if i == 0:
        return j
    if j == 0:
        return i
    if not isinstance(i, tuple) or not isinstance(j, tuple):
        raise ValueError("the ids share a point")
    return pair(total(i[0], j[0]), total(i[1], j[1]))


# ---- event trees

def base(e: Events) -> int:
    return e[0] if isinstance(e, tuple) else e


def lift(n: int, e: Events) -> Events:
    """The tree with n more at each point."""
    return (e[0] + n, e[1], e[2]) if isinstance(e, tuple) else e + n


def node(n: int, left: Events, right: Events) -> Events:
    """The tree with these halves, n more at each point, in its shortest form."""
    if not isinstance(left, tuple) and left == right:
        return n + left
    least = min(base(left), base(right))
    return (n + least, lift(-least, left), lift(-least, right))


def greatest(e: Events) -> int:
    """The greatest value of the tree."""
    return e[0] + max(greatest(e[1]), greatest(e[2])) if isinstance(e, tuple) else e


def join(e: Events, f: Events) -> Events:
    """At each point the greater value."""
    if not isinstance(e, tuple) and not isinstance(f, tuple):
        return max(e, f)
    if not isinstance(e, tuple):
        e = (e, 0, 0)
    if not isinstance(f, tuple):
        f = (f, 0, 0)
    if e[0] > f[0]:
        e, f = f, e
    more = f[0] - e[0]
    return node(e[0], join(e[1], lift(more, f[1])), join(e[2], lift(more, f[2])))


def fill(i: Id, e: Events) -> Events:
    """Where the id owns a whole half, its values are filled up to a level that is there already."""
    if i == 0 or not isinstance(e, tuple):
        return e
    if i == 1:
        return greatest(e)
    n, left, right = e
    if i[0] == 1:
        other = fill(i[1], right)
        return node(n, max(greatest(left), base(other)), other)
    if i[1] == 1:
        other = fill(i[0], left)
        return node(n, other, max(greatest(right), base(other)))
    return node(n, fill(i[0], left), fill(i[1], right))


# A leaf that has to be cut costs more than any path is long.
CUT = 1000


def grow(i: Id, e: Events) -> tuple[Events, int]:
    """The leaf of the id that costs least, raised by one, and what that costs. A tie goes to the right half."""
    if not isinstance(e, tuple):
        if i == 1:
            return e + 1, 0
        grown, cost = grow(i, (e, 0, 0))
        return grown, cost + CUT
    n, left, right = e
    if i[0] == 0:
        grown, cost = grow(i[1], right)
        return (n, left, grown), cost + 1
    if i[1] == 0:
        grown, cost = grow(i[0], left)
        return (n, grown, right), cost + 1
    one, cost_one = grow(i[0], left)
    two, cost_two = grow(i[1], right)
    if cost_one < cost_two:
        return (n, one, right), cost_one + 1
    return (n, left, two), cost_two + 1


def event(i: Id, e: Events) -> Events:
    """The events behind one event of the process that owns the id."""
    if i == 0:
        raise ValueError("a process that owns nothing has no events")
    filled = fill(i, e)
    return filled if filled != e else grow(i, e)[0]


# ---- texts

def text(tree: Id | Events) -> str:
    """The text of an id or an event tree."""
    if isinstance(tree, tuple):
        return "(" + ",".join(text(part) for part in tree) + ")"
    return str(tree)


def parse(words: str) -> Any:
    """The id or the event tree of a text."""
    def at(place: int) -> tuple[Any, int]:
        if words[place] != "(":
            end = place
            while end < len(words) and words[end].isdigit():
                end += 1
            return int(words[place:end]), end
        parts = []
        while words[place] != ")":
            part, place = at(place + 1)
            parts.append(part)
        return tuple(parts), place + 1
    tree, _ = at(0)
    return tree


class Stamp:
    """The stamp of one process, which each of its events changes."""

    def __init__(self, i: Id = 1, e: Events = 0) -> None:
        self.id = i
        self.events = e

    def __str__(self) -> str:
        return text(self.id) + ";" + text(self.events)

    def copy(self) -> Stamp:
        return Stamp(self.id, self.events)

    def event(self) -> Events:
        """Work, a checkpoint, a present state, a retirement; or a message, which carries the events behind it."""
        self.events = event(self.id, self.events)
        return self.events

    def receive(self, events: Events) -> None:
        """The message that carries these events was received."""
        self.events = event(self.id, join(self.events, events))

    def fork(self, depth: int | None = None) -> Stamp:
        """The event and the split of a fork: the process keeps one part, and the child's stamp is answered. The child gets half of the id,
        or, where a depth is given, a leaf of that depth."""
        self.event()
        self.id, other = split(self.id) if depth is None else carve(self.id, depth)
        return Stamp(other, self.events)

    def absorb(self, other: Stamp) -> None:
        """The process whose last stamp this is retired into this one."""
        self.event()
        self.events = join(self.events, other.events)
        self.id = total(self.id, other.id)
