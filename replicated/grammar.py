"""Which lines are calls of recline, read exactly as docs/FORMATS.md says ("Lines", "Stamps", "Names and numbers").

recline answers `BAD 1` to every other line, whatever came before it, so such a line is not put in the log. Reports and settlements are put there; all
other calls change nothing."""
from __future__ import annotations

import re
from collections.abc import Iterator

GREATEST = 2 ** 32 - 1
DEEPEST = 40

NAME, NUMBER, TREE = rb"[a-z][a-z0-9_-]{0,31}", rb"[1-9][0-9]{0,9}", rb"[0-9(),]+"
NAMES = b"(?:-|" + NAME + b"(?:," + NAME + b")*)"
# Groups: the mark, the number, the id and the events. `FORK` has two more ids.
HEAD = b"(?:@(" + NUMBER + b"))? " + NAME + b" (" + NUMBER + b") (" + TREE + b");(" + TREE + b")"
BEGIN = re.compile(b"BEGIN " + NAME)
REPORT = re.compile(b"(?:CHECK|PRESENT)" + HEAD)
HANDOVER = re.compile(b"(?:RETIRE|ABSORB)" + HEAD + b" " + NAME)
FORK = re.compile(b"FORK" + HEAD + b" (" + TREE + b") " + NAME + b" (" + TREE + b")")
SETTLE = re.compile(b"SETTLE (" + NUMBER + b") " + NAMES)
QUESTION = re.compile(b"GARBAGE|STATE " + NAME + b"|LINE " + NAMES + b"|BYE")

TOKENS = re.compile(rb"[(),]|[0-9]+")
# What is behind the last token of a text: no tree has it.
END = b""


class NoTree(Exception):
    """The text is that of no tree in normal form within the limits."""


def number(token: bytes) -> int:
    """The number of a token: decimal, without leading zeros."""
    if len(token) > 10 or not token.isdigit() or token[:1] == b"0" != token:
        raise NoTree()
    return int(token)


def expect(tokens: Iterator[bytes], sign: bytes) -> None:
    if next(tokens) != sign:
        raise NoTree()


def id_part(tokens: Iterator[bytes], levels: int) -> bytes | None:
    """Reads an id with so many levels at most. Answers its leaf; None for a node."""
    token = next(tokens)
    if token in (b"0", b"1"):
        return token
    if token != b"(" or levels == 0:
        raise NoTree()
    left = id_part(tokens, levels - 1)
    expect(tokens, b",")
    right = id_part(tokens, levels - 1)
    expect(tokens, b")")
    if left is not None and left == right:
        raise NoTree()
    return None


def events_part(tokens: Iterator[bytes], levels: int) -> tuple[bool, int, int]:
    """Reads an event tree with so many levels at most. Answers whether it is a leaf, and its least and greatest value."""
    token = next(tokens)
    if token != b"(":
        value = number(token)
        return True, value, value
    if levels == 0:
        raise NoTree()
    least = number(next(tokens))
    expect(tokens, b",")
    left = events_part(tokens, levels - 1)
    expect(tokens, b",")
    right = events_part(tokens, levels - 1)
    expect(tokens, b")")
    # One half has the least value 0, and two leaves differ.
    if min(left[1], right[1]) > 0 or left[0] and left == right:
        raise NoTree()
    return False, least, least + max(left[2], right[2])


def tokens_of(text: bytes) -> Iterator[bytes]:
    yield from TOKENS.findall(text)
    yield END


def is_id(text: bytes) -> bool:
    tokens = tokens_of(text)
    try:
        id_part(tokens, DEEPEST)
        return next(tokens) == END
    except NoTree:
        return False


def is_events(text: bytes) -> bool:
    tokens = tokens_of(text)
    try:
        greatest = events_part(tokens, DEEPEST)[2]
        return greatest <= GREATEST and next(tokens) == END
    except NoTree:
        return False


def is_report(line: bytes) -> bool:
    """Whether a line is a report."""
    found = REPORT.fullmatch(line) or HANDOVER.fullmatch(line) or FORK.fullmatch(line)
    if not found:
        return BEGIN.fullmatch(line) is not None
    mark, count, owned, events, *parts = found.groups()
    return int(mark or 0) <= GREATEST and int(count) <= GREATEST and is_id(owned) and is_events(events) and all(map(is_id, parts))


def is_settlement(line: bytes) -> bool:
    """Whether a line asks for a settlement."""
    found = SETTLE.fullmatch(line)
    return found is not None and int(found[1]) <= GREATEST


def is_logged(line: bytes) -> bool:
    """Whether a line is put in the log."""
    return is_report(line) or is_settlement(line)


def is_call(line: bytes) -> bool:
    """Whether a line is a call of recline at all: it is answered `BAD 1` if it is not."""
    return is_logged(line) or QUESTION.fullmatch(line) is not None
