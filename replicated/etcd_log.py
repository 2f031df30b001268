"""The log of one computation in etcd, over the JSON gateway of its nodes.

The keys of the computation NAME, all below /recline/NAME/:

    end                       how many lines were put in the log, and of the last of them the run of a replica that put it, and its number in that run
    lines/0000000041          line 41: its run, its number in that, and the line, parted by one space
    places/REPLICA            the line of the log up to which the snapshot of a replica stands, and its front
    digests/00001000/REPLICA  the digest of the first 1,000 accepted lines of a replica
    asks/RUN                  the replica of a run that waits for its turn (asks.py)

Lines are put by transactions alone, each of which asks that `end` be what its replica knows, puts its lines behind that, and puts the new
`end`. A run is a word that was drawn by lot. So the numbers of lines have no gap, they stand in the order of the revisions, and within one transaction
in the order of the lines."""
from __future__ import annotations

import base64
import http.client
import json
import os
import re
import ssl
import threading
import time
import urllib.parse
from collections.abc import Callable, Iterable
from typing import Any, NamedTuple

from faults import Broken, Cut, Silent, Stopped, Wrong
from grammar import is_logged

# A page of lines that is read at once. With lines of 8,192 bytes it stays below the four MiB that gRPC takes in one message.
PAGE = 256
# How long one node is waited for before the next one is asked.
SECONDS = 4

END = re.compile(rb"([1-9][0-9]*) ([0-9a-f]+ [1-9][0-9]*)")
LINE = re.compile(rb"([0-9a-f]+) ([1-9][0-9]*) (.*)", re.DOTALL)


class Last(NamedTuple):
    """The last line that is known of a log: its number, the revision by which it was put, and its mark, which is its run and its number there. Where
    etcd was given an old copy of its data revisions come again, with other lines, and marks do not."""

    position: int
    revision: int
    mark: bytes


BEGINNING = Last(0, 0, b"0 0")


class Entry(NamedTuple):
    """A line of the log, with its run and its number in that."""

    last: Last
    run: bytes
    number: int
    line: bytes


class Ask(NamedTuple):
    """That a run asks, since the revision by which it was put first, and by which it was put last."""

    created: int
    run: bytes
    changed: int


def text(data: bytes) -> str:
    return base64.b64encode(data).decode()


def data(pair: dict[str, Any], name: str) -> bytes:
    return base64.b64decode(pair.get(name, ""))


class Etcd:
    """A cluster, of which one node is asked at a time. Another one is asked where that fails, until one has answered.

    A request that failed may have been carried out, or be so later. Whoever makes one has to bear that it is made again. Where `patience` is set a
    request is made for so many seconds at most."""

    def __init__(
            self, urls: list[str], stopping: threading.Event, tell: Callable[[str], object], context: ssl.SSLContext | None = None) -> None:
        self.nodes = [urllib.parse.urlsplit(url) for url in urls]
        self.stopping = stopping
        self.tell = tell
        self.context = context
        self.connection: http.client.HTTPConnection | None = None
        self.patience: float | None = None
        self.failed = 0
        self.told = 0.0

    def connect(self) -> http.client.HTTPConnection:
        node = self.nodes[0]
        host, port = node.hostname or node.netloc, node.port or 2379
        if node.scheme == "https":
            context = self.context or ssl.create_default_context()
            return http.client.HTTPSConnection(host, port, timeout=SECONDS, context=context)
        return http.client.HTTPConnection(host, port, timeout=SECONDS)

    def ask_node(self, body: bytes) -> Any:
        """What the node in front answers. OSError, HTTPException or ValueError where it does not."""
        self.connection = self.connection or self.connect()
        self.connection.request("POST", "/v3/kv/txn", body, {"Content-Type": "application/json"})
        response = self.connection.getresponse()
        answer = response.read()
        if response.status == 200:
            return json.loads(answer)
        try:
            fault = json.loads(answer)
            code, why = fault.get("code"), fault.get("message") or fault.get("error")
        except ValueError:
            code, why = None, "HTTP status %d" % response.status
        if code == 3:
            raise Wrong(why)
        raise ValueError(why)

    def leave_node(self, why: str) -> None:
        """Goes on to the next node. Behind the last one there is a rest, and it is told, once in five seconds."""
        if self.connection:
            self.connection.close()
        self.connection = None
        self.nodes.append(self.nodes.pop(0))
        self.failed += 1
        if self.failed % len(self.nodes) == 0:
            if time.monotonic() - self.told > 5:
                self.told = time.monotonic()
                self.tell("etcd fails: %s: %s" % (self.nodes[-1].geturl(), why))
            self.stopping.wait(min(1, 0.1 * self.failed))

    def transact(self, compare: list[dict[str, Any]], success: list[dict[str, Any]], failure: Iterable[dict[str, Any]] = ()) -> Any:
        """The answer to a transaction, whenever a node has one."""
        body = json.dumps({"compare": compare, "success": success, "failure": list(failure)}).encode()
        self.failed = 0
        begun = time.monotonic()
        while True:
            try:
                return self.ask_node(body)
            except (OSError, http.client.HTTPException, ValueError) as fault:
                why = str(fault) or type(fault).__name__
                self.leave_node(why)
            if self.stopping.is_set() and self.failed >= len(self.nodes):
                raise Stopped()
            if self.patience and time.monotonic() - begun > self.patience:
                raise Silent("no node of etcd did what it was asked for %d seconds: %s" % (self.patience, why))


def broken(pair: dict[str, Any]) -> Broken:
    return Broken("the key %s is not as a replica puts it" % data(pair, "key").decode(errors="replace"))


class Log:
    """The lines of one computation."""

    def __init__(self, etcd: Etcd, name: str) -> None:
        self.etcd = etcd
        self.folder = b"/recline/%s/" % name.encode()
        # The asks that the last answer had, each with the time at which an answer had it first, and the time of that answer.
        self.asks: dict[Ask, float] = {}
        self.asked = 0.0

    def line_key(self, position: int) -> bytes:
        return self.folder + b"lines/%010d" % position

    def get(self, key: bytes, **more: Any) -> dict[str, Any]:
        return {"request_range": dict({"key": text(key)}, **more)}

    def put(self, key: bytes, value: bytes) -> dict[str, Any]:
        return {"request_put": {"key": text(key), "value": text(value)}}

    def get_folder(self, name: bytes, **more: Any) -> dict[str, Any]:
        """All keys below a folder: '0' is the byte behind '/'."""
        key = self.folder + name
        return self.get(key + b"/", range_end=text(key + b"0"), **more)

    def get_behind(self, position: int) -> list[dict[str, Any]]:
        """The requests for the end of the log, for one line, for the lines behind it, and for the asks. All are answered for the same revision."""
        lines = self.get(self.line_key(position + 1), range_end=text(self.line_key(10 ** 10 - 1)), limit=PAGE)
        return [self.get(self.folder + b"end"), self.get(self.line_key(position)), lines, self.get_asks()]

    def get_asks(self) -> dict[str, Any]:
        """The request for the runs that ask. Whose they are is for people."""
        return self.get_folder(b"asks", keys_only=True)

    def put_ask(self, run: bytes, value: bytes) -> dict[str, Any]:
        return self.put(self.folder + b"asks/" + run, value)

    def take_ask(self, run: bytes) -> dict[str, Any]:
        return {"request_delete_range": {"key": text(self.folder + b"asks/" + run)}}

    def note_asks(self, response: dict[str, Any]) -> None:
        self.asked = time.monotonic()
        asks = [Ask(int(pair["create_revision"]), data(pair, "key")[len(self.folder + b"asks/"):], int(pair["mod_revision"]))
                for pair in response["response_range"].get("kvs", [])]
        self.asks = {ask: self.asks.get(ask, self.asked) for ask in asks}

    def change_asks(self, requests: list[dict[str, Any]]) -> None:
        """Makes these requests alone."""
        self.note_asks(self.etcd.transact([], requests + [self.get_asks()])["responses"][-1])

    def entry(self, pair: dict[str, Any]) -> Entry:
        number, words = data(pair, "key")[len(self.folder + b"lines/"):], LINE.fullmatch(data(pair, "value"))
        if not words or not number.isdigit() or not is_logged(words[3]):
            raise broken(pair)
        mark = b"%s %s" % words.groups()[:2]
        return Entry(Last(int(number), int(pair["mod_revision"]), mark), words[1], int(words[2]), words[3])

    def page(self, last: Last, responses: list[dict[str, Any]]) -> tuple[int, list[Entry]]:
        """The end, and the lines behind the last one that is known, by the answer to `get_behind`. A log whose end is before that line, which has another one
        there, as where etcd was given an old copy of its data, or which lacks it or the next one, is cut."""
        self.note_asks(responses[3])
        pairs, line, lines = (response["response_range"].get("kvs", []) for response in responses[:3])
        end, mark = 0, BEGINNING.mark
        if pairs:
            words = END.fullmatch(data(pairs[0], "value"))
            if not words:
                raise broken(pairs[0])
            end, mark = int(words[1]), words[2]
        if end < last.position:
            raise Cut("the log ends at line %d, and %d lines of it were known" % (end, last.position))
        if last.position and not line:
            raise Cut("the log no longer has line %d" % last.position)
        if last.position and (int(line[0]["mod_revision"]) != last.revision or not data(line[0], "value").startswith(last.mark + b" ")):
            raise Cut("line %d of the log is not the one that was known" % last.position)
        entries: list[Entry] = []
        for pair in lines:
            entry = self.entry(pair)
            if entry.last.position != last.position + len(entries) + 1:
                break
            entries.append(entry)
            if entry.last.position > end:
                raise broken(pair)
        if end > last.position and not entries:
            raise Cut("the log no longer has line %d" % (last.position + 1))
        reached = entries[-1].last if entries else last
        if reached.position == end and reached.mark != mark:
            # Nothing would ever be put behind such an end.
            raise broken(pairs[0])
        return end, entries

    def read(self, last: Last, ask: list[dict[str, Any]] = []) -> tuple[int, list[Entry]]:
        """How many lines the log has, and those behind the last one that is known, as far as a page has room. Nothing that was in the log before the call is
        missed: the read is linearizable, as etcd's are where nothing else is asked for. It may ask, too."""
        return self.page(last, self.etcd.transact([], ask + self.get_behind(last.position))["responses"][len(ask):])

    def append(
            self, last: Last, run: bytes, lines: list[tuple[int, bytes]], ask: list[dict[str, Any]] = [],
            over: list[dict[str, Any]] = []) -> tuple[int, list[Entry]]:
        """Puts the lines, pairs of a number and a text, behind the last one that is known, where there are no others yet. Answers what `read` does behind
        that one: with these lines alone, or where there were others with those. In the latter case it makes the request that asks, and in the former
        those that take asks away.

        Whatever becomes of a request, and how often it is made: of those that ask for one `end` one is carried out at most, since `end` grows with
        it. So these lines are in the log once, and are known by their run and numbers, or they are not and never will be at this place."""
        key, end = self.folder + b"end", last.position
        if end == 0:
            compare = [{"key": text(key), "target": "VERSION", "result": "EQUAL", "version": "0"}]
        else:
            compare = [{"key": text(key), "target": "VALUE", "result": "EQUAL", "value": text(b"%d %s" % (end, last.mark))},
                       {"key": text(self.line_key(end)), "target": "MOD", "result": "EQUAL", "mod_revision": str(last.revision)}]
        marks = [b"%s %d" % (run, number) for number, _ in lines]
        puts = [self.put(self.line_key(end + k), b"%s %s" % (mark, line)) for k, (mark, (_, line)) in enumerate(zip(marks, lines), 1)]
        puts.append(self.put(key, b"%d %s" % (end + len(lines), marks[-1])))
        answer = self.etcd.transact(compare, puts + over + [self.get_asks()], ask + self.get_behind(end))
        if not answer.get("succeeded"):
            return self.page(last, answer["responses"][len(ask):])
        self.note_asks(answer["responses"][-1])
        revision = int(answer["header"]["revision"])
        return end + len(lines), [Entry(Last(end + k, revision, mark), run, number, line) for k, (mark, (number, line)) in enumerate(zip(marks, lines), 1)]

    def exchange_digests(self, replica: str, digests: dict[int, str]) -> list[tuple[int, str, str]]:
        """Puts digests of a replica by their fronts, and answers those of all as (front, replica, digest)."""
        puts = [self.put(self.folder + b"digests/%08d/%s" % (front, os.fsencode(replica)), digest.encode()) for front, digest in digests.items()]
        pairs = self.etcd.transact([], puts + [self.get_folder(b"digests")])["responses"][-1]["response_range"].get("kvs", [])
        found = []
        for pair in pairs:
            front, _, other = data(pair, "key")[len(self.folder + b"digests/"):].partition(b"/")
            if not front.isdigit() or not other:
                raise broken(pair)
            found.append((int(front), os.fsdecode(other), data(pair, "value").decode(errors="replace")))
        return found

    def put_place(self, replica: str, position: int, front: int) -> None:
        self.etcd.transact([], [self.put(self.folder + b"places/" + os.fsencode(replica), b"%d %d" % (position, front))])

    def position_of(self, pair: dict[str, Any]) -> tuple[int, bytes]:
        position = data(pair, "value").partition(b" ")[0]
        if not position.isdigit():
            raise broken(pair)
        return int(position), data(pair, "key")[len(self.folder + b"places/"):]

    def compact(self) -> tuple[int, str, int] | None:
        """Takes away the lines in front of that up to which the slowest snapshot stands, if no place was put meanwhile. That line itself stays: a
        replica knows its log by it. Answers how many lines that were, and the slowest replica with its line; None without any replica."""
        while not self.etcd.stopping.is_set():
            answer = self.etcd.transact([], [self.get_folder(b"places")])
            pairs = answer["responses"][0]["response_range"].get("kvs", [])
            if not pairs:
                return None
            least, slowest = min(map(self.position_of, pairs))
            # One comparison for the whole folder, new places among them, and however many they are.
            same = {"key": text(self.folder + b"places/"), "range_end": text(self.folder + b"places0"), "target": "MOD", "result": "LESS",
                    "mod_revision": str(int(answer["header"]["revision"]) + 1)}
            deletion = {"request_delete_range": {"key": text(self.line_key(0)), "range_end": text(self.line_key(least))}}
            answer = self.etcd.transact([same], [deletion])
            if answer.get("succeeded"):
                return int(answer["responses"][0]["response_delete_range"].get("deleted", 0)), os.fsdecode(slowest), least
        raise Stopped()
