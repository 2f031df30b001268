"""What the suites share: the program that they try, how cases are counted, services and their clients, and how long an answer may take.

A suite in Python is a program that makes one Suite, judges its cases by `expect`, and ends by `main`:

    suite = Suite()
    expect = suite.expect

    def one_run():
        expect("a run ends", suite.run("run").returncode == 0)

    if __name__ == "__main__":
        suite.main(one_run)

Its last line is 'N passed, M failed', followed by ', K skipped' if something was skipped; the status is not 0 if anything failed.
Suites in shell have tests/lib/program and tests/lib/counts for the same.
"""
from __future__ import annotations

import functools
import glob
import os
import random
import resource
import shutil
import signal
import socket
import subprocess
import sys
import tempfile
import threading
import time
from collections.abc import Callable
from types import FrameType
from typing import IO, Any, NoReturn

TOP = os.path.dirname(os.path.dirname(os.path.dirname(os.path.abspath(__file__))))
# The folder of the client in Python.
CLIENT = os.path.join(TOP, "examples", "client")
# The program that makes the calls of the crates, which may not be built.
WORKBENCH = os.path.join(TOP, "crates", "workbench", "out", "workbench")
# The program that writes reports of a family.
TRAFFIC = os.path.join(TOP, "tests", "traffic")
# The folders of rows.
ROWS = os.path.join(TOP, "tests", "rows")
# An answer that has not come after this many seconds never comes (tests/lib/program).
HANG = int(os.environ.get("RECLINE_HANG") or 600)
# How long a whole suite may take, in seconds.
WHOLE = 6 * HANG
# How many cases that failed are printed.
SHOWN = 100

# What a suite imports or starts leaves nothing in the folders of this checkout.
sys.dont_write_bytecode = True
os.environ["PYTHONDONTWRITEBYTECODE"] = "1"


# ---- programs and libraries


def program() -> str:
    """The program to be tried: RECLINE_PROGRAM, or the one that ./recline takes."""
    named = os.environ.get("RECLINE_PROGRAM")
    if named:
        if not os.access(named, os.X_OK):
            print(f"tests: {named}, which RECLINE_PROGRAM names, is no program", file=sys.stderr)
            sys.exit(2)
        return os.path.realpath(named)
    found = subprocess.run(
        ["bash", "-c", 'top="$1"; . "$top/tests/lib/program"; printf %s "$recline"', "-", TOP], stdout=subprocess.PIPE, text=True, check=False)
    if found.returncode != 0:
        sys.exit(2)
    return found.stdout


def has_compiler() -> bool:
    """Whether the toolchain is there, which has a C compiler."""
    return shutil.which("rt") is not None


def library(name: str, room: str) -> str:
    """The library of the source of this name beside this file, built in the room by the C compiler of the toolchain."""
    page = subprocess.run(["rt", "doc"], stdout=subprocess.PIPE, check=True).stdout.decode().strip()
    compiler = os.path.join(os.path.dirname(page), "toolchain", "bin", "clang")
    built = os.path.join(room, name + ".so")
    subprocess.run(
        [compiler, "-O1", "-shared", "-fPIC", "-nostdlib", "-o", built, os.path.join(TOP, "tests", "lib", name + ".c")], check=True)
    return built


def linked_library(room: str) -> str | None:
    """The library for the binding for Python, linked in the room from the archive that tests/suites/bindings takes; none if one of the parts is
    missing."""
    linked = os.path.join(room, "librecline.so")
    steps = """top="$1"
        . "$top/dist/common"
        cp "${RECLINE_LIBRARY_ARCHIVE:-}" "$2.a" || put_library "$2.a" && "$top/bindings/python/build" "$2.a" "$2"
    """
    ran = subprocess.run(["bash", "-c", steps, "-", TOP, linked], stdout=subprocess.DEVNULL, stderr=subprocess.DEVNULL, check=False)
    return linked if ran.returncode == 0 else None


# ---- rows of the data suite


def row_file(row: str, name: str) -> str:
    """The path of a file of a row, which lies in the folder of its command."""
    folder, = glob.glob(os.path.join(ROWS, "*", glob.escape(row)))
    return os.path.join(folder, name)


# ---- counts


def last_line(passed: int, failed: int, skipped: int = 0) -> str:
    """The last line of a suite."""
    return f"{passed} passed, {failed} failed" + (f", {skipped} skipped" if skipped else "")


def word(at: int, otherwise: str) -> str:
    """The word of the command line at this place, or another one if it is missing or empty."""
    return sys.argv[at] if at < len(sys.argv) and sys.argv[at] else otherwise


def random_seed() -> str:
    """A seed for a suite that is given none."""
    return str(random.SystemRandom().randrange(32768))


class Ended(BaseException):
    """A signal ends the suite."""


class Suite:
    """The cases of one suite, the folder for its files, and the services that end with it."""

    def __init__(self) -> None:
        self.name = os.path.basename(sys.argv[0])
        self.passed = self.failed = self.skipped = 0
        # It is shown with each case that failed.
        self.seed: str | None = None
        # A folder on a file system for the files; none: that for temporary files.
        self.folder: str | None = None
        self.services: list[Service] = []
        self.counting = threading.Lock()

    @functools.cached_property
    def program(self) -> str:
        """The program that is tried."""
        return program()

    @functools.cached_property
    def room(self) -> str:
        """A folder for files, which is removed when the suite ends."""
        return tempfile.mkdtemp(prefix=f"recline-{self.name}-", dir=self.folder)

    def path(self, name: str) -> str:
        """The path of a file in the folder of the suite."""
        return os.path.join(self.room, name)

    def run(self, *words: str, **more: Any) -> subprocess.CompletedProcess[Any]:
        """A run of the program with these words, of which all that it prints is kept."""
        return subprocess.run([self.program, *words], capture_output=True, timeout=HANG, check=False, **more)

    def serve(self, file: str, sessions: int | None, workers: int, *more: str, **limits: Any) -> Service:
        """A service over a file of this name in the folder of the suite, which ends with the suite. Without a number of sessions it lasts."""
        service = Service(self.program, self.path(file), sessions, workers, *more, **limits)
        self.services.append(service)
        return service

    def expect(self, name: str, holds: object, more: object = "") -> None:
        """Counts one case. If it is among the first that failed that is printed, with what more there is to know."""
        with self.counting:
            if holds:
                self.passed += 1
                return
            self.failed += 1
            is_shown = self.failed <= SHOWN
        if is_shown:
            seed = f" (seed {self.seed})" if self.seed is not None else ""
            print(f"tests: {name} FAILED{seed}" + (f": {more}" if more != "" else ""), file=sys.stderr)

    def skip(self, why: str) -> None:
        """Counts one case that is skipped, for this reason."""
        self.skipped += 1
        print(f"tests: {why}", file=sys.stderr)

    def attempt(self, test: Callable[..., object], *words: object) -> None:
        """Runs a test. If it raises, that counts as a case that failed."""
        try:
            test(*words)
        except Exception as error:  # whatever it is, the other tests go on
            name = getattr(getattr(test, "func", test), "__name__", "a test")
            self.expect(f"{name} ({type(error).__name__}: {error})", False)

    def main(self, *tests: Callable[[], object]) -> NoReturn:
        """Runs the tests one after the other, prints the counts, and exits. It ends so when its time is over or a signal comes, too, which
        counts as a case that failed."""
        self.limit_time()
        for one in (signal.SIGTERM, signal.SIGINT, signal.SIGHUP):
            signal.signal(one, self.interrupt)
        is_whole = False
        try:
            for test in tests:
                self.attempt(test)
            is_whole = True
        except Ended as end:
            self.expect(f"not ended by {end}", False)
        finally:
            self.clean_up()
        print(last_line(self.passed, self.failed, self.skipped), flush=True)
        status = 0 if not self.failed and (self.passed or self.skipped) else 1
        if is_whole:
            sys.exit(status)
        # Threads may still wait for what does not come.
        os._exit(status)

    def limit_time(self) -> None:
        """Ends the suite by SIGTERM when it has taken too long, and at once if that does not end it."""

        def watch() -> None:
            time.sleep(WHOLE)
            os.kill(os.getpid(), signal.SIGTERM)
            time.sleep(HANG)
            os._exit(124)

        threading.Thread(target=watch, daemon=True).start()

    def interrupt(self, number: int, _frame: FrameType | None) -> None:
        """Ends the suite at a signal; a second one changes nothing."""
        for one in (signal.SIGTERM, signal.SIGINT, signal.SIGHUP):
            signal.signal(one, signal.SIG_IGN)
        raise Ended(signal.Signals(number).name)

    def clean_up(self) -> None:
        """Ends the services that still run, and removes the folder."""
        for service in self.services:
            service.kill()
        if "room" in self.__dict__:
            shutil.rmtree(self.room, ignore_errors=True)


# ---- services and clients


class Service:
    """A service over a record file, with so many sessions and workers, and so many descriptors and bytes of a file at most. With `None` sessions
    it lasts. Its standard input is at its end, if it is not given."""

    def __init__(
            self, recline: str, file: str, sessions: int | None, workers: int, *more: str, descriptors: int | None = None, most: int | None = None,
            environment: dict[str, str] | None = None, stdin: int = subprocess.DEVNULL, script: str | None = None) -> None:
        self.file = file
        bounded = [] if sessions is None else ["--sessions", str(sessions)]
        words = [*([script] if script else [recline, "serve"]), file, "--port", "0", *bounded, "--workers", str(workers), *more]

        def limit() -> None:
            if descriptors is not None:
                resource.setrlimit(resource.RLIMIT_NOFILE, (descriptors, descriptors))
            if most is not None:
                signal.signal(signal.SIGXFSZ, signal.SIG_IGN)
                resource.setrlimit(resource.RLIMIT_FSIZE, (most, most))

        self.process = subprocess.Popen(
            words, stdin=stdin, stdout=subprocess.PIPE, stderr=subprocess.PIPE, env=environment,
            preexec_fn=None if descriptors is None and most is None else limit)
        try:
            begun = self.output().split()
        except BaseException:
            # Nobody else can end it yet.
            self.kill()
            raise
        # It is 0 if the service ended before it had one.
        self.port = int(begun[1]) if begun else 0

    def client(self, buffer: int | None = None) -> socket.socket:
        """A new connection, with a receive buffer of so many bytes."""
        client = socket.socket()
        if buffer:
            client.setsockopt(socket.SOL_SOCKET, socket.SO_RCVBUF, buffer)
        client.settimeout(HANG)
        client.connect(("127.0.0.1", self.port))
        return client

    def output(self) -> bytes:
        """The next line that it prints; none if it has ended, or is killed since no line ever comes."""
        return self.line_of(self.process.stdout)

    def error(self) -> bytes:
        """The next line that it prints on standard error; none in the same cases."""
        return self.line_of(self.process.stderr)

    def line_of(self, stream: IO[bytes] | None) -> bytes:
        """The next line of one of its streams."""
        limit = threading.Timer(HANG, self.process.kill)
        limit.start()
        try:
            return stream.readline() if stream else b""
        finally:
            limit.cancel()

    def kill(self) -> None:
        """Ends it, if it has not ended."""
        if self.process.poll() is None:
            self.process.kill()
            self.process.wait()

    def ends(self) -> tuple[str, str, int]:
        """What it prints after its port and on standard error, and its status, when it has ended."""
        output, errors = self.process.communicate(timeout=HANG)
        return output.decode(), errors.decode(), self.process.returncode


def rest(client: socket.socket) -> tuple[bytes, float]:
    """All that still comes, to the end of the stream, and how many seconds after the last byte the end came."""
    text, last = b"", time.monotonic()
    while True:
        piece = client.recv(65536)
        now = time.monotonic()
        if not piece:
            return text, now - last
        text, last = text + piece, now


def reset_or_rest(client: socket.socket) -> bytes:
    """All that still comes, or that the connection was reset."""
    try:
        return rest(client)[0]
    except OSError:
        return b"reset"


def bound(suite: Suite, seconds: float) -> float:
    """So many seconds, and more if this machine has other work: twenty times as long as a run of the program and its answer just took."""
    begun = time.monotonic()
    for _ in range(3):
        suite.run("run", input=b"BEGIN a\n")
    return seconds + 20 * (time.monotonic() - begun) / 3
