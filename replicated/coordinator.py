"""The `recline run FILE` of a replica, which is given one line at a time."""
from __future__ import annotations

import subprocess
import time

from faults import Ended

# A run has 65,536 turns.
TURNS = 65000
# How long a file is waited for that another program has open: a recline whose replica was killed ends by itself, as its input ends.
LOCKED = 20


class Coordinator:
    process: subprocess.Popen[bytes]
    turns: int

    def __init__(self, program: str, file: str) -> None:
        self.program = program
        self.file = file
        # Where it had its file before it may have it again.
        self.opened = False
        self.open()

    def open(self) -> None:
        """Starts recline over the file, which it has opened when this is done."""
        limit = time.monotonic() + LOCKED
        while True:
            # Signals are for the replica, which ends recline in order: those of a terminal do not come, and those that the replica blocks stay blocked.
            self.process = subprocess.Popen([self.program, "run", self.file, "--explain"], stdin=subprocess.PIPE, stdout=subprocess.PIPE,
                                            stderr=subprocess.PIPE, start_new_session=True)
            self.turns = 0
            try:
                self.ask(b"STATE a")
                self.opened = True
                return
            except Ended as ended:
                if "is locked by another program" not in str(ended) or time.monotonic() > limit:
                    raise
            time.sleep(0.1)

    def ask(self, line: bytes) -> bytes:
        """The reply to a line. No other line is given to recline before it has come: behind one that was refused for want of memory the next one
        might be accepted, and the file would have what the log has not."""
        self.turns += 1
        try:
            self.process.stdin.write(line + b"\n")
            self.process.stdin.flush()
            reply = self.process.stdout.readline()
        except OSError:
            reply = b""
        if not reply.endswith(b"\n"):
            raise Ended(self.told(), again=self.opened)
        return reply[:-1]

    def told(self) -> str:
        """What recline told when it ended, on one line. One that does not end by itself is killed."""
        try:
            status = self.process.wait(timeout=5)
        except subprocess.TimeoutExpired:
            self.process.kill()
            status = self.process.wait()
        lines = self.process.stderr.read().decode(errors="replace").split("\n")
        return "; ".join(line for line in lines if line) or "recline ended with status %d" % status

    def end(self) -> None:
        """Ends recline in order: it has answered all that it was given."""
        self.process.stdin.close()
        status = self.process.wait()
        if status != 0:
            raise Ended(self.told(), again=True)
        self.process.stdout.close()
        self.process.stderr.close()

    def renew(self) -> None:
        """Goes on with a new recline over the same file where this one is near its last turn."""
        if self.turns >= TURNS:
            self.end()
            self.open()

    def kill(self) -> None:
        self.process.kill()
        self.process.wait()
