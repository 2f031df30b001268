"""Why a replica ends. Each fault has the status that it ends with, and says whether the replica may go on from its snapshot."""
from __future__ import annotations


class Fault(Exception):
    again = False

    def __init__(self, told: str, status: int = 3, again: bool | None = None) -> None:
        super().__init__(told)
        self.status = status
        if again is not None:
            self.again = again


class Cut(Fault):
    """The log does not have what was in it, or no longer has what comes next."""


class Broken(Fault):
    """A key of the computation is not as a replica puts it."""


class Wrong(Fault):
    """etcd takes a request for a wrong one."""


class Silent(Fault):
    """No node of etcd has done what it was asked for long."""
    again = True


class Foreign(Fault):
    """FILE, or its place, is not of this log."""


class Unkept(Fault):
    """The place cannot be written."""
    again = True


class Ended(Fault):
    """recline has ended, or has not opened its file."""


class Taken(Fault):
    """The port cannot be had."""


class Stopped(Exception):
    """The replica is to end, and no longer waits."""
