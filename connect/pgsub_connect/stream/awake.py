"""Waits awake for what comes within a moment.

A process that slept runs slowly at first: it has to be woken, and others have used its processor's
caches meanwhile. With a fast disk that is more than a commit takes. So where commits at the server
wait for the follower, it stays awake for a moment, where that was of use before.
"""

import contextlib
import os
import select
import time
from collections.abc import Sequence
from pathlib import Path

# For how many seconds it is waited awake, and how often at most it sleeps before another try.
MOMENT, RARELY = 0.0005, 1023
# How many processors it takes: the filter needs one beside it.
NEEDED = 2.0
GROUPS = Path("/sys/fs/cgroup")
GROUP = Path("/proc/self/cgroup")
# Descriptors of files; and which ones can be read and written, with the filter's new statuses.
Numbers = Sequence[int]
Served = tuple[list[int], list[int], list[bytes]]


def groups() -> list[Path]:
    """The folder of the control group that this process is in, and those above it."""
    with contextlib.suppress(OSError, ValueError):
        group = GROUPS / GROUP.read_text(encoding="utf-8").rpartition("0::")[2].strip().lstrip("/")
        return [group, *group.parents]
    return []


def processors() -> float:
    """How many processors this process may use at once, by its control groups."""
    least = float(len(os.sched_getaffinity(0)))
    for folder in groups():
        with contextlib.suppress(OSError, ValueError):
            quota, period = map(int, (folder / "cpu.max").read_text(encoding="ascii").split())
            least = min(least, quota / period)
    return least


class Awake:
    """Waits for one kind of event. Each time that none came within the moment, it sleeps twice as
    often before it tries that again."""

    def __init__(self) -> None:
        self.sleeps = self.left = 0

    def select(
        self, reads: Numbers, writes: Numbers, timeout: float
    ) -> tuple[list[int], list[int]]:
        """What is ready of these within the time, as `select.select` tells it."""
        if timeout and not self.left:
            until = time.monotonic() + min(timeout, MOMENT)
            while time.monotonic() < until:
                readable, writable, _ = select.select(reads, writes, (), 0)
                if readable or writable:
                    self.sleeps = 0
                    return readable, writable
                os.sched_yield()
            self.left = self.sleeps = min(2 * self.sleeps + 1, RARELY)
        elif timeout:
            self.left -= 1
        return select.select(reads, writes, (), timeout)[:2]
