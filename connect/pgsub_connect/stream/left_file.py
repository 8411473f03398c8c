"""Whether a filter may take the rows of its store for those that the one before it left there.

`STORE.left` has what the system says of the store's file and its log, as a filter left them that
ended by itself: the connector writes it then, under its lock, and removes it before the next filter
begins. A filter that a signal killed leaves none; the connector that saw it die keeps the same in
memory. A filter is told to trust the store where both files are still as they were left. Else, and
at each N-th start, it reads every row.
"""

import contextlib
import dataclasses
import os
import signal

from pgsub_feed.errors import Passing, told_of
from pgsub_feed.files import LOG, meant, remove, replace_file, sync_folder
from pgsub_feed.json_texts import Unreadable, compact, parsed
from pgsub_feed.json_values import form_of

from ..store.placing import LEFT
from .filter_end import BREACH, FRAME_TOO_LARGE, MISSED, REJECTED, SPOOL_FULL

VERSION = 1
# With which statuses a filter ends whose store hasn't failed, and which signals are no fault of it.
SOUND = (0, REJECTED, SPOOL_FULL, FRAME_TOO_LARGE, MISSED, BREACH)
KILLS = (-signal.SIGKILL, -signal.SIGTERM)
# Where SQLite's header has the counter that goes up as its file changes.
COUNTER_AT, COUNTER_SIZE = 24, 4


def print_of(path: str) -> list[int]:
    """What tells whether a file is as it was: its device, inode, size and times, and its change
    counter. Nothing of one that isn't there."""
    try:
        file = os.open(path, os.O_RDONLY | os.O_NONBLOCK | os.O_CLOEXEC)
    except FileNotFoundError:
        return []
    try:
        about = os.fstat(file)
        counter = os.pread(file, COUNTER_SIZE, COUNTER_AT)
    finally:
        os.close(file)
    times = about.st_mtime_ns, about.st_ctime_ns
    return [about.st_dev, about.st_ino, about.st_size, *times, int.from_bytes(counter, "big")]


@dataclasses.dataclass(frozen=True)
class Left:
    """How the files were left. `starts`: how many filters in a row have trusted the store."""

    version: int
    store: list[int]
    log: list[int]
    starts: int


READ = form_of(Left)


class LeftFile:
    """It. `every`: at each such start every row is read."""

    def __init__(self, store: str, every: int) -> None:
        self.path, self.store, self.every = os.path.abspath(store + LEFT), meant(store), every
        # how the filter left the store that ran last here
        self.left: Left | None = None
        # how many have trusted it in a row, with the one that runs
        self.starts = 0

    def as_it_is(self, starts: int) -> Left:
        return Left(VERSION, print_of(self.store), print_of(self.store + LOG), starts)

    def begin(self) -> bool:
        """A filter is about to begin. Returns whether it may trust the store, of which is forgotten
        durably how it was left."""
        left, self.left = self.left or self.read(), None
        with told_of(self.path):
            if os.path.lexists(self.path):
                remove(self.path)
                sync_folder(self.path)
            trusts = left is not None and self.is_trusted(left)
        self.starts = left.starts + 1 if left and trusts else 0
        return trusts

    def is_trusted(self, left: Left) -> bool:
        is_due = left.starts + 1 >= self.every
        return not is_due and bool(left.store) and left == self.as_it_is(left.starts)

    def end(self, status: int, has_opened: bool, is_of_spool: bool = False) -> None:
        """The filter has ended, with this status, or below 0 by a signal. `is_of_spool`: since the
        file of open transactions failed, and not the store."""
        is_sound = is_of_spool or status in SOUND
        if not has_opened or not is_sound and status not in KILLS:
            return
        # (what can't be noted is no fault of who follows: the next filter reads every row)
        with contextlib.suppress(OSError, Passing):
            self.left = self.as_it_is(self.starts)
            if is_sound:
                replace_file(self.path, compact(READ.written(self.left)).encode() + b"\n")

    def read(self) -> Left | None:
        """How a filter of an earlier connector left the store, None where that isn't known."""
        try:
            with open(self.path, "rb") as file:
                said = parsed(file.read())
            left: Left = READ.read(said)
        except (OSError, Unreadable):
            return None
        return left if left.version == VERSION else None
