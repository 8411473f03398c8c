"""What is done about a file of open transactions that fails: the store has all commits before, and
the server sends the others again in the next session, which begins once there is more room."""

import contextlib
import time

from ..status.progress import Progress
from ..stream.filter import Filter
from ..stream.filter_end import NO_ROOM, NOT_WRITTEN, FilterEnded
from ..stream.room import NONE

# For how many seconds more room is waited for at most: the next session may need less.
LONGEST = 60.0


class SpoolFaults:
    """Its faults since the filter that runs has begun."""

    def __init__(self, child: Filter, progress: Progress) -> None:
        self.filter, self.progress = child, progress
        # until when more room is waited for
        self.until = 0.0

    def begin_filter(self) -> None:
        self.until = 0.0

    def note(self, ended: FilterEnded) -> str:
        """Notes a fault. Returns what is to be done about it, "" where it is none of these."""
        spool, stream = self.filter.spool, self.progress.stream
        if not spool or not ended.is_of_spool():
            return ""
        cure = cure_of(ended.said, spool.path)
        self.until = time.monotonic() + LONGEST if ended.said == NO_ROOM else 0.0
        until = max(stream.server_end(), stream.confirmed + 1)
        self.progress.spool.note_fault(f"{ended.said}: {cure}", until)
        return cure

    def is_again(self, ended: FilterEnded) -> bool:
        """Whether there is no room for what there was none for before."""
        is_failed = bool(self.progress.spool.fault(self.progress.stream.confirmed))
        return ended.said == NO_ROOM and is_failed

    def lacks_room(self) -> bool:
        """Whether the disk has no more than a filter has had before it ended for that."""
        if time.monotonic() >= self.until or not self.filter.spool:
            return False
        with contextlib.suppress(OSError):
            return self.filter.spool.room() <= self.filter.spool.had + NONE
        return False


def cure_of(said: str, path: str) -> str:
    """What is to be done about a fault of this file."""
    again = "what isn't stored is sent again"
    if said == NO_ROOM:
        return f"there is no room for {path}: make room on that disk, and {again}"
    if said == NOT_WRITTEN:
        return f"{path} can't be written: mend that disk or its rights, and {again}"
    return f"{path} can't be read, or isn't what was written: check that disk; {again}"
