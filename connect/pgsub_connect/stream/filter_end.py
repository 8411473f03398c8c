"""How a filter ends, and what it says of changes that found no row."""

import re
import signal
from typing import NamedTuple

from pgsub_feed import errors
from pgsub_feed.errors import Failure
from pgsub_feed.texts import parse_lsn

# With what a filter ends by itself, but for its words (2) and a file that is no store (3).
REJECTED, SPOOL_FULL, FRAME_TOO_LARGE, UNOPENED, REFUSED, MEMORY, BROKEN = 1, 10, 11, 12, 13, 14, 15
PASSING = (UNOPENED, REFUSED, MEMORY, BROKEN)
# What is told of one that couldn't open its store.
BUSY = "another program may have the store open, as `pgsub dump`: let that end. Beside a follower `pgsub-connect export` or `follow --tables` has the rows"
# The limits of which a signal tells, so that a later try ends likewise.
OF_LIMITS: dict[int, str] = {
    signal.SIGXFSZ: "a file would be larger than allowed: raise `ulimit -f`, or a unit's LimitFSIZE",
    signal.SIGXCPU: "it took more processor time than allowed: raise `ulimit -t`, or a unit's LimitCPU",
}
# The status of one whose input ended, after changes that found no row.
MISSED = 16
# Those with which it may end where a disk is full.
ROOMLESS = (errors.FILE, UNOPENED, REFUSED)
# The status of one that was to store nothing by which the server breaks a rule.
BREACH = 17
# What it says of these on standard error, before the status that confirms their commits: how many
# there were since it began, and of the first one the OID of its table and the end of its commit.
MISSING = re.compile(
    r"pgsub: rows not found: ([0-9]{1,20}), first in relation ([0-9]{1,10}) at ([0-9A-F]{1,8}/[0-9A-F]{1,8})"
)


# What it says where changes of open transactions can't be kept in their file: the file can't be
# written or made, its disk is full, or it gives back nothing, or other bytes.
OF_SPOOL = "pgsub: spool 3 NotWritten", "pgsub: spool 4 NoRoom", "pgsub: spool 5 NotRead"
NOT_WRITTEN, NO_ROOM, NOT_READ = OF_SPOOL
# What it says where as many transactions are open as their file takes, with the status of SpoolFull.
TOO_MANY_OPEN = "pgsub: spool 6 TooManyOpen"
# What it says, before its last line, of a transaction whose messages can't be told.
TOO_LONG, STREAMED = "pgsub: feed 4 MessagesTooLong", "pgsub: feed 5 StreamedMessage"
OF_MESSAGES = (TOO_LONG, STREAMED)


class FilterEnded(Failure):
    """The filter ended: with a status above 0 by a fault, below 0 by a signal. `room`: that a disk
    has little, where that may be why."""

    def __init__(self, status: int, said: str, room: str = "") -> None:
        ended = f"the filter ended with status {status}"
        ended = ended if status >= 0 else f"signal {-status} ended the filter"
        ended = f"{ended}: {said}" if said else ended
        is_busy = status == UNOPENED and said.endswith(" Refused")
        why = OF_LIMITS.get(-status, "") or room or (BUSY if is_busy else "")
        super().__init__(f"{ended} ({why})" if why else ended)
        self.status, self.said = status, said
        # what is to be done where it ended at a limit
        self.cure = ""

    def is_rejection(self) -> bool:
        """Whether the same would come of another try; a full disk or memory may pass."""
        if self.said in OF_MESSAGES:
            return True
        return self.status > 0 and self.status not in (*PASSING, MISSED)

    def exit_status(self) -> int:
        if not self.is_rejection():
            return errors.PASSING
        if self.status == BREACH:
            return errors.UNFIT
        return self.status if self.status in (errors.USAGE, errors.FILE) else errors.REJECTED

    def told(self) -> str:
        return f"stopped: {self}"

    def note_cure(self, cure: str) -> None:
        """Notes what is to be done, "" where nothing is known."""
        self.cure = cure

    def with_cure(self) -> str:
        """What a status file says of it: its log has two lines."""
        return f"{self}: {self.cure}" if self.cure else str(self)

    def is_of_stream(self) -> bool:
        """Whether what was rejected is something that came, and not the words or the store."""
        is_rejected = self.status in (REJECTED, SPOOL_FULL, FRAME_TOO_LARGE)
        return is_rejected or self.said in OF_MESSAGES

    def is_of_spool(self) -> bool:
        """Whether the file of open transactions failed. The store has all commits before then."""
        return self.status == REFUSED and self.said in OF_SPOOL

    def is_of_commit(self) -> bool:
        """Whether what was rejected is a commit, and not a single message."""
        starts = "pgsub: store ", "pgsub: relation "
        is_rejected = self.status == REJECTED and self.said.startswith(starts)
        return is_rejected or self.said in OF_MESSAGES

    def has_told_all(self) -> bool:
        """Whether it has said of all stored commits which changes found no row: also of those right
        before one that it rejected, which it doesn't confirm. One that was killed hasn't, nor one
        whose store, memory or output failed."""
        return self.status >= 0 and (self.status not in PASSING or self.is_of_spool())


class Missing(NamedTuple):
    """Changes that found no row: how many, and of the first its commit's end and table."""

    total: int = 0
    first: int = 0
    relation: int = 0


def missing_of(line: str) -> Missing | None:
    """What a line says of changes that found no row, None where it is another one."""
    found = MISSING.fullmatch(line)
    return Missing(int(found[1]), parse_lsn(found[3]), int(found[2])) if found else None
