"""Why a program that reads a feed ends, or tries again, and what a feed is rejected for."""

import contextlib
from collections.abc import Iterator

# Exit statuses.
REJECTED, USAGE, FILE, SERVER, UNFIT, BUG, PASSING = 1, 2, 3, 4, 5, 6, 7


class Stopped(Exception):
    """The end was asked for by a signal."""


class Failure(Exception):
    """What ends a program: it tells why, and returns a status."""

    STATUS = BUG

    def exit_status(self) -> int:
        return self.STATUS

    def told(self) -> str:
        return str(self)


class Unfit(Failure):
    """What was kept and what follows it don't fit together: going on could lose changes."""

    STATUS = UNFIT


class FileError(Failure):
    """A file can't be used."""

    STATUS = FILE


@contextlib.contextmanager
def told_of(path: str, kind: type[Failure] = FileError) -> Iterator[None]:
    """Tells of which file an error of the system is, by an exception of this kind."""
    try:
        yield
    except OSError as error:
        raise kind(f"{path}: {error.strerror}") from None


class NoFeed(FileError):
    """There is no such folder: who keeps the feed may not have begun."""


class Passing(Failure):
    """Something is in the way only for now: a later start may do."""

    STATUS = PASSING


class UsageError(Failure):
    """Words of the command line ask for what there isn't, as in the server's version."""

    STATUS = USAGE


class EngineError(Failure):
    """The engine that a sink writes to rejected a command, or returned what isn't of its protocol:
    another try ends in the same way."""

    STATUS = SERVER


class TooLarge(Failure):
    """A change is larger than the engine takes."""

    STATUS = REJECTED


NAMES = {
    1: "NotAFeed",
    2: "OtherFeed",
    3: "CommitLine",
    4: "Order",
    5: "Line",
    6: "Counts",
    7: "Undescribed",
    8: "Width",
    9: "Checksum",
}
NOT_A_FEED, OTHER_FEED, COMMIT_LINE, ORDER, LINE, COUNTS, UNDESCRIBED, WIDTH, CHECKSUM = NAMES


class Damaged(FileError):
    """A feed has lines that aren't those of a feed.

    | Number | Means |
    |---|---|
    | 1 | the head of a segment isn't one, or one of another version |
    | 2 | a segment is of another server, database or slot than the one before it, or has the name of another base |
    | 3 | a commit's line isn't one |
    | 4 | a commit doesn't go on where the one before it ends |
    | 5 | the line of a message, a definition or a change isn't one |
    | 6 | a commit has other bytes or another number of changes than its line says |
    | 7 | a change is of a relation that its commit doesn't describe |
    | 8 | a row has another number of cells than its relation has columns |
    | 9 | a commit has another checksum than its line says: its bytes aren't those that were written |
    """

    def __init__(self, number: int, path: str, offset: int, what: str) -> None:
        super().__init__(f"{path}, byte {offset}: reading {number} {NAMES[number]}: {what}")
        self.number, self.path, self.offset = number, path, offset
