"""What an engine does for a sink, which LSN it has reached when, and one sink at a time on this
host.

`FOLDER/readers/.NAME` is locked as long as a sink runs, beside the positions of the feed's readers.
It is its owner's alone, since whoever can open a file can lock it.
"""

import collections
import contextlib
import dataclasses
import errno
import fcntl
import hashlib
import os
from collections.abc import Callable, Iterable, Iterator
from typing import Any, Protocol, TypeVar

from .. import log
from ..errors import Damaged, Passing, Stopped, Unfit
from ..interruption import Check, limited
from ..json_texts import Unreadable
from ..ownership import give, opened
from ..reader.commits import Commit, Head
from ..reader.folder import READERS, make_folder
from ..reader.following import Keeper
from ..texts import shortened
from .connecting import Peer
from .first_rows import Base

# How many bytes and changes of a commit are made into messages at once: with schemas each of these
# has many kilobytes. A larger one is read twice.
ROOM, MANY = 8 << 20, 10000
Message = TypeVar("Message")


def whole(
    commit: Commit, messages: Callable[[], Iterable[Message]], check: Check
) -> Iterator[Message]:
    """A commit's messages, the first once all could be made. Of many not all are kept."""
    if commit.bytes <= ROOM and commit.changes <= MANY:
        yield from list(messages())
        return
    for _ in messages():
        check()
    try:
        yield from messages()
    except Damaged as damaged:
        raise Passing(f"the feed was altered while a commit was published: {damaged}") from None


SOURCE = ("system", "database", "slot")


def read_about(told: dict[str, Any]) -> dict[str, Any]:
    """What was noted of it, among other things. A ValueError says that it wasn't."""
    if missing := {*SOURCE, "tables"} - told.keys():
        raise Unreadable(f"there is no {min(missing)}")
    return {it: told[it] for it in (*SOURCE, "tables")}


@dataclasses.dataclass(frozen=True)
class Wanted:
    """What a sink keeps: of the feed with this head the named tables, all where none is."""

    head: Head
    chosen: tuple[str, ...]
    # raises an Unfit where the feed lacks commits after an LSN
    check_after: Callable[[int], None]

    def about(self) -> dict[str, Any]:
        """What an engine notes of it, to know it again."""
        source = {it: getattr(self.head, it) for it in SOURCE}
        return {**source, "tables": list(self.chosen)}

    def text(self) -> str:
        return f"{', '.join(self.chosen) or 'all tables'} of {self.head.text()}"


def of_another(where: str, found: object, about: object, place: str) -> Unfit:
    """What tells that something else is kept there, and what to take in its place."""
    text = f"what is kept there is of {shortened(str(found))}, and this would be of {about}"
    return Unfit(f"{where}: {text}: take another {place}")


class Engine(Keeper, Protocol):
    """Keeps commits, and is told first what it is to keep."""

    at: int = 0
    peer: Peer

    def open(self, wanted: Wanted) -> bool:
        """Looks at what is there; whether that is something that can be gone on with. An Unfit says
        that it is of something else."""

    def begin(self, base: Base) -> None:
        """Begins anew, with the rows of a base."""

    def finish(self, seconds: float) -> bool:
        """Has what was taken, in so many seconds; whether so. Nothing is taken afterwards."""
        self.peer.end_by(limited(seconds, Stopped()))
        with contextlib.suppress(Stopped):
            self.settle()
            return True
        return False

    def check_disk(self) -> None:
        """Rejects settings under which an engine never tells what its disk has, as most do."""
        return

    def close(self) -> None:
        self.peer.close()


# For how long one mark stands, in seconds.
EVERY = 0.1
# How many marks are kept. Without the oldest ones an LSN is known later.
MOST = 50000


class Trail:
    """LSNs, each with a time at which it was reached for sure. `upto` is the last one that was
    passed over, None before there is one."""

    def __init__(self) -> None:
        self.upto: int | None = None
        self.marks = collections.deque[tuple[float, int]](maxlen=MOST)

    def note(self, at: int, now: float) -> None:
        """Notes that an LSN is reached now."""
        if self.marks and now < self.marks[-1][0]:
            self.marks[-1] = self.marks[-1][0], at
        else:
            self.marks.append((now + EVERY, at))

    def pass_to(self, moment: float) -> int | None:
        """Passes over what was reached before a moment. Returns the last LSN of it."""
        while self.marks and self.marks[0][0] < moment:
            self.upto = self.marks.popleft()[1]
        return self.upto


# Who may only read a feed locks nothing there.
DENIED = (errno.EACCES, errno.EPERM, errno.EROFS)


class Alone:
    """The lock of a sink, over all its connections."""

    def __init__(self, feed: str, mode: int) -> None:
        self.feed, self.mode = feed, mode
        self.folder = os.path.join(feed, READERS)
        self.file: int | None = None
        self.place = ""

    def take(self, kind: str, place: str, where: str) -> None:
        """Keeps others from a place of an engine. A Passing says that one writes there."""
        if place == self.place:
            return
        self.close()
        number = hashlib.sha256(place.encode()).hexdigest()[:32]
        path = os.path.join(self.folder, f".{kind}-{number}")
        try:
            self.file = self.opened(path)
        except OSError as error:
            if error.errno not in DENIED:
                raise
            why = f"{path}: {error.strerror}"
            log.warning(f"{where}: no lock keeps another sink of this feed from it: {why}")
        else:
            self.lock(self.file, place, where)
        self.place = place

    def opened(self, path: str) -> int:
        make_folder(self.folder, self.mode)
        file = os.open(path, os.O_RDWR | os.O_CREAT | os.O_NOFOLLOW | os.O_CLOEXEC, 0o600)
        if os.geteuid() == 0:
            # (what root makes is for the account whose feed it is)
            about = os.stat(self.feed)
            give(file, about)
            with opened(self.folder, os.O_DIRECTORY | os.O_NOFOLLOW) as folder:
                give(folder, about)
        return file

    def lock(self, file: int, place: str, where: str) -> None:
        try:
            fcntl.flock(file, fcntl.LOCK_EX | fcntl.LOCK_NB)
        except BlockingIOError:
            process = os.pread(file, 20, 0).decode(errors="replace").partition(" ")[0]
            self.close()
            told = f"{where}: another sink of this feed writes there, process {process}"
            raise Passing(told) from None
        os.ftruncate(file, 0)
        os.pwrite(file, f"{os.getpid()} {place}\n".encode(), 0)

    def close(self) -> None:
        if self.file is not None:
            os.close(self.file)
        self.file, self.place = None, ""
