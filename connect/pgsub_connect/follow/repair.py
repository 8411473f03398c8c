"""Passes on the changes that make rows of the copy those of the server, as one transaction within
the stream.

They come from a comparison at an LSN P, which is held as the module `stream.hold` says: all that
was committed up to P is stored and in the copy that was compared, and nothing else. The transaction
is Begin, for each table Relation and its changes, Commit. For it holds what the module
`add.replacement` says of the rows of a table that is added:

- Its xid is 2, its final LSN P - 1 and its end P, which no server's commit has.
- It stands between transactions, before the first Begin with a final LSN of P or above and the
  first keepalive with such an end. The session asks for whole transactions, so that no block is
  under way; a keepalive within a transaction before it that tells of P or more, as no server's
  does, is left out.
- The session ends behind it, and the next one begins at P and describes each table anew. So it
  doesn't matter whether the session had described the tables otherwise.

Unlike there no change is left out, and nothing is noted: where the session is lost before the
transaction is stored the copy is as it was, and all that the server sends comes again. The changes
find their rows and clash with none, since the copy was compared at P. That is proved by the laws of
`crates/pgadding` (specs/Repaired.antt): what is passed on is sessions of a history, and the copy is
the server's from P on. Of the changes they ask that no key comes twice, and no order. They speak of
one repair, and not of a table that is added in the same session.

What was found of the tables' rows before they were compared, and may have made them wrong, goes
with the repair.
"""

import contextlib
import os
import stat
from collections.abc import Iterator

from pgsub_feed import log
from pgsub_feed.reader.commits import XID
from pgsub_feed.texts import counted, lsn_text

from ..add.replacement import payload_of
from ..copy.messages import begin, commit, frame
from ..errors import ServerError
from ..stream.hold import CHANGES
from ..stream.memory_limit import BufferLimits
from ..stream.messages import clock, relation_of
from .snapshots import Snapshots
from .upkeep import Upkeep

# How many bytes of the file are passed on at a time, and what a frame has before a message.
BLOCK, AROUND = 1 << 17, 25
LETTERS = (b"R", b"I", b"U", b"D")


class Unusable(Exception):
    """Why changes can't be passed on."""


def messages_in(path: str, limits: BufferLimits) -> Iterator[list[bytes]]:
    """The messages of a file, in lots, within these limits. It has to be ours or root's, and to have
    no others."""
    with contextlib.ExitStack() as stack:
        try:
            number = os.open(path, os.O_RDONLY | os.O_NOFOLLOW | os.O_NONBLOCK | os.O_CLOEXEC)
        except OSError as error:
            raise Unusable(f"{path}: {error.strerror}") from None
        stack.callback(os.close, number)
        about = os.fstat(number)
        if not stat.S_ISREG(about.st_mode) or about.st_uid not in (os.getuid(), 0):
            raise Unusable(f"{path}: a file of somebody else")
        check_size(about.st_size, limits.max_buffered)
        file = stack.enter_context(open(number, "rb", closefd=False))
        lot, size = list[bytes](), 0
        while head := file.read(4):
            check_length(length := int.from_bytes(head, "big"), limits.max_frame)
            message = file.read(length)
            if len(head) < 4 or len(message) != length or message[:1] not in LETTERS:
                raise Unusable(f"{path}: it isn't a file of changes")
            lot.append(message)
            size += length
            if size >= BLOCK:
                yield lot
                lot, size = [], 0
        yield lot


def check_size(size: int, most: int | None) -> None:
    """Rejects more changes than a transaction may have."""
    if most is not None and size > most:
        more = "choose tables by --table, or give the follower a --max-buffered above that"
        raise Unusable(f"the changes have {size} bytes, and {most} may be buffered: {more}")


def check_length(length: int, most: int) -> None:
    """Rejects a message that is longer than the filter takes, before it is read."""
    if length > most - AROUND:
        text = f"a row has {length} bytes: give the follower a --max-frame above that"
        raise Unusable(text)


class Repairing:
    """What becomes of a request to repair rows."""

    def __init__(self, snapshots: Snapshots, upkeep: Upkeep) -> None:
        self.snapshots, self.hold, self.upkeep = snapshots, snapshots.hold, upkeep
        life = upkeep.life
        self.limits, self.watch, self.form = life.limits, life.watch, life.form
        self.confirming, self.noting = life.confirming, life.noting
        self.checkpoint, self.progress = life.watch.checkpoint, life.progress
        self.remembered = life.watch.remembered
        # whether this asks for whole transactions, and whether it ends the session, once stored
        self.is_whole = self.ends_session = False
        # whether the progress was told that the stream is held for a repair
        self.is_shown = False
        # what was found before the rows were compared
        self.texts: set[str] = set()

    def wants_session(self) -> bool:
        """Whether a session is to begin in place of the one that runs."""
        if self.snapshots.wants_whole:
            return self.ends_session or self.form.is_streaming()
        return self.ends_session or self.is_whole and not self.hold.is_held

    def begin_session(self, streams: bool) -> bool:
        """A session begins. Returns whether it has to be one of whole transactions."""
        wants_whole = self.snapshots.wants_whole or self.hold.keeps
        self.is_whole, self.ends_session = wants_whole and streams, False
        return wants_whole

    def end_session(self) -> None:
        """A session has ended, and with it what was under way."""
        if self.hold.keeps:
            if self.is_stored():
                self.finish()
            else:
                self.give_up("the session ended before", False)
        self.ends_session = self.is_shown = False

    def is_stored(self) -> bool:
        point = self.hold.point
        return self.hold.is_sent and point is not None and self.confirming.position >= point

    def look(self) -> None:
        """Looks at the publications before the copy: what was found is of rows in it."""
        self.texts = set()
        if self.watch.look_again(self.upkeep.attend, self.confirming.position):
            self.texts = {text for found in self.remembered.found.values() for text in found.texts}

    def step(self) -> None:
        """Goes on, where that is possible now. Called between payloads."""
        if self.hold.keeps != self.is_shown:
            self.is_shown = self.hold.keeps
            self.progress.enter("repairing rows" if self.is_shown else "following")
        if self.is_stored():
            self.finish()
        elif self.hold.tables is not None and not self.hold.is_sent:
            self.send()

    def send(self) -> None:
        """Passes on the changes. Where that fails behind the first of them the session ends."""
        assert self.hold.into and self.hold.point
        lots = messages_in(self.hold.into + CHANGES, self.limits)
        try:
            first = self.noted(next(lots))
        except Unusable as error:
            self.give_up(str(error), True)
            return
        lsn, now = self.hold.point - 1, clock()
        self.hold.note_sent()
        # (a session that begins below P might describe the tables otherwise)
        self.checkpoint.forget_repeats()
        try:
            self.push([frame(lsn, begin(lsn, XID, now)), *(frame(lsn, it) for it in first)])
            for lot in lots:
                self.push([frame(lsn, it) for it in self.noted(lot)])
        except Unusable as error:
            self.give_up(str(error), True)
            raise ServerError("the session ends, since rows can't be repaired") from None
        self.push([frame(lsn, commit(lsn, self.hold.point, now))])

    def noted(self, lot: list[bytes]) -> list[bytes]:
        """Messages, whose definitions are known then."""
        for message in lot:
            if message[:1] == b"R" and self.hold.point and (relation := relation_of(message[1:])):
                self.remembered.replaced(relation, self.hold.point - 1)
        return lot

    def push(self, frames: list[bytes]) -> None:
        self.noting.note_all([payload_of(it) for it in frames])
        self.upkeep.push(b"".join(frames))
        self.noting.show()

    def finish(self) -> None:
        """The store has the changes."""
        hold = self.hold
        assert hold.into and hold.point
        tables = hold.tables or []
        for oid in tables:
            texts = [it for it in self.remembered.found_of(oid) if it in self.texts]
            self.checkpoint.accept(self.remembered.are_right(oid, texts))
        text = f"rows of {counted(len(tables), 'table')} were repaired as of {lsn_text(hold.point)}"
        log.info(text)
        self.snapshots.end(repaired=lsn_text(hold.point))
        hold.end()
        self.ends_session = True
        self.watch.show()

    def give_up(self, why: str, lasts: bool, delays: bool = False) -> None:
        """Lets the stream go. `lasts`: so would another try; `delays`: commits had to wait."""
        log.warning(f"no row is repaired: {why}")
        assert self.hold.into
        self.snapshots.reject(why, lasts, delays)
        self.hold.end()
