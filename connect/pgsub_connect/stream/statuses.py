"""Which of the filter's statuses are passed on to the server, when, and what of them is on the disk
before that.

| What a status confirms | When it is passed on | When it is noted |
|---|---|---|
| a commit | at once: the server may wait for it | afterwards: the store has it; its changes that found no row durably, before |
| more, by a keepalive alone | at once where the server asks, else in its time | durably, before: a next start can't see it in the store |
| the same as the one before | at each heartbeat | it is noted by then |
"""

import dataclasses
import time
from collections.abc import Sequence

from ..server.connection import Connection
from .filter import Filter
from .messages import asking, final_lsn, flushed, lowered
from .missed_rows import Misses
from .stream_log import Noting

# How often a position that a keepalive alone has moved is passed on, in seconds. Each time costs a
# sync of the checkpoint. Where commits at the server wait for that, as those of tables that aren't
# published do: so often that at most a part in so many of the time is spent.
QUIET, PART = 1.0, 5


@dataclasses.dataclass(frozen=True)
class Reached:
    """What a store has: the LSN up to which all commits are stored, and the end of the last of
    them. `keys`: the LSN of a commit up to which it is known which primary keys tables have, 0 where
    it isn't just now; `tells_keys`: whether there are any that no message tells."""

    confirmed: int
    position: int
    keys: int = 0
    tells_keys: bool = False


class Confirming:
    """What is confirmed. `position`: the greatest end of a commit that is."""

    def __init__(self, child: Filter, noting: Noting, misses: Misses) -> None:
        self.filter, self.noting, self.misses = child, noting, misses
        self.checkpoint, self.progress = misses.checkpoint, misses.progress
        self.position = 0
        # where statuses go; None where no session is open
        self.connection: Connection | None = None
        # the status passed on last, and one of a keepalive alone, which waits for its time
        self.told = b""
        self.held: bytes | None = None
        # when one was sent last, and when one that confirms more than those before
        self.last_sent = self.last_moved = 0.0
        # how long a position that a keepalive alone has moved took to be noted
        self.noted_in = 0.0

    def begin_store(self, position: int) -> None:
        """A filter has opened its store, which is at this position."""
        self.position, self.held = position, None

    def begin_session(self, connection: Connection) -> None:
        """A session is about to begin. Its statuses say what the filter confirms, also where the
        last one ended before that was noted: the caller notes that before anything is sent."""
        self.note_missing([])
        self.connection, self.told = connection, self.filter.status
        self.held, self.last_sent = None, 0.0

    def end_session(self) -> None:
        self.connection = self.held = None

    def stored(self) -> Reached:
        """What the store has at least, for another thread."""
        # (a look that a commit makes due is noted before that commit is confirmed)
        confirmed = max(self.checkpoint.known.confirmed, self.filter.confirmed())
        relations = self.noting.relation_log
        keys = confirmed if relations.knows_keys() else 0
        return Reached(confirmed, self.position, keys, relations.has_others)

    def is_stored(self) -> bool:
        """Whether the store has all commits that were passed on."""
        self.forget_confirmed(self.filter.confirmed())
        return not self.noting.ends and not self.filter.input.waiting

    def reached(self) -> int:
        """An LSN that no commit or keepalive that was passed on is above."""
        begun = final_lsn(self.noting.begun) if self.noting.begun else 0
        sent_to = int.from_bytes(self.progress.stream.sent_to, "big")
        return max(self.position, self.filter.confirmed(), begun, sent_to)

    def note_missing(self, statuses: Sequence[bytes]) -> None:
        """Notes durably what is new of changes that found no row, up to the last status."""
        if self.misses.is_news(self.filter.said.missing):
            at = self.position
            at = self.noting.stored(flushed(statuses[-1]), at) if statuses else at
            self.misses.note(self.filter.said.missing, at)

    def note_statuses(self, statuses: list[bytes]) -> None:
        """Notes the last status."""
        if not statuses:
            return
        confirmed = flushed(statuses[-1])
        self.forget_confirmed(confirmed)
        self.checkpoint.note(confirmed, self.position)
        self.progress.findings.note_counted(self.checkpoint.counted)
        self.progress.stream.note_confirmed(confirmed, self.position)

    def forget_confirmed(self, confirmed: int) -> None:
        """Forgets the ends of commits that are stored."""
        self.position = self.noting.confirm(confirmed, self.position)

    def forward(self, statuses: list[bytes]) -> None:
        """Passes on the last of new statuses, which confirms what those before it do.

        What is above the last commit was moved by a keepalive alone, and may wait, since noting it
        costs a sync. A commit at the server may wait for the rest.
        """
        for status in statuses[-1:]:
            lsn = flushed(status)
            if self.noting.ends and self.noting.ends[-1] == lsn:
                # (the last commit that was passed on is stored: there is nothing to look up first)
                self.pass_on(status)
                return
            self.forget_confirmed(lsn)
            if self.checkpoint.known.confirmed < self.position < lsn:
                self.pass_on(lowered(status, self.position))
            is_known = lsn <= max(self.position, self.checkpoint.known.confirmed)
            if is_known or self.noting.asked is not None:
                self.pass_on(status)
            else:
                self.held = status
        if self.held and time.monotonic() - self.last_moved >= self.quiet():
            self.release()

    def forward_new(self) -> None:
        """Passes on what the filter has confirmed since the session is about to begin: a commit of the
        session before may have been stored meanwhile, for which the server waits still."""
        if self.filter.status != self.told:
            self.forward([self.filter.status])

    def quiet(self) -> float:
        """After how many seconds a position that a keepalive alone has moved is passed on again."""
        return min(QUIET, PART * self.noted_in) if self.progress.server.is_waited_for else QUIET

    def pass_on(self, status: bytes) -> None:
        """Sends a status, and notes it: first where only this tells the next start of it, and else
        afterwards.

        What else the checkpoint has of a commit is on the disk before: which of its changes found
        no row since the status was read, that it was skipped since its end was passed on, and what
        was found by its Relation messages since these were passed on.
        """
        lsn, began = flushed(status), time.monotonic()
        if lsn > self.checkpoint.known.confirmed:
            self.last_moved = began
        self.noting.note_answer(lsn)
        self.held = None
        if lsn > self.noting.stored(lsn, self.position):
            self.note_statuses([status])
            self.noted_in = time.monotonic() - began
        self.told = status
        try:
            self.send(status)
        finally:
            # (where that waits until now, the store itself has all that is confirmed)
            self.note_statuses([status])

    def release(self) -> None:
        """Passes on the status that waits."""
        if self.held:
            self.pass_on(self.held)

    def repeat(self, asks: bool = False) -> None:
        """Sends the last status again, or one that waits. `asks`: the server is to answer."""
        self.release()
        self.send(asking(self.told) if asks else self.told)

    def send(self, status: bytes) -> None:
        assert self.connection
        self.last_sent = time.monotonic()
        self.connection.send(status)
