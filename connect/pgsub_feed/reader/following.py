"""Follows a feed: puts commit after commit into what keeps them, up to an end; what who follows one
takes and begins with, and the tables that `--table` names."""

import dataclasses
import time
from collections.abc import Callable, Collection, Iterable, Iterator
from typing import Protocol

from ..errors import Damaged, Passing, Stopped
from ..interruption import Check
from ..relation import Relation
from ..tables.names import names_of
from ..texts import lsn_text
from .commits import Commit, Event, Head, Message, Part, TableLine
from .folder import Noted, read_confirmed
from .polling import Parent, Poll
from .segments import Reader


class Store(Protocol):
    """The store whose commits the feed has. It is read by the program that keeps it."""

    @property
    def path(self) -> str:
        ...

    def is_followed(self) -> bool:
        """Whether its follower runs just now."""

    def export(self, into: str, form: str, chosen: Collection[str], check: Check) -> None:
        """Exports these tables of it, all where none is named. `form`: how numerics are kept."""


@dataclasses.dataclass(frozen=True)
class Reading:
    """Of the feed in a folder the commits up to an LSN, None where all, and those that come where
    it follows; of them the tables that are chosen, all where none is.

    It begins with the rows of a file, an export or tables, or those of a store; with none where
    neither is named. One with a name notes its LSN in the feed's folder, in a file with the mode.
    """

    feed: str
    chosen: tuple[str, ...] = ()
    follows: bool = True
    until: int | None = None
    base: str | None = None
    store: Store | None = None
    name: str | None = None
    mode: int = 0o600


class Chosen:
    """Which relations are chosen, all where none is named. `unseen`: names of none so far."""

    def __init__(self, names: Iterable[str]) -> None:
        self.names = set(names)
        self.unseen = set(names)

    def __call__(self, relation: Relation) -> bool:
        found = self.names & names_of(relation.namespace, relation.name)
        self.unseen -= found
        return bool(found) or not self.names

    def events(self, parts: Iterable[Part]) -> Iterator[Event]:
        """The messages of a commit, and its changes of these relations."""
        chosen = dict[int, bool]()
        for part in parts:
            if isinstance(part, Message):
                yield part
            elif isinstance(part, TableLine):
                chosen[part.relation.oid] = self(part.relation)
            elif chosen[part.relation.oid]:
                yield part


# How long commits wait for others that come to be settled together, in seconds.
LONGEST = 0.5
# Reads a commit's lines, from the first one on each time.
Read = Callable[[], Iterable[Part]]


class Keeper(Protocol):
    """Keeps commits. `at`: all up to there are kept; later ones are, once `settle` is called."""

    @property
    def at(self) -> int:
        ...

    def take(self, commit: Commit, read: Read) -> None:
        """Takes a commit. It may be settled at once. A Damaged leaves it out."""

    def settle(self) -> None:
        """Has all that was taken."""

    def forget(self) -> None:
        """Forgets what was taken since it was settled."""

    def look(self) -> None:
        """Looks, while there is nothing to take, whether it can go on."""

    def safe(self) -> int | None:
        """An LSN whose rows it has even after a power cut; None where that isn't known."""


class Following:
    """Follows a feed into what keeps it. `begin` is told what it is a feed of, before the first
    commit, and the parent, where there is one, what is settled."""

    def __init__(
        self,
        reading: Reading,
        keeper: Keeper,
        check: Check,
        noted: Noted | None = None,
        begin: Callable[[Head], None] = lambda _: None,
        parent: Parent | None = None,
    ) -> None:
        self.reading, self.keeper, self.check, self.noted = reading, keeper, check, noted
        self.begin, self.parent = begin, parent
        self.reader = Reader(reading.feed, keeper.at)
        self.poll = Poll(self.reader, reading.follows, check, parent)
        # since when commits wait to be settled
        self.begun: float | None = None
        self.has_begun = False
        # whether all up to the LSN at which to end was confirmed before the feed was looked at last
        self.is_confirmed = False

    def follow(self) -> None:
        """Takes commit after commit, those that are there at once, up to the end."""
        self.note()
        while not self.is_at_end(commit := self.poll.next()):
            if commit:
                self.check()
                self.take(commit)
            else:
                self.settle()
                self.keeper.look()
                self.note()
                self.poll.rest()
        self.settle()
        self.check_reached(commit)

    def is_at_end(self, commit: Commit | None) -> bool:
        if commit is None:
            return not self.reading.follows and not self.looks_again()
        return self.reading.until is not None and commit.end > self.reading.until

    def looks_again(self) -> bool:
        """Whether all up to the LSN at which to end was confirmed since the feed was looked at:
        some of it may have come since."""
        until, was_confirmed = self.reading.until, self.is_confirmed
        self.is_confirmed = (
            was_confirmed or until is not None and (read_confirmed(self.reading.feed) or 0) >= until
        )
        return self.is_confirmed and not was_confirmed

    def check_reached(self, above: Commit | None) -> None:
        """Rejects an end below the LSN to end at, up to which the feed may still get commits."""
        until, at = self.reading.until, self.keeper.at
        if until is None or above or at >= until or self.is_confirmed:
            return
        text = f"{self.reading.feed}: the feed has reached {lsn_text(at)}, and {lsn_text(until)} not yet"
        raise Passing(text)

    def take(self, commit: Commit) -> None:
        """Takes a commit. Where its lines can't be read nothing is kept of what isn't settled."""
        if self.reader.head and not self.has_begun:
            self.begin(self.reader.head)
            self.has_begun = True
        self.begun = time.monotonic() if self.begun is None else self.begun
        try:
            self.keeper.take(commit, lambda: self.reader.parts(commit))
        except Stopped:
            # (a part of it may wait)
            self.keeper.forget()
            raise
        except Damaged as damaged:
            self.keeper.forget()
            self.begun = None
            self.poll.try_again(damaged, commit, self.keeper.at)
            return
        if time.monotonic() - self.begun > LONGEST:
            self.settle()

    def settle(self) -> None:
        self.keeper.settle()
        self.begun = None
        if self.parent:
            self.parent.tell(self.keeper.at)
        self.note()

    def note(self, is_last: bool = False) -> None:
        """Notes what is safe."""
        if self.noted and (at := self.keeper.safe()) is not None:
            self.noted.note(at, is_last)

    def finish(self) -> None:
        self.reader.close()
        self.note(is_last=True)
