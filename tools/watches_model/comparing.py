"""The model of how a program compares the commits of sessions that come again (`--repeats`)."""

from __future__ import annotations

from collections.abc import Callable, Sequence

from .past import NEW, Commit, Contradicted, Past, digest_of, lsn_text

CHANGES = (b"I", b"U", b"D", b"T")
# How many changes of open transactions are held, and how many commits are noted.
HELD, NOTED = 1_000_000, 65_536


def number(data: bytes, at: int, size: int) -> int:
    return int.from_bytes(data[at : at + size], "big")


def time_of(data: bytes, at: int) -> int:
    return int.from_bytes(data[at : at + 8], "big", signed=True)


class Transaction:
    """One that is open: its changes, each with the subtransaction that made it."""

    def __init__(self) -> None:
        self.changes: list[tuple[int, bytes]] = []
        # whether it had more than are held
        self.is_large = False

    def abort(self, subxid: int) -> None:
        made = [it for it, _ in self.changes]
        if subxid in made:
            del self.changes[made.index(subxid) :]


class Compared:
    """Compares commits of one life of the program. `note` is told of each that is noted, or None
    where all is forgotten. `position`: that of the store, up to which commits came."""

    def __init__(
        self,
        noted: Sequence[Commit] = (),
        note: Callable[[Commit | None], None] = lambda _: None,
        position: int = 0,
        held: int = HELD,
        limit: int = NOTED,
    ) -> None:
        self.limit, self.held, self.note, self.position = limit, held, note, position
        # up to here commits came that may not be noted
        self.reached = position
        self.past = Past(limit)
        for it in sorted(noted):
            self.past.hear(it)
        self.loaded, self.equal = len(noted), 0
        self.begin_session()

    def begin_session(self) -> None:
        self.past.begin_session()
        # whether no commit that came is missing above those that are noted
        self.is_whole = self.reached <= self.past.newest
        self.open: dict[int, Transaction] = {}
        self.pair, self.begun = Transaction(), (0, 0)
        # the transaction that a block is of, 0 outside blocks
        self.block = 0

    def said(self) -> str:
        """What is said at the beginning."""
        return f"{self.loaded} commits are noted, up to {lsn_text(self.past.newest)}"

    def counted(self) -> str:
        """What is said at the end."""
        return f"{self.equal} equal, {self.past.unknown} unknown, {self.past.forgotten} forgotten"

    def take(self, letter: bytes, body: bytes) -> str | None:
        """What a message contradicts, None where nothing. `body`: what is behind its letter."""
        if letter in CHANGES:
            self.change(letter, body)
        elif letter == b"B":
            self.pair, self.begun = Transaction(), (number(body, 16, 4), number(body, 0, 8))
        elif letter == b"C":
            xid = self.begun[0]
            return self.commit(
                self.pair, number(body, 9, 8), number(body, 1, 8), xid, time_of(body, 17)
            )
        elif letter == b"S":
            self.block = number(body, 0, 4)
            self.open.setdefault(self.block, Transaction())
        elif letter == b"E":
            self.block = 0
        elif letter == b"A":
            self.abort(number(body, 0, 4), number(body, 4, 4))
        elif letter == b"c":
            xid = number(body, 0, 4)
            made = self.open.pop(xid)
            return self.commit(
                made, number(body, 13, 8), number(body, 5, 8), xid, time_of(body, 21)
            )
        return None

    def change(self, letter: bytes, body: bytes) -> None:
        if letter == b"T" and not number(body, 4 if self.block else 0, 4):
            return  # of no table
        made = self.open[self.block] if self.block else self.pair
        subxid = number(body, 0, 4) if self.block else 0
        held = len(self.pair.changes) + sum(len(it.changes) for it in self.open.values())
        if held >= self.held or made.is_large:
            made.is_large = True
            made.changes.clear()
        else:
            made.changes.append((subxid, letter + (body[4:] if self.block else body)))

    def abort(self, xid: int, subxid: int) -> None:
        if xid == subxid:
            self.open.pop(xid, None)
        elif xid in self.open:
            self.open[xid].abort(subxid)

    def commit(self, made: Transaction, end: int, lsn: int, xid: int, time: int) -> str | None:
        self.pair = Transaction()
        commit = Commit(end, lsn, xid, time, digest_of([it for _, it in made.changes]))
        self.position = max(self.position, end)
        if made.is_large or (not self.is_whole and self.past.newest < end):
            # (others may have come since that aren't noted, as some that a crash has lost)
            self.past.forget()
            self.note(None)
        self.is_whole = True
        self.reached = max(self.reached, end) if made.is_large else self.reached
        return None if made.is_large else self.hear(commit)

    def hear(self, commit: Commit) -> str | None:
        told, answer = None, ""
        try:
            answer = self.past.hear(commit)
        except Contradicted as contradicted:
            told = str(contradicted)
            self.past.restart()
            self.note(None)
            answer = self.past.hear(commit)
        if answer == NEW:
            self.note(commit)
        self.equal += answer == "equal"
        return told
