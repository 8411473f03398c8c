"""Transactions of the stream that are under way: which tables their changes touch, and how these
are described.

What is done for a change is little: it is counted for its table, and nothing of it is kept. So
memory goes by the tables that a transaction changes and by what describes them, and not by its
bytes: tests/test_noting_memory.py says how much that is for each kind of message.

`--skip LSN`: passes over the changes of one commit, the one with this final LSN, as PostgreSQL's
ALTER SUBSCRIPTION .. SKIP does.

While it is to come, whole transactions are asked for, so that Begin tells that it is the one. Its
changes are left out, and its Begin, Commit, Relation, Type and Origin stay: it becomes a commit
without changes, with which the store's position moves on.
"""

import collections
import itertools
import struct
from collections.abc import Callable

from pgsub_feed import log
from pgsub_feed.texts import counted, lsn_text

from ..drift.remembered import Remembered
from .common import Common
from .messages import BEGIN, CHANGES, COMMIT, OUTSIDE, TRUNCATE, final_lsn, number, xid_of

# The letter under which a TRUNCATE is counted for a table: the count of relations, which follows
# that of the message, is no OID. And the OID under which it is for all tables that aren't known.
TRUNCATED, UNKNOWN = b"t", bytes(4)
# How many OIDs are looked at together.
AT_ONCE = 1024
# How many tables a text names.
NAMED = 5


class Described:
    """A transaction's Relation messages, each with its subxid, b"" outside of blocks."""

    __slots__ = ("bodies", "makers", "oids", "listed")

    def __init__(self) -> None:
        self.bodies: list[tuple[bytes, bytes]] = []
        # how many of them each one has sent
        self.makers: dict[bytes, int] = {}
        # the OIDs of as many of them as `listed` says
        self.oids: set[int] | None = None
        self.listed = 0

    def add(self, maker: bytes, body: bytes) -> None:
        if self.bodies and self.bodies[-1][0] == maker:
            maker = self.bodies[-1][0]
        self.bodies.append((maker, body))
        self.makers[maker] = self.makers.get(maker, 0) + 1

    def has(self, oid: int) -> bool:
        """Whether one of them is of this table, or was before it was rolled back."""
        self.oids, new = self.oids or set(), itertools.islice(self.bodies, self.listed, None)
        self.oids.update(number(body[:4]) for _, body in new)
        self.listed = len(self.bodies)
        return oid in self.oids

    def abort(self, maker: bytes) -> None:
        """Drops those of a subtransaction, which mostly are the last ones."""
        left = self.makers.pop(maker, 0)
        while left and self.bodies[-1][0] == maker:
            self.bodies.pop()
            left -= 1
        if left:
            self.bodies = [it for it in self.bodies if it[0] != maker]
        self.listed = min(self.listed, len(self.bodies))


class Streamed:
    """A transaction in blocks: its changes, its Relation messages, and its bytes so far."""

    __slots__ = ("counts", "relations", "size", "about")

    def __init__(self) -> None:
        self.counts: dict[bytes, int] = {}
        self.relations = Described()
        self.size = 0
        self.about = False

    def add(self, counts: dict[bytes, int], size: int) -> None:
        """Adds the changes of a block, whoever made them, and its bytes."""
        self.size += size
        for key, count in counts.items():
            key = key[:1] + key[5:]
            self.counts[key] = self.counts.get(key, 0) + count

    def has_items(self) -> bool:
        """Whether anything of it is buffered. One of which nothing is costs the filter nothing of a
        limit, so it isn't kept here."""
        return bool(self.counts or self.relations.bodies)

    def abort(self, subxid: bytes) -> None:
        """Drops what a subtransaction described. What it changed can't be told from the rest."""
        self.relations.abort(subxid)
        self.about = True


def count_truncates(
    counts: dict[bytes, int], head: bytes, payload: bytes, first: int, is_met: Callable[[int], bool]
) -> None:
    """Counts a TRUNCATE, its OIDs from `first` on, for each table that is met, and all others."""
    for at in range(first, len(payload) - 3, 4 * AT_ONCE):
        some = payload[at : at + 4 * AT_ONCE]
        oids = struct.unpack_from(f">{len(some) // 4}I", some)
        for oid, count in collections.Counter(oids).items():
            key = head + (oid.to_bytes(4, "big") if is_met(oid) else UNKNOWN)
            counts[key] = counts.get(key, 0) + count


def changes_text(counts: dict[bytes, int], remembered: Remembered) -> str:
    """`3 changes of public.t (16385), 1 change of ..`, the tables with the most changes first."""
    tables: collections.Counter[int] = collections.Counter()
    for key, count in counts.items():
        tables[number(key[-4:])] += count
    others = tables.pop(number(UNKNOWN), 0)
    parts = [
        f"{counted(count, 'change')} of {remembered.text_of(oid)}"
        for oid, count in tables.most_common(NAMED)
    ]
    if len(tables) > NAMED:
        parts.append(f"and of {counted(len(tables) - NAMED, 'table')} more")
    if others:
        parts.append(f"{counted(others, 'TRUNCATE')} of tables that aren't known")
    return ", ".join(parts) or "no changes"


MESSAGE = 0x4D
LEFT_OUT = bytes([*CHANGES, TRUNCATE, MESSAGE])


class Skipping:
    """The commit that is to be skipped, if any. `is_pending`: it is still to come."""

    def __init__(self, lsn: int, common: Common) -> None:
        self.lsn = lsn
        _, _, self.checkpoint, self.progress, self.remembered = common
        self.is_pending = self.is_told = False
        # the Begin of the commit that is skipped, while it comes; whether another one is under way
        self.begun, self.is_inside = b"", False
        self.counts: dict[bytes, int] = {}
        self.progress.findings.note_skipped(self.checkpoint.known.skipped)

    def begin_session(self, at: int) -> None:
        """A session starts at an LSN. A commit that ends above it comes in it, so one that has its
        final LSN there or above does."""
        self.begun, self.is_inside = b"", False
        self.is_pending = bool(self.lsn) and at <= self.lsn
        told = not self.lsn or self.is_pending or self.is_told
        if not told and self.checkpoint.known.skipped != (skip := lsn_text(self.lsn)):
            self.is_told = True
            log.warning(f"--skip {skip}: the store is at {lsn_text(at)}, so nothing is skipped")

    def passes(self, payload: bytes) -> bool:
        """Whether a payload is to be passed on."""
        if len(payload) <= 25:
            self.pass_keepalive(payload)
            return True
        letter = payload[25]
        if self.begun and letter in LEFT_OUT:
            self.count(letter, payload)
            return False
        if letter == BEGIN:
            self.is_inside = True
            self.begin(payload)
        elif letter == COMMIT:
            self.is_inside = False
            if self.begun:
                self.finish()
        return True

    def begin(self, payload: bytes) -> None:
        lsn = final_lsn(payload)
        if self.is_pending and lsn == self.lsn:
            self.begun, self.counts = payload, {}
        elif self.is_pending and lsn > self.lsn:
            self.miss(lsn)

    def pass_keepalive(self, payload: bytes) -> None:
        """One between transactions tells that all commits up to its end have come."""
        end = int.from_bytes(payload[1:9], "big")
        if self.is_pending and not self.is_inside and end > self.lsn:
            self.miss(end)

    def count(self, letter: int, payload: bytes) -> None:
        if letter in CHANGES:
            self.counts[payload[25:30]] = self.counts.get(payload[25:30], 0) + 1
        elif letter == TRUNCATE:
            count_truncates(self.counts, TRUNCATED, payload, OUTSIDE + 1, self.remembered.is_known)

    def finish(self) -> None:
        """The commit is complete."""
        lsn, changes = lsn_text(self.lsn), changes_text(self.counts, self.remembered)
        self.checkpoint.write(True, skipped=lsn)
        self.progress.findings.note_skipped(lsn)
        log.warning(f"skipped: transaction {xid_of(self.begun)}, final LSN {lsn}, {changes}")
        self.begun, self.is_pending = b"", False

    def miss(self, lsn: int) -> None:
        self.is_pending = False
        log.warning(
            f"--skip {lsn_text(self.lsn)}: the server is at {lsn_text(lsn)}, and there was no such commit: nothing is skipped"
        )
