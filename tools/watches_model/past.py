"""The model of what is said of commits that a server sends again (crates/pgrepeats)."""

from __future__ import annotations

import zlib
from typing import NamedTuple

# No transaction has this xid: the connector's own rows have it.
CONNECTORS = 2
EQUAL, NEW, UNKNOWN = "equal", "new", "unknown"


class Commit(NamedTuple):
    """A commit, as it is compared. `digest`: of how many changes it is, and of their checksums."""

    end: int
    lsn: int
    xid: int
    time: int
    digest: tuple[int, int]

    def must_come(self) -> bool:
        """Whether a session that sends what is around it sends it, too."""
        return self.digest[0] > 0 and self.xid != CONNECTORS


def digest_of(changes: list[bytes]) -> tuple[int, int]:
    """The digest of changes: messages without the xid that a block puts behind their letter."""
    crc = 0
    for it in changes:
        parts = crc.to_bytes(4, "little"), zlib.crc32(it).to_bytes(4, "little")
        crc = zlib.crc32(b"".join(parts) + len(it).to_bytes(8, "little"))
    return len(changes), crc


def lsn_text(lsn: int) -> str:
    return f"{lsn >> 32:X}/{lsn & 0xFFFFFFFF:X}"


def part_of(one: Commit, other: Commit) -> str:
    """In what two commits with one end differ."""
    parts = ("LSN", "xid", "time")
    differing = (it for it, a, b in zip(parts, one[1:4], other[1:4]) if a != b)
    return next(differing, "list of changes")


class Contradicted(Exception):
    """A commit isn't of one history with those that came before."""


class Past:
    """The newest commits that came."""

    def __init__(self, limit: int = 65536) -> None:
        self.limit = limit
        # each with where the last one before it ends that must come
        self.noted: dict[int, tuple[Commit, int]] = {}
        self.since = self.newest = self.changed = self.forgotten = self.unknown = 0
        self.last: int | None = None

    def begin_session(self) -> None:
        self.last = None

    def forget(self) -> None:
        self.forgotten += len(self.noted)
        self.noted.clear()
        self.since, self.changed, self.last = self.newest, 0, None

    def restart(self) -> None:
        """Forgets also where the newest one ended."""
        self.forget()
        self.since = self.newest = 0

    def hear(self, commit: Commit) -> str:
        """What is answered of the next commit of a session."""
        if commit.end in self.noted:
            return self.again(*self.noted[commit.end], commit)
        if self.newest < commit.end:
            return self.first(commit)
        if self.since < commit.end and commit.must_come():
            told = f"the commit that ends at {lsn_text(commit.end)}"
            raise Contradicted(f"{told} wasn't between those that came before")
        self.unknown += 1
        self.last = commit.end
        return UNKNOWN

    def again(self, noted: Commit, before: int, commit: Commit) -> str:
        if noted != commit:
            told = f"the commit that ends at {lsn_text(commit.end)} came before"
            raise Contradicted(f"{told} with another {part_of(noted, commit)}")
        self.check_left_out(before)
        self.last = commit.end
        return EQUAL

    def first(self, commit: Commit) -> str:
        if commit.lsn < self.newest:
            below = f"LSN {lsn_text(commit.lsn)} is below the end {lsn_text(self.newest)}"
            raise Contradicted(f"a commit's {below} of one that came before")
        self.check_left_out(self.changed)
        if commit.xid == CONNECTORS:
            self.forget()
        elif self.noted and len(self.noted) >= self.limit:
            self.since = min(self.noted)
            del self.noted[self.since]
            self.forgotten += 1
        self.since = self.since if self.noted else commit.end
        self.note(commit)
        return NEW

    def note(self, commit: Commit) -> None:
        self.noted[commit.end] = commit, self.changed
        self.newest = self.last = commit.end
        self.changed = commit.end if commit.must_come() else self.changed

    def check_left_out(self, end: int) -> None:
        if self.last is not None and self.last < end:
            told = f"the commit that ends at {lsn_text(end)}"
            raise Contradicted(f"{told} came before and is left out")
