"""The commits of a feed above an LSN, of which the images take a copy back to it.

What a truncation took the feed doesn't have. And the rows from before a repair are the store's,
which who follows may never have had.
"""

from collections.abc import Collection, Iterator
from typing import NamedTuple

from ..errors import Passing, Unfit
from ..relation import Relation
from ..texts import lsn_text
from .commits import XID, Cells, Change, Commit, Cursor
from .folder import read_confirmed, segments
from .segments import Reader


class Image(NamedTuple):
    """A row before a change (`sign` 1) or since (-1): what takes it back where it is added."""

    relation: Relation
    cells: Cells
    sign: int


class Gone(Passing):
    """The feed has no commits any more that are needed."""


class Trail:
    """Reads a feed from an LSN that all is above to another one, the point, and on."""

    def __init__(self, folder: str, at: int) -> None:
        self.folder = folder
        below = [base for base, _ in segments(folder) if base <= at]
        if not below:
            raise Unfit(f"{folder}: the feed doesn't have the commits after {lsn_text(at)}")
        self.reader = Reader(folder, below[-1])
        # where the last commit up to the point ends, and the next one begins, once that is known
        self.last = below[-1]
        self.first: Cursor | None = None

    def has(self, point: int) -> bool:
        """Reads on. Returns whether the feed has all commits that end up to an LSN, the point."""
        if self.first:
            return True
        # (before the commits are looked at: all up to it are among these)
        confirmed = read_confirmed(self.folder) or 0
        while commit := self.next():
            if commit.end > point:
                self.first = self.reader.before(commit)
                return True
            self.last = commit.end
        if confirmed >= point:
            self.first = self.reader.cursor()
        return self.first is not None

    def next(self) -> Commit | None:
        try:
            return self.reader.next()
        except Unfit as wrong:
            there = segments(self.folder)
            if there and there[0][0] > self.last:
                text = f"{self.folder}: commits that are needed were removed meanwhile: compare again, or keep them by --feed-max-age"
                raise Gone(text) from None
            raise wrong

    def commits(self, until: int) -> Iterator[Commit]:
        """The commits above the point, up to the one that ends at an LSN."""
        at = self.last
        if at >= until:
            return
        assert self.first
        self.reader.go_to(self.first)
        while at < until:
            commit = self.next()
            if commit is None or commit.end > until:
                raise Unfit(f"{self.folder}: no commit ends at {lsn_text(until)}")
            yield commit
            at = commit.end

    def unknown(self, until: int) -> dict[int, str]:
        """By OID the tables of which these commits don't have the rows from before, and why."""
        found = dict[int, str]()
        for commit in self.commits(until):
            for part in self.reader.parts(commit):
                if isinstance(part, Change) and (part.op == "t" or commit.xid == XID):
                    found[part.relation.oid] = "truncated" if part.op == "t" else "repaired"
        return found

    def images(self, until: int, oids: Collection[int]) -> Iterator[Image]:
        """The rows before and after each change of some tables in these commits."""
        for commit in self.commits(until):
            for part in self.reader.parts(commit):
                if isinstance(part, Change) and part.relation.oid in oids:
                    yield from images_of(commit, part)

    def close(self) -> None:
        self.reader.close()


def images_of(commit: Commit, change: Change) -> Iterator[Image]:
    if change.op == "t":
        told = f"{commit.text()} truncates {change.relation.text()}, and the feed doesn't have the rows that were in it"
        raise Passing(f"{told}: compare later, or other tables by --table")
    for cells, sign in ((change.before, 1), (change.after, -1)):
        if cells is not None:
            yield Image(change.relation, cells, sign)
