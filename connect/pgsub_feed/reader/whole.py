"""A reader of a feed that begins with the rows from before its first commit.

It gives them as commits, each of some rows of one table, whose `op` is `r`. Until the last one of
them nothing is complete: so that one alone ends at the LSN of the rows, and those before it at 0,
from where all rows come again.
"""

from collections.abc import Iterable, Iterator

from ..json_texts import compact
from ..tables.schema import table_line
from ..texts import lsn_text
from .base import FirstRows, Section, base_of_feed
from .commits import BASE, Commit, Part, TableLine
from .folder import segments
from .lines import as_change
from .segments import Reader, read_source


class Sections:
    """The sections of first rows, as commits."""

    def __init__(self, rows: FirstRows) -> None:
        self.lsn, self.left = rows.lsn, rows.sections()
        self.ahead = next(self.left, None)
        self.section: Section | None = None
        # how many rows came before
        self.n = 0

    def next(self) -> Commit | None:
        """The next of them, None after the last."""
        self.n += len(self.section.rows) if self.section else 0
        self.section, self.ahead = self.ahead, next(self.left, None)
        if self.section is None:
            return None
        end = 0 if self.ahead else self.lsn
        return Commit(end, 0, 0, len(self.section.rows), self.lsn, base=self.n)

    def parts(self) -> Iterator[Part]:
        assert self.section
        return parts_of(self.section, self.n)

    def inserts(self) -> Iterator[Part]:
        """Its rows as if they were inserted."""
        assert self.section
        return parts_of(self.section, self.n, "c")

    def lines(self) -> Iterator[bytes]:
        """Its lines without their ends, as a file of first rows has them."""
        assert self.section
        yield table_line(self.section.relation)
        for row in self.section.rows:
            cells = [{"hex": it.hex()} if isinstance(it, bytes) else it for it in row]
            yield compact(cells).encode()


def parts_of(section: Section, before: int, op: str = BASE) -> Iterator[Part]:
    """A section as a part of a commit, behind so many rows."""
    relation = section.relation
    yield TableLine(relation)
    for n, cells in enumerate(section.rows, before):
        yield as_change((op, relation, n, None, cells))


class Whole(Reader):
    """Begins with the rows of a base, or those beside the feed, where nothing was read so far."""

    def __init__(self, folder: str, at: int | None = None, base: FirstRows | None = None) -> None:
        super().__init__(folder, at)
        self.base, self.has_looked = base, False
        self.sections: Sections | None = None

    def next(self) -> Commit | None:
        if not self.at and not self.has_looked:
            bases = [base for base, _ in segments(self.folder)]
            # (first rows are there before the first segment is)
            if not bases or not self.look(bases):
                return None
        if self.at or not self.sections:
            return super().next()
        commit = self.sections.next()
        if commit is None or commit.end:
            self.at = self.sections.lsn
        return commit or super().next()

    def look(self, bases: list[int]) -> bool:
        """Looks which rows there are. Returns false where the feed isn't there yet."""
        self.head = read_source(self.folder)
        if self.head:
            rows = self.base or base_of_feed(self.folder, bases, self.head)
            self.sections, self.has_looked = Sections(rows) if rows else None, True
        return self.has_looked

    def is_lasting(self) -> bool:
        # (who reads has some of them, and a feed's first rows are written once)
        return bool(self.sections) and not self.at

    def parts(self, commit: Commit) -> Iterable[Part]:
        if commit.base is None:
            return super().parts(commit)
        assert self.sections
        return self.sections.parts()

    def own_line(self, commit: Commit) -> bytes:
        """The line of the commit that was taken last. That of first rows tells how many there are,
        how many came before, and, as `end`, their LSN where they are the last."""
        if commit.base is None:
            return super().own_line(commit)
        assert self.sections
        size = sum(len(it) + 1 for it in self.sections.lines())
        told = {
            "base": lsn_text(self.sections.lsn),
            "end": commit.text(),
            "n": commit.base,
            "rows": commit.changes,
            "bytes": size,
        }
        return compact(told).encode() + b"\n"

    def raw(self, commit: Commit) -> Iterable[list[bytes]]:
        if commit.base is None:
            return super().raw(commit)
        assert self.sections
        return iter([list(self.sections.lines())])

    def definitions(self, commit: Commit) -> Iterator[tuple[int, bytes]]:
        return super().definitions(commit) if commit.base is None else iter(())

    def close(self) -> None:
        super().close()
        if not self.at:
            self.has_looked = False
