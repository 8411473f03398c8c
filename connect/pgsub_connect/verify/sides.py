"""The two sides of a comparison, both as of one LSN: the tables of a server, and those of a copy of
the store.

Their rows are summed up by chunks, as the module `verify.digests` says, and read in the order of
their keys' bytes.
"""

import abc
import collections
import itertools
from collections.abc import Iterable, Iterator

from pgsub_feed.errors import Unfit
from pgsub_feed.interruption import Check
from pgsub_feed.log import Meter
from pgsub_feed.relation import Relation
from pgsub_feed.tables.digests import fields_in, text_of
from pgsub_feed.texts import lsn_text

from ..copy.source import Source
from ..errors import understood
from ..server.catalog import Table
from ..server.copied_text import unescaped
from ..server.publications import estimated_rows
from ..store.file import check_store, opened, read_position, read_relations
from .digests import Plan, Queries, Summing, Sums, chunks_for, fields_of

# How many bytes of rows are read at a time, and after how many it is looked for the end.
BLOCK, ROWS = 1 << 17, 1000
# A query names no more chunks than these: of more of them it reads all rows.
NAMED = 1 << 10

# Rows of a key, each with how often it is there.
Group = collections.Counter[bytes]
# A row's key and text, and how often it is there.
Row = tuple[bytes, bytes, int]
# A key, and the rows of it that the server has, and the copy.
Difference = tuple[bytes, Group, Group]


class Copied(abc.ABC):
    """A copy as of the LSN. By OID: `relations` has the definitions of its tables, but for those of
    which nothing ever came, and `counts` about how many rows each has."""

    relations: dict[int, Relation]
    counts: dict[int, int]

    def columns(self, table: Table) -> list[str]:
        """The names of a table's columns here; the server's where nothing of it ever came."""
        return [it.name for it in (self.relations.get(table.oid) or table).shape.columns]

    def left(self, tables: Iterable[Table]) -> list[Relation]:
        """The tables that have rows here and aren't among these."""
        oids = self.relations.keys() - {it.oid for it in tables}
        return [it for oid, it in self.relations.items() if oid in oids and self.counts.get(oid)]

    @abc.abstractmethod
    def sums(self, plans: Iterable[Plan]) -> dict[int, Sums]:
        """Those of each table, by its rows."""

    def digested(self, plans: Iterable[Plan]) -> dict[int, Sums]:
        """Those of tables with one chunk, by the digests that are kept, if any are."""
        return self.sums(plans)

    @abc.abstractmethod
    def rows(self, plan: Plan, chunks: list[int]) -> Iterator[Row]:
        """The rows of some chunks, in the order of their keys."""


class Copy(Copied):
    """The copy as of the LSN: a store's file."""

    def __init__(self, path: str, told: str, point: int, check: Check) -> None:
        self.check = check
        check_store(path, told)
        self.base = opened(path)
        self.position = read_position(self.base)
        if self.position > point:
            text = f"the copy is at {lsn_text(self.position)}, and this server's slot at {lsn_text(point)}: is it a standby behind?"
            raise Unfit(text)
        self.relations = read_relations(self.base)
        counts = self.base.execute("SELECT oid, count(*) FROM held GROUP BY oid")
        self.counts = dict(counts)

    def sums(self, plans: Iterable[Plan]) -> dict[int, Sums]:
        """Those of each table, by one pass over the file."""
        found = {it.table.oid: Summing(it) for it in plans}
        rows = self.base.execute("SELECT oid, body, copies FROM held NOT INDEXED")
        meter, done, total = Meter("reading the copy"), 0, sum(self.counts.values())
        while several := rows.fetchmany(ROWS):
            self.check()
            meter.note(done, total)
            done += len(several)
            for oid, body, copies in several:
                if summing := found.get(oid):
                    summing.add(body, copies)
        return {oid: it.sums for oid, it in found.items()}

    def rows(self, plan: Plan, chunks: list[int]) -> Iterator[Row]:
        wanted, width = set(chunks), plan.width

        def text(body: bytes) -> bytes:
            return text_of(fields_of(body, width))

        def key(text: bytes) -> bytes | None:
            """A row's key, None where its chunk isn't wanted."""
            found = plan.key_text(fields_in(text), text) if plan.key else text
            return found if plan.chunk_of(found) in wanted else None

        self.base.create_function("row_text", 1, text, deterministic=True)
        self.base.create_function("row_key", 1, key, deterministic=True)
        inner = "SELECT row_text(body) AS text, copies FROM held WHERE oid = ?"
        yield from self.base.execute(
            f"SELECT * FROM (SELECT row_key(text) AS key, text, copies FROM ({inner})) WHERE key IS NOT NULL ORDER BY key, text",
            (plan.table.oid,),
        )

    def close(self) -> None:
        self.base.close()


def grouped(rows: Iterable[Row]) -> Iterator[tuple[bytes, Group]]:
    """Rows in the order of their keys, those of each key together."""
    for key, several in itertools.groupby(rows, lambda it: it[0]):
        group = Group()
        for _, text, copies in several:
            group[text] += copies
        yield key, group


def differing(server: Iterable[Row], copy: Iterable[Row]) -> Iterator[Difference]:
    """The keys whose rows differ. Both sides come in order."""
    there, here = grouped(server), grouped(copy)
    one, two = next(there, None), next(here, None)
    while one or two:
        key = min(it[0] for it in (one, two) if it)
        theirs = one[1] if one and one[0] == key else Group()
        ours = two[1] if two and two[0] == key else Group()
        if theirs != ours:
            yield key, theirs, ours
        one = next(there, None) if one and one[0] == key else one
        two = next(here, None) if two and two[0] == key else two


class Sides:
    """A server and a copy of it. `names`: what the sides are called where rows are shown; `more`:
    how many equal rows one has more of; `places`: where the rows of each are."""

    names, more = ("server", "copy"), ("more_on_server", "more_in_copy")
    places = ("on the server", "in the copy")

    def __init__(self, source: Source, copy: Copied) -> None:
        self.source, self.copy = source, copy

    def has_columns(self, table: Table) -> bool:
        """Whether a table has the same columns on both sides."""
        return [it.name for it in table.columns] == self.copy.columns(table)

    def plan(self, table: Table) -> Plan:
        """How a table is digested, by about how many rows it has."""
        here, there = self.copy.counts.get(table.oid, 0), estimated_rows(self.source.plain, [table])
        return Plan(table, chunks_for(max(here, there or 0)))

    def sums(self, plan: Plan) -> Sums:
        """Those of the server."""
        sums = Sums(plan.chunks)
        with understood("the sums of a table"):
            for row in self.source.plain.rows(Queries(plan, self.source.encoding).sums()):
                chunk, rows, first, second = (int(it or 0) for it in row)
                sums.set(chunk, rows, first, second)
        return sums

    def digested(self, plans: list[Plan]) -> dict[int, Sums]:
        """Those of tables with one chunk, by the digests that are kept, if any are."""
        return {it.table.oid: self.sums(it) for it in plans}

    def differing(self, plan: Plan, chunks: list[int]) -> Iterator[Difference]:
        """The keys in some chunks whose rows differ."""
        return differing(self.rows(plan, chunks), self.copy.rows(plan, chunks))

    def rows(self, plan: Plan, chunks: list[int]) -> Iterator[Row]:
        """The server's rows in some chunks, in the order of their keys."""
        wanted = set(chunks)
        query = Queries(plan, self.source.encoding).texts(chunks if len(chunks) <= NAMED else [])
        with understood(f"the rows of {plan.table.text()}"):
            for lines in self.source.plain.copied_blocks(query, BLOCK):
                for line in lines:
                    text = line[:-1] if b"\\" not in line else unescaped(line[:-1])
                    key = plan.key_text(fields_in(text), text) if plan.key else text
                    if len(wanted) <= NAMED or plan.chunk_of(key) in wanted:
                        yield key, text, 1
