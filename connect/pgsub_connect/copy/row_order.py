"""In which order a table's rows are read: in that of the store's index, where they lie in another.

The store has rows by their identity: the texts of the key's columns, each behind its length. What
comes so goes to the end of its trees; of random keys each changes another page. Nothing but time
depends on it.

The server sorts, at most `RUN` bytes of a table at a time, so that it needs no more room for that:
of a larger table one part of its pages after the other. Up to 13 it would read all of them for
each, so a larger one comes there as it lies, and so does what there is no room to sort.
"""

import dataclasses
from collections.abc import Iterator

from pgsub_feed import log
from pgsub_feed.relation import Column
from pgsub_feed.texts import counted, identifier, literal

from ..errors import ServerError
from ..server.catalog import Table
from ..server.connection import Connection

# A smaller table isn't sorted, and no more at once, in bytes.
LEAST, RUN = 16 << 20, 1 << 30
# From this correlation on (pg_stats) rows lie in the order of a column.
IN_ORDER = 0.9
# From which version on the pages of a part are read alone.
READS_PAGES = 140000
# What keeps a server from sorting: its limits of files and memory, or a full disk.
NO_ROOM = ("53100", "53200", "53400")
# Types whose values are in the order of their texts, and those that are texts.
ORDERED = {16, 20, 21, 23, 26, 1082, 1114, 1184, 2950}
TEXTS = {25, 1042, 1043}


@dataclasses.dataclass(frozen=True)
class Run:
    """Some rows of a table. `query`: its COPY; `unsorted`: the same without an order, or "" where it
    has none."""

    query: str
    unsorted: str = ""

    def blocks(self, connection: Connection, size: int) -> Iterator[list[bytes]]:
        """Yields the lines in blocks of about so many bytes, within a transaction. They come as
        they lie where the server can't sort them."""
        if not self.unsorted:
            yield from connection.copied_blocks(self.query, size)
            return
        connection.run("SAVEPOINT sorted")
        has_begun = False
        try:
            for lines in connection.copied_blocks(self.query, size):
                has_begun = True
                yield lines
            connection.run("RELEASE SAVEPOINT sorted")
            return
        except ServerError as error:
            if has_begun or error.sqlstate not in NO_ROOM:
                raise
            log.info(f"rows come as they lie, since the server can't sort them: {error}")
        connection.run("ROLLBACK TO SAVEPOINT sorted")
        yield from connection.copied_blocks(self.unsorted, size)


def runs_of(connection: Connection, table: Table, size: int) -> list[Run]:
    """The runs that have all rows of a table, of about so many bytes, one after the other."""
    order = order_of(table)
    if not order or size < LEAST or lies_so(connection, table):
        return [Run(table.query())]
    if size <= RUN:
        return [Run(table.query(order), table.query())]
    if connection.version() < READS_PAGES or table.kind == "p":
        return [Run(table.query())]
    parts = conditions_of(
        size, int(connection.text("SELECT pg_catalog.current_setting('block_size')"))
    )
    log.info(f"{table.text()} is sorted by its key in {counted(len(parts), 'part')}")
    return [Run(table.query(order, it), table.query(within=it)) for it in parts]


def order_of(table: Table) -> str:
    """The terms of a table's key, "" where it has none by which its rows are stored."""
    if table.identity not in ("d", "i") or table.leaves and table.leaves.foreign:
        return ""
    return ", ".join(term for it in table.columns if it.key for term in terms_of(it))


def terms_of(column: Column) -> list[str]:
    """What puts rows into the order of a column's texts, by length first."""
    name = identifier(column.name)
    if column.type_oid in ORDERED:
        return [name]
    text = name if column.type_oid in TEXTS else f"{name}::pg_catalog.text"
    return [f"pg_catalog.octet_length({text})", f'{text} COLLATE pg_catalog."C"']


def lies_so(connection: Connection, table: Table) -> bool:
    """Whether a table's rows lie in the order of its key, as far as the statistics know."""
    first = next(it for it in table.columns if it.key)
    found = connection.value(
        "SELECT correlation FROM pg_catalog.pg_stats"
        f" WHERE schemaname = {literal(table.namespace)} AND tablename = {literal(table.name)}"
        f" AND attname = {literal(first.name)} ORDER BY inherited DESC LIMIT 1"
    )
    return found is not None and float(found) >= IN_ORDER


def conditions_of(size: int, page: int) -> list[str]:
    """The conditions of parts of a table: each has other pages, and the last one all that are
    left."""
    pages = RUN // page
    starts = range(0, -(-size // page), pages)
    conditions = [f"ctid >= '({at},0)'" for at in starts]
    ends = [f" AND ctid < '({at},0)'" for at in starts[1:]] + [""]
    return [start + end for start, end in zip(conditions, ends, strict=True)]
