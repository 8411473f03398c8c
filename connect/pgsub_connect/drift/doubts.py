"""What the catalog alone leaves in doubt, and the rows tell; and what is told once in a run, since
no message of the server tells it later, and no look finds it.

- A table's columns were altered, and its rows are in another file; it keeps no long values, whose
  place would tell. Were its values computed anew? No, where a row is older than the earlier
  reading, since an ALTER TABLE writes all; nor where each one is later than whatever has written
  the file, as after a TRUNCATE.
- The rows of a partition, which comes under another name, are in another file. Was it truncated?
  No, where a row is older than the earlier reading.
- A partition was attached to what is published. Had it rows before? No, where each one is later
  than the transaction that has attached it, which holds a lock against all others.
- A column was added. Has the server filled it in where rows were there? No, where it keeps no value
  for these, and each row with one is later than the transaction that has written the column.

What can't be asked, or takes too long, stays in doubt, and so it is told: a right or a lock may be
missing, or the table be large. Nothing is passed on meanwhile.
"""

import contextlib
import dataclasses
import time
from collections.abc import Iterator, Sequence

from pgsub_feed.texts import identifier, literal

from ..errors import ServerError, understood
from ..server.catalog import ACTIONS, Catalog, Table
from ..server.catalog_reader import PARTS, listed_oids, number
from ..server.connection import QUICK, Connection
from ..server.publication_setup import names_of
from .differences import asks_rows
from .partition_differences import attached, root_of, written_partitions

# For how many seconds each table is asked at most, and all together.
EACH, ALL = 1, 2
# From which age on a transaction isn't told from a later one.
OLDEST = 1 << 31


def resolved(connection: Connection, before: Catalog, now: Catalog) -> Catalog:
    """A reading with what its rows tell beside it, as far as it leaves in doubt what is new."""
    both = before.tables.keys() & now.tables.keys()
    tables = {oid: asked for oid in both if (asked := asks_rows(oid, before, now))}
    partitions, written = attached(before, now), written_partitions(before, now)
    if not (tables or partitions or written):
        return now
    until = time.monotonic() + ALL
    with asking(connection):
        since = since_of(connection, before)
        kept = {
            oid
            for oid, asked in tables.items()
            if all(has_its_values(connection, it, since, until) for it in asked)
        }
        kept |= {oid for oid in written if has_older(connection, oid, since, until)}
        doubted = ((oid, up_to(ways)) for oid, ways in partitions.items())
        fresh = {oid for oid, it in doubted if has(connection, oid, it, until) is False}
    return dataclasses.replace(now, kept=frozenset(kept), fresh=frozenset(fresh))


@contextlib.contextmanager
def asking(connection: Connection) -> Iterator[None]:
    """Around questions to rows: none takes long, and none leaves rows out."""
    connection.run(f"SET statement_timeout = '{EACH}s'; SET row_security = off", limit=QUICK)
    try:
        yield
    finally:
        connection.run("SET statement_timeout = 0; SET row_security = on", limit=QUICK)


@understood("columns")
def are_empty(connection: Connection, table: Table, columns: Sequence[str]) -> bool:
    """Whether it is certain that added columns are null in all rows that were there. (Each
    partition would have to be asked, and a column list may have had a column join.)"""
    if table.kind != "r" or any(it.listed is not None for it in table.parts.values()):
        return False
    named = ", ".join(map(literal, columns))
    rows = connection.rows(
        "SELECT a.attname, a.xmin::pg_catalog.text, a.atthasmissing FROM pg_catalog.pg_attribute a"
        f" WHERE a.attrelid = {table.oid} AND a.attname IN ({named})",
        QUICK,
    )
    if any(missing != "f" for _, _, missing in rows):
        return False
    filled = (
        f"r.{identifier(name or '')} IS NOT NULL AND ({up_to([since or ''])})"
        for name, since, _ in rows
    )
    with asking(connection):
        until = time.monotonic() + ALL
        return all(has(connection, table.oid, it, until) is False for it in filled)


def since_of(connection: Connection, before: Catalog) -> str:
    """The first transaction that an earlier reading may not have seen, as the server knows it; ""
    where that isn't known, or is too long ago."""
    query = "SELECT pg_catalog.txid_snapshot_xmax(pg_catalog.txid_current_snapshot())"
    now = connection.text(query)
    is_known = before.running and int(now) - before.running < OLDEST
    return str(before.running % (1 << 32)) if is_known else ""


def has_its_values(connection: Connection, oid: int, since: str, until: float) -> bool:
    """Whether it is certain that no row of a table was computed anew since an earlier reading. (The
    entry of the table in the catalog is at least as late as its file.)"""
    if has_older(connection, oid, since, until):
        return True
    written = connection.value(
        f"SELECT c.xmin::pg_catalog.text FROM pg_catalog.pg_class c WHERE c.oid = {oid}"
    )
    return written is not None and has(connection, oid, up_to([written]), until) is False


def has_older(connection: Connection, oid: int, since: str, until: float) -> bool:
    """Whether a row of a table is surely older than a reading. (Ages are of one query's moment.)"""
    age = f"pg_catalog.age({literal(since)}::pg_catalog.xid)"
    condition = f"pg_catalog.age(r.xmin) < 0 OR pg_catalog.age(r.xmin) > {age}"
    return since != "" and has(connection, oid, condition, until) is True


@understood("rows")
def has(connection: Connection, oid: int, condition: str, until: float) -> bool | None:
    """Whether a table has a row for which a condition holds; None where that can't be said."""
    query = (
        "SELECT n.nspname, c.relname FROM pg_catalog.pg_class c"
        f" JOIN pg_catalog.pg_namespace n ON n.oid = c.relnamespace WHERE c.oid = {oid}"
    )
    names = connection.rows(query) if time.monotonic() < until else []
    if not names:
        return None
    name = ".".join(identifier(it or "") for it in names[0])
    query = f"SELECT EXISTS (SELECT FROM ONLY {name} r WHERE {condition})"
    try:
        return connection.value(query) == "t"
    except ServerError as error:
        if not error.sqlstate:
            raise
        return None


def up_to(transactions: list[str]) -> str:
    """That a row isn't later than all of some transactions. (One before the last two billions has a
    negative age, or the greatest.)"""
    ages = ", ".join(f"pg_catalog.age({literal(it)}::pg_catalog.xid)" for it in transactions)
    return f"pg_catalog.age(r.xmin) < 0 OR pg_catalog.age(r.xmin) >= LEAST({ages})"


# Types whose values are OIDs, printed as the names that these have at the moment: regproc,
# regprocedure, regoper, regoperator, regclass, regtype, regconfig, regdictionary, regnamespace,
# regrole, regcollation.
NAMES = (24, 2202, 2203, 2204, 2205, 2206, 3734, 3769, 4089, 4096, 4191)


def warnings(connection: Connection, now: Catalog, made: dict[str, int]) -> Iterator[str]:
    """All of it. `made`: the publications that were made for this store, as it wants them."""
    for name, publication in now.publications.items():
        missing = [f"{word}s" for word in ACTIONS if word not in publication.actions]
        if missing and name not in made:
            words = " and no ".join(missing)
            yield f"publication {name} has no {words}: these changes are missing in the copy"
    if unlogged := unlogged_names(now):
        told = "unlogged or foreign, so no change of them is sent, and their rows aren't copied"
        yield f"{told}: {names_of(unlogged)}"
    if columns := naming_columns(connection, now):
        told = "names of other objects, which stay as they are in the copy where one is renamed"
        yield f"{told}: {names_of(columns)}"


def unlogged_names(now: Catalog) -> list[str]:
    """The tables and partitions whose changes are in no log, though they are published."""
    tables = [it.text() for it in now.tables.values() if not it.logged]
    others = ((oid, it) for oid, it in now.partitions.items() if oid not in now.tables)
    partitions = [it.name for oid, it in others if not it.logged and root_of(oid, now)]
    return sorted({*tables, *partitions})


@understood("types")
def naming_columns(connection: Connection, now: Catalog) -> list[str]:
    """The published columns with such types, in arrays, domains, ranges and composites too."""
    columns = [(table, column) for table in now.tables.values() for column in table.columns]
    used = sorted({column.type_oid for _, column in columns})
    query = (
        "WITH RECURSIVE t (used, oid) AS ("
        f" SELECT y.oid, y.oid FROM pg_catalog.pg_type y WHERE y.oid IN ({listed_oids(used)})"
        f" UNION SELECT t.used, u.oid FROM t JOIN pg_catalog.pg_type y ON y.oid = t.oid, LATERAL ({PARTS}) u"
        " WHERE u.oid <> 0)"
        f" SELECT DISTINCT t.used FROM t WHERE t.oid IN ({listed_oids(list(NAMES))})"
    )
    naming = {number(row[0]) for row in connection.rows(query, QUICK)} if used else set[int]()
    return sorted(f"{table.text()}.{it.name}" for table, it in columns if it.type_oid in naming)
