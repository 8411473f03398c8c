"""What publications list and leave out, and who else may follow them; their tables, as they are
read, and which one a name may mean."""

import dataclasses
import re
from collections.abc import Iterable, Sequence
from typing import NamedTuple

from pgsub_feed import log
from pgsub_feed.options import meant
from pgsub_feed.texts import identifier, literal

from ..errors import ServerError, understood
from .catalog import ACTIONS, Leaves, Part, Table
from .catalog_reader import FINE, listed_oids, read_parts
from .connection import Connection
from .replica_identity import tree_of

DIFFERENT_LISTS = "0A000"
# That of a publication that isn't there, or wasn't when what is read was written.
NO_PUBLICATION = "42704"


@understood("published tables")
def published_tables(connection: Connection, publications: Iterable[str]) -> list[Table]:
    """The tables of all the publications, by OID, with columns and row filters; but for leaves
    whose changes no log has."""
    found: dict[int, list[Table]] = {}
    for table in read_parts(connection, list(publications)):
        if table.logged:
            found.setdefault(table.oid, []).append(table)
    below = below_roots(connection, found)
    tables = [united(found[oid]) for oid in sorted(found) if oid not in below]
    leaves = leaves_of(connection, [it.oid for it in tables if it.kind == "p"])
    return [dataclasses.replace(it, leaves=leaves.get(it.oid)) for it in tables]


@understood("partitions")
def leaves_of(connection: Connection, roots: list[int]) -> dict[int, Leaves]:
    """The leaves of partitioned tables, where some of these are unlogged or foreign.
    (pg_partition_tree would wait for locks.)"""
    if not roots:
        return {}
    rows = connection.rows(
        "WITH RECURSIVE t (root, oid) AS ("
        f" SELECT c.oid, c.oid FROM pg_catalog.pg_class c WHERE c.oid IN ({listed_oids(roots)})"
        " UNION SELECT t.root, i.inhrelid FROM t JOIN pg_catalog.pg_inherits i ON i.inhparent = t.oid)"
        " SELECT t.root, c.oid, n.nspname, c.relname, c.relkind, c.relpersistence FROM t JOIN pg_catalog.pg_class c ON c.oid = t.oid"
        " JOIN pg_catalog.pg_namespace n ON n.oid = c.relnamespace WHERE c.relkind <> 'p' ORDER BY 1, 2"
    )
    found: dict[int, Leaves] = {}
    for root, oid, namespace, name, kind, persistence in rows:
        leaves = found.setdefault(int(root or 0), Leaves([], [], []))
        if kind == "f":
            leaves.foreign.append(int(oid or 0))
        elif persistence != "p":
            leaves.unlogged.append(int(oid or 0))
        else:
            leaves.logged.append(f"{identifier(namespace or '')}.{identifier(name or '')}")
    return {root: it for root, it in found.items() if it.unlogged or it.foreign}


@understood("partitions")
def below_roots(connection: Connection, oids: Iterable[int]) -> set[int]:
    """Those that are sent as a partitioned table above them that another publication has, with
    publish_via_partition_root."""
    known = set(oids)
    if not known or connection.version() < 130000:
        return set()
    rows = connection.rows(
        "SELECT c.oid, a.relid::pg_catalog.oid FROM pg_catalog.pg_class c, LATERAL pg_catalog.pg_partition_ancestors(c.oid) a"
        f" WHERE c.oid IN ({listed_oids(sorted(known))}) AND c.relispartition AND a.relid::pg_catalog.oid <> c.oid"
    )
    return {int(oid or 0) for oid, above in rows if int(above or 0) in known}


def with_cure(error: ServerError, publications: Sequence[str]) -> ServerError:
    """The error with which the server ended a session, with what to do where it may be that of
    different column lists, or of a publication that is gone: it reads its log by the catalog of
    that time, so it says so again once they are equal, or it was made anew."""
    if error.sqlstate == NO_PUBLICATION and "publication" in str(error):
        cure = "`pgsub-connect drop`, then a start with --create, copies anew"
        return ServerError(
            f"{error}\nThe server reads its log by the publications of that time, so to make it again is too late: {cure}",
            NO_PUBLICATION,
        )
    if error.sqlstate != DIFFERENT_LISTS or len(publications) < 2:
        return error
    return ServerError(
        f"{error}\nWhere publications had different column lists of a table, if for a moment: give them the same, follow by one alone with"
        f" `--publication {publications[0]} --until now`, then by all again, and `pgsub-connect refresh` copies anew what the others have",
        DIFFERENT_LISTS,
    )


def united(tables: list[Table]) -> Table:
    """A table that several publications have, as far as it says which rows are published: there may
    be one list of columns alone. (Compared as columns, a list of all is the same as none.)"""
    first = tables[0]
    if any(table.columns != first.columns for table in tables):
        # (as the server says it once its changes are sent)
        raise ServerError(
            f"cannot use different column lists for table {first.text()} in different publications: give it the same in each",
            DIFFERENT_LISTS,
        )
    filters = {name: it.row_filter for table in tables for name, it in table.parts.items()}
    parts = {name: Part(it, None, False) for name, it in filters.items()}
    return Table(first.oid, first.namespace, first.name, first.kind, first.shape, parts)


def trees(tables: list[Table]) -> str:
    """A part of a query: the OIDs of tables, each with itself and the partitions below it."""
    return (
        "(SELECT c.oid, t.relid FROM pg_catalog.pg_class c,"
        " LATERAL (SELECT c.oid AS relid UNION SELECT i.relid FROM pg_catalog.pg_partition_tree(c.oid) i) t"
        f" WHERE c.oid IN ({listed_oids([it.oid for it in tables])})) t"
    )


@understood("the files of tables")
def stored_in(connection: Connection, tables: list[Table]) -> dict[int, str | None]:
    """Which file each table's rows are in, which TRUNCATE and some ALTER TABLE change."""
    if not tables:
        return {}
    node = "pg_catalog.pg_relation_filenode(t.relid)"
    rows = connection.rows(f"SELECT t.relid, {node} FROM {trees(tables)} ORDER BY 1")
    return {int(relid or 0): node for relid, node in rows}


def are_so_named(connection: Connection, tables: list[Table]) -> bool:
    """Whether the tables and columns have these names now.

    Only the catalog is read. What locks a table may wait behind somebody who waits for our own lock
    on it, by way of another connection, which no deadlock check sees: pg_get_publication_tables and
    pg_get_expr do.
    """
    if not tables:
        return True
    oids = listed_oids([it.oid for it in tables])
    names = connection.rows(
        "SELECT c.oid, n.nspname, c.relname FROM pg_catalog.pg_class c"
        f" JOIN pg_catalog.pg_namespace n ON n.oid = c.relnamespace WHERE c.oid IN ({oids})"
    )
    columns = connection.rows(
        "SELECT a.attrelid, a.attnum, a.attname, a.atttypid, a.atttypmod FROM pg_catalog.pg_attribute a"
        f" WHERE a.attrelid IN ({oids}) AND a.attnum > 0 AND NOT a.attisdropped"
    )
    wanted = {(str(it.oid), it.namespace, it.name) for it in tables}
    wanted_columns = {
        (str(table.oid), str(it.number), it.name, str(it.type_oid), str(it.modifier))
        for table in tables
        for it in table.columns
    }
    there, have = {tuple(row) for row in names}, {tuple(row) for row in columns}
    return wanted <= there and wanted_columns <= have


@understood("the sizes of tables")
def sizes_of(connection: Connection, tables: list[Table]) -> dict[int, int]:
    """How many bytes the files of each table have, with those of its partitions."""
    if not tables:
        return {}
    rows = connection.rows(
        "SELECT t.oid, pg_catalog.sum(pg_catalog.pg_table_size(t.relid))::pg_catalog.int8"
        f" FROM {trees(tables)} GROUP BY t.oid"
    )
    return {int(oid or 0): int(size or 0) for oid, size in rows}


@understood("the sizes of tables")
def estimated_rows(connection: Connection, tables: list[Table]) -> int | None:
    """How many rows the tables have by the server's statistics; None where it has none of them."""
    if not tables:
        return 0
    text = connection.value(
        f"SELECT pg_catalog.sum(l.reltuples)::pg_catalog.int8 FROM {trees(tables)}"
        " JOIN pg_catalog.pg_class l ON l.oid = t.relid WHERE l.relkind = 'r' AND l.reltuples >= 0"
    )
    return int(text) if text is not None else None


# A table's name in what CREATE PUBLICATION takes for one.
NAME = re.compile(
    r'\s*(?:ONLY\s+)?((?:"(?:[^"]|"")+"|[\w$]+)(?:\s*\.\s*(?:"(?:[^"]|"")+"|[\w$]+))?)', re.I
)


def meant_table(connection: Connection, text: str) -> str:
    """The table that may be meant, as a question; "" where none is like it."""
    found = NAME.match(text)
    name = found[1].replace('"', "") if found else text
    rows = connection.rows(
        "SELECT n.nspname, c.relname FROM pg_catalog.pg_class c JOIN pg_catalog.pg_namespace n ON n.oid = c.relnamespace"
        " WHERE c.relkind IN ('r', 'p') AND c.oid >= 16384 ORDER BY 1, 2"
    )
    tables = [(schema or "", table or "") for schema, table in rows]
    for schema, table in tables:
        if table == name:
            return f": did you mean {schema}.{table}?"
    short = (table if schema == "public" else f"{schema}.{table}" for schema, table in tables)
    return meant(name, short)


class Listed(NamedTuple):
    """A table that a publication lists: named for readers, for SQL, and with all of its listing."""

    text: str
    name: str
    whole: str


def has_publication(connection: Connection, name: str) -> bool:
    query = f"SELECT FROM pg_catalog.pg_publication WHERE pubname = {literal(name)}"
    return bool(connection.rows(query))


@understood("a publication")
def listed_above(connection: Connection, name: str, oids: list[int]) -> list[Listed]:
    """What a publication lists of these tables, or above them."""
    fine = connection.version() >= FINE
    columns = (
        "(SELECT pg_catalog.string_agg(pg_catalog.quote_ident(a.attname), ', ' ORDER BY a.attnum) FROM pg_catalog.pg_attribute a"
        "  WHERE a.attrelid = r.prrelid AND a.attnum = ANY (r.prattrs::pg_catalog.int2[]))"
    )
    more = f"{columns}, pg_catalog.pg_get_expr(r.prqual, r.prrelid)" if fine else "NULL, NULL"
    listed = f"SELECT r.prrelid AS relid FROM pg_catalog.pg_publication_rel r WHERE r.prpubid = {oid_of(connection, name)}"
    rows = connection.rows(
        f"SELECT DISTINCT r.prrelid, n.nspname, c.relname, {more} FROM pg_catalog.pg_publication_rel r"
        f" JOIN {tree_of(connection, listed)} t ON t.relid = r.prrelid"
        " JOIN pg_catalog.pg_class c ON c.oid = r.prrelid JOIN pg_catalog.pg_namespace n ON n.oid = c.relnamespace"
        f" WHERE r.prpubid = {oid_of(connection, name)} AND t.part IN ({listed_oids(oids)}) ORDER BY 2, 3"
    )
    found = []
    for _, namespace, table, listing, row_filter in rows:
        sql = f"{identifier(namespace or '')}.{identifier(table or '')}"
        more = f" ({listing})" if listing else ""
        more += f" WHERE ({row_filter})" if row_filter else ""
        found.append(Listed(f"{namespace}.{table}", sql, sql + more))
    return found


@understood("a publication")
def kinds_left_out(connection: Connection, name: str) -> list[str]:
    """The kinds of changes that a publication doesn't have."""
    kinds = ACTIONS if connection.version() >= 110000 else ACTIONS[:3]
    columns = ", ".join(f"p.pub{kind}" for kind in kinds)
    rows = connection.rows(
        f"SELECT {columns} FROM pg_catalog.pg_publication p WHERE p.pubname = {literal(name)}"
    )
    return [kind for kind, has in zip(kinds, rows[0], strict=True) if has != "t"] if rows else []


@understood("a publication")
def oid_of(connection: Connection, name: str) -> int:
    query = f"SELECT p.oid FROM pg_catalog.pg_publication p WHERE p.pubname = {literal(name)}"
    return int(connection.value(query) or 0)


@understood("a publication")
def content_of(connection: Connection, name: str) -> set[str]:
    """What a publication lists, each as a text that says it to a reader."""
    fine = connection.version() >= FINE
    more = (
        "coalesce(' (' || pg_catalog.array_to_string(r.prattrs::pg_catalog.int2[], ' ') || ')', '')"
        " || coalesce(' WHERE ' || pg_catalog.pg_get_expr(r.prqual, r.prrelid), '')"
        if fine
        else "''"
    )
    oid = oid_of(connection, name)
    query = (
        f"SELECT n.nspname || '.' || c.relname || {more} FROM pg_catalog.pg_publication_rel r"
        " JOIN pg_catalog.pg_class c ON c.oid = r.prrelid JOIN pg_catalog.pg_namespace n ON n.oid = c.relnamespace"
        f" WHERE r.prpubid = {oid} UNION SELECT 'all tables' FROM pg_catalog.pg_publication p WHERE p.oid = {oid} AND p.puballtables"
    )
    if fine:
        query += (
            " UNION SELECT 'tables in schema ' || n.nspname FROM pg_catalog.pg_publication_namespace s"
            f" JOIN pg_catalog.pg_namespace n ON n.oid = s.pnnspid WHERE s.pnpubid = {oid}"
        )
    return {row[0] or "" for row in connection.rows(query)}


@understood("slots")
def other_slots(connection: Connection, slot: str) -> list[str]:
    """Other slots of this database by which a publication may be followed."""
    rows = connection.rows(
        "SELECT s.slot_name FROM pg_catalog.pg_replication_slots s WHERE s.plugin = 'pgoutput'"
        f" AND s.database = pg_catalog.current_database() AND s.slot_name <> {literal(slot)} ORDER BY 1"
    )
    return [row[0] or "" for row in rows]


def drop_publications(connection: Connection, made: dict[str, int]) -> None:
    """Drops publications that still are those that were made."""
    for name, oid in made.items():
        if oid_of(connection, name) == oid:
            drop_publication(connection, name)


def drop_publication(connection: Connection, name: str) -> None:
    drop = f"DROP PUBLICATION {identifier(name)}"
    connection.run(f"BEGIN READ WRITE; SET LOCAL synchronous_commit = local; {drop}; COMMIT")
    log.info(f"dropped the publication {name}")
