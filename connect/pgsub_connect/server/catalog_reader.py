"""Reads a server's catalog of the publications that are followed, with a number of queries that
doesn't depend on that of the tables."""

import dataclasses
from collections.abc import Iterator

from pgsub_feed.known_tables import Index
from pgsub_feed.relation import Column, Shape
from pgsub_feed.texts import literal, parse_lsn

from ..errors import WrongAnswer, understood
from .catalog import ACTIONS, Catalog, Part, Partition, Publication, Table, types_having
from .column_types import read_column_types
from .connection import QUICK, Connection, Row

# From which versions on the server tells exactly what columns are sent, and has lists and filters.
EXACT, FINE = 180000, 150000
# Whether an index of a table finds one row, so that it can be a replica identity.
UNIQUE = "i.indisunique AND i.indisvalid AND i.indimmediate AND i.indpred IS NULL"
INFINITE = float("inf")


@understood("what is published")
def read_catalog(connection: Connection, names: list[str]) -> Catalog:
    """Reads it, with a number of queries that doesn't depend on that of the tables."""
    connection.run("SET jit = off", limit=QUICK)
    running = connection.text(
        "SELECT pg_catalog.txid_snapshot_xmin(pg_catalog.txid_current_snapshot())"
    )
    publications = read_publications(connection, names)
    tables = read_tables(connection, list(publications))
    partitions = read_partitions(connection, list(publications))
    note_since(tables, read_members(connection, list(publications)), partitions)
    types = read_types(connection, list(tables))
    highest = int(connection.text("SELECT max(oid) FROM pg_catalog.pg_class"))
    end = connection.text(
        "SELECT CASE WHEN pg_catalog.pg_is_in_recovery() THEN pg_catalog.pg_last_wal_replay_lsn()"
        " ELSE pg_catalog.pg_current_wal_insert_lsn() END"
    )
    return Catalog(
        tuple(names), parse_lsn(end), highest, publications, tables, partitions, types, int(running)
    )


def listed_names(names: list[str]) -> str:
    return ", ".join(literal(name) for name in names) or "NULL"


def listed_oids(oids: list[int]) -> str:
    return ", ".join(str(oid) for oid in oids) or "NULL"


def number(text: str | None) -> int:
    return int(text or 0)


def read_publications(connection: Connection, names: list[str]) -> dict[str, Publication]:
    version = connection.version()
    via_root = "p.pubviaroot" if version >= 130000 else "false"
    generated = "p.pubgencols = 's'" if version >= 180000 else "false"
    rows = connection.rows(
        f"SELECT p.pubname, p.oid, p.puballtables, p.pubinsert, p.pubupdate, p.pubdelete, p.pubtruncate, {via_root}, {generated},"
        " p.pubowner, p.xmin::pg_catalog.text"
        f" FROM pg_catalog.pg_publication p WHERE p.pubname IN ({listed_names(names)}) ORDER BY 1",
        QUICK,
    )
    found = {}
    for name, oid, whole, *more in rows:
        actions = tuple(word for word, it in zip(ACTIONS, more) if it == "t")
        rest = more[4] == "t", more[5] == "t", number(more[6]), more[7] or ""
        found[name or ""] = Publication(number(oid), whole == "t", actions, *rest)
    return found


def is_whole(connection: Connection, relation: str) -> str:
    """Whether a publication `p` has a relation because it has all, or all of a schema."""
    if connection.version() < 150000:
        return "p.puballtables"
    schemas = f"pg_catalog.pg_publication_namespace s WHERE s.pnpubid = p.oid AND s.pnnspid = {relation}.relnamespace"
    return f"(p.puballtables OR EXISTS (SELECT FROM {schemas}))"


# Whether nothing has changed the row type `y` of a relation since it was made: a column of the same
# transaction and command is still there. A renamed or moved table, and one that was attached as a
# partition, has no such column.
UNTOUCHED = (
    "EXISTS (SELECT FROM pg_catalog.pg_attribute b WHERE b.attrelid = y.typrelid AND b.attnum > 0"
    " AND b.xmin = y.xmin AND b.cmin = y.cmin)"
)
# Whether nothing has written a relation `c` anew, as TRUNCATE, SET LOGGED and others do.
UNWRITTEN = "COALESCE(pg_catalog.pg_relation_filenode(c.oid) = c.oid, true)"
# The transactions that made or altered columns of `c`: not VACUUM FULL, CLUSTER or TRUNCATE.
ALTERED = (
    "(SELECT pg_catalog.string_agg(DISTINCT b.xmin::pg_catalog.text, ' ') FROM pg_catalog.pg_attribute b"
    " WHERE b.attrelid = c.oid AND b.attnum > 0 AND NOT b.attisdropped)"
)

# Whether changes of a relation `c` are in the log: not of a foreign or unlogged table.
LOGGED = "c.relpersistence = 'p' AND c.relkind <> 'f'"


def read_tables(connection: Connection, names: list[str]) -> dict[int, Table]:
    """The published tables, each with its part of each publication that has it."""
    tables: dict[int, Table] = {}
    for table in read_parts(connection, names, QUICK):
        tables.setdefault(table.oid, table).parts.update(table.parts)
    keys, indexes = read_keys(connection, list(tables)), read_indexes(connection, list(tables))
    types = read_column_types(connection, list(tables))
    for oid, it in tables.items():
        typed = ((column, types.get((oid, column.number))) for column in it.columns)
        found = tuple((column, kind) for column, kind in typed if kind)
        more = {"primary": tuple(keys.get(oid, ())), "indexes": tuple(indexes.get(oid, ()))}
        tables[oid] = dataclasses.replace(it, types=found, **more)
    return tables


def read_parts(connection: Connection, names: list[str], limit: float = INFINITE) -> list[Table]:
    """The tables of each publication, by OID. Row filters and column lists are of 15 and later."""
    fine = connection.version() >= FINE
    row_filter = "pg_catalog.pg_get_expr(g.qual, g.relid)" if fine else "NULL"
    listed = "pg_catalog.array_to_string(r.prattrs::pg_catalog.int2[], ',')" if fine else "NULL"
    sent = "pg_catalog.array_to_string(g.attrs::pg_catalog.int2[], ',')" if fine else "NULL"
    rows = connection.many_rows(
        f"SELECT p.pubname, c.oid, n.nspname, c.relname, c.relkind, c.relreplident, {row_filter}, {listed}, {sent},"
        f" {is_whole(connection, 'c')}, {UNTOUCHED}, {UNWRITTEN}, pg_catalog.pg_relation_filenode(c.oid), {ALTERED},"
        f" {LOGGED}, c.reltoastrelid FROM pg_catalog.pg_publication p"
        " CROSS JOIN LATERAL pg_catalog.pg_get_publication_tables(p.pubname::pg_catalog.text) g"
        " JOIN pg_catalog.pg_class c ON c.oid = g.relid JOIN pg_catalog.pg_namespace n ON n.oid = c.relnamespace"
        " LEFT JOIN pg_catalog.pg_type y ON y.oid = c.reltype"
        " LEFT JOIN pg_catalog.pg_publication_rel r ON r.prpubid = p.oid AND r.prrelid = c.oid"
        f" WHERE p.pubname IN ({listed_names(names)}) ORDER BY c.oid, p.pubname",
        limit,
    )
    columns = read_columns(connection, sorted({number(row[1]) for row in rows}))
    return [table_in(row, columns, connection.version()) for row in rows]


def table_in(row: Row, columns: dict[int, list[tuple[Column, bool]]], version: int) -> Table:
    """A table by its row for one publication, and the columns of all."""
    publication, relid, namespace, name, kind, identity, where, own, attributes, whole, *more = row
    untouched, unwritten, node, altered, logged, toast = more
    oid = number(relid)
    shape = Shape(identity or "", sent_columns(version, columns.get(oid, []), numbers(attributes)))
    parts = {publication or "": Part(where, numbers(own), whole == "t")}
    states = untouched == "t", unwritten == "t", number(node), altered or "", logged == "t"
    table = Table(oid, namespace or "", name or "", kind or "", shape, parts, *states)
    return dataclasses.replace(table, toast=number(toast))


def numbers(text: str | None) -> tuple[int, ...] | None:
    return tuple(sorted(int(it) for it in text.split(","))) if text else None


def sent_columns(
    version: int, columns: list[tuple[Column, bool]], listed: tuple[int, ...] | None
) -> tuple[Column, ...]:
    """The columns that are sent; from PostgreSQL 18 on generated ones, too, that are listed."""
    generated = version >= EXACT and listed is not None
    return tuple(
        it
        for it, computed in columns
        if (listed is None or it.number in listed) and (generated or not computed)
    )


def read_columns(connection: Connection, oids: list[int]) -> dict[int, list[tuple[Column, bool]]]:
    """All columns of tables, and whether each is generated. A key column is one of the replica
    identity's index, or any one under REPLICA IDENTITY FULL."""
    generated = "a.attgenerated <> ''" if connection.version() >= 120000 else "false"
    rows = connection.many_rows(
        f"SELECT a.attrelid, a.attname, a.atttypid, a.atttypmod, a.attnum, {generated},"
        " c.relreplident = 'f' OR EXISTS (SELECT FROM pg_catalog.pg_index i"
        f"  WHERE i.indrelid = a.attrelid AND {UNIQUE}"
        "  AND CASE c.relreplident WHEN 'd' THEN i.indisprimary WHEN 'i' THEN i.indisreplident ELSE false END"
        "   AND a.attnum = ANY ((i.indkey::pg_catalog.int2[])[0:i.indnkeyatts - 1]))"
        " FROM pg_catalog.pg_attribute a JOIN pg_catalog.pg_class c ON c.oid = a.attrelid"
        f" WHERE a.attrelid IN ({listed_oids(oids)}) AND a.attnum > 0 AND NOT a.attisdropped ORDER BY a.attrelid, a.attnum",
        QUICK,
    )
    columns: dict[int, list[tuple[Column, bool]]] = {}
    for oid, name, type_oid, modifier, place, computed, key in rows:
        column = Column(name or "", number(type_oid), number(modifier), key == "t", number(place))
        columns.setdefault(number(oid), []).append((column, computed == "t"))
    return columns


def read_keys(connection: Connection, oids: list[int]) -> dict[int, list[str]]:
    """The columns of tables' primary keys, in the key's order; none of a deferrable one, which may
    have equal values within a transaction."""
    rows = connection.many_rows(
        "SELECT i.indrelid, a.attname FROM pg_catalog.pg_index i"
        " CROSS JOIN LATERAL pg_catalog.unnest((i.indkey::pg_catalog.int2[])[0:i.indnkeyatts - 1])"
        " WITH ORDINALITY k (attnum, place)"
        " JOIN pg_catalog.pg_attribute a ON a.attrelid = i.indrelid AND a.attnum = k.attnum"
        f" WHERE i.indrelid IN ({listed_oids(oids)})"
        " AND i.indisprimary AND i.indisvalid AND i.indimmediate ORDER BY i.indrelid, k.place",
        QUICK,
    )
    keys: dict[int, list[str]] = {}
    for oid, name in rows:
        keys.setdefault(number(oid), []).append(name or "")
    return keys


# Why an index `i` of an access method `m` is none of plain columns alone, "" where it is.
UNLIKE = (
    "CASE WHEN NOT i.indisvalid THEN 'it isn''t valid' WHEN m.amname <> 'btree' THEN 'it is of ' || m.amname"
    " WHEN i.indpred IS NOT NULL THEN 'it is partial' WHEN i.indexprs IS NOT NULL THEN 'it has an expression' ELSE '' END"
)


def read_indexes(connection: Connection, oids: list[int]) -> dict[int, list[Index]]:
    """All indexes of tables, with the columns that they include."""
    rows = connection.many_rows(
        f"SELECT i.indrelid, i.indexrelid, c.relname, {UNLIKE}, a.attname,"
        " COALESCE((i.indoption::pg_catalog.int2[])[k.place - 1] & 1, 0) = 1 FROM pg_catalog.pg_index i"
        " JOIN pg_catalog.pg_class c ON c.oid = i.indexrelid JOIN pg_catalog.pg_am m ON m.oid = c.relam"
        " CROSS JOIN LATERAL pg_catalog.unnest(i.indkey::pg_catalog.int2[]) WITH ORDINALITY k (attnum, place)"
        " LEFT JOIN pg_catalog.pg_attribute a ON a.attrelid = i.indrelid AND a.attnum = k.attnum"
        f" WHERE i.indrelid IN ({listed_oids(oids)}) ORDER BY i.indrelid, i.indexrelid, k.place",
        QUICK,
    )
    found: dict[tuple[int, int], Index] = {}
    for oid, relation, name, why, column, descends in rows:
        key = number(oid), number(relation)
        it = found.setdefault(key, Index(key[1], name or "", (), why or ""))
        part = ((column or "", descends == "t"),)
        found[key] = it if it.why else it._replace(columns=it.columns + part)
    indexes: dict[int, list[Index]] = {}
    for (table, _), it in found.items():
        indexes.setdefault(table, []).append(it)
    return indexes


def read_partitions(connection: Connection, names: list[str]) -> dict[int, Partition]:
    """The partitioned tables of the publications and all that is below them, whichever name it is
    published under.

    (pg_partition_tree would wait for locks.)
    """
    rows = connection.many_rows(
        "WITH RECURSIVE t (oid, parent) AS ("
        " SELECT root.oid, i.inhparent FROM pg_catalog.pg_publication p JOIN pg_catalog.pg_class root ON root.relkind = 'p'"
        f"  AND ({is_whole(connection, 'root')} OR EXISTS (SELECT FROM pg_catalog.pg_publication_rel r"
        "   WHERE r.prpubid = p.oid AND r.prrelid = root.oid))"
        f" LEFT JOIN pg_catalog.pg_inherits i ON i.inhrelid = root.oid WHERE p.pubname IN ({listed_names(names)})"
        " UNION SELECT i.inhrelid, i.inhparent FROM t JOIN pg_catalog.pg_inherits i ON i.inhparent = t.oid)"
        f" SELECT c.oid, t.parent, n.nspname || '.' || c.relname, c.relkind <> 'p', i.xmin = y.xmin AND {UNTOUCHED} AND {UNWRITTEN},"
        f" pg_catalog.pg_relation_filenode(c.oid), i.xmin::pg_catalog.text, {LOGGED}, c.reltoastrelid"
        " FROM t JOIN pg_catalog.pg_class c ON c.oid = t.oid JOIN pg_catalog.pg_namespace n ON n.oid = c.relnamespace"
        " LEFT JOIN pg_catalog.pg_inherits i ON i.inhrelid = t.oid JOIN pg_catalog.pg_type y ON y.oid = c.reltype ORDER BY 1",
        QUICK,
    )
    partitions = {}
    for oid, parent, name, leaf, made, node, since, logged, toast in rows:
        key, more = number(oid), (made == "t", number(node), since or "", logged == "t")
        it = Partition(key, number(parent), name or "", leaf == "t", *more, number(toast))
        partitions[key] = it
    check_tree(partitions)
    return partitions


def check_tree(partitions: dict[int, Partition]) -> None:
    """Rejects partitions in a circle, in which a look for what is above one never ends."""
    checked: set[int] = set()
    for first in partitions:
        oid, way = first, list[int]()
        while oid in partitions and oid not in checked:
            checked.add(oid)
            way.append(oid)
            oid = partitions[oid].parent
        if oid in way:
            raise WrongAnswer(f"the server's partitions are in a circle: {oid} is below itself")


# By publication and the OID of a relation: the OIDs of what says that the publication has it,
# itself or by its schema, that with who put it there.
Members = dict[str, dict[int, list[str]]]
# Which transaction has put a relation `c` into its schema: that it depends on that is written when
# it is made, or moved. (It depends on no other one; if this were said, the server might look for
# each by way of all that the schema has.)
PUT = (
    "pg_catalog.pg_depend d ON d.classid = 'pg_catalog.pg_class'::pg_catalog.regclass AND d.objid = c.oid AND d.objsubid = 0"
    " AND d.refclassid = 'pg_catalog.pg_namespace'::pg_catalog.regclass"
)


def read_members(connection: Connection, names: list[str]) -> Members:
    """The relations that publications list, or whose schemas they do. What left a list or a schema
    and came back has another OID or transaction there."""
    listed = f"p.pubname IN ({listed_names(names)})"
    query = (
        "SELECT p.pubname, r.prrelid, r.oid::pg_catalog.text FROM pg_catalog.pg_publication p JOIN pg_catalog.pg_publication_rel r ON r.prpubid = p.oid"
        f" WHERE {listed}"
    )
    if connection.version() >= 150000:
        query += (
            " UNION ALL SELECT p.pubname, c.oid, s.oid::pg_catalog.text || COALESCE('@' || d.xmin::pg_catalog.text, '')"
            " FROM pg_catalog.pg_publication p JOIN pg_catalog.pg_publication_namespace s ON s.pnpubid = p.oid"
            f" JOIN pg_catalog.pg_class c ON c.relnamespace = s.pnnspid AND c.relkind IN ('r', 'p') LEFT JOIN {PUT} WHERE {listed}"
        )
    members: Members = {}
    for name, relation, entry in connection.many_rows(query, QUICK):
        members.setdefault(name or "", {}).setdefault(number(relation), []).append(entry or "")
    return members


def note_since(
    tables: dict[int, Table], members: Members, partitions: dict[int, Partition]
) -> None:
    """Notes what each table's publications have: itself, or what it was attached to, by whom."""
    for oid, table in tables.items():
        for name, part in table.parts.items():
            table.parts[name] = part._replace(
                since=tuple(sorted(ways_to(oid, members.get(name, {}), partitions)))
            )


def ways_to(
    oid: int, members: dict[int, list[str]], partitions: dict[int, Partition]
) -> Iterator[str]:
    """What says that a publication has a relation, or one above it: `16401`, `16388/741` of one
    that transaction 741 has attached, `16390@742` of one that 742 has put into a schema."""
    way = ""
    while oid:
        yield from (entry + way for entry in members.get(oid, ()))
        partition = partitions.get(oid)
        oid, way = (partition.parent, f"{way}/{partition.since}") if partition else (0, way)


# The types that a type `y` has in it: as an array, a domain, a range or a composite.
PARTS = (
    "SELECT y.typelem AS oid UNION ALL SELECT y.typbasetype"
    " UNION ALL SELECT r.rngsubtype FROM pg_catalog.pg_range r WHERE r.rngtypid = y.oid"
    " UNION ALL SELECT a.atttypid FROM pg_catalog.pg_attribute a"
    " WHERE a.attrelid = y.typrelid AND a.attnum > 0 AND NOT a.attisdropped"
)


def read_types(connection: Connection, oids: list[int]) -> dict[int, dict[str, str]]:
    """What the text of a value depends on beside it: labels of enumerations by their OID, and types
    of composite types' parts by number. Both of all types that columns have in them, in arrays,
    domains, ranges, composites. Of the other types, which types they have in them that lead to such
    a one."""
    rows = connection.many_rows(
        "WITH RECURSIVE t (oid) AS ("
        f" SELECT a.atttypid FROM pg_catalog.pg_attribute a WHERE a.attrelid IN ({listed_oids(oids)}) AND a.attnum > 0"
        f" UNION SELECT u.oid FROM t JOIN pg_catalog.pg_type y ON y.oid = t.oid, LATERAL ({PARTS}) u WHERE u.oid <> 0)"
        " SELECT y.oid, 'name', y.oid::pg_catalog.regtype::pg_catalog.text FROM t JOIN pg_catalog.pg_type y ON y.oid = t.oid"
        "  WHERE y.typtype IN ('c', 'e')"
        " UNION ALL SELECT e.enumtypid, e.oid::pg_catalog.text, e.enumlabel FROM t JOIN pg_catalog.pg_enum e ON e.enumtypid = t.oid"
        " UNION ALL SELECT y.oid, '#' || a.attnum, a.atttypid::pg_catalog.text || ' ' || a.atttypmod FROM t"
        "  JOIN pg_catalog.pg_type y ON y.oid = t.oid"
        "  JOIN pg_catalog.pg_attribute a ON a.attrelid = y.typrelid AND a.attnum > 0 AND NOT a.attisdropped"
        " UNION ALL SELECT y.oid, '@' || u.oid::pg_catalog.text, '' FROM t JOIN pg_catalog.pg_type y ON y.oid = t.oid AND y.typtype <> 'c',"
        f"  LATERAL ({PARTS}) u WHERE u.oid <> 0 ORDER BY 1, 2",
        QUICK,
    )
    types: dict[int, dict[str, str]] = {}
    for oid, part, text in rows:
        types.setdefault(number(oid), {})[part or ""] = text or ""
    named = types_having([oid for oid, it in types.items() if "name" in it], types)
    return {oid: it for oid, it in types.items() if oid in named}
