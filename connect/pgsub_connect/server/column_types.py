"""Reads what the catalog says of the types of columns: their names, the labels of enumerations,
what domains are of, and which columns are never null."""

from collections.abc import Iterable

from pgsub_feed.relation import BaseType, ColumnType

from .connection import QUICK, Connection, Row

# From which version on a NOT NULL may be one that isn't valid, as the table may have nulls still.
UNVALIDATED = 180000
# By the OID of a table and the number of a column.
ColumnTypes = dict[tuple[int, int], ColumnType]
# Of each domain its type that is none, and the modifier, which the innermost one alone has.
DOMAINS = (
    "WITH RECURSIVE d (oid, base, modifier) AS ("
    " SELECT y.oid, y.typbasetype, y.typtypmod FROM pg_catalog.pg_type y WHERE y.typtype = 'd'"
    " UNION ALL SELECT d.oid, y.typbasetype, y.typtypmod FROM d"
    "  JOIN pg_catalog.pg_type y ON y.oid = d.base AND y.typtype = 'd')"
)


def element(it: str) -> str:
    """The OID of the elements of a type, where it is an array, else its own."""
    return f"CASE WHEN {it}.typelem <> 0 AND {it}.typlen = -1 THEN {it}.typelem ELSE {it}.oid END"


def name_of(it: str, namespace: str, modifier: str) -> str:
    """The name of a type for SQL: `format_type` leaves out the schema where `search_path` has it."""
    return (
        f"CASE WHEN {namespace}.nspname <> 'pg_catalog' AND pg_catalog.pg_type_is_visible({element(it)})"
        f" THEN pg_catalog.quote_ident({namespace}.nspname) || '.' ELSE '' END"
        f" || pg_catalog.format_type({it}.oid, {modifier})"
    )


def read_column_types(connection: Connection, oids: Iterable[int]) -> ColumnTypes:
    """Those of all columns of tables, by two queries."""
    listed = ", ".join(map(str, oids)) or "NULL"
    not_null = "a.attnotnull"
    if connection.version() >= UNVALIDATED:
        not_null += (
            " AND NOT EXISTS (SELECT FROM pg_catalog.pg_constraint k WHERE k.conrelid = a.attrelid"
            " AND k.contype = 'n' AND NOT k.convalidated AND a.attnum = ANY (k.conkey))"
        )
    rows = connection.many_rows(
        f"{DOMAINS} SELECT a.attrelid, a.attnum, {name_of('y', 'n', 'a.atttypmod')},"
        f" {not_null} OR y.typnotnull, e.oid, {name_of('b', 'm', 'd.modifier')}, b.oid, d.modifier"
        " FROM pg_catalog.pg_attribute a JOIN pg_catalog.pg_type y ON y.oid = a.atttypid"
        " JOIN pg_catalog.pg_namespace n ON n.oid = y.typnamespace"
        " LEFT JOIN (d JOIN pg_catalog.pg_type b ON b.oid = d.base AND b.typtype <> 'd'"
        "  JOIN pg_catalog.pg_namespace m ON m.oid = b.typnamespace) ON d.oid = y.oid"
        " LEFT JOIN pg_catalog.pg_type f ON f.oid = COALESCE(b.oid, y.oid)"
        f" LEFT JOIN pg_catalog.pg_type e ON e.oid = {element('f')} AND e.typtype = 'e'"
        f" WHERE a.attrelid IN ({listed}) AND a.attnum > 0 AND NOT a.attisdropped",
        QUICK,
    )
    labels = read_labels(connection, {int(row[4]) for row in rows if row[4]})
    return {(int(row[0] or 0), int(row[1] or 0)): type_of(row, labels) for row in rows}


def read_labels(connection: Connection, oids: set[int]) -> dict[int, list[str]]:
    """The labels of enumerations, in their order."""
    rows = connection.many_rows(
        "SELECT e.enumtypid, e.enumlabel FROM pg_catalog.pg_enum e"
        f" WHERE e.enumtypid IN ({', '.join(map(str, sorted(oids))) or 'NULL'})"
        " ORDER BY e.enumtypid, e.enumsortorder",
        QUICK,
    )
    labels = dict[int, list[str]]()
    for oid, label in rows:
        labels.setdefault(int(oid or 0), []).append(label or "")
    return labels


def type_of(row: Row, labels: dict[int, list[str]]) -> ColumnType:
    _, _, name, not_null, enum, base_name, base, modifier = row
    found = tuple(labels.get(int(enum), ())) if enum else ()
    domain = BaseType(base_name or "", int(base), int(modifier or -1)) if base else None
    return ColumnType(name or "", not_null == "t", found, domain)
