"""Names of tables and columns in SQLite, which can't tell all of the publisher's apart.

An export and a file that follows a feed name a table by one rule: its own name in `public`, else
with the schema; `_` before it where SQLite or such a file keeps the name for itself; and the OID
behind it where another table has the name, as SQLite compares it. In an export the one with the
smaller OID has it, and in a file that follows the one that was told first.
"""

from collections.abc import Collection, Iterable

from ..texts import identifier

# Tables of an export itself.
POSITION, TABLES = "pgsub_position", "pgsub_tables"
# What a table is called while it is made anew.
OLD = "pgsub_old"
# What SQLite and these files keep for themselves.
RESERVED = ("sqlite_", "pgsub_")


def folded(name: str) -> str:
    """A name as SQLite compares it: without the case of ASCII letters."""
    return "".join(chr(ord(it) + 32) if "A" <= it <= "Z" else it for it in name)


def names_of(schema: str, table: str) -> set[str]:
    """The names by which a table may be chosen: each part as it is, or quoted as in SQL."""
    tables = written(table)
    with_schema = {f"{one}.{other}" for one in written(schema or "pg_catalog") for other in tables}
    return with_schema | tables if schema == "public" else with_schema


def written(name: str) -> set[str]:
    return {name, identifier(name)}


def distinct_name(oid: int, schema: str, table: str, taken: Collection[str]) -> str:
    """The name of a table where these are taken, as SQLite compares them: its own in `public`, else
    with the schema, and with something before it where it is kept for others."""
    name = table if schema == "public" else f"{schema or 'pg_catalog'}.{table}"
    name = f"_{name}" if folded(name).startswith(RESERVED) else name
    return unused(name, f"{name} {oid}", taken)


def name_tables(tables: Iterable[tuple[int, str, str]]) -> dict[int, str]:
    """By OID the name of each table, given with schema and name."""
    taken, names = set[str](), dict[int, str]()
    for oid, schema, table in sorted(tables):
        names[oid] = distinct_name(oid, schema, table, taken)
        taken.add(folded(names[oid]))
    return names


def unused(name: str, second: str, taken: Collection[str]) -> str:
    """The first of these names that isn't taken."""
    found = second if folded(name) in taken else name
    while folded(found) in taken:
        found += "_"
    return found


def name_columns(columns: Iterable[str], second: Collection[int] = ()) -> list[list[str]]:
    """The names that a table's columns get, with a number where SQLite has the name already; those
    of the numbers in `second` get another one too, `NAME_text`, which no other column has."""
    names, taken = list[list[str]](), set[str]()
    for number, column in enumerate(columns, 1):
        names.append([unused(column, f"{column} {number}", taken)])
        taken.add(folded(names[-1][0]))
    for at in sorted(second):
        name = f"{names[at][0]}_text"
        names[at].append(unused(name, f"{name} {at + 1}", taken))
        taken.add(folded(names[at][1]))
    return names
