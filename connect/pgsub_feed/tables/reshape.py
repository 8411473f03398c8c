"""A table's rows in another shape: each column has the values of the one that had its name, and a
new one null.

The server says how it altered a table, and not what it made of the rows. Where a column's type in
SQLite is another one, each value is printed as the server prints those of the old type, and read as
one of the new.
"""

import contextlib
import sqlite3
from collections.abc import Iterable, Iterator

from .. import log
from ..reader.commits import Cell
from ..relation import Column
from ..texts import identifier
from .floats import printed_float, stored_numeric
from .names import OLD
from .set_aside import Unkept
from .table import Kept, Valued, rows_index
from .target import key_index
from .values import BOOL, FLOAT4, Value, scale_of

# What is told of a table whose key is none of SQLite's.
LOOSE = "rows have null in the key, or equal keys: the table has an index in place of a primary key"


def printed(column: Column, value: Value) -> Cell:
    """A value of SQLite as the server prints it."""
    if value is None or isinstance(value, str):
        return value
    if isinstance(value, bytes):
        return "\\x" + value.hex()
    if isinstance(value, float):
        scale = scale_of(column)
        is_short = column.type_oid == FLOAT4
        return printed_float(value, is_short) if scale is None else stored_numeric(value, scale)
    return ("t" if value else "f") if column.type_oid == BOOL else str(value)


def sources(old: Valued, new: Valued) -> list[int | None]:
    """For each column of a shape the number of the old shape's that has its name."""
    named = dict[str, int]()
    for at, column in enumerate(old.target.relation.shape.columns):
        named.setdefault(column.name, at)
    return [named.get(column.name) for column in new.target.relation.shape.columns]


def reshaped(db: sqlite3.Connection, old: Kept, new: Kept) -> Kept:
    """Makes a table have a new shape, where it is another one. Returns it."""
    was, now, columns = old.target, new.target, range(len(new.target.several))
    is_same = (was.columns, was.places, was.key) == (now.columns, now.places, now.key)
    if is_same and sources(old, new) == list(columns) and is_alike(old, new, columns):
        same = Kept(new.name, new.relation, now.form, new.primary, is_loose=not was.is_keyed)
        same.has_index = old.has_index
        return same
    return carry(db, old, new)


def carry(db: sqlite3.Connection, old: Kept, new: Kept) -> Kept:
    """Makes a table that is there into one of another shape, with its rows. Returns it."""
    if extend(db, old, new):
        return new
    for index in (key_index(old.oid), rows_index(old.oid)):
        db.execute(f"DROP INDEX IF EXISTS {identifier(index)}")
    db.execute(f"ALTER TABLE {identifier(old.name)} RENAME TO {OLD}")
    with contextlib.closing(db.cursor()) as cursor:
        if has_null_keys(db, old, new) or not is_put(cursor, old, new):
            log.warning(f"{new.relation.text()}: {LOOSE}")
            new = loose(new)
            new.make(db)
            put(cursor, old, new)
    db.execute(f"DROP TABLE {OLD}")
    return new


def is_put(cursor: sqlite3.Cursor, old: Kept, new: Kept) -> bool:
    """Makes the new table with the rows of the old one, unless keys are equal; whether so."""
    new.make(cursor.connection)
    try:
        put(cursor, old, new)
        return True
    except sqlite3.IntegrityError:
        cursor.connection.execute(f"DROP TABLE {identifier(new.name)}")
        return False


def loose(kept: Kept) -> Kept:
    return Kept(kept.name, kept.relation, kept.target.form, kept.primary, is_loose=True)


def extend(db: sqlite3.Connection, old: Kept, new: Kept) -> bool:
    """Adds columns to the table where nothing else was altered; whether so."""
    was, now, count = old.target, new.target, len(old.target.several)
    if (was.columns, was.key, was.is_keyed) != (now.columns[: old.width], now.key, now.is_keyed):
        return False
    if sources(old, new)[:count] != list(range(count)) or not is_alike(old, new, range(count)):
        return False
    for column, (kind, _, _) in list(zip(now.columns, now.kinds, strict=True))[old.width :]:
        db.execute(f"ALTER TABLE {identifier(new.name)} ADD COLUMN {column} {kind}")
    new.find_index(db)
    return True


def is_alike(old: Valued, new: Valued, columns: Iterable[int]) -> bool:
    """Whether columns of the new shape have the types in SQLite of those of the old."""
    places = sources(old, new)
    return all(
        (was := places[at]) is None or old.target.types(was) == new.target.types(at)
        for at in columns
    )


def has_null_keys(db: sqlite3.Connection, old: Kept, new: Kept) -> bool:
    """Whether a row has null in the key of the new shape."""
    if not new.target.is_keyed:
        return False
    places = sources(old, new)
    nulls = [
        f"{old.target.named(at)[0]} IS NULL" if (at := places[key]) is not None else "TRUE"
        for key in new.keys
    ]
    query = f"SELECT EXISTS (SELECT 1 FROM {OLD} WHERE {' OR '.join(nulls[:500])})"
    return bool(db.execute(query).fetchone()[0])


def put(cursor: sqlite3.Cursor, old: Kept, new: Kept) -> None:
    """Puts the old table's rows into the new one."""
    places = sources(old, new)
    is_same = is_alike(old, new, range(len(places)))
    chosen = list[str]()
    for at, kinds in zip(places, new.target.several, strict=True):
        if at is None:
            chosen += ["NULL"] * (len(kinds) if is_same else 1)
        else:
            chosen += old.target.named(at) if is_same else old.target.named(at)[-1:]
    query = f"SELECT {', '.join(chosen)} FROM {OLD} ORDER BY {old.row_id()}"
    if is_same:
        cursor.execute(f"INSERT INTO {identifier(new.name)} {query}")
    else:
        cursor.executemany(new.target.insertion(), converted(cursor.connection, query, old, new))


def converted(db: sqlite3.Connection, query: str, old: Kept, new: Kept) -> Iterator[list[Value]]:
    """The rows with what their values are in the new shape."""
    places, shape = sources(old, new), old.target.relation.shape
    columns = [None if at is None else shape.columns[at] for at in places]
    lost = set(old.target.inexact()).difference(new.target.inexact())
    # (closed where a value isn't one of the new type, as a table that is read can't be dropped)
    with contextlib.closing(db.execute(query)) as rows:
        for row in rows:
            pairs = list(zip(columns, row, strict=True))
            if gone := [it.name for it, value in pairs if it in lost and value is not None]:
                why = f"the column {gone[0]} was kept by --numeric real, and its exact values aren't here"
                raise Unkept(new.relation, why)
            yield new.row([None if it is None else printed(it, value) for it, value in pairs])
