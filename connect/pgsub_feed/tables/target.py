"""The table of SQLite that a relation becomes, in an export and in a file that follows a feed."""

import dataclasses
import functools
import itertools
import sqlite3
from collections.abc import Callable, Collection, Sequence

from ..relation import Column, Relation, Shape
from ..texts import identifier
from .names import name_columns
from .set_aside import Unkept
from .stored_rows import rows_reader
from .values import AS_REAL, BOTH, Kind, Unlike, Value, is_rounded, kinds_of

# The column of a table that has none, since SQLite has no such tables.
NONE = Column("pgsub_none", 25, -1, False)


def with_columns(relation: Relation) -> Relation:
    """A relation as SQLite can have it: null in one column where the publisher's has none."""
    if relation.shape.columns:
        return relation
    return dataclasses.replace(relation, shape=Shape(relation.shape.identity, (NONE,)))


# How many columns a table of SQLite has, and how many values a statement, but for one row.
MOST_COLUMNS, MOST_VALUES = 2000, 1000


class Target:
    """A table of SQLite. `form`: how numerics are kept; `primary`: the columns of its primary key,
    where its replica identity is another.

    A column of the relation is one of SQLite, or two, of which the last one has the exact values.
    """

    def __init__(
        self, name: str, relation: Relation, form: str = BOTH, primary: Collection[str] = ()
    ) -> None:
        # (`told` as it was told)
        self.name, self.told, self.form, self.primary = name, relation, form, tuple(primary)
        self.relation = relation = with_columns(relation)
        columns = relation.shape.columns
        is_keyed = relation.shape.identity in ("d", "i")
        told = primary or [it.name for it in columns if it.key and is_keyed]
        # (rows are found by exact keys)
        self.several: list[list[Kind]] = [
            kinds_of(it, BOTH if form == AS_REAL and it.name in told else form, relation.text())
            for it in columns
        ]
        self.kinds = [kind for kinds in self.several for kind in kinds]
        # for each column of SQLite the number of the relation's column that it is of, and for each
        # one of these the number of the one of SQLite that has its exact values
        self.places = [at for at, kinds in enumerate(self.several) for _ in kinds]
        self.firsts = [0, *itertools.accumulate(map(len, self.several))]
        self.exact = [it - 1 for it in self.firsts[1:]]
        twofold = [at for at, kinds in enumerate(self.several) if len(kinds) > 1]
        named = name_columns((it.name for it in columns), twofold)
        self.names = [name for names in named for name in names]
        self.columns = [identifier(it) for it in self.names]
        self.key = [self.exact[at] for at, it in enumerate(columns) if it.name in told]
        # whether the key is one of SQLite's
        self.is_keyed = bool(self.key)
        self.is_bare = not self.told.shape.columns
        # rows of a store that wait, and how many there are of each
        self.waiting, self.copies = list[bytes](), list[int]()
        self.rows = 0
        # the statements that insert rows, by how many
        self.insertions = dict[int, str]()

    def rename(self, name: str) -> None:
        self.name = name
        self.insertions.clear()

    def loosen(self) -> None:
        """The key is none of SQLite's, since rows have null in it, or equal ones."""
        self.is_keyed = False

    def take(self) -> tuple[list[bytes], list[int]]:
        """Takes the rows that wait, which are about to be written, and so counted."""
        taken, self.waiting, self.copies = (self.waiting, self.copies), [], []
        self.rows += sum(taken[1])
        return taken

    def named(self, at: int) -> list[str]:
        """The columns of SQLite that are of a column of the relation."""
        return self.columns[self.firsts[at] : self.firsts[at + 1]]

    def types(self, at: int) -> list[str]:
        """The types in SQLite of a column of the relation."""
        return [kind for kind, _, _ in self.several[at]]

    def inexact(self) -> list[Column]:
        """The columns whose exact values aren't kept."""
        pairs = zip(self.relation.shape.columns, self.several, strict=True)
        return [it for it, kinds in pairs if is_rounded(it) and kinds[-1][0] == "REAL"]

    def text(self) -> str:
        return self.relation.text()

    def keys(self) -> str:
        return ", ".join(self.columns[at] for at in self.key)

    def definition(self) -> str:
        if len(self.columns) > MOST_COLUMNS:
            why = f"it has over {MOST_COLUMNS} columns in SQLite: numerics of over 15 digits have two, with --numeric text one"
            raise Unkept(self.relation, why)
        pairs = zip(self.columns, self.kinds, strict=True)
        parts = [f"{column} {kind}" for column, (kind, _, _) in pairs]
        parts += [f"PRIMARY KEY ({self.keys()})"] if self.is_keyed else []
        return f"CREATE TABLE {identifier(self.name)} ({', '.join(parts)}) STRICT"

    def insertion(self, count: int = 1) -> str:
        """The statement that inserts so many rows."""
        if count not in self.insertions:
            # (a text may come as its bytes)
            values = ("CAST(? AS TEXT)" if kind == "TEXT" else "?" for kind, _, _ in self.kinds)
            rows = ", ".join([f"({', '.join(values)})"] * count)
            self.insertions[count] = f"INSERT INTO {identifier(self.name)} VALUES {rows}"
        return self.insertions[count]

    def insert(self, db: sqlite3.Connection, values: Sequence[Value]) -> int:
        """Inserts rows, whose values come one row's after the other's: several by a statement, of
        which all are there or none. Returns how many there are now."""
        width, done = len(self.columns), 0
        most = max(MOST_VALUES // width, 1)
        whole = len(values) - len(values) % (most * width)
        for at in range(0, whole, most * width):
            some = values[at : at + most * width]
            done += db.execute(self.insertion(most), some).rowcount
        if rest := [values[at : at + width] for at in range(whole, len(values), width)]:
            done += db.executemany(self.insertion(), rest).rowcount
        return done

    @functools.cached_property
    def read_rows(self) -> Callable[[Sequence[bytes]], list[Value]]:
        return rows_reader(self.several)

    def row_values(self, bodies: Sequence[bytes]) -> list[Value]:
        """The values of rows of a store as SQLite takes them, one row's after the other's."""
        return [None] * len(bodies) if self.is_bare else self.read_rows(bodies)

    def have_null_keys(self, values: Sequence[Value]) -> bool:
        """Whether one of these rows has null in the key."""
        width = len(self.columns)
        return self.is_keyed and any(None in values[at::width] for at in self.key)


def unlike_reason(relation: Relation, unlike: Unlike) -> str:
    column = relation.shape.columns[unlike.index].name
    shown = unlike.value[:100].decode(errors="backslashreplace")
    return (
        f"the column {column} has a value that isn't one of its type, {shown!r}: the type was altered,"
        " and the server doesn't send what it made of the rows"
    )


def key_index(oid: int) -> str:
    """The name of the index on the key of a table whose key can't be a primary key."""
    return f"key of table {oid}"
