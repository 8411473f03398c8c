"""One table of a file: what a row's cells are there, and the statements that change it."""

import contextlib
import itertools
import math
import operator
import sqlite3
from collections.abc import Callable, Sequence
from typing import cast

from ..reader.commits import Cell, Change
from ..relation import Relation
from ..texts import identifier
from .names import folded
from .set_aside import Unkept
from .stored_rows import Text, Typed
from .target import Target, key_index, unlike_reason
from .values import BOTH, Unlike, Value

# How many columns the index has by which a row without a key is found.
INDEXED = 4
ROW_IDS = ("rowid", "_rowid_", "oid")
# The function of a connection that tells a zero with a sign, which SQLite takes for one without.
IS_MINUS_ZERO = "pgsub_is_minus_zero"


def is_minus_zero(value: Value) -> bool:
    return value == 0 and isinstance(value, float) and math.copysign(1, value) < 0


def listed(columns: Sequence[str], values: Sequence[str]) -> str:
    """A comparison that null is equal to null in."""
    if len(columns) == 1:
        return f"{columns[0]} IS {values[0]}"
    return f"({', '.join(columns)}) IS ({', '.join(values)})"


def rows_index(oid: int) -> str:
    """The name of the index by which the rows of a table without a key are found."""
    return f"rows of table {oid}"


class Valued:
    """A relation as a table of SQLite: what a row's cells are there."""

    def __init__(
        self, name: str, relation: Relation, form: str = BOTH, primary: tuple[str, ...] = ()
    ) -> None:
        self.relation, self.oid, self.name, self.primary = relation, relation.oid, name, primary
        self.target = Target(name, relation, form, primary)
        self.width = len(self.target.columns)
        self.typed = Typed(self.target.several)

    def values(self, rows: Sequence[Sequence[Cell]]) -> list[Value]:
        """Rows' cells as SQLite takes them, one row's after the other's."""
        cells = [*itertools.chain.from_iterable(rows)]
        if cells and bytes not in {*map(type, cells)}:
            # (which value isn't one of its type, the other way tells)
            with contextlib.suppress(ValueError):
                return self.typed.values(cast(list[Text], cells))
        return [value for row in rows for value in self.row(row)]

    def row(self, cells: Sequence[Cell]) -> list[Value]:
        """The same of one row."""
        if not cells:
            return [None]
        return [self.value(at, cells[place]) for at, place in enumerate(self.target.places)]

    def value(self, at: int, cell: Cell) -> Value:
        """A cell as a column of SQLite has it."""
        kind, read, read_binary = self.target.kinds[at]
        try:
            if isinstance(cell, bytes):
                return read_binary(cell)
            return cell if cell is None or kind == "TEXT" else read(cell.encode())
        except ValueError:
            shown = cell if isinstance(cell, bytes) else str(cell).encode()
            unlike = Unlike(self.target.places[at], shown)
            raise Unkept(self.relation, unlike_reason(self.relation, unlike)) from None


class Kept(Valued):
    """A table. Rows of a keyed one are found by the key, and any other's by all of their values,
    one of several equal rows.

    `primary`: the columns of its primary key, where its replica identity is another. SQLite has
    each key once, so the row that has it is the one that the feed changes, whatever the server
    forbids.
    """

    def __init__(
        self,
        name: str,
        relation: Relation,
        form: str = BOTH,
        primary: tuple[str, ...] = (),
        is_loose: bool = False,
    ) -> None:
        super().__init__(name, relation, form, primary)
        if is_loose:
            self.target.loosen()
        self.keys = [self.target.places[at] for at in self.target.key]
        # (of one column the cell, of several their tuple)
        self.key: Callable[[Sequence[Cell]], object] = operator.itemgetter(*self.keys or (0,))
        self.has_index = False
        # the definition that was found to be this one's last
        self.same = relation
        self.write_statements()

    def is_of(self, relation: Relation) -> bool:
        """Whether it is the table of this definition."""
        if relation is not self.same:
            if relation != self.relation:
                return False
            self.same = relation
        return True

    def rename(self, name: str) -> None:
        self.name = name
        self.target.rename(name)
        self.write_statements()

    def find_index(self, db: sqlite3.Connection) -> None:
        """Looks whether the index is there by which rows are found."""
        query = "SELECT 1 FROM sqlite_schema WHERE type = 'index' AND name IN (?, ?)"
        names = key_index(self.oid), rows_index(self.oid)
        self.has_index = bool(db.execute(query, names).fetchone())

    def write_statements(self) -> None:
        target, name = self.target, identifier(self.name)
        columns, everything = target.columns, list(range(self.width))
        self.found = target.key if target.is_keyed else everything
        rest = [at for at in everything if at not in self.found] if target.is_keyed else everything
        pairs = zip(columns, self.bound(everything, 0), strict=True)
        changes = [f"{column} = {value}" for column, value in pairs]
        # (the values of the new row, and then those that find the old one)
        where = self.where(self.width)
        self.update = f"UPDATE {name} SET {', '.join(changes)} WHERE {where}"
        # of a row whose key stays
        some = ", ".join(changes[at] for at in rest)
        self.change = f"UPDATE {name} SET {some} WHERE {where}" if some else ""
        self.deletion = f"DELETE FROM {name} WHERE {self.where(0)}"
        self.truncation = f"DELETE FROM {name}"

    def bound(self, places: Sequence[int], first: int) -> list[str]:
        """The values of these columns as they are bound."""
        kinds = [self.target.kinds[at][0] for at in places]
        return [
            f"CAST(?{at} AS TEXT)" if kind == "TEXT" else f"?{at}"
            for at, kind in enumerate(kinds, first + 1)
        ]

    def where(self, first: int) -> str:
        """What finds a row, by values that are bound from a number on."""
        columns = [self.target.columns[at] for at in self.found]
        values = self.bound(self.found, first)
        where = listed(columns, values)
        if self.target.is_keyed:
            return where
        if floats := [at for at, (kind, _, _) in enumerate(self.target.kinds) if kind == "ANY"]:
            where += " AND " + listed(
                *([f"{IS_MINUS_ZERO}({some[at]})" for at in floats] for some in (columns, values))
            )
        row_id = self.row_id()
        return f"{row_id} = (SELECT {row_id} FROM {identifier(self.name)} WHERE {where} LIMIT 1)"

    def row_id(self) -> str:
        taken = {folded(it) for it in self.target.columns}
        for it in ROW_IDS:
            if identifier(it) not in taken:
                return it
        why = "a table without a key whose columns have the names"
        raise Unkept(self.relation, f"{why} {', '.join(ROW_IDS)} can't be kept")

    def searched(self, rows: Sequence[Sequence[Cell]]) -> list[list[Value]]:
        """The values that find rows: of keyed ones only the key is looked at."""
        if not self.target.is_keyed:
            return self.each(self.values(rows))
        pairs = [*zip(self.found, self.keys, strict=True)]
        return [[self.value(at, cells[key]) for at, key in pairs] for cells in rows]

    def changed(
        self, before: Sequence[Sequence[Cell]], after: Sequence[Sequence[Cell]]
    ) -> list[tuple[bool, list[Value]]]:
        """Of each row: whether its key stays, and the new values, then those that find the old."""
        new, key = self.each(self.values(after)), self.key
        if not self.target.is_keyed:
            pairs = zip(new, self.searched(before), strict=True)
            return [(False, values + found) for values, found in pairs]
        return [
            (True, values + [values[at] for at in self.found])
            if key(was) == key(now)
            else (False, values + self.searched([was])[0])
            for values, was, now in zip(new, before, after, strict=True)
        ]

    def changed_keyed(self, after: Sequence[Sequence[Cell]]) -> list[list[Value]]:
        """Of each row whose key stays the new values, then those that find it."""
        found = self.found
        return [values + [values[at] for at in found] for values in self.each(self.values(after))]

    def keeps_keys(self, changes: Sequence[Change]) -> bool:
        """Whether these updates find their rows by keys that stay."""
        if not self.target.is_keyed:
            return False
        key = self.key
        return all(key(it.before or ()) == key(it.after or ()) for it in changes)

    def each(self, values: list[Value]) -> list[list[Value]]:
        """The values of rows, by themselves."""
        return [values[at : at + self.width] for at in range(0, len(values), self.width)]

    def have_null_keys(self, rows: Sequence[Sequence[Cell]]) -> bool:
        """Whether a row has null in the key."""
        return self.target.is_keyed and any(None in [row[at] for row in rows] for at in self.keys)

    def is_of_key(self, error: sqlite3.IntegrityError) -> bool:
        """Whether the values of a key are there already."""
        return str(error) == "UNIQUE constraint failed: " + ", ".join(
            f"{self.name}.{self.target.names[at]}" for at in self.target.key
        )

    def make(self, db: sqlite3.Connection) -> None:
        """Makes the table, empty."""
        db.execute(self.target.definition())
        if self.target.key and not self.target.is_keyed:
            self.index(db, key_index(self.oid), self.target.keys())
            self.has_index = True

    def find_rows(self, db: sqlite3.Connection) -> None:
        """Sees to it that rows without a key are found without looking at all of them."""
        if not (self.has_index or self.target.is_keyed):
            self.index(db, rows_index(self.oid), ", ".join(self.target.columns[:INDEXED]))
            self.has_index = True

    def index(self, db: sqlite3.Connection, name: str, columns: str) -> None:
        db.execute(
            f"CREATE INDEX IF NOT EXISTS {identifier(name)} ON {identifier(self.name)} ({columns})"
        )
