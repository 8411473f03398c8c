"""Rows of a store read several at once: as each by itself, whatever they are."""

from __future__ import annotations

import contextlib
import itertools
import os
import sqlite3
import unittest
from collections.abc import Callable
from unittest import mock

from hypothesis import given
from hypothesis import strategies as some
from pgsub_connect.store import export as export_module
from pgsub_connect.store.export import ExportSettings, export_store
from pgsub_feed.interruption import never
from pgsub_feed.relation import Column, Relation, Shape
from pgsub_feed.tables import stored_rows, target, values
from pgsub_feed.tables.stored_rows import row_reader, rows_reader
from pgsub_feed.tables.values import BOTH, Kind, Malformed, Unlike, Value, kinds_of

from .drawn import ANY
from .stores import Cell, StoreCase, spelled
from .vectors import logged

# int4, text, float8, numeric (of which there are two columns), bytea and bool.
TYPES = 23, 25, 701, 1700, 17, 16
SEVERAL = [kinds_of(Column(str(it), it, -1, False), BOTH, "t") for it in TYPES]
TEXTS = [kinds_of(Column(it, 25, -1, False), BOTH, "t") for it in "ab"]
USUAL: tuple[Cell, ...] = ("-12", "text", "1.5", "1.50", "\\x00ff", "t")
NUMBERS = (
    "0",
    "-0",
    "007",
    "12",
    "-9",
    "1e3",
    "1.",
    ".5",
    "-.5",
    "1e+400",
    "1_0",
    " 1",
    "+1",
    "1,2",
    "٣",
)
SHORT = (
    "",
    "n",
    "t",
    "nt",
    "f",
    "true",
    "NaN",
    "Infinity",
    "-Infinity",
    "inf",
    "ä",
    "é" * 70,
    *NUMBERS,
)
# numbers that are of eight bytes and aren't, what is long, and texts that look like heads of cells
ODD = "9" * 18, "-" + "9" * 18, "9" * 19, "1" * 19, "x" * 255, "x" * 256, "t\0\0\0\1x", "\0"
CELLS = some.one_of(some.sampled_from(SHORT + ODD), some.none(), some.binary(max_size=9))


def cells_of(usual: Cell) -> some.SearchStrategy[Cell]:
    return some.one_of(some.just(usual), some.just(usual), CELLS)


ROWS = some.tuples(*map(cells_of, USUAL)).map(spelled)


@some.composite
def bodies(draw: some.DrawFn) -> list[bytes]:
    """Rows, of which some were spoiled: a byte is another one, or they were cut at another place."""
    rows = draw(some.lists(ROWS, max_size=5))
    for at in draw(some.lists(some.integers(0, 4), max_size=2)):
        if at < len(rows):
            place, byte = draw(some.integers(0, len(rows[at]) - 1)), draw(some.binary(max_size=2))
            rows[at] = rows[at][:place] + byte + rows[at][place + 1 :]
    if len(rows) > 1 and draw(some.booleans()):
        place = draw(some.integers(0, len(rows[0])))
        rows[:2] = [rows[0][:place], rows[0][place:] + rows[1]]
    return rows


def told(read: Callable[[], list[Value]]) -> object:
    """The values with their types, or what is wrong."""
    try:
        return [(type(it), repr(it)) for it in read()]
    except (Malformed, Unlike) as error:
        return type(error), error.args


class AtOnce(unittest.TestCase):
    def check(self, columns: list[list[Kind]], rows: list[bytes]) -> None:
        """Rows are read at once as each by itself."""
        at_once, read = rows_reader(columns), row_reader(columns)
        each = told(lambda: [it for row in rows for it in read(row)])
        self.assertEqual(told(lambda: at_once(rows)), each)

    @ANY
    @given(bodies())
    def test_as_one_by_one(self, rows: list[bytes]) -> None:
        self.check(SEVERAL, rows)

    @ANY
    @given(some.lists(some.tuples(CELLS, CELLS).map(spelled), max_size=5))
    def test_texts(self, rows: list[bytes]) -> None:
        self.check(TEXTS, rows)

    def test_each_cell(self) -> None:
        for at, cell in itertools.product(range(len(USUAL)), (*SHORT, *ODD, None, b"", b"\0\xff")):
            rows = [spelled(it) for it in (USUAL, (*USUAL[:at], cell, *USUAL[at + 1 :]), USUAL)]
            self.check(SEVERAL, rows)

    def test_each_pair_of_texts(self) -> None:
        cells = (*SHORT, *ODD, None)
        for pair in itertools.product(cells, cells):
            self.check(TEXTS, [spelled(pair), spelled(["a", "b"])])

    def test_that_it_is(self) -> None:
        """Nothing is read by itself that needn't be: nulls, long texts and those of any script
        are read at once, too, and binary values aren't."""
        usual = spelled(USUAL)
        others: list[list[Cell]] = [
            [None, *USUAL[1:]],
            [*USUAL[:1], "ä" * 300, *USUAL[2:]],
            [None] * len(USUAL),
        ]
        by_itself: list[bytes] = []

        def noted(body: bytes) -> list[Value]:
            by_itself.append(body)
            return read(body)

        read = row_reader(SEVERAL)
        with mock.patch.object(stored_rows, "row_reader", lambda _: noted):
            for rows in ([usual], [usual, *map(spelled, others), usual]):
                expected = [it for row in rows for it in read(row)]
                self.assertEqual(rows_reader(SEVERAL)(rows), expected)
            self.assertEqual(by_itself, [])
            binary = spelled([b"\0\0\0\1", *USUAL[1:]])
            rows_reader(SEVERAL)([usual, binary])
            self.assertEqual(by_itself, [usual, binary])
            with mock.patch.object(stored_rows, "LARGE", len(usual)):
                long = spelled(["123", *USUAL[1:-1], "t"])
                rows_reader(SEVERAL)([long])
                self.assertEqual(by_itself, [usual, binary])
                rows_reader(SEVERAL)([spelled(["1234", *USUAL[1:]])])
                self.assertEqual(len(by_itself), 3)

    def test_lengths_that_fit_together(self) -> None:
        """A byte less in one cell and one more in the next: as long as it should be."""
        good = spelled(["ab", "cd"])
        spoiled = bytearray(good)
        spoiled[6], spoiled[13] = 1, 3
        self.assertEqual(rows_reader(TEXTS)([good]), ["ab", "cd"])
        for rows in ([bytes(spoiled)], [good, bytes(spoiled)]):
            with self.assertRaises(Malformed):
                rows_reader(TEXTS)(rows)

    def test_rows_that_fit_together(self) -> None:
        """Bytes of one row in the next one, though what parts the cells is between them."""
        one, other = (spelled(it) for it in (["a", ""], ["", "b"]))
        part = stored_rows.SHORT
        for at in (it for it in range(len(one)) if one.startswith(part, it)):
            rows = [one[:at], one[at + len(part) :] + part + other]
            self.assertEqual(part.join(rows), part.join([one, other]))
            with self.assertRaises(Malformed):
                rows_reader(TEXTS)(rows)


class Inserted(StoreCase):
    """Rows inserted several by a statement."""

    def rows_of(self, query: str) -> list[tuple[object, ...]]:
        with contextlib.closing(sqlite3.connect(self.into)) as base:
            return base.execute(query).fetchall()

    def test_each_once_in_order(self) -> None:
        self.store.table(1, "t")
        names = [None if at % 5 == 3 else f"ä{at}" for at in range(23)]
        for at, name in enumerate(names):
            self.store.row(1, str(at * 7 % 23), name)
        self.store.row(1, "99", "copies", copies=9)
        expected = [(str(at * 7 % 23), name) for at, name in enumerate(names)]
        for count, room in itertools.product((1, 8, 46, 1000), (200, 1 << 20)):
            with mock.patch.object(target, "MOST_VALUES", count), mock.patch.object(
                export_module, "ROOM", room
            ), logged():
                export_store(ExportSettings(self.path, self.into, form=values.ALL_TEXT), never)
            rows = self.rows_of("SELECT * FROM t ORDER BY rowid")
            self.assertEqual(rows, expected + [("99", "copies")] * 9)

    def test_by_another_name(self) -> None:
        shape = Shape("d", (Column("id", 25, -1, True),))
        it = target.Target("t", Relation(1, "public", "t", shape))
        with contextlib.closing(sqlite3.connect(self.into, isolation_level=None)) as base:
            for name in ("t", "u"):
                it.rename(name)
                base.execute(it.definition())
                self.assertEqual(it.insert(base, [name, name * 2]), 2)
        for name in ("t", "u"):
            self.assertEqual(self.rows_of(f"SELECT * FROM {name}"), [(name,), (name * 2,)])

    def test_many_by_a_statement(self) -> None:
        """More than SQLite has SELECTs in one of others."""
        self.store.table(1, "t", [(1, "id", 23, -1)])
        for at in range(2500):
            self.store.row(1, str(at))
        with logged():
            export_store(ExportSettings(self.path, self.into), never)
        self.assertEqual(self.rows_of("SELECT id FROM t"), [(at,) for at in range(2500)])

    def test_keys_that_come_again(self) -> None:
        """Whichever row has a key that is there: in the midst of a statement's, or its last."""
        for twice, many in itertools.product(range(1, 12), (1, 3, 4, 12)):
            self.store.base.executescript("DELETE FROM rel; DELETE FROM held")
            self.store.table(1, "t", [(1, "a", 701, -1), (0, "b", 25, -1)])
            for at in range(12):
                self.store.row(1, "1.0" if at == twice else f"{at + 1}", str(at))
            with mock.patch.object(target, "MOST_VALUES", 2 * many), logged() as lines:
                export_store(ExportSettings(self.path, self.into), never)
            self.assertIn("equal keys", lines[0])
            numbers = [int(str(it)) for (it,) in self.rows_of("SELECT b FROM t ORDER BY rowid")]
            self.assertEqual(numbers, [*range(12)], (twice, many))
            os.unlink(self.into)


if __name__ == "__main__":
    unittest.main()
