"""Numerics in tables of SQLite: as numbers that compare as the server's do, and still exact."""

from __future__ import annotations

import contextlib
import math
import os
import sqlite3
import unittest
from decimal import Decimal
from typing import Any

from feed_text import Cell, Column, Line
from hypothesis import given, strategies as st

from pgsub_connect.server.catalog import Table
from pgsub_connect.store.export import ExportSettings, export_store
from pgsub_feed import relation
from pgsub_feed.errors import FileError, Unfit
from pgsub_feed.formats.lines import ByName, json_line
from pgsub_feed.interruption import never
from pgsub_feed.reader.following import Chosen
from pgsub_feed.tables.file import Rows
from pgsub_feed.tables.floats import stored_numeric
from pgsub_feed.tables.values import (
    ALL_TEXT,
    AS_REAL,
    AS_TEXT,
    BOTH,
    FARTHEST,
    NUMERIC,
    read_number,
    scale_of,
)

from .drawn import ANY
from .feeds import ID, NAME, delete, insert, table, truncate, update
from .stores import Store
from .test_feed_tables import TablesCase
from .test_feed_verifying import VerifyCase
from .vectors import logged

# Two numbers of 19 digits that are rounded to the same one of eight bytes.
ONE, OTHER = "0.1000000000000000001", "0.1000000000000000002"
# Numerics of up to 41 digits, also above and below all numbers of eight bytes.
DECIMALS = st.builds(
    lambda digits, scale: Decimal(f"{digits}e{scale}"),
    st.integers(-(10**40), 10**40),
    st.one_of(st.integers(-40, 40), st.integers(-400, 400)),
)


def modifier(precision: int, scale: int) -> int:
    """That of numeric(precision, scale), as the server has it."""
    return (precision << 16 | scale & 0x7FF) + 4


def numeric(name: str, *limits: int, is_key: bool = False) -> Column:
    return Column(name, NUMERIC, modifier(*limits) if limits else -1, is_key)


def found_scale(number: int) -> int | None:
    return scale_of(relation.Column("n", NUMERIC, number, False))


def printed(digits: int, scale: int) -> str:
    """Such a number of units of its last digit as the server prints it."""
    return f"{Decimal(digits).scaleb(-scale, None):.{max(scale, 0)}f}"


class Drawn(unittest.TestCase):
    def test_which_have_one_column(self) -> None:
        for limits in ((10, 2), (15, 0), (15, 15), (1, 0), (3, 5), (3, -2), (15, -290), (2, 290)):
            self.assertEqual(found_scale(modifier(*limits)), limits[1])
        for limits in ((16, 2), (1000, 0), (2, 291), (15, -291), (2, 1000), (2, -1000)):
            self.assertIsNone(found_scale(modifier(*limits)))
        self.assertIsNone(found_scale(-1))
        self.assertIsNone(scale_of(relation.Column("n", 25, modifier(10, 2), False)))

    @ANY
    @given(
        st.integers(1, 15),
        st.one_of(st.integers(-20, 20), st.integers(-FARTHEST, FARTHEST)),
        st.data(),
    )
    def test_they_are_told_apart_and_printed_as_they_were(
        self, precision: int, scale: int, data: st.DataObject
    ) -> None:
        most = 10**precision - 1
        one = data.draw(st.integers(-most, most))
        other = data.draw(st.one_of(st.integers(-most, most), st.just(min(one + 1, most))))
        texts = [printed(it, scale) for it in (one, other)]
        numbers = [read_number(it.encode()) for it in texts]
        self.assertEqual([stored_numeric(it, scale) for it in numbers], texts)
        self.assertEqual(
            (numbers[0] > numbers[1], numbers[0] == numbers[1]), (one > other, one == other)
        )

    @ANY
    @given(st.floats(allow_nan=False), st.integers(-FARTHEST, FARTHEST))
    def test_what_is_no_such_number_is_never_printed_as_one(self, value: float, scale: int) -> None:
        text = stored_numeric(value, scale)
        if math.isfinite(value):
            self.assertEqual(read_number(text.encode()), value)
        else:
            self.assertEqual(text, "NaN" if value > 0 else "-inf")

    @ANY
    @given(*2 * [DECIMALS])
    def test_rounding_keeps_the_order(self, one: Decimal, other: Decimal) -> None:
        numbers = [read_number(f"{it:f}".encode()) for it in (one, other)]
        self.assertTrue(numbers[0] <= numbers[1] if one <= other else numbers[0] >= numbers[1])


class KeptCase(TablesCase):
    def make(self, *columns: Column, letter: str = "d") -> None:
        self.of = table(columns=[ID, *columns], letter=letter)

    def put(self, *row: Cell) -> Line:
        return insert(*row, of=self.of)

    def only(self, query: str) -> Any:
        return [it for (it,) in self.rows(query)]

    def kinds(self) -> list[Any]:
        return self.rows("SELECT name, type FROM pragma_table_info('stock') WHERE name <> 'id'")


class Kept(KeptCase):
    def test_questions(self) -> None:
        for column in (numeric("price", 10, 2), numeric("price")):
            self.make(column)
            prices = ["9.50", "100.00", "-3.00", "50.00", "50.01", "10.00"]
            self.take(truncate(self.of), *(self.put(str(at), it) for at, it in enumerate(prices)))
            self.run_it()
            self.assertEqual(self.only("SELECT id FROM stock WHERE price > 50 ORDER BY id"), [1, 4])
            self.assertEqual(
                self.only("SELECT id FROM stock WHERE price > '50' ORDER BY id"), [1, 4]
            )
            self.assertEqual(self.only("SELECT id FROM stock ORDER BY price"), [2, 0, 5, 3, 4, 1])
            self.assertEqual(self.rows("SELECT max(price), sum(price) FROM stock"), [(100, 216.51)])
            self.assertEqual(self.only("SELECT price / 4 FROM stock WHERE id = 5"), [2.5])

    def test_columns(self) -> None:
        self.make(numeric("a", 10, 2), numeric("b"), numeric("c", 16, 2), numeric("d", 3, -2))
        self.take(self.put("1", "1.50", "1.50", "12345678901234.56", "12300"))
        self.run_it()
        self.assertEqual(
            self.kinds(),
            [
                ("a", "REAL"),
                ("b", "REAL"),
                ("b_text", "TEXT"),
                ("c", "REAL"),
                ("c_text", "TEXT"),
                ("d", "REAL"),
            ],
        )
        row = (1, 1.5, 1.5, "1.50", 12345678901234.56, "12345678901234.56", 12300.0)
        self.assertEqual(self.rows("SELECT * FROM stock"), [row])

    def test_names_that_are_there(self) -> None:
        """The publisher's columns have theirs, also those that come later."""
        self.make(numeric("n"), Column("n_text", 25), Column("N_TEXT 2", 25))
        self.take(self.put("1", "1.0", "x", "y"))
        self.run_it()
        names = ["n", "n_text 2_", "n_text", "N_TEXT 2"]
        self.assertEqual([it for it, _ in self.kinds()], names)
        self.assertEqual(self.rows("SELECT * FROM stock"), [(1, 1.0, "1.0", "x", "y")])
        self.make(numeric("n"))
        self.take(self.put("2", "2.00"))
        self.run_it()
        self.assertEqual(self.only("SELECT n_text FROM stock ORDER BY id"), ["1.0", "2.00"])
        self.make(numeric("n"), Column("n_text", 25))
        self.take(self.put("3", "3", "z"))
        self.run_it()
        query = 'SELECT n, "n_text 2", n_text FROM stock ORDER BY id'
        self.assertEqual(self.rows(query), [(1, "1.0", None), (2, "2.00", None), (3, "3", "z")])

    def test_what_is_no_number(self) -> None:
        """Infinities are SQLite's, and NaN is above all as on the server; that is told."""
        self.make(numeric("a", 10, 2), numeric("b"))
        self.take(
            self.put("1", "NaN", "NaN"),
            self.put("2", "99999999.99", "Infinity"),
            self.put("3", None, "-Infinity"),
        )
        told = self.run_it()
        self.assertEqual(
            [it for it in told if "NaN" in it],
            [
                f"warning: public.stock (1): the column {it} has NaN, which SQLite hasn't: it is Infinity there"
                for it in "ab"
            ],
        )
        self.assertEqual(self.only("SELECT id FROM stock WHERE a > 50 ORDER BY a"), [2, 1])
        self.assertEqual(self.only("SELECT id FROM stock WHERE a IS NULL"), [3])
        self.assertEqual(self.only("SELECT b FROM stock ORDER BY id"), [math.inf] * 2 + [-math.inf])
        self.assertEqual(
            self.only("SELECT b_text FROM stock ORDER BY id"), ["NaN", "Infinity", "-Infinity"]
        )
        self.take(delete("1", "NaN", "NaN", of=self.of))
        self.run_it()
        self.assertEqual(self.only("SELECT id FROM stock ORDER BY id"), [2, 3])

    def test_keys(self) -> None:
        """Those that are rounded to one number are different keys, and any is found by its text."""
        self.of = table(columns=[numeric("k", is_key=True), NAME])
        rows = ((ONE, "a"), (OTHER, "b"), ("1.0", "c"), ("NaN", "d"), ("Infinity", "e"))
        self.take(*(self.put(*it) for it in rows))
        self.assertEqual([it for it in self.run_it() if "key" in it], [])
        self.assertEqual(
            self.only("SELECT name FROM pragma_table_info('stock') WHERE pk"), ["k_text"]
        )
        self.take(
            update([ONE, "a"], [ONE, "A"], of=self.of),
            delete(OTHER, "b", of=self.of),
            update(["1.0", "c"], ["1.00", "c"], of=self.of),
            delete("Infinity", "e", of=self.of),
        )
        self.run_it()
        self.assertEqual(
            self.rows("SELECT k, k_text, name FROM stock ORDER BY name"),
            [(0.1, ONE, "A"), (1.0, "1.00", "c"), (math.inf, "NaN", "d")],
        )

    def test_a_key_of_few_digits(self) -> None:
        self.of = table(columns=[numeric("k", 5, 2, is_key=True), NAME])
        self.take(self.put("1.00", "a"), self.put("1.01", "b"), self.put("NaN", "c"))
        self.run_it()
        self.take(
            update(["1.00", "a"], ["2.00", "a"], of=self.of),
            delete("1.01", "b", of=self.of),
            update(["NaN", "c"], ["NaN", "d"], of=self.of),
        )
        self.run_it()
        self.assertEqual(self.only("SELECT name FROM pragma_table_info('stock') WHERE pk"), ["k"])
        self.assertEqual(self.rows("SELECT * FROM stock ORDER BY k"), [(2.0, "a"), (math.inf, "d")])

    def test_without_a_key(self) -> None:
        self.make(numeric("n"), letter="f")
        self.take(*(self.put("1", it) for it in (ONE, OTHER, "1.0", "1.00")))
        self.take(
            delete("1", OTHER, of=self.of),
            delete("1", "1.00", of=self.of),
            update(["1", ONE], ["2", OTHER], of=self.of),
        )
        self.run_it()
        self.assertEqual(
            self.rows("SELECT id, n_text FROM stock ORDER BY id"), [(1, "1.0"), (2, OTHER)]
        )

    def test_other_forms(self) -> None:
        self.of = table(columns=[numeric("k", is_key=True), numeric("n"), numeric("m", 10, 2)])
        self.take(self.put(ONE, "1.0", "1.00"), self.put(OTHER, "NaN", "2.00"))
        self.run_it(numeric=AS_TEXT)
        self.assertEqual(self.rows("SELECT * FROM stock WHERE n = '1.0'"), [(ONE, "1.0", "1.00")])
        with self.assertRaisesRegex(
            Unfit, "it has numerics by --numeric text, not both: name that"
        ):
            self.run_it()
        os.unlink(self.into)
        self.run_it(numeric=AS_REAL)
        self.take(update([OTHER, "NaN", "2.00"], [OTHER, "5", "2.00"], of=self.of))
        self.run_it(numeric=AS_REAL)
        self.assertEqual(
            self.rows("SELECT * FROM stock ORDER BY k_text"),
            [(0.1, ONE, 1.0, 1.0), (0.1, OTHER, 5.0, 2.0)],
        )

    def test_more_columns_than_sqlite_has(self) -> None:
        self.make(*(numeric(f"n{at}") for at in range(1001)))
        self.take(self.put("1", *["1.0"] * 1001))
        self.run_it(1)
        self.assertRegex(self.asides()[0][2], "over 2000 columns in SQLite: .*--numeric text")
        os.unlink(self.into)
        self.run_it(numeric=AS_TEXT)
        self.assertEqual(self.only("SELECT n1000 FROM stock"), ["1.0"])


class Altered(KeptCase):
    def altered(self, *columns: Column, more: tuple[Line, ...] = ()) -> list[Any]:
        """All rows once another shape was told."""
        self.make(*columns)
        return self.after(Line(self.of, "x", ["9", *[None] * len(columns)], None, "K"), *more)

    def test_to_and_fro(self) -> None:
        self.make(numeric("n", 10, 2))
        self.take(self.put("1", "1.50"), self.put("2", "NaN"), self.put("3", None))
        self.run_it()
        inf = math.inf
        nothing = (3, None, None)
        twice = [(1, 1.5, "1.50"), (2, inf, "NaN"), nothing]
        self.assertEqual(self.altered(numeric("n")), twice)
        self.assertEqual(self.altered(numeric("n", 20, 2)), twice)
        self.assertEqual(self.altered(Column("n", 25)), [(1, "1.50"), (2, "NaN"), (3, None)])
        self.assertEqual(self.altered(numeric("n")), twice)
        once = [(1, 1.5), (2, inf), (3, None)]
        for column in (numeric("n", 10, 4), numeric("n", 10, 2)):
            self.assertEqual(self.altered(column), once)
        self.assertEqual(self.altered(Column("n", 701)), [(1, 1.5), (2, "NaN"), (3, None)])
        self.assertEqual(self.altered(numeric("n", 10, 2)), once)

    def test_a_column_more(self) -> None:
        self.make(numeric("a"))
        self.take(self.put("1", "1.0"))
        self.run_it()
        self.assertEqual(self.altered(numeric("a"), numeric("b")), [(1, 1.0, "1.0", None, None)])
        self.assertEqual(
            self.altered(numeric("b"), Column("c", 25), numeric("a")),
            [(1, None, None, None, 1.0, "1.0")],
        )
        self.assertEqual(self.altered(numeric("a", 5, 1), Column("a_text", 25)), [(1, 1.0, None)])

    def test_texts_that_are_gone(self) -> None:
        self.make(numeric("n"))
        self.take(self.put("1", "1.50"))
        self.run_it(numeric=AS_REAL)
        self.make(Column("n", 25))
        self.take(self.put("2", "x"))
        self.run_it(1, numeric=AS_REAL)
        self.assertRegex(self.asides()[0][2], "the column n was kept by --numeric real")

    def test_back_to_then(self) -> None:
        self.make(numeric("n", 10, 2), numeric("m"))
        self.take(self.put("1", "1.50", ONE), self.put("2", "2.00", "1.0"))
        was = self.after(of="stock")
        self.make(numeric("n"), numeric("m", 20, 5))
        self.take(update(["1", "1.50", ONE], ["1", "7", "2"], of=self.of))
        self.run_it()
        self.run_it(at=0x100)
        self.assertEqual(self.rows("SELECT * FROM stock ORDER BY 1"), was)

    def test_scales_that_are_lost_on_the_way_back(self) -> None:
        self.make(numeric("n"))
        self.take(self.put("1", "1.5000"))
        self.make(numeric("n", 10, 2))
        self.take(self.put("2", "2.00"))
        self.run_it()
        with self.assertRaisesRegex(Unfit, "the column n was dropped or altered since"):
            self.run_it(at=0x100)


class Earlier(TablesCase):
    """Files of an earlier version."""

    def earlier(self, path: str) -> None:
        with contextlib.closing(sqlite3.connect(path)) as base:
            base.execute("PRAGMA user_version = 1")

    def test_is_made_anew(self) -> None:
        self.take(insert("1", "a"))
        self.run_it()
        with contextlib.closing(sqlite3.connect(self.into)) as base:
            base.execute("UPDATE stock SET name = 'mixed'")
            base.commit()
        self.earlier(self.into)
        told = self.run_it()
        self.assertIn(
            f"warning: {self.into}: an earlier version has made it, whose numerics are texts: it is made anew",
            told,
        )
        self.assertEqual(self.rows("SELECT * FROM stock"), [(1, "a")])

    def test_stays_where_it_cant_be_made(self) -> None:
        self.take(insert("1", "a"))
        self.run_it()
        self.earlier(self.into)
        self.at = self.feed.at = 0x200
        self.feed.begin()
        self.path.joinpath(f"{0:016X}").unlink()
        self.take(insert("2", "b"))
        with self.assertRaisesRegex(Unfit, "there may be rows from before"):
            self.run_it()
        self.assertEqual(self.rows("SELECT * FROM stock"), [(1, "a")])

    def test_bases(self) -> None:
        store, path = str(self.folder / "copy.db"), str(self.folder / "base.db")
        made = Store(store, 0x100)
        made.table(1, "stock", [(1, "id", 23, -1), (0, "n", NUMERIC, -1)])
        made.row(1, "1", "1.50")
        made.close()
        self.take()
        for form in (BOTH, AS_TEXT, ALL_TEXT):
            with logged():
                export_store(ExportSettings(store, path, form), never)
            if form == BOTH:
                self.run_it(base=path)
                self.assertEqual(self.rows("SELECT * FROM stock"), [(1, 1.5, "1.50")])
                os.unlink(self.into)
            else:
                why = "its values are texts" if form == ALL_TEXT else "by --numeric text, not both"
                with self.assertRaisesRegex(Unfit, why):
                    self.run_it(base=path)
                self.assertFalse(os.path.exists(self.into))
        self.earlier(path)
        with self.assertRaisesRegex(FileError, "an earlier version has made it, .*: make it anew"):
            self.run_it(base=path)


class Verified(VerifyCase):
    """What `verify` compares of them."""

    columns: tuple[Column, ...] = (numeric("a", 10, 2), numeric("b"))

    def setUp(self) -> None:
        super().setUp()
        self.change(0x300, insert("1", "1.50", "1.500", of=self.of()))
        self.has(["1", "1.50", "1.500"])

    def of(self, *columns: Column) -> Any:
        return table(3, "priced", [ID, *(columns or self.columns)])

    def change(self, at: int, *lines: Line) -> None:
        self.take(*lines)
        self.run_it(digests=True)
        self.point = at

    def has(self, *rows: list[Any], columns: tuple[Column, ...] = ()) -> None:
        """What the server has."""
        told = [
            relation.Column(it.name, it.type_oid, it.modifier, it.key)
            for it in self.of(*columns).columns
        ]
        shape = relation.Shape("d", tuple(told))
        self.published = [*self.published[:2], Table(3, "public", "priced", "r", shape)]
        self.server.tables[3] = list(rows)

    def both_equal(self) -> None:
        for digests in (False, True):
            self.equal(digests=digests)
            self.assertFalse([it for it in self.said if "digest that it keeps" in it])

    def test_texts(self) -> None:
        self.both_equal()
        for planted, a, b in (
            ("a = 1.51", "1.51", "1.500"),
            ("a = 1.5000000001", "1.5000000001", "1.500"),
            ("b_text = '1.5'", "1.50", "1.5"),
            ("a = NULL", None, "1.500"),
            ("a = 9e999", "NaN", "1.500"),
            ("a = -9e999", "-inf", "1.500"),
        ):
            with self.subTest(planted):
                self.plant(f"UPDATE priced SET {planted}")
                [found] = self.verified(1)
                self.assertEqual((found["copy"].get("a"), found["copy"].get("b")), (a, b))
                self.plant("UPDATE priced SET a = 1.5, b_text = '1.500'")

    def test_what_is_no_number(self) -> None:
        self.change(0x400, update(["1", "1.50", "1.500"], ["1", "NaN", "NaN"], of=self.of()))
        self.has(["1", "NaN", "NaN"])
        self.both_equal()
        self.has(["1", None, None])
        self.assertEqual(len(self.verified(1)), 1)

    def test_another_scale(self) -> None:
        """What the server has rewritten is equal by its values, and the digest is that of the rows,
        also where one from before goes."""
        wider = (numeric("a", 12, 4), numeric("b"))
        of = self.of(*wider)
        self.change(0x400, insert("2", "2.0000", "2", of=of), insert("3", None, None, of=of))
        self.has(["1", "1.5000", "1.500"], ["2", "2.0000", "2"], ["3", None, None], columns=wider)
        self.both_equal()
        self.change(0x500, delete("1", "1.50", "1.500", of=of))
        self.has(["2", "2.0000", "2"], ["3", None, None], columns=wider)
        self.both_equal()

    def test_digits_that_the_server_has_rounded(self) -> None:
        """The copy has them still, whatever the scale is now."""
        narrower = (numeric("a", 10, 0), numeric("b"))
        self.change(0x400, insert("2", "2", "2", of=self.of(*narrower)))
        self.has(["1", "2", "1.500"], ["2", "2", "2"], columns=narrower)
        [found] = self.verified(1)
        self.assertEqual((found["copy"]["a"], found["server"]["a"]), ("1.5", "2"))

    def test_numbers_alone(self) -> None:
        os.unlink(self.into)
        self.run_it(numeric=AS_REAL)
        self.fails(Unfit, "by --numeric real .* hasn't the exact values of b")
        self.equal(chosen=["stock"])


class Printed(unittest.TestCase):
    def test_json_has_what_it_has_numbers_for(self) -> None:
        """Numerics stay exact texts, whatever tables have; infinities are texts, too."""
        columns = [
            relation.Column("a", NUMERIC, modifier(10, 2), False),
            relation.Column("b", NUMERIC, -1, False),
            *(relation.Column(name, 701, -1, False) for name in "cde"),
        ]
        told = relation.Relation(1, "public", "t", relation.Shape("f", tuple(columns)))
        row = ByName(Chosen(())).row(told, ["1.50", "NaN", "Infinity", "-Infinity", "0.5"])
        self.assertEqual(
            json_line(row), b'{"a":"1.50","b":"NaN","c":"Infinity","d":"-Infinity","e":0.5}\n'
        )


class Loaded(TablesCase):
    def test_a_key_of_an_index(self) -> None:
        """A table whose key is no primary key goes on so."""
        of = table(columns=[Column("id", 23, -1, True), numeric("n", is_key=True)])
        self.take(insert("1", None, of=of), insert("1", "2.0", of=of))
        self.run_it()
        with contextlib.closing((rows := Rows(self.into)).db):
            self.assertEqual((rows.kept[1].target.is_keyed, rows.kept[1].has_index), (False, True))
        self.take(update(["1", "2.0"], ["1", "3"], of=of), delete("1", None, of=of))
        self.run_it()
        self.assertEqual(self.rows("SELECT * FROM stock"), [(1, 3.0, "3")])


if __name__ == "__main__":
    unittest.main()
