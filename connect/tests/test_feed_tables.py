"""Tables that follow a feed: rows, keys, shapes, names, where they begin and how they go on."""

from __future__ import annotations

import contextlib
import io
import math
import os
import sqlite3
import stat
from collections.abc import Sequence
from typing import Any
from unittest import mock

from feed_text import About, Cell, Column, Line

from pgsub_connect.cli import main
from pgsub_connect.commands import tables as tables_module
from pgsub_connect.commands.arguments import following
from pgsub_connect.commands.tables import Options
from pgsub_connect.commands.wait import Awaited
from pgsub_connect.follow.retention import Limits, retire
from pgsub_connect.store.export import ExportSettings, export_store
from pgsub_connect.verify.view import View
from pgsub_feed.errors import FILE, UNFIT, USAGE, FileError, Passing, Unfit
from pgsub_feed.files import copy
from pgsub_feed.interruption import Check, never
from pgsub_feed.reader.folder import segments
from pgsub_feed.reader.folder import Noted
from pgsub_feed.tables import first_rows
from pgsub_feed.tables.schema import read_position

from .feeds import ID, NAME, STOCK, FeedCase, delete, insert, table, truncate, update
from .stores import Store
from .vectors import logged

REPAIR = 2


class TablesCase(FeedCase):
    def setUp(self) -> None:
        super().setUp()
        self.into = str(self.folder / "rows.db")
        self.at = 0

    def take(self, *lines: Line) -> None:
        """Adds a commit."""
        self.at += 0x100
        self.feed.commit(self.at, lines)

    def repaired(self, *lines: Line) -> None:
        """Adds the commit of a repair, or of a table that is added."""
        self.at += 0x100
        self.feed.commit(self.at, lines, About(self.at - 1, REPAIR, 0))
        self.feed.confirm(self.at)

    def options(self, **more: Any) -> Options:
        return Options(feed=str(self.path), into=self.into, once=True, **more)

    def run_it(self, status: int = 0, **more: Any) -> list[str]:
        """Takes what is there, and returns what is told beside the last line."""
        with logged() as told:
            self.assertEqual(tables_module.run(self.options(**more), never), status)
        self.assertEqual(
            sorted(it for it in os.listdir(self.folder) if it.startswith("rows")), ["rows.db"]
        )
        return told[:-1]

    def rows(self, query: str) -> list[Any]:
        with contextlib.closing(sqlite3.connect(self.into)) as base:
            return base.execute(query).fetchall()

    def after(self, *lines: Line, of: str = "stock") -> list[Any]:
        """A table's rows after one more commit."""
        self.take(*lines)
        self.run_it()
        return self.rows(f'SELECT * FROM "{of}" ORDER BY 1')

    def asides(self) -> list[Any]:
        """The tables that are set aside, the LSN since when, and why."""
        return self.rows(
            "SELECT schema || '.' || \"table\", since, why FROM pgsub_aside ORDER BY oid"
        )

    def tables(self) -> list[str]:
        found = self.rows("SELECT name FROM sqlite_schema WHERE type = 'table' ORDER BY 1")
        return [
            name
            for (name,) in found
            if name
            not in (
                "pgsub_position",
                "pgsub_tables",
                "pgsub_relations",
                "pgsub_feed",
                "pgsub_aside",
            )
        ]


class Changes(TablesCase):
    def test_of_a_key(self) -> None:
        self.assertEqual(
            self.after(insert("1", "a"), insert("2", None), insert("-3", "é")),
            [(-3, "é"), (1, "a"), (2, None)],
        )
        self.assertEqual(
            self.after(update(["1", "a"], ["1", "b"]), delete("2", None)), [(-3, "é"), (1, "b")]
        )
        self.assertEqual(
            self.after(update(["1", "b"], ["7", "c"]), update(["-3", "é"], ["1", None])),
            [(1, None), (7, "c")],
        )
        self.assertEqual(self.after(truncate(), insert("5", "x")), [(5, "x")])
        self.assertEqual(self.after(Line(STOCK, "x", ["9", None], None, "K")), [(5, "x")])
        self.assertEqual(self.rows("SELECT lsn FROM pgsub_position"), [("0/500",)])
        self.assertEqual(self.rows("SELECT * FROM pgsub_tables"), [("stock", "public", "stock", 1)])

    def test_keys_that_wander(self) -> None:
        self.assertEqual(self.after(insert("1", "a"), insert("2", "b")), [(1, "a"), (2, "b")])
        lines = [
            update(["1", "a"], ["9", "a"]),
            update(["2", "b"], ["1", "b"]),
            update(["9", "a"], ["2", "a"]),
        ]
        self.assertEqual(self.after(*lines), [(1, "b"), (2, "a")])

    def test_a_key_alone(self) -> None:
        only = table(columns=[ID])
        self.assertEqual(
            self.after(
                insert("1", of=only), update(["1"], ["1"], of=only), update(["1"], ["2"], of=only)
            ),
            [(2,)],
        )

    def test_a_key_of_two(self) -> None:
        two = table(columns=[Column("a", 25, -1, True), Column("v", 23), Column("b", 20, -1, True)])
        self.take(
            insert("x", "1", "1", of=two),
            insert("x", "2", "2", of=two),
            update(["x", "1", "1"], ["x", "5", "1"], of=two),
        )
        self.assertEqual(self.after(delete("x", None, "2", of=two)), [("x", 5, 1)])
        self.assertEqual(
            self.rows("SELECT name, pk FROM pragma_table_info('stock')"),
            [("a", 1), ("v", 0), ("b", 2)],
        )

    def test_without_a_key(self) -> None:
        full = table(letter="f")
        self.take(*(insert("1", None, of=full) for _ in range(3)), insert("1", "", of=full))
        self.assertEqual(self.after(delete("1", None, of=full)), [(1, None), (1, None), (1, "")])
        self.assertEqual(
            self.after(update(["1", None], ["0", None], of=full)), [(0, None), (1, None), (1, "")]
        )
        self.assertEqual(
            self.after(delete("1", "", of=full), delete("1", None, of=full)), [(0, None)]
        )
        self.assertEqual(
            self.rows("SELECT count(*) FROM pragma_table_info('stock') WHERE pk"), [(0,)]
        )

    def test_zeros_of_both_signs(self) -> None:
        of = table(columns=[ID, Column("f", 701), Column("g", 700)], letter="f")
        self.take(*(insert("1", f, g, of=of) for f in ("0", "-0") for g in ("0", "-0", None)))
        self.take(
            delete("1", "-0", "0", of=of),
            update(["1", "-0", "-0"], ["2", "-0", "-0"], of=of),
            delete("1", "0", None, of=of),
        )
        found = self.after(delete("1", "0", "-0", of=of))
        self.assertEqual(
            sorted(map(repr, found)), ["(1, -0.0, None)", "(1, 0.0, 0.0)", "(2, -0.0, -0.0)"]
        )

    def test_many_columns(self) -> None:
        for letter, kind, was, now in (
            ("d", 25, "x", "y"),
            ("f", 25, "x", "y"),
            ("f", 701, "Infinity", "NaN"),
        ):
            name = f"{letter}{kind}"
            wide = table(
                ord(letter) + kind,
                name,
                [ID, *(Column(f"c{at}", kind) for at in range(1599))],
                letter,
            )
            row, new = (["1"] + [it] * 1599 for it in (was, now))
            self.assertEqual(
                self.after(insert(*row, of=wide), update(row, new, of=wide), of=name),
                [(1, *new[1:])],
            )
            self.assertEqual(self.after(delete(*new, of=wide), of=name), [])

    def test_columns_of_a_row_id(self) -> None:
        odd = table(columns=[Column("rowid", 23), Column("OID", 25)], letter="f")
        self.assertEqual(
            self.after(
                insert("1", "a", of=odd), insert("1", "b", of=odd), delete("1", "a", of=odd)
            ),
            [(1, "b")],
        )
        worse = table(
            oid=2,
            name="worse",
            columns=[Column("rowid", 23), Column("OID", 25), Column("_rowid_", 25)],
            letter="f",
        )
        self.take(insert("1", "a", "b", of=worse))
        self.run_it(1)
        self.assertRegex(self.asides()[0][2], "^a table without a key whose columns have the names")
        self.assertEqual(self.tables(), ["stock"])

    def test_without_columns(self) -> None:
        none = table(columns=[], letter="f")
        self.take(insert(of=none), insert(of=none), delete(of=none))
        self.assertEqual(
            self.after(insert("1", "a", of=table(letter="f"))), [(None, None), (1, "a")]
        )


class Types(TablesCase):
    def test_as_an_export_has_them(self) -> None:
        types = [21, 23, 20, 16, 17, 700, 701, 1700, 99999, 25]
        nothing: list[Cell] = [None] * len(types)
        text: list[Cell] = [
            "-32768",
            "2147483647",
            "-9223372036854775808",
            "t",
            "\\x00ff",
            "1.5",
            "NaN",
            "1.0",
            "{1}",
            "é",
        ]
        binary: list[Cell] = [
            b"\0\1",
            b"\0\0\0\2",
            bytes(8),
            b"\0",
            b"\0",
            b"\x3f\xc0\0\0",
            b"\x7f\xf0" + bytes(6),
            "1",
            "x",
            "é".encode(),
        ]
        of = table(columns=[Column(f"c{at}", it) for at, it in enumerate(types)], letter="f")
        self.take(*(insert(*it, of=of) for it in (text, binary, nothing)))
        self.run_it()
        first: tuple[object, ...] = (
            -32768,
            2147483647,
            -(1 << 63),
            1,
            b"\0\xff",
            1.5,
            "NaN",
            1.0,
            "1.0",
            "{1}",
            "é",
        )
        second = (1, 2, 0, 0, b"\0", 1.5, math.inf, 1.0, "1", "x", "é")
        self.assertEqual(self.rows("SELECT * FROM stock"), [first, second, (None, *nothing)])
        kinds = [row[2] for row in self.rows("PRAGMA table_info(stock)")]
        self.assertEqual(
            kinds, ["INTEGER"] * 4 + ["BLOB", "ANY", "ANY", "REAL", "TEXT", "TEXT", "TEXT"]
        )
        self.assertEqual(
            self.rows("SELECT strict FROM pragma_table_list WHERE name = 'stock'"), [(1,)]
        )
        self.assertEqual(self.after(*(delete(*it, of=of) for it in (text, binary, nothing))), [])

    def test_values_of_another_type(self) -> None:
        values: list[tuple[int, Cell]] = [
            (23, "1.5"),
            (16, "yes"),
            (17, "\\x0"),
            (701, "1_0"),
            (1082, b"\0"),
        ]
        self.run_it()
        for oid, cell in values:
            self.feed.path.unlink()
            self.feed.at = self.at = 0
            self.feed.begin()
            self.take(
                insert("1", cell, of=table(columns=[Column("a", 23), Column("b", oid)], letter="f"))
            )
            os.unlink(self.into)
            self.run_it(1)
            self.assertRegex(
                self.asides()[0][2], "^the column b has a value that isn't one of its type"
            )


class Shapes(TablesCase):
    def setUp(self) -> None:
        super().setUp()
        self.take(insert("1", "a"), insert("2", "b"))

    def altered(self, *columns: Column, letter: str = "d", row: Sequence[Cell] = ()) -> list[Any]:
        of = table(columns=columns, letter=letter)
        return self.after(
            *([insert(*row, of=of)] if row else [Line(of, "x", ["9"] * len(columns), None, "K")])
        )

    def test_a_column_more(self) -> None:
        self.run_it()
        self.assertEqual(
            self.altered(ID, NAME, Column("more", 16), row=["3", "c", "t"]),
            [(1, "a", None), (2, "b", None), (3, "c", 1)],
        )
        self.assertEqual(
            self.altered(ID, Column("first", 25), NAME, Column("more", 16)),
            [(1, None, "a", None), (2, None, "b", None), (3, None, "c", 1)],
        )

    def test_a_column_less(self) -> None:
        self.assertEqual(self.altered(ID), [(1,), (2,)])

    def test_another_name(self) -> None:
        self.assertEqual(self.altered(ID, Column("named", 25)), [(1, None), (2, None)])

    def test_another_order(self) -> None:
        self.assertEqual(self.altered(NAME, ID), [("a", 1), ("b", 2)])

    def test_another_type(self) -> None:
        self.assertEqual(
            self.altered(Column("id", 20, -1, True), Column("name", 1043, 14)), [(1, "a"), (2, "b")]
        )
        self.assertEqual(self.altered(Column("id", 25, -1, True), NAME), [("1", "a"), ("2", "b")])
        self.assertEqual(self.altered(Column("id", 701, -1, True), NAME), [(1.0, "a"), (2.0, "b")])
        self.assertEqual([type(it[0]) for it in self.altered(ID, NAME)], [int, int])

    def test_values_are_printed_as_the_server_does(self) -> None:
        types = (16, 17, 20, 700, 701, 701, 701)
        rows: list[list[str | None]] = [
            ["t", "\\x00ff", "-5", "1e+06", "1e+15", "-0.0001", "NaN"],
            ["f", "\\x", "0", "0.1", "1.5", "123456", "1e-05"],
            [None] * 7,
        ]
        was, now = (
            table(2, "t", [Column(f"c{at}", kind or it) for at, it in enumerate(types)], "f")
            for kind in (0, 25)
        )
        self.take(*(insert(*it, of=was) for it in rows))
        self.assertEqual(
            self.after(*(delete(*it, of=now) for it in rows[1:]), of="t"), [tuple(rows[0])]
        )

    def test_another_key(self) -> None:
        self.assertEqual(
            self.altered(Column("id", 23), Column("name", 25, -1, True)), [(1, "a"), (2, "b")]
        )
        self.assertEqual(
            self.rows("SELECT name FROM pragma_table_info('stock') WHERE pk"), [("name",)]
        )
        self.assertEqual(self.altered(ID, NAME, letter="f"), [(1, "a"), (2, "b")])
        self.assertEqual(self.altered(ID, NAME, letter="i"), [(1, "a"), (2, "b")])
        self.assertEqual(
            self.rows("SELECT name FROM pragma_table_info('stock') WHERE pk"), [("id",)]
        )

    def test_a_key_that_holds_once_rows_come_anew(self) -> None:
        """As those of a table that got one by an ALTER, which are copied anew."""
        self.after(insert("1", "a", of=table(letter="f")), insert("1", "a", of=table(letter="f")))
        keys = "SELECT name FROM pragma_table_info('stock') WHERE pk"
        wider = table(columns=[ID, NAME, Column("new", 23, -1, True)])
        one = table(columns=[Column("id", 23), NAME, Column("new", 23, -1, True)])
        for of, key in ((wider, ["id", "new"]), (one, ["new"])):
            self.after(insert("3", "c", None, of=of))
            self.assertEqual(self.rows(keys), [])
            self.repaired(truncate(of), insert("1", "a", "1", of=of), insert("1", "a", "2", of=of))
            self.run_it()
            self.assertEqual(sorted(it for it, in self.rows(keys)), key)
            rows = self.after(update(["1", "a", "2"], ["1", "b", "2"], of=of))
            self.assertEqual(rows, [(1, "a", 1), (1, "b", 2)])
        indexes = "SELECT sql FROM sqlite_schema WHERE type = 'index' AND tbl_name = 'stock'"
        self.assertEqual(self.rows(indexes), [])

    def test_a_key_that_is_null(self) -> None:
        of = table(columns=[Column("id", 23), Column("new", 23, -1, True)])
        self.take(delete("2", "b"), insert("7", "8", of=of))
        told = self.run_it()
        self.assertRegex(told[0], "the table has an index in place of a primary key")
        self.assertEqual(self.after(update(["1", None], ["1", "4"], of=of)), [(1, 4), (7, 8)])
        self.assertEqual(self.after(delete("7", "8", of=of)), [(1, 4)])
        indexes = "SELECT name FROM sqlite_schema WHERE type = 'index' AND tbl_name = 'stock'"
        self.assertEqual(self.rows(indexes), [("key of table 1",)])
        self.take(
            insert(
                "3",
                "3",
                "c",
                of=table(columns=[Column("new", 23, -1, True), Column("id", 23), NAME]),
            ),
            insert("1", "1", of=of),
        )
        self.run_it()
        self.take(insert(None, "1", of=of))
        self.run_it()
        self.take(
            insert(
                "3",
                "3",
                "c",
                of=table(columns=[Column("new", 23, -1, True), Column("id", 23), NAME]),
            )
        )
        self.run_it()
        self.assertEqual(self.rows(indexes), [("key of table 1",)])

    def test_a_key_that_comes_with_null(self) -> None:
        self.assertEqual(
            self.after(insert(None, "x"), update(["1", "a"], [None, "a"])),
            [(None, "a"), (None, "x"), (2, "b")],
        )

    def test_rows_without_a_key_are_found_by_an_index(self) -> None:
        bag, wider = table(2, "bag", letter="f"), table(
            2, "bag", [NAME, ID, Column("more", 25)], letter="f"
        )
        self.take(insert("1", "a", of=bag), insert("1", "b", of=bag), delete("1", "a", of=bag))
        self.run_it()
        self.assertEqual(
            self.after(insert("c", "2", "x", of=wider), delete("b", "1", None, of=wider), of="bag"),
            [("c", 2, "x")],
        )
        plan = self.rows(
            "EXPLAIN QUERY PLAN SELECT rowid FROM bag WHERE (name, id, more) IS ('c', 2, 'x')"
        )
        self.assertIn("rows of table 2", plan[0][3])

    def test_names_that_are_the_same_here(self) -> None:
        was, now = (table(2, "t", [ID, Column("a", 25), Column(name, 25)]) for name in ("A", "A 3"))
        self.take(insert("1", "x", "y", of=was))
        self.assertEqual(
            self.after(insert("2", "x", "y", of=now), of="t"), [(1, "x", None), (2, "x", "y")]
        )
        self.assertEqual([row[1] for row in self.rows("PRAGMA table_info(t)")], ["id", "a", "A 3"])

    def test_keys_that_are_equal_here(self) -> None:
        of = table(columns=[ID, NAME], oid=2, name="t")
        self.take(insert("1", "a", of=of), insert(b"\0\0\0\1", "b", of=of), insert("3", "c", of=of))
        self.run_it()
        self.assertEqual(self.rows("SELECT * FROM t"), [(1, "a"), (1, "b"), (3, "c")])
        self.assertEqual(
            self.after(
                delete(b"\0\0\0\1", "b", of=of), update(["1", "a"], ["1", "z"], of=of), of="t"
            ),
            [(1, "z"), (3, "c")],
        )

    def test_within_a_commit(self) -> None:
        wider = table(columns=[ID, NAME, Column("more", 23)])
        changes = (
            update(["1", "a"], ["1", "x"]),
            update(["1", "x", None], ["1", "x", "7"], of=wider),
            delete("2", "b", None, of=wider),
        )
        self.assertEqual(self.after(*changes), [(1, "x", 7)])


class Names(TablesCase):
    def test_each(self) -> None:
        named = [
            ("public", "stock"),
            ("other", "stock"),
            ("public", 'a"b c'),
            ("", "x"),
            ("public", "sqlite_x"),
            ("public", "pgsub_position"),
            ("public", "select"),
            ("public", "pgsub_old 7"),
        ]
        self.take(
            *(
                insert("1", str(at), of=table(at + 1, name, schema=schema))
                for at, (schema, name) in enumerate(named)
            )
        )
        self.run_it()
        self.assertEqual(
            sorted(self.tables()),
            sorted(
                [
                    "stock",
                    "other.stock",
                    'a"b c',
                    "pg_catalog.x",
                    "_sqlite_x",
                    "_pgsub_position",
                    "select",
                    "_pgsub_old 7",
                ]
            ),
        )
        self.assertEqual(
            self.rows("SELECT * FROM pgsub_tables ORDER BY oid")[1],
            ("other.stock", "other", "stock", 2),
        )

    def test_columns_that_sqlite_cant_tell_apart(self) -> None:
        of = table(columns=[ID, Column("ID", 25), Column("select", 25), Column('a"b', 25)])
        changes = insert("1", "a", "b", "c", of=of), update(
            ["1", "a", "b", "c"], ["1", "x", "y", "z"], of=of
        )
        self.assertEqual(self.after(*changes), [(1, "x", "y", "z")])
        self.assertEqual(
            [row[1] for row in self.rows("PRAGMA table_info(stock)")],
            ["id", "ID 2", "select", 'a"b'],
        )

    def test_equal_but_for_case(self) -> None:
        self.take(
            insert("1", "a"),
            insert("1", "b", of=table(2, "STOCK")),
            insert("1", "c", of=table(3, "Stock 2")),
        )
        self.run_it()
        self.assertEqual(
            self.rows("SELECT name, oid FROM pgsub_tables ORDER BY oid"),
            [("stock", 1), ("STOCK 2", 2), ("Stock 2 3", 3)],
        )
        wider = table(2, "STOCK", [ID, NAME, Column("more", 23)])
        self.assertEqual(
            self.after(
                update(["1", "b", None], ["1", "x", "7"], of=wider), delete("1", "a"), of="STOCK 2"
            ),
            [(1, "x", 7)],
        )
        # (one that is made anew gets its name by the same rule)
        self.assertEqual(
            self.after(insert("5", "new", of=table(9, "STOCK")), of="STOCK 9"), [(5, "new")]
        )
        self.assertEqual(self.tables(), ["STOCK 9", "Stock 2 3", "pgsub_old 2", "stock"])
        self.assertEqual(self.rows("SELECT * FROM stock"), [])

    def test_another_name(self) -> None:
        self.after(insert("1", "a"))
        self.assertEqual(
            self.after(insert("2", "b", of=table(name="Stock")), of="Stock"), [(1, "a"), (2, "b")]
        )
        self.assertEqual(
            self.after(insert("3", "c", of=table(name="new", schema="x")), of="x.new"),
            [(1, "a"), (2, "b"), (3, "c")],
        )
        self.assertEqual(
            (self.tables(), self.rows("SELECT name FROM pgsub_tables")), (["x.new"], [("x.new",)])
        )

    def test_a_name_belongs_to_the_oid_described_last(self) -> None:
        self.after(insert("1", "a"))
        new, old = table(2), table(1, "stock_old")
        self.assertEqual(self.after(insert("7", "new", of=new)), [(7, "new")])
        self.assertEqual(self.tables(), ["pgsub_old 1", "stock"])
        self.assertEqual(self.rows("SELECT name, oid FROM pgsub_tables"), [("stock", 2)])
        self.assertEqual(
            self.after(delete("1", "a", of=old), insert("2", "b", of=old), of="stock_old"),
            [(2, "b")],
        )
        self.assertEqual(self.after(insert("3", "c")), [(2, "b"), (3, "c")])
        self.assertEqual(self.tables(), ["pgsub_old 2", "stock"])

    def test_a_name_goes_and_comes_back_within_a_commit(self) -> None:
        """A definition isn't told again there: that a row follows says whose the name is."""
        for joins in (True, False):
            if not joins:
                self.plant_trigger()
            rows = len(self.after(insert(f"1{joins:d}", "a")))
            found = self.after(
                insert(f"2{joins:d}", "b"),
                insert(f"3{joins:d}", "other", of=table(2)),
                insert(f"4{joins:d}", "c"),
            )
            with self.subTest(joins=joins):
                self.assertEqual(len(found), rows + 2)
                self.assertEqual(self.rows("SELECT oid FROM pgsub_tables"), [(1,)])

    def test_back_to_a_name_that_came_back_within_a_commit(self) -> None:
        other = table(2)
        self.take(insert("1", "a"), insert("3", "other", of=other), insert("4", "c"))
        self.after(insert("5", "d"))
        with logged():
            tables_module.run(self.options(at=0x100), never)
        self.assertEqual(self.rows("SELECT * FROM stock ORDER BY 1"), [(1, "a"), (4, "c")])

    def plant_trigger(self) -> None:
        with contextlib.closing(sqlite3.connect(self.into)) as db:
            db.execute("CREATE TRIGGER mine AFTER DELETE ON stock BEGIN SELECT 1; END")

    def test_a_name_comes_back_without_another_one_between(self) -> None:
        self.after(insert("1", "a"))
        self.after(insert("1", "new", of=table(2)))
        self.assertEqual(self.tables(), ["pgsub_old 1", "stock"])
        # (the definition is the one that was told of it last)
        self.assertEqual(
            self.after(update(["1", "a"], ["1", "b"]), insert("2", "new", of=table(2, "new"))),
            [(1, "b")],
        )
        self.assertEqual(self.tables(), ["new", "stock"])
        self.assertEqual(self.rows("SELECT * FROM new ORDER BY id"), [(1, "new"), (2, "new")])

    def test_names_change_places(self) -> None:
        one, two = table(1, "one"), table(2, "two")
        self.take(insert("1", "a", of=one), insert("2", "b", of=two))
        self.run_it()
        self.take(insert("3", "c", of=table(1, "two")), insert("4", "d", of=table(2, "one")))
        self.run_it()
        self.assertEqual(
            (self.rows("SELECT id FROM two"), self.rows("SELECT id FROM one")),
            ([(1,), (3,)], [(2,), (4,)]),
        )
        self.assertEqual(self.tables(), ["one", "two"])


class Chosen(TablesCase):
    def test_by_name(self) -> None:
        self.take(
            insert("1", "a"),
            insert("1", "b", of=table(2, "other")),
            insert("1", "c", of=table(3, "t", schema="s")),
        )
        self.run_it(table=["stock", "s.t"])
        self.assertEqual(self.tables(), ["s.t", "stock"])
        with self.assertRaisesRegex(Unfit, "was made for these tables: s.t, stock"):
            self.run_it()
        self.take(delete("1", "b", of=table(2, "other")), delete("1", "a"))
        self.run_it(table=["s.t", "stock"])
        self.assertEqual(self.rows("SELECT * FROM stock"), [])

    def test_a_name_that_is_chosen_later(self) -> None:
        self.take(insert("1", "b", of=table(2, "new")))
        self.run_it(table=["stock"])
        self.take(insert("2", "b", of=table(2, "stock")))
        self.run_it(1, table=["stock"])
        self.assertRegex(self.asides()[0][2], "^it had another name before, which wasn't chosen")
        self.take(truncate(table(2, "stock")), insert("3", "c", of=table(2, "stock")))
        self.run_it(table=["stock"])
        self.assertEqual((self.rows("SELECT * FROM stock"), self.asides()), ([(3, "c")], []))

    def test_a_name_that_is_chosen_no_more(self) -> None:
        self.take(insert("1", "a"))
        self.run_it(table=["stock"])
        self.take(insert("2", "b", of=table(1, "old")))
        self.run_it(table=["stock"])
        self.assertEqual(self.tables(), [])


class Beginning(TablesCase):
    def test_names_of_no_table(self) -> None:
        """(A table that is set aside has its name, as one has that has no row.)"""
        self.take(insert("1", "a"), truncate(table(2, "other", schema="sales")))
        aside = table(9, "x", [Column(it, 25) for it in ("rowid", "_rowid_", "oid")], "f")
        self.take(insert("1", "2", "3", of=aside))
        for _ in range(2):
            told = self.run_it(1, table=("stock", "Stock", "sales.other", '"x"'))
            self.assertEqual(
                [it for it in told if it.startswith("warning: --table")],
                ["warning: --table Stock: the feed has told of no such table so far"],
            )

    def test_mode_and_journal(self) -> None:
        self.take(insert("1", "a"))
        self.run_it(mode=0o640)
        self.assertEqual(stat.S_IMODE(os.stat(self.into).st_mode), 0o640)
        self.assertEqual(self.rows("PRAGMA journal_mode"), [("delete",)])
        self.run_it()

    def test_a_feed_that_begins_later(self) -> None:
        self.take(insert("1", "a"))
        self.feed.end()
        self.path.joinpath(f"{0:016X}").unlink()
        with self.assertRaisesRegex(
            Unfit, "the feed begins at 0/100, and there may be rows from before: name the store"
        ):
            self.run_it()
        self.assertFalse(os.path.exists(self.into))
        with logged() as told:
            self.assertEqual(
                main(["tables", "--feed", str(self.path), "--into", self.into, "--once"]), UNFIT
            )
        self.assertRegex(told[0], "^error: .*--base")

    def test_commits_are_gone(self) -> None:
        self.after(insert("1", "a"))
        self.feed.most = 1
        self.take(delete("1", "a"))
        self.take()
        for base in (0, 0x100):
            self.path.joinpath(f"{base:016X}").unlink()
        with self.assertRaisesRegex(
            Unfit, "the feed begins at 0/200, and the commits after 0/100 aren't in it"
        ):
            self.run_it()

    def test_no_feed(self) -> None:
        self.path.joinpath(self.feed.path.name).unlink()
        with self.assertRaisesRegex(Passing, "the feed has no segment yet"):
            self.run_it()
        self.path.rmdir()
        with self.assertRaisesRegex(FileError, "there is no feed"):
            self.run_it()

    def test_another_file(self) -> None:
        with open(self.into, "wb") as file:
            file.write(b"mine")
        # (it may be a store)
        text = "is there and has no tables that follow a feed: name another file$"
        with self.assertRaisesRegex(FileError, text):
            self.run_it()
        words = ["tables", "--feed", str(self.path), "--into", f"{self.folder}/no/rows.db"]
        with logged():
            self.assertEqual(main(words), FILE)
        for name in ("a/b", ".a", "a.new"):
            with self.assertRaises(SystemExit) as ended, contextlib.redirect_stderr(io.StringIO()):
                main([*words, "--reader", name])
            self.assertEqual(ended.exception.code, USAGE)

    def test_a_file_that_is_locked(self) -> None:
        self.after(insert("1", "a"))
        self.take(insert("2", "b"))
        with contextlib.closing(sqlite3.connect(self.into, isolation_level=None)) as base:
            base.execute("BEGIN IMMEDIATE")
            with mock.patch("pgsub_feed.tables.file.BUSY", 0.05), self.assertRaisesRegex(
                Passing, "database is locked"
            ):
                self.run_it()

    def test_another_feed(self) -> None:
        self.after(insert("1", "a"))
        path = self.path.joinpath(self.feed.path.name)
        path.write_bytes(path.read_bytes().replace(b'"slot":"pgsub"', b'"slot":"other"'))
        self.take()
        with self.assertRaisesRegex(
            Unfit,
            "has rows of slot pgsub of database shop, system 7, and the feed is of slot other",
        ):
            self.run_it()

    def test_a_reader(self) -> None:
        self.take(insert("1", "a"))
        self.run_it(reader="rows")
        self.assertEqual((self.path / "readers/rows").read_text(), "0/100\n")

    def test_a_store(self) -> None:
        store = Store(str(self.folder / "copy.db"), 0x100)
        store.table(1, "stock", [(1, "id", 23, -1), (0, "name", 25, -1)])
        store.row(1, "1", "a")
        store.close()
        self.take(insert("1", "a"))
        self.feed.end()
        self.path.joinpath(f"{0:016X}").unlink()
        self.take(update(["1", "a"], ["2", "b"]))
        with mock.patch("pgsub_connect.store.export.log"):
            self.run_it(store=str(self.folder / "copy.db"))
        self.assertEqual(
            (self.rows("SELECT * FROM stock"), self.rows("SELECT lsn FROM pgsub_position")),
            ([(2, "b")], [("0/200",)]),
        )

    def store(self, lsn: int, name: str = "a") -> str:
        store = Store(str(self.folder / "copy.db"), lsn)
        store.table(1, "stock", [(1, "id", 23, -1), (0, "name", 25, -1)])
        store.row(1, "1", name)
        store.close()
        return str(self.folder / "copy.db")

    def beside_another_reader(self, **more: Any) -> list[int]:
        """Begins while another reader keeps up, and returns the bases of the segments that stay."""
        self.take(insert("1", "a"))
        for _ in range(2):
            self.take()
            self.feed.end()
        self.feed.confirm(0x300)

        def go_on() -> None:
            self.take(update(["1", "a"], ["2", "b"]))
            for _ in range(2):
                self.feed.end()
                self.take()
            Noted(str(self.path), "quick", None, 0o600).note(self.at, is_last=True)
            retire(str(self.path), Limits(), self.at, 0.0)

        def export_slowly(settings: ExportSettings, check: Check) -> None:
            export_store(settings, check)
            go_on()

        def copy_slowly(*words: Any) -> None:
            copy(*words)
            go_on()

        patched: Any = (
            mock.patch.object(first_rows, "copy", copy_slowly)
            if "base" in more
            else mock.patch.object(following, "export_store", export_slowly)
        )
        with mock.patch("pgsub_connect.store.export.log"), patched:
            self.run_it(reader="rows", **more)
        self.assertEqual(
            (self.rows("SELECT * FROM stock"), self.rows("SELECT lsn FROM pgsub_position")),
            ([(2, "b")], [("0/600",)]),
        )
        self.assertEqual((self.path / "readers/rows").read_text(), "0/600\n")
        return [base for base, _ in segments(str(self.path))]

    def test_what_a_new_reader_needs_stays(self) -> None:
        with mock.patch.object(following, "is_followed", lambda _: True):
            self.assertEqual(
                self.beside_another_reader(store=self.store(0x300)), [0x300, 0x400, 0x500]
            )

    def test_what_one_needs_that_begins_with_an_older_copy_stays(self) -> None:
        self.assertEqual(
            self.beside_another_reader(store=self.store(0x200)), [0, 0x200, 0x300, 0x400, 0x500]
        )

    def test_what_one_needs_that_begins_with_an_export_stays(self) -> None:
        base = str(self.folder / "base.db")
        with logged():
            export_store(ExportSettings(store=self.store(0x200), into=base), never)
        self.assertEqual(self.beside_another_reader(base=base), [0x200, 0x300, 0x400, 0x500])

    def test_what_one_needs_that_goes_back_behind_the_copy_stays(self) -> None:
        self.take(insert("1", "a"))
        self.feed.end()
        self.take(update(["1", "a"], ["1", "b"]))
        self.feed.end()
        self.take()
        self.feed.confirm(0x300)

        def export_slowly(settings: ExportSettings, check: Check) -> None:
            export_store(settings, check)
            retire(str(self.path), Limits(), self.at, 0.0)

        with mock.patch.object(following, "is_followed", lambda _: True), mock.patch.object(
            following, "export_store", export_slowly
        ):
            self.run_it(reader="rows", store=self.store(0x300, "b"), at=0x100)
        self.assertEqual(
            (self.rows("SELECT * FROM stock"), self.rows("SELECT lsn FROM pgsub_position")),
            ([(1, "a")], [("0/100",)]),
        )

    def test_a_new_reader_of_which_nothing_comes_keeps_nothing(self) -> None:
        self.take()
        with self.assertRaisesRegex(FileError, "there is no store"):
            self.run_it(reader="rows", store=str(self.folder / "none.db"))
        self.assertEqual(os.listdir(self.path / "readers"), [])
        self.path.joinpath(self.feed.path.name).unlink()
        os.rmdir(self.path / "readers")
        with self.assertRaisesRegex(Passing, "the feed has no segment yet"):
            self.run_it(reader="rows")
        # (a follower begins in an empty folder)
        self.assertEqual(os.listdir(self.path), [])

    def test_a_store_with_names_that_sqlite_cant_tell_apart(self) -> None:
        store = Store(str(self.folder / "copy.db"), 0x100)
        store.table(1, "stock", [(1, "id", 23, -1), (0, "ID", 25, -1), (0, "Id", 25, -1)])
        store.row(1, "1", "a", "b")
        store.close()
        self.take()
        self.take(
            update(
                ["b", "1", "a"],
                ["c", "1", "a"],
                of=table(columns=[Column("Id", 25), ID, Column("ID", 25)]),
            )
        )
        with mock.patch("pgsub_connect.store.export.log"):
            self.run_it(store=str(self.folder / "copy.db"))
        self.assertEqual(self.rows("SELECT * FROM stock"), [("c", 1, "a")])

    def test_an_export_with_names_that_are_equal_but_for_case(self) -> None:
        store = Store(str(self.folder / "copy.db"), 0x100)
        for oid, name in ((1, "stock"), (2, "Stock")):
            store.table(oid, name, [(1, "id", 23, -1)])
        store.close()
        self.take()
        base = str(self.folder / "base.db")
        with logged():
            export_store(ExportSettings(store=str(self.folder / "copy.db"), into=base), never)
        self.run_it(base=base)
        self.assertEqual(
            self.rows("SELECT name, oid FROM pgsub_tables ORDER BY oid"),
            [("stock", 1), ("Stock 2", 2)],
        )
        self.assertEqual(
            self.after(
                insert("5", of=table(2, "Stock", [ID])),
                insert("6", of=table(columns=[ID])),
                of="Stock 2",
            ),
            [(5,)],
        )
        self.assertEqual(self.rows("SELECT * FROM stock"), [(6,)])
        os.unlink(self.into)
        self.run_it(base=base, table=["Stock"])
        self.assertEqual(
            self.rows('SELECT schema, "table", oid FROM pgsub_tables'), [("public", "Stock", 2)]
        )

    def test_an_export_of_a_table_without_columns(self) -> None:
        """It has rows, also where one of them goes once the table has a column."""
        store = Store(str(self.folder / "copy.db"), 0x100)
        store.table(1, "bare", [], letter="f")
        store.row(1, key=None, copies=3)
        store.close()
        self.take()
        one = table(1, "bare", [Column("a", 23)], letter="f")
        self.take(delete(None, of=one), insert("7", of=one))
        with mock.patch("pgsub_connect.store.export.log"):
            self.run_it(store=str(self.folder / "copy.db"))
        self.assertEqual(self.rows("SELECT * FROM bare"), [(None,), (None,), (7,)])
        os.unlink(self.into)
        self.feed.path.unlink()
        self.feed.at = self.at = 0
        self.feed.begin()
        self.take()
        none = table(1, "bare", [], letter="f")
        self.take(delete(of=none), insert(of=none), insert(of=none))
        with mock.patch("pgsub_connect.store.export.log"):
            self.run_it(store=str(self.folder / "copy.db"))
        self.assertEqual(self.rows("SELECT * FROM bare"), [(None,)] * 4)

    def test_an_export(self) -> None:
        store = Store(str(self.folder / "copy.db"), 0x300)
        described = [(1, "id", 23, -1), (0, "name", 25, -1)]
        store.table(1, "stock", described)
        store.row(1, "1", "a")
        store.table(2, "bag", described, letter="f")
        store.row(2, "5", None, key=None, copies=2)
        store.table(3, "idle", described)
        store.row(3, "1", "idle")
        store.close()
        base = str(self.folder / "base.db")
        with logged():
            export_store(ExportSettings(store=str(self.folder / "copy.db"), into=base), never)
        bag, wider = table(2, "bag", letter="f"), table(columns=[ID, NAME, Column("more", 23)])
        self.at = self.feed.at = 0x200
        self.feed.begin()
        self.path.joinpath(f"{0:016X}").unlink()
        self.take(insert("99", "before"))
        self.take(
            update(["1", "a"], ["1", "b"]),
            delete("5", None, of=bag),
            insert("2", "c", "7", of=wider),
        )
        with self.assertRaisesRegex(FileError, "it is no export"):
            self.run_it(base=str(self.folder / "copy.db"))
        self.run_it(base=base, table=["stock", "bag"])
        self.assertEqual(self.rows("SELECT * FROM stock"), [(1, "b", None), (2, "c", 7)])
        self.assertEqual(
            (self.rows("SELECT * FROM bag"), self.tables()), ([(5, None)], ["bag", "stock"])
        )
        self.assertEqual(self.rows("SELECT lsn FROM pgsub_position"), [("0/400",)])
        self.run_it(base=base, table=["stock", "bag"])


class Initial(TablesCase):
    def setUp(self) -> None:
        super().setUp()
        self.init = str(self.folder / "init.sql")

    def write(self, text: str) -> None:
        with open(self.init, "w", encoding="utf-8") as file:
            file.write(text)

    def test_indexes_and_views_last(self) -> None:
        self.write(
            "CREATE INDEX i ON stock (name); CREATE VIEW IF NOT EXISTS v AS SELECT id, ';' FROM stock;\n-- end\n"
        )
        self.take(insert("1", "a"))
        told = self.run_it(init=self.init)
        self.assertEqual(len(told), 1)
        self.assertRegex(told[0], "passed over, no such table: main.stock: CREATE INDEX")
        self.take(insert("2", "b", "x", of=table(columns=[ID, Column("more", 25), NAME])))
        self.run_it(init=self.init)
        self.assertEqual(
            self.rows("SELECT name FROM sqlite_schema WHERE name IN ('i', 'v') ORDER BY 1"),
            [("i",), ("v",)],
        )
        self.assertEqual(self.rows("SELECT * FROM v"), [(1, ";"), (2, ";")])

    def test_what_it_may_not(self) -> None:
        self.take(insert("1", "a"))
        for text, told in (
            ("COMMIT", "not authorized"),
            ("CREATE TABL x", "syntax error"),
            ("ATTACH 'x' AS y", "not authorized"),
        ):
            self.write(text)
            with self.assertRaisesRegex(FileError, told):
                self.run_it(init=self.init)
        with self.assertRaisesRegex(FileError, "No such file"):
            self.run_it(init=self.init + ".none")
        self.write("CREATE UNIQUE INDEX u ON stock (name)")
        self.run_it(init=self.init)
        self.run_it()
        self.take(insert("2", "a"))
        self.run_it(1)
        told = (
            "UNIQUE constraint failed: stock.name: something of the user's in the file forbids it"
        )
        self.assertEqual((self.asides(), self.tables()), ([("public.stock", "0/200", told)], []))

    def test_a_disk_that_is_full(self) -> None:
        """It may have room later, so whatever starts this again goes on."""
        self.take(insert("1", "a"))
        self.run_it()
        self.write("PRAGMA max_page_count = 1; CREATE TABLE large AS SELECT zeroblob(1000000)")
        with logged(), self.assertRaisesRegex(Passing, "disk is full"):
            tables_module.run(self.options(init=self.init), never)
        self.assertEqual((self.rows("SELECT * FROM stock"), self.tables()), ([(1, "a")], ["stock"]))


class Waiting(TablesCase):
    def test_what_is_there(self) -> None:
        self.take(insert("1", "a"))
        self.run_it()
        self.assertEqual([self.has_all(it) for it in (0x50, 0x100, 0x101)], [True, True, False])
        self.feed.confirm(0x180)
        self.assertEqual([self.has_all(it) for it in (0x180, 0x181)], [True, False])
        self.take(insert("2", "a"))
        self.feed.confirm(0x280)
        self.assertEqual([self.has_all(it, str(self.path)) for it in (0x180, 0x200)], [True, False])
        awaited = Awaited(self.into, None, 0x280)
        self.take(insert("3", "a"))
        self.assertFalse(awaited.is_there())
        self.run_it()
        self.assertTrue(awaited.is_there())

    def test_a_feed_that_was_moved(self) -> None:
        self.take(insert("1", "a"))
        self.run_it()
        self.path = self.path.rename(self.folder / "moved.feed")
        self.feed.folder, self.feed.path = self.path, self.path / self.feed.path.name
        self.feed.confirm(0x180)
        self.run_it()
        self.assertTrue(self.has_all(0x180))

    def test_a_feed_whose_path_is_no_utf_8(self) -> None:
        """Whether the file is made by it, or goes on there."""
        self.take(insert("1", "a"))
        for name in (b"moved\xff.feed", b"again\xc3.feed"):
            self.path = self.path.rename(self.folder / os.fsdecode(name))
            self.feed.folder, self.feed.path = self.path, self.path / self.feed.path.name
            self.run_it()
            self.assertEqual(read_position(self.into), (0x100, str(self.path)))
            with contextlib.closing(View(self.into, never)) as view:
                self.assertEqual(view.folder, str(self.path))
        self.feed.confirm(0x180)
        self.assertTrue(self.has_all(0x180))

    def has_all(self, lsn: int, feed: str | None = None) -> bool:
        return Awaited(self.into, feed, lsn).is_there()

    def test_command(self) -> None:
        self.take(insert("1", "a"))
        self.run_it()
        self.assertEqual(main(["wait", "0/100", "--tables", self.into]), 0)
        with logged() as told:
            self.assertEqual(main(["wait", "0/200", "--tables", self.into, "--within", "0.05"]), 7)
            self.assertEqual(main(["wait", "0/200", "--tables", self.into + "x"]), FILE)
        self.assertRegex(told[0], "is at 0/100, and 0/200 wasn't reached in 0.05 seconds")
