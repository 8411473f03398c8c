"""Ordinary tables from a store: names, types, keys, what is told, and what is left where it fails.
"""

from __future__ import annotations

import contextlib
import dataclasses
import math
import os
import sqlite3
import stat
import tracemalloc
import unittest
from collections.abc import Sequence
from typing import Any
from unittest import mock

from pgsub_connect.cli import main
from pgsub_connect.drift.remembered import Remembered
from pgsub_connect.store import export as export_module
from pgsub_connect.store.export import ExportSettings, export_store
from pgsub_feed.errors import FILE, UNFIT, USAGE, FileError, Passing, Stopped, Unfit, UsageError
from pgsub_feed.interruption import never
from pgsub_feed.relation import Relation
from pgsub_feed.sinks.first_rows import exported
from pgsub_feed.tables.values import ALL_TEXT

from .stores import StoreCase, spelled
from .vectors import ID, NAME, a_catalog, a_shape, a_table, logged

TYPES = {
    "int2": 21,
    "int4": 23,
    "int8": 20,
    "bool": 16,
    "bytea": 17,
    "float4": 700,
    "float8": 701,
    "numeric": 1700,
    "date": 1082,
    "odd": 99999,
}
OTHERS = ((0, "a", 23, -1), (1, "b", 25, -1), (0, "c", 23, -1))


class Case(StoreCase):
    def settings(self, **more: Any) -> ExportSettings:
        chosen: dict[str, Any] = {"store": self.path, "into": self.into, **more}
        return ExportSettings(**chosen)

    def export(self, **more: Any) -> list[str]:
        """Exports, and returns what is told beside the last line."""
        with logged() as told:
            export_store(self.settings(**more), never)
        self.assertEqual(self.left(), [])
        return told[:-1]

    def left(self) -> list[str]:
        """Files that nobody wanted."""
        return sorted(
            set(os.listdir(self.folder))
            - {"copy.db", "copy.db-wal", "rows.db", "copy.db.tables", "copy.db.connector"}
        )

    def rows(self, query: str) -> list[Any]:
        with contextlib.closing(sqlite3.connect(self.into)) as base:
            return base.execute(query).fetchall()

    def tables(self) -> list[str]:
        names = self.rows(
            "SELECT name FROM sqlite_schema WHERE type = 'table' AND name NOT LIKE 'pgsub%' ORDER BY 1"
        )
        return [name for (name,) in names]


class Chosen(Case):
    def test_how_far_it_is(self) -> None:
        self.store.table(7, "t")
        for number in "12":
            self.store.row(7, number, "x")
        with mock.patch("pgsub_feed.log.WRITTEN", -1.0):
            self.assertEqual(self.export(form=ALL_TEXT), ["exporting: 2 of 2 rows, 0 a second"])
            with logged() as told, exported(self.into, ()) as base:
                self.assertEqual(
                    [list(base.rows(it)) for it in base.tables()], [[["1", "x"], ["2", "x"]]]
                )
        self.assertEqual(told, ["writing public.t (7): 0 of 2 rows, 0 a second"])

    def test_by_name(self) -> None:
        for oid, schema in ((1, "public"), (2, "other"), (3, "")):
            self.store.table(oid, "t", [(1, "id", 23, -1)], schema=schema)
            self.store.row(oid, str(oid))
        for names, tables in (
            (["t", "pg_catalog.t"], ["pg_catalog.t", "t"]),
            (["other.t"], ["other.t"]),
            (["public.t"], ["t"]),
        ):
            self.export(chosen=names)
            self.assertEqual(
                (self.tables(), len(self.rows(f'SELECT * FROM "{tables[0]}"'))), (tables, 1)
            )
        with logged(), self.assertRaisesRegex(FileError, "the store has no table x"):
            export_store(self.settings(chosen=["t", "x"]), never)
        self.assertEqual(self.left(), [])

    def test_command(self) -> None:
        self.store.table(1, "t", [(1, "id", 23, -1)])
        with logged():
            self.assertEqual(
                main(["export", "--store", self.path, "--into", self.into, "--table", "t"]), 0
            )


class Types(Case):
    def of(self, columns: Sequence[str], *rows: Sequence[str | bytes | None]) -> None:
        self.store.table(
            1, "t", [(0, f"c{at}", TYPES[it], -1) for at, it in enumerate(columns)], letter="f"
        )
        for row in rows:
            self.store.row(1, *row, key=None)

    def test_each(self) -> None:
        self.of(
            list(TYPES),
            [
                "-32768",
                "2147483647",
                "-9223372036854775808",
                "t",
                "\\x00ff",
                "1.5",
                "-1e+20",
                "1.0",
                "2026-11-25",
                "{1,NULL}",
            ],
            [None] * 10,
        )
        self.export()
        self.assertEqual(
            self.rows("SELECT * FROM t"),
            [
                (
                    -32768,
                    2147483647,
                    -(1 << 63),
                    1,
                    b"\0\xff",
                    1.5,
                    -1e20,
                    1.0,
                    "1.0",
                    "2026-11-25",
                    "{1,NULL}",
                ),
                (None,) * 11,
            ],
        )
        kinds = [row[2] for row in self.rows("PRAGMA table_info(t)")]
        self.assertEqual(
            kinds, ["INTEGER"] * 4 + ["BLOB", "ANY", "ANY", "REAL", "TEXT", "TEXT", "TEXT"]
        )
        self.assertEqual(
            self.rows("SELECT strict, wr FROM pragma_table_list WHERE name = 't'"), [(1, 0)]
        )

    def test_floats(self) -> None:
        texts = [
            "NaN",
            "Infinity",
            "-Infinity",
            "5",
            "-0",
            "0.1",
            "1.7976931348623157e+308",
            "5e-324",
        ]
        self.of(["float8"], *([it] for it in texts))
        self.export()
        found = self.rows("SELECT c0, typeof(c0) FROM t")
        self.assertEqual(found[0], ("NaN", "text"))
        self.assertEqual(found[1:], [(float(it), "real") for it in texts[1:]])

    def test_bytea(self) -> None:
        self.of(["bytea"], ["\\x"], ["\\x5c"], ["a\\\\b\\000\\377"], [""])
        self.export()
        self.assertEqual(
            [it for (it,) in self.rows("SELECT c0 FROM t")], [b"", b"\\", b"a\\b\0\xff", b""]
        )

    def test_texts_stay_what_they_are(self) -> None:
        self.of(["odd"], ["1"], ["1.0"], ["ä\n'\"€𝄞"], [""], ["x" * 100000])
        self.export()
        self.assertEqual(
            [it for (it,) in self.rows("SELECT c0 FROM t")],
            ["1", "1.0", "ä\n'\"€𝄞", "", "x" * 100000],
        )

    def test_binary_values(self) -> None:
        self.store.table(
            1,
            "t",
            [
                (1, "a", 23, -1),
                (0, "b", 701, -1),
                (0, "c", 25, -1),
                (0, "d", 17, -1),
                (0, "e", 16, -1),
            ],
        )
        self.store.row(1, b"\0\0\1\0", b"\x7f\xf0" + bytes(6), b"x", b"\0", b"\1")
        self.export()
        self.assertEqual(self.rows("SELECT * FROM t"), [(256, math.inf, "x", b"\0", 1)])

    def test_values_of_another_type(self) -> None:
        values: list[tuple[str, str | bytes]] = [
            ("int4", "1.5"),
            ("int4", "1_0"),
            ("int4", ""),
            ("int8", "9223372036854775808"),
            ("bool", "true"),
            ("bytea", "\\x0"),
            ("bytea", "a\\b"),
            ("float8", "nan"),
            ("float8", "1_0"),
            ("float4", " 1"),
            ("date", b"\0"),
        ]
        for kind, text in values:
            with self.subTest(kind=kind, text=text):
                self.store.base.executescript("DELETE FROM rel; DELETE FROM held")
                self.of([kind], [text])
                with self.assertRaisesRegex(
                    Unfit, r"public.t \(1\): the column c0 has a value that isn't one of its type"
                ):
                    export_store(self.settings(), never)
                self.assertFalse(os.path.exists(self.into))
                self.assertEqual(self.left(), [])
                if isinstance(text, str):
                    self.export(form=ALL_TEXT)
                    self.assertEqual(self.rows("SELECT c0, typeof(c0) FROM t"), [(text, "text")])
                    os.unlink(self.into)


class Keys(Case):
    def info(self, table: str) -> list[tuple[str, int]]:
        return [(row[1], row[5]) for row in self.rows(f"PRAGMA table_info({table})")]

    def test_of_definitions(self) -> None:
        two: Sequence[tuple[int, str, int, int]] = [
            (0, "x", 25, -1),
            (1, "b", 25, -1),
            (1, "a", 23, -1),
        ]
        for oid, (name, letter) in enumerate([("d", "d"), ("i", "i"), ("f", "f"), ("n", "n")], 1):
            self.store.table(oid, name, two, letter=letter)
        self.export()
        for name in "di":
            self.assertEqual(self.info(name), [("x", 0), ("b", 1), ("a", 2)])
        for name in "fn":
            self.assertEqual(self.info(name), [("x", 0), ("b", 0), ("a", 0)])

    def remember(self, *primary: str) -> None:
        """The server has this primary key of a table with REPLICA IDENTITY FULL, and of one whose
        identity is an index of b."""
        remembered = Remembered(self.path)
        tables = [a_table(oid, name, a_shape(OTHERS, name)) for oid, name in enumerate("fi", 1)]
        remembered.begin(a_catalog(*(dataclasses.replace(it, primary=primary) for it in tables)))
        remembered.save()
        for it in tables:
            self.store.table(it.oid, it.name, OTHERS, letter=it.name)

    def test_primary_where_the_identity_is_another(self) -> None:
        self.remember("c", "a")
        for oid in (1, 2):
            self.store.row(oid, "1", "x", "1", key=None)
            self.store.row(oid, "1", "y", "2", key=None)
        self.assertEqual(self.export(), [])
        for name in "fi":
            self.assertEqual(self.info(name), [("a", 1), ("b", 0), ("c", 2)])
            self.assertEqual(self.rows(f"SELECT * FROM {name}"), [(1, "x", 1), (1, "y", 2)])

    def test_primary_that_doesnt_fit(self) -> None:
        """The catalog is newer, and has a column that the rows lack, or one that is null in them,
        or rows have equal keys."""
        self.remember("a", "new")
        told = self.export()
        self.assertRegex(told[0], "public.f .1.: the stream doesn't have new of the primary key")
        self.assertEqual(self.info("f"), [("a", 0), ("b", 0), ("c", 0)])
        self.assertEqual(self.info("i"), [("a", 0), ("b", 1), ("c", 0)])
        for other in (None, "1"):
            os.unlink(self.into)
            self.store.base.executescript("DELETE FROM rel; DELETE FROM held")
            self.remember("c")
            self.store.row(1, "1", "x", "1", key=None)
            self.store.row(1, "2", "x", other, key=None)
            self.assertRegex(self.export()[0], "public.f .1.: rows have null in the key, or equal")
            self.assertEqual(self.info("f"), [("a", 0), ("b", 0), ("c", 0)])
            self.assertEqual(self.rows("SELECT a FROM f ORDER BY 1"), [(1,), (2,)])

    def test_equal_rows(self) -> None:
        self.store.table(1, "t", letter="f")
        self.store.row(1, "1", "a", key=None, copies=3)
        self.store.row(1, "2", None, key=None)
        self.export()
        self.assertEqual(self.rows("SELECT * FROM t"), [(1, "a")] * 3 + [(2, None)])

    def test_a_number_is_the_rowid(self) -> None:
        self.store.table(1, "t")
        self.store.row(1, "7", "a")
        self.export()
        self.assertEqual(self.rows("SELECT rowid, * FROM t"), [(7, 7, "a")])

    def test_null_in_a_key(self) -> None:
        """As where key columns were altered: rows from before have none."""
        for oid, kind in ((1, 23), (2, 25)):
            self.store.table(oid, f"t{oid}", [(1, "a", kind, -1), (1, "b", kind, -1)])
            for a, b in (("1", "1"), ("2", None), ("3", "3"), (None, "1")):
                self.store.row(oid, a, b, key=2)
        self.store.table(3, "one", [(1, "a", 23, -1)])
        self.store.row(3, "5")
        self.store.row(3, None)
        with mock.patch.object(export_module, "ROOM", 0):
            told = self.export()
        self.assertEqual(["null in the key" in it for it in told], [True] * 3)
        self.assertEqual(self.rows("SELECT * FROM t1"), [(1, 1), (2, None), (3, 3), (None, 1)])
        self.assertEqual(self.rows("SELECT * FROM one"), [(5,), (None,)])
        self.assertEqual(len(self.rows("SELECT * FROM pragma_index_list('t2')")), 1)

    def test_equal_keys(self) -> None:
        """Keys whose texts differ and whose values don't."""
        self.store.table(1, "t", [(1, "a", 701, -1), (0, "b", 25, -1)])
        for key in ("0", "-0", "1"):
            self.store.row(1, key, key)
        for room in (0, 1 << 20):
            with mock.patch.object(export_module, "ROOM", room):
                self.assertIn("equal keys", self.export()[0])
            self.assertEqual(self.rows("SELECT a, b FROM t"), [(0.0, "0"), (0.0, "-0"), (1.0, "1")])


class Names(Case):
    def test_schemas(self) -> None:
        self.store.table(1, "t")
        self.store.table(2, "t", schema="shop")
        self.store.table(3, "t", schema="")
        self.store.row(2, "1", "x")
        self.export()
        self.assertEqual(self.tables(), ["pg_catalog.t", "shop.t", "t"])
        self.assertEqual(self.rows('SELECT name FROM "shop.t"'), [("x",)])
        self.assertEqual(
            self.rows("SELECT * FROM pgsub_tables ORDER BY oid"),
            [
                ("t", "public", "t", 1),
                ("shop.t", "shop", "t", 2),
                ("pg_catalog.t", "pg_catalog", "t", 3),
            ],
        )

    def test_that_sqlite_cant_tell_apart(self) -> None:
        for oid, (schema, name) in enumerate(
            [
                ("public", "T"),
                ("public", "t"),
                ("public", "a.b"),
                ("a", "b"),
                ("public", "sqlite_stat1"),
                ("public", "pgsub_position"),
                ("public", "PGSUB_TABLES"),
                ("public", "pgsub_old"),
                ("public", "t 2"),
            ],
            1,
        ):
            self.store.table(oid, name, schema=schema)
            self.store.row(oid, str(oid), name)
        self.assertEqual(self.export(), [])
        names = {oid: name for name, oid in self.rows("SELECT name, oid FROM pgsub_tables")}
        self.assertEqual(
            names,
            {
                1: "T",
                2: "t 2",
                3: "a.b",
                4: "a.b 4",
                5: "_sqlite_stat1",
                6: "_pgsub_position",
                7: "_PGSUB_TABLES",
                8: "_pgsub_old",
                9: "t 2 9",
            },
        )
        for oid, name in names.items():
            self.assertEqual(self.rows(f'SELECT id FROM "{name}"'), [(oid,)])
        self.assertEqual(self.rows("SELECT lsn FROM pgsub_position"), [("0/130",)])

    def test_that_need_quotes(self) -> None:
        name = 'se"lect; --\n' + "ö"
        columns = [
            (1, 'a"b', 23, -1),
            (0, "select", 25, -1),
            (0, "A", 25, -1),
            (0, "a", 25, -1),
            (0, "rowid", 25, -1),
        ]
        self.store.table(1, name, columns)
        self.store.row(1, "1", "x", "y", "z", "w")
        self.export()
        quoted = name.replace('"', '""')
        self.assertEqual(
            self.rows(f'SELECT "a""b", "select", "A", "a 4", "rowid" FROM "{quoted}"'),
            [(1, "x", "y", "z", "w")],
        )

    def test_without_columns(self) -> None:
        self.store.table(1, "t", [], letter="f")
        self.store.row(1, key=None, copies=2)
        self.assertEqual(self.export(), [])
        self.assertEqual(self.rows("SELECT * FROM t"), [(None,), (None,)])
        self.export(form=ALL_TEXT)
        self.assertEqual(self.rows("SELECT pgsub_none FROM t"), [(None,), (None,)])

    def test_with_the_column_that_a_table_without_any_gets(self) -> None:
        self.store.table(1, "t", [(0, "pgsub_none", 25, -1)], letter="f")
        self.store.row(1, "x")
        self.export()
        self.assertEqual(self.rows("SELECT pgsub_none FROM t"), [("x",)])


class SeveralOfOneName(Case):
    def setUp(self) -> None:
        super().setUp()
        for oid in (5, 9):
            self.store.table(oid, "t")
            self.store.row(oid, "1", f"of {oid}")

    def exported(self) -> Any:
        self.assertIn("another table had this name before", " ".join(self.export()))
        return self.rows("SELECT name FROM t")

    def remember(self, oid: int, since: int) -> None:
        remembered = Remembered(self.path)
        remembered.begin(a_catalog(a_table(oid, "t"), lsn=since))
        remembered.save()

    def test_the_last_one(self) -> None:
        self.assertEqual(self.exported(), [("of 9",)])

    def test_what_is_remembered(self) -> None:
        """OIDs may begin again."""
        self.remember(5, 0x100)
        self.assertEqual(self.exported(), [("of 5",)])

    def test_what_came_after_the_position(self) -> None:
        self.remember(5, 0x200)
        self.assertEqual(self.exported(), [("of 9",)])

    def test_one_that_has_no_rows_yet(self) -> None:
        self.remember(12, 0x100)
        self.assertEqual(self.exported(), [])
        self.remember(12, 0x200)
        self.assertEqual(self.exported(), [("of 9",)])


class WhatIsRemembered(Case):
    def test_published_tables_without_rows(self) -> None:
        remembered = Remembered(self.path)
        remembered.begin_copy(
            a_catalog(a_table(1, "t"), a_table(2, "u", a_shape([ID, NAME], "f"), schema="shop")),
            100,
        )
        remembered.save()
        self.export()
        self.assertEqual(self.tables(), ["shop.u", "t"])
        self.assertEqual([row[5] for row in self.rows("PRAGMA table_info(t)")], [1, 0])

    def test_the_shape_of_the_store(self) -> None:
        """What the server has altered since comes with the next change."""
        remembered = Remembered(self.path)
        remembered.begin_copy(
            a_catalog(a_table(1, "t", a_shape([ID, NAME, (0, "more", 25, -1)]))), 100
        )
        remembered.save()
        self.store.table(1, "t")
        self.store.row(1, "1", "x")
        self.export()
        self.assertEqual(self.rows("SELECT * FROM t"), [(1, "x")])

    def test_a_name_since_the_position(self) -> None:
        self.store.table(1, "old")
        for since, name in ((0x100, "new"), (0x200, "old")):
            remembered = Remembered(self.path)
            remembered.begin(a_catalog(a_table(1, "new"), lsn=since))
            remembered.save()
            self.export()
            self.assertEqual(self.tables(), [name])

    def test_rows_of_a_table_that_is_gone(self) -> None:
        self.store.table(1, "t")
        self.store.row(1, "1", "x")
        remembered = Remembered(self.path)
        remembered.begin(a_catalog(lsn=0x100))
        remembered.note(Relation(7, "public", "u", a_shape()), 0x110, -1)
        remembered.save()
        self.export()
        self.assertEqual(self.rows("SELECT * FROM t"), [(1, "x")])


class Files(Case):
    def setUp(self) -> None:
        super().setUp()
        self.store.table(1, "t")
        self.store.row(1, "1", "x")

    def test_mode_and_position(self) -> None:
        for mode in (0o600, 0o640):
            self.export(mode=mode)
            self.assertEqual(stat.S_IMODE(os.stat(self.into).st_mode), mode)
        self.store.move(0x16B374D848)
        with logged() as told:
            export_store(self.settings(), never)
        self.assertEqual(self.rows("SELECT lsn FROM pgsub_position"), [("16/B374D848",)])
        self.assertEqual(told, [f"{self.into}: 1 table, 1 row at 16/B374D848"])

    def test_an_earlier_export_is_replaced(self) -> None:
        self.export()
        reader = sqlite3.connect(self.into)
        self.addCleanup(reader.close)
        self.assertEqual(reader.execute("SELECT name FROM t").fetchall(), [("x",)])
        self.store.row(1, "2", "y")
        self.export()
        self.assertEqual(self.rows("SELECT name FROM t"), [("x",), ("y",)])

    def test_a_link_leads_to_it(self) -> None:
        """It stays, whether what it leads to is there already or not."""
        os.mkdir(self.folder + "/far")
        os.symlink("far/rows.db", self.into)
        for count in (1, 2):
            with logged():
                export_store(self.settings(), never)
            self.assertTrue(os.path.islink(self.into))
            self.assertEqual(os.listdir(self.folder + "/far"), ["rows.db"])
            self.assertEqual(self.rows("SELECT count(*) FROM t"), [(count,)])
            self.store.row(1, f"{count + 1}", "y")
        os.unlink(self.into)
        os.symlink("rows.db", self.into)
        with self.assertRaisesRegex(FileError, "rows.db"):
            export_store(self.settings(), never)

    def test_anything_else_is_kept(self) -> None:
        with open(self.into, "w") as file:
            file.write("mine")
        # (it may be tables that follow a feed: nobody is told to remove them)
        with self.assertRaisesRegex(FileError, "is there and isn't an export: name another file"):
            export_store(self.settings(), never)
        os.unlink(self.into)
        sqlite3.connect(self.into).execute("CREATE TABLE t (a)").connection.close()
        self.assertEqual(main(["export", "--store", self.path, "--into", self.into]), FILE)
        self.assertEqual(self.rows("SELECT name FROM sqlite_schema"), [("t",)])
        os.unlink(self.into)
        os.mkdir(self.into)
        with self.assertRaisesRegex(FileError, "is there and isn't an export"):
            export_store(self.settings(), never)

    def test_files_of_the_store_itself(self) -> None:
        for ending in ("", "-wal", ".connector", ".tables", ".repeats"):
            settings = self.settings(into=self.path + ending)
            with self.assertRaisesRegex(UsageError, "file of the store itself"):
                export_store(settings, never)
        os.symlink(self.path, self.folder + "/link")
        self.assertEqual(
            main(["export", "--store", self.path, "--into", self.folder + "/link"]), USAGE
        )

    def test_no_folder(self) -> None:
        settings = self.settings(into=self.folder + "/gone/rows.db")
        with self.assertRaisesRegex(FileError, "there is no folder"):
            export_store(settings, never)

    def test_no_store(self) -> None:
        os.unlink(self.path)
        os.mkdir(self.folder + "/far")
        for leads in (False, True):
            if leads:
                os.symlink("far/shop.db", self.path)
            with self.assertRaisesRegex(FileError, "there is no store"):
                export_store(self.settings(), never)
        os.unlink(self.path)
        os.mkdir(self.path)
        with self.assertRaisesRegex(FileError, "not a file"):
            export_store(self.settings(), never)

    def test_what_is_no_store(self) -> None:
        self.export()
        os.rename(self.into, self.folder + "/earlier.db")
        settings = self.settings(store=self.folder + "/earlier.db")
        with self.assertRaisesRegex(FileError, "it is an export, and no store"):
            export_store(settings, never)
        with open(self.folder + "/text", "w") as file:
            file.write("text" * 1000)
        settings = self.settings(store=self.folder + "/text")
        with self.assertRaisesRegex(FileError, "isn't a store"):
            export_store(settings, never)
        self.assertFalse(os.path.exists(self.into))

    def test_what_is_spoiled(self) -> None:
        good = spelled(["1", "x"])
        for body in (
            b"",
            good[:-1],
            good + b"x",
            b"\0\1" + good[2:],
            b"\0\3" + good[2:],
            good[:2] + b"u" + good[3:],
            b"\0\2t\0\0",
        ):
            self.store.base.execute("UPDATE held SET body = ?", (body,))
            with self.assertRaisesRegex(FileError, "malformed"):
                export_store(self.settings(), never)
        for column, value in (("cols", b"\0\1"), ("cols", b"\0\1\1id\0\0\0"), ("cols", b"")):
            self.store.base.execute(f"UPDATE rel SET {column} = ?", (value,))
            with self.assertRaisesRegex(FileError, "malformed"):
                export_store(self.settings(), never)
        for statement in ("UPDATE pos SET lsn = x'00'", "DELETE FROM pos"):
            self.store.base.execute(statement)
            with self.assertRaisesRegex(FileError, "malformed"):
                export_store(self.settings(), never)
        self.assertEqual(self.left(), [])

    def test_a_row_of_no_table(self) -> None:
        self.store.row(2, "1", "x")
        with self.assertRaisesRegex(FileError, "malformed"):
            export_store(self.settings(), never)

    def test_ended_by_a_signal(self) -> None:
        with self.assertRaisesRegex(Passing, "ended before"):
            export_store(self.settings(), mock.Mock(side_effect=Stopped))
        self.assertEqual((self.left(), os.path.exists(self.into)), ([], False))

    def test_an_old_sqlite(self) -> None:
        with mock.patch.object(sqlite3, "sqlite_version_info", (3, 36, 0)):
            with self.assertRaisesRegex(FileError, "SQLite 3.37 or later"):
                export_store(self.settings(), never)

    def test_a_disk_that_is_full(self) -> None:
        with mock.patch.object(
            export_module.Export,
            "begin",
            side_effect=sqlite3.OperationalError("database or disk is full"),
        ):
            with self.assertRaisesRegex(Passing, "disk is full"):
                export_store(self.settings(), never)
        self.assertEqual(self.left(), [])

    def test_the_words(self) -> None:
        with logged() as told:
            self.assertEqual(main(["export", "--store", self.path, "--into", self.into]), 0)
            self.store.base.execute("UPDATE held SET body = ?", (spelled(["x", "x"]),))
            self.assertEqual(main(["export", "--store", self.path, "--into", self.into]), UNFIT)
        self.assertIn("--text", told[-1])


class Memory(Case):
    def test_is_constant(self) -> None:
        def peak(rows: int) -> int:
            self.store.base.executescript("BEGIN; DELETE FROM held")
            for at in range(rows):
                self.store.row(1, str(at), "x" * 1000)
            self.store.base.execute("COMMIT")
            tracemalloc.start()
            try:
                self.export()
                return tracemalloc.get_traced_memory()[1]
            finally:
                tracemalloc.stop()

        self.store.table(1, "t")
        with mock.patch.object(export_module, "ROOM", 1 << 15):
            self.assertLess(peak(1000), 1.3 * peak(250))


if __name__ == "__main__":
    unittest.main()
