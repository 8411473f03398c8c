"""The server's indexes in files of tables, and in exports."""

from __future__ import annotations

import contextlib
import os
import sqlite3
from typing import Any

from pgsub_connect.server.catalog_reader import read_indexes
from pgsub_connect.store.export import ExportSettings, export_store
from pgsub_feed.errors import UsageError
from pgsub_feed.interruption import never
from pgsub_feed.known_tables import Index, KnownTables
from pgsub_feed.reader.following import Following
from pgsub_feed.reader.following import Reading
from pgsub_feed.tables.file import Rows
from pgsub_feed.tables.following import Tables
from pgsub_feed.tables.indexes import Indexes
from pgsub_feed.tables.user_sql import Init

from .fake_server import FakeConnection, FakeServer, Row
from .feeds import insert, table, truncate
from .stores import Store
from .test_feed_keys import COLUMNS, FULL, ID, MORE, NAME, KeysCase, look, put, wider
from .vectors import logged

BY_NAME = Index(11, "by_name", (("name", False),))
BOTH = Index(12, 'a "b"', (("name", True), ("id", False)))
KEY = Index(13, "stock_pkey", (("id", False),))
ALL = "SELECT name FROM sqlite_schema WHERE type = 'index' AND sql IS NOT NULL ORDER BY name"
PLAN = "EXPLAIN QUERY PLAN SELECT * FROM stock WHERE name = 'a'"


class IndexesCase(KeysCase):
    """A feed beside a store, which has rows of its table with a key and indexes."""

    base = 0x500

    def setUp(self) -> None:
        super().setUp()
        self.at = self.base
        made = Store(self.store, self.base)
        self.addCleanup(made.close)
        made.table(1, "stock", COLUMNS, letter="f")
        for row in (("1", "a"), ("2", None)):
            made.row(1, *row, key=None)
        self.known(BY_NAME, BOTH, KEY)

    def known(self, *indexes: Index, primary: str = "id") -> None:
        look(self.store, self.at, primary, indexes=indexes)

    def made(self, **more: Any) -> list[str]:
        """What is told of a run, and the names of the indexes then."""
        self.told = self.run_it(indexes=True, **more)
        return self.names()

    def names(self) -> list[str]:
        return [it for (it,) in self.rows(ALL)]


class Made(IndexesCase):
    def test_after_the_first_rows(self) -> None:
        """As they are on the server, but for that of the key, and used."""
        expected = ["index 11 by_name", 'index 12 a "b"']
        self.assertEqual(self.made(store=self.store), expected)
        self.assertEqual(self.rows("SELECT * FROM stock ORDER BY 1"), [(1, "a"), (2, None)])
        told = 'SELECT name, "desc" FROM pragma_index_xinfo(\'index 12 a "b"\') WHERE key'
        self.assertEqual(self.rows(told), [("name", 1), ("id", 0)])
        self.assertIn('INDEX index 12 a "b" (name=?)', self.rows(PLAN)[0][3])
        self.assertEqual(self.told[1:], [])

    def test_without_the_option(self) -> None:
        self.run_it(store=self.store)
        self.assertEqual(self.names(), [])

    def test_rows_that_are_made_anew(self) -> None:
        """By equal keys, a TRUNCATE, a column less and one more."""
        expected = self.made(store=self.store)
        self.take(put("2", "b"))
        self.assertEqual(self.made(), [*expected, "key of table 1"])
        self.take(truncate(FULL), put("1", "a"))
        self.assertEqual(self.made(), expected)
        self.take(insert("1", "b", "c", of=wider()))
        self.assertEqual(self.made(), [*expected, "key of table 1"])
        self.take(insert("c", of=table(columns=[NAME], letter="f")))
        self.assertEqual(self.made(), ["index 11 by_name"])
        self.assertRegex("".join(self.told), 'without the index a "b": the stream doesn\'t have id')
        self.take(insert("1", "c", of=table(columns=[ID, NAME], letter="f", name="renamed")))
        self.assertEqual(self.made(), ["index 11 by_name", 'index 12 a "b"', "key of table 1"])

    def test_what_is_left_out(self) -> None:
        partial, lacking = Index(14, "p", (), "it is partial"), Index(15, "l", (("x", False),))
        self.known(BY_NAME, partial, lacking)
        self.assertEqual(self.made(store=self.store), ["index 11 by_name"])
        told = (
            "public.stock .1.: without the index p: it is partial.*without the index l: the stream"
        )
        self.assertRegex("".join(self.told), told)

    def test_others_on_the_server(self) -> None:
        """Some are dropped, others are there: at the next start, and while it runs."""
        self.take(put("7", "z"))
        self.made(store=self.store)
        self.known(BOTH, Index(14, "new", (("id", True),)))
        self.assertEqual(self.made(), ['index 12 a "b"', "index 14 new"])
        known = KnownTables(self.store)
        rows = Rows(self.into, known=known, indexes=Indexes(known))
        with contextlib.closing(rows.db), logged():
            tables = Tables(rows, never)
            tables.look()
            self.known(BY_NAME)
            self.take(put("3", "a"))
            Following(Reading(str(self.path), follows=False), tables, never).follow()
            self.assertEqual(self.names(), ['index 12 a "b"', "index 14 new"])
            tables.look()
            self.assertEqual(self.names(), ["index 11 by_name"])
            self.assertEqual(self.rows("SELECT lsn FROM pgsub_position"), [("0/700",)])

    def test_what_isnt_news(self) -> None:
        """The follower has looked again, and seen the same."""
        self.made(store=self.store)
        known = KnownTables(self.store)
        indexes = Indexes(known)
        self.assertTrue(indexes.has_news())
        indexes.make(sqlite3.connect(":memory:"), [])
        self.at += 1
        self.known(BY_NAME, BOTH, KEY)
        self.assertFalse(indexes.has_news())
        self.assertEqual(known.lsn, self.at)

    def test_a_users_own_sql_isnt_run_for_them(self) -> None:
        self.made(store=self.store)
        init, known = self.folder / "init.sql", KnownTables(self.store)
        init.write_text("CREATE TABLE IF NOT EXISTS mine (a); INSERT INTO mine VALUES (1)")
        rows = Rows(self.into, Init(str(init)), known, indexes=Indexes(known))
        with contextlib.closing(rows.db):
            rows.run_init()
            self.known(BY_NAME)
            Tables(rows, never).look()
            self.assertEqual(self.names(), ["index 11 by_name"])
            self.assertEqual(self.rows("SELECT * FROM mine"), [(1,)])

    def test_a_users_own_index_stays(self) -> None:
        self.made(store=self.store)
        with contextlib.closing(sqlite3.connect(self.into)) as base:
            base.execute('CREATE INDEX "index of mine" ON stock (name)')
        self.known()
        self.assertEqual(self.made(), ["index of mine"])

    def test_without_a_store(self) -> None:
        os.unlink(self.store + ".connector")
        with self.assertRaisesRegex(UsageError, "--indexes needs the store .* by --store"):
            self.made()


class Exports(IndexesCase):
    def test_with_indexes(self) -> None:
        path = str(self.folder / "export.db")
        self.known(BY_NAME, KEY, Index(14, "h", (), "it is of hash"))
        with logged() as told:
            export_store(ExportSettings(self.store, path, has_indexes=True), never)
        with contextlib.closing(sqlite3.connect(path)) as base:
            self.assertEqual(base.execute(ALL).fetchall(), [("index 11 by_name",)])
        self.assertRegex(told[0], "public.stock .1.: without the index h: it is of hash")
        with logged():
            export_store(ExportSettings(self.store, path), never)
        with contextlib.closing(sqlite3.connect(path)) as base:
            self.assertEqual(base.execute(ALL).fetchall(), [])


class Catalog(KeysCase):
    def test_as_the_server_tells_it(self) -> None:
        server = FakeServer()
        rows: list[Row] = [
            ["1", "11", "by_name", "", "name", "f"],
            ["1", "12", "b", "", "name", "t"],
        ]
        rows += [["1", "12", "b", "", "id", "f"], ["2", "13", "e", "it is partial", None, "f"]]
        server.answer("pg_am m", rows)
        found = read_indexes(FakeConnection(server), [1, 2])  # type: ignore[arg-type]
        both = Index(12, "b", (("name", True), ("id", False)))
        self.assertEqual(found, {1: [BY_NAME, both], 2: [Index(13, "e", (), "it is partial")]})

    def test_what_is_remembered(self) -> None:
        look(self.store, 5, "id", indexes=(BY_NAME, BOTH))
        known = KnownTables(self.store)
        known.look()
        self.assertEqual((known.indexes(1), known.indexes(2)), ((BY_NAME, BOTH), ()))
        self.assertEqual((known.primary(1), known.primary(2), known.lsn), (("id",), None, 5))
