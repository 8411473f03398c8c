"""Primary keys of tables whose replica identity is another, as a store remembers them."""

from __future__ import annotations

import contextlib
import dataclasses
import os
from collections.abc import Sequence
from pathlib import Path
from unittest import mock

from feed_text import Cell, Column, Definition, Line

from pgsub_connect.drift.remembered import Remembered
from pgsub_connect.store.export import ExportSettings, export_store
from pgsub_feed.interruption import never
from pgsub_feed.known_tables import Index, KnownTables
from pgsub_feed.reader.following import Following
from pgsub_feed.reader.following import Reading
from pgsub_feed.tables.file import Rows
from pgsub_feed.tables.following import Tables

from .feeds import delete, insert, table, truncate, update
from .stores import Store
from .test_feed_tables import TablesCase
from .vectors import Described, a_catalog, a_shape, a_table, logged

ID, NAME, MORE = Column("id", 23), Column("name", 25), Column("more", 25)
KEYED = Column("id", 23, -1, True)
FULL = table(columns=[ID, NAME], letter="f")
COLUMNS: Sequence[Described] = ((0, "id", 23, -1), (0, "name", 25, -1))
LOOSE = "rows have null in the key, or equal keys"
INDEXES = "SELECT name FROM sqlite_schema WHERE type = 'index' AND sql IS NOT NULL"
ALONE = "tables get the keys of their replica identities alone"


def put(*row: Cell) -> Line:
    return insert(*row, of=FULL)


def change(before: Sequence[Cell], after: Sequence[Cell]) -> Line:
    return update(before, after, of=FULL)


def gone(*row: Cell) -> Line:
    return delete(*row, of=FULL)


def wider(*more: Column) -> Definition:
    return table(columns=[ID, NAME, MORE, *more], letter="f")


def look(
    store: str,
    lsn: int,
    *primary: str,
    oid: int = 1,
    letter: str = "f",
    indexes: tuple[Index, ...] = (),
) -> None:
    """The follower of a store looks at the server, which has a table with this primary key."""
    found = a_table(oid, "stock", a_shape(COLUMNS, letter))
    found = dataclasses.replace(found, primary=primary, indexes=indexes)
    remembered = Remembered(store)
    remembered.begin(a_catalog(found, lsn=lsn))
    remembered.save()


class KeysCase(TablesCase):
    """A feed beside a store."""

    def setUp(self) -> None:
        super().setUp()
        self.store = str(self.folder / "copy")
        Path(self.store + ".connector").touch()

    def look(self, *primary: str, oid: int = 1, letter: str = "f") -> None:
        look(self.store, self.at, *primary, oid=oid, letter=letter)

    def key(self, name: str = "stock") -> list[str]:
        query = f"SELECT name FROM pragma_table_info('{name}') WHERE pk ORDER BY pk"
        return [it for (it,) in self.rows(query)]

    def indexes(self) -> list[str]:
        return [it for (it,) in self.rows(INDEXES)]


class Made(KeysCase):
    def test_with_the_key(self) -> None:
        """Changes find rows by it, within a commit and in the next run of the program."""
        self.look("id")
        rows = [put("1", "a"), put("2", None), change(["1", "a"], ["9", "b"])]
        self.assertEqual(self.after(*rows), [(2, None), (9, "b")])
        self.assertEqual((self.key(), self.indexes()), (["id"], []))
        changes = [change(["9", "b"], ["1", "b"]), gone("2", None), put("2", "")]
        self.assertEqual(self.after(*changes), [(1, "b"), (2, "")])
        self.assertEqual((self.key(), self.indexes()), (["id"], []))

    def test_with_a_key_of_two(self) -> None:
        self.look("name", "id")
        self.assertEqual(self.after(put("1", "a"), put("1", "b"), gone("1", "a")), [(1, "b")])
        self.assertEqual(self.key(), ["id", "name"])

    def test_of_an_index(self) -> None:
        """The index is the identity, and another key the primary one."""
        of = table(columns=[ID, Column("name", 25, -1, True)], letter="i")
        self.look("id", letter="i")
        changes = insert("1", "a", of=of), update(["1", "a"], ["1", "b"], of=of)
        self.assertEqual(self.after(*changes), [(1, "b")])
        self.assertEqual(self.key(), ["id"])
        changes = update(["1", "b"], ["2", "b"], of=of), delete("2", "b", of=of)
        self.assertEqual(self.after(*changes), [])

    def test_without_one(self) -> None:
        """The server's table has none. A key of an identity is had as before."""
        self.look()
        self.take(insert("1", "a", of=table(2, "other", [ID, Column("name", 25, -1, True)], "i")))
        self.assertEqual(self.after(put("1", "a"), put("1", "a")), [(1, "a")] * 2)
        self.assertEqual((self.key(), self.key("other")), ([], ["name"]))

    def test_without_a_store(self) -> None:
        self.look("id")
        os.unlink(self.store + ".connector")
        self.assertEqual(self.after(put("1", "a")), [(1, "a")])
        self.assertEqual(self.key(), [])

    def test_where_the_store_may_not_be_read(self) -> None:
        """Another account keeps the tables, say."""
        self.look("id")
        denied = PermissionError(13, "Permission denied")
        with mock.patch("pgsub_feed.known_tables.json_texts.open_plain", side_effect=denied):
            self.take(put("1", "a"))
            told = self.run_it()
        self.assertRegex("".join(told), f"copy.tables: Permission denied: {ALONE}")
        self.assertEqual(self.key(), [])

    def test_where_the_store_has_no_readable_file(self) -> None:
        self.look("id")
        Path(self.store + ".tables").write_text("{}")
        self.take(put("1", "a"))
        self.assertRegex("".join(self.run_it()), ALONE)
        self.assertEqual(self.key(), [])


class Unfit(KeysCase):
    def test_a_column_that_the_stream_lacks(self) -> None:
        """The catalog is newer: the table is made without the key."""
        self.look("more")
        self.take(put("1", "a"))
        told = self.run_it()
        self.assertRegex(told[0], "public.stock .1.: the stream doesn't have more of the ")
        self.assertEqual(self.key(), [])
        self.assertEqual(self.after(put("1", "a"), put("1", "a")), [(1, "a")] * 3)

    def test_null(self) -> None:
        self.look("name")
        self.take(put("1", "a"), put("2", None), put("2", None))
        self.assertRegex("".join(self.run_it()), LOOSE)
        self.assertEqual((self.key(), self.indexes()), ([], ["key of table 1"]))
        changes = gone("2", None), change(["1", "a"], ["1", None])
        self.assertEqual(self.after(*changes), [(1, None), (2, None)])

    def test_equal_keys(self) -> None:
        """Rows of before the key: each is found by all of its values, in the next run too."""
        self.look("id")
        self.take(put("1", "a"), put("1", "b"), change(["1", "a"], ["1", "c"]))
        self.assertRegex("".join(self.run_it()), LOOSE)
        self.assertEqual((self.key(), self.indexes()), ([], ["key of table 1"]))
        self.assertEqual(self.after(gone("1", "b")), [(1, "c")])
        changes = [put("1", "c"), gone("1", "c"), change(["1", "c"], ["2", "c"])]
        self.assertEqual(self.after(*changes), [(2, "c")])

    def test_keys_that_change_places(self) -> None:
        self.look("id")
        self.assertEqual(self.after(put("1", "a"), put("2", "b")), [(1, "a"), (2, "b")])
        self.assertEqual(self.key(), ["id"])
        changes = change(["1", "a"], ["2", "a"]), change(["2", "b"], ["1", "b"])
        self.assertEqual(self.after(*changes), [(1, "b"), (2, "a")])
        self.assertEqual(self.key(), [])
        self.assertEqual(self.after(change(["2", "a"], ["3", "a"])), [(1, "b"), (3, "a")])


class Anew(KeysCase):
    def test_a_truncation(self) -> None:
        """A file of before gets the key once its rows come anew, as one with equal keys does."""
        self.assertEqual(self.after(put("1", "a"), put("1", "a")), [(1, "a"), (1, "a")])
        self.look("id")
        self.assertEqual(self.after(put("2", "a")), [(1, "a"), (1, "a"), (2, "a")])
        self.assertEqual(self.key(), [])
        changes = truncate(FULL), put("5", "x"), change(["5", "x"], ["6", "x"])
        self.assertEqual(self.after(*changes), [(6, "x")])
        self.assertEqual((self.key(), self.indexes()), (["id"], []))
        self.take(put("6", "x"))
        self.run_it()
        self.assertEqual(self.key(), [])
        self.assertEqual(self.after(truncate(FULL), put("7", "x")), [(7, "x")])
        self.assertEqual(self.key(), ["id"])

    def test_a_column_more(self) -> None:
        """The key stays, with a catalog and without one."""
        self.look("id")
        self.assertEqual(self.after(put("1", "a")), [(1, "a")])
        changed = update(["1", "a", None], ["1", "a", "x"], of=wider())
        self.assertEqual(self.after(changed), [(1, "a", "x")])
        self.assertEqual(self.key(), ["id"])
        os.unlink(self.store + ".tables")
        row = ["1", "a", "x", None], ["2", "a", "x", "y"]
        changed = update(*row, of=wider(Column("last", 25)))
        self.assertEqual(self.after(changed), [(2, "a", "x", "y")])
        self.assertEqual(self.key(), ["id"])
        less = table(columns=[NAME, MORE], letter="f")
        self.assertEqual(self.after(insert("b", "z", of=less)), [("a", "x"), ("b", "z")])
        self.assertEqual(self.key(), [])

    def test_another_index_without_a_store(self) -> None:
        """Where nothing but the identity is known, the key is that."""
        os.unlink(self.store + ".connector")
        first = table(columns=[KEYED, NAME], letter="i")
        second = table(columns=[ID, Column("name", 25, -1, True)], letter="i")
        self.assertEqual(self.after(insert("1", "a", of=first)), [(1, "a")])
        self.assertEqual(self.key(), ["id"])
        self.assertEqual(self.after(update(["1", "a"], ["2", "a"], of=second)), [(2, "a")])
        self.assertEqual(self.key(), ["name"])

    def test_another_identity(self) -> None:
        self.look("id")
        keyed = table(columns=[KEYED, NAME])
        changes = insert("1", "a", of=keyed), change(["1", "a"], ["1", "b"])
        self.assertEqual(self.after(*changes), [(1, "b")])
        self.assertEqual(self.key(), ["id"])
        self.assertEqual(self.after(update(["1", "b"], ["2", "b"], of=keyed)), [(2, "b")])
        self.assertEqual(self.key(), ["id"])

    def test_another_primary_key(self) -> None:
        """It is made with the next shape."""
        self.look("id")
        self.assertEqual(self.after(put("1", "a")), [(1, "a")])
        self.look("name")
        self.assertEqual(self.after(put("2", "b")), [(1, "a"), (2, "b")])
        self.assertEqual(self.key(), ["id"])
        rows = [(1, "a", None), (1, "c", "x"), (2, "b", None)]
        self.assertEqual(self.after(insert("1", "c", "x", of=wider())), rows)
        self.assertEqual(self.key(), ["name"])

    def test_back(self) -> None:
        """By the feed's images, over the time when rows had equal keys."""
        self.look("id")
        self.take(put("1", "a"), put("2", "b"))
        first = self.at
        self.take(change(["1", "a"], ["5", "x"]), gone("2", "b"))
        self.run_it()
        self.run_it(at=first)
        self.assertEqual(self.rows("SELECT * FROM stock ORDER BY 1"), [(1, "a"), (2, "b")])
        self.assertEqual(self.key(), ["id"])
        self.take(put("5", "b"), change(["5", "b"], ["1", "b"]))
        self.take(gone("1", "b"), change(["5", "x"], ["3", "z"]))
        self.run_it()
        self.assertEqual((self.rows("SELECT * FROM stock"), self.key()), ([(3, "z")], []))
        self.run_it(at=first)
        self.assertEqual(self.rows("SELECT * FROM stock ORDER BY 1"), [(1, "a"), (2, "b")])

    def test_digests(self) -> None:
        """They are those of the rows, with the key and once that doesn't hold."""
        self.look("id")
        self.take(put("1", "a"), put("2", "b"), change(["1", "a"], ["4", "a"]))
        self.run_it(digests=True)
        self.check_digests(["id"])
        self.take(gone("2", "b"), put("4", "c"))
        self.run_it(digests=True)
        self.check_digests([])
        self.take(truncate(FULL), put("4", "c"))
        self.run_it(digests=True)
        self.check_digests(["id"])

    def check_digests(self, key: list[str]) -> None:
        kept = self.rows("SELECT * FROM pgsub_digests")
        rows = Rows(self.into)
        with contextlib.closing(rows.db):
            assert rows.digests
            rows.digests.add_up(rows.kept[1])
            self.assertEqual([(1, *rows.digests.known[1])], kept)
        self.assertEqual(self.key(), key)


class Later(KeysCase):
    def follow(self, rows: Rows, *lines: Line) -> list[str]:
        """Takes one more commit in a run that goes on."""
        self.take(*lines)
        with logged() as told:
            Following(Reading(str(self.path), follows=False), Tables(rows, never), never).follow()
        return told

    def test_a_table_that_the_store_didnt_know_yet(self) -> None:
        """The feed was faster than the look: the key comes with the first commit after that."""
        self.look(oid=9)
        self.run_it()
        rows = Rows(self.into, known=KnownTables(self.store))
        with contextlib.closing(rows.db):
            self.follow(rows, put("1", "a"), change(["1", "a"], ["2", "a"]))
            self.follow(rows, put("3", "a"))
            self.assertEqual(self.key(), [])
            self.look("id")
            self.follow(rows, change(["2", "a"], ["5", "b"]))
            self.assertEqual(self.rows("SELECT * FROM stock"), [(3, "a"), (5, "b")])
            self.assertEqual(self.key(), ["id"])
            self.look("name")
            self.follow(rows, put("6", "b"))
            self.assertEqual(self.rows("SELECT count(*) FROM stock"), [(3,)])
            self.assertEqual(self.key(), ["id"])

    def test_a_key_that_didnt_fit_yet(self) -> None:
        self.look("more")
        self.run_it()
        rows = Rows(self.into, known=KnownTables(self.store))
        with contextlib.closing(rows.db):
            told = self.follow(rows, put("1", "a"))
            self.assertRegex(told[0], "the stream doesn't have more of the primary key")
            self.assertEqual(self.follow(rows, put("2", "a")), [])
            self.look("id")
            self.assertEqual(self.follow(rows, put("3", "a")), [])
            self.assertEqual(self.key(), ["id"])

    def test_rows_that_dont_fit_it(self) -> None:
        self.look(oid=9)
        self.run_it()
        rows = Rows(self.into, known=KnownTables(self.store))
        with contextlib.closing(rows.db):
            self.follow(rows, put("1", "a"), put("1", "a"))
            self.look("id")
            self.assertRegex(self.follow(rows, gone("1", "a"))[0], LOOSE)
            self.follow(rows, change(["1", "a"], ["2", "a"]))
            self.assertEqual((self.key(), self.rows("SELECT * FROM stock")), ([], [(2, "a")]))


class FromStore(KeysCase):
    """A file that begins with a store's rows."""

    base = 0x500

    def setUp(self) -> None:
        super().setUp()
        self.at = self.base
        self.made = Store(self.store, self.base)
        self.addCleanup(self.made.close)
        self.made.table(1, "stock", COLUMNS, letter="f")
        for row in (("1", "a"), ("2", None)):
            self.made.row(1, *row, key=None)

    def test_begins_with_the_key(self) -> None:
        self.look("id")
        self.run_it(store=self.store)
        self.check_goes_on()

    def test_begins_with_that_of_an_export(self) -> None:
        self.look("id")
        self.run_it(base=self.exported())
        self.check_goes_on()

    def check_goes_on(self) -> None:
        self.assertEqual(self.key(), ["id"])
        self.take(change(["2", None], ["3", "c"]), gone("1", "a"))
        self.run_it()
        self.assertEqual((self.rows("SELECT * FROM stock"), self.key()), ([(3, "c")], ["id"]))

    def test_gets_one_that_an_export_had_not(self) -> None:
        """Since then the follower has looked at the server."""
        base = self.exported()
        self.look("id")
        self.run_it(base=base)
        self.assertEqual(self.key(), [])
        self.take(change(["2", None], ["3", "c"]), gone("1", "a"))
        self.run_it()
        self.assertEqual((self.rows("SELECT * FROM stock"), self.key()), ([(3, "c")], ["id"]))

    def test_keeps_that_of_an_export_where_there_is_no_store(self) -> None:
        self.look("id")
        base = self.exported()
        os.unlink(self.store + ".connector")
        self.take(change(["2", None], ["3", "c"]), gone("1", "a"))
        self.run_it(base=base)
        self.assertEqual((self.rows("SELECT * FROM stock"), self.key()), ([(3, "c")], ["id"]))

    def exported(self) -> str:
        path = str(self.folder / "base.db")
        with logged():
            export_store(ExportSettings(store=self.store, into=path), never)
        return path
