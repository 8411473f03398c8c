"""Tables that a file can't take up: they are set aside, the others go on, and they come again when
their rows come anew."""

from __future__ import annotations

import contextlib
import os
import sqlite3

from feed_text import Column

from pgsub_connect.commands import tables
from pgsub_feed.errors import FileError
from pgsub_feed.interruption import never
from pgsub_feed.tables.file import Rows

from .feeds import ID, NAME, delete, insert, table, truncate, update
from .test_feed_tables import TablesCase
from .vectors import logged

OTHER, BAG = table(2, "other"), table(3, "bag", letter="f")
NUMBERS = table(columns=[ID, Column("name", 23)])


class AsideCase(TablesCase):
    def setUp(self) -> None:
        super().setUp()
        self.take(
            insert("1", "a"), insert("2", "b"), insert("1", "x", of=OTHER), insert("1", "a", of=BAG)
        )
        self.run_it()

    def plant(self, *statements: str) -> None:
        with contextlib.closing(sqlite3.connect(self.into, isolation_level=None)) as base:
            for it in statements:
                base.execute(it)


class Altered(AsideCase):
    def setUp(self) -> None:
        super().setUp()
        self.take(insert("3", "7", of=NUMBERS), insert("2", "y", of=OTHER))

    def test_the_others_go_on(self) -> None:
        told = self.run_it(1)
        [(name, since, why)] = self.asides()
        self.assertEqual((name, since), ("public.stock", "0/200"))
        self.assertRegex(
            why,
            "^the column name has a value that isn't one of its type, 'a': the type was altered",
        )
        self.assertEqual(self.tables(), ["bag", "other"])
        self.assertEqual(self.rows("SELECT * FROM other"), [(1, "x"), (2, "y")])
        self.assertEqual(self.rows("SELECT lsn FROM pgsub_position"), [("0/200",)])
        self.assertEqual(
            self.rows("SELECT name FROM pgsub_tables ORDER BY 1"), [("bag",), ("other",)]
        )
        said = f"warning: public.stock is set aside in {self.into} since 0/200: {why}. Its rows come anew by:"
        self.assertIn(f"{said} pgsub-connect add --store STORE --table public.stock", told)

    def test_it_is_told_again_and_its_changes_are_passed_over(self) -> None:
        self.run_it(1)
        self.take(update(["3", "7"], ["3", "8"], of=NUMBERS), delete("1", "x", of=OTHER))
        told = self.run_it(1)
        self.assertIn("public.stock is set aside", told[0])
        self.assertEqual(
            (self.asides()[0][1], self.rows("SELECT * FROM other")), ("0/200", [(2, "y")])
        )

    def test_the_last_line_names_the_cure(self) -> None:
        (self.folder / "copy.connector").touch()
        with logged() as told:
            self.assertEqual(tables.run(self.options(), never), 1)
        self.assertRegex(
            told[-1],
            f"^error: {self.into} lacks public.stock, .*: pgsub-connect add --store {self.folder}/copy --table public.stock$",
        )

    def test_its_rows_come_anew(self) -> None:
        self.run_it(1)
        for end, begin in enumerate((self.repaired, self.take), 5):
            begin(truncate(NUMBERS), insert("1", str(end), of=NUMBERS))
            told = self.run_it()
            self.assertEqual((self.asides(), self.rows("SELECT * FROM stock")), ([], [(1, end)]))
            self.assertEqual(f"public.stock is in {self.into} again" in told, end == 5)
        self.take(update(["1", "6"], ["1", "9"], of=NUMBERS))
        self.run_it()
        self.assertEqual(self.rows("SELECT * FROM stock"), [(1, 9)])

    def test_within_one_transaction(self) -> None:
        """It is set aside, comes again, and is set aside once more."""
        self.take(truncate(NUMBERS), insert("1", "1", of=NUMBERS))
        self.take(delete("2", "2", of=NUMBERS), insert("3", "z", of=OTHER))
        self.run_it(1)
        self.assertEqual([it[:2] for it in self.asides()], [("public.stock", "0/400")])
        self.assertEqual(self.rows("SELECT count(*) FROM other"), [(3,)])

    def test_digests(self) -> None:
        self.run_it(1, digests=True)
        self.take(insert("4", "w", of=OTHER), truncate(NUMBERS), insert("1", "5", of=NUMBERS))
        self.run_it(digests=True)
        kept = self.rows("SELECT * FROM pgsub_digests ORDER BY oid")
        rows = Rows(self.into)
        with contextlib.closing(rows.db):
            assert rows.digests
            for it in rows.kept.values():
                rows.digests.add_up(it)
            self.assertEqual([(oid, *it) for oid, it in sorted(rows.digests.known.items())], kept)

    def test_a_commit_that_cant_be_read_undoes_it(self) -> None:
        """What is set aside is told once the file has it."""
        self.feed.put(self.feed.text(0x300, [insert("9", "z", of=OTHER)])[:-20] + bytes(20))
        with logged() as told, self.assertRaises(FileError):
            tables.run(self.options(), never)
        self.assertEqual(self.tables(), ["bag", "other", "stock"])
        self.assertEqual([it for it in told if "set aside" in it], [])

    def test_another_name_meanwhile(self) -> None:
        self.run_it(1)
        self.take(insert("4", "1", of=table(1, "renamed", [ID, Column("name", 23)])))
        self.run_it(1)
        self.assertEqual(self.asides()[0][0], "public.renamed")

    def test_another_table_with_its_name(self) -> None:
        """Nobody misses the older one, unless it comes back under another name."""
        self.run_it(1)
        self.take(insert("1", "new", of=table(9)))
        self.run_it()
        self.assertEqual((self.rows("SELECT * FROM stock"), len(self.asides())), ([(1, "new")], 1))
        self.take(insert("1", "5", of=table(1, "older", [ID, Column("name", 23)])))
        self.run_it(1)
        self.assertEqual(self.asides()[0][0], "public.older")

    def test_a_name_that_is_chosen_no_more(self) -> None:
        os.unlink(self.into)
        self.run_it(1, table=["stock"])
        self.take(insert("4", "1", of=table(1, "else", [ID, Column("name", 23)])))
        self.run_it(table=["stock"])
        self.assertEqual((self.asides(), self.tables()), ([], []))

    def test_a_copy_of_the_file(self) -> None:
        self.run_it(1)
        base, self.into = self.into, str(self.folder / "rows2.db")
        with logged():
            self.assertEqual(tables.run(self.options(base=base), never), 1)
        self.assertEqual(self.asides()[0][:2], ("public.stock", "0/200"))


class Others(AsideCase):
    def check_aside(self, name: str, told: str) -> None:
        self.take(insert("5", "y", of=OTHER))
        self.run_it(1)
        self.assertEqual(self.asides(), [(name, f"0/{self.at - 0x100:X}", told)])
        self.assertIn((5, "y"), self.rows("SELECT * FROM other"))

    def test_rows_that_are_gone(self) -> None:
        for name, of in (("stock", table()), ("bag", BAG)):
            for line in (
                delete("1", "a", of=of),
                update(["1", "a"], ["1", "b"], of=of),
                update(["1", "a"], ["2", "b"], of=of),
            ):
                self.plant(f"DELETE FROM {name}")
                self.take(line)
                self.check_aside(
                    f"public.{name}",
                    "a row that the feed changes isn't in it: another program has changed the file",
                )
                self.take(truncate(of), insert("1", "a", of=of))
                self.run_it()

    def test_several_changes_of_which_one_fails(self) -> None:
        self.plant("DELETE FROM stock WHERE id = 2")
        self.take(insert("3", "c"), delete("1", "a"), delete("2", "b"), delete("3", "c"))
        self.check_aside(
            "public.stock",
            "a row that the feed changes isn't in it: another program has changed the file",
        )

    def test_a_view_in_its_place(self) -> None:
        self.plant("CREATE VIEW new AS SELECT 1")
        self.take(insert("1", "a", of=table(7, "new")))
        self.take(insert("5", "y", of=OTHER))
        self.run_it(1)
        self.assertRegex(
            self.asides()[0][2],
            '^view "new" already exists: something of the user\'s in the file forbids it',
        )

    def test_a_table_that_was_dropped_there(self) -> None:
        """No table is wrong then, but the file: the error says so."""
        self.plant("DROP TABLE stock")
        self.take(delete("1", "a"))
        with logged(), self.assertRaisesRegex(FileError, "no such table"):
            tables.run(self.options(), never)

    def test_a_view_of_what_is_gone(self) -> None:
        """It fails where it is read, and nothing else does."""
        self.plant("CREATE VIEW v AS SELECT s.id FROM stock s JOIN other o USING (id)")
        self.take(
            insert("3", "7", of=NUMBERS),
            insert("2", "y", "z", of=table(2, "renamed", [ID, NAME, Column("more", 25)])),
        )
        self.take(insert("5", "y", of=table(2, "other", [ID, Column("other", 25)])))
        self.run_it(1)
        self.assertEqual(self.rows("SELECT * FROM other"), [(1, None), (2, None), (5, "y")])
        with self.assertRaisesRegex(sqlite3.OperationalError, "no such table: main.stock"):
            self.rows("SELECT * FROM v")
        self.take(truncate(NUMBERS), insert("5", "7", of=NUMBERS))
        self.run_it()
        self.assertEqual(self.rows("SELECT * FROM v"), [(5,)])

    def test_a_key_that_is_none_here(self) -> None:
        """A table that has to be made anew for that, and can't be, leaves nothing of the
        attempt."""
        keyed = table(
            7, "odd", [Column("rowid", 23, -1, True), Column("oid", 25), Column("_rowid_", 25)]
        )
        self.take(insert("1", "a", "b", of=keyed), insert("2", "y", of=OTHER))
        self.run_it()
        self.take(insert(None, "a", "b", of=keyed), insert("3", "y", of=OTHER))
        self.run_it(1)
        self.assertEqual(
            (self.asides()[0][0], self.tables()), ("public.odd", ["bag", "other", "stock"])
        )
        self.assertEqual(len(self.rows("SELECT * FROM other")), 3)

    def test_what_was_moved_away_comes_back(self) -> None:
        self.take(
            insert("3", "7", of=table(1, "other", [ID, Column("name", 23)])),
            insert("2", "y", of=OTHER),
        )
        self.run_it()
        self.assertEqual(self.rows("SELECT * FROM other"), [(1, "x"), (2, "y")])
        self.assertEqual((self.tables(), self.asides()[0][0]), (["bag", "other"], "public.other"))

    def test_a_name_that_goes_and_comes_back_within_one_transaction(self) -> None:
        """A table that comes again has another one's name for a while, of which the feed tells
        nothing but that its rows go on."""
        self.plant("DELETE FROM stock")
        self.take(delete("1", "a"), insert("2", "y", of=OTHER))
        self.run_it(1)
        self.take(insert("9", "b", of=table(1, "other")))
        self.take(insert("3", "z", of=OTHER))
        self.take(truncate(table(1, "other")))
        self.take(insert("4", "w", of=OTHER))
        self.run_it()
        rows = [(1, "x"), (2, "y"), (3, "z"), (4, "w")]
        self.assertEqual(self.rows("SELECT * FROM other"), rows)

    def test_a_name_that_goes_and_comes_back_within_a_commit(self) -> None:
        self.plant("DELETE FROM stock")
        self.take(delete("1", "a"))
        self.run_it(1)
        again = truncate(table(1, "other"))
        self.take(insert("2", "y", of=OTHER), again, insert("3", "z", of=OTHER))
        self.run_it()
        rows = [(1, "x"), (2, "y"), (3, "z")]
        self.assertEqual(self.rows("SELECT * FROM other"), rows)


class Repaired(AsideCase):
    """The copy may have had rows that were never here."""

    def test_a_key(self) -> None:
        self.repaired(
            update(["1", "planted"], ["1", "a"]),
            delete("7", "planted"),
            insert("2", "b"),
            update(["3", "never"], ["3", "c"]),
            insert("4", "d"),
        )
        self.run_it()
        self.assertEqual(self.rows("SELECT * FROM stock"), [(1, "a"), (2, "b"), (3, "c"), (4, "d")])
        self.take(update(["3", "c"], ["3", "e"]), delete("2", "b"))
        self.run_it()
        self.assertEqual(self.rows("SELECT * FROM stock"), [(1, "a"), (3, "e"), (4, "d")])

    def test_a_key_of_a_row_that_is_gone_here(self) -> None:
        self.repaired(delete("1", "a"), update(["9", "x"], ["8", "y"]))
        self.run_it()
        self.assertEqual(self.rows("SELECT * FROM stock"), [(2, "b"), (8, "y")])

    def test_digests(self) -> None:
        self.run_it(digests=True)
        self.repaired(
            update(["1", "planted"], ["1", "z"]),
            delete("7", "planted"),
            insert("2", "b"),
            update(["3", "never"], ["3", "c"]),
        )
        self.run_it(digests=True)
        kept = self.rows("SELECT * FROM pgsub_digests WHERE oid = 1")
        rows = Rows(self.into)
        with contextlib.closing(rows.db):
            assert rows.digests
            rows.digests.add_up(rows.kept[1])
            self.assertEqual([(1, *rows.digests.known[1])], kept)

    def test_without_a_key(self) -> None:
        """Whether one of several equal rows here was meant isn't known."""
        self.repaired(delete("1", "a", of=BAG), update(["1", "x"], ["1", "z"], of=OTHER))
        self.run_it(1)
        self.assertEqual(
            self.asides(),
            [
                (
                    "public.bag",
                    "0/200",
                    "rows were repaired, and without a key nobody knows which of those here",
                )
            ],
        )
        self.assertEqual(self.rows("SELECT * FROM other"), [(1, "z")])

    def test_what_waits_before_it(self) -> None:
        """Changes of commits before the repair, which are there at once with it, are made as they
        are: their rows are found."""
        self.take(insert("2", "b", of=BAG), insert("2", "b", of=BAG))
        self.take(delete("2", "b", of=BAG))
        self.repaired(update(["1", "planted"], ["1", "z"], of=OTHER))
        self.run_it()
        self.assertEqual(self.rows("SELECT * FROM bag"), [(1, "a"), (2, "b")])
        self.assertEqual(self.rows("SELECT * FROM other"), [(1, "z")])

    def test_several_steps_of_a_row_before_it(self) -> None:
        self.plant("CREATE UNIQUE INDEX mine ON stock (name)")
        self.take(update(["1", "a"], ["1", "c"]))
        self.take(update(["1", "c"], ["1", "d"]))
        self.repaired(update(["1", "planted"], ["1", "z"], of=OTHER))
        self.run_it()
        self.assertEqual(self.rows("SELECT * FROM stock"), [(1, "d"), (2, "b")])

    def test_without_a_key_that_was_empty_before_the_commit_before_it(self) -> None:
        self.take(delete("1", "a", of=BAG))
        self.run_it()
        self.take(insert("1", "a", of=BAG))
        self.repaired(insert("2", "b", of=BAG))
        self.run_it(1)
        self.assertEqual([it[:2] for it in self.asides()], [("public.bag", "0/400")])

    def test_a_table_that_is_added(self) -> None:
        self.repaired(
            truncate(BAG),
            insert("1", "a", of=BAG),
            insert("1", "a", of=BAG),
            truncate(),
            insert("5", "q"),
        )
        self.run_it()
        self.assertEqual(
            (self.rows("SELECT * FROM bag"), self.rows("SELECT * FROM stock")),
            ([(1, "a")] * 2, [(5, "q")]),
        )

    def test_any_other_commit_has_to_find_its_rows(self) -> None:
        self.take(update(["1", "planted"], ["1", "a"]), delete("7", "planted"))
        self.run_it(1)
        self.assertEqual(len(self.asides()), 1)
