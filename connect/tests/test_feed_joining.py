"""Tables that follow a feed make the changes of several commits at once, those of a row joined."""

from __future__ import annotations

import functools
import random
import sqlite3
from collections import Counter
from contextlib import closing
from typing import Any
from unittest import mock

from feed_load import Load

from pgsub_connect.commands import tables as tables_module
from pgsub_feed.interruption import never
from pgsub_feed.reader.commits import Cell, Change
from pgsub_feed.relation import Column, Relation, Shape
from pgsub_feed.tables import applier as applier_module
from pgsub_feed.tables import following
from pgsub_feed.tables.applier import Applier
from pgsub_feed.tables.file import Rows
from pgsub_feed.tables.table import Kept
from pgsub_feed.tables.user_sql import Added
from pgsub_feed.tables.waiting import Joined

from .feeds import delete, insert, table, truncate, update
from .test_feed_tables import TablesCase
from .vectors import logged

# A row as it was or is; None where there is none.
Image = list[Cell] | None


class Executed:
    """Counts by statement the rows that were written."""

    def __init__(self) -> None:
        self.rows = Counter[str]()

    def run(self, applier: Applier, kept: Kept, statement: str, rows: list[Any]) -> None:
        self.rows[statement.split()[0]] += len(rows)
        RUN(applier, kept, statement, rows)


RUN, ADD = Applier.run, Joined.add
ONE_BY_ONE = mock.patch.object(
    following, "Applier", functools.partial(lambda rows, check, joins: Applier(rows, check))
)


class Steps(TablesCase):
    """What is written of several commits that are there at once."""

    def written(self, **more: Any) -> dict[str, int]:
        counted = Executed()
        with mock.patch.object(Applier, "run", lambda *words: counted.run(*words)):
            self.run_it(**more)
        return dict(counted.rows)

    def test_a_row_that_changes_again_and_again_is_written_once(self) -> None:
        self.take(insert("1", "a"), insert("2", "a"))
        self.run_it()
        for number in range(100):
            old, new = ("a" if not number else str(number - 1)), str(number)
            self.take(update(["1", old], ["1", new]), update(["2", old], ["2", new]))
        self.assertEqual(self.written(), {"UPDATE": 2})
        self.assertEqual(self.rows("SELECT * FROM stock ORDER BY 1"), [(1, "99"), (2, "99")])

    def test_a_row_that_comes_and_goes_is_never_written(self) -> None:
        self.take(insert("1", "a"))
        self.run_it()
        self.take(insert("2", "b"), update(["2", "b"], ["3", "b"]), delete("3", "b"))
        self.take(delete("1", "a"))
        self.take(insert("1", "c"))
        self.assertEqual(self.written(), {"UPDATE": 1})
        self.assertEqual(self.rows("SELECT * FROM stock"), [(1, "c")])

    def test_rows_that_change_places(self) -> None:
        self.take(insert("1", "a"), insert("2", "b"))
        self.run_it()
        self.take(update(["1", "a"], ["3", "a"]), update(["2", "b"], ["1", "b"]))
        self.take(update(["3", "a"], ["2", "a"]))
        self.run_it()
        self.assertEqual(self.rows("SELECT * FROM stock ORDER BY 1"), [(1, "b"), (2, "a")])

    def test_a_unique_index_of_the_users_sees_each_step(self) -> None:
        self.take(insert("1", "a"), insert("2", "b"))
        self.run_it()
        with closing(sqlite3.connect(self.into)) as db:
            db.execute("CREATE UNIQUE INDEX mine ON stock (name)")
        self.take(update(["1", "a"], ["1", "x"]))
        self.take(update(["2", "b"], ["2", "a"]))
        self.take(update(["1", "x"], ["1", "b"]))
        self.assertEqual(self.written(), {"UPDATE": 3})
        self.assertEqual(self.rows("SELECT * FROM stock ORDER BY 1"), [(1, "b"), (2, "a")])

    def test_what_a_user_adds_meanwhile_is_seen(self) -> None:
        self.take(insert("1", "a"))
        self.run_it()
        with closing(sqlite3.connect(self.into, isolation_level=None)) as db, closing(
            sqlite3.connect(self.into)
        ) as other:
            added = Added(db)
            for _ in range(2):
                self.assertFalse(added.has_unique_indexes("stock") or added.has_triggers())
                other.execute("CREATE UNIQUE INDEX mine ON stock (name)")
                self.assertTrue(added.has_unique_indexes("stock"))
                other.execute("CREATE TRIGGER own AFTER DELETE ON stock BEGIN SELECT 1; END")
                self.assertTrue(added.has_triggers())
                other.execute("DROP TRIGGER own")
                other.execute("DROP INDEX mine")

    def test_what_was_undone_has_its_number_again(self) -> None:
        self.take(insert("1", "a"))
        self.run_it()
        rows = Rows(str(self.into))
        self.addCleanup(rows.close, True)
        with closing(sqlite3.connect(self.into)) as other:
            tables = following.Tables(rows, never)
            added = tables.applier.added
            rows.begin()
            rows.db.execute("CREATE TABLE more (id)")
            self.assertFalse(added.has_unique_indexes("stock"))
            tables.forget()
            other.execute("CREATE UNIQUE INDEX mine ON stock (name)")
            self.assertTrue(added.has_unique_indexes("stock"))

    def test_a_trigger_of_the_users_sees_each_step_of_all_tables(self) -> None:
        other = table(2, "other")
        self.take(insert("1", "a"), insert("1", "a", of=other))
        self.run_it()
        with closing(sqlite3.connect(self.into)) as db:
            db.execute("CREATE TABLE seen (name TEXT)")
            db.execute(
                "CREATE TRIGGER mine AFTER UPDATE ON other BEGIN"
                " INSERT INTO seen SELECT name FROM stock; END"
            )
        for old, new in (("a", "b"), ("b", "c")):
            self.take(update(["1", old], ["1", new]), update(["1", old], ["1", new], of=other))
        self.run_it()
        self.assertEqual(self.rows("SELECT name FROM seen ORDER BY rowid"), [("b",), ("c",)])

    def test_a_trigger_of_the_users_that_fails_leaves_nothing(self) -> None:
        """What it says of the key has the table made anew, and the changes made once."""
        self.take(insert("1", "a"), insert("2", "a"))
        self.run_it()
        with closing(sqlite3.connect(self.into)) as db:
            db.execute("CREATE TABLE seen (name TEXT)")
            db.execute(
                "CREATE TRIGGER mine AFTER UPDATE ON stock BEGIN INSERT INTO seen VALUES (new.name);"
                " INSERT INTO stock SELECT 1, 'own' WHERE new.name = 'c'; END"
            )
        self.take(update(["1", "a"], ["1", "b"]), update(["2", "a"], ["2", "c"]))
        self.run_it()
        self.assertEqual(self.rows("SELECT * FROM stock ORDER BY 1"), [(1, "b"), (2, "c")])
        self.assertEqual(self.rows("SELECT name FROM seen"), [])

    def test_tables_that_were_not_chosen_are_told_of_again_and_again(self) -> None:
        self.take(insert("1", "0"))
        self.run_it(table=["stock"])
        others = table(2, "other"), table(3, "third")
        for at in range(50):
            left = [insert(str(at), "a", of=it) for it in others]
            self.take(update(["1", str(at)], ["1", str(at + 1)]), *left)
        self.assertLess(self.written(table=["stock"])["UPDATE"], 5)
        self.assertEqual(self.rows("SELECT * FROM stock"), [(1, "50")])

    def test_tables_that_are_set_aside_are_told_of_again_and_again(self) -> None:
        others = table(2, "other"), table(3, "third")
        self.take(insert("1", "0"), *(insert("1", "a", of=it) for it in others))
        self.run_it()
        for name in ("other", "third"):
            with closing(sqlite3.connect(self.into)) as db, db:
                db.execute(f"DELETE FROM {name}")
        self.take(*(delete("1", "a", of=it) for it in others))
        self.run_it(1)
        for at in range(50):
            left = [insert(str(at), "a", of=it) for it in others]
            self.take(update(["1", str(at)], ["1", str(at + 1)]), *left)
        self.assertLess(self.written(status=1)["UPDATE"], 5)
        self.assertEqual(self.rows("SELECT * FROM stock"), [(1, "50")])
        self.assertEqual(len(self.asides()), 2)

    def test_large_rows_do_not_wait_for_thousands_of_others(self) -> None:
        """(Their commit may have as many as it likes.)"""
        most = 0

        def add(waiting: Joined, change: Change) -> bool:
            nonlocal most
            is_added, rows = ADD(waiting, change), (after for _, after in waiting.rows.values())
            most = max(most, sum(after is not None and len(after[1] or "") > 1 for after in rows))
            return is_added

        text = "x" * 10000
        large = [insert(str(it), text) for it in range(100)]
        # (also where a commit's changes are small on an average)
        small = [insert(str(it), "x") for it in range(1000, 4000)]
        for lines, rows, size in ((large, 100, 10**6), (small + large, 3100, 10**6 + 3000)):
            with self.subTest(rows=rows):
                self.take(truncate(), *lines)
                most = 0
                with mock.patch.object(Joined, "add", add), mock.patch.object(
                    applier_module, "ROOM", 1 << 16
                ):
                    self.run_it()
                self.assertEqual(
                    self.rows("SELECT count(*), sum(length(name)) FROM stock"), [(rows, size)]
                )
                self.assertTrue(0 < most < 10)
        # (and of many commits)
        for at in range(0, 100, 5):
            self.take(*(update([str(it), text], [str(it), text + "y"]) for it in range(at, at + 5)))
        most = 0
        with mock.patch.object(Joined, "add", add), mock.patch.object(
            applier_module, "ROOM", 1 << 17
        ):
            self.run_it()
        self.assertTrue(0 < most < 10)

    def test_what_another_program_removed_is_still_found_out(self) -> None:
        self.take(insert("1", "a"), insert("2", "b"))
        self.run_it()
        with closing(sqlite3.connect(self.into)) as db, db:
            db.execute("DELETE FROM stock WHERE id = 2")
        self.take(update(["1", "a"], ["1", "b"]))
        self.take(update(["2", "b"], ["2", "c"]))
        self.run_it(1)
        self.assertIn("another program has changed the file", self.asides()[0][2])


class Random(TablesCase):
    """Feeds of every kind of change end in the same file, made at once or step by step."""

    def made(self, name: str, **more: Any) -> dict[str, list[Any]]:
        self.into = str(self.folder / name)
        self.run_it(**more)
        with closing(sqlite3.connect(self.into)) as db:
            names = [
                it for (it,) in db.execute("SELECT name FROM sqlite_schema WHERE type = 'table'")
            ]
            return {it: sorted(db.execute(f'SELECT * FROM "{it}"'), key=repr) for it in names}

    def run_it(self, status: int = 0, **more: Any) -> list[str]:
        with logged() as told:
            self.assertEqual(tables_module.run(self.options(**more), never), status)
        return told

    def test_both_ways(self) -> None:
        for seed in range(20):
            with self.subTest(seed=seed):
                self.setUp()
                load = Load(random.Random(seed))
                for number in range(30):
                    self.take(*load.lines(20))
                    if number % 10 == 9:
                        self.repaired(*load.anew())
                self.take(*load.last())
                at_once = self.made("rows.db", digests=True)
                with ONE_BY_ONE:
                    self.assertEqual(at_once, self.made("rows2.db", digests=True))
                self.doCleanups()


class Fits(TablesCase):
    """Changes that don't fit those before them are made as they came."""

    def joined(self) -> Joined:
        columns = (Column("id", 23, -1, True), Column("name", 25, -1, False))
        self.relation = Relation(1, "public", "stock", Shape("d", columns))
        return Joined(0, Kept("stock", self.relation), self.relation)

    def change(self, before: Image, after: Image) -> Change:
        op = "c" if before is None else "d" if after is None else "u"
        return Change(op, self.relation, 0, before, after)

    def test_what_fits(self) -> None:
        cases: tuple[tuple[tuple[Image, Image], tuple[Image, Image], bool], ...] = (
            ((None, ["1", "a"]), (None, ["1", "b"]), False),
            ((None, ["1", "a"]), (["1", "b"], ["1", "c"]), False),
            ((None, ["1", "a"]), (["1", "b"], None), False),
            ((["1", "a"], None), (["1", "a"], ["1", "b"]), False),
            ((["1", "a"], None), (["1", "a"], None), False),
            ((["2", "a"], ["2", "b"]), (["1", "a"], ["2", "a"]), False),
            ((["2", "a"], None), (["1", "a"], ["2", "a"]), True),
            ((["1", "a"], ["2", "a"]), (None, ["1", "b"]), True),
            ((None, ["1", "a"]), (None, [None, "b"]), False),
        )
        for first, second, fits in cases:
            with self.subTest(first=first, second=second):
                joined = self.joined()
                self.assertTrue(joined.add(self.change(*first)))
                self.assertEqual(joined.add(self.change(*second)), fits)

    def test_a_truncation_is_made_by_itself(self) -> None:
        joined = self.joined()
        self.assertFalse(joined.add(Change("t", self.relation, 0, None, None)))
