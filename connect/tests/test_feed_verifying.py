"""Tables that follow a feed, compared with a server that is further on or behind, and with another
file."""

from __future__ import annotations

import contextlib
import io
import json
import shutil
import sqlite3
from collections.abc import Callable, Sequence
from types import SimpleNamespace
from typing import Any
from unittest import mock

from feed_text import About, Column as TextColumn

from pgsub_connect.commands import tables
from pgsub_connect.commands.tables import Options
from pgsub_connect.copy.source import chosen
from pgsub_connect.server.catalog import Table
from pgsub_connect.server.session import Subscription
from pgsub_connect.store.checkpoint import spelled
from pgsub_connect.store.checkpoint_lines import FOLLOWING, Known, line_of
from pgsub_connect.verify import tables_file
from pgsub_connect.verify.tables_file import TablesComparison
from pgsub_feed.errors import FileError, Passing, Stopped, Unfit
from pgsub_feed.interruption import never
from pgsub_feed.reader.trail import Gone, Trail
from pgsub_feed.relation import Column, Shape

from .fake_server import connection_to
from .feeds import ID, NAME, delete, insert, table, truncate, update
from .settled import options_of
from .stores import Cell
from .test_feed_tables import TablesCase
from .test_verifying import Publisher
from .vectors import logged

STOCK = Table(
    1,
    "public",
    "stock",
    "r",
    Shape("d", (Column("id", 23, -1, True, 1), Column("name", 25, -1, False, 2))),
)
WHOLE = Table(
    2,
    "public",
    "whole",
    "r",
    Shape("f", (Column("id", 23, -1, True, 1), Column("name", 25, -1, True, 2))),
)
OF_WHOLE = table(2, "whole", [ID, TextColumn("name", 25, -1, True)], "f")
Rows = list[Sequence[Cell]]


class VerifyCase(TablesCase):
    def setUp(self) -> None:
        super().setUp()
        self.take(*(insert(str(it), f"name {it}") for it in range(10)))
        self.take(*[insert("1", None, of=OF_WHOLE)] * 3, insert("1", "", of=OF_WHOLE))
        self.run_it()
        whole: Rows = [["1", None], ["1", None], ["1", None], ["1", ""]]
        self.server = Publisher({1: [[str(it), f"name {it}"] for it in range(10)], 2: whole})
        self.server.answer("reltuples", [["10"]])
        self.published: list[Table] = [STOCK, WHOLE]
        self.point = 0x200
        self.left: dict[int, str] = {}
        # what is done once the server's tables are locked
        self.meanwhile: Callable[[], object] = lambda: None
        self.said: list[str] = []
        self.patches = contextlib.ExitStack()
        self.addCleanup(self.patches.close)
        self.confirm(0x10000)

    def confirm(self, lsn: int) -> None:
        (self.path / "confirmed").write_text(f"0/{lsn:X}\n")

    def source(self, _: Subscription, store: str, known: Any, *__: object) -> Any:
        self.known = known
        found = SimpleNamespace(
            plain=connection_to(self.server),
            encoding="UTF8",
            tables=self.published,
            seen=[],
            closed=0,
            left=self.left,
        )
        found.chosen = (
            lambda names: chosen(self.published, names) if names else list(self.published)
        )
        found.make_slot = lambda seconds: (self.point, "snapshot")
        found.see, found.close = lambda snapshot, leaves: self.meanwhile(), found.plain.close
        return found

    def verified(self, status: int, **more: Any) -> list[dict[str, Any]]:
        """Compares. Returns what is printed."""
        comparison = TablesComparison(Subscription(), more.pop("store", ""), path=self.into, **more)

        def sums(queries: Any) -> str:
            self.server.answer("SUMS", self.server.sums(queries.plan))
            return "SUMS"

        def texts(queries: Any, chunks: list[int]) -> str:
            self.server.lines = self.server.texts(queries.plan, chunks)
            return "TEXTS"

        out = io.StringIO()
        with contextlib.ExitStack() as stack:
            self.said = stack.enter_context(logged())
            stack.enter_context(contextlib.redirect_stdout(out))
            stack.enter_context(
                mock.patch.multiple("pgsub_connect.verify.digests.Queries", sums=sums, texts=texts)
            )
            stack.enter_context(mock.patch.object(tables_file, "Source", self.source))
            self.assertEqual(tables_file.compare_tables(comparison, never), status)
        return [json.loads(line) for line in out.getvalue().splitlines()]

    def equal(self, **more: Any) -> None:
        self.assertEqual(self.verified(0, **more), [])

    def plant(self, statement: str, path: str = "") -> None:
        with contextlib.closing(sqlite3.connect(path or self.into, isolation_level=None)) as base:
            self.assertGreater(base.execute(statement).rowcount, 0, statement)

    def fails(self, kind: type[Exception], text: str, **more: Any) -> None:
        with self.assertRaisesRegex(kind, text):
            self.verified(0, **more)


class Server(VerifyCase):
    def test_equal(self) -> None:
        for digests in (False, True):
            self.equal(digests=digests)
        self.assertEqual(
            (self.known.system, self.known.database, self.known.slot, self.known.timeline),
            ("7", "shop", "pgsub", 0),
        )
        self.assertEqual(
            self.said[-1:],
            ["2 tables, 14 rows on the server at 0/200: equal by the digests that are kept"],
        )

    def test_what_is_above_the_point_is_taken_back(self) -> None:
        self.take(
            update(["1", "name 1"], ["1", "b"]),
            delete("2", "name 2"),
            insert("20", "x"),
            delete("1", "", of=OF_WHOLE),
        )
        self.take(
            update(["20", "x"], ["21", "x"]),
            insert("2", "again"),
            insert("1", None, of=OF_WHOLE),
            update(["1", "b"], ["1", "c"]),
        )
        self.run_it()
        self.equal()
        for point, one, twenty in ((0x300, "b", ["20", "x"]), (0x400, "c", ["21", "x"])):
            self.point = point
            rows: Rows = [
                ["0", "name 0"],
                ["1", one],
                *([str(it), f"name {it}"] for it in range(3, 10)),
                twenty,
            ]
            self.server.tables[1] = rows if point == 0x300 else [*rows, ["2", "again"]]
            self.server.tables[2] = [["1", None]] * (3 if point == 0x300 else 4)
            self.equal()
        self.point = 0x2FF
        self.assertEqual(len(self.verified(1)), 5)

    def test_digests_are_taken_back(self) -> None:
        self.run_it(digests=True)
        self.take(
            update(["1", "name 1"], ["1", "b"]),
            delete("1", "", of=OF_WHOLE),
            truncate(table(9, "else")),
        )
        self.run_it()
        with mock.patch("pgsub_connect.verify.view.View.texts") as texts:
            self.equal(digests=True)
        self.assertEqual(texts.called, False)
        self.server.tables[1][3] = ["3", "other"]
        [found] = self.verified(1, digests=True)
        self.assertEqual(
            (found["key"], found["server"]["name"], found["copy"]["name"]),
            ({"id": "3"}, "other", "name 3"),
        )

    def test_planted(self) -> None:
        for statement, server, copy in (
            ("UPDATE stock SET name = 'x' WHERE id = 1", "name 1", "x"),
            ("UPDATE stock SET name = NULL WHERE id = 1", "name 1", None),
            ("UPDATE stock SET name = 'name 1 ' WHERE id = 1", "name 1", "name 1 "),
        ):
            self.plant(statement)
            [found] = self.verified(1)
            self.assertEqual(
                (found["key"], found["server"]["name"], found["copy"]["name"]),
                ({"id": "1"}, server, copy),
            )
        self.plant("UPDATE stock SET name = 'name 1' WHERE id = 1")
        self.equal()
        self.plant("DELETE FROM stock WHERE id = 5")
        self.plant("INSERT INTO stock VALUES (50, 'name 5')")
        self.plant("DELETE FROM whole WHERE rowid = 1")
        missing, more, fewer = self.verified(1)
        self.assertEqual([missing["copy"], more["copy"]], [None, {"id": "50", "name": "name 5"}])
        self.assertEqual((fewer["more_on_server"], fewer["more_in_copy"]), (1, 0))

    def test_planted_beside_what_is_taken_back(self) -> None:
        """A row that is wrong is found, also in the chunk of one that was changed meanwhile."""
        self.take(update(["1", "name 1"], ["1", "b"]), insert("11", "x"))
        self.run_it()
        self.plant("UPDATE stock SET name = 'name 2' WHERE id = 3")
        [found] = self.verified(1)
        self.assertEqual(found["key"], {"id": "3"})

    def test_a_file_whose_rows_are_not_those_of_its_digests(self) -> None:
        self.run_it(digests=True)
        self.equal()
        self.plant("UPDATE stock SET name = 'x' WHERE id = 1")
        self.equal(digests=True)
        self.assertEqual(len(self.verified(1)), 1)
        self.assertTrue(
            any(
                "the digest that it keeps of public.stock (1) isn't that of its rows" in it
                for it in self.said
            )
        )
        self.plant("UPDATE stock SET name = 'name 1' WHERE id = 1")
        self.plant("UPDATE pgsub_digests SET first = first + 1 WHERE oid = 2")
        self.assertEqual(self.verified(1), [])
        self.assertIn("equal rows", self.said[-2])
        self.assertEqual(
            self.said[-1],
            "warning: rows come anew by: pgsub-connect add --store STORE --table public.whole",
        )
        self.assertEqual(self.verified(1, digests=True), [])

    def test_a_table_without_a_digest_is_read(self) -> None:
        self.run_it(digests=True)
        self.plant("DELETE FROM pgsub_digests WHERE oid = 1")
        self.equal(digests=True)
        self.plant("UPDATE stock SET name = 'x' WHERE id = 1")
        self.assertEqual(len(self.verified(1, digests=True)), 1)

    def test_other_columns(self) -> None:
        self.published[0] = Table(
            1,
            "public",
            "stock",
            "r",
            Shape("d", (*STOCK.columns, Column("more", 23, -1, False, 3))),
        )
        for digests in (False, True):
            [found] = self.verified(1, digests=digests)
            self.assertEqual(
                found,
                {
                    "table": "public.stock",
                    "columns": {"server": ["id", "name", "more"], "copy": ["id", "name"]},
                },
            )

    def test_tables_that_were_not_chosen(self) -> None:
        self.into += ".chosen"
        with logged():
            tables.run(self.options(table=["stock"]), never)
        self.equal()
        self.assertIn(f"{self.into} was made without 1 table: public.whole", self.said)
        self.fails(Unfit, "was made without public.whole", chosen=["whole"])
        self.equal(chosen=["stock"])

    def test_a_table_of_which_nothing_ever_came(self) -> None:
        self.published.append(Table(9, "public", "late", "r", Shape("d", tuple(STOCK.columns))))
        self.equal()
        self.server.tables[9] = [["1", "x"]]
        for digests in (False, True):
            [found] = self.verified(1, digests=digests)
            self.assertEqual((found["table"], found["copy"]), ("public.late", None))

    def test_rows_that_are_not_published(self) -> None:
        del self.published[1]
        self.equal()
        self.assertTrue(
            any(
                "rows of 1 table that the publications don't have now: public.whole" in it
                for it in self.said
            )
        )

    def test_a_truncation_above_the_point(self) -> None:
        """Of that table nothing is known; the others are compared, and it is, too, once the server
        is seen behind that."""
        self.take(truncate())
        self.run_it()
        self.fails(Passing, "^not compared: public.stock was truncated meanwhile: compare later")
        self.assertEqual(
            [it for it in self.said if "equal" in it],
            [
                "1 table, 4 rows on the server at 0/200: equal",
                "0 tables, 0 rows on the server at 0/200: equal",
            ],
        )
        self.server.tables[2].append(["7", "x"])
        self.assertEqual(len(self.verified(1)), 1)
        self.assertEqual(
            self.said[-1], "warning: not compared: public.stock was truncated meanwhile"
        )
        del self.server.tables[2][-1]
        self.server.tables[1] = []
        self.meanwhile = lambda: setattr(self, "point", 0x300)
        self.equal()

    def test_a_repair_above_the_point(self) -> None:
        """The rows from before are those of the copy, which these tables may never have had."""
        self.feed.commit(0x300, [update(["1", "planted"], ["1", "name 1"])], About(0x2FF, 2, 0))
        self.run_it()
        self.fails(Passing, "^not compared: public.stock was repaired meanwhile")
        self.point = 0x300
        self.equal()

    def test_what_the_server_does_not_show_as_of_the_point(self) -> None:
        self.left = {1: "altered or dropped"}
        del self.published[0]
        self.assertEqual(self.verified(0, chosen=["whole"]), [])
        self.assertFalse(any("don't have now" in it for it in self.said))
        self.published.insert(0, STOCK)
        self.plant("UPDATE stock SET name = 'x' WHERE id = 1")
        self.fails(Passing, "^not compared: public.stock was altered or dropped meanwhile")
        self.meanwhile = self.left.clear
        self.assertEqual(len(self.verified(1)), 1)

    def test_a_table_that_is_set_aside(self) -> None:
        self.take(delete("77", "none"))
        self.run_it(1)
        self.point = 0x300
        self.assertEqual(self.verified(1), [])
        self.assertIn(
            f"warning: public.stock is set aside in {self.into} since 0/300: a row that the feed changes isn't in it",
            self.said[0],
        )
        self.assertEqual(
            self.said[-1],
            "warning: rows come anew by: pgsub-connect add --store STORE --table public.stock",
        )
        self.assertEqual(self.verified(1, chosen=["stock"]), [])
        self.equal(chosen=["whole"])

    def test_numbers_of_4_bytes_to_the_last_bit(self) -> None:
        """What no number of 4 bytes is stored as is found, however close it is; its digits and its
        bytes are both right."""
        self.take(insert("1", "0.1", of=table(3, "short", [ID, TextColumn("f", 700)])))
        self.run_it()
        self.point = 0x300
        self.published.append(
            Table(
                3,
                "public",
                "short",
                "r",
                Shape("d", (STOCK.columns[0], Column("f", 700, -1, False, 2))),
            )
        )
        self.server.tables[3] = [["1", "0.1"]]
        self.equal()
        for planted, shown in (
            ("0.10000000001", "0.10000000001"),
            ("1e300", "1e+300"),
            ("9e999", "Infinity"),
            ("0.1000000014901161", "0.1000000014901161"),
        ):
            self.plant(f"UPDATE short SET f = {planted}")
            [found] = self.verified(1)
            self.assertEqual((found["server"]["f"], found["copy"]["f"]), ("0.1", shown))
        self.plant("UPDATE short SET f = 0.10000000149011612")
        self.equal()

    def test_an_alteration_above_the_point(self) -> None:
        self.take(insert("11", "x", "y", of=table(columns=[ID, NAME, TextColumn("more", 25)])))
        self.run_it()
        self.published[0] = Table(
            1,
            "public",
            "stock",
            "r",
            Shape("d", (*STOCK.columns, Column("more", 25, -1, False, 3))),
        )
        self.server.tables[1] = [[*it, None] for it in self.server.tables[1]]
        self.equal()
        self.published[0] = STOCK
        self.assertEqual(self.verified(1)[0]["columns"]["copy"], ["id", "name", "more"])

    def test_what_is_not_there_in_time(self) -> None:
        self.point = 0x20000
        with mock.patch.object(tables_file, "PATIENCE", 0.05):
            self.fails(
                Passing, "the feed .* doesn't have all, and 0/20000 wasn't reached in 0 seconds"
            )
            self.confirm(0x20000)
            self.take(insert("11", "x"))
            self.fails(Passing, "rows.db is at 0/200, and 0/20000 wasn't reached")
            # (the next commit says it, too)
            self.confirm(0)
            self.feed.commit(0x30000, [insert("12", "x")])
            self.fails(Passing, "rows.db is at 0/200, and")

    def test_a_table_that_is_added(self) -> None:
        """It has no state of the server, also where that begins meanwhile."""
        store = self.folder / "store"
        path = self.folder / "store.connector"

        def add(oid: int) -> None:
            known = Known(FOLLOWING, adding={oid: 0})
            path.write_bytes(line_of(1, spelled(known), None))

        add(1)
        self.fails(Passing, "being added just now, or refused: public.stock", store=str(store))
        self.equal(store=str(store), chosen=["whole"])
        path.unlink()
        self.equal(store=str(store))
        self.meanwhile = lambda: add(2)
        self.fails(Passing, "being added just now, or refused: public.whole", store=str(store))

    def test_a_file_that_is_taken_back_meanwhile(self) -> None:
        with mock.patch.object(
            tables_file, "wait", lambda path, trail, point, check: trail.has(point)
        ):
            self.meanwhile = lambda: self.plant("UPDATE pgsub_position SET lsn = '0/100'")
            self.fails(Passing, "rows.db was taken back to 0/100 meanwhile")

    def test_what_has_taken_no_commit_yet(self) -> None:
        """The feed says what its rows are of."""
        self.plant("UPDATE pgsub_feed SET system = NULL, database = NULL, slot = NULL")
        self.equal()
        self.assertEqual((self.known.system, self.known.slot), ("7", "pgsub"))
        for path in self.path.glob("[0-9A-F]" * 16):
            path.unlink()
        self.fails(Unfit, "the feed doesn't have the commits after 0/200")

    def test_a_file_of_something_else(self) -> None:
        for path, text in (
            (self.into + ".none", "there is no file"),
            (str(self.path / "confirmed"), "has no tables that follow a feed"),
        ):
            with self.assertRaisesRegex(FileError, text):
                tables_file.compare_tables(TablesComparison(Subscription(), "", path=path), never)

    def test_ended(self) -> None:
        with mock.patch.object(
            tables_file, "with_server", side_effect=Stopped
        ), self.assertRaisesRegex(Passing, "ended before"):
            tables_file.compare_tables(TablesComparison(Subscription(), "", path=self.into), never)
        with mock.patch.object(
            tables_file, "with_server", side_effect=sqlite3.DatabaseError("x")
        ), self.assertRaisesRegex(FileError, "rows.db: x"):
            tables_file.compare_tables(TablesComparison(Subscription(), "", path=self.into), never)


class Files(VerifyCase):
    def setUp(self) -> None:
        super().setUp()
        self.run_it(digests=True)
        self.other = str(self.folder / "other.db")
        shutil.copyfile(self.into, self.other)

    def test_at_the_same_lsn(self) -> None:
        for digests in (False, True):
            self.equal(other=self.other, digests=digests)
        self.assertEqual(
            self.said,
            [f"2 tables, 14 rows in {self.other} at 0/200: equal by the digests that are kept"],
        )

    def test_a_table_whose_name_another_one_has(self) -> None:
        """(A file that was begun with a store has none of its rows.)"""
        self.take(insert("1", "a", of=table(9)))
        self.run_it()
        shutil.copyfile(self.into, self.other)
        self.equal(other=self.other)
        for of in ("relations", "digests"):
            self.plant(f"DELETE FROM pgsub_{of} WHERE oid = 1", self.other)
        with contextlib.closing(sqlite3.connect(self.other, isolation_level=None)) as base:
            base.execute('DROP TABLE "pgsub_old 1"')
        for _ in range(2):
            for digests in (False, True):
                self.equal(other=self.other, digests=digests)
            self.into, self.other = self.other, self.into
        self.plant("UPDATE stock SET name = 'b'", self.other)
        self.assertEqual(len(self.verified(1, other=self.other)), 1)

    def test_either_is_ahead(self) -> None:
        self.take(update(["1", "name 1"], ["1", "b"]), delete("1", "", of=OF_WHOLE))
        self.take(insert("11", "c"), update(["1", "b"], ["5000", "b"]))
        self.run_it()
        for digests in (False, True):
            self.equal(other=self.other, digests=digests)
        self.into, self.other = self.other, self.into
        for digests in (False, True):
            self.equal(other=self.other, digests=digests)

    def test_what_differs(self) -> None:
        self.plant("UPDATE stock SET name = 'x' WHERE id = 1", self.other)
        self.take(insert("11", "c"), delete("2", "name 2"))
        self.run_it()
        [found] = self.verified(1, other=self.other)
        self.assertEqual(
            found,
            {
                "table": "public.stock",
                "key": {"id": "1"},
                "other": {"id": "1", "name": "x"},
                "copy": {"id": "1", "name": "name 1"},
            },
        )
        self.plant("UPDATE stock SET name = 'name 1' WHERE id = 1", self.other)
        self.equal(other=self.other)
        self.plant("UPDATE pgsub_digests SET second = second - 1 WHERE oid = 1", self.other)
        self.assertEqual(self.verified(1, other=self.other, digests=True), [])
        self.plant("INSERT INTO whole VALUES (1, NULL)")
        self.plant("UPDATE pgsub_digests SET second = second + 1 WHERE oid = 1", self.other)
        [found] = self.verified(1, other=self.other)
        self.assertEqual((found["more_in_other"], found["more_in_copy"]), (0, 1))

    def test_a_table_that_is_set_aside_in_one_or_both(self) -> None:
        self.take(delete("77", "none"))
        with logged():
            for path in (self.into, self.other):
                tables.run(Options(feed=str(self.path), into=path, once=True), never)
                self.assertEqual(self.verified(1, other=self.other), [])
                self.assertIn("public.stock is set aside in", self.said[0])

    def test_a_truncation_between_them(self) -> None:
        self.take(truncate())
        self.run_it()
        self.fails(Passing, "^not compared: public.stock was truncated meanwhile", other=self.other)

    def test_a_table_of_one_alone(self) -> None:
        self.take(insert("1", "a", of=table(7, "late")))
        self.run_it()
        self.equal(other=self.other)
        self.plant("DELETE FROM whole", self.other)
        self.assertEqual(len(self.verified(1, other=self.other)), 2)
        self.plant("DELETE FROM pgsub_relations WHERE oid = 2", self.other)
        self.assertEqual(len(self.verified(1, other=self.other)), 2)

    def test_without_its_feed(self) -> None:
        self.take(insert("11", "c"))
        self.run_it()
        self.plant("UPDATE pgsub_feed SET folder = '/nowhere'")
        self.fails(Unfit, "its feed /nowhere isn't here to take it back to 0/200", other=self.other)
        self.equal(other=self.other, feed=str(self.path))

    def test_of_another_server(self) -> None:
        self.plant("UPDATE pgsub_feed SET system = '8'", self.other)
        self.fails(
            Unfit, "has rows of slot pgsub of database shop, system 8, and", other=self.other
        )
        self.plant("UPDATE pgsub_feed SET system = NULL, folder = '/nowhere'", self.other)
        self.fails(Passing, "other.db has followed nothing yet", other=self.other)
        self.plant("UPDATE pgsub_feed SET system = NULL")
        self.into, self.other = self.other, self.into
        self.fails(Passing, "other.db has followed nothing yet", other=self.other)


class Trails(VerifyCase):
    most = 1500

    def test_over_segments(self) -> None:
        for it in range(20):
            self.take(
                insert(str(100 + it), "x" * 200),
                update(["1", "name 1" if not it else f"{it}"], ["1", f"{it + 1}"]),
            )
        self.run_it()
        self.assertGreater(len(list(self.path.iterdir())), 10)
        for point in range(0x200, 0x1600, 0x180):
            count = max(0, point // 0x100 - 2)
            self.point = point
            self.server.tables[1] = [
                [str(it), f"name {it}" if it != 1 or not count else str(count)] for it in range(10)
            ]
            self.server.tables[1] += [[str(100 + it), "x" * 200] for it in range(count)]
            self.equal()

    def test_a_feed_that_lacks_what_is_needed(self) -> None:
        for it in range(20):
            self.take(insert(str(100 + it), "x" * 200))
        self.run_it()
        segments = sorted(self.path.glob("[0-9A-F]" * 16))
        trail = Trail(str(self.path), 0x200)
        for path in segments[:4]:
            path.unlink()
        with self.assertRaises(Gone):
            trail.has(0x1000)
        trail.close()
        with self.assertRaisesRegex(Unfit, "the feed doesn't have the commits after 0/200"):
            Trail(str(self.path), 0x200)

    def test_an_lsn_where_no_commit_ends(self) -> None:
        with contextlib.closing(Trail(str(self.path), 0)) as trail:
            self.assertTrue(trail.has(0x150))
            with self.assertRaisesRegex(Unfit, "no commit ends at 0/180"):
                list(trail.images(0x180, {1}))
            self.assertEqual(len(list(trail.images(0x200, {2}))), 4)
            self.assertEqual(list(trail.images(0x100, {1})), [])


class Words(TablesCase):
    def rejected(self, *words: str) -> str:
        with contextlib.redirect_stderr(io.StringIO()) as said, self.assertRaises(
            SystemExit
        ) as ended:
            options_of(["verify", *words])
        self.assertEqual(ended.exception.code, 2)
        return said.getvalue()

    def test_what_goes_together(self) -> None:
        self.rejected()
        for words in (["--with", "x"], ["--digests"], ["--feed", "x"]):
            self.rejected("--store", "x", *words)
        self.assertIn(
            "pgsub-connect add --store STORE --table T", self.rejected("--tables", "x", "--repair")
        )
        self.assertEqual(options_of(["verify", "--tables", "a", "--with", "b"]).other, "b")

    def test_which_store(self) -> None:
        """The publications are those of the store beside whose feed it is."""
        self.take(insert("1", "a"))
        self.run_it()
        self.assertEqual(tables_file.store_of(self.into), "")
        store = str(self.folder / "copy.db")
        self.path.rename(store + ".feed")
        with contextlib.closing(sqlite3.connect(self.into, isolation_level=None)) as base:
            base.execute("UPDATE pgsub_feed SET folder = ?", (store + ".feed",))
        self.assertEqual(tables_file.store_of(self.into), "")
        open(store + ".connector", "w").close()
        self.assertEqual(tables_file.store_of(self.into), store)
        self.assertEqual(
            [tables_file.store_of(it) for it in (store, store + ".connector")], ["", ""]
        )
