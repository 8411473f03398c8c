"""`drop`: the order, what is asked, and what it rejects."""

from __future__ import annotations

import contextlib
import fcntl
import json
import os
import sqlite3
from pathlib import Path
from typing import Any
from unittest import mock

from pgsub_connect.commands import drop
from pgsub_connect.commands.drop import Dropper, ask_terminal, files_of
from pgsub_connect.errors import ServerError
from pgsub_connect.server import session
from pgsub_connect.store.checkpoint import Checkpoint
from pgsub_connect.store.file import STORED
from pgsub_feed.errors import FileError, Passing, Unfit
from pgsub_feed.tables.first_rows import prepare

from .fake_server import FakeServer, Quiet, Row

FILES = ("", "-wal", "-shm", ".connector", ".tables")


class Dropping(Quiet):
    def setUp(self) -> None:
        super().setUp()
        self.folder = self.make_folder()
        self.store = os.path.join(self.folder, "copy.db")
        for suffix in FILES:
            with open(self.store + suffix, "w", encoding="utf-8"):
                pass
        with open(os.path.join(self.folder, "copy.db2"), "wb"), open(
            os.path.join(self.folder, "rows.db"), "wb"
        ):
            pass
        checkpoint = Checkpoint(self.store)
        checkpoint.write(True, phase="following", system="77", database="shop", slot="s1")
        os.close(checkpoint.file)
        self.server = server = FakeServer()
        self.slots: list[Row] = [["f", "t"]]
        self.publications = {"pgsub": "777"}
        server.answer("pg_control_system", [["77", "shop"]])
        server.answer(
            "s.plugin = 'pgoutput' AND s.database = pg_catalog.current_database() FROM",
            lambda _: self.slots,
        )
        server.answer(
            "SELECT p.oid FROM pg_catalog.pg_publication p",
            lambda command: [
                [oid] for name, oid in self.publications.items() if command.endswith(f"'{name}'")
            ],
        )
        patch = mock.patch.object(session, "Connection", server.connect)
        patch.start()
        self.addCleanup(patch.stop)
        self.asked: list[str] = []
        self.no: tuple[str, ...] = ()

    def remember(self, **fields: object) -> None:
        with open(self.store + ".tables", "w", encoding="utf-8") as file:
            json.dump(fields, file)

    def ask(self, question: str) -> bool:
        self.asked.append(question)
        return not any(part in question for part in self.no)

    def run_it(self, **options: Any) -> None:
        Dropper(drop.Options(store=self.store, publication=["pgsub"], **options), self.ask).run()

    def left(self) -> list[str]:
        return sorted(os.listdir(self.folder))

    def dropped(self) -> list[str]:
        return self.server.told("pg_drop_replication_slot") + self.server.told("DROP PUBLICATION")

    def refused(self, kind: type[Exception], text: str, **options: object) -> None:
        before = self.left()
        with self.assertRaisesRegex(kind, text):
            self.run_it(**options)
        self.assertEqual((self.dropped(), self.left()), ([], before))
        self.assertEqual(self.server.opened, self.server.closed)

    def test_slot_publications_files(self) -> None:
        self.remember(made={"pgsub": 777})
        self.run_it()
        self.assertEqual(
            [it.split(" ")[1] for it in self.asked], ["the", "the", self.store + "-wal,"]
        )
        self.assertIn("the slot s1", self.asked[0])
        self.assertEqual(self.asked[1], "drop the publication pgsub?")
        self.assertLess(
            self.server.index("pg_drop_replication_slot('s1')"),
            self.server.index('DROP PUBLICATION "pgsub"'),
        )
        self.assertEqual(self.left(), ["copy.db2", "rows.db"])

    def feed(self) -> str:
        """A feed with a reader, and the tables that follow it."""
        feed, tables = self.store + ".feed", self.folder + "/rows.db"
        os.makedirs(feed + "/readers")
        for name in ("0000000000000100", "confirmed", "readers/tables", "readers/mine"):
            Path(feed, name).touch()
        os.unlink(tables)
        with contextlib.closing(sqlite3.connect(tables)) as db:
            prepare(db, feed, (), False)
        for suffix in ("-wal", ".base.pgsub-7", ".mine"):
            Path(tables + suffix).touch()
        checkpoint = Checkpoint(self.store)
        checkpoint.note_tables(tables)
        os.close(checkpoint.file)
        self.remember(made={"pgsub": 777}, feed=feed)
        return feed

    def test_the_feed_and_the_tables_stay(self) -> None:
        """What to do before another copy begins there is told."""
        feed = self.feed()
        self.run_it(yes=True)
        self.assertEqual(
            self.left(),
            [
                "copy.db.feed",
                "copy.db2",
                *("rows.db" + it for it in ("", "-wal", ".base.pgsub-7", ".mine")),
            ],
        )
        self.assertIn(
            f"before another copy begins there: rm -r {feed} {self.folder}/rows.db", self.said[-1]
        )

    def test_all(self) -> None:
        """The feed and the tables go, with what is beside them; what others have put there
        stays."""
        feed = self.feed()
        self.run_it(yes=True, all=True)
        self.assertEqual(self.left(), ["copy.db2", "rows.db.mine"])
        self.assertFalse(any("stays" in it for it in self.said), self.said)

    def test_all_but_what_others_have_put_into_the_feed(self) -> None:
        feed = self.feed()
        Path(feed, "notes").touch()
        self.run_it(yes=True, all=True)
        self.assertEqual(os.listdir(feed), ["notes"])
        self.assertIn(f"stays: {feed}. ", self.said[-1])

    def test_all_where_the_tables_are_gone(self) -> None:
        self.feed()
        os.unlink(self.folder + "/rows.db")
        self.run_it(all=True)
        self.assertNotIn("copy.db.connector", self.left())

    def test_all_but_what_has_no_tables_any_more(self) -> None:
        self.feed()
        Path(self.folder, "rows.db").write_bytes(b"SQLite format 3\0" + b"x" * 100)
        self.run_it(all=True)
        self.assertIn("rows.db", self.left())

    def test_all_but_tables_of_another_feed(self) -> None:
        self.feed()
        with contextlib.closing(sqlite3.connect(self.folder + "/rows.db")) as db:
            db.execute("UPDATE pgsub_feed SET folder = '/another'")
            db.commit()
        self.run_it(yes=True, all=True)
        self.assertIn("rows.db", self.left())

    def test_the_checkpoint_goes_last(self) -> None:
        self.assertEqual(
            files_of(self.store)[-2:], [self.store + ".tables", self.store + ".connector"]
        )
        self.assertEqual(len(files_of(self.store)), len(FILES))

    def test_a_store_by_a_link(self) -> None:
        """The rows go, and with them the log that the program has beside them; what is of another
        follower there stays."""
        os.mkdir(self.folder + "/far")
        for suffix in ("", "-wal", ".connector"):
            with open(f"{self.folder}/far/shop.db{suffix}", "wb"):
                pass
        os.unlink(self.store)
        os.symlink("far/shop.db", self.store)
        self.run_it(yes=True)
        self.assertEqual(
            (self.left(), os.listdir(self.folder + "/far")),
            (["copy.db2", "far", "rows.db"], ["shop.db.connector"]),
        )

    def test_what_open_transactions_have_left(self) -> None:
        """As where connector and filter were killed; it is told, too."""
        os.mkdir(self.store + ".spool")
        Path(self.store + ".spool/transactions").write_bytes(bytes(100))
        self.run_it()
        self.assertTrue(any(f"{self.store}.spool" in it for it in self.asked), self.asked)
        self.assertEqual(self.left(), ["copy.db2", "rows.db"])

    def test_a_link_in_that_place(self) -> None:
        os.mkdir(self.folder + "/mine")
        Path(self.folder, "mine/transactions").touch()
        os.symlink("mine", self.store + ".spool")
        self.run_it()
        self.assertEqual(self.left(), ["copy.db2", "mine", "rows.db"])
        self.assertEqual(os.listdir(self.folder + "/mine"), ["transactions"])

    def test_files_of_others_stay(self) -> None:
        """Whatever they have in their names behind the store's."""
        kept = [
            "copy.db.export.sqlite",
            "copy.db.export.20261101",
            "copy.db.tables.db",
            "copy.db.connector.bak",
            "copy.db.request",
            "copy.db.filter.txt",
            "copy.db.export.pgsub-7.sqlite",
            "copy.db.base.db",
            "copy.db2.export.pgsub-7",
        ]
        own = [
            "copy.db.export.pgsub-7",
            "copy.db.export.pgsub-7.pgsub-new",
            "copy.db.base.pgsub-7",
            "copy.db-journal",
            "copy.db.base.pgsub-7.copied.pgsub-7-wal",
            "copy.db.tables.new",
            "copy.db.pgsub-new",
            "copy.db.status",
        ]
        for name in (*kept, *own):
            with open(os.path.join(self.folder, name), "wb"):
                pass
        self.run_it(yes=True)
        self.assertEqual(self.left(), sorted([*kept, "copy.db2", "rows.db"]))

    def test_a_slot_that_stays_keeps_the_files(self) -> None:
        self.no = ("the slot", "the publication")
        self.run_it()
        self.assertEqual((self.dropped(), len(self.left())), ([], len(FILES) + 2))

    def test_a_slot_that_is_gone(self) -> None:
        self.slots = []
        self.run_it()
        self.assertEqual(self.server.told("pg_drop_replication_slot"), [])
        self.assertEqual(self.left(), ["copy.db2", "rows.db"])

    def test_an_active_slot(self) -> None:
        self.slots = [["t", "t"]]
        with mock.patch.object(drop, "PATIENCE", 0):
            self.refused(Passing, "the slot s1 is active")

    def test_a_connector_at_work(self) -> None:
        file = os.open(self.store + ".connector", os.O_RDWR)
        self.addCleanup(os.close, file)
        fcntl.flock(file, fcntl.LOCK_EX)
        self.refused(Passing, "a connector or its filter is at work")
        self.assertEqual(self.server.opened, 0)

    def test_another_server(self) -> None:
        self.server.answer("pg_control_system", [["78", "shop"]])
        self.refused(
            Unfit, "the store follows the database shop of the server 77, and this is shop of 78"
        )
        # (as pg_upgrade makes one of another identity, where nothing else can be dropped)
        for part in (r"pg_drop_replication_slot\('s1'\)", f"rm -r {self.store}-wal "):
            self.refused(Unfit, part)

    def test_a_store_that_isnt_there(self) -> None:
        """One that was mistyped: no server is asked for the slot that another store follows."""
        self.store = os.path.join(self.folder, "cpoy.db")
        for slot in ("", "s1"):
            self.refused(FileError, "cpoy.db: there is no store, nor anything beside", slot=slot)
        self.assertEqual(self.server.opened, 0)

    def test_a_file_of_something_else(self) -> None:
        """A mistyped name: neither it nor the slot of another store goes."""
        self.store = os.path.join(self.folder, "rows.db")
        for slot in ("", "s1"):
            self.refused(FileError, "rows.db: it isn't a store of pgsub", slot=slot, yes=True)
        os.mkdir(os.path.join(self.folder, "notes"))
        self.store = os.path.join(self.folder, "notes")
        self.refused(FileError, "notes: it isn't a store of pgsub", slot="s1", yes=True)
        self.assertEqual(self.server.opened, 0)

    def test_a_copy_of_a_store(self) -> None:
        """As a snapshot, beside which nothing says which slot the store follows."""
        self.store = os.path.join(self.folder, "copy.db2")
        with contextlib.closing(sqlite3.connect(self.store)) as base:
            for name in STORED:
                base.execute(f"CREATE TABLE {name} (x)")
        self.refused(Unfit, "no checkpoint beside it names the slot", yes=True)
        self.assertEqual(self.server.opened, 0)
        self.run_it(slot="s1", yes=True)
        self.assertNotIn("copy.db2", self.left())

    def test_the_slot_has_no_default(self) -> None:
        options = drop.settled(drop.Options(store=self.store + "2"))
        self.assertEqual((options.slot, options.publication), ("", ["pgsub"]))

    def test_a_slot_of_another_plugin(self) -> None:
        self.slots = [["f", "f"]]
        for plugin, database, told in (
            ("test_decoding", "shop", "is of the plugin test_decoding, and not one of pgoutput"),
            (None, None, "is a physical one, and not one of pgoutput: name another"),
            ("pgoutput", "shop", "is of the database shop, and this is postgres: name that one by"),
        ):
            self.server.answer("SELECT s.plugin, s.data", [[plugin, database, "postgres"]])
            self.refused(Unfit, told)

    def test_a_checkpoint_of_something_else(self) -> None:
        with open(self.store + ".connector", "w", encoding="utf-8") as file:
            file.write("nonsense")
        with self.assertRaises(FileError):
            self.run_it()

    def test_a_slot_that_can_not_be_dropped_keeps_all_else(self) -> None:
        self.server.answer("pg_drop_replication_slot", ServerError("permission denied", "42501"))
        before = self.left()
        with self.assertRaises(ServerError):
            self.run_it()
        self.assertEqual((self.server.told("DROP PUBLICATION"), self.left()), ([], before))

    def test_a_publication_of_somebody_else(self) -> None:
        self.run_it()
        self.assertEqual(
            self.asked[1], "drop the publication pgsub, which somebody else may have made?"
        )

    def test_a_publication_that_was_made_anew_by_somebody_else(self) -> None:
        self.remember(made={"pgsub": 5})
        self.run_it()
        self.assertIn("somebody else", self.asked[1])

    def test_all_that_were_made(self) -> None:
        self.remember(made={"pgsub": 777, "pgsub_inserts": 778}, catalog={"names": ["more"]})
        self.publications = {"pgsub": "777", "pgsub_inserts": "778", "more": "779"}
        self.run_it()
        self.assertEqual(len(self.server.told("DROP PUBLICATION")), 3)

    def test_other_slots_are_named(self) -> None:
        self.server.answer("s.slot_name <>", [["other"]])
        self.run_it()
        self.assertIn("other slots may use it: other", self.asked[1])

    def test_yes_drops_only_what_is_its_own(self) -> None:
        self.run_it(yes=True)
        self.assertEqual(self.server.told("DROP PUBLICATION"), [])
        self.assertTrue(any("pgsub stays" in it for it in self.said))

    def test_yes_keeps_what_others_may_use(self) -> None:
        self.remember(made={"pgsub": 777})
        self.server.answer("s.slot_name <>", [["other"]])
        self.run_it(yes=True)
        self.assertEqual(self.server.told("DROP PUBLICATION"), [])

    def test_yes_drops_what_was_made(self) -> None:
        self.remember(made={"pgsub": 777})
        self.run_it(yes=True)
        self.assertEqual(len(self.server.told("DROP PUBLICATION")), 1)

    def test_a_store_without_a_checkpoint(self) -> None:
        os.unlink(self.store + ".connector")
        self.run_it(slot="s1")
        self.assertEqual(len(self.dropped()), 2)

    def test_nobody_at_the_terminal(self) -> None:
        with mock.patch("sys.stdin.isatty", lambda: False), self.assertRaisesRegex(Unfit, "--yes"):
            ask_terminal("?")
