"""What a start goes on with where nothing else is said, and what one leaves that is refused."""

from __future__ import annotations

import contextlib
import io
import os
import sqlite3
from collections.abc import Callable
from pathlib import Path
from typing import Any
from unittest import mock

from pgsub_connect.commands import drop, follow, refresh
from pgsub_connect.drift.remembered import Remembered
from pgsub_connect.errors import ServerError
from pgsub_connect.commands.follow import leaving_nothing, own_files
from pgsub_connect.server.catalog import Catalog
from pgsub_connect.server.session import Subscription
from pgsub_connect.status.progress import Progress
from pgsub_connect.store.checkpoint import LONGEST_PATH, Checkpoint, read_known
from pgsub_connect.store.checkpoint_lines import COPIED, COPYING, FOLLOWING, SLOT, Known
from pgsub_connect.stream.common import Common, Tolerance
from pgsub_feed.errors import Failure, FileError, Passing, Stopped, Unfit, UsageError
from pgsub_feed.interruption import never
from pgsub_feed.relation import Relation, Shape
from pgsub_feed.tables.schema import RELATIONS, definition
from pgsub_feed.tables.target import Target
from pgsub_feed.tables.values import AS_REAL, AS_TEXT, BOTH

from .fake_server import Quiet
from .settled import options_of, settled
from .test_copying import Copying


class Begun(Quiet):
    def setUp(self) -> None:
        super().setUp()
        self.addCleanup(os.umask, os.umask(0o022))
        self.folder = self.make_folder()
        self.store = self.folder + "/copy.db"
        self.rows, self.feed = self.folder + "/rows.db", self.folder + "/far"

    def followed(
        self,
        phase: str = FOLLOWING,
        tables: str = "",
        feed: str = "",
        has_base: bool = False,
        messages: int = 0,
    ) -> None:
        """A store that was followed so."""
        Path(self.store).touch()
        checkpoint = Checkpoint(self.store)
        checkpoint.write(True, phase=phase, system="77", database="shop", slot="app")
        checkpoint.note_tables(tables)
        os.close(checkpoint.file)
        Remembered(self.store).note_feed(feed, has_base, messages)

    def follow(self, *words: str) -> follow.Options:
        options: follow.Options = settled(["follow", "--store", self.store, *words])
        return options


class Remembers(Begun):
    def test_all_of_it(self) -> None:
        self.followed(tables=self.rows, feed=self.feed)
        options = self.follow()
        self.assertEqual(
            (options.slot, options.tables, options.feed), ("app", self.rows, self.feed)
        )
        self.assertEqual(self.follow("--slot", "app", "--tables", self.rows), options)
        # what needs tables, or a feed, has them
        self.assertEqual(self.follow("--digests", "--feed-max-bytes", "5GB").tables, self.rows)

    def test_how_the_tables_have_numerics(self) -> None:
        self.followed(tables=self.rows, feed=self.feed)
        self.assertEqual(self.follow().numeric, BOTH)
        for form in (AS_TEXT, AS_REAL):
            with contextlib.closing(sqlite3.connect(self.rows)) as db:
                db.executescript(f"DROP TABLE IF EXISTS {RELATIONS}")
                db.execute(f"CREATE TABLE {RELATIONS} (oid, name, definition)")
                target = Target("t", Relation(7, "public", "t", Shape("d", ())), form)
                db.execute(f"INSERT INTO {RELATIONS} VALUES (7, 't', ?)", (definition(target),))
                db.commit()
            self.assertEqual(self.follow().numeric, form)
            self.assertEqual(self.follow("--numeric", BOTH).numeric, BOTH)

    def test_nothing(self) -> None:
        options = self.follow()
        self.assertEqual((options.slot, options.tables, options.feed), ("pgsub", "", ""))
        self.assertEqual(self.follow("--tables", self.rows).feed, self.store + ".feed")

    def test_the_feed_beside_the_store(self) -> None:
        """Where only the tables are known still."""
        self.followed(tables=self.rows)
        self.assertEqual(self.follow().feed, self.store + ".feed")

    def test_others(self) -> None:
        """They are refused, with what to do."""
        self.followed(tables=self.rows, feed=self.feed)
        for command in ("follow", "verify", "add --table t", "check"):
            with self.assertRaisesRegex(
                Unfit, "follows the slot app, and not pgsub: leave --slot out. .* drop --store"
            ):
                settled([*command.split(), "--store", self.store, "--slot", "pgsub"])
            self.assertEqual(settled([*command.split(), "--store", self.store]).slot, "app")
        for command in ("drop", "refresh"):
            with self.assertRaisesRegex(Unfit, "follows the slot app, and not other"):
                settled([command, "--store", self.store, "--slot", "other"])
        Path(self.rows).touch()
        with self.assertRaisesRegex(
            Unfit, f"are in {self.rows}: leave --tables out. .* move or remove that file, or"
        ):
            self.follow("--tables", self.folder + "/other.db")
        os.rename(self.rows, self.folder + "/other.db")
        self.assertEqual(
            self.follow("--tables", self.folder + "/other.db").tables, self.folder + "/other.db"
        )

    def test_left(self) -> None:
        self.followed(tables=self.rows, feed=self.feed)
        for words, left in (
            (("--without-tables",), ("", self.feed)),
            (("--without-feed",), ("", "")),
            (("--without-feed", "--feed", "new"), ("", "new")),
            (("--without-feed", "--tables", "t"), ("t", self.store + ".feed")),
        ):
            options = self.follow(*words)
            self.assertEqual((options.tables, options.feed), left, words)

    def test_the_first_rows_of_a_feed(self) -> None:
        """A copy that was interrupted goes on with what was said of them, unless it is said now."""
        self.assertEqual(self.follow("--feed", self.feed).feed_base, "yes")
        self.assertEqual(self.follow("--tables", self.rows).feed_base, "")
        for has_base, found in ((True, "yes"), (False, "")):
            self.followed(SLOT, feed=self.feed, has_base=has_base)
            self.assertEqual(self.follow().feed_base, found)
            self.assertEqual(self.follow("--feed", self.feed).feed_base, "yes")
            self.assertEqual(self.follow("--feed-base", "no").feed_base, "no")

    def test_messages(self) -> None:
        """Once they were asked for they come, until they are left, or the feed is."""
        feed = ("--feed", self.feed)
        for words, most in ((feed, 0), ((*feed, "--messages"), 64 << 20), ((), 0)):
            self.assertEqual(self.follow(*words).messages, most)
        self.assertEqual(self.follow(*feed, "--messages", "5MB").messages, 5 << 20)
        self.assertEqual(self.follow("--tables", self.rows, "--messages").messages, 64 << 20)
        with self.assertRaisesRegex(UsageError, "^--messages needs --feed$"):
            self.follow("--messages")
        self.followed(feed=self.feed, messages=7)
        for words, most in (
            ((), 7),
            (feed, 7),
            (("--messages", "9B"), 9),
            (("--without-messages",), 0),
            (("--without-feed",), 0),
            (("--without-feed", "--feed", "new", "--messages", "8B"), 8),
        ):
            self.assertEqual(self.follow(*words).messages, most, words)
        options = self.follow()
        told = options.feed_settings(self.store, 0o600), options.copy_settings()
        self.assertEqual((told[0].messages, told[1].messages), (7, True))
        self.assertTrue(options.follow_settings().messages)
        with self.assertRaises(SystemExit), contextlib.redirect_stderr(io.StringIO()) as said:
            self.follow("--messages", "--without-messages")
        self.assertIn("exclude each other", said.getvalue())

    def test_what_an_earlier_version_has_remembered(self) -> None:
        """It knew of no messages."""
        self.followed(feed=self.feed, messages=7)
        path = Path(self.store + ".tables")
        path.write_text(path.read_text().replace('"messages":7,', ""))
        found = Remembered(self.store)
        self.assertEqual((found.feed, found.messages), (self.feed, 0))

    def test_the_slot_of_an_interrupted_copy(self) -> None:
        for phase, is_made in ((COPYING, False), (SLOT, True)):
            self.followed(phase)
            os.unlink(self.store)
            self.assertEqual(self.follow().slot, "app")
            if is_made:
                with self.assertRaisesRegex(Unfit, "follows the slot app"):
                    self.follow("--slot", "other")
            else:
                self.assertEqual(self.follow("--slot", "other").slot, "other")

    def test_an_interrupted_copy_goes_on_by_the_store_alone(self) -> None:
        for phase, begins in ((SLOT, True), (COPIED, True), (FOLLOWING, False)):
            self.followed(phase, self.rows, self.feed)
            remembered = Remembered(self.store)
            remembered.begin(Catalog(("mine",), 0, 0, {}, {}, {}, {}))
            remembered.save()
            os.unlink(self.store)
            options = self.follow()
            checkpoint: Any = mock.Mock(known=Known(phase))
            known = Tolerance(), checkpoint, Progress(), remembered
            parts: Any = mock.MagicMock(common=Common(Subscription(), *known))
            if not begins:
                with self.assertRaisesRegex(Unfit, "is gone, and the slot"):
                    follow.begin(options, parts)
                continue
            self.assertEqual(list(options.publication), ["mine"])
            self.assertEqual((options.tables, options.feed), (self.rows, self.feed))
            follow.begin(options, parts)
            parts.copier.run.assert_called_once_with()
            self.assertTrue(options.copy_settings().wanted.keeps)
            self.assertFalse(self.follow("--create").copy_settings().wanted.keeps)

    def test_an_interrupted_copy_isnt_taken_for_a_whole_one(self) -> None:
        """Its file is there."""
        for phase in (COPYING, SLOT):
            self.followed(phase)
            with self.assertRaisesRegex(Unfit, "lacks rows, since its copy was interrupted"):
                follow.begin(self.follow("--no-copy"), self.parts(phase))
            parts = self.parts(phase)
            follow.begin(self.follow("--create"), parts)
            parts.copier.run.assert_called_once_with()

    def parts(self, phase: str) -> Any:
        known = Tolerance(), mock.Mock(known=Known(phase)), Progress(), Remembered(self.store)
        return mock.MagicMock(common=Common(Subscription(), *known))

    def test_what_a_checkpoint_has_no_room_for(self) -> None:
        checkpoint = Checkpoint(self.store)
        self.addCleanup(os.close, checkpoint.file)
        checkpoint.note_tables("/" + "a" * (LONGEST_PATH - 10))
        with self.assertRaisesRegex(FileError, "--tables /.*: that path is too long"):
            checkpoint.note_tables("/" + "\u0431" * 200)


class LeavesNothing(Begun):
    """Whatever refuses a start."""

    def refused(self, kind: type[Exception], text: str, *words: str) -> None:
        before = {it: it.stat().st_mtime_ns for it in Path(self.folder).rglob("*") if it.is_file()}
        folders = sorted(it for it in Path(self.folder).rglob("*") if it.is_dir())
        with mock.patch("pgsub_connect.commands.follow.stop_by_signals"), self.assertRaisesRegex(
            kind, text
        ):
            follow.run(
                self.follow("--dsn", f"host={self.folder}/nowhere dbname=shop", *words), never
            )
        after = {it: it.stat().st_mtime_ns for it in Path(self.folder).rglob("*") if it.is_file()}
        self.assertEqual(after, before)
        self.assertEqual(sorted(it for it in Path(self.folder).rglob("*") if it.is_dir()), folders)

    def test_no_server(self) -> None:
        for words in (
            ("--create",),
            ("--create", "--tables", self.rows),
            ("--create", "--no-copy", "--feed", self.feed),
            ("--create", "--record", self.folder + "/r.pgx", "--table", "t"),
        ):
            with self.subTest(words):
                self.refused(Failure, "connection to server", *words)

    def test_no_store(self) -> None:
        self.refused(Unfit, "there is no store .*: --create makes it")

    def test_files_in_the_way(self) -> None:
        os.mkdir(self.feed)
        Path(self.feed, "x").touch()
        self.refused(Unfit, "it has other files, as x", "--create", "--feed", self.feed)
        os.rename(self.feed + "/x", self.feed + "/confirmed")
        self.refused(Unfit, "an older copy has left", "--create", "--feed", self.feed)
        Path(self.rows).write_text("mine", encoding="utf-8")
        self.refused(FileError, "has no tables that follow", "--create", "--tables", self.rows)
        self.refused(FileError, "rows.db", "--create", "--record", self.rows)
        Path(self.store + "-wal").touch()
        self.refused(Unfit, "is the log of a store that is gone", "--create")

    def test_a_store_of_which_nothing_is_known(self) -> None:
        """It stays, and no checkpoint is made."""
        Path(self.store).write_text("rows", encoding="utf-8")
        self.refused(Failure, "none/pgsub", "--pgsub", self.folder + "/none/pgsub")

    def test_what_was_there_stays(self) -> None:
        self.followed(COPYING)
        os.unlink(self.store)
        self.refused(Passing, "connection to server", "--create")
        self.assertEqual(read_known(self.store + ".connector").slot, "app")


class Copies(Copying):
    """So do those that are refused while the rows are copied, with publication and slot."""

    def test_all_of_it(self) -> None:
        self.server.answer("SELECT p.pubname FROM", lambda it: [["pgsub"]] if "= 777" in it else [])
        for command, error in (
            ("CREATE_REPLICATION_SLOT", ServerError("all replication slots are in use", "53400")),
            ("COPY (", ServerError("denied", "42501")),
            ("pg_copy_logical_replication_slot", ServerError("denied", "42501")),
            ("CREATE PUBLICATION", ServerError("denied", "42501")),
            ("SET TRANSACTION SNAPSHOT", Stopped()),
        ):
            with self.subTest(command):
                self.server.commands.clear()
                self.server.answer(command, mock.Mock(side_effect=error))
                copier = self.copier()
                with self.assertRaises(type(error)), leaving_nothing(self.checkpoint, set(), ()):
                    copier.run()
                self.assertEqual((os.listdir(self.folder), self.slots), ([], []))
                self.server.answers.pop(0)

    def test_what_the_program_has_made(self) -> None:
        """A store, a feed and tables where there was no slot to follow; what somebody else has put
        into the feed stays."""
        feed, rows, mine = self.store + ".feed", self.folder + "/rows.db", self.folder + "/mine"
        for is_mine in (False, True):
            Path(mine).touch()
            before, checkpoint = own_files(self.store), Checkpoint(self.store)
            with leaving_nothing(checkpoint, before, (feed, rows, mine, "", None)):
                os.makedirs(feed + "/readers")
                os.mkdir(self.store + ".spool")
                for path in (
                    *(self.store + it for it in ("", "-wal", ".status", ".sock")),
                    self.store + ".spool/transactions",
                    *(feed + it for it in ("/0000000000000000", "/confirmed", "/readers/tables")),
                    *(rows + it for it in ("", "-wal", "-shm")),
                    *([feed + "/mine"] if is_mine else []),
                ):
                    Path(path).touch()
            os.close(checkpoint.file)
            left = ["copy.db.feed", "mine"] if is_mine else ["mine"]
            self.assertEqual(sorted(os.listdir(self.folder)), left)
        self.assertEqual(os.listdir(feed), ["mine"])

    def test_a_slot_that_the_next_start_goes_on_with(self) -> None:
        copier = self.copier()
        self.patch(copier.slot, "drop", lambda _: False)
        self.server.answer("COPY (", ServerError("denied", "42501"))
        with self.assertRaises(ServerError), leaving_nothing(self.checkpoint, set(), ()):
            copier.run()
        self.assertEqual(read_known(self.store + ".connector").phase, SLOT)

    def test_a_publication_that_cant_be_dropped(self) -> None:
        """It is remembered, so that the next start drops it."""
        self.server.answer("DROP PUBLICATION", ServerError("gone", "57P01"))
        self.server.answer("SELECT p.pubname FROM", lambda it: [["pgsub"]] if "= 777" in it else [])
        self.server.answer("COPY (", ServerError("denied", "42501"))
        copier = self.copier()
        with self.assertRaises(ServerError), leaving_nothing(self.checkpoint, set(), ()):
            copier.run()
        self.assertEqual(os.listdir(self.folder), ["copy.db.tables"])
        self.assertEqual(self.made(), {"pgsub": 777})
