"""A store's file at rest: held where nobody follows, copied where a log is left, asked for where a
follower runs."""

from __future__ import annotations

import contextlib
import errno
import fcntl
import os
import shutil
import sqlite3
import stat
import tempfile
import threading
import time
import unittest
from collections.abc import Iterator
from typing import Any
from unittest import mock

from pgsub_connect.cli import main
from pgsub_connect.commands import snapshot
from pgsub_connect.follow.request_socket import RequestSocket
from pgsub_connect.follow.snapshots import Snapshots
from pgsub_connect.store import at_rest as at_rest_module, export
from pgsub_connect.store.at_rest import at_rest
from pgsub_connect.store.export import ExportSettings
from pgsub_connect.store.socket_file import listening
from pgsub_feed.errors import FILE, PASSING, USAGE, FileError, Passing, Stopped
from pgsub_feed.files import own_name
from pgsub_feed.interruption import never

from .asking import Asker, asking, snapshots_of
from .stores import StoreCase
from .vectors import logged

# A process that isn't there.
GONE = 4194304 + 1


class Case(StoreCase):
    def setUp(self) -> None:
        super().setUp()
        self.patch("pgsub_connect.store.at_rest.LOOK", 0.01)
        self.patch("pgsub_connect.store.socket_file.STEP", 0.01)
        self.store.table(1, "t")
        self.store.row(1, "1", "x")
        self.made = {"copy.db", "copy.db.connector"}
        self.ended = threading.Event()

    def options(self, mode: int = 0o600) -> snapshot.Options:
        return snapshot.Options(self.path, self.into, mode)

    def settings(self, **more: Any) -> ExportSettings:
        chosen: dict[str, Any] = {"store": self.path, "into": self.into, **more}
        return ExportSettings(**chosen)

    def left(self) -> set[str]:
        return set(os.listdir(self.folder)) - self.made - {"copy.db.sock"}

    @contextlib.contextmanager
    def locked(self) -> Iterator[None]:
        """As while a connector runs."""
        with open(self.path + ".connector", "w") as file:
            fcntl.flock(file, fcntl.LOCK_EX)
            yield

    def follow(self, position: int = 0x130) -> None:
        """What a follower does for requests."""
        requests = RequestSocket(self.path)
        snapshots = Snapshots(self.path, requests, None, 0.0)
        while not self.ended.is_set():
            requests.rest(0.02)
            if snapshots.is_due(position):
                snapshots.take(position, never)
        snapshots.wait()
        requests.close()

    @contextlib.contextmanager
    def followed(self, position: int = 0x130) -> Iterator[None]:
        with self.locked():
            thread = threading.Thread(target=self.follow, args=(position,))
            thread.start()
            try:
                yield
            finally:
                self.ended.set()
                thread.join()

    @contextlib.contextmanager
    def asker(self) -> Iterator[Asker]:
        """Another program, that is connected."""
        until = time.monotonic() + 60
        while not os.path.exists(self.path + ".sock") and time.monotonic() < until:
            time.sleep(0.005)
        with contextlib.closing(Asker(self.path)) as asker:
            yield asker

    def rows(self) -> list[tuple[object, ...]]:
        with contextlib.closing(sqlite3.connect(self.into)) as base:
            return base.execute("SELECT * FROM t").fetchall()


class Held(Case):
    def test_without_a_follower(self) -> None:
        open(self.path + ".connector", "w").close()
        with at_rest(self.path, self.into, never) as (path, is_copy):
            self.assertEqual((path, is_copy), (self.path, False))
            self.assertIsNone(at_rest_module.locked_checkpoint(self.path))
            with self.assertRaisesRegex(sqlite3.OperationalError, "locked"):
                self.store.base.execute("PRAGMA busy_timeout = 0")
                self.store.row(1, "2", "y")
        self.store.row(1, "2", "y")
        self.assertFalse(at_rest_module.is_followed(self.path))

    def test_open_elsewhere(self) -> None:
        self.store.base.execute("BEGIN EXCLUSIVE")
        with logged() as told:
            self.assertEqual(main(["export", "--store", self.path, "--into", self.into]), PASSING)
        self.assertIn("another program has it open", told[0])
        self.store.base.execute("ROLLBACK")

    def test_a_log_that_is_left(self) -> None:
        """As after kill -9: the file alone lacks rows, and both stay as they are."""
        self.store.base.execute("PRAGMA journal_mode = WAL")
        self.store.base.execute("PRAGMA wal_autocheckpoint = 0")
        self.store.row(1, "2", "y")
        for suffix in ("", "-wal"):
            with open(self.path + suffix, "rb") as old, open(
                self.folder + "/killed.db" + suffix, "wb"
            ) as new:
                new.write(old.read())
        settings = self.settings(store=self.folder + "/killed.db")
        before = {suffix: os.stat(settings.store + suffix).st_size for suffix in ("", "-wal")}
        with logged():
            export.export_store(settings, never)
        self.assertEqual(self.rows(), [(1, "x"), (2, "y")])
        self.assertEqual(
            {suffix: os.stat(settings.store + suffix).st_size for suffix in ("", "-wal")}, before
        )
        self.assertEqual(
            self.left() - {"copy.db-wal", "copy.db-shm"}, {"killed.db", "killed.db-wal", "rows.db"}
        )

    def test_a_log_of_a_store_that_is_named_by_a_link(self) -> None:
        """SQLite has it beside the file that is meant."""
        self.store.base.execute("PRAGMA journal_mode = WAL")
        self.store.base.execute("PRAGMA wal_autocheckpoint = 0")
        self.store.row(1, "2", "y")
        os.mkdir(self.folder + "/far")
        for suffix in ("", "-wal"):
            shutil.copyfile(self.path + suffix, self.folder + "/far/killed.db" + suffix)
        settings = self.settings(store=self.folder + "/link.db")
        os.symlink("far/killed.db", settings.store)
        with logged():
            export.export_store(settings, never)
            self.assertEqual(self.rows(), [(1, "x"), (2, "y")])
            snapshots = snapshots_of(self, settings.store, self.folder + "/snapshot.db")
            snapshots.take(0x130, never)
            snapshots.wait()
        with contextlib.closing(sqlite3.connect(self.folder + "/snapshot.db")) as base:
            self.assertEqual(base.execute("SELECT count(*) FROM held").fetchone(), (2,))

    def test_a_disk_that_is_full(self) -> None:
        """Also where SQLite tells it, as of its own writes, that passes: what starts these again
        goes on. A spoiled file doesn't."""
        open(self.path + "-wal", "wb").write(b"x")
        errors = (("database or disk is full", PASSING), ("file is not a database", FILE))
        for command, function in (
            ("export", "store.at_rest.fold"),
            ("snapshot", "store.at_rest.fold"),
            ("export", "store.export.Export.run"),
            ("snapshot", "commands.snapshot.fold"),
        ):
            if function != "store.at_rest.fold" and os.path.exists(self.path + "-wal"):
                os.unlink(self.path + "-wal")
            for text, status in errors:
                with logged() as told, mock.patch(
                    f"pgsub_connect.{function}", side_effect=sqlite3.DatabaseError(text)
                ):
                    self.assertEqual(
                        main([command, "--store", self.path, "--into", self.into]),
                        status,
                        (function, told),
                    )
                self.assertRegex(
                    told[-1],
                    f"error: .*copy.db.*: {text}"
                    if function != "commands.snapshot.fold"
                    else f"error: .*rows.db.*: {text}",
                )
                self.assertEqual(self.left() - {"copy.db-wal"}, set())

    def test_a_disk_that_is_full_is_told(self) -> None:
        """The system says of a write only that there is no room."""
        open(self.path + "-wal", "wb").write(b"x")
        for command in ("export", "snapshot"):
            with logged() as told, mock.patch(
                "pgsub_feed.files.copied",
                side_effect=OSError(errno.ENOSPC, "No space left on device"),
            ):
                self.assertEqual(
                    main([command, "--store", self.path, "--into", self.into]), PASSING
                )
            self.assertEqual(
                (told[-1], self.left()),
                (f"error: {self.into}: No space left on device", {"copy.db-wal"}),
            )

    def test_no_rights(self) -> None:
        open(self.path + ".connector", "w").close()
        with mock.patch("os.open", side_effect=PermissionError(13, "Permission denied")):
            with self.assertRaisesRegex(FileError, "Permission"):
                at_rest_module.locked_checkpoint(self.path)


class Asked(Case):
    def test_export(self) -> None:
        with self.followed(), logged() as told:
            export.export_store(self.settings(), never)
        self.assertEqual(self.rows(), [(1, "x")])
        self.assertEqual(self.left(), {"rows.db"})
        self.assertIn("its follower is asked for a copy", told[0])

    def test_open_transactions_stay(self) -> None:
        """No copy has what isn't committed."""
        os.mkdir(self.path + ".spool")
        with open(self.path + ".spool/transactions", "wb") as file:
            file.write(bytes(5000))
        with self.followed(), logged():
            snapshot.run(self.options(), never)
        self.assertEqual(self.left(), {"rows.db", "copy.db.spool"})
        self.assertEqual(os.listdir(self.path + ".spool"), ["transactions"])

    def test_snapshot(self) -> None:
        with self.followed(), logged():
            for _ in range(2):
                snapshot.run(self.options(), never)
        self.assertEqual(self.left(), {"rows.db"})
        self.assertTrue(snapshot.is_snapshot(self.into))

    def test_one_after_the_other(self) -> None:
        """Another program has asked before."""
        with self.followed(), logged(), self.asker() as asker:
            asker.say(ask="copy", into=self.folder + "/other.db")
            export.export_store(self.settings(), never)
            self.assertEqual(asker.heard(), [{"copied": "0/130"}])
        self.assertEqual(self.left(), {"rows.db", "other.db"})

    def test_a_follower_that_cant(self) -> None:
        with self.followed(0x200), logged(), self.assertRaisesRegex(
            Passing, "follower couldn't copy it: the copy isn't at 0/200"
        ):
            export.export_store(self.settings(), never)
        self.assertEqual(self.left(), set())

    def test_a_follower_that_ends(self) -> None:
        """Then the store is read where it is."""
        with contextlib.ExitStack() as stack, logged():
            stack.enter_context(self.locked())
            calls = iter(range(1000))

            def check() -> None:
                if next(calls) == 3:
                    stack.close()

            export.export_store(self.settings(), check)
        self.assertEqual(self.rows(), [(1, "x")])
        self.assertEqual(self.left(), {"rows.db"})

    def test_a_follower_that_doesnt_answer(self) -> None:
        requests = RequestSocket(self.path)
        self.addCleanup(requests.close)
        with self.locked(), mock.patch.object(at_rest_module, "PATIENCE", 0.05), logged():
            with self.assertRaisesRegex(Passing, "its follower hasn't answered in 0 seconds"):
                export.export_store(self.settings(), never)
        self.assertEqual(self.left(), set())

    def test_a_follower_without_a_socket(self) -> None:
        """One of an older version; but one that is about to begin is waited for."""
        with self.locked(), mock.patch.object(at_rest_module, "STARTING", 0.05), logged():
            with self.assertRaisesRegex(Passing, "is its follower of an older version"):
                export.export_store(self.settings(), never)
        with self.locked(), logged():
            late = threading.Timer(0.1, self.follow)
            late.start()
            export.export_store(self.settings(), never)
            self.ended.set()
            late.join()
        self.assertEqual(self.left(), {"rows.db"})

    def test_a_socket_that_a_killed_follower_left(self) -> None:
        """Its filter has the store for a moment."""
        listening(self.path, 0o600).close()
        with contextlib.ExitStack() as stack, logged():
            stack.enter_context(self.locked())
            calls = iter(range(1000))

            def check() -> None:
                if next(calls) == 3:
                    stack.close()

            export.export_store(self.settings(), check)
        self.assertEqual(self.rows(), [(1, "x")])
        with self.followed(), logged():
            export.export_store(self.settings(), never)

    def test_a_follower_that_is_killed(self) -> None:
        """The connection ends, and the store is read where it is."""
        requests, ended = RequestSocket(self.path), threading.Event()

        def die() -> None:
            while not requests.first():
                requests.rest(0.02)
                requests.tend()
            requests.close()
            listening(self.path, 0o600).close()
            ended.set()

        with contextlib.ExitStack() as stack, logged():
            stack.enter_context(self.locked())
            thread = threading.Thread(target=die)
            thread.start()
            export.export_store(self.settings(), lambda: stack.close() if ended.is_set() else None)
            thread.join()
        self.assertEqual((self.rows(), self.left()), ([(1, "x")], {"rows.db"}))

    def test_ended_by_a_signal(self) -> None:
        requests = RequestSocket(self.path)
        self.addCleanup(requests.close)
        with self.locked(), logged(), self.assertRaises(Passing):
            export.export_store(self.settings(), mock.Mock(side_effect=[None, None, Stopped]))
        requests.tend()
        self.assertEqual((self.left(), requests.first()), (set(), None))

    def test_a_request_in_another_folder(self) -> None:
        snapshots = snapshots_of(self, self.path)
        for into in ("/rows.db", self.path, self.folder + "/new/rows.db"):
            with asking(self.path, ask="copy", into=into) as asker:
                self.assertFalse(snapshots.is_due(0x130))
                self.assertEqual(
                    asker.error(), "the copy has to be a new file in the store's folder"
                )

    def test_files_that_have_no_name(self) -> None:
        snapshots = snapshots_of(self, self.path)
        for into in (None, 5, "a\0b", "\ud800", [self.into], ""):
            with asking(self.path, ask="copy", into=into) as asker:
                self.assertFalse(snapshots.is_due(0x130))
                self.assertRegex(asker.error(), "names no file|has to be a new file")

    def test_a_folder_by_another_name(self) -> None:
        with tempfile.TemporaryDirectory() as room:
            os.symlink(self.folder, room + "/link")
            settings = self.settings(store=room + "/link/copy.db")
            with self.followed(), logged():
                export.export_store(settings, never)
        self.assertEqual(self.left(), {"rows.db"})


class Taken(Case):
    def test_without_a_follower(self) -> None:
        options = self.options(0o640)
        with logged() as told:
            snapshot.run(options, never)
        self.assertEqual(told, [f"{self.into}: the rows at 0/130"])
        self.assertEqual(stat.S_IMODE(os.stat(self.into).st_mode), 0o640)
        self.assertTrue(os.path.exists(self.path))
        self.assertEqual(self.left(), {"rows.db"})

    def test_a_copy_can_be_read_in_a_folder_that_cant_be_written(self) -> None:
        self.store.base.execute("PRAGMA journal_mode = WAL")
        self.store.close()
        with logged():
            snapshot.run(self.options(), never)
        with open(self.into, "rb") as file:
            self.assertEqual(file.read(20)[18:], b"\1\1")

    def test_what_isnt_an_earlier_copy(self) -> None:
        with logged():
            snapshot.run(self.options(), never)
        for ending in ("-wal", ".connector"):
            open(self.into + ending, "w").close()
            with self.assertRaisesRegex(FileError, "is there and isn't an earlier copy"):
                snapshot.run(self.options(), never)
            os.unlink(self.into + ending)
        with open(self.into, "w") as file:
            file.write("mine")
        with self.assertRaisesRegex(FileError, "is there and isn't an earlier copy"):
            snapshot.run(self.options(), never)

    def test_what_a_follower_has_to_leave(self) -> None:
        """What isn't an earlier copy is refused as by `snapshot`, before anything is made."""
        other, mine, copied = (f"{self.folder}/{it}" for it in ("other.db", "mine.db", "copied.db"))
        for path in (other, copied):
            shutil.copy(self.path, path)
        open(other + ".connector", "w").close()
        with contextlib.closing(sqlite3.connect(mine)) as base:
            base.execute("CREATE TABLE t (a)")
        new = self.folder + "/new.db"
        words = [
            "follow",
            "--store",
            new,
            "--create",
            "--table",
            "t",
            "--dsn",
            f"host={self.folder}/none",
            "--snapshot",
        ]
        for path in (other, mine):
            with logged() as told:
                self.assertEqual(main([*words, path]), FILE)
            self.assertEqual(
                told,
                [
                    f"error: --snapshot {path} is there and isn't an earlier copy of a store: name another file"
                ],
            )
            self.assertFalse(os.path.exists(new + ".connector"))
        with logged() as told:
            self.assertEqual(
                (main([*words, new + "-wal"]), main([*words, copied])), (USAGE, PASSING), told
            )

    def test_on_another_disk(self) -> None:
        # (the follower has its socket before)
        with self.followed(), logged(), self.asker(), mock.patch(
            "os.rename", side_effect=OSError(18, "Invalid cross-device link")
        ):
            snapshot.run(self.options(), never)
        self.assertEqual(self.left(), {"rows.db"})

    def left_after(self, path: str, names: list[str], age: float = 1e9) -> set[str]:
        """Which of these files, of this age, are left once a name for one of this process was
        chosen."""
        for name in names:
            with open(f"{self.folder}/{name}", "w") as file:
                os.utime(file.fileno(), (time.time() - age, time.time() - age))
        own_name(path)
        return self.left()

    def test_what_killed_runs_left(self) -> None:
        own = f"rows.db.pgsub-{GONE}"
        gone = [
            own,
            own + "-journal",
            own + ".pgsub-new-wal",
            f"{own}.pgsub-{GONE}",
            f"{own}.copied.pgsub-{GONE}-wal",
        ]
        kept = [
            f"rows.db.pgsub-{os.getppid()}",
            f"rows.db.copied.pgsub-{GONE}",
            f"rows.db2.pgsub-{GONE}",
        ]
        self.assertEqual(self.left_after(self.into, gone + kept, age=60.0), {*gone, *kept})
        self.assertEqual(self.left_after(self.into, gone + kept), set(kept))

    def test_what_others_have_beside_it(self) -> None:
        """Whatever their files' names are like, and whatever the numbers in these."""
        kept = [
            f"rows.db.{it}"
            for it in (
                "20261101",
                "20261125093000",
                GONE,
                f"{GONE}-journal",
                "new",
                "pgsub-2x",
                "pgsub-20261125093000",
                "pgsub-1.sqlite",
            )
        ]
        self.assertEqual(self.left_after(self.into, kept), set(kept))
        with logged():
            export.export_store(self.settings(), never)
        self.assertEqual(self.left(), {*kept, "rows.db"})

    def leave_journal(self, path: str) -> None:
        """Leaves what a transaction on another file has written to its journal, as where that was
        killed: whoever opens the file at this path next takes it back there."""
        with contextlib.closing(sqlite3.connect(self.folder + "/x", isolation_level=None)) as base:
            base.executescript(
                "PRAGMA synchronous = OFF; CREATE TABLE x (a); BEGIN; INSERT INTO x VALUES (1)"
            )
            shutil.copy(self.folder + "/x-journal", path + "-journal")
        os.unlink(self.folder + "/x")

    def test_a_journal_of_the_file_that_was_there(self) -> None:
        """Or of one that a killed process was making."""
        snapshots = snapshots_of(self, self.path, self.into)
        for path in (self.into, self.into + ".pgsub-new"):
            self.leave_journal(path)
            with logged() as told:
                snapshots.take(0x130, never)
                snapshots.wait()
            self.assertEqual(told, [f"{self.into}: the rows at 0/130"])
            self.assertEqual(self.left(), {"rows.db"})
            with contextlib.closing(sqlite3.connect(self.into)) as base:
                self.assertEqual(base.execute("SELECT count(*) FROM held").fetchone(), (1,))
        os.unlink(self.into)
        self.leave_journal(self.into)
        with logged():
            export.export_store(self.settings(), never)
        self.assertEqual(self.rows(), [(1, "x")])

    def test_a_follower_s_copy_that_a_link_leads_to(self) -> None:
        os.mkdir(self.folder + "/far")
        os.symlink("far/rows.db", self.into)
        snapshots = snapshots_of(self, self.path, self.into)
        for _ in range(2):
            with logged() as told:
                snapshots.take(0x130, never)
                snapshots.wait()
            self.assertEqual(told, [f"{self.folder}/far/rows.db: the rows at 0/130"])
            self.assertEqual(
                (os.path.islink(self.into), os.listdir(self.folder + "/far")), (True, ["rows.db"])
            )

    def test_a_follower_s_copy_beside_files_of_others(self) -> None:
        kept = ["rows.db.new", "copy.db.export.20261101", "copy.db.export.20261125093000"]
        self.left_after(self.into, kept)
        snapshots = snapshots_of(self, self.path, self.into)
        with logged():
            snapshots.take(0x130, never)
            snapshots.wait()
        self.assertEqual(self.left_after(self.path + ".export", kept), {*kept, "rows.db"})


if __name__ == "__main__":
    unittest.main()
