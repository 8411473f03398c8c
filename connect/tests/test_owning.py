"""Files and links of other accounts, where root works on a store that isn't its own."""

from __future__ import annotations

import contextlib
import os
import shutil
import stat
from collections.abc import Callable, Iterator
from typing import Any
from unittest import mock

from pgsub_connect.commands.add import noted
from pgsub_connect.drift.remembered import Remembered
from pgsub_connect.store import at_rest, export, socket_file
from pgsub_connect.verify.repair_rows import Changes
from pgsub_feed import ownership
from pgsub_feed.errors import FileError
from pgsub_feed.files import meant, placed, replace_file
from pgsub_feed.interruption import never
from pgsub_feed.reader import folder as positions
from pgsub_feed.tables import first_rows

from .asking import snapshots_of
from .fake_server import Quiet
from .stores import StoreCase
from .vectors import logged

# An account that isn't the one of this test.
OTHER = 65533 if os.geteuid() == 65534 else 65534
OWNERS = ("chown", "fchown", "lchown", "chmod", "fchmod")


class Touched:
    """Which files get another owner or mode meanwhile, by their inodes; as root it is done too."""

    def __init__(self) -> None:
        self.calls: list[tuple[str, int, tuple[int, ...]]] = []

    @contextlib.contextmanager
    def noted(self, uid: int = 0) -> Iterator[None]:
        with contextlib.ExitStack() as stack:
            for name in OWNERS:
                stack.enter_context(mock.patch(f"os.{name}", self.call(name, getattr(os, name))))
            for name in ("getuid", "geteuid"):
                stack.enter_context(mock.patch(f"os.{name}", lambda: uid))
            yield

    def call(self, name: str, real: Callable[..., None]) -> Callable[..., None]:
        is_root = os.geteuid() == 0

        def call(file: Any, *more: int, **named: bool) -> None:
            about = os.lstat(file) if name == "lchown" else os.stat(file)
            self.calls.append((name, about.st_ino, more))
            if is_root or "chmod" in name:
                real(file, *more, **named)

        return call

    def inodes(self) -> set[int]:
        return {it for _, it, _ in self.calls}


class Case(StoreCase):
    def setUp(self) -> None:
        super().setUp()
        self.victim = self.folder + "/victim"
        with open(self.victim, "w") as file:
            file.write("root's own")
        os.chmod(self.victim, 0o600)

    def plant(self, path: str) -> None:
        """Puts a link in the place of a file, as whoever owns its folder may at any time."""
        with contextlib.suppress(FileNotFoundError):
            os.unlink(path)
        os.symlink(self.victim, path)

    def is_as_it_was(self, touched: Touched) -> None:
        about = os.stat(self.victim)
        self.assertNotIn(about.st_ino, touched.inodes())
        with open(self.victim) as file:
            self.assertEqual((stat.S_IMODE(about.st_mode), file.read()), (0o600, "root's own"))


class Given(Case):
    """What root makes for a follower of another account."""

    def test_a_copy_that_is_a_link(self) -> None:
        """What root reads is what the follower has copied."""
        self.plant(self.folder + "/asked")
        asking = mock.Mock(**{"answer.return_value": {"copied": "0/130"}})
        with self.assertRaisesRegex(FileError, "a link in the place of a copy"):
            at_rest.is_copied(asking, self.folder + "/asked")

    def test_a_socket(self) -> None:
        """Its file gets its mode whatever takes the place of its name."""
        touched, set_mode = Touched(), socket_file.set_mode

        def plant(name: str, folder: int, mode: int) -> None:
            os.unlink(name, dir_fd=folder)
            os.symlink(self.victim, name, dir_fd=folder)
            set_mode(name, folder, mode)

        with touched.noted(), mock.patch.object(socket_file, "set_mode", plant):
            with contextlib.suppress(FileError):
                socket_file.listening(self.path, 0o644).close()
        self.assertEqual([name for name, _, _ in touched.calls], ["fchmod", "chmod"])
        self.is_as_it_was(touched)

    def test_a_file_of_changes(self) -> None:
        path, opened, touched = self.folder + "/changes", os.open, Touched()

        def plant(name: str, *more: int) -> int:
            file = opened(name, *more)
            self.plant(path)
            return file

        with touched.noted(), mock.patch("os.open", plant):
            Changes(path, self.path).close()
        self.is_as_it_was(touched)

    def test_a_copy_that_gets_its_mode(self) -> None:
        touched = Touched()
        with touched.noted(), self.assertRaises(OSError), placed(self.into, 0o644) as new:
            self.plant(new)
        self.is_as_it_was(touched)

    def test_a_folder_that_gets_its_mode(self) -> None:
        path, made, touched = self.folder + "/readers", os.mkdir, Touched()

        def plant(name: str, mode: int) -> None:
            made(name, mode)
            os.rmdir(name)
            self.plant(name)

        with touched.noted(), mock.patch("os.mkdir", plant), self.assertRaises(OSError):
            positions.make_folder(path, 0o644)
        self.is_as_it_was(touched)


class Replaced(Quiet):
    """A file that root replaces where the service of another account goes on with it."""

    def setUp(self) -> None:
        super().setUp()
        self.path = self.make_folder() + "/copy.db.tables"

    def replace(self, uid: int, mode: int = 0o600) -> tuple[list[tuple[str, tuple[int, ...]]], int]:
        """Replaces it where it is one of an account. Returns what was called, and its mode."""
        touched, looked = Touched(), os.lstat
        with open(self.path, "w"):
            os.chmod(self.path, 0o640)
        if os.geteuid() == 0:
            os.chown(self.path, uid, uid)

        def lstat(path: str) -> os.stat_result:
            found = looked(path)
            if path != self.path:
                return found
            return os.stat_result((*found[:4], uid, uid, *found[6:10]))

        with touched.noted(), mock.patch("os.lstat", lstat):
            replace_file(self.path, b"new", mode)
        with open(self.path, "rb") as file:
            self.assertEqual(file.read(), b"new")
        return [(name, more) for name, _, more in touched.calls], stat.S_IMODE(
            os.stat(self.path).st_mode
        )

    def test_of_another_account(self) -> None:
        calls, mode = self.replace(OTHER)
        self.assertEqual(
            calls, [("fchmod", (0o600,)), ("fchown", (OTHER, OTHER)), ("fchmod", (0o640,))]
        )
        self.assertEqual(mode, 0o640)
        if os.geteuid() == 0:
            self.assertEqual(os.stat(self.path).st_uid, OTHER)

    def test_of_its_own(self) -> None:
        calls, mode = self.replace(0, 0o600)
        self.assertEqual((calls, mode), ([("fchmod", (0o600,))], 0o600))

    def test_a_new_one_is_for_whose_folder_it_is_in(self) -> None:
        touched, looked = Touched(), os.stat

        def stat_of(path: Any) -> os.stat_result:
            found = looked(path)
            return (
                os.stat_result((*found[:4], OTHER, OTHER, *found[6:10]))
                if path == os.path.dirname(self.path)
                else found
            )

        with touched.noted(), mock.patch("os.stat", stat_of):
            replace_file(self.path, b"new")
        self.assertEqual(
            [(name, more) for name, _, more in touched.calls],
            [("fchmod", (0o600,)), ("fchown", (OTHER, OTHER))],
        )

    def test_an_account_that_may_not_give_it(self) -> None:
        with open(self.path, "w"):
            pass
        looked = os.lstat

        def lstat(path: str) -> os.stat_result:
            found = looked(path)
            return (
                os.stat_result((*found[:4], OTHER, OTHER, *found[6:10]))
                if path == self.path
                else found
            )

        with mock.patch("os.lstat", lstat), mock.patch(
            "os.fchown", side_effect=PermissionError(1, "no")
        ) as given:
            replace_file(self.path, b"new")
        self.assertEqual(
            [it.args[1:] for it in given.call_args_list], [(OTHER, OTHER), (-1, OTHER)]
        )

    def test_add_keeps_the_mode(self) -> None:
        """The follower is told another one than `add`."""
        store = self.path.removesuffix(".tables")
        remembered = Remembered(store, 0o640)
        remembered.keep_made({"pgsub": 5})
        self.assertTrue(noted(store, 0o600, [7], []))
        self.assertEqual(stat.S_IMODE(os.stat(self.path).st_mode), 0o640)


class Links(Case):
    """A link that neither root nor this account owns isn't followed."""

    def foreign(self, target: str, path: str) -> None:
        """A link of another account."""
        os.symlink(target, path)
        if os.geteuid() == 0:
            os.lchown(path, OTHER, OTHER)
        else:
            uid = os.geteuid() + 1
            patch = mock.patch("os.geteuid", lambda: uid)
            patch.start()
            self.addCleanup(patch.stop)

    def setUp(self) -> None:
        super().setUp()
        self.store.table(1, "t")
        self.store.row(1, "1", "x")
        os.mkdir(self.folder + "/far")

    def test_as_realpath(self) -> None:
        """Of links that are followed it is what the library gives."""
        for name, target in (
            ("a", "far"),
            ("b", "a/../a"),
            ("c", f"{self.folder}/b/new"),
            ("d", "./d"),
            ("e", "f"),
            ("f", "e"),
            ("g", "none/x"),
        ):
            os.symlink(target, f"{self.folder}/{name}")
        for path in (
            "a",
            "b/x",
            "c",
            "c/y",
            "..",
            "far/../a/./x",
            "g",
            "g/h",
            "victim",
            "none/../b",
            "/",
            "",
        ):
            path = path if path == "/" else f"{self.folder}/{path}"
            self.assertEqual(ownership.real(path), os.path.realpath(path), path)
        for path in ("d", "e"):
            self.assertTrue(os.path.islink(ownership.real(f"{self.folder}/{path}")))
        before = os.getcwd()
        os.chdir(self.folder)
        self.addCleanup(os.chdir, before)
        self.assertEqual(ownership.real("b/x"), os.path.realpath("b/x"))

    def test_of_another_account(self) -> None:
        self.foreign(self.folder + "/far/new.db", self.folder + "/link")
        for path in ("link", "link/x", "far/../link"):
            with self.assertRaisesRegex(
                FileError, r"link: a link of another account \(\d+\) isn't followed"
            ):
                ownership.real(f"{self.folder}/{path}")

    def test_nothing_is_made_or_removed_where_it_leads(self) -> None:
        """As in a sticky folder, where the name of the new file is taken by a link."""
        self.foreign(self.folder + "/far/app.db", self.into)
        for suffix in ("-wal", "-journal"):
            shutil.copy(self.victim, self.folder + "/far/app.db" + suffix)
        with logged(), self.assertRaisesRegex(FileError, "isn't followed"):
            export.export_store(export.ExportSettings(store=self.path, into=self.into), never)
        with self.assertRaisesRegex(FileError, "isn't followed"), placed(self.into, 0o600):
            self.fail("it was followed")
        with self.assertRaisesRegex(FileError, "isn't followed"):
            first_rows.check_file(self.into)
        snapshots = snapshots_of(self, self.path, self.into)
        with logged() as told:
            snapshots.take(0x130, never)
        self.assertIn("isn't followed", told[0])
        self.assertIsNone(snapshots.finishing)
        self.assertEqual(sorted(os.listdir(self.folder + "/far")), ["app.db-journal", "app.db-wal"])

    def test_a_folder_on_the_way(self) -> None:
        self.foreign("far", self.folder + "/way")
        for call in (meant, at_rest.has_log):
            with self.assertRaisesRegex(FileError, "way: a link of another account"):
                call(self.folder + "/way/copy.db")
