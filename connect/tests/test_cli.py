"""The words of the command line, and what is settled before anything runs."""

from __future__ import annotations

import io
import os
import re
import signal
import stat
import subprocess
import sys
import unittest
from collections.abc import Callable
from pathlib import Path
from unittest import mock

import pgsub_connect
from pgsub_connect.commands import follow
from pgsub_connect.errors import LostSlot, ServerError
from pgsub_connect.store.checkpoint import Checkpoint
from pgsub_connect.store.placing import check_meant
from pgsub_feed.command import arguments as feed_arguments
from pgsub_feed.errors import FileError, UsageError
from pgsub_feed.files import replace_file
from pgsub_feed.interruption import never
from pgsub_feed.program import Worker, check_signals

from .fake_server import Quiet
from .settled import options_of, settled


class Modes(Quiet):
    def test_files_have_the_mode_whatever_the_umask(self) -> None:
        self.addCleanup(os.umask, os.umask(0o077))
        for word, mode in (("640", 0o640), ("600", 0o600)):
            store = f"{self.make_folder()}/copy.db"
            options = settled(["follow", "--store", store, "--mode", word])
            os.close(Checkpoint(store).file)
            replace_file(f"{store}.tables", b"", options.mode)
            for name, wanted in (("connector", 0o600), ("tables", mode)):
                self.assertEqual(stat.S_IMODE(os.stat(f"{store}.{name}").st_mode), wanted, name)


class Signalled(Quiet):
    def test_a_signal_while_the_follower_is_made_is_heard(self) -> None:
        for number in (signal.SIGINT, signal.SIGTERM, signal.SIGUSR1):
            self.addCleanup(signal.signal, number, signal.getsignal(number))
        store = f"{self.make_folder()}/copy.db"
        Path(store).touch()
        follower = mock.Mock(ending=Worker())
        follower.run.side_effect = lambda: self.assertTrue(follower.ending.stop_asked)
        follower.misses.count = 0

        def made(*_: object) -> mock.Mock:
            os.kill(os.getpid(), signal.SIGTERM)
            return follower

        with mock.patch.object(follow, "Follower", made):
            options = settled(["follow", "--store", store])
            self.assertEqual(follow.run(options, check_signals()), 0)
        follower.run.assert_called_once_with()


class Lost(Quiet):
    def test_a_lost_slot_shows_in_the_status(self) -> None:
        for error, shown in ((LostSlot("lost", "55000"), 1), (ServerError("no", "55000"), 0)):
            parts, store = mock.Mock(threads=()), f"{self.make_folder()}/copy.db"
            parts.follower.run.side_effect = error
            Path(store).touch()
            with mock.patch.object(follow, "made", lambda *_: parts), self.assertRaises(
                ServerError
            ):
                follow.run(settled(["follow", "--store", store]), never)
            self.assertEqual(
                parts.common.progress.slot.note.call_args_list,
                [mock.call("lost", None)] * shown,
            )
            parts.common.progress.enter.assert_called_once_with("failed")


class Interrupted(Quiet):
    def test_an_interrupt_before_a_command_has_begun_tells_nothing(self) -> None:
        folder, scripts = self.make_folder(), Path(__file__).resolve().parents[1]
        # (what each of them imports)
        Path(folder, "argparse.py").write_text(
            "import time; print('here', flush=True); time.sleep(60)"
        )
        for name in ("pgsub-connect", "pgsub-feed"):
            with subprocess.Popen(
                [sys.executable, scripts / name, "--help"],
                stdout=subprocess.PIPE,
                stderr=subprocess.PIPE,
                env={**os.environ, "PYTHONPATH": folder},
            ) as child:
                assert child.stdout and child.stderr
                self.assertEqual(child.stdout.readline(), b"here\n")
                child.send_signal(signal.SIGINT)
                self.assertEqual((child.stderr.read(), child.wait(60)), (b"", -signal.SIGINT), name)


class Abbreviated(unittest.TestCase):
    """An option has its whole name: `--stor copy.db` would be a recording's, and mean another
    option once there is one that begins alike."""

    def rejected(self, read: Callable[[list[str]], object], *words: str) -> str:
        with mock.patch("sys.stderr", io.StringIO()) as said, self.assertRaises(
            SystemExit
        ) as ended:
            read([*words])
        self.assertEqual(ended.exception.code, 2)
        return said.getvalue()

    def test_a_part_of_a_name_is_none(self) -> None:
        for words in (
            ("--stor", "copy.db"),
            ("follow", "--store", "copy.db", "--tab", "rows.db"),
            ("verify", "--tables", "a", "--wit", "b"),
        ):
            self.assertRegex(
                self.rejected(options_of, *words),
                rf"unrecognized arguments: {words[-2]}: did you mean --[a-z]+\?\n",
            )
        self.assertRegex(
            self.rejected(feed_arguments, "--feed", "feed", "--fro", "0/0"),
            r"unrecognized arguments: --fro: did you mean --from\?\n",
        )


class Apart(Quiet):
    """What is written is none of the store's files, and each file has one purpose."""

    def setUp(self) -> None:
        super().setUp()
        self.addCleanup(os.umask, os.umask(0o022))
        self.folder = self.make_folder()
        self.store = self.folder + "/copy.db"
        for name in ("copy.db", "copy.db.connector", "dsn", "other"):
            Path(self.folder, name).write_text("")

    def settle(self, *words: str) -> None:
        settled([it.replace("DIR", self.folder) for it in words])

    def refused(self, text: str, *words: str) -> None:
        with self.assertRaisesRegex(UsageError, text):
            self.settle(*words)

    def test_files_of_the_store(self) -> None:
        os.mkdir(self.folder + "/sub")
        os.symlink(self.folder, self.folder + "/link")
        os.link(self.store, self.folder + "/hard")
        os.symlink(self.folder + "/copy.db.connector", self.folder + "/soft")
        for name in (
            "copy.db",
            "copy.db-wal",
            "copy.db-shm",
            "copy.db.connector",
            "copy.db.tables",
            "copy.db.pgsub-new",
            "sub/../copy.db",
            "link/copy.db-wal",
            "hard",
            "soft",
        ):
            for option in (
                "--snapshot",
                "--status-file",
                "--metrics-file",
                "--record",
                "--tables",
                "--feed",
            ):
                self.refused(
                    f"{option} .*{name}: that is a file of the store itself",
                    "follow",
                    "--store",
                    "DIR/copy.db",
                    option,
                    f"DIR/{name}",
                )
            for words in (("export",), ("snapshot",), ("tables", "--feed", "DIR/feed")):
                self.refused(
                    "--into .*: that is a file of the store itself",
                    *words,
                    "--store",
                    "DIR/copy.db",
                    "--into",
                    f"DIR/{name}",
                )

    def test_a_store_by_a_link(self) -> None:
        """The program has its log beside the file that is meant, and the connector its own ones
        beside the link."""
        os.symlink(self.store, self.folder + "/shop.db")
        for name in ("copy.db", "shop.db", "copy.db-wal", "shop.db.connector"):
            self.refused(
                "of the store itself",
                "follow",
                "--store",
                "DIR/shop.db",
                "--snapshot",
                f"DIR/{name}",
            )

    def test_a_link_that_leads_nowhere(self) -> None:
        """That is told before anything is made. A file that isn't there yet is made where it
        leads."""
        link, before = self.folder + "/shop.db", sorted([*os.listdir(self.folder), "shop.db"])
        for path, text in (
            ("shop.db", "the link leads to itself"),
            ("far/shop.db", f"there is no folder {os.path.realpath(self.folder)}/far"),
        ):
            os.symlink(path, link)
            with self.assertRaisesRegex(FileError, f"--store {link}.*: {text}"), mock.patch(
                "pgsub_connect.commands.follow.stop_by_signals"
            ):
                follow.run(follow.Options(store=link, create="permanent"), never)
            self.assertEqual(sorted(os.listdir(self.folder)), before)
            os.unlink(link)
        os.symlink("far.db", link)
        check_meant(link)

    def test_the_same_file_twice(self) -> None:
        os.link(self.folder + "/other", self.folder + "/again")
        names = (
            ("--snapshot", "s"),
            ("--status-file", "status"),
            ("--metrics-file", "metrics"),
            ("--record", "r"),
            ("--tables", "t"),
            ("--feed", "f"),
        )
        words = [it for name, value in names for it in (name, "DIR/" + value)]
        self.settle(
            "follow",
            "--store",
            "DIR/copy.db",
            "--dsn-file",
            "DIR/dsn",
            "--init",
            "DIR/init",
            *words,
        )
        for one, other, more in (
            ("--snapshot x", "--tables x", ""),
            ("--status-file x", "--metrics-file sub/../x", ""),
            ("--status-file other", "--metrics-file again", ""),
            ("--record dsn", "--dsn-file dsn", ""),
            ("--status-file x", "--init x", "--tables t"),
            ("--snapshot x", "--record x-wal", ""),
            ("--snapshot x", "--feed x", ""),
        ):
            chosen = [
                f"{word} DIR/{path}" for word, path in (it.split(" ") for it in (one, other))
            ] + more.split()
            text = f"{one.split()[0]} .* and {other.split()[0]} .*: each needs a file of its own"
            with self.subTest(one=one, other=other):
                self.refused(text, "follow", "--store", "DIR/copy.db", *" ".join(chosen).split())
        self.refused(
            "--record .* and --dsn-file .*: each needs a file of its own",
            "record",
            "--record",
            "DIR/dsn",
            "--dsn-file",
            "DIR/dsn",
        )

    def test_what_is_only_read(self) -> None:
        self.settle(
            "verify",
            "--store",
            "DIR/copy.db",
            "--dsn-file",
            "DIR/dsn",
            "--tables",
            "DIR/other",
            "--with",
            "DIR/other",
        )
        self.settle("sink", "redis://h", "--feed", "DIR/feed", "--base", "DIR/copy.db")
        self.settle("status", "--status-file", "DIR/copy.db.connector")


class Words(Quiet):
    """What isn't UTF-8 is refused where the server or the program is told it."""

    def refused(self, text: str, *words: str) -> None:
        with self.assertRaisesRegex(UsageError, text):
            settled(words)

    def test_no_utf_8(self) -> None:
        self.addCleanup(os.umask, os.umask(0o022))
        word, folder = os.fsdecode(b"a\xff"), self.make_folder()
        for option in ("--slot", "--publication", "--feed", "--pgsub", "--table"):
            more = ("--create",) if option == "--table" else ()
            self.refused(
                f"^{option} .*a\udcff: that isn't UTF-8$",
                "follow",
                "--store",
                folder + "/copy.db",
                option,
                word,
                *more,
            )
        self.refused("^--store .*: that isn't UTF-8$", "follow", "--store", word)
        os.symlink(word, folder + "/link")
        self.refused(
            "^--store .*/a\udcff: that isn't UTF-8$", "follow", "--store", folder + "/link"
        )
        dsn = Path(folder, "dsn")
        dsn.write_bytes(b"password=a\xff\n")
        for words in (("--dsn", f"password={word}"), ("--dsn-file", str(dsn))):
            self.refused("^the connection string isn't UTF-8$", "check", *words)
        self.addCleanup(os.chdir, os.getcwd())
        os.mkdir(os.path.join(folder, word))
        os.chdir(os.path.join(folder, word))
        self.refused(
            "^--feed .*a\udcff/feed: that isn't UTF-8$",
            "follow",
            "--store",
            "copy.db",
            "--feed",
            "feed",
        )
        self.assertEqual(os.listdir(), [])

    def test_names_that_the_server_would_cut(self) -> None:
        """Each is told before any server is asked: it would say that another one isn't there."""
        self.addCleanup(os.umask, os.umask(0o022))
        store = self.make_folder() + "/copy.db"
        for option, name in (
            ("--publication", "p" * 70),
            ("--publication", "\u0416" * 32),
            ("--slot", "s" * 64),
        ):
            length = len(name.encode())
            for command in (
                ("follow", "--store", store),
                ("record", "--record", store),
                ("check",),
            ):
                self.refused(
                    f"^{option} {name}: it has {length} bytes, and a name has at most 63",
                    *command,
                    option,
                    name,
                )
        for name, keyless in (
            ("p" * 63, "refuse"),
            ("\u0416" * 31, "refuse"),
            ("p" * 55, "inserts"),
        ):
            settled(["check", "--publication", name, "--keyless", keyless])
        self.refused(
            "_inserts: it has 64 bytes", "check", "--publication", "p" * 56, "--keyless", "inserts"
        )

    def test_files_that_are_opened_here(self) -> None:
        self.addCleanup(os.umask, os.umask(0o022))
        word = os.path.join(self.make_folder(), os.fsdecode(b"a\xff"))
        settled(
            [
                "follow",
                "--store",
                "copy.db",
                "--tables",
                word,
                "--feed",
                "feed",
                "--snapshot",
                word + "s",
                "--status-file",
                word + "t",
            ]
        )
        settled(["export", "--store", word, "--into", word + "x"])
        settled(["tables", "--feed", word, "--into", word + "x"])


class Starts(unittest.TestCase):
    def test_what_one_imports(self) -> None:
        """A start takes as long as that: no client library before the filter opens its store, nothing
        of a copy that is there already, nor of tables, sinks, and what only texts of errors need.
        """
        look = "import sys, pgsub_connect.cli, pgsub_connect.commands.follow; print(*sys.modules)"
        words = [sys.executable, "-c", look]
        folder = Path(pgsub_connect.__file__).parents[1]
        done = subprocess.run(words, capture_output=True, text=True, check=True, cwd=folder)
        imported = set(done.stdout.split())
        self.assertIn("pgsub_connect.server.connection", imported)
        modules = "copy.copier", "preconditions", "server.preflight", "store.copied_rows", "verify"
        unwanted = {*(f"pgsub_connect.{it}" for it in modules), "pgsub_feed.tables.applier"}
        unwanted |= {"psycopg", "asyncio", "ssl", "secrets", "difflib", "fractions", "traceback"}
        self.assertEqual(imported & unwanted, set())


class Modules(unittest.TestCase):
    def test_each_is_listed_once(self) -> None:
        listed = re.findall(r"`(\w+)`", (pgsub_connect.__doc__ or "").partition("|---|")[2])
        folder = Path(pgsub_connect.__file__).parent
        there = {it.stem for it in folder.glob("*.py")} - {
            "__init__",
            "__main__",
            "cli",
            "errors",
            "version",
        } | {it.parent.name for it in folder.glob("*/__init__.py")}
        self.assertEqual(sorted(listed), sorted(there))
