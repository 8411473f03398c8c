"""The command line: what it rejects and warns of, and the statuses with which it ends."""

from __future__ import annotations

import contextlib
import errno
import io
import os
import pty
import re
import signal
import subprocess
import sys
import unittest
from collections.abc import Callable
from types import SimpleNamespace
from typing import Any
from unittest import mock

from pgsub_connect import cli
from pgsub_connect.cli import main
from pgsub_connect.commands import follow, names
from pgsub_connect.commands.drop import ask_terminal
from pgsub_connect.errors import FilterFault, ServerError
from pgsub_connect.server import session
from pgsub_connect.server.login import connection_error
from pgsub_connect.server.preflight import require_published
from pgsub_connect.server.publication_setup import Wanted
from pgsub_connect.server.session import Subscription
from pgsub_connect.stream.common import Tolerance
from pgsub_connect.stream.filter_end import FilterEnded
from pgsub_connect.stream.memory_limit import KilledTwice
from pgsub_feed.errors import (
    BUG,
    FILE,
    PASSING,
    REJECTED,
    SERVER,
    UNFIT,
    USAGE,
    FileError,
    Passing,
    Stopped,
    Unfit,
    UsageError,
)

from .fake_server import FakeServer, Quiet, Row
from .settled import options_of, settled

CONNECT = os.path.dirname(os.path.dirname(os.path.abspath(__file__)))


class Words(Quiet):
    def rejected(self, text: str) -> str:
        with contextlib.redirect_stderr(io.StringIO()) as stderr, self.assertRaises(
            SystemExit
        ) as ended:
            options_of(text.split())
        self.assertEqual(ended.exception.code, USAGE)
        return stderr.getvalue()

    def test_rejected(self) -> None:
        for words in (
            "follow",
            "record",
            "follow --store s --table t",
            "follow --store s --all-tables",
            "follow --store s --failover",
            "follow --store s --create --table t --all-tables",
            "follow --store s --snapshot-every 5",
            "follow --store s --append",
            "follow --store s --proto 3",
            "follow --store s --mode 0444",
            "follow --store s --mode x",
            "follow --store s --until x",
            "follow --store s --silence 0",
            "follow --store s --silence -1",
            "follow --store s --silence nan",
            "follow --store s --heartbeat 0",
            "follow --store s --heartbeat inf",
            "follow --store s --max-frame 2147483644",
            "follow --store s --cache 99",
            "follow --store s --cache 4294967295",
            "follow --store s --cache 1e3",
            "follow --store s --max-buffered 0",
            "follow --store s --skip 5",
            "follow --store s --accept x",
            "follow --store s --watch x",
            "follow --store s --watch no --strict",
            "follow --store s --seconds 5",
            "follow --store s --create temporary",
            "drop",
            "names",
            "nothing",
            "follow --store s --create --all-tables --keyless inserts",
            "follow --store s --record f --start 0/5",
            "follow --store s --record f --streaming",
            "record --record f --store s",
            "record --record f --no-copy",
            "record --record f --strict",
            "record --record f --table t",
            "record --create --until now",
            "verify",
            "verify --store s --hold 0",
            "verify --store s --hold 601",
            "verify --store s --show -1",
            "verify --store s --create",
            "follow --store s --jobs 0",
            "follow --store s --jobs 65",
            "follow --store s --repair",
            "add --store s --table t --jobs 2",
            "follow --store s --feed f --feed-max-bytes 0",
            "follow --store s --feed f --feed-max-age x",
            "follow --store s --tables r --without-tables",
            "tables --into r",
            "wait 0/5",
            "sink --feed f",
            "sink http://h --feed f",
            "sink redis://h",
            "sink redis://h --url-file u --feed f",
            "sink --feed f",
            "sink nats://h --feed f --stream a.b",
            "sink redis://h --feed f --as x",
            "sink redis://h --feed f --base b --store s",
            "sink redis://h --feed f --reader a/b",
            "sink redis://h --feed f --until now",
            "follow --store s --snapshot f --snapshot-every nan",
            "record --record f --seconds nan",
            "follow --store s --snapshot f --snapshot-every -1",
            "record --record f --seconds inf",
            "record --record f --transactions -1",
            "wait 0/5 --tables r --within nan",
            "wait 0/5 --tables r --within -1",
        ):
            self.assertIn("usage: ", self.rejected(words), words)

    def test_read(self) -> None:
        words = "--store s --create --table t --table u --until 16/B374D848 --mode 640 --accept-gap --accept values --skip 0/5"
        name, options = cli.arguments(words.split())
        self.assertEqual(
            (name, options.table, options.until, options.mode),
            ("follow", ("t", "u"), 0x16B374D848, 0o640),
        )
        self.assertEqual(options.skip, 5)
        tolerance = Tolerance(options.accept)
        self.assertTrue(all(map(tolerance.accepts, ("gap", "slot", "values"))))
        self.assertFalse(tolerance.accepts("history"))
        self.assertEqual(cli.arguments(["--record", "f", "--until", "now"])[0], "record")
        options = options_of(
            "record --record f --create temporary --table t --transactions 3".split()
        )
        self.assertEqual(
            (options.create, options.table, options.transactions, options.streaming),
            ("temporary", ("t",), 3, False),
        )

    def test_what_was_meant(self) -> None:
        """An unknown command or option names the one that is like it; a part of a name is none."""
        for words, told in (
            (
                "folow --store s",
                "no command folow: did you mean follow?\nThe commands are follow, ",
            ),
            ("nothing", "no command nothing\nThe commands are follow, status, "),
            ("follow --stor s", "unrecognized arguments: --stor: did you mean --store?"),
            ("names --stoer=s", "unrecognized arguments: --stoer: did you mean --store?"),
            ("--stor s", "unrecognized arguments: --stor: did you mean --store?"),
            ("status --zzz", "unrecognized arguments: --zzz\n"),
            ("help folow", "no command folow: did you mean follow?"),
            ("", "a command is needed: follow, status, "),
            ("show first.pgx", "show is a command of `pgsub`: pgsub show\n"),
            ("dump --store s", "dump is a command of `pgsub`: pgsub dump. While a follower has"),
            ("help dump", "`pgsub-connect export` copies the rows, `snapshot` the store\n"),
        ):
            self.assertIn(told, self.rejected(words), words)

    def helped(self, *words: str) -> str:
        with contextlib.redirect_stdout(io.StringIO()) as out, self.assertRaises(SystemExit):
            cli.arguments(words)
        return out.getvalue()

    def test_help(self) -> None:
        """It has the commands in groups, and of a command the common options first."""
        text = self.helped("help")
        self.assertEqual(text, self.helped("--help"))
        heads = ["Commands:", *(f"  {it}" for it in cli.GROUPS)]
        self.assertEqual([it for it in text.splitlines() if it in heads], heads)
        for name in cli.COMMANDS:
            self.assertEqual(len(re.findall(rf"^    {name} +\S", text, re.M)), 1, name)
        text = self.helped("help", "follow")
        self.assertEqual(text, self.helped("follow", "--help"))
        self.assertTrue(text.startswith("usage: pgsub-connect follow [OPTIONS]\n"))
        options = re.findall(r"^  (?:-h, )?(--[a-z-]+)", text, re.M)
        self.assertEqual(options[:4], ["--store", "--dsn", "--create", "--table"])
        self.assertEqual(len(options), len(set(options)))
        self.assertGreater(options.index("--heartbeat"), options.index("--help"))
        self.assertIn("sink [OPTIONS] [URL] --feed FOLDER\n", self.helped("sink", "--help"))

    def test_each_help_tells_the_exit_status(self) -> None:
        for name in cli.COMMANDS:
            self.assertRegex(cli.parser_of(name).format_help(), r"(?i)\bexit status\b", name)

    def test_a_help_is_as_wide_as_the_terminal(self) -> None:
        """Up to 100 columns. Examples stay as they are, and each exit status has a line."""
        for columns, most in (("90", 90), ("300", 100)):
            with mock.patch.dict(os.environ, COLUMNS=columns):
                for name in cli.COMMANDS:
                    _, *lines = self.helped(name, "--help").splitlines()
                    wide = [it for it in lines if len(it) > most and not it.startswith("  pgsub")]
                    self.assertEqual(wide, [], name)
                ends = self.helped("follow", "--help").partition("\nexit status:\n")[2]
        self.assertEqual(re.findall(r"^  (\d)  \S", ends, re.M), [*"012345679"])
        self.assertNotRegex(ends, r"[^ ];|^\d")

    def test_limits_in_the_help(self) -> None:
        help_text = " ".join(cli.parser_of("follow").format_help().split())
        self.assertIn("at most 2147483643, or half of the memory, at most 1 GiB)", help_text)

    def settled(self, *words: str) -> follow.Options:
        options = settled(["follow", "--store", "/nonexistent/s", *words])
        assert isinstance(options, follow.Options)
        return options

    def test_passwords_are_warned_of(self) -> None:
        for dsn in ("password=secret", "postgresql://u:secret@h/d", "sslpassword=secret"):
            self.settled("--dsn", dsn)
            self.assertIn("can be read by every account", self.said.pop())
        for dsn in ("dbname=password", "user=u", ""):
            self.settled("--dsn", dsn)
        self.assertEqual(self.said, [])

    def test_a_mistyped_connection_string(self) -> None:
        """Its word is named where it is like a parameter, and may be no part of a password."""
        for dsn, told in (
            ("hots=h", ": hots is no parameter: did you mean host?"),
            ("postgresql://h/d?hots=x", ": hots is no parameter: did you mean host?"),
            ("password=ge heim=x", ""),
            ("password=ge heim", ""),
        ):
            with self.assertRaises(ServerError) as raised:
                self.settled("--dsn", dsn)
            self.assertEqual(
                str(raised.exception), f"the connection string is not one of libpq's{told}"
            )

    def test_a_login_that_failed_with_tls_and_without(self) -> None:
        said = b'connection to server at "h", port 5432 failed: FATAL:  28P01: wrong\nauth.c:7\n'
        raw: Any = SimpleNamespace(error_message=2 * said, needs_password=False)
        error = connection_error(raw, "h")
        self.assertEqual(
            (str(error), error.sqlstate),
            ('connection to server at "h", port 5432 failed: FATAL:  wrong', "28P01"),
        )

    def test_a_file_with_the_connection_string(self) -> None:
        path = self.make_folder() + "/dsn"
        with open(path, "w", encoding="utf-8") as file:
            file.write("host=h password=secret\nmore\n")
        for mode, readers in (
            (0o600, ""),
            (0o640, "its group"),
            (0o604, "every account"),
            (0o644, "every account"),
        ):
            os.chmod(path, mode)
            self.assertEqual(self.settled("--dsn-file", path).dsn, "host=h password=secret")
            told = f"warning: {path} has a password, and {readers} may read it: chmod 600"
            self.assertEqual(self.said, [told] if readers else [])
            self.said.clear()
        with open(path, "w", encoding="utf-8") as file:
            file.write("host=h\n")
        self.settled("--dsn-file", path)
        self.assertEqual(self.said, [])

    def test_limits(self) -> None:
        with mock.patch(
            "pgsub_connect.commands.arguments.session.default_buffered", lambda: 1 << 28
        ):
            self.assertEqual(
                (self.settled().max_buffered, self.settled().max_frame), (1 << 28, 1 << 28)
            )
        options = self.settled("--max-buffered", "5000000000")
        self.assertEqual((options.max_buffered, options.max_frame), (5000000000, 2147483643))

    def filter_words(self, *words: str) -> list[str]:
        sizes = "--max-buffered", "5000", "--spool-memory", "1kB"
        options = self.settled(*sizes, "--pgsub", "/bin/pgsub", *words)
        return follow.make_filter(options, mock.Mock(file=3)).told()

    def test_words_of_the_filter(self) -> None:
        words = ["/bin/pgsub", "follow", "--store", "/nonexistent/s", "--max-frame", "5000"]
        spool = ["--spool", "/nonexistent/s.spool/transactions", "--spool-memory", "1024"]
        more = ["--max-buffered", "5000", *spool]
        self.assertEqual(self.filter_words(), [*words, *more])
        for pages in ("100", "4294967294"):
            told = self.filter_words("--cache", pages)
            self.assertEqual(told, [*words, "--cache", pages, *more])


class Ends(Quiet):
    def test_statuses(self) -> None:
        for error, status in (
            (Stopped(), 0),
            (FilterEnded(1, "x"), REJECTED),
            (FilterEnded(2, "x"), USAGE),
            (FilterEnded(3, "x"), FILE),
            (FilterEnded(10, "x"), REJECTED),
            (FilterEnded(11, "x"), REJECTED),
            (FilterEnded(12, "x"), PASSING),
            (FilterEnded(13, "x"), PASSING),
            (FilterEnded(14, "x"), PASSING),
            (FilterEnded(15, "x"), PASSING),
            (FilterEnded(-9, ""), PASSING),
            (KilledTwice(-9, "x"), REJECTED),
            (ServerError("x", "42501"), SERVER),
            (ServerError("x", "57P03"), PASSING),
            (ServerError("x"), PASSING),
            (Unfit("x"), UNFIT),
            (FileError("x"), FILE),
            (FilterFault("x"), FILE),
            (Passing("x"), PASSING),
            (UsageError("x"), USAGE),
            (OSError(errno.ENOSPC, "x"), PASSING),
            (OSError(errno.EMFILE, "x"), PASSING),
            (OSError(errno.EACCES, "x"), FILE),
            (ZeroDivisionError("x"), BUG),
        ):
            with mock.patch.object(names, "run", mock.Mock(side_effect=error)):
                self.assertEqual(main(["names", "--store", "/nonexistent/s"]), status, error)

    def test_no_store_leaves_no_file(self) -> None:
        folder = self.make_folder()
        self.assertEqual(main(["follow", "--store", f"{folder}/copy.db"]), UNFIT)
        self.assertIn("there is no store", self.said[0])
        self.assertEqual(os.listdir(folder), [])

    def test_a_bug_is_told_with_its_place(self) -> None:
        def fail(*_: object) -> int:
            raise ZeroDivisionError("\x1b[2J")

        with mock.patch.object(names, "run", fail):
            main(["names", "--store", "/nonexistent/s"])
        self.assertIn("test_words.py", self.said[0])

    def test_version(self) -> None:
        done = subprocess.run(
            [CONNECT + "/pgsub-connect", "--version"], capture_output=True, check=True, timeout=300
        )
        self.assertRegex(
            done.stdout.decode(), r"^pgsub-connect \d+\.\d+\.\d+( \([0-9a-f]{7,}.*\))?\n"
        )

    def test_signals(self) -> None:
        """The first one asks for the end, the second one is the end."""
        code = (
            "import os, sys, time\nfrom pgsub_feed.program import Worker, stop_by_signals\nstart = Worker()\nstop_by_signals(start)\n"
            "print('ready', flush=True)\nwhile not start.stop_asked:\n    time.sleep(0.01)\n"
            "print('asked', flush=True)\nwhile True:\n    time.sleep(0.01)\n"
        )
        with subprocess.Popen(
            [sys.executable, "-c", code], cwd=CONNECT, stdout=subprocess.PIPE
        ) as child:
            assert child.stdout
            child.stdout.readline()
            child.send_signal(signal.SIGTERM)
            self.assertEqual(child.stdout.readline(), b"asked\n")
            self.assertIsNone(child.poll())
            child.send_signal(signal.SIGTERM)
            self.assertEqual(child.wait(60), 128 + signal.SIGTERM)


class Asks(Quiet):
    """On the terminal."""

    def ask(self, typed: bytes, check: Callable[[], None] = lambda: None) -> bool:
        ours, theirs = pty.openpty()
        self.addCleanup(os.close, ours)
        os.write(ours, typed)
        with os.fdopen(theirs, encoding="utf-8") as terminal, mock.patch(
            "sys.stdin", terminal
        ), mock.patch("pgsub_connect.commands.drop.TICK", 0.01), contextlib.redirect_stderr(
            io.StringIO()
        ) as stderr:
            said = ask_terminal("drop \x1b[2J?", check)
        self.assertEqual(stderr.getvalue(), "drop \\x1b[2J? [y/N] ")
        return said

    def test_words(self) -> None:
        for typed, yes in (
            (b"y\n", True),
            (b"YES\n", True),
            (b"\n", False),
            (b"n\n", False),
            (b"\x04", False),
        ):
            self.assertIs(self.ask(typed), yes)

    def test_a_signal_is_heard(self) -> None:
        with self.assertRaises(Stopped):
            self.ask(b"", mock.Mock(side_effect=[None, None, Stopped]))


class Compares(Quiet):
    """--table beside a store that is there."""

    def setUp(self) -> None:
        super().setUp()
        self.server = FakeServer()
        self.listed: list[Row] = [["1", "public.t"], ["2", "public.u"]]
        self.oids = {"t": "1", "public.u": "2", "v": "3"}
        self.server.answer("pg_publication_rel", lambda _: self.listed)
        self.server.answer("to_regclass", self.look_up)
        self.server.answer(
            "::pg_catalog.oid AS relid) s JOIN",
            lambda it: [
                [oid, name]
                for oid, name in (("1", "public.t"), ("2", "public.u"), ("3", "public.v"))
                if f"SELECT {oid}::" in it
            ],
        )
        patch = mock.patch.object(session, "Connection", self.server.connect)
        patch.start()
        self.addCleanup(patch.stop)

    def look_up(self, command: str) -> list[Row]:
        return [[next((oid for name, oid in self.oids.items() if f"'{name}'" in command), None)]]

    def compare(self, *tables: str, **options: Any) -> None:
        wanted = Wanted(["pgsub"], list(tables), **options)
        require_published(Subscription(publications=["pgsub"]), wanted, lambda: None)
        self.assertEqual(self.server.opened, self.server.closed)

    def test_the_same(self) -> None:
        for tables in (("t", "public.u"), ("public.u (a, b) WHERE (a > 0)", "t")):
            self.compare(*tables)
        self.assertEqual(
            [it for it in self.server.commands if not it.startswith("SELECT")],
            [],
            "nothing is changed, and nothing locked",
        )

    def test_different(self) -> None:
        """What was added to the publication, or dropped, is no reason to stay down; what isn't
        published would stay so."""
        for tables, text in (
            (("t",), "published too: public.u"),
            (("t", "public.u", "w"), "no such table: w"),
            (("w",), "no such table: w; published too: public.t, public.u"),
        ):
            self.compare(*tables)
            self.assertEqual(
                self.said.pop(),
                f"warning: --table isn't what is published, and what is published is followed: {text}",
            )
        for tables, text in (
            (("t", "public.u", "v"), "not published: public.v"),
            (("t", "v"), "not published: public.v; published too: public.u"),
        ):
            with self.assertRaisesRegex(
                ServerError, f"--table isn't what the store follows: {text}"
            ) as raised:
                self.compare(*tables)
            self.assertTrue(raised.exception.is_lasting())
            self.assertEqual(self.server.opened, self.server.closed)
        self.assertEqual(self.said, [])

    def test_tables_that_were_left_out(self) -> None:
        self.server.answer("SELECT DISTINCT c.oid, n.nspname, c.relname", [["3", "public", "v"]])
        self.compare("t", "public.u", "v", keyless="leave-out")
        with self.assertRaises(ServerError):
            self.compare("t", "public.u", "v")

    def test_all_tables(self) -> None:
        with self.assertRaisesRegex(ServerError, "--all-tables isn't what the store follows"):
            self.compare(all_tables=True)
        self.server.answer("p.puballtables", [["pgsub"]])
        self.compare(all_tables=True)


if __name__ == "__main__":
    unittest.main()
