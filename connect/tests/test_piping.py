"""A feed that is read over two pipes, by a stand-in for ssh."""

from __future__ import annotations

import contextlib
import json
import os
import random
import signal
import socket
import subprocess
import sys
import time
import unittest
from collections.abc import Iterator
from pathlib import Path
from types import SimpleNamespace
from typing import Any
from unittest import mock

from feed_text import Writer

import pgsub_feed
from pgsub_feed import Commit, Damaged, FileError, Insert, Passing, Truncate, Unfit
from pgsub_feed.column_types import KnownTypes
from pgsub_feed.errors import Stopped, UsageError
from pgsub_feed.formats.lines import Told
from pgsub_feed.interruption import never
from pgsub_feed.pipe import following
from pgsub_feed.pipe.following import Address, Remote
from pgsub_feed.pipe.pipes import Cut, Pipes
from pgsub_feed.reader.segments import Reader

from .bases import make_base
from .feeds import STOCK, FeedCase, insert, table
from .test_consumer import EXAMPLE, random_lines, replayed
from .vectors import logged

CONNECT = Path(__file__).resolve().parent.parent
OTHER = table(2, "other", schema="sales")
# Runs the last of its words, and notes the process.
STAND_IN = """#!/bin/sh
for it; do last=$it; done
echo $$ >> "$0.pids"
eval "exec $last"
"""


class PipeCase(FeedCase):
    """A test with a stand-in for ssh."""

    def setUp(self) -> None:
        super().setUp()
        self.ssh = self.folder / "ssh"
        self.ssh.write_text(STAND_IN)
        self.ssh.chmod(0o700)
        self.environment = {
            **os.environ,
            "PGSUB_SSH": str(self.ssh),
            "PATH": f"{CONNECT}:{os.environ['PATH']}",
            "PYTHONPATH": str(CONNECT),
        }
        patched = mock.patch.dict(os.environ, self.environment)
        patched.start()
        self.addCleanup(patched.stop)
        self.url = f"ssh://somewhere{self.path}"

    def pids(self) -> list[int]:
        path = Path(f"{self.ssh}.pids")
        return [int(it) for it in path.read_text().split()] if path.exists() else []

    def read(self, after: int | None = None, **more: Any) -> list[Commit]:
        return list(pgsub_feed.read(self.url, after, **more))

    def noted(self) -> str:
        return (self.path / "readers/mine").read_text().strip()


class Pieces(FeedCase):
    def test_a_long_line_is_put_together_once(self) -> None:
        """It comes in thousands of pieces."""
        added = list[int]()

        class Piece(bytes):
            def __radd__(self, other: bytes) -> bytes:
                added.append(len(other))
                return other + bytes(self)

        def pieces(size: int) -> Iterator[bytes]:
            content = self.feed.path.read_bytes()[-size:]
            return (Piece(content[at : at + 100]) for at in range(0, size, 100))

        self.feed.commit(0x100, [insert("1", "x" * 10000), insert("2", "b")])
        with contextlib.closing(Reader(str(self.path), 0)) as reader:
            commit = reader.next()
            assert commit
            expected = list(reader.parts(commit))
            ((at, definition),) = reader.definitions(commit)
        about = "ssh://h/feed", 0, False, None, never
        remote = Remote(*about, lambda commit, parts: list(parts), KnownTypes())
        remote.take_definition(Told().add(at, definition))
        pipes: Any = SimpleNamespace(pieces=pieces)
        self.assertEqual(list(remote.parts(pipes, commit)), expected)
        self.assertLess(sum(added), 1000)


class Delays(unittest.TestCase):
    def delays(self, lasts: float) -> list[float]:
        """How long it waits after each of some cuts of ways that last so many seconds."""
        about = "ssh://h/feed", 0, True, None, never
        remote = Remote(*about, lambda commit, parts: None, KnownTypes())
        remote.was_there, now, found = True, [0.0], list[float]()

        def received(_: object) -> Iterator[None]:
            now[0] += lasts
            yield from ()
            raise Cut("it has ended")

        def rest() -> None:
            found.append(remote.delay)
            remote.delay *= 2
            if len(found) == 4:
                raise Stopped

        clock = mock.patch("time.monotonic", lambda: now[0])
        with mock.patch.object(following, "Link"), clock, mock.patch.multiple(
            remote, received=received, rest=rest
        ):
            with logged(), self.assertRaises(Stopped):
                list(remote.commits())
        return found

    def test_a_way_that_was_good_for_long_is_made_again_soon(self) -> None:
        """Also where no commit came by it."""
        self.assertEqual(self.delays(1.0), [0.2, 0.4, 0.8, 1.6])
        self.assertEqual(self.delays(100.0), [0.2] * 4)


class Reads(PipeCase):
    def test_it_gives_what_a_reader_of_the_folder_gets(self) -> None:
        for number in range(1, 4):
            self.feed.commit(number << 8, [insert(str(number), "ä\n"), insert("7", None, of=OTHER)])
        for after in (None, 0, 0x200, 0x300):
            for tables in ((), ("stock",)):
                with self.subTest(after, tables=tables):
                    found = self.read(after, tables=tables)
                    there = list(pgsub_feed.read(self.path, after, tables=tables))
                    self.assertEqual(found, there)

    def begin_with_rows(self, size: int = 1) -> None:
        self.feed.path.unlink()
        self.feed = Writer(self.path, 0x100)
        rows = [(STOCK, (str(it), size * "ä\r\n")) for it in range(1000)]
        make_base(self.path, 0x100, [STOCK, OTHER], rows, room=1000, least=5000)
        self.feed.commit(0x200, [insert("2000", "a")])

    def test_first_rows(self) -> None:
        self.begin_with_rows()
        for after in (None, 0, 0x100, 0x200):
            with self.subTest(after):
                self.assertEqual(self.read(after), list(pgsub_feed.read(self.path, after)))
        first, second, *_ = self.read(0)
        self.assertIsInstance(first.changes[0], Truncate)
        self.assertTrue(all(isinstance(it, Insert) for it in second.changes))

    def test_a_cut_between_first_rows(self) -> None:
        """All of them come again, each table truncated first. (They are more than a pipe takes, so
        that none is cut once all was written.)"""
        self.begin_with_rows(1000)
        rows, cuts = list[str](), 0
        for commit in pgsub_feed.read(self.url, 0, follow=True):
            for it in commit.changes:
                if isinstance(it, Insert):
                    rows.append(str(it.after["id"]))
                elif it.table.oid == STOCK.oid:
                    rows.clear()
                    cuts += 1
            if len(self.pids()) < 3 and rows:
                os.kill(self.pids()[-1], signal.SIGKILL)
            if commit.lsn == 0x200:
                break
        self.assertEqual((rows, cuts), ([*map(str, range(1000)), "2000"], 3))

    def test_large_commits(self) -> None:
        rows = [insert(str(number), "x" * 1000) for number in range(1000)]
        self.feed.commit(0x100, rows)
        self.feed.commit(0x200, [insert("a" * 3_000_000, None)])
        first, second = self.read(0)
        self.assertEqual(len(first.changes), 1000)
        (last,) = second.changes
        assert isinstance(last, Insert)
        self.assertEqual(len(str(last.after["id"])), 3_000_000)

    def test_many_that_are_had_at_once(self) -> None:
        """(So that both pipes are full.)"""
        for number in range(1, 20001):
            self.feed.commit(number, [])
        self.assertEqual(len(self.read(0, reader="mine")), 20000)
        self.assertEqual(self.noted(), "0/4E20")

    def test_a_reader_with_a_name(self) -> None:
        for number in range(1, 4):
            self.feed.commit(number << 8, [insert(str(number), "a")])
        found = pgsub_feed.read(self.url, 0x100, reader="mine", follow=True)
        next(found)
        self.assertEqual(self.noted(), "0/100")
        next(found)
        # (what the body hasn't ended with isn't done)
        found.close()  # type: ignore[attr-defined]
        self.assertEqual(self.noted(), "0/200")
        self.assertEqual(len(self.read(0x200, reader="mine")), 1)
        self.assertEqual(self.noted(), "0/300")

    def test_it_follows(self) -> None:
        self.feed.commit(0x100, [insert("1", "a")])
        found = pgsub_feed.read(self.url, 0, follow=True)
        self.assertEqual(next(found).lsn, 0x100)
        self.feed.commit(0x200, [insert("2", "a")])
        self.assertEqual(next(found).lsn, 0x200)
        os.kill(self.pids()[-1], signal.SIGKILL)
        self.feed.commit(0x300, [insert("3", "a")])
        self.assertEqual(next(found).lsn, 0x300)
        self.assertEqual(len(self.pids()), 2)

    def test_it_ends_where_it_is_asked_to(self) -> None:
        def check() -> None:
            if self.pids():
                raise Stopped

        with self.assertRaises(Stopped):
            next(pgsub_feed.read(self.url, 0, follow=True, check=check))


class Faults(PipeCase):
    def test_what_the_other_side_tells(self) -> None:
        self.feed.commit(0x100, [insert("1", "a")])
        with self.assertRaisesRegex(Unfit, "somewhere.*no commit ends at 0/80"):
            self.read(0x80, follow=True)
        self.feed.put(b"x" * 300)
        with self.assertRaisesRegex(FileError, "somewhere.*reading 3 CommitLine"):
            self.read(0)
        self.url += "/none"
        with self.assertRaisesRegex(FileError, "there is no feed"):
            self.read(0, follow=True)

    def test_a_feed_that_is_never_reached(self) -> None:
        with mock.patch.dict(os.environ, {"PGSUB_SSH": "/bin/false"}):
            with self.assertRaisesRegex(Passing, "somewhere.*can't be read"):
                self.read(0, follow=True)
        with mock.patch.dict(os.environ, {"PGSUB_SSH": "/none/at/all"}):
            with self.assertRaisesRegex(FileError, "/none/at/all: No such file"):
                self.read(0)

    def test_what_is_no_feed(self) -> None:
        said = self.folder / "said"
        for text, error, told in (
            (b"hello\n", Damaged, "no line of a commit"),
            (b'{"feed":4}\n', Damaged, "no head"),
            (b'{"feed":1,"base":"0/0"}\n', Damaged, "a feed of format 1, which an earlier version"),
            (b'{"feed', Passing, "it has ended"),
            (b"x" * (3 << 20), Passing, "a line is too long"),
            (b'{"fault":7,"text":"busy"}\n', Passing, "busy"),
            (b'{"fault":[]\n', Passing, "it says"),
        ):
            said.write_bytes(text)
            with self.subTest(text[:20]), mock.patch.dict(
                os.environ, {"PGSUB_SSH": f"/bin/sh -c 'read it; cat {said}'"}
            ), self.assertRaisesRegex(error, told):
                self.read(0)

    def test_a_commit_that_is_spoiled_on_its_way(self) -> None:
        """Nothing of it is passed on, also where each of its lines is one."""
        said = self.folder / "said"
        self.feed.commit(0x100, [insert("1", "a"), insert("2", "a")])
        self.feed.commit(0x200, [insert("3", "a")])
        text = self.feed.path.read_bytes()
        told = text[1280:].partition(b"\n")[0].replace(b"{", b'{"at":1280,', 1) + b"\n"
        head, commits = text[:1024].rstrip() + b"\n" + told, text[1024:]
        at = commits.index(b'"3"')
        said.write_bytes(head + commits[:at] + b'"4"' + commits[at + 3 :])
        with mock.patch.dict(os.environ, {"PGSUB_SSH": f"/bin/sh -c 'read it; cat {said}; cat'"}):
            found = pgsub_feed.read(self.url, 0)
            self.assertEqual(next(found).lsn, 0x100)
            with self.assertRaisesRegex(
                Damaged, "reading 9 Checksum: the commit that ends at 0/200"
            ):
                next(found)

    def test_definitions(self) -> None:
        """They are told once, and again where another one stands at the same offset."""
        self.feed.commit(0x100, [insert("1", "a")])
        self.feed.commit(0x200, [insert("2", "a")])
        self.feed.end()
        self.feed.commit(0x300, [insert("3", "a", of=OTHER)])
        found = [
            (change.table.name, change.after["id"])
            for commit in pgsub_feed.read(self.url, 0)
            for change in commit.changes
            if isinstance(change, Insert)
        ]
        self.assertEqual(found, [("stock", "1"), ("stock", "2"), ("other", "3")])
        for wrong in (b'{"at":1280}\n', b'{"at":a,"op":"table"}\n', b'{"at":1280,"op":"c"}\n'):
            said = self.folder / "said"
            said.write_bytes(self.feed.path.read_bytes()[:1024].rstrip() + b"\n" + wrong)
            with self.subTest(wrong), mock.patch.dict(
                os.environ, {"PGSUB_SSH": f"/bin/sh -c 'read it; cat {said}'"}
            ), self.assertRaisesRegex(Damaged, "this is no definition"):
                self.read(0)

    def test_many_definitions(self) -> None:
        """Both sides forget them at once, and none amid a commit."""
        tables = [table(oid, f"t{oid}") for oid in range(1, 31)]
        for end in range(1, 6):
            rows = [insert(str(end), "a", of=it) for it in tables[: 10 * (end % 3 + 1)]]
            self.feed.commit(0x100 * end, rows)
        with mock.patch("pgsub_feed.reader.decoding.MOST_DEFINITIONS", 12):
            alone = Reader(str(self.path), 0)
            wanted = [len(list(alone.parts(it))) for it in iter(alone.next, None)]
            alone.close()
        for most in (12, 10000):
            limit = f"import pgsub_feed.formats.lines as it; it.MOST_DEFINITIONS = {most}; "
            start = (
                "import sys; from pgsub_feed import command; sys.exit(command.main(sys.argv[1:]))"
            )
            code = f"{limit}{start}"
            run = f"/bin/sh -c 'exec {sys.executable} -c \"{code}\" --pipe --feed {self.path}'"
            with mock.patch.dict(os.environ, {**self.environment, "PGSUB_SSH": run}), mock.patch(
                "pgsub_feed.reader.decoding.MOST_DEFINITIONS", most
            ):
                found = [len(it.changes) for it in pgsub_feed.read(self.url, 0)]
            self.assertEqual([2 * it for it in found], wanted)

    def test_another_feed_in_its_place(self) -> None:
        """A cut, after which the other side has another one."""
        self.feed.commit(0x100, [insert("1", "a")])
        found = pgsub_feed.read(self.url, 0, follow=True)
        next(found)
        text = self.feed.path.read_bytes()
        self.feed.path.write_bytes(text.replace(b'"7"', b'"8"'))
        os.kill(self.pids()[-1], signal.SIGKILL)
        with mock.patch.object(following, "PATIENCE", 0.5):
            with self.assertRaisesRegex(
                Damaged, "and before of slot pgsub of database shop, system 7"
            ):
                next(found)

    def test_addresses(self) -> None:
        self.assertEqual(Address.of("ssh://a@b:7/c%20d"), Address("a@b", 7, "/c d"))
        words = Address.of("ssh://b/it's").words(True, "x")
        self.assertEqual(words[-3:-1], ["--", "b"])
        self.assertTrue(words[-1].endswith("""--feed '/it'"'"'s' --follow --reader x"""), words[-1])
        for wrong in ("ssh:///a", "ssh://b", "ssh://b:x/a", "ssh://b:0/a", "ssh://b/a?c"):
            with self.subTest(wrong), self.assertRaises(UsageError):
                Address.of(wrong)


class Serves(PipeCase):
    """The side of the feed."""

    def serve(self, said: bytes, *words: str) -> tuple[int, bytes]:
        command = [str(CONNECT / "pgsub-feed"), "--pipe", "--feed", str(self.path), *words]
        done = subprocess.run(command, input=said, capture_output=True, timeout=300, check=False)
        return done.returncode, done.stdout

    def test_words(self) -> None:
        for words in (["--table", "a"], ["--from", "0/1"], ["--undo", "0/1", "0/2"]):
            self.assertEqual(self.serve(b"\n", *words)[0], 2)

    def test_what_a_reader_cant_say(self) -> None:
        self.feed.commit(0x100, [insert("1", "a")])
        for said in (b"x\n", b"0/100\n0/200\n", b"0/100\n0/80\n"):
            with self.subTest(said):
                status, told = self.serve(said)
                self.assertEqual(status, 2)
                self.assertIn(b'{"fault":2,"text":"the reader ', told)

    def test_over_a_socket(self) -> None:
        """(Which is one file, for both ways.)"""
        self.feed.commit(0x100, [insert("1", "a" * 1_000_000)])
        mine, theirs = socket.socketpair()
        command = [str(CONNECT / "pgsub-feed"), "--pipe", "--feed", str(self.path)]
        end = theirs.fileno()
        with subprocess.Popen(command, stdin=end, stdout=end) as child, mine, theirs:
            theirs.close()
            pipes = Pipes(mine.fileno(), mine.fileno(), lambda: None)
            pipes.put(b"0/0\n")
            self.assertTrue(pipes.line().startswith(b'{"feed":4'))
            self.assertTrue(pipes.line().startswith(b'{"at":1280,"op":"table"'))
            size = json.loads(pipes.line())["bytes"]
            self.assertEqual(sum(map(len, pipes.pieces(size))), size)
            self.assertEqual(pipes.line(), b'{"done":"0/100"}\n')
            mine.shutdown(socket.SHUT_WR)
            self.assertEqual(child.wait(60), 0)

    def test_a_reader_that_says_nothing(self) -> None:
        self.assertEqual(self.serve(b""), (0, b""))

    def test_a_commit_that_is_cut_while_it_is_given(self) -> None:
        """(A pipe that nobody reads takes 64 KB.)"""
        self.feed.commit(0x100, [insert("1", "a" * 3_000_000)])
        (in_read, in_write), (out_read, out_write) = os.pipe(), os.pipe()
        command = [str(CONNECT / "pgsub-feed"), "--pipe", "--feed", str(self.path)]
        child = subprocess.Popen(command, stdin=in_read, stdout=out_write)
        for it in (in_read, out_write):
            os.close(it)
        pipes = Pipes(out_read, in_write, lambda: None)
        pipes.put(b"0/0\n")
        pipes.line()
        os.truncate(self.feed.path, 2000)
        with self.assertRaises(Cut):
            for _ in pipes.pieces(3_000_000):
                pass
        self.assertEqual(child.wait(60), 0)
        for it in (in_write, out_read):
            os.close(it)


class Killed(PipeCase):
    """The example of the documents with a feed elsewhere: reader and feed's side are killed."""

    most = 8000

    def setUp(self) -> None:
        super().setUp()
        self.killed = set[int]()

    def start(self) -> subprocess.Popen[bytes]:
        words = [sys.executable, str(EXAMPLE), self.url, str(self.folder / "dict")]
        return subprocess.Popen(words, env=self.environment)

    def test_killed_at_random(self) -> None:
        """(One whose first way is cut ends, and its supervisor starts it again.)"""
        rng, rows = random.Random(7), dict[int, dict[str, str]]()
        kills, child = 0, self.start()
        for number in range(1, 301):
            self.feed.commit(number << 8, list(random_lines(rng, rows)))
            if number % 15 == 0:
                time.sleep(rng.random() * 0.4)
                if rng.random() < 0.5:
                    child.kill()
                    child.wait()
                else:
                    child = self.kill_server(child)
                kills += 1
            child = self.start() if child.poll() is not None else child
        try:
            until = time.monotonic() + 120
            while self.kept_dict()[0] < self.feed.at and time.monotonic() < until:
                child = self.start() if child.poll() is not None else child
                time.sleep(0.02)
        finally:
            child.kill()
            child.wait()
        self.assertGreater(kills, 10)
        lsn, found = self.kept_dict()
        self.assertEqual((lsn, found), replayed(self.path))
        self.assertGreater(len(found), 10)

    def kill_server(self, child: subprocess.Popen[bytes]) -> subprocess.Popen[bytes]:
        """Kills the side of the feed, once there is one that wasn't killed yet. Returns the reader,
        or another one where that has ended before."""
        until = time.monotonic() + 60
        while time.monotonic() < until:
            child = self.start() if child.poll() is not None else child
            for it in set(self.pids()) - self.killed:
                self.killed.add(it)
                with contextlib.suppress(ProcessLookupError):
                    os.kill(it, signal.SIGKILL)
                    return child
            time.sleep(0.01)
        self.fail("nothing serves the feed")
