"""Tables that follow a feed while it is written: killed at any moment, they go on where they were,
and readers see whole commits."""

from __future__ import annotations

import contextlib
import dataclasses
import os
import pickle
import random
import shutil
import signal
import sqlite3
import time
from collections import Counter
from collections.abc import Callable
from typing import Any
from unittest import mock

from feed_text import COMMIT_SIZE, About, Column, Line, entry_text, summed

from pgsub_connect.commands import tables as tables_module, wait
from pgsub_connect.commands.tables import Options
from pgsub_connect.follow.feed import confirmed_above
from pgsub_feed.errors import Damaged, Passing, Stopped, Unfit
from pgsub_feed.interruption import never
from pgsub_feed.program import Worker, stop_by_signals
from pgsub_feed.reader import following
from pgsub_feed.reader.commits import Commit
from pgsub_feed.reader.polling import Poll
from pgsub_feed.reader.following import Reading
from pgsub_feed.tables.file import Rows
from pgsub_feed.tables.first_rows import make
from pgsub_feed.tables.values import BOTH

from .feeds import ID, NAME, FeedCase, delete, insert, table, truncate, update
from .vectors import logged

KEYED, BAG = table(1, "keyed"), table(2, "bag", letter="f")


class History:
    """Random commits to two tables, and the rows after each."""

    def __init__(self, rng: random.Random, count: int) -> None:
        self.rng = rng
        self.keyed: dict[str, str] = {}
        self.bag: list[tuple[str, str]] = []
        self.commits: list[tuple[int, list[Line]]] = []
        self.rows: dict[int, tuple[Counter[Any], Counter[Any]]] = {0: (Counter(), Counter())}
        for end in range(0x100, 0x100 * (count + 1), 0x100):
            self.commits.append((end, [self.change() for _ in range(rng.choice((0, 1, 3, 40)))]))
            self.rows[end] = Counter(
                (int(key), value) for key, value in self.keyed.items()
            ), Counter((int(a), b) for a, b in self.bag)

    def change(self) -> Line:
        rng, value = self.rng, str(self.rng.randrange(1000))
        luck = rng.random()
        if luck < 0.02:
            self.keyed.clear()
            return truncate(KEYED)
        key = str(rng.randrange(30))
        if luck < 0.6:
            was = self.keyed.pop(key, None)
            if was is None or luck < 0.4:
                self.keyed[key] = value
                return (
                    insert(key, value, of=KEYED)
                    if was is None
                    else update([key, was], [key, value], of=KEYED)
                )
            return delete(key, was, of=KEYED)
        if luck < 0.8 or not self.bag:
            self.bag.append((str(rng.randrange(3)), "x"))
            return insert(*self.bag[-1], of=BAG)
        row = self.bag.pop(rng.randrange(len(self.bag)))
        return delete(*row, of=BAG)


def read(path: str) -> tuple[int, tuple[Counter[Any], Counter[Any]]]:
    """The LSN of a file, and its rows."""
    with contextlib.closing(
        sqlite3.connect(f"file:{path}?mode=ro", uri=True, timeout=10, isolation_level=None)
    ) as base:
        base.execute("BEGIN")
        lsn = base.execute("SELECT lsn FROM pgsub_position").fetchone()[0]
        there = {name for (name,) in base.execute("SELECT name FROM pgsub_tables")}
        keyed, bag = (
            Counter(base.execute(f"SELECT * FROM {it}")) if it in there else Counter[Any]()
            for it in ("keyed", "bag")
        )
        return int(lsn[2:], 16), (keyed, bag)


def watch(path: str, history: History) -> tuple[set[int], list[object]]:
    """Reads the file until another one is there beside it. Returns which LSNs it had, and what
    wasn't the rows of a commit."""
    seen, wrong, is_last = set[int](), list[object](), False
    while not is_last:
        is_last = os.path.exists(path + ".done")
        if os.path.exists(path):
            try:
                at, rows = read(path)
            except sqlite3.Error as error:
                wrong.append(str(error))
                continue
            seen.add(at)
            if rows != history.rows[at]:
                wrong.append((at, rows))
        time.sleep(0.001)
    return seen, wrong


class FollowingCase(FeedCase):
    most = 8000

    def setUp(self) -> None:
        super().setUp()
        self.into = str(self.folder / "rows.db")
        self.options = Options(feed=str(self.path), into=self.into)
        self.child = 0
        # (whoever writes the feed here may be held up for seconds)
        patched = mock.patch("pgsub_feed.reader.polling.PATIENCE", 60.0)
        patched.start()
        self.addCleanup(patched.stop)

    def fork(self, call: Callable[[], int]) -> int:
        """Starts a process that ends with the status which the call returns."""
        child = os.fork()
        if not child:
            status = 99
            with contextlib.suppress(BaseException), logged():
                status = call()
            os._exit(status)
        return child

    def start(self) -> None:
        """Starts a process that follows."""

        def call() -> int:
            start = Worker()
            stop_by_signals(start)
            return tables_module.run(self.options, start.check_stop)

        self.child = self.fork(call)

    def end(self, number: int) -> int:
        """Ends the process; its exit status."""
        os.kill(self.child, number)
        return os.waitstatus_to_exitcode(os.waitpid(self.child, 0)[1])

    def wait_for(self, lsn: int) -> None:
        """Waits until the process that follows has reached an LSN."""
        while not os.path.exists(self.into):
            time.sleep(0.01)
        with logged():
            wait.run(wait.Options(tables=self.into, lsn=lsn, within=50), never)

    def write(self, end: int, lines: list[Line], rng: random.Random) -> None:
        """Writes a commit in pieces, sometimes its line last; sometimes it is cut off, and written
        again."""
        prev = self.feed.at
        text = self.feed.text(end, lines)
        size = self.feed.size
        for _ in range(2):
            is_complete = rng.random() < 0.8
            put = self.put_line_last if rng.random() < 0.5 else self.put_in_pieces
            put(text, is_complete, rng)
            if is_complete:
                return
            os.truncate(self.feed.path, size)
            self.feed.size = size
        # (as of a program that was started anew, which has told nothing)
        self.feed.told = {}
        self.feed.put(entry_text(prev, end, lines, None, self.feed.told, size))

    def put_in_pieces(self, text: bytes, is_complete: bool, rng: random.Random) -> None:
        at = rng.choice((0, 100, 300, len(text)))
        self.feed.put(text[:at])
        pause(rng)
        if is_complete:
            self.feed.put(text[at:])

    def put_line_last(self, text: bytes, is_complete: bool, rng: random.Random) -> None:
        """(The line is seen in parts, too.)"""
        start, parts = self.feed.size, [0, *sorted(rng.sample(range(1, COMMIT_SIZE), 2))]
        body = range(COMMIT_SIZE, len(text), max(len(text) // 3, 1))
        pieces = [(at, text[at : at + body.step]) for at in body]
        ends = parts[1:] + [COMMIT_SIZE]
        line = [(at, text[at:end]) for at, end in zip(parts, ends, strict=True)]
        rng.shuffle(line)
        for at, piece in pieces + (line if is_complete else line[:2]):
            with open(self.feed.path, "r+b") as file:
                file.seek(start + at)
                file.write(piece)
            pause(rng)
        self.feed.size = start + len(text)


def pause(rng: random.Random) -> None:
    if rng.random() < 0.3:
        time.sleep(0.002)


class Following(FollowingCase):
    def test_killed_at_random(self) -> None:
        rng = random.Random(11)
        history = History(rng, 150)
        noted, done = self.folder / "noted", self.folder / "rows.db.done"
        watching = self.fork(
            lambda: int(noted.write_bytes(pickle.dumps(watch(self.into, history))) == 0)
        )
        self.start()
        for number, (end, lines) in enumerate(history.commits):
            self.write(end, lines, rng)
            if rng.random() < 0.1:
                time.sleep(rng.random() * 0.03)
                self.assertEqual(self.end(signal.SIGKILL), -signal.SIGKILL, number)
                self.start()
        self.wait_for(self.feed.at)
        done.touch()
        self.assertEqual(os.waitpid(watching, 0)[1], 0)
        seen, wrong = pickle.loads(noted.read_bytes())
        self.assertEqual(wrong, [])
        self.assertIn(self.feed.at, seen)
        self.assertEqual(self.end(signal.SIGTERM), 0)
        self.assertEqual(read(self.into), (self.feed.at, history.rows[self.feed.at]))
        self.assertEqual([it for it in os.listdir(self.folder) if it.startswith("rows.db-")], [])

    def test_as_of_an_lsn(self) -> None:
        history = History(random.Random(5), 40)
        for end, lines in history.commits:
            self.feed.commit(end, lines)
        for at in (0, 0x100, 0x150, 0x1000, self.feed.at):
            self.options = Options(
                feed=str(self.path),
                into=f"{self.folder}/{at}.db",
                once=True,
                at=at,
            )
            with logged():
                self.assertEqual(tables_module.run(self.options, never), 0)
            self.assertEqual(read(self.options.into), (at & ~0xFF, history.rows[at & ~0xFF]))
        self.options = dataclasses.replace(self.options, at=self.feed.at + 1)
        with logged(), self.assertRaisesRegex(
            Passing, "the feed has reached 0/2800, and 0/2801 not yet"
        ):
            tables_module.run(self.options, never)
        self.feed.confirm(self.feed.at + 1)
        with logged():
            self.assertEqual(tables_module.run(self.options, never), 0)

    def test_what_is_confirmed_behind_the_last_look(self) -> None:
        """Then that isn't the last one: what the feed has up to the LSN may have come since."""
        self.feed.commit(0x100, [insert("1", "a", of=KEYED)])
        self.feed.commit(0x200, [insert("2", "b", of=KEYED)], About(0x1FF, 2, 0))
        self.options = dataclasses.replace(self.options, once=True, at=0x200)
        look, settle = Poll.next, following.Following.settle

        def look_before(poll: Poll) -> Commit | None:
            commit = look(poll)
            if commit is None:
                self.feed.confirm(0x200)
            return commit

        def settle_before(it: following.Following) -> None:
            settle(it)
            self.feed.confirm(0x200)

        with logged(), mock.patch.object(
            following.Following, "settle", settle_before
        ), self.assertRaisesRegex(Passing, "has reached 0/100, and 0/200 not"):
            tables_module.run(self.options, never)
        self.feed.confirm(0x100)
        with logged(), mock.patch.object(Poll, "next", look_before):
            self.assertEqual(tables_module.run(self.options, never), 0)
        self.assertEqual(read(self.into), (0x200, (Counter([(1, "a"), (2, "b")]), Counter())))

    def test_many_commits_in_one_transaction(self) -> None:
        for end in range(0x100, 0x10000, 0x100):
            self.feed.commit(end, [insert(str(end), "x", of=KEYED)])
        self.options = dataclasses.replace(self.options, once=True)
        settled = list[int]()
        settle = Rows.settle

        def note(rows: Rows, at: int) -> None:
            settle(rows, at)
            settled.append(at)

        with logged(), mock.patch.object(Rows, "settle", note):
            tables_module.run(self.options, never)
        self.assertLess(len(settled), 10)
        self.assertEqual(read(self.into)[0], 0xFF00)

    def test_lines_that_stay_damaged(self) -> None:
        self.feed.commit(0x100, [insert("1", "a", of=KEYED)])
        text = self.feed.text(0x200, [insert("2", "b", of=KEYED), insert("3", "c", of=KEYED)])
        self.feed.put(summed(text.replace(b'"n":1', b'"n":2')))
        for once in (True, False):
            self.options = dataclasses.replace(self.options, once=once)
            with logged(), self.assertRaisesRegex(Damaged, "reading 6 Counts"), mock.patch(
                "pgsub_feed.reader.polling.PATIENCE", 0.1
            ):
                tables_module.run(self.options, never)
            self.assertEqual(read(self.into), (0, (Counter(), Counter())))

    def test_lines_that_are_mended(self) -> None:
        """What a power cut has left of a commit is written again while it follows."""
        self.feed.commit(0x100, [insert("1", "a", of=KEYED)])
        size = self.feed.size
        text = self.feed.text(0x200, [insert("2", "b", of=KEYED), insert("3", "c", of=KEYED)])
        self.feed.put(text[:-40] + bytes(40))
        self.start()
        time.sleep(0.1)
        os.truncate(self.feed.path, size)
        self.feed.put(text)
        self.wait_for(0x200)
        self.assertEqual(self.end(signal.SIGTERM), 0)
        self.assertEqual(read(self.into)[1][0], Counter([(1, "a"), (2, "b"), (3, "c")]))

    def test_a_line_that_comes_last(self) -> None:
        """A program that was killed amid a long commit has left it without its line, or with a part
        of that, until it is started again: that is a commit that isn't there yet."""
        self.feed.commit(0x100, [insert("1", "a", of=KEYED)])
        size, path = self.feed.size, self.feed.path
        before = path.read_bytes()
        text = self.feed.text(0x200, [insert("2", "b", of=KEYED), insert("3", "c", of=KEYED)])
        once = dataclasses.replace(self.options, once=True)
        for line in (bytes(256), text[:100] + bytes(156), bytes(100) + text[100:256]):
            path.write_bytes(before + line + text[256:])
            self.feed.confirm(0x150)
            with logged(), mock.patch("pgsub_feed.reader.polling.PATIENCE", 0.0):
                self.assertEqual(tables_module.run(once, never), 0)
                wait.run(wait.Options(tables=self.into, lsn=0x150, within=5), never)
                with self.assertRaisesRegex(Passing, "is at 0/100, and 0/200 wasn't reached"):
                    wait.run(wait.Options(tables=self.into, lsn=0x200, within=0.1), never)
                self.feed.confirm(0x200)
                with self.assertRaisesRegex(Passing, "has reached 0/100, and 0/250 not yet"):
                    tables_module.run(dataclasses.replace(once, at=0x250), never)
            self.assertEqual(confirmed_above(str(self.path), 0x100), None)
            self.assertEqual(read(self.into), (0x100, (Counter([(1, "a")]), Counter())))
        self.start()
        time.sleep(0.1)
        os.truncate(path, size)
        self.feed.size, self.feed.at, self.feed.told = size, 0x100, {}
        self.feed.commit(0x180, [insert("4", "d", of=KEYED)])
        self.wait_for(0x180)
        self.assertEqual(self.end(signal.SIGTERM), 0)
        self.assertEqual(read(self.into), (0x180, (Counter([(1, "a"), (4, "d")]), Counter())))

    def test_an_added_tables_commit_that_is_cut_off(self) -> None:
        """The filter was killed before the store had it: the table is added anew, at another
        LSN."""
        self.feed.commit(0x100, [insert("1", "a", of=KEYED)])
        size = self.feed.size
        self.options = dataclasses.replace(self.options, once=True)

        def run_it() -> object:
            with logged():
                tables_module.run(self.options, never)
            return read(self.into)

        for end in (0x200, 0x300):
            self.feed.at = 0x100
            os.truncate(self.feed.path, size)
            self.feed.commit(
                end, [truncate(KEYED), insert("1", "b", of=KEYED)], About(end - 1, 2, 0)
            )
            self.feed.confirm(end - 8)
            self.assertEqual(run_it(), (0x100, (Counter([(1, "a")]), Counter())))
        self.feed.commit(0x400, [insert("2", "c", of=KEYED)])
        self.feed.confirm(0x400)
        self.assertEqual(run_it(), (0x400, (Counter([(1, "b"), (2, "c")]), Counter())))


class Transactions(FollowingCase):
    def test_the_lsn_is_in_that_of_the_rows(self) -> None:
        told = list[str]()
        set_up = Rows.set_up

        def traced(rows: Rows) -> None:
            set_up(rows)
            rows.db.set_trace_callback(told.append)

        self.feed.commit(0x100, [insert("1", "a", of=KEYED)])
        self.feed.commit(0x200, [insert("2", "b", of=KEYED)])
        self.options = dataclasses.replace(self.options, once=True)
        with logged(), mock.patch.object(Rows, "set_up", traced):
            tables_module.run(self.options, never)
        words = [
            it.split()[0]
            for it in told
            if it.startswith(("BEGIN", 'INSERT INTO "keyed"', "UPDATE pgsub_position", "COMMIT"))
        ]
        self.assertEqual(
            words, ["BEGIN", "UPDATE", "COMMIT", "BEGIN", "INSERT", "INSERT", "UPDATE", "COMMIT"]
        )

    def test_another_process_has_written(self) -> None:
        self.feed.commit(0x100, [insert("1", "a", of=KEYED)])
        self.options = dataclasses.replace(self.options, once=True)
        with logged():
            tables_module.run(self.options, never)
        rows = Rows(self.into)
        self.feed.commit(0x200, [insert("2", "b", of=KEYED)])
        with logged():
            tables_module.run(self.options, never)
        with contextlib.closing(rows.db), self.assertRaisesRegex(
            Exception, "another process has written it meanwhile"
        ):
            rows.begin()

    def test_another_file_gets_the_name(self) -> None:
        """What is written to this one nobody would read."""
        self.feed.commit(0x100, [insert("1", "a", of=KEYED)])
        self.options = dataclasses.replace(self.options, once=True)
        with logged():
            tables_module.run(self.options, never)
        rows = Rows(self.into)
        shutil.copy(self.into, self.into + ".copy")
        os.replace(self.into + ".copy", self.into)
        with contextlib.closing(rows.db), self.assertRaisesRegex(
            Passing, "another file has its name by now"
        ):
            rows.begin()

    def test_the_end_is_asked_for_before_a_file_has_its_name(self) -> None:
        """As where what has started this is gone, and another one makes the file."""
        synced = list[int]()
        real = os.fsync

        def sync(file: int) -> None:
            synced.append(file)
            real(file)

        def check() -> None:
            if synced:
                raise Stopped

        self.feed.commit(0x100, [insert("1", "a", of=KEYED)])
        with mock.patch("pgsub_feed.files.os.fsync", sync), self.assertRaises(Stopped):
            make(self.into, Reading(str(self.path), follows=False), BOTH, check)
        self.assertEqual([it for it in os.listdir(self.folder) if it.startswith("rows")], [])


class Back(FollowingCase):
    """Files that are taken back to an LSN."""

    def copied(self, at: int, **more: Any) -> str:
        """A copy of the file, as of an LSN."""
        into = f"{self.folder}/back-{at}.db"
        with logged():
            tables_module.run(
                Options(
                    feed=str(self.path),
                    into=into,
                    base=self.into,
                    once=True,
                    at=at,
                    **more,
                ),
                never,
            )
        return into

    def run_it(self) -> None:
        self.options = dataclasses.replace(self.options, once=True)
        with logged():
            tables_module.run(self.options, never)

    def test_to_each_lsn(self) -> None:
        history = History(random.Random(30), 60)
        for end, lines in history.commits:
            self.feed.commit(end, lines)
        self.run_it()
        truncated = max(
            (end for end, lines in history.commits if any(it.op == "t" for it in lines)), default=0
        )
        self.assertEqual(truncated, 0x1E00)
        for at in range(0, self.feed.at + 1, 0x300):
            if at < truncated:
                with self.assertRaisesRegex(
                    Unfit,
                    r"truncates public.keyed \(1\).*: make a new file by --into, without --base$",
                ):
                    self.copied(at)
            else:
                self.assertEqual(read(self.copied(at)), (at, history.rows[at]), hex(at))
        self.assertEqual(read(self.into)[0], self.feed.at)

    def test_a_truncation_in_a_feed_that_begins_later(self) -> None:
        self.feed.commit(0x100, [insert("1", "a", of=KEYED)])
        self.options = dataclasses.replace(self.options, at=0x100)
        self.run_it()
        self.feed.end()
        self.feed.commit(0x200, [insert("2", "b", of=KEYED)])
        self.feed.commit(0x300, [truncate(of=KEYED)])
        shutil.copyfile(self.into, self.folder / "base.db")
        self.options = dataclasses.replace(self.options, at=None)
        self.run_it()
        next(it for it in sorted(self.path.iterdir()) if len(it.name) == 16).unlink()
        with self.assertRaisesRegex(
            Unfit, "make a new file by --into, with --base, an export or tables of 0/200 or before$"
        ):
            self.copied(0x200)
        new = Options(
            feed=str(self.path),
            base=str(self.folder / "base.db"),
            into=f"{self.folder}/new.db",
            once=True,
            at=0x200,
        )
        with logged():
            self.assertEqual(tables_module.run(new, never), 0)
        self.assertEqual(read(new.into)[1][0], Counter([(1, "a"), (2, "b")]))

    def test_there_and_back(self) -> None:
        self.feed.commit(0x100, [insert("1", "a", of=KEYED)])
        self.feed.commit(0x200, [insert("2", "b", of=BAG)])
        self.run_it()
        self.options = dataclasses.replace(self.options, at=0x1FF)
        self.run_it()
        self.assertEqual(read(self.into), (0x100, (Counter([(1, "a")]), Counter())))
        with contextlib.closing(sqlite3.connect(self.into)) as base:
            self.assertEqual(base.execute("SELECT name FROM pgsub_tables").fetchall(), [("keyed",)])
        self.options = dataclasses.replace(self.options, at=None)
        self.run_it()
        self.assertEqual(read(self.into), (0x200, (Counter([(1, "a")]), Counter([(2, "b")]))))

    def test_shapes_and_names(self) -> None:
        wider = table(1, "renamed", [ID, NAME, Column("more", 23)])
        self.feed.commit(0x100, [insert("1", "a", of=KEYED)])
        self.feed.commit(0x200, [update(["1", "a", None], ["1", "b", "7"], of=wider)])
        self.run_it()
        self.assertEqual(read(self.copied(0x100)), (0x100, (Counter([(1, "a")]), Counter())))
        self.feed.commit(0x300, [insert("2", of=table(1, "keyed", [ID]))])
        self.run_it()
        with self.assertRaisesRegex(
            Unfit,
            r"public.renamed \(1\): the column name was dropped or altered since, and its values are lost",
        ):
            self.copied(0x180)

    def test_a_column_that_a_change_without_a_row_dropped(self) -> None:
        self.feed.commit(0x100, [insert("1", "a", of=KEYED)])
        self.feed.commit(0x200, [Line(table(1, "keyed", [ID]), "x", ["9"], None, "K")])
        self.run_it()
        with self.assertRaisesRegex(Unfit, r"the column name was dropped or altered since"):
            self.copied(0x100)

    def test_what_the_feed_doesnt_have(self) -> None:
        for end in (0x100, 0x200):
            self.feed.commit(end, [insert(str(end), "a", of=KEYED)])
            self.feed.end()
        self.run_it()
        (self.path / f"{0:016X}").unlink()
        self.assertEqual(read(self.copied(0x100)), (0x100, (Counter([(256, "a")]), Counter())))
        with self.assertRaisesRegex(
            Unfit, "the feed doesn't have the commits after 0/50: begin from an export before it"
        ):
            self.copied(0x50)
