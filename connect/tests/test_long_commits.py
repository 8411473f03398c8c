"""Commits that are larger than what is kept of them in memory: what a program reads of one, what is
printed, and what tables do."""

from __future__ import annotations

import copy
import json
import pickle
import random
import sqlite3
import tracemalloc
from collections.abc import Callable, Iterator
from contextlib import closing
from types import SimpleNamespace
from typing import Any
from unittest import mock

from feed_load import Load
from feed_text import About, Line, Message as Told, Writer, summed

import pgsub_feed
from pgsub_connect.commands import tables as tables_module
from pgsub_connect.commands.tables import Options
from pgsub_feed import Commit, Damaged, Insert, Passing
from pgsub_feed.changes import LongChanges
from pgsub_feed.formats.bulk import Bulk
from pgsub_feed.column_types import KnownTypes
from pgsub_feed.formats.lines import ByName, Lines, Told as Tellings
from pgsub_feed.interruption import never
from pgsub_feed.pipe.following import Remote
from pgsub_feed.reader.blocks import parts_backwards
from pgsub_feed.reader.commits import Change, Part, TableLine
from pgsub_feed.reader.following import Chosen
from pgsub_feed.reader.segments import Reader
from pgsub_feed.tables import applier

from .feeds import STOCK, FeedCase, delete, insert, table, truncate, update
from .test_piping import PipeCase
from .vectors import logged

OTHER = table(2, "other")
USERS = ("consumer", "formats.bulk", "pipe.following", "reader.blocks")


def smaller(case: FeedCase, long: int = 20000, chunk: int = 4000) -> None:
    """Has commits of fewer bytes be long ones, which are read by smaller pieces."""
    named = [(f"pgsub_feed.{it}.LONG", long) for it in USERS]
    named += [(f"pgsub_feed.reader.{it}.CHUNK", chunk) for it in ("blocks", "segment")]
    for name, value in named:
        patched = mock.patch(name, value)
        patched.start()
        case.addCleanup(patched.stop)


def at_random(feed: Writer, rng: random.Random, count: int = 3) -> None:
    """Commits of changes of any kind to tables that are altered and renamed, some of them long."""
    load = Load(rng)
    for number in range(1, count + 1):
        lines = [it for _ in range(500 * (number % 3)) for it in load.line()]
        messages = [Told(number, "p", b"%d" % it) for it in range(number % 2 * 3)]
        feed.commit(number << 12, lines, About(number, 700, 0), messages)


class Read(PipeCase):
    """What a program of one's own gets."""

    def both(self, **more: Any) -> tuple[list[Commit], list[Commit]]:
        """The same commits, as tuples and as they are read where they are long."""
        short = list(pgsub_feed.read(self.path, 0, **more))
        smaller(self)
        return short, list(pgsub_feed.read(self.path, 0, **more))

    def check_same(self, short: list[Commit], long: list[Commit]) -> None:
        """(They are looked at once the last one was read.)"""
        self.assertEqual([it.lsn for it in long], [it.lsn for it in short])
        kinds = {type(it.changes) for it in long}
        self.assertEqual(kinds, {tuple, LongChanges})
        for one, other in zip(short, long, strict=True):
            self.assertEqual(len(other.changes), len(one.changes))
            for _ in range(2):
                self.assertEqual(tuple(other.changes), one.changes)
            self.assertEqual(other, one)

    def test_the_same(self) -> None:
        at_random(self.feed, random.Random(3))
        self.check_same(*self.both())

    def test_of_some_tables(self) -> None:
        at_random(self.feed, random.Random(4))
        short, long = self.both(tables=["bag"])
        self.assertGreater(len(short[1].changes), 10)
        self.check_same(short, long)

    def test_by_a_pipe(self) -> None:
        at_random(self.feed, random.Random(5))
        short = self.both()[0]
        self.check_same(short, self.read(0))

    def test_a_sequence(self) -> None:
        self.feed.commit(0x100, [insert(str(it), "a" * 50) for it in range(1000)])
        short, (commit,) = self.both()
        changes, expected = commit.changes, short[0].changes
        assert isinstance(changes, LongChanges)
        self.assertGreater(len(changes.ends), 10)
        for at in (0, 1, 999, -1, -1000, 500, 31):
            self.assertEqual(changes[at], expected[at])
        for some in (slice(None), slice(3, 700, 50), slice(None, None, -1), slice(900, 2000)):
            self.assertEqual(changes[some], expected[some])
        for at in (1000, -1001):
            with self.assertRaises(IndexError):
                changes[at]
        self.assertEqual([*zip(changes, changes)], [*zip(expected, expected)])
        self.assertEqual([*reversed(changes)], [*reversed(expected)])
        self.assertEqual(changes.index(expected[700]), 700)
        self.assertIn(expected[700], changes)
        self.assertTrue(changes)
        self.assertNotEqual(changes, expected[1:])
        self.assertNotEqual(changes, (*expected[1:], expected[0]))
        self.assertEqual(pickle.loads(pickle.dumps(commit)), short[0])
        self.assertIs(type(copy.deepcopy(commit).changes), tuple)

    def test_the_segment_is_removed(self) -> None:
        smaller(self)
        self.feed.commit(0x100, [insert(str(it), "a" * 50) for it in range(1000)])
        self.feed.end()
        self.feed.commit(0x200)
        long, _ = pgsub_feed.read(self.path, 0)
        (self.path / f"{0:016X}").unlink()
        self.assertEqual(len(list(long.changes)), 1000)

    def test_it_was_cut_meanwhile(self) -> None:
        """As after a crash, where it wasn't confirmed."""
        smaller(self)
        lines = [insert(str(it), "a" * 50) for it in range(1000)]
        self.feed.commit(0x100, lines)
        text = self.feed.path.read_bytes()
        for now in (text[:-1000], text[:1024], text[:-1000] + bytes(1000), text[:-5] + b'"]}}\n'):
            self.feed.path.write_bytes(text)
            (commit,) = pgsub_feed.read(self.path, 0)
            self.assertEqual(commit.changes[-1], commit.changes[999])
            self.feed.path.write_bytes(now)
            with self.assertRaisesRegex(Passing, "altered while the commit that ends at 0/100"):
                list(commit.changes)

    def test_lines_that_cant_be_read(self) -> None:
        """Nothing is given of such a commit."""
        smaller(self)
        text = self.feed.text(0x100, [insert(str(it), "a" * 50) for it in range(1000)])
        self.feed.put(summed(text.replace(b'"n":999', b'"n":998')))
        with self.assertRaisesRegex(Damaged, "reading 6 Counts: the change has number 998"):
            list(pgsub_feed.read(self.path, 0))

    def test_many_definitions(self) -> None:
        """All that it names are known as long as it is read."""
        at_random(self.feed, random.Random(6))
        self.check_same(*self.both())
        with mock.patch("pgsub_feed.reader.decoding.MOST_DEFINITIONS", 2):
            found = list(pgsub_feed.read(self.path, 0))
            self.assertEqual(list(found[1].changes), list(found[1].changes))


class Elsewhere(FeedCase):
    def test_definitions_are_forgotten_as_they_are_told(self) -> None:
        """Where there are too many, those at the feed take it that they were."""
        many = [table(it, f"t{it}") for it in range(3, 7)]
        self.feed.commit(0x100, [insert(str(it), "a" * 50, of=many[it % 4]) for it in range(1000)])
        for end in (0x200, 0x300, 0x400):
            self.feed.commit(end, [insert("1", "b"), insert("1", "b", of=many[0])])
        smaller(self)
        for it in ("reader.decoding", "formats.lines"):
            patched = mock.patch(f"pgsub_feed.{it}.MOST_DEFINITIONS", 4)
            patched.start()
            self.addCleanup(patched.stop)
        about = "ssh://h/feed", 0, False, None, never
        remote, told = Remote(*about, lambda commit, parts: list(parts), KnownTypes()), Tellings()
        with closing(Reader(str(self.path), 0)) as reader:
            pipes: Any = SimpleNamespace(pieces=lambda size: iter([self.content(reader, size)]))
            while commit := reader.next():
                told.begin()
                for at, line in reader.definitions(commit):
                    if text := told.add(at, line):
                        remote.take_definition(text)
                found = list(remote.read_parts(pipes, commit, False))
                self.assertEqual(without_tables(found), without_tables([*reader.parts(commit)]))

    @staticmethod
    def content(reader: Reader, size: int) -> bytes:
        assert reader.segment
        return reader.segment.read(reader.body, size)


class Backwards(FeedCase):
    def test_the_same(self) -> None:
        at_random(self.feed, random.Random(7))
        with closing(Reader(str(self.path), 0)) as reader:
            while commit := reader.next():
                parts = list(reader.parts(commit))
                smaller(self)
                found = list(parts_backwards(reader, commit))
                self.assertEqual(without_tables(found), without_tables(parts)[::-1])


def without_tables(parts: list[Part]) -> list[Part]:
    return [it for it in parts if not isinstance(it, TableLine)]


class Printed(FeedCase):
    def printed(self) -> list[bytes]:
        with closing(Reader(str(self.path), 0)) as reader:
            form, lines = Bulk(Chosen(())), list[bytes]()
            with logged():
                while commit := reader.next():
                    lines += form.print(reader, commit)
        return lines

    def test_documents(self) -> None:
        """What a long commit leaves is the same, in the same order."""
        lines = [insert(str(it % 300), "é" * (it % 50)) for it in range(1000)]
        lines += [delete(str(it), "a") for it in range(0, 300, 7)]
        lines += [insert(str(it), "a", of=OTHER) for it in range(300)]
        moved = [update([str(it), "a"], [str(it + 1000), "b"], of=OTHER) for it in range(50)]
        bag = table(3, "bag", letter="f")
        self.feed.commit(0x100, [*lines, *moved, insert("1", "x", of=bag)])
        expected = self.printed()
        smaller(self)
        self.assertEqual(self.printed(), expected)
        self.assertEqual(json.loads(expected[0])["index"]["version"], 0x100)

    def test_a_truncation(self) -> None:
        lines = [insert(str(it), "a", of=of) for it in range(500) for of in (STOCK, OTHER)]
        self.feed.commit(0x100, [*lines, truncate(), insert("1", "b")])

        def left() -> list[bytes]:
            with closing(Reader(str(self.path), 0)) as reader:
                commit = reader.next()
                assert commit
                return list(Bulk(Chosen(()), 0x100).print(reader, commit))

        expected = left()
        smaller(self)
        self.assertEqual((left(), len(expected)), (expected, 1002))


class Memory(FeedCase):
    """How much is kept of a commit, whatever it has."""

    BOUND = 1 << 20

    def setUp(self) -> None:
        super().setUp()
        smaller(self, 1 << 17, 1 << 16)
        patched = mock.patch.object(applier, "ROOM", 1 << 17)
        patched.start()
        self.addCleanup(patched.stop)
        lines = list(self.lines())
        self.feed.commit(0x100, lines[:1])
        self.feed.commit(0x200, lines[1:])
        self.assertGreater(self.feed.size, 5 * self.BOUND)

    @staticmethod
    def lines() -> Iterator[Line]:
        """Rows that come together are large, as those of one table may be."""
        for it in range(3000):
            yield insert(str(it), "x" * 100)
        for it in range(3000, 3300):
            yield insert(str(it), "x" * 20000)

    def check(self, work: Callable[[], object], bound: int = BOUND) -> None:
        tracemalloc.start()
        try:
            work()
            most = tracemalloc.get_traced_memory()[1]
        finally:
            tracemalloc.stop()
        self.assertLess(most, bound)

    def print(self, form: Lines | ByName | Bulk) -> None:
        with closing(Reader(str(self.path), 0)) as reader:
            while commit := reader.next():
                for _ in form.print(reader, commit):
                    pass

    def test_of_what_is_read(self) -> None:
        def work() -> None:
            found = list(pgsub_feed.read(self.path, 0))
            kinds = {type(it) for commit in found for it in commit.changes}
            self.assertEqual((kinds, len(found[1].changes)), ({Insert}, 3299))

        self.check(work)

    def test_of_what_is_printed(self) -> None:
        forms: list[Lines | ByName | Bulk] = [Lines(), ByName(Chosen(())), Bulk(Chosen(()))]
        for form in forms:
            with self.subTest(form=form):
                self.check(lambda: self.print(form))

    def test_of_what_is_read_backwards(self) -> None:
        def work() -> None:
            with closing(Reader(str(self.path), 0x100)) as reader:
                commit = reader.next()
                assert commit
                count = sum(isinstance(it, Change) for it in parts_backwards(reader, commit))
                self.assertEqual(count, 3299)

        self.check(work)

    def test_of_tables(self) -> None:
        """There and back."""
        into = str(self.folder / "rows.db")

        def work(at: int | None) -> None:
            options = Options(feed=str(self.path), into=into, once=True, at=at)
            with logged():
                self.assertEqual(tables_module.run(options, never), 0)

        for at, rows in ((None, 3300), (0x100, 1)):
            self.check(lambda: work(at), 2 * self.BOUND)
            with closing(sqlite3.connect(into)) as db:
                self.assertEqual(db.execute("SELECT count(*) FROM stock").fetchone(), (rows,))
