"""The first rows of a feed: as files beside its segments, and as its readers have them."""

from __future__ import annotations

import contextlib
import dataclasses
import io
import itertools
import json
import os
import random
import resource
import signal
import sqlite3
import stat
import subprocess
import sys
import time
import zlib
from collections.abc import Callable
from pathlib import Path
from types import SimpleNamespace
from typing import Any
from unittest import mock

from feed_text import About, Definition

import pgsub_feed
from pgsub_connect.commands.tables import Options as TablesOptions, run as run_tables
from pgsub_connect.follow.first_rows import BaseRows
from pgsub_connect.follow.retention import Limits, feed_bytes, remove_feed, retire
from pgsub_connect.store import base_files
from pgsub_connect.store.base_files import BaseFile as Written, written
from pgsub_connect.store.row_frames import DONE, BaseWanted
from pgsub_feed import Commit, Damaged, Insert, Truncate, Unfit
from pgsub_feed.errors import FileError, Stopped
from pgsub_feed.interruption import never
from pgsub_feed.reader.base import BaseFiles, has_base, remove_base
from pgsub_feed.reader.folder import Noted
from pgsub_feed.reader.following import Reading
from pgsub_feed.reader.whole import Whole
from pgsub_feed.sinks.first_rows import base_of
from pgsub_feed.tables.file import Rows

from .bases import Cell, make_base
from .feeds import STOCK, FeedCase, insert, table, truncate, update
from .test_consumer import CONNECT, EXAMPLE, OTHER, random_lines
from .test_copying import POINT, STOCK as COPIED
from .test_first_rows import EMPTY, KINDS, NOTHING, Case, frames
from .vectors import logged

P = 0x100
NONE = table(3, "none")


class BaseCase(FeedCase):
    """A feed with first rows."""

    base = P

    def make(self, rows: int = 5, **more: Any) -> None:
        found: list[tuple[Definition, tuple[Cell, ...]]]
        found = [(STOCK, (str(it), f"a{it}")) for it in range(rows)]
        found += [(OTHER, (str(it), None)) for it in range(rows)]
        make_base(self.path, P, [STOCK, OTHER, NONE], found, **more)

    def files(self) -> list[Path]:
        return sorted((self.path / "base").iterdir())

    def read(self, after: int | None = 0, **more: Any) -> list[Commit]:
        return list(pgsub_feed.read(self.path, after, **more))

    def rows(self, after: int | None = 0, **more: Any) -> dict[str, list[dict[str, Any]]]:
        """What somebody has who does what all commits say."""
        found: dict[str, list[dict[str, Any]]] = {}
        for commit in self.read(after, **more):
            for it in commit.changes:
                if isinstance(it, Truncate):
                    found[it.table.name] = []
                if isinstance(it, Insert):
                    found[it.table.name].append(dict(it.after))
        return found


class Reads(BaseCase):
    def test_they_come_first(self) -> None:
        self.make()
        self.feed.commit(0x200, [insert("9", "x")])
        for after in (0, None):
            found = self.read(after)
            self.assertEqual([it.is_base for it in found], [True, True, True, False])
            self.assertEqual([it.lsn for it in found], [0, 0, P, 0x200])
            self.assertEqual(
                [it.tables[0].name for it in found], ["stock", "other", "none", "stock"]
            )
        self.assertEqual([it.lsn for it in self.read(P)], [0x200])
        rows = self.rows()
        self.assertEqual(len(rows["stock"]), 6)
        self.assertEqual(rows["other"][1], {"id": "1", "name": None})
        self.assertEqual(rows["none"], [])

    def test_each_table_is_truncated_before_its_first_rows(self) -> None:
        self.make(room=10)
        seen = set[int]()
        for commit in self.read():
            for it in commit.changes:
                self.assertEqual(isinstance(it, Truncate), it.table.oid not in seen)
                seen.add(it.table.oid)

    def test_several_files(self) -> None:
        self.make(1000, room=500, least=5000)
        self.assertGreater(len(self.files()), 5)
        heads = [json.loads(it.read_bytes()[:1024]) for it in self.files()]
        self.assertEqual([it["number"] for it in heads], [*range(1, len(heads) + 1)])
        self.assertEqual([it["last"] for it in heads], [False] * (len(heads) - 1) + [True])
        self.assertEqual(sum(it["rows"] for it in heads), 2000)
        for head, file in zip(heads, self.files(), strict=True):
            text = file.read_bytes()[1024:]
            self.assertEqual((head["bytes"], head["crc"]), (len(text), zlib.crc32(text)))
        rows = self.rows()
        expected = [{"id": str(it), "name": f"a{it}"} for it in range(1000)]
        self.assertEqual(rows["stock"], expected)
        self.assertEqual(len(rows["other"]), 1000)

    def test_by_spans(self) -> None:
        """(As sinks read them, one table after the other.)"""
        self.make(300, room=500, least=5000)
        files = BaseFiles(str(self.path))
        found: dict[int, list[Any]] = {}
        spans = files.spans(never)
        for relation, span in spans:
            found.setdefault(relation.oid, []).extend(files.rows(relation, span))
        self.assertEqual(found[STOCK.oid], [[str(it), f"a{it}"] for it in range(300)])
        self.assertEqual((len(found[OTHER.oid]), found[NONE.oid]), (300, []))
        # (of many spans, since all of them are kept)
        self.assertEqual(len({id(relation) for relation, _ in spans}), 3)
        self.assertGreater(len(spans), 10)

    def test_values(self) -> None:
        row = ('"\\\n\t\x7fä€\U0001f600', b"\0\xff")
        make_base(self.path, P, [STOCK], [(STOCK, row), (STOCK, (None, ""))])
        (found,) = self.read()
        inserts = [it for it in found.changes if isinstance(it, Insert)]
        self.assertEqual([tuple(it.after.cells) for it in inserts], [row, (None, "")])

    def test_chosen_tables(self) -> None:
        self.make()
        self.assertEqual([*self.rows(tables=["sales.other"])], ["other"])

    def test_no_rows_at_all(self) -> None:
        make_base(self.path, P, [], [])
        self.feed.commit(0x200, [insert("9", "x")])
        self.assertEqual([it.lsn for it in self.read()], [0x200])

    def test_a_feed_without_them(self) -> None:
        self.feed.commit(0x200, [insert("9", "x")])
        with self.assertRaisesRegex(Unfit, "begins at 0/100"):
            self.read(0)
        self.assertEqual([it.lsn for it in self.read(None)], [0x200])

    def test_a_feed_that_doesnt_go_on_from_them(self) -> None:
        self.make()
        for end in (0x200, 0x300):
            self.feed.commit(end, [insert(str(end), "x")])
            self.feed.end()
        os.unlink(self.path / f"{P:016X}")
        with self.assertRaisesRegex(Unfit, "begins at 0/200"):
            self.read(0)
        self.assertEqual([it.lsn for it in self.read(None)], [0x300])

    def test_a_reader_that_waits_for_the_first_segment(self) -> None:
        text = self.feed.path.read_bytes()
        self.feed.path.unlink()
        asked = list[int]()

        def check() -> None:
            asked.append(1)
            if len(asked) == 3:
                self.make()
                self.feed.path.write_bytes(text)

        found = next(pgsub_feed.read(self.path, 0, follow=True, check=check))
        self.assertTrue(found.is_base)

    def test_a_first_segment_that_has_no_name_yet(self) -> None:
        """What the rows are of isn't known then."""
        self.make()
        new = self.path / "segment.new"
        self.feed.path.rename(new)
        with contextlib.closing(Whole(str(self.path), 0)) as reader:
            self.assertIsNone(reader.next())
            new.rename(self.feed.path)
            commit = reader.next()
            self.assertEqual(commit and commit.base, 0)
            self.assertEqual(reader.head and reader.head.slot, "pgsub")

    def test_a_reader_with_a_name_has_nothing_until_all_are_there(self) -> None:
        self.make()
        found = pgsub_feed.read(self.path, 0, reader="mine")
        path, noted = self.path / "readers/mine", []
        for _ in found:
            noted.append(path.read_text().strip())
        self.assertEqual((set(noted), path.read_text().strip()), ({"0/0"}, "0/100"))


class Spoiled(BaseCase):
    """What isn't as it was written."""

    def spoil(self, number: int, old: bytes, new: bytes) -> None:
        path = self.files()[number]
        text = path.read_bytes()
        self.assertIn(old, text)
        # (a head that gets longer has one blank less)
        text = text.replace(old, new, 1)
        path.write_bytes(text.replace(b"} ", b"}", len(new) - len(old)))

    def test_faults(self) -> None:
        for number, old, new, told in (
            (0, b"a3", b"a4", "reading 6 Counts: .* bytes of checksum"),
            (1, b'"base":2', b'"base":1', "reading 1 NotAFeed"),
            (1, b'"number":2', b'"number":3', "reading 2 OtherFeed: the file has number 3"),
            (1, b'"database":"shop"', b'"database":"shoq"', "reading 2 OtherFeed: .* and before"),
            (1, b'"lsn":"0/100"', b'"lsn":"0/101"', "reading 2 OtherFeed: .* at 0/101, and before"),
            (0, b'"rows":', b'"rows":1', "reading 6 Counts: the file has"),
        ):
            self.make(100, room=500, least=1000)
            with self.subTest(told):
                self.spoil(number, old, new)
                with self.assertRaisesRegex(Damaged, told):
                    self.read()

    def test_lines(self) -> None:
        for text, told in (
            (b'["1","a"]\n', "no line of first rows"),
            (b"x\n", "no lines of first rows"),
            (b'{"op":"table"}\n', "no line of first rows"),
            (b"5\n", "no line of first rows"),
        ):
            self.put(text)
            with self.subTest(text), self.assertRaisesRegex(Damaged, "reading 5 Line: .*" + told):
                self.read()
        self.make()
        definition = self.files()[0].read_bytes()[1024:].split(b"\n")[0]
        for text, told in (
            (definition + b'\n["1"]\n', "a row of 1 cells, where there are 2 columns"),
            (definition + b'\n["1",5]\n', "no line of first rows"),
            (definition + b'\n["1",{"unchanged":true}]\n', "no line of first rows"),
        ):
            self.put(text)
            with self.subTest(text), self.assertRaisesRegex(Damaged, told):
                self.read()

    def put(self, text: bytes) -> None:
        """A file with just these lines."""
        make_base(self.path, P, [], [])
        wanted = BaseWanted(str(self.path), "", 0o600, P, "7", "shop", "pgsub")
        self.files()[0].unlink()
        file = Written(str(self.path / "base"), 1, wanted)
        file.put(text, 1)
        file.finish(True)

    def test_files_that_are_gone_meanwhile(self) -> None:
        self.make(100, room=500, least=1000)
        found = pgsub_feed.read(self.path, 0)
        next(found)
        self.files()[-1].unlink()
        with self.assertRaisesRegex(Unfit, "the feed's first rows were removed"):
            list(found)

    def test_files_that_are_gone_where_it_follows(self) -> None:
        """No row comes twice, and no commit as if the rows before it were all."""
        self.make(100, room=500, least=1000)
        self.feed.commit(0x200, [insert("9", "x")])
        for after, gone in ((0, 1), (None, 1), (None, 2)):
            self.make(100, room=500, least=1000)
            found, commits = pgsub_feed.read(self.path, after, follow=True), list[Commit]()
            commits.append(next(found))
            for it in self.files()[-1:] if gone == 1 else self.files():
                it.unlink()
            if gone == 2:
                (self.path / "base").rmdir()
            with self.subTest(after=after, gone=gone):
                with self.assertRaisesRegex(Unfit, "the feed's first rows were removed"):
                    commits += itertools.islice(found, 1000)
                rows = [it for commit in commits for it in commit.changes if isinstance(it, Insert)]
                ids = [(it.table.name, it.after["id"]) for it in rows]
                self.assertEqual(len(ids), len({*ids}))

    def test_rows_of_another_feed(self) -> None:
        self.make(named=("8", "shop", "pgsub"))
        self.feed.commit(0x200, [insert("9", "x")])
        with self.assertRaisesRegex(Damaged, "reading 2 OtherFeed"):
            self.read()


class Retained(BaseCase):
    def setUp(self) -> None:
        super().setUp()
        self.make()
        for end in (0x200, 0x300, 0x400):
            self.feed.commit(end, [insert(str(end), "x")])
            self.feed.end()

    def note(self, **lsns: int) -> None:
        for name, lsn in lsns.items():
            Noted(str(self.path), name, None, 0o600).note(lsn, is_last=True)

    def test_they_go_with_the_first_segment(self) -> None:
        self.note(one=0x1FF)
        retired = retire(str(self.path), Limits(), 0x400, 0.0)
        self.assertEqual((retired.base, has_base(str(self.path))), (False, True))
        self.note(one=0x200)
        retired = retire(str(self.path), Limits(), 0x400, 0.0)
        self.assertEqual((retired.segments, retired.base, retired.readers), (1, True, set()))
        self.assertFalse(has_base(str(self.path)))

    def test_who_has_none_of_them_keeps_them(self) -> None:
        self.note(one=0x400, two=0)
        self.assertFalse(retire(str(self.path), Limits(), 0x400, 0.0).base)

    def test_they_go_first_where_the_feed_is_too_large(self) -> None:
        self.note(one=0x400, two=0)
        most = feed_bytes(str(self.path)) - 1
        retired = retire(str(self.path), Limits(most), 0x400, 0.0)
        self.assertEqual((retired.segments, retired.base, retired.readers), (0, True, {"two"}))

    def test_a_kill_while_they_are_removed(self) -> None:
        """Nobody takes what is left for first rows, and it goes later."""
        self.make(100, room=500, least=1000)

        def killed(folder: str) -> None:
            if os.path.isdir(folder):
                os.unlink(os.path.join(folder, "00000002"))
                raise KeyboardInterrupt

        with mock.patch("shutil.rmtree", killed), self.assertRaises(KeyboardInterrupt):
            retire(str(self.path), Limits(1), 0x400, 0.0)
        self.assertFalse(has_base(str(self.path)))
        self.assertEqual([it.is_base for it in self.read(None)], [False] * 3)
        retire(str(self.path), Limits(), 0x400, 0.0)
        self.assertEqual([it.name for it in self.path.iterdir() if "base" in it.name], [])

    def test_a_feed_that_is_removed(self) -> None:
        (self.path / "base.new").mkdir()
        remove_feed(str(self.path))
        self.assertFalse(self.path.exists())


class Tables(BaseCase):
    """A file of tables that begins with them."""

    def follow(self, **more: Any) -> None:
        options = TablesOptions(feed=str(self.path), into=str(self.into), once=True, **more)
        self.assertEqual(run_tables(options, never), 0)

    def setUp(self) -> None:
        super().setUp()
        self.into = self.folder / "rows.db"

    def kept(self, name: str) -> list[Any]:
        with contextlib.closing(sqlite3.connect(self.into)) as db:
            return db.execute(f'SELECT * FROM "{name}" ORDER BY 1').fetchall()

    def test_rows(self) -> None:
        self.make(room=10)
        self.feed.commit(0x200, [update(["1", "a1"], ["1", "b"]), insert("9", "x")])
        self.follow(digests=True)
        rows = [(0, "a0"), (1, "b"), (2, "a2"), (3, "a3"), (4, "a4"), (9, "x")]
        self.assertEqual(self.kept("stock"), rows)
        self.assertEqual(self.kept("sales.other"), [(it, None) for it in range(5)])
        self.assertEqual(self.kept("none"), [])

    def test_how_far_it_is(self) -> None:
        self.make(100, room=10, least=10)
        with logged() as lines, mock.patch("pgsub_feed.log.WRITTEN", -1.0):
            self.follow()
        told = [it for it in lines if "making the tables: " in it]
        self.assertGreater(len(told), 3)
        self.assertRegex(told[-1], r"making the tables: 200 of 200 rows, \d+ a second")

    def test_chosen_tables(self) -> None:
        self.make()
        self.follow(table=["stock"])
        self.assertEqual(len(self.kept("stock")), 5)
        with self.assertRaises(sqlite3.OperationalError):
            self.kept("sales.other")

    def test_a_table_without_a_key_that_is_added(self) -> None:
        """(Its rows came later than the others, as it was locked or truncated meanwhile.)"""
        bag = table(4, "bag", letter="f")
        make_base(self.path, P, [STOCK, bag], [(STOCK, ("1", "a"))])
        rows = [insert(str(it % 7), "x", of=bag) for it in range(3000)]
        self.feed.commit(0x200, rows, About(0x1FF, 2, 0))
        self.feed.confirm(0x200)
        self.follow(digests=True)
        self.assertEqual(self.kept("bag"), sorted((it % 7, "x") for it in range(3000)))

    def back(self, at: int, **more: Any) -> list[Any]:
        """The rows as of an LSN of a file that is at the last one."""
        self.follow(at=at, **more)
        return self.kept("stock")

    def truncated(self) -> None:
        self.make(3)
        self.feed.commit(0x200, [insert("9", "x")])
        self.feed.commit(0x300, [truncate(), insert("7", "y")])
        self.feed.commit(0x400, [insert("8", "z")])
        self.follow(digests=True)

    def test_back_over_a_truncate(self) -> None:
        """The file is made anew then, with what it had."""
        self.truncated()
        rows = [(0, "a0"), (1, "a1"), (2, "a2")]
        self.assertEqual(self.back(0x300), [(7, "y")])
        self.assertEqual(self.back(0x200), [*rows, (9, "x")])
        self.assertEqual(len(self.kept("pgsub_digests")), 3)
        self.assertEqual(self.back(P), rows)
        self.assertEqual(sorted(it.name for it in self.folder.iterdir()), ["copy.feed", "rows.db"])
        self.follow()
        self.assertEqual(self.kept("stock"), [(7, "y"), (8, "z")])

    def test_back_over_a_truncate_from_a_base(self) -> None:
        self.truncated()
        other = str(self.folder / "other.db")
        options = TablesOptions(feed=str(self.path), into=other, once=True, at=0x200)
        self.assertEqual(run_tables(options, never), 0)
        remove_base(str(self.path))
        with self.assertRaisesRegex(Unfit, "Go forward to there"):
            self.back(0x200)
        with self.assertRaisesRegex(Unfit, "Go forward to there"):
            self.back(P, base=other)
        self.assertEqual(self.kept("stock"), [(7, "y"), (8, "z")])
        self.assertEqual(len(self.back(0x200, base=other)), 4)

    def fill_disk(self, times: int) -> None:
        """No file grows any more once a file of tables was closed so many times."""
        close, limits = Rows.close, resource.getrlimit(resource.RLIMIT_FSIZE)
        self.addCleanup(resource.setrlimit, resource.RLIMIT_FSIZE, limits)
        left = itertools.count(1 - times)

        def closed(rows: Rows, is_orderly: bool) -> None:
            if next(left) >= 0:
                size = os.path.getsize(rows.path)
                resource.setrlimit(resource.RLIMIT_FSIZE, (size, limits[1]))
            close(rows, is_orderly)

        patched = mock.patch.object(Rows, "close", closed)
        patched.start()
        self.addCleanup(patched.stop)

    def test_a_disk_that_is_full_at_the_end_leaves_nothing(self) -> None:
        self.make(5000)
        self.fill_disk(1)
        with self.assertRaisesRegex(FileError, "disk I/O error"):
            self.follow()
        self.assertEqual([it.name for it in self.folder.iterdir()], ["copy.feed"])

    def test_a_disk_that_is_full_once_a_file_is_made_anew(self) -> None:
        """The one that was there stays."""
        self.truncated()
        self.feed.commit(0x500, [insert(str(it), "x" * 99) for it in range(10, 3000)])
        self.follow()
        self.feed.commit(0x600, [truncate()])
        self.follow()
        self.fill_disk(3)
        with self.assertRaisesRegex(FileError, "disk I/O error"):
            self.follow(at=0x500)
        self.assertEqual(self.kept("stock"), [])
        self.assertEqual(sorted(it.name for it in self.folder.iterdir()), ["copy.feed", "rows.db"])

    def test_rows_that_cant_be_read_leave_nothing(self) -> None:
        self.make()
        path = self.files()[0]
        path.write_bytes(path.read_bytes()[:-1])
        with self.assertRaises(Damaged):
            self.follow()
        self.assertEqual([it.name for it in self.folder.iterdir()], ["copy.feed"])


class Sinks(BaseCase):
    """What a sink begins with that is given nothing else."""

    def base_of(self, *tables: str) -> tuple[int, dict[str, list[Any]]]:
        reading = Reading(str(self.path), tables, follows=False)
        with base_of(reading, never) as found:
            return found.lsn, {it.name: list(found.rows(it)) for it in found.tables()}

    def test_rows(self) -> None:
        self.make(100, room=100, least=1000)
        stock = [[str(it), f"a{it}"] for it in range(100)]
        other = [[str(it), None] for it in range(100)]
        self.assertEqual(self.base_of(), (P, {"stock": stock, "other": other, "none": []}))
        self.assertEqual(self.base_of("stock"), (P, {"stock": stock}))

    def test_how_far_it_is(self) -> None:
        self.make(1500)
        with logged() as lines, mock.patch("pgsub_feed.log.WRITTEN", -1.0):
            self.base_of("stock")
        self.assertEqual(len(lines), 2)
        self.assertRegex(lines[-1], r"writing public.stock \(1\): 1000 rows, \d+ a second")

    def test_none(self) -> None:
        with self.assertRaisesRegex(Unfit, "there may be rows from before"):
            self.base_of()

    def test_the_end_is_heard_while_they_are_looked_at(self) -> None:
        self.make(100, room=100, least=1000)
        check = mock.Mock(side_effect=[None, None, Stopped])
        with self.assertRaises(Stopped):
            with base_of(Reading(str(self.path), (), follows=False), check):
                self.fail()


class Process(Case):
    """The process that writes them while rows are copied."""

    def setUp(self) -> None:
        super().setUp()
        os.mkdir(self.feed)
        self.wanted = BaseWanted(self.feed, self.store, 0o640, POINT, "7", "shop", "pgsub")

    def write(self, source: bytes) -> int:
        return written(self.wanted, io.BytesIO(source), never)

    def there(self) -> list[str]:
        return os.listdir(self.feed)

    def found(self) -> dict[int, list[Any]]:
        rows: dict[int, list[Any]] = {}
        for it in BaseFiles(self.feed).sections():
            rows.setdefault(it.relation.oid, []).extend(it.rows)
        return rows

    def test_rows(self) -> None:
        kinds = "\\tü\\\\\t\\\\x00ff\tNaN\t2026-01-02\n".encode()
        sent = frames(COPIED, b"1\t5\n", b"2\t\\N\n") + frames(KINDS, kinds)
        sent += frames(NOTHING, b"\n", b"\n") + frames(COPIED, b"-3\t0\n")
        self.assertEqual(self.write(sent + DONE), 0)
        expected: dict[int, list[Any]] = {
            COPIED.oid: [["1", "5"], ["2", None], ["-3", "0"]],
            KINDS.oid: [["\tü\\", "\\x00ff", "NaN", "2026-01-02"]],
            NOTHING.oid: [[], []],
            EMPTY.oid: [],
        }
        self.assertEqual(self.found(), expected)
        folder = os.path.join(self.feed, "base")
        self.assertEqual(stat.S_IMODE(os.stat(folder).st_mode), 0o750)
        self.assertEqual(stat.S_IMODE(os.stat(folder + "/00000001").st_mode), 0o640)

    def test_cut(self) -> None:
        """Wherever the rows end before all have come, nothing is left."""
        sent = frames(COPIED, b"1\t5\n", b"2\t\\N\n") + DONE
        for at in range(len(sent)):
            self.assertEqual((self.write(sent[:at]), self.there()), (7, []))

    def test_faults(self) -> None:
        """They are told, and leave nothing."""
        alien = dataclasses.replace(COPIED, oid=1)
        for sent, text in (
            (frames(COPIED, b"1\t\xff\n"), "invalid start byte"),
            (frames(alien, b"1\t5\n"), "a row isn't one of its table"),
        ):
            with self.subTest(text):
                self.assertEqual((self.write(sent + DONE), self.there()), (7, []))
                self.assertRegex(self.said[-1], f"^warning: {self.feed} gets no .*{text}")
        os.rmdir(self.feed)
        self.assertEqual(self.write(DONE), 7)


class Beside(Case):
    """What starts that process, and feeds it."""

    def setUp(self) -> None:
        super().setUp()
        os.mkdir(self.feed)
        lock = os.open(self.store + ".lock", os.O_RDWR | os.O_CREAT)
        self.addCleanup(os.close, lock)
        known = SimpleNamespace(system="7", database="shop", slot="pgsub")
        checkpoint: Any = SimpleNamespace(file=lock, known=known)
        self.it = BaseRows(self.feed, self.store, 0o600, checkpoint)
        self.addCleanup(self.it.abandon)

    def begin(self) -> None:
        self.it.begin(POINT)
        self.it.take(COPIED, [b"1\t5\n"])

    def test_to_the_end(self) -> None:
        self.begin()
        self.it.end()
        self.it.wait()
        files = BaseFiles(self.feed)
        self.assertEqual([len(it.rows) for it in files.sections()][:1], [1])
        self.assertEqual(
            (files.lsn, files.source.text()), (POINT, "slot pgsub of database shop, system 7")
        )
        self.it.abandon()
        self.assertEqual(os.listdir(self.feed), ["base"])

    def test_killed(self) -> None:
        self.begin()
        assert self.it.child
        until = time.monotonic() + 60
        while not os.listdir(self.feed) and time.monotonic() < until:
            time.sleep(0.01)
        self.assertEqual(os.listdir(self.feed), ["base.new"])
        self.it.child.kill()
        self.it.child.wait()
        self.it.end()
        self.it.complete(False, never)
        self.assertIn(f"warning: {self.feed} has no first rows", self.said[-1])
        self.assertEqual(os.listdir(self.feed), [])

    def test_what_a_killed_connector_has_left(self) -> None:
        os.mkdir(self.feed + "/base.new")
        self.it.wait()
        self.assertEqual(os.listdir(self.feed), [])


# Runs an example that has all first rows once this file is there: whoever is to kill it in the midst
# of them may be late.
HELD = """
import os, pickle, runpy, sys, time
from pgsub_feed import files
write, path, may = files.replace_file, *sys.argv[1:3]
def replace_file(name, content, *more):
    while name == sys.argv[-1] and pickle.loads(content)[0] and not os.path.exists(may):
        time.sleep(0.01)
    return write(name, content, *more)
files.replace_file = replace_file
sys.argv[:] = [path, *sys.argv[3:]]
runpy.run_path(path, run_name="__main__")
"""


class Killed(BaseCase):
    """The example of the documents, killed again and again, from the first rows on."""

    most = 8000

    def start(self) -> subprocess.Popen[bytes]:
        words = [sys.executable, "-c", HELD, str(EXAMPLE), str(self.folder / "may")]
        words += [str(self.path), str(self.folder / "dict")]
        return subprocess.Popen(words, env={**os.environ, "PYTHONPATH": str(CONNECT)})

    def version(self) -> int:
        path = self.folder / "dict"
        return path.stat().st_mtime_ns if path.exists() else 0

    def wait_for(
        self, is_enough: Callable[[int, int], bool], child: subprocess.Popen[bytes]
    ) -> None:
        """Waits for an LSN and a number of rows that are kept."""
        until = time.monotonic() + 120
        while time.monotonic() < until:
            at, found = self.kept_dict()
            if is_enough(at, len(found)):
                return
            self.assertIsNone(child.poll())
            time.sleep(0.01)
        self.fail("it takes too long")

    def test_killed_at_random(self) -> None:
        rng, wanted = random.Random(11), 3000
        rows = {it.oid: {str(key): "x" for key in range(wanted)} for it in (STOCK, OTHER)}
        held = ((it, pair) for it in (STOCK, OTHER) for pair in list(rows[it.oid].items()))
        make_base(self.path, P, [STOCK, OTHER], held, room=1000, least=10000)
        child = self.start()
        # (three times in the midst of the first rows)
        for _ in range(3):
            before = self.version()
            self.wait_for(lambda at, some: not at and some > 0 and self.version() != before, child)
            child.kill()
            self.assertEqual(child.wait(), -signal.SIGKILL)
            self.assertEqual(self.kept_dict()[0], 0)
            child = self.start()
        (self.folder / "may").touch()
        for number in range(2, 102):
            self.feed.commit(number << 8, list(random_lines(rng, rows)))
            if number % 10 == 0:
                time.sleep(rng.random())
                child.kill()
                child.wait()
                child = self.start()
        try:
            self.wait_for(lambda at, _: at >= self.feed.at, child)
        finally:
            child.kill()
            child.wait()
        expected = {
            (oid, (key,)): {"id": key, "name": value}
            for oid, some in rows.items()
            for key, value in some.items()
        }
        self.assertEqual(self.kept_dict(), (self.feed.at, expected))
