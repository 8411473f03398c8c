"""A reader of a feed: what it takes, what it waits for, what it says of damaged lines, and how it
goes on where bytes were cut."""

from __future__ import annotations

import contextlib
import os
import re
from pathlib import Path
from unittest import mock

from feed_text import (
    COMMIT_SIZE,
    SEGMENT_SIZE,
    UNSENT,
    About,
    Column,
    Line,
    closing_line,
    segment_head,
    summed,
)
from hypothesis import given, settings, strategies as st

from pgsub_feed.errors import Damaged, FileError, Unfit
from pgsub_feed.interruption import never
from pgsub_feed.reader import commits
from pgsub_feed.reader.commits import Change, Message, Missed, Part, TableLine
from pgsub_feed.reader.folder import read_confirmed, segments
from pgsub_feed.reader.lines import oid, parsed
from pgsub_feed.reader.polling import Poll
from pgsub_feed.reader.segments import Reader

from .drawn import ANY
from .feeds import ID, NAME, STOCK, FeedCase, delete, insert, table, truncate, update


class Case(FeedCase):
    def reader(self, at: int | None = 0) -> Reader:
        reader = Reader(str(self.path), at)
        self.addCleanup(reader.close)
        return reader

    def ends(self, at: int | None = 0) -> list[int]:
        return [it.end for it in Poll(self.reader(at), False, never).commits()]

    def parts(self) -> list[Part]:
        reader = self.reader()
        return [
            part for commit in Poll(reader, False, never).commits() for part in reader.parts(commit)
        ]

    def file(self, at: int = 0) -> Path:
        return self.path / dict(segments(str(self.path)))[at]


class Lines(Case):
    def test_each(self) -> None:
        sent = Line(STOCK, "x", ["1", None], ["1", UNSENT], "K")
        self.feed.commit(
            0x100,
            [
                insert("1", 'é\n\x1f\x7f"\\𝄞'),
                update(["1", None], ["1", b"\0\xff"]),
                delete("1", ""),
                truncate(),
                sent,
            ],
            About(0xF0, 700, -946684800000001),
        )
        reader = self.reader()
        commit = reader.next()
        assert commit
        self.assertEqual((commit.end, commit.prev, commit.changes), (0x100, 0, 5))
        self.assertEqual((commit.lsn, commit.xid, commit.ts_us), (0xF0, 700, -1))
        described, *changes, missed = reader.parts(commit)
        assert isinstance(described, TableLine)
        relation = described.relation
        self.assertEqual(
            (relation.oid, relation.namespace, relation.name, relation.shape.identity),
            (1, "public", "stock", "d"),
        )
        self.assertEqual(
            [(it.name, it.type_oid, it.modifier, it.key) for it in relation.shape.columns],
            [("id", 23, -1, True), ("name", 25, -1, False)],
        )
        self.assertEqual(
            [it[0:1] + it[2:] for it in changes if isinstance(it, Change)],
            [
                ("c", 0, None, ["1", 'é\n\x1f\x7f"\\𝄞']),
                ("u", 1, ["1", None], ["1", b"\0\xff"]),
                ("d", 2, ["1", ""], None),
                ("t", 3, None, None),
            ],
        )
        self.assertEqual(missed, Missed(relation, 4, "u", "K", ["1", None], ["1", commits.UNSENT]))

    def test_of_a_commit_without_any(self) -> None:
        self.feed.commit(0x100)
        self.assertEqual(self.parts(), [])
        self.assertEqual(self.ends(), [0x100])

    def test_definitions(self) -> None:
        keyless, wider = table(letter="f"), table(columns=(ID, NAME, Column("more", 16)))
        self.feed.commit(
            0x100,
            [
                insert("1", "a"),
                insert("1", "b", of=keyless),
                insert("2", "c", None, of=wider),
                delete("1", "a"),
            ],
        )
        self.feed.commit(0x200, [insert("3", "a")])
        found = [it.relation for it in self.parts() if isinstance(it, TableLine)]
        self.assertEqual([len(it.shape.columns) for it in found], [2, 2, 3, 2, 2])
        self.assertEqual(
            [[column.key for column in it.shape.columns] for it in found[:2]],
            [[True, False], [False, False]],
        )
        self.assertIs(found[0], found[-1])

    def test_long_ones(self) -> None:
        rows = [["1", "x" * length] for length in (1 << 20, 3 << 20, (1 << 20) - 60, 1)]
        self.feed.commit(0x100, [insert(*it) for it in rows])
        self.assertEqual([it.after for it in self.parts() if isinstance(it, Change)], rows)


class Taking(Case):
    def test_what_is_above_the_lsn(self) -> None:
        for end in (0x100, 0x200, 0x300):
            self.feed.commit(end, [insert(str(end), "a")])
        for at, ends in (
            (0, [0x100, 0x200, 0x300]),
            (0x100, [0x200, 0x300]),
            (0x300, []),
            (0x400, []),
            (None, [0x100, 0x200, 0x300]),
        ):
            self.assertEqual(self.ends(at), ends)

    def test_an_lsn_that_no_commit_ends_at(self) -> None:
        self.feed.commit(0x100)
        self.feed.commit(0x200)
        for at in (0x50, 0x150):
            with self.assertRaisesRegex(Unfit, "no commit ends at"):
                self.ends(at)

    def test_a_commit_that_another_server_has_not(self) -> None:
        """Whoever has read it finds out by the first commit above it, whatever was read before."""
        self.feed.commit(0x100)
        before = self.file().read_bytes()
        self.feed.commit(0x200)
        reader = self.reader()
        self.assertEqual([reader.next() is not None for _ in range(3)], [True, True, False])
        self.file().write_bytes(before)
        self.assertIsNone(reader.next())
        self.feed.at = 0x100
        self.feed.commit(0x180, [insert("1", "of another")])
        self.assertIsNone(reader.next())
        self.feed.commit(0x280)
        with self.assertRaisesRegex(Unfit, "no commit ends at 0/200"):
            reader.next()

    def test_each_prefix_of_a_feed(self) -> None:
        """Bytes that aren't all there are waited for, wherever they end. A segment has its head
        before it has its name."""
        self.feed.commit(0x100, [insert("1", "a")])
        self.feed.end()
        self.feed.commit(0x200, [insert("2", "b"), truncate()])
        texts = [(it.name, it.read_bytes()) for it in sorted(self.path.iterdir())]
        for path in self.path.iterdir():
            path.unlink()
        reader, got, total = self.reader(), list[int](), 0
        self.assertIsNone(reader.next())
        for name, text in texts:
            new = self.path / "segment.new"
            for at in range(0, SEGMENT_SIZE, 512):
                new.write_bytes(text[: at + 512])
                self.assertIsNone(reader.next())
            new.rename(self.path / name)
            for at in range(SEGMENT_SIZE, len(text), 7):
                with open(self.path / name, "ab") as file:
                    file.write(text[at : at + 7])
                total += 1
                while commit := reader.next():
                    got.append(commit.end)
                    self.assertTrue(list(reader.parts(commit)))
        self.assertEqual(got, [0x100, 0x200])

    def test_a_part_of_a_head_is_none(self) -> None:
        head = self.file().read_bytes()
        for part in (b"", head[:1], head[:-1], bytes(len(head))):
            self.file().write_bytes(part)
            with self.assertRaisesRegex(Damaged, "reading 1 NotAFeed.*no head"):
                self.reader().next()

    def test_zeros_at_the_end_are_waited_for(self) -> None:
        self.feed.commit(0x100)
        with open(self.file(), "ab") as file:
            file.write(bytes(4096))
        self.assertEqual(self.ends(), [0x100])


class LineLast(Case):
    """A long commit's lines are written first, piece after piece, and its own line last, into the
    room that was left for it, which has zeros until then."""

    def setUp(self) -> None:
        super().setUp()
        self.feed.commit(0x100, [insert("1", "a")])
        self.size = self.feed.size
        self.got = self.reader()
        self.assertEqual(getattr(self.got.next(), "end", None), 0x100)

    def text(self, end: int, count: int = 50) -> bytes:
        """The text of a commit with some changes, also of another table."""
        lines = [insert(str(it), "é" * it, of=table(2, "other")) for it in range(count)]
        return self.feed.text(end, [insert("2", "b"), *lines])

    def write(self, at: int, piece: bytes) -> None:
        with open(self.feed.path, "r+b") as file:
            file.seek(at)
            file.write(piece)

    def cut(self) -> None:
        """(As where the commit is rejected, or the program is started again.)"""
        os.truncate(self.feed.path, self.size)
        self.feed.size, self.feed.at, self.feed.told = self.size, 0x100, {}

    def check_nothing_is_there(self) -> None:
        self.assertIsNone(self.got.next())
        self.assertEqual(self.ends(), [0x100])

    def check_next(self, end: int, changes: int) -> None:
        commit = self.got.next()
        assert commit
        found = [it for it in self.got.parts(commit) if isinstance(it, Change)]
        self.assertEqual((commit.end, len(found)), (end, changes))
        self.assertEqual(self.ends(), [0x100, end])
        self.assertIsNone(self.got.next())

    def test_a_whole_commit_follows(self) -> None:
        text = self.text(0x200)
        for at in range(COMMIT_SIZE, len(text), 500):
            self.write(self.size + at, text[at : at + 500])
            self.check_nothing_is_there()
        self.write(self.size, text[:COMMIT_SIZE])
        self.check_next(0x200, 51)

    def test_a_part_of_the_line(self) -> None:
        """Wherever its zeros are: at its end, before it, amid it, or the line feed alone."""
        text = self.text(0x200)
        line = text[:COMMIT_SIZE]
        self.write(self.size + COMMIT_SIZE, text[COMMIT_SIZE:])
        for first, end in ((1, 256), (40, 256), (255, 256), (0, 1), (0, 128), (0, 255), (64, 65)):
            self.write(self.size, line[:first] + bytes(end - first) + line[end:])
            with self.subTest(first=first, end=end):
                self.check_nothing_is_there()
        self.write(self.size, line)
        self.check_next(0x200, 51)

    def test_it_is_cut_off_and_another_one_follows(self) -> None:
        for rest in (bytes(300), self.text(0x200)[COMMIT_SIZE:]):
            self.cut()
            self.write(self.size + COMMIT_SIZE, rest)
            self.check_nothing_is_there()
        self.write(self.size, bytes(100) + self.text(0x200)[100:COMMIT_SIZE])
        self.check_nothing_is_there()
        self.cut()
        self.check_nothing_is_there()
        # (another definition stands where one stood)
        self.feed.commit(
            0x180, [insert("7", "x", "y", of=table(columns=(ID, NAME, Column("z", 25))))]
        )
        self.check_next(0x180, 1)

    def test_a_long_one_follows_one_that_is_cut_off(self) -> None:
        self.write(self.size + COMMIT_SIZE, self.text(0x200, 90)[COMMIT_SIZE:])
        self.check_nothing_is_there()
        self.cut()
        text = self.text(0x280, 7)
        self.write(self.size + COMMIT_SIZE, text[COMMIT_SIZE:])
        self.check_nothing_is_there()
        self.write(self.size, text[:COMMIT_SIZE])
        self.check_next(0x280, 8)

    def test_it_begins_a_segment(self) -> None:
        self.feed.end()
        self.size = self.feed.size
        text = self.text(0x200)
        self.write(self.size + COMMIT_SIZE, text[COMMIT_SIZE:])
        self.check_nothing_is_there()
        self.assertEqual(self.got.cursor(), commits.Cursor(0x100, SEGMENT_SIZE, 0x100))
        # (where it is rejected the segment may go with it)
        self.file(0x100).unlink()
        self.check_nothing_is_there()
        self.feed.at = 0x100
        self.feed.begin()
        self.write(self.size, text)
        self.check_next(0x200, 51)

    def test_zeros_in_a_segment_that_has_ended(self) -> None:
        """There nothing comes any more: what has lost a part of a line is spoiled."""
        self.feed.commit(0x200, [insert("2", "b")])
        self.feed.end()
        self.feed.commit(0x300)
        path = self.file()
        text = path.read_bytes()
        for zeros in (self.size + 40, self.size + COMMIT_SIZE - 1):
            path.write_bytes(text[:zeros] + b"\0" + text[zeros + 1 :])
            with self.subTest(zeros=zeros):
                for reader in (self.reader(), self.reader(0x100)):
                    with self.assertRaisesRegex(Damaged, "reading 3 CommitLine"):
                        [reader.next() for _ in range(3)]
        # (a closing line tells no more than the name of the next segment)
        for zeros in (COMMIT_SIZE, 10):
            path.write_bytes(text[:-zeros] + bytes(zeros))
            self.assertEqual(self.ends(), [0x100, 0x200, 0x300])

    def test_a_segment_that_ends_while_it_is_looked_at(self) -> None:
        """A part of a line was seen, and by the time the next segment is the line is there."""
        text = self.text(0x200)
        self.write(self.size + COMMIT_SIZE, text[COMMIT_SIZE:])
        self.write(self.size, text[:100])
        listed = self.got.listing.segments

        def goes_on() -> list[tuple[int, str]]:
            if self.feed.at == 0x200 and not self.feed.is_empty:
                self.write(self.size, text[:COMMIT_SIZE])
                self.feed.end()
            return listed()

        with mock.patch.object(self.got.listing, "segments", goes_on):
            found = [getattr(self.got.next(), "end", None) for _ in range(2)]
        self.assertIn(0x200, found)


class Cutting(Case):
    """The filter writes the feed anew behind the store's position."""

    def test_the_same_commit_comes_again(self) -> None:
        self.feed.commit(0x100, [insert("1", "a")])
        before = self.file().stat().st_size
        self.feed.commit(0x200, [insert("2", "b")])
        reader = self.reader()
        while reader.next():
            pass
        os.truncate(self.file(), before)
        self.assertIsNone(reader.next())
        self.feed.at = 0x100
        self.feed.commit(0x200, [insert("2", "b")])
        self.feed.commit(0x300)
        commit = reader.next()
        assert commit
        self.assertEqual((commit.end, list(reader.parts(commit))), (0x300, []))

    def test_unseen(self) -> None:
        """Other bytes lie where the reader was, and it has seen neither the cut nor the end of the
        file."""
        self.feed.commit(0x100, [insert("1", "a")])
        before = self.file().stat().st_size
        self.feed.commit(0x200, [insert("2", "bbbb")])
        reader = self.reader()
        while reader.next():
            pass
        os.truncate(self.file(), before)
        self.feed.at = 0x100
        self.feed.commit(0x200, [insert("2", "b")])
        self.feed.commit(0x300, [insert("3", "c" * 1000)])
        commit = reader.next()
        assert commit
        self.assertEqual(commit.end, 0x300)

    def test_a_closing_line_and_the_next_segment_go(self) -> None:
        self.feed.commit(0x100, [insert("1", "a")])
        size = self.file().stat().st_size
        self.feed.end()
        reader = self.reader()
        while reader.next():
            pass
        self.assertEqual(reader.cursor(), commits.Cursor(0x100, 1024, 0x100))
        self.file(0x100).unlink()
        os.truncate(self.file(), size)
        self.assertIsNone(reader.next())
        self.feed.path = self.file()
        self.feed.commit(0x200, [insert("2", "b")])
        commit = reader.next()
        assert commit
        self.assertEqual(commit.end, 0x200)

    def test_the_segment_ends_before_where_the_reader_was(self) -> None:
        """What was cut comes again in the next segment: the segment stays shorter than it was."""
        self.feed.commit(0x100, [insert("1", "a")])
        before = self.file().stat().st_size
        self.feed.commit(0x200, [insert("2", "b" * 1000)])
        reader = self.reader()
        while reader.next():
            pass
        os.truncate(self.file(), before)
        self.feed.at = 0x100
        self.feed.end()
        self.feed.commit(0x200, [insert("2", "b" * 1000)])
        self.assertIsNone(reader.next())
        self.feed.commit(0x300)
        commit = reader.next()
        assert commit
        self.assertEqual(commit.end, 0x300)


class Ahead(Case):
    """Commits are read ahead, several at once."""

    def test_a_line_that_was_written_since(self) -> None:
        self.feed.commit(0x100, [insert("1", "a")])
        size = self.feed.size
        text = self.feed.text(0x200, [insert("2", "b")])
        self.feed.put_behind(256, text[256:])
        reader = self.reader()
        self.assertEqual(getattr(reader.next(), "end", None), 0x100)
        with open(self.file(), "r+b") as file:
            file.seek(size)
            file.write(text)
        commit = reader.next()
        assert commit
        self.assertEqual((commit.end, len([*reader.parts(commit)])), (0x200, 2))

    def test_commits_larger_than_what_is_read_at_once(self) -> None:
        ends = range(0x100, 0x900, 0x100)
        for end in ends:
            self.feed.commit(end, [insert(str(end), "x" * (100 * end))])
        with mock.patch("pgsub_feed.reader.segment.AHEAD", 40000):
            found = [it.after for it in self.parts() if isinstance(it, Change)]
        self.assertEqual(found, [[str(end), "x" * (100 * end)] for end in ends])

    def test_a_definition_is_read_of_what_the_commit_was_read_of(self) -> None:
        self.feed.commit(0x100, [insert("1", "x" * 100000)])
        before = self.feed.size
        self.feed.commit(0x200, [insert("2", "b")])
        reader = self.reader(0x100)
        commit = reader.next()
        assert commit
        with open(self.file(), "r+b") as file:
            file.seek(before)
            file.write(bytes(300))
        with self.assertRaises(Damaged) as caught:
            list(reader.parts(commit))
        self.assertIn("was cut while it was read", str(caught.exception))


class Known(Case):
    """Lines of changes whose definition is known: all are tested together."""

    LINE = b'{"op":"c","at":1280,"n":1,"before":null,"after":["3","c"]}'

    def setUp(self) -> None:
        super().setUp()
        self.feed.commit(0x100, [insert("1", "a")])
        self.feed.commit(0x200, [insert("2", "b"), insert("3", "c"), insert("4", "d")])

    def read(self, line: bytes, end: bytes = b"") -> list[Part]:
        """What the second commit has with another line, in the place of its end too."""
        text = self.file().read_bytes()
        second = text.index(b'{"end":"0/200"')
        self.assertEqual(text.count(self.LINE + end), 1)
        last = text[second:].replace(self.LINE + end, line)
        size = b'"bytes":%d' % (len(last) - 256)
        front, back = re.sub(rb'"bytes":\d+', size, last[:256]).rstrip(), last[256:]
        self.file().write_bytes(text[:second] + summed(front.ljust(255) + b"\n" + back))
        reader = self.reader()
        for commit in Poll(reader, False, never).commits():
            found = list(reader.parts(commit))
        return found

    def test_other_cells(self) -> None:
        found = self.read(self.LINE.replace(b'"c"]', b'{"hex":"00ff"}]'))
        rows = [it.after for it in found if isinstance(it, Change)]
        self.assertEqual(rows, [["2", "b"], ["3", b"\0\xff"], ["4", "d"]])

    def test_two_in_a_line(self) -> None:
        with self.assertRaisesRegex(Damaged, "no line of a commit"):
            self.read(self.LINE + b",", b"\n")

    def test_what_is_wrong(self) -> None:
        for old, new, told in (
            (b'"c"]', b"7]", "no line of a commit"),
            (b'"c"]', b'["c"]]', "no line of a commit"),
            (b'["3","c"]', b'"3c"', "no line of a commit"),
            (b'["3","c"]', b'{"3":1,"c":2}', "no line of a commit"),
            (b'["3","c"]', b"null", "no line of a commit"),
            (b'["3","c"]', b'["3"]', "a row of 1 cells"),
            (b'"n":1', b'"n":2', "the change has number 2"),
            (b'"n":1', b'"n":true', "no line of a commit"),
            (b'"op":"c"', b'"op":"d"', "no line of a commit"),
            (b'"op":"c"', b'"op":"u"', "no line of a commit"),
            (b'"op":"c"', b'"op":"k"', "no line of a commit"),
            (b'"at":1280', b'"at":1281', "no definition stands at 1281"),
            (b"}", b"},{}", "no line of a commit"),
        ):
            with self.subTest(new=new):
                before = self.file().read_bytes()
                with self.assertRaisesRegex(Damaged, told):
                    self.read(self.LINE.replace(old, new))
                self.file().write_bytes(before)


class Own(Case):
    """Commits of the connector's own, which don't come again where they are cut off."""

    def own(self, end: int, *lines: Line) -> None:
        self.feed.commit(end, lines, About(end - 1, 2, 0))

    def test_they_wait_until_they_are_confirmed(self) -> None:
        self.feed.commit(0x100, [insert("1", "a")], About(0xF0, 700, 0))
        self.own(0x200, insert("2", "b"))
        self.feed.commit(0x300)
        reader = self.reader()
        self.assertEqual(
            [getattr(reader.next(), "end", None) for _ in range(3)], [0x100, None, None]
        )
        self.feed.confirm(0x1FF)
        self.assertIsNone(reader.next())
        self.feed.confirm(0x200)
        self.assertEqual(
            [getattr(reader.next(), "end", None) for _ in range(3)], [0x200, 0x300, None]
        )
        # (what a reader has, it passes over)
        self.feed.confirm(0x100)
        self.assertEqual(self.ends(0x200), [0x300])

    def test_one_that_is_cut_off(self) -> None:
        self.feed.commit(0x100)
        before = self.file().stat().st_size
        self.own(0x200, insert("2", "b"))
        reader = self.reader()
        self.assertEqual([getattr(reader.next(), "end", None) for _ in range(2)], [0x100, None])
        os.truncate(self.file(), before)
        self.feed.at = 0x100
        self.feed.commit(0x180, [insert("3", "c")])
        self.feed.confirm(0x200)
        self.assertEqual([getattr(reader.next(), "end", None) for _ in range(2)], [0x180, None])

    def test_one_in_the_place_of_another_that_was_read_ahead(self) -> None:
        self.feed.commit(0x100, [insert("1", "a")])
        before = self.file().stat().st_size
        self.own(0x200, insert("2", "b"))
        reader = self.reader()
        self.assertEqual(getattr(reader.next(), "end", None), 0x100)
        os.truncate(self.file(), before)
        self.feed.at = 0x100
        self.own(0x200, insert("3", "c"))
        self.feed.confirm(0x200)
        commit = reader.next()
        assert commit
        found = [it.after for it in reader.parts(commit) if isinstance(it, Change)]
        self.assertEqual((commit.end, found), (0x200, [["3", "c"]]))

    def test_the_segment_of_one_is_removed(self) -> None:
        """What a reader still has open isn't the feed any more."""
        self.feed.commit(0x100)
        before = self.file().stat().st_size
        self.feed.end()
        self.own(0x200)
        reader = self.reader()
        self.assertEqual([getattr(reader.next(), "end", None) for _ in range(2)], [0x100, None])
        self.file(0x100).unlink()
        os.truncate(self.file(), before)
        self.feed.path, self.feed.at = self.file(), 0x100
        self.feed.commit(0x280)
        self.feed.confirm(0x280)
        self.assertEqual([getattr(reader.next(), "end", None) for _ in range(2)], [0x280, None])


class Segments(Case):
    def test_by_their_bases(self) -> None:
        for end in (0x100, 0x200, 0x300):
            self.feed.commit(end, [insert("1", "a")])
            self.feed.end()
        (self.path / "confirmed").write_text("0/300\n")
        (self.path / "readers").mkdir()
        self.assertEqual([base for base, _ in segments(str(self.path))], [0, 0x100, 0x200, 0x300])
        self.assertEqual(read_confirmed(str(self.path)), 0x300)
        for at, ends in ((0, [0x100, 0x200, 0x300]), (0x200, [0x300]), (0x300, [])):
            self.assertEqual(self.ends(at), ends)

    def test_one_that_lost_its_last_line(self) -> None:
        self.feed.commit(0x100, [insert("1", "a")])
        size = self.feed.size
        self.feed.end()
        self.feed.commit(0x200, [insert("2", "b")])
        os.truncate(self.file(), size)
        self.assertEqual(self.ends(), [0x100, 0x200])

    def test_lines_of_commits_in_another_order(self) -> None:
        self.feed.commit(0x100, [], About(0xF0, 7, 0))
        text = self.file().read_bytes()
        old, new = b'{"end":"0/100","prev":"0/0",', b'{"prev":"0/0","end":"0/100",'
        head, line = text[:1024], text[1024:].replace(old, new)
        self.file().write_bytes(head + summed(line))
        commit = self.reader().next()
        assert commit
        self.assertEqual(
            (commit.end, commit.prev, commit.lsn, commit.xid, commit.ts_us),
            (0x100, 0, 0xF0, 7, 946684800000000),
        )

    def test_old_ones_are_gone(self) -> None:
        for end in (0x100, 0x200):
            self.feed.commit(end)
            self.feed.end()
        self.feed.commit(0x300)
        reader = self.reader()
        reader.next()
        self.file(0).unlink()
        self.assertEqual(self.ends(0x100), [0x200, 0x300])
        with self.assertRaisesRegex(
            Unfit,
            "the feed begins at 0/100, and the commits after 0/50 aren't in it. Begin anew from an export",
        ):
            self.ends(0x50)
        # (who has it open goes on)
        self.assertEqual(
            [getattr(reader.next(), "end", None) for _ in range(3)], [0x200, 0x300, None]
        )
        slow = self.reader(0x100)
        slow.next()
        self.file(0x100).unlink()
        self.file(0x200).rename(self.path / f"{0x250:016X}")
        with self.assertRaisesRegex(Unfit, "the segment that begins at 0/200 is gone"):
            slow.next()

    def test_what_is_cut_while_it_looks_for_the_next_one(self) -> None:
        for end in (0x100, 0x200):
            self.feed.commit(end)
            self.feed.end()
        reader = self.reader()
        reader.next()
        self.file(0x100).unlink()

        def named(base: int) -> None:
            if reader.listing.found:
                self.file(0x200).unlink()
                os.utime(self.path, ns=(0, 0))

        with mock.patch.object(reader, "named", named), self.assertRaisesRegex(Unfit, "is gone"):
            reader.next()

    def listings(self, reader: Reader, times: int = 5) -> int:
        """How often a reader that has all lists the folder."""
        with mock.patch("os.listdir", wraps=os.listdir) as listed:
            for _ in range(times):
                self.assertIsNone(reader.next())
        return listed.call_count

    def test_the_folder_is_not_listed_where_nothing_changed(self) -> None:
        """It may have tens of thousands of names, and is looked at fifty times a second."""
        self.feed.commit(0x100)
        reader = self.reader()
        reader.next()
        self.assertEqual(self.listings(reader), 0)
        self.feed.confirm(0x100)
        self.assertEqual(self.listings(reader), 0)
        self.feed.put(closing_line(0x100))
        # (the next one isn't begun yet)
        self.assertEqual((self.listings(reader), self.listings(reader)), (1, 0))
        os.utime(self.path, (1000, 1000))
        self.assertEqual(self.listings(reader), 1)
        reader.listing.again = 0.0
        self.assertEqual((self.listings(reader), self.listings(reader)), (1, 0))
        self.feed.begin()
        self.feed.commit(0x200)
        commit = reader.next()
        assert commit
        self.assertEqual((commit.end, self.listings(reader)), (0x200, 0))

    def test_names_in_small_letters(self) -> None:
        self.feed.commit(0xA00)
        self.feed.end()
        self.feed.commit(0xB00)
        self.file(0xA00).rename(self.path / f"{0xA00:016x}")
        self.assertEqual(self.ends(), [0xA00, 0xB00])

    def test_no_folder(self) -> None:
        with self.assertRaisesRegex(FileError, "there is no feed"):
            Reader(str(self.folder / "none"), 0).next()
        self.assertIsNone(read_confirmed(str(self.folder / "none")))


class Damage(Case):
    def setUp(self) -> None:
        super().setUp()
        self.feed.commit(0x100, [insert("1", "abc"), delete("1", "abc")], About(0xF0, 7, 0))
        self.feed.commit(0x200, [insert("1", "abc")])
        self.text = self.file().read_bytes()

    def told(self, old: bytes, new: bytes) -> tuple[int, int]:
        """The number and the offset of the error that a change of the first segment gives, where its
        commits have the checksums of what they are then."""
        self.file().write_bytes(self.summed(self.changed(old, new)))
        return self.raised()

    def changed(self, old: bytes, new: bytes) -> bytes:
        self.assertIn(old, self.text)
        return self.text.replace(old, new.ljust(len(old)), 1)

    def summed(self, text: bytes) -> bytes:
        second = self.text.index(b'{"end":"0/200"')
        return text[:1024] + summed(text[1024:second]) + summed(text[second:])

    def raised(self) -> tuple[int, int]:
        with self.assertRaises(Damaged) as raised:
            self.parts()
        return raised.exception.number, raised.exception.offset

    def test_each(self) -> None:
        first = self.text.index(b'{"op":"table"')
        insert_at = self.text.index(b'{"op":"c"')
        delete_at = self.text.index(b'{"op":"d"')
        for old, new, told in (
            (b'"feed":4', b'"feed":a', (1, 0)),
            (b'"slot":"pgsub"', b'"slot":1', (1, 0)),
            (b'"base":"0/0"', b'"base":"0/1"', (2, 0)),
            (b'{"end":"0/100"', b'["end":"0/100"', (3, 1024)),
            (b'"prev":"0/0"', b'"prev":0', (3, 1024)),
            (b'"xid":7', b'"xid":a', (3, 1024)),
            (b'"prev":"0/0"', b'"prev":"0/1"', (4, 1024)),
            (b'"end":"0/100"', b'"end":"0/0"', (4, 1024)),
            (b'"op":"c"', b'"op":"q"', (5, insert_at)),
            (b'"before":null', b'"before":[]', (5, insert_at)),
            (b'["1","abc"]', b'["1",12345]', (5, insert_at)),
            (b'["1","abc"]', b'["1","ab\0"]', (5, insert_at)),
            (b'["1","abc"]', b'["1","a\xff\xfe"]', (5, insert_at)),
            (b'"key":["id"]', b'"key":["iz"', (5, first)),
            (b'"key":["id"]', b'"key":1', (5, first)),
            (b'"columns":[["id"', b'"columns":[[1', (5, first)),
            (
                b'"changes":2',
                b'"changes":3',
                (6, len(self.text[: self.text.index(b'{"end":"0/200"')])),
            ),
            (b'"n":0', b'"n":1', (6, insert_at)),
            (b'"n":1', b'"n":7', (6, delete_at)),
            (b'"at":1280', b'"at":1281', (7, insert_at)),
            (b'"at":1280', b'"at":9999', (7, insert_at)),
            (b'"at":1280', b'"at":1024', (7, insert_at)),
            (b'"at":1280', b'"at":"ab', (5, insert_at)),
            (b'["1","abc"]', b'["1"]', (8, insert_at)),
        ):
            with self.subTest(old=old, new=new):
                self.assertEqual(self.told(old, new), told)

    def test_a_checksum(self) -> None:
        """What isn't as it was written is told by the commit's end, and nothing of it is read, also
        where each of its lines is one."""
        crc = self.text[self.text.index(b'"crc":') :].partition(b"}")[0]
        for old, new in (
            (b'["1","abc"]', b'["1","abd"]'),
            (b'"before":["1","abc"]', b'"before":["2","abc"]'),
            (b'"table":"stock"', b'"table":"stick"'),
            (b'"changes":2', b'"changes":3'),
            (b'"xid":7', b'"xid":8'),
            (b'"lsn":"0/F0"', b'"lsn":"0/F1"'),
            (b'"op":"c"', b'"op":"q"'),
            (crc, b'"crc":' + str(int(crc[6:]) ^ 1).encode()),
        ):
            with self.subTest(old=old, new=new):
                self.file().write_bytes(self.changed(old, new))
                with self.assertRaisesRegex(
                    Damaged, "reading 9 Checksum: the commit that ends at 0/100 isn't as it was"
                ):
                    self.reader().next()
        last = self.text.rindex(b"abc")
        self.file().write_bytes(self.text[:last] + b"abd" + self.text[last + 3 :])
        reader = self.reader()
        self.assertEqual(getattr(reader.next(), "end", None), 0x100)
        with self.assertRaisesRegex(Damaged, "the commit that ends at 0/200 isn't as it was"):
            reader.next()
        # (what a reader has, it passes over)
        self.file().write_bytes(self.text.replace(b"abc", b"abd", 2))
        self.assertEqual(self.ends(0x100), [0x200])

    def test_a_checksum_of_many_bytes(self) -> None:
        rows = [["1", "x" * (1 << 20)], ["2", "y" * (2 << 20)]]
        self.feed.commit(0x300, [insert(*it) for it in rows])
        found = [it.after for it in self.parts() if isinstance(it, Change)]
        self.assertEqual(found[-2:], rows)
        text = self.file().read_bytes()
        self.file().write_bytes(text[:-100] + b"z" + text[-99:])
        with self.assertRaisesRegex(Damaged, "the commit that ends at 0/300 isn't as it was"):
            self.ends(0x200)

    def test_another_format(self) -> None:
        for number, told in ((3, "an earlier version writes"), (5, "a later version writes")):
            self.file().write_bytes(self.text.replace(b'"feed":4', b'"feed":%d' % number))
            with self.assertRaisesRegex(
                Damaged, f"a feed of format {number}, which {told}.* name an empty folder by --feed"
            ):
                self.ends()

    def test_changes_of_early_feeds(self) -> None:
        """They have the OID of their relation too."""
        found, at = self.parts(), self.text.index(b'{"end":"0/200"')
        line, body = self.text[at : at + 256], self.text[at + 256 :]
        early = body.replace(b'"at"', b'"oid":1,"at"')
        line = line.replace(b'"bytes":%d' % len(body), b'"bytes":%d' % len(early))
        self.file().write_bytes(self.text[:at] + summed(line + early))
        self.assertEqual(self.parts(), found)

    def test_definitions_of_segments(self) -> None:
        """In each another one stands at the same offset."""
        self.feed.end()
        other = table(2, "other")
        self.feed.commit(0x300, [insert("1", "abc", of=other), insert("1", "abc")])
        parts = (it for it in self.parts() if not isinstance(it, Message))
        found = [(it.relation.name, it.relation.oid) for it in parts]
        self.assertEqual(found[-4:], [("other", 2)] * 2 + [("stock", 1)] * 2)

    def test_definitions_of_commits_that_were_passed_over(self) -> None:
        """They are tested where a change names them."""
        reader = self.reader(0x100)
        commit = reader.next()
        assert commit
        described, change = reader.parts(commit)
        assert isinstance(described, TableLine) and isinstance(change, Change)
        self.assertEqual(described.relation.name, "stock")
        self.file().write_bytes(self.changed(b'"table":"stock"', b'"table":"stick"'))
        reader = self.reader(0x100)
        commit = reader.next()
        assert commit
        with self.assertRaisesRegex(Damaged, "the commit that ends at 0/100 isn't as it was"):
            list(reader.parts(commit))

    def test_what_isnt_json_here(self) -> None:
        for content in (b"[" * 100000, b'"\\ud800"', b'"\\uDC00x"', b'"\xff"', b"1e"):
            with self.assertRaises(ValueError):
                parsed(content)
        self.assertEqual(parsed(b'"\\\\ud800 \\ud834\\udd1e"'), "\\ud800 𝄞")
        for wrong in (-1, 1 << 32, True, "1"):
            with self.assertRaises(ValueError):
                oid(wrong)

    def test_wrong_bytes(self) -> None:
        # (the end of the commit is then within its last line)
        found = re.search(rb'"bytes":(\d+)', self.text)
        assert found
        self.assertEqual(self.told(found[0], b'"bytes":%d' % (int(found[1]) - 1))[0], 6)

    def test_of_another_server(self) -> None:
        self.feed.end()
        self.file(0x200).write_bytes(segment_head(0x200, "8", "shop", "pgsub"))
        with self.assertRaisesRegex(Damaged, "reading 2 OtherFeed"):
            self.ends()

    def test_a_segment_ends_elsewhere(self) -> None:
        with open(self.file(), "ab") as file:
            file.write(closing_line(0x201))
        with self.assertRaisesRegex(Damaged, "reading 4 Order"):
            self.ends()

    @settings(ANY, max_examples=300)
    @given(st.data(), st.integers(0, 7))
    def test_any_byte(self, data: st.DataObject, bit: int) -> None:
        """Whatever byte is another, what is read is what was written."""
        self.file().write_bytes(self.text)
        wanted, found = self.parts(), list[Part]()
        text = bytearray(self.text)
        text[data.draw(st.integers(0, len(text) - 1))] ^= 1 << bit
        self.file().write_bytes(text)
        reader = self.reader()
        with contextlib.suppress(Damaged, Unfit):
            while commit := reader.next():
                found += reader.parts(commit)
        self.assertEqual(found, wanted[: len(found)])
