"""A feed's folder in memory: what runs leave in it, and what is told of one that differs."""

from __future__ import annotations

import tempfile
import unittest
from pathlib import Path

from feed_folder import Asked, Folder, NotOpened, differences, findings
from feed_replay import Wrong, replay
from feed_text import (
    About,
    Column,
    Definition,
    Line,
    Message,
    closing_line,
    commit_line,
    entry_text,
    message_line,
    segment_head,
)

STOCK = Definition(
    16384, "public", "stock", "d", (Column("sku", 25, -1, True), Column("quantity", 23))
)
ASKED = Asked("7", "shop", "pgsub")
# of each commit the end, the lines and what it is about
FIRST = (
    0x130,
    [Line(STOCK, "c", None, ["A", "5"]), Line(STOCK, "u", ["A", "5"], ["A", "4"])],
    About(0x100, 739, 1_000_000),
)
SECOND = (0x230, [Line(STOCK, "x", ["B", None], None, "K")], About(0x200, 741, 2_999_999))
THIRD = (0x330, list[Line](), About(0x300, 742, 3_000_000))
COMMITS = (FIRST, SECOND, THIRD)
HEAD = segment_head(0, "7", "shop", "pgsub")
# the text of each where it is the first in a segment
ALONE = [entry_text(prev, *commit) for prev, commit in zip((0, 0x130, 0x230), COMMITS)]
# the second behind the first, where its definition is told, and where it isn't
SIZE = len(HEAD + ALONE[0])
TOLD = entry_text(0x130, *SECOND, {STOCK.oid: (STOCK, 1280)}, SIZE)
AGAIN = entry_text(0x130, *SECOND, {}, SIZE)
TEXTS = [ALONE[0], TOLD, ALONE[2]]


def one(base: int, *texts: bytes, ends: int | None = None) -> dict[str, bytes]:
    """A segment."""
    closing = b"" if ends is None else closing_line(ends)
    return {f"{base:016X}": segment_head(base, "7", "shop", "pgsub") + b"".join(texts) + closing}


class Case(unittest.TestCase):
    def setUp(self) -> None:
        self.folder = Folder()

    def run_once(
        self, position: int, *commits: tuple[int, list[Line], About], **asked: int
    ) -> None:
        self.folder.open(position, Asked("7", "shop", "pgsub", **asked))
        for commit in commits:
            self.folder.commit(*commit)

    def check(self, *segments: dict[str, bytes]) -> None:
        self.assertEqual(
            self.folder.files(), {name: text for it in segments for name, text in it.items()}
        )

    def test_one_segment(self) -> None:
        self.run_once(0, *COMMITS)
        self.check(one(0, *TEXTS))

    def test_it_is_replayed(self) -> None:
        self.run_once(0, *COMMITS, segment_bytes=1)
        with tempfile.TemporaryDirectory() as room:
            for name, text in self.folder.files().items():
                Path(room, name).write_bytes(text)
            state = replay(Path(room))
        self.assertEqual((state.at, state.missed, +state.rows[16384]), (0x330, 1, {("A", "4"): 1}))

    def test_messages_are_replayed(self) -> None:
        """A segment has them where it has their commit; none where that isn't asked for."""
        messages = [Message(0xF0, "p", b"x"), Message(0xF8, "", b"\0\xff")]
        self.folder.open(0, Asked("7", "shop", "pgsub"))
        self.folder.commit(*FIRST, messages)
        self.check(one(0, ALONE[0]))
        self.setUp()
        self.folder.open(0, Asked("7", "shop", "pgsub", segment_bytes=1, messages=1))
        self.folder.commit(*FIRST, messages)
        self.folder.commit(*THIRD[:1], [], THIRD[2], messages[:1])
        with tempfile.TemporaryDirectory() as room:
            for name, text in self.folder.files().items():
                Path(room, name).write_bytes(text)
            state = replay(Path(room))
        self.assertEqual((state.at, state.changes, len(self.folder.segments)), (0x330, 2, 2))
        first, last = (0x130, 0x100, 739), (0x330, 0x300, 742)
        told = [(*first, 0xF0, "p", b"x"), (*first, 0xF8, "", b"\0\xff"), (*last, 0xF0, "p", b"x")]
        self.assertEqual([tuple(it) for it in state.messages], told)

    def test_a_message_behind_a_definition_isnt_replayed(self) -> None:
        body = entry_text(0, *FIRST)[256:] + message_line(Message(0xF0, "p", b"x"))
        text = commit_line(0x130, 0, body, 2, FIRST[2]) + body
        with tempfile.TemporaryDirectory() as room:
            Path(room, "0" * 16).write_bytes(HEAD + text)
            with self.assertRaisesRegex(Wrong, "a message behind a definition"):
                replay(Path(room))

    def test_a_segment_for_each_commit(self) -> None:
        self.run_once(0, *COMMITS, segment_bytes=0)
        self.check(
            one(0, TEXTS[0], ends=0x130), one(0x130, ALONE[1], ends=0x230), one(0x230, TEXTS[2])
        )

    def test_bytes_of_a_segment(self) -> None:
        length = len(HEAD + TEXTS[0] + TEXTS[1])
        self.run_once(0, *COMMITS, segment_bytes=length)
        self.check(one(0, *TEXTS[:2], ends=0x230), one(0x230, TEXTS[2]))
        self.setUp()
        self.run_once(0, *COMMITS, segment_bytes=length - 1)
        self.check(one(0, TEXTS[0], ends=0x130), one(0x130, *ALONE[1:]))

    def test_age_of_a_segment(self) -> None:
        self.run_once(0, *COMMITS, segment_seconds=2)
        self.check(one(0, *TEXTS[:2], ends=0x230), one(0x230, TEXTS[2]))
        # (it counts from the first commit of a run, and no commit is before that)
        self.setUp()
        self.run_once(0, FIRST, segment_seconds=2)
        self.run_once(0x130, SECOND, THIRD, segment_seconds=2)
        self.check(one(0, TEXTS[0], AGAIN, TEXTS[2]))

    def test_runs_go_on(self) -> None:
        self.run_once(0, FIRST)
        self.run_once(0x130)
        self.check(one(0, TEXTS[0]))
        self.run_once(0x130, SECOND, segment_bytes=1)
        self.check(one(0, TEXTS[0], ends=0x130), one(0x130, ALONE[1]))

    def test_it_begins_where_the_store_is(self) -> None:
        self.run_once(0x130, SECOND)
        self.check(one(0x130, ALONE[1]))

    def test_what_the_store_lacks_goes(self) -> None:
        self.run_once(0, *COMMITS)
        self.folder.last().text += b"rest"
        self.run_once(0x230)
        self.check(one(0, *TEXTS[:2]))
        self.run_once(0)
        self.check({"0" * 16: HEAD})
        self.run_once(0, *COMMITS, segment_bytes=0)
        # the segment that begins there keeps its head
        self.folder.segments[0x130].text += b"rest"
        self.run_once(0x130)
        self.check(one(0, TEXTS[0], ends=0x130), one(0x130))
        self.run_once(0x130, SECOND)
        self.check(one(0, TEXTS[0], ends=0x130), one(0x130, ALONE[1]))

    def test_a_segment_that_had_ended(self) -> None:
        self.run_once(0, FIRST, SECOND)
        self.run_once(0x230, THIRD, segment_bytes=1)
        self.run_once(0x130, SECOND)
        self.check(one(0, TEXTS[0], AGAIN))

    def refuses(self, position: int, asked: Asked, told: str) -> None:
        before = self.folder.files()
        with self.assertRaisesRegex(NotOpened, f"^{told}$"):
            self.folder.open(position, asked)
        self.assertEqual(self.folder.files(), before)

    def test_no_feed_of_the_store(self) -> None:
        self.run_once(0x130, SECOND)
        for position in (0, 0x12F, 0x131, 0x22F, 0x231):
            self.refuses(position, ASKED, "feed 1 NotAFeed")

    def test_names_that_are_too_long(self) -> None:
        room = 1023 - len(Asked("7", "shop").head((1 << 64) - 1).rstrip())
        self.refuses(0, Asked("7", "shop", "s" * (room + 1)), "feed 2 TooLong")
        self.folder.open(0, Asked("7", "shop", "s" * room))
        self.assertEqual([len(it) for it in self.folder.files().values()], [1024])


class Differences(unittest.TestCase):
    """A feed with one thing wrong."""

    def setUp(self) -> None:
        self.wanted = one(0, *TEXTS[:2], ends=0x230) | one(0x230, TEXTS[2])
        self.name = "0" * 16

    def check(self, old: str, new: str, told: str) -> None:
        """What is told of the first segment once a text in it is another one of the same length."""
        self.assertEqual(len(old), len(new))
        text = self.wanted[self.name].decode()
        self.assertIn(old, text)
        found = {**self.wanted, self.name: text.replace(old, new, 1).encode()}
        self.assertRegex("\n".join(differences(found, self.wanted)), told)

    def test_none(self) -> None:
        self.assertEqual(differences(dict(self.wanted), self.wanted), [])

    def test_of_a_commit(self) -> None:
        self.check(
            '"xid":739',
            '"xid":740',
            r'^0{16}, line 2 from byte \d+: .*"xid":740,.*\n   and not .*"xid":739,',
        )
        self.check(
            '"xid":741',
            '"xid":739',
            r'^0{16}, line 6 from byte \d+: .*"xid":739,.*\n   and not .*"xid":741,',
        )
        self.check('"ts_us":946684801000000', '"ts_us":946684801000001', "line 2 .*1000001,")
        self.check('"lsn":"0/100"', '"lsn":"0/130"', '"lsn":"0/130",.*\n.*"lsn":"0/100",')
        self.check('"end":"0/230"', '"end":"0/231"', 'line 6 from byte 12: {"end":"0/231"')
        self.check('"prev":"0/130"', '"prev":"0/100"', 'line 6 .*"prev":"0/100"')
        self.check('"changes":2', '"changes":3', 'line 2 .*"changes":3')

    def test_of_changes(self) -> None:
        self.check(
            '"before":["A","5"]',
            '"before":["A","4"]',
            r'line 5 from byte 41: .*"before":\["A","4"\],',
        )
        self.check('"after":["A","4"]', '"after":["A","5"]', r'line 5 .*"after":\["A","5"\]}')
        self.check('"before":null,"after":["A","5"]', '"before":["A","5"],"after":null', "line 4 ")
        self.check('["K",["B",null]]', '["O",["B",null]]', r'line 7 .*"old":\["O",\["B",null\]\]')
        self.check('"n":1', '"n":0', 'line 5 .*"n":0')

    def test_of_a_definition(self) -> None:
        self.check('"key":["sku"]', '"key":null   ', 'line 3 .*"key":null')
        self.check('["quantity",23,-1]', '["quantity",20,-1]', 'line 3 .*"quantity",20,')

    def test_of_a_head_and_an_end(self) -> None:
        self.check('"slot":"pgsub"', '"slot":"other"', 'line 1 .*"slot":"other"')
        self.check(
            '{"last":"0/230"}',
            '{"last":"0/130"}',
            'line 8 from byte 11: {"last":"0/130"}\n   and not {"last":"0/230"}',
        )

    def found(self, text: bytes, told: str) -> None:
        self.assertRegex(
            "\n".join(differences({**self.wanted, self.name: text}, self.wanted)), told
        )

    def test_a_change_is_missing(self) -> None:
        first = (FIRST[0], FIRST[1][:1], FIRST[2])
        self.found(
            HEAD + entry_text(0, *first) + TEXTS[1] + closing_line(0x230),
            'line 2 .*"changes":1,.*\n.*"changes":2,',
        )
        lines = (HEAD + b"".join(TEXTS[:2]) + closing_line(0x230)).splitlines(keepends=True)
        self.found(
            b"".join(lines[:4] + lines[5:]), 'line 5 from byte 2: {"end".*\n   and not {"op":"u"'
        )

    def test_a_commit_is_missing(self) -> None:
        self.found(
            HEAD + TEXTS[0] + closing_line(0x230),
            'line 6 from byte 2: {"last".*\n   and not {"end":"0/230"',
        )
        self.found(HEAD + b"".join(TEXTS[:2]), 'line 8 from byte 0: nothing\n   and not {"last"')

    def test_something_more(self) -> None:
        self.found(
            self.wanted[self.name] + TEXTS[2],
            'line 9 from byte 0: {"end":"0/330".*\n   and not nothing',
        )
        self.found(self.wanted[self.name] + b"\n", r"^0{16}, \d+ bytes and not \d+$")
        self.found(self.wanted[self.name][:-1], r"^0{16}, \d+ bytes and not \d+$")

    def test_segments(self) -> None:
        told = differences(
            {self.name: self.wanted[self.name], "0000000000000130": b"x"}, self.wanted
        )
        self.assertEqual(
            told, ["0000000000000130 is there, with 1 bytes", "0000000000000230 isn't there"]
        )

    def test_long_lines_are_shortened(self) -> None:
        long = Line(STOCK, "c", None, ["x" * 5000, "5"])
        other = Line(STOCK, "c", None, ["x" * 5000, "6"])
        (told,) = differences({"a": entry_text(0, 9, [long])}, {"a": entry_text(0, 9, [other])})
        self.assertLess(len(told), 1000)
        self.assertRegex(
            told,
            r'^a, line 3 from byte 50\d\d: \.\. x+","5"\]}\n? \.\.\n   and not \.\. x+","6"\]} \.\.',
        )


class OnTheDisk(unittest.TestCase):
    def test_findings(self) -> None:
        with tempfile.TemporaryDirectory() as room:
            folder, wanted = Path(room, "copy.feed"), one(0, TEXTS[0])
            self.assertEqual(findings(folder, {}), [])
            self.assertEqual(findings(folder, wanted), ["0000000000000000 isn't there"])
            folder.mkdir(0o700)
            for name, text in {**wanted, "confirmed": b"0/130\n"}.items():
                Path(folder, name).write_bytes(text)
                Path(folder, name).chmod(0o600 if len(name) == 16 else 0o644)
            Path(folder, "readers").mkdir()
            self.assertEqual(findings(folder, {**wanted, "confirmed": b"0/130\n"}), [])
            self.assertEqual(findings(folder, wanted), ["confirmed is there, with 6 bytes"])
            Path(folder, "confirmed").unlink()
            Path(folder, "0" * 16).chmod(0o640)
            folder.chmod(0o755)
            self.assertEqual(
                findings(folder, wanted),
                ["copy.feed has the mode 755", "0000000000000000 has the mode 640"],
            )


if __name__ == "__main__":
    unittest.main()
