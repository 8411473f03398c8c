"""The text of a feed: examples that its definitions give, and segments."""

from __future__ import annotations

import tempfile
import unittest
from pathlib import Path

from feed_text import (
    UNSENT,
    About,
    Column,
    Definition,
    Line,
    Message,
    Writer,
    entry_text,
    segment_head,
)

STOCK = Definition(
    16384, "public", "stock", "d", (Column("sku", 25, -1, True), Column("quantity", 23))
)
WIDER = Definition(16384, "public", "stock", "d", (*STOCK.columns, Column("price", 1700, 655366)))
NOTES = Definition(16390, "", 'no"tes', "f", (Column("text", 25), Column("data", 17)))
ABOUT = About(622870840, 739, 753000000123456)
ABOUT_TEXT = '"lsn":"0/25204138","xid":739,"ts_us":1699684800123456'
STOCK_TEXT = (
    '{"op":"table","oid":16384,"schema":"public","table":"stock","identity":"d","key":["sku"],'
    '"columns":[["sku",25,-1],["quantity",23,-1]]}'
)
WIDER_TEXT = STOCK_TEXT.replace("]]", '],["price",1700,655366]]')
NOTES_TEXT = (
    '{"op":"table","oid":16390,"schema":"pg_catalog","table":"no\\"tes","identity":"f","key":null,'
    '"columns":[["text",25,-1],["data",17,-1]]}'
)


def commit(end: str, prev: str, size: int, changes: int, crc: int, about: str = ABOUT_TEXT) -> str:
    told = f'{{"end":"{end}","prev":"{prev}","bytes":{size},"changes":{changes},{about}'
    return f'{told},"crc":{crc}}}'.ljust(255)


class Texts(unittest.TestCase):
    def check(
        self, prev: int, end: int, lines: list[Line], about: About | None, *wanted: str
    ) -> None:
        self.assertEqual(entry_text(prev, end, lines, about).decode().splitlines(), list(wanted))

    def test_of_one_table(self) -> None:
        self.check(
            622870584,
            622870888,
            [
                Line(STOCK, "c", None, ["A-1", "5"]),
                Line(STOCK, "u", ["A-1", "5"], ["A-1", None]),
                Line(STOCK, "d", ["A-1", None]),
            ],
            ABOUT,
            commit("0/25204168", "0/25204038", 327, 3, 931784796),
            STOCK_TEXT,
            '{"op":"c","at":1280,"n":0,"before":null,"after":["A-1","5"]}',
            '{"op":"u","at":1280,"n":1,"before":["A-1","5"],"after":["A-1",null]}',
            '{"op":"d","at":1280,"n":2,"before":["A-1",null],"after":null}',
        )

    def test_definitions(self) -> None:
        self.check(
            622870888,
            622871000,
            [
                Line(STOCK, "c", None, ["A", "1"]),
                Line(NOTES, "c", None, ['é "x"\n', b"\0\xff"]),
                Line(STOCK, "d", ["A", "1"]),
                Line(WIDER, "c", None, ["A", "1", "0.50"]),
                Line(NOTES, "c", None, ["", None]),
                Line(WIDER, "u", ["A", "1", "0.50"], ["B", "1", "0.50"]),
            ],
            ABOUT,
            commit("0/252041D8", "0/25204168", 827, 6, 3701197043),
            STOCK_TEXT,
            '{"op":"c","at":1280,"n":0,"before":null,"after":["A","1"]}',
            NOTES_TEXT,
            '{"op":"c","at":1474,"n":1,"before":null,"after":["é \\"x\\"\\n",{"hex":"00ff"}]}',
            '{"op":"d","at":1280,"n":2,"before":["A","1"],"after":null}',
            WIDER_TEXT,
            '{"op":"c","at":1747,"n":3,"before":null,"after":["A","1","0.50"]}',
            '{"op":"c","at":1474,"n":4,"before":null,"after":["",null]}',
            '{"op":"u","at":1747,"n":5,"before":["A","1","0.50"],"after":["B","1","0.50"]}',
        )

    def test_definitions_that_are_told(self) -> None:
        told = {16384: (STOCK, 1280)}
        lines = [Line(NOTES, "t"), Line(STOCK, "t"), Line(NOTES, "t"), Line(WIDER, "t")]
        text = entry_text(622870888, 622871000, lines, ABOUT, told, 1643)
        at = 1899 + len(NOTES_TEXT) + 1
        wider = at + sum(map(len, text[256:].splitlines(keepends=True)[1:4]))
        self.assertEqual(
            text[256:].decode().splitlines(),
            [
                NOTES_TEXT,
                '{"op":"t","at":1899,"n":0,"before":null,"after":null}',
                '{"op":"t","at":1280,"n":1,"before":null,"after":null}',
                '{"op":"t","at":1899,"n":2,"before":null,"after":null}',
                WIDER_TEXT,
                f'{{"op":"t","at":{wider},"n":3,"before":null,"after":null}}',
            ],
        )
        self.assertEqual(told, {16384: (WIDER, wider), 16390: (NOTES, 1899)})

    def test_a_truncation(self) -> None:
        self.check(
            622871000,
            622872000,
            [Line(NOTES, "t")],
            ABOUT,
            commit("0/252045C0", "0/252041D8", 189, 1, 1458147133),
            NOTES_TEXT,
            '{"op":"t","at":1280,"n":0,"before":null,"after":null}',
        )

    def test_changes_that_found_no_row(self) -> None:
        self.check(
            622872000,
            622873000,
            [
                Line(STOCK, "x", None, ["A", UNSENT]),
                Line(STOCK, "x", ["A", None], ["B", "1"], "K"),
                Line(STOCK, "x", ["A", None], None, "K"),
                Line(NOTES, "x", ["a", b"\x10"], None, "O"),
            ],
            ABOUT,
            commit("0/252049A8", "0/252045C0", 579, 4, 2537076700),
            STOCK_TEXT,
            '{"op":"x","at":1280,"n":0,"sent":"u","old":null,"new":["A",{"unchanged":true}]}',
            '{"op":"x","at":1280,"n":1,"sent":"u","old":["K",["A",null]],"new":["B","1"]}',
            '{"op":"x","at":1280,"n":2,"sent":"d","old":["K",["A",null]],"new":null}',
            NOTES_TEXT,
            '{"op":"x","at":1644,"n":3,"sent":"d","old":["O",["a",{"hex":"10"}]],"new":null}',
        )

    def test_messages(self) -> None:
        """They come first, and the definition moves."""
        messages = [
            Message(622870700, "outbox", b'{"id":1}\n'),
            Message(622870720, "", b"\0\xff"),
            Message(622870740, "p", b"A\0"),
            Message(622870760, "é", b""),
        ]
        text = entry_text(622874000, 622875000, [Line(NOTES, "t")], ABOUT, messages=messages)
        self.assertEqual(
            text.decode().splitlines(),
            [
                commit("0/25205178", "0/25204D90", 454, 1, 1989054086),
                '{"op":"m","lsn":"0/252040AC","prefix":"outbox","content":"{\\"id\\":1}\\n"}',
                '{"op":"m","lsn":"0/252040C0","prefix":"","content":{"hex":"00ff"}}',
                '{"op":"m","lsn":"0/252040D4","prefix":"p","content":{"hex":"4100"}}',
                '{"op":"m","lsn":"0/252040E8","prefix":"é","content":""}',
                NOTES_TEXT,
                '{"op":"t","at":1545,"n":0,"before":null,"after":null}',
            ],
        )

    def test_commits_without_changes(self) -> None:
        most = 2**64 - 1
        nothing = '"lsn":null,"xid":null,"ts_us":null'
        self.check(622873000, 4294967312, [], ABOUT, commit("1/10", "0/252049A8", 0, 0, 167495254))
        line = commit("0/25204D90", "0/252049A8", 0, 0, 1985452095, nothing)
        self.check(622873000, 622874000, [], None, line)
        for prev, text, time, told, crc in (
            (0, "0/0", -(2**63), -9222425352054775808, 2043029359),
            (most - 1, "FFFFFFFF/FFFFFFFE", 2**63 - 1, 9224318721654775807, 188168311),
        ):
            about = f'"lsn":"FFFFFFFF/FFFFFFFF","xid":4294967295,"ts_us":{told}'
            self.check(
                prev,
                most,
                [],
                About(most, 2**32 - 1, time),
                commit("FFFFFFFF/FFFFFFFF", text, 0, 0, crc, about),
            )

    def test_head(self) -> None:
        text = segment_head(622870584, "7231", 'pu"b', "copy").decode()
        self.assertEqual(
            text,
            '{"feed":4,"base":"0/25204038","system":"7231","database":"pu\\"b","slot":"copy"}'.ljust(
                1023
            )
            + "\n",
        )


class Segments(unittest.TestCase):
    def test_each_ends_before_the_commit_that_would_pass_its_size(self) -> None:
        with tempfile.TemporaryDirectory() as folder:
            writer = Writer(Path(folder), 0x10, 3000)
            for end in range(0x100, 0x1000, 0x100):
                writer.commit(end, [Line(STOCK, "c", None, ["x" * end, None])])
            found = sorted((int(it.name, 16), it.read_bytes()) for it in Path(folder).iterdir())
        for (base, text), (following, more) in zip(found, found[1:]):
            *_, last, closing = text.rpartition(b'{"last":')
            self.assertEqual(closing.rstrip(), b'"0/%X"}' % following)
            body = text[: -len(last + closing)]
            next_size = len(more.split(b'{"last":')[0].split(b'{"end":')[1]) + len(b'{"end":')
            self.assertGreater(len(body) + next_size, 3000, base)
            self.assertTrue(len(body) <= 3000 or body.count(b'"end":') == 1, base)
        self.assertEqual([base for base, _ in found][:3], [0x10, 0x200, 0x300])


if __name__ == "__main__":
    unittest.main()
