"""The messages of the initial copy, byte for byte, and COPY's text format in blocks against one
value at a time."""

from __future__ import annotations

import re
import struct
import unittest

from hypothesis import given, settings
from hypothesis import strategies as st

from pgsub_connect.copy.messages import (
    InsertHeads,
    begin,
    cells_length,
    commit,
    frame,
    inserts,
    relation,
)
from pgsub_connect.errors import WrongAnswer
from pgsub_connect.server.catalog import Table
from pgsub_connect.server.copied_text import tuples, unescaped
from pgsub_feed.relation import Column, Shape

from .drawn import ANY

ESCAPES = {b"b": b"\b", b"f": b"\f", b"n": b"\n", b"r": b"\r", b"t": b"\t", b"v": b"\v"}


def table_of(width: int, oid: int = 16385) -> Table:
    return Table(
        oid,
        "public",
        "t",
        "r",
        Shape("d", tuple([Column(f"c{it}", 25, -1, it == 0) for it in range(width)])),
    )


def slow_cell(text: bytes) -> bytes:
    """A value in COPY's text format as a cell."""
    if text == b"\\N":
        return b"n"
    text = re.sub(rb"\\(.)", lambda found: ESCAPES.get(found[1], found[1]), text, flags=re.S)
    return struct.pack(">cI", b"t", len(text)) + text


def slow_inserts(lines: list[bytes], table: Table, lsn: int) -> bytes:
    head = struct.pack(">cIcH", b"I", table.oid, b"N", len(table.columns))
    frames = []
    for line in lines:
        cells = [slow_cell(text) for text in line[:-1].split(b"\t")] if table.columns else []
        frames.append(frame(lsn, head + b"".join(cells)))
    return b"".join(frames)


def copy_text(value: bytes | None) -> bytes:
    """What a server sends for a value."""
    if value is None:
        return b"\\N"
    for character, escape in (
        (b"\\", b"\\\\"),
        *((it, b"\\" + letter) for letter, it in ESCAPES.items()),
    ):
        value = value.replace(character, escape)
    return value


class Widths(unittest.TestCase):
    def test_lines_of_another_width(self) -> None:
        for line in (b"1\n", b"1\t2\t3\n", b"1\t2\n3\n"):
            with self.assertRaisesRegex(WrongAnswer, "another width than 2 columns") as raised:
                inserts([line], InsertHeads(table_of(2), 0))
            self.assertTrue(raised.exception.is_lasting())
            with self.assertRaisesRegex(WrongAnswer, "another width than 2 columns"):
                tuples(line, 2)


class Bytes(unittest.TestCase):
    """What the layout of PostgreSQL's documentation gives."""

    def test_frame(self) -> None:
        self.assertEqual(
            frame(3, b"xyz").hex(),
            "64" "00000020" "77" "0000000000000003" "0000000000000003" "0000000000000000" "78797a",
        )

    def test_begin(self) -> None:
        self.assertEqual(begin(7).hex(), "42" "0000000000000007" "0000000000000000" "00000007")

    def test_commit(self) -> None:
        self.assertEqual(
            commit(7, 8).hex(), "43" "00" "0000000000000007" "0000000000000008" "0000000000000000"
        )

    def test_relation(self) -> None:
        table = Table(
            16385,
            "shop",
            "st\u00f6ck",
            "r",
            Shape("f", (Column("id", 23, -1, True), Column("q", 1043, 24, False))),
        )
        self.assertEqual(
            relation(table).hex(),
            "52"
            "00004001"
            "73686f7000"
            "7374c3b6636b00"
            "66"
            "0002"
            "01"
            "696400"
            "00000017"
            "ffffffff"
            "00"
            "7100"
            "00000413"
            "00000018",
        )

    def test_relation_of_the_catalog_has_no_schema(self) -> None:
        self.assertEqual(
            relation(Table(1, "pg_catalog", "t", "r", Shape("d", ()))).hex(),
            "52" "00000001" "00" "7400" "64" "0000",
        )

    def test_rows(self) -> None:
        table = table_of(3, 2)
        sent = inserts([b"1\ta\\tb\t\\N\n", b"22\t\t\\\\N\n"], InsertHeads(table, 5))
        head = (
            "77"
            "0000000000000005"
            "0000000000000005"
            "0000000000000000"
            "49"
            "00000002"
            "4e"
            "0003"
        )
        self.assertEqual(
            sent.hex(),
            "64"
            "00000034" + head + "74"
            "00000001"
            "31"
            "74"
            "00000003"
            "610962"
            "6e"
            "64"
            "00000038" + head + "74"
            "00000002"
            "3232"
            "74"
            "00000000"
            "74"
            "00000002"
            "5c4e",
        )

    def test_each_escape(self) -> None:
        for letter, character in ESCAPES.items():
            self.assertEqual(unescaped(b"a\\" + letter + b"z"), b"a" + character + b"z")
        self.assertEqual(unescaped(b"\\\\n\\n\\\\\\\\"), b"\\n\n\\\\")
        self.assertEqual(unescaped(b"\\q"), b"q")

    def test_table_without_columns(self) -> None:
        table = table_of(0)
        self.assertEqual(
            inserts([b"\n", b"\n"], InsertHeads(table, 1)), slow_inserts([b"\n", b"\n"], table, 1)
        )


TAME = st.text("abcxyz 0123N", max_size=40).map(str.encode)
WILD = st.none() | st.lists(
    st.sampled_from(b"ab\\N\\\tn\n\r\x08\x0c\x0btx\xc3\xa4"), max_size=40
).map(bytes)


@st.composite
def blocks(draw: st.DrawFn) -> list[list[bytes | None]]:
    """Rows of one width, most with values that are written with backslashes."""
    width = draw(st.integers(1, 5))
    value: st.SearchStrategy[bytes | None] = draw(st.sampled_from((TAME, TAME | WILD, WILD)))
    return draw(st.lists(st.lists(value, min_size=width, max_size=width), min_size=1, max_size=6))


class Blocks(unittest.TestCase):
    """Blocks of rows give the same as one value at a time."""

    @settings(ANY)
    @given(blocks(), st.integers(0, 799))
    def test_rows(self, rows: list[list[bytes | None]], number: int) -> None:
        width = len(rows[0])
        lines = [b"\t".join(map(copy_text, row)) + b"\n" for row in rows]
        table = table_of(width)
        sent = inserts(lines, InsertHeads(table, number))
        self.assertEqual(sent, slow_inserts(lines, table, number), lines)
        for row, line in zip(rows, lines, strict=True):
            length = sum(1 if it is None else 5 + len(it) for it in row)
            self.assertEqual(cells_length(line, width), length, line)

    def test_long_values(self) -> None:
        lines = [
            b"x" * length + b"\t" + b"\\\\" * length + b"\n"
            for length in (4000, 4095, 4096, 5000, 70000)
        ]
        table = table_of(2)
        self.assertEqual(inserts(lines, InsertHeads(table, 9)), slow_inserts(lines, table, 9))


if __name__ == "__main__":
    unittest.main()
