"""Inputs that are no load, or no whole one: for each what is told, and how far its store is.

The first rows wait in memory until their table's text ends.
"""

import struct
from typing import NamedTuple

from histories_model.loads import MOST_PARTS, frame, point_of
from histories_model.wire import COPY_DONE, Column, Definition

STREAM, NOT_FIT, TOO_LARGE, ENDS = 1, 3, 11, 15
POINT = 0x1958B68
STOCK = Definition(
    16384, b"public", b"stock", b"d", [Column(1, b"sku", 25, -1), Column(0, b"quantity", 23, -1)]
)
LOG = Definition(16385, b"public", b"log", b"f", [Column(1, b"word", 25, -1)])
BEGIN, BEGIN_LOG, END = frame(b"R" + STOCK.rest), frame(b"R" + LOG.rest), frame(b"e")
ROW = frame(b"tA-1\t5\n")
WHOLE = BEGIN + ROW + END


class Case(NamedTuple):
    """What comes, the line and the exit status, and the position that the store has then."""

    content: bytes
    line: str
    status: int = STREAM
    position: int = 0
    words: tuple[str, ...] = ()


def text(content: bytes) -> bytes:
    return frame(b"t" + content)


CASES = [
    Case(BEGIN + text(b"A-1\t5\nB-2\n"), "load 1 Line: table 16384, line 2: 1 MissingColumn"),
    Case(BEGIN + text(b"A-1\t5\t6\n"), "load 1 Line: table 16384, line 1: 2 ExtraColumn"),
    Case(
        BEGIN + text(b"A-1\\\t5\n") + text(b"x\n"),
        "load 1 Line: table 16384, line 1: 3 CutSequence",
    ),
    Case(BEGIN + text(b"A-1\t5\\\n"), "load 1 Line: table 16384, line 1: 3 CutSequence"),
    Case(BEGIN + text(b"A-1\t5\r\n"), "load 1 Line: table 16384, line 1: 4 CarriageReturn"),
    Case(BEGIN + text(b"A-1\t\xff\n"), "load 1 Line: table 16384, line 1: 5 NotUtf8"),
    Case(
        BEGIN + text(b"A" * 60) + text(b"A" * 60),
        "load 1 Line: table 16384, line 1: 6 TooLong",
        words=("--max-frame", "100"),
    ),
    Case(
        WHOLE + BEGIN_LOG + text(b"a\nb\tc\n"),
        "load 1 Line: table 16385, line 2: 2 ExtraColumn",
        position=1,
    ),
    Case(BEGIN + text(b"\\.\n"), "load 2 Marker: table 16384"),
    Case(BEGIN + ROW + text(b"B-2\t0") + END, "load 3 CutLine: table 16384"),
    Case(ROW, "load 4 Order"),
    Case(END, "load 4 Order"),
    Case(BEGIN + BEGIN, "load 4 Order"),
    Case(WHOLE + ROW, "load 4 Order", position=1),
    Case(BEGIN + ROW + point_of(POINT), "load 4 Order"),
    Case(WHOLE + point_of(0), "load 6 BadPoint", position=1),
    Case(WHOLE + point_of(MOST_PARTS), "load 6 BadPoint", position=1),
    Case(frame(b""), "load 8 BadInput"),
    Case(frame(b"w" + bytes(24)), "load 8 BadInput"),
    Case(BEGIN + frame(b"e1"), "load 8 BadInput"),
    Case(WHOLE + frame(b"p\0"), "load 8 BadInput", position=1),
    Case(WHOLE + frame(b"p" + bytes(9)), "load 8 BadInput", position=1),
    Case(COPY_DONE, "load 8 BadInput"),
    Case(WHOLE + COPY_DONE + point_of(POINT), "load 8 BadInput", position=1),
    Case(BEGIN + ROW + BEGIN[:3] + b"\0", "load 9 CutInput", ENDS),
    Case(b"", "load 9 CutInput", ENDS),
    Case(WHOLE, "load 9 CutInput", ENDS, 1),
    Case(WHOLE + point_of(POINT)[:-1], "load 9 CutInput", ENDS, 1),
    Case(b"x\0\0\0\4", "wire 1 UnknownFrame 120"),
    Case(b"d\0\0\0\3", "wire 2 BadLength"),
    Case(b"c\0\0\0\5", "wire 2 BadLength"),
    Case(struct.pack(">cI", b"d", 16777216 + 5), "wire 3 TooLarge", TOO_LARGE),
    Case(BEGIN + text(b"A-1\t5\nA-1\t6\n") + END, "store 1 Clash"),
]
