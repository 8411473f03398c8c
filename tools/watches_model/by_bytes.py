"""Streams with a frame that is none of a server (rule 5), a text that isn't UTF-8 (6), or data that
isn't one logical message (7)."""

import struct

from .frames import T, a_row, begin, block, copy_data, data, insert, relation, start, stop
from .streams import Part, Stream, bad

ROW = a_row(0x100)
BEGIN, START = begin(0x200, 11), start(10)
OID, XID = struct.pack(">I", T), struct.pack(">I", 10)


def stream(rule: int, shows: str, told: str, *sessions: list[Part]) -> Stream:
    return Stream(f"rule {rule}", shows, told, sessions)


def cell(content: bytes) -> bytes:
    return b"t" + struct.pack(">I", len(content)) + content


def one(content: bytes) -> bytes:
    """A tuple of one cell."""
    return b"\0\1" + cell(content)


FRAMES = (
    stream(5, "a length of 3, first", "wire 2 BadLength", [bad(b"d\0\0\0\3"), *ROW]),
    stream(5, "a negative length", "wire 2 BadLength", [*ROW, bad(b"d\x80\0\0\0")]),
    stream(5, "CopyDone with a byte", "wire 2 BadLength", [*ROW, bad(b"c\0\0\0\5x")]),
    stream(5, "nothing, in a pair", "wire 6 Short", [BEGIN, bad(copy_data(b"")), relation()]),
    stream(
        5,
        "a letter of no server, in a block",
        "wire 5 UnknownServerMessage 120",
        [START, bad(copy_data(b"x")), stop()],
    ),
    stream(
        5,
        "the status of a client, in the second session",
        "wire 5 UnknownServerMessage 114",
        [*ROW],
        [*ROW, bad(copy_data(b"r" + bytes(33)))],
    ),
    stream(5, "a short keepalive", "wire 6 Short", [*ROW, bad(copy_data(b"k" + bytes(16)))]),
    stream(5, "a long keepalive", "wire 7 Trailing", [*ROW, bad(copy_data(b"k" + bytes(18)))]),
    stream(
        5,
        "a keepalive that asks by 2",
        "wire 8 BadReplyByte",
        [*block(10), bad(copy_data(b"k" + bytes(16) + b"\2"))],
    ),
    stream(
        5,
        "XLogData that ends in its clock",
        "wire 6 Short",
        [*ROW],
        [bad(copy_data(b"w" + bytes(23))), *ROW],
    ),
)

TEXTS = (
    stream(
        6,
        "a namespace",
        "decode 6 NotUtf8 at 5",
        [BEGIN, bad(data(b"R" + OID + b"\xff\0t\0d\0\0"))],
    ),
    stream(
        6,
        "a table's name, in a block",
        "decode 6 NotUtf8 at 16",
        [START, bad(data(b"R" + XID + OID + b"public\0t\xc3\0d\0\0"))],
    ),
    stream(
        6,
        "a column's name, in the second session",
        "decode 6 NotUtf8 at 18",
        [*ROW],
        [*ROW, BEGIN, bad(data(b"R" + OID + b"public\0t\0d\0\1\1\xc0\x80\0" + bytes(8)))],
    ),
    stream(
        6,
        "a new cell",
        "decode 8 Tuple 4 NotUtf8 at 13",
        [*ROW, BEGIN, bad(data(b"I" + OID + b"N" + one(b"\xed\xa0\x80")))],
    ),
    stream(
        6,
        "the second cell, in a block",
        "decode 8 Tuple 4 NotUtf8 at 23",
        [START, bad(data(b"I" + XID + OID + b"N\0\2" + cell(b"1") + cell(b"\x80")))],
    ),
    stream(
        6,
        "an old row",
        "decode 8 Tuple 4 NotUtf8 at 13",
        [BEGIN, bad(data(b"U" + OID + b"O" + one(b"\xfe") + b"N" + one(b"a")))],
    ),
    stream(
        6,
        "the new row of an Update",
        "decode 8 Tuple 4 NotUtf8 at 22",
        [BEGIN, bad(data(b"U" + OID + b"O" + one(b"a") + b"N" + one(b"a\xe2\x82")))],
    ),
    stream(
        6,
        "an old key",
        "decode 8 Tuple 4 NotUtf8 at 13",
        [BEGIN, bad(data(b"D" + OID + b"K" + one(b"\xf5\x80\x80\x80")))],
    ),
    stream(
        6, "an origin", "decode 6 NotUtf8 at 9", [BEGIN, bad(data(b"O" + bytes(8) + b"n\xe9\0"))]
    ),
    stream(
        6,
        "a type's name",
        "decode 6 NotUtf8 at 12",
        [BEGIN, bad(data(b"Y" + OID + b"public\0\xff\0"))],
    ),
    stream(
        6,
        "a prefix outside transactions, first",
        "decode 6 NotUtf8 at 10",
        [bad(data(b"M\0" + bytes(8) + b"\xff\0" + bytes(4))), *ROW],
    ),
)

WHOLE_INSERT = b"I" + OID + b"N\0\2" + cell(b"1") + cell(b"a")

MESSAGES = (
    stream(7, "an unknown letter, first", "decode 1 UnknownMessage at 0", [bad(data(b"Z")), *ROW]),
    stream(7, "no data", "decode 2 Short at 0", [*ROW, bad(data(b""))]),
    stream(
        7,
        "two messages at once",
        "decode 3 Trailing at 20",
        [BEGIN, relation(), bad(data(WHOLE_INSERT * 2))],
    ),
    stream(
        7,
        "half a Begin, in the second session",
        "decode 2 Short at 17",
        [*ROW],
        [bad(data(b"B" + bytes(18)))],
    ),
    stream(
        7,
        "a Commit with flags",
        "decode 4 BadFlag at 1",
        [BEGIN, bad(data(b"C\1" + bytes(24)))],
    ),
    stream(
        7,
        "a replica identity that isn't one",
        "decode 5 BadLetter at 14",
        [BEGIN, bad(data(b"R" + OID + b"public\0t\0x\0\0"))],
    ),
    stream(
        7,
        "a Message of negative length",
        "decode 7 BadCount at 12",
        [*ROW, bad(data(b"M\0" + bytes(8) + b"p\0\xff\xff\xff\xff"))],
    ),
    stream(
        7,
        "a cell of no kind",
        "decode 8 Tuple 2 BadKind at 8",
        [BEGIN, bad(data(b"I" + OID + b"N\0\1x"))],
    ),
    stream(7, "an item without xid in a block", "decode 5 BadLetter at 9", [START, bad(insert())]),
    stream(
        7, "an item with an xid in a pair", "decode 5 BadLetter at 5", [BEGIN, bad(insert(xid=10))]
    ),
    stream(
        7,
        "options that no Truncate has",
        "decode 4 BadFlag at 5",
        [BEGIN, bad(data(b"T" + bytes(4) + b"\4"))],
    ),
    stream(7, "a byte behind Stream Stop", "decode 3 Trailing at 1", [START, bad(data(b"E\0"))]),
)
