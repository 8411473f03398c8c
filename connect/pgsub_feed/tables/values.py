"""Values of the store as values of SQLite: the column types that they get, and what reads a cell.

A `numeric` is a number of floating point, so that comparisons, order and sums answer. Where such a
number doesn't tell all values of its column apart, a second column has the server's text. That is
so by the type's modifier, never by values.
"""

import binascii
import math
import re
import struct
from collections.abc import Callable, Sequence

from .. import log
from ..relation import Column

# What goes into a table: a TEXT that isn't UTF-8 as its bytes, which stay as they are.
Value = int | float | bytes | str | None
Row = Sequence[Value]
Read = Callable[[bytes], Value]

# A column's type in SQLite, what reads a text and what reads a binary value.
Kind = tuple[str, Read, Read]

BOOL, BYTEA, INT8, INT2, INT4 = 16, 17, 20, 21, 23
FLOAT4, FLOAT8, NUMERIC = 700, 701, 1700
# Types whose binary form is their text: "char", name, text, json, xml, unknown, bpchar, varchar.
TEXTS = (18, 19, 25, 114, 142, 705, 1042, 1043)
NULL, TEXT, BINARY = b"ntb"
FLOAT = re.compile(rb"-?\d+(?:\.\d+)?(?:e[+-]?\d+)?")
NO_NUMBERS = {b"Infinity": math.inf, b"-Infinity": -math.inf}
NAN, NAN_TEXT = b"NaN", "NaN"
# How numerics are kept: as numbers, with texts where these say more; as texts; as numbers alone.
# And how an export has them whose values are all texts.
BOTH, AS_TEXT, AS_REAL, ALL_TEXT = "both", "text", "real", "all text"
# How many digits any number of eight bytes tells apart, and how far from the point the last may be.
DIGITS, FARTHEST = 15, 290
# The integers of eight bytes.
LEAST, GREATEST = -(1 << 63), (1 << 63) - 1
ESCAPE = re.compile(rb"\\(?:\\|([0-3][0-7]{2}))")


def read_int(text: bytes) -> int:
    number = int(text)
    if b"%d" % number != text and not text.removeprefix(b"-").isdigit():
        # (what Python takes beside it: spaces, underlines)
        raise ValueError
    if not LEAST <= number <= GREATEST:
        raise ValueError
    return number


def read_bool(text: bytes) -> int:
    if text not in (b"t", b"f"):
        raise ValueError
    return int(text == b"t")


def read_number(text: bytes) -> float:
    if FLOAT.fullmatch(text):
        return float(text)
    if text not in NO_NUMBERS:
        raise ValueError
    return NO_NUMBERS[text]


def read_float(text: bytes) -> float | str:
    """A number; NaN, which SQLite hasn't, stays a text: both are above all numbers."""
    return NAN_TEXT if text == NAN else read_number(text)


def scale_of(column: Column) -> int | None:
    """The scale of a numeric whose values are told apart by numbers of eight bytes, which is how
    many digits it has behind the point; None of any other column."""
    if column.type_oid != NUMERIC or column.modifier < 4:
        return None
    precision, scale = (column.modifier - 4) >> 16, ((column.modifier - 4) & 0x7FF ^ 0x400) - 0x400
    return scale if precision <= DIGITS and abs(scale) <= FARTHEST else None


def is_rounded(column: Column) -> bool:
    """Whether different values of a numeric may be one number of eight bytes."""
    return column.type_oid == NUMERIC and scale_of(column) is None


def numeric_reader(column: Column, of: str) -> Read:
    """What reads a numeric as the nearest number of eight bytes. NaN, which SQLite hasn't, becomes
    Infinity, above all numbers as it is on the server; that is told once."""
    told = log.Once()

    def read(text: bytes) -> Value:
        if text != NAN:
            return read_number(text)
        why = "has NaN, which SQLite hasn't: it is Infinity there"
        told.warning(text, f"{of}: the column {column.name} {why}")
        return math.inf

    return read


def read_bytea(text: bytes) -> bytes:
    """Bytes from either of the two forms that a server prints them in."""
    if text.startswith(b"\\x"):
        return binascii.unhexlify(text[2:])
    if b"\\" in ESCAPE.sub(b"", text):
        raise ValueError
    return ESCAPE.sub(lambda it: bytes([int(it[1], 8)]) if it[1] else b"\\", text)


def read_text(text: bytes) -> bytes | str:
    # (Python binds bytes slowly)
    try:
        return text.decode()
    except UnicodeDecodeError:
        return text


def read_bytes(body: bytes) -> bytes:
    return body


def unpacked(form: str) -> Read:
    """What reads the binary form of a number."""
    read = struct.Struct(form)

    def number(body: bytes) -> Value:
        if len(body) != read.size:
            raise ValueError
        value: int | float = read.unpack(body)[0]
        return NAN_TEXT if value != value else value

    return number


# By type. Any other type but numeric is TEXT.
KINDS: dict[int, Kind] = {
    BOOL: ("INTEGER", read_bool, unpacked(">?")),
    BYTEA: ("BLOB", read_bytea, read_bytes),
    INT2: ("INTEGER", read_int, unpacked(">h")),
    INT4: ("INTEGER", read_int, unpacked(">i")),
    INT8: ("INTEGER", read_int, unpacked(">q")),
    FLOAT4: ("ANY", read_float, unpacked(">f")),
    FLOAT8: ("ANY", read_float, unpacked(">d")),
}


def no_binary(_: bytes) -> Value:
    raise ValueError


def kinds_of(column: Column, form: str, of: str) -> list[Kind]:
    """The columns of a table that a column becomes, two of a numeric that a number doesn't tell.
    `form`: how numerics are kept; `of`: the table, as it is told."""
    text = "TEXT", read_text, read_text if column.type_oid in TEXTS else no_binary
    if column.type_oid == NUMERIC and form in (BOTH, AS_REAL):
        number = "REAL", numeric_reader(column, of), no_binary
        return [number, text] if form == BOTH and is_rounded(column) else [number]
    return [text if form == ALL_TEXT else KINDS.get(column.type_oid, text)]


SPOILED = "a malformed row or definition: the disk, or another program, has spoiled the file"


class Malformed(Exception):
    """A row of the store that isn't one of its table."""


class Unlike(Exception):
    """A value that isn't one of its column's type: the index of the column, and the value."""

    def __init__(self, index: int, value: bytes) -> None:
        super().__init__(index, value)
        self.index, self.value = index, value


def read_columns(body: bytes) -> tuple[Column, ...]:
    """The columns of a definition: a count, and of each flag, name, zero byte, and type."""
    at, columns = 2, []
    for _ in range(int.from_bytes(body[:2], "big")):
        end = body.find(b"\0", at + 1)
        if end < 0 or end + 9 > len(body):
            raise Malformed
        name = body[at + 1 : end].decode(errors="backslashreplace")
        type_oid, modifier = struct.unpack_from(">Ii", body, end + 1)
        columns.append(Column(name, type_oid, modifier, bool(body[at] & 1)))
        at = end + 9
    if at != len(body) or len(body) < 2:
        raise Malformed
    return tuple(columns)
