"""The messages of the connector's own transactions, and how rows in COPY's text format become
Inserts; and what the program reads with `follow --load`.

A load is frames of CopyData: of each table its Relation message, its text and the end of that; and
last the LSN as of which all of them are.
"""

import struct
from collections.abc import Iterator, Sequence

from ..server.catalog import Table
from ..server.copied_text import NULL, Heads, put_cells

Frame = bytes | memoryview
# The letters of the payloads, and what a frame has before its payload's rest.
TEXT, END_OF_TABLE, POINT = b"t", b"e", b"p"
HEAD = struct.Struct(">cIc").pack
# Longer texts aren't copied together: about so many bytes of one are in a frame.
LONG = 1 << 20


def frame(lsn: int, body: bytes) -> bytes:
    """A message in XLogData in CopyData."""
    return struct.pack(">cIcQQq", b"d", 29 + len(body), b"w", lsn, lsn, 0) + body


def begin(lsn: int, xid: int | None = None, clock: int = 0) -> bytes:
    """A Begin; its xid is made of the LSN where none is given. `clock`: microseconds since 2000."""
    return struct.pack(">cQqI", b"B", lsn, clock, lsn & 0x7FFFFFFF if xid is None else xid)


def commit(lsn: int, end: int, clock: int = 0) -> bytes:
    return struct.pack(">cBQQq", b"C", 0, lsn, end, clock)


def relation(table: Table) -> bytes:
    namespace = "" if table.namespace == "pg_catalog" else table.namespace
    named = f"{namespace}\0{table.name}\0{table.identity}".encode()
    parts = [struct.pack(">cI", b"R", table.oid), named, struct.pack(">H", len(table.columns))]
    for it in table.columns:
        parts += [bytes([it.key]), f"{it.name}\0".encode()]
        parts.append(struct.pack(">Ii", it.type_oid, it.modifier))
    return b"".join(parts)


def cells(fields: Sequence[bytes | None]) -> bytes:
    """A tuple of texts and nulls."""
    texts = [b"n" if it is None else struct.pack(">cI", b"t", len(it)) + it for it in fields]
    return struct.pack(">H", len(fields)) + b"".join(texts)


def insert(oid: int, row: Sequence[bytes | None]) -> bytes:
    return struct.pack(">cIc", b"I", oid, b"N") + cells(row)


def update(oid: int, row: Sequence[bytes | None]) -> bytes:
    """An Update of the row that has the new one's key."""
    return struct.pack(">cIc", b"U", oid, b"N") + cells(row)


def delete(oid: int, kind: bytes, row: Sequence[bytes | None]) -> bytes:
    """A Delete of the row with this key (`K`), or of one that is this (`O`)."""
    return struct.pack(">cIc", b"D", oid, kind) + cells(row)


class InsertHeads(Heads):
    """What comes before the cells of a row in a transaction, by the length of all cells."""

    def __init__(self, table: Table, lsn: int) -> None:
        super().__init__(self.head_of)
        self.lsn, self.width = lsn, len(table.columns)
        self.insert = struct.pack(">cIcH", b"I", table.oid, b"N", self.width)

    def head_of(self, length: int) -> bytes:
        size = 29 + len(self.insert) + length
        return struct.pack(">cIcQQq", b"d", size, b"w", self.lsn, self.lsn, 0) + self.insert


def cells_length(line: bytes, width: int) -> int:
    """How long the cells of a line are. An escape is a byte longer than what it stands for; a null
    is one byte, without a head.

    Of backslashes in a row each two are an escaped one, and a last one begins an escape.
    """
    escapes = line.count(b"\\") - line.count(b"\\\\")
    nulls = line.count(NULL) - line.count(b"\\" + NULL)
    return len(line) + 4 * width - escapes - 5 * nulls


def inserts(lines: list[bytes], heads: InsertHeads) -> bytes:
    """The frames of the Inserts of lines in COPY's text format."""
    width = heads.width
    if not width:
        return heads[0] * len(lines)
    step, extra = 2 * width + 1, 4 * width
    parts = [b""] * (len(lines) * step)
    parts[::step] = [
        heads[len(line) + extra if b"\\" not in line else cells_length(line, width)]
        for line in lines
    ]
    put_cells(b"".join(lines), width, parts)
    return b"".join(parts)


def load_frame(letter: bytes, rest: bytes = b"") -> bytes:
    return HEAD(b"d", 5 + len(rest), letter) + rest


def table_frame(table: Table) -> bytes:
    """A table begins."""
    message = relation(table)
    return load_frame(message[:1], message[1:])


def text_frames(lines: list[bytes], most: int) -> Iterator[Frame]:
    """Lines of a table's text. A payload has so many bytes at most."""
    size, room = sum(map(len, lines)), max(1, min(most - 1, LONG))
    if size <= room:
        yield b"".join((HEAD(b"d", 5 + size, TEXT), *lines))
        return
    for line in lines:
        text = memoryview(line)
        for at in range(0, len(text), room):
            piece = text[at : at + room]
            yield HEAD(b"d", 5 + len(piece), TEXT)
            yield piece


def point_frame(point: int) -> bytes:
    """The load ends at an LSN."""
    return load_frame(POINT, struct.pack(">Q", point))
