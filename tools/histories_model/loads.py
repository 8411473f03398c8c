"""The bytes of a load: for each table a Relation message, COPY's text in pieces, and its end; and
last of all the point.

PostgreSQL documentation, COPY, File Formats, Text Format.
"""

import struct

from . import tables as model
from .wire import NULL, Change

# the letters of control characters
LETTERS = {
    b"\b": b"b",
    b"\f": b"f",
    b"\n": b"n",
    b"\r": b"r",
    b"\t": b"t",
    b"\v": b"v",
    b"\\": b"\\",
}
NULL_STRING = b"\\N"
# no LSN of a server is so low
MOST_PARTS = 0xFFFFF


def frame(payload):
    return struct.pack(">cI", b"d", 4 + len(payload)) + payload


def escaped(byte):
    """A byte as a server sends it."""
    return b"\\" + LETTERS[byte] if byte in LETTERS else byte


def spelled(rng, byte):
    """A byte as a client may write it: by its number too, where it is ASCII."""
    luck = rng.random()
    if luck < 0.9 or byte[0] > 0x7F:
        return escaped(byte)
    # (all digits, so that those of the value behind it aren't read with them)
    return (b"\\%03o" if luck < 0.95 else b"\\x%02x") % byte[0]


def field(rng, cell):
    if cell == NULL:
        return NULL_STRING
    bytes_of = (cell[place : place + 1] for place in range(5, len(cell)))
    return b"".join(spelled(rng, byte) for byte in bytes_of)


def line(rng, cells):
    return b"\t".join(field(rng, cell) for cell in cells) + b"\n"


class Load:
    """A load of these tables, each with its rows in some order, and what is stored by then."""

    def __init__(self, rng, tables):
        self.rng = rng
        self.tables = [(definition, self.rows(rows)) for definition, rows in tables.values()]

    def rows(self, rows):
        every = [cells for cells, copies in rows.values() for _ in range(copies)]
        self.rng.shuffle(every)
        return every

    def cut(self, text):
        """A text in pieces: none, one, or some of which a few are empty."""
        rng = self.rng
        if rng.random() < 0.3:
            return [text] if text else []
        places = sorted(rng.randint(0, len(text)) for _ in range(rng.randint(0, 9)))
        ends = [0, *places, len(text)]
        return [text[low:high] for low, high in zip(ends, ends[1:])]

    def table(self, definition, rows):
        """The payloads of a table."""
        text = b"".join(line(self.rng, cells) for cells in rows)
        return [b"R" + definition.rest, *(b"t" + piece for piece in self.cut(text)), b"e"]

    def parts(self):
        """The frames of each table."""
        return [b"".join(map(frame, self.table(*table))) for table in self.tables]

    def stored(self, count):
        """What a store has once so many tables have ended: these, and the number of batches."""
        tables, batches = {}, 0
        for definition, rows in self.tables[:count]:
            for cells in rows:
                model.apply_change(tables, Change(b"I", [definition], new=cells))
            batches += bool(rows)
        return tables, batches


def point_of(lsn):
    """The last frame."""
    return frame(b"p" + struct.pack(">Q", lsn))
