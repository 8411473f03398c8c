"""The bytes of frames, messages and tuples.

A cell is its encoding: b"n", b"u", or b"t" or b"b" with a length and the bytes. An item is its
letter and the bytes that follow the letter outside a block; inside one the xid comes between the
two.
"""

import struct

NULL, UNSENT = b"n", b"u"


def text(data):
    return b"t" + struct.pack(">I", len(data)) + data


def binary(data):
    return b"b" + struct.pack(">I", len(data)) + data


def tuple_data(cells):
    return struct.pack(">H", len(cells)) + b"".join(cells)


class Column:
    """A column of a definition; the name is UTF-8 bytes."""

    __slots__ = ("flag", "name", "type_oid", "modifier")

    def __init__(self, flag, name, type_oid, modifier):
        self.flag, self.name, self.type_oid, self.modifier = flag, name, type_oid, modifier


class Definition:
    """What a Relation message says of a table."""

    __slots__ = (
        "oid",
        "namespace",
        "name",
        "letter",
        "columns",
        "width",
        "key",
        "keyed",
        "shape",
        "columns_rest",
        "rest",
    )

    def __init__(self, oid, namespace, name, letter, columns):
        self.oid, self.namespace, self.name, self.letter = oid, namespace, name, letter
        self.columns = tuple(columns)
        self.width = len(self.columns)
        self.key = [place for place, column in enumerate(self.columns) if column.flag]
        self.keyed = letter in b"di" and bool(self.key)
        self.shape = (letter, tuple((column.flag, column.name) for column in self.columns))
        parts = [struct.pack(">H", self.width)]
        for column in self.columns:
            parts += (
                bytes([column.flag]),
                column.name,
                b"\0",
                struct.pack(">Ii", column.type_oid, column.modifier),
            )
        self.columns_rest = b"".join(parts)
        self.rest = (
            struct.pack(">I", oid) + namespace + b"\0" + name + b"\0" + letter + self.columns_rest
        )

    def identity(self, cells):
        """The encoded identity of a row."""
        return tuple_data([cells[place] for place in self.key] if self.keyed else cells)


class Change:
    """An Insert, Update, Delete or Truncate with the definition of each relation that it names."""

    __slots__ = ("letter", "definitions", "old_kind", "old", "new", "options")

    def __init__(self, letter, definitions, old_kind=None, old=None, new=None, options=0):
        self.letter, self.definitions = letter, definitions
        self.old_kind, self.old, self.new, self.options = old_kind, old, new, options

    def rest(self):
        """The bytes of the message that follow its letter, outside a block."""
        if self.letter == b"T":
            head = struct.pack(">IB", len(self.definitions), self.options)
            return head + b"".join(
                struct.pack(">I", definition.oid) for definition in self.definitions
            )
        parts = [struct.pack(">I", self.definitions[0].oid)]
        if self.old_kind:
            parts += self.old_kind, tuple_data(self.old)
        if self.new is not None:
            parts += b"N", tuple_data(self.new)
        return b"".join(parts)


def item(letter, rest, xid=None):
    return letter + rest if xid is None else letter + struct.pack(">I", xid) + rest


def begin(lsn, time, xid):
    return struct.pack(">cQqI", b"B", lsn, time, xid)


def commit(lsn, end, time):
    return struct.pack(">cBQQq", b"C", 0, lsn, end, time)


def stream_start(xid, first):
    return struct.pack(">cIB", b"S", xid, first)


def stream_commit(xid, lsn, end, time):
    return struct.pack(">cIBQQq", b"c", xid, 0, lsn, end, time)


def stream_abort(xid, subxid):
    return struct.pack(">cII", b"A", xid, subxid)


def origin(lsn, name):
    return struct.pack(">cQ", b"O", lsn) + name + b"\0"


def type_rest(oid, namespace, name):
    return struct.pack(">I", oid) + namespace + b"\0" + name + b"\0"


def message_rest(flags, lsn, prefix, content):
    return (
        struct.pack(">BQ", flags, lsn) + prefix + b"\0" + struct.pack(">I", len(content)) + content
    )


def xlog_data(start, end, clock, body):
    return struct.pack(">cIcQQq", b"d", 29 + len(body), b"w", start, end, clock) + body


def keepalive(end, clock, reply):
    return struct.pack(">cIcQqB", b"d", 22, b"k", end, clock, reply)


COPY_DONE = struct.pack(">cI", b"c", 4)


def lsn_text(lsn):
    return f"{lsn >> 32:X}/{lsn & 0xFFFFFFFF:X}"
