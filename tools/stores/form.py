"""Whether a definition and a row have the form that a store gives them.

PostgreSQL documentation, Logical Replication Message Formats, Relation and TupleData.
"""

from __future__ import annotations

from dataclasses import dataclass

from .contents import Relation, Row

MOST_COLUMNS = 1600
MOST_COPIES = 2147483647
LETTERS = b"dnfi"
KEYED_LETTERS = b"di"


class Malformed(Exception):
    """What isn't of that form; the text says why."""


class Bytes:
    """Bytes that are read from the left."""

    def __init__(self, content: bytes):
        self.content, self.at = content, 0

    def take(self, length: int) -> bytes:
        if not 0 <= length <= len(self.content) - self.at:
            raise Malformed(f"no {length} bytes at {self.at}")
        self.at += length
        return self.content[self.at - length : self.at]

    def number(self, length: int) -> int:
        return int.from_bytes(self.take(length), "big", signed=True)

    def string(self) -> bytes:
        end = self.content.find(b"\0", self.at)
        if end < 0:
            raise Malformed(f"no zero byte from {self.at} on")
        return self.take(end + 1 - self.at)[:-1]

    def count(self) -> int:
        count = self.number(2)
        if not 0 <= count <= MOST_COLUMNS:
            raise Malformed(f"{count} columns")
        return count

    def end(self) -> None:
        if self.at < len(self.content):
            raise Malformed(f"{len(self.content) - self.at} bytes too many")


def check_text(content: bytes) -> None:
    try:
        content.decode()
    except UnicodeDecodeError as error:
        raise Malformed("a text that isn't UTF-8") from error


def key_flags(columns: bytes) -> list[int]:
    """The key flags of the columns of a definition."""
    found, flags = Bytes(columns), []
    for _ in range(found.count()):
        flags.append(found.number(1))
        if flags[-1] not in (0, 1):
            raise Malformed(f"key flag {flags[-1]}")
        check_text(found.string())
        found.take(8)
    found.end()
    return flags


def cells_of(body: bytes) -> list[bytes]:
    """The cells of a row, each in its own form."""
    found, cells = Bytes(body), []
    for _ in range(found.count()):
        start, kind = found.at, found.take(1)
        if kind in (b"t", b"b"):
            content = found.take(found.number(4))
            if kind == b"t":
                check_text(content)
        elif kind != b"n":
            raise Malformed(f"a cell of the kind {kind!r}")
        cells.append(body[start : found.at])
    found.end()
    return cells


@dataclass(frozen=True)
class Shape:
    """What a definition says of the form of its rows."""

    width: int
    key: tuple[int, ...]
    is_keyed: bool

    def identity(self, body: bytes) -> bytes:
        """The identity of the row with this body."""
        cells = cells_of(body)
        if len(cells) != self.width:
            raise Malformed(f"{len(cells)} cells of {self.width} columns")
        if not self.is_keyed:
            return body
        return len(self.key).to_bytes(2, "big") + b"".join(cells[place] for place in self.key)

    def check_row(self, identity: bytes, row: Row) -> None:
        if not 1 <= row.copies <= (1 if self.is_keyed else MOST_COPIES):
            raise Malformed(f"{row.copies} copies")
        wanted = self.identity(row.body)
        if identity != wanted:
            raise Malformed(f"the identity of its body is {wanted.hex()}")


def shape_of(oid: int, relation: Relation) -> Shape:
    """The shape of a definition, which is checked."""
    if not 0 <= oid < 2**32:
        raise Malformed("its OID is no Int32")
    if "\0" in relation.namespace + relation.name:
        raise Malformed("a name with a zero byte")
    if not 0 <= relation.letter < 256 or relation.letter not in LETTERS:
        raise Malformed(f"replica identity {relation.letter}")
    flags = key_flags(relation.columns)
    key = tuple(place for place, flag in enumerate(flags) if flag)
    return Shape(len(flags), key, relation.letter in KEYED_LETTERS and bool(key))
