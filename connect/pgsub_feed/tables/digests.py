"""The digests of tables that follow a feed: of each how many rows it has, and two sums of words of
their hashes, as of the file's LSN.

They are those that `pgsub-connect verify` has of a table with one chunk, so a server computes the
same over a snapshot, and two files are compared by them. They are changed with
each image, in the transaction that changes the rows: `pgsub_digests` has by `oid` those of each
table whose definition was told. A file with this table has another version, so that no program goes
on with it that leaves them as they are. Rows that get another shape are added up anew.

A digest is of rows as the server prints them, and so is what is compared.
Each value of SQLite is one of the server's texts, so nothing is left out: a number of floating
point is the shortest digits that give it again, and a numeric has its scale, as the module
`tables.floats` says; a bool is t or f; bytes are in hexadecimal digits. A numeric that a number
doesn't tell is its second column's text.

The text of a row has for each field its value after that one's length in bytes and a colon, or `n`
for null. So no two rows have one text.
"""

import hashlib
import itertools
import sqlite3
import struct
from collections.abc import Iterable, Sequence
from typing import NamedTuple, cast

from ..reader.commits import Cell, Cells, Change
from ..relation import Column
from ..texts import identifier
from .floats import stored_float
from .reshape import printed
from .table import Kept, Valued
from .values import BOOL, BYTEA, FLOAT4, NULL, Value, scale_of

# Where the words of a hash are: the chunk's and two that are added up.
CHUNK_WORD, FIRST_WORD, SECOND_WORD = 4, 0, 1
words_of = struct.Struct(">iiiii").unpack_from
# A field's value, None for null.
Field = bytes | None
FieldTexts = Sequence[Field]


def text_of(fields: Iterable[Field]) -> bytes:
    """The text of fields that tells them apart."""
    return b"".join([b"n" if it is None else b"%d:%b" % (len(it), it) for it in fields])


def fields_in(text: bytes) -> list[Field]:
    """The fields of such a text."""
    at, fields = 0, list[Field]()
    while at < len(text):
        if text[at] == NULL:
            fields.append(None)
            at += 1
            continue
        first = text.index(b":", at) + 1
        at, length = first, int(text[at : first - 1])
        fields.append(text[at : at + length])
        at += length
    return fields


def hash_of(text: bytes) -> bytes:
    return hashlib.sha256(text).digest()


class Fields:
    """Makes fields of a table's rows."""

    def __init__(self, valued: Valued) -> None:
        self.valued, self.columns, target = valued, valued.relation.shape.columns, valued.target
        chosen = ", ".join(target.columns[at] for at in target.exact)
        self.query = f"SELECT {chosen} FROM {identifier(valued.name)}"
        # numerics that are numbers here, with their scales
        self.scaled = [
            (at, scale)
            for at, column in enumerate(self.columns)
            if (scale := scale_of(column)) is not None and target.types(at) == ["REAL"]
        ]

    def of_row(self, row: Sequence[Value]) -> list[Field]:
        """Those of a row of SQLite. What isn't UTF-8 there is equal to nothing of a server's."""
        # (a table without columns has one here)
        pairs = zip(self.columns, row, strict=True) if self.columns else ()
        return [
            None
            if it is None
            else it.encode(errors="surrogateescape")
            if isinstance(it, str)
            else told(column, it)
            for column, it in pairs
        ]

    def of_cells(self, cells: Sequence[Cell]) -> list[Field]:
        """Those of a row of a feed."""
        fields = [
            None if it is None else it.encode() if isinstance(it, str) else self.of_binary(at, it)
            for at, it in enumerate(cells)
        ]
        for at, _ in self.old_scales(cells):
            value = self.valued.value(self.valued.target.exact[at], cells[at])
            fields[at] = told(self.columns[at], value)
        return fields

    def old_scales(self, cells: Sequence[Cell]) -> list[tuple[int, int]]:
        """The numerics of a row of a feed that have another scale than their column, as those do
        that were sent before it was altered. (As numbers they have none.)"""
        return [it for it in self.scaled if not has_scale(cells[it[0]], it[1])]

    def of_binary(self, at: int, cell: bytes) -> Field:
        """That of a value in binary form. A text's is its bytes."""
        value = self.valued.value(at, cell)
        is_text = isinstance(value, bytes) and self.columns[at].type_oid != BYTEA
        return cell if is_text else told(self.columns[at], value)


def has_scale(cell: Cell, scale: int) -> bool:
    """Whether a numeric is printed with so many digits behind the point, none where it is below 0."""
    if not isinstance(cell, str) or cell == "NaN":
        return True
    return "e" not in cell and ("." not in cell if scale <= 0 else cell[-scale - 1 : -scale] == ".")


def told(column: Column, value: Value) -> Field:
    """A value as the server prints it; of a number that isn't the type's, what none prints."""
    if isinstance(value, float) and scale_of(column) is None:
        return stored_float(value, column.type_oid == FLOAT4).encode()
    if column.type_oid == BOOL and isinstance(value, int) and value not in (0, 1):
        return str(value).encode()
    text = printed(column, value)
    return text.encode() if isinstance(text, str) else text


DIGESTS = "pgsub_digests"
# The version of a file with digests.
FORMAT = 4
SCHEMA = f"CREATE TABLE {DIGESTS} (oid INTEGER PRIMARY KEY, rows INTEGER NOT NULL, first INTEGER NOT NULL, second INTEGER NOT NULL) STRICT"


class Digest(NamedTuple):
    """That of a table."""

    rows: int
    first: int
    second: int

    def plus(self, other: "Digest") -> "Digest":
        return Digest(self.rows + other.rows, self.first + other.first, self.second + other.second)

    def times(self, sign: int) -> "Digest":
        return Digest(sign * self.rows, sign * self.first, sign * self.second)


NOTHING = Digest(0, 0, 0)


def has_digests(db: sqlite3.Connection) -> bool:
    return bool(db.execute("PRAGMA user_version").fetchone()[0] == FORMAT)


def read_digests(db: sqlite3.Connection) -> dict[int, Digest]:
    """By OID that of each table; none where the file keeps none."""
    if not has_digests(db):
        return {}
    rows = db.execute(f"SELECT oid, rows, first, second FROM {DIGESTS}")
    return {oid: Digest(*more) for oid, *more in rows}


def summed(texts: Iterable[bytes]) -> Digest:
    """That of rows, by the texts of their fields."""
    count = first = second = 0
    for text in texts:
        words = words_of(hash_of(text))
        count, first, second = count + 1, first + words[FIRST_WORD], second + words[SECOND_WORD]
    return Digest(count, first, second)


def plain_text(cells: Cells) -> bytes | None:
    """The text of a row with texts of ASCII alone, None of any other."""
    if bytes in map(type, cells):
        return None
    texts = cast(list[str | None], cells)
    text = "".join(["n" if it is None else f"{len(it)}:{it}" for it in texts])
    return text.encode() if text.isascii() else None


def image_text(fields: Fields, cells: Cells) -> bytes:
    """The text of the fields of a row of a feed."""
    plain = None if fields.old_scales(cells) else plain_text(cells)
    return plain or text_of(fields.of_cells(cells))


def of_changes(fields: Fields, changes: list[Change]) -> Digest:
    """By how much changes of a table change its digest."""
    after = summed(image_text(fields, it.after) for it in changes if it.after is not None)
    before = summed(image_text(fields, it.before) for it in changes if it.before is not None)
    return after.plus(before.times(-1))


def of_rows(fields: Fields, rows: Iterable[Sequence[Value]]) -> Digest:
    """That of rows as SQLite has them."""
    return summed(map(text_of, map(fields.of_row, rows)))


class Digests:
    """Those of the open file. What changes them is written at the end of the transaction."""

    def __init__(self, db: sqlite3.Connection) -> None:
        self.db, self.known = db, read_digests(db)
        self.changed = set[int]()
        self.fields: dict[int, Fields] = {}

    @classmethod
    def begun(cls, db: sqlite3.Connection, tables: Iterable[Kept]) -> "Digests":
        """Has the file keep one of each table from now on."""
        db.execute(SCHEMA)
        db.execute(f"PRAGMA user_version = {FORMAT}")
        digests = cls(db)
        for kept in tables:
            digests.add_up(kept)
        return digests

    def add_up(self, kept: Kept) -> None:
        """Reads a table's rows."""
        fields = self.fields[kept.oid] = Fields(kept)
        self.set(kept.oid, of_rows(fields, self.db.execute(fields.query)))

    def note(self, kept: Kept, changes: list[Change]) -> None:
        """Takes changes of one kind into account. (An untold table has no digest yet.)"""
        if kept.oid not in self.known:
            return
        if changes[0].op == "t":
            self.set(kept.oid, NOTHING)
            return
        fields = self.fields.get(kept.oid) or self.fields.setdefault(kept.oid, Fields(kept))
        self.set(kept.oid, self.known[kept.oid].plus(of_changes(fields, changes)))

    def take_off(self, kept: Kept, keys: Iterable[Sequence[Value]]) -> None:
        """Takes off rows that are about to go, by their keys, as they are here."""
        if kept.oid not in self.known:
            return
        fields = Fields(kept)
        query = f"{fields.query} WHERE {kept.where(0)}"
        rows = itertools.chain.from_iterable(self.db.execute(query, key) for key in keys)
        self.set(kept.oid, self.known[kept.oid].plus(of_rows(fields, rows).times(-1)))

    def set(self, oid: int, digest: Digest) -> None:
        self.known[oid] = digest
        self.changed.add(oid)

    def drop(self, oid: int) -> None:
        self.known.pop(oid, None)
        self.fields.pop(oid, None)
        self.changed.discard(oid)
        self.db.execute(f"DELETE FROM {DIGESTS} WHERE oid = ?", (oid,))

    def write(self) -> None:
        """Writes those that have changed."""
        if self.changed:
            rows = [(oid, *self.known[oid]) for oid in self.changed]
            self.db.executemany(f"INSERT OR REPLACE INTO {DIGESTS} VALUES (?, ?, ?, ?)", rows)
            self.changed.clear()
