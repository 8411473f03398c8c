"""Tables, rows and commits by their names: as a recording sends them, as a store's file holds them,
and as a dump shows them.

PostgreSQL documentation, Streaming Replication Protocol and Logical Replication Message Formats.
"""

from __future__ import annotations

import json
import struct
from dataclasses import dataclass

from .contents import Contents, Relation, Row
from .form import Shape, shape_of

# a text, the bytes of a binary cell, or null
Cell = str | bytes | None
Cells = tuple[Cell, ...]

TEXT_TYPE, NO_MODIFIER = 25, -1


def cell_of(cell: Cell) -> bytes:
    if cell is None:
        return b"n"
    content = cell.encode() if isinstance(cell, str) else cell
    return (b"t" if isinstance(cell, str) else b"b") + struct.pack(">i", len(content)) + content


def tuple_of(cells: Cells) -> bytes:
    return struct.pack(">h", len(cells)) + b"".join(cell_of(it) for it in cells)


@dataclass(frozen=True)
class Table:
    """A definition. The columns of the key come first; all are of type text."""

    oid: int
    namespace: str
    name: str
    letter: str
    key: tuple[str, ...] = ()
    others: tuple[str, ...] = ()

    @property
    def columns(self) -> bytes:
        """How they are encoded."""
        parts = [struct.pack(">h", len(self.key) + len(self.others))]
        for flag, names in ((b"\1", self.key), (b"\0", self.others)):
            parts += [
                flag + name.encode() + b"\0" + struct.pack(">Ii", TEXT_TYPE, NO_MODIFIER)
                for name in names
            ]
        return b"".join(parts)

    @property
    def relation(self) -> Relation:
        return Relation(self.namespace, self.name, ord(self.letter), self.columns)

    @property
    def shape(self) -> Shape:
        return shape_of(self.oid, self.relation)

    def message(self) -> bytes:
        names = b"".join(name.encode() + b"\0" for name in (self.namespace, self.name))
        return b"R" + struct.pack(">I", self.oid) + names + self.letter.encode() + self.columns


@dataclass(frozen=True)
class HeldRow:
    """A row of a table, in so many copies."""

    table: Table
    cells: Cells
    copies: int = 1

    @property
    def key(self) -> tuple[int, bytes]:
        """Its OID and identity."""
        return self.table.oid, self.table.shape.identity(tuple_of(self.cells))

    def line(self) -> str:
        cells = [{"hex": it.hex()} if isinstance(it, bytes) else it for it in self.cells]
        values = [self.table.namespace or "pg_catalog", self.table.name, cells, self.copies]
        return json.dumps(values, ensure_ascii=False, separators=(",", ":")) + "\n"


def lsn_text(lsn: int) -> str:
    return f"{lsn >> 32:X}/{lsn & 0xFFFFFFFF:X}"


@dataclass(frozen=True)
class State:
    """What a store has: definitions, rows, and the position."""

    tables: tuple[Table, ...] = ()
    rows: tuple[HeldRow, ...] = ()
    position: int = 0

    @property
    def contents(self) -> Contents:
        relations = {it.oid: it.relation for it in self.tables}
        return Contents(
            relations,
            {it.key: Row(tuple_of(it.cells), it.copies) for it in self.rows},
            self.position,
        )

    @property
    def dump(self) -> bytes:
        lines = [it.line() for it in sorted(self.rows, key=lambda row: row.key)]
        return "".join([*lines, f"position {lsn_text(self.position)}\n"]).encode()


@dataclass(frozen=True)
class Change:
    """An Insert, an Update that sends no old row, or a Delete that sends the whole one."""

    letter: str
    table: Table
    cells: Cells

    def message(self) -> bytes:
        kind = b"O" if self.letter == "D" else b"N"
        return (
            self.letter.encode() + struct.pack(">I", self.table.oid) + kind + tuple_of(self.cells)
        )


@dataclass(frozen=True)
class Commit:
    """A transaction that ends at an LSN."""

    end: int
    changes: tuple[Change, ...] = ()

    def messages(self) -> list[bytes]:
        """Its messages; each table is described before the first change."""
        lsn = self.end - 0x30
        inner = [it.message() for it in dict.fromkeys(change.table for change in self.changes)]
        inner += [it.message() for it in self.changes]
        return [
            struct.pack(">cQqI", b"B", lsn, 0, 10),
            *inner,
            struct.pack(">cBQQq", b"C", 0, lsn, self.end, 0),
        ]

    @property
    def recording(self) -> str:
        """A session that sends it alone, a line for each frame."""
        frames = [
            struct.pack(">cIcQQq", b"d", 29 + len(it), b"w", 0, 0, 0) + it for it in self.messages()
        ]
        return "".join(f"{it.hex()}\n" for it in frames)
