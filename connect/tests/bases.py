"""First rows of a feed that are made for a test."""

from __future__ import annotations

from collections.abc import Iterable, Sequence
from pathlib import Path
from unittest import mock

from feed_text import Definition

from pgsub_connect.store import base_files
from pgsub_connect.store.base_files import write_base
from pgsub_connect.store.row_frames import BaseWanted
from pgsub_feed.interruption import never
from pgsub_feed.relation import Column, Relation, Shape

Cell = str | bytes | None


def relation_of(it: Definition) -> Relation:
    columns = tuple(Column(*part.__dict__.values()) for part in it.columns)
    return Relation(it.oid, it.schema, it.table, Shape(it.letter, columns))


def body(*row: Cell) -> bytes:
    """A row as it is stored."""
    cells = [cell_bytes(it) for it in row]
    return len(row).to_bytes(2, "big") + b"".join(cells)


def cell_bytes(it: Cell) -> bytes:
    if it is None:
        return b"n"
    text = it.encode() if isinstance(it, str) else it
    return (b"t" if isinstance(it, str) else b"b") + len(text).to_bytes(4, "big") + text


def make_base(
    feed: Path,
    lsn: int,
    tables: Sequence[Definition],
    rows: Iterable[tuple[Definition, Sequence[Cell]]],
    room: int = 1 << 20,
    least: int = 1 << 26,
    named: tuple[str, str, str] = ("7", "shop", "pgsub"),
) -> None:
    """Writes first rows as the connector does. `room`: how many bytes wait until they are written;
    `least`: how many a file has."""
    wanted = BaseWanted(str(feed), "", 0o600, lsn, *named)
    relations = {it.oid: relation_of(it) for it in tables}
    held = ((it.oid, body(*row), 1) for it, row in rows)
    with mock.patch.multiple(base_files, ROOM=room, LEAST=least):
        write_base(wanted, relations, held, never)
