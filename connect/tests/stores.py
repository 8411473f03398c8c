"""Files of stores, as `pgsub` makes them."""

from __future__ import annotations

import contextlib
import functools
import sqlite3
import struct
import tempfile
import unittest
from collections.abc import Sequence
from unittest import mock

from .vectors import ID, NAME, Described

SCHEMA = (
    "CREATE TABLE rel (oid INTEGER PRIMARY KEY NOT NULL, nsp TEXT NOT NULL, name TEXT NOT NULL, letter INTEGER NOT NULL,"
    " cols BLOB NOT NULL) STRICT;"
    "CREATE TABLE held (oid INTEGER NOT NULL, ident BLOB NOT NULL, body BLOB NOT NULL, copies INTEGER NOT NULL,"
    " PRIMARY KEY (oid, ident)) STRICT;"
    "CREATE TABLE pos (id INTEGER PRIMARY KEY NOT NULL CHECK (id = 0), lsn BLOB NOT NULL) STRICT"
)
# A text, a binary value or null.
Cell = str | bytes | None


def spelled(cells: Sequence[Cell]) -> bytes:
    """How a store has cells."""
    return spelled_once(tuple(cells))


# (tests write the same rows again and again)
@functools.cache
def spelled_once(cells: tuple[Cell, ...]) -> bytes:
    parts = [struct.pack(">H", len(cells))]
    for cell in cells:
        body = cell.encode() if isinstance(cell, str) else cell
        parts.append(
            b"n"
            if body is None
            else (b"t" if isinstance(cell, str) else b"b") + struct.pack(">I", len(body)) + body
        )
    return b"".join(parts)


def described(columns: Sequence[Described]) -> bytes:
    parts = [struct.pack(">H", len(columns))]
    parts += [
        bytes([key]) + name.encode() + b"\0" + struct.pack(">Ii", oid, modifier)
        for key, name, oid, modifier in columns
    ]
    return b"".join(parts)


class Store:
    """A store's file that is made for a test."""

    def __init__(self, path: str, position: int = 0x130) -> None:
        self.path = path
        self.base = sqlite3.connect(path, isolation_level=None)
        self.base.execute("PRAGMA synchronous = OFF")
        self.base.executescript(SCHEMA)
        self.move(position)

    def move(self, position: int) -> None:
        self.base.execute(
            "INSERT OR REPLACE INTO pos VALUES (0, ?)", (position.to_bytes(8, "big"),)
        )

    def table(
        self,
        oid: int,
        name: str,
        columns: Sequence[Described] = (ID, NAME),
        *,
        letter: str = "d",
        schema: str = "public",
    ) -> None:
        self.base.execute(
            "INSERT INTO rel VALUES (?, ?, ?, ?, ?)",
            (oid, schema, name, ord(letter), described(columns)),
        )

    def row(self, oid: int, *cells: Cell, key: int | None = 1, copies: int = 1) -> None:
        """Adds a row whose first cells are its key, None where all of it is."""
        ident = spelled(cells[:key])
        self.base.execute(
            "INSERT INTO held VALUES (?, ?, ?, ?)", (oid, ident, spelled(cells), copies)
        )

    def close(self) -> None:
        with contextlib.suppress(sqlite3.Error):
            self.base.close()


class StoreCase(unittest.TestCase):
    """A test over a store in a folder of its own, and a file beside it that is to be made."""

    def setUp(self) -> None:
        folder = tempfile.TemporaryDirectory()
        self.addCleanup(folder.cleanup)
        self.folder = folder.name
        self.path, self.into = folder.name + "/copy.db", folder.name + "/rows.db"
        # (the disk of a test machine may be slow)
        self.patch("os.fsync")
        self.store = Store(self.path)
        self.addCleanup(self.store.close)

    def patch(self, name: str, *value: object) -> None:
        """Puts something else in the place of what has this name, until the test ends."""
        patched = mock.patch(name, *value)
        patched.start()
        self.addCleanup(patched.stop)
