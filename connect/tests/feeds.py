"""Feeds that are made for a test."""

from __future__ import annotations

import pickle
import tempfile
import unittest
from collections.abc import Sequence
from pathlib import Path
from typing import Any
from unittest import mock

from feed_text import Cell, Column, Definition, Line, Writer

INT4, TEXT = 23, 25
ID, NAME = Column("id", INT4, -1, True), Column("name", TEXT)


def table(
    oid: int = 1,
    name: str = "stock",
    columns: Sequence[Column] = (ID, NAME),
    letter: str = "d",
    schema: str = "public",
) -> Definition:
    return Definition(oid, schema, name, letter, tuple(columns))


STOCK = table()


def insert(*row: Cell, of: Definition = STOCK) -> Line:
    return Line(of, "c", None, row)


def update(before: Sequence[Cell], after: Sequence[Cell], of: Definition = STOCK) -> Line:
    return Line(of, "u", before, after)


def delete(*row: Cell, of: Definition = STOCK) -> Line:
    return Line(of, "d", row, None)


def truncate(of: Definition = STOCK) -> Line:
    return Line(of, "t")


class FeedCase(unittest.TestCase):
    """A test over a feed in a folder of its own."""

    base, most = 0, 1 << 30

    def setUp(self) -> None:
        folder = tempfile.TemporaryDirectory()
        self.addCleanup(folder.cleanup)
        self.folder = Path(folder.name)
        self.path = self.folder / "copy.feed"
        self.path.mkdir()
        self.feed = Writer(self.path, self.base, self.most)
        # (the disk of a test machine may be slow)
        patched = mock.patch("os.fsync")
        patched.start()
        self.addCleanup(patched.stop)

    def kept_counted(self) -> tuple[int, dict[Any, Any]]:
        """The LSN and the rows that an example of the documents has in its file, by OID and key,
        each with how often it is there."""
        path = self.folder / "dict"
        if not path.exists():
            return 0, {}
        at, tables = pickle.loads(path.read_bytes())
        rows = ((oid, key, it) for oid, (_, held) in tables.items() for key, it in held.items())
        return at, {(oid, key): it for oid, key, it in rows}

    def kept_dict(self) -> tuple[int, dict[Any, Any]]:
        """The same of rows that are there once."""
        at, found = self.kept_counted()
        self.assertTrue(all(copies == 1 for _, copies in found.values()))
        return at, {key: row for key, (row, _) in found.items()}
