"""A writer that takes a store's file from what it holds to what it shall hold, by SQL text: as any
program with SQLite may.

Of the statements that do the same it takes one or another, at random.
"""

from __future__ import annotations

import contextlib
import os
import random
import shutil
import sqlite3
from collections.abc import Iterator
from pathlib import Path

from .contents import Contents, Key, Relation, Row, make_tables
from .sound import log_of

Statement = tuple[str, tuple[object, ...]]

PAGE_SIZES = (512, 1024, 2048, 4096, 8192, 16384, 32768, 65536)
# some rows get a number that nobody counted to
ROWIDS = ((-(2**63), -1), (-40, 40), (1, 300), (2**31 - 3, 2**31 + 3), (2**47, 2**48))

ADD_ROW = "INSERT INTO held (oid, ident, body, copies) VALUES (?, ?, ?, ?)"
PUT_ROW = "REPLACE INTO held (oid, ident, body, copies) VALUES (?, ?, ?, ?)"
ADD_NUMBERED = "INSERT OR IGNORE INTO held (rowid, oid, ident, body, copies) VALUES (?, ?, ?, ?, ?)"
SET_ROW = "UPDATE held SET body = ?, copies = ? WHERE oid = ? AND ident = ?"
MOVE_ROW = "UPDATE held SET ident = ?, body = ?, copies = ? WHERE oid = ? AND ident = ?"
DELETE_ROW = "DELETE FROM held WHERE oid = ? AND ident = ?"
DELETE_ROWS = "DELETE FROM held WHERE oid = ?"
PUT_RELATION = "REPLACE INTO rel (oid, nsp, name, letter, cols) VALUES (?, ?, ?, ?, ?)"
SET_RELATION = (
    "INSERT INTO rel (oid, nsp, name, letter, cols) VALUES (?, ?, ?, ?, ?) ON CONFLICT (oid) DO UPDATE "
    "SET nsp = excluded.nsp, name = excluded.name, letter = excluded.letter, cols = excluded.cols"
)
SET_POSITION = "UPDATE pos SET lsn = ? WHERE id = 0"


def oids_of(rows: dict[Key, Row]) -> set[int]:
    return {oid for oid, _ in rows}


class Plan:
    """The statements that take a store from one content to another."""

    def __init__(self, rng: random.Random, before: Contents, after: Contents):
        self.rng, self.before, self.after = rng, before, after
        self.removed = [key for key in before.rows if key not in after.rows]
        self.added = [key for key in after.rows if key not in before.rows]
        self.changed = [key for key, row in after.rows.items() if before.rows.get(key, row) != row]
        for keys in (self.removed, self.added):
            rng.shuffle(keys)

    def statements(self) -> list[Statement]:
        first = self.emptied()
        others = [
            *self.moved(),
            *self.deleted(),
            *self.inserted(),
            *self.updated(),
            *self.defined(),
        ]
        others.append((SET_POSITION, (self.after.position.to_bytes(8, "big"),)))
        self.rng.shuffle(others)
        return first + others

    def emptied(self) -> list[Statement]:
        """One statement for each table that loses all of its rows, mostly."""
        gone = oids_of(self.before.rows) - {
            oid for oid, identity in self.before.rows if (oid, identity) in self.after.rows
        }
        gone = {oid for oid in gone if self.rng.random() < 0.8}
        self.removed = [key for key in self.removed if key[0] not in gone]
        return [(DELETE_ROWS, (oid,)) for oid in sorted(gone)]

    def moved(self) -> Iterator[Statement]:
        """Rows that get another identity and keep their place."""
        for key in self.removed[:]:
            other = next((it for it in self.added if it[0] == key[0]), None)
            if other and self.rng.random() < 0.6:
                self.removed.remove(key)
                self.added.remove(other)
                row = self.after.rows[other]
                yield MOVE_ROW, (other[1], row.body, row.copies, *key)

    def deleted(self) -> Iterator[Statement]:
        for key in self.removed:
            yield DELETE_ROW, key

    def inserted(self) -> Iterator[Statement]:
        for key in self.added:
            row = self.after.rows[key]
            yield self.rng.choice((ADD_ROW, PUT_ROW)), (*key, row.body, row.copies)

    def updated(self) -> Iterator[Statement]:
        for key in self.changed:
            row = self.after.rows[key]
            if self.rng.random() < 0.7:
                yield SET_ROW, (row.body, row.copies, *key)
            else:
                yield PUT_ROW, (*key, row.body, row.copies)

    def defined(self) -> Iterator[Statement]:
        for oid, relation in self.after.relations.items():
            if self.before.relations.get(oid) != relation:
                yield self.rng.choice((PUT_RELATION, SET_RELATION)), (oid, *fields_of(relation))


def fields_of(relation: Relation) -> tuple[str, str, int, bytes]:
    return relation.namespace, relation.name, relation.letter, relation.columns


class Writer:
    """Writes to a store's file. Each call opens it and leaves it at rest."""

    def __init__(self, path: Path, rng: random.Random):
        self.path, self.rng = path, rng

    @contextlib.contextmanager
    def opened(self) -> Iterator[sqlite3.Connection]:
        with contextlib.closing(sqlite3.connect(self.path, isolation_level=None)) as base:
            # (the machine isn't switched off here)
            base.execute("PRAGMA synchronous = OFF")
            yield base

    def make(self, page_size: int) -> None:
        """Makes the file, with the tables of a new store."""
        with self.opened() as base:
            base.execute(f"PRAGMA page_size = {page_size}")
            base.execute("PRAGMA journal_mode = WAL")
            base.execute("BEGIN")
            make_tables(base)
            base.execute("COMMIT")

    def write(self, before: Contents, after: Contents) -> None:
        """Takes the file from what it holds to what it shall hold, in one transaction."""
        with self.opened() as base:
            self.execute(base, before, after)

    def write_log(self, before: Contents, after: Contents) -> None:
        """The same, but leaves the file as after a crash: what was written stands in the log
        alone."""
        saved = self.path.with_name(self.path.name + ".saved")
        with self.opened() as base:
            base.execute("PRAGMA wal_autocheckpoint = 0")
            # (so that pages go to the log before their commit)
            base.execute("PRAGMA cache_size = 1")
            self.leave_in_log(base)
            self.execute(base, before, after)
            if self.rng.random() < 0.3:
                self.change_nothing(base)
            shutil.copyfile(self.path, saved)
            shutil.copyfile(log_of(self.path), log_of(saved))
        os.replace(saved, self.path)
        os.replace(log_of(saved), log_of(self.path))

    def leave_in_log(self, base: sqlite3.Connection) -> None:
        """Leaves pages in the log that are nothing to the next commit: rolled back, or in the file
        already."""
        luck = self.rng.random()
        if luck < 0.3:
            self.change_nothing(base)
            base.execute("ROLLBACK")
        elif luck < 0.6:
            self.change_nothing(base)
            base.execute("COMMIT")
            base.execute("PRAGMA wal_checkpoint")

    def change_nothing(self, base: sqlite3.Connection) -> None:
        """Begins a transaction that writes each page of the rows as it is."""
        base.execute("BEGIN IMMEDIATE")
        base.execute("UPDATE held SET body = body, ident = ident")

    def execute(self, base: sqlite3.Connection, before: Contents, after: Contents) -> None:
        base.execute("BEGIN IMMEDIATE")
        for text, values in Plan(self.rng, before, after).statements():
            if text == ADD_ROW and self.rng.random() < 0.1:
                values = (self.rng.randint(*self.rng.choice(ROWIDS)), *values)
                if base.execute(ADD_NUMBERED, values).rowcount == 1:
                    continue
                values = values[1:]
            if base.execute(text, values).rowcount < 1:
                raise ValueError(f"{text} changes nothing")
        base.execute("COMMIT")

    def vacuum(self, page_size: int | None = None) -> None:
        """Writes the whole file anew, with pages of another size where one is given."""
        with self.opened() as base:
            if page_size:
                base.execute("PRAGMA journal_mode = DELETE")
                base.execute(f"PRAGMA page_size = {page_size}")
            base.execute("VACUUM")
            base.execute("PRAGMA journal_mode = WAL")
