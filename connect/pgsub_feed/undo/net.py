"""What commits have made of the rows of tables: of each row what it was before them and is now, in a
temporary file of SQLite, since there may be more of them than memory.

SQLite makes the file where TMPDIR says, or in /var/tmp, and it has no name: it goes with the
process. What its cache holds isn't written.
"""

import json
import sqlite3
from collections.abc import Iterator
from hashlib import blake2b
from typing import NamedTuple

from ..formats.keys import key_of
from ..json_texts import compact
from ..reader.commits import Cell, Change
from ..relation import Column, Relation

Row = tuple[Cell, ...]
# How many KiB of the file stay in memory.
CACHE = 64 << 10
# Of a row: what was told of its last change; before and now, as lists of JSON, null where there was
# none; a digest of what it is now, and of its key then and now.
ROWS = """
CREATE TABLE rows (
  seq INTEGER PRIMARY KEY, t INTEGER, told TEXT, was TEXT, now TEXT, image BLOB, key BLOB, old BLOB
)"""
BY_IMAGE = "CREATE INDEX by_image ON rows (t, image) WHERE image IS NOT NULL"
BY_KEYS = (
    "CREATE INDEX IF NOT EXISTS by_key ON rows (t, key) WHERE key IS NOT NULL",
    "CREATE INDEX IF NOT EXISTS by_old ON rows (t, old) WHERE old IS NOT NULL",
)
LAST = "SELECT seq, was, now, old FROM rows WHERE t = ? AND image = ? ORDER BY seq DESC LIMIT 1"
ADD = "INSERT INTO rows (t, told, was, now, image, key, old) VALUES (?, ?, ?, ?, ?, ?, ?)"
# Those that were changed, as each has come.
CHANGED = (
    "SELECT told, was, now FROM rows WHERE t = :t AND was IS NOT now ORDER BY now IS NULL, seq"
)
# Whether no two rows have one key, before and now.
HAS_KEY = "SELECT count(DISTINCT old) = count(old) AND count(DISTINCT key) = count(key) FROM rows WHERE t = ?"
# The row before and the row after as one where their key is the same; a row whose key nobody has now
# has changed it.
PAIRED = """
SELECT told, was, now FROM (
  SELECT r.told, r.now, CASE WHEN p.seq IS NOT NULL THEN p.was WHEN NOT EXISTS (
      SELECT 1 FROM rows a WHERE a.t = :t AND a.key = r.old) THEN r.was END AS was
    FROM rows r LEFT JOIN rows p ON p.t = :t AND p.old = r.key
    WHERE r.t = :t AND r.now IS NOT NULL ORDER BY r.seq)
  WHERE was IS NOT now"""
LEFT = """
SELECT told, was, NULL FROM rows p WHERE t = :t AND was IS NOT NULL
  AND NOT EXISTS (SELECT 1 FROM rows r WHERE r.t = :t AND r.key = p.old)
  AND (now IS NULL OR EXISTS (SELECT 1 FROM rows q WHERE q.t = :t AND q.old = p.key))
  ORDER BY now IS NULL, seq"""


class Changed(NamedTuple):
    """A row: before and after, None where there was none. `told` is the change that was last."""

    told: str
    was: Row | None
    now: Row | None


class File:
    """The file."""

    def __init__(self) -> None:
        self.db = sqlite3.connect("", isolation_level=None)
        for it in ("journal_mode = OFF", "synchronous = OFF", f"cache_size = -{CACHE}"):
            self.db.execute(f"PRAGMA {it}")
        self.db.execute("BEGIN")
        self.db.execute(ROWS)
        self.db.execute(BY_IMAGE)

    def close(self) -> None:
        self.db.close()


class Net:
    """The rows of a table that were changed, each once, whatever became of it meanwhile. `t`: the
    table's number there."""

    def __init__(self, file: File, t: int, relation: Relation) -> None:
        self.db, self.t, self.relation = file.db, t, relation
        # the columns by which rows are told apart all along, none where there are none
        self.key = key_of(relation)

    def describe(self, relation: Relation) -> bool:
        """Takes the definition of the next changes up. Returns whether its columns are the same."""
        is_same = columns_of(relation) == columns_of(self.relation)
        self.key = self.key if key_of(relation) == self.key else []
        self.relation = relation
        return is_same

    def take(self, change: Change, told: str) -> None:
        was: str | None = None
        old: bytes | None = None
        if change.before is not None:
            was, old = self.origin(change.before)
        if change.after is not None:
            now = compact(list(change.after))
            self.add(told, was, now, digest(now), self.key_of(change.after), old)
        elif was is not None:
            self.add(told, was, None, None, None, old)

    def add(self, *row: str | bytes | None) -> None:
        self.db.execute(ADD, (self.t, *row))

    def origin(self, row: list[Cell]) -> tuple[str | None, bytes | None]:
        """What a row that is changed was before all of it, with its key; None where it wasn't
        there. Of equal ones it is the last."""
        text = compact(list(row))
        found = self.db.execute(LAST, (self.t, digest(text))).fetchone()
        if found is None or found[2] != text:
            return text, self.key_of(row)
        self.db.execute("DELETE FROM rows WHERE seq = ?", found[:1])
        return found[1], found[3]

    def key_of(self, row: list[Cell]) -> bytes | None:
        """A digest of a row's key, None where it has none."""
        return digest(compact([row[at] for at in self.key])) if self.key else None

    def changed(self) -> Iterator[Changed]:
        """The rows that aren't what they were, as the file has them."""
        queries = [CHANGED]
        if self.key:
            for it in BY_KEYS:
                self.db.execute(it)
            # (where they are fewer, the key hasn't told them apart)
            if self.db.execute(HAS_KEY, (self.t,)).fetchone()[0]:
                queries = [PAIRED, LEFT]
        for query in queries:
            for told, was, now in self.db.execute(query, {"t": self.t}):
                yield Changed(told, row_of(was), row_of(now))


def digest(text: str) -> bytes:
    return blake2b(text.encode(), digest_size=16).digest()


def row_of(text: str | None) -> Row | None:
    return None if text is None else tuple(json.loads(text))


def columns_of(relation: Relation) -> list[tuple[str, int, int]]:
    return [plain(it) for it in relation.shape.columns]


def plain(it: Column) -> tuple[str, int, int]:
    return it.name, it.type_oid, it.modifier
