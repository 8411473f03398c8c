"""What a store's file holds: docs/ARCHITECTURE.md, "The file of a store"."""

from __future__ import annotations

import sqlite3
from dataclasses import dataclass, field

# the tables, as SQLite keeps their texts
TABLES = {
    "rel": "CREATE TABLE rel (oid INTEGER PRIMARY KEY NOT NULL, nsp TEXT NOT NULL, name TEXT NOT NULL, letter INTEGER NOT NULL, "
    "cols BLOB NOT NULL) STRICT",
    "held": "CREATE TABLE held (oid INTEGER NOT NULL, ident BLOB NOT NULL, body BLOB NOT NULL, copies INTEGER NOT NULL, "
    "PRIMARY KEY (oid, ident)) STRICT",
    "pos": "CREATE TABLE pos (id INTEGER PRIMARY KEY NOT NULL CHECK (id = 0), lsn BLOB NOT NULL) STRICT",
}
# what keeps the rows of `held` apart; SQLite makes it with the table
INDEX = "sqlite_autoindex_held_1"


@dataclass(frozen=True)
class Relation:
    """A definition. An empty namespace means pg_catalog."""

    namespace: str
    name: str
    letter: int
    columns: bytes


@dataclass(frozen=True)
class Row:
    """A row under its OID and identity."""

    body: bytes
    copies: int


Key = tuple[int, bytes]


@dataclass
class Contents:
    """Definitions by OID, rows by OID and identity, and the position."""

    relations: dict[int, Relation] = field(default_factory=dict)
    rows: dict[Key, Row] = field(default_factory=dict)
    position: int = 0


def make_tables(base: sqlite3.Connection) -> None:
    """Makes the tables of a new store, inside the caller's transaction."""
    for text in TABLES.values():
        base.execute(text)
    base.execute("INSERT INTO pos (id, lsn) VALUES (0, ?)", (bytes(8),))


def read(base: sqlite3.Connection) -> Contents:
    """Reads the tables of a sound store."""
    found = Contents()
    for oid, namespace, name, letter, columns in base.execute(
        "SELECT oid, nsp, name, letter, cols FROM rel"
    ):
        found.relations[oid] = Relation(namespace, name, letter, columns)
    for oid, identity, body, copies in base.execute("SELECT oid, ident, body, copies FROM held"):
        found.rows[oid, identity] = Row(body, copies)
    (lsn,) = base.execute("SELECT lsn FROM pos").fetchone()
    found.position = int.from_bytes(lsn, "big")
    return found


def shortened(it: object) -> str:
    text = str(it)
    return text if len(text) < 300 else f"{text[:200]} .. {text[-80:]}"


def differences(found: Contents, wanted: Contents) -> list[str]:
    """What one store holds that another doesn't, a line for each."""
    told = []
    if found.position != wanted.position:
        told.append(f"the position is {found.position:X}, not {wanted.position:X}")
    for oid in sorted(found.relations.keys() | wanted.relations.keys()):
        here, there = found.relations.get(oid), wanted.relations.get(oid)
        if here != there:
            told.append(f"relation {oid} is {shortened(here)}, not {shortened(there)}")
    for key in sorted(found.rows.keys() | wanted.rows.keys()):
        row, other = found.rows.get(key), wanted.rows.get(key)
        if row != other:
            told.append(
                f"the row {key[0]} {shortened(key[1].hex())} is {shortened(row)}, not {shortened(other)}"
            )
    return told
