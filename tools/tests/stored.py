"""Stores that SQLite makes for tests, and the trees of their files, each without the other."""

import contextlib
import random
import sqlite3
from collections.abc import Iterator
from pathlib import Path

from stores.contents import INDEX, TABLES, Contents, Relation, Row

STOCK, LOG = 16384, 16386
# key flag, name, type OID, type modifier
ID, NAME = b"\1id\0\0\0\0\x17\xff\xff\xff\xff", b"\0name\0\0\0\0\x19\xff\xff\xff\xff"
KEYED = Relation("public", "stock", ord("d"), b"\0\2" + ID + NAME)
FULL = Relation("", "log", ord("f"), b"\0\1" + NAME)

PLAIN = "CREATE TABLE held (oid INTEGER, ident BLOB, body BLOB, copies INTEGER)"
# a table without rowids is such a tree as the index, entry by entry
ENTRIES = "CREATE TABLE entries (oid INTEGER, ident BLOB, number INTEGER, PRIMARY KEY (oid, ident, number)) WITHOUT ROWID"


def cell(content: bytes) -> bytes:
    return b"t" + len(content).to_bytes(4, "big") + content


def keyed_row(number: int, name: bytes) -> tuple[tuple[int, bytes], Row]:
    key = cell(b"%d" % number)
    return (STOCK, b"\0\1" + key), Row(b"\0\2" + key + cell(name), 1)


def full_row(name: bytes, copies: int) -> tuple[tuple[int, bytes], Row]:
    body = b"\0\1" + cell(name)
    return (LOG, body), Row(body, copies)


def random_contents(rng: random.Random, most: int) -> Contents:
    """Two tables of up to so many rows each, some of them longer than a page."""
    made = Contents({STOCK: KEYED, LOG: FULL}, {}, rng.getrandbits(64))
    for _ in range(rng.randint(0, most)):
        name = rng.randbytes(int(10 ** rng.uniform(0, 3))).hex().encode()
        made.rows.update(
            [keyed_row(rng.randint(0, 2 * most), name), full_row(name, rng.randint(1, 3))]
        )
    if rng.random() < 0.3:
        made.relations[STOCK] = Relation("other", "stock", ord("i"), KEYED.columns)
    return made


@contextlib.contextmanager
def opened(path: Path) -> Iterator[sqlite3.Connection]:
    with contextlib.closing(sqlite3.connect(path, isolation_level=None)) as base:
        base.execute("PRAGMA synchronous = OFF")
        yield base


def put_objects(path: Path, *objects: tuple[str, str, str, int, str | None]) -> None:
    """Puts these objects in the place of the table `held`, of its index and of what stands for
    them."""
    with opened(path) as base:
        base.execute("PRAGMA writable_schema = ON")
        base.execute(
            "DELETE FROM sqlite_schema WHERE name IN (?, ?, ?)", ("held", INDEX, "entries")
        )
        base.executemany("INSERT INTO sqlite_schema VALUES (?, ?, ?, ?, ?)", objects)


@contextlib.contextmanager
def trees(path: Path) -> Iterator[sqlite3.Connection]:
    """Opens a store's file with its rows as the table `held` and its index as the table `entries`,
    that don't know of each other."""
    with opened(path) as base:
        roots = dict(base.execute("SELECT name, rootpage FROM sqlite_schema"))
    put_objects(
        path,
        ("table", "held", "held", roots["held"], PLAIN),
        ("table", "entries", "entries", roots[INDEX], ENTRIES),
    )
    with opened(path) as base:
        yield base
    put_objects(
        path,
        ("table", "held", "held", roots["held"], TABLES["held"]),
        ("index", INDEX, "held", roots[INDEX], None),
    )
