"""What a store's file holds, as docs/ARCHITECTURE.md says: position, definitions and rows; and the
files of a copy of a store, of which one is made."""

import contextlib
import dataclasses
import os
import sqlite3
import urllib.parse

from pgsub_feed import log, ownership
from pgsub_feed.errors import FileError
from pgsub_feed.relation import Relation, Shape
from pgsub_feed.tables.sqlite_files import is_export
from pgsub_feed.tables.values import Malformed, read_columns

from ..drift.remembered import Remembered

STORED = {"rel", "held", "pos"}


def read_position(store: sqlite3.Connection) -> int:
    row = store.execute("SELECT lsn FROM pos").fetchone()
    if row is None or not isinstance(row[0], bytes) or len(row[0]) != 8:
        raise Malformed
    return int.from_bytes(row[0], "big")


def read_relations(store: sqlite3.Connection) -> dict[int, Relation]:
    """The store's definitions, by OID. An empty namespace is pg_catalog, as in the protocol."""
    found = {}
    rows = store.execute("SELECT oid, nsp, name, letter, cols FROM rel")
    for oid, namespace, name, letter, columns in rows:
        shape = Shape(chr(letter), read_columns(columns))
        found[oid] = Relation(oid, namespace or "pg_catalog", name, shape)
    return found


Named = dict[tuple[str, str], list[Relation]]


def named_at(stored: dict[int, Relation], remembered: Remembered, position: int) -> Named:
    """By their names at a position the tables of the store, and the published ones that have no
    rows.

    What the server has changed after the position isn't looked at.
    """
    names = ((key, it) for key, it in remembered.names.items() if it.oid is not None)
    since = {it.oid: (key, it.since) for key, it in names}
    named: Named = {}
    for relation in stored.values():
        held = since.get(relation.oid)
        if held and held[1] <= position:
            relation = dataclasses.replace(relation, namespace=held[0][0], name=held[0][1])
        named.setdefault((relation.namespace, relation.name), []).append(relation)
    for table in remembered.catalog.tables.values() if remembered.catalog else ():
        key, lsn = since.get(table.oid, ((table.namespace, table.name), 0))
        if table.oid not in stored and (lsn <= position or key not in named):
            named.setdefault(key, []).append(Relation(table.oid, *key, table.shape))
    return named


def choose(stored: dict[int, Relation], remembered: Remembered, position: int) -> list[Relation]:
    """The tables of an export: of those that have had one name, that which has it now."""
    chosen = []
    for key, relations in sorted(named_at(stored, remembered, position).items()):
        name = remembered.names.get(key)
        last = last_of(relations, name.oid if name and name.since <= position else None)
        older = ", ".join(str(it.oid) for it in relations if it is not last and it.oid in stored)
        if older:
            text = f"another table had this name before, {older}: its rows are left out"
            log.warning(f"{last.text()}: {text}")
        chosen.append(last)
    return chosen


def last_of(relations: list[Relation], current: int | None) -> Relation:
    """Of tables that have had one name, that which has it, or else the greatest OID."""
    return max(relations, key=lambda it: (it.oid == current, it.oid))


def opened(path: str) -> sqlite3.Connection:
    """Opens a file at rest, without locks or anything made beside it."""
    name = f"file:{urllib.parse.quote(os.fsencode(os.path.abspath(path)))}?mode=ro&immutable=1"
    store = sqlite3.connect(name, uri=True, isolation_level=None)
    store.text_factory = lambda it: it.decode(errors="backslashreplace")
    return store


def tables_in(path: str) -> set[str]:
    """The names of a database's tables; none where it is no database."""
    try:
        with contextlib.closing(opened(path)) as store:
            rows = store.execute("SELECT name FROM sqlite_master WHERE type = 'table'")
            return {row[0] for row in rows}
    except sqlite3.Error:
        return set()


def is_store(path: str) -> bool:
    """Whether a file has the tables of a store."""
    return tables_in(path) == STORED


def check_store(path: str, told: str) -> None:
    """Rejects a file that isn't a store's."""
    if not is_store(path):
        what = "is an export, and no store" if is_export(path) else "isn't a store of pgsub"
        raise FileError(f"{told}: it {what}")


# What a file that is being made has behind its name.
NEW = ".pgsub-new"


def fold(path: str) -> None:
    """Puts a copied log into its file: whoever may read the file can open it then."""
    with contextlib.closing(sqlite3.connect(path, isolation_level=None)) as store:
        store.execute("PRAGMA synchronous = FULL")
        store.execute("PRAGMA journal_mode = DELETE")
    with ownership.opened(path) as file:
        os.fsync(file)


def position_in(path: str) -> int | None:
    """The position of a store in one file; None where it has none."""
    try:
        with contextlib.closing(opened(path)) as store:
            row = store.execute("SELECT lsn FROM pos").fetchone()
    except sqlite3.DatabaseError:
        return None
    return int.from_bytes(row[0], "big") if row else None
