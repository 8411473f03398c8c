"""The tables that a file can't take up: they are set aside, and the others go on.

A table is set aside where an alteration leaves it with values that nobody sends, where a row that
the feed changes isn't in it, and where SQLite or something of the user's forbids its rows. It is
dropped then, so that nobody reads rows of it that aren't right, and noted in `pgsub_aside` by the
transaction that drops it: its OID, its name at the publisher, the LSN since when, and why.
Its changes are passed over from there on, until its rows come anew: a Truncate begins them.
"""

import contextlib
import os
import shlex
import sqlite3
from collections.abc import Iterator
from typing import NamedTuple

from .. import log
from ..errors import Unfit
from ..relation import Relation
from ..texts import lsn_text, parse_lsn
from .names import TABLES

TABLE = "pgsub_aside"
SCHEMA = (
    f"CREATE TABLE IF NOT EXISTS {TABLE} (oid INTEGER PRIMARY KEY, schema TEXT NOT NULL,"
    ' "table" TEXT NOT NULL, since TEXT NOT NULL, why TEXT NOT NULL) STRICT'
)
# What SQLite says where something of the user's has the name that a table is to get.
TAKEN = ("there is already ", " already exists")


class Unkept(Unfit):
    """A table can't be kept any more: why."""

    def __init__(self, relation: Relation, why: str) -> None:
        super().__init__(f"{relation.text()}: {why}")
        self.why = why


# What tells that a table can't be kept, though others can.
CANT_KEEP = (Unkept, sqlite3.IntegrityError, sqlite3.DataError, sqlite3.OperationalError)


@contextlib.contextmanager
def nested(db: sqlite3.Connection) -> Iterator[None]:
    """Undoes a part of the transaction that fails. (A full disk may have ended all of it.)"""
    db.execute("SAVEPOINT nested")
    try:
        yield
    except BaseException:
        if db.in_transaction:
            db.execute("ROLLBACK TO nested")
        raise
    finally:
        if db.in_transaction:
            db.execute("RELEASE nested")


def reason(error: Exception) -> str:
    """Why a table can't be kept. Raises what is wrong with the whole file."""
    is_other = isinstance(error, sqlite3.OperationalError)
    if is_other and not any(it in str(error) for it in TAKEN):
        raise error
    if isinstance(error, Unkept):
        return error.why
    if isinstance(error, sqlite3.DataError):
        return str(error)
    return f"{error}: something of the user's in the file forbids it"


class Aside(NamedTuple):
    """A table that is set aside: its name, since which commit, by the LSN of its end, and why."""

    schema: str
    table: str
    since: int
    why: str

    def name(self) -> str:
        return f"{self.schema}.{self.table}"

    def text(self) -> str:
        return f"since {lsn_text(self.since)}: {self.why}"


def read_asides(db: sqlite3.Connection) -> dict[int, Aside]:
    """By OID those of a file."""
    if not db.execute("SELECT 1 FROM sqlite_schema WHERE name = ?", (TABLE,)).fetchone():
        return {}
    rows = db.execute(f'SELECT oid, schema, "table", since, why FROM {TABLE} ORDER BY oid')
    return {oid: Aside(schema, name, parse_lsn(at), why) for oid, schema, name, at, why in rows}


def shown_asides(db: sqlite3.Connection) -> dict[int, Aside]:
    """Those that somebody may miss: of a table that was made anew another one has its name."""
    named = set(db.execute(f'SELECT schema, "table" FROM {TABLES}'))
    return {oid: it for oid, it in read_asides(db).items() if (it.schema, it.table) not in named}


def cure(store: str, names: list[str]) -> str:
    """What has the rows of tables come anew."""
    words = ["pgsub-connect", "add", "--store", store or "STORE"]
    for name in names:
        words += ["--table", name]
    return shlex.join(words)


def store_at(folder: str) -> str:
    """The store whose feed is in a folder, by the folder's name; "" where it isn't known."""
    store = folder.removesuffix(".feed")
    return store if store != folder and os.path.exists(store + ".connector") else ""


class Asides:
    """Those of the open file. They are told once the transaction has ended."""

    def __init__(self, db: sqlite3.Connection, path: str) -> None:
        self.db, self.path = db, path
        self.known: dict[int, Aside] = {}
        self.told: dict[int, Aside] = {}

    def load(self) -> None:
        self.known = read_asides(self.db)

    def put(self, relation: Relation, since: int, why: str) -> None:
        schema = relation.namespace or "pg_catalog"
        self.write(relation.oid, Aside(schema, relation.name, since, why))

    def write(self, oid: int, it: Aside) -> None:
        self.db.execute(SCHEMA)
        row = (oid, it.schema, it.table, lsn_text(it.since), it.why)
        self.db.execute(f"INSERT OR REPLACE INTO {TABLE} VALUES (?, ?, ?, ?, ?)", row)
        self.known[oid] = it

    def rename(self, relation: Relation) -> None:
        """Notes the name that a table has now."""
        schema, was = relation.namespace or "pg_catalog", self.known[relation.oid]
        if (was.schema, was.table) != (schema, relation.name):
            self.write(relation.oid, was._replace(schema=schema, table=relation.name))

    def drop(self, oid: int) -> None:
        """A table is set aside no more."""
        if self.known.pop(oid, None):
            self.db.execute(f"DELETE FROM {TABLE} WHERE oid = ?", (oid,))

    def tell(self, folder: str) -> None:
        """Tells which are set aside now, and which no more, but for what was told before."""
        now, before = shown_asides(self.db), self.told
        self.told = now
        for it in [it for oid, it in now.items() if before.get(oid) != it]:
            anew = cure(store_at(folder), [it.name()])
            text = f"{it.name()} is set aside in {self.path} {it.text()}"
            log.warning(f"{text}. Its rows come anew by: {anew}")
        for it in [it for oid, it in before.items() if oid not in now]:
            log.info(f"{it.name()} is in {self.path} again")
