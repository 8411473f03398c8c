"""A user's own SQL for indexes and views, run again where a table was made or altered."""

import sqlite3
from collections.abc import Iterator

from .. import log
from ..errors import FileError, told_of
from .sqlite_files import FULL

# What passes: a table that isn't there yet, and what is there already.
PASSED = ("no such ", "already exists")
DENIED = {sqlite3.SQLITE_TRANSACTION, sqlite3.SQLITE_SAVEPOINT}
DENIED |= {sqlite3.SQLITE_ATTACH, sqlite3.SQLITE_DETACH}


def statements(text: str) -> Iterator[str]:
    """The statements of a text."""
    first = at = 0
    while (at := text.find(";", at) + 1) > 0:
        if sqlite3.complete_statement(text[first:at]):
            yield text[first:at].strip()
            first = at
    if rest := text[first:].strip():
        yield rest


def allow(action: int, *_: object) -> int:
    return sqlite3.SQLITE_DENY if action in DENIED else sqlite3.SQLITE_OK


def has_triggers(db: sqlite3.Connection) -> bool:
    """Whether something of the user's sees each change of some table."""
    return bool(db.execute("SELECT 1 FROM sqlite_schema WHERE type = 'trigger' LIMIT 1").fetchone())


def has_unique_indexes(db: sqlite3.Connection, table: str) -> bool:
    """Whether a table has unique indexes of the user's, beside its own key."""
    query = """SELECT 1 FROM pragma_index_list(?) WHERE "unique" AND origin <> 'pk'"""
    return bool(db.execute(query, (table,)).fetchone())


class Added:
    """What a user has added to the tables of a file, looked at once for each state of its schema.

    Whatever alters that, here or in another process, gives it another number. A transaction that is
    undone takes its number back, which another state may get next: so it is looked at there too.
    """

    def __init__(self, db: sqlite3.Connection) -> None:
        self.db, self.version = db, -1
        self.triggers: bool | None = None
        self.unique = dict[str, bool]()

    def look(self) -> None:
        """Forgets what was of another state of the schema."""
        version = self.db.execute("PRAGMA schema_version").fetchone()[0]
        if version != self.version:
            self.forget()
            self.version = version

    def forget(self) -> None:
        self.version, self.triggers = -1, None
        self.unique.clear()

    def has_triggers(self) -> bool:
        self.look()
        if self.triggers is None:
            self.triggers = has_triggers(self.db)
        return self.triggers

    def has_unique_indexes(self, table: str) -> bool:
        self.look()
        if table not in self.unique:
            self.unique[table] = has_unique_indexes(self.db, table)
        return self.unique[table]


class Init:
    """The statements of a file. They are run in the transaction that made or altered the table."""

    def __init__(self, path: str) -> None:
        self.path = path
        self.told: set[str] = set()
        try:
            with told_of(path), open(path, encoding="utf-8") as file:
                self.statements = list(statements(file.read()))
        except UnicodeDecodeError:
            raise FileError(f"{path}: it isn't in UTF-8") from None

    def run(self, db: sqlite3.Connection) -> None:
        db.set_authorizer(allow)
        try:
            for it in self.statements:
                self.run_one(db, it)
        finally:
            db.set_authorizer(lambda *_: sqlite3.SQLITE_OK)

    def run_one(self, db: sqlite3.Connection, statement: str) -> None:
        try:
            db.execute(statement)
        except sqlite3.OperationalError as error:
            if FULL in str(error):
                # (whatever else is written would tell the same)
                raise
            if not any(it in str(error) for it in PASSED):
                raise FileError(f"{self.path}: {error}: {statement[:100]}") from None
            if statement not in self.told:
                self.told.add(statement)
                log.info(f"{self.path}: passed over, {error}: {statement[:100]}")
        except sqlite3.Error as error:
            raise FileError(f"{self.path}: {error}: {statement[:100]}") from None
