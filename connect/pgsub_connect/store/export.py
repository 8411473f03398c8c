"""`pgsub-connect export`: ordinary tables of SQLite from the rows of a store, as of its position.

| Table | Has |
|---|---|
| `pgsub_position` | `lsn`, the store's position |
| `pgsub_tables` | by `name`, that of a table here: `schema`, `table` and `oid` of the publisher's |
| `pgsub_relations` | by `oid` the definition, as in a file that follows a feed |
| any other | the rows of one of the publisher's tables |
"""

import contextlib
import dataclasses
import sqlite3
from collections.abc import Callable, Collection, Iterable, Iterator, Mapping, Sequence
from functools import partial

from pgsub_feed import log
from pgsub_feed.errors import FileError, Passing, Stopped, Unfit
from pgsub_feed.files import placed
from pgsub_feed.interruption import Check, is_ended
from pgsub_feed.known_tables import KnownTables
from pgsub_feed.log import Meter
from pgsub_feed.relation import Relation
from pgsub_feed.tables.indexes import Indexes, primary_key
from pgsub_feed.tables.names import OLD, POSITION, TABLES, name_tables, names_of
from pgsub_feed.tables.schema import RELATIONS, SCHEMA, definition
from pgsub_feed.tables.sqlite_files import EXPORT as APPLICATION, check_sqlite, failed, is_export
from pgsub_feed.tables.target import Target, key_index, unlike_reason
from pgsub_feed.tables.values import BOTH, SPOILED, Malformed, Unlike, Value
from pgsub_feed.texts import counted, identifier, lsn_text

from ..drift.remembered import Remembered
from .at_rest import at_rest
from .file import check_store, choose, opened, read_position, read_relations
from .placing import check_into

# How much of the rows waits for being written, in bytes.
ROOM = 1 << 20
# What a row takes beside its bytes.
ROW = 200
# How many steps SQLite makes until it is asked whether to end.
STEPS = 1_000_000


# A row: the OID of its table, its cells, and how many of it there are.
Held = tuple[int, bytes, int]


@dataclasses.dataclass(frozen=True)
class ExportSettings:
    """Which store is exported into which file. `form`: how numerics or values are kept; `chosen`:
    the named tables, all where there are none; `has_indexes`: with the server's indexes."""

    store: str
    into: str
    form: str = BOTH
    chosen: Sequence[str] = ()
    mode: int = 0o600
    has_indexes: bool = False


# What is told how many rows are written.
Note = Callable[[int], None]


class Export:
    """Fills a new file, in one transaction and constant memory; nothing is kept to go back."""

    def __init__(
        self, into: sqlite3.Connection, settings: ExportSettings, check: Check, note: Note
    ) -> None:
        self.into, self.settings, self.check, self.note = into, settings, check, note

    def run(
        self,
        remembered: Remembered,
        position: int,
        stored: dict[int, Relation],
        held: Iterable[Held],
    ) -> tuple[int, int, int]:
        """Writes it all. Returns the position, how many tables there are, and how many rows."""
        relations = named(choose(stored, remembered, position), self.settings.chosen)
        tables = remembered.catalog.tables if remembered.catalog else {}
        primary = {oid: it.primary for oid, it in tables.items()}
        keys = {it.oid: primary_key(primary.get(it.oid, ()), it) for it in relations}
        self.begin(position, relations, keys)
        self.copy_rows(stored, held)
        if self.settings.has_indexes:
            known = KnownTables(self.settings.store)
            Indexes(known).make(self.into, self.targets.values())
        self.into.execute("COMMIT")
        return position, len(self.targets), sum(it.rows for it in self.targets.values())

    def begin(
        self, position: int, relations: list[Relation], keys: Mapping[int, Collection[str]]
    ) -> None:
        """Makes the tables, with these primary keys by their OIDs."""
        into = self.into
        settings = "journal_mode = MEMORY", "synchronous = OFF", "cache_size = -8000"
        for pragma in (*settings, f"application_id = {APPLICATION}"):
            into.execute(f"PRAGMA {pragma}")
        into.execute("BEGIN")
        for statement in SCHEMA:
            into.execute(statement)
        into.execute(f"UPDATE {POSITION} SET lsn = ?", (lsn_text(position),))
        names = name_tables((it.oid, it.namespace, it.name) for it in relations)
        self.targets = {
            it.oid: Target(names[it.oid], it, self.settings.form, keys[it.oid]) for it in relations
        }
        for oid, target in self.targets.items():
            it = target.relation
            row, told = (target.name, it.namespace, it.name, oid), definition(target)
            into.execute(f"INSERT INTO {TABLES} VALUES (?, ?, ?, ?)", row)
            into.execute(f"INSERT INTO {RELATIONS} VALUES (?, ?, ?)", (oid, target.name, told))
            into.execute(target.definition())

    def copy_rows(self, stored: dict[int, Relation], held: Iterable[Held]) -> None:
        """Copies all rows, in the order in which they come."""
        target, last, room = None, None, ROOM
        for oid, body, copies in held:
            if oid != last:
                target, last = self.targets.get(oid), oid
                if target is None and oid not in stored:
                    raise Malformed
            if target is None:
                # (of an older table whose name another one has, or one that wasn't chosen)
                continue
            target.waiting.append(body)
            target.copies.append(copies)
            room -= len(body) + ROW
            if room < 0:
                self.write()
                room = ROOM
        self.write()
        for target in self.targets.values():
            if target.key and not target.is_keyed:
                index = identifier(key_index(target.relation.oid))
                make = f"CREATE INDEX {index} ON {identifier(target.name)} ({target.keys()})"
                self.into.execute(make)

    def values(self, target: Target, bodies: list[bytes]) -> list[Value]:
        try:
            return target.row_values(bodies)
        except Unlike as unlike:
            text = f"{target.text()}: {unlike_reason(target.relation, unlike)}"
            raise Unfit(f"{text}. Copy anew, or export each value as a text by --text") from None

    def write(self) -> None:
        """Writes the rows that wait."""
        self.check()
        for target in self.targets.values():
            if target.waiting:
                self.write_table(target)
        self.note(sum(it.rows for it in self.targets.values()))

    def write_table(self, target: Target) -> None:
        bodies, copies = target.take()
        values = self.values(target, bodies)
        if target.have_null_keys(values):
            self.loosen(target)
        for some in repeated(values, bodies, copies, self.check):
            before = self.into.total_changes
            try:
                target.insert(self.into, some)
            except sqlite3.IntegrityError:
                done = self.into.total_changes - before
                self.loosen(target)
                target.insert(self.into, some[done * len(target.columns) :])

    def loosen(self, target: Target) -> None:
        """Makes a table anew whose key can't be a primary key: of null or equal values."""
        log.warning(
            f"{target.text()}: rows have null in the key, or equal keys: the table has an index in place of a primary key"
        )
        target.loosen()
        name = identifier(target.name)
        self.into.execute(f"ALTER TABLE {name} RENAME TO {OLD}")
        self.into.execute(target.definition())
        self.into.execute(f"INSERT INTO {name} SELECT * FROM {OLD} ORDER BY rowid")
        self.into.execute(f"DROP TABLE {OLD}")


def named(relations: list[Relation], names: Sequence[str]) -> list[Relation]:
    """Those with these names; all where there are none."""
    known = {name: it for it in relations for name in names_of(it.namespace, it.name)}
    if unknown := [it for it in names if it not in known]:
        raise FileError(f"the store has no table {unknown[0]}")
    return [it for it in relations if not names or names_of(it.namespace, it.name) & set(names)]


def repeated(
    values: list[Value], bodies: list[bytes], copies: list[int], check: Check
) -> Iterator[list[Value]]:
    """The values of rows, each row as often as it is there, some at a time."""
    if copies.count(1) == len(copies):
        yield values
        return
    width, some, room = len(values) // len(bodies), list[Value](), ROOM
    for at, (body, left) in enumerate(zip(bodies, copies, strict=True)):
        row, size = values[at * width : (at + 1) * width], len(body) + ROW
        while left:
            part = min(left, max(room // size, 1))
            some += row * part
            left, room = left - part, room - part * size
            if room < size:
                check()
                yield some
                some, room = [], ROOM
    yield some


def export_store(settings: ExportSettings, check: Check) -> None:
    """Exports a store, or a copy of one."""
    check_sqlite()
    check_into(settings.store, settings.into, is_export, "an export")
    try:
        with at_rest(settings.store, settings.into, check) as (path, _), placed(
            settings.into, settings.mode
        ) as new:
            check_store(path, settings.store)
            done = export(path, new, settings, check)
    except Stopped:
        raise Passing(f"ended before {settings.into} was complete") from None
    position, tables, rows = done
    log.info(
        f"{settings.into}: {counted(tables, 'table')}, {counted(rows, 'row')} at {lsn_text(position)}"
    )


def export(path: str, new: str, settings: ExportSettings, check: Check) -> tuple[int, int, int]:
    """Exports a file at rest into a new one; what is remembered lies beside the store."""
    remembered = Remembered(settings.store)
    try:
        with contextlib.closing(opened(path)) as store, contextlib.closing(
            sqlite3.connect(new, isolation_level=None)
        ) as into:
            for db in (store, into):
                db.set_progress_handler(lambda: is_ended(check), STEPS)
            meter = Meter("exporting")
            total = store.execute("SELECT count(*) FROM held").fetchone()[0]
            made = Export(into, settings, check, partial(meter.note, total=total))
            # (in the order in which the file has them)
            held = store.execute("SELECT oid, body, copies FROM held NOT INDEXED")
            return made.run(remembered, read_position(store), read_relations(store), held)
    except Malformed:
        raise FileError(f"{settings.store}: {SPOILED}") from None
    except sqlite3.Error as error:
        # (the end may have been asked for)
        check()
        raise failed(error, f"{settings.store}, {settings.into}") from None
