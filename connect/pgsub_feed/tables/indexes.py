"""The primary keys and the indexes of the tables of a file, as the store beside its feed knows
them.

They are looked up where a table is made, gets another shape or is truncated. Where the store didn't
know a table by then, or what it knew doesn't fit, it is asked again with later commits, once it has
looked at the server since. A feed without a store tells no such keys.

Of a table whose replica identity is another, FULL or the index of another key, the stream doesn't
tell its primary key: so it is what the server's catalog had at the last look, which may have been
later than what the stream says by now.

Those of btree over plain columns are made, in SQLite's own order. A unique one is as any other one
here, since rows may have equal values within a commit.
"""

import sqlite3
from collections.abc import Iterable, Sequence

from .. import log
from ..known_tables import Index, KnownTable, KnownTables
from ..relation import Relation
from ..texts import identifier
from .table import Kept
from .target import Target

# The replica identities that may be another key, or none.
OTHER = ("f", "i")
UNKNOWN = ". (Its primary key isn't known without the store of the feed: name it by --store)"


class Keys:
    """Those that a store knows, none where there is no store."""

    def __init__(self, store: KnownTables | None) -> None:
        self.store = store
        # by OID the tables that were made without a key that the store may know later: the key that
        # it knew then, None of a table that it didn't know
        self.unsure: dict[int, tuple[str, ...] | None] = {}

    def of(self, relation: Relation) -> tuple[str, ...] | None:
        """A table's primary key beside another replica identity; None where it isn't known."""
        self.unsure.pop(relation.oid, None)
        if relation.shape.identity not in OTHER:
            return ()
        if self.store is None:
            return None
        self.store.look()
        known = self.store.primary(relation.oid)
        key = primary_key(known or (), relation)
        if not key and known != ():
            self.unsure[relation.oid] = known
        return None if known is None else key

    def loaded(self, relation: Relation, primary: tuple[str, ...]) -> None:
        """A table is there, with this key: without one it may get one."""
        if relation.shape.identity in OTHER and not primary:
            self.unsure[relation.oid] = ()

    def has_news(self, relation: Relation) -> bool:
        """Whether the store knows another key by now of a table that was made without one."""
        if self.store is None or relation.oid not in self.unsure:
            return False
        self.store.look()
        return self.unsure[relation.oid] != self.store.primary(relation.oid)


def primary_key(known: tuple[str, ...], relation: Relation) -> tuple[str, ...]:
    """The columns of the primary key of a relation whose identity is another, by what is known of
    its table; none where there is no such key, or the relation lacks a column of it."""
    if relation.shape.identity not in OTHER:
        return ()
    if lacks := lacking(known, relation):
        log.warning(f"{relation.text()}: {lacks}: the table is made without it")
        return ()
    return known


def lacking(known: tuple[str, ...], relation: Relation) -> str:
    """Which columns of its primary key a relation lacks, as by a newer catalog; "" for none."""
    names = {it.name for it in relation.shape.columns}
    lacks = ", ".join(it for it in known if it not in names)
    return lacks and f"the stream doesn't have {lacks} of the primary key that the server has"


def other_key(relation: Relation, names: Sequence[str]) -> tuple[str, ...]:
    """These columns, unless they are what the identity tells itself."""
    letter, columns = relation.shape.identity, relation.shape.columns
    told = {it.name for it in columns if it.key} if letter == "i" else set[str]()
    return tuple(names) if letter in OTHER and set(names) != told else ()


def inherited(kept: Kept, relation: Relation) -> tuple[str, ...]:
    """The columns of the key that a table has, where nothing else is known of it."""
    columns = {it.name for it in relation.shape.columns}
    return other_key(relation, kept.primary) if columns.issuperset(kept.primary) else ()


# What names of indexes begin with: the OID and the server's name follow.
NAMED = "index "
MADE = f"SELECT name, sql FROM sqlite_schema WHERE type = 'index' AND name GLOB '{NAMED}[0-9]* *'"


class Unmade(Exception):
    """An index isn't made: why."""


def statement(target: Target, index: Index) -> str:
    """The SQL that makes an index; "" where the table's key is that."""
    if index.why:
        raise Unmade(index.why)
    places = {it.name: at for at, it in enumerate(target.relation.shape.columns)}
    if lacks := [name for name, _ in index.columns if name not in places]:
        raise Unmade(f"the stream doesn't have {', '.join(lacks)}")
    # (of a numeric that has two columns, the one that compares as on the server)
    columns = [target.named(places[name])[0] for name, _ in index.columns]
    parts = [
        f"{column} DESC" if descends else column
        for column, (_, descends) in zip(columns, index.columns, strict=True)
    ]
    if parts == [target.columns[at] for at in target.key]:
        return ""
    return f"CREATE INDEX {identifier(name_of(index))} ON {identifier(target.name)} ({', '.join(parts)})"


def name_of(index: Index) -> str:
    return f"{NAMED}{index.oid} {index.name}"


class Indexes:
    """Those of a file's tables. `tables`: what was known when they were made."""

    def __init__(self, known: KnownTables) -> None:
        self.known, self.tables = known, dict[int, KnownTable]()
        self.told = set[tuple[int, str]]()

    def has_news(self) -> bool:
        """Whether something else is known by now."""
        self.known.look()
        return self.known.tables != self.tables

    def make(self, db: sqlite3.Connection, targets: Iterable[Target]) -> None:
        """Has a file have the indexes of these tables, and no others of the server's."""
        self.known.look()
        self.tables = self.known.tables
        wanted = dict[str, str]()
        for target in targets:
            for index in self.known.indexes(target.relation.oid):
                try:
                    wanted[name_of(index)] = statement(target, index)
                except Unmade as why:
                    self.tell(target, index, str(why))
        made = dict(db.execute(MADE).fetchall())
        for name in made.keys() - {name for name, sql in wanted.items() if sql == made.get(name)}:
            db.execute(f"DROP INDEX {identifier(name)}")
        for name, sql in wanted.items():
            if sql and sql != made.get(name):
                db.execute(sql)

    def tell(self, target: Target, index: Index, why: str) -> None:
        """Tells once why an index isn't there."""
        if (index.oid, why) not in self.told:
            self.told.add((index.oid, why))
            log.info(f"{target.text()}: without the index {index.name}: {why}")
