"""What a server has at one moment of the publications that are followed, and their tables."""

import dataclasses
from collections.abc import Iterable
from typing import NamedTuple

from pgsub_feed.json_values import Lsn, Oid, unkept
from pgsub_feed.known_tables import Index
from pgsub_feed.relation import Column, ColumnType, Shape
from pgsub_feed.texts import identifier

ACTIONS = ("insert", "update", "delete", "truncate")


@dataclasses.dataclass(frozen=True)
class Publication:
    """A publication's options. `whole`: it is for all tables; `since`: which transaction has
    written them, "" where that isn't known."""

    oid: Oid
    whole: bool
    actions: tuple[str, ...]
    via_root: bool
    generated: bool
    owner: Oid = dataclasses.field(default=0, compare=False)
    since: str = dataclasses.field(default="", compare=False)


class Part(NamedTuple):
    """Which rows and columns a publication has of a table. `whole`: with every table, or every one
    of the schema; `since`: what says that the publication has the table, none where it has all,
    None where that isn't known."""

    row_filter: str | None
    listed: tuple[int, ...] | None
    whole: bool
    since: tuple[str, ...] | None = None


@dataclasses.dataclass(frozen=True)
class Leaves:
    """The partitions of a table without any below them: the names for SQL of those whose changes
    are in the log, and the OIDs of others."""

    logged: list[str]
    unlogged: list[int]
    foreign: list[int]


@dataclasses.dataclass(frozen=True)
class Table:
    """A published table. `parts`: by publication; `untouched`: nobody has renamed it or moved it
    since it was made; `unwritten`: nor written it anew; `node`: the number of the file with its
    rows, 0 where that isn't known; `altered`: which transactions have made or altered its columns;
    `logged`: its changes are in the log; `toast`: the OID of what keeps its long values, 0 where it
    has none, or that isn't known; `primary`: the columns of its primary key, none where that is
    deferrable, or isn't known; `indexes`: all that it has; `leaves`: what some of its partitions are whose changes are in no
    log, where it is to be read."""

    oid: Oid
    namespace: str
    name: str
    kind: str
    shape: Shape
    parts: dict[str, Part] = dataclasses.field(default_factory=dict)
    untouched: bool = unkept(False)
    unwritten: bool = unkept(False)
    node: Oid = 0
    altered: str = ""
    logged: bool = True
    toast: Oid = 0
    primary: tuple[str, ...] = ()
    indexes: tuple[Index, ...] = ()
    types: tuple[tuple[Column, ColumnType], ...] | None = unkept(None)
    leaves: Leaves | None = unkept(None)

    @property
    def identity(self) -> str:
        return self.shape.identity

    @property
    def columns(self) -> tuple[Column, ...]:
        return self.shape.columns

    @property
    def row_filter(self) -> str | None:
        """Which rows are sent, by any of the publications; None for all."""
        filters = dict.fromkeys(part.row_filter for part in self.parts.values())
        texts = [it for it in filters if it is not None]
        if not texts or None in filters:
            return None
        return texts[0] if len(texts) == 1 else " OR ".join(f"({it})" for it in texts)

    def text(self) -> str:
        return f"{self.namespace}.{self.name}"

    def text_with_oid(self) -> str:
        return f"{self.text()} ({self.oid})"

    def sql_name(self) -> str:
        return f"{identifier(self.namespace)}.{identifier(self.name)}"

    def query(self, order: str = "", within: str = "") -> str:
        """The COPY of its published rows; with partitions, and without other children. `order`: by
        these terms; `within`: those alone for which this is true."""
        names = ", ".join(identifier(column.name) for column in self.columns)
        ordered = f" ORDER BY {order}" if order else ""
        return f"COPY (SELECT {names} {self.source(within)}{ordered}) TO STDOUT"

    def source(self, within: str = "") -> str:
        """The part of a query for the rows that are published: none of unlogged partitions."""
        if self.leaves and self.leaves.foreign:
            return f"FROM ({self.logged_rows(self.leaves.logged)}) AS logged"
        conditions = [self.row_filter] if self.row_filter else []
        more = [within] if within else []
        if self.leaves:
            more.append(f"tableoid NOT IN ({', '.join(map(str, self.leaves.unlogged))})")
        if more:
            conditions = [*(f"({it})" for it in conditions), *more]
        only = "" if self.kind == "p" else "ONLY "
        where = f" WHERE {' AND '.join(conditions)}" if conditions else ""
        return f"FROM {only}{self.sql_name()}{where}"

    def logged_rows(self, leaves: list[str]) -> str:
        """The rows of some leaves, each by itself: the root would read the foreign ones, too."""
        names = ", ".join(identifier(column.name) for column in self.columns)
        where = f" WHERE {self.row_filter}" if self.row_filter else ""
        return " UNION ALL ".join(
            f"SELECT {names} FROM ONLY {it}{where}" for it in leaves or [self.sql_name()]
        )


@dataclasses.dataclass(frozen=True)
class Partition:
    """A partition or a partitioned table; `parent` is 0 of one in no other. `made`: it was made
    there, and not attached; `node`: the number of its file, or 0; `since`: which transaction has
    attached it, "" if unknown; `logged` and `toast` as of a table."""

    oid: Oid
    parent: Oid
    name: str
    leaf: bool
    made: bool = unkept(False)
    node: Oid = 0
    since: str = ""
    logged: bool = True
    toast: Oid = 0


@dataclasses.dataclass(frozen=True)
class Catalog:
    """All of it, of the publications with these names. `lsn`: nothing that was committed above it
    is in there; `highest`: the greatest OID of any relation."""

    names: tuple[str, ...]
    lsn: Lsn
    highest: Oid
    publications: dict[str, Publication]
    tables: dict[Oid, Table]
    partitions: dict[Oid, Partition]
    # by the OIDs of types that published columns have in them: `name`, the labels of enumerations,
    # by OID, and what composite types consist of, by `#` and the number of the part; of an array, a
    # domain or a range with such a type in it that type, by `@` and its OID
    types: dict[Oid, dict[str, str]]
    # the first transaction that may have run when it was read, 0 where that isn't known
    running: int = dataclasses.field(default=0, compare=False)
    # what the rows themselves have told, as the module `drift.doubts` says: tables that have the
    # values that they had, though their columns and their file were altered, and partitions that
    # had no rows when they were attached
    kept: frozenset[int] = unkept(frozenset())
    fresh: frozenset[int] = unkept(frozenset())


def types_having(oids: Iterable[int], types: dict[int, dict[str, str]]) -> set[int]:
    """These types, and those that have one of them in them."""
    found = set(oids)
    while more := {oid for oid, it in types.items() if oid not in found and parts_of(it) & found}:
        found |= more
    return found


def parts_of(said: dict[str, str]) -> set[int]:
    """The types that a type consists of."""
    within = {int(it[1:]) for it in said if it[0] == "@"}
    return within | {int(text.split()[0]) for it, text in said.items() if it[0] == "#"}
