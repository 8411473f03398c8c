"""Commits of a feed, their changes and their values as Python's, for programs that read one."""

import dataclasses
import datetime
import decimal
import operator
import threading
import uuid
from bisect import bisect
from collections.abc import Callable, Iterator, Mapping, Sequence
from typing import Any, overload

from .reader import commits
from .reader.blocks import Blocks
from .reader.commits import XID, Cell, Cells, Message, TableLine, Unsent
from .relation import BaseType, Column, Relation
from .tables.values import BOOL, BYTEA, FLOAT4, FLOAT8, KINDS, NUMERIC, TEXTS, read_bytea
from .texts import lsn_text

OID, DATE, TIME, TIMESTAMP, TIMESTAMPTZ, UUID = 26, 1082, 1083, 1114, 1184, 2950


def read_bool(text: str) -> bool:
    return {"t": True, "f": False}[text]


def read_moment(text: str) -> datetime.datetime:
    return datetime.datetime.strptime(
        text, "%Y-%m-%d %H:%M:%S.%f" if "." in text else "%Y-%m-%d %H:%M:%S"
    )


def read_time(text: str) -> datetime.time:
    return read_moment(f"1970-01-01 {text}").time()


def read_zoned(text: str) -> datetime.datetime:
    """(The server prints all of them in UTC.)"""
    if not text.endswith("+00"):
        raise ValueError
    return read_moment(text[:-3]).replace(tzinfo=datetime.timezone.utc)


READ: dict[int, Callable[[str], object]] = {
    BOOL: read_bool,
    BYTEA: lambda text: read_bytea(text.encode()),
    **dict.fromkeys((20, 21, 23, OID), int),
    **dict.fromkeys((FLOAT4, FLOAT8), float),
    NUMERIC: decimal.Decimal,
    DATE: datetime.date.fromisoformat,
    TIME: read_time,
    TIMESTAMP: read_moment,
    TIMESTAMPTZ: read_zoned,
    UUID: uuid.UUID,
}


def python_value(column: Column, cell: Cell, base: BaseType | None = None) -> object:
    """A value as bool, int, float, Decimal, bytes, date, time, datetime or UUID. What Python can't
    hold, as the date `infinity`, stays, as does any other type. `base`: what a domain is of."""
    if cell is None:
        return None
    oid = base.oid if base else column.type_oid
    try:
        if isinstance(cell, bytes):
            return read_binary(oid, cell)
        return READ.get(oid, str)(cell)
    except (ValueError, LookupError, ArithmeticError):
        return cell


def read_binary(type_oid: int, cell: bytes) -> object:
    """A value in binary form, where its type is known here."""
    if type_oid in TEXTS:
        return cell.decode()
    if type_oid not in KINDS:
        return cell
    value = KINDS[type_oid][2](cell)
    if isinstance(value, str):
        # (NaN)
        return float(value)
    return bool(value) if type_oid == BOOL else value


@dataclasses.dataclass(frozen=True)
class Row(Mapping[str, Cell]):
    """A row by the names of its columns: each value is a text as the server prints it, bytes where
    the server sends binary values, or None for null."""

    table: Relation
    cells: Cells

    def __getitem__(self, name: str) -> Cell:
        for column, cell in zip(self.table.shape.columns, self.cells, strict=True):
            if column.name == name:
                return cell
        raise KeyError(name)

    def __iter__(self) -> Iterator[str]:
        return (it.name for it in self.table.shape.columns)

    def __len__(self) -> int:
        return len(self.cells)

    def python(self) -> dict[str, object]:
        """The values as Python's: numbers, dates and the like."""
        pairs = zip(self.table.shape.columns, self.cells, strict=True)
        table = self.table
        return {it.name: python_value(it, cell, table.base_of(it.name)) for it, cell in pairs}

    def key(self) -> tuple[Cell, ...]:
        """The values of the columns by which the row is found; all where the table has no key."""
        pairs = zip(self.table.shape.columns, self.cells, strict=True)
        found = tuple(cell for column, cell in pairs if column.key)
        return found if found and self.table.shape.identity in ("d", "i") else tuple(self.cells)


@dataclasses.dataclass(frozen=True)
class Truncate:
    table: Relation


@dataclasses.dataclass(frozen=True)
class Missed:
    """An update or a delete, u or d, of a row that the store didn't have: it changed nothing. What
    the server sent of it, by the names of the columns."""

    table: Relation
    sent: str
    old: dict[str, Cell]
    new: dict[str, Cell]


@dataclasses.dataclass(frozen=True)
class Insert:
    table: Relation
    after: Row


@dataclasses.dataclass(frozen=True)
class Update:
    """The row as it was, and as it is. In a repair it may have been another one, or none."""

    table: Relation
    before: Row
    after: Row


@dataclasses.dataclass(frozen=True)
class Delete:
    table: Relation
    before: Row


Change = Insert | Update | Delete | Truncate | Missed


@dataclasses.dataclass(frozen=True)
class Commit:
    """A commit. `lsn` is where it ends: who has made its changes is there. `prev` is where the
    commit before it ends. `tables` are the definitions of what it changes: rows from before that
    have another shape keep their values by the names of the columns, and a new one is null.

    `changes` are a tuple, or, of a long commit, `LongChanges`, which are read from the feed as they
    are asked for.

    `is_base`: it has rows from before the first commit, each table truncated before its first ones.
    They are complete with the last such commit: those before it have the LSN 0.

    `messages`: what the transaction wrote by `pg_logical_emit_message`, where the follower is asked
    for that."""

    lsn: int
    prev: int
    xid: int | None
    time: datetime.datetime | None
    tables: tuple[Relation, ...]
    changes: Sequence[Change]
    is_base: bool = False
    messages: tuple[Message, ...] = ()

    def text(self) -> str:
        return lsn_text(self.lsn)

    def is_repair(self) -> bool:
        """Whether it has rows of a table that was added, or whose rows were repaired."""
        return self.xid == XID


def sent_cells(table: Relation, cells: list[Cell | Unsent] | None) -> dict[str, Cell]:
    pairs = zip(table.shape.columns, cells, strict=True) if cells is not None else ()
    return {it.name: cell for it, cell in pairs if not isinstance(cell, Unsent)}


def change_of(part: commits.Change | commits.Missed, table: Relation) -> Change:
    """A change as the readers of lines have it, of a table with what is known of it."""
    if isinstance(part, commits.Missed):
        return Missed(
            table, part.sent, sent_cells(table, part.old_cells()), sent_cells(table, part.new)
        )
    before = None if part.before is None else Row(table, part.before)
    after = None if part.after is None else Row(table, part.after)
    if before and after:
        return Update(table, before, after)
    if after is not None:
        return Insert(table, after)
    return Truncate(table) if before is None else Delete(table, before)


class LongChanges(Sequence[Change]):
    """The changes of a long commit, of which a part at a time is in memory. Whenever they are asked
    for they are read from the feed's file, which stays open for them, also where it is removed; a
    Passing says that the feed was altered meanwhile, as after a crash. Pickled they are a tuple."""

    def __init__(
        self, blocks: Blocks, tables: Mapping[Relation, Relation], ends: list[int]
    ) -> None:
        # the chosen tables by their definitions, and how many changes there are up to each block's
        # end
        self.blocks, self.tables, self.ends = blocks, tables, ends
        # the block that was read last
        self.lock, self.last = threading.Lock(), (-1, list[Change]())

    def __len__(self) -> int:
        return self.ends[-1]

    def __iter__(self) -> Iterator[Change]:
        for number in range(len(self.ends)):
            yield from self.block(number)

    @overload
    def __getitem__(self, at: int) -> Change:
        ...

    @overload
    def __getitem__(self, at: slice) -> tuple[Change, ...]:
        ...

    def __getitem__(self, at: int | slice) -> Change | tuple[Change, ...]:
        if isinstance(at, slice):
            return tuple(self[it] for it in range(*at.indices(len(self))))
        place = range(len(self))[at]
        number = bisect(self.ends, place)
        return self.block(number)[place - self.ends[number]]

    def __eq__(self, other: object) -> bool:
        if not isinstance(other, Sequence) or len(self) != len(other):
            return False
        return all(map(operator.eq, self, other))

    def __reduce__(self) -> tuple[Any, ...]:
        return tuple, (list(self),)

    def block(self, number: int) -> list[Change]:
        with self.lock:
            if self.last[0] != number:
                self.last = number, list(self.read(number))
            return self.last[1]

    def read(self, number: int) -> Iterator[Change]:
        tables = dict[int, Relation | None]()
        for part in self.blocks.block(number):
            if isinstance(part, TableLine):
                tables[part.relation.oid] = self.tables.get(part.relation)
            elif not isinstance(part, Message) and (table := tables[part.relation.oid]):
                yield change_of(part, table)
