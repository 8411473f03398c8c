"""A hash of Redis for each row: `stock:A-1` has the row of `stock` with the key `A-1`, its fields
the values that aren't null.

What waits is kept by keys: of several changes of one row only the last is written. Rows of a table
that is truncated, gets another name or another shape are looked for among all keys. Where they are
more than one MULTI removes, they go a part at a time behind it.
"""

import dataclasses
import itertools
import re
from collections.abc import Collection, Iterable, Iterator, Sequence
from typing import Union

from ..errors import Unfit
from ..formats.keys import NULL, row_text
from ..reader.commits import XID, Cell, Cells, Change, Commit, Event, Missed
from .redis_calls import Calls, Command, Said, asked, size_of, understood
from .redis_form import Form
from .relations import ASIDE, Kept

# How many keys one command has, one step of a search looks at, and one MULTI removes of a table
# that has many.
KEYS, LOOKED, LOT = 500, 1000, 5000
MOVING = "pgsub:moving:"
SIGNS = re.compile(r"([][*?^\\-])")


@dataclasses.dataclass(frozen=True)
class Stored:
    """A row as it is stored under a key, without some of its fields."""

    key: str
    dropped: tuple[str, ...] = ()


# Values by the names of their columns.
Fields = dict[str, Union[str, bytes]]
# What a row has in the place of values where all are null, since there are no empty hashes.
EMPTY: Fields = {"": ""}
# What is under a key: no row, a new one, or one that was there.
Value = Union[Fields, Stored, None]


def fields_of(kept: Kept, cells: Sequence[Cell]) -> Fields:
    named = zip(kept.columns, cells, strict=True)
    return {name: cell for name, cell in named if cell is not None} or EMPTY


def key_text(kept: Kept, cells: Sequence[Cell]) -> str:
    return f"{kept.name}:{row_text(kept.key, cells)}"


class Hashes(Form):
    """How rows are written."""

    name, is_keyed_only = "hashes", True

    def __init__(self, calls: Calls) -> None:
        self.calls = calls
        self.waiting: dict[str, Value] = {}
        # of tables whose key may not hold, by OID: keys that no row may have had before what waits,
        # and the tables in which two rows have one, or null in it
        self.free = dict[int, set[str]]()
        self.broken = set[int]()
        # by OID of a table that was truncated: the LSN at which that commit ends, and the number of
        # the change
        self.emptied = dict[int, tuple[int, int]]()
        # the names of tables with more rows than what waits may name, which all are to be removed
        self.left = list[str]()
        # while it begins: what keys that were there before begin with
        self.foreign: set[str] | None = None

    def clear(self) -> None:
        self.waiting.clear()
        self.free.clear()
        self.broken.clear()
        self.left.clear()
        self.size = 0

    def accepts(self, said: Said) -> bool:
        # (a row that was evicted, or removed by somebody else, has no other key to get)
        return "no such key" in str(said)

    def doomed(self) -> list[str]:
        return list(self.left)

    # ---- rows

    def put(self, key: str, value: Fields | None) -> None:
        """Has a row wait, or that there is none."""
        self.waiting[key] = value
        self.size += size_of([key, *itertools.chain.from_iterable((value or {}).items())])

    def add(self, kept: Kept, cells: Cells, is_repair: bool) -> None:
        key = key_text(kept, cells)
        if kept.primary and not is_repair:
            if self.waiting.get(key) is not None or any(cells[at] is None for at in kept.key):
                self.broken.add(kept.oid)
            elif key not in self.waiting:
                self.free.setdefault(kept.oid, set()).add(key)
        self.put(key, fields_of(kept, cells))

    def unkeyed(self) -> Collection[int]:
        """(All that is there is this sink's, so it is as it was when these came to wait.)"""
        for oid, free in self.free.items():
            if oid not in self.broken and self.has_any(list(free)):
                self.broken.add(oid)
        self.free.clear()
        return [*self.broken]

    def has_any(self, keys: Sequence[str]) -> bool:
        """Whether one of these keys is there."""
        parts = [keys[at : at + KEYS] for at in range(0, len(keys), KEYS)]
        said = asked(self.calls, [("EXISTS", *it) for it in parts])
        with understood(self.calls.where):
            return sum(map(int, said)) > 0

    def change(self, kept: Kept, it: Change | Missed, commit: Commit) -> None:
        if isinstance(it, Missed):
            return
        if it.op == "t":
            self.remove(kept)
            self.free.pop(kept.oid, None)
            self.broken.discard(kept.oid)
            self.note(it, commit)
        if it.before is not None:
            self.put(key_text(kept, it.before), None)
        if it.after is not None:
            # (what the copy had of a row that is repaired may never have been here)
            end, n = self.emptied.get(kept.oid, (0, 0))
            self.add(kept, it.after, commit.xid == XID and (end != commit.end or it.n < n))

    def note(self, it: Event, commit: Commit) -> None:
        if isinstance(it, Change) and it.op == "t":
            self.emptied[it.relation.oid] = commit.end, it.n

    def rows(self, name: str) -> dict[str, Stored | Fields]:
        """All rows of a table, as they are with what waits."""
        found: dict[str, Stored | Fields] = {key: Stored(key) for key in self.stored(name)}
        return {**found, **self.waiting_of(name)}

    def waiting_of(self, name: str) -> dict[str, Stored | Fields]:
        """The rows of a table that wait."""
        begin, found = name + ":", dict[str, Union[Stored, Fields]]()
        for key, value in self.waiting.items():
            if value is not None and key.startswith(begin):
                found[key] = value
        return found

    def stored(self, name: str) -> Iterator[str]:
        """The keys of a table's rows that are there, and not to be altered by what waits."""
        for key in self.scan(SIGNS.sub(r"\\\1", name + ":") + "*"):
            if key not in self.waiting:
                yield key

    def scan(self, pattern: str) -> Iterator[str]:
        cursor = b"0"
        while True:
            self.calls.check()
            search = ("SCAN", cursor, "MATCH", pattern, "COUNT", LOOKED)
            (said,) = asked(self.calls, [search])
            with understood(self.calls.where):
                cursor, keys = said
                is_end = int(cursor) == 0
                # (what isn't UTF-8 is no key of a row)
                found = [text for it in keys if isinstance(text := text_of(it), str)]
            yield from found
            if is_end:
                return

    # ---- tables

    def check_new(self) -> None:
        self.foreign = {
            begin for begin, sign, _ in (it.partition(":") for it in self.scan("*:*")) if sign
        }

    def note_begun(self) -> None:
        self.foreign = None

    def make(self, new: Kept) -> None:
        if self.is_foreign(new.name):
            raise Unfit(
                f"{self.calls.where}: there are keys that begin with {new.name}: already, as those of {new.relation.text()} would: take"
                " another database, or remove them where a sink has left them"
            )

    def is_foreign(self, name: str) -> bool:
        """Whether something else has keys that would be those of a table. (Of what the sink has
        under that name, as of a table that was dropped, all waits to be moved.)"""
        if self.foreign is not None:
            return name in self.foreign
        return next(self.stored(name), None) is not None

    def remove(self, old: Kept) -> None:
        for key in self.waiting_of(old.name):
            self.put(key, None)
        for key in self.stored(old.name):
            if self.is_full():
                self.left.append(old.name)
                return
            self.put(key, None)

    def removals(self, names: Iterable[str]) -> Iterator[list[Command]]:
        for name in names:
            keys = self.stored(name)
            while some := list(itertools.islice(keys, LOT)):
                yield list(unlinks(some))

    def carry(self, old: Kept, new: Kept) -> None:
        """Gives rows another name, key or shape, in which a new column is null, so no field."""
        dropped = tuple(set(old.columns) - set(new.columns))
        is_same_key = old.keys == new.keys
        if old.name == new.name and is_same_key and not dropped:
            return
        if old.name != new.name and not new.name.startswith(ASIDE):
            self.make(new)
        moved = dict[str, Value]()
        rows = self.rows(old.name)
        for key, value in rows.items():
            is_plain = is_same_key and NULL not in key
            other, left = (
                (new.name + key[len(old.name) :], without(value, dropped))
                if is_plain
                else self.rekeyed(old, new, value)
            )
            if new.primary and (other in moved or NULL in other.split(":")):
                self.broken.add(new.oid)
            elif other in moved:
                text = f"two rows have one key, {other}, since the server didn't send what is in it: begin anew"
                raise Unfit(f"{new.relation.text()}: {text}")
            moved[other] = left
        self.waiting.update(dict.fromkeys(rows))
        self.waiting.update(moved)

    def rekeyed(self, old: Kept, new: Kept, value: Stored | Fields) -> tuple[str, Stored | Fields]:
        """A row's key and fields in another shape."""
        found = self.read(value) if isinstance(value, Stored) else value
        cells: Cells = [found.get(name) if name in old.columns else None for name in new.columns]
        return key_text(new, cells), fields_of(new, cells)

    def read(self, value: Stored) -> Fields:
        """A row that is stored."""
        (said,) = asked(self.calls, [("HGETALL", value.key)])
        with understood(self.calls.where):
            return {
                name.decode(): text_of(cell)
                for name, cell in zip(said[::2], said[1::2])
                if name.decode() not in value.dropped
            }

    # ---- commands

    def commands(self) -> list[Command]:
        waiting = self.waiting
        moved = [
            (key, it.key) for key, it in waiting.items() if isinstance(it, Stored) and it.key != key
        ]
        commands: list[Command] = [
            ("RENAME", old, f"{MOVING}{at}") for at, (_, old) in enumerate(moved)
        ]
        # (whatever a key has, a row takes its place)
        commands += unlinks([key for key, it in waiting.items() if not isinstance(it, Stored)])
        commands += [("RENAME", f"{MOVING}{at}", key) for at, (key, _) in enumerate(moved)]
        for key, it in waiting.items():
            if isinstance(it, dict):
                commands.append(("HSET", key, *itertools.chain.from_iterable(it.items())))
            elif it and it.dropped:
                commands.append(("HDEL", key, *it.dropped))
        return commands


def unlinks(keys: Sequence[str]) -> Iterator[Command]:
    for at in range(0, len(keys), KEYS):
        yield ("UNLINK", *keys[at : at + KEYS])


def without(value: Stored | Fields, dropped: tuple[str, ...]) -> Stored | Fields:
    """A row without some of its fields."""
    if isinstance(value, Stored):
        return Stored(value.key, tuple({*value.dropped, *dropped}))
    return {name: cell for name, cell in value.items() if name not in dropped} or EMPTY


def text_of(cell: bytes) -> str | bytes:
    """A value as it is stored: bytes that aren't UTF-8 are a binary value."""
    try:
        return cell.decode()
    except UnicodeDecodeError:
        return cell
