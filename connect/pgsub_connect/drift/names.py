"""Which table has each name, and which ones had it before."""

import dataclasses
from collections.abc import Callable, Iterable
from typing import NamedTuple

from pgsub_feed.json_values import Lsn, Oid

from ..server.catalog import Catalog

Key = tuple[str, str]


@dataclasses.dataclass
class Name:
    """Which OID a name has, None where none has it now; since when; and which had it before."""

    oid: int | None
    since: int
    before: list[int]

    def drop(self, oid: int) -> None:
        """Forgets that a table has it, or had it."""
        self.oid = None if self.oid == oid else self.oid
        self.before = [it for it in self.before if it != oid]

    def give(self, oid: int, since: int) -> None:
        """Gives it to a table."""
        self.before = [it for it in self.before if it != oid]
        self.oid, self.since = oid, since

    def release(self) -> None:
        """Takes it from the table that has it."""
        if self.oid is not None:
            self.before.append(self.oid)
            self.oid = None


class NameRow(NamedTuple):
    """What is kept of one in a file."""

    schema: str
    table: str
    oid: Oid | None
    since: Lsn
    before: list[Oid]


class Names(dict[Key, Name]):
    """All of them, by schema and name. `touch` is called where one changes."""

    def __init__(self, touch: Callable[[], None]) -> None:
        super().__init__()
        self.touch = touch
        # the name that an OID has
        self.held: dict[int, Key] = {}

    def key_of(self, oid: int) -> Key | None:
        """The name that a table has, or had; None where that isn't known."""
        had = (key for key, name in self.items() if oid in name.before)
        return self.held.get(oid) or next(had, None)

    def release(self, key: Key) -> None:
        name = self[key]
        if name.oid is not None:
            self.held.pop(name.oid, None)
            name.release()

    def release_all(self, now: Catalog) -> None:
        """Takes names from tables that have others now, so that no order of looks matters."""
        for oid, key in list(self.held.items()):
            table = now.tables.get(oid)
            if table and (table.namespace, table.name) != key:
                self.release(key)

    def rename(self, key: Key, oid: int, lsn: int) -> str:
        """Notes that an OID has a name. Returns what is to be said where another one had it."""
        if self.held.get(oid) == key:
            return ""
        for it in (self.held.get(oid), key if key in self else None):
            if it:
                self.release(it)
        name = self.setdefault(key, Name(oid, lsn, []))
        name.give(oid, lsn)
        self.held[oid] = key
        self.touch()
        return names_text(key, oid, name.before[-1]) if name.before else ""

    def rename_earlier(self, key: Key, oid: int, lsn: int) -> str:
        """Notes the name that a table had which was gone when the server was looked at."""
        name = self.get(key)
        if name is None or name.oid is None:
            return self.rename(key, oid, lsn)
        if name.oid == oid or oid in name.before:
            return ""
        name.before.append(oid)
        self.touch()
        return names_text(key, name.oid, oid)

    def forget(self, oid: int) -> None:
        """Forgets those of a table that is gone with its rows: a later one is alone under them."""
        self.held.pop(oid, None)
        for key, name in list(self.items()):
            if oid in (name.oid, *name.before):
                name.drop(oid)
                if name.oid is None and not name.before:
                    del self[key]

    def forget_last(self, oid: int) -> None:
        """Forgets that a table has had its name."""
        if key := self.held.get(oid):
            self.release(key)
            self[key].before.remove(oid)

    def rows(self) -> list[NameRow]:
        return [NameRow(*key, it.oid, it.since, it.before) for key, it in sorted(self.items())]

    def restore(self, rows: Iterable[NameRow]) -> None:
        """Takes what a file has kept of them."""
        self.clear()
        for it in rows:
            self[it.schema, it.table] = Name(it.oid, it.since, it.before)
        self.held = {it.oid: key for key, it in self.items() if it.oid is not None}


def names_text(key: tuple[str, str], oid: int, before: int) -> str:
    return f"{'.'.join(key)} is table {oid} now, and was {before} before: rows of both have this name here"
