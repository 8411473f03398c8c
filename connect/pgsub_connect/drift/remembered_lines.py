"""The file `STORE.tables`: it is replaced as a whole, and lines are added in between, so that
whoever reads it finds what the disk has.

Its first line is an object of JSON.

| Field | Means |
|---|---|
| `format` | 2 |
| `made` | the publications that were made for this store, with their OIDs |
| `database` | the OID of the database that is followed, and its name at the last session |
| `feed` | the folder of the feed that has all commits of the store up to its position, "" where none has |
| `messages` | how many bytes of logical messages the feed gets of a transaction at most, 0 where it gets none |
| `base` | while rows are copied first: whether they are to lie beside the feed |
| `catalog` | what the server had when it was looked at last, as the module `server.catalog` says, changed by what Relation messages said since; null as long as nothing was copied |
| `sent` | by OID: the last Relation message of a change, and the LSN of its commit |
| `names` | which OID each name has, since when, and which OIDs had it before |
| `found` | by kind: the LSN at which the first was found, the texts with what each is about, and how many more there were |
| `mended` | by a text of several tables, those whose rows came anew since |
| `outstanding` | tables whose rows are to come or go |
| `left` | OIDs of tables that were there once and aren't published any more |
| `told` | texts that a Relation message up to an LSN may give again, since the look at the server gave them already |

What another program has written there is rejected before anything is taken from it. Parts that
only later versions have are left to these.
"""

import contextlib
import dataclasses
import os
from collections.abc import Iterable, Iterator
from typing import Any

from pgsub_feed.errors import Passing, told_of
from pgsub_feed.files import remove, replace_file
from pgsub_feed.json_texts import LARGEST, compact, loaded, object_of, parsed, read_plain
from pgsub_feed.json_values import Form, Lsn, Oid, form_of
from pgsub_feed.relation import Relation, Shape

from ..server.catalog import Catalog
from .findings import Found
from .names import NameRow

# A Relation message of a change, and the LSN of its commit.
Noted = tuple[Relation, Lsn]


@dataclasses.dataclass
class Outstanding:
    """Whose rows are to come or go. `wanted`: those whose rows are to be added, and why one was
    refused, "" where none was; `unwanted`: those that aren't published any more; `partial`: those
    that the initial copy has left for later, of which it has a part at most; `copied`: while rows
    are copied first, those that are stored whole, each with the position from which they are."""

    wanted: dict[Oid, str] = dataclasses.field(default_factory=dict)
    unwanted: set[Oid] = dataclasses.field(default_factory=set)
    partial: set[Oid] = dataclasses.field(default_factory=set)
    copied: dict[Oid, int] = dataclasses.field(default_factory=dict)

    def want(self, oids: Iterable[int], unwanted: Iterable[int]) -> None:
        """Notes that rows of tables are to be added, anew if refused, and those of others to go."""
        self.unwanted.update(unwanted)
        self.wanted |= {oid: "" for oid in (*oids, *self.unwanted)}

    def added(self, oid: int) -> bool:
        """Notes that a table was added, or won't be. Returns whether its rows were to go."""
        self.wanted.pop(oid, None)
        self.partial.discard(oid)
        return oid in self.unwanted


class Unsaved:
    """What isn't on the disk yet. `is_urgent`: it has to be before anything more is confirmed;
    `is_changed`: anything new; `is_other`: anything but what Relation messages said (`noted`)."""

    def __init__(self) -> None:
        self.clear()

    def clear(self) -> None:
        """All of it is there."""
        self.noted: list[Noted] = []
        self.is_urgent = self.is_changed = self.is_other = False

    def added(self) -> None:
        """What Relation messages said is there."""
        self.noted, self.is_urgent = [], False

    def change(self, is_urgent: bool = False) -> None:
        """Something is new."""
        self.note(is_urgent)
        self.is_other = True

    def note(self, is_urgent: bool = False) -> None:
        """Something is new, as a Relation message said."""
        self.is_changed, self.is_urgent = True, self.is_urgent or is_urgent

    @contextlib.contextmanager
    def noting(self, relation: Relation, lsn: int) -> Iterator[None]:
        """Around what takes a Relation message into account, as whoever reads it does again."""
        is_other = self.is_other
        yield
        self.is_other = is_other
        self.noted.append((relation, lsn))


# How many bytes may follow the first line before the file is replaced, where that line is shorter.
LEAST = 1 << 16


class DurableFile:
    """One of them. `first`: its first line's length, 0 to replace it; `file`: inode and length."""

    def __init__(self, path: str, mode: int) -> None:
        self.path, self.mode = path, mode
        self.first = 0
        self.file = (0, 0)

    def add(self, line: bytes) -> bool:
        """Adds a line durably, if the file is right and not too long. Returns whether it did."""
        (inode, length), first = self.file, self.first
        if not first or length + len(line) - first > max(first, LEAST):
            return False
        self.first = 0
        with told_of(self.path, Passing):
            if not append(self.path, line, inode, length):
                return False
        self.first, self.file = first, (inode, length + len(line))
        return True

    def replace(self, line: bytes) -> None:
        """Replaces it by one line. The disk has it before this returns."""
        self.first = 0
        inode = replace_file(self.path, line, self.mode)
        self.first, self.file = len(line), (inode, len(line))

    def remove(self) -> None:
        self.first = 0
        with told_of(self.path):
            remove(self.path)


def append(path: str, content: bytes, inode: int, length: int) -> bool:
    """Adds to a file durably, unless it is gone, or altered. Returns whether it did."""
    try:
        number = os.open(path, os.O_WRONLY | os.O_APPEND | os.O_CLOEXEC | os.O_NOFOLLOW)
    except FileNotFoundError:
        return False
    with open(number, "wb", buffering=0) as file:
        there = os.fstat(number)
        if (there.st_ino, there.st_size) != (inode, length):
            return False
        while content:
            content = content[file.write(content) or 0 :]
        os.fsync(number)
    return True


class FirstLine:
    """A first line that was read, and what it says. A start reads it again, once it has the lock."""

    def __init__(self) -> None:
        self.line, self.said = b"", dict[str, Any]()

    def read(self, line: bytes, is_last: bool) -> dict[str, Any]:
        """What a line says. `is_last`: it isn't read again, and goes out of memory."""
        said = self.said if line == self.line and self.said else object_of(loaded(line, LARGEST))
        self.line, self.said = (b"", {}) if is_last else (line, said)
        return said


OWN = FirstLine()


def read_lines(path: str, is_last: bool = True) -> tuple[dict[str, Any], list[bytes]]:
    """What a file says, and the lines added to it; not what was never synced at the end."""
    first, *more = read_plain(path, LARGEST).split(b"\n")
    return OWN.read(first, is_last), more[:-1]


@dataclasses.dataclass(frozen=True)
class Sent:
    """An OID's last Relation message, and its commit's LSN; None where only rows are known."""

    lsn: Lsn
    shape: Shape | None


@dataclasses.dataclass
class Kept:
    """What the first line has."""

    format: int
    made: dict[str, Oid]
    feed: str
    messages: int
    base: bool
    database: tuple[Oid, str] | None
    catalog: Catalog | None
    sent: dict[Oid, Sent]
    names: list[NameRow]
    found: dict[str, Found]
    mended: dict[str, list[Oid]]
    told: dict[str, Lsn]
    outstanding: Outstanding
    left: set[Oid]


KEPT, NOTED = form_of(Kept), form_of(list[Noted])


def line_of(form: Form, value: object) -> bytes:
    return (compact(form.written(value)) + "\n").encode()


def noted_in(line: bytes) -> list[Noted]:
    """The Relation messages of a line that was added."""
    found: list[Noted] = NOTED.read(parsed(line, LARGEST))
    return found
