"""Reads tables under one snapshot by several connections, each table in a transaction and under a
lock of its own.

No table is locked for longer than it is read, and a lock is never waited for within the server: a
table that somebody else has locked comes later, after those that aren't. Under its lock a table has
to be what it was before the snapshot, in its name, columns and files: one that was truncated or
written anew reads empty in an older snapshot. Any other is left out, and told.

The rows come in parts of a megabyte, table after table: beside a large one others are read that
are small, whole, and wait then. Each connection has a thread, which waits once a few parts weren't
taken.
"""

import collections
import contextlib
import dataclasses
import itertools
import os
import threading
import time
from collections.abc import Iterator, Mapping

from pgsub_feed import log
from pgsub_feed.interruption import rest
from pgsub_feed.texts import literal

from ..errors import ServerError
from ..server.catalog import Table
from ..server.connection import Connection
from ..server.publications import are_so_named, stored_in
from ..server.session import Subscription
from .messages import Frame, text_frames
from .row_order import Run, runs_of
from .rows_beside import RowsBeside

# How many bytes a part has about, how many are read at a time, how many parts of the table that is
# taken wait at most, and how many of others by connection.
PART, BLOCK, AHEAD = 1 << 20, 1 << 17, 4
# How large a table is at the server that is read beside others, in bytes.
SMALL = 4 << 20
# For how long a lock of somebody else is waited for, and how often it is tried, in seconds.
PATIENCE, LOOK = 60.0, 0.1
LOCK_TIMEOUT, DENIED, NO_SNAPSHOT = "55P03", "42501", "22023"
# A table or column that is gone.
GONE = ("42P01", "42703", "42704")


@dataclasses.dataclass
class Part:
    """Some rows of a table, as the frames of a load. `is_first`, `is_last`: no others come before
    them, or follow."""

    table: Table
    is_first: bool
    frames: list[Frame] = dataclasses.field(default_factory=list)
    rows: int = 0
    longest: int = 0
    size: int = 0
    is_last: bool = False

    def add(self, lines: list[bytes], most: int) -> None:
        self.frames += text_frames(lines, most)
        self.rows += len(lines)
        lengths = [*map(len, lines)]
        self.longest = max(self.longest, max(lengths))
        self.size += sum(lengths)


@dataclasses.dataclass
class Left:
    """A table that can't be read under the snapshot."""

    table: Table
    why: str


Item = Part | Left


class Ended(Exception):
    """Nobody wants more."""


class Items:
    """What the connections have read and nobody has taken yet: of the table that is taken now so
    many parts at most, and of all others together so many. `writers`: how many threads read on;
    `reads`: the end of a pipe that can be read whenever there is news."""

    def __init__(self, writers: int) -> None:
        self.writers, self.most, self.lock = writers, AHEAD * writers, threading.Condition()
        self.left: collections.deque[Left] = collections.deque()
        # by the OID of a table its parts; the first table is the one that is taken
        self.parts: dict[int, collections.deque[Part]] = {}
        self.failure: BaseException | None = None
        self.has_ended = False
        self.reads, self.wakes = os.pipe()
        os.set_blocking(self.reads, False)

    # who takes

    def has_news(self) -> bool:
        """Whether something can be taken, or all is over."""
        with contextlib.suppress(BlockingIOError):
            os.read(self.reads, 1 << 12)
        with self.lock:
            return bool(self.left or self.first() or self.failure or not self.writers)

    def first(self) -> collections.deque[Part]:
        """The parts of the table that is taken."""
        return next(iter(self.parts.values()), collections.deque())

    def take(self) -> Item | None:
        """What comes next, None where there is nothing now. Raises what a thread ended with."""
        with self.lock:
            if self.failure:
                raise self.failure
            if self.left:
                return self.left.popleft()
            if not (first := self.first()):
                return None
            part = first.popleft()
            if part.is_last:
                del self.parts[part.table.oid]
            self.lock.notify_all()
            return part

    def is_empty(self) -> bool:
        """Whether all was taken that has come."""
        return not (self.left or self.parts)

    def end(self) -> None:
        """Nothing more is taken: each thread ends."""
        with self.lock:
            self.has_ended = True
            self.lock.notify_all()

    def close(self) -> None:
        for end in (self.reads, self.wakes):
            os.close(end)

    # the threads

    @contextlib.contextmanager
    def writer(self) -> Iterator[None]:
        """What a thread does. What it raises is raised where items are taken."""
        try:
            yield
        except Ended:
            pass
        except BaseException as error:
            self.failure = self.failure or error
        finally:
            with self.lock:
                self.writers -= 1
                self.lock.notify_all()
            self.wake()

    def check(self) -> None:
        if self.has_ended:
            raise Ended

    def leave(self, left: Left) -> None:
        """Adds a table that isn't read."""
        with self.lock:
            self.left.append(left)
        self.wake()

    def put(self, part: Part) -> None:
        """Adds one, once there is room."""
        with self.lock:
            while not self.has_room(part.table.oid) and not self.has_ended:
                self.lock.wait()
            self.check()
            self.parts.setdefault(part.table.oid, collections.deque()).append(part)
        self.wake()

    def has_room(self, oid: int) -> bool:
        """Whether one more part of a table may wait."""
        first, *others = self.parts or (oid,)
        if first == oid:
            return len(self.parts.get(oid, ())) < AHEAD
        return sum(len(self.parts[it]) for it in others) < self.most

    def wake(self) -> None:
        os.write(self.wakes, b"x")


@dataclasses.dataclass(frozen=True)
class Reading:
    """What is read, and how: by so many connections, under a snapshot. `sizes`: how large tables
    are at the server, by OID; `stored`: the files of all tables before the snapshot; `most`: how
    long the payload of a frame may be."""

    jobs: int
    snapshot: str
    tables: list[Table]
    sizes: Mapping[int, int]
    stored: Mapping[int, str | None]
    most: int


class Readers:
    """The connections. `looker`: sees what is there now; `beside`: gets all rows, too."""

    def __init__(
        self, subscription: Subscription, reading: Reading, looker: Connection, beside: RowsBeside
    ) -> None:
        self.subscription, self.reading, self.beside = subscription, reading, beside
        self.looker, self.looking = looker, threading.Lock()
        self.left = list(reading.tables)
        # the large table that is read now
        self.large: Table | None = None
        # by the OID of a table: when it was tried last, and since when others have it locked
        self.tried: dict[int, float] = {}
        self.locked: dict[int, float] = {}
        self.threads = [
            threading.Thread(target=self.work, daemon=True)
            for _ in range(max(1, min(reading.jobs, len(self.left))))
        ]
        self.items = Items(len(self.threads))

    def begin(self) -> None:
        for it in self.threads:
            it.start()

    def close(self) -> None:
        self.items.end()
        for it in self.threads:
            if it.ident is not None:
                it.join()
        self.items.close()

    # what each thread does

    def work(self) -> None:
        """One connection: one table after the other."""
        connected = self.subscription.connected("copy", self.items.check)
        with self.items.writer(), connected as connection:
            connection.run("SET row_security = off")
            while table := self.next_table():
                self.read(connection, table)
                self.note_read(table)

    def next_table(self) -> Table | None:
        """The next table, None after the last. Of large ones one is read at a time."""
        with self.items.lock:
            while self.left and not self.items.has_ended:
                for table in self.left:
                    if self.large is None or not self.is_large(table):
                        self.left.remove(table)
                        self.large = table if self.is_large(table) else self.large
                        return table
                self.items.lock.wait()
        return None

    def is_large(self, table: Table) -> bool:
        return self.reading.sizes.get(table.oid, 0) > SMALL

    def note_read(self, table: Table) -> None:
        with self.items.lock:
            self.large = None if table is self.large else self.large
            self.items.lock.notify_all()

    def read(self, connection: Connection, table: Table) -> None:
        """Reads a table; not one that is locked by somebody else, which comes later."""
        tried, check = self.tried.get(table.oid, 0.0), self.items.check
        rest(tried + LOOK - time.monotonic(), check, LOOK)
        self.tried[table.oid] = time.monotonic()
        connection.run("BEGIN ISOLATION LEVEL REPEATABLE READ READ ONLY")
        take_snapshot(connection, self.reading.snapshot)
        why = self.lock_table(connection, table)
        if why is None:
            self.pass_on(connection, table)
            return
        connection.run("ROLLBACK")
        if why:
            self.items.leave(Left(table, why))
            return
        with self.items.lock:
            self.left.append(table)

    def pass_on(self, connection: Connection, table: Table) -> None:
        """Passes a table on part by part; a small one once it is read, and not locked any more."""
        waiting, is_large = list[Part](), self.is_large(table)
        runs = runs_of(connection, table, self.reading.sizes.get(table.oid, 0))
        for part in parts_of(connection, table, runs, self.reading.most, self.beside):
            waiting.append(part)
            if is_large or len(waiting) > AHEAD:
                while waiting:
                    self.items.put(waiting.pop(0))
        connection.run("COMMIT")
        for part in waiting:
            self.items.put(part)

    def lock_table(self, connection: Connection, table: Table) -> str | None:
        """Locks a table. Returns why it is left out, "" where others have it locked, or None."""
        try:
            lock_tables(connection, [table])
            is_same = self.is_same(connection, table)
        except ServerError as error:
            if error.sqlstate in GONE:
                return "it was dropped or altered while the slot was made"
            if error.sqlstate != LOCK_TIMEOUT:
                raise
            if table.oid not in self.locked:
                log.info(f"{table.text()} is locked by others: it is read later")
            since = self.locked.setdefault(table.oid, time.monotonic())
            is_over = time.monotonic() - since > PATIENCE
            return f"others have locked it for {PATIENCE:.0f} seconds" if is_over else ""
        return None if is_same else "it was altered or truncated while the slot was made"

    def is_same(self, connection: Connection, table: Table) -> bool:
        """Whether a locked table has the files, name and columns of before the snapshot."""
        files = stored_in(connection, [table])
        with self.looking:
            named = are_so_named(self.looker, [table])
        return named and files.items() <= self.reading.stored.items()


def parts_of(
    connection: Connection, table: Table, runs: list[Run], most: int, beside: RowsBeside
) -> Iterator[Part]:
    """All rows of a table, in parts, of which frames have payloads of so many bytes at most."""
    part = Part(table, is_first=True)
    for lines in itertools.chain.from_iterable(it.blocks(connection, BLOCK) for it in runs):
        if part.size >= PART:
            yield part
            part = Part(table, is_first=False, longest=part.longest)
        beside.take(table, lines)
        part.add(lines, most)
    part.is_last = True
    yield part


def take_snapshot(plain: Connection, snapshot: str) -> None:
    """Lets the transaction see what the slot's snapshot has, which goes with the slot."""
    try:
        plain.run(f"SET TRANSACTION SNAPSHOT {literal(snapshot)}")
    except ServerError as error:
        sqlstate = "" if error.sqlstate == NO_SNAPSHOT else error.sqlstate
        raise ServerError(str(error), sqlstate) from None


def lock_tables(plain: Connection, tables: list[Table]) -> None:
    """Locks tables against whoever alters or truncates them. None is waited for."""
    if not tables:
        return
    names = ", ".join(table.sql_name() for table in tables)
    try:
        plain.run(f"LOCK TABLE {names} IN ACCESS SHARE MODE NOWAIT")
    except ServerError as error:
        if error.sqlstate != DENIED:
            raise
        text = f"{error}; to lock a table while it is read needs SELECT on all of it, and not on some columns"
        raise ServerError(text, DENIED) from None
