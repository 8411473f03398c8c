"""A server in small whose tables change: commits at rising LSNs, sessions that send them, and slots
with a snapshot."""

from __future__ import annotations

import collections
import contextlib
import dataclasses
import re
import select
import socket
import struct
import threading
import time
from collections.abc import Callable, Iterator

from pgsub_connect.copy.messages import relation as relation_body
from pgsub_connect.server.catalog import Part, Table
from pgsub_feed.interruption import Check
from pgsub_feed.relation import Column, Shape
from pgsub_feed.texts import parse_lsn

from .fake_server import FakeServer
from .row_filter import Store, Subscriber
from .small_server import COPY_BOTH, READY, SmallServer, message
from .vectors import begin, commit, data, keepalive

# How long the record of a commit is, and that of running transactions.
RECORD, RUNNING = 48, 56
Row = tuple[int, str]


def table(oid: int, name: str) -> Table:
    return Table(
        oid,
        "public",
        name,
        "r",
        Shape("d", (Column("id", 23, -1, True, 1), Column("note", 25, -1, False, 2))),
    )


def catalog_table(it: Table) -> Table:
    return dataclasses.replace(it, parts={"pgsub": Part(None, None, False)})


def cells(*values: str) -> bytes:
    return struct.pack(">H", len(values)) + b"".join(
        b"t" + struct.pack(">I", len(it.encode())) + it.encode() for it in values
    )


def insert(oid: int, row: Row) -> bytes:
    return data(b"I" + struct.pack(">I", oid) + b"N" + cells(str(row[0]), row[1]))


def update(oid: int, row: Row) -> bytes:
    return data(b"U" + struct.pack(">I", oid) + b"N" + cells(str(row[0]), row[1]))


def delete(oid: int, key: int) -> bytes:
    return data(b"D" + struct.pack(">I", oid) + b"K" + cells(str(key), ""))


class World:
    """What the server has. `commits`: the payloads of each without Relation messages, with its
    end."""

    def __init__(self, *tables: Table) -> None:
        # those that are published, and all that there ever were
        self.tables = {it.oid: it for it in tables}
        self.known = dict(self.tables)
        self.end, self.xid = 0x1000000, 700
        self.commits: list[tuple[int, list[bytes]]] = []
        self.lock = threading.RLock()
        # what the first commits make, how many they are, and how tables were described then
        self.made, self.taken, self.as_known = Subscriber(Store(":memory:")), 0, self.known
        # how long a record is that is written where nothing else is, and the server is asked
        self.record = 0
        # whether sessions send nothing
        self.stalls = False
        # (notified where sessions may have something to do)
        self.news = threading.Condition(self.lock)

    def tell(self) -> None:
        with self.news:
            self.news.notify_all()

    def commit(self, *changes: bytes) -> None:
        with self.lock:
            lsn, self.end, self.xid = self.end, self.end + RECORD, self.xid + 1
            self.commits.append((self.end, [begin(lsn, self.xid), *changes, commit(lsn, self.end)]))
            self.tell()

    def rows(self) -> dict[int, collections.Counter[tuple[str | None, ...]]]:
        """The rows of each table now."""
        with self.lock:
            if self.as_known != self.known:
                self.made.store.base.close()
                self.made, self.taken = Subscriber(Store(":memory:")), 0
            self.as_known = dict(self.known)
            for payload in self.described(0, self.commits[self.taken :], set(self.made.relations)):
                self.made.take(payload)
            self.taken = len(self.commits)
            return {oid: rows for oid, rows in self.made.store.rows().items() if rows}

    def rows_of(self, *oids: int) -> dict[int, collections.Counter[tuple[str | None, ...]]]:
        return {oid: rows for oid, rows in self.rows().items() if oid in oids}

    def described(
        self, start: int, commits: list[tuple[int, list[bytes]]], sent: set[int] | None = None
    ) -> Iterator[bytes]:
        """What a session from an LSN on sends of commits: Relation messages before the first change
        of each table."""
        sent = set() if sent is None else sent
        for end, payloads in commits:
            if end <= start:
                continue
            for payload in payloads:
                oid = int.from_bytes(payload[26:30], "big")
                if payload[25:26] in (b"I", b"U", b"D") and oid not in sent:
                    sent.add(oid)
                    yield data(relation_body(self.known[oid]))
                yield payload

    def slot(self) -> tuple[int, dict[int, list[bytes]]]:
        """Makes a slot: its consistent point, and the lines of each table that its snapshot has."""
        with self.lock:
            self.end += RUNNING
            rows = self.rows()
            lines = {
                oid: [
                    "\t".join(it or "" for it in row).encode() + b"\n"
                    for row, count in found.items()
                    for _ in range(count)
                ]
                for oid, found in rows.items()
            }
            return self.end, lines


class WorldServer(SmallServer):
    """A server on a socket that sends what is committed. `started`: from where each session was
    asked for, and with which options; `slot_at`: where its slot is, whatever is confirmed."""

    def __init__(self, folder: str, brain: FakeServer, world: World) -> None:
        self.world = world
        self.started: list[tuple[int, str]] = []
        self.slot_at = 0
        super().__init__(folder, brain)

    def copy(self, peer: socket.socket) -> None:
        self.sessions += 1
        found = re.search(r"LOGICAL (\S+) \((.*)\)", self.brain.commands[-1])
        assert found
        self.started.append((parse_lsn(found[1]), found[2]))
        start = max(parse_lsn(found[1]), self.slot_at)
        peer.sendall(COPY_BOTH)
        ended, asked, sent, at = threading.Event(), threading.Event(), set[int](), 0
        world = self.world

        def is_over() -> bool:
            return ended.is_set() or self.ended

        def has_news() -> bool:
            is_asked = asked.is_set() or len(world.commits) > at
            return is_over() or is_asked and not world.stalls

        def send() -> None:
            nonlocal at
            with contextlib.suppress(OSError):
                while not is_over():
                    with world.news:
                        world.news.wait_for(has_news)
                        commits = world.commits[at:]
                        world.end += world.record if asked.is_set() and not commits else 0
                        end = world.end
                    at += len(commits)
                    for payload in world.described(start, commits, sent):
                        peer.sendall(message(b"d", payload))
                    if asked.is_set():
                        asked.clear()
                        peer.sendall(message(b"d", keepalive(end)))

        self.begin(send)
        try:
            for tag, body in self.messages(peer):
                if tag == b"c":
                    ended.set()
                    peer.sendall(message(b"c", b"") + message(b"C", b"COPY 0\0") + READY)
                    return
                self.statuses.append((time.monotonic(), body))
                if body[-1:] == b"\x01":
                    asked.set()
                    world.tell()
        finally:
            ended.set()
            world.tell()


class WorldSource:
    """In the place of `copy.source.Source`: reads the tables of a world. `hook` is called with the name
    of each call, and may raise."""

    world: World
    hook: Callable[[str], None] = staticmethod(lambda name: None)
    open = 0
    # for which standbys commits wait, and what was read of tables
    waited_for = ""
    copied: list[str] = []

    def __init__(
        self, subscription: object, store: str, known: object, check: Check, purpose: str
    ) -> None:
        self.check = check
        self.hook("Source")
        self.tables = list(self.world.tables.values())
        self.plain = self
        type(self).open += 1
        self.is_open = True

    def narrow(self, oid: int, patience: float) -> Table | None:
        self.tables = [it for it in self.tables if it.oid == oid]
        return self.tables[0] if self.tables else None

    def value(self, command: str) -> None:
        """(It has no statistics.)"""

    def maker(self) -> int:
        return 4711

    def standbys(self) -> str:
        return self.waited_for

    def run(self, command: str) -> None:
        """(Its savepoints have nothing to go back to.)"""

    def make_slot(self, seconds: float, check_end: Check | None = None) -> tuple[int, str]:
        (check_end or self.check)()
        self.hook("make_slot")
        point, self.lines = self.world.slot()
        return point, "snapshot"

    def see(self, snapshot: str) -> None:
        self.check()
        self.hook("see")

    def rows(self, command: str) -> list[list[str | None]]:
        """The sizes of tables."""
        return [
            [str(oid), str(sum(map(len, lines)))] for oid, lines in self.world.slot()[1].items()
        ]

    def copied_blocks(self, command: str, size: int) -> Iterator[list[bytes]]:
        self.hook("COPY")
        self.copied.append(command)
        lines = self.lines.get(self.tables[0].oid, [])
        for at in range(0, len(lines), 10):
            self.hook("block")
            yield lines[at : at + 10]

    def close(self) -> None:
        type(self).open -= self.is_open
        self.is_open = False


def wait_for(holds: Callable[[], bool], seconds: float = 60.0) -> bool:
    until = time.monotonic() + seconds
    while not holds():
        if time.monotonic() > until:
            return False
        select.select([], [], [], 0.005)
    return True
