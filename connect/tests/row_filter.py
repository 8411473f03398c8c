#!/usr/bin/python3 -SE
"""A filter in the place of `pgsub follow` that keeps rows, in a file of the store's format: for
tests that compare rows.

usage: row_filter follow --store FILE [--load] [--proto N] [--max-buffered N] [--max-frame N] [--repeats FILE] [--spool FILE] ..
       row_filter dump --store FILE

It is a plain reading of docs/PROTOCOL.md, slow, and checks no more than it needs to. The file
FILE.dies may hold an LSN in decimal: the filter kills itself before it stores the commit with that
end, and takes the file away. With --spool it writes each change there, too, and
FILE.fault may hold the line of a fault of that: it ends by it at its next change, and takes the
file away. FILE.room may hold how many bytes of changes its disk has room for.

The tests start it often, so it imports little.
"""

from __future__ import annotations

import collections
import os
import sqlite3
import struct
import sys

TYPE_CHECKING = False
if TYPE_CHECKING:
    from collections.abc import Iterator

    from .noted_commits import NotedCommits

# The signal that can't be handled.
KILL = 9
Cell = tuple[str, bytes]
Item = tuple[int, bytes]
SCHEMA = (
    "CREATE TABLE IF NOT EXISTS rel (oid INTEGER PRIMARY KEY NOT NULL, nsp TEXT NOT NULL, name TEXT NOT NULL, letter INTEGER NOT NULL,"
    " cols BLOB NOT NULL) STRICT;"
    "CREATE TABLE IF NOT EXISTS held (oid INTEGER NOT NULL, ident BLOB NOT NULL, body BLOB NOT NULL, copies INTEGER NOT NULL,"
    " PRIMARY KEY (oid, ident)) STRICT;"
    "CREATE TABLE IF NOT EXISTS pos (id INTEGER PRIMARY KEY NOT NULL, lsn BLOB NOT NULL) STRICT;"
)


class Fault(Exception):
    """What ends the filter: with this status, and this line."""

    def __init__(self, status: int, text: str) -> None:
        super().__init__(text)
        self.status = status


class Relation:
    """What a Relation message says."""

    def __init__(
        self,
        oid: int,
        namespace: str,
        name: str,
        letter: str,
        columns: list[tuple[int, str]],
        raw: bytes,
    ) -> None:
        self.oid, self.namespace, self.name, self.letter = oid, namespace, name, letter
        self.columns, self.raw = columns, raw

    def is_same(self, other: Relation | None) -> bool:
        return other is not None and vars(self) == vars(other)

    def is_keyed(self) -> bool:
        return self.letter in "di" and any(key for key, _ in self.columns)

    def shape(self) -> object:
        return self.letter, self.columns


def number(data: bytes, at: int, size: int) -> int:
    return int.from_bytes(data[at : at + size], "big")


def string(data: bytes, at: int) -> tuple[str, int]:
    end = data.index(b"\0", at)
    return data[at:end].decode(), end + 1


def read_relation(body: bytes) -> Relation:
    """A Relation message without its letter and xid."""
    namespace, at = string(body, 4)
    name, at = string(body, at)
    letter, count, rest, columns = (
        chr(body[at]),
        number(body, at + 1, 2),
        body[at + 1 :],
        list[tuple[int, str]](),
    )
    at += 3
    for _ in range(count):
        column, end = string(body, at + 1)
        columns.append((body[at], column))
        at = end + 8
    return Relation(number(body, 0, 4), namespace, name, letter, columns, rest)


def read_tuple(data: bytes, at: int) -> tuple[list[Cell], int]:
    cells, count = list[Cell](), number(data, at, 2)
    at += 2
    for _ in range(count):
        letter, at = chr(data[at]), at + 1
        size = number(data, at, 4) if letter in "tb" else 0
        at += 4 if letter in "tb" else 0
        cells.append((letter, data[at : at + size]))
        at += size
    return cells, at


def spelled(cells: list[Cell]) -> bytes:
    parts = [struct.pack(">H", len(cells))]
    for letter, value in cells:
        parts.append(
            b"n" if letter == "n" else letter.encode() + struct.pack(">I", len(value)) + value
        )
    return b"".join(parts)


class Store:
    """The rows: a file in the store's format, or memory."""

    def __init__(self, path: str, own: bool = False) -> None:
        self.path = path
        # (what is in memory is read by several threads of a test, one at a time)
        self.base = sqlite3.connect(
            path,
            isolation_level=None,
            timeout=0 if own else 5,
            check_same_thread=path != ":memory:",
        )
        # (it outlasts a kill, and no power cut)
        self.base.execute("PRAGMA synchronous = OFF")
        if own:
            # (no other process opens it meanwhile)
            self.base.execute("PRAGMA locking_mode = EXCLUSIVE")
            self.base.executescript("BEGIN EXCLUSIVE; COMMIT")
        self.base.executescript(SCHEMA)
        row = self.base.execute("SELECT lsn FROM pos").fetchone()
        self.position = int.from_bytes(row[0], "big") if row else 0
        if row is None:
            self.base.execute("INSERT INTO pos VALUES (0, ?)", (bytes(8),))
        self.described = {
            oid: read_relation(
                struct.pack(">I", oid)
                + nsp.encode()
                + b"\0"
                + name.encode()
                + b"\0"
                + bytes([letter])
                + cols
            )
            for oid, nsp, name, letter, cols in self.base.execute("SELECT * FROM rel")
        }

    def take(self, changes: list[tuple[Relation, str, bytes]], end: int) -> None:
        """Applies a commit: all of it or nothing."""
        self.base.execute("BEGIN IMMEDIATE")
        try:
            for relation, letter, body in changes:
                self.change(relation, letter, body)
            self.base.execute("UPDATE pos SET lsn = ?", (end.to_bytes(8, "big"),))
            self.base.execute("COMMIT")
        except BaseException:
            self.base.execute("ROLLBACK")
            raise
        self.position = end

    def change(self, relation: Relation, letter: str, body: bytes) -> None:
        oid = relation.oid
        if letter == "T":
            self.base.execute("DELETE FROM held WHERE oid = ?", (oid,))
        before = self.described.get(oid)
        if not relation.is_same(before):
            if before is not None and before.shape() != relation.shape():
                self.carry(before, relation)
            self.described[oid] = relation
            self.base.execute(
                "INSERT OR REPLACE INTO rel VALUES (?, ?, ?, ?, ?)",
                (oid, relation.namespace, relation.name, ord(relation.letter), relation.raw),
            )
        if letter == "I":
            self.put(relation, read_tuple(body, 5)[0])
        elif letter in "UD":
            at, old = 4, None
            if chr(body[at]) in "KO":
                old, at = read_tuple(body, at + 1)
            new = read_tuple(body, at + 1)[0] if letter == "U" else None
            self.replace(relation, old if old is not None else new or [], new)

    def carry(self, before: Relation, now: Relation) -> None:
        rows = self.base.execute(
            "SELECT body, copies FROM held WHERE oid = ?", (now.oid,)
        ).fetchall()
        self.base.execute("DELETE FROM held WHERE oid = ?", (now.oid,))
        names = [name for _, name in before.columns]
        for body, copies in rows:
            cells = read_tuple(body, 0)[0]
            carried = [
                cells[names.index(name)] if name in names else ("n", b"") for _, name in now.columns
            ]
            for _ in range(copies):
                self.put(now, carried)

    def ident(self, relation: Relation, cells: list[Cell]) -> bytes:
        if not relation.is_keyed():
            return spelled(cells)
        return spelled([cell for (key, _), cell in zip(relation.columns, cells) if key])

    def put(self, relation: Relation, cells: list[Cell]) -> None:
        ident = self.ident(relation, cells)
        found = self.base.execute(
            "SELECT copies FROM held WHERE oid = ? AND ident = ?", (relation.oid, ident)
        ).fetchone()
        if found and relation.is_keyed():
            raise Fault(1, f"pgsub: store 1 Clash in {relation.name}")
        if found:
            self.base.execute(
                "UPDATE held SET copies = copies + 1 WHERE oid = ? AND ident = ?",
                (relation.oid, ident),
            )
        else:
            self.base.execute(
                "INSERT INTO held VALUES (?, ?, ?, 1)", (relation.oid, ident, spelled(cells))
            )

    def replace(self, relation: Relation, old: list[Cell], new: list[Cell] | None) -> None:
        where = (relation.oid, self.ident(relation, old))
        found = self.base.execute(
            "SELECT body, copies FROM held WHERE oid = ? AND ident = ?", where
        ).fetchone()
        if found is None:
            return
        if found[1] > 1:
            self.base.execute(
                "UPDATE held SET copies = copies - 1 WHERE oid = ? AND ident = ?", where
            )
        else:
            self.base.execute("DELETE FROM held WHERE oid = ? AND ident = ?", where)
        if new is not None:
            kept = read_tuple(found[0], 0)[0]
            self.put(relation, [was if it[0] == "u" else it for it, was in zip(new, kept)])

    def rows(self) -> dict[int, collections.Counter[tuple[str | None, ...]]]:
        """Each table's rows, and how often each is there."""
        found: dict[int, collections.Counter[tuple[str | None, ...]]] = {}
        for oid, body, copies in self.base.execute("SELECT oid, body, copies FROM held"):
            cells = tuple(
                None if letter == "n" else value.decode()
                for letter, value in read_tuple(body, 0)[0]
            )
            found.setdefault(oid, collections.Counter())[cells] += copies
        return found


class Spool:
    """The file of --spool, which nobody reads."""

    def __init__(self, path: str, fault: str, room: str) -> None:
        self.fault, self.room, self.size = fault, room, 0
        try:
            self.file = os.open(path, os.O_WRONLY | os.O_CREAT | os.O_TRUNC | os.O_CLOEXEC, 0o666)
        except OSError:
            raise Fault(13, "pgsub: spool 3 NotWritten") from None

    def write(self, item: bytes) -> None:
        try:
            os.write(self.file, item)
        except OSError:
            raise Fault(13, "pgsub: spool 4 NoRoom") from None
        self.size += len(item)
        if os.path.exists(self.room):
            with open(self.room, encoding="ascii") as file:
                if self.size > int(file.read()):
                    raise Fault(13, "pgsub: spool 4 NoRoom")
        if os.path.exists(self.fault):
            with open(self.fault, encoding="ascii") as file:
                line = file.read()
            os.unlink(self.fault)
            raise Fault(13, line)


class Subscriber:
    """Takes payloads, and applies commits to a store."""

    def __init__(self, store: Store, most: int = 1 << 40, spool: Spool | None = None) -> None:
        self.store, self.most, self.spool = store, most, spool
        self.confirmed = store.position
        self.begin_session()

    def begin_session(self) -> None:
        self.open: dict[int, list[Item]] = {}
        self.cost = 0
        self.relations: dict[int, Relation] = {}
        self.inside: int | None = None
        self.is_pair = False
        self.received = self.confirmed
        self.lsn = 0

    def take(self, payload: bytes) -> bool:
        """Takes one. Returns whether a status is due."""
        before = self.confirmed
        if payload[:1] == b"k":
            end = number(payload, 1, 8)
            self.received = max(self.received, end)
            if self.inside is None:
                self.confirmed = max(self.confirmed, end)
            return self.confirmed > before or payload[17] == 1
        self.received = max(self.received, number(payload, 1, 8), number(payload, 9, 8))
        self.message(chr(payload[25]), payload[26:])
        return self.confirmed > before

    def message(self, letter: str, body: bytes) -> None:
        if letter == "B":
            assert self.inside is None
            self.inside, self.is_pair, self.lsn = number(body, 16, 4), True, number(body, 0, 8)
            self.open[self.inside] = []
        elif letter == "S":
            assert self.inside is None
            self.inside, self.is_pair = number(body, 0, 4), False
            assert (self.inside not in self.open) == (body[4] == 1)
            self.open.setdefault(self.inside, [])
        elif letter == "E":
            self.inside = None
        elif letter == "C":
            assert self.inside is not None and self.lsn == number(body, 1, 8)
            self.commit(self.open.pop(self.inside), number(body, 9, 8))
            self.inside = None
        elif letter == "c":
            self.commit(self.open.pop(number(body, 0, 4)), number(body, 13, 8))
        elif letter == "A":
            self.abort(number(body, 0, 4), number(body, 4, 4))
        elif letter in "RIUDT":
            self.buffer(letter, body)

    def buffer(self, letter: str, body: bytes) -> None:
        assert self.inside is not None
        who = self.inside if self.is_pair else number(body, 0, 4)
        item = letter.encode() + (body if self.is_pair else body[4:])
        if self.spool:
            self.spool.write(item)
        self.cost += 8 + len(item)
        if self.cost > self.most:
            raise Fault(10, "pgsub: spool 1 SpoolFull")
        self.open[self.inside].append((who, item))

    def drop(self, items: list[Item]) -> None:
        """Counts items that aren't buffered any more."""
        self.cost -= sum(8 + len(item) for _, item in items)

    def abort(self, xid: int, subxid: int) -> None:
        if xid == subxid:
            self.drop(self.open.pop(xid, []))
        elif items := self.open.get(xid):
            first = next((at for at, (who, _) in enumerate(items) if who == subxid), len(items))
            self.drop(items[first:])
            del items[first:]

    def commit(self, items: list[Item], end: int) -> None:
        changes: list[tuple[Relation, str, bytes]] = []
        self.drop(items)
        for _, item in items:
            letter, body = chr(item[0]), item[1:]
            if letter == "R":
                relation = read_relation(body)
                self.relations[relation.oid] = relation
            elif letter == "T":
                changes += [
                    (self.known(number(body, at, 4)), letter, b"") for at in range(5, len(body), 4)
                ]
            else:
                changes.append((self.known(number(body, 0, 4)), letter, body))
        if end > self.store.position:
            self.die(end)
            self.store.take(changes, end)
        self.confirmed = max(self.confirmed, end)

    def known(self, oid: int) -> Relation:
        if oid not in self.relations:
            raise Fault(1, f"pgsub: relation 5 UnknownRelation {oid}")
        return self.relations[oid]

    def die(self, end: int) -> None:
        """Dies where the file beside the store says so."""
        path = self.store.path + ".dies"
        if os.path.exists(path):
            with open(path, encoding="ascii") as file:
                dies = int(file.read()) in (end, 0)
            if dies:
                os.unlink(path)
                os.kill(os.getpid(), KILL)


def pieces(limit: int) -> Iterator[tuple[bytes, bytes]]:
    """The frames of standard input: the tag and the payload of each."""
    source = sys.stdin.buffer
    while len(head := source.read(5)) == 5:
        length = int.from_bytes(head[1:], "big") - 4
        if length > limit:
            raise Fault(11, "pgsub: wire 3 TooLarge")
        payload = source.read(length)
        if len(payload) == length:
            yield head[:1], payload


def noted_of(words: list[str], position: int) -> NotedCommits | None:
    """What is to note commits, beside a store at this position."""
    if "--repeats" not in words:
        return None
    from importlib import import_module

    path = words[words.index("--repeats") + 1]
    sys.path.append(os.path.dirname(os.path.abspath(__file__)).removesuffix("/__pycache__"))
    try:
        found: NotedCommits = import_module("noted_commits").NotedCommits(path, position)
        return found
    except (OSError, ValueError) as error:
        raise Fault(3, f"pgsub: repeats: can't use {path}: {error}") from None


def follow(
    store: Store, most: int, limit: int, noted: NotedCommits | None, spool: Spool | None
) -> None:
    subscriber = Subscriber(store, most, spool)

    def status() -> None:
        values = (subscriber.received, subscriber.confirmed, subscriber.confirmed, 0, 0)
        os.write(1, struct.pack(">ci", b"d", 38) + struct.pack(">cQQQqB", b"r", *values))

    status()
    for tag, payload in pieces(limit):
        if noted:
            noted.begin_session() if tag == b"c" else noted.take(payload)
        if tag == b"c":
            subscriber.begin_session()
        elif subscriber.take(payload):
            status()
    if noted:
        noted.end()


ESCAPES = {b"b": b"\b", b"f": b"\f", b"n": b"\n", b"r": b"\r", b"t": b"\t", b"v": b"\v"}


def read_field(text: bytes) -> Cell:
    """A field of a line of COPY's text."""
    if text == b"\\N":
        return "n", b""
    first, *pieces = text.split(b"\\")
    value, at = first, 0
    while at < len(pieces):
        if not pieces[at]:
            # (a backslash stands for itself, and what comes behind the second one is as it is)
            value, at = value + b"\\" + b"".join(pieces[at + 1 : at + 2]), at + 2
            continue
        value += ESCAPES.get(pieces[at][:1], pieces[at][:1]) + pieces[at][1:]
        at += 1
    return "t", value


def load(store: Store, limit: int) -> None:
    """Reads a load. Each table of it is a part."""
    if store.position:
        raise Fault(3, "pgsub: load 7 NotNew")
    table, text = None, b""
    for _, payload in pieces(limit):
        letter, rest = payload[:1], payload[1:]
        if letter == b"R":
            table, text = read_relation(rest), b""
        elif letter == b"t":
            text += rest
        elif letter == b"e":
            assert table is not None
            cells = [
                [read_field(it) for it in line.split(b"\t")] for line in text.split(b"\n")[:-1]
            ]
            head = struct.pack(">Ic", table.oid, b"N")
            changes = [(table, "I", head + spelled(it if table.columns else [])) for it in cells]
            store.take(changes, store.position + 1)
        elif letter == b"p":
            store.take([], number(rest, 0, 8))
            return
    raise Fault(15, "pgsub: load 9 CutInput")


def dump(store: Store) -> None:
    import json

    for oid, rows in sorted(store.rows().items()):
        it = store.described[oid]
        for row, count in rows.items():
            print(
                json.dumps([it.namespace or "pg_catalog", it.name, row, count], ensure_ascii=False)
            )
    print(f"position {store.position >> 32:X}/{store.position & 0xFFFFFFFF:X}")


def main(words: list[str]) -> int:
    if words[:1] == ["--version"] or "--help" in words:
        print(__doc__ if "--help" in words else "row_filter")
        return 0

    def value(name: str, default: int) -> int:
        return int(words[words.index(name) + 1]) if name in words else default

    path, spool = words[words.index("--store") + 1], None
    try:
        if "--spool" in words:
            spool = Spool(words[words.index("--spool") + 1], path + ".fault", path + ".room")
        store = Store(path, own=True)
    except Fault as fault:
        print(fault, file=sys.stderr, flush=True)
        return fault.status
    except sqlite3.OperationalError as error:
        print(f"row_filter: {error}", file=sys.stderr)
        return 12
    try:
        if words[0] == "dump":
            dump(store)
        else:
            limit = value("--max-frame", 1 << 24)
            if "--load" in words:
                load(store, limit)
            noted = noted_of(words, store.position)
            most = value("--max-buffered", 1 << (40 if spool else 26))
            follow(store, most, limit, noted, spool)
    except Fault as fault:
        print(fault, file=sys.stderr, flush=True)
        return fault.status
    finally:
        store.base.close()
    return 0


if __name__ == "__main__":
    sys.exit(main(sys.argv[1:]))
