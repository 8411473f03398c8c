"""The first rows of a feed as files beside its segments, as `pgsub_feed.reader.base` reads them, by
a process that gets the rows of an initial copy while they are read.

Where that ends before all rows came, nothing is left of them. Another process makes them from the
rows of the store then: where an interrupted copy went on, what was stored before it was interrupted
comes by no frames. Nobody has the store open meanwhile, since the follower that has started the
process is its connector. They are as of the store's position, from which the feed goes on. What is
there of tables that are to be added goes by the TRUNCATE with which their rows come.
"""

import contextlib
import json
import os
import shutil
import sqlite3
import sys
import zlib
from collections.abc import Callable, Collection, Iterable, Iterator, Mapping
from json.encoder import encode_basestring  # type: ignore[attr-defined]
from typing import BinaryIO

from pgsub_feed import log
from pgsub_feed.errors import FileError
from pgsub_feed.files import NEW, sync_folder
from pgsub_feed.interruption import Check, undone_by
from pgsub_feed.json_texts import compact
from pgsub_feed.log import Meter
from pgsub_feed.ownership import set_mode
from pgsub_feed.program import check_signals, guarded
from pgsub_feed.reader.base import FOLDER, FORMAT, file_name, remove_base
from pgsub_feed.reader.lines import HEAD_SIZE
from pgsub_feed.reader.polling import Parent
from pgsub_feed.relation import Relation
from pgsub_feed.tables.schema import table_line
from pgsub_feed.tables.values import Malformed
from pgsub_feed.texts import counted, lsn_text

from ..drift.remembered import Remembered
from .at_rest import unopened
from .copied_rows import READ, attempted, rows_of
from .export import Held
from .file import check_store, choose, opened, read_position, read_relations
from .row_frames import BaseWanted

# How many bytes of rows wait to be written, and how many each file but the last has at least.
ROOM, LEAST = 1 << 20, 1 << 26
NULL, TEXT, BINARY = b"ntb"


def row_line(body: bytes) -> bytes:
    """A row of a tuple as its line."""
    cells, at = [], 2
    for _ in range(int.from_bytes(body[:2], "big")):
        kind = body[at] if at < len(body) else 0
        if kind == NULL:
            cells.append("null")
            at += 1
            continue
        begin = at + 5
        at = begin + int.from_bytes(body[at + 1 : begin], "big")
        if kind == TEXT:
            cells.append(encode_basestring(body[begin:at].decode()))
        elif kind == BINARY:
            cells.append(f'{{"hex":"{body[begin:at].hex()}"}}')
        else:
            raise Malformed
    if at != len(body):
        raise Malformed
    return f"[{','.join(cells)}]\n".encode()


class BaseFile:
    """One of the files. Its head is written once it is complete."""

    def __init__(self, folder: str, number: int, wanted: BaseWanted) -> None:
        self.number, self.wanted = number, wanted
        path = os.path.join(folder, file_name(number))
        flags = os.O_WRONLY | os.O_CREAT | os.O_EXCL | os.O_CLOEXEC
        self.file = open(os.open(path, flags, 0o600), "wb")
        os.fchmod(self.file.fileno(), wanted.mode)
        self.file.write(b" " * HEAD_SIZE)
        self.rows = self.bytes = self.crc = 0

    def put(self, lines: bytes, rows: int) -> None:
        self.file.write(lines)
        self.crc, self.bytes = zlib.crc32(lines, self.crc), self.bytes + len(lines)
        self.rows += rows

    def finish(self, is_last: bool) -> None:
        it = self.wanted
        told: dict[str, object] = {"base": FORMAT, "lsn": lsn_text(it.point)}
        told.update(system=it.system, database=it.database, slot=it.slot)
        told.update(number=self.number, last=is_last, rows=self.rows, bytes=self.bytes)
        told["crc"] = self.crc
        line = compact(told).encode()
        if len(line) >= HEAD_SIZE:
            raise FileError("the names of database and slot are too long")
        self.file.seek(0)
        self.file.write(line.ljust(HEAD_SIZE - 1) + b"\n")
        self.file.flush()
        os.fsync(self.file.fileno())
        self.file.close()


class BaseWriter:
    """Writes the rows of some relations, in the order in which they come."""

    def __init__(
        self, folder: str, wanted: BaseWanted, relations: Mapping[int, Relation], check: Check
    ) -> None:
        self.folder, self.wanted, self.check = folder, wanted, check
        self.definitions = {oid: table_line(it) + b"\n" for oid, it in relations.items()}
        self.waiting = dict[int, list[bytes]]()
        self.size = self.rows = 0
        self.empty = set(self.definitions)
        self.file = BaseFile(folder, 1, wanted)

    def add(self, oid: int, body: bytes) -> None:
        if oid not in self.definitions:
            raise Malformed
        line = row_line(body)
        self.waiting.setdefault(oid, []).append(line)
        self.size += len(line)
        if self.size > ROOM:
            self.write()

    def write(self) -> None:
        """Writes what waits, the rows of one table after those of another."""
        self.check()
        if self.file.bytes >= LEAST:
            self.file.finish(False)
            self.file = BaseFile(self.folder, self.file.number + 1, self.wanted)
        for oid, lines in self.waiting.items():
            self.file.put(self.definitions[oid] + b"".join(lines), len(lines))
            self.rows += len(lines)
            self.empty.discard(oid)
        self.waiting.clear()
        self.size = 0

    def finish(self) -> None:
        self.write()
        for oid in sorted(self.empty):
            self.file.put(self.definitions[oid], 0)
        self.file.finish(True)


@contextlib.contextmanager
def placed_folder(feed: str, mode: int) -> Iterator[str]:
    """A new folder for a feed's first rows, named at the end; an error leaves nothing of it."""
    folder = os.path.join(feed, FOLDER)
    new = folder + NEW
    remove_base(feed)
    os.mkdir(new, 0o700)
    with undone_by(lambda: shutil.rmtree(new, ignore_errors=True)):
        set_mode(new, mode | (mode & 0o444) >> 2)
        yield new
        sync_folder(os.path.join(new, file_name(1)))
        os.rename(new, folder)
        sync_folder(folder)


def write_base(
    wanted: BaseWanted, relations: Mapping[int, Relation], rows: Iterable[Held], check: Check
) -> int:
    """Writes the rows, each as often as it is there; returns how many they are."""
    with placed_folder(wanted.feed, wanted.mode) as folder:
        writer = BaseWriter(folder, wanted, relations, check)
        for oid, body, copies in rows:
            for _ in range(copies):
                writer.add(oid, body)
        writer.finish()
    return writer.rows


def written(wanted: BaseWanted, source: BinaryIO, check: Check) -> int:
    """Writes the files; the exit status."""

    def write() -> int:
        known = choose({}, Remembered(wanted.store), wanted.point)
        return write_base(wanted, {it.oid: it for it in known}, rows_of(source), check)

    return told(wanted, write)


def told(wanted: BaseWanted, write: Callable[[], int]) -> int:
    """Tells how many rows were written, or why there are none; the exit status."""

    def make() -> None:
        rows = counted(write(), "row")
        log.info(f"{wanted.feed} has {rows} from before its first commit")

    return attempted(make, f"{wanted.feed} gets no first rows")


def run() -> None:
    wanted, check = BaseWanted(*json.loads(sys.argv[1])), check_signals()
    with open(0, "rb", buffering=READ) as source:
        sys.exit(guarded(lambda: written(wanted, source, check)))


# After how many rows it is noted how far it is.
NOTED = 1000


def stored_rows(
    store: sqlite3.Connection, stored: Collection[int], chosen: Collection[int]
) -> Iterator[Held]:
    """The rows of the chosen tables, in the order in which the file has them."""
    meter = Meter("reading first rows")
    total = store.execute("SELECT count(*) FROM held").fetchone()[0]
    rows = store.execute("SELECT oid, body, copies FROM held NOT INDEXED")
    for done, (oid, body, copies) in enumerate(rows):
        if done % NOTED == 0:
            meter.note(done, total)
        if oid in chosen:
            yield oid, body, copies
        elif oid not in stored:
            raise Malformed


def write_stored(wanted: BaseWanted, check: Check) -> int:
    """Writes the files; returns how many rows they have."""
    with unopened(wanted.store, wanted.store + ".base", check) as (path, _):
        check_store(path, wanted.store)
        with contextlib.closing(opened(path)) as store:
            stored, position = read_relations(store), read_position(store)
            known = choose(stored, Remembered(wanted.store), position)
            relations = {it.oid: it for it in known}
            rows = stored_rows(store, stored, relations)
            return write_base(wanted._replace(point=position), relations, rows, check)


def written_from_store(wanted: BaseWanted, check: Check) -> int:
    return told(wanted, lambda: write_stored(wanted, check))


def run_from_store() -> None:
    # (it ends with its input, so with the follower)
    wanted, parent = BaseWanted(*json.loads(sys.argv[1])), Parent(check_signals())
    sys.exit(guarded(lambda: written_from_store(wanted, parent.check)))
