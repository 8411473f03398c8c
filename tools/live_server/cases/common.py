"""What the cases of `export`, `verify` and `add` share: loads beside a follower, comparisons, and
differences that are planted into a store."""

from __future__ import annotations

import contextlib
import json
import shutil
import sqlite3
import struct
import subprocess
import threading
import time
from collections.abc import Callable, Iterator
from pathlib import Path
from signal import SIGTERM
from typing import Any, Optional

from ..child import Child
from ..errors import Failed
from ..feeds import reading
from ..follower import wait_until
from ..load import SCHEMA, Worker, final_statements
from ..place import MISSED, OK, PASSING, Place

Cells = tuple[Optional[str], ...]
Line = dict[str, Any]

ACCOUNTS = (
    "CREATE TABLE account (id int PRIMARY KEY, amount int)",
    "INSERT INTO account SELECT it, 100 FROM generate_series(0, 19) it",
    "CREATE TABLE move (id int PRIMARY KEY, source int, target int, padding int)",
    "CREATE TABLE padding (move int, id int, PRIMARY KEY (move, id))",
    "CREATE PUBLICATION pgsub FOR ALL TABLES",
)


class Moves:
    """Moves between accounts, each with a row that tells it. `pause`: how many seconds there are
    between two of them."""

    def __init__(self, place: Place, pause: float = 0.03) -> None:
        self.place, self.pause, self.ended, self.moves = place, pause, threading.Event(), 0
        self.thread = threading.Thread(target=self.run, daemon=True)

    def run(self) -> None:
        with self.place.cluster.connect(self.place.database) as session:
            while not self.ended.is_set():
                self.moves += 1
                source, target = self.moves % 20, (self.moves * 7 + 3) % 20
                # (each tenth one is streamed in parts)
                more = 700 if self.moves % 10 == 0 else 1
                session.run(
                    "BEGIN",
                    f"UPDATE account SET amount = amount - 5 WHERE id = {source}",
                    f"INSERT INTO padding SELECT {self.moves}, it FROM generate_series(1, {more}) it",
                    f"UPDATE account SET amount = amount + 5 WHERE id = {target}",
                    f"INSERT INTO move VALUES ({self.moves}, {source}, {target}, {more})",
                    "COMMIT",
                )
                time.sleep(self.pause)


def feed_of(place: Place) -> Path:
    return place.beside(".feed")


def rows_file(place: Place) -> Path:
    return place.folder / "rows.db"


def wait(place: Place, lsn: str, *more: str, status: int = OK) -> None:
    place.subcommand("wait", lsn, "--tables", str(rows_file(place)), *more, status=status)


def now_in_tables(place: Place) -> None:
    """Waits until the tables have all that is committed now."""
    wait(place, place.value("SELECT pg_current_wal_insert_lsn()"))


def position_of(place: Place) -> str:
    """The LSN of the tables."""
    with reading(rows_file(place)) as base:
        return str(base.execute("SELECT lsn FROM pgsub_position").fetchone()[0])


def undo(place: Place, begin: str, end: str, *more: str) -> str:
    """The SQL that takes commits of the feed back."""
    words = [
        str(place.options.connect.parent / "pgsub-feed"),
        "--feed",
        str(feed_of(place)),
        "--undo",
        begin,
        end,
        *more,
    ]
    done = subprocess.run(words, capture_output=True, check=False)
    if done.returncode:
        raise Failed(f"undo: status {done.returncode}: {done.stderr.decode(errors='replace')}")
    return done.stdout.decode()


@contextlib.contextmanager
def moving(place: Place, *more: str) -> Iterator[Child]:
    """A follower, while moves between accounts are made, of which some are streamed."""
    place.run(*ACCOUNTS)
    place.set(logical_decoding_work_mem="64kB")
    child = place.start("--create", *more)
    place.catch_up(child)
    load = Moves(place)
    load.thread.start()
    try:
        yield child
    finally:
        load.ended.set()
        load.thread.join(60)


@contextlib.contextmanager
def changing(place: Place, seed: str, *more: str, pause: float = 0.05) -> Iterator[Child]:
    """A follower, while changes of every kind are made, by three workers that rest for so many
    seconds on average. At the end it has caught up."""
    place.run(*SCHEMA, "CREATE PUBLICATION pgsub FOR ALL TABLES")
    child = place.start("--create", *more)
    place.catch_up(child)
    workers = [Worker(place.cluster, f"{seed} {it}", pause) for it in range(3)]
    for it in workers:
        it.start()
    try:
        yield child
    finally:
        for it in workers:
            it.ended.set()
        for it in workers:
            it.join(60)
    place.run(*final_statements())
    place.catch_up(child)


def check_slots(place: Place) -> None:
    """Fails where the server keeps another slot than the follower's."""
    slots = "SELECT string_agg(slot_name, ' ') FROM pg_replication_slots"
    wait_until(lambda: place.value(slots) == place.slot, "dropping the temporary slot", 20)


def verify_words(place: Place, *more: str, dsn: str = "") -> list[str]:
    return [
        str(place.options.connect),
        "verify",
        "--dsn",
        dsn or place.dsn(),
        "--store",
        str(place.store),
        *more,
    ]


def verify(place: Place, *more: str, status: int = OK, dsn: str = "") -> tuple[list[Line], str]:
    """Compares. Returns the differences that were printed, and all that was said."""
    said = place.has_ended(place.started(verify_words(place, *more, dsn=dsn)), status, "")
    return [json.loads(line) for line in said.splitlines() if line.startswith("{")], said


def ended(child: Child) -> str:
    """Asks for the end. Rows of commits that the store has passed over may have been missed."""
    child.signal(SIGTERM)
    if (status := child.end()) not in (OK, MISSED):
        raise Failed(f"it ended with status {status}: {child.said()}")
    return child.said()


def mend(place: Place, *accepted: str) -> None:
    """Does what `status` says: the copy is the server's again, and nothing is found any more."""
    child = place.start(*(word for it in accepted for word in ("--accept", it)))
    place.catch_up(child)
    verify(place, "--repair")
    ended(child)
    place.equal()
    # (a gap is accepted once more when the copy was compared)
    if left := place.found().keys() - {"missing", "slot"}:
        raise Failed(f"it still has {left}")
    place.change()
    place.follow("--strict", "--accept", "missing", "--accept", "slot")
    place.equal()


def verified(place: Place) -> None:
    """Compares until no TRUNCATE comes between the slot and the locks."""
    for _ in range(10):
        child = place.started(verify_words(place, "--hold", "30"))
        status = child.end()
        if status == OK:
            return
        if status != PASSING or "not compared: " not in child.said():
            raise Failed(f"status {status}: {child.said()}")
    raise Failed("published tables were truncated at each try")


# The planted differences. `stock` and `other` have rows (sku, name, note), and `log`, which has no
# key, rows (a, b).
TABLES = (
    "CREATE TABLE stock (sku int PRIMARY KEY, name text, note text)",
    "CREATE TABLE other (sku int PRIMARY KEY, name text, note text)",
    "CREATE TABLE log (a text, b text)",
    "ALTER TABLE log REPLICA IDENTITY FULL",
    "CREATE PUBLICATION pgsub FOR ALL TABLES",
    "INSERT INTO stock SELECT it, 'name ' || it, CASE WHEN it % 3 = 0 THEN NULL WHEN it % 3 = 1 THEN '' ELSE 'note' END"
    " FROM generate_series(1, 1000) it",
    "INSERT INTO other VALUES (1, 'one', 'a'), (2, 'two', 'b'), (3, 'three', NULL)",
    "INSERT INTO log SELECT 'line ' || it % 10, NULL FROM generate_series(1, 100) it",
)


def spelled(cells: Cells) -> bytes:
    """Cells as a store has them."""
    parts = [struct.pack(">H", len(cells))]
    for it in cells:
        body = None if it is None else it.encode()
        parts.append(b"n" if body is None else b"t" + struct.pack(">I", len(body)) + body)
    return b"".join(parts)


class Editor:
    """Changes the rows in the file of a store that nobody follows into."""

    def __init__(self, place: Place, base: sqlite3.Connection) -> None:
        self.base = base
        self.oids = {
            it: int(place.value(f"SELECT '{it}'::regclass::oid"))
            for it in ("stock", "other", "log")
        }

    def run(self, query: str, *values: object) -> None:
        if not (changed := self.base.execute(query, values).rowcount):
            raise Failed(f"{query}: {changed} rows")

    def put(self, sku: int, *cells: Optional[str], key: Optional[int] = None) -> None:
        """Puts other cells into a row of `stock`, and another key."""
        body, ident = spelled((str(key or sku), *cells)), spelled((str(key or sku),))
        self.run(
            "UPDATE held SET body = ?, ident = ? WHERE oid = ? AND ident = ?",
            body,
            ident,
            self.oids["stock"],
            spelled((str(sku),)),
        )

    def add(self, sku: int, *cells: Optional[str]) -> None:
        row = spelled((str(sku), *cells))
        self.run(
            "INSERT INTO held VALUES (?, ?, ?, 1)", self.oids["stock"], spelled((str(sku),)), row
        )

    def drop(self, sku: int) -> None:
        self.run(
            "DELETE FROM held WHERE oid = ? AND ident = ?", self.oids["stock"], spelled((str(sku),))
        )

    def move(self, sku: int) -> None:
        """Moves a row of `stock` into `other`."""
        self.run(
            "UPDATE held SET oid = ? WHERE oid = ? AND ident = ?",
            self.oids["other"],
            self.oids["stock"],
            spelled((str(sku),)),
        )

    def count(self, a: str, more: int) -> None:
        """Changes how often a row of `log` is there."""
        self.run(
            "UPDATE held SET copies = copies + ? WHERE oid = ? AND ident = ?",
            more,
            self.oids["log"],
            spelled((a, None)),
        )

    def empty(self, table: str) -> None:
        self.run("DELETE FROM held WHERE oid = ?", self.oids[table])


def row(sku: int, name: str, note: Optional[str]) -> Line:
    return {"sku": str(sku), "name": name, "note": note}


def keyed(
    sku: int, server: Optional[Line], copy: Optional[Line], table: str = "public.stock"
) -> Line:
    return {"table": table, "key": {"sku": str(sku)}, "server": server, "copy": copy}


def counted(a: str, server: int, copy: int) -> Line:
    return {
        "table": "public.log",
        "row": {"a": a, "b": None},
        "more_on_server": server,
        "more_in_copy": copy,
    }


EMPTY = [
    keyed(it, row(it, name, note), None, "public.other")
    for it, name, note in ((1, "one", "a"), (2, "two", "b"), (3, "three", None))
]
# By what it is: how it is planted, and what is to be found.
PLANTED: dict[str, tuple[Callable[[Editor], None], list[Line]]] = {
    "a changed cell": (
        lambda it: it.put(8, "other", "note"),
        [keyed(8, row(8, "name 8", "note"), row(8, "other", "note"))],
    ),
    "a NULL for an empty text": (
        lambda it: it.put(7, "name 7", None),
        [keyed(7, row(7, "name 7", ""), row(7, "name 7", None))],
    ),
    "an empty text for a NULL": (
        lambda it: it.put(9, "name 9", ""),
        [keyed(9, row(9, "name 9", None), row(9, "name 9", ""))],
    ),
    "a row that is missing": (
        lambda it: it.drop(500),
        [keyed(500, row(500, "name 500", "note"), None)],
    ),
    "a row too many": (
        lambda it: it.add(5000, "x", None),
        [keyed(5000, None, row(5000, "x", None))],
    ),
    "a copy too many of a row": (lambda it: it.count("line 3", 1), [counted("line 3", 0, 1)]),
    "a copy too few of a row": (lambda it: it.count("line 4", -2), [counted("line 4", 2, 0)]),
    "a changed key": (
        lambda it: it.put(10, "name 10", "", key=5010),
        [keyed(10, row(10, "name 10", ""), None), keyed(5010, None, row(5010, "name 10", ""))],
    ),
    "a trailing blank": (
        lambda it: it.put(11, "name 11 ", "note"),
        [keyed(11, row(11, "name 11", "note"), row(11, "name 11 ", "note"))],
    ),
    "an empty table": (lambda it: it.empty("other"), EMPTY),
    "swapped cells": (
        lambda it: it.put(14, "note", "name 14"),
        [keyed(14, row(14, "name 14", "note"), row(14, "note", "name 14"))],
    ),
    "a row in another table": (
        lambda it: it.move(17),
        [
            keyed(17, row(17, "name 17", "note"), None),
            keyed(17, None, row(17, "name 17", "note"), "public.other"),
        ],
    ),
}


def plant(place: Place, good: Path, change: Callable[[Editor], None]) -> None:
    """Makes the store's file anew, with a difference."""
    if good != place.store:
        shutil.copyfile(good, place.store)
    with contextlib.closing(sqlite3.connect(place.store)) as base:
        change(Editor(place, base))
        base.commit()
    place.beside("-shm").unlink(missing_ok=True)
