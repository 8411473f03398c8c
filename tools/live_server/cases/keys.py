"""Primary keys of tables whose replica identity is another: in `rows.db` and in exports."""

from __future__ import annotations

import contextlib
import json
import sqlite3
from pathlib import Path
from typing import Dict, List

from ..errors import Failed
from ..feeds import compare_tables, reading
from ..follower import wait_until
from ..place import Place
from .case import Case
from .common import now_in_tables, position_of, rows_file

FULL = "ALTER TABLE {} REPLICA IDENTITY FULL"
TABLES = (
    "CREATE TABLE stock (id int PRIMARY KEY, note text)",
    FULL.format("stock"),
    "CREATE TABLE pairs (b int, v text, a text, PRIMARY KEY (a, b))",
    FULL.format("pairs"),
    "CREATE TABLE coded (id int PRIMARY KEY, code text NOT NULL UNIQUE, v int)",
    "ALTER TABLE coded REPLICA IDENTITY USING INDEX coded_code_key",
    "CREATE TABLE later (id int PRIMARY KEY DEFERRABLE, v int)",
    FULL.format("later"),
    "CREATE TABLE bag (id int, v int)",
    FULL.format("bag"),
    "CREATE TABLE parted (id int PRIMARY KEY, v int) PARTITION BY RANGE (id)",
    "CREATE TABLE parted1 PARTITION OF parted FOR VALUES FROM (1) TO (5)",
    "CREATE TABLE parted2 PARTITION OF parted FOR VALUES FROM (5) TO (99)",
    *(FULL.format(it) for it in ("parted", "parted1", "parted2")),
    *(
        f"INSERT INTO {it} SELECT it, it FROM generate_series(1, 4) it"
        for it in ("stock", "later", "bag", "parted")
    ),
    "INSERT INTO pairs SELECT it, 'v', 'a' FROM generate_series(1, 4) it",
    "INSERT INTO coded SELECT it, 'c' || it, 0 FROM generate_series(1, 4) it",
)
CHANGES = (
    "UPDATE stock SET note = NULL WHERE id = 1",
    "UPDATE stock SET id = 10 - id",
    "DELETE FROM stock WHERE id = 8",
    "UPDATE pairs SET b = b + 10 WHERE b > 2",
    "UPDATE pairs SET v = NULL",
    "DELETE FROM pairs WHERE b = 1",
    "BEGIN; UPDATE coded SET code = 'x' WHERE id = 1; UPDATE coded SET code = 'c1' WHERE id = 2;"
    " UPDATE coded SET code = 'c2', v = 7 WHERE id = 1; COMMIT",
    "UPDATE later SET id = 5 - id",
    "INSERT INTO bag SELECT * FROM bag",
    "DELETE FROM bag WHERE id = 2",
    "UPDATE parted SET id = id + 4 WHERE id < 3",
    "DELETE FROM parted WHERE id = 4",
)
# By table the key that it has in SQLite, in the order of its columns.
Keys = Dict[str, List[str]]
KEYS: Keys = {
    "stock": ["id"],
    "pairs": ["b", "a"],
    "coded": ["id"],
    "later": [],
    "bag": [],
    "parted": ["id"],
}
KEY = "SELECT name FROM pragma_table_info(?) WHERE pk ORDER BY cid"
ROWS = "SELECT id, note FROM stock ORDER BY 1"
# Those after the changes.
THEN = [(6, "4"), (7, "3"), (9, None)]


def check_keys(path: Path, expected: Keys) -> None:
    with reading(path) as base:
        for table, key in expected.items():
            found = [it for (it,) in base.execute(KEY, (table,))]
            if found != key:
                raise Failed(f"{path}: {table} has the key {found} in place of {key}")


def check_equal(place: Place, expected: Keys) -> None:
    """The tables have the server's rows and these keys, and so says `verify`."""
    now_in_tables(place)
    compare_tables(place.cluster, rows_file(place), "pgsub", database=place.database)
    place.subcommand("verify", "--dsn", place.dsn(), "--tables", str(rows_file(place)))
    place.subcommand("verify", "--dsn", place.dsn(), "--tables", str(rows_file(place)), "--digests")
    check_keys(rows_file(place), expected)


def export(place: Place) -> Path:
    path = place.folder / "export.db"
    place.subcommand("export", "--store", str(place.store), "--into", str(path))
    return path


def kept(place: Place) -> None:
    """It is the server's, unless that is deferrable: after the copy, changes, `add` and a restart,
    and of a table that is made meanwhile."""
    place.run(*TABLES, "CREATE PUBLICATION pgsub FOR ALL TABLES WITH (publish_via_partition_root)")
    words = "--tables", str(rows_file(place)), "--digests"
    child = place.start("--create", *words)
    place.catch_up(child)
    wait_until(rows_file(place).exists, "making the tables", check=child.check)
    check_equal(place, KEYS)
    place.run(*CHANGES)
    check_equal(place, KEYS)
    first = position_of(place)
    place.run(
        "CREATE TABLE fresh (v int, id int PRIMARY KEY)",
        FULL.format("fresh"),
        "INSERT INTO fresh VALUES (1, 1), (1, 2)",
    )
    wait_until(lambda: "fresh" in known(place), "looking at the server", 30, child.check)
    place.run("UPDATE fresh SET id = 3 WHERE id = 1")
    expected = {**KEYS, "fresh": ["id"]}
    check_equal(place, expected)
    place.run("ALTER TABLE stock ADD more int", "UPDATE stock SET more = id")
    check_equal(place, expected)
    back(place, first)
    place.subcommand("add", "--dsn", place.dsn(), "--store", str(place.store), "--table", "pairs")
    place.run("UPDATE pairs SET v = 'added'")
    check_equal(place, expected)
    child.stop()
    check_keys(export(place), expected)
    child = place.start(*words)
    place.catch_up(child)
    place.run("UPDATE stock SET id = id + 100", "DELETE FROM coded WHERE id = 3")
    check_equal(place, expected)
    child.stop()


def known(place: Place) -> list[str]:
    """The names of the tables that the follower has seen on the server."""
    with open(place.beside(".tables"), encoding="utf-8") as file:
        return [it["name"] for it in json.loads(file.readline())["catalog"]["tables"].values()]


def back(place: Place, lsn: str) -> None:
    """A file is taken back by the feed's images, with the keys; forward again it is what it was."""
    place.run("UPDATE stock SET id = id + 50, note = 'now'", "DELETE FROM coded WHERE id = 4")
    now_in_tables(place)
    into, feed = place.folder / "then.db", str(place.beside(".feed"))
    words = "tables", "--feed", feed, "--into", str(into), "--once"
    place.subcommand(*words, "--base", str(rows_file(place)), "--at", lsn)
    check_keys(into, KEYS)
    if (found := rows_of(into)) != THEN:
        raise Failed(f"the rows of then are {found}")
    place.subcommand(*words)
    check_keys(into, KEYS)
    place.subcommand("verify", "--tables", str(into), "--with", str(rows_file(place)))


def rows_of(path: Path) -> list[tuple[int, str]]:
    with contextlib.closing(sqlite3.connect(path)) as base:
        return base.execute(ROWS).fetchall()


def given_up(place: Place) -> None:
    """Where the server drops the key, and rows have equal values of it or null, the table is made
    without one, and goes on."""
    place.run(
        "CREATE TABLE stock (id int PRIMARY KEY, note text)",
        FULL.format("stock"),
        "INSERT INTO stock VALUES (1, 'a')",
        "CREATE PUBLICATION pgsub FOR ALL TABLES",
    )
    words = "--tables", str(rows_file(place)), "--digests"
    child = place.start("--create", *words)
    place.catch_up(child)
    wait_until(rows_file(place).exists, "making the tables", check=child.check)
    check_equal(place, {"stock": ["id"]})
    place.run(
        "ALTER TABLE stock DROP CONSTRAINT stock_pkey, ALTER id DROP NOT NULL",
        "BEGIN; INSERT INTO stock VALUES (1, 'b'), (NULL, 'c');"
        " UPDATE stock SET note = 'd' WHERE note = 'a'; COMMIT",
    )
    check_equal(place, {"stock": []})
    place.run("DELETE FROM stock WHERE note = 'b'", "UPDATE stock SET id = 2 WHERE id IS NULL")
    check_equal(place, {"stock": []})
    child.stop()
    place.run("ALTER TABLE stock ADD PRIMARY KEY (id)")
    child = place.start(*words)
    place.catch_up(child)
    place.run("TRUNCATE stock", "INSERT INTO stock VALUES (7, 'x')", "UPDATE stock SET id = 8")
    check_equal(place, {"stock": ["id"]})
    child.stop()


CASES = (
    Case("keys-of-another-identity", kept),
    Case("keys-that-dont-hold", given_up),
)
