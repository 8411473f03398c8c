"""Tables of SQLite answer questions as the server does, and those of an earlier version are made
anew."""

from __future__ import annotations

import contextlib
import sqlite3

from .. import questions
from ..errors import Failed
from ..feeds import compare_tables
from ..follower import wait_until
from ..place import Place
from .case import Case
from .common import now_in_tables, rows_file

COUNT, SEED = 10_000, "answers"


def answers(place: Place) -> None:
    """Order, comparisons, the greatest value and sums of 10,000 random values of each type are
    those of the server, in tables and in an export; and `verify` finds them equal."""
    place.run("CREATE PUBLICATION pgsub FOR ALL TABLES")
    questions.fill(place.cluster, COUNT // 2, SEED, place.database)
    child = place.start("--create", "--tables", str(rows_file(place)))
    place.catch_up(child)
    wait_until(rows_file(place).exists, "making the tables", check=child.check)
    questions.fill(place.cluster, COUNT // 2, SEED, place.database, COUNT // 2)
    columns = ", ".join(f"c{at}" for at in range(len(questions.kinds_of(place.cluster))))
    place.run(
        f"UPDATE compared it SET ({columns}) = (SELECT {columns} FROM compared o WHERE o.id = it.id + 1)"
        f" WHERE id % 3 = 1 AND id < {COUNT - 1}",
        "UPDATE compared SET id = -id WHERE id % 7 = 1",
    )
    now_in_tables(place)
    questions.compare(place.cluster, rows_file(place), SEED, place.database)
    place.subcommand("verify", "--dsn", place.dsn(), "--tables", str(rows_file(place)))
    child.stop()
    path = place.folder / "export.db"
    place.subcommand("export", "--store", str(place.store), "--into", str(path))
    questions.compare(place.cluster, path, SEED, place.database)


def earlier(place: Place) -> None:
    """A file of an earlier version is told, and made anew: nothing of it stays."""
    place.run(
        "CREATE TABLE stock (sku text PRIMARY KEY, price numeric(10, 2), weight numeric)",
        "INSERT INTO stock VALUES ('A', 100, 0.5), ('B', 9.5, 1.50)",
        "CREATE PUBLICATION pgsub FOR TABLE stock",
    )
    words = ("--tables", str(rows_file(place)))
    child = place.start("--create", *words)
    place.catch_up(child)
    now_in_tables(place)
    child.stop()
    with contextlib.closing(sqlite3.connect(rows_file(place))) as base:
        base.executescript("PRAGMA user_version = 1; UPDATE stock SET price = 7")
    place.run("UPDATE stock SET weight = 2.0 WHERE sku = 'A'")
    child = place.start(*words)
    now_in_tables(place)
    compare_tables(place.cluster, rows_file(place), "pgsub", database=place.database)
    place.subcommand("verify", "--dsn", place.dsn(), "--tables", str(rows_file(place)))
    if "an earlier version has made it, whose numerics are texts" not in child.stop():
        raise Failed(f"the file of an earlier version wasn't told: {child.said()}")


CASES = (
    Case("answers-as-the-server", answers),
    Case("tables-of-an-earlier-version", earlier),
)
