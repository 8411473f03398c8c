"""`verify` over tables that follow a feed: under load and kills, and with differences that are
planted on either side."""

from __future__ import annotations

import contextlib
import json
import random
import sqlite3
import time
from collections.abc import Callable, Iterator
from pathlib import Path
from typing import Optional

from ..child import Child
from ..errors import Failed
from ..feeds import compare_tables
from ..follower import Supervisor, is_adding, wait_until
from ..pgbench import PgBench
from ..place import OK, PASSING, Place
from .adding import PUBLISHED, has_added, kill
from .adding import words as add_words
from .case import Case
from .common import (
    PLANTED,
    TABLES,
    Line,
    changing,
    check_slots,
    moving,
    now_in_tables,
    rows_file,
    verify,
)

DIFFERENT = 1
HISTORY = "pgbench_history"


def compare_words(place: Place, *more: str, path: Optional[Path] = None) -> list[str]:
    return [
        str(place.options.connect),
        "verify",
        "--dsn",
        place.dsn(),
        "--tables",
        str(path or rows_file(place)),
        *more,
    ]


def compare(
    place: Place, *more: str, status: int = OK, path: Optional[Path] = None
) -> tuple[list[Line], str]:
    """Compares tables. Returns the differences that were printed, and all that was said."""
    said = place.has_ended(place.started(compare_words(place, *more, path=path)), status, "")
    return [json.loads(line) for line in said.splitlines() if line.startswith("{")], said


def settled(place: Place, run: Callable[[], Child], seconds: float = 180) -> None:
    """Compares until nothing is in the way for now; then it has to be equal."""
    until = time.monotonic() + seconds
    while True:
        child = run()
        status = child.end(120)
        if status == OK:
            return
        if status != PASSING or time.monotonic() > until:
            raise Failed(f"status {status}: {child.said()[-3000:]}")
        time.sleep(0.2)


def is_proved(place: Place) -> None:
    """Store and tables are what the server has: the store held at an LSN, the tables by their rows,
    and by their digests."""
    store = [
        str(place.options.connect),
        "verify",
        "--dsn",
        place.dsn(),
        "--store",
        str(place.store),
        "--hold",
        "30",
    ]
    for words in (
        store,
        compare_words(place, "--hold", "30"),
        compare_words(place, "--hold", "30", "--digests"),
    ):
        settled(place, lambda words=words: place.started(words))  # type: ignore[misc]


def copy_tables(place: Place, name: str) -> Path:
    """A copy of the file of tables, at whatever LSN it has."""
    path = place.folder / name
    if path.exists():
        raise Failed(f"{path} is there")
    with contextlib.closing(
        sqlite3.connect(rows_file(place), timeout=30)
    ) as base, contextlib.closing(sqlite3.connect(path)) as copy:
        base.backup(copy)
    return path


def with_tables(place: Place) -> tuple[str, ...]:
    return "--tables", str(rows_file(place)), "--digests"


def started(place: Place) -> Child:
    """A follower whose tables are there, and keep digests."""
    child = place.start("--create", *with_tables(place))
    place.catch_up(child)
    wait_until(rows_file(place).exists, "making the tables", 120, child.check)
    now_in_tables(place)
    return child


def under_kills(place: Place) -> None:
    """Tables are added, copied anew and taken out of the publication under pgbench's load, while
    each part is killed: at five moments in between and at the end the store and the tables are the
    server's; and the tables are what a copy of them from before was at its LSN."""
    rng = random.Random(f"proof {place.options.seed}")
    load = PgBench(place.cluster, 1, 50)
    place.run(
        "DROP PUBLICATION pgsub", f"CREATE PUBLICATION pgsub FOR TABLE {', '.join(PUBLISHED)}"
    )
    words = place.words(
        "--create", *with_tables(place), "--feed-max-age", "1h", "--feed-segment-bytes", "300000"
    )
    supervisor = Supervisor(words, place.log)
    load.begin()
    supervisor.begin()
    try:
        wait_until(rows_file(place).exists, "the first copy", 180, supervisor.check)
        for _ in range(5):
            moment(place, rng, supervisor)
        if not has_history(place):
            place.run(f"ALTER PUBLICATION pgsub ADD TABLE {HISTORY}")
        wait_until(
            lambda: has_added(place, (*PUBLISHED, HISTORY)),
            "adding all tables",
            180,
            supervisor.check,
        )
        # (from here on nothing is truncated)
        now_in_tables(place)
        copy = copy_tables(place, "before.db")
        time.sleep(2)
        load.end()
        is_proved(place)
        now_in_tables(place)
        for more in ((), ("--digests",)):
            compare(place, "--with", str(copy), *more)
            compare(place, "--with", str(rows_file(place)), *more, path=copy)
    finally:
        load.end()
        supervisor.finish()
    check_slots(place)
    compare_tables(place.cluster, rows_file(place), "pgsub", database=place.database)
    place.equal()


def has_history(place: Place) -> bool:
    return (
        place.value(f"SELECT count(*) FROM pg_publication_tables WHERE tablename = '{HISTORY}'")
        == "1"
    )


def moment(place: Place, rng: random.Random, supervisor: Supervisor) -> None:
    """Two rounds of changes to what is published, with kills; then all has to be equal."""
    for _ in range(2):
        if rng.random() < 0.5:
            place.run(
                f"ALTER PUBLICATION pgsub {'DROP' if has_history(place) else 'ADD'} TABLE {HISTORY}"
            )
        tables = rng.sample([*PUBLISHED, *([HISTORY] if has_history(place) else [])], 2)
        child = place.started(add_words(place, *tables))
        time.sleep(rng.random() * 3)
        victim = rng.choice(
            ("filter", "connector", "connector", "session", "server", "tables", "nothing")
        )
        supervisor.kill_tables() if victim == "tables" else kill(place, supervisor, victim)
        if (status := child.end(120)) not in (OK, PASSING):
            raise Failed(f"status {status}: {child.said()[-3000:]}")
    wait_until(lambda: not is_adding(place.store), "adding tables", 180, supervisor.check)
    # (one that left and came again lacks what it got meanwhile until it is added)
    if has_history(place):
        wait_until(lambda: has_added(place, (HISTORY,)), "adding a table", 180, supervisor.check)
    is_proved(place)


def swapped(lines: list[Line]) -> list[Line]:
    """What is to be found where the server has what is planted."""
    other = {
        "server": "copy",
        "copy": "server",
        "more_on_server": "more_in_copy",
        "more_in_copy": "more_on_server",
    }
    return [{other.get(name, name): value for name, value in line.items()} for line in lines]


# By what it is, as PLANTED has it: what plants it in tables, be they the server's or those of
# SQLite. `{row}` names a row's place.
CHANGES = {
    "a changed cell": ["UPDATE stock SET name = 'other' WHERE sku = 8"],
    "a NULL for an empty text": ["UPDATE stock SET note = NULL WHERE sku = 7"],
    "an empty text for a NULL": ["UPDATE stock SET note = '' WHERE sku = 9"],
    "a row that is missing": ["DELETE FROM stock WHERE sku = 500"],
    "a row too many": ["INSERT INTO stock VALUES (5000, 'x', NULL)"],
    "a copy too many of a row": ["INSERT INTO log VALUES ('line 3', NULL)"],
    "a copy too few of a row": [
        "DELETE FROM log WHERE {row} IN (SELECT {row} FROM log WHERE a = 'line 4' LIMIT 2)"
    ],
    "a changed key": ["UPDATE stock SET sku = 5010 WHERE sku = 10"],
    "a trailing blank": ["UPDATE stock SET name = name || ' ' WHERE sku = 11"],
    "an empty table": ["DELETE FROM other"],
    "swapped cells": ["UPDATE stock SET name = note, note = name WHERE sku = 14"],
    "a row in another table": [
        "INSERT INTO other SELECT * FROM stock WHERE sku = 17",
        "DELETE FROM stock WHERE sku = 17",
    ],
}


def expect(name: str, found: list[Line], expected: list[Line], said: str) -> None:
    if sorted(found, key=str) != sorted(expected, key=str):
        raise Failed(f"{name}: found {found} in place of {expected}: {said}")


@contextlib.contextmanager
def planted_here(place: Place, changes: list[str]) -> Iterator[None]:
    """Changes rows of the tables that follow, behind the back of what follows, and puts them
    back."""
    with contextlib.closing(
        sqlite3.connect(rows_file(place), timeout=30, isolation_level=None)
    ) as base:
        tables = ("stock", "other", "log")
        for it in tables:
            base.execute(f"CREATE TEMP TABLE good_{it} AS SELECT * FROM {it}")
        base.execute("BEGIN IMMEDIATE")
        for it in changes:
            if not base.execute(it.format(row="rowid")).rowcount:
                raise Failed(f"{it}: no row")
        base.execute("COMMIT")
        yield
        base.execute("BEGIN IMMEDIATE")
        for it in tables:
            base.execute(f"DELETE FROM main.{it}")
            base.execute(f"INSERT INTO main.{it} SELECT * FROM good_{it}")
        base.execute("COMMIT")


def planted_in_tables(place: Place) -> None:
    """Each difference that is planted into the tables is found, and nothing else; the digests that
    they keep don't know of it."""
    place.run(*TABLES)
    child = started(place)
    # (a base's definitions are told with the first change)
    place.run(
        *(f"INSERT INTO {it} SELECT * FROM {it} WHERE false" for it in ("stock", "other", "log"))
    )
    place.run(
        "UPDATE stock SET name = name WHERE sku = 1",
        "UPDATE other SET name = name",
        "UPDATE log SET a = a WHERE a = 'line 1'",
    )
    now_in_tables(place)
    compare(place)
    other = copy_tables(place, "other.db")
    for name, (_, expected) in PLANTED.items():
        with planted_here(place, CHANGES[name]):
            found, said = compare(place, status=DIFFERENT)
            expect(name, found, expected, said)
            if "isn't that of its rows" not in said:
                raise Failed(f"{name}: the digests weren't compared with the rows: {said}")
            compare(place, "--digests")
            found, said = compare(place, "--with", str(other), status=DIFFERENT)
            expect(
                name,
                [
                    {("server" if it == "other" else it): value for it, value in line.items()}
                    for line in renamed(found)
                ],
                expected,
                said,
            )
        place.run("UPDATE stock SET note = note WHERE sku = 999")
    now_in_tables(place)
    compare(place)
    compare(place, "--with", str(other), "--digests")
    child.stop()
    place.equal()


def renamed(lines: list[Line]) -> list[Line]:
    return [
        {it.replace("more_in_other", "more_on_server"): value for it, value in line.items()}
        for line in lines
    ]


def planted_at_the_server(place: Place) -> None:
    """Each difference that the server doesn't send is found in the store, in the tables and by
    their digests; repaired, all is equal."""
    place.run(*TABLES)
    child = started(place)
    for name, (_, expected) in PLANTED.items():
        commands = [it.format(row="ctid") for it in CHANGES[name]]
        place.run(
            "ALTER PUBLICATION pgsub SET (publish = 'truncate')",
            *commands,
            "ALTER PUBLICATION pgsub SET (publish = 'insert, update, delete, truncate')",
        )
        for found, said in (
            verify(place, status=DIFFERENT),
            compare(place, status=DIFFERENT),
            compare(place, "--digests", status=DIFFERENT),
        ):
            expect(name, found, swapped(expected), said)
        verify(place, "--repair")
        is_proved(place)
    place.catch_up(child)
    now_in_tables(place)
    compare_tables(place.cluster, rows_file(place), "pgsub", database=place.database)
    child.stop()
    place.equal()


def under_moves(place: Place) -> None:
    """Tables are equal at five moments while moves between accounts are followed, of which some are
    streamed. Nothing is held."""
    with moving(place, *with_tables(place)) as child:
        wait_until(rows_file(place).exists, "making the tables", 120, child.check)
        for _ in range(5):
            time.sleep(0.5)
            for more in ((), ("--digests",)):
                compare(place, *more)
            child.check()
    check_slots(place)
    place.catch_up(child)
    child.stop()


def under_every_change(place: Place) -> None:
    """So it is while changes of every kind are made, TRUNCATEs and altered tables among them."""
    with changing(place, "proving", *with_tables(place)) as child:
        wait_until(rows_file(place).exists, "making the tables", 120, child.check)
        for _ in range(5):
            time.sleep(1.0)
            for more in ((), ("--digests",)):
                settled(place, lambda more=more: place.started(compare_words(place, "--hold", "30", *more)))  # type: ignore[misc]
            child.check()
    now_in_tables(place)
    for more in ((), ("--digests",)):
        compare(place, *more)
    compare_tables(place.cluster, rows_file(place), "pgsub", database=place.database)
    child.stop()
    place.equal()


CASES = (
    Case("verify-tables-under-moves", under_moves),
    Case("verify-tables-under-every-change", under_every_change),
    Case("verify-tables-finds-what-is-planted", planted_in_tables),
    Case("verify-finds-what-the-server-has-not-sent", planted_at_the_server),
    Case("verify-under-kills", under_kills),
)
