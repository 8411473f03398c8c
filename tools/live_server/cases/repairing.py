"""`verify --repair`: differences that are planted into a store are mended by single rows, under
load, cut at each step, or by a whole table."""

from __future__ import annotations

import contextlib
import os
import random
import sqlite3
import sys
import time
from collections.abc import Iterator
from signal import SIGTERM

from ..child import Child
from ..errors import Failed
from ..follower import Supervisor, filters_of, wait_until
from ..pgbench import PgBench
from ..place import MISSED, OK, PASSING, Place
from . import shapes
from .adding import check_left, kill
from .case import Case
from .common import PLANTED, TABLES, Moves, moving, plant, spelled, verify, verify_words

# How many rows are inserted, updated and deleted.
Counts = tuple[int, int, int]
# What of the planted differences is written, by table.
WRITTEN: dict[str, dict[str, Counts]] = {
    "a changed cell": {"stock": (0, 1, 0)},
    "a NULL for an empty text": {"stock": (0, 1, 0)},
    "an empty text for a NULL": {"stock": (0, 1, 0)},
    "a row that is missing": {"stock": (1, 0, 0)},
    "a row too many": {"stock": (0, 0, 1)},
    "a copy too many of a row": {"log": (0, 0, 1)},
    "a copy too few of a row": {"log": (2, 0, 0)},
    "a changed key": {"stock": (1, 0, 1)},
    "a trailing blank": {"stock": (0, 1, 0)},
    "an empty table": {"other": (3, 0, 0)},
    "swapped cells": {"stock": (0, 1, 0)},
    "a row in another table": {"stock": (1, 0, 0), "other": (0, 0, 1)},
}
ANEW, DIFFERENT = "it is copied anew", 1


def rows_of(written: dict[str, Counts]) -> int:
    return sum(sum(it) for it in written.values())


def check_written(said: str, written: dict[str, Counts]) -> None:
    """Fails where a repair has written anything else than these rows."""
    for table, (inserted, updated, deleted) in written.items():
        if f"public.{table}: {inserted} inserted, {updated} updated, {deleted} deleted" not in said:
            raise Failed(f"not {written[table]} of {table}: {said}")
    rows = rows_of(written)
    if (
        f": {rows} row{'s' * (rows != 1)} of {len(written)} table{'s' * (len(written) != 1)}"
        not in said
        or ANEW in said
    ):
        raise Failed(f"not {rows} rows of {len(written)} tables: {said}")


def changes_of(place: Place, child: Child) -> int:
    """How many changes were passed on in a run that writes its status."""
    path = place.folder / "status"

    def has_news() -> bool:
        with contextlib.suppress(FileNotFoundError, ValueError):
            return float(path.stat().st_mtime) > began
        return False

    began = time.time() + 0.1
    wait_until(has_news, "writing a status", 20, child.check)
    return int(place.status(path)["changes"])


def each(place: Place) -> None:
    """Each of the planted differences is mended by the rows that differ, and no other row is passed
    on."""
    place.run(*TABLES)
    place.follow("--create")
    for name, (change, _) in PLANTED.items():
        plant(place, place.store, change)
        child = place.start("--status-file", str(place.folder / "status"))
        child.wait_for("following slot")
        before = changes_of(place, child)
        found, said = verify(place, "--repair")
        if not found:
            raise Failed(f"{name}: nothing was found")
        check_written(said, WRITTEN[name])
        if (passed := changes_of(place, child) - before) != (wanted := rows_of(WRITTEN[name])):
            raise Failed(
                f"{name}: {passed} changes were passed on, and {wanted} rows differ: {child.said()}"
            )
        place.run(
            "UPDATE stock SET note = 'x' WHERE sku % 50 = 0",
            "INSERT INTO log VALUES ('line 3', NULL)",
        )
        verify(place)
        check_left(place)
        child.stop()
    place.equal()


def beside_changes(place: Place) -> None:
    """So it is beside other changes of the same rows, and several differences at once are one
    transaction."""
    place.run(*TABLES)
    place.follow("--create")
    several = (
        "a changed cell",
        "a row that is missing",
        "a row too many",
        "a copy too many of a row",
        "a copy too few of a row",
        "an empty table",
    )
    for name in several:
        plant(place, place.store, PLANTED[name][0])
    place.run(
        "UPDATE other SET note = note || '.' WHERE sku > 3",
        "INSERT INTO stock SELECT max(sku) + 1, 'new', NULL FROM stock",
    )
    child = place.start()
    child.wait_for("following slot")
    _, said = verify(place, "--repair")
    check_written(said, {"stock": (1, 1, 1), "log": (2, 0, 1), "other": (3, 0, 0)})
    place.run(
        "UPDATE other SET note = 'y'",
        "DELETE FROM stock WHERE sku IN (8, 500)",
        "DELETE FROM log WHERE ctid IN (SELECT min(ctid) FROM log)",
    )
    verify(place)
    check_left(place)
    child.stop()
    place.equal()


def renamed(body: bytes) -> bytes:
    return body.replace(b"name", b"nema")


def edit(place: Place, *commands: tuple[str, tuple[object, ...]]) -> None:
    """Changes the rows in the file of a store that nobody follows into."""
    with contextlib.closing(sqlite3.connect(place.store)) as base:
        base.create_function("renamed", 1, renamed)
        for query, values in commands:
            if not base.execute(query, values).rowcount:
                raise Failed(f"{query}: no row")
        base.commit()
    place.beside("-shm").unlink(missing_ok=True)


def oid_of(place: Place, table: str) -> int:
    return int(place.value(f"SELECT '{table}'::regclass::oid"))


def whole(place: Place) -> None:
    """A table is copied anew where more than a third of it differs, where it has no key by which a
    row goes, and where its definition is another in the copy; the rows of the others are mended."""
    place.run(
        *TABLES,
        "CREATE TABLE bare (a text)",
        "INSERT INTO bare SELECT it FROM generate_series(1, 20) it",
        "ALTER TABLE bare REPLICA IDENTITY NOTHING",
        "ALTER PUBLICATION pgsub SET (publish = 'insert')",
    )
    place.follow("--create")
    bare, stock, other = (oid_of(place, it) for it in ("bare", "stock", "other"))

    def repaired(*commands: tuple[str, tuple[object, ...]]) -> str:
        edit(place, *commands)
        child = place.start()
        child.wait_for("following slot")
        said = verify(place, "--repair")[1]
        verify(place)
        check_left(place)
        child.stop()
        place.equal()
        return said

    missing = ("DELETE FROM held WHERE oid = ? AND ident = ?", (bare, spelled(("7",))))
    check_written(repaired(missing), {"bare": (1, 0, 0)})
    more = (
        "UPDATE held SET copies = copies + 1 WHERE oid = ? AND ident = ?",
        (bare, spelled(("8",))),
    )
    said = repaired(
        more, ("DELETE FROM held WHERE oid = ? AND ident = ?", (stock, spelled(("9",))))
    )
    why = "public.bare: without a key or REPLICA IDENTITY FULL no change tells which row goes"
    if f"{why}: {ANEW}" not in said or "public.stock: 1 inserted" not in said:
        raise Failed(said)
    for query in (
        "DELETE FROM held WHERE oid = ? AND rowid % 2 = 0",
        "UPDATE held SET body = renamed(body) WHERE oid = ?",
    ):
        said = repaired((query, (stock,)))
        if "public.stock: more than 333 of its rows differ" not in said:
            raise Failed(said)
    place.run("ALTER TABLE other REPLICA IDENTITY FULL")
    said = repaired(("DELETE FROM held WHERE oid = ? AND ident = ?", (other, spelled(("1",)))))
    if f"public.other: the copy has it under another definition: {ANEW}" not in said:
        raise Failed(said)


def ended(child: Child) -> None:
    """Ends a follower that may have found no row for changes before these were there."""
    child.signal(SIGTERM)
    if (status := child.end()) not in (OK, MISSED):
        raise Failed(f"status {status}: {child.said()}")


def every_shape(place: Place) -> None:
    """Rows of tables of every shape and of many types are mended, some of them and all."""
    place.run(*shapes.create(place.options.installed.version), *shapes.ROWS)
    place.follow("--create")
    for query in (
        "DELETE FROM held WHERE rowid % 2 = ?",
        "DELETE FROM held WHERE rowid % 2 <> ?",
        "DELETE FROM held WHERE oid > ?",
    ):
        edit(place, (query, (0,)))
        child = place.start()
        child.wait_for("following slot")
        _, said = verify(place, "--repair")
        if ANEW in said:
            raise Failed(said)
        verify(place)
        check_left(place)
        child.stop()
        place.equal()


def other_encoding(place: Place) -> None:
    """So are the texts of a database that isn't in UTF-8."""
    place.own_server(encoding="LATIN1")
    place.run(
        "CREATE TABLE t (word text PRIMARY KEY, more text)",
        "INSERT INTO t SELECT U&'gr\\00fc\\00df ' || it, U&'\\00e4' FROM generate_series(1, 1000) it",
        "CREATE PUBLICATION pgsub FOR ALL TABLES",
    )
    place.follow("--create")
    edit(
        place,
        ("DELETE FROM held WHERE rowid % 10 = ?", (1,)),
        (
            "INSERT INTO held SELECT oid, ?, ?, 1 FROM rel",
            (spelled(("grüß",)), spelled(("grüß", "ä"))),
        ),
        (
            "UPDATE held SET body = ? WHERE ident = ?",
            (spelled(("grüß 3", "a")), spelled(("grüß 3",))),
        ),
    )
    child = place.start()
    child.wait_for("following slot")
    _, said = verify(place, "--repair")
    if "public.t: 100 inserted, 1 updated, 1 deleted" not in said:
        raise Failed(said)
    verify(place)
    child.stop()
    place.equal()


def streamed(place: Place) -> None:
    """Rows are mended while moves between accounts are followed, of which some are streamed:
    meanwhile these come whole."""
    with moving(place) as child:
        time.sleep(1.0)
    place.catch_up(child)
    child.stop()
    edit(
        place,
        (
            "DELETE FROM held WHERE oid = ? AND ident = ?",
            (oid_of(place, "account"), spelled(("3",))),
        ),
        (
            "UPDATE held SET body = ? WHERE oid = ? AND ident = ?",
            (spelled(("2", "0", "0", "0")), oid_of(place, "move"), spelled(("2",))),
        ),
    )
    child = place.start()
    child.wait_for("following slot")
    load = Moves(place)
    load.moves = int(place.value("SELECT max(id) FROM move"))
    load.thread.start()
    try:
        _, said = verify(place, "--repair", "--hold", "30")
        # (where a move has changed the account in between, that has found no row)
        if (
            "public.move: 0 inserted, 1 updated, 0 deleted" not in said
            or "public.account: 1 inserted" not in said
        ):
            raise Failed(said)
        verify(place, "--hold", "30")
    finally:
        load.ended.set()
        load.thread.join(60)
    place.catch_up(child)
    if child.said().count("a session begins anew") != 2:
        raise Failed(child.said())
    check_left(place)
    ended(child)
    place.equal()


def found_goes(place: Place) -> None:
    """What was found of a table goes with its repair, and what was found of another one stays."""
    place.run(*TABLES)
    child = place.start("--create")
    place.catch_up(child)
    for table in ("stock", "other"):
        place.run(
            f"ALTER TABLE {table} ADD COLUMN more text DEFAULT 'm'",
            f"UPDATE {table} SET name = 'y' WHERE sku = 2",
        )
    place.catch_up(child)
    wait_until(lambda: "values" in place.found(), "finding it", 30, child.check)
    _, said = verify(place, "--table", "other", "--repair")
    check_written(said, {"other": (0, 2, 0)})
    if "values" not in place.found():
        raise Failed("what was found of stock is gone")
    _, said = verify(place, "--table", "stock", "--repair")
    if ANEW not in said or place.found():
        raise Failed(f"it still has {place.found()}: {said}")
    verify(place)
    child.stop()


# Runs the connector, which is killed where a call is made.
KILLED_AT = """
import os, sys
sys.path.insert(0, {house!r})
from importlib import import_module
from pgsub_connect import cli
where, name = import_module("pgsub_connect.{module}").{where}, {name!r}
real = getattr(where, name)
def last(*words, **more):
    {before}
    os._exit(77)
setattr(where, name, last)
sys.argv[0] = {house!r} + "/pgsub-connect"
cli.run()
"""


def killed_at(
    place: Place, words: list[str], module: str, where: str, name: str, after: bool
) -> Child:
    """Starts the connector, which ends at once where it makes a call."""
    before = "real(*words, **more)" if after else "pass"
    code = KILLED_AT.format(
        house=str(place.options.connect.parent),
        module=module,
        where=where,
        name=name,
        before=before,
    )
    return place.started([sys.executable, "-c", code, *words[1:]])


# What is cut of the follower and of who compares: a call, and whether before or after it was made.
FOLLOWER_CUTS = (
    ("follow.repair", "Repairing", "look", False),
    ("follow.repair", "Repairing", "send", False),
    ("follow.repair", "Repairing", "push", True),
    ("follow.repair", "Repairing", "send", True),
    ("follow.repair", "Repairing", "finish", False),
    ("drift.remembered", "Remembered", "are_right", True),
    ("follow.repair", "Repairing", "finish", True),
)
CUTS = (
    ("verify.store", "Request", "tell", False),
    ("verify.store", "Request", "copied", True),
    ("verify.repair_rows", "Changes", "begin", True),
    ("verify.store", "Request", "pass_on", False),
)


@contextlib.contextmanager
def planted(place: Place) -> Iterator[None]:
    """The copy lacks a row, has another one too many, and one that is another; at the end it is
    that of the server."""
    for name in ("a changed cell", "a row that is missing", "a copy too many of a row"):
        plant(place, place.store, PLANTED[name][0])
    yield
    child = place.start()
    child.wait_for("following slot")
    place.run("INSERT INTO other SELECT max(sku) + 1, 'new', NULL FROM other")
    verify(place, "--repair")
    verify(place)
    check_left(place)
    child.stop()
    place.equal()


def cut(place: Place) -> None:
    """Follower, comparison and filter are killed at each step: the copy is as it was or repaired,
    and the next repair does what is left."""
    place.run(*TABLES)
    place.follow("--create")
    for module, where, name, after in FOLLOWER_CUTS:
        with planted(place):
            child = killed_at(place, place.words(), module, where, name, after)
            child.wait_for("following slot")
            verifier = place.started(verify_words(place, "--repair"))
            place.has_ended(child, 77, "")
            if (status := verifier.end()) not in (OK, PASSING):
                raise Failed(f"cut at {name}: status {status}: {verifier.said()}")
    for module, where, name, after in CUTS:
        with planted(place):
            child = place.start()
            child.wait_for("following slot")
            place.has_ended(
                killed_at(place, verify_words(place, "--repair"), module, where, name, after),
                77,
                "",
            )
            place.run("INSERT INTO other SELECT max(sku) + 1, 'new', NULL FROM other")
            place.catch_up(child)
            child.stop()
    for wait in (0.5, 1.0, 1.5, 2.0, 2.5):
        with planted(place):
            child = place.start()
            child.wait_for("following slot")
            verifier = place.started(verify_words(place, "--repair"))
            time.sleep(wait)
            for pid in filters_of(child.process.pid):
                os.kill(pid, 9)
            if (status := verifier.end()) not in (OK, PASSING):
                raise Failed(f"filter killed: status {status}: {verifier.said()}")
            place.catch_up(child)
            child.stop()


def too_large(place: Place) -> None:
    """Changes above what may be buffered are rejected, and following goes on."""
    place.run(*TABLES)
    place.follow("--create")
    stock = oid_of(place, "stock")
    edit(place, ("DELETE FROM held WHERE oid = ? AND rowid % 5 = 0", (stock,)))
    child = place.start("--max-buffered", "3000")
    child.wait_for("following slot")
    _, said = verify(place, "--repair", status=DIFFERENT)
    if "3000 may be buffered" not in said:
        raise Failed(said)
    place.run("INSERT INTO other VALUES (7, 'seven', NULL)")
    place.catch_up(child)
    child.stop()
    child = place.start()
    child.wait_for("following slot")
    verify(place, "--repair")
    child.stop()
    place.equal()


def under_kills(place: Place) -> None:
    """Rows that are wrong are mended under pgbench's load, while filter, connector, session and
    server are killed."""
    rng = random.Random(f"repair {place.options.seed}")
    load = PgBench(place.cluster, 1, 50)
    place.follow("--create")
    oids = {
        it: oid_of(place, f"pgbench_{it}") for it in ("accounts", "tellers", "branches", "history")
    }
    load.begin()
    try:
        for number in range(6):
            spoil(place, rng, oids)
            supervisor = Supervisor(place.words(), place.log)
            supervisor.begin()
            try:
                for _ in range(2):
                    verifier = place.started(
                        verify_words(place, "--repair", "--show", "0", "--hold", "30")
                    )
                    time.sleep(rng.random() * 4)
                    kill(
                        place,
                        supervisor,
                        rng.choice(("filter", "connector", "session", "server", "nothing")),
                    )
                    if (status := verifier.end(120)) not in (OK, PASSING):
                        raise Failed(f"status {status}: {verifier.said()[-3000:]}")
                wait_until(lambda: has_repaired(place), "repairing", 180, supervisor.check)
                verify(place, "--hold", "30")
            finally:
                with contextlib.suppress(Failed):
                    supervisor.finish()
            if supervisor.failure:
                raise Failed(f"round {number}: {supervisor.failure}")
    finally:
        load.end()
    child = place.start()
    place.catch_up(child)
    verify(place)
    ended(child)
    place.equal()


def spoilt(body: bytes) -> bytes:
    return body[:-1] + b"x"


def spoil(place: Place, rng: random.Random, oids: dict[str, int]) -> None:
    """Makes rows of a store wrong that nobody follows into: some are missing, some are others, and
    some are there too often."""
    number = rng.randrange(1, 30)
    with contextlib.closing(sqlite3.connect(place.store)) as base:
        base.create_function("spoilt", 1, spoilt)
        for oid in oids.values():
            base.execute("DELETE FROM held WHERE oid = ? AND rowid % 101 = ?", (oid, number))
        base.execute(
            "UPDATE held SET copies = copies + 1 WHERE oid = ? AND rowid % 103 = ?",
            (oids["history"], number),
        )
        base.execute(
            "UPDATE held SET body = spoilt(body) WHERE oid = ? AND rowid % 107 = ?",
            (oids["accounts"], number),
        )
        base.commit()
    place.beside("-shm").unlink(missing_ok=True)


def has_repaired(place: Place) -> bool:
    return (
        place.started(verify_words(place, "--repair", "--show", "0", "--hold", "30")).end(120) == OK
    )


CASES = (
    Case("repair-by-rows", each),
    Case("repair-beside-changes", beside_changes),
    Case("repair-a-whole-table", whole),
    Case("repair-tables-of-every-shape", every_shape),
    Case("repair-another-encoding", other_encoding),
    Case("repair-under-moves", streamed),
    Case("repair-what-was-found", found_goes),
    Case("repair-cut-at-each-step", cut),
    Case("repair-too-large", too_large),
    Case("repair-under-kills", under_kills),
)
