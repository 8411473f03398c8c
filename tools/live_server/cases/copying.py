"""What may happen while the rows are copied."""

from __future__ import annotations

import collections
import contextlib
import fcntl
import functools
import itertools
import os
import random
import signal
import subprocess
import threading
import time
from pathlib import Path

from ..child import Child
from ..errors import Failed
from ..feeds import compare_tables, reading
from ..follower import children_with, is_adding, kill_all, wait_until
from ..place import PASSING, SERVER, Place
from .adding import add
from .basing import equal
from .case import Case
from .common import feed_of, now_in_tables, rows_file


# What reads a table's rows, behind its columns. (A start asks of catalogs by COPY, and of each table
# by EXPLAIN.)
READING = '" FROM ONLY "public"."'


def is_followed(store: Path) -> bool:
    """Whether a connector or its filter has the store."""
    with contextlib.suppress(FileNotFoundError), open(f"{store}.connector", "rb") as file:
        try:
            fcntl.flock(file, fcntl.LOCK_EX | fcntl.LOCK_NB)
        except BlockingIOError:
            return True
    return False


def added(place: Place, child: Child) -> None:
    """Waits until each table is there, and compares."""
    child.wait_for("following slot")
    wait_until(lambda: not is_adding(place.store), "adding tables", 60, child.check)
    place.catch_up(child)
    child.stop()
    if place.found():
        raise Failed(f"found: {place.found()}")
    place.equal()


def adds_later(place: Place, *commands: str, text: str = "it is added by itself") -> None:
    """Runs commands between the slot and a table's lock, upon which the table has to be added by
    itself."""
    proxy = place.proxy()
    proxy.before("LOCK TABLE", lambda: place.run(*commands))
    child = place.start("--create", "--jobs", "1", dsn=place.dsn(proxy.folder))
    child.wait_for(text)
    added(place, child)


def swapped(place: Place) -> None:
    """A table is swapped by renames between the slot and the locks: its own rows are copied, and
    not the other one's."""
    place.stock()
    place.run(
        "CREATE TABLE stock_new (LIKE stock INCLUDING ALL)", "INSERT INTO stock_new VALUES (7, 7)"
    )
    adds_later(
        place, "ALTER TABLE stock RENAME TO stock_old", "ALTER TABLE stock_new RENAME TO stock"
    )
    if place.rows() != {("public", "stock_old"): {("1", "5"): 1, ("2", "0"): 1}}:
        raise Failed(f"{place.rows()}")


def dropped(place: Place) -> None:
    """A published table is dropped between the slot and the locks: the rest is copied."""
    place.stock(published=False)
    place.run(
        "CREATE TABLE staging (id int PRIMARY KEY)", "CREATE PUBLICATION pgsub FOR ALL TABLES"
    )
    adds_later(
        place,
        "DROP TABLE staging",
        text="was dropped, or left the publication, while others were copied",
    )


def column_dropped(place: Place) -> None:
    """So it is where a column is."""
    place.stock()
    adds_later(place, "ALTER TABLE stock DROP COLUMN quantity")


def truncated(place: Place) -> None:
    """So it is where a table is truncated: an older snapshot would find it empty."""
    place.stock()
    adds_later(place, "TRUNCATE stock", "INSERT INTO stock VALUES (3, 3)")


def locks_are_short(place: Place) -> None:
    """A table that is locked while others are read is read later; one that was read can be altered
    while others are read."""
    place.stock()
    place.run(
        "CREATE TABLE other (id int PRIMARY KEY)",
        "INSERT INTO other VALUES (1)",
        "ALTER PUBLICATION pgsub ADD TABLE other",
    )
    proxy, reads, goes_on = place.proxy(), threading.Event(), threading.Event()

    def hold() -> None:
        reads.set()
        goes_on.wait(60)

    proxy.before('ONLY "public"."other"', hold)
    child = place.start("--create", "--jobs", "2", dsn=place.dsn(proxy.folder))
    wait_until(reads.is_set, "reading rows", 60, child.check)
    wait_until(
        lambda: place.value("SELECT count(*) FROM pg_locks WHERE relation = 'stock'::regclass")
        == "0",
        "reading the other table",
        60,
    )
    place.run(
        "ALTER TABLE stock ADD COLUMN price int",
        "UPDATE stock SET price = 7",
        "TRUNCATE stock",
        "INSERT INTO stock VALUES (5, 5, 5)",
    )
    goes_on.set()
    place.catch_up(child)
    child.stop()
    place.equal()


def cut(place: Place) -> None:
    """A copy of ten tables is killed: those that were stored whole follow, and the others are added
    one by one. The feed has them all, by first rows of the former."""
    tables = [f"part{it}" for it in range(10)]
    for it in tables:
        place.run(
            f"CREATE TABLE {it} (id int PRIMARY KEY, note text)",
            # (more than are stored at a time: a copy of which nothing is stored begins anew)
            f"INSERT INTO {it} SELECT it, '{it} ' || it || repeat('.', 1000) FROM generate_series(1, 3000) it",
        )
    proxy, count = place.proxy(), itertools.count()

    def hold() -> None:
        time.sleep(0.4)
        if next(count) == 6:
            child.kill()

    proxy.before(READING, hold, 10)
    words = "--create", "--all-tables", "--feed", str(feed_of(place))
    child = place.start(*words, dsn=place.dsn(proxy.folder))
    wait_until(lambda: not child.is_running(), "the kill", 60)
    for it in tables:
        place.run(
            f"UPDATE {it} SET note = 'new' WHERE id % 10 = 0",
            f"DELETE FROM {it} WHERE id < 10",
            f"INSERT INTO {it} VALUES (0, NULL)",
        )
    child = place.start()
    child.wait_for("an interrupted copy goes on")
    child.wait_for("its first rows are read from")
    added(place, child)
    equal(place)
    if place.value("SELECT count(*) FROM pg_replication_slots") != "1":
        raise Failed("a slot is left")


def never_possible(place: Place) -> None:
    """A copy that fails in the same way again and again ends, and takes back what it made."""
    place.own_server(encoding="SQL_ASCII")
    place.run(
        "CREATE TABLE words (id int PRIMARY KEY, word text)",
        "INSERT INTO words VALUES (1, E'\\xff')",
    )
    place.ends(SERVER, "attempts to copy", "--create", "--table", "words", seconds=60)
    if (
        place.value("SELECT count(*) FROM pg_publication") != "0"
        or place.value("SELECT count(*) FROM pg_replication_slots") != "0"
    ):
        raise Failed("a publication or a slot is left")


def slot_lost(place: Place) -> None:
    """The connection of the temporary slot is lost while rows are read: noticed at once, and the
    copy begins anew."""
    place.stock()
    proxy, reads, goes_on = place.proxy(), threading.Event(), threading.Event()

    def hold() -> None:
        reads.set()
        goes_on.wait(60)

    proxy.before(READING, hold)
    child = place.start("--create", dsn=place.dsn(proxy.folder))
    wait_until(reads.is_set, "reading rows", 60, child.check)
    place.run(
        "SELECT pg_terminate_backend(pid) FROM pg_stat_activity WHERE backend_type = 'walsender'"
    )
    child.wait_for("begins anew", 20)
    goes_on.set()
    place.catch_up(child)
    child.stop()
    place.equal()


def some_columns(place: Place) -> None:
    """A role that may read some columns alone is told so before anything is made."""
    place.stock(published=False)
    place.run(
        "CREATE ROLE reader LOGIN REPLICATION",
        "GRANT SELECT (sku) ON stock TO reader",
        "CREATE PUBLICATION pgsub FOR TABLE stock",
    )
    said = place.ends(
        SERVER, "SELECT", "--create", dsn=place.cluster.dsn(user="reader"), seconds=30
    )
    if (
        "some columns" not in said
        or place.value("SELECT count(*) FROM pg_replication_slots") != "0"
    ):
        raise Failed(said)


def locked(place: Place) -> None:
    """What a copy waits for is told after some seconds: here the lock of a session."""
    place.stock()
    waits_for_a_lock(place, "--create")


def locked_publication(place: Place) -> None:
    """So it is with the publication."""
    place.stock(published=False)
    waits_for_a_lock(place, "--create", "--table", "stock")


def waits_for_a_lock(place: Place, *words: str) -> None:
    with place.cluster.connect() as writer:
        writer.run("BEGIN", "LOCK TABLE stock IN ACCESS EXCLUSIVE MODE")
        child = place.start(*words)
        # (before 16 the slot waits first, for the transaction that has the lock)
        child.wait_for(f" of process {writer.value('SELECT pg_backend_pid()')} (", 30)
        writer.run("ROLLBACK")
    place.catch_up(child)
    child.stop()
    place.equal()


# Where a copy with tables of SQLite is killed; the last two are of the process that makes them.
MOMENTS = ("reading", "copied", "made", "process", "process stopped")
PARTS = [f"part{it}" for it in range(4)]


def with_tables(place: Place, *more: str, dsn: str = "") -> Child:
    words = ("--create", "--all-tables", "--jobs", "2", "--tables", str(rows_file(place)), *more)
    return place.start(*words, dsn=dsn)


def killed_with_tables(place: Place, moment: str) -> None:
    """A copy with tables is killed: these are whole or absent, and in the end are the server's. Then
    `drop --all` leaves nothing."""
    for it in PARTS:
        place.run(
            f"CREATE TABLE {it} (id int PRIMARY KEY, note text)",
            f"INSERT INTO {it} SELECT it, '{it} ' || it FROM generate_series(1, 20000) it",
        )
    proxy, count = place.proxy(), itertools.count()

    def hold() -> None:
        if next(count) < 2:
            return
        makers = children_with(child.process.pid, "copied_rows.run()")
        if moment == "reading":
            child.kill()
        elif moment == "process":
            kill_all(makers)
        elif moment == "process stopped":
            os.kill(makers[0], signal.SIGSTOP)
            child.signal(signal.SIGTERM)

    proxy.before(READING, hold, len(PARTS))
    child = with_tables(place, dsn=place.dsn(proxy.folder))
    if moment == "copied":
        child.wait_for("info: copied ")
        child.kill()
    elif moment == "made":
        wait_until(rows_file(place).exists, "making the tables", 60, child.check)
        child.kill()
    if moment != "process":
        wait_until(lambda: not child.is_running(), "the end", 60)
        if rows_file(place).exists():
            with reading(rows_file(place)) as base:
                for it in PARTS:
                    if base.execute(f"SELECT count(*) FROM {it}").fetchone() != (20000,):
                        raise Failed(f"{rows_file(place)} isn't whole: {it}")
        for it in PARTS:
            place.run(f"UPDATE {it} SET note = 'new' WHERE id % 10 = 0")
        child = with_tables(place)
    child.wait_for(f"tables: {rows_file(place)} follows", 120)
    place.run(*(f"DELETE FROM {it} WHERE id < 10" for it in PARTS))
    now_in_tables(place)
    compare_tables(place.cluster, rows_file(place), "pgsub", database=place.database)
    place.catch_up(child)
    child.stop()
    place.equal()
    words = ("--dsn", place.dsn(), "--store", str(place.store), "--slot", place.slot)
    place.subcommand("drop", *words, "--yes", "--all")
    if left := [it.name for it in place.folder.iterdir() if it.name.startswith(("copy", "rows"))]:
        raise Failed(f"left: {left}")


def tables_with_the_copy(place: Place) -> None:
    """Tables are made with the copy, and a table that is locked meanwhile gets its rows later."""
    place.stock()
    place.run(
        "CREATE TABLE other (id int PRIMARY KEY, note text)",
        "INSERT INTO other VALUES (1, E'a\\tb\\\\'), (2, NULL)",
        "ALTER PUBLICATION pgsub ADD TABLE other",
    )
    proxy = place.proxy()
    proxy.before(
        "LOCK TABLE",
        lambda: place.run("ALTER TABLE stock ADD price int", "UPDATE stock SET price = 1"),
    )
    words = ("--create", "--jobs", "1", "--tables", str(rows_file(place)))
    child = place.start(*words, dsn=place.dsn(proxy.folder))
    child.wait_for(f"tables: {rows_file(place)} was made with the copy", 120)
    added_with_tables(place, child)


def added_with_tables(place: Place, child: Child) -> None:
    child.wait_for("following slot")
    wait_until(lambda: not is_adding(place.store), "adding tables", 60, child.check)
    place.catch_up(child)
    now_in_tables(place)
    compare_tables(place.cluster, rows_file(place), "pgsub", database=place.database)
    child.stop()
    place.equal()


def is_no_store(place: Place) -> None:
    """Fails where somebody takes a store for one that is complete."""
    store, into = ("--store", str(place.store)), ("--into", str(place.folder / "other.db"))
    for command, *more in (
        ("export", *into),
        ("snapshot", *into),
        ("verify", "--dsn", place.dsn()),
        ("add", "--dsn", place.dsn(), "--table", "stock"),
    ):
        said = place.subcommand(command, *store, *more, status=PASSING)
        if f"there is no store {place.store} yet" not in said:
            raise Failed(f"{command}: {said}")
    if Path(into[1]).exists():
        raise Failed(f"{into[1]} was made")


def incomplete(place: Place) -> None:
    """A store isn't taken for complete while its rows are copied, nor where that was cut off; its
    file is there by then."""
    place.stock()
    place.run(
        "CREATE TABLE other (id int PRIMARY KEY)",
        "INSERT INTO other VALUES (1)",
        "ALTER PUBLICATION pgsub ADD TABLE other",
    )
    proxy, reads, goes_on = place.proxy(), threading.Event(), threading.Event()

    def hold() -> None:
        reads.set()
        goes_on.wait(120)

    proxy.before('ONLY "public"."other"', hold)
    child = place.start("--create", "--jobs", "1", dsn=place.dsn(proxy.folder))
    wait_until(lambda: reads.is_set() and place.store.exists(), "reading rows", 60, child.check)
    is_no_store(place)
    child.kill()
    goes_on.set()
    wait_until(lambda: not is_followed(place.store), "the filter's end", 60)
    if not place.store.exists():
        raise Failed("no file is left")
    is_no_store(place)
    added(place, place.start("--create"))


def full_disk(place: Place) -> None:
    """Rows that a disk has no room for end no copy for good: it goes on once there is room."""
    folder, size = place.small_disk(4), 20_000
    place.store = folder / "copy.db"
    place.run(
        "CREATE TABLE wide (id int PRIMARY KEY, note text)",
        f"INSERT INTO wide SELECT it, repeat('x', 500) FROM generate_series(1, {size}) it",
    )
    child = place.start("--create", "--all-tables")
    child.wait_for("the disk is full")
    child.wait_for("the copy ")
    subprocess.run(["mount", "-o", "remount,size=200M", folder], check=True)
    added(place, child)
    place.subcommand("drop", "--dsn", place.dsn(), "--store", str(place.store), "--yes", "--all")


KILLS = 20


def killed_often(place: Place) -> None:
    """Filter or connector are killed in the midst of loads, again and again: the store is that of
    the server in the end, and was never taken for complete before."""
    rng, kills = random.Random(place.options.seed), collections.Counter[str]()
    for it in PARTS:
        place.run(
            f"CREATE TABLE {it} (id text PRIMARY KEY, note text)",
            f"INSERT INTO {it} SELECT md5(it::text), '{it} ' || it FROM generate_series(1, 40000) it",
        )
    words, child = ("--create", "--all-tables"), None
    while sum(kills.values()) < KILLS:
        if child is None or not child.is_running():
            child = place.start(*words)
        wait_until(child.filters, "a filter", 60, child.check)  # type: ignore[arg-type]
        time.sleep(rng.choice((0.1, 0.5, 2.0)) * rng.random())
        if place.store.exists() and place.checkpoint().get("phase") == "following":
            # (it was copied before it was killed)
            child.kill()
            wait_until(lambda: not is_followed(place.store), "the filter's end", 60)
            place.subcommand("drop", "--dsn", place.dsn(), "--store", str(place.store), "--yes")
            kills["dropped"] += 1
        elif (filters := child.filters()) and rng.random() < 0.5:
            kill_all(filters)
            kills["filter"] += 1
        else:
            child.kill()
            kills["connector"] += 1
            wait_until(lambda: not is_followed(place.store), "the filter's end", 60)
    child = child if child and child.is_running() else place.start(*words)
    print(f"killed: {dict(kills)}", flush=True)
    added(place, child)


# How many rows a table has that is sorted, what is told where it isn't, and how many bytes of files
# the server needs at least to sort it.
UNORDERED, AS_THEY_LIE, SORTING = 300_000, "rows come as they lie", 10 << 20


def sorted_rows(place: Place) -> None:
    """Rows that don't lie by their key are sorted by the server, for the first copy and where they
    are added; where it has no room for that, they come as they lie."""
    place.run(
        "CREATE TABLE random (id text PRIMARY KEY, note text)",
        f"INSERT INTO random SELECT md5(it::text), 'note ' || it FROM generate_series(1, {UNORDERED}) it",
        "ANALYZE random",
    )

    def written() -> int:
        query = "SELECT temp_bytes FROM pg_stat_database WHERE datname = current_database()"
        return int(place.value(query))

    for limits in (("-1", "1MB"), ("1MB", "-1")):
        child: Child | None = None
        place.run("DROP PUBLICATION IF EXISTS pgsub", "CREATE PUBLICATION pgsub FOR TABLE random")
        for limit in limits:
            place.set(work_mem="1MB", temp_file_limit=limit)
            before, told = written(), child.said().count(AS_THEY_LIE) if child else 0
            if child is None:
                child = place.start("--create")
                place.catch_up(child)
            else:
                add(place, "random")
            if limit == "-1":
                wait_until(lambda before=before: written() - before > SORTING, "a sort", 30)  # type: ignore[misc]
            if (found := child.said().count(AS_THEY_LIE) - told) != (limit != "-1"):
                raise Failed(f"{limit}: {found} times {AS_THEY_LIE!r}: {child.said()}")
        assert child
        child.stop()
        place.equal()
        place.subcommand(
            "drop", "--dsn", place.dsn(), "--store", str(place.store), "--yes", "--all"
        )


CASES = (
    Case("tables-with-the-copy", tables_with_the_copy),
    Case("rows-sorted-by-their-key", sorted_rows),
    Case("store-that-is-not-complete", incomplete),
    Case("copy-on-a-full-disk", full_disk),
    Case("copy-killed-often", killed_often),
    *(
        Case(
            f"copy-with-tables-killed-{it.replace(' ', '-')}",
            functools.partial(killed_with_tables, moment=it),
        )
        for it in MOMENTS
    ),
    Case("table-swapped-while-copied", swapped),
    Case("table-dropped-while-copied", dropped),
    Case("locks-are-short", locks_are_short),
    Case("copy-of-ten-tables-cut", cut),
    Case("column-dropped-while-copied", column_dropped),
    Case("table-truncated-while-copied", truncated),
    Case("copy-that-never-works", never_possible),
    Case("copy-whose-slot-is-lost", slot_lost),
    Case("role-that-reads-some-columns", some_columns),
    Case("copy-that-waits-for-a-lock", locked),
    Case("publication-that-waits-for-a-lock", locked_publication),
)
