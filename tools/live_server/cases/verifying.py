"""`verify`: equal copies under load, differences that are planted into a store, and how it ends
where something is in the way."""

from __future__ import annotations

import contextlib
import os
import shutil
import sqlite3
import threading
import time
from collections.abc import Iterator

from ..errors import Failed
from ..follower import wait_until
from ..place import NO_SLOT, OK, PASSING, SERVER, Place
from .case import Case
from .common import (
    PLANTED,
    TABLES,
    changing,
    check_slots,
    moving,
    plant,
    spelled,
    verified,
    verify,
    verify_words,
)

DIFFERENT = 1


def check_left(place: Place) -> None:
    """Fails where a comparison has left a slot."""
    check_slots(place)


def check_tidy(place: Place) -> None:
    check_left(place)
    if found := [it.name for it in place.folder.iterdir() if ".export." in it.name]:
        raise Failed(f"left: {found}")


def equal_under_moves(place: Place) -> None:
    """Is equal at five moments while moves between accounts are followed, of which some are
    streamed."""
    with moving(place) as child:
        for _ in range(5):
            time.sleep(0.5)
            verify(place)
            child.check()
    check_tidy(place)
    place.catch_up(child)
    child.stop()
    place.equal()


def equal_under_all(place: Place) -> None:
    """Is equal at five moments while changes of every kind are followed, TRUNCATEs and rolled-back
    subtransactions among them."""
    with changing(place, "verify") as child:
        for _ in range(5):
            time.sleep(1.0)
            verified(place)
            child.check()
    verified(place)
    check_tidy(place)
    child.stop()
    place.equal()


def loads(place: Place) -> None:
    """A table that loads truncate again and again is compared, or named; the others are compared
    each time."""
    place.stock()
    place.run(
        "CREATE TABLE staging (id int PRIMARY KEY)", "ALTER PUBLICATION pgsub ADD TABLE staging"
    )
    child = place.start("--create")
    place.catch_up(child)
    load = "TRUNCATE staging", "INSERT INTO staging SELECT generate_series(1, 500)"
    # (while the server waits for a transaction the slot has no snapshot yet)
    with open_transaction(place):
        verifier = place.started(verify_words(place, "--hold", "30"))
        wait_until(lambda: is_held(place), "holding the stream", 30, verifier.check)
        time.sleep(1.0)
        place.run(*load)
    said = place.has_ended(verifier, OK, "2 tables, ")
    if ": equal" not in said:
        raise Failed(said)
    ended, statuses = threading.Event(), set[int]()

    def change() -> None:
        while not ended.wait(0.05):
            place.run(*load)

    thread = threading.Thread(target=change, daemon=True)
    thread.start()
    try:
        for _ in range(4):
            verifier = place.started(verify_words(place, "--hold", "30"))
            statuses.add(status := verifier.end())
            said = verifier.said()
            if (
                status not in (OK, PASSING)
                or "2 rows" not in said
                and "502 rows" not in said
                or "differ" in said
            ):
                raise Failed(f"status {status}: {said}")
            if (
                status == PASSING
                and "not compared: public.staging was truncated or written anew meanwhile"
                not in said
            ):
                raise Failed(said)
    finally:
        ended.set()
        thread.join(30)
    place.catch_up(child)
    verify(place)
    check_tidy(place)
    child.stop()
    place.equal()


def planted(place: Place) -> None:
    """Finds each of the planted differences, and nothing else, and follows on."""
    place.run(*TABLES)
    place.follow("--create")
    good = place.folder / "good.db"
    shutil.copyfile(place.store, good)
    for name, (change, expected) in PLANTED.items():
        plant(place, good, change)
        child = place.start()
        child.wait_for("following slot")
        found, said = verify(place, status=DIFFERENT)
        if sorted(found, key=str) != sorted(expected, key=str):
            raise Failed(f"{name}: found {found} in place of {expected}: {said}")
        child.stop()
    shutil.copyfile(good, place.store)
    child = place.start()
    place.catch_up(child)
    verify(place)
    verify(place, "--table", "stock", "--table", "public.log", "--show", "0")
    child.stop()


def published_part(place: Place) -> None:
    """Compares what is published: lists of columns, row filters, partitions under the root's name,
    two publications of a table."""
    place.run(
        "CREATE TABLE listed (id int PRIMARY KEY, secret text, word char(9))",
        "CREATE TABLE filtered (id int PRIMARY KEY, n int)",
        "CREATE TABLE parted (id int PRIMARY KEY, word text) PARTITION BY RANGE (id)",
        "CREATE TABLE low PARTITION OF parted FOR VALUES FROM (MINVALUE) TO (100)",
        "CREATE TABLE high PARTITION OF parted FOR VALUES FROM (100) TO (MAXVALUE)",
        "CREATE TABLE computed (id int PRIMARY KEY, twice int GENERATED ALWAYS AS (2 * id) STORED, word text)",
        "CREATE TABLE bare ()",
        "ALTER TABLE bare REPLICA IDENTITY FULL",
        "CREATE PUBLICATION pgsub FOR TABLE listed (id, word), filtered WHERE (id < 50), parted, computed, bare WITH (publish_via_partition_root)",
        "CREATE PUBLICATION second FOR TABLE filtered WHERE (id > 70)",
    )
    rows = (
        "INSERT INTO listed SELECT it, 'secret', it FROM generate_series({0}, {1}) it",
        "INSERT INTO filtered SELECT it, it FROM generate_series({0}, {1}) it",
        "INSERT INTO parted SELECT it, 'w' FROM generate_series({0}, {1}) it",
        "INSERT INTO computed (id, word) SELECT it, 'w' FROM generate_series({0}, {1}) it",
        "INSERT INTO bare DEFAULT VALUES",
    )
    place.run(*(it.format(1, 60) for it in rows))
    child = place.start("--create", "--publication", "pgsub", "--publication", "second")
    place.catch_up(child)
    place.run(
        *(it.format(61, 120) for it in rows),
        "UPDATE filtered SET n = 0",
        "DELETE FROM parted WHERE id IN (50, 110)",
    )
    verify(place)
    # (what isn't published is no difference)
    place.run(
        "UPDATE listed SET secret = 'other'", "UPDATE filtered SET n = 7 WHERE id BETWEEN 55 AND 65"
    )
    verify(place)
    child.stop()


def other_encoding(place: Place) -> None:
    """Compares the texts of a database that isn't in UTF-8."""
    place.own_server(encoding="LATIN1")
    place.run(
        "CREATE TABLE t (id int PRIMARY KEY, word text)",
        "INSERT INTO t SELECT it, U&'gr\\00fc\\00df ' || it FROM generate_series(1, 1000) it",
        "CREATE PUBLICATION pgsub FOR ALL TABLES",
    )
    child = place.start("--create")
    place.catch_up(child)
    place.run("UPDATE t SET word = U&'\\00e4' WHERE id % 2 = 0")
    verify(place)
    child.stop()
    good = place.folder / "good.db"
    shutil.copyfile(place.store, good)
    with contextlib.closing(sqlite3.connect(place.store)) as base:
        base.execute(
            "UPDATE held SET body = ? WHERE ident = ?", (spelled(("3", "grüss 3")), spelled(("3",)))
        )
        base.commit()
    place.beside("-shm").unlink(missing_ok=True)
    child = place.start()
    child.wait_for("following slot")
    found, said = verify(place, status=DIFFERENT)
    if [(it["server"]["word"], it["copy"]["word"]) for it in found] != [("grüß 3", "grüss 3")]:
        raise Failed(said)
    child.stop()


def altered(place: Place) -> None:
    """Tells a table whose columns the copy doesn't have yet, and one whose rows aren't there."""
    place.stock(published=False)
    place.run("CREATE PUBLICATION pgsub FOR ALL TABLES")
    child = place.start("--create")
    place.catch_up(child)
    place.run("ALTER TABLE stock ADD COLUMN word text")
    found, said = verify(place, status=DIFFERENT)
    if found != [
        {
            "table": "public.stock",
            "columns": {"server": ["sku", "quantity", "word"], "copy": ["sku", "quantity"]},
        }
    ]:
        raise Failed(said)
    place.change()
    verify(place)
    place.run("CREATE TABLE gone (id int PRIMARY KEY)", "INSERT INTO gone VALUES (1)")
    verify(place)
    place.run("DROP TABLE gone")
    _, said = verify(place)
    if "rows of 1 table that the publications don't have now: public.gone" not in said:
        raise Failed(said)
    child.stop()


def rights(place: Place) -> None:
    """Needs REPLICATION and the right to read the tables, and says which is missing."""
    place.stock()
    place.run("CREATE ROLE reader LOGIN REPLICATION", "CREATE ROLE other LOGIN")
    child = place.start("--create")
    place.catch_up(child)
    reader, other = (place.cluster.dsn(place.database, it) for it in ("reader", "other"))
    _, said = verify(place, status=SERVER, dsn=reader)
    if "permission denied for table stock" not in said:
        raise Failed(said)
    _, said = verify(place, status=SERVER, dsn=other)
    if "replication" not in said.lower():
        raise Failed(said)
    place.run("GRANT SELECT ON stock TO reader")
    verify(place, dsn=reader)
    place.run("ALTER TABLE stock ENABLE ROW LEVEL SECURITY")
    _, said = verify(place, status=SERVER, dsn=reader)
    if "row-level security" not in said:
        raise Failed(said)
    place.run("ALTER TABLE stock DISABLE ROW LEVEL SECURITY")
    check_tidy(place)
    place.change()
    place.catch_up(child)
    verify(place, dsn=reader)
    child.stop()


@contextlib.contextmanager
def open_transaction(place: Place) -> Iterator[None]:
    """A transaction that has written runs meanwhile, so that the server makes no slot."""
    with place.cluster.connect(place.database) as session:
        session.run("BEGIN", "CREATE TABLE meanwhile ()")
        yield
        session.run("ROLLBACK")


def no_slot(place: Place) -> None:
    """Gives up where the server makes no slot in time, and the follower goes on."""
    place.stock()
    child = place.start("--create")
    place.catch_up(child)
    with open_transaction(place):
        began = time.monotonic()
        _, said = verify(place, "--hold", "2", status=NO_SLOT)
        if (
            "the slot waits for the transaction of process" not in said
            or "the server made no slot in 2 seconds" not in said
        ):
            raise Failed(said)
        if time.monotonic() - began > 15:
            raise Failed("it took too long to give up")
        place.change()
        place.catch_up(child)
        check_tidy(place)
    verify(place)
    child.stop()
    place.equal()


def is_held(place: Place) -> bool:
    """Whether the stream is held: then the slot is made."""
    return (
        place.value(
            "SELECT count(*) FROM pg_replication_slots WHERE starts_with(slot_name, 'pgsub_verify')"
        )
        == "1"
    )


def killed(place: Place) -> None:
    """Killed while the stream is held, or while it compares: the follower goes on, and the server
    keeps no slot."""
    place.stock()
    child = place.start("--create")
    place.catch_up(child)
    with open_transaction(place):
        verifier = place.started(verify_words(place, "--hold", "8"))
        wait_until(lambda: is_held(place), "holding the stream", 30, verifier.check)
        place.change()
        end = place.value("SELECT pg_current_wal_insert_lsn()")
        time.sleep(1.0)
        if place.has_confirmed(end):
            raise Failed("the stream isn't held")
        verifier.process.kill()
        wait_until(lambda: place.has_confirmed(end), "going on", 5, child.check)
        # (the server waits for the transaction as long as the stream was to be held)
        check_left(place)
    verify(place)
    place.run("INSERT INTO stock SELECT it, it FROM generate_series(1000, 60000) it")
    place.catch_up(child)
    for wait in (0.3, 0.6, 0.9, 1.2):
        verifier = place.started(verify_words(place))
        time.sleep(wait)
        verifier.process.kill()
        place.change()
        place.catch_up(child)
        check_left(place)
    verify(place)
    child.stop()
    place.equal()


def follower_killed(place: Place) -> None:
    """The follower is killed, or ends, while it holds the stream: the comparison ends, and a new
    follower goes on."""
    place.stock()
    child = place.start("--create")
    place.catch_up(child)
    for is_killed in (True, False):
        with open_transaction(place):
            verifier = place.started(verify_words(place, "--hold", "5"))
            wait_until(lambda: is_held(place), "holding the stream", 30, verifier.check)
            place.change()
            child.kill() if is_killed else child.stop()
            # (a slot that was asked for isn't looked after meanwhile)
            place.has_ended(verifier, NO_SLOT, "made no slot")
        child = place.start()
        place.catch_up(child)
        verify(place)
    for wait in (0.5, 0.8, 1.1):
        verifier = place.started(verify_words(place))
        time.sleep(wait)
        child.kill()
        status = verifier.end()
        if status not in (OK, PASSING):
            raise Failed(f"status {status}: {verifier.said()}")
        child = place.start()
        place.catch_up(child)
        check_left(place)
        verify(place)
    child.stop()
    place.equal()


def filter_killed(place: Place) -> None:
    """The filter is killed under load while comparisons are made: each of these is equal, or says
    why there is none."""
    place.stock()
    child = place.start("--create")
    place.catch_up(child)
    ended = threading.Event()

    def change() -> None:
        while not ended.wait(0.02):
            place.change()

    thread = threading.Thread(target=change, daemon=True)
    thread.start()
    try:
        for wait in (0.4, 0.6, 0.8, 1.0):
            verifier = place.started(verify_words(place, "--hold", "30"))
            time.sleep(wait)
            for pid in child.filters():
                os.kill(pid, 9)
            status = verifier.end()
            if status not in (OK, PASSING):
                raise Failed(f"status {status}: {verifier.said()}")
            child.check()
    finally:
        ended.set()
        thread.join(30)
    place.catch_up(child)
    verify(place)
    check_tidy(place)
    child.stop()
    place.equal()


def synchronous(place: Place) -> None:
    """Commits that wait for the follower go on while the slot is made, and don't keep it from
    that."""
    place.stock()
    child = place.start("--create")
    place.catch_up(child)
    place.set(synchronous_standby_names=place.slot)
    ended = threading.Event()

    def change() -> None:
        with place.cluster.connect(place.database) as session:
            while not ended.is_set():
                session.run("UPDATE stock SET quantity = quantity + 1")

    thread = threading.Thread(target=change, daemon=True)
    thread.start()
    try:
        for _ in range(3):
            verifier = place.started(verify_words(place))
            status = verifier.end()
            if status != OK:
                raise Failed(f"status {status}: {verifier.said()}")
            before = place.value("SELECT sum(quantity) FROM stock")
            wait_until(lambda before=before: place.value("SELECT sum(quantity) FROM stock") != before, "going on", 10)  # type: ignore[misc]
    finally:
        ended.set()
        thread.join(30)
    place.set(synchronous_standby_names="")
    place.catch_up(child)
    verify(place)
    check_tidy(place)
    child.stop()
    place.equal()


def nobody_follows(place: Place) -> None:
    """Says that a follower has to run."""
    place.stock()
    place.follow("--create")
    _, said = verify(place, status=PASSING)
    if "a follower has to run" not in said:
        raise Failed(said)
    check_tidy(place)


CASES = (
    Case("verify-under-moves", equal_under_moves),
    Case("verify-under-every-change", equal_under_all),
    Case("verify-beside-loads-that-truncate", loads),
    Case("verify-finds-what-is-planted", planted),
    Case("verify-the-published-part", published_part, since=15),
    Case("verify-another-encoding", other_encoding),
    Case("verify-altered-tables", altered),
    Case("verify-rights", rights),
    Case("verify-without-a-slot", no_slot),
    Case("verify-killed", killed),
    Case("verify-follower-killed", follower_killed),
    Case("verify-filter-killed", filter_killed),
    Case("verify-synchronous", synchronous),
    Case("verify-without-a-follower", nobody_follows),
)
