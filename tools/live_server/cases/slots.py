"""A slot that somebody else moves, and what a publication and its slot cost or harm."""

from __future__ import annotations

import os
import time
from signal import SIGCONT, SIGSTOP

from ..errors import Failed
from ..follower import wait_until
from ..place import SERVER, UNFIT, Place
from .case import Case
from .common import verify


def moved_before_session(place: Place) -> None:
    """Somebody moves the slot after it was looked at and before the session: changes would be
    passed over, so it ends."""
    place.stock()
    place.follow("--create")
    place.change()
    proxy = place.proxy()
    move = f"SELECT pg_replication_slot_advance('{place.slot}', pg_current_wal_lsn())"
    proxy.before("START_REPLICATION", lambda: place.run(move))
    place.ends(UNFIT, "somebody else moved the slot", dsn=place.dsn(proxy.folder), seconds=30)
    if "slot" not in place.found():
        raise Failed(f"the checkpoint has {place.found()}")
    place.ends(UNFIT, "somebody else moved the slot", seconds=30)
    place.follow("--accept", "slot")


def keyless_tables(place: Place) -> None:
    """Tables without a replica identity are refused before anything is made; they can be left out,
    or published for Inserts."""
    place.stock(published=False)
    place.run("CREATE TABLE audit (word text)", "INSERT INTO audit VALUES ('a')")
    place.ends(SERVER, "public.audit", "--create", seconds=30)
    place.ends(SERVER, "public.audit", "--create", "--all-tables", seconds=30)
    made = "SELECT count(*) FROM pg_publication"
    if place.value(made) != "0" or place.value("SELECT count(*) FROM pg_replication_slots") != "0":
        raise Failed("a publication or a slot was left")
    place.run("UPDATE audit SET word = 'b'")
    place.follow("--create", "--keyless", "inserts")
    place.run("UPDATE audit SET word = 'c' WHERE word = 'none'", "INSERT INTO audit VALUES ('d')")
    place.change()
    place.follow()
    place.equal("pgsub", "pgsub_inserts")


def left_out(place: Place) -> None:
    """A list of the tables that are there is published, and not those that are made later, but on
    --all-tables."""
    place.stock(published=False)
    place.run("CREATE TABLE audit (word text)")
    place.follow("--create", "--keyless", "leave-out")
    if place.value("SELECT puballtables FROM pg_publication") != "f":
        raise Failed("all tables were published")
    place.run(
        "CREATE TABLE late (id int)",
        "INSERT INTO late VALUES (1)",
        "UPDATE late SET id = 2",
        "DELETE FROM audit",
    )
    place.equal()


def no_copy_comes(place: Place) -> None:
    """A publication is taken back where no copy comes of it."""
    place.own_server({"wal_level": "replica", "max_wal_senders": "2"})
    place.stock(published=False)
    place.ends(SERVER, "wal_level", "--create", "--table", "stock", seconds=30)
    if place.value("SELECT count(*) FROM pg_publication") != "0":
        raise Failed("the publication is left")


def stopped_while_made(place: Place) -> None:
    """So it is where a signal ends the start while the server makes the slot."""
    place.stock(published=False)
    with place.cluster.connect() as writer:
        writer.run("BEGIN", "INSERT INTO stock VALUES (99, 9)")
        child = place.start("--create", "--table", "stock")
        waiting = "SELECT count(*) FROM pg_stat_activity WHERE state = 'active' AND query LIKE 'CREATE_REPLICATION_SLOT %'"
        wait_until(lambda: place.value(waiting) == "1", "making a slot", 60, child.check)
        child.stop(within=5)
    if place.value("SELECT count(*) FROM pg_publication") != "0":
        raise Failed("the publication is left")


def idle_publication(place: Place) -> None:
    """Changes of tables that aren't published don't cost a sync of the checkpoint each."""
    place.stock()
    place.run("CREATE TABLE busy (id int)")
    child = place.start("--create")
    place.catch_up(child)
    seen, began = set(), time.monotonic()
    with place.cluster.connect() as writer:
        while time.monotonic() - began < 6:
            for _ in range(20):
                writer.run("INSERT INTO busy VALUES (1)")
                seen.add(place.checkpoint()["confirmed"])
    place.catch_up(child)
    child.stop()
    if len(seen) > 20:
        raise Failed(f"the checkpoint was written at least {len(seen)} times in 6 seconds")


def idle_for_long(place: Place) -> None:
    """A slot that the server gave up because nobody followed it ends the start, which says so, and
    `check` too."""
    place.stock()
    place.follow("--create")
    place.set(idle_replication_slot_timeout="1s")
    reason = "SELECT coalesce(invalidation_reason, '') FROM pg_replication_slots"

    def is_given_up() -> bool:
        place.run("CHECKPOINT")
        return place.value(reason) == "idle_timeout"

    wait_until(is_given_up, "giving up the slot", 60)
    said = place.ends(SERVER, "idle_timeout")
    why = "nobody followed it for idle_replication_slot_timeout"
    if why not in said or "copies anew" not in said:
        raise Failed(f"no cure: {said}")
    words = ("--dsn", place.dsn(), "--slot", place.slot, "--store", str(place.store))
    if "lost (idle_timeout)" not in place.subcommand("check", *words, status=SERVER):
        raise Failed("check doesn't tell it")


def publication_made_anew(place: Place) -> None:
    """The publication is dropped and made again, so that the server says for good that it isn't
    there: no other session is tried."""
    place.stock()
    place.follow("--create")
    place.run("INSERT INTO stock SELECT it, 0 FROM generate_series(1000, 3000) it")
    place.run("DROP PUBLICATION pgsub", "INSERT INTO stock VALUES (4000, 0)")
    place.run("CREATE PUBLICATION pgsub FOR TABLE stock")
    for _ in range(3):
        said = place.ends(SERVER, "does not exist", "--heartbeat", "0.1", seconds=30)
        if said.count("following slot") > 1:
            raise Failed(f"it was tried again: {said}")


def read_only_by_default(place: Place) -> None:
    """Where transactions are read-only by default, publication and slot are made, followed and
    dropped all the same."""
    place.stock(published=False)
    database = f"ALTER DATABASE {place.database}"
    place.run(f"{database} SET default_transaction_read_only = on")
    try:
        place.follow("--create", "--table", "stock")
        if "copy begins anew" in place.log.read_text():
            raise Failed("it was tried more than once")
        place.equal()
        place.subcommand("drop", "--dsn", place.dsn(), "--store", str(place.store), "--yes")
        counts = (
            f"(SELECT count(*) FROM {it})" for it in ("pg_publication", "pg_replication_slots")
        )
        left = place.value(f"SELECT {' + '.join(counts)}")
    finally:
        reset = f"{database} RESET default_transaction_read_only"
        place.run("SET default_transaction_read_only = off", reset)
    if left != "0":
        raise Failed("publication or slot are left")


def idle_while_copied(place: Place) -> None:
    """A copy that takes longer than the server leaves an idle slot keeps its slot."""
    place.own_server({"idle_replication_slot_timeout": "6s"})
    place.run(
        "CREATE TABLE stock (sku int PRIMARY KEY, body text)",
        "INSERT INTO stock SELECT it, repeat('x', 1000) FROM generate_series(1, 40000) it",
        "CREATE PUBLICATION pgsub FOR TABLE stock",
    )
    child = place.start("--create")
    child.wait_for("copying 1 table", 60)
    for pid in child.filters():
        os.kill(pid, SIGSTOP)
    for _ in range(14):
        time.sleep(1)
        place.run("CHECKPOINT")
    for pid in child.filters():
        os.kill(pid, SIGCONT)
    place.catch_up(child)
    child.stop()
    place.equal()


def renamed_database(place: Place) -> None:
    """A database that was renamed is followed, verified and dropped by its new name."""
    place.own_server()
    place.stock()
    place.follow("--create")
    place.change()
    place.cluster.run("ALTER DATABASE shop RENAME TO store", database="postgres")
    place.database = "store"
    place.change()
    child = place.start("--create")
    place.catch_up(child)
    if "the database shop was renamed: it is store now" not in child.said():
        raise Failed(f"it isn't told: {child.said()}")
    verify(place)
    child.stop()
    place.equal()
    rename = "ALTER DATABASE store RENAME TO third"
    place.cluster.run(rename, "CREATE DATABASE store", database="postgres")
    place.ends(UNFIT, "the database store, and this is a later one", seconds=30)
    place.database = "third"
    place.subcommand("drop", "--dsn", place.dsn(), "--store", str(place.store), "--yes")
    if place.value("SELECT count(*) FROM pg_replication_slots") != "0":
        raise Failed("the slot is left")


CASES = (
    Case("slot-moved-before-the-session", moved_before_session),
    Case("tables-without-an-identity", keyless_tables),
    Case("publication-of-a-list", left_out),
    Case("publication-without-a-copy", no_copy_comes),
    Case("publication-of-a-start-that-was-stopped", stopped_while_made),
    # (before, such transactions come as empty ones, and move the store)
    Case("publication-that-is-idle", idle_publication, since=15),
    Case("slot-that-was-idle-for-long", idle_for_long, since=18),
    Case("publication-made-anew", publication_made_anew, until=17),
    Case("read-only-by-default", read_only_by_default),
    Case("slot-that-is-idle-while-rows-are-copied", idle_while_copied, since=18),
    Case("database-that-was-renamed", renamed_database),
)
