"""What an operator does with a follower: ends it at a point, watches it, records, copies its store,
takes it away."""

from __future__ import annotations

import os
import re
import signal
import sqlite3
import subprocess
import time

from ..errors import Failed
from ..follower import wait_until
from ..patience import Patience
from ..place import PASSING, SERVER, UNFIT, Place
from ..rows import compare, rows_of_server, rows_of_store
from .case import Case

LINE = re.compile(r"\d{4}-\d\d-\d\dT\d\d:\d\d:\d\dZ pgsub-connect: (info|warning|error): .")
# What `status` ends with where something isn't well.
BAD = 1
# As much log in megabytes as a slot may keep, and how often a file of it is filled until little of
# that is left.
KEPT, FILES = 200, 12
MADE = "SELECT (SELECT count(*) FROM pg_publication) || ' ' || (SELECT count(*) FROM pg_replication_slots)"


def until(place: Place) -> None:
    """Ends by itself once it has all that was committed by now, or up to an LSN, and not before;
    each line has a time and a level."""
    place.stock()
    said = place.ends(0, "following slot", "--create", "--until", "now")
    place.equal()
    place.change()
    said += place.ends(0, "following slot", "--until", place.cluster.log_end())
    place.equal()
    place.change()
    place.ends(0, "following slot", "--until", "now")
    place.equal()
    if odd := [line for line in said.splitlines() if not LINE.match(line)]:
        raise Failed(f"a line without a time or a level: {odd[:3]}")


def probe(place: Place, *more: str, fails: str = "") -> None:
    """Asks the probe, which is to find that all is well, or to fail with a text."""
    said = place.subcommand(
        "status", "--status-file", str(place.folder / "status"), *more, status=BAD if fails else 0
    )
    if fails not in said:
        raise Failed(f"it doesn't say {fails!r}: {said}")


def lag(place: Place) -> None:
    """Tells how far it is behind, and whether its main loop is alive: in the status file, in that
    of metrics, and by the probe."""
    place.stock()
    metrics = place.folder / "metrics"
    child = place.start(
        "--create", "--status-file", str(place.folder / "status"), "--metrics-file", str(metrics)
    )
    place.catch_up(child)
    wait_until(lambda: "lag_seconds" in status_of(place), "telling the lag", 30, child.check)
    probe(place, "--max-lag", "60s", "--max-lag", "1GB")
    held = child.filters()
    for pid in held:
        os.kill(pid, signal.SIGSTOP)
    place.change()
    wait_until(
        lambda: number_of(status_of(place), "lag_seconds") > 4, "being behind", 60, child.check
    )
    probe(place, "--max-lag", "3s", fails="more than 3s behind")
    probe(place, "--max-lag", "1B", fails="more than 1B behind")
    found = re.search(r"^pgsub_lag_seconds\{[^}]*\} ([0-9.]+)$", metrics.read_text(), re.M)
    if not found or float(found[1]) < 3:
        raise Failed(f"the metrics have {metrics.read_text()}")
    for pid in held:
        os.kill(pid, signal.SIGCONT)
    place.catch_up(child)
    wait_until(
        lambda: number_of(status_of(place), "lag_seconds") == 0, "being complete", 60, child.check
    )
    child.signal(signal.SIGSTOP)
    time.sleep(3)
    probe(place, "--max-age", "2s", fails="no sign of life")
    child.signal(signal.SIGCONT)
    child.stop()
    probe(place, fails="the follower has ended")
    place.equal()


def status_of(place: Place) -> dict[str, object]:
    file = place.folder / "status"
    return place.status(file) if file.exists() else {}


def number_of(status: dict[str, object], name: str) -> float:
    found = status.get(name)
    return float(found) if isinstance(found, (int, float)) else -1.0


def nearly_lost(place: Place) -> None:
    """Warns before the server gives up the slot's log, and tells how much of it is left."""
    place.set(max_slot_wal_keep_size=f"{KEPT}MB")
    place.stock()
    child = place.start("--create", "--status-file", str(place.folder / "status"))
    place.catch_up(child)
    held = child.filters()
    for pid in held:
        os.kill(pid, signal.SIGSTOP)
    for _ in range(FILES):
        place.change()
        place.run("SELECT pg_switch_wal()")
    child.wait_for("of log more", 30)
    wait_until(
        lambda: 0 < number_of(status_of(place), "safe_wal_size") < 20 << 20,
        "telling it in the status file",
        30,
        child.check,
    )
    if "wal_status" not in status_of(place):
        raise Failed(f"the status file has {status_of(place)}")
    for pid in held:
        os.kill(pid, signal.SIGCONT)
    place.catch_up(child)

    def is_safe() -> bool:
        # (the slot moves on once the server has logged its running transactions)
        place.change()
        place.run("CHECKPOINT")
        return "is safe again" in child.said()

    wait_until(is_safe, "being safe again", 60, child.check)
    child.stop()
    place.equal()


def checked(place: Place) -> None:
    """`check` tells what is missing, and changes nothing."""
    place.stock(published=False)
    place.run("CREATE TABLE audit (word text)")
    before = place.value(MADE)
    words = ("--dsn", place.dsn(), "--slot", place.slot)
    if "error " in place.subcommand("check", *words, "--table", "stock"):
        raise Failed("something is wrong with a table that has a key")
    said = place.subcommand(
        "check", *words, "--table", "audit", "--table", "nothing", status=SERVER
    )
    if "error identity" not in said or "public.audit" not in said or "none that" not in said:
        raise Failed(f"it doesn't tell what is wrong: {said}")
    if place.value(MADE) != before or list(place.folder.iterdir()) != [place.log]:
        raise Failed("something was made")


def copies(place: Place) -> None:
    """Copies the store and exports its rows, while it is followed and afterwards."""
    place.stock()
    child = place.start("--create")
    place.catch_up(child)
    for number in range(2):
        copy, rows = place.folder / f"copy{number}", place.folder / f"rows{number}"
        place.subcommand("snapshot", "--store", str(place.store), "--into", str(copy))
        place.subcommand("export", "--store", str(place.store), "--into", str(rows))
        compare(
            rows_of_server(place.cluster, "pgsub"), rows_of_store(place.options.program, copy)[0]
        )
        exported = {
            tuple(map(str, row))
            for row in sqlite3.connect(rows).execute("SELECT sku, quantity FROM stock")
        }
        if exported != set(rows_of_server(place.cluster, "pgsub")["public", "stock"]):
            raise Failed(f"the export has {exported}")
        if number == 0:
            place.change()
            place.catch_up(child)
            child.stop()


def recorded(place: Place) -> None:
    """Records sessions without a store, which the program applies; the next recording begins where
    the one before did."""
    place.stock(published=False)
    place.run("DELETE FROM stock")
    streaming = ("--streaming",) if place.options.installed.version >= 14 else ()
    for number in range(2):
        words = (
            "--dsn",
            place.dsn(),
            "--slot",
            place.slot,
            "--record",
            str(place.folder / "sessions.pgx"),
            "--until",
            "now",
        )
        place.subcommand(
            "record", *words, *(("--create", "--table", "stock") if number == 0 else streaming)
        )
        if number == 0:
            place.change()
    done = subprocess.run(
        [place.options.program, "apply", place.folder / "sessions.pgx"],
        capture_output=True,
        check=False,
    )
    lines = done.stdout.decode().splitlines()
    if done.returncode or '["public","stock",["101","1"],1]' not in lines:
        raise Failed(f"status {done.returncode}: {lines} {done.stderr.decode()}")


def taken_away(place: Place) -> None:
    """Drops slot, publication and files, as a role with few rights, and nothing while it is
    followed or without a word."""
    place.run(
        "CREATE ROLE follower LOGIN REPLICATION",
        "GRANT CREATE ON DATABASE shop TO follower",
        "CREATE TABLE stock (sku int PRIMARY KEY, quantity int)",
        "ALTER TABLE stock OWNER TO follower",
        "CREATE PUBLICATION other FOR TABLE stock",
    )
    dsn = place.cluster.dsn(user="follower")
    words = ("--store", str(place.store), "--dsn", dsn)
    child = place.start("--create", "--table", "stock", dsn=dsn)
    place.catch_up(child)
    place.subcommand("drop", *words, "--yes", status=PASSING)
    child.stop()
    place.subcommand("drop", *words, status=UNFIT)
    if place.value(MADE) != "2 1" or not place.files():
        raise Failed("it was dropped without a word")
    place.subcommand("drop", *words, "--yes")
    left = [it.name for it in place.folder.iterdir() if it != place.log]
    if (
        place.value(MADE) != "1 0"
        or place.value("SELECT pubname FROM pg_publication") != "other"
        or left
    ):
        raise Failed(f"left are {place.value(MADE)} and {left}")


def waited_for(place: Place) -> None:
    """Commits that wait for the follower don't wait for long: neither those that it stores, nor
    those of a table that isn't published."""
    place.stock()
    place.run("CREATE TABLE plain (id int)")
    place.follow("--create")
    place.set(synchronous_standby_names=place.slot)
    child = place.start()
    wait_until(
        lambda: place.value("SELECT sync_state FROM pg_stat_replication") == "sync",
        "being waited for",
        30,
        child.check,
    )
    with place.cluster.connect(place.database) as session:
        for statement in (
            "UPDATE stock SET quantity = quantity + 1",
            "INSERT INTO plain VALUES (1)",
        ):
            began = time.monotonic()
            session.run(*[statement] * 10)
            if (took := time.monotonic() - began) > 5 * Patience.factor:
                raise Failed(f"ten commits of {statement!r} took {took:.1f} seconds")
    place.set(synchronous_standby_names="")
    child.stop()
    place.equal()


CASES = (
    Case("until-an-lsn", until),
    Case("commits-that-wait", waited_for),
    Case("lag-and-signs-of-life", lag),
    Case("slot-that-is-nearly-lost", nearly_lost),
    Case("check-changes-nothing", checked),
    Case("copies-of-a-store", copies),
    Case("recording-without-a-store", recorded),
    Case("follower-that-is-taken-away", taken_away),
)
