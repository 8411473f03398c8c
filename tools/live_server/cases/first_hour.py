"""What a new user meets in the first hour with a follower, from outside: words, texts, exit
statuses and files. Nothing of a connector's modules is used, so that `--connector` may name one of
any version."""

from __future__ import annotations

import contextlib
import dataclasses
import os
import signal
import sqlite3
import subprocess
import time
from pathlib import Path

from ..child import Child
from ..engines import free_port
from ..errors import Failed
from ..feeds import reading
from ..follower import wait_until
from ..patience import Patience
from ..place import OK, Place
from .case import Case
from .common import rows_file
from .stops import fill

# How long the first rows may take after the copy, in parts of its time and at least in seconds; and
# how long what heals by itself.
PART, LEAST, HEALS = 0.1, 1.0, 45
# How many rows show that. (With a program that is compiled with checks, the copy takes so long that
# its tenth says little.)
ROWS = 100_000
# How often a filter is killed until `status` tells it.
KILLS = 4


def demand(is_so: bool, text: str) -> None:
    if not is_so:
        raise Failed(text)


def follow(place: Place, *more: str) -> Child:
    """A follower of the store."""
    return place.started([*place.follow_words(), "--pgsub", str(place.options.program), *more])


def call(place: Place, *words: str | Path) -> tuple[int, str]:
    """Runs a command in the place's folder. Its exit status, and all that it said."""
    ran = subprocess.run(
        words, cwd=place.folder, capture_output=True, text=True, check=False, errors="replace"
    )
    return ran.returncode, ran.stdout + ran.stderr


def command(place: Place, *words: str) -> tuple[int, str]:
    """Runs a command of the connector."""
    return call(place, place.options.connect, *words)


def asked(place: Place, query: str) -> list[tuple[object, ...]]:
    """What the tables answer; nothing where they aren't there yet."""
    with contextlib.suppress(sqlite3.Error, OSError), reading(rows_file(place)) as base:
        return base.execute(query).fetchall()
    return []


def have(place: Place, table: str, count: int, where: str = "true", within: float = HEALS) -> None:
    """Waits until the tables have so many rows."""
    query, wanted = f"SELECT count(*) FROM {table} WHERE {where}", [(count,)]
    wait_until(lambda: asked(place, query) == wanted, f"{count} rows WHERE {where}", within)


def with_tables(place: Place, *more: str) -> Child:
    """A new follower, whose tables have the rows of `stock`."""
    child = follow(place, "--create", "--tables", str(rows_file(place)), *more)
    child.wait_for("following slot")
    have(place, "stock", int(place.value("SELECT count(*) FROM stock")))
    return child


def numbers(place: Place) -> None:
    """Comparisons, the greatest price and the order of prices are the server's in `rows.db`."""
    place.run(
        "CREATE TABLE stock (sku int PRIMARY KEY, price numeric)",
        "INSERT INTO stock VALUES (1, 9), (2, 10), (3, 100), (4, 50.5), (5, 1000)",
    )
    child = with_tables(place)
    for what in (
        "count(*) FROM stock WHERE price > 50",
        "max(price) FROM stock",
        "sku FROM stock ORDER BY price DESC LIMIT 1",
    ):
        server, found = place.value(f"SELECT {what}"), asked(place, f"SELECT {what}")
        demand(found == [(float(server),)], f"{what}: {server} on the server, {found} in rows.db")
    child.stop()


def first_select(place: Place) -> None:
    """`rows.db` can be asked as soon as the copy follows."""
    place.run(
        "CREATE TABLE stock (sku int PRIMARY KEY, customer int, note text)",
        f"INSERT INTO stock SELECT it, it % 999, 'note ' || it FROM generate_series(1, {ROWS}) it",
    )
    began = time.monotonic()
    child = follow(place, "--create", "--tables", str(rows_file(place)))
    child.wait_for("following slot", 300)
    follows = time.monotonic()
    have(place, "stock", ROWS, within=300)
    most = max(PART * (follows - began), LEAST)
    took = time.monotonic() - follows
    demand(took < most, f"the copy took {follows - began:.1f} s, the tables {took:.1f} s more")
    child.stop()


def status_of(place: Place, wanted: int, *texts: str) -> None:
    """Waits until `status` has this exit status, and tells all of that."""
    found = 0, ""

    def tells() -> bool:
        nonlocal found
        found = command(place, "status", "--status-file", str(place.folder / "status"))
        return found[0] == wanted and all(it in found[1] for it in texts)

    try:
        wait_until(tells, "telling", 30, step=0.5)
    except Failed:
        raise Failed(f"status {found[0]} in place of {wanted} with {texts}: {found[1]}") from None


def tells_a_finding(place: Place) -> None:
    """`status` fails where something was found that makes the copy wrong."""
    place.stock()
    again = ("--tables", str(rows_file(place)), "--status-file", str(place.folder / "status"))
    child = with_tables(place, *again[2:])
    status_of(place, 0, "ok")
    child.stop()
    place.run("CREATE TABLE late (id int PRIMARY KEY)", "INSERT INTO late VALUES (1)")
    place.run("ALTER PUBLICATION pgsub ADD TABLE late")
    child = follow(place, *again)
    child.wait_for("found: publication")
    status_of(place, 1, "public.late")
    child.stop()


def tells_losses(place: Place) -> None:
    """`status` fails where the filter ends again and again."""
    place.stock()
    child = with_tables(place, "--status-file", str(place.folder / "status"))
    for _ in range(KILLS):
        wait_until(lambda: bool(child.filters()), "starting the filter", 60, child.check)
        for pid in child.filters():
            os.kill(pid, signal.SIGKILL)
        time.sleep(1)
    status_of(place, 1)
    child.kill()


def tells_missing_tables(place: Place) -> None:
    """`status` fails where `rows.db` isn't there."""
    place.stock()
    child = with_tables(place, "--status-file", str(place.folder / "status"))
    status_of(place, 0, "ok")
    rows_file(place).unlink()
    status_of(place, 1, "rows.db")
    child.stop()


def heals(place: Place) -> None:
    """Rows that nobody touches get a new column's default, and keep a renamed column."""
    place.run(
        "CREATE TABLE stock (sku int PRIMARY KEY, quantity int)",
        "INSERT INTO stock SELECT it, it FROM generate_series(1, 1000) it",
    )
    child = with_tables(place)
    place.run("ALTER TABLE stock ADD COLUMN price int NOT NULL DEFAULT 7")
    place.run("UPDATE stock SET quantity = 0 WHERE sku = 1")
    have(place, "stock", 1000, "price = 7")
    place.run("ALTER TABLE stock RENAME quantity TO amount")
    place.run("UPDATE stock SET amount = 5 WHERE sku = 2")
    have(place, "stock", 1000, "amount IS NOT NULL")
    child.stop()


def waits_for_an_engine(place: Place) -> None:
    """A sink whose engine isn't there goes on trying, and ends as asked."""
    place.stock()
    child = with_tables(place)
    url = f"redis://127.0.0.1:{free_port()}/0"
    sink = place.started([str(place.options.connect), "sink", url, "--feed", f"{place.store}.feed"])
    time.sleep(3 * Patience.factor)
    sink.check()
    demand("again" in sink.said(), f"it doesn't tell that it tries again: {sink.said()}")
    sink.stop()
    child.stop()


def goes_on(place: Place) -> None:
    """What a store was begun with needs not be said again, and once all of it is dropped the same
    command begins anew."""
    place.stock(published=False)
    begins = ("--create", "--table", "stock", "--slot", "app", "--tables", str(rows_file(place)))
    words = ("drop", "--dsn", place.dsn(), "--store", str(place.store), "--all", "--yes")
    for _ in range(2):
        child = follow(place, *begins)
        child.wait_for("following slot app")
        have(place, "stock", int(place.value("SELECT count(*) FROM stock")))
        child.stop()
        place.change()
        child = follow(place)
        child.wait_for("following slot app")
        have(place, "stock", int(place.value("SELECT count(*) FROM stock")))
        child.stop()
        status, said = command(place, *words)
        left = [it.name for it in place.folder.iterdir() if it != place.log]
        demand((status, left) == (0, []), f"drop: status {status}, left are {left}: {said}")


def leaves_nothing(place: Place) -> None:
    """A start that is refused leaves no file."""
    place.stock(published=False)
    child = follow(place, "--create", "--table", "nowhere", "--tables", str(rows_file(place)))
    demand(child.end() != 0, "it wasn't refused")
    left = [it.name for it in place.folder.iterdir() if it != place.log]
    demand(not left, f"left are {left}")


def tells_full_disk(place: Place, disk: Path) -> bool:
    status, said = command(place, "status", "--status-file", str(disk / "status"))
    return status == 1 and "full" in said


def full_disk(place: Place) -> None:
    """With a feed a full disk is told as what it is, by `status` too, and passes."""
    place.stock()
    disk = place.small_disk(16)
    place.store, filler = disk / "copy.db", disk / "filler"
    child = with_tables(place, "--status-file", str(disk / "status"))
    fill(filler)
    place.run("INSERT INTO stock SELECT it, it FROM generate_series(1000, 9000) it")
    child.wait_for(f"the disk of {place.store} has 0 bytes left")
    wait_until(lambda: tells_full_disk(place, disk), "status telling the full disk", HEALS)
    filler.unlink()
    have(place, "stock", 8003)
    child.kill()


def install(place: Place) -> Path:
    """Goes on with what the connector's checkout installs, with the program."""
    prefix = place.folder / "installed"
    top = place.options.connect.parents[1]
    status, said = call(place, top / "install", prefix, "--program", place.options.program)
    demand(status == OK, f"./install: status {status}: {said}")
    parts = {"connect": prefix / "bin/pgsub-connect", "program": prefix / "bin/pgsub"}
    place.options = dataclasses.replace(place.options, **parts)
    return prefix


def what_is_installed(place: Place) -> None:
    """Each command has a manual page, shells complete it, and a sink has a unit."""
    prefix = install(place)
    wanted = (
        "share/man/man1/pgsub-connect-follow.1.gz",
        "share/bash-completion/completions/pgsub-connect",
        "share/zsh/vendor-completions/_pgsub-connect",
        "lib/systemd/system/pgsub-sink@.service",
    )
    lacks = [it for it in wanted if not (prefix / it).is_file()]
    demand(not lacks, f"it lacks {lacks}")


def dump_beside(place: Place) -> None:
    """`pgsub dump` tells that a follower has the store open."""
    install(place)
    place.stock()
    child = with_tables(place)
    status, said = call(place, place.options.program, "dump", "--store", place.store)
    demand(status != 0 and "follower" in said, f"status {status}: {said}")
    child.stop()


def another_version(place: Place) -> None:
    """`status` tells that another version was installed beside a follower."""
    prefix = install(place)
    place.stock()
    child = with_tables(place, "--status-file", str(place.folder / "status"))
    status_of(place, 0, "ok")
    for it in prefix.rglob("BUILD"):
        it.write_text(it.read_text().replace("version ", "version 9."))
    status_of(place, 0, "start it again")
    child.stop()


CASES = (
    Case("first-hour-numbers", numbers),
    Case("first-hour-first-select", first_select),
    Case("first-hour-status-of-a-finding", tells_a_finding),
    Case("first-hour-status-of-lost-filters", tells_losses),
    Case("first-hour-status-without-tables", tells_missing_tables),
    Case("first-hour-altered-tables", heals),
    Case("first-hour-engine-that-is-away", waits_for_an_engine),
    Case("first-hour-one-life", goes_on),
    Case("first-hour-refused-start", leaves_nothing),
    Case("first-hour-full-disk", full_disk, root=True),
    Case("first-hour-what-is-installed", what_is_installed),
    Case("first-hour-dump-beside-a-follower", dump_beside),
    Case("first-hour-another-version", another_version),
)
