"""What a new user meets in the first hour at the command line, from outside as in `first_hour`:
helps, mistakes, what is told before and while a copy is made."""

from __future__ import annotations

import contextlib
import os
import pty
import re
import statistics
import subprocess
import sys
import time
from pathlib import Path

from ..engines import free_port
from ..errors import Failed
from ..follower import wait_until
from ..place import OK, PASSING, SERVER, USAGE, Place
from .case import Case
from .common import rows_file
from .first_hour import ROWS, asked, call, command, demand, follow, with_tables

# How many times as long as an interpreter's start a wait may take for what is long there, and how
# often both are tried. (The start takes 8 ms on a machine at rest. One that reads all of a connector
# takes 30 times as long.)
MOST, TRIES = 18, 9


def helps(place: Place) -> None:
    """`help` lists the commands, and a command's help has the common options first."""
    status, said = command(place, "help")
    demand(status == 0 and "every day" in said, f"help: status {status}: {said}")
    status, said = command(place, "follow", "--help")
    first = re.search(r"^  (--[a-z-]+)", said, re.M)
    demand(first is not None and first[1] == "--store", f"it begins with {first}")


def mistakes(place: Place) -> None:
    """What is mistyped or missing is named, with what may be meant."""
    place.stock()
    feed, url = str(place.folder / "nowhere"), f"redis://127.0.0.1:{free_port()}"
    for words, wanted, text in (
        (("folow",), USAGE, "did you mean follow?"),
        (("follow", "--stroe", "x"), USAGE, "did you mean --store?"),
        (("check", "--dsn", "hots=/nowhere"), SERVER, "hots"),
        (("sink", url, "--feed", feed, "--once"), PASSING, "start `pgsub-connect follow`"),
    ):
        status, said = command(place, *words)
        demand(status == wanted and text in said, f"{words}: status {status}: {said}")


def slot_of_another(place: Place) -> None:
    """A start with another slot than the store's says which one it is, and what to do."""
    place.stock()
    child = follow(place, "--create", "--slot", "app")
    child.wait_for("following slot app")
    child.stop()
    words = ("--dsn", place.dsn(), "--store", str(place.store), "--slot", "pgsub")
    _, said = command(place, "follow", *words)
    demand("app" in said and "leave --slot out" in said, said)


def roles(place: Place) -> None:
    """`check` tells what a role lacks in plain lines, and a wrong password once."""
    server = place.own_cluster()
    asks = f"local shop reader scram-sha-256\n{(server.data / 'pg_hba.conf').read_text()}"
    (server.data / "pg_hba.conf").write_text(asks)
    server.start()
    server.run("CREATE DATABASE shop", database="postgres")
    place.stock()
    place.run("CREATE ROLE reader LOGIN PASSWORD 'right'", "CREATE ROLE plain LOGIN")
    _, said = command(place, "check", "--dsn", server.dsn(user="plain"), "--table", "stock")
    demand("REPLICATION" in said and r"\x0a" not in said, said)
    dsn = f"{server.dsn(user='reader')} password=wrong"
    status, said = command(place, "check", "--dsn", dsn, "--table", "stock")
    demand(status == SERVER and said.count("password authentication failed") == 1, said)


def waits(place: Place) -> None:
    """A wait for what is long in the tables is over soon enough for a request."""
    place.stock()
    child = with_tables(place)
    words: list[str | Path] = [place.options.connect, "wait", "0/1", "--tables", rows_file(place)]
    # (one beside the other, so that a busy machine slows both down)
    took = [
        (seconds(place, sys.executable, "-c", ""), seconds(place, *words)) for _ in range(TRIES)
    ]
    start, wait = (statistics.median(it) for it in zip(*took))
    times = statistics.median(waiting / starting for starting, waiting in took)
    demand(times < MOST, f"it took {wait:.3f} s, {times:.0f} times an interpreter's {start:.3f}")
    child.stop()


def seconds(place: Place, *words: str | Path) -> float:
    """How long a command takes that ends well."""
    began = time.monotonic()
    status, said = call(place, *words)
    took = time.monotonic() - began
    demand(status == OK, f"{words}: status {status}: {said}")
    return took


def indexes(place: Place) -> None:
    """`--indexes` makes the server's plain indexes in `rows.db`, after the first rows."""
    place.stock()
    place.run("CREATE INDEX ON stock (quantity)")
    child = with_tables(place, "--indexes")
    plan = "EXPLAIN QUERY PLAN SELECT * FROM stock WHERE quantity = 5"
    wait_until(lambda: "stock_quantity_idx" in str(asked(place, plan)), "making the index", 60)
    child.stop()


def said_on_a_terminal(words: list[str]) -> str:
    """What a command writes to a terminal until it ends."""
    reader, writer = pty.openpty()
    process = subprocess.Popen(words, stdin=writer, stdout=writer, stderr=writer)
    os.close(writer)
    said = b""
    with contextlib.suppress(OSError):
        while piece := os.read(reader, 65536):
            said += piece
    os.close(reader)
    if process.wait():
        raise Failed(f"status {process.returncode}: {said.decode(errors='replace')}")
    return said.decode(errors="replace")


def on_a_terminal(place: Place) -> None:
    """A copy tells on a terminal how many rows it has, how fast it is, and the time left."""
    place.run(
        "CREATE TABLE stock (sku int PRIMARY KEY, note text)",
        f"INSERT INTO stock SELECT it, repeat('x', 50) FROM generate_series(1, {10 * ROWS}) it",
        "ANALYZE stock",
    )
    words = [*place.follow_words(), "--pgsub", str(place.options.program), "--create"]
    said = said_on_a_terminal([*words, "--until", "now"])
    demand(bool(re.search(r"\d+ of \d+ rows, \d+ a second, .* left", said)), said)


CASES = (
    Case("first-hour-help", helps),
    Case("first-hour-mistakes", mistakes),
    Case("first-hour-slot-of-another", slot_of_another),
    Case("first-hour-role-and-password", roles),
    Case("first-hour-wait", waits),
    Case("first-hour-indexes", indexes),
    Case("first-hour-terminal", on_a_terminal),
)
