"""The rows of the initial copy beside a feed: with the feed they lead to the server's rows, for who
has nothing else."""

from __future__ import annotations

import collections
import json
import pickle
import random
import signal
import subprocess
import sys
import time
import zlib
from pathlib import Path
from typing import Any

from built import TOP
from feed_replay import Replay, lsn_of, row_of

from ..errors import Failed
from ..feeds import compare_tables, rows_of_feed
from ..follower import is_adding, wait_until
from ..load import SCHEMA, Worker, final_statements
from ..patience import Patience
from ..place import OK, Place
from ..rows import compare, rows_of_server
from .case import Case
from .common import feed_of
from .feeding import burst

EXAMPLE = TOP / "examples/read_files.py"


def base_of_feed(feed: Path) -> Replay:
    """The rows of the base files, by what their format says."""
    state, number, is_last = None, 1, False
    while not is_last:
        text = (feed / "base" / f"{number:08}").read_bytes()
        head, body = json.loads(text[:1024]), text[1024:]
        if (head["bytes"], head["crc"]) != (len(body), zlib.crc32(body)):
            raise Failed(f"file {number} has other bytes than its head says")
        state = state or Replay(lsn_of(head["lsn"]))
        lines = [json.loads(it) for it in body.splitlines()]
        take_lines(state, lines)
        if head["rows"] != sum(isinstance(it, list) for it in lines):
            raise Failed(f"file {number} has other rows than its head says")
        is_last, number = head["last"], number + 1
    assert state
    return state


def take_lines(state: Replay, lines: list[Any]) -> None:
    oid = 0
    for it in lines:
        if isinstance(it, list):
            state.rows[oid][row_of(it)] += 1
        else:
            oid = it["oid"]
            state.begin(it, state.rows.get(oid, collections.Counter()))


def working(place: Place, name: str) -> list[Worker]:
    found = [Worker(place.cluster, f"{name} {it}", 0.05) for it in range(2)]
    for it in found:
        # (a table that is truncated while it is copied is added later)
        it.truncates = False
        it.start()
    return found


def end(workers: list[Worker]) -> None:
    for it in workers:
        it.ended.set()
    for it in workers:
        it.join(60)


def filled(place: Place) -> list[Worker]:
    """Tables with rows, which others change. Returns those."""
    place.run(
        *SCHEMA,
        "CREATE PUBLICATION pgsub FOR ALL TABLES",
        "INSERT INTO keyed SELECT it, 'before', NULL FROM generate_series(30000, 60000) it",
        "INSERT INTO inserts SELECT it % 100, 'before' FROM generate_series(1, 5000) it",
    )
    workers = working(place, "base before")
    time.sleep(2 * Patience.factor)
    return workers


def equal(place: Place) -> Replay:
    """Fails where base and feed don't lead to the server's rows."""
    state = base_of_feed(feed_of(place))
    count = sum(it.total() for it in state.rows.values())
    rows, state = rows_of_feed(feed_of(place), state)
    compare(rows_of_server(place.cluster, "pgsub", database=place.database), rows)
    print(f"   {count} first rows, {state.changes} changes")
    return state


def first_rows(place: Place) -> None:
    """A copy under load: by the feed alone its rows are had, by a program that reads the files and
    is killed, and as tables."""
    workers = filled(place)
    child = place.start("--create", "--feed", str(feed_of(place)))
    try:
        child.wait_for("following slot")
    finally:
        end(workers)
    for number in range(2):
        burst(place, child, number)
    place.run(*final_statements())
    place.catch_up(child)
    child.stop()
    state = equal(place)
    keep_by_files(place, state)
    other = place.folder / "other.db"
    words = ["tables", "--feed", str(feed_of(place)), "--into", str(other), "--once"]
    done = subprocess.run([str(place.options.connect), *words], check=False)
    if done.returncode != OK:
        raise Failed(f"tables ended with status {done.returncode}")
    compare_tables(place.cluster, other, "pgsub", database=place.database)
    place.equal()


def keep_by_files(place: Place, state: Replay) -> None:
    """Has the example keep the rows, and kills it meanwhile."""
    rng, kept, kills = random.Random(place.options.seed), place.folder / "kept", 0
    words = [sys.executable, "-I", str(EXAMPLE), str(feed_of(place)), str(kept)]
    until = time.monotonic() + 120 * Patience.factor
    while not kept.exists() or pickle.loads(kept.read_bytes())[0] < state.at:
        if time.monotonic() > until:
            raise Failed("the example doesn't reach the feed's end")
        child = subprocess.Popen(words)
        time.sleep(rng.random() * 3 * Patience.factor)
        child.kill()
        if child.wait() != -signal.SIGKILL:
            raise Failed(f"the example ended with status {child.returncode}")
        kills += 1
    _, _, tables = pickle.loads(kept.read_bytes())
    for oid, rows in state.rows.items():
        found = collections.Counter(
            {row_of(list(row.values())): copies for row, copies in tables.get(oid, {}).values()}
        )
        if found != +rows:
            raise Failed(f"the example has other rows of table {oid}")
    print(f"   the example was killed {kills} times")


def cut(place: Place) -> None:
    """A copy that is killed again and again: its feed has first rows that are right."""
    rng, feed = random.Random(f"base {place.options.seed}"), feed_of(place)
    workers = filled(place)
    words = "--create", "--feed", str(feed)
    try:
        for _ in range(6):
            child = place.start(*words)
            time.sleep(rng.random() * 2.5 * Patience.factor)
            child.kill()
        child = place.start(*words)
        child.wait_for("following slot")
    finally:
        end(workers)
    # (a copy that goes on adds what wasn't stored whole)
    wait_until(lambda: not is_adding(place.store), "adding tables", 120, child.check)
    place.run(*final_statements())
    place.catch_up(child)
    child.stop()
    if (feed / "base.new").exists():
        raise Failed("what was begun of first rows is there")
    said = place.log.read_text()
    begun, read = said.count("copying "), said.count("its first rows are read from")
    print(f"   copies were begun {begun} times, and first rows read from the store {read} times")
    equal(place)
    place.equal()


CASES = (Case("feed-first-rows", first_rows), Case("feed-first-rows-cut", cut))
