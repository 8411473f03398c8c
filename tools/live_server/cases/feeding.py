"""A feed beside the store, and tables of SQLite that follow it: what they have, what readers see,
and when a start is refused."""

from __future__ import annotations

import contextlib
import json
import os
import shutil
import signal
import sqlite3
import subprocess
import threading
import time
from pathlib import Path
from typing import Callable

from feed_replay import commits, lsn_of

from ..child import Child
from ..errors import Failed
from ..feeds import (
    base_of,
    check_images,
    compare_tables,
    log_changes,
    reading,
    rows_of_feed,
    segments,
)
from ..follower import tables_of, wait_until
from ..load import LOGGED, SCHEMA, Worker, final_statements
from ..patience import Patience
from ..place import FILE, LOG, OK, UNFIT, Place
from ..rows import compare, rows_of_server
from .case import Case
from .common import ACCOUNTS, Moves, feed_of, now_in_tables, rows_file, wait
from .exports import check_whole


def equal_tables(place: Place) -> None:
    """Fails where the tables don't have the server's rows."""
    compare_tables(place.cluster, rows_file(place), "pgsub", database=place.database)


def equal_feed(place: Place, *publications: str) -> int:
    """Fails where a feed doesn't lead to the server's rows. Returns how many changes it has."""
    rows, state = rows_of_feed(feed_of(place))
    compare(
        rows_of_server(place.cluster, *(publications or ("pgsub",)), database=place.database), rows
    )
    return state.changes


def one_command(place: Place) -> None:
    """One command makes publication, slot, copy, feed and tables; `wait` ends once they have what
    was written; all are told of."""
    place.stock(published=False)
    status = place.folder / "status"
    child = place.start(
        "--create",
        "--table",
        "stock",
        "--tables",
        str(rows_file(place)),
        "--status-file",
        str(status),
    )
    place.catch_up(child)
    wait_until(rows_file(place).exists, "making the tables", check=child.check)
    for _ in range(3):
        place.change()
        now_in_tables(place)
        equal_tables(place)
    # (readers are looked at now and then)
    wait_until(
        lambda: bool(place.status(status).get("readers")), "looking at readers", 20, child.check
    )
    found = place.status(status)
    if found["readers"]["tables"]["lag_bytes"] < 0 or found["feed_bytes"] < 1024:
        raise Failed(f"the status says {found}")
    wait(place, "FFFF/0", "--within", "0.5", status=7)
    began = time.monotonic()
    place.run("SELECT pg_logical_emit_message(true, 'live', 'nothing that is published')")
    now_in_tables(place)
    if (took := time.monotonic() - began) > 5:
        raise Failed(f"what no published table has was waited for {took:.1f} seconds")
    child.stop()
    if Path(f"{rows_file(place)}-wal").exists():
        raise Failed("an orderly end has left a log beside the tables")
    place.equal()


def until_now(place: Place) -> None:
    """A follower that ends by itself has its tables have all before."""
    place.stock()
    place.follow("--create", "--tables", str(rows_file(place)))
    place.change()
    place.ends(OK, "", "--tables", str(rows_file(place)), "--until", "now")
    equal_tables(place)


def waited_from_the_start(place: Place) -> None:
    """Who waits for tables at the moment of a start waits until they are made."""
    place.stock()
    lsn = place.value("SELECT pg_current_wal_insert_lsn()")
    child = place.start("--create", "--tables", str(rows_file(place)))
    wait(place, lsn)
    equal_tables(place)
    child.stop()


def refused(place: Place) -> None:
    """A copy that has a feed goes on with it, and with no other, unless it is said that this ends
    it; and then that feed is none of the copy any more."""
    place.stock()
    feed = str(feed_of(place))
    Path(feed).mkdir()
    (Path(feed) / "0000000000000000").touch()
    text = f"{place.store} begins anew, and an older copy has left: {feed}. Once nobody reads that any more, rm -r {feed};"
    place.ends(UNFIT, text, "--create", "--feed", feed)
    if place.store.exists() or place.value("SELECT count(*) FROM pg_replication_slots") != "0":
        raise Failed("something was made")
    (Path(feed) / "0000000000000000").unlink()
    place.follow("--create", "--feed", feed)
    place.change()
    other = place.folder / "other"
    place.ends(UNFIT, "would leave a gap in it", "--feed", str(other))
    place.follow()
    if [len(list(commits(it))) for it in segments(Path(feed))] != [2]:
        raise Failed("it doesn't go on with its feed where none is named")
    place.follow("--without-feed")
    place.change()
    place.follow()
    place.ends(FILE, "NotAFeed", "--feed", feed)
    place.follow("--feed", str(other), "--without-feed")
    place.change()
    place.follow("--feed", str(other))
    if [len(list(commits(it))) for it in segments(other)] != [2]:
        raise Failed(f"the new feed has {[list(commits(it)) for it in segments(other)]}")
    place.equal()


def older_store(place: Place) -> None:
    """A store that was put back doesn't cost its feed the commits that it lacks: the right one goes
    on with it."""
    place.stock()
    words = ("--create", "--feed", str(feed_of(place)))
    place.follow(*words)
    older, right = place.folder / "older", place.folder / "right"
    shutil.copyfile(place.store, older)
    place.change()
    place.follow(*words)
    shutil.copyfile(place.store, right)
    before = [it.read_bytes() for it in segments(feed_of(place))]
    for log in (b"", b"a log that is none"):
        shutil.copyfile(older, place.store)
        place.beside(LOG).write_bytes(log)
        place.ends(UNFIT, "so this is an older one", *words)
        if [it.read_bytes() for it in segments(feed_of(place))] != before:
            raise Failed("the feed was cut")
    place.beside(LOG).unlink(missing_ok=True)
    shutil.copyfile(right, place.store)
    place.change()
    place.follow(*words)
    place.equal()


def kill_filter(child: Child) -> None:
    for pid in child.filters():
        with contextlib.suppress(ProcessLookupError):
            os.kill(pid, signal.SIGKILL)


def steady(number: int) -> tuple[str, ...]:
    """Changes that each burst has, whatever comes at random: of keys, of rows with a TOASTed value
    that isn't sent, and of equal rows."""
    first = 20000 + 100 * number
    ours = f"BETWEEN {first} AND {first + 99}"
    return (
        f"INSERT INTO keyed SELECT it, 'steady', NULL FROM generate_series({first}, {first + 99}) it",
        f"UPDATE keyed SET note = name || id WHERE id {ours}",
        f"UPDATE keyed SET id = id + 100000 WHERE id {ours} AND id % 7 = 0",
        f"DELETE FROM keyed WHERE id {ours} AND id % 5 = 0",
        f"INSERT INTO wide SELECT it, 'steady', repeat('0123456789', 500), it, NULL, now(), NULL, NULL FROM generate_series({first}, {first + 4}) it",
        f"UPDATE wide SET n = n + 1 WHERE id {ours}",
        f"UPDATE wide SET code = code || 'k' WHERE id {ours}",
        "INSERT INTO whole SELECT 'steady', 1, NULL FROM generate_series(1, 5) it",
        "UPDATE whole SET n = 2 WHERE ctid IN (SELECT ctid FROM whole WHERE word = 'steady' LIMIT 2)",
        "DELETE FROM whole WHERE ctid IN (SELECT ctid FROM whole WHERE word = 'steady' LIMIT 1)",
    )


def burst(place: Place, child: Child, number: int) -> None:
    """Makes changes of every kind for a second, in which the filter is killed. All is stored before
    this ends: the end of two filters in one transaction would be that of the follower."""
    place.run(*steady(number))
    workers = [Worker(place.cluster, f"feed {number} {it}", 0.1) for it in range(2)]
    for it in workers:
        it.start()
    try:
        time.sleep(0.2 + number % 4 * 0.2)
        kill_filter(child)
        time.sleep(0.3)
    finally:
        for it in workers:
            it.ended.set()
        for it in workers:
            it.join(60)
    end = place.cluster.log_end()
    wait_until(lambda: place.has_confirmed(end), f"confirming {end}", 120, child.check)


def under_load(place: Place, *more: str) -> None:
    """Makes changes of every kind, and kills the filter meanwhile: less often on a machine that is
    busy."""
    place.run(*SCHEMA, "CREATE PUBLICATION pgsub FOR ALL TABLES")
    log_changes(place.cluster, *LOGGED)
    child = place.start(
        "--create", "--feed", str(feed_of(place)), "--feed-segment-bytes", "50000", *more
    )
    place.catch_up(child)
    for number in range(max(2, round(8 / Patience.factor))):
        burst(place, child, number)
    place.run(*final_statements())
    place.catch_up(child)
    if more:
        now_in_tables(place)
    child.stop()


def every_change(place: Place) -> None:
    """With the filter killed, the feed leads to the publisher's rows, each commit once, with the
    rows that triggers saw before and after."""
    under_load(place)
    changes, images = equal_feed(place), check_images(feed_of(place), *LOGGED)
    if len(segments(feed_of(place))) < 3 or images < 500:
        raise Failed(
            f"too little was done: {changes} changes, {images} images, {len(segments(feed_of(place)))} segments"
        )
    place.equal()


def tables_under_load(place: Place) -> None:
    """With the filter killed, tables that follow have the publisher's rows."""
    under_load(place, "--tables", str(rows_file(place)))
    equal_tables(place)
    place.equal()


def confirmed_holds(place: Place) -> None:
    """`confirmed` reaches what was written beside a publication that has nothing, and the end of a
    run leaves it there."""
    place.stock()
    child = place.start("--create", "--feed", str(feed_of(place)))
    place.catch_up(child)
    end = place.value(
        "SELECT pg_current_wal_insert_lsn() FROM pg_logical_emit_message(true, '', '')"
    )
    confirmed = feed_of(place) / "confirmed"
    wait_until(
        lambda: confirmed.exists() and lsn_of(confirmed.read_text().strip()) >= lsn_of(end),
        "confirming it",
        20,
        child.check,
    )
    place.change()
    place.catch_up(child)
    child.stop()
    last = [commit["end"] for it in segments(feed_of(place)) for commit, _ in commits(it)][-1]
    if lsn_of(confirmed.read_text().strip()) < lsn_of(last):
        raise Failed(f"confirmed is {confirmed.read_text()}, and the last commit ends at {last}")


def from_a_base(place: Place) -> None:
    """A feed leads from the rows of a copy of the store to the publisher's, over an added table and
    one that is copied anew."""
    place.stock()
    place.run(
        "CREATE TABLE late (id int PRIMARY KEY, word text)",
        "INSERT INTO late SELECT it, 'word' FROM generate_series(1, 500) it",
    )
    child = place.start(
        "--create", "--feed", str(feed_of(place)), "--tables", str(rows_file(place))
    )
    place.catch_up(child)
    place.change()
    snapshot = place.folder / "snapshot.db"
    place.subcommand("snapshot", "--store", str(place.store), "--into", str(snapshot))
    base = base_of(place.cluster, place.options.program, snapshot, "pgsub", database=place.database)
    place.run("ALTER PUBLICATION pgsub ADD TABLE late")
    place.subcommand("add", "--dsn", place.dsn(), "--store", str(place.store), "--table", "late")
    place.run("UPDATE late SET word = 'other' WHERE id < 10")
    place.change()
    place.run("DELETE FROM late WHERE id > 400")
    place.subcommand("add", "--dsn", place.dsn(), "--store", str(place.store), "--table", "stock")
    place.change()
    place.catch_up(child)
    now_in_tables(place)
    rows, _ = rows_of_feed(feed_of(place), base)
    compare(rows_of_server(place.cluster, "pgsub", database=place.database), rows)
    equal_tables(place)
    child.stop()
    place.equal()


class Polling(threading.Thread):
    """Looks at the file of tables again and again."""

    def __init__(self, path: Path, look: Callable[[sqlite3.Connection], tuple[int, int]]) -> None:
        super().__init__(daemon=True)
        self.path, self.look = path, look
        self.ended, self.seen, self.wrong = threading.Event(), set[tuple[int, int]](), ""

    def run(self) -> None:
        while not self.ended.is_set() and not self.wrong:
            try:
                with reading(self.path) as base:
                    self.seen.add(self.look(base))
            except (Failed, sqlite3.Error) as error:
                self.wrong = str(error)
            self.ended.wait(0.01)


def whole_commits(place: Place) -> None:
    """Readers of the tables see whole commits alone and get no error, while filter, tables and
    follower are killed."""
    place.run(*ACCOUNTS)
    place.set(logical_decoding_work_mem="64kB")
    words = ("--create", "--tables", str(rows_file(place)))
    child = place.start(*words)
    place.catch_up(child)
    wait_until(rows_file(place).exists, "making the tables", check=child.check)
    polling, load = Polling(rows_file(place), check_whole), Moves(place, 0.03 * Patience.factor)
    load.thread.start()
    polling.start()
    try:
        for _ in range(3):
            time.sleep(1)
            kill_filter(child)
            time.sleep(1)
            kill_tables(child)
            time.sleep(1)
            child.kill()
            child = place.start(*words)
            child.wait_for("following slot")
        # (on a machine that is busy they are away for most of that)
        wait_until(
            lambda: len(polling.seen) >= 20 or bool(polling.wrong),
            "reading 20 states",
            check=child.check,
        )
    finally:
        load.ended.set()
        load.thread.join(60)
    place.catch_up(child)
    now_in_tables(place)
    polling.ended.set()
    polling.join(20)
    if polling.wrong:
        raise Failed(polling.wrong)
    if len(polling.seen) < 20 or max(count for _, count in polling.seen) < load.moves - 50:
        raise Failed(f"{len(polling.seen)} states were seen of {load.moves} moves")
    equal_tables(place)
    child.stop()
    place.equal()


def kill_tables(child: Child) -> None:
    """Kills what keeps the tables."""
    wait_until(lambda: bool(tables_of(child.process.pid)), "starting the tables", check=child.check)
    for pid in tables_of(child.process.pid):
        with contextlib.suppress(ProcessLookupError):
            os.kill(pid, signal.SIGKILL)


def old_segments_go(place: Place) -> None:
    """Segments go once the tables have them, a reader that is behind keeps them, and a feed that
    gets too large does without it."""
    place.run(
        "CREATE TABLE stock (sku int PRIMARY KEY, quantity text)",
        "CREATE PUBLICATION pgsub FOR TABLE stock",
    )
    words = ("--feed-segment-bytes", "20000", "--tables", str(rows_file(place)))
    child = place.start("--create", *words)
    place.catch_up(child)
    wait_until(rows_file(place).exists, "making the tables", check=child.check)
    fill = "INSERT INTO stock SELECT it, repeat('x', 500) FROM generate_series({0}, {0} + 99) it"
    for number in range(5):
        place.run(fill.format(number * 100))
    now_in_tables(place)
    wait_until(
        lambda: len(segments(feed_of(place))) < 3, "removing what all have read", 30, child.check
    )
    lsn = json.dumps(place.value("SELECT pg_current_wal_insert_lsn()")).strip('"')
    (feed_of(place) / "readers/slow").write_text(lsn)
    for number in range(5, 10):
        place.run(fill.format(number * 100))
    now_in_tables(place)
    time.sleep(12)
    if len(segments(feed_of(place))) < 5:
        raise Failed("segments went that a reader hadn't read")
    child.stop()
    child = place.start(*words, "--feed-max-bytes", "150000")
    child.wait_for("the reader slow hadn't read all of that", 30)
    place.catch_up(child)
    child.stop()
    if sum(it.stat().st_size for it in segments(feed_of(place))) > 250_000:
        raise Failed("the feed is too large")
    feed = [
        str(place.options.connect.parent / "pgsub-feed"),
        "--feed",
        str(feed_of(place)),
        "--from",
        lsn,
    ]
    done = subprocess.run(feed, capture_output=True, text=True, check=False)
    if done.returncode != UNFIT or "aren't in it" not in done.stderr:
        raise Failed(f"the reader that is behind got status {done.returncode}: {done.stderr}")


CASES = (
    Case("feed-one-command", one_command),
    Case("feed-until-now", until_now),
    Case("feed-waited-from-the-start", waited_from_the_start),
    Case("feed-refused", refused),
    Case("feed-older-store", older_store),
    Case("feed-of-every-change", every_change),
    Case("feed-tables-under-load", tables_under_load),
    Case("feed-confirmed", confirmed_holds),
    Case("feed-from-a-base", from_a_base),
    Case("feed-whole-commits", whole_commits),
    Case("feed-old-segments", old_segments_go),
)
