"""A server under load, and a follower of which parts are killed. At the end the copy has to hold
just the publisher's rows.

After each kill of what writes the store SQLite has to find its file sound.
"""

from __future__ import annotations

import collections
import contextlib
import copy
import random
import subprocess
import time
from collections.abc import Callable, Sequence
from pathlib import Path
from typing import Protocol

import psycopg
from feed_replay import Replay

from .cluster import Cluster
from .errors import Failed
from .feeds import (
    Reader,
    Unlike,
    base_of,
    check_images,
    compare_tables,
    explained,
    log_changes,
    rows_of_feed,
    segments,
)
from .follower import Supervisor, checkpoint_of, is_adding, is_confirmed, wait_until
from .load import LOGGED, SCHEMA, Mixed
from .options import Options
from .rows import Rows, check_file, compare, rows_of_server, rows_of_store
from .sessions import Session

SLOT = "pgsub"
VICTIMS = ("filter", "filter", "connector", "connector", "server", "session", "connection")
FED_VICTIMS = (*VICTIMS, "tables", "tables")
# All connections of the connector.
CONNECTIONS = f"SELECT pid FROM pg_stat_activity WHERE application_name LIKE '{SLOT}%' ORDER BY pid"
# The tables whose rows are read, for the first copy or because they are added.
READING = (
    "SELECT DISTINCT c.relname FROM pg_stat_activity a JOIN pg_locks l USING (pid) JOIN pg_class c ON c.oid = l.relation"
    f" WHERE a.application_name LIKE '{SLOT} %' AND a.query LIKE 'COPY %' AND a.state = 'active' AND c.relkind IN ('r', 'p')"
    " AND c.relnamespace <> 'pg_catalog'::regnamespace"
)


class Load(Protocol):
    """What runs at a server meanwhile."""

    def begin(self) -> None:
        """Starts it."""

    def end(self) -> int:
        """Ends it. Returns how many transactions were committed."""


class Run:
    """One server with its load and its follower."""

    def __init__(self, options: Options, proto: int, load: Callable[[Cluster], Load]) -> None:
        self.options, self.proto = options, proto
        self.rng = random.Random(f"kills {options.seed} {proto}")
        self.cluster = Cluster(options.installed, options.folder)
        self.cluster.start()
        self.cluster.run("CREATE DATABASE shop", database="postgres")
        self.load = load(self.cluster)
        self.store = options.folder / f"{self.cluster.folder.name}.db"
        words = options.words(self.cluster.dsn(), self.store, "--create", "--proto", str(proto))
        words += [
            "--status-file",
            f"{self.store}.status",
            "--jobs",
            str(self.rng.choice((1, 2, 4))),
        ]
        self.fed = Fed(self) if options.feed else None
        words += self.fed.words() if self.fed else []
        self.victims = FED_VICTIMS if self.fed else VICTIMS
        self.supervisor = Supervisor(words, Path(f"{self.store}.log"))
        self.counts = dict.fromkeys(self.victims, 0)
        self.looks = 0

    def kill(self, victim: str) -> bool:
        """Kills one of the parts. Returns whether it was there."""
        if victim == "filter":
            there = self.supervisor.kill_filter(self.look)
        elif victim == "tables":
            there = self.supervisor.kill_tables()
        elif victim == "connector":
            there = self.supervisor.kill_connector(self.look)
        elif victim == "session":
            ended = "SELECT count(pg_terminate_backend(active_pid)) FROM pg_replication_slots WHERE active"
            there = self.cluster.value(ended) != "0"
        elif victim == "connection":
            there = self.end_connection()
        else:
            there = True
            self.cluster.stop(self.rng.choice(("immediate", "immediate", "fast")))
            time.sleep(self.rng.uniform(0, 1))
            self.cluster.start()
        self.counts[victim] += there
        return there

    def look(self) -> None:
        """Fails where the store's file isn't sound."""
        check_file(self.store)
        self.looks += self.store.exists()

    def end_connection(self) -> bool:
        """Ends one of the connector's connections. Returns whether one was there."""
        with self.cluster.connect() as session:
            found = session.column(CONNECTIONS)
            return (
                bool(found)
                and session.value(f"SELECT pg_terminate_backend({self.rng.choice(found)})") == "t"
            )

    def kill_often(self, kills: int) -> None:
        for _ in range(kills):
            # often just after the last one, and often once all is running again
            time.sleep(self.rng.choice((0.1, 0.5, 1.5, 3.0, 5.0)) * self.rng.random())
            victim = self.rng.choice(self.victims)
            wait_until(lambda victim=victim: self.kill(victim), f"finding a {victim} that runs", 60, self.supervisor.check)  # type: ignore[misc]

    def kill_copying(self, kills: int, tables: Sequence[str]) -> str:
        """Kills something so often while rows are copied, and in the midst of each of these tables.
        Returns where."""
        done, hit = 0, collections.Counter[str]()
        while (done < kills or not all(hit[it] for it in tables)) and is_adding(self.store):
            self.supervisor.check()
            with contextlib.suppress(psycopg.Error), self.cluster.connect() as session:
                done += self.kill_reading(session, [it for it in tables if not hit[it]], hit)
        if not done or not all(hit[it] for it in tables):
            raise Failed(
                f"all was copied before something was killed in the midst of each table ({dict(hit)}): there were too few rows"
            )
        return ", ".join(f"{count} in {name}" for name, count in hit.items())

    def kill_reading(
        self, session: Session, tables: Sequence[str], hit: collections.Counter[str]
    ) -> bool:
        """Waits until one of some tables is read, or any where none is left, and kills something.
        Returns whether that was there."""
        while not is_read(session.column(READING), tables):
            self.supervisor.check()
            if not is_adding(self.store):
                return False
            time.sleep(0.005)
        time.sleep(self.rng.choice((0.0, 0.03, 0.3)) * self.rng.random())
        found = session.column(READING)
        if not found or not self.kill(self.rng.choice(VICTIMS)):
            return False
        hit.update(found)
        return True

    def begin(self) -> None:
        """Starts load and follower."""
        self.load.begin()
        self.supervisor.begin()

    def wait_copied(self, seconds: float) -> None:
        """Waits until the rows of all tables have come."""
        wait_until(
            lambda: not is_adding(self.store), "copying all tables", seconds, self.supervisor.check
        )
        if self.fed:
            self.fed.take_base()

    def wait_for(self, lsn: str, seconds: float, what: str) -> None:
        wait_until(
            lambda: is_confirmed(self.cluster, SLOT, lsn), what, seconds, self.supervisor.check
        )

    def compare(self) -> str:
        """Waits until everything is confirmed, ends the connector, and compares. Returns what there
        is to say."""
        end, began = self.cluster.log_end(), time.monotonic()
        self.cluster.run("SELECT pg_logical_emit_message(true, 'live', 'end')")
        self.wait_for(end, 600, f"confirming {end}")
        waited = time.monotonic() - began
        if self.fed:
            self.fed.wait(end)
        self.supervisor.finish()
        rows, position = rows_of_store(self.options.program, self.store)
        count = compare(rows_of_server(self.cluster, "pgsub"), rows)
        self.check_left()
        fed = self.fed.compare() if self.fed else ""
        return f"{count} rows at {position}, caught up in {waited:.1f} s, a sound file after {self.looks} kills{fed}"

    def check_left(self) -> None:
        """Fails where a copy has left a slot, or changes found no row."""
        slots = "SELECT string_agg(slot_name, ' ') FROM pg_replication_slots"
        wait_until(lambda: self.cluster.value(slots) == SLOT, "dropping the temporary slots", 60)
        if missed := checkpoint_of(self.store)[1].get("count"):
            raise Failed(f"{missed} changes found no row: {checkpoint_of(self.store)}")

    def close(self) -> None:
        self.supervisor.kill()
        self.load.end()
        self.cluster.remove()


class Fed:
    """What a run with a feed has more, and what is compared of it."""

    def __init__(self, run: Run) -> None:
        self.run, self.feed = run, Path(f"{run.store}.feed")
        self.rows, self.snapshot = Path(f"{run.store}.rows"), Path(f"{run.store}.snapshot")
        self.reader = Reader(self.rows)
        self.logged: tuple[str, ...] = ()
        self.checked: set[int] = set()

    def words(self) -> list[str]:
        # (the segments that the tables have read stay, too, to be replayed)
        return [
            "--tables",
            str(self.rows),
            "--feed-segment-bytes",
            "1000000",
            "--feed-max-age",
            "1d",
        ]

    def call(self, *words: str | Path) -> None:
        """Runs a subcommand to its end, which has to be well."""
        done = subprocess.run(
            [self.run.options.connect, *words], capture_output=True, text=True, check=False
        )
        if done.returncode:
            raise Failed(f"{words[0]}: status {done.returncode}: {done.stderr}")

    def take_base(self) -> None:
        """Copies the rows from which the feed is replayed at the end."""
        self.call("snapshot", "--store", self.run.store, "--into", self.snapshot)
        self.base = base_of(self.run.cluster, self.run.options.program, self.snapshot, "pgsub")
        self.reader.start()

    def wait(self, end: str) -> None:
        wait_until(self.rows.exists, "making the tables", 120, self.run.supervisor.check)
        self.call("wait", end, "--tables", self.rows, "--within", "300")

    def compare(self) -> str:
        """Compares the feed, the tables, and what a reader has seen of them, with the server.
        Returns what there is to say."""
        self.reader.finish()
        # (a table that was truncated while its slot was made is copied by itself, and the commits
        # before that lack its changes)
        above = self.base.at if self.base else 0
        seen = {it for it in self.reader.seen if it >= above}
        rows, state = self.replay()
        compare(rows_of_server(self.run.cluster, "pgsub"), rows)
        # (an altered table may have come anew while the follower ended)
        self.call("tables", "--feed", self.feed, "--into", self.rows, "--once")
        count, images = compare_tables(self.run.cluster, self.rows, "pgsub"), check_images(
            self.feed, *self.logged, above=above
        )
        if left := seen - self.checked or not seen:
            raise Failed(
                f"a reader saw {len(seen)} states, and no commit ends where these do: {left}"
            )
        read = f"{len(seen)} states of them read"
        return f"; a feed of {len(segments(self.feed))} segments, {state.changes} changes replayed, {images} images, {count} rows in tables, {read}"

    def replay(self) -> tuple[Rows, Replay]:
        base = copy.deepcopy(self.base)
        try:
            return rows_of_feed(self.feed, self.base, self.look)
        except Unlike as unlike:
            raise Failed(f"{unlike}; {explained(self.feed, base, unlike)}") from None

    def look(self, state: Replay) -> None:
        try:
            self.reader.check(state)
        except Failed as failed:
            # (a table that was set aside has no rows there, and may be back by now)
            asides = self.run.supervisor.said("is set aside")
            raise Failed("\n".join((str(failed), *asides))) from None
        self.checked.add(state.at)


def is_read(found: Sequence[str], tables: Sequence[str]) -> bool:
    """Whether any of some tables is among those that are read, or any at all where there are
    none."""
    return bool(found) and (not tables or not set(tables).isdisjoint(found))


def killed(run: Run, copying: int, tables: Sequence[str], before_kills: Callable[[], None]) -> str:
    """Starts, kills parts while rows are copied and afterwards, and compares. `tables`: in the copy
    of each something is killed."""
    try:
        run.begin()
        while_copying = run.kill_copying(copying, tables) if copying else "none"
        run.wait_copied(300)
        before_kills()
        run.kill_often(run.options.kills)
        committed = run.load.end()
        said = run.compare()
    finally:
        run.close()
    kills = ", ".join(f"{count} {name}" for name, count in run.counts.items())
    return f"{said}; {committed} transactions, killed {kills} (while copying: {while_copying}), {run.supervisor.starts} starts"


def mixed(options: Options, proto: int) -> tuple[Run, Mixed]:
    """A run with the load that has transactions of every kind."""
    loads: list[Mixed] = []

    def load(cluster: Cluster) -> Mixed:
        cluster.run(*SCHEMA, "CREATE PUBLICATION pgsub FOR ALL TABLES")
        if options.feed:
            log_changes(cluster, *LOGGED)
        loads.append(Mixed(cluster, f"{options.seed} {proto}", options.workers, options.pause))
        return loads[0]

    run = Run(options, proto, load)
    if run.fed:
        run.fed.logged = LOGGED
    return run, loads[0]


def follow(options: Options, proto: int) -> str:
    """The whole of it, in one version of the protocol."""
    run, load = mixed(options, proto)
    load.truncate(not options.before)
    if options.before:
        load.fill(options.rows)
    return killed(run, 4 if options.before else 0, (), lambda: load.truncate(True))
