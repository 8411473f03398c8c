"""Whether the tables of a follower keep up with pgbench's full rate, and how long it takes from a
commit of the server to a SELECT."""

from __future__ import annotations

import argparse
import contextlib
import re
import sqlite3
import statistics
import subprocess
import time

from following import LIMIT, STEP, Program, Servers, parser_of, plain_table, started
from live_server.cluster import Cluster
from live_server.errors import Failed
from live_server.feeds import compare_tables
from live_server.follower import wait_until
from live_server.pgbench import place

SCALE, CLIENTS = 10, 4
COMMITS = 100
# seconds between two commits
PAUSES = (0.02, 0.5)


def tables_of_pgbench(cluster: Cluster, database: str) -> None:
    plain_table(cluster, database)
    if database == "shop":
        cluster.call("pgbench", "-i", "-q", "-s", str(SCALE), *place(cluster, database))
        cluster.run("ALTER TABLE pgbench_history REPLICA IDENTITY FULL", database=database)


class WithTables(Program):
    """A follower with a feed and tables."""

    def __init__(self, servers: Servers, slot: str, proto: int) -> None:
        self.path = servers.options.folder / f"{slot}.rows"
        super().__init__(servers, slot, proto, "--tables", str(self.path))
        self.name += ", feed and tables"

    def copy(self) -> None:
        super().copy()
        wait_until(self.path.exists, f"{self.slot}: making the tables", LIMIT, self.check)

    def position(self) -> int:
        with contextlib.closing(
            sqlite3.connect(f"file:{self.path}?mode=ro", uri=True, timeout=30)
        ) as base:
            return lsn_of(base.execute("SELECT lsn FROM pgsub_position").fetchone()[0])


def lsn_of(text: str) -> int:
    high, low = text.split("/")
    return (int(high, 16) << 32) + int(low, 16)


class PgBench:
    """pgbench at its full rate. What it says comes at the end."""

    def __init__(self, servers: Servers, seconds: int) -> None:
        more = ["-n", "-c", str(CLIENTS), "-j", "2", "-M", "prepared", "-T", str(seconds)]
        words = servers.publisher.installed.words("pgbench", *more, *place(servers.publisher))
        self.process = subprocess.Popen(
            words,
            cwd="/",
            stdin=subprocess.DEVNULL,
            stdout=subprocess.PIPE,
            stderr=subprocess.STDOUT,
            text=True,
        )

    def rate(self) -> float:
        said, _ = self.process.communicate()
        found = re.search(r"^tps = ([0-9.]+)", said, re.M)
        if not found:
            raise Failed(f"pgbench said: {said}")
        return float(found[1])


def reached(servers: Servers, follower: Program) -> int:
    """The LSN up to which a follower has all: its store, or its tables."""
    if isinstance(follower, WithTables):
        return follower.position()
    query = (
        f"SELECT confirmed_flush_lsn FROM pg_replication_slots WHERE slot_name = '{follower.slot}'"
    )
    return lsn_of(servers.session.value(query))


def wait_for_all(servers: Servers, follower: Program) -> None:
    """Waits until a follower has all that the server has now."""
    row = time.time_ns()
    last = servers.last_commit(f"INSERT INTO measured VALUES ({row}, 'a', 'b', 'c')")
    wait_until(
        lambda: reached(servers, follower) > lsn_of(last),
        f"{follower.slot}: reaching {last}",
        LIMIT,
        follower.check,
        STEP,
    )


def under_load(servers: Servers, follower: Program, seconds: int) -> str:
    """Lets pgbench run, and the follower catch up. Returns a line of the table."""
    servers.rest()
    follower.start()
    # (what the load of another one has left)
    wait_for_all(servers, follower)
    behind: list[int] = []
    load = PgBench(servers, seconds)
    while load.process.poll() is None:
        time.sleep(0.2)
        end = lsn_of(servers.session.value("SELECT pg_current_wal_flush_lsn()"))
        behind.append(max(end - reached(servers, follower), 0))
    rate = load.rate()
    began = time.monotonic()
    wait_for_all(servers, follower)
    took = time.monotonic() - began
    return f"| {follower.name} | {rate:,.0f} | {statistics.mean(behind) / 1000:,.0f} | {max(behind) / 1000:,.0f} | {took:.2f} |"


def lags(servers: Servers, follower: WithTables, pause: float) -> list[float]:
    """The seconds from each commit of a row until a SELECT sees it."""
    with contextlib.closing(
        sqlite3.connect(follower.path, timeout=30, isolation_level=None)
    ) as base:
        return [lag(servers, base, pause) for _ in range(COMMITS)]


def lag(servers: Servers, base: sqlite3.Connection, pause: float) -> float:
    time.sleep(pause)
    row = time.time_ns()
    servers.session.run(f"INSERT INTO measured VALUES ({row}, 'a', 'b', 'c')")
    began = time.monotonic()
    while base.execute("SELECT 1 FROM measured WHERE id = ?", (row,)).fetchone() is None:
        time.sleep(STEP / 4)
    return time.monotonic() - began


def run(servers: Servers, words: argparse.Namespace) -> None:
    print(
        f"pgbench, scale {SCALE}, {CLIENTS} clients, {words.seconds} seconds; PostgreSQL {servers.session.value('SHOW server_version')}.\n"
    )
    print(
        "| Follower | Transactions a second | kB behind, mean | greatest | s to catch up |\n|---|---|---|---|---|",
        flush=True,
    )
    store, tables = Program(servers, "store", words.proto), WithTables(
        servers, "tables", words.proto
    )
    print(under_load(servers, store, words.seconds), flush=True)
    store.stop()
    print(under_load(servers, tables, words.seconds), flush=True)
    print(
        "\n| A commit each | Until a SELECT sees it, ms: median | Of 20 one takes longer than |\n|---|---|---|"
    )
    for pause in PAUSES:
        found = sorted(lags(servers, tables, pause))
        print(
            f"| {1000 * pause:.0f} ms | {1000 * statistics.median(found):.1f} | {1000 * found[-len(found) // 20]:.1f} |",
            flush=True,
        )
    tables.stop()
    servers.compare(tables)
    compare_tables(servers.publisher, tables.path, "pgsub")


def main() -> None:
    parser = parser_of(__doc__ or "")
    parser.add_argument(
        "--seconds",
        type=int,
        default=30,
        metavar="N",
        help="how long pgbench runs each time (default: 30)",
    )
    parser.add_argument(
        "--proto",
        type=int,
        choices=(1, 2),
        default=2,
        help="the version of the protocol of pgsub (default: 2)",
    )
    words = parser.parse_args()
    with started(parser, words, tables_of_pgbench) as servers:
        run(servers, words)


if __name__ == "__main__":
    main()
