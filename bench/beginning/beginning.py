"""How long a new copy of five tables takes until it is followed, and until its rows can be asked in
the tables of SQLite."""

from __future__ import annotations

import argparse
import contextlib
import sqlite3
import time

from following import LIMIT, PUBLICATION, STEP, Servers, parser_of, started
from live_server.child import Child
from live_server.cluster import Cluster
from live_server.errors import Failed
from live_server.feeds import compare_tables
from live_server.follower import wait_until

TABLES = tuple(f"goods{it}" for it in range(5))
# By how much of the time until it is followed the first SELECT may come later.
PART = 0.1


def make_tables(cluster: Cluster, database: str) -> None:
    for it in TABLES:
        cluster.run(
            f"CREATE TABLE {it} (id int PRIMARY KEY, name text, price numeric(10, 2), made timestamptz)",
            database=database,
        )


def fill(servers: Servers, rows: int) -> None:
    for it in TABLES:
        servers.publisher.run(
            f"INSERT INTO {it} SELECT n, 'name of ' || n, n / 4.0, timestamptz '2026-01-01' + n * interval '1 s'"
            f" FROM generate_series(1, {rows // len(TABLES)}) n"
        )


class Copy:
    """A copy with tables, and when it got so far."""

    def __init__(self, servers: Servers, number: int, proto: int) -> None:
        self.slot, folder = f"copy{number}", servers.options.folder
        self.path = folder / f"{self.slot}.rows"
        words = servers.options.words(
            servers.publisher.dsn(),
            folder / f"{self.slot}.db",
            *("--slot", self.slot, "--proto", str(proto), "--tables", str(self.path), "--create"),
        )
        servers.rest()
        self.began = time.monotonic()
        self.child: Child = servers.child(self.slot, words)

    def followed(self) -> float:
        """The seconds until it follows."""
        self.child.wait_for("following slot", LIMIT)
        return time.monotonic() - self.began

    def counted(self, rows: int) -> float:
        """The seconds until a SELECT counts all rows."""
        wait_until(lambda: self.count() == rows, "the first SELECT", LIMIT, self.child.check, STEP)
        return time.monotonic() - self.began

    def count(self) -> int:
        with contextlib.suppress(sqlite3.OperationalError):
            address = f"file:{self.path}?mode=ro"
            with contextlib.closing(sqlite3.connect(address, uri=True, timeout=30)) as base:
                counts = (f"(SELECT count(*) FROM {it})" for it in TABLES)
                return int(base.execute(f"SELECT {' + '.join(counts)}").fetchone()[0])
        return 0


def run(servers: Servers, words: argparse.Namespace) -> None:
    rows = words.rows // len(TABLES) * len(TABLES)
    fill(servers, rows)
    version = servers.session.value("SHOW server_version")
    print(f"{rows:,} rows in five tables; PostgreSQL {version}.\n")
    print("| Copy | s until it follows | s until a SELECT | later by |\n|---|---|---|---|")
    late = 0
    for number in range(1, words.runs + 1):
        copy = Copy(servers, number, words.proto)
        followed, counted = copy.followed(), copy.counted(rows)
        part = counted / followed - 1
        print(f"| {number} | {followed:.1f} | {counted:.1f} | {100 * part:.0f} % |", flush=True)
        late += part > PART
        copy.child.stop(within=LIMIT)
        compare_tables(servers.publisher, copy.path, PUBLICATION)
    if late:
        raise Failed(f"{late} of {words.runs} copies could be asked more than a tenth later")


def main() -> None:
    parser = parser_of(__doc__ or "")
    add = parser.add_argument
    add("--rows", type=int, default=1400000, metavar="N", help="how many rows (default: 1400000)")
    add("--runs", type=int, default=3, metavar="N", help="how many copies are made (default: 3)")
    add(
        "--proto",
        type=int,
        choices=(1, 2),
        default=2,
        help="the version of the protocol (default: 2)",
    )
    words = parser.parse_args()
    with started(parser, words, make_tables) as servers:
        run(servers, words)


if __name__ == "__main__":
    main()
