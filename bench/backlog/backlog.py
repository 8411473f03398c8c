"""How fast followers take a backlog of transactions, each beginning from a slot made before it, one
after the other in each turn.

The backlog is of pgbench's own script, at tables of pgbench's that have their rows in each copy
from the start, or of inserts. Time counts from the follower's start until it has told that all is
applied, and that all is on its disk. A subscription with synchronous_commit = off, the default,
tells the second some time after the first. At the end of each run the rows are compared with the
server's.
"""

from __future__ import annotations

import argparse
import statistics
import sys
from typing import Protocol

from following import Follower, Program, Servers, Subscription, parser_of, plain_table, started
from live_server.cluster import Cluster
from live_server.pgbench import place
from taking import Run, measured, processor_text, ratios

CLIENTS = 4


class Load(Protocol):
    """What the backlog is of."""

    name: str
    last: str

    def tables(self, cluster: Cluster, database: str) -> None:
        """Makes the tables."""

    def fill(self, servers: Servers) -> None:
        """Makes the rows that are there before."""

    def make(self, servers: Servers, transactions: int) -> int:
        """Makes transactions, and returns how many."""


class Script:
    """pgbench's own script."""

    last = "INSERT INTO pgbench_history VALUES (1, 1, 1, 0, now())"

    def __init__(self, scale: int) -> None:
        self.scale = scale
        self.name = f"pgbench's script at scale {scale}, of {CLIENTS} clients"

    def tables(self, cluster: Cluster, database: str) -> None:
        cluster.call("pgbench", "-i", "-I", "tp", *place(cluster, database))
        cluster.run("ALTER TABLE pgbench_history REPLICA IDENTITY FULL", database=database)

    def fill(self, servers: Servers) -> None:
        cluster = servers.publisher
        cluster.call("pgbench", "-i", "-q", "-I", "gv", "-s", str(self.scale), *place(cluster))

    def make(self, servers: Servers, transactions: int) -> int:
        cluster, each = servers.publisher, -(-transactions // CLIENTS)
        cluster.call(
            "pgbench", "-n", "-c", str(CLIENTS), "-j", "2", "-t", str(each), *place(cluster)
        )
        return CLIENTS * each


class Inserts:
    """Inserts of rows with four columns."""

    last = "INSERT INTO measured VALUES (0, '', '', '')"

    def __init__(self, size: int) -> None:
        self.size = size
        self.name = f"{size:,} inserts each"

    def tables(self, cluster: Cluster, database: str) -> None:
        plain_table(cluster, database)

    def fill(self, servers: Servers) -> None:
        """(None are there.)"""

    def make(self, servers: Servers, transactions: int) -> int:
        servers.session.run(
            f"DO $$ BEGIN FOR start IN 1 .. {transactions * self.size} BY {self.size} LOOP INSERT INTO measured"
            " SELECT it, 'text a ' || it, 'text b ' || it, 'text c ' || it"
            f" FROM generate_series(start, start + {self.size - 1}) it; COMMIT; END LOOP; END $$",
        )
        return transactions


def followers(servers: Servers, turn: int) -> list[Follower]:
    return [
        Subscription(servers, f"default_{turn}", synchronous=False),
        Subscription(servers, f"synchronous_{turn}", synchronous=True),
        Program(servers, f"version_1_{turn}", 1),
        Program(servers, f"version_2_{turn}", 2),
    ]


HEAD = """\
Seconds from the follower's start until the server has been told that all is applied, and that all is on the follower's disk;
transactions a second by the first; seconds of a processor of the stream until then, of what applies (the subscription's worker, the program),
of the connector, and of the server's process that sends. Medians; the ratios of two rates are of the same turn, and their median stands first.

| Follower | s, applied | s, on the disk | transactions/s | in each turn | of the default subscription's | of the synchronous one's | cpu s: applies | connector | sends |
|---|---|---|---|---|---|---|---|---|---|"""


def line(runs: list[Run], transactions: int, subscriptions: list[list[Run]]) -> str:
    """What the table says of a follower beside the subscriptions."""
    applied = statistics.median(it.applied for it in runs)
    durable = statistics.median(it.durable for it in runs)
    turns = ", ".join(f"{transactions / it.applied:,.0f}" for it in runs)
    beside = " | ".join(ratios(runs, it) for it in subscriptions)

    parts = (("worker", "filter"), ("connector",), ("walsender",))
    processor_of = " | ".join(processor_text(runs, *it) for it in parts)
    return f"{applied:.2f} | {durable:.2f} | {transactions / applied:,.0f} | {turns} | {beside} | {processor_of}"


def run(servers: Servers, load: Load, words: argparse.Namespace) -> None:
    load.fill(servers)
    turns = [followers(servers, turn) for turn in range(1, words.turns + 1)]
    servers.publisher.run("ALTER DATABASE shop SET synchronous_commit = off", database="postgres")
    # (the last one is by itself, so that its LSN is known)
    transactions = load.make(servers, words.transactions - 1) + 1
    end = servers.last_commit(load.last)
    runs: dict[str, list[Run]] = {}
    for turn in turns:
        for it in turn:
            runs.setdefault(it.name, []).append(measured(servers, it, end))
            print(f"{it.slot}: {runs[it.name][-1]}", file=sys.stderr, flush=True)
    version = servers.session.value("SHOW server_version")
    print(
        f"{transactions:,} transactions of {load.name}; PostgreSQL {version}; turns: {words.turns}.\n{HEAD}"
    )
    for name, taken in runs.items():
        print(f"| {name} | {line(taken, transactions, list(runs.values())[:2])} |")


def main() -> None:
    parser = parser_of(__doc__)
    add = parser.add_argument
    add(
        "--transactions",
        type=int,
        default=20000,
        metavar="N",
        help="how many transactions the backlog has (default: 20000)",
    )
    add(
        "--turns",
        type=int,
        default=3,
        metavar="N",
        help="how often each follower takes it (default: 3)",
    )
    add(
        "--scale",
        type=int,
        default=1,
        metavar="N",
        help="pgbench's scale, 100000 accounts each (default: 1)",
    )
    add(
        "--inserts",
        type=int,
        metavar="SIZE",
        help="inserts of SIZE rows a transaction in place of pgbench's script",
    )
    words = parser.parse_args()
    load: Load = Script(words.scale)
    if words.inserts:
        load = Inserts(words.inserts)
    with started(parser, words, load.tables) as servers:
        run(servers, load, words)


if __name__ == "__main__":
    main()
