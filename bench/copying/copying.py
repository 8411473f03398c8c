"""How long the first copy of tables takes, one way after the other in each turn.

COPY to a file and pg_dump only read the rows and write them as text. A subscription and
`pgsub-connect follow --create` also make a slot, and go on from it; theirs is the time until each
table is copied and the stream begins. At the end of each the rows are compared with the server's.
Of pgsub the most memory is told that connector and programs had, looked at ten times a second.
"""

from __future__ import annotations

import argparse
import contextlib
import statistics
import sys
import time
from collections.abc import Callable
from pathlib import Path
from typing import NamedTuple

from following import Program, Servers, Subscription, parser_of, started
from live_server.cluster import Cluster
from live_server.follower import wait_until
from live_server.pgbench import place

LOOK = 0.1


class Run(NamedTuple):
    """The seconds of a copy, and of pgsub's the most bytes of memory of the connector and of the
    program."""

    seconds: float
    connector: int = 0
    program: int = 0


class Shape(NamedTuple):
    """What the rows of a table are: its key's type, the key as a term of `it`, which rises, and how
    many texts of some ten characters there are beside it."""

    type: str
    key: str
    texts: int


SHAPES = {
    "rising": Shape("bigint", "it", 3),
    "random": Shape("text", "md5(it::text)", 3),
    "wide": Shape("bigint", "it", 49),
}


class Tables:
    """Tables of one shape."""

    def __init__(self, count: int, rows: int, shape: Shape) -> None:
        self.names, self.rows = [f"copied_{it}" for it in range(1, count + 1)], rows
        self.shape = shape
        self.texts = [f"text_{at}" for at in range(1, shape.texts + 1)]

    def make(self, cluster: Cluster, database: str) -> None:
        texts = ", ".join(f"{it} text" for it in self.texts)
        cluster.run(
            *(
                f"CREATE TABLE {it} (id {self.shape.type} PRIMARY KEY, {texts})"
                for it in self.names
            ),
            database=database,
        )

    def fill(self, servers: Servers) -> None:
        texts = ", ".join(f"'text {at} ' || it % 100000" for at in range(1, len(self.texts) + 1))
        for it in self.names:
            servers.session.run(
                f"INSERT INTO {it} SELECT {self.shape.key}, {texts}"
                f" FROM generate_series(1, {self.rows}) it",
                f"ANALYZE {it}",
            )

    def bytes(self, servers: Servers) -> int:
        """What COPY writes of them: a tab or a line feed after each value, too."""
        names = ["id", *self.texts]
        lengths = " + ".join([*(f"length({it}::text)" for it in names), str(len(names))])
        return sum(
            int(servers.session.value(f"SELECT sum({lengths}) FROM {it}")) for it in self.names
        )


def peak(pid: int) -> int:
    """The most memory that a process had, in bytes, or 0 where it has ended."""
    with contextlib.suppress(OSError):
        for line in Path(f"/proc/{pid}/status").read_text(encoding="ascii").splitlines():
            if line.startswith("VmHWM:"):
                return 1024 * int(line.split()[1])
    return 0


class Timed(Subscription):
    """A subscription, whose copy is timed."""

    def copy(self, commit: str) -> None:
        began = time.monotonic()
        super().copy(commit)
        self.run = Run(time.monotonic() - began)


class Watched(Program):
    """pgsub, whose copy is timed, and its memory looked at meanwhile."""

    def copy(self) -> None:
        self.connector = self.program = 0
        began = time.monotonic()
        wait_until(self.has_copied, f"{self.slot}: the copy", 3600, self.check, LOOK)
        self.run = Run(time.monotonic() - began, self.connector, self.program)

    def has_copied(self) -> bool:
        self.connector = max(self.connector, peak(self.child.process.pid))
        self.program = max([self.program, *map(peak, self.child.filters())])
        return "following slot" in self.child.said()


def copy_to_files(servers: Servers, tables: Tables, turn: int) -> Run:
    """COPY of each table to a file, by the server."""
    cluster = servers.publisher
    began = time.monotonic()
    for it in tables.names:
        servers.session.run(
            f"COPY {it} TO '{cluster.installed.inside(cluster.folder)}/{it}_{turn}.txt'"
        )
    return Run(time.monotonic() - began)


def dump(servers: Servers, tables: Tables, turn: int) -> Run:
    """pg_dump of the tables' rows."""
    cluster = servers.publisher
    began = time.monotonic()
    cluster.call(
        "pg_dump",
        "-a",
        "-f",
        f"{cluster.installed.inside(cluster.folder)}/dump_{turn}.sql",
        *place(cluster),
    )
    return Run(time.monotonic() - began)


def subscription(servers: Servers, tables: Tables, turn: int) -> Run:
    it = Timed(servers, f"subscription_{turn}", synchronous=False)
    servers.compare(it)
    return it.run


def pgsub(servers: Servers, tables: Tables, turn: int) -> Run:
    it = Watched(servers, f"pgsub_{turn}", 2)
    servers.compare(it)
    it.store.unlink()
    return it.run


WAYS: dict[str, Callable[[Servers, Tables, int], Run]] = {
    "COPY to files": copy_to_files,
    "pg_dump": dump,
    "subscription": subscription,
    "pgsub": pgsub,
}


def line(name: str, runs: list[Run], rows: int, size: int) -> str:
    """What the table says of a way."""
    seconds = statistics.median(it.seconds for it in runs)
    turns = ", ".join(f"{it.seconds:.1f}" for it in runs)
    memory = [max(it.connector for it in runs), max(it.program for it in runs)]
    shown = " | ".join(f"{it / 1e6:.0f} MB" if it else "" for it in memory)
    return f"| {name} | {seconds:.1f} | {turns} | {rows / seconds:,.0f} | {size / seconds / 1e6:.1f} | {shown} |"


def run(servers: Servers, tables: Tables, words: argparse.Namespace) -> None:
    tables.fill(servers)
    runs: dict[str, list[Run]] = {name: [] for name in WAYS}
    for turn in range(1, words.turns + 1):
        for name, way in WAYS.items():
            servers.rest()
            runs[name].append(way(servers, tables, turn))
            print(f"{name}: {runs[name][-1]}", file=sys.stderr, flush=True)
    rows, size = len(tables.names) * tables.rows, tables.bytes(servers)
    version = servers.session.value("SHOW server_version")
    print(
        f"{rows:,} rows in {len(tables.names)} {'table' if len(tables.names) == 1 else 'tables'}, {words.shape}, {size / 1e6:.0f} MB as COPY has them; PostgreSQL {version}; turns: {words.turns}.\n\n"
        "| Copy | seconds, median | in each turn | rows/s | MB/s | memory: connector | program |\n|---|---|---|---|---|---|---|",
    )
    for name, taken in runs.items():
        print(line(name, taken, rows, size))


def main() -> None:
    parser = parser_of(__doc__)
    add = parser.add_argument
    add(
        "--rows",
        type=int,
        default=500000,
        metavar="N",
        help="how many rows each table has (default: 500000)",
    )
    add("--tables", type=int, default=4, metavar="N", help="how many tables there are (default: 4)")
    add(
        "--shape",
        choices=SHAPES,
        default="rising",
        help="rising keys, random ones, or fifty columns with rising keys (default: rising)",
    )
    add("--turns", type=int, default=3, metavar="N", help="how often each takes them (default: 3)")
    words = parser.parse_args()
    tables = Tables(words.tables, words.rows, SHAPES[words.shape])
    with started(parser, words, tables.make) as servers:
        run(servers, tables, words)


if __name__ == "__main__":
    main()
