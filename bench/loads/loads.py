"""How fast a backlog of each kind of change is taken, by the default subscription and by pgsub.

Time counts as in `backlog`: from the follower's start until it has told that all is applied. Each
load has two servers of its own, and is followed from slots made before it, one follower after the
other in each turn; at the end of each run the rows are compared with the server's.
"""

from __future__ import annotations

import argparse
import statistics
import sys

from following import Follower, Program, Servers, Subscription, parser_of, started
from kinds import KINDS, Kind
from live_server.cluster import Cluster
from taking import Run, busiest, measured, processor_text, ratios

HEAD = """\
Changes a second from the follower's start until the server has been told that all is applied; how many times the default subscription's rate
that is, the median and each turn; seconds until it streams; from then on seconds of a processor: of the worker, of the program (filter), of the
connector, and of the server's process that sends to each of the two; and which of pgsub's three processes had a processor for the largest part
of that time. That one bounds it where the part is nearly all; else the disk does, or one waits for the other. Medians.

| Load | Changes | subscription | pgsub | of the subscription's | s, starts: subscription | pgsub | cpu s: worker | filter | connector | sends | sends | busiest |
|---|---|---|---|---|---|---|---|---|---|---|---|---|"""


def followers(servers: Servers, turn: int, proto: int, has_rows: bool) -> list[Follower]:
    return [
        Subscription(servers, f"default_{turn}", synchronous=False, has_rows=has_rows),
        Program(servers, f"pgsub_{turn}", proto),
    ]


def line(kind: Kind, subscription: list[Run], program: list[Run]) -> str:
    """What the table says of a load."""
    both = (subscription, program)
    rates = (kind.changes / statistics.median(it.applied for it in runs) for runs in both)
    starts = (statistics.median(it.streams for it in runs) for runs in both)
    cells = [
        kind.name,
        f"{kind.changes:,}",
        *(f"{it:,.0f}" for it in rates),
        ratios(program, subscription),
        *(f"{it:.2f}" for it in starts),
        processor_text(subscription, "worker"),
        *(processor_text(program, it) for it in ("filter", "connector")),
        *(processor_text(runs, "walsender") for runs in both),
        busiest(program),
    ]
    return f"| {' | '.join(cells)} |"


def run(servers: Servers, kind: Kind, words: argparse.Namespace) -> None:
    servers.session.run(*kind.fill)
    turns = [
        followers(servers, turn, words.proto, bool(kind.fill)) for turn in range(1, words.turns + 1)
    ]
    servers.publisher.run("ALTER DATABASE shop SET synchronous_commit = off", database="postgres")
    servers.session.run(*kind.make)
    end = servers.last_commit(kind.last)
    runs: list[list[Run]] = [[], []]
    for turn in turns:
        for taken, it in zip(runs, turn):
            taken.append(measured(servers, it, end))
            print(f"{kind.name}, {it.slot}: {taken[-1]}", file=sys.stderr, flush=True)
    print(line(kind, *runs), flush=True)


def main() -> None:
    parser = parser_of(__doc__)
    add = parser.add_argument
    add(
        "--rows",
        type=int,
        metavar="N",
        help="how many changes each load has (default: 5,000 to 5,000,000, by the load)",
    )
    add("--turns", type=int, default=5, metavar="N", help="how often each takes it (default: 5)")
    add("--only", default="", metavar="WORD", help="only loads whose name has this word")
    add("--proto", type=int, choices=(1, 2), help="the version of pgsub (default: the newest)")
    words = parser.parse_args()
    chosen = [it for it in KINDS if words.only in it.name]
    if not chosen:
        parser.error(f"no load has {words.only} in its name")
    for at, load in enumerate(chosen):
        kind = load.sized(words.rows)

        def tables(cluster: Cluster, database: str, made: Kind = kind) -> None:
            cluster.run(*made.tables, database=database)

        with started(parser, words, tables) as servers:
            words.proto = words.proto or (2 if servers.streams() else 1)
            if at == 0:
                version = servers.session.value("SHOW server_version")
                about = f"version {words.proto} of the protocol; turns: {words.turns}"
                print(f"PostgreSQL {version}; {about}.\n{HEAD}", flush=True)
            run(servers, kind, words)


if __name__ == "__main__":
    main()
