"""How long a commit of one row takes that waits for a follower (synchronous_standby_names), one
follower after the other in each turn.

Only the follower that is waited for runs, and has all that was before. A subscription with
synchronous_commit = off isn't among them: it tells what is on its disk some tenths of a second
later. At the end the rows of each are compared with the server's.
"""

from __future__ import annotations

import argparse
import statistics
import sys
import time

from following import LIMIT, Follower, Program, Servers, Subscription, measure, parser_of
from live_server.follower import wait_until

INSERT = "INSERT INTO measured VALUES ({}, 'a', 'b', 'c')"
NOBODY = "nobody"


class Commits:
    """The commits at the server."""

    def __init__(self, servers: Servers, count: int, level: str) -> None:
        self.servers, self.count, self.row = servers, count, 0
        self.connection = servers.publisher.connect()
        # (a follower that hangs isn't waited for without end)
        self.connection.run(f"SET synchronous_commit = {level}", "SET statement_timeout = '60s'")

    def next(self) -> str:
        self.row += 1
        return INSERT.format(self.row)

    def times(self) -> list[float]:
        """The milliseconds of each of some commits."""
        times = []
        for _ in range(self.count):
            statement = self.next()
            began = time.monotonic()
            self.connection.run(statement)
            times.append(1000 * (time.monotonic() - began))
        return times

    def times_waiting_for(self, follower: Follower) -> list[float]:
        """The same, where each waits for a follower, as it did when that began."""
        end = self.servers.last_commit(self.next())
        self.set_standby(follower.slot)
        follower.start()
        self.servers.wait_for(follower, "flush_lsn", end)
        self.wait_for_standby(follower.slot)
        times = self.times()
        self.set_standby("")
        self.wait_for_standby("")
        follower.stop()
        return times

    def set_standby(self, name: str) -> None:
        """Has the commits wait for a standby, or for none."""
        run, session = self.servers.publisher.run, self.servers.session
        run(
            f"ALTER SYSTEM SET synchronous_standby_names = '{name}'",
            "SELECT pg_reload_conf()",
            database="postgres",
        )
        wait_until(
            lambda: session.value("SHOW synchronous_standby_names") == name,
            f"naming {name or NOBODY}",
            LIMIT,
        )

    def wait_for_standby(self, name: str) -> None:
        """Waits until the server has the commits wait for the standby that is named, or for
        none."""
        query = "SELECT coalesce(string_agg(application_name, ''), '') FROM pg_stat_replication WHERE sync_state = 'sync'"
        wait_until(
            lambda: self.servers.session.value(query) == name,
            f"waiting for {name or NOBODY}",
            LIMIT,
        )

    def catch_up(self, follower: Follower) -> None:
        """Has a follower take what is left."""
        end = self.servers.last_commit(self.next())
        follower.start()
        self.servers.wait_for(follower, "flush_lsn", end)
        follower.stop()
        self.servers.compare(follower)


def line(name: str, turns: list[list[float]]) -> str:
    """A line of the table."""
    times = sorted(it for turn in turns for it in turn)
    medians = ", ".join(f"{statistics.median(it):.2f}" for it in turns)
    shown = [
        statistics.median(times),
        times[len(times) * 90 // 100],
        times[len(times) * 99 // 100],
        times[-1],
    ]
    return f"| {name} | {' | '.join(f'{it:.2f}' for it in shown)} | {medians} |"


def run(servers: Servers, words: argparse.Namespace) -> None:
    commits = Commits(servers, words.commits, words.level)
    followers: list[Follower] = [
        Subscription(servers, "synchronous", synchronous=True),
        Program(servers, f"version_{words.proto}", words.proto),
    ]
    times: dict[str, list[list[float]]] = {NOBODY: [], **{it.name: [] for it in followers}}
    for turn in range(1, words.turns + 1):
        servers.rest()
        times[NOBODY].append(commits.times())
        for it in followers:
            servers.rest()
            times[it.name].append(commits.times_waiting_for(it))
        print(
            f"turn {turn}: {', '.join(f'{statistics.median(it[-1]):.2f}' for it in times.values())}",
            file=sys.stderr,
            flush=True,
        )
    for it in followers:
        commits.catch_up(it)
    version = servers.session.value("SHOW server_version")
    print(
        f"{words.commits:,} commits of one row, synchronous_commit = {words.level}; PostgreSQL {version}; turns: {words.turns}."
    )
    print("Milliseconds.\n")
    print(
        "| Waits for | median | 90 of 100 | 99 of 100 | longest | median in each turn |\n|---|---|---|---|---|---|"
    )
    for name, turns in times.items():
        print(line(name, turns))


def main() -> None:
    parser = parser_of(__doc__)
    add = parser.add_argument
    add(
        "--commits",
        type=int,
        default=2000,
        metavar="N",
        help="how many commits wait in each turn (default: 2000)",
    )
    add(
        "--turns",
        type=int,
        default=3,
        metavar="N",
        help="how often each follower is waited for (default: 3)",
    )
    add(
        "--level",
        choices=("on", "remote_apply"),
        default="on",
        help="the commits' synchronous_commit (default: on)",
    )
    measure(parser, run)


if __name__ == "__main__":
    main()
