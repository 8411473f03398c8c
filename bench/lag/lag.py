"""How far behind each follower is while four writers write, all followers at once: inserts and
updates, ten changes a transaction.

The lag is what the server has in its log beyond what the follower has told to be on its disk. At
the end the rows of each are compared with the server's.
"""

from __future__ import annotations

import argparse
import random
import statistics
import threading
import time

from following import Follower, Program, Servers, Subscription, measure, parser_of

WRITERS = 4
# seconds between a writer's transactions
PAUSES = (0.02, 0.002)


class Writer(threading.Thread):
    """Inserts five rows and updates five, again and again."""

    def __init__(self, servers: Servers, number: int, pause: float) -> None:
        super().__init__(daemon=True)
        self.connection = servers.publisher.connect()
        self.pause, self.rng = pause, random.Random(number)
        self.row = self.first = 10**9 * (number + 1)
        self.ended = threading.Event()
        self.changes = 0

    def run(self) -> None:
        while not self.ended.is_set():
            row = self.row
            self.connection.run(
                f"BEGIN; INSERT INTO measured SELECT it, 'a', 'b', 'c' FROM generate_series({row}, {row + 4}) it;"
                f" UPDATE measured SET b = 'u{row}' WHERE id = ANY (ARRAY[{self.some()}]); COMMIT"
            )
            self.row += 5
            self.changes += 10
            self.ended.wait(self.pause)
        self.connection.close()

    def some(self) -> str:
        """Five of its rows."""
        return ", ".join(str(self.rng.randint(self.first, self.row + 4)) for _ in range(5))


def lags(servers: Servers, followers: list[Follower]) -> dict[str, int]:
    """The bytes that each is behind."""
    rows = servers.session.rows(
        "SELECT slot_name, pg_current_wal_flush_lsn() - confirmed_flush_lsn FROM pg_replication_slots"
    )
    names = {it.slot for it in followers}
    return {slot: max(int(lag or 0), 0) for slot, lag in rows if slot in names}


def measured(
    servers: Servers, followers: list[Follower], writers: list[Writer], seconds: float
) -> list[str]:
    """Lets writers write, and then the followers catch up. Returns lines of the table."""
    servers.rest()
    found: dict[str, list[int]] = {it.slot: [] for it in followers}
    began = time.monotonic()
    for writer in writers:
        writer.start()
    while time.monotonic() - began < seconds:
        for slot, lag in lags(servers, followers).items():
            found[slot].append(lag)
        time.sleep(0.1)
    for writer in writers:
        writer.ended.set()
    for writer in writers:
        writer.join()
    rate = sum(it.changes for it in writers) / (time.monotonic() - began)
    end, began = (
        servers.last_commit(f"INSERT INTO measured VALUES ({-writers[0].first}, 'a', 'b', 'c')"),
        time.monotonic(),
    )
    lines = []
    for it in followers:
        servers.wait_for(it, "flush_lsn", end)
        took = time.monotonic() - began
        mean, most = statistics.mean(found[it.slot]) / 1000, max(found[it.slot]) / 1000
        lines.append(f"| {rate:,.0f} | {it.name} | {mean:,.1f} | {most:,.0f} | {took:.2f} |")
    return lines


def run(servers: Servers, words: argparse.Namespace) -> None:
    followers: list[Follower] = [
        Program(servers, f"version_{words.proto}", words.proto),
        Subscription(servers, "synchronous", synchronous=True),
    ]
    version = servers.session.value("SHOW server_version")
    for it in followers:
        it.start()
    print(
        f"{WRITERS} writers for {words.seconds:.0f} seconds; PostgreSQL {version}. Seconds to catch up once they have ended.\n"
    )
    print(
        "| Changes a second | Follower | kB behind, mean | greatest | s to catch up |\n|---|---|---|---|---|",
        flush=True,
    )
    for number, pause in enumerate(PAUSES):
        writers = [Writer(servers, WRITERS * number + it, pause) for it in range(WRITERS)]
        for line in measured(servers, followers, writers, words.seconds):
            print(line, flush=True)
    for it in followers:
        it.stop()
        servers.compare(it)


def main() -> None:
    parser = parser_of(__doc__)
    parser.add_argument(
        "--seconds",
        type=float,
        default=15,
        metavar="N",
        help="how long is written each time (default: 15)",
    )
    measure(parser, run)


if __name__ == "__main__":
    main()
