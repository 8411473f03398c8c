"""A PostgreSQL server that publishes, and its followers: subscriptions of a second server, and
`pgsub-connect follow` into a store.

Each follower has a slot of its own, has the rows that are there when it is made, and runs from
`start` to `stop` alone. Both servers and the stores lie in one folder, and sync what they commit.
"""

from __future__ import annotations

import argparse
import contextlib
import os
import signal
import sys
import tempfile
from collections.abc import Callable, Iterator
from pathlib import Path
from typing import Protocol

from built import TOP, add_program, check_program
from live_server import installed
from live_server.child import Child
from live_server.cluster import Cluster
from live_server.digests import Digests, compare, digests_of, digests_of_store
from live_server.errors import Failed, Unusable
from live_server.follower import wait_until
from live_server.options import Options
from live_server.patience import Patience
from live_server.sessions import Session

SETTINGS = {
    "fsync": "on",
    "shared_buffers": "512MB",
    "logical_decoding_work_mem": "64MB",
    "max_replication_slots": "100",
    "max_wal_senders": "100",
    "wal_sender_timeout": "60s",
    "wal_retrieve_retry_interval": "10ms",
    "max_wal_size": "16GB",
    "checkpoint_timeout": "1h",
    "autovacuum": "off",
}
PUBLICATION = "pgsub"
# The version of PostgreSQL since which a large transaction is sent before its end.
STREAMS = 14
# how long is waited for what takes long, and how often the quick things are looked at, in seconds
LIMIT, STEP = 300, 0.002

# Makes the tables in a database of a server, without rows.
Tables = Callable[[Cluster, str], None]


def plain_table(cluster: Cluster, database: str) -> None:
    """Makes the table `measured`."""
    cluster.run(
        "CREATE TABLE measured (id bigint PRIMARY KEY, a text, b text, c text)", database=database
    )


class Servers:
    """The server, with its tables published in the database `shop`, and the second one."""

    def __init__(self, options: Options, tables: Tables) -> None:
        self.options, self.tables = options, tables
        self.closing = contextlib.ExitStack()
        # (what a subscriber writes is to be read by nobody)
        self.publisher, self.subscriber = (
            Cluster(options.installed, options.folder, {**SETTINGS, "wal_level": level})
            for level in ("logical", "replica")
        )
        for server in (self.publisher, self.subscriber):
            self.closing.callback(server.remove)

    def start(self) -> None:
        for server in (self.publisher, self.subscriber):
            server.start()
        self.make_database(self.publisher, "shop")
        self.session = self.publisher.connect()

    def make_database(self, server: Cluster, name: str) -> None:
        """Makes a database with the tables, and a publication, which also says what is compared."""
        server.run(f"CREATE DATABASE {name}", database="postgres")
        self.tables(server, name)
        server.run(
            "SET client_min_messages = error",
            f"CREATE PUBLICATION {PUBLICATION} FOR ALL TABLES",
            database=name,
        )

    def streams(self) -> bool:
        """Whether large transactions are sent before their end, by version 2 of the protocol."""
        return self.options.installed.version >= STREAMS

    def last_commit(self, statement: str) -> str:
        """Runs an INSERT, and returns an LSN that is before the end of its commit, and after those
        of all commits before it."""
        return self.session.value(f"{statement} RETURNING pg_current_wal_insert_lsn()")

    def sender(self, slot: str) -> int | None:
        """The process that sends what is in a slot."""
        pid = self.session.value(
            f"SELECT active_pid FROM pg_replication_slots WHERE slot_name = '{slot}'"
        )
        return int(pid) if pid else None

    def has(self, field: str, slot: str, lsn: str) -> bool:
        """Whether a follower has told that it is beyond an LSN: `replay_lsn` tells what it has
        applied, `flush_lsn` what is on its disk."""
        query = (
            f"SELECT {field} > '{lsn}' FROM pg_stat_replication WHERE application_name = '{slot}'"
        )
        return self.session.value(query) == "t"

    def wait_for(self, follower: Follower, field: str, lsn: str) -> None:
        """Waits until a follower is beyond an LSN."""
        what = f"{follower.slot}: reaching {lsn}"
        wait_until(lambda: self.has(field, follower.slot, lsn), what, LIMIT, follower.check, STEP)

    def rest(self) -> None:
        """Writes what the servers have in memory, which else would be written while something is
        measured."""
        for server in (self.publisher, self.subscriber):
            server.run("CHECKPOINT", database="postgres")
        os.sync()

    def compare(self, follower: Follower) -> int:
        """Fails where a follower's rows aren't those of the server. Returns how many there are."""
        published = digests_of(self.publisher, self.published())
        return compare(published, follower.digests(), follower.slot)

    def published(self) -> list[str]:
        """The tables that are published."""
        return self.session.column("SELECT tablename FROM pg_publication_tables")

    def child(self, slot: str, words: list[str]) -> Child:
        """Starts a connector, which is killed at the end where it still runs."""
        child = Child(words, self.options.folder / f"{slot}.log")
        self.closing.callback(child.kill)
        return child


class Follower(Protocol):
    """What follows. Its slot and its name at the server are `slot`, and tables call it `name`."""

    name: str
    slot: str

    def start(self) -> None:
        """Starts it. It streams when this returns."""

    def processes(self) -> dict[str, int]:
        """Its processes while it streams."""

    def check(self) -> None:
        """Fails where it has ended."""

    def stop(self) -> None:
        """Ends it in the orderly way."""

    def digests(self) -> Digests:
        """Those of what it has, while it is stopped."""


def wait_for_stream(servers: Servers, follower: Follower) -> None:
    wait_until(
        lambda: servers.sender(follower.slot) is not None,
        f"{follower.slot}: connecting",
        LIMIT,
        follower.check,
        STEP,
    )


class Subscription:
    """A subscription in a database of its own on the second server."""

    def __init__(
        self, servers: Servers, slot: str, synchronous: bool, has_rows: bool = True
    ) -> None:
        """Where there are no rows, none are copied: each table takes a worker of its own."""
        self.servers, self.slot, self.has_rows = servers, slot, has_rows
        self.name = f"subscription, {'synchronous commits' if synchronous else 'as by default'}"
        servers.make_database(servers.subscriber, slot)
        self.session: Session = servers.subscriber.connect(slot)
        self.copy("on" if synchronous else "off")
        self.stop()

    def copy(self, commit: str) -> None:
        """Makes the subscription, and waits until it has the rows that are there."""
        streaming = "streaming = true, " if self.servers.streams() else ""
        self.session.run(
            f"CREATE SUBSCRIPTION {self.slot} CONNECTION '{self.servers.publisher.dsn_inside()}' PUBLICATION {PUBLICATION}"
            f" WITH ({streaming}synchronous_commit = {commit}, copy_data = {str(self.has_rows).lower()})",
        )
        wait_until(self.is_copied, f"{self.slot}: the copy", LIMIT)

    def is_copied(self) -> bool:
        return (
            self.session.value("SELECT bool_and(srsubstate = 'r') FROM pg_subscription_rel") == "t"
        )

    def start(self) -> None:
        self.session.run(f"ALTER SUBSCRIPTION {self.slot} ENABLE")
        wait_for_stream(self.servers, self)

    def processes(self) -> dict[str, int]:
        query = (
            f"SELECT pid FROM pg_stat_subscription WHERE subname = '{self.slot}' AND relid IS NULL"
        )
        return {"worker": int(self.session.value(query))}

    def check(self) -> None:
        """(The server starts a worker that has ended again.)"""

    def stop(self) -> None:
        self.session.run(f"ALTER SUBSCRIPTION {self.slot} DISABLE")
        wait_until(lambda: self.servers.sender(self.slot) is None, f"{self.slot}: ending", LIMIT)

    def digests(self) -> Digests:
        return digests_of(self.servers.subscriber, self.servers.published(), self.slot)


class Program:
    """`pgsub-connect follow` into a store, with the program as its filter."""

    def __init__(self, servers: Servers, slot: str, proto: int, *more: str) -> None:
        self.servers, self.slot = servers, slot
        self.name = f"pgsub, version {proto}"
        self.store = servers.options.folder / f"{slot}.db"
        self.words = servers.options.words(
            servers.publisher.dsn(), self.store, "--slot", slot, "--proto", str(proto), *more
        )
        self.child = servers.child(slot, [*self.words, "--create"])
        self.copy()
        self.stop()

    def copy(self) -> None:
        """Waits until it has the rows that are there."""
        self.child.wait_for("following slot", LIMIT)

    def start(self) -> None:
        self.child = self.servers.child(self.slot, self.words)
        wait_for_stream(self.servers, self)

    def processes(self) -> dict[str, int]:
        (pid,) = self.child.filters()
        return {"connector": self.child.process.pid, "filter": pid}

    def check(self) -> None:
        self.child.check()

    def stop(self) -> None:
        self.child.stop(within=LIMIT)

    def digests(self) -> Digests:
        return digests_of_store(self.servers.options.program, self.store)


def parser_of(about: str) -> argparse.ArgumentParser:
    """The options that all measurements of followers have."""
    parser = argparse.ArgumentParser(
        description=about, formatter_class=argparse.RawDescriptionHelpFormatter
    )
    add_program(parser)
    add = parser.add_argument
    add(
        "--server",
        type=int,
        metavar="N",
        help="PostgreSQL's major version (default: the newest that is there)",
    )
    add(
        "--root",
        type=Path,
        metavar="PATH",
        help="the root folder in which the servers run by chroot (default: none)",
    )
    add(
        "--folder",
        type=Path,
        metavar="PATH",
        help="a folder on the disk that is measured (default: a temporary one)",
    )
    return parser


@contextlib.contextmanager
def started(
    parser: argparse.ArgumentParser, words: argparse.Namespace, tables: Tables
) -> Iterator[Servers]:
    """The servers that the words ask for. They are removed at the end, also where a signal ends
    this; what fails is told."""
    program = check_program(parser, words.program)
    signal.signal(signal.SIGTERM, lambda *_: sys.exit(f"{parser.prog}: stopped"))
    for name in [it for it in os.environ if it.startswith("PG")]:
        del os.environ[name]
    # (a machine that is busy is no fault)
    Patience.factor = 3
    try:
        with tempfile.TemporaryDirectory(prefix="bench-", dir=words.folder) as folder:
            # the servers' account goes through it
            os.chmod(folder, 0o711)
            found = installed.find(words.server, words.root, "postgres")
            servers = Servers(
                Options(program, TOP / "connect/pgsub-connect", found, Path(folder)), tables
            )
            with servers.closing:
                servers.start()
                yield servers
    except (Failed, Unusable) as error:
        sys.exit(f"{parser.prog}: {error}")


def measure(
    parser: argparse.ArgumentParser, run: Callable[[Servers, argparse.Namespace], None]
) -> None:
    """Runs a measurement over the table `measured`, in which one version of the protocol is
    followed."""
    parser.add_argument(
        "--proto",
        type=int,
        choices=(1, 2),
        default=2,
        help="the version of the protocol of pgsub (default: 2)",
    )
    words = parser.parse_args()
    with started(parser, words, plain_table) as servers:
        run(servers, words)
