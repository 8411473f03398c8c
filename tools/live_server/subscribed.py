"""PostgreSQL's own subscription, as by default, in place of a follower of large transactions."""

from __future__ import annotations

import time

from .cluster import Cluster
from .digests import compare, digests_of
from .follower import is_confirmed, wait_until
from .place import Place
from .sizes import SCHEMA, STEPS, TABLES, Size, Tables

SLOT = "pgsub"


class Subscribed(Tables):
    """Another server of the same version that subscribes to the tables."""

    def __init__(self, place: Place, size: Size) -> None:
        super().__init__(place, size)
        self.copy = Cluster(place.options.installed, place.options.folder, {"max_wal_size": "8GB"})
        place.closing.callback(self.copy.remove)
        self.copy.start()
        self.copy.run("CREATE DATABASE shop", database="postgres")
        self.copy.run(
            *SCHEMA,
            f"CREATE SUBSCRIPTION {SLOT} CONNECTION '{place.cluster.dsn_inside()}' PUBLICATION pgsub",
        )
        self.is_equal = True
        self.wait_copied()

    def about(self) -> str:
        return f"{self.size.rows} rows, a subscription of PostgreSQL {self.place.options.installed.version}"

    def wait_copied(self) -> None:
        left = "SELECT count(*) FROM pg_subscription_rel WHERE srsubstate <> 'r'"
        wait_until(lambda: self.copy.value(left) == "0", "copying all tables", self.seconds())

    def alter(self, *commands: str) -> None:
        self.copy.run(*commands)
        super().alter(*commands)

    def add(self) -> None:
        """A new table takes the old one's place."""
        self.copy.run(
            "ALTER TABLE large RENAME TO gone",
            "CREATE TABLE large (LIKE gone INCLUDING ALL)",
            "ALTER TABLE large REPLICA IDENTITY USING INDEX large_other_idx",
            f"ALTER SUBSCRIPTION {SLOT} REFRESH PUBLICATION",
        )
        self.wait_copied()
        self.copy.run("DROP TABLE gone")

    def step(self, name: str) -> str:
        """Runs a step, and compares after it. Returns what it took."""
        self.is_equal = False
        began = time.monotonic()
        STEPS[name](self)
        made, end = time.monotonic() - began, self.end()
        server = self.place.cluster
        wait_until(lambda: is_confirmed(server, SLOT, end), f"confirming {end}", self.seconds())
        took = time.monotonic() - began
        rows = compare(digests_of(server, TABLES), digests_of(self.copy, TABLES), "the subscriber")
        self.is_equal = True
        return f"{took:.1f} s, {made:.1f} of them the server's; {rows} rows are equal"
