"""Reads the server's catalog while a filter opens its store, for the look at the start of a session
that waits for both."""

import threading

from pgsub_feed.errors import Failure, Stopped
from pgsub_feed.interruption import Check

from ..server.catalog import Catalog
from ..server.catalog_reader import read_catalog
from ..server.connection import QUICK, Connection
from ..server.session import Subscription, settle

# How often it is looked whether to end, in seconds.
STEP = 0.1
# For how many milliseconds a look waits for a lock. From 16 on the server opens each table for it.
PATIENCE = 500


class ReadingAhead(threading.Thread):
    """It, on a connection of its own. What is in the way isn't told: a look finds it again."""

    def __init__(self, subscription: Subscription) -> None:
        super().__init__(daemon=True)
        self.subscription = subscription
        self.ended = threading.Event()
        self.connection: Connection | None = None
        self.catalog: Catalog | None = None

    def run(self) -> None:
        try:
            self.connection = connection = self.subscription.connect(self.check_end, "tables")
            settle(connection)
            connection.run(f"SET lock_timeout = {PATIENCE}", limit=QUICK)
            self.catalog = read_catalog(connection, self.subscription.publications)
        except (Failure, Stopped):
            self.close()

    def check_end(self) -> None:
        if self.ended.is_set():
            raise Stopped

    def take(self, check: Check) -> tuple[Connection, Catalog] | None:
        """The connection, with what the server has there; None where that can't be said."""
        while self.is_alive():
            check()
            self.join(STEP)
        connection, catalog = self.connection, self.catalog
        if connection is None or catalog is None:
            return None
        self.connection = None
        connection.set_check(check)
        return connection, catalog

    def give_up(self) -> None:
        """Nobody takes it."""
        self.ended.set()
        self.join()
        self.close()

    def close(self) -> None:
        if self.connection:
            self.connection.close()
        self.connection = None
