"""Tells what a new slot or a lock waits for: the server makes a slot once all transactions have
ended that ran when it was asked for."""

import time
from collections.abc import Callable
from contextlib import closing

from pgsub_feed import log
from pgsub_feed.interruption import Check

from ..errors import ServerError, understood
from .connection import Connection
from .session import Subscription

# After how many seconds it is told first, and again.
FIRST, AGAIN = 10.0, 60.0
MOST = 5
SECONDS = "pg_catalog.date_part('epoch', pg_catalog.clock_timestamp() - {})::pg_catalog.int8"
RUNNING = (
    f"SELECT a.pid, a.usename, a.datname, {SECONDS.format('a.xact_start')} FROM pg_catalog.pg_stat_activity a"
    " WHERE a.backend_xid IS NOT NULL AND a.pid <> pg_catalog.pg_backend_pid()"
    f" ORDER BY pg_catalog.age(a.backend_xid) DESC LIMIT {MOST}"
)
PREPARED = (
    f"SELECT p.gid, p.owner, p.database, {SECONDS.format('p.prepared')} FROM pg_catalog.pg_prepared_xacts p"
    f" ORDER BY p.prepared LIMIT {MOST}"
)


def for_how_long(seconds: str | None) -> str:
    return f" for {seconds} s" if seconds else ""


@understood("transactions")
def texts_of(connection: Connection, query: str, what: str) -> list[str]:
    return [
        f"{what} {name} ({role}, database {database}){for_how_long(age)}"
        for name, role, database, age in connection.rows(query)
    ]


def prepared_texts(connection: Connection) -> list[str]:
    """The oldest prepared transactions, of any database."""
    return texts_of(connection, PREPARED, "the prepared transaction")


def slot_text(connection: Connection) -> str:
    """What a new slot waits for: the oldest transactions that write. (When one of another role
    began, only a role may see that reads all statistics.)"""
    if connection.value("SELECT pg_catalog.pg_is_in_recovery()") == "t":
        return "the slot waits for a record of the running transactions: SELECT pg_log_standby_snapshot() at the primary writes one"
    texts = texts_of(connection, RUNNING, "the transaction of process")
    texts += prepared_texts(connection)
    return f"the slot waits for {'; '.join(texts) or 'transactions that have ended by now'}"


@understood("locks")
def what_blocks(connection: Connection, pid: int) -> str:
    """Who has the locks for which another process waits; "" where it waits for none."""
    rows = connection.rows(
        f"SELECT a.pid, a.usename, a.datname, {SECONDS.format('a.xact_start')} FROM pg_catalog.pg_stat_activity a"
        f" WHERE a.pid = ANY (pg_catalog.pg_blocking_pids({pid})) ORDER BY a.xact_start LIMIT {MOST}"
    )
    return "; ".join(
        f"process {other} ({user}, database {database}){for_how_long(age)}"
        for other, user, database, age in rows
    )


def lock_text(what: str, pid: int, connection: Connection) -> str:
    """For whose locks a process of the server waits, which is at work on this."""
    others = what_blocks(connection, pid)
    return f"{what} waits for the locks of {others}" if others else ""


# What says, as a connection tells it, for what something waits.
Says = Callable[[Connection], str]


class Waiting:
    """Is asked while something is waited for, of which `text` says what, "" for nothing."""

    def __init__(
        self, subscription: Subscription, check_stop: Check, text: Says = slot_text
    ) -> None:
        self.subscription, self.check_stop, self.text = subscription, check_stop, text
        self.next = time.monotonic() + FIRST

    def tell_by(self, at: float) -> None:
        """Tells it for the first time then, or before."""
        self.next = min(self.next, at)

    def check(self) -> None:
        self.check_stop()
        if time.monotonic() < self.next:
            return
        self.next = time.monotonic() + AGAIN
        try:
            connection = self.subscription.connect(self.check_stop, "status", quiet=True)
            with closing(connection):
                text = self.text(connection)
        except ServerError as error:
            text = f"what is waited for can't be told: {error}"
        if text:
            log.info(text)
