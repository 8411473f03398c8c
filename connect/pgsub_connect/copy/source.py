"""A server as of the consistent point of a slot: its published tables, each under a lock.

Who compares a copy with it reads them so, and who adds a table. The slot is a temporary one, which
goes as soon as its snapshot is taken.

A TRUNCATE is seen by snapshots that are older than it: a table that was truncated after a snapshot
was taken is empty there (PostgreSQL's documentation, MVCC Caveats), and so may be one that an ALTER
TABLE has written anew. Both give it another file. A query of the catalog says which file the
snapshot has, and pg_relation_filenode which one is there now. What was done before the snapshot
was taken changes nothing of it, such as a load that truncates a table while a slot is made.
"""

import contextlib
import time
from collections.abc import Callable, Iterable, Mapping

from pgsub_feed.errors import Passing, Unfit
from pgsub_feed.interruption import Check, limited, undone_by
from pgsub_feed.options import meant
from pgsub_feed.tables.names import names_of
from pgsub_feed.texts import literal

from ..drift.remembered import Remembered
from ..errors import NoSlot, ServerError, understood
from ..server.catalog import Table
from ..server.catalog_reader import listed_oids
from ..server.connection import Connection
from ..server.publications import published_tables
from ..server.session import Subscription, identify, is_same_database
from ..server.waits import Waiting
from ..store.checkpoint_lines import FOLLOWING, Known
from .slots import create_temporary
from .table_reader import GONE, LOCK_TIMEOUT, lock_tables, take_snapshot
from .tables import SHORT, check_names
from .tries import CHANGED

MOVED, ALTERED, LOCKED = "truncated or written anew", "altered or dropped", "locked by others"


@understood("the files of tables")
def moved(plain: Connection, tables: list[Table]) -> set[int]:
    """Those with another file, or other partitions, than the transaction's snapshot has."""
    if not tables:
        return set()
    oids = listed_oids([it.oid for it in tables])
    rows = plain.rows(
        "WITH RECURSIVE t (root, oid) AS ("
        f" SELECT c.oid, c.oid FROM pg_catalog.pg_class c WHERE c.oid IN ({oids})"
        " UNION ALL SELECT t.root, i.inhrelid FROM t"
        "  JOIN pg_catalog.pg_inherits i ON i.inhparent = t.oid"
        "  JOIN pg_catalog.pg_class p ON p.oid = t.oid AND p.relkind = 'p'),"
        " n (root, oid) AS (SELECT c.oid, i.relid::pg_catalog.oid FROM pg_catalog.pg_class c,"
        "  LATERAL pg_catalog.pg_partition_tree(c.oid) i"
        f"  WHERE c.oid IN ({oids}) AND c.relkind = 'p'),"
        " p (root, oid) AS (SELECT t.root, t.oid FROM t"
        "  JOIN pg_catalog.pg_class c ON c.oid = t.root AND c.relkind = 'p')"
        " SELECT t.root FROM t JOIN pg_catalog.pg_class c ON c.oid = t.oid"
        "  WHERE c.relkind <> 'p'"
        "  AND c.relfilenode <> COALESCE(pg_catalog.pg_relation_filenode(t.oid), 0)"
        " UNION SELECT a.root FROM ((TABLE n EXCEPT TABLE p) UNION (TABLE p EXCEPT TABLE n)) a"
    )
    return {int(root or 0) for (root,) in rows}


@understood("tables")
def there(plain: Connection, tables: list[Table]) -> set[int]:
    """Those that have their names now, whatever the snapshot says."""
    named = ", ".join(
        f"({it.oid}::pg_catalog.oid, {literal(it.sql_name()).strip()})" for it in tables
    )
    rows = plain.rows(
        f"SELECT n.oid FROM (VALUES {named}) n (oid, name)"
        " WHERE pg_catalog.to_regclass(n.name)::pg_catalog.oid = n.oid"
    )
    return {int(oid or 0) for (oid,) in rows}


def locked(plain: Connection, table: Table) -> str:
    """Locks a table, unless it is to be waited for. Returns why it isn't, "" where it is."""
    plain.run("SAVEPOINT one")
    try:
        lock_tables(plain, [table])
    except ServerError as error:
        if error.sqlstate != LOCK_TIMEOUT and error.sqlstate not in GONE:
            raise
        plain.run("ROLLBACK TO SAVEPOINT one")
        return LOCKED if error.sqlstate == LOCK_TIMEOUT else ALTERED
    plain.run("RELEASE SAVEPOINT one")
    return ""


def changed(
    plain: Connection, tables: list[Table], published: Callable[[], list[Table]]
) -> dict[int, str]:
    """By OID those that aren't as they were before the snapshot, or not as in it, and why."""
    now = {it.oid: it for it in published()}
    found = {it.oid: ALTERED for it in tables if now.get(it.oid) != it}
    rest = [it for it in tables if it.oid not in found]
    return {**dict.fromkeys(moved(plain, rest), MOVED), **found}


# For how long tables may be locked by others, and how often it is looked, in seconds.
PATIENCE, LOOK = 60.0, 0.1


class Source:
    """The server: its published tables, and a transaction that sees them as of a slot's LSN."""

    def __init__(
        self, subscription: Subscription, store: str, known: Known, check: Check, purpose: str
    ) -> None:
        self.subscription, self.store = subscription, store
        self.check, self.purpose = check, purpose
        # how long tables may be locked by others, in seconds
        self.patience = PATIENCE
        # what is closed at the end, and the slot's connection, once the snapshot is taken
        self.closing, self.slot = contextlib.ExitStack(), contextlib.ExitStack()
        with undone_by(self.close):
            replication = subscription.connected(purpose, check, replication=True)
            self.replication = self.slot.enter_context(replication)
            self.check_server(known)
            self.plain = self.closing.enter_context(subscription.connected(purpose, check))
            self.plain.run("SET row_security = off")
            # the OID of the table that alone is looked at, 0 for all
            self.only = 0
            self.tables = self.published()
            # those that can't be read as the snapshot has them, and why, where the others are read
            self.left: dict[int, str] = {}
            self.encoding = self.plain.text("SELECT pg_catalog.current_setting('server_encoding')")

    def check_server(self, known: Known) -> None:
        """Rejects a server whose changes the store doesn't follow."""
        if known.phase != FOLLOWING:
            raise Passing(f"{self.store} isn't followed yet")
        server = identify(self.replication)
        ours = known.system, known.database, known.timeline
        theirs = server.system, server.database, known.timeline and server.timeline
        noted, here = Remembered(self.store).database, (server.database, server.database_oid)
        is_same = is_same_database(known.database, noted, *here)
        if not is_same or (ours[0], ours[2]) != (theirs[0], theirs[2]):
            names = ("the server {}, database {}, timeline {}".format(*it) for it in (ours, theirs))
            raise Unfit("the store follows {}, and this is {}".format(*names))

    def maker(self) -> int:
        """The process at the server that makes the slot."""
        return self.replication.pid()

    def standbys(self) -> str:
        """For which standbys commits wait."""
        return self.plain.text("SHOW synchronous_standby_names")

    def make_slot(self, seconds: float, check_end: Check | None = None) -> tuple[int, str]:
        """Makes a temporary slot; its consistent point and its snapshot. Raises where that takes
        longer than so many seconds.

        `check_end`: what is called meanwhile in place of what else is.
        """
        waiting = Waiting(self.subscription, check_end or self.check)
        waiting.tell_by(time.monotonic() + seconds - 1)
        check = limited(seconds, no_slot(seconds), waiting.check)
        # (a server that waits for a transaction doesn't see that whoever asked was killed)
        self.replication.run(f"SET lock_timeout = {round(seconds * 1000)}")
        try:
            with self.replication.checked_by(check):
                name = f"{self.subscription.slot[:40]}_{self.purpose}"
                _, point, snapshot = create_temporary(self.replication, name)
        except ServerError as error:
            raise no_slot(seconds) if error.sqlstate == LOCK_TIMEOUT else error from None
        return point, snapshot

    def see(self, snapshot: str, leaves: bool = False) -> None:
        """Begins the transaction, in which no published table can be altered. Those that aren't any
        more what the snapshot has end the comparison, or with `leaves` are left out."""
        plain = self.plain
        try:
            plain.run("BEGIN ISOLATION LEVEL REPEATABLE READ READ ONLY")
            take_snapshot(plain, snapshot)
            self.lock(leaves)
            # (from 16 on the server opens each published table for it)
            plain.run(f"SET LOCAL lock_timeout = {SHORT}")
            self.leave(changed(plain, self.tables, self.published), leaves)
            plain.run("SET LOCAL lock_timeout = 0")
            self.leave(dict.fromkeys(self.renamed(self.tables), ALTERED), leaves)
        except ServerError as error:
            if str(error) == CHANGED or error.sqlstate in GONE:
                raise Passing(f"{CHANGED}: nothing was compared") from None
            if error.sqlstate == LOCK_TIMEOUT:
                text = "published tables are locked by others: nothing was compared"
                raise Passing(text) from None
            raise
        self.slot.close()

    def leave(self, found: Mapping[int, str], leaves: bool) -> None:
        """Leaves tables out, where that is wanted."""
        if found and not leaves:
            raise ServerError(CHANGED)
        self.left.update(found)
        self.tables = [it for it in self.tables if it.oid not in found]

    def renamed(self, tables: list[Table]) -> list[int]:
        """Those of which names are others now than in the snapshot."""
        try:
            check_names(self.subscription, tables, self.check)
            return []
        except ServerError as error:
            if str(error) != CHANGED:
                raise
        if len(tables) == 1:
            return [tables[0].oid]
        half = len(tables) // 2
        return [*self.renamed(tables[:half]), *self.renamed(tables[half:])]

    def narrow(self, oid: int, patience: float) -> Table | None:
        """Looks at one table alone from now on, which may be locked by others for so many seconds.
        Returns it, None where it isn't published."""
        self.only, self.patience = oid, patience
        self.tables = [it for it in self.tables if it.oid == oid]
        return self.tables[0] if self.tables else None

    def published(self) -> list[Table]:
        """The published tables that are looked at, as they are now."""
        found = published_tables(self.plain, self.subscription.publications)
        return [it for it in found if self.only in (0, it.oid)]

    def lock(self, leaves: bool) -> None:
        """Locks the tables. None is waited for while others are locked: that could end an
        application's transaction by a deadlock."""
        until = time.monotonic() + self.patience
        self.plain.run("SAVEPOINT unlocked")
        while not self.has_locked(leaves):
            if time.monotonic() > until:
                if leaves:
                    found = ((it.oid, locked(self.plain, it)) for it in self.tables)
                    return self.leave({oid: why for oid, why in found if why}, leaves)
                text = f"published tables are locked by others for {self.patience:.0f} seconds: nothing was compared"
                raise Passing(text)
            self.check()
            time.sleep(LOOK)

    def has_locked(self, leaves: bool) -> bool:
        """Locks all tables, or none where one of them is to be waited for, or is gone."""
        try:
            lock_tables(self.plain, self.tables)
        except ServerError as error:
            if error.sqlstate != LOCK_TIMEOUT and not (leaves and error.sqlstate in GONE):
                raise
            self.plain.run("ROLLBACK TO SAVEPOINT unlocked")
            if error.sqlstate != LOCK_TIMEOUT:
                here = there(self.plain, self.tables)
                self.leave({it.oid: ALTERED for it in self.tables if it.oid not in here}, leaves)
            return False
        return True

    def chosen(self, names: list[str]) -> list[Table]:
        """The tables with these names, or all where none is named."""
        return chosen(self.tables, names) if names else self.tables

    def close(self) -> None:
        self.slot.close()
        self.closing.close()


def chosen(tables: Iterable[Table], names: list[str]) -> list[Table]:
    """The published tables with these names; those of the schema `public` have short ones too."""
    known = {name: it for it in tables for name in names_of(it.namespace, it.name)}
    if unknown := [name for name in names if name not in known]:
        like = meant(unknown[0], known) or ":"
        cure = f"ALTER PUBLICATION .. ADD TABLE {unknown[0]} publishes one that is there"
        raise Unfit(f"there is no published table {unknown[0]}{like} {cure}")
    return list({known[name].oid: known[name] for name in names}.values())


def no_slot(seconds: float) -> NoSlot:
    return NoSlot(
        f"the server made no slot in {seconds:g} seconds, since it waits for all transactions that run: nothing was compared, and following"
        " goes on. Try again, or hold the stream for longer by --hold"
    )
