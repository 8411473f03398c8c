"""Which tables a copy reads, and which are added by themselves once all others follow."""

from pgsub_feed import log
from pgsub_feed.interruption import Check

from ..drift.findings import PUBLICATION, About
from ..drift.partition_differences import root_of
from ..drift.remembered import Remembered
from ..errors import ServerError
from ..server.catalog import Catalog, Table
from ..server.catalog_reader import read_catalog
from ..server.connection import Connection
from ..server.publications import are_so_named, published_tables, sizes_of
from ..server.session import Subscription
from .tries import CHANGED

# for how many milliseconds a lock is waited for where names are compared
SHORT = 2000
DROPPED = "was dropped, or left the publication,"


class CopiedTables:
    """`later`: why tables are to be added by themselves; `sizes`: those at the server, by OID."""

    def __init__(self, subscription: Subscription, remembered: Remembered) -> None:
        self.subscription, self.remembered = subscription, remembered
        self.later: dict[int, str] = {}
        self.sizes: dict[int, int] = {}

    def published(self, plain: Connection) -> list[Table]:
        return published_tables(plain, self.subscription.publications)

    def catalog(self, plain: Connection) -> Catalog:
        return read_catalog(plain, self.subscription.publications)

    def choose(
        self, plain: Connection, tables: list[Table], before: Catalog, point: int
    ) -> list[Table]:
        """Those of the tables that are published still once the slot is made, the largest first:
        what is cut later can be added by itself. Those that were altered meanwhile are left for
        later."""
        after = self.catalog(plain)
        if before.publications != after.publications:
            raise ServerError(CHANGED)
        now = self.published(plain)
        late = [it for it in now if it not in tables]
        self.later = {it.oid: "it was published while the slot was made" for it in late}
        altered = altered_tables(before, after)
        self.later |= dict.fromkeys(altered, "it was altered while the slot was made")
        self.sizes = sizes = sizes_of(plain, tables)
        self.remembered.begin_copy(after, point)
        self.name_new(late, point)
        return sorted(self.still_published(tables, now), key=lambda it: -sizes.get(it.oid, 0))

    def still_published(self, tables: list[Table], now: list[Table]) -> list[Table]:
        """The tables that didn't leave while the slot was made, which nobody would tell of."""
        there = {it.oid for it in now}
        for it in tables:
            if it.oid not in there:
                log.info(f"{it.text()} {DROPPED} while the slot was made")
                self.remembered.never_copied(it.oid)
        return [it for it in tables if it.oid in there]

    def name_new(self, tables: list[Table], point: int) -> None:
        """Notes names of tables that aren't remembered: what is told of them goes with the rows."""
        for it in tables:
            self.remembered.name_new(it.namespace, it.name, it.oid, point)

    def leave(self, oid: int, why: str) -> None:
        """Leaves a table for later."""
        self.later[oid] = why

    def leave_cut(self, missing: list[Table], point: int) -> None:
        """Leaves all of an interrupted copy for later that isn't stored whole."""
        self.later = {it.oid: self.later.get(it.oid, "its copy was interrupted") for it in missing}
        self.name_new(missing, point)

    def forget_gone(self, plain: Connection) -> list[int]:
        """Forgets tables left for later that aren't published any more, and returns their OIDs."""
        there = {it.oid for it in self.published(plain)} if self.later else set()
        gone = [it for it in self.later if it not in there]
        for oid in gone:
            log.info(f"{self.remembered.text_of(oid)} {DROPPED} while others were copied")
            self.remembered.never_copied(oid)
            del self.later[oid]
        return gone

    def want_later(self, point: int) -> None:
        """Notes what was left for later, to be added."""
        for oid, why in self.later.items():
            log.warning(f"{self.remembered.text_of(oid)}: {why}: it is added by itself")
            text = f"table {self.remembered.text_of(oid)} isn't copied yet: {why}"
            self.remembered.found.find(PUBLICATION, point, text, About((oid,)))
        self.remembered.found.take_news()
        self.remembered.want_later(self.later)


def altered_tables(before: Catalog, after: Catalog) -> list[int]:
    """The tables that were altered between two readings, or partitions of them."""
    others = {
        root_of(it, now)
        for it in before.partitions.keys() | after.partitions.keys()
        for now in (before, after)
        if before.partitions.get(it) != after.partitions.get(it)
    }
    return [
        oid
        for oid, it in after.tables.items()
        if oid in before.tables and (it != before.tables[oid] or oid in others)
    ]


def check_names(subscription: Subscription, tables: list[Table], check: Check) -> None:
    """Checks that tables that are locked still have their names and columns.

    The snapshot shows those of its own moment, and rows are read by the names of now. The locks
    keep them from here on.
    """
    with subscription.connected("copy", check) as fresh:
        fresh.run(f"SET lock_timeout = {SHORT}")
        if not are_so_named(fresh, tables):
            raise ServerError(CHANGED)
