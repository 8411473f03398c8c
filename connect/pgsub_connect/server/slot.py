"""A replication slot, and what is said of one that is lost, and of changes that the server can't send."""

import dataclasses
import time

from pgsub_feed.texts import lsn_text

from ..errors import LostSlot, ServerError, understood
from .connection import QUICK, Connection
from .session import is_lost, of_slot

# The columns that came later, by the version that has them first.
COLUMNS = {
    "s.two_phase": 140000,
    "s.wal_status": 130000,
    "s.safe_wal_size": 130000,
    "s.failover": 170000,
    "s.invalidation_reason": 170000,
}


@dataclasses.dataclass
class Slot:
    """What a server says of a slot; empty or None where it doesn't, or not yet."""

    plugin: str = "pgoutput"
    is_here: bool = True
    is_active: bool = False
    is_two_phase: bool = False
    wal_status: str = ""
    safe_wal_size: int | None = None
    is_failover: bool = False
    why_invalid: str = ""
    # when that was told, by the clock that runs evenly
    told: float = 0.0
    # whether nothing of the session is read just now, so that it matters more what becomes of it
    is_unread: bool = False

    def note(self, wal_status: str, safe_wal_size: int | None) -> None:
        """Notes what was told now."""
        self.wal_status, self.safe_wal_size = wal_status, safe_wal_size
        self.told = time.monotonic()

    def note_unread(self, is_unread: bool) -> None:
        self.is_unread = is_unread


@understood("a slot")
def read_slot(connection: Connection, name: str) -> Slot | None:
    """The slot of this name, where there is one."""
    version = connection.version()
    columns = [it if version >= since else "NULL" for it, since in COLUMNS.items()]
    ours = "s.database = pg_catalog.current_database()"
    rows = connection.rows(of_slot(f"s.plugin, {ours}, s.active, {', '.join(columns)}", name))
    if not rows:
        return None
    plugin, here, active, two_phase, status, size, failover, why = rows[0]
    about = plugin or "none", here == "t", active == "t", two_phase == "t"
    return Slot(*about, status or "", int(size) if size else None, failover == "t", why or "")


# The first versions that say why a slot is lost, and that end one which is idle.
REASONS, IDLE = 170000, 180000
# The class of errors of values, and how often one comes at an LSN until it is lasting.
DATA, MOST = "22", 5
# The code of an error that another try doesn't mend.
REFUSED = "22023"
# Why a slot is lost, by the server's word for it.
WHY = {
    "": "the server has removed log that it needs, as max_slot_wal_keep_size says",
    "wal_removed": "the log that it kept was more than max_slot_wal_keep_size",
    "idle_timeout": "nobody followed it for idle_replication_slot_timeout",
    "rows_removed": "rows of the catalog that it needs were removed, at a standby",
    "wal_level_insufficient": "the primary's wal_level was too low",
}


def anew(store: str) -> str:
    """How to begin with another slot."""
    return (
        f"`pgsub-connect drop --dsn .. --store {store}` drops it with the copy, and the"
        " next start with --create copies anew"
    )


def lost_error(connection: Connection, slot: str, store: str, error: ServerError) -> ServerError:
    """What a start of replication has ended with, with its cure where the slot is lost."""
    if not is_lost(connection, slot):
        return error
    query = of_slot("s.invalidation_reason", slot)
    reason = connection.value(query, QUICK) if connection.version() >= REASONS else None
    why = WHY.get(reason or "", reason) or WHY[""]
    text = f"the slot {slot} is lost: {why}. Nothing can follow from it: {anew(store)}"
    return LostSlot(f"{error}\n{text}", error.sqlstate)


@understood("its settings")
def idle_limit(connection: Connection) -> float | None:
    """After how many seconds the server ends a slot that nobody uses; None for never."""
    if connection.version() < IDLE:
        return None
    setting = "pg_catalog.current_setting('idle_replication_slot_timeout')::pg_catalog.interval"
    seconds = connection.value(f"SELECT pg_catalog.date_part('epoch', {setting})", QUICK)
    return float(seconds or 0) or None


class Repeats:
    """Counts errors of values that come again and again at one LSN: what is there can't be sent."""

    def __init__(self, store: str) -> None:
        self.store = store
        self.seen = ("", 0)
        self.count = 0

    def note(self, error: ServerError, position: int) -> None:
        """Raises where it came often enough."""
        if not error.sqlstate.startswith(DATA):
            return
        seen = (error.sqlstate, position)
        self.count = self.count + 1 if seen == self.seen else 1
        self.seen = seen
        if self.count >= MOST:
            raise ServerError(
                f"{error}\nthe server can't send a change behind {lsn_text(position)}, in"
                f" {self.count} attempts, and keeps its log meanwhile. Mend the value there (a text"
                " that isn't UTF-8, in a database of SQL_ASCII). Of the slot:"
                f" {anew(self.store)}",
                REFUSED,
            )
