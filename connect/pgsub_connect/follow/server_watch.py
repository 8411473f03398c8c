"""Asks the server beside the session: where its log ends, how long the slot is safe, whether
commits wait for the follower, and whether a standby was promoted."""

import threading
import time

from pgsub_feed import log
from pgsub_feed.errors import Stopped, Unfit
from pgsub_feed.texts import counted, literal, parse_lsn

from ..errors import ServerError, understood
from ..server.connection import QUICK, Connection
from ..server.session import END, Subscription, exact_end, postmaster_start
from ..status.progress import Progress

# After how many seconds the server is asked again: where somebody has asked for a file that shows
# it or nothing of the session is read, and else.
SHOWN, UNSHOWN = 2.0, 5.0
# The first version that says of a slot how long it is safe.
SAFETY = 130000
# A slot is close to its end below a tenth of what it may keep, until a fifth is left again.
CLOSE, FAR = 10, 5


class SlotWarning:
    """Warns before the slot is lost, once for each state that it comes into."""

    def __init__(self, slot: str) -> None:
        self.slot, self.state = slot, ""

    def note(self, status: str, safe: int | None, most: int) -> None:
        """`safe`: how many bytes of log may come, `most`: at most, not above 0 where all."""
        state = status if status in ("unreserved", "lost") else self.closeness(safe, most)
        if state != self.state:
            self.state = state
            self.tell(safe or 0, most)

    def closeness(self, safe: int | None, most: int) -> str:
        if safe is None or most <= 0:
            return ""
        return "close" if safe < most // (FAR if self.state == "close" else CLOSE) else ""

    def tell(self, safe: int, most: int) -> None:
        slot, size = f"the slot {self.slot}", f"{counted(safe, 'byte')} of log more"
        texts = {
            "close": f" after {size} (max_slot_wal_keep_size is {most}): following is too slow",
            "unreserved": " at the server's next checkpoint, unless it is followed up to then (wal_status unreserved)",
            "lost": ": the server has removed log that wasn't followed. Drop it and copy anew",
        }
        if self.state:
            log.warning(f"{slot} is lost{texts[self.state]}")
        else:
            log.info(f"{slot} is safe again")


class Asker(threading.Thread):
    """Asks, on a connection of its own. An answer may take as long as a connection is tried."""

    def __init__(self, subscription: Subscription, is_shown: bool, progress: Progress) -> None:
        super().__init__(daemon=True)
        self.subscription, self.progress = subscription, progress
        self.interval = SHOWN if is_shown else UNSHOWN
        self.ended = threading.Event()
        self.warning = SlotWarning(subscription.slot)
        self.connection: Connection | None = None
        self.most = self.started = 0

    def run(self) -> None:
        # (a session that was just begun has looked at all of it)
        asked = time.monotonic()
        while not self.ended.wait(min(self.interval, SHOWN)):
            is_due = time.monotonic() - asked >= self.interval or self.progress.slot.is_unread
            if self.progress.server.sessions and is_due:
                asked = time.monotonic()
                self.ask()
        self.disconnect()

    def finish(self) -> None:
        self.ended.set()
        self.join(1)

    def check(self) -> None:
        if self.ended.is_set():
            raise Stopped

    def ask(self) -> None:
        """Asks once. What can't be asked now isn't told: the session says itself what is wrong."""
        try:
            self.note(self.connection or self.connect())
        except (ServerError, Stopped, Unfit):
            self.disconnect()

    @understood("its settings")
    def connect(self) -> Connection:
        self.connection = self.subscription.connect(self.check, "status", quiet=True)
        self.started = postmaster_start(self.connection)
        query = "SELECT pg_catalog.pg_size_bytes(pg_catalog.current_setting('max_slot_wal_keep_size', true))"
        text = self.connection.value(query, QUICK)
        self.most = int(text) if text else -1
        return self.connection

    def disconnect(self) -> None:
        if self.connection:
            self.connection.close()
        self.connection = None

    @understood("the slot")
    def note(self, connection: Connection) -> None:
        """Asks, and notes what the server says."""
        progress, asked = self.progress, time.time()
        is_told = connection.version() >= SAFETY
        columns = "s.wal_status, s.safe_wal_size" if is_told else "NULL, NULL"
        standby, end, flushed, segment, clock, standbys, there, status, safe = connection.rows(
            f"SELECT pg_catalog.pg_is_in_recovery(), {END}, pg_catalog.date_part('epoch', pg_catalog.clock_timestamp()),"
            f" pg_catalog.current_setting('synchronous_standby_names'), s.slot_name, {columns} FROM (SELECT 1) one"
            f" LEFT JOIN pg_catalog.pg_replication_slots s ON s.slot_name = {literal(self.subscription.slot)}",
            QUICK,
        )[0]
        at = exact_end(parse_lsn(end or "0/0"), parse_lsn(flushed or "0/0"), int(segment or 0))
        progress.server.note_answer(standbys or "", standby == "t", self.started)
        progress.stream.lag.note_answer(asked, time.time(), float(clock) if clock else None, at)
        if there:
            progress.slot.note(status or "", int(safe) if safe else None)
            self.warning.note(progress.slot.wal_status, progress.slot.safe_wal_size, self.most)
