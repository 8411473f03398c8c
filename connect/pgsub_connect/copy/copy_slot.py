"""The slot of an initial copy, and its snapshot.

The rows are read under the snapshot that a temporary slot exports, of which the lasting slot is
made as a copy at once. Nobody follows that one as long as rows are copied, so it is looked at now
and then.
"""

import contextlib
import select
import time

from pgsub_feed import log
from pgsub_feed.errors import Unfit
from pgsub_feed.interruption import Check, limited
from pgsub_feed.texts import counted, identifier, literal, lsn_text

from ..errors import ServerError
from ..server.connection import QUICK, Connection
from ..server.publication_setup import REFUSED
from ..server.session import POSITION, Subscription, is_lost, of_slot, settle, slot_position
from ..server.slot import IDLE, idle_limit
from ..server.waits import Waiting
from .slots import create_temporary
from .table_reader import take_snapshot

# How often it is looked whether the slot is lost, and how long a drop of it may take, in seconds.
LOOK, LIMIT = 60.0, 10.0
# A slot that is idle may end sooner than any pause of the copy, below so many seconds.
SHORTEST = 10.0
# after these a command may have had its effect: a lost connection, the end of the session
LEFT_OPEN = ("08", "57")
LOST = (
    "the slot {} is lost: the server has removed log that it needs (max_slot_wal_keep_size), or has ended it as idle"
    " (idle_replication_slot_timeout). Nothing can follow on this copy: raise the limit, and start again, to copy anew"
)


class CopySlot:
    """The connections of an attempt: one that makes the slots, and one with a transaction that
    keeps the snapshot. `check_stop` raises where the end was asked for."""

    def __init__(self, subscription: Subscription, check_stop: Check) -> None:
        self.subscription, self.check_stop = subscription, check_stop
        self.replication: Connection | None = None
        self.holder: Connection | None = None
        # when the lasting slot was looked at, None where there is none yet; and how often it is
        self.looked: float | None = None
        self.look_each = LOOK

    def connect(self) -> Connection:
        """Begins an attempt."""
        self.replication = self.subscription.connect(self.check_stop, replication=True)
        return self.replication

    def close(self) -> None:
        for connection in self.connections():
            connection.close()
        self.replication = self.holder = self.looked = None

    def connections(self) -> list[Connection]:
        return [it for it in (self.replication, self.holder) if it]

    def sockets(self) -> dict[int, Connection]:
        return {it.socket(): it for it in self.connections()}

    def check(self) -> None:
        """Looks for the end, and now and then at the slot."""
        self.check_stop()
        self.look()

    def check_all(self) -> None:
        """Looks for the end, and whether the connection is there that holds the snapshot."""
        self.check_stop()
        for socket, connection in self.sockets().items():
            if select.select([socket], [], [], 0)[0]:
                connection.consume()

    def make_temporary(self) -> tuple[str, int, str]:
        """Makes the temporary slot, as soon as transactions end; its name, point and snapshot."""
        assert self.replication is not None
        with self.replication.checked_by(Waiting(self.subscription, self.check_stop).check):
            return create_temporary(self.replication, f"{self.subscription.slot[:40]}_copy")

    def hold_snapshot(self, snapshot: str) -> str:
        """Has a transaction without locks keep the slot's snapshot, and export it for others."""
        self.holder = holder = self.subscription.connect(self.check_all, "copy")
        settle(holder)
        holder.run("BEGIN ISOLATION LEVEL REPEATABLE READ READ ONLY")
        take_snapshot(holder, snapshot)
        return holder.text("SELECT pg_catalog.pg_export_snapshot()")

    def make_lasting(self, temporary: str) -> None:
        """Makes the lasting slot of the temporary one."""
        assert self.replication is not None
        self.replication.rows(
            f"SELECT pg_catalog.pg_copy_logical_replication_slot({literal(temporary)},"
            f" {literal(self.subscription.slot)}, false)"
        )

    def begin_lasting(self, temporary: str, point: int) -> None:
        """The lasting slot is there: it is looked at from here on, and the temporary one goes."""
        replication, slot = self.replication, self.subscription.slot
        assert replication is not None
        if slot_position(replication, slot) != point:
            raise ServerError(f"the slot {slot} is not at {lsn_text(point)}")
        replication.run(f"DROP_REPLICATION_SLOT {identifier(temporary)}")
        self.looked, self.look_each = time.monotonic(), look_for(idle_limit(replication))

    def look(self) -> None:
        """Looks now and then whether the lasting slot is lost, so that nothing can follow."""
        replication, slot, now = self.replication, self.subscription.slot, time.monotonic()
        if self.looked is None or not replication or now - self.looked < self.look_each:
            return
        self.looked = now
        if is_lost(replication, slot):
            raise ServerError(LOST.format(slot), REFUSED)
        if replication.version() >= IDLE:
            # (what it is already: the server takes the slot for one in use, or that shows later)
            with contextlib.suppress(ServerError):
                replication.run(
                    f"ALTER_REPLICATION_SLOT {identifier(slot)} (FAILOVER false)", limit=QUICK
                )

    def drop(self, position: int) -> bool:
        """Drops the lasting slot by a connection of its own. Returns whether it is gone."""
        slot, check = self.subscription.slot, limited(LIMIT, ServerError("no answer"))
        log.info(f"dropping the slot {slot} again, which may take {LIMIT:.0f} seconds")
        try:
            connection = self.subscription.connect(check, "copy", quiet=True)
            with contextlib.closing(connection):
                # (one that was moved since is somebody else's)
                if connection.value(of_slot(POSITION, slot)) == str(position):
                    drop = "pg_catalog.pg_drop_replication_slot(s.slot_name)"
                    connection.rows(of_slot(drop, slot))
        except (ServerError, Unfit) as error:
            log.warning(f"the slot {slot} was made and not dropped again: {error}")
            return False
        return True


def is_left_open(error: ServerError) -> bool:
    """Whether a command may have had its effect, whatever the error says."""
    return not error.sqlstate or error.sqlstate.startswith(LEFT_OPEN)


def look_for(limit: float | None) -> float:
    """How often a slot is looked at that the server ends where nobody uses it for so long."""
    if limit is None:
        return LOOK
    if limit < SHORTEST:
        log.warning(
            f"idle_replication_slot_timeout is {counted(round(limit), 'second')}: any pause may lose the slot"
        )
    return min(LOOK, limit / 3)
