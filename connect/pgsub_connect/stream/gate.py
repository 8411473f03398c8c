"""Lets the stream go on while a slot is made, where commits at the server wait for the follower.

The server makes a slot once transactions have ended that ran when it was asked for it. A commit
that waits for a synchronous follower is of one of them: its record is in the log, and its
transaction ends once the follower has confirmed that. So where the stream were held meanwhile, as
the module `stream.hold` says, each would wait for the other. It goes on here as far as that is
below the slot's consistent point P for certain, whatever that will be:

- Decoding becomes consistent at a record of the transactions that run, which the server writes once
  it has waited for those of the record before, one after the other, by a lock on each one's xid
  (`SnapBuildWaitSnapshot` in snapbuild.c). P is the end of that record.
- So while the process that makes the slot waits for such a lock (`pg_locks`), that record isn't
  written. Whatever is in the log by then is below P: all commits whose records begin before where
  the log ended at the look before this one.

Each commit of the transactions that the slot waits for is below that, and passes. Another process
may write such a record between the end of the last transaction and its lock's. Then P may be below
what was passed on, which shows once P is told: the slot isn't used.

Commits wait longer here than `MOST` seconds for nothing: whatever the stream is held for is given
up then.
"""

import contextlib
import fcntl
import os
import tempfile
import time
from collections.abc import Callable

from pgsub_feed.interruption import Check
from pgsub_feed.texts import parse_lsn

from ..errors import ServerError, understood
from ..server.connection import QUICK, Connection
from ..server.session import Subscription
from ..status.progress import Progress
from .hold import Hold

# How often it is looked whether the slot still waits, also after an error, in seconds.
LOOK, AGAIN = 0.01, 0.5
# For how many seconds commits may wait since the stream is held.
MOST = 1.5
# So many bytes of a table's or a store's files are read or copied within that time.
TABLE, COPIED = 4 << 20, 256 << 20
# A call of Linux that makes a file another one's copy without copying any of it.
CLONE = 0x40049409
CURE = (
    "take the follower out of synchronous_standby_names for that, or do it at a time without writes"
)
WAITED = f"commits at the server have waited for {MOST:g} seconds since the stream was held: {CURE}"


def waits_query(pid: int) -> str:
    return (
        "SELECT pg_catalog.pg_current_wal_insert_lsn(), EXISTS (SELECT FROM pg_catalog.pg_locks l"
        f" WHERE l.pid = {pid} AND l.locktype = 'transactionid' AND NOT l.granted)"
    )


class Gating:
    """Moves up to where the stream goes on. `let_go` is told why commits wait too long."""

    def __init__(
        self,
        subscription: Subscription,
        progress: Progress,
        hold: Hold,
        check: Check,
        let_go: Callable[[str], None],
    ) -> None:
        self.subscription, self.progress, self.hold = subscription, progress, hold
        self.check, self.let_go = check, let_go
        self.connection: Connection | None = None
        # when it is looked again, and where the log ended at the last look
        self.next, self.end = 0.0, 0
        # since when nothing is passed on
        self.since: float | None = None

    def step(self) -> None:
        """Called between payloads."""
        hold, now = self.hold, time.monotonic()
        if not hold.is_gated():
            self.close()
        elif now >= self.next:
            self.next = now + LOOK
            self.look()
        # (changes that are on their way end the hold themselves)
        stops = self.progress.server.is_waited_for and hold.stops() and not hold.is_sent
        self.since = (self.since or now) if stops else None
        if self.is_over():
            self.since = None
            self.let_go(WAITED)

    def is_over(self) -> bool:
        """Whether commits have waited for as long as they may."""
        return self.since is not None and time.monotonic() - self.since > MOST

    def look(self) -> None:
        """Looks whether the slot still waits: all that the last look saw is below it then."""
        try:
            if self.connection is None:
                self.connection = self.subscription.connect(self.check, "hold", quiet=True)
            with understood("the slot in the making"):
                end, waits = self.connection.rows(waits_query(self.hold.maker), QUICK)[0]
                at = parse_lsn(end or "0/0")
        except ServerError:
            # (the session says itself what is wrong)
            self.close()
            self.next = time.monotonic() + AGAIN
            return
        if waits == "t" and self.end > (self.hold.gate or 0):
            self.hold.open_to(self.end)
        self.end = at

    def end_session(self) -> None:
        self.since = None
        self.close()

    def close(self) -> None:
        if self.connection:
            self.connection.close()
        self.connection, self.end, self.next = None, 0, 0.0


def too_large_to_copy(store: str) -> str:
    """Why a store's file can't be copied while commits wait, "" where it can."""
    size = os.stat(store).st_size
    if size <= COPIED or is_shared(store):
        return ""
    return (
        f"commits at the server wait for the follower, and would as long as {size} bytes of the"
        f" store are copied: {CURE}"
    )


def is_shared(path: str) -> bool:
    """Whether the file system makes copies of a file that share its blocks, which takes no time."""
    path = os.path.realpath(path)
    with contextlib.suppress(OSError), open(path, "rb") as file:
        with tempfile.TemporaryFile(dir=os.path.dirname(path)) as copy:
            fcntl.ioctl(copy.fileno(), CLONE, file.fileno())
            return True
    return False
