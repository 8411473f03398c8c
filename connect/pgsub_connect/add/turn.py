"""The table that is added next: its definition and its rows, which are read beside the stream, and
their sender."""

import itertools
import threading
import time
from collections.abc import Callable, Iterable

from pgsub_feed.errors import Passing, Stopped, Unfit
from pgsub_feed.interruption import Check
from pgsub_feed.log import Meter
from pgsub_feed.relation import Relation

from ..copy.row_order import runs_of
from ..copy.source import Source
from ..copy.table_reader import BLOCK
from ..errors import NoSlot, ServerError
from ..server.catalog import Table
from ..server.publications import estimated_rows, sizes_of
from ..status.progress import Progress, ServerState
from ..stream.gate import MOST as LONGEST_WAIT, WAITED
from ..stream.memory_limit import BufferLimits
from ..stream.messages import HEADERS, clock
from ..stream.stream_log import Noting
from .kept_changes import KeptChanges
from .replacement import Rows, payload_of
from .requests import Stream, TooLarge, too_large, too_long
from .waiting_frames import WaitingFrames

# How long the slot may take to be made, and for how long somebody else may lock the table, in
# seconds.
SLOT, LOCK = 10.0, 5.0


class Turn(threading.Thread):
    """One table. `open_source` connects to the server; `described`: its definition, where it isn't
    published any more; `folder`: where the rows wait; `wake` is called once it is read.

    The thread reads it. What that finds is there once `has_read`.
    """

    def __init__(
        self,
        oid: int,
        open_source: Callable[[Check], Source],
        described: Relation | None,
        limits: BufferLimits,
        server: ServerState,
        folder: str,
        wake: Callable[[], None],
    ) -> None:
        super().__init__(daemon=True)
        self.oid, self.open_source, self.described = oid, open_source, described
        self.limits, self.server, self.wake = limits, server, wake
        self.given_up, self.is_read = threading.Event(), False
        self.source: Source | None = None
        self.table: Table | None = None
        # its rows, their number in each block of frames, and why they aren't there
        self.rows: Rows | None = None
        self.frames, self.counts = WaitingFrames(folder), list[int]()
        self.error: Exception | None = ServerError("its rows weren't read")
        # about how many rows it has, where the server knows that
        self.estimated: int | None = None
        # how far it is
        self.text = "waits for a slot"
        # what was found of the table before its rows were read
        self.texts: list[str] = []

    def run(self) -> None:
        try:
            self.read()
            self.error = None
        except (ServerError, Passing, Unfit, NoSlot, TooLarge, Stopped, OSError) as error:
            self.error = error
        self.is_read = True
        self.wake()

    def check(self) -> None:
        if self.given_up.is_set():
            raise Stopped

    def read(self) -> None:
        """Reads the table as it is at the consistent point of a slot that is made for that. It stays
        locked then, until `close`."""
        self.source = source = self.open_source(self.check)
        is_waited_for = self.server.note_standbys(source.standbys())
        self.table = source.narrow(self.oid, LOCK)
        size = sizes_of(source.plain, [self.table]).get(self.oid, 0) if self.table else 0
        if self.table and is_waited_for and (why := too_long(self.table, size)):
            # (it is tried again later, when they may not wait any more)
            raise Passing(why)
        table = self.table or self.table_that_left()
        if table is None:
            return
        point, snapshot = source.make_slot(SLOT, self.check)
        source.see(snapshot)
        self.rows = Rows(table, point, clock())
        if self.table:
            self.estimated = estimated_rows(source.plain, [table])
            self.read_rows(self.rows, source, size)

    def table_that_left(self) -> Table | None:
        """The definition that it had: its rows are to go."""
        it = self.described
        return Table(it.oid, it.namespace, it.name, "r", it.shape) if it else None

    def read_rows(self, rows: Rows, source: Source, size: int) -> None:
        """Reads the rows, in the order of the store's index where the server can sort them."""
        plain, meter = source.plain, Meter(f"reading {rows.table.text()}")
        runs = runs_of(plain, rows.table, size)
        for lines in itertools.chain.from_iterable(it.blocks(plain, BLOCK) for it in runs):
            self.check()
            self.frames.append(rows.rows(lines))
            self.counts.append(len(lines))
            self.check_size(rows)
            meter.note(rows.count, self.estimated)
            self.text = f"its rows are read: {meter.text(rows.count, self.estimated)}"

    def check_size(self, rows: Rows, more: int = 0) -> None:
        """Raises where so much may not be passed on."""
        most = self.limits.max_buffered
        if most is not None and rows.cost + more > most:
            raise TooLarge(too_large(rows.table, rows.cost + more, most))
        if rows.longest > self.limits.max_frame:
            text = f"{rows.table.text()} has a row of {rows.longest} bytes: give the follower a --max-frame above that"
            raise TooLarge(text)

    def has_read(self) -> bool:
        """Whether it is read, or can't be."""
        return self.is_read or not self.is_alive()

    def point(self) -> int:
        """The LSN at which the rows are stored, 0 where there are none yet."""
        return self.rows.point if self.rows else 0

    def is_gone(self) -> bool:
        """Whether it isn't published any more, and its rows are to go."""
        return self.rows is not None and self.table is None

    def relation(self) -> Relation:
        assert self.rows
        it = self.rows.table
        return Relation(it.oid, it.namespace, it.name, it.shape)

    def note_found(self, texts: list[str]) -> None:
        self.texts = texts

    def take_found(self) -> list[str]:
        """What was found of the rows that were there before. It is told once."""
        texts, self.texts = self.texts, []
        return texts

    def unlock(self) -> None:
        """The table may be altered."""
        if self.source:
            self.source.close()
        self.source = None

    def close(self) -> None:
        """It is given up, or done."""
        self.given_up.set()
        if self.ident is not None:
            self.join()
        self.unlock()
        self.frames.close()


class RowsSender:
    """Gives them to the stream, as one transaction."""

    def __init__(self, progress: Progress, noting: Noting, stream: Stream) -> None:
        self.progress, self.noting, self.stream = progress, noting, stream

    def send(self, turn: Turn, rows: Rows, kept: KeptChanges) -> None:
        """Passes on the whole transaction."""
        began, meter = time.monotonic(), Meter(f"adding {rows.table.text()}")
        for it in rows.opening():
            self.push(it, [payload_of(it)])
        done = 0
        for block, count in zip(turn.frames.blocks(), turn.counts, strict=True):
            self.check(began)
            self.push(block, [])
            self.noting.note_rows(rows.table.oid, count, len(block))
            done += count
            meter.note(done, rows.count)
        for payloads in kept.blocks(rows.told):
            self.check(began)
            self.push(b"".join(map(framed, payloads)), payloads)
        self.push(last := rows.closing(), [payload_of(last)])

    def check(self, began: float) -> None:
        """Raises where commits have waited for too long."""
        if self.progress.server.is_waited_for and time.monotonic() - began > LONGEST_WAIT:
            raise TooLarge(WAITED)

    def push(self, frames: bytes, payloads: Iterable[bytes]) -> None:
        """Passes frames on; `payloads`: those that are noted one by one."""
        if payloads:
            self.noting.note_all(list(payloads))
        self.stream.push(frames)
        self.noting.show()


def framed(payload: bytes) -> bytes:
    return HEADERS[len(payload)] + payload
