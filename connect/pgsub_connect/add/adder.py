"""Adds tables to a running copy, one after the other, as the module `add.replacement` says: what a
follower does between its payloads.

| Phase | What holds | Goes on |
|---|---|---|
| IDLE | the table's changes are left out | once it is time: they are kept, and the table is read |
| READING | its slot is made, it is locked, and its rows are read into a file. The stream is held for a second, and goes on then | once all are read |
| SEEKING | the stream goes on to the next place where their transaction may stand | once that has come: the rows are passed on, and the kept changes |
| SENT | all is passed on, or nothing where the session is to end | once the store is at P: the table is there |

The session is to end where it has described the table otherwise than its rows: then another one
begins at P.

Where the server makes no slot in time, or the table is altered or locked, later it is tried again;
so it is where the rows don't fit on the disk of open transactions, once. Where one of its changes
came under another definition meanwhile, that is in another session, and so it is where what was read
can't be passed on to its end, since a transaction is open then. A table that can't be added is
refused: it stays as it was, its changes stay left out, and that is a finding. One that isn't
published any more is no longer added; where its rows are to go, the transaction has none.
"""

import errno
import os
import time
from collections.abc import Callable
from typing import Any

from pgsub_feed import log
from pgsub_feed.errors import Passing, Stopped, Unfit
from pgsub_feed.texts import counted, lsn_text

from ..drift.findings import PUBLICATION, About
from ..errors import NoSlot, Renewed, ServerError
from ..stream.common import Common
from ..stream.filter_end import NO_ROOM, FilterEnded
from ..stream.hold import Hold
from ..stream.memory_limit import BufferLimits
from ..stream.place import Place
from ..stream.statuses import Confirming
from .kept_changes import KeptChanges
from .replacement import LeftOut, Rows
from .requests import Publications, Requests, Stream, TooLarge, too_roomy
from .retries import ROOMLESS, Retries
from .turn import SLOT, RowsSender, Turn

IDLE, READING, SEEKING, SENT = "idle", "reading", "seeking", "sent"
# For how many seconds the stream is held while rows are read: those of a small table are there then.
HELD = 1.0


class Adder:
    """The tables that are being added."""

    def __init__(
        self,
        common: Common,
        store: str,
        limits: BufferLimits,
        watch: Publications,
        confirming: Confirming,
        hold: Hold,
        place: Place,
        stream: Stream,
        wake: Callable[[], None],
    ) -> None:
        _, _, self.checkpoint, self.progress, self.remembered = common
        self.store, self.limits, self.watch = store, limits, watch
        self.confirming, self.hold, self.place = confirming, hold, place
        self.stream, self.wake = stream, wake
        self.left_out = LeftOut(self.checkpoint, self.remembered)
        self.leaving = self.left_out.leaving
        self.requests = Requests(common, store, limits, stream)
        self.sender = RowsSender(self.progress, confirming.noting, stream)
        self.phase, self.retries = IDLE, Retries()
        # what was told of how far it is, and until when the stream is held for it
        self.text, self.until = "", 0.0
        # the table whose turn it is, and its changes since; None where there is none
        self.turn: Turn | None = None
        self.kept: KeptChanges | None = None
        # whether the session ends once the rows of a table are stored
        self.ends_session = False
        # the rows that were passed on and aren't stored yet
        self.sent: Rows | None = None

    # what is to be added

    def begin(self) -> None:
        """A run begins: what was refused is tried again."""
        wanted = self.remembered.wanted
        if any(wanted.values()):
            self.remembered.want(wanted)
        self.show()

    def take(self, asked: dict[str, Any]) -> str | None:
        """Takes a request for tables. Returns why it is rejected."""
        error = self.requests.take(asked)
        if error is None:
            self.retries.hurry()
            self.show()
        return error

    # sessions

    def wants_session(self) -> bool:
        """Whether a session is to begin in place of the one that runs: changes are left out from
        its start, of whole transactions, and tables are described anew."""
        return self.phase == IDLE and (self.ends_session or self.left_out.wants_session())

    def begin_session(self, position: int, streams: bool) -> bool:
        """A session begins at a store's position. Returns whether it has to be one of whole
        transactions.

        A table whose LSN the store has reached is there; any other's snapshot is gone.
        """
        for oid, point in self.checkpoint.adding().items():
            if point and position >= point:
                self.finish(oid, point)
        is_whole = self.left_out.begin_session(streams)
        self.retries.wake()
        self.show()
        return is_whole

    def end_session(self) -> None:
        """A session has ended, and with it what was under way."""
        self.close()
        self.place.end()
        self.phase, self.ends_session, self.sent = IDLE, False, None

    def note_end(self, ended: FilterEnded) -> bool:
        """Notes a filter's end. Returns whether a table is given up by that, whose rows didn't fit on
        the disk of open transactions twice."""
        rows, spool = self.sent, self.confirming.filter.spool
        if ended.said != NO_ROOM or rows is None or spool is None:
            return False
        return self.has_no_room(rows, spool.path, spool.had)

    def has_no_room(self, rows: Rows, path: str, had: int) -> bool:
        """Rows didn't fit on a disk that has had so many bytes for them. Returns whether their table
        is given up."""
        if not self.retries.are_too_many(rows.table.oid, NO_ROOM, ROOMLESS):
            return False
        estimated = self.turn.estimated if self.turn else None
        part = rows.count / max(estimated or 0, rows.count, 1)
        size = max(int(rows.cost / part) if part else 0, had)
        self.refuse(rows.table.oid, too_roomy(rows.table, size, path, had))
        return True

    # one table

    def step(self) -> None:
        """Goes on with a table, where that is possible now. Called between payloads."""
        turn = self.turn
        if self.phase == SENT and turn and self.confirming.position >= turn.point():
            self.finish(turn.oid, turn.point())
            self.close()
            self.phase = IDLE
            self.retries.succeed()
        elif self.phase == IDLE and self.leaving.points and not self.hold.is_held:
            if self.retries.is_time():
                self.begin_reading()
        elif self.phase == READING and turn:
            if turn.has_read():
                self.end_reading(turn)
                return
            if self.progress.server.is_waited_for:
                self.hold.keep_first(self.place.hurry())
            elif time.monotonic() > self.until:
                self.place.go_on()
            if turn.text != self.text:
                self.show(turn.text)
        elif self.phase == SEEKING and turn and self.place.is_found():
            self.send(turn)

    def is_adding(self) -> bool:
        """Whether a table is under way."""
        return self.phase != IDLE

    def begin_reading(self) -> None:
        """Reads a table beside the stream, and keeps its changes from now on."""
        oid = self.left_out.next_oid()
        if not oid:
            self.retries.rest()
            return
        unwanted = oid in self.remembered.unwanted
        described = self.remembered.described(oid) if unwanted else None
        server, folder = self.progress.server, self.folder()
        try:
            asked = oid, self.requests.open, described
            self.turn = turn = Turn(*asked, self.limits, server, folder, self.wake)
            self.kept = kept = KeptChanges(oid, folder, self.confirming.reached())
            self.leaving.keep(kept)
            self.place.begin(kept.reached, is_urgent=server.is_waited_for)
            self.until = time.monotonic() + HELD
            turn.start()
        except OSError as error:
            self.fail(oid, Passing(f"{folder}: {error.strerror}"))
        except RuntimeError as error:
            # (threads or memory may be too few)
            self.fail(oid, Passing(str(error)))
        else:
            self.phase = READING
            self.show(turn.text)

    def folder(self) -> str:
        """Where rows wait to be passed on."""
        spool = self.confirming.filter.spool
        return spool.folder if spool else os.path.dirname(os.path.abspath(self.store))

    def end_reading(self, turn: Turn) -> None:
        """Looks for the place of the rows, where they were read."""
        assert self.kept
        try:
            if turn.error:
                raise turn.error
            self.kept.require()
            if turn.rows and turn.rows.read <= self.kept.reached:
                at, reached = lsn_text(turn.rows.read), lsn_text(self.kept.reached)
                text = (
                    f"its slot is at {at}, and the stream at {reached}: is it of a standby behind?"
                )
                raise Passing(text)
        except OSError as error:
            self.fail_on_disk(turn, error)
            return
        except TooLarge as error:
            self.refuse(turn.oid, str(error))
            return
        except (ServerError, NoSlot, Passing, Stopped, Unfit) as error:
            self.fail(turn.oid, error)
            return
        if turn.rows is None:
            self.give_up()
            log.warning(
                f"{self.remembered.text_of(turn.oid)} isn't published any more: it isn't added, and the rows that it had stay"
            )
            self.forget(turn.oid)
            return
        turn.note_found(self.found(turn))
        turn.unlock()
        self.kept.begin_at(turn.rows.read)
        if self.place.holds:
            # (no change behind the slot's point was passed on or kept)
            self.left_out.note_point(turn.oid, turn.rows.read)
        self.place.seek(turn.rows.read)
        self.phase = SEEKING
        self.show("waits for its place in the stream")

    def found(self, turn: Turn) -> list[str]:
        """Looks at the publications while the table is locked: what is found of it up to here is of
        rows that go.

        Unless it was altered behind its slot, which makes nothing wrong of the rows then, but of
        their values.
        """
        if turn.is_gone():
            return self.remembered.found_of(turn.oid)
        if self.watch.look_again(self.stream.attend, self.confirming.position):
            now = self.remembered.catalog.tables.get(turn.oid) if self.remembered.catalog else None
            if now and now.shape == turn.relation().shape:
                return self.remembered.found_of(turn.oid)
        return []

    def send(self, turn: Turn) -> None:
        """Passes on the rows, and what was kept. Where that fails, the session ends."""
        rows, kept = turn.rows, self.kept
        assert rows and kept
        if kept.has_others(rows.relation):
            self.fail(turn.oid, Passing("it was altered while its rows were read"))
            raise Renewed("the session ends, since a table was described otherwise than its rows")
        rows.stand_at(self.place.point)
        self.progress.enter("adding a table")
        self.show("its rows are passed on")
        self.left_out.note_point(turn.oid, rows.point)
        self.remembered.replaced(turn.relation(), rows.lsn)
        self.sent = rows
        try:
            kept.require()
            turn.check_size(rows, kept.size())
            self.sender.send(turn, rows, kept)
        except TooLarge as error:
            self.refuse(turn.oid, str(error))
            raise Renewed("the session ends, since a table can't be added") from None
        except OSError as error:
            self.fail(turn.oid, Passing(f"{self.folder()}: {error.strerror}"))
            raise Renewed("the session ends, since a table's rows can't be read") from None
        self.ends_session = self.leaving.has_described_otherwise(rows.relation)
        self.leaving.keep(None)
        if not self.ends_session:
            self.leave_place()
        self.phase = SENT
        self.progress.enter("following")
        log.info(f"{rows.table.text()}: {counted(rows.count, 'row')} as of {lsn_text(rows.read)}")

    def close(self) -> None:
        """What was read and kept goes."""
        self.leaving.keep(None)
        if self.turn:
            self.turn.close()
        if self.kept:
            self.kept.close()
        self.turn = self.kept = None

    def finish(self, oid: int, point: int) -> None:
        """The store has a table's rows."""
        self.sent = None
        log.info(f"{self.remembered.text_of(oid)} is there, complete as of {lsn_text(point)}")
        is_its_turn = self.turn is not None and self.turn.oid == oid
        self.forget(oid, self.turn.take_found() if self.turn and is_its_turn else [])

    def forget(self, oid: int, texts: list[str] | None = None) -> None:
        """A table is no longer among those that are added; what was found of its rows goes."""
        self.checkpoint.accept(self.remembered.added(oid, texts or []))
        self.left_out.release(oid)
        self.watch.show()
        self.show()

    def fail_on_disk(self, turn: Turn, error: OSError) -> None:
        """Notes that the disk failed on which rows wait."""
        spool = self.confirming.filter.spool
        if turn.rows and spool and error.errno == errno.ENOSPC:
            if self.has_no_room(turn.rows, spool.path, spool.room()):
                return
        self.fail(turn.oid, Passing(f"{self.folder()}: {error.strerror}"))

    def fail(self, oid: int, error: Exception) -> None:
        """Notes what was in the way, for this time or for good."""
        self.give_up()
        text = f"{self.remembered.text_of(oid)}: {reason(error)}"
        if self.retries.is_over(oid, error):
            self.refuse(oid, text)
            return
        self.retries.wait()
        log.warning(f"{text}: it is added later")
        self.show(reason(error))

    def give_up(self) -> None:
        """The stream goes on without the rows."""
        self.close()
        self.leave_place()
        self.phase = IDLE
        self.progress.enter("following")

    def leave_place(self) -> None:
        """The stream goes on, with what was kept back."""
        self.hold.keep_first(self.place.end())

    def refuse(self, oid: int, why: str) -> None:
        """Notes why a table can't be added. What is there of it isn't right, so that is found."""
        self.give_up()
        if oid in self.remembered.partial:
            # (its changes are left out without that, and others need the room)
            self.left_out.forget(oid)
        self.remembered.refuse(oid, why)
        text = f"table {self.remembered.text_of(oid)} can't be added: {why}"
        self.remembered.found.find(PUBLICATION, self.confirming.position, text, About((oid,)))
        self.show()
        self.watch.keep()

    def show(self, how: str = "") -> None:
        """Tells the progress which tables are being added. `how`: how far the one is whose turn it
        is."""
        self.text = how
        texts, text_of = dict[str, str](), self.remembered.text_of
        turn = self.turn.oid if self.turn else self.left_out.next_oid()
        for oid in dict.fromkeys((*self.checkpoint.adding(), *self.remembered.wanted)):
            waits = how if how and oid == turn else "waits"
            texts[text_of(oid)] = self.remembered.wanted.get(oid) or waits
        self.progress.findings.note_adding(texts)


def reason(error: Exception) -> str:
    if isinstance(error, NoSlot):
        return f"the server made no slot in {SLOT:g} seconds, since it waits for all transactions that run"
    return str(error).removesuffix(": nothing was compared")
