"""The initial copy: the rows that were there before the slot.

They are those of the snapshot that a slot exports (`copy.copy_slot`), and the filter loads them as
COPY's own text before its first session (`copy.sender`). Its load ends at the slot's
consistent point P, so a store is at that LSN exactly if no more rows come in this way; before, it is
at a position that is none of a server's. The filter stays, and follows. What a fault leaves, by the
checkpoint's phase:

| Phase | The lasting slot | How it goes on |
|---|---|---|
| `copying` | isn't there | begins anew |
| `slot` | is there at P, or isn't | the tables are kept of which the store has as many rows as were read, and follow from the slot; the others are added one by one |
| `copied` | is there at P | the store is complete |

It begins anew, and the slot is dropped, where no table is stored whole, or one that isn't is too
large to be added by itself. A table that was altered, truncated or locked beside the slot is added
by itself, too, as the module `add.adder` says.
"""

import contextlib
import dataclasses
import time
from functools import partial

from pgsub_feed import log
from pgsub_feed.errors import FileError, Passing, Unfit
from pgsub_feed.interruption import rest, undone_by
from pgsub_feed.log import Meter
from pgsub_feed.program import Worker
from pgsub_feed.texts import counted, lsn_text

from ..errors import ServerError
from ..preconditions import require, require_reading
from ..server.connection import Connection
from ..server.publication_setup import Maker, Wanted
from ..server.publications import estimated_rows, stored_in
from ..server.session import Server, identify, settle, slot_position
from ..server.waits import Waiting, lock_text
from ..store.checkpoint_lines import COPIED, COPYING, SLOT
from ..stream.common import Common, note_server
from ..stream.filter import Filter
from ..stream.filter_end import FilterEnded
from ..stream.memory_limit import BufferLimits, limit_text
from .copy_slot import CopySlot, is_left_open
from .interrupted import CopyFiles, Interrupted
from .rows_beside import RowsBeside
from .sender import Sender
from .slots import drop_slot, set_failover
from .table_reader import LOCK_TIMEOUT, Item, Items, Left, Part, Readers, Reading
from .tables import CopiedTables
from .tries import CHANGED, Tries

# how often it is noted how many rows tables have, in seconds
NOTED = 1.0


@dataclasses.dataclass(frozen=True)
class CopySettings:
    """Where the copy is made, what is published for it where nothing is yet, and how it is read:
    by so many connections. `failover`: the slot is synchronized to standbys; `messages`: those are
    asked for later."""

    store: str
    wanted: Wanted
    limits: BufferLimits
    failover: bool = False
    jobs: int = 2
    mode: int = 0o600
    messages: bool = False


class Copier(Worker):
    """Makes publication, store and slot."""

    def __init__(
        self, settings: CopySettings, common: Common, child: Filter, beside: RowsBeside
    ) -> None:
        self.settings, self.filter, self.beside = settings, child, beside
        self.subscription, _, self.checkpoint, self.progress, self.remembered = common
        subscription, remembered = self.subscription, self.remembered
        self.was_connected = False
        self.files = CopyFiles(settings.store, settings.mode)
        self.slot = CopySlot(subscription, self.check_stop)
        self.sender = Sender(child, self.slot)
        self.tables = tables = CopiedTables(subscription, remembered)
        most = settings.limits.max_buffered
        self.interrupted = Interrupted(self.files, tables, self.sender, most)
        made = remembered.made, remembered.keep_made
        self.maker = Maker(subscription, settings.wanted, self.check_stop, *made, require_reading)
        # how many rows of a table were sent, and when it was noted last how many tables have
        self.rows, self.noted = 0, 0.0
        self.meter = Meter("copying")

    def run(self) -> None:
        """Copies until it is done, anew where server or filter are lost, or takes all back."""
        self.files.take(self.checkpoint.known.phase)
        tries = Tries()
        try:
            while not self.attempted(tries):
                rest(tries.next_delay(), self.check_stop)
        except BaseException as error:
            self.beside.abandon()
            self.give_up(error)
            raise

    def give_up(self, error: BaseException) -> None:
        """Drops what was made, unless the next start can go on with it."""
        known = self.checkpoint.known
        if known.phase == SLOT:
            is_lasting = isinstance(error, (FilterEnded, Unfit, FileError))
            is_lasting = is_lasting or isinstance(error, ServerError) and error.is_lasting()
            if self.remembered.copied and not is_lasting:
                with contextlib.suppress(FileError, Passing):
                    self.remembered.save()
                log.info(
                    "the slot stays, and the next start goes on with what was copied; `pgsub-connect drop` ends it"
                )
                return
            if not self.slot.drop(known.confirmed):
                return
            self.forget_slot()
        if known.phase != COPIED:
            self.remembered.forget_made(self.maker.take_back())

    def attempted(self, tries: Tries) -> bool:
        """One attempt. Returns whether it made the copy, and raises where another one makes no
        sense. The filter stays where it has loaded all rows."""
        is_made = False
        try:
            self.attempt()
            is_made = True
        except FilterEnded as ended:
            ended.note_cure(limit_text(ended, self.settings.limits, (0, 0), self.sender.longest))
            if ended.cure:
                log.error(ended.cure)
            if ended.is_rejection():
                raise
            tries.note("", ended)
            self.note(str(ended))
        except ServerError as error:
            if str(error) == CHANGED or error.sqlstate == LOCK_TIMEOUT:
                tries.note(CHANGED, error)
            elif error.is_lasting():
                raise
            elif not self.was_connected:
                raise Passing(str(error)) from None
            else:
                tries.note(error.sqlstate, error)
            self.note(str(error))
        finally:
            if not is_made:
                self.filter.kill()
            self.slot.close()
        return is_made

    def note(self, text: str) -> None:
        log.warning(f"{text}: the copy {'goes on' if self.remembered.copied else 'begins anew'}")
        self.progress.note_error(text)

    def check_stop(self) -> None:
        self.progress.beat()
        super().check_stop()

    def attempt(self) -> None:
        """Copies, or goes on where the slot is there already."""
        self.progress.enter("copying")
        replication, slot = self.slot.connect(), self.subscription.slot
        self.was_connected = True
        settle(replication)
        server = identify(replication)
        self.progress.note_login(replication.version(), server.timeline)
        slot_at = slot_position(replication, slot)
        if slot_at is None:
            self.copy_anew(replication, server)
        else:
            self.check_own(server, slot_at)
            names = self.remembered.publications() or self.subscription.publications
            self.subscription.note_publications(names)
            if self.checkpoint.known.phase == SLOT and not self.goes_on(replication, slot_at):
                drop_slot(replication, slot)
                self.forget_slot()
                self.copy_anew(replication, server)
        set_failover(replication, slot, self.settings.failover)
        self.keep()

    def check_own(self, server: Server, slot_at: int) -> None:
        """Rejects a slot that isn't the one of an earlier run's copy."""
        known, slot = self.checkpoint.known, self.subscription.slot
        is_ours = (known.system, known.slot, known.confirmed) == (server.system, slot, slot_at)
        if not is_ours or not (
            known.phase == SLOT or known.phase == COPIED and self.interrupted.is_complete(slot_at)
        ):
            raise Unfit(
                f"the slot {slot} is there already, and there is no store {self.settings.store}: drop the slot, or name"
                " another one, or say --no-copy to begin where it is, without the rows from before"
            )

    def forget_slot(self) -> None:
        """The lasting slot isn't there any more."""
        self.checkpoint.write(True, phase=COPYING)

    def copy_anew(self, replication: Connection, server: Server) -> None:
        """Makes publication, rows and slot."""
        wanted = self.settings.failover, self.settings.messages
        require(replication, self.subscription.slot, True, *wanted)
        self.clear()
        self.checkpoint.begin_anew()
        note_server(self.checkpoint, server, self.subscription.slot, phase=COPYING)
        self.maker.make()
        self.subscription.note_publications(self.maker.publications)
        with self.subscription.connected("copy", self.slot.check_all) as plain:
            self.copy(plain)

    def clear(self) -> None:
        """Removes what an earlier run left."""
        self.progress.copy.begin()
        self.files.clear(self.checkpoint.known.position)
        self.remembered.begin_anew()

    def copy(self, plain: Connection) -> None:
        """Makes the slot, and reads the tables under its snapshot."""
        beside = self.beside
        # (from 16 on the server locks a table to say what is published of it)
        what = partial(lock_text, "the copy", plain.pid())
        waiting = Waiting(self.subscription, self.slot.check_all, what)
        with plain.checked_by(waiting.check):
            tables = self.tables.published(plain)
            files = stored_in(plain, tables)
            self.progress.copy.note_total(estimated_rows(plain, tables), len(tables))
            before = self.tables.catalog(plain)
            temporary, point, snapshot = self.slot.make_temporary()
            snapshot = self.slot.hold_snapshot(snapshot)
            tables = self.tables.choose(plain, tables, before, point)
        self.remembered.note_made(self.maker.made)
        self.remembered.save()
        beside.prepare()
        self.make_lasting(temporary, point)
        log.info(f"copying {counted(len(tables), 'table')} as of {lsn_text(point)}")
        read = [it for it in tables if it.oid not in self.tables.later]
        settings, sizes = self.settings, self.tables.sizes
        reading = Reading(settings.jobs, snapshot, read, sizes, files, settings.limits.max_frame)
        # (from here on another thread asks the connection)
        with plain.checked_by(self.check_stop), contextlib.closing(
            Readers(self.subscription, reading, plain, beside)
        ) as readers:
            self.send(readers, point)
        if self.tables.forget_gone(plain):
            beside.abandon()
        self.end_copy(point)
        log.info(f"copied {counted(self.progress.copy.rows, 'row')}")

    def make_lasting(self, temporary: str, point: int) -> None:
        """Makes the lasting slot. The publications stay then, unless it certainly wasn't made."""
        self.checkpoint.write(True, phase=SLOT, confirmed=point, position=point)
        try:
            self.slot.make_lasting(temporary)
        except ServerError as error:
            if not is_left_open(error):
                self.forget_slot()
            raise
        self.slot.begin_lasting(temporary, point)

    def send(self, readers: Readers, point: int) -> None:
        """Sends all rows to a filter on a new file."""
        self.sender.begin(self.beside.filter_words())
        self.beside.begin(point)
        readers.begin()
        # (for which the readers may wait)
        with undone_by(self.beside.abandon):
            while item := self.next_item(readers.items):
                if isinstance(item, Left):
                    self.tables.leave(item.table.oid, item.why)
                else:
                    self.send_part(item)

    def next_item(self, items: Items) -> Item | None:
        """What the connections have read next, None after the last."""
        self.sender.wait_for(items.has_news, items.reads)
        while not (item := items.take()) and items.writers:
            self.sender.wait_for(items.has_news, items.reads)
        assert item or items.is_empty()
        return item

    def send_part(self, part: Part) -> None:
        """Sends some rows. Behind the last ones of a table it is noted how many it has: so a next
        start knows whether it is stored whole."""
        self.progress.copy.begin_part(part.table.text())
        self.sender.send_part(part)
        copy = self.progress.copy
        copy.note_part(part.rows, part.is_last)
        self.meter.note(copy.rows, copy.total_rows, part.table.text())
        self.rows = part.rows if part.is_first else self.rows + part.rows
        if part.is_last:
            self.remembered.note_copied(part.table.oid, self.rows)
            if time.monotonic() - self.noted > NOTED:
                self.remembered.save()
                self.noted = time.monotonic()

    def end_copy(self, point: int) -> None:
        """Brings the store to the slot's point, once the tables are noted that come later."""
        self.end_tables(point)
        if self.beside.is_ready(self.slot.check):
            self.sender.end(point)
        else:
            self.sender.cut()
            self.interrupted.bring(point)
        self.note_complete(point)

    def end_tables(self, point: int) -> None:
        """Notes all that a next start has to know once the store is at that point."""
        self.tables.want_later(point)
        self.remembered.save()
        self.progress.copy.end()

    def note_complete(self, point: int) -> None:
        self.files.keep()
        self.checkpoint.write(True, phase=COPIED, confirmed=point, position=point)

    def goes_on(self, replication: Connection, point: int) -> bool:
        """Goes on with the tables that an earlier attempt has stored whole. Returns false where
        nothing comes of them."""
        left = self.interrupted
        if not left.is_of_use(replication):
            return False
        if (position := left.position()) != point:
            self.files.check_own(position, point)
            if (missing := left.missing()) is None:
                return False
            self.tables.leave_cut(missing, point)
            self.end_tables(point)
            left.bring(point)
        self.note_complete(point)
        return True

    def keep(self) -> None:
        """The copy is there."""
        self.remembered.end_copy()
        self.beside.end()
