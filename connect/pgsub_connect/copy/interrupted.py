"""The files of an initial copy, the store's own; and what an interrupted one has left: a store at a
position that is none of a server's, in which some tables are whole. It goes on with these."""

import collections
import contextlib
import os
import sqlite3

from pgsub_feed import log
from pgsub_feed.errors import Unfit, told_of
from pgsub_feed.files import LOG, meant, sync_folder
from pgsub_feed.interruption import Check
from pgsub_feed.ownership import set_mode
from pgsub_feed.tables.sqlite_files import failed
from pgsub_feed.texts import counted, lsn_text

from ..server.catalog import Table
from ..server.connection import Connection
from ..server.publications import sizes_of
from ..server.session import is_lost
from ..store.at_rest import MOST_PARTS, hold
from ..store.checkpoint_lines import COPIED, COPYING, SLOT
from ..store.file import is_store, opened, position_in
from ..stream.filter_end import FilterEnded
from .sender import Sender
from .tables import CopiedTables


class CopyFiles:
    """A store's file and its log. Where a link has its name, both are where it leads."""

    def __init__(self, store: str, mode: int) -> None:
        self.store, self.mode = meant(store), mode

    def take(self, phase: str) -> None:
        """Checks, before a copy begins or goes on, that nothing of another one is in the way."""
        log_path = self.store + LOG
        if os.path.exists(log_path) and phase not in (COPYING, SLOT, COPIED):
            raise Unfit(f"{log_path} is the log of a store that is gone: remove it to begin anew")
        if self.is_there():
            # (the checkpoint of another name of this store doesn't keep its connector away)
            os.close(hold(self.store))

    def is_there(self) -> bool:
        return os.path.exists(self.store)

    def check_own(self, position: int, point: int) -> None:
        """Rejects a file at a position that a copy up to this point doesn't leave."""
        if MOST_PARTS < position != point:
            text = f"{self.store} is at {lsn_text(position)}, and no part of the copy that was interrupted here: move it away to go on"
            raise Unfit(text)

    def clear(self, point: int) -> None:
        """Removes what an earlier run left, of a copy up to this point, if any."""
        if self.is_there():
            self.check_own(position_in(self.store) or 0, point)
        with told_of(self.store):
            for path in (self.store, self.store + LOG):
                with contextlib.suppress(FileNotFoundError):
                    os.unlink(path)

    def keep(self) -> None:
        """Gives the files their mode, and has the disk keep their names."""
        with told_of(self.store):
            for it in (self.store, self.store + LOG):
                with contextlib.suppress(FileNotFoundError):
                    set_mode(it, self.mode)
            sync_folder(self.store)


# After how many rows it is looked whether the end was asked for.
STEP = 100_000


class Interrupted:
    """It. `most_buffered`: how much a transaction may have, None for any. `most`: how large a table
    may be at the server that is added by itself."""

    def __init__(
        self, files: CopyFiles, tables: CopiedTables, sender: Sender, most_buffered: int | None
    ) -> None:
        self.files, self.tables, self.sender = files, tables, sender
        self.filter, self.slot = sender.filter, sender.slot
        self.most = float("inf") if most_buffered is None else most_buffered // 2
        self.subscription, self.remembered = tables.subscription, tables.remembered

    def is_of_use(self, replication: Connection) -> bool:
        """Whether something may come of it."""
        remembered, slot = self.remembered, self.subscription.slot
        if not remembered.copied or not remembered.catalog or not self.files.is_there():
            return False
        if is_lost(replication, slot):
            log.info(f"the slot {slot} of an interrupted copy is lost: the copy begins anew")
            return False
        return True

    def position(self) -> int:
        """Where the store is. Its log goes into its file."""
        position = self.filter.start(self.slot.check)
        self.sender.finish()
        return position

    def missing(self) -> list[Table] | None:
        """The published tables that aren't stored whole, None where nothing comes of the others."""
        whole = self.whole()
        missing, large = self.without(whole)
        if not whole or large:
            text = "the copy begins anew"
            log.info(f"{large[0]} is too large to be added by itself: {text}" if large else text)
            return None
        log.info(
            f"an interrupted copy goes on: {counted(len(whole), 'table')} stored, {counted(len(missing), 'table')} to be added one by one"
        )
        return missing

    def whole(self) -> set[int]:
        """The tables of which it has stored, in their order, all rows that it has read."""
        stored = counted_rows(self.files.store, self.slot.check)
        return {oid for oid, rows in self.remembered.copied.items() if stored[oid] == rows}

    def without(self, whole: set[int]) -> tuple[list[Table], list[str]]:
        """The published tables but for these, and the names of those that are too large to be added
        by themselves."""
        with self.subscription.connected("copy", self.slot.check_all) as plain:
            missing = [it for it in self.tables.published(plain) if it.oid not in whole]
            sizes = sizes_of(plain, missing)
        return missing, [it.text() for it in missing if sizes.get(it.oid, 0) > self.most]

    def bring(self, point: int) -> None:
        """Brings it to the slot's consistent point."""
        self.sender.bring(self.filter.start(self.slot.check), point)

    def is_complete(self, point: int) -> bool:
        """Whether it has all rows."""
        if not self.files.is_there():
            return False
        try:
            return self.position() == point
        except FilterEnded:
            return False


def counted_rows(path: str, check: Check) -> collections.Counter[int]:
    """How many rows of each table, by OID, a store at rest has, whose log is empty."""
    found, held = collections.Counter[int](), hold(path)
    try:
        if not is_store(path):
            # (nothing was stored)
            return found
        with contextlib.closing(opened(path)) as store:
            rows = store.execute("SELECT oid, copies FROM held NOT INDEXED")
            for at, (oid, copies) in enumerate(rows):
                if at % STEP == 0:
                    check()
                found[oid] += copies
    except sqlite3.Error as error:
        raise failed(error, path) from None
    finally:
        os.close(held)
    return found
