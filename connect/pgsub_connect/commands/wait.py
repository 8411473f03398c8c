"""`pgsub-connect wait`: until the tables of a file have all that was committed up to an LSN.

The follower that keeps the tables tells it. Where they follow the feed by themselves, and where no
follower runs, file and feed are looked at again and again.
"""

import contextlib
import dataclasses
import glob
import os
import sqlite3
import time

from pgsub_feed import options
from pgsub_feed.errors import FileError, Passing, Stopped
from pgsub_feed.interruption import Check
from pgsub_feed.options import duration, file, option
from pgsub_feed.reader.folder import read_confirmed
from pgsub_feed.reader.segments import Reader
from pgsub_feed.tables.schema import read_position
from pgsub_feed.tables.set_aside import store_at
from pgsub_feed.tables.sqlite_files import is_tables
from pgsub_feed.texts import lsn_text

from ..store.at_rest import is_followed
from ..store.checkpoint import read_known
from ..store.checkpoint_lines import FOLLOWING
from ..store.socket_file import Asking

ABOUT = """\
wait until tables that follow a feed have all that was committed up to an LSN

Who has written reads it by: SELECT pg_current_wal_insert_lsn().
"""
ENDS = """\
exit status: 0 they have it; 2 usage error; 3 a file can't be used; 5 the feed lacks commits after those that the file has; 6 a bug; 7 that took
too long, or was interrupted
"""
# How often file and feed are looked at, in seconds.
LOOK = 0.02
# The same of a file that isn't there, which a follower is to be known for after so long.
SLEEP, STARTING = 0.1, 3.0


@dataclasses.dataclass(frozen=True)
class Options:
    """What is waited for, in which file, and for how long."""

    lsn: int = option("what is waited for", 0, type=options.lsn, word="LSN")
    tables: str = file("the file with the tables", "", required=True)
    feed: str | None = option("the feed (default: the one that the file follows)", value="FOLDER")
    within: float = option(
        "give up after this time, as 30s or 5min (default: 60s)", 60.0, type=duration
    )


class Awaited:
    """All that was committed up to an LSN. A feed tells that it has that, and where it ends."""

    def __init__(self, path: str, feed: str | None, lsn: int) -> None:
        self.path, self.feed, self.lsn = path, feed, lsn
        self.end: int | None = None

    def is_there(self) -> bool:
        at, folder = read_position(self.path)
        if at < self.lsn and self.end is None:
            self.look(self.feed or folder, at)
        return at >= (self.lsn if self.end is None else self.end)

    def look(self, folder: str, at: int) -> None:
        # (before the lines are looked at: all commits up to it are among these)
        confirmed = read_confirmed(folder)
        if confirmed is None or confirmed < self.lsn:
            return
        self.end = at
        with contextlib.closing(Reader(folder, at)) as reader:
            while (commit := reader.next()) and commit.end <= self.lsn:
                self.end = commit.end


def is_told(path: str, feed: str | None, lsn: int, until: float, check: Check) -> bool:
    """Waits for the follower that keeps the tables of a file to tell that they have all of that.
    False where it can't be asked, or the time is over."""
    store = store_at(os.path.abspath(feed or read_position(path)[1]))
    if store:
        with contextlib.suppress(OSError, FileError, Passing):
            with contextlib.closing(Asking(store, check)) as asking:
                asking.say(ask="wait", lsn=lsn_text(lsn), tables=os.path.abspath(path))
                answer = asking.answer(until - time.monotonic())
                return answer is not None and "reached" in answer
    return False


def run(options: Options, check: Check) -> int:
    path, lsn, until = options.tables, options.lsn, time.monotonic() + options.within
    try:
        began = time.monotonic()
        while not os.path.isfile(path):
            check_comes(path, options.feed, began, until)
            check()
            time.sleep(SLEEP)
    except Stopped:
        raise Passing(f"ended before {path} was there") from None
    if not is_tables(path):
        raise FileError(f"{path} has no tables that follow a feed")
    try:
        if not waited(path, options.feed, lsn, until, check):
            at = lsn_text(read_position(path)[0])
            text = f"{path} is at {at}, and {lsn_text(lsn)} wasn't reached in {options.within:g} seconds"
            raise Passing(text)
    except Stopped:
        raise Passing(f"ended before {path} has reached {lsn_text(lsn)}") from None
    except sqlite3.Error as error:
        raise FileError(f"{path}: {error}") from None
    return 0


def check_comes(path: str, feed: str | None, began: float, until: float) -> None:
    """Rejects a file that isn't there, unless a follower is to make it, of a store in its folder or
    beside the feed; or may have been started just now."""
    at, now = os.path.abspath(path), time.monotonic()
    checkpoints = glob.glob(f"{glob.escape(os.path.dirname(at))}/*.connector")
    stores = [it.removesuffix(".connector") for it in checkpoints]
    if feed and (store := store_at(os.path.abspath(feed))):
        stores.append(store)
    if not any(may_make(it, at) for it in stores) and now > began + STARTING:
        text = f"there is no file {path}, and no follower of a store in its folder makes it: --feed names the feed of one elsewhere"
        raise FileError(text)
    if now > until:
        raise Passing(f"{path} isn't there yet: `pgsub-connect status` tells why")


def may_make(store: str, tables: str) -> bool:
    """Whether the follower of a store makes these tables, or is about to begin and may. (It notes
    which ones before it copies rows. Other accounts than its own don't know.)"""
    checkpoint = store + ".connector"
    if os.path.lexists(checkpoint) and not os.access(checkpoint, os.R_OK):
        return True
    known = read_known(checkpoint)
    begins = not known.tables and known.phase != FOLLOWING
    return known.tables == tables or begins and is_followed(store)


def waited(path: str, feed: str | None, lsn: int, until: float, check: Check) -> bool:
    """Waits until the tables have all of that; false where the time was over before."""
    awaited = Awaited(path, feed, lsn)
    while not awaited.is_there():
        check()
        if time.monotonic() > until:
            return False
        if is_told(path, feed, lsn, until, check):
            return True
        time.sleep(LOOK)
    return True
