"""The feed that a follower keeps beside its store: which folder has it, what the filter is told of
it, and what is done in that folder.

The filter writes the segments. Beside these is `confirmed`, the LSN up to which the feed has all
commits, also where a publication has had none for long; and `readers/NAME`, by which readers say
how far they are. A thread writes the first, reads the others, and removes old segments: the main
loop only sets what is confirmed.

| The store | The feed |
|---|---|
| is made by an initial copy, or without one | begins where the store does, in an empty folder; the copied rows are no part of it, but files beside it |
| gets rows of a table that is added or copied anew, or rows that are repaired | has these commits as any other |
| goes on behind a gap that was accepted | goes on as the store does: what the store lacks, it lacks |
| was put back from a backup | is left as it is, since opening both would cut off what the store lacks; where a gap is accepted, it is cut |
| is followed without its feed, as was said by --without-feed | has a gap: the filter takes it for no feed of that store |
"""

import contextlib
import dataclasses
import os
import shlex
import sqlite3
import time
from collections.abc import Callable

from pgsub_feed import log
from pgsub_feed.errors import Damaged, FileError, Unfit, told_of
from pgsub_feed.interruption import Check, never, rest
from pgsub_feed.reader.base import remove_begun
from pgsub_feed.reader.commits import Head
from pgsub_feed.reader.folder import make_folder, read_confirmed, segments
from pgsub_feed.reader.segments import Reader, read_source
from pgsub_feed.tables.schema import read_position
from pgsub_feed.texts import counted, lsn_text

from ..copy.rows_beside import RowsBeside, Several
from ..errors import Unread
from ..server.session import identify
from ..store.at_rest import has_log, is_whole
from ..store.checkpoint_lines import COPIED, FOLLOWING, INTERRUPTED
from ..store.file import position_in
from ..stream.common import Common
from ..stream.filter import Filter
from ..stream.filter_end import TOO_LONG, FilterEnded
from ..stream.statuses import Reached
from .feed_keeper import Keeper, TypesBeside, TypesFile
from .first_rows import BaseRows, FirstRows
from .process_beside import Beside, ProcessBeside, Sink, SinkSettings, TablesSettings
from .retention import Limits, others_in

# How long a filter that is to end is waited for, before it is looked whether the end was asked for.
STEP = 0.5
# After how many seconds a store that can't be opened is tried again.
AGAIN = 5
# For how many seconds tables and sinks are waited for until that is told.
UNTOLD = 5.0
# What the filter says of a feed that doesn't fit its store.
NOT_A_FEED = "pgsub: feed 1 NotAFeed"


def has_segments(folder: str) -> bool:
    return os.path.isdir(folder) and bool(segments(folder))


def head_of(folder: str) -> Head | None:
    """What a feed is a feed of, None where there is no segment or it can't be read."""
    with contextlib.suppress(OSError, Damaged, FileError, Unfit):
        return read_source(folder)
    return None


def feed_of(tables: str) -> str:
    """The feed that a file of tables follows, "" where that can't be read."""
    with contextlib.suppress(OSError, sqlite3.Error, TypeError, ValueError):
        return read_position(tables)[1]
    return ""


@dataclasses.dataclass(frozen=True)
class FeedSettings:
    """Where the feed of a store is and how it is kept, and the tables and sinks that follow it.
    `is_left`: the store goes on without the feed that it has had; `has_base`: the feed gets the rows
    of the initial copy, too; `messages`: of how many bytes those of a transaction may be, 0 where
    none are told."""

    store: str
    folder: str = ""
    is_left: bool = False
    mode: int = 0o600
    segment_bytes: int = 0
    segment_seconds: int = 0
    limits: Limits = Limits()
    tables: TablesSettings | None = None
    sinks: tuple[SinkSettings, ...] = ()
    has_base: bool = False
    messages: int = 0


class Feeding:
    """The folder. Nothing is written there before a filter has opened the feed."""

    def __init__(self, settings: FeedSettings, common: Common) -> None:
        self.settings = settings
        self.subscription, self.tolerance, self.checkpoint, self.progress, self.remembered = common
        self.folder = os.path.abspath(settings.folder) if settings.folder else ""
        self.first_rows = (
            FirstRows(settings.tables, self.checkpoint.file) if settings.tables else RowsBeside()
        )
        at = self.folder, settings.store, settings.mode
        self.base = BaseRows(*at, self.checkpoint) if settings.has_base else None
        self.types = TypesFile(self.folder, settings.mode, self.remembered)
        self.keeper: Keeper | None = None
        self.beside: Beside | None = None
        self.sinks: list[Sink] = []
        # what tables and sinks are to have before the end, and from when on that is told
        self.wanted: int | None = None
        self.tells_from = 0.0
        # the end of the last commit of which the tables were told
        self.told: int | None = None

    def rows_beside(self, check: Check = never) -> Several:
        """What gets the rows of an initial copy."""
        parts = [self.first_rows, *([self.base] if self.base else [])]
        parts += [TypesBeside(self.types)] if self.folder else []
        return Several(parts, self.note_begun, lambda: self.words(check) if self.folder else ())

    def check(self) -> None:
        """Makes the folder, and rejects one that can't have the store's feed."""
        if self.settings.tables:
            self.settings.tables.check()
        if is_whole(self.settings.store):
            self.check_followed()
        else:
            self.check_new()
        if self.folder:
            self.make_folder()

    def check_followed(self) -> None:
        """Rejects to leave the feed that the store has had behind."""
        was, now = self.remembered.feed, self.folder
        if not was or self.settings.is_left:
            return
        if now and (os.path.realpath(was) == os.path.realpath(now) or has_segments(now)):
            return
        other = f", and {now} has none of its commits: move its files there, or"
        other = other if now else f": say --feed {was}, or"
        raise Unfit(
            f"the feed {was} has all commits of {self.settings.store}, and following without it would leave a gap in it{other}"
            " --without-feed, which ends that feed for good"
        )

    def goes_on(self) -> bool:
        """Whether what is in the folder is of a copy that was interrupted, as it was to end: first
        rows, or a segment that has no commit yet."""
        return self.checkpoint.known.phase in INTERRUPTED and self.folder == self.remembered.feed

    def check_new(self) -> None:
        """Rejects what an older copy has left, as its feed, which a new store has nothing of."""
        if self.folder:
            remove_begun(self.folder)
            if not self.goes_on() and not has_segments(self.folder):
                self.types.forget()
        has_feed = os.path.isdir(self.folder) and bool(os.listdir(self.folder))
        self.check_left(has_feed and not self.goes_on())

    def check_left(self, has_feed: bool) -> None:
        tables = self.settings.tables.path if self.settings.tables else ""
        left = [self.folder] if has_feed else []
        if left := left + [tables] if os.path.lexists(tables) else left:
            self.check_own(left, tables)
            raise Unfit(
                f"{self.settings.store} begins anew, and an older copy has left: {', '.join(left)}. Once nobody reads that any more,"
                f" rm -r {' '.join(map(shlex.quote, left))}; or name another feed by --feed, and other tables by --tables"
            )

    def check_own(self, left: list[str], tables: str) -> None:
        """Rejects what is there and is none of an older copy of this store, as another follower may
        be at work there: nobody is to remove that."""
        if self.folder in left:
            if others := others_in(self.folder):
                raise Unfit(
                    f"--feed {self.folder}: it has other files, as {others[0]}: name an empty folder"
                )
            head = head_of(self.folder)
            if head and head.slot != self.subscription.slot:
                raise Unfit(
                    f"--feed {self.folder} has the feed of {head.text()}: name another folder"
                )
        feed = feed_of(tables) if tables in left else ""
        if feed and os.path.realpath(feed) != os.path.realpath(self.folder):
            raise Unfit(f"--tables {tables} follows the feed {feed}: name another file")

    def make_folder(self) -> None:
        with told_of(f"--feed {self.settings.folder}"):
            make_folder(self.folder, self.settings.mode)

    def note_begun(self) -> None:
        """Notes durably which feed, first rows and tables the store is to have: so the next start of
        a copy that is cut off knows them. (One that begins anew may have been almost complete.)"""
        tables = self.settings.tables
        self.check_left(has_segments(self.folder))
        self.checkpoint.note_tables(os.path.abspath(tables.path) if tables else "")
        self.remembered.note_feed(self.folder, self.settings.has_base, self.settings.messages)

    def begin(
        self, child: Filter, reached: Callable[[], Reached], check: Check, wake: Callable[[], None]
    ) -> None:
        """Notes folder and tables with the copy, and tells the filter of it, unless it runs: then it
        has loaded the copy, and knows. `wake` has the main loop look what the tables have said."""
        tables = self.settings.tables
        self.checkpoint.note_tables(os.path.abspath(tables.path) if tables else "")
        if not self.folder:
            if self.remembered.feed:
                log.warning(
                    f"the feed {self.remembered.feed} ends here: whoever reads it begins anew, from an export and another feed"
                )
            self.remembered.note_feed("")
            return
        is_new = self.checkpoint.known.phase != FOLLOWING
        if self.remembered.feed and not is_new and not has_segments(self.folder):
            log.warning(
                f"the feed {self.folder} has no segment any more, or is another one: a new one begins"
            )
        if not child.is_running():
            self.check_position(child, check)
        if self.base and not has_segments(self.folder):
            # (readers find them once there is a segment)
            self.base.complete(self.checkpoint.known.phase == COPIED, check)
        self.remembered.note_feed(self.folder, messages=self.settings.messages)
        self.types.begin()
        child.add_words(self.words(check))
        self.keeper = Keeper(self.settings.limits, self.progress, reached, self.types)
        if tables:
            self.beside = Beside(tables, self.progress, wake, self.first_rows.wait)
        self.sinks = [Sink(it, self.progress) for it in self.settings.sinks]

    def check_position(self, child: Filter, check: Check) -> None:
        """Rejects an older store, before a filter cuts off what the feed has above the store's
        position.

        Its checkpoint may be older too, or gone. But all that was confirmed is in the right store.
        """
        known, store = self.checkpoint.known, self.settings.store
        if not has_segments(self.folder) or self.tolerance.accepts("gap") or self.settings.is_left:
            return
        position = opened_at(child, check) if has_log(store) else position_in(store)
        if position is None:
            return
        told = ""
        if position < known.position:
            told = (
                f"was at {lsn_text(known.position)} before, so this is an older one; by opening it the feed {self.folder} would lose the"
                " commits between"
            )
        elif end := confirmed_above(self.folder, position):
            told = (
                f"the feed {self.folder} has the commit up to {lsn_text(end)}, which was confirmed, so this is an older store; by opening it"
                " the feed would lose what it has above"
            )
        if told:
            text = f"the store is at {lsn_text(position)}, and {told}. Put the right one back, or say --accept gap, or --without-feed"
            raise Unfit(text)

    def words(self, check: Check) -> list[str]:
        """What the filter is told."""
        system, database, slot = self.source(check)
        words = ["--feed", self.folder, "--feed-system", system]
        words += ["--feed-database", database, "--feed-slot", slot]
        if size := self.settings.segment_bytes:
            words += ["--feed-segment-bytes", str(size)]
        if seconds := self.settings.segment_seconds:
            words += ["--feed-segment-seconds", str(seconds)]
        if most := self.settings.messages:
            words += ["--messages", str(most)]
        return words

    def source(self, check: Check) -> tuple[str, str, str]:
        """Of what it is a feed. Of a store that was never followed the server says it."""
        known, subscription = self.checkpoint.known, self.subscription
        if known.system:
            return known.system, known.database, known.slot
        with subscription.connected("feed", check, replication=True) as connection:
            server = identify(connection)
        return server.system, server.database, subscription.slot

    def note_opened(self) -> None:
        """A filter has opened the feed, so what looks after it and follows it may begin."""
        for it in (self.keeper, *self.readers()):
            if it and it.ident is None:
                it.start()

    def tell(self, reached: Reached) -> None:
        """Tells those that read the feed what the store has now, and so the feed."""
        if self.keeper:
            self.keeper.changed.set()
        if reached.position != self.told:
            self.told = reached.position
            for it in self.readers():
                it.tell()

    def readers(self) -> list[ProcessBeside]:
        """The processes that follow the feed."""
        return [*([self.beside] if self.beside else []), *self.sinks]

    def is_read(self, position: int) -> bool:
        """Whether tables and sinks have what the store had when this was asked first."""
        if self.wanted is None:
            self.wanted, self.tells_from = position, time.monotonic() + UNTOLD
        wanted = self.wanted
        lacking = [it.name for it in self.readers() if not it.has(wanted)]
        if lacking and time.monotonic() > self.tells_from:
            self.tells_from = float("inf")
            log.info(
                f"the store has all up to {lsn_text(wanted)}, and {', '.join(lacking)} not yet: that is waited for"
            )
        return not lacking

    def check_read(self) -> None:
        """Raises where one has waited for nothing: who reads had ended for good."""
        ended = [it for it in self.readers() if it.lasting]
        if ended and self.wanted is not None:
            names = ", ".join(it.name for it in ended)
            raise Unread(f"{names} follows no more, as told above", ended[0].lasting)

    def text_of(self, said: str) -> str:
        """What to do where the filter says that the feed doesn't fit, or that messages don't; "" of
        other words."""
        if said == TOO_LONG:
            most = self.settings.messages
            return f"a transaction has more than {most} bytes of messages: give --messages more"
        if not self.folder or said != NOT_A_FEED:
            return ""
        try:
            read_source(self.folder)
        except FileError as error:
            # (as of another format)
            return str(error)
        return (
            f"{self.folder} isn't the feed of {self.settings.store}: it was followed without it, is that of another copy, begins after this"
            " copy's last commit, or has that one spoiled. Name an empty folder by --feed, with --without-feed: whoever reads the feed begins"
            " anew there, from an export"
        )

    def finish(self) -> None:
        self.rows_beside().abandon()
        for it in (*self.readers(), self.keeper):
            if it and it.ident is not None:
                it.finish()


def confirmed_above(folder: str, position: int) -> int | None:
    """The end of a commit above a position that the feed has, and that is confirmed; None where
    there is none.

    One that can't be read may be what a power cut has left. A segment begins where the commits of
    the one before it end.
    """
    confirmed = read_confirmed(folder) or 0
    if confirmed <= position:
        return None
    with contextlib.suppress(Damaged, Unfit):
        with contextlib.closing(Reader(folder, position)) as reader:
            if (commit := reader.next()) is not None:
                return commit.end if commit.end <= confirmed else None
    return next((base for base, _ in segments(folder) if position < base <= confirmed), None)


def opened_at(child: Filter, check: Check) -> int | None:
    """The position of a store of which only a filter can say it, since its log isn't empty; None
    where it is none.

    One that can't be opened now, since somebody dumps it say, is waited for: later it would be
    opened with its feed.
    """
    while True:
        position = None
        # (one of its own, so that nothing is known by it of what a killed one had stored)
        other = Filter(child.words, child.kept_open, child.proto, child.mode)
        try:
            position = other.start(check)
            other.finish()
            while True:
                check()
                other.serve(STEP)
        except FilterEnded as ended:
            if position is not None or ended.is_rejection():
                return position
            log.warning(f"{ended}: the store is tried again in {counted(AGAIN, 'second')}")
        finally:
            other.kill()
        rest(AGAIN, check)
