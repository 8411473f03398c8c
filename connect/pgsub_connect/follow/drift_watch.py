"""Watches for what makes the copy wrong without a word, and keeps it until it is accepted."""

import contextlib
import time
from collections.abc import Iterable, Sequence

from pgsub_feed import log
from pgsub_feed.errors import Passing, Unfit
from pgsub_feed.interruption import Check

from ..drift.doubts import resolved, warnings
from ..drift.findings import NAMES, REPEAT, RULE
from ..errors import ServerError
from ..server.catalog import Catalog
from ..server.catalog_reader import read_catalog
from ..server.connection import QUICK, Connection
from ..store.checkpoint import MISSING
from ..stream.common import Common
from ..stream.missed_rows import texts_of
from ..stream.watch_lines import Told
from .altered import Altered
from .reading_ahead import PATIENCE, ReadingAhead

# After how many seconds the file is written where nothing in it is urgent, the publications are
# looked at again, and that is tried again where it failed; and after how many they are looked at
# where no message says that anything has changed.
LATER, LOOK, AGAIN, AT_LEAST = 60.0, 1.0, 10.0, 600.0
# At most a part in so many of the time tells what was found, where it takes so many seconds.
PART, LITTLE = 20, 0.005
LOCK_TIMEOUT = "55P03"
# The kinds that a filter which is to be strict ends at.
STOPPING = (RULE, REPEAT)


class Watch:
    """What was found, and the looks at the server's publications. `most`: of how many bytes a table
    may be that is copied anew unasked where it was altered, None where none is."""

    def __init__(self, common: Common, most: int | None = None, store: str = "") -> None:
        self.subscription, self.tolerance, self.checkpoint, self.progress, self.remembered = common
        self.altered = Altered(most, store, self.remembered, self.progress.server)
        self.next_look = self.next_save = 0.0
        # when the publications were looked at last
        self.looked = time.monotonic()
        self.is_told = self.is_hindered = False
        # what reads the catalog for the look at the session's start
        self.ahead: ReadingAhead | None = None
        # whether the progress has all that was found, and when it may be told again, as is seldom
        self.is_shown, self.next_show = True, 0.0

    def begin(self) -> None:
        """Accepts what is to be accepted, and tells what else was found up to now."""
        found = {*self.checkpoint.findings(), *self.remembered.found}
        kinds = [it for it in found if self.tolerance.accepts(it)]
        self.checkpoint.accept(kinds)
        self.remembered.found.accept(kinds)
        if REPEAT in kinds:
            # (the server's commits are those that came last)
            self.checkpoint.forget_repeats()
        if self.remembered.unsaved.is_urgent:
            self.remembered.save()
        self.note_kinds()
        for kind, lsn in self.checkpoint.findings().items():
            for text in self.texts_of(kind):
                log.warning(f"found: {kind} at {lsn}: {text}")
        self.show()

    def note_kinds(self) -> None:
        """Has the checkpoint keep what was found, too: a file of tables may be removed."""
        for kind, found in self.remembered.found.items():
            self.checkpoint.note_found(kind, found.lsn)

    def texts_of(self, kind: str) -> list[str]:
        if kind == MISSING and self.checkpoint.counted:
            return texts_of(self.checkpoint.counted, self.remembered)
        found = self.remembered.found.get(kind)
        if found is None:
            return ["see the log of the run that found it"]
        return [*found.texts, *([f"and {found.more} more"] if found.more else [])]

    def lasting_of(self, kind: str) -> list[str]:
        """What was found of this kind, but for tables whose rows are added, or may be."""
        going = {it for it, why in self.remembered.wanted.items() if not why}
        texts = self.texts_of(kind)
        if kind == NAMES:
            return texts
        texts = [it for it in texts if going.isdisjoint(self.remembered.found.about(it).tables)]
        return [it for it in texts if not self.altered.is_open(kind, it)]

    def show(self) -> None:
        """Tells the progress what was found, and ends the following where it is to be strict."""
        began = time.monotonic()
        kinds = self.show_found()
        ends = filter(self.tolerance.ends_at, kinds)
        lasting = {kind: it for kind in ends if (it := "; ".join(self.lasting_of(kind)))}
        if lasting:
            texts = "\n".join(f"{kind}: {text}" for kind, text in lasting.items())
            told = "the copy may be wrong (copy anew, or take it as it is by --accept KIND)"
            raise Unfit(f"{told}\n{texts}")
        took = time.monotonic() - began
        self.is_shown, self.next_show = True, began + (PART * took if took > LITTLE else 0.0)

    def show_found(self) -> Iterable[str]:
        """Tells the progress what was found. Returns the kinds."""
        kinds = self.checkpoint.findings()
        self.progress.findings.note({kind: "; ".join(self.texts_of(kind)) for kind in kinds})
        return kinds

    def compare(self, connection: Connection, position: int, now: Catalog | None = None) -> bool:
        """Compares what the server has with what is remembered; false where a lock is held. `now`:
        what it has, where that was read already."""
        remembered = self.remembered
        try:
            connection.run(f"SET lock_timeout = {PATIENCE}", limit=QUICK)
            now = now or read_catalog(connection, self.subscription.publications)
            now = resolved(connection, remembered.catalog, now) if remembered.catalog else now
            connection.run("SET lock_timeout = 0", limit=QUICK)
        except ServerError as error:
            if error.sqlstate != LOCK_TIMEOUT:
                raise
            connection.run("SET lock_timeout = 0", limit=QUICK)
            self.next_look = time.monotonic() + AGAIN
            self.tell_hindered(error)
            return False
        self.looked, self.is_hindered = time.monotonic(), False
        self.tell_once(connection, now)
        if remembered.catalog is None:
            remembered.begin(now)
            log.info(
                f"{remembered.path} remembers the publications as they are now: what was changed before isn't found"
            )
        else:
            remembered.found.forget_told(position)
            for text in remembered.look(now):
                log.info(text)
        self.keep()
        self.mend(connection)
        return True

    def mend(self, connection: Connection) -> None:
        """Has tables that were altered copied anew, and tells what stays."""
        try:
            # (whoever alters a table holds a lock on it, for which its size is waited for)
            connection.run(f"SET lock_timeout = {PATIENCE}", limit=QUICK)
            gone = self.altered.look(connection)
        except ServerError as error:
            if error.sqlstate != LOCK_TIMEOUT:
                raise
            return self.altered.look_later(AGAIN)
        self.checkpoint.accept(gone)
        if gone or self.tolerance.is_strict:
            self.show()

    def tell_once(self, connection: Connection, now: Catalog) -> None:
        """Tells once in a run what no finding will tell."""
        if not self.is_told:
            for text in warnings(connection, now, self.remembered.made):
                log.warning(text)
        self.is_told = True

    def look_again(self, check: Check, position: int) -> bool:
        """Compares on a connection of its own. Returns whether that was possible."""
        read, self.ahead = self.ahead.take(check) if self.ahead else None, None
        try:
            if read:
                with contextlib.closing(read[0]):
                    return self.compare(read[0], position, read[1])
            with self.subscription.connected("tables", check) as connection:
                return self.compare(connection, position)
        except ServerError as error:
            self.tell_hindered(error)
            return False

    def read_ahead(self) -> None:
        """Begins to read what the next look compares."""
        self.ahead = ReadingAhead(self.subscription)
        self.ahead.start()

    def tell_hindered(self, error: ServerError) -> None:
        """Tells once why a look isn't possible, until one is: a lock may be held for hours."""
        if not self.is_hindered:
            log.warning(f"the publications can't be looked at now: {error}")
        self.is_hindered = True

    def keep(self) -> None:
        """Puts what was found on the disk, before anything more is confirmed, and tells it."""
        if not self.remembered.unsaved.is_urgent:
            return
        if self.put() and self.tolerance.is_strict:
            self.show()
        self.show_later()

    def put(self) -> bool:
        """Puts what was found on the disk, and tells it. Returns whether there was any."""
        self.remembered.put()
        self.note_kinds()
        news = self.remembered.found.take_news()
        for line in news:
            log.warning(f"found: {line}")
        if news:
            self.altered.look_later(0.0)
        self.is_shown = self.is_shown and not news
        return bool(news)

    def hear(self, told: Sequence[Told], position: int) -> None:
        """Keeps what the filter says of the server, before what came behind that is confirmed. It
        ends the following later, where that is to be strict."""
        stays = "; nothing of that is stored" if self.tolerance.stops else ""
        for kind, text in told:
            self.remembered.found.find(kind, position, text + (stays if kind in STOPPING else ""))
        # (the checkpoint can be written also where a disk is full)
        self.note_kinds()
        if self.remembered.unsaved.is_urgent:
            self.put()

    def show_later(self) -> None:
        """Tells the progress what was found since it was told that last, in its time."""
        if not self.is_shown and time.monotonic() >= self.next_show:
            self.show()

    def note(self, kind: str, lsn: int, text: str) -> None:
        """Keeps what the caller has found, and ends the following with."""
        self.remembered.found.find(kind, lsn, text)
        self.remembered.found.take_news()
        self.remembered.save()
        self.checkpoint.note_found(kind, lsn)
        self.show_found()

    def tend(self, wants_look: bool, check: Check, position: int) -> bool:
        """Called after each lot of payloads, before anything of them is confirmed. Returns whether
        a look is still wanted.

        Much of what is altered isn't told by any message, so a long session looks now and then.
        """
        self.keep()
        self.show_later()
        now = time.monotonic()
        wants_look = wants_look or now - self.looked >= AT_LEAST or self.altered.is_due()
        if wants_look and now >= self.next_look:
            wants_look = not self.look_again(check, position)
            self.next_look = now + (AGAIN if wants_look else LOOK)
        if self.remembered.unsaved.is_changed and now >= self.next_save:
            self.next_save = now + LATER
            self.remembered.save()
        return wants_look

    def finish(self) -> None:
        """Writes what isn't urgent, at the end of a session."""
        if self.ahead:
            self.ahead.give_up()
        self.ahead = None
        if self.remembered.unsaved.is_changed:
            try:
                self.remembered.save()
            except Passing as error:
                log.warning(str(error))
