"""The filter's life: it is started, serves session after session, and ends; what that means."""

import contextlib
import itertools

from pgsub_feed import log
from pgsub_feed.errors import FileError, Passing, Stopped
from pgsub_feed.interruption import rest
from pgsub_feed.log import Meter
from pgsub_feed.texts import counted

from ..drift.findings import UNWATCHED
from ..errors import FilterFault
from ..store.spool_folder import NoFolder
from ..stream.awake import Awake, Numbers, Served
from ..stream.filter_end import (
    BREACH,
    MISSED,
    SPOOL_FULL,
    TOO_MANY_OPEN,
    UNOPENED,
    FilterEnded,
)
from ..stream.memory_limit import MANY, BufferLimits, Kills, limit_text
from ..stream.room import is_full
from ..stream.statuses import Confirming
from ..stream.watch_lines import Told, is_unusable
from .drift_watch import Watch
from .feed import Feeding
from .settings import Ending, StreamForm
from .spool_faults import SpoolFaults

# How long the filter is waited for, and slept, before it is looked for the end, in seconds.
STEP, SLEEP = 0.5, 0.2
# After how many seconds each a store that can't be opened is tried again, the last for ever.
OPENED_AFTER = (1, 2, 4, 8, 15, 30)
IN_USE = "the store can't be opened now, as where another program has it open"
# Why transactions come whole from now on.
TOO_MUCH = "open transactions were too much at a time"


class FilterLife:
    """The filter that runs, and what is noted of it."""

    def __init__(
        self,
        limits: BufferLimits,
        confirming: Confirming,
        watch: Watch,
        form: StreamForm,
        ending: Ending,
        feeding: Feeding | None,
    ) -> None:
        self.limits, self.filter, self.progress = limits, confirming.filter, confirming.progress
        self.confirming, self.noting, self.misses = confirming, confirming.noting, confirming.misses
        self.watch, self.form, self.ending, self.feeding = watch, form, ending, feeding
        self.kills = Kills(limits)
        self.spool = SpoolFaults(self.filter, self.progress)
        # whether a filter has begun here; one that runs before that has loaded the first rows
        self.has_begun = False

    def launch(self) -> None:
        """Starts the filter, unless it runs. One that opens its store at once isn't waited for: the
        server is asked meanwhile."""
        if not self.filter.is_running():
            self.progress.enter("opening the store")
            self.launch_filter()
        if not self.filter.trusts:
            self.start()

    def launch_filter(self) -> None:
        """Starts it, as soon as a disk that is full has room for the folder of open transactions."""
        for tried in itertools.count():
            try:
                return self.filter.launch()
            except NoFolder as failed:
                self.progress.note_error(str(failed))
                self.rest_after(tried, str(failed))
        raise AssertionError

    def start(self) -> None:
        """Waits until the filter has opened its store, and starts it first unless it runs."""
        if self.filter.is_opening() or not self.filter.is_running():
            self.progress.enter("opening the store")
            self.begin(self.open_store())
        elif not self.has_begun:
            self.begin(self.filter.confirmed())

    def begin(self, position: int) -> None:
        """A filter has opened its store, which is at this position."""
        self.has_begun = True
        self.spool.begin_filter()
        if self.filter.trusts:
            log.info("the store is as the filter before left it, so its rows weren't read")
        self.confirming.begin_store(position)
        if self.feeding:
            self.feeding.note_opened()
        if self.misses.begin_filter(position, self.filter.has_told_all):
            self.watch.show()
        self.noting.begin_store()
        self.progress.stream.note_confirmed(position, position)

    def open_store(self) -> int:
        """Starts the filter. A store that somebody else has open, to dump it say, is waited for, and
        so is a disk that is full."""
        for tried in itertools.count():
            meter = Meter("opening the store", "MB")

            def check() -> None:
                self.ending.check_stop()
                with contextlib.suppress(OSError, LookupError):
                    read, size = self.filter.opening()
                    meter.note(read >> 20, size >> 20)

            try:
                return self.filter.start(check)
            except FilterEnded as ended:
                is_waited_for = tried < len(OPENED_AFTER) and is_full(self.filter.told())
                if is_unusable(ended.said) and not is_waited_for:
                    self.note_unusable(ended.said)
                    continue
                if not (is_unusable(ended.said) or ended.status == UNOPENED):
                    raise
                self.progress.note_restart(str(ended))
                self.rest_after(tried, str(ended) if is_waited_for else IN_USE)
        raise AssertionError

    def rest_after(self, tried: int, why: str) -> None:
        """Waits, longer after each try to open the store."""
        delay = OPENED_AFTER[min(tried, len(OPENED_AFTER) - 1)]
        log.warning(f"{why}: it is tried again in {counted(delay, 'second')}")
        rest(delay, self.ending.check_stop, SLEEP)

    def note_unusable(self, said: str) -> None:
        """The file of noted commits can't be used: it is made anew, or else none are noted."""
        log.warning(said)
        if self.watch.checkpoint.known.repeats:
            self.watch.checkpoint.forget_repeats()
        else:
            self.filter.note_repeats(None)
            self.watch.hear([Told(UNWATCHED, f"commits that come again: {said}")], 0)

    def serve(
        self, timeout: float, reads: Numbers = (), writes: Numbers = (), awake: Awake | None = None
    ) -> Served:
        """Serves the filter. What it says of the server, and of changes that found no row, is on the
        disk before anybody sees the statuses that follow."""
        statuses: list[bytes] = []
        try:
            readable, writable, statuses = self.filter.serve(timeout, reads, writes, awake)
            return readable, writable, statuses
        finally:
            self.confirming.note_missing(statuses)
            if self.filter.said.news:
                self.watch.hear(self.filter.said.take_news(), self.confirming.position)

    def serve_alone(self, seconds: float, reads: Numbers) -> None:
        """Serves the filter while no session is open, until one of these can be read at most."""
        try:
            self.confirming.note_statuses(self.serve(seconds, reads)[2])
        except FilterEnded as ended:
            self.note_end(ended)

    def tend_misses(self) -> None:
        """Tells what is new of changes that found no row, which raises where that is strict."""
        self.misses.tell()
        if self.misses.take_new():
            self.watch.show()

    def use_proto(self, proto: int) -> None:
        """Has the filter read this version of the protocol."""
        if proto > self.filter.proto:
            self.finish()
            self.filter.use(proto)
            self.start()

    def finish(self) -> None:
        """Ends the filter where no session is open."""
        if not self.filter.is_running():
            return
        self.filter.finish()
        try:
            while True:
                self.progress.beat()
                self.confirming.note_statuses(self.serve(STEP)[2])
        except FilterEnded as ended:
            check_end(ended)

    def leave(self) -> None:
        """Ends the filter in its own time: a killed one may not count what it stored."""
        with contextlib.suppress(FileError, FilterEnded, FilterFault, Passing):
            self.finish()

    def note_end(self, ended: FilterEnded) -> None:
        """Notes why the filter ended. Raises where the same would come of another try."""
        if self.spool.is_again(ended):
            self.form.stop_streaming(TOO_MUCH)
        why = MANY if ended.said == TOO_MANY_OPEN else TOO_MUCH
        if not (ended.status == SPOOL_FULL and self.form.stop_streaming(why)):
            largest = self.noting.largest()
            ended.note_cure(self.cure_of(ended, largest))
            if ended.cure:
                (log.error if ended.is_rejection() else log.warning)(ended.cure)
            if ended.is_rejection():
                self.tell_rejected(ended)
                # (what it told last, it may have told just now)
                self.watch.show_found()
                if ended.status == BREACH:
                    # (that was found, and is told as such)
                    self.watch.show()
                raise ended
            self.kills.note(ended, *largest)
            log.warning(f"{ended}: it is started again")
        self.progress.note_restart(ended.with_cure())

    def cure_of(self, ended: FilterEnded, largest: tuple[int, int]) -> str:
        """What is to be done about a filter's end, "" where nothing is known. `largest`: the
        largest transaction that isn't stored, and its bytes."""
        cure = limit_text(ended, self.limits, largest, self.noting.longest)
        cure = cure or self.spool.note(ended)
        return cure or (self.feeding.text_of(ended.said) if self.feeding else "")

    def tell_rejected(self, ended: FilterEnded) -> None:
        """Tells which commit, the first above its store's position, the filter has rejected."""
        if not ended.is_of_stream():
            return
        with contextlib.suppress(FilterEnded, Stopped):
            position = self.filter.start(self.ending.check_stop)
            self.misses.begin_filter(position, ended.has_told_all())
            self.filter.finish()
            if ended.is_of_commit() and (text := self.noting.rejected_text(position)):
                log.error(text)
            while True:
                self.progress.beat()
                self.filter.serve(STEP)


def check_end(ended: FilterEnded) -> None:
    """Looks at how a filter ended that was to. Raises where the next one would end so, too."""
    if ended.is_rejection():
        raise ended
    if ended.status not in (0, MISSED):
        log.warning(f"{ended}")
