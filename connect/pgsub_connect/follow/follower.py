"""Follows a server: sessions one after the other, with the filter kept alive between them."""

import time

from pgsub_feed import log
from pgsub_feed.errors import FileError, Passing, Stopped, Unfit, UsageError

from ..add.adder import Adder
from ..errors import LOGIN, Renewed, ServerError, Unconnected
from ..record import Aside
from ..server.publications import with_cure
from ..server.slot import Repeats
from ..stream.common import Common
from ..stream.filter import Filter
from ..stream.filter_end import FilterEnded
from ..stream.missed_rows import Misses
from ..stream.place import Place
from ..stream.statuses import Confirming
from ..stream.stream_log import Noting
from ..stream.transactions import Skipping
from .drift_watch import Watch
from .feed import Feeding
from .filter_life import SLEEP, STEP, FilterLife
from .fitness import Fitting
from .repair import Repairing
from .requests import Requests
from .schedule import Delay, Schedule
from .session import Session
from .session_start import SessionStart
from .settings import Ending, FollowSettings, StreamForm
from .snapshots import Snapshots
from .upkeep import Standing, Upkeep

# An error that the server doesn't expect of itself. PostgreSQL 15 has one (`could not map filenode
# .. to relation OID`) where it streams a transaction beside a TRUNCATE, at each try. The same
# transaction comes well once it is whole, or not at all.
INTERNAL = "XX000"


class Follower:
    """Follows into one store."""

    def __init__(
        self,
        settings: FollowSettings,
        common: Common,
        child: Filter,
        recording: Aside | None,
        snapshots: Snapshots,
        feeding: Feeding | None = None,
    ) -> None:
        self.subscription, self.progress, self.snapshots = common[0], common.progress, snapshots
        progress, store, limits = common.progress, settings.store, settings.limits
        self.ending = Ending(progress, settings.until)
        self.noting = Noting(progress.stream, common.remembered)
        self.watch = watch = Watch(common, settings.on_alter, store)
        self.misses = Misses(common)
        self.confirming = confirming = Confirming(child, self.noting, self.misses)
        form = StreamForm(settings.proto, Skipping(settings.skip, common), settings.messages)
        self.life = FilterLife(limits, confirming, watch, form, self.ending, feeding)
        hold, place = snapshots.hold, Place()
        schedule = Schedule(settings, confirming, hold, place)
        self.standing = Standing(child, progress)
        upkeep = Upkeep(self.life, schedule, self.standing)
        self.adder = Adder(
            *(common, store, limits, watch, confirming, hold, place, upkeep),
            wake=snapshots.requests.wake,
        )
        repairing = Repairing(snapshots, upkeep)
        asked = (
            *(form.is_streaming, self.adder.is_adding),
            *(confirming.reached, progress.server.note_standbys),
        )
        snapshots.note_follower(self.adder.take, *asked)
        self.requests = Requests(self.adder, repairing, upkeep)
        fitting = Fitting(settings.no_copy, watch)
        self.start = SessionStart(settings, fitting, self.requests, recording)
        self.delay, self.repeats = Delay(), Repeats(store)
        self.session = Session(self.start, self.delay)

    def run(self) -> None:
        """Follows until a signal asks for the end. Raises where going on makes no sense."""
        try:
            self.follow()
        except (FileError, Passing, ServerError, Unfit, UsageError):
            self.life.leave()
            raise
        finally:
            self.misses.tell(is_last=True)

    def follow(self) -> None:
        self.watch.begin()
        self.adder.begin()
        while not self.ending.stop_asked:
            try:
                self.life.launch()
                self.session.run()
            except Stopped:
                break
            except FilterEnded as ended:
                self.life.note_end(ended)
                if self.adder.note_end(ended):
                    # (nothing else needs the room)
                    self.life.spool.begin_filter()
            except ServerError as error:
                self.note_error(error)
            finally:
                self.session.disconnect()
            self.wait()
        self.progress.enter("stopping")
        self.life.finish()
        self.snapshots.wait(self.progress.beat)

    def note_error(self, error: ServerError) -> None:
        """Notes what the server said. Raises where the same would come of another try, or where it
        was never reached.

        Whom it has let in before it may let in again, once the password is the new one here too, or
        what it asks for it is back.
        """
        is_of_connecting = isinstance(error, Unconnected) or error.sqlstate.startswith(LOGIN)
        was_connected = self.start.was_connected
        if error.is_lasting() and not (was_connected and is_of_connecting):
            raise with_cure(error, self.subscription.publications)
        if not (was_connected or error.sqlstate):
            raise Passing(str(error))
        log.warning(f"{error}")
        self.progress.note_error(str(error))
        self.repeats.note(error, self.confirming.position)
        self.delay.note_renewed(isinstance(error, Renewed))
        if error.sqlstate == INTERNAL:
            self.life.form.stop_streaming("the server can't stream a large transaction")

    def wait(self) -> None:
        """Waits before the next session, each time longer, and serves the filter meanwhile."""
        if self.delay.take_renewed():
            return
        until, socket = time.monotonic() + self.delay.next(), self.requests.socket
        if not self.ending.stop_asked:
            self.progress.enter("waiting to connect again")
        while not self.ending.stop_asked and (
            (left := until - time.monotonic()) > 0
            or self.standing.lasts()
            or self.life.spool.lacks_room()
        ):
            self.progress.beat()
            self.requests.holds_for_copy()
            if self.life.filter.is_running():
                self.life.serve_alone(min(left, STEP) if left > 0 else STEP, [socket.fileno()])
                self.life.tend_misses()
            else:
                socket.rest(min(left, SLEEP) if left > 0 else SLEEP)
