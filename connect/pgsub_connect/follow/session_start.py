"""Begins a session: logs in, has store and slot fit together, and asks for the changes."""

from pgsub_feed import log
from pgsub_feed.texts import lsn_text

from ..errors import ServerError
from ..record import Aside, Session as Recorded
from ..server.connection import COPY_BOTH, Connection
from ..server.session import Server, identify, is_lost, log_end, sender_timeout, settle
from ..server.slot import lost_error
from ..store.repeats_file import RepeatsFile
from .filter_life import STEP, FilterLife
from .fitness import Fitting
from .requests import Requests
from .settings import FollowSettings


class Comparing:
    """From where a session asks for the changes, so that commits that a server sends again can be
    compared with those that it sent before.

    A server that was set back, as by a backup that was put back, may have other commits below the
    store's position. It sends them where it is asked from where its slot is. So a session asks from
    there, as long as all that came was passed on as it came. Else it asks from where the store is,
    once the filter has stored all that was passed on: nothing of these commits comes again. What a
    crash or a full disk has lost of what was noted, the filter tells by its store's position.
    """

    def __init__(self, life: FilterLife) -> None:
        self.life, self.filter, self.confirming = life, life.filter, life.confirming
        self.progress, self.ending = life.progress, life.ending

    def begin_session(self, is_whole: bool) -> int:
        """The LSN from which a session asks for the changes. `is_whole`: all of them are passed on."""
        file = self.filter.compares_by()
        if file:
            since = file.since() if is_whole else 0
            if since:
                return min(since, self.filter.confirmed())
            self.begin_anew(file, is_whole)
        return self.filter.confirmed()

    def begin_anew(self, file: RepeatsFile, is_whole: bool) -> None:
        """What is noted by now isn't compared with what comes: that is above all of it."""
        file.checkpoint.forget_repeats()
        self.settle()
        if self.filter.said.noted > self.filter.confirmed():
            # (one that was killed has noted what isn't stored)
            self.life.finish()
            self.life.start()
        if is_whole:
            file.begin_at(self.filter.confirmed())

    def settle(self) -> None:
        """Waits until the filter has stored all that was passed on."""
        while not self.confirming.is_stored():
            self.ending.check_stop()
            self.confirming.note_statuses(self.life.serve(STEP)[2])


# What a standby that can't be followed says: it lacks the feature, or only keeps the slot.
NOT_AT_STANDBYS = ("0A", "55000")


class SessionStart:
    """The steps of it, in order."""

    def __init__(
        self,
        settings: FollowSettings,
        fitting: Fitting,
        requests: Requests,
        recording: Aside | None,
    ) -> None:
        self.settings, self.fitting, self.requests = settings, fitting, requests
        self.recording, self.schedule = recording, requests.upkeep.schedule
        self.subscription, self.tolerance = fitting.subscription, fitting.tolerance
        self.life = life = requests.upkeep.life
        self.filter, self.confirming, self.form = life.filter, life.confirming, life.form
        self.progress, self.ending = life.progress, life.ending
        self.comparing = Comparing(life)
        self.was_connected = False

    def note_connected(self, was_connected: bool) -> None:
        """Whether a server has let this run in: one that is lost is waited for then."""
        self.was_connected = was_connected

    def log_in(self) -> Connection:
        """Connects. What the server has is read while the filter still opens its store."""
        self.progress.enter("connecting")
        connection = self.subscription.connect(self.ending.check_stop, replication=True)
        if self.filter.is_opening():
            self.life.watch.read_ahead()
        return connection

    def begin(self, connection: Connection) -> None:
        """Checks that the store and the slot fit together, and starts the session."""
        settle(connection)
        server = identify(connection)
        self.progress.note_login(connection.version(), server.timeline)
        self.progress.server.note_start(server.started, server.is_standby)
        self.life.use_proto(self.form.choose(connection.version()))
        slot_at = self.fit(connection, server)
        self.prepare(connection)
        is_whole = not (self.requests.adder.leaving.points or self.form.skipping.is_pending)
        at = self.comparing.begin_session(is_whole)
        self.start_replication(connection, server, at)
        self.confirming.forward_new()
        self.fitting.check_slot(self.confirming.position, self.ending.check_stop)
        # (what comes later isn't what was accepted)
        self.tolerance.end()
        self.was_connected = True
        self.progress.server.begin_session()
        log.info(f"following slot {self.subscription.slot} from {lsn_text(max(at, slot_at))}")
        if self.recording:
            self.recording.begin_session(self.recorded(connection, at))

    def recorded(self, connection: Connection, at: int) -> Recorded:
        """What a recording says of this session, which asks for the changes from an LSN on."""
        asked = self.subscription, self.form.proto, self.form.asks_for(), at
        return Recorded(connection.parameter("server_version"), *asked)

    def fit(self, connection: Connection, server: Server) -> int:
        """Checks that store, server and slot fit together. Returns from where the slot sends."""
        fitting, position = self.fitting, self.confirming.position
        confirmed = self.filter.confirmed()
        fitting.check_server(server, confirmed, position)
        slot_at = fitting.find_slot(connection, server)
        shared = fitting.check_timeline(connection, server, position)
        if shared is not None and confirmed > shared:
            # (what a keepalive confirmed above that LSN is of the other history)
            self.life.finish()
            raise ServerError("the filter is started anew on the server's new timeline")
        fitting.check_start(slot_at, position, self.ending.check_stop)
        self.confirming.begin_session(connection)
        fitting.note_server(server, confirmed, position)
        return slot_at

    def prepare(self, connection: Connection) -> None:
        """Has each part begin the session, which tells what to ask for, and reads settings."""
        noting, form = self.life.noting, self.form
        standbys = connection.text("SHOW synchronous_standby_names")
        self.progress.server.note_name(connection.parameter("application_name"), standbys)
        # (on another connection: a session's process would decode older changes by its caches)
        if not self.life.watch.look_again(self.ending.check_stop, self.confirming.position):
            noting.relation_log.note_look(True)
        form.skipping.begin_session(self.filter.confirmed())
        form.note_whole(self.requests.begin_session(form.streams))
        noting.begin_session()
        if self.ending.wants_log_end:
            self.ending.note_log_end(log_end(connection))
        self.schedule.begin_session(sender_timeout(connection))

    def start_replication(self, connection: Connection, server: Server, at: int) -> None:
        """Asks for the changes from an LSN on, which a standby without slots of its own rejects."""
        slot, store, form = self.subscription.slot, self.settings.store, self.form
        command = self.subscription.start_command(at, form.proto, form.options())
        try:
            connection.run(command, wanted=COPY_BOTH, limit=self.settings.silence)
        except ServerError as error:
            is_not_there = server.is_standby and error.sqlstate.startswith(NOT_AT_STANDBYS)
            if is_not_there and not is_lost(connection, slot):
                raise ServerError(f"the server is a standby: {error}") from None
            if not error.sqlstate:
                raise
            raise lost_error(connection, slot, store, error) from None
