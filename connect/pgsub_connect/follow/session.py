"""One session after the other: passes on what comes, and the filter's statuses."""

import time

from pgsub_feed import log
from pgsub_feed.interruption import limited

from ..drift.findings import NOTHING, PUBLICATION, About
from ..errors import ServerError
from ..server.connection import Connection
from ..stream.filter_end import FilterEnded
from ..stream.filter_input import PIECE
from .filter_life import STEP, check_end
from .schedule import Delay
from .session_start import SessionStart

# For how long a last look is waited for once the end was asked for, in seconds.
LAST = 5.0


class Session:
    """The session that is open, if any."""

    def __init__(self, start: SessionStart, delay: Delay) -> None:
        self.start, self.delay, self.recording = start, delay, start.recording
        self.life, self.schedule, self.ending = start.life, start.schedule, start.ending
        self.requests, self.hold = start.requests, start.requests.hold
        self.standing, life = start.requests.upkeep.standing, start.life
        self.filter, self.confirming, self.noting = life.filter, life.confirming, life.noting
        self.progress = life.progress
        self.connection: Connection | None = None
        # for how long nothing has come, as far as it was waited for
        self.silent = 0.0

    def connect(self) -> Connection:
        """Connects, and starts the session. (A filter may open its store meanwhile.)"""
        try:
            self.connection = connection = self.start.log_in()
        finally:
            if self.filter.is_opening():
                self.life.start()
        self.start.begin(connection)
        self.standing.begin_session()
        return connection

    def run(self) -> None:
        """One session.

        What comes is passed on first: all else is done while the filter stores it, since a commit
        at the server may wait for that.
        """
        connection = self.connect()
        self.progress.enter("following")
        began, self.silent = time.monotonic(), 0.0
        more: bool | None = True
        while not self.is_over():
            if self.ends_for_another(connection):
                return
            more = self.pass_on(connection, more)
            if connection.left_out:
                self.note_left_out(connection.left_out)
            self.life.tend_misses()
            self.noting.show()
            self.noting.relation_log.note_look(self.look_again())
            if more is None:
                log.warning("the server ended the session")
                return
            if connection.unsent:
                connection.flush()
            self.keep_on(began)
        self.end()

    def pass_on(self, connection: Connection, more: bool | None) -> bool | None:
        """Waits until something comes, and passes it on both ways. `more`: something has come
        already. Returns that anew, None after the end."""
        if connection.broken:
            # (within a look, say, which tells it as its own)
            raise connection.broken
        room = not self.requests.holds_for_copy() and self.filter.has_room()
        listens, socket = time.monotonic(), connection.socket()
        asked = self.requests.socket.fileno()
        wait, awake = self.schedule.longest_wait(bool(more) and room), self.schedule.awake()
        reads, writes = [asked, socket] if room else [asked], [socket] if connection.unsent else []
        readable, writable, statuses = self.life.serve(wait, reads, writes, awake)
        # (what else takes long, as a copy of the store does, is none of the server's silence)
        is_heard = socket in readable or not room
        self.silent = 0.0 if is_heard else self.silent + time.monotonic() - listens
        if statuses or self.confirming.held:
            self.confirming.forward(statuses)
        # (what TLS has read doesn't wake select, nor what is read where a flush would block)
        is_ready = socket in readable or socket in writable or not (readable or writable)
        if room and not more and (is_ready or connection.is_wrapped()):
            connection.consume()
            more = True
        return self.take_payloads(connection) if room and more else more

    def take_payloads(self, connection: Connection) -> bool | None:
        """Passes on what has come. Returns whether there may be more now, None after the end."""
        hold, more = self.hold, True if self.hold.kept else None
        payloads = hold.take_kept()
        if more is None:
            payloads, more = connection.payloads(self.filter.room(), PIECE)
        if not payloads:
            return more
        if hold.limit() is not None:
            payloads = hold.passing(payloads, bool(self.noting.begun))
        place, leaving = self.requests.adder.place, self.requests.adder.leaving
        if place.is_open:
            payloads, behind = place.passing(payloads, bool(self.noting.begun))
            hold.keep_first(behind)
        recorded = payloads
        if leaving.points:
            payloads = leaving.passing(payloads)
        if self.recording:
            for payload in recorded:
                self.recording.write_payload(payload)
        skipping = self.life.form.skipping
        if skipping.is_pending:
            payloads = [payload for payload in payloads if skipping.passes(payload)]
        if payloads and len(payloads[-1]) >= PIECE:
            self.noting.note_long(len(payloads[-1]))
        self.filter.push_payloads(payloads)
        self.noting.note_all(payloads)
        return True if hold.kept and more is not None else more

    def look_again(self) -> bool:
        """Looks at the publications, where it is time. Returns whether a look is still wanted."""
        serve, position = self.requests.upkeep.serve_server, self.confirming.position
        return self.life.watch.tend(self.noting.relation_log.wants_look, serve, position)

    def look_last(self) -> None:
        """Takes the look that is due by now: readers may wait for what it tells of keys."""
        relations, watch = self.noting.relation_log, self.life.watch
        error = ServerError("the server didn't answer in time")
        check = limited(LAST, error, self.progress.beat)
        if relations.wants_look:
            is_done = watch.look_again(check, self.confirming.position)
            relations.note_look(not is_done)

    def keep_on(self, began: float) -> None:
        """Does what is due by now. Raises where the session makes no sense any more."""
        now = time.monotonic()
        self.schedule.note_heard(now - self.silent)
        self.schedule.keep_alive(self.silent)
        self.standing.check(self.schedule.silence, self.requests.stops())
        self.delay.note_lasting(now - began, self.schedule.heartbeat)

    def ends_for_another(self, connection: Connection) -> bool:
        """Goes on with what others have asked for; whether another session begins for that."""
        self.progress.beat()
        if self.progress.server.was_promoted:
            raise ServerError("the standby was promoted: a session with the new primary is begun")
        if not self.requests.step():
            return False
        self.renew(connection)
        return True

    def renew(self, connection: Connection) -> None:
        """Ends a session so that another begins, of whole transactions or again without."""
        log.info("a session begins anew, because of rows that are added or repaired")
        self.delay.renew()
        connection.end_copy()
        # (the slot is in use as long as the server hasn't heard it)
        connection.drain(STEP)

    def is_over(self) -> bool:
        """Whether the end was asked for, or what was asked for is stored."""
        feeding = self.life.feeding
        if self.ending.is_reached(self.filter.confirmed()) and (
            not feeding or feeding.is_read(self.confirming.position)
        ):
            self.ending.ask_to_stop()
        return self.ending.stop_asked

    def note_left_out(self, said: list[str]) -> None:
        """Finds what the server has said of publications that weren't there yet at this place in
        the log: it leaves out their changes.

        Up to 17 that is an error. It comes before whatever confirms the transactions.
        """
        while said:
            text = said.pop(0)
            publications = self.start.subscription.publications
            names = sorted((name for name in publications if name in text), key=len)
            about = About(publication=names[-1], is_missing=True) if names else NOTHING
            text = f"the server leaves out changes from before a publication was made: {text}"
            remembered = self.life.watch.remembered
            remembered.found.find(PUBLICATION, self.confirming.position, text, about)

    def end(self) -> None:
        """Ends the filter's input, sends what it still confirms, and ends the session."""
        self.progress.enter("stopping")
        self.look_last()
        self.filter.finish()
        try:
            while True:
                self.progress.beat()
                for status in self.life.serve(STEP)[2][-1:]:
                    self.confirming.pass_on(status)
                if self.schedule.is_status_due():
                    self.confirming.repeat()
                self.standing.check(self.schedule.silence, ends=True)
        except FilterEnded as ended:
            self.confirming.release()
            check_end(ended)
        if self.connection:
            self.connection.end_copy()

    def disconnect(self) -> None:
        self.confirming.end_session()
        self.progress.slot.note_unread(False)
        self.requests.end_session()
        self.life.watch.finish()
        if self.connection:
            self.connection.close()
            self.connection = None
        self.filter.end_session()
