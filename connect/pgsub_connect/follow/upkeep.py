"""Keeps the server and the filter content while something takes long, and ends the session where
the filter stands still, as at a disk that hangs.

A server ends the walsender whose slot may keep no more log (max_slot_wal_keep_size), and its
checkpointer waits for that. But a process that is to end first sends what it has to, and nobody
reads it: as long as the connection is there both wait, and the server's disk fills. The server's
own `wal_sender_timeout` doesn't help, since statuses go on. So a filter that takes nothing, while
neither its processor time nor its input and output moves, is waited for without a session. One
that is at a long commit moves one of them.
"""

import contextlib
import time
from contextlib import closing

from pgsub_feed.texts import counted

from ..errors import ServerError
from ..server.session import postmaster_start
from ..status.progress import Progress
from ..stream.filter import Filter
from .filter_life import STEP, FilterLife
from .schedule import Schedule

# How often the system is asked of the filter, and when the server of the slot, in seconds.
LOOK, NOTED = 0.2, 0.5
# For how many seconds nothing may be read where the slot is about to end, and its states then.
ENDANGERED = 2.0
IN_DANGER = ("unreserved", "lost")
# Where a process has used its processor time, of the fields behind its name in /proc/PID/stat.
TIMES = slice(11, 13)


def activity(pid: int) -> tuple[object, ...]:
    """What the system says of a process, which changes as long as that gets on."""
    found: list[object] = []
    with contextlib.suppress(OSError), open(f"/proc/{pid}/stat", "rb") as file:
        found += file.read().rpartition(b")")[2].split()[TIMES]
    with contextlib.suppress(OSError), open(f"/proc/{pid}/io", "rb") as file:
        found.append(file.read())
    return tuple(found)


class Standing:
    """For how long nothing was read: since the filter stands still, or the stream is held."""

    def __init__(self, child: Filter, progress: Progress) -> None:
        self.filter, self.progress = child, progress
        # how the filter was found last, since when it is so, and when it was looked at
        self.found: tuple[object, ...] = ()
        self.since: float | None = None
        self.looked = 0.0
        # since when the stream is held
        self.held_since: float | None = None
        # whether a session was ended because of the filter, which has taken nothing since
        self.is_left = False

    def begin_session(self) -> None:
        self.since = self.held_since = None
        self.is_left = False

    def check(self, limit: float, is_held: bool = False, ends: bool = False) -> None:
        """Raises where the session is to end. `is_held`: nothing is passed on, on purpose; `ends`:
        the filter is to end by itself."""
        stood = self.seconds(ends)
        self.held_since = (self.held_since or time.monotonic()) if is_held else None
        held = time.monotonic() - self.held_since if self.held_since else 0.0
        self.progress.slot.note_unread(max(stood, held) > NOTED)
        if stood > limit or self.is_in_danger(self.since, stood):
            self.is_left = True
            raise ServerError(self.text(stood))
        if self.is_in_danger(self.held_since, held):
            raise ServerError(
                f"nothing was read for {counted(round(held), 'second')}, since the stream is held,"
                " and the slot is about to be lost"
            )

    def text(self, stood: float) -> str:
        is_near = self.progress.slot.wal_status in IN_DANGER
        danger = ", and the slot is about to be lost" if is_near else ""
        return (
            f"the filter (process {self.filter.pid()}) has stood still for"
            f" {counted(round(stood), 'second')}{danger}: the session is ended, and begun anew once"
            " it goes on. Does its disk hang, or was it stopped?"
        )

    def is_in_danger(self, since: float | None, seconds: float) -> bool:
        """Whether that is too long for a slot that, as was told meanwhile, is about to be lost."""
        slot = self.progress.slot
        is_told = since is not None and slot.told > since
        return is_told and seconds > ENDANGERED and slot.wal_status in IN_DANGER

    def seconds(self, ends: bool = False) -> float:
        """For how long it has stood still, though something waits for it, or it is to end."""
        if not self.filter.is_running() or not (ends or self.filter.input.waiting):
            self.since = None
            return 0.0
        now = time.monotonic()
        if self.since is None or now - self.looked >= LOOK:
            self.looked = now
            if (found := self.look()) != self.found or self.since is None:
                self.found, self.since = found, now
        return now - self.since

    def look(self) -> tuple[object, ...]:
        return self.filter.pid(), self.filter.input.taken, *activity(self.filter.pid())

    def lasts(self) -> bool:
        """Whether a filter because of which a session was ended still stands still."""
        if self.is_left and (not self.filter.is_running() or self.look() != self.found):
            self.is_left = False
        return self.is_left


class Upkeep:
    """What a session's own loop does, for others that wait within it."""

    def __init__(self, life: FilterLife, schedule: Schedule, standing: Standing) -> None:
        self.life, self.schedule, self.standing = life, schedule, standing
        self.filter, self.confirming, self.ending = life.filter, life.confirming, life.ending
        self.subscription = life.watch.subscription

    def serve_server(self) -> None:
        """Keeps the server content during another wait. Raises where the end was asked for."""
        self.ending.check_stop()
        is_open = self.confirming.connection and self.filter.is_running()
        if is_open and self.schedule.is_status_due():
            self.confirming.repeat()

    def attend(self) -> None:
        """Keeps server and filter content in a session while something else is waited for."""
        self.ending.check_stop()
        if self.filter.is_running():
            self.confirming.forward(self.life.serve(0)[2])
            self.life.misses.tell()
        self.require_server()
        self.schedule.keep_alive(0.0)
        self.standing.check(self.schedule.silence)

    def require_server(self) -> None:
        """Asks the server on another connection whether it is there, where nothing has come for too
        long: the session may need that long for what is waited for."""
        if not self.schedule.is_silent():
            return
        try:
            connection = self.subscription.connect(self.serve_server, "check", quiet=True)
            with closing(connection):
                is_there = postmaster_start(connection) == self.life.progress.server.started
        except ServerError as error:
            # (who is turned away was answered)
            is_there = bool(error.sqlstate)
        if not is_there:
            raise self.schedule.silent_error()
        self.schedule.note_heard(time.monotonic())

    def push(self, frames: bytes) -> None:
        """Gives the filter frames, and waits until it has room."""
        self.schedule.note_heard(time.monotonic())
        self.filter.push(frames)
        self.attend()
        while not self.filter.has_room():
            self.confirming.forward(self.life.serve(STEP)[2])
            self.attend()
