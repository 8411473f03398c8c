"""How a follower and its server go, and what is known of each part, which others show.

Whoever sees that something happened tells it to the part that it is about.
"""

import collections
import threading
import time

from pgsub_feed.texts import counted, lsn_text

from ..server.session import waits_for
from ..server.slot import Slot
from .notify import Notifier
from .state import CopyCounters, FeedState, Findings, SpoolState, StreamCounters


class ServerState:
    """The server of the session, and whether commits there wait for the follower."""

    def __init__(self) -> None:
        self.version = self.timeline = self.sessions = 0
        # when it was started, whether it was a standby then, and whether it was promoted since
        self.started = 0
        self.is_standby = self.was_promoted = False
        # the session's name there, and whether commits may wait for it
        self.name, self.is_waited_for = "", False

    def note_version(self, version: int, timeline: int) -> None:
        self.version, self.timeline = version, timeline

    def note_start(self, started: int, is_standby: bool) -> None:
        """A session is about to begin with a server that was started then."""
        self.started, self.is_standby, self.was_promoted = started, is_standby, False

    def note_name(self, name: str, standbys: str) -> None:
        """The session has this name. `standbys`: the server's synchronous_standby_names."""
        self.name, self.is_waited_for = name, waits_for(standbys, name)

    def begin_session(self) -> None:
        self.sessions += 1

    def note_standbys(self, standbys: str) -> bool:
        """Notes the synchronous_standby_names that were just read; whether commits may wait."""
        self.is_waited_for = self.is_waited_for or bool(standbys) and waits_for(standbys, self.name)
        return self.is_waited_for

    def note_answer(self, standbys: str, is_standby: bool, started: int) -> None:
        """Notes what a server that was started then says. (A promotion starts none anew.)"""
        self.is_waited_for = waits_for(standbys, self.name)
        if self.is_standby and not is_standby and started and started == self.started:
            self.was_promoted = True


# What a follower may be at, and of that what it is at where it is about to end.
ENDING = "stopping", "stopped", "failed"
STATES = (
    *("starting", "copying", "opening the store", "connecting", "following", "copying the store"),
    *("adding a table", "repairing rows", "waiting to connect again", *ENDING),
)
# States without a session.
UNCONNECTED = "connecting", "waiting to connect again"
# For how many seconds a loss of the filter is counted, and how many of them.
LATELY, MOST = 600.0, 1000


class Progress:
    """What the follower is at. The main loop calls `beat`, wherever it waits."""

    def __init__(self, notifier: Notifier | None = None) -> None:
        self.notifier = notifier or Notifier()
        self.state = "starting"
        # set when the state changes: whoever shows it clears that
        self.has_entered = threading.Event()
        self.heartbeat = time.time()
        # since when a session is tried for, in seconds since 1970, None where it isn't
        self.unconnected: float | None = None
        self.last_error: str | None = None
        # how often the filter was lost, and when lately
        self.restarts = 0
        self.lost = collections.deque[float](maxlen=MOST)
        # what `pgsub --version` says
        self.program = ""
        self.stream, self.copy = StreamCounters(), CopyCounters()
        self.server, self.slot = ServerState(), Slot()
        self.findings, self.feed, self.spool = Findings(), FeedState(), SpoolState()

    def beat(self) -> None:
        """Notes that the main loop is alive."""
        self.heartbeat = time.time()
        if self.notifier.is_due():
            self.notifier.beat(self.line())

    def line(self) -> str:
        """The state, and how far it is."""
        if self.copy.table is not None:
            return f"{self.state} {self.copy.table}, {counted(self.copy.rows, 'row')} so far"
        if not self.stream.position:
            return self.state
        behind, text = self.stream.lag_bytes(), f"{self.state}, at {lsn_text(self.stream.position)}"
        return text if behind is None else f"{text}, {counted(behind, 'byte')} behind"

    def enter(self, state: str) -> None:
        self.state = state
        # (to open a large store takes its time)
        since = time.time() if self.unconnected is None else self.unconnected
        self.unconnected = since if state in UNCONNECTED else None
        self.has_entered.set()
        if state in ENDING:
            self.notifier.stopping(self.line())

    def note_login(self, version: int, timeline: int) -> None:
        """A server has let the follower in."""
        self.server.note_version(version, timeline)
        self.notifier.ready()

    def note_error(self, text: str) -> None:
        self.last_error = text

    def note_restart(self, text: str) -> None:
        """The filter has ended, and is started again."""
        self.last_error = text
        self.restarts += 1
        self.lost.append(time.time())

    def losses(self, now: float) -> int:
        """How often the filter was lost in the last minutes."""
        return sum(now - it < LATELY for it in list(self.lost))

    def note_program(self, version: str) -> None:
        self.program = version
