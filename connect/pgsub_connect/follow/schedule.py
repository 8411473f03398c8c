"""What is due when: how long a session waits, when a status is repeated, a session begins."""

import time

from ..errors import ServerError
from ..stream.awake import NEEDED, Awake, processors
from ..stream.gate import LOOK as GATE
from ..stream.hold import Hold
from ..stream.place import Place
from ..stream.statuses import Confirming
from .filter_life import STEP
from .settings import FollowSettings

# After how many seconds a lost session is begun anew, at first and at most.
FIRST_DELAY, LONGEST_DELAY = 1.0, 60.0
# How often the server is asked how far it is where an LSN is waited for, in seconds.
ASK = 0.3
# How often the last status is repeated where commits at the server wait for it, in seconds. A server
# lets none go by what it is told while a new session still reads what was before.
AGAIN = 0.2


class Schedule:
    """The times of a session."""

    def __init__(
        self, settings: FollowSettings, confirming: Confirming, hold: Hold, place: Place
    ) -> None:
        self.silence, self.longest_heartbeat = settings.silence, settings.heartbeat
        self.confirming, self.hold, self.place = confirming, hold, place
        self.heartbeat = settings.heartbeat
        # when the server was heard last, as far as anything of it was waited for
        self.heard = time.monotonic()
        # how statuses and commits are waited for where commits at the server wait for this
        is_enough = processors() >= NEEDED
        self.for_statuses, self.for_commits = (Awake(), Awake()) if is_enough else (None, None)

    def begin_session(self, sender_timeout: float | None) -> None:
        """Statuses are repeated in time for a server that waits so long, None where for ever."""
        longest = self.longest_heartbeat
        self.heartbeat = min(longest, sender_timeout / 3) if sender_timeout else longest

    def note_heard(self, at: float) -> None:
        self.heard = at

    def is_silent(self) -> bool:
        """Whether nothing was heard of the server for longer than it may be silent."""
        return time.monotonic() - self.heard > self.silence

    def silent_error(self) -> ServerError:
        return ServerError(f"the server said nothing for {self.silence:.0f} seconds")

    def every(self) -> float:
        """How often the last status is repeated, in seconds."""
        is_waited_for = self.confirming.progress.server.is_waited_for
        return min(self.heartbeat, AGAIN) if is_waited_for else self.heartbeat

    def is_status_due(self) -> bool:
        return time.monotonic() - self.confirming.last_sent >= self.every()

    def awake(self) -> Awake | None:
        """What waits for the filter, or for the next commit, where commits at the server wait."""
        if not self.confirming.progress.server.is_waited_for:
            return None
        return self.for_statuses if self.confirming.noting.ends else self.for_commits

    def longest_wait(self, has_more: bool) -> float:
        """How many seconds a session waits at most. `has_more`: something has come already."""
        confirming = self.confirming
        wait = 0.0 if has_more else self.every() - (time.monotonic() - confirming.last_sent)
        if confirming.held:
            wait = min(wait, confirming.quiet() - (time.monotonic() - confirming.last_moved))
        if self.hold.is_gated():
            wait = min(wait, GATE)
        return max(0.0, min(wait, STEP))

    def keep_alive(self, silent: float) -> None:
        """Repeats the last status at each heartbeat; a silent server is asked, and given up."""
        limit = self.silence
        if silent > limit:
            raise self.silent_error()
        waits = self.hold.is_going() or self.place.seeks
        every = ASK if waits else min(self.every(), limit / 4)
        if time.monotonic() - self.confirming.last_sent >= every:
            self.confirming.repeat(asks=waits or silent > limit / 2)


class Delay:
    """After how many seconds the next session begins: each time later, until one lasts."""

    def __init__(self) -> None:
        self.seconds = 0.0
        # whether the next one is to begin at once
        self.is_renewed = False

    def renew(self) -> None:
        self.seconds, self.is_renewed = 0.0, True

    def note_renewed(self, is_renewed: bool) -> None:
        self.is_renewed = is_renewed

    def take_renewed(self) -> bool:
        is_renewed, self.is_renewed = self.is_renewed, False
        return is_renewed

    def next(self) -> float:
        self.seconds = min(2 * self.seconds, LONGEST_DELAY) if self.seconds else FIRST_DELAY
        return self.seconds

    def note_lasting(self, lasted: float, heartbeat: float) -> None:
        """A session has lasted so long."""
        if self.seconds and lasted > 2 * heartbeat:
            self.seconds = 0.0
