"""How a follower follows, whether it is to end, and the stream's form that it asks for."""

import dataclasses

from pgsub_feed import log
from pgsub_feed.program import Worker

from ..server.session import ABORTS_IN_VERSION_1, STREAMS, tell_version_1
from ..status.progress import Progress
from ..stream.memory_limit import BufferLimits
from ..stream.transactions import Skipping


@dataclasses.dataclass(frozen=True)
class FollowSettings:
    """How a store is followed. `silence`: for how many seconds the server may say nothing; `skip`:
    the final LSN of the commit whose changes are passed over, or 0; `until`: where to end, `now` for
    the end of the server's log; `on_alter`: of how many bytes a table may be that is copied anew
    where it was altered, None where none is; `messages`: whether logical messages are asked for."""

    store: str
    proto: int = 2
    heartbeat: float = 10.0
    silence: float = 60.0
    skip: int = 0
    until: int | str | None = None
    no_copy: bool = False
    limits: BufferLimits = BufferLimits()
    on_alter: int | None = None
    messages: bool = False


class Ending(Worker):
    """A run ends where it was asked to, or once the store has all up to an LSN. `until`: that LSN,
    or `now` for the end that the server's log has at the first session."""

    def __init__(self, progress: Progress, until: int | str | None) -> None:
        self.progress = progress
        self.until = until if isinstance(until, int) else None
        self.wants_log_end = until == "now"

    def check_stop(self) -> None:
        """Called wherever the main loop waits. Raises where the end was asked for."""
        self.progress.beat()
        super().check_stop()

    def note_log_end(self, lsn: int) -> None:
        self.until, self.wants_log_end = lsn, False

    def is_reached(self, confirmed: int) -> bool:
        return self.until is not None and confirmed >= self.until


class StreamForm:
    """The version of the protocol, whether large transactions come while they run, and whether
    logical messages come: then transactions are whole, since in a block the server doesn't tell
    which subtransaction wrote a message, so one that is rolled back couldn't be left out."""

    def __init__(self, proto: int, skipping: Skipping, messages: bool = False) -> None:
        self.proto, self.streams, self.skipping = proto, proto >= 2 and not messages, skipping
        self.messages = messages
        # whether whole transactions are asked for, to add tables or to repair rows
        self.is_whole = False

    def is_streaming(self) -> bool:
        """Whether large transactions are to come while they run."""
        return self.streams and not self.skipping.is_pending and not self.is_whole

    def note_whole(self, is_whole: bool) -> None:
        self.is_whole = is_whole

    def stop_streaming(self, why: str) -> bool:
        """Asks for whole transactions from now on. Returns false where they come so already."""
        if not self.streams:
            return False
        log.warning(f"{why}: they come whole from now on")
        self.streams = False
        return True

    def choose(self, version: int) -> int:
        """Chooses the version of the protocol for a server's, and returns it.

        Servers from 18 on abort a transaction that they know to be rolled back even where they
        stream none. In version 2 that message is legal and has no effect, so version 1 of them is
        version 2 without streaming.
        """
        if self.messages:
            # (a start takes as long as what it imports)
            from ..preconditions import require_messages

            require_messages(version)
        if version < STREAMS and self.proto == 2:
            tell_version_1()
            self.proto, self.streams = 1, False
        if version >= ABORTS_IN_VERSION_1 and self.proto == 1:
            self.proto = 2
        return self.proto

    def asks_for(self) -> list[str]:
        """What it asks for besides, as a recording has it."""
        return ["streaming"] * self.is_streaming() + ["messages"] * self.messages

    def options(self) -> list[str]:
        """The same, as options of the protocol."""
        return ["streaming 'on'"] * self.is_streaming() + ["messages 'true'"] * self.messages
