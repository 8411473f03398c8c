"""Notices and warnings of a server: logged while a minute has room, and counted else."""

from __future__ import annotations

import time

from pgsub_feed import log
from pgsub_feed.texts import said_text

from .library import pq

# How many are logged in a minute, and how many characters of them.
MOST, ROOM, MINUTE = 60, 20_000, 60.0
# Where the server looks up the publications of a session. (Its texts may be in another language.)
LOADS_PUBLICATIONS = b"LoadPublications"
# How many texts of what the server leaves out wait at most, and what is said in place of others.
MOST_LEFT_OUT, OTHERS = 1000, "others too"


class Budget:
    """What a minute has room for, of all connections of the process."""

    def __init__(self) -> None:
        self.until, self.count, self.room, self.dropped = 0.0, 0, 0, 0

    def takes(self, length: int) -> bool:
        """Whether one more of this length is logged. The first one that isn't is told."""
        now = time.monotonic()
        if now >= self.until:
            self.end()
            self.until, self.count, self.room = now + MINUTE, MOST, ROOM
        self.count -= 1
        self.room -= length
        if self.count >= 0 and self.room >= 0:
            return True
        if not self.dropped:
            log.warning("the server sends many notices: no others are logged for a minute")
        self.dropped += 1
        return False

    def end(self) -> None:
        """Tells how many weren't logged."""
        if self.dropped:
            log.warning(f"{self.dropped} notices of the server weren't logged")
        self.dropped = 0


OWN = Budget()


class Notices:
    """A connection's. `left_out`: what pgoutput says of publications that aren't there yet."""

    def __init__(self, left_out: list[str]) -> None:
        self.left_out = left_out

    def hear(self, result: pq.abc.PGresult) -> None:
        text = said_text(result.error_message)
        if OWN.takes(len(text)):
            log.info(f"server: {text}")
        if result.error_field(pq.DiagnosticField.SOURCE_FUNCTION) == LOADS_PUBLICATIONS:
            self.leave_out(said_text(result.error_field(pq.DiagnosticField.MESSAGE_PRIMARY) or b""))

    def leave_out(self, text: str) -> None:
        text = text if len(self.left_out) < MOST_LEFT_OUT else OTHERS
        if text not in self.left_out:
            self.left_out.append(text)

    def end(self) -> None:
        """At the end of the connection."""
        OWN.end()
