"""What ends attempts to copy, and when another one begins."""

import collections

from pgsub_feed.errors import Passing

from ..errors import ServerError
from ..server.publication_setup import REFUSED

LONGEST_DELAY = 60.0
NO_MEMORY = "53200"
# what may be in the way only for now: a table that was altered or dropped while it was to be read
CHANGED = "the published tables changed while the slot was made"
# The most attempts that one cause ends: changed tables, what else may pass, and all others.
MOST_CHANGED, MOST_PASSING, MOST = 20, 10, 5
# connections, deadlocks, too many connections, a slot in use, a server that is stopped
PASSING = ("08", "40", "53300", "55006", "57P")


class Tries:
    """Counts what ended the attempts to copy, since each may read the tables from the first row."""

    def __init__(self) -> None:
        self.counts: collections.Counter[str] = collections.Counter()
        self.delay = 0.0

    def note(self, cause: str, error: Exception) -> None:
        """Notes a cause: a SQLSTATE, CHANGED, or none for a connection or a filter that was lost.
        Raises where it ended enough attempts."""
        self.counts[cause] += 1
        if cause == CHANGED:
            # (no row was read yet)
            self.delay = 0.0
        passing = not cause or cause.startswith(PASSING) or cause == CHANGED
        if self.counts[cause] < (
            MOST_CHANGED if cause == CHANGED else MOST_PASSING if passing else MOST
        ):
            return
        text = f"{error}; {self.counts[cause]} attempts to copy ended in this way"
        if passing:
            raise Passing(text)
        if cause == NO_MEMORY:
            text += ": max_locks_per_transaction of the server may be too small for so many tables"
        raise ServerError(text, REFUSED)

    def next_delay(self) -> float:
        """After how many seconds the next one begins."""
        self.delay = min(2 * self.delay, LONGEST_DELAY) if self.delay else 1.0
        return self.delay
