"""When a table is tried again that couldn't be added, and when it is refused."""

import collections
import time

from ..copy.table_reader import GONE
from ..copy.tries import PASSING
from ..errors import ServerError, Unconnected

# After how many seconds a table is tried again, first and at most, and refused after how often; and
# after how often where the disk had no room for its rows.
FIRST_DELAY, LONGEST_DELAY, ATTEMPTS, ROOMLESS = 1.0, 60.0, 5, 2


class Retries:
    """Counts what attempts ended with, by table and SQLSTATE."""

    def __init__(self) -> None:
        self.next_try = self.delay = 0.0
        self.counts: collections.Counter[tuple[int, str]] = collections.Counter()

    def is_time(self) -> bool:
        return time.monotonic() >= self.next_try

    def succeed(self) -> None:
        """The next table is tried at once."""
        self.delay = self.next_try = 0.0

    def hurry(self) -> None:
        """So it is, since more was asked for."""
        self.next_try = 0.0

    def wait(self) -> None:
        """Waits, longer each time."""
        self.delay = min(2 * self.delay, LONGEST_DELAY) if self.delay else FIRST_DELAY
        self.next_try = time.monotonic() + self.delay

    def wake(self) -> None:
        """Something else can be tried, unless an attempt has failed."""
        self.next_try = self.next_try if self.delay else 0.0

    def rest(self) -> None:
        """Nothing can be tried for now."""
        self.next_try = time.monotonic() + LONGEST_DELAY

    def is_over(self, oid: int, error: Exception) -> bool:
        """Notes what ended an attempt. Returns whether there is to be no other."""
        # (whom the server has let in before it may let in again)
        if not isinstance(error, ServerError) or isinstance(error, Unconnected):
            return False
        if not error.sqlstate or error.sqlstate.startswith((*PASSING, *GONE)):
            return False
        return self.are_too_many(oid, error.sqlstate, ATTEMPTS) or error.is_lasting()

    def are_too_many(self, oid: int, why: str, most: int) -> bool:
        """Counts what ended an attempt. Returns whether that was so often."""
        self.counts[oid, why] += 1
        return self.counts[oid, why] >= most
