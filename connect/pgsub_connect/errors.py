"""Why the connector ends, or tries again."""

import contextlib
import struct
from collections.abc import Iterator

from pgsub_feed.errors import FILE, PASSING, SERVER, Failure, Passing
from pgsub_feed.texts import shortened

# Exit statuses beside those of pgsub_feed.
NO_SLOT, MISSED = 8, 9


class Delayed(Passing):
    """Commits at the server waited for too long, so nothing was repaired: try again."""


class NoSlot(Failure):
    """The server didn't make a slot in time: nothing was compared."""

    STATUS = NO_SLOT


class Unrepaired(Exception):
    """The follower doesn't pass on what would repair the copy, and wouldn't at another try."""


class FilterFault(Failure):
    """The filter wrote what isn't a status, or can't be started."""

    STATUS = FILE


class Unread(Failure):
    """What follows the feed has ended for good with this status, before it had what was asked for."""

    def __init__(self, text: str, status: int) -> None:
        super().__init__(text)
        self.STATUS = status


# The classes and codes of errors that another try doesn't mend: the feature, the login, the
# database, the rights, the state of the slot. A slot that is in use and the like may pass.
LOGIN = "28"
LASTING = ("0A", LOGIN, "3D", "42", "55000", "22023")
IN_USE = "55006"


class ServerError(Failure):
    """The server can't be reached, rejected a command or broke the session off."""

    def __init__(self, text: str, sqlstate: str = "") -> None:
        super().__init__(text)
        self.sqlstate = sqlstate

    def is_lasting(self) -> bool:
        """Whether another try would end in the same way."""
        return self.sqlstate.startswith(LASTING)

    def exit_status(self) -> int:
        return SERVER if self.is_lasting() else PASSING


class LostSlot(ServerError):
    """The slot is lost: nothing can follow from it."""


class Renewed(ServerError):
    """A session ends so that another one begins at once: commits may wait for it."""


class Unconnected(ServerError):
    """No connection was made: the server can't be reached, or let nobody in."""


class WrongAnswer(ServerError):
    """The server answered what no PostgreSQL server does, or too much, as it will again."""

    def is_lasting(self) -> bool:
        return True


@contextlib.contextmanager
def understood(what: str) -> Iterator[None]:
    """Around what reads a server's answer, or as a decorator of it: another number of rows or
    columns, and what is no number or LSN where one is to be, is the server's fault."""
    try:
        yield
    except (ValueError, LookupError, TypeError, ArithmeticError, struct.error) as error:
        text = f"the server's answer about {what} isn't one of PostgreSQL"
        raise WrongAnswer(f"{text}: {shortened(str(error))}") from error
