"""Calls of a library that wait for a server, which a signal ends.

A signal that asks for the end only notes that, so that nothing is cut in the midst of it. Where a
library waits nobody looks at the note: there the signal itself ends the call, at once or some
seconds later, which loses what the call was at. So it is for connections alone that aren't used
afterwards.
"""

import contextlib
import errno
import queue
import signal
import socket
import threading
import time
from collections.abc import Callable, Iterator
from typing import Any

from .errors import Stopped

# What is called again and again during a wait, and raises Stopped, or an error, to end it.
Check = Callable[[], None]
# After how many seconds a call is ended once more, where Python has passed over the first try: it
# does that with what is raised while an object is removed.
AGAIN = 1.0
# How often it is looked whether the end was asked for while a name is looked up, in seconds.
TICK = 0.1
# What getaddrinfo returns of a host: an address and how to make a socket for it.
Address = tuple[Any, Any, int, str, Any]


def never() -> None:
    """Asks for no end."""


@contextlib.contextmanager
def undone_by(undo: Callable[[], object]) -> Iterator[None]:
    """Undoes what goes before where what is done inside fails, or is interrupted."""
    try:
        yield
    except BaseException:
        undo()
        raise


def looked_up(host: str, port: int | None, seconds: float, check: Check) -> list[Address]:
    """A host's addresses. A name is looked up by another thread, since no signal ends that. An
    OSError says why there are none, with the number ETIMEDOUT where it takes longer than that."""
    end, found = time.monotonic() + seconds, queue.SimpleQueue[list[Address] | Exception]()

    def look() -> None:
        try:
            found.put(socket.getaddrinfo(host, port, type=socket.SOCK_STREAM))
        except (OSError, ValueError) as error:
            # (a ValueError: it can't be a name)
            found.put(error)

    threading.Thread(target=look, daemon=True).start()
    while True:
        try:
            said = found.get(timeout=TICK)
        except queue.Empty:
            check()
            if time.monotonic() > end:
                raise TimeoutError(errno.ETIMEDOUT, "its name isn't found in time") from None
            continue
        if isinstance(said, Exception):
            raise said if isinstance(said, OSError) else OSError(errno.EINVAL, str(said))
        return said


def is_ended(check: Check) -> bool:
    """Whether the end was asked for."""
    try:
        check()
    except Stopped:
        return True
    return False


def rest(seconds: float, check: Check, step: float = 0.2) -> None:
    """Sleeps for so many seconds, and calls `check` before each step of them."""
    until = time.monotonic() + seconds
    while (left := until - time.monotonic()) > 0:
        check()
        time.sleep(min(left, step))


def limited(seconds: float, error: Exception, check: Check = never) -> Check:
    """A check that raises an error, too, once so many seconds are over."""
    until = time.monotonic() + seconds

    def check_time() -> None:
        check()
        if time.monotonic() > until:
            raise error

    return check_time


def stop(*_: object) -> None:
    raise Stopped


class Calls:
    """Whether such a call runs, for how many seconds it goes on once a signal came, and whether
    they run."""

    def __init__(self) -> None:
        self.are_waiting, self.grace, self.is_timed = False, 0.0, False

    @contextlib.contextmanager
    def interruptible(self, check: Check, grace: float = 0.0) -> Iterator[None]:
        """Has a signal end what runs in it by a Stopped, unless it ends in so many seconds."""
        before = self.are_waiting, self.grace
        self.are_waiting, self.grace = True, grace
        try:
            # (of a signal that came just before)
            if is_ended(check):
                self.interrupt()
            yield
        finally:
            self.are_waiting, self.grace = before
            if self.is_timed:
                signal.setitimer(signal.ITIMER_REAL, 0)
                self.is_timed = False

    def interrupt(self) -> None:
        """What a signal that asks for the end does, once that is noted."""
        if not self.are_waiting:
            return
        if not self.grace or threading.current_thread() is not threading.main_thread():
            raise Stopped
        if not signal.getitimer(signal.ITIMER_REAL)[0]:
            self.is_timed = True
            signal.signal(signal.SIGALRM, stop)
            signal.setitimer(signal.ITIMER_REAL, self.grace, AGAIN)


# Those of this process.
CALLS = Calls()
interruptible, interrupt = CALLS.interruptible, CALLS.interrupt


@contextlib.contextmanager
def at_most(seconds: float) -> Iterator[None]:
    """Ends what runs in it by a Stopped after so many seconds."""
    if threading.current_thread() is not threading.main_thread():
        yield
        return

    before = signal.signal(signal.SIGALRM, stop)
    try:
        # (it may have gone off by the time that this returns)
        signal.setitimer(signal.ITIMER_REAL, seconds, AGAIN)
        yield
    finally:
        try:
            signal.setitimer(signal.ITIMER_REAL, 0)
        finally:
            signal.signal(signal.SIGALRM, before)
