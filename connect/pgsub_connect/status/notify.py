"""Tells the service manager how the follower goes, as systemd's sd_notify(3) says: one datagram of
lines to the socket that NOTIFY_SOCKET names.

Only the main loop tells that it is alive. Where it stands still, nothing else says that all is
well, and the manager ends the process after its WatchdogSec.
"""

import contextlib
import os
import socket
import time
from collections.abc import MutableMapping

# How often it is told at most that the main loop is alive, in seconds, and how many times at least
# in the time within which the manager wants to hear of it.
SELDOM, TIMES = 1.0, 5
# For how many seconds it is tried to tell what is told once.
PATIENCE = 1.0
# Until it is ready, the manager gives it so many seconds more each time.
LONGER = 60
VARIABLES = ("NOTIFY_SOCKET", "WATCHDOG_USEC", "WATCHDOG_PID")


class Notifier:
    """Tells nothing where it has no address. One that begins with @ is an abstract name."""

    def __init__(self, address: str = "", within: float | None = None) -> None:
        """`within`: for how many seconds the manager waits for a sign of life."""
        self.address = "\0" + address[1:] if address.startswith("@") else address
        self.interval = min(SELDOM, within / TIMES) if within else SELDOM
        self.is_ready = self.is_stopping = False
        self.next, self.status = 0.0, ""

    def ready(self) -> None:
        """The follower has come so far that whatever needs it may start."""
        if not self.is_ready:
            self.is_ready = True
            self.send(PATIENCE, "READY=1")

    def is_due(self) -> bool:
        return bool(self.address) and time.monotonic() >= self.next

    def beat(self, status: str) -> None:
        """The main loop is alive, and at this. Called where it is due."""
        self.next = time.monotonic() + self.interval
        alive = "WATCHDOG=1" if self.is_ready else f"EXTEND_TIMEOUT_USEC={LONGER * 1000000}"
        self.tell(0.0, status, alive)

    def stopping(self, status: str) -> None:
        """The follower is about to end."""
        first = [] if self.is_stopping else ["STOPPING=1"]
        self.is_stopping = True
        self.tell(PATIENCE, status, *first)

    def tell(self, patience: float, status: str, *lines: str) -> None:
        """Tells these, and the status where the manager hasn't taken it."""
        news = [] if status == self.status else [f"STATUS={status}"]
        if self.send(patience, *lines, *news):
            self.status = status

    def send(self, patience: float, *lines: str) -> bool:
        """Sends these, and returns whether they were taken. A manager that doesn't listen any more
        is none of the follower's faults."""
        if not self.address or not lines:
            return True
        with contextlib.suppress(OSError), socket.socket(
            socket.AF_UNIX, socket.SOCK_DGRAM | socket.SOCK_CLOEXEC
        ) as it:
            it.settimeout(patience)
            it.sendto("\n".join(lines).encode(), self.address)
            return True
        return False


def notifier_of(environment: MutableMapping[str, str]) -> Notifier:
    """The one that an environment asks for, whose variables go: they aren't for children."""
    address, usec, pid = (environment.pop(name, "") for name in VARIABLES)
    is_watched = usec.isdecimal() and (not pid or pid == str(os.getpid()))
    return Notifier(address, int(usec) / 1000000 if is_watched else None)
