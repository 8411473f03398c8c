"""A connection of a sink, which never waits for longer than a moment."""

import errno
import ipaddress
import os
import select
import socket
import ssl
import time
from typing import Any, Protocol

from ..interruption import Check, looked_up, undone_by

# For how long one wait lasts at most, in seconds.
TICK = 0.1
# An engine has so long for what it was told once the end was asked for, in seconds.
GRACE = 5.0
BUSY = (BlockingIOError, ssl.SSLWantReadError, ssl.SSLWantWriteError)


class Peer(Protocol):
    """A connection of an engine. `check` is called while it is waited for."""

    check: Check

    def end_by(self, check: Check) -> None:
        """Has another check say when nothing is waited for any more."""
        self.check = check

    def close(self) -> None:
        """Ends it."""


def connected(host: str, port: int, seconds: float, check: Check) -> socket.socket:
    """A connection to the first of a host's addresses that takes one in this time, which doesn't
    block. An OSError says why there is none."""
    error = OSError(errno.EADDRNOTAVAIL, "the host has no address")
    for family, kind, protocol, _, address in looked_up(host, port, seconds, check):
        made = socket.socket(family, kind, protocol)
        try:
            with undone_by(made.close):
                made.setblocking(False)
                connect(made, address, time.monotonic() + seconds, check)
                return made
        except OSError as failed:
            error = failed
    raise error


def connect(made: socket.socket, address: Any, end: float, check: Check) -> None:
    code = made.connect_ex(address)
    while code == errno.EINPROGRESS:
        if is_ready(made, end, check, writes=True):
            code = made.getsockopt(socket.SOL_SOCKET, socket.SO_ERROR)
        else:
            code = errno.ETIMEDOUT
    if code:
        raise OSError(code, os.strerror(code))


def is_ready(made: socket.socket, end: float, check: Check, writes: bool = False) -> bool:
    """Waits until something can be read or written. Returns false where it can't in time."""
    wanted = [made]
    while True:
        check()
        left = end - time.monotonic()
        reads, writes_to = ([], wanted) if writes else (wanted, [])
        ready = select.select(reads, writes_to, [], max(0.0, min(left, TICK)))
        if ready[0] or ready[1]:
            return True
        if left <= 0:
            return False


def encrypted(made: socket.socket, host: str, seconds: float, check: Check) -> ssl.SSLSocket:
    """The connection by TLS, whose certificate is that of the host."""
    end = time.monotonic() + seconds
    found = ssl.create_default_context().wrap_socket(
        made, server_hostname=host, do_handshake_on_connect=False
    )
    while True:
        try:
            found.do_handshake()
            return found
        except BUSY as busy:
            if not is_ready(found, end, check, isinstance(busy, ssl.SSLWantWriteError)):
                raise TimeoutError(errno.ETIMEDOUT, "TLS isn't there in time") from None


def is_loopback(host: str) -> bool:
    """Whether a name or address is this machine's own."""
    try:
        return ipaddress.ip_address(host.partition("%")[0]).is_loopback
    except ValueError:
        return host.lower().rstrip(".") == "localhost" or host.lower().endswith(".localhost")
