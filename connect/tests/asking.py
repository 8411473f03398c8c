"""Who asks a follower by its socket, and what of a follower answers, in tests."""

from __future__ import annotations

import contextlib
import json
import unittest
from collections.abc import Iterator
from typing import Any

from pgsub_connect.follow.request_socket import RequestSocket
from pgsub_connect.follow.snapshots import Snapshots
from pgsub_connect.store.socket_file import connected


def snapshots_of(case: unittest.TestCase, store: str, path: str | None = None) -> Snapshots:
    """What a follower has for copies, with its socket, until the test ends."""
    requests = RequestSocket(store)
    case.addCleanup(requests.close)
    return Snapshots(store, requests, path, 0.0)


class Asker:
    """A program that asks, one line after the other."""

    def __init__(self, store: str) -> None:
        self.socket = connected(store)
        self.unread = b""
        # whether the follower has ended the connection
        self.is_over = False

    def say(self, **fields: object) -> None:
        self.send(json.dumps(fields).encode() + b"\n")

    def send(self, what: bytes) -> None:
        self.socket.send(what)

    def heard(self) -> list[dict[str, Any]]:
        """What was answered since this was asked last."""
        with contextlib.suppress(BlockingIOError, ConnectionResetError):
            while piece := self.socket.recv(1 << 16):
                self.unread += piece
            self.is_over = True
        *lines, self.unread = self.unread.split(b"\n")
        return [json.loads(it) for it in lines]

    def error(self) -> str:
        """The text of the one answer, which is an error."""
        [said] = self.heard()
        return str(said["error"])

    def close(self) -> None:
        self.socket.close()


@contextlib.contextmanager
def asking(store: str, **asked: object) -> Iterator[Asker]:
    """As while a program asks that."""
    with contextlib.closing(Asker(store)) as asker:
        asker.say(**asked)
        yield asker
