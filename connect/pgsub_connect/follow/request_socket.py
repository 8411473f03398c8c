"""What other programs ask of this follower by the socket `STORE.sock`, as the module
`store.socket_file` says.

The main loop waits for the socket, for who has connected and for `wake` as one file, beside the
server and the filter. So a request is seen at once, and the end of who asked, too.

Root and the follower's own account may ask all. Whoever else may connect, since the store's mode
lets it read, may wait. It gets at most so many connections at once, and lines of so many bytes,
that the others' requests come through.
"""

import collections
import contextlib
import os
import select
import socket
import time
from collections.abc import Iterator
from typing import Any

from pgsub_feed.json_texts import Unreadable

from ..store.socket_file import LONGEST, PIECE, SUFFIX, Lines, account_of, line_of, listening

# How many connections there may be, how many of other accounts, and how long their lines are.
MOST, OTHERS, SHORT = 64, 32, 1 << 13
# How many connections are accepted at once, before anything else is done, and after how many
# seconds it is tried again where the system has no room for another one.
SEVERAL, AGAIN = 16, 1.0
# How often what has come is taken at once: a connection, its line and its end may come together.
ROUNDS = 4
# How many lines may wait to be taken up, and in how many seconds the first has to come.
UNTAKEN, SILENT = 4, 10.0
WAIT, KINDS = "wait", ("copy", "hold", "add", "wait")


class Client:
    """A connection of who asks."""

    def __init__(self, made: socket.socket, uid: int) -> None:
        self.socket, self.begun = made, time.monotonic()
        self.may_ask_all = uid in (0, os.geteuid())
        self.lines = Lines(LONGEST if self.may_ask_all else SHORT)
        # what was asked, None as long as it wasn't; and what was said behind that
        self.asked: dict[str, Any] | None = None
        self.said = collections.deque[dict[str, Any]]()
        # whether the connection has ended, at either end
        self.is_gone = False

    def read(self) -> None:
        """Takes what has come."""
        try:
            piece = self.socket.recv(PIECE)
            said = self.lines.take(piece)
        except BlockingIOError:
            return
        except OSError:
            piece, said = b"", []
        except Unreadable as error:
            self.end(error=f"the request can't be read: {error}")
            return
        if self.asked is None and said:
            self.asked = said.pop(0)
            self.check_asked(self.asked.get("ask"))
        self.said += said
        if not piece:
            self.close()
        elif len(self.said) > UNTAKEN:
            self.end(error="too much was said at once")

    def check_asked(self, kind: object) -> None:
        if kind not in KINDS:
            self.end(error="the follower doesn't know this request: is it of an older version?")
        elif kind != WAIT and not self.may_ask_all:
            self.end(error="root and the account of the follower may ask that, and others may wait")

    def is_silent(self, now: float) -> bool:
        """Whether nothing was asked in time."""
        return self.asked is None and now - self.begun > SILENT

    def answer(self, **fields: object) -> None:
        if self.is_gone:
            return
        line = line_of(fields)
        with contextlib.suppress(OSError):
            if self.socket.send(line) == len(line):
                return
        # (whoever leaves answers unread has no use for another one)
        self.close()

    def end(self, **fields: object) -> None:
        """Gives the last answer."""
        self.answer(**fields)
        self.close()

    def close(self) -> None:
        self.is_gone = True
        self.socket.close()


class RequestSocket:
    """The socket, and what is asked by it."""

    def __init__(self, store: str, mode: int = 0o600) -> None:
        self.path = store + SUFFIX
        self.listening = listening(store, mode)
        self.woken, self.waker = os.pipe2(os.O_NONBLOCK | os.O_CLOEXEC)
        self.ready = select.epoll()
        for it in (self.listening.fileno(), self.woken):
            self.ready.register(it, select.EPOLLIN)
        self.clients: dict[int, Client] = {}
        # what was asked and wasn't taken up yet, in order; and who waits for an LSN
        self.asked = collections.deque[Client]()
        self.waiting: list[Client] = []
        # since when nobody was accepted, where the system has no room
        self.deaf: float | None = None

    def fileno(self) -> int:
        """What can be read once there is something to do. A file for `select`."""
        return self.ready.fileno()

    def wake(self) -> None:
        """Has the main loop look what another thread, or a signal, has done."""
        # (where that blocks it is about to look)
        with contextlib.suppress(BlockingIOError):
            os.write(self.waker, b"\0")

    def rest(self, seconds: float) -> None:
        """Waits until there is something to do, for so many seconds at most."""
        select.select([self], [], [], seconds)

    def tend(self) -> None:
        """Takes what has come."""
        now = time.monotonic()
        if self.deaf is not None and now - self.deaf > AGAIN:
            self.deaf = None
            self.ready.register(self.listening, select.EPOLLIN)
        for _ in range(ROUNDS):
            if not (ready := self.ready.poll(0)):
                break
            for file, _ in ready:
                self.take_from(file)
            self.forget_gone()
        for client in [it for it in self.clients.values() if it.is_silent(now)]:
            client.end(error="nothing was asked")
        self.forget_gone()

    def take_from(self, file: int) -> None:
        if file == self.woken:
            os.read(self.woken, PIECE)
        elif file == self.listening.fileno():
            self.accept()
        elif client := self.clients.get(file):
            self.read(client)

    def accept(self) -> None:
        for _ in range(SEVERAL):
            try:
                made, _ = self.listening.accept()
            except BlockingIOError:
                return
            except OSError:
                self.deaf = time.monotonic()
                self.ready.unregister(self.listening)
                return
            made.setblocking(False)
            client = Client(made, account_of(made))
            if self.has_room(client):
                self.clients[made.fileno()] = client
                self.ready.register(made, select.EPOLLIN)
            else:
                client.end(error="too many ask the follower at once")

    def has_room(self, client: Client) -> bool:
        others = sum(not it.may_ask_all for it in self.clients.values())
        return len(self.clients) < MOST and (client.may_ask_all or others < OTHERS)

    def read(self, client: Client) -> None:
        was_asked = client.asked is not None
        client.read()
        if client.asked is not None and not was_asked and not client.is_gone:
            (self.waiting if client.asked["ask"] == WAIT else self.asked).append(client)

    def forget_gone(self) -> None:
        gone = [file for file, it in self.clients.items() if it.is_gone]
        if gone:
            for file in gone:
                del self.clients[file]
            self.asked = collections.deque(it for it in self.asked if not it.is_gone)
            self.waiting = [it for it in self.waiting if not it.is_gone]

    def first(self) -> Client | None:
        """Who is next."""
        while self.asked and self.asked[0].is_gone:
            self.asked.popleft()
        return self.asked[0] if self.asked else None

    def take(self) -> None:
        """Takes up what is next."""
        self.asked.popleft()

    def those_waiting(self) -> Iterator[Client]:
        return (it for it in list(self.waiting) if not it.is_gone)

    def close(self) -> None:
        """Ends it. Its file goes as long as the checkpoint is locked."""
        for client in self.clients.values():
            client.close()
        # (somebody may remove the store's folder meanwhile)
        with contextlib.suppress(OSError):
            os.unlink(self.path)
        self.listening.close()
        self.ready.close()
        os.close(self.woken)
        os.close(self.waker)
