"""A proxy before an honest server that lies in the place of one of its answers, or of each from one
on."""

from __future__ import annotations

import contextlib
import socket
import threading
import time
from pathlib import Path

from .lies import Lie
from .messages import Message, read_message

# What ends an answer: that the server is ready, or that rows or a stream begin.
LAST = (b"Z", b"H", b"W")


class Liar:
    """The proxy. Its folder is the host of a connection string. `lie` comes from the answer with
    the index `first` on, of those to queries with the words of its place; `count`: how many answers
    there were; `told`: when it lied first."""

    def __init__(self, server: Path, folder: Path) -> None:
        self.server, self.folder = server, folder
        self.lie: Lie | None = None
        self.first = self.count = self.placed = 0
        self.told: float | None = None
        self.lock, self.ended = threading.Lock(), threading.Event()
        self.open: list[socket.socket] = []
        self.listener = socket.socket(socket.AF_UNIX)
        self.listener.bind(str(folder / server.name))
        self.listener.listen(20)
        threading.Thread(target=self.accept, daemon=True).start()

    def begin(self, lie: Lie | None, first: int) -> None:
        """Lies from now on, or is honest."""
        self.lie, self.first, self.told = lie, first, None
        self.count = self.placed = 0

    def close(self) -> None:
        self.ended.set()
        self.listener.close()
        self.cut()

    def cut(self) -> None:
        """Ends all connections."""
        for it in self.open:
            with contextlib.suppress(OSError):
                it.shutdown(socket.SHUT_RDWR)
            it.close()
        self.open = []

    def accept(self) -> None:
        with contextlib.suppress(OSError):
            while True:
                client, _ = self.listener.accept()
                server = socket.socket(socket.AF_UNIX)
                server.connect(str(self.server))
                self.open += [client, server]
                answers = Answers(self, client, server)
                for call in (answers.down, answers.up):
                    threading.Thread(target=call, daemon=True).start()

    def lie_for(self, query: str) -> Lie | None:
        """The lie in the place of the answer to a query, None for the honest one."""
        with self.lock:
            lie = self.lie
            self.count += 1
            if lie is None or lie.place not in query:
                return None
            self.placed += 1
            if self.placed <= self.first:
                return None
            self.told = self.told or time.monotonic()
            return lie


class Answers:
    """One connection."""

    def __init__(self, liar: Liar, client: socket.socket, server: socket.socket) -> None:
        self.liar, self.client, self.server = liar, client, server
        self.pending: Lie | None = None

    def up(self) -> None:
        """Passes on what the client says."""
        with contextlib.suppress(OSError, ValueError), self.client.makefile("rb") as source:
            length = source.read(4)
            self.server.sendall(length + source.read(int.from_bytes(length, "big") - 4))
            while found := read_message(source.read):
                if found.tag == b"Q":
                    self.pending = self.liar.lie_for(found.body[:-1].decode(errors="replace"))
                self.server.sendall(found.whole())
        self.end()

    def down(self) -> None:
        """Passes on what the server says, or the lie in its place."""
        honest: list[Message] = []
        with contextlib.suppress(OSError, ValueError), self.server.makefile("rb") as source:
            while found := read_message(source.read):
                lie = self.pending
                if lie is None:
                    self.client.sendall(found.whole())
                    continue
                honest.append(found)
                if found.tag in LAST:
                    self.pending = None
                    self.say(lie, honest)
                    honest = []
                    if found.tag == b"W":
                        break
                    # (the server's own rows come after that)
                    while found.tag != b"Z" and (found := read_message(source.read) or found):
                        pass
        self.end()

    def say(self, lie: Lie, honest: list[Message]) -> None:
        for it in lie.call(honest):
            if isinstance(it, float):
                self.liar.ended.wait(it)
            else:
                self.client.sendall(it)
            if self.liar.ended.is_set() or self.is_gone():
                return
        if lie.name == "ends":
            self.end()

    def is_gone(self) -> bool:
        return self.client.fileno() < 0

    def end(self) -> None:
        for it in (self.client, self.server):
            with contextlib.suppress(OSError):
                it.shutdown(socket.SHUT_RDWR)
