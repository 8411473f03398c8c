"""A proxy on a unix socket before a server: holds commands back until something else was done, can
fall silent, and can make something else of a stream."""

from __future__ import annotations

import contextlib
import dataclasses
import shutil
import socket
import threading
from collections.abc import Callable, Sequence
from pathlib import Path

CANCEL = 80877102

# What is made of a payload of a stream: others, in its place.
Edit = Callable[[bytes], Sequence[bytes]]


@dataclasses.dataclass
class Hook:
    """What is done before a command with a certain text goes to the server."""

    text: str
    call: Callable[[], None]
    left: int = 1


class Proxy:
    """The proxy. Its folder is the host of a connection string."""

    def __init__(self, server: Path, folder: Path) -> None:
        self.server, self.folder = server, folder
        self.hooks: list[Hook] = []
        self.asked: list[str] = []
        self.flows = threading.Event()
        self.flows.set()
        self.ended = threading.Event()
        # after how many bytes of the server a connection stops, and how many have
        self.limit: int | None = None
        # makes what edits the stream of a connection that is made from then on
        self.editing: Callable[[], Edit] | None = None
        self.stopped = 0
        self.open: list[socket.socket] = []
        self.listener = socket.socket(socket.AF_UNIX)
        self.listener.bind(str(folder / server.name))
        self.listener.listen(20)
        threading.Thread(target=self.accept, daemon=True).start()

    def before(self, text: str, call: Callable[[], None], times: int = 1) -> None:
        """Calls something before a command with this text goes on, so many times."""
        self.hooks.append(Hook(text, call, times))

    def freeze(self) -> None:
        """Falls silent on all connections. They stay open, and new ones are accepted."""
        self.flows.clear()

    def thaw(self) -> None:
        self.flows.set()

    def cut(self) -> None:
        """Ends all connections."""
        for it in self.open:
            with contextlib.suppress(OSError):
                it.shutdown(socket.SHUT_RDWR)

    def close(self) -> None:
        self.thaw()
        self.ended.set()
        self.listener.close()
        self.cut()
        shutil.rmtree(self.folder, ignore_errors=True)

    def accept(self) -> None:
        with contextlib.suppress(OSError):
            while True:
                client, _ = self.listener.accept()
                server = socket.socket(socket.AF_UNIX)
                try:
                    server.connect(str(self.server))
                except OSError:
                    client.close()
                    continue
                self.open += [client, server]
                threading.Thread(target=self.down, args=(client, server), daemon=True).start()
                threading.Thread(target=self.up, args=(client, server), daemon=True).start()

    def down(self, client: socket.socket, server: socket.socket) -> None:
        """Passes on what the server says."""
        if self.editing:
            self.down_edited(client, server, self.editing())
            return
        passed = 0
        with contextlib.suppress(OSError):
            while piece := server.recv(1 << 16):
                self.flows.wait()
                client.sendall(piece)
                passed += len(piece)
                if self.limit is not None and passed >= self.limit:
                    self.stopped += 1
                    self.ended.wait()
        for it in (client, server):
            with contextlib.suppress(OSError):
                it.shutdown(socket.SHUT_RDWR)

    def down_edited(self, client: socket.socket, server: socket.socket, edit: Edit) -> None:
        """Passes on what the server says, message by message."""
        streams = False
        with contextlib.suppress(OSError), server.makefile("rb") as source:
            while typed := source.read(1):
                message = whole_message(source.read, typed)
                streams = streams or typed == b"W"
                if not (streams and typed == b"d"):
                    client.sendall(message)
                    continue
                for payload in edit(message[5:]):
                    client.sendall(typed + (len(payload) + 4).to_bytes(4, "big") + payload)
        for it in (client, server):
            with contextlib.suppress(OSError):
                it.shutdown(socket.SHUT_RDWR)

    def up(self, client: socket.socket, server: socket.socket) -> None:
        """Passes on what the client says, message by message."""
        with contextlib.suppress(OSError):
            with client.makefile("rb") as source:
                while message := whole_message(source.read, b""):
                    self.flows.wait()
                    server.sendall(message)
                    if len(message) == 16 and int.from_bytes(message[4:8], "big") == CANCEL:
                        break
                    while typed := source.read(1):
                        message = whole_message(source.read, typed)
                        if typed == b"Q":
                            self.ask(message[5:-1].decode(errors="replace"))
                        self.flows.wait()
                        server.sendall(message)
                    break
        with contextlib.suppress(OSError):
            server.shutdown(socket.SHUT_WR)

    def ask(self, command: str) -> None:
        """Notes a command, and does what is to be done before it."""
        self.asked.append(command)
        for hook in self.hooks:
            if hook.left and hook.text in command:
                hook.left -= 1
                hook.call()


def whole_message(read: Callable[[int], bytes], typed: bytes) -> bytes:
    """A message after its letter: the length, and as many bytes."""
    head = read(4)
    return typed + head + read(int.from_bytes(head, "big") - 4) if len(head) == 4 else b""
