"""A server on a socket, as far as the connector's libpq needs one: it logs everybody in and answers
queries by a FakeServer's answers."""

from __future__ import annotations

import contextlib
import os
import select
import socket
import ssl
import struct
import subprocess
import threading
import time
from collections.abc import Iterator

from server_messages import COPY_BOTH as COPY_BOTH
from server_messages import READY as READY
from server_messages import answered as answered
from server_messages import error as error
from server_messages import message as message

from pgsub_connect.errors import ServerError

from .fake_server import FakeServer

CANCEL, WANTS_TLS = 80877102, 80877103


def wrapped(peer: socket.socket, certificate: str) -> ssl.SSLSocket:
    """A connection after the client's wish for TLS was heard."""
    context = ssl.SSLContext(ssl.PROTOCOL_TLS_SERVER)
    context.load_cert_chain(certificate)
    return context.wrap_socket(peer, server_side=True)


def make_certificate(path: str, name: str = "127.0.0.1") -> str:
    """Makes a file with a key and a certificate that it has signed itself, for an address. Returns
    its path."""
    words = ["openssl", "req", "-x509", "-newkey", "ec", "-pkeyopt", "ec_paramgen_curve:prime256v1"]
    words += [
        "-nodes",
        "-days",
        "2",
        "-subj",
        f"/CN={name}",
        "-addext",
        f"subjectAltName=IP:{name}",
    ]
    words += ["-keyout", path + ".key", "-out", path + ".crt"]
    subprocess.run(words, check=True, capture_output=True)
    with open(path, "w", encoding="ascii") as file:
        for it in (".key", ".crt"):
            with open(path + it, encoding="ascii") as part:
                file.write(part.read())
    return path


class SmallServer:
    """Listens in a folder, or where `by_tcp` at a port of 127.0.0.1. `silent`: a query with this in
    it has no answer; `lets_in`: whether it answers those who connect; `version`: which one it says
    that it is; `read_only`: its default_transaction_read_only; `certificate`: the file of
    certificate and key by which it has TLS; `asks`: whether it asks for passwords in clear text."""

    def __init__(
        self,
        folder: str,
        brain: FakeServer,
        *,
        port: int = 5432,
        standby: bool = False,
        refusal: bytes = b"",
        by_tcp: bool = False,
    ) -> None:
        self.folder, self.brain, self.port, self.standby, self.refusal = (
            folder,
            brain,
            port,
            standby,
            refusal,
        )
        self.silent, self.lets_in, self.version, self.read_only = "", True, "15.18", "off"
        # what a session sends once it copies, and what it was told then: when, and the payload
        self.to_send: list[bytes] = []
        # messages that it sends before all that
        self.notices = b""
        self.statuses: list[tuple[float, bytes]] = []
        self.sessions = self.canceled = 0
        self.answers_asking = True
        self.certificate, self.asks = "", False
        # each password that came, and whether others on the way could read it
        self.passwords: list[tuple[str, bool]] = []
        self.listener = socket.socket(socket.AF_INET if by_tcp else socket.AF_UNIX)
        self.path = f"{folder}/.s.PGSQL.{port}"
        self.listener.bind(("127.0.0.1", 0) if by_tcp else self.path)
        if by_tcp:
            self.folder, self.port = self.listener.getsockname()
        self.listener.listen(50)
        # (a pipe, whose end wakes all that wait)
        self.ended, (self.woken, self.wake) = False, os.pipe()
        self.threads: list[threading.Thread] = []
        self.begin(self.accept)

    def begin(self, call: object, *words: object) -> None:
        thread = threading.Thread(target=call, args=words, daemon=True)  # type: ignore[arg-type]
        thread.start()
        # (those that are joined have been started)
        self.threads.append(thread)

    def close(self) -> None:
        if self.ended:
            return
        self.ended = True
        os.close(self.wake)
        for thread in self.threads:
            thread.join(20)
        os.close(self.woken)
        self.listener.close()
        with contextlib.suppress(FileNotFoundError):
            os.unlink(self.path)

    def forget(self) -> None:
        """Forgets what it was told, once it has heard that nobody is connected any more."""
        for thread in self.threads[1:]:
            thread.join(20)
        self.statuses.clear()

    def dsn(self) -> str:
        return f"host={self.folder} port={self.port} dbname=shop user=u"

    def accept(self) -> None:
        with contextlib.suppress(OSError, EOFError):
            while True:
                self.wait_for(self.listener)
                self.begin(self.serve, self.listener.accept()[0])

    def serve(self, peer: socket.socket) -> None:
        with contextlib.ExitStack() as closing, contextlib.suppress(OSError, EOFError):
            closing.callback(lambda: peer.close())
            length, code = struct.unpack(">ii", self.read(peer, 8))
            if code == WANTS_TLS:
                peer.sendall(b"S" if self.certificate else b"N")
                peer = wrapped(peer, self.certificate) if self.certificate else peer
                length, code = struct.unpack(">ii", self.read(peer, 8))
            self.read(peer, length - 8)
            if code == CANCEL:
                self.canceled += 1
                return
            while not self.lets_in:
                self.pause()
            if self.refusal:
                peer.sendall(self.refusal)
                return
            if self.asks:
                peer.sendall(message(b"R", struct.pack(">i", 3)))
                head = self.read(peer, 5)
                password = self.read(peer, struct.unpack(">i", head[1:])[0] - 4)[:-1].decode()
                self.passwords.append((password, not isinstance(peer, ssl.SSLSocket)))
            said = {
                "server_version": self.version,
                "client_encoding": "UTF8",
                "default_transaction_read_only": self.read_only,
            }
            said["in_hot_standby"] = "on" if self.standby else "off"
            peer.sendall(message(b"R", bytes(4)))
            for name, value in said.items():
                peer.sendall(message(b"S", name.encode() + b"\0" + value.encode() + b"\0"))
            peer.sendall(message(b"K", struct.pack(">ii", 4711, 99)) + READY)
            for query in self.queries(peer):
                self.answer(peer, query)

    def wait_for(self, *what: socket.socket, seconds: float | None = None) -> None:
        """Waits until something has come on one of these. Raises where the server has ended."""
        if self.woken in select.select([self.woken, *what], [], [], seconds)[0]:
            raise EOFError

    def pause(self) -> None:
        self.wait_for(seconds=0.01)

    def read(self, peer: socket.socket, size: int) -> bytes:
        found = b""
        while len(found) < size:
            if not (isinstance(peer, ssl.SSLSocket) and peer.pending()):
                self.wait_for(peer)
            piece = peer.recv(size - len(found))
            if not piece:
                raise EOFError
            found += piece
        return found

    def messages(self, peer: socket.socket) -> Iterator[tuple[bytes, bytes]]:
        while True:
            head = self.read(peer, 5)
            yield head[:1], self.read(peer, struct.unpack(">i", head[1:])[0] - 4)

    def queries(self, peer: socket.socket) -> Iterator[str]:
        for tag, body in self.messages(peer):
            if tag == b"X":
                return
            if tag == b"Q":
                yield body[:-1].decode()

    def answer(self, peer: socket.socket, query: str) -> None:
        if self.silent and self.silent in query:
            while True:
                self.pause()
        if query.startswith("START_REPLICATION"):
            self.brain.commands.append(query)
            return self.copy(peer)
        try:
            peer.sendall(answered(self.brain.rows_for(query)))
        except ServerError as fault:
            peer.sendall(error(str(fault), fault.sqlstate))
        peer.sendall(READY)

    def copy(self, peer: socket.socket) -> None:
        """A session: sends what there is to send, and notes what it is told."""
        self.sessions += 1
        peer.sendall(COPY_BOTH + self.notices)
        copies = threading.Event()
        copies.set()
        self.begin(self.send_all, peer, copies)
        try:
            for tag, body in self.messages(peer):
                if tag == b"c":
                    peer.sendall(message(b"c", b"") + message(b"C", b"COPY 0\0") + READY)
                    return
                if tag == b"d":
                    self.statuses.append((time.monotonic(), body))
                    if body[-1:] == b"\x01" and self.answers_asking:
                        peer.sendall(message(b"d", b"k" + body[9:17] + bytes(8) + b"\0"))
        finally:
            copies.clear()

    def send_all(self, peer: socket.socket, copies: threading.Event) -> None:
        """Sends what there is to send as long as the session copies; what couldn't be sent is left
        to the next one."""
        with contextlib.suppress(OSError, EOFError):
            while copies.is_set():
                while self.to_send:
                    peer.sendall(message(b"d", self.to_send[0]))
                    del self.to_send[:1]
                self.pause()
