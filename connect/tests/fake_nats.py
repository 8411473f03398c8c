"""A NATS server with JetStream, as much of it as a sink uses, on a port of this machine."""

from __future__ import annotations

import base64
import contextlib
import json
import socket
import threading
import time
from collections.abc import Callable
from typing import Any, BinaryIO, NamedTuple


class Kept(NamedTuple):
    """A message of the stream."""

    sequence: int
    subject: str
    headers: bytes
    data: bytes

    @property
    def id(self) -> str:
        return header(self.headers, "Nats-Msg-Id")


def header(headers: bytes, name: str) -> str:
    found = [it for it in headers.decode().split("\r\n") if it.startswith(name + ": ")]
    return found[0].partition(": ")[2] if found else ""


# For how long a stream knows the ids of its messages, in seconds.
WINDOW = 120.0


class FakeNats:
    """The server. `stream` is what it keeps; `accepts`: after how many more messages the connection
    ends, None where it doesn't."""

    def __init__(self) -> None:
        self.listening = socket.create_server(("127.0.0.1", 0))
        self.port = self.listening.getsockname()[1]
        self.stream: list[Kept] | None = None
        self.config: dict[str, Any] = {}
        # by id the sequence of a message and when it came, whatever has become of it since
        self.known: dict[str, tuple[int, float]] = {}
        self.asked: list[str] = []
        self.last = 0
        self.info: dict[str, Any] = {"max_payload": 1000}
        self.accepts: int | None = None
        self.connected: dict[str, Any] = {}
        # what is said first, in the place of what is said to a PING, and before a message is kept
        self.hello = b""
        self.pong = b"PONG\r\n"
        self.before: Callable[[], None] = lambda: None
        self.error: dict[str, Any] | None = None
        self.thread = threading.Thread(target=self.serve, daemon=True)
        self.thread.start()

    def close(self) -> None:
        # (closing alone doesn't end an accept)
        with contextlib.suppress(OSError):
            self.listening.shutdown(socket.SHUT_RDWR)
        self.listening.close()
        self.thread.join(5)

    def ids(self) -> list[str]:
        return [it.id for it in self.stream or []]

    def serve(self) -> None:
        while True:
            try:
                connection, _ = self.listening.accept()
            except OSError:
                return
            # (as the real one: a line doesn't wait until the one before it is acknowledged)
            connection.setsockopt(socket.IPPROTO_TCP, socket.TCP_NODELAY, 1)
            with connection, contextlib.suppress(OSError, ValueError, EOFError):
                self.session(connection, connection.makefile("rb"))

    def session(self, connection: socket.socket, file: BinaryIO) -> None:
        connection.sendall(self.hello or b"INFO " + json.dumps(self.info).encode() + b"\r\n")
        while line := file.readline():
            op, *words = line.split()
            if op == b"CONNECT":
                self.connected = json.loads(line[8:])
            elif op == b"PING":
                connection.sendall(self.pong)
            elif op in (b"PUB", b"HPUB"):
                sizes = [int(it) for it in words[2:]]
                body = file.read(sizes[-1] + 2)[:-2]
                at = sizes[0] if op == b"HPUB" else 0
                said = self.said(words[0].decode(), body[:at], body[at:])
                connection.sendall(b"MSG %b 1 %d\r\n%b\r\n" % (words[1], len(said), said))

    def said(self, subject: str, headers: bytes, data: bytes) -> bytes:
        if subject.startswith("$JS.API."):
            found = self.ask(subject.split(".")[2:], json.loads(data or b"{}"))
        else:
            found = self.keep(subject, headers, data)
        return json.dumps(found).encode()

    def keep(self, subject: str, headers: bytes, data: bytes) -> dict[str, Any]:
        if self.accepts is not None:
            if self.accepts == 0:
                raise EOFError
            self.accepts -= 1
        self.before()
        if self.error:
            return {"error": self.error}
        sequence, when = self.known.get(header(headers, "Nats-Msg-Id"), (0, 0.0))
        if sequence and time.monotonic() - when < WINDOW:
            return {"stream": "pgsub", "seq": sequence, "duplicate": True}
        if int(header(headers, "Nats-Expected-Last-Sequence")) != self.last:
            return {
                "error": {
                    "code": 400,
                    "err_code": 10071,
                    "description": f"wrong last sequence: {self.last}",
                }
            }
        self.add(subject, headers, data)
        return {"stream": "pgsub", "seq": self.last}

    def add(self, subject: str, headers: bytes, data: bytes) -> None:
        assert self.stream is not None
        self.last += 1
        self.stream.append(Kept(self.last, subject, headers, data))
        if id := self.stream[-1].id:
            self.known[id] = self.last, time.monotonic()

    def ask(self, what: list[str], body: dict[str, Any]) -> dict[str, Any]:
        call = ".".join(what[:-1])
        self.asked.append(call)
        if call == "STREAM.CREATE":
            self.stream, self.config, self.known = [], body, {}
        if self.stream is None:
            return {"error": {"code": 404, "err_code": 10059, "description": "stream not found"}}
        if call == "STREAM.PURGE":
            keep, first = body.get("keep", 0), body.get("seq", self.last + 1)
            self.stream[:] = (
                self.stream[len(self.stream) - keep :]
                if keep
                else [it for it in self.stream if it.sequence >= first]
            )
        if call == "STREAM.MSG.GET":
            return self.get(body)
        first = self.stream[0].sequence if self.stream else self.last + 1
        return {
            "config": self.config,
            "state": {"messages": len(self.stream), "first_seq": first, "last_seq": self.last},
        }

    def get(self, body: dict[str, Any]) -> dict[str, Any]:
        found = [
            it
            for it in self.stream or []
            if body.get("seq") == it.sequence or body.get("last_by_subj") == it.subject
        ]
        if not found:
            return {"error": {"code": 404, "err_code": 10037, "description": "no message found"}}
        it = found[-1]
        headers, data = (base64.b64encode(part).decode() for part in (it.headers, it.data))
        return {
            "message": {"subject": it.subject, "seq": it.sequence, "hdrs": headers, "data": data}
        }
