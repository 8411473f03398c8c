"""The text protocol of NATS: one connection, on which messages are published and come.

    INFO {..}                                     the server, first of all
    CONNECT {..}
    SUB subject number
    HPUB subject reply 12 15 .. 12 bytes of headers and 3 of a payload
    MSG subject number reply 3 .. 3 bytes
    HMSG subject number reply 12 15 .. the same with headers
    PING, PONG
    +OK, -ERR 'text'

A line ends with CR and LF, and so do the bytes of a message.
"""

import dataclasses
import json
import select
import ssl
import time
import urllib.parse
from typing import Any

from .. import log
from ..errors import EngineError, Passing, Stopped, UsageError
from ..interruption import Check, never, undone_by
from ..json_texts import Unreadable, object_of, parsed, whole_of
from ..texts import shortened
from .connecting import BUSY, Peer, connected, encrypted, is_loopback, is_ready

PORT = 4222
# How long to wait for a connection, and until what is sent has left, in seconds.
CONNECT, LONGEST = 10.0, 60.0
# The longest line that is read, the largest message, and how much is read or sent at once.
LINE, LARGEST, CHUNK = 1 << 20, 128 << 20, 1 << 18
HEAD = b"NATS/1.0"
END = b"\r\n"
MESSAGES = (b"MSG", b"HMSG")
# What a server says where another try ends in the same way.
LASTING = (
    *("authorization", "authentication", "permissions", "maximum payload", "parser"),
    *("unknown protocol", "invalid"),
)


@dataclasses.dataclass(frozen=True)
class Message:
    """What has come to a subscription. `status`: that of the server's own message, else ""."""

    subject: str
    data: bytes
    status: str = ""
    headers: dict[str, str] = dataclasses.field(default_factory=dict)


def header_bytes(headers: dict[str, str]) -> bytes:
    return b"".join(
        [HEAD, END, *(f"{name}: {value}\r\n".encode() for name, value in headers.items()), END]
    )


def read_headers(text: bytes) -> tuple[str, dict[str, str]]:
    """The status and the headers of a message. A ValueError says that they are none."""
    first, *lines = text.decode().split("\r\n")
    head, _, status = first.partition(" ")
    if head != HEAD.decode():
        raise ValueError
    pairs = (it.partition(":") for it in lines if it)
    return status.strip()[:3], {name: value.strip() for name, _, value in pairs}


# What a connection says of itself.
ABOUT: dict[str, Any] = dict(
    verbose=False, pedantic=False, lang="python3", version="1", name="pgsub-connect", protocol=1
)
ABOUT |= {"headers": True, "no_responders": True}


def login_of(parts: urllib.parse.SplitResult) -> dict[str, str]:
    """How it logs in, by a user with a password, or by a token."""
    if parts.username is None:
        return {}
    user = urllib.parse.unquote(parts.username)
    if parts.password is None:
        return {"auth_token": user}
    return {"user": user, "pass": urllib.parse.unquote(parts.password)}


def op_of(line: bytes) -> bytes:
    return line.split(b" ", 1)[0].upper()


class Wire(Peer):
    """A connection. It isn't made again where it is lost. `check` is called while it waits: what
    that raises leaves what is sent, and what comes, whole."""

    def __init__(self, url: str, check: Check = never) -> None:
        try:
            parts = urllib.parse.urlsplit(url)
            self.host, self.port = parts.hostname or "localhost", parts.port or PORT
        except ValueError as error:
            raise UsageError(f"the URL of NATS: {error}") from None
        self.check, self.where = check, f"NATS at {self.host}:{self.port}"
        self.coming, self.going = bytearray(), bytearray()
        try:
            self.socket = connected(self.host, self.port, CONNECT, check)
        except OSError as error:
            raise Passing(f"{self.where}: {error}") from None
        with undone_by(self.close):
            self.log_in(parts)

    def log_in(self, parts: urllib.parse.SplitResult) -> None:
        line = self.line(CONNECT)
        if line is None:
            raise Passing(f"{self.where}: it says nothing for {CONNECT:.0f} seconds")
        if not line.upper().startswith(b"INFO "):
            raise self.wrong(line)
        info = self.parsed(line[5:])
        try:
            self.most = whole_of(info.get("max_payload", 1 << 20), 1)
        except Unreadable:
            raise self.wrong(line) from None
        if parts.scheme == "tls" or info.get("tls_required"):
            self.encrypt()
        elif parts.username is not None and not is_loopback(self.host):
            log.warning(f"{self.where}: the password goes there in plain text: use tls://")
        self.put(b"CONNECT " + json.dumps({**ABOUT, **login_of(parts)}).encode() + END)
        self.ping(CONNECT)

    def encrypt(self) -> None:
        try:
            self.socket = encrypted(self.socket, self.host, CONNECT, self.check)
        except ssl.SSLCertVerificationError as error:
            raise EngineError(f"{self.where}: {error}") from None
        except OSError as error:
            raise Passing(f"{self.where}: {error}") from None

    def ping(self, seconds: float) -> None:
        """Waits until the server has read all that was sent. What comes meanwhile is lost."""
        self.put(b"PING\r\n")
        self.flush()
        end = time.monotonic() + seconds
        while (line := self.line(max(0.0, end - time.monotonic()))) is not None:
            op = op_of(line)
            if op == b"PONG":
                return
            if op in MESSAGES:
                self.message(op, line)
            else:
                self.answer(op, line)
        raise Passing(f"{self.where}: it doesn't answer for {seconds:.0f} seconds")

    # ---- what goes

    def put(self, content: bytes) -> None:
        self.going += content
        if len(self.going) > CHUNK:
            self.flush()

    def flush(self) -> None:
        end = time.monotonic() + LONGEST
        while self.going:
            try:
                sent = self.socket.send(self.going[:CHUNK])
            except BUSY as busy:
                if not is_ready(
                    self.socket, end, self.check, not isinstance(busy, ssl.SSLWantReadError)
                ):
                    raise self.lost(f"it takes nothing for {LONGEST:.0f} seconds") from None
            except OSError as error:
                raise self.lost(str(error)) from None
            else:
                del self.going[:sent]
                end = time.monotonic() + LONGEST

    def lost(self, what: str) -> Passing | EngineError:
        """What a connection that is lost is for the sink: the server may have said why."""
        return self.refused() or Passing(f"{self.where}: the connection is lost: {what}")

    def refused(self) -> EngineError | None:
        try:
            select.select([self.socket], [], [], 0.2)
            self.coming += self.socket.recv(CHUNK)
        except (OSError, ValueError):
            pass
        at = self.coming.find(b"-ERR ")
        return self.error(bytes(self.coming[at:]).split(END)[0]) if at >= 0 else None

    def subscribe(self, subject: str) -> None:
        self.put(f"SUB {subject} 1\r\n".encode())

    def publish(self, subject: str, reply: str, headers: bytes, payload: bytes) -> None:
        """Publishes a message; with headers, unless these are empty."""
        if headers:
            sizes = f"{len(headers)} {len(headers) + len(payload)}"
            self.put(f"HPUB {subject} {reply} {sizes}\r\n".encode() + headers + payload + END)
        else:
            self.put(f"PUB {subject} {reply} {len(payload)}\r\n".encode() + payload + END)

    # ---- what comes

    def receive(self, seconds: float) -> Message | None:
        """The next message that comes in this time. What the server asks is answered meanwhile."""
        self.flush()
        end = time.monotonic() + seconds
        while (line := self.line(max(0.0, end - time.monotonic()))) is not None:
            if (op := op_of(line)) in MESSAGES:
                return self.message(op, line)
            self.answer(op, line)
            if time.monotonic() > end:
                break
        return None

    def answer(self, op: bytes, line: bytes) -> None:
        if op == b"PING":
            self.put(b"PONG\r\n")
            self.flush()
        elif op == b"-ERR":
            raise self.error(line) or Passing(f"{self.where}: {said(line)}")
        elif op not in (b"INFO", b"+OK", b"PONG"):
            raise self.wrong(line)

    def error(self, line: bytes) -> EngineError | None:
        """An error that the server says, where another try would end in the same way."""
        text = said(line)
        return EngineError(f"{self.where}: {text}") if text.lower().startswith(LASTING) else None

    def message(self, op: bytes, line: bytes) -> Message:
        try:
            _, subject, *more = line.decode().split()
            sizes = [int(it) for it in (more[-2:] if op == b"HMSG" else more[-1:])]
            at = sizes[0] if op == b"HMSG" else 0
            if not 0 <= at <= sizes[-1] <= LARGEST:
                raise ValueError
            body = self.exactly(sizes[-1] + len(END))
            if body[-2:] != END:
                raise ValueError
            status, headers = read_headers(body[:at]) if at else ("", {})
        except (ValueError, IndexError):
            raise self.wrong(line) from None
        except Stopped:
            # (it is read once more, as what was published is waited for at the end)
            self.coming[:0] = line + END
            raise
        return Message(subject, body[at:-2], status, headers)

    def wrong(self, line: bytes) -> EngineError:
        return EngineError(
            f"{self.where}: it said {line[:80].decode(errors='backslashreplace')!r}, which isn't NATS' protocol"
        )

    def parsed(self, text: bytes) -> dict[str, Any]:
        try:
            return object_of(parsed(text, LARGEST))
        except Unreadable:
            raise self.wrong(text) from None

    def line(self, seconds: float) -> bytes | None:
        """The next line that begins in this time, without its end."""
        end = time.monotonic() + seconds
        while (at := self.coming.find(END)) < 0:
            if len(self.coming) > LINE:
                raise self.wrong(bytes(self.coming[:LINE]))
            is_begun = bool(self.coming)
            if not self.read(end):
                return None
            if seconds and not is_begun:
                end = time.monotonic() + LONGEST
        line = bytes(self.coming[:at])
        del self.coming[: at + 2]
        return line

    def exactly(self, size: int) -> bytes:
        while len(self.coming) < size:
            if not self.read(time.monotonic() + LONGEST):
                raise Passing(f"{self.where}: the rest of a message doesn't come")
        found = bytes(self.coming[:size])
        del self.coming[:size]
        return found

    def read(self, end: float) -> bool:
        """Reads what comes up to a moment. Returns whether anything did."""
        self.check()
        try:
            while (piece := self.received()) is None:
                if not is_ready(self.socket, end, self.check):
                    return False
        except OSError as error:
            raise Passing(f"{self.where}: the connection is lost: {error}") from None
        if not piece:
            raise Passing(f"{self.where}: the server has ended the connection")
        self.coming += piece
        return True

    def received(self) -> bytes | None:
        """What is there; None where nothing is."""
        try:
            return self.socket.recv(CHUNK)
        except BUSY:
            return None

    def close(self) -> None:
        self.socket.close()


def said(line: bytes) -> str:
    """The text of an error."""
    return shortened(line[5:].decode(errors="replace").strip("'"))
