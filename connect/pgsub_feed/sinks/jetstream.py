"""What JetStream is asked: a stream, its messages, and to take one in its place."""

import base64
import collections
import contextlib
import dataclasses
import json
import secrets
import time
from collections.abc import Iterator
from typing import Any

from ..errors import EngineError, Passing, TooLarge
from ..json_texts import Unreadable, list_of, object_of, text_of, whole_of
from ..texts import shortened
from .nats_wire import Message, Wire, header_bytes, read_headers

# How long to wait for what it says, in seconds.
LONGEST = 30.0
# How many messages, and bytes, may be published until it has said that it has the first.
MOST, ROOM = 4000, 8 << 20
NO_STREAM, NO_MESSAGE, WRONG_SEQUENCE, OTHER_TOO_LARGE = 10059, 10037, 10071, 10054
NO_JETSTREAM = (10039, 10076)
# Codes of what passes: there is no leader or no room just now.
PASSING = (408, 503)
FULL = "exceeded"


@dataclasses.dataclass(frozen=True)
class Stored:
    """A message of a stream."""

    sequence: int
    subject: str
    id: str
    data: bytes


@dataclasses.dataclass(frozen=True)
class Info:
    """A stream: how many messages, the first sequence and the last, and its subjects."""

    messages: int
    first: int
    last: int
    subjects: list[str]


class JetStream:
    """A stream, and what was published to it."""

    def __init__(self, wire: Wire, stream: str, replicas: int = 1) -> None:
        self.wire, self.stream, self.replicas = wire, stream, replicas
        self.where = f"{wire.where}, stream {stream}"
        self.inbox = f"_INBOX.{secrets.token_hex(12)}"
        wire.subscribe(f"{self.inbox}.*")
        # of the messages that aren't taken yet: the sequence and the size of each
        self.waiting = collections.deque[tuple[int, int]]()
        self.room, self.asked = 0, 0
        # the sequence of the last message, with those that wait
        self.sequence = 0
        self.most = wire.most

    # ---- asking

    def ask(self, what: str, body: dict[str, Any]) -> dict[str, Any]:
        """Asks the server's interface, while nothing waits. What it says may have an `error`."""
        self.asked += 1
        reply = f"{self.inbox}.ask{self.asked}"
        self.wire.publish(f"$JS.API.{what}", reply, b"", json.dumps(body).encode() if body else b"")
        end = time.monotonic() + LONGEST
        while (
            message := self.wire.receive(max(0.0, end - time.monotonic()))
        ) is not None and time.monotonic() <= end:
            if message.subject == reply:
                return self.parsed(message)
        raise Passing(f"{self.where}: no answer in {LONGEST:.0f} seconds")

    def parsed(self, message: Message) -> dict[str, Any]:
        if message.status == "503":
            text = f"{self.where}: nothing answers: the server has no JetStream, or the stream not this subject"
            raise EngineError(text)
        return self.wire.parsed(message.data)

    def need(self, what: str, body: dict[str, Any], passes: int = 0) -> dict[str, Any] | None:
        """Asks. Returns None where it says that there is none, with this number."""
        found = self.ask(what, body)
        if found.get("error") is None:
            return found
        with self.understood(found):
            error = object_of(found["error"])
            if error.get("err_code") == passes:
                return None
        raise self.wrong(error)

    @contextlib.contextmanager
    def understood(self, found: dict[str, Any]) -> Iterator[None]:
        """Rejects what it has said where it can't be read."""
        try:
            yield
        except Unreadable as error:
            told = shortened(json.dumps(found))
            text = f"{self.where}: it said what isn't JetStream's ({error}): is it of another version? {told}"
            raise EngineError(text) from None

    def wrong(self, error: dict[str, Any]) -> Exception:
        code, kind = error.get("code"), error.get("err_code")
        about = shortened(str(error.get("description", error)))
        if kind == OTHER_TOO_LARGE:
            return TooLarge(f"{self.where}: {about}")
        is_away = code in PASSING and kind not in NO_JETSTREAM
        text = f"{self.where}: {about}"
        return (Passing if is_away or kind == WRONG_SEQUENCE or FULL in about else EngineError)(
            text
        )

    def begin(self) -> Info:
        """Makes the stream, where it isn't there. Returns what is told of it."""
        found = self.need(f"STREAM.INFO.{self.stream}", {}, NO_STREAM)
        if found is None:
            config = {
                "name": self.stream,
                "subjects": [f"{self.stream}.>"],
                "storage": "file",
                "retention": "limits",
                "num_replicas": self.replicas,
            }
            found = self.need(f"STREAM.CREATE.{self.stream}", config)
        assert found is not None
        info = self.info_of(found)
        with self.understood(found):
            most = whole_of(object_of(found.get("config")).get("max_msg_size", -1), -1)
        self.sequence = info.last
        self.most = min(self.wire.most, most) if most > 0 else self.wire.most
        return info

    def info_of(self, found: dict[str, Any]) -> Info:
        with self.understood(found):
            state, config = object_of(found.get("state")), object_of(found.get("config"))
            subjects = [text_of(it) for it in list_of(config.get("subjects", []))]
            messages, first = (whole_of(state.get(it, 0)) for it in ("messages", "first_seq"))
            return Info(messages, first, whole_of(state.get("last_seq")), subjects)

    def last(self) -> int:
        """The sequence of the last message that is there now, or was."""
        found = self.need(f"STREAM.INFO.{self.stream}", {})
        assert found is not None
        return self.info_of(found).last

    def message(self, **which: Any) -> Stored | None:
        """A message by its `seq`, or the last one of a subject, `last_by_subj`."""
        found = self.need(f"STREAM.MSG.GET.{self.stream}", which, NO_MESSAGE)
        if found is None:
            return None
        with self.understood(found):
            it = object_of(found.get("message"))
            head, data = (bytes_of(it.get(name, "")) for name in ("hdrs", "data"))
            return Stored(whole_of(it.get("seq")), text_of(it.get("subject")), id_of(head), data)

    def purge(self, **which: int) -> None:
        """Removes the messages before a `seq`, or all but the last ones, as many as `keep`."""
        self.need(f"STREAM.PURGE.{self.stream}", which)

    # ---- publishing

    def headers(self, id: str) -> bytes:
        """Those of the message that comes next."""
        return header_bytes({"Nats-Msg-Id": id, "Nats-Expected-Last-Sequence": str(self.sequence)})

    def publish(self, subject: str, id: str, payload: bytes) -> None:
        """Publishes the next message: the stream takes it in its place or not at all."""
        headers = self.headers(id)
        self.sequence += 1
        size = len(headers) + len(payload)
        self.wire.publish(subject, f"{self.inbox}.{self.sequence}", headers, payload)
        self.waiting.append((self.sequence, size))
        self.room += size
        if len(self.waiting) >= MOST or self.room >= ROOM:
            self.settle(MOST // 2, ROOM // 2)

    def settle(self, most: int = 0, room: int = 0) -> None:
        """Waits until at most so many messages, with so many bytes, aren't taken yet."""
        while self.waiting and (len(self.waiting) > most or self.room > room):
            message = self.wire.receive(LONGEST)
            if message is None:
                raise Passing(
                    f"{self.where}: it doesn't say in {LONGEST:.0f} seconds that it has a message"
                )
            if message.subject.startswith(f"{self.inbox}.ask"):
                continue
            self.take(message)

    def take(self, message: Message) -> None:
        """Takes that a message is stored, or isn't."""
        first, size = self.waiting.popleft()
        self.room -= size
        if message.status == "503":
            # (of several servers another one may take it in a moment)
            raise Passing(f"{self.where}: no server has the stream just now")
        said = self.parsed(message)
        if said.get("error"):
            with self.understood(said):
                error = object_of(said["error"])
            raise self.wrong(error)
        is_ours = message.subject == f"{self.inbox}.{first}" and said.get("seq") == first
        if said.get("duplicate") or not is_ours:
            told = shortened(str(said))
            text = f"{self.where}: something else publishes to it: it has {told} in place of message {first}"
            raise Passing(text)


def bytes_of(value: Any) -> bytes:
    """What a text in base64 says."""
    try:
        return base64.b64decode(text_of(value))
    except ValueError as error:
        raise Unreadable(str(error)) from None


def id_of(head: bytes) -> str:
    """The id of a message with these headers, "" where it has none."""
    try:
        return read_headers(head)[1].get("Nats-Msg-Id", "") if head else ""
    except ValueError:
        raise Unreadable("its headers") from None
