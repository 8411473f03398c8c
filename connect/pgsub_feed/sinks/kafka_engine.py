"""Kafka: a topic for each table, one for the logical messages, and one, `PREFIX.position`, whose
last message says where a sink is.

Messages of some commits are sent, then waited for, then the position. So what is sent again after
a kill is what follows the last position: at least once. Each message has the LSN of its commit and
its numbers there as headers. They rise in each partition, and begin again only with what was there
before: who takes a message whose numbers are above all before takes each once.

The rows of a base that was begun again, after a kill, have higher numbers; first each partition has
a `t`, since the rows that are there may not be in the other base.
"""

import dataclasses
import json
import time
from collections.abc import Iterator, Sequence
from typing import Any

from ..column_types import KnownTypes
from ..debezium.envelopes import Envelopes, Message
from ..debezium.settings import read_settings
from ..errors import TooLarge, Unfit
from ..interruption import Check
from ..json_texts import Unreadable, lsn_of, object_of, parsed, whole_of
from ..known_tables import KnownTables
from ..reader.commits import Change, Commit
from ..reader.following import Chosen, Read
from ..texts import lsn_text
from .engine import Alone, Engine, Wanted, of_another, read_about, whole
from .first_rows import Base, numbered
from .kafka_client import AROUND, LARGEST, Cluster, parts_of, read_config

KEY = b"pgsub"
# Where the numbers begin of a base that was begun for the n-th time.
ATTEMPT = 10**12
# After how many seconds the position is written once more, so that no retention removes it.
OFTEN = 43200.0


@dataclasses.dataclass(frozen=True)
class Position:
    """What a message of the position says: the LSN that all is at, of what; `attempt`: at that LSN
    a base was begun for the n-th time, None where it was ended."""

    lsn: int
    about: dict[str, Any]
    attempt: int | None = None

    def text(self) -> bytes:
        told = {"lsn": lsn_text(self.lsn), **self.about, "attempt": self.attempt}
        return json.dumps(told, ensure_ascii=False).encode()


def read_position(text: bytes) -> Position:
    """A ValueError says that it is none."""
    told = object_of(parsed(text))
    if "attempt" not in told:
        raise Unreadable("there is no attempt")
    about, attempt = read_about(told), told["attempt"]
    return Position(lsn_of(told["lsn"]), about, None if attempt is None else whole_of(attempt))


class Kafka(Engine):
    """An engine."""

    def __init__(self, cluster: Cluster, envelopes: Envelopes, check: Check, alone: Alone) -> None:
        self.peer = self.cluster = cluster
        self.envelopes, self.check, self.alone = envelopes, check, alone
        self.topic = f"{envelopes.settings.prefix}.position"
        self.end, self.written = 0, time.monotonic()
        # of a base that was begun and not ended
        self.left: Position | None = None

    # ---- what is there

    def open(self, wanted: Wanted) -> bool:
        self.head, self.chosen = wanted.head, Chosen(wanted.chosen)
        self.about = wanted.about()
        # (before anything is read there: what another one writes meanwhile isn't seen)
        self.alone.take("kafka", f"{self.cluster.id} {self.topic}", self.cluster.where)
        self.cluster.look_for_topics()
        said = self.cluster.last(self.topic)
        if said is None:
            return False
        where = f"{self.cluster.where}, topic {self.topic}"
        try:
            found = read_position(said)
        except ValueError:
            text = "its last message isn't a sink's" if said else "its last message is gone"
            raise Unfit(f"{where}: {text}: take another topic.prefix to begin anew") from None
        if found.about != self.about:
            raise of_another(where, found.about, self.about, "topic.prefix")
        self.left = found if found.attempt is not None else None
        self.at = self.end = found.lsn
        return self.left is None

    def begin(self, base: Base) -> None:
        left = self.left
        if left and base.lsn < left.lsn:
            raise Unfit(
                f"{self.cluster.where}: the rows of a base of {lsn_text(left.lsn)} were begun there, and this one is of {lsn_text(base.lsn)}: take"
                " a later one"
            )
        attempt = left.attempt + 1 if left and left.attempt is not None else 0
        self.cluster.make_compacted(self.topic)
        self.write(Position(base.lsn, self.about, attempt))
        self.envelopes.begin(self.head, Commit(base.lsn, base.lsn, 0, 0), is_base=True)
        tables, n = base.tables(), attempt * ATTEMPT
        for relation in tables if attempt else ():
            for message in self.envelopes.messages(Change("t", relation, n, None, None)):
                self.send(message, base.lsn)
            n += 1
        for it in numbered(base, tables, n):
            if not it.n % 1000:
                self.check()
            for message in self.envelopes.messages(it):
                self.send(self.sized(message, base.lsn), base.lsn)
        self.end, self.left = base.lsn, None
        self.settle(is_sure=True)

    # ---- commits

    def take(self, commit: Commit, read: Read) -> None:
        messages = whole(commit, lambda: self.messages(commit, read), self.check)
        for message in messages:
            self.send(message, commit.end)
        self.end = commit.end

    def messages(self, commit: Commit, read: Read) -> Iterator[Message]:
        events = self.chosen.events(read())
        for message in self.envelopes.of_commit(self.head, commit, events):
            yield self.sized(message, commit.end)

    def sized(self, message: Message, lsn: int) -> Message:
        """Rejects a message that is too large, before anything of its commit is sent."""
        size = len(message.key or b"") + len(message.value or b"") + AROUND
        if size > self.cluster.most:
            self.settle()
            raise TooLarge(
                f"{lsn_text(lsn)}:{message.n}: a change of the topic {message.topic} makes a message of {size} bytes, and {LARGEST} is"
                f" {self.cluster.most}: raise it by --kafka-config, and max.message.bytes of the topic"
            )
        return message

    def send(self, it: Message, lsn: int) -> None:
        headers = [
            ("pgsub.lsn", lsn_text(lsn).encode()),
            ("pgsub.n", b"%d" % it.n),
            ("pgsub.part", b"%d" % it.part),
        ]
        if it.is_to_all:
            for partition in range(self.cluster.partitions(it.topic)):
                self.cluster.send(it.topic, it.key, it.value, headers, partition)
        else:
            partition_of = None if it.key is not None else 0
            self.cluster.send(it.topic, it.key, it.value, headers, partition_of)

    def settle(self, is_sure: bool = False) -> None:
        if self.end != self.at or is_sure:
            self.cluster.wait()
            self.write(Position(self.end, self.about))
            self.at = self.end

    def write(self, position: Position) -> None:
        self.cluster.send(self.topic, KEY, position.text(), partition=0)
        self.cluster.wait()
        self.written = time.monotonic()

    def forget(self) -> None:
        # (what was taken is sent, or was never begun)
        self.settle()

    def look(self) -> None:
        self.cluster.look()
        if time.monotonic() - self.written > OFTEN:
            self.write(Position(self.at, self.about))

    def safe(self) -> int | None:
        # (a broker doesn't tell when it syncs: replicas stand for that)
        return self.at


def connect(
    url: str,
    config: str | None,
    words: Sequence[str],
    schemas: bool,
    known: KnownTables | None,
    types: KnownTypes,
    check: Check,
    alone: Alone,
) -> Kafka:
    """The engine of `kafka://host?config=FILE&schemas=true&NAME=VALUE`, and other words."""
    servers, parts = parts_of(url)
    path, told = parts.pop("config", config), parts.pop("schemas", "false") == "true" or schemas
    settings = read_settings([*words, *(f"{name}={it}" for name, it in parts.items())], told)
    properties = read_config(path) if path else {}
    cluster = Cluster(servers, properties, check)
    return Kafka(cluster, Envelopes(settings, known, check, types), check, alone)
