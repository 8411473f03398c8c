"""A cluster of Kafka in memory, and as much of the module `confluent_kafka` as a sink uses."""

from __future__ import annotations

import weakref
import zlib
from collections.abc import Callable
from types import SimpleNamespace
from typing import Any, NamedTuple

Headers = list[tuple[str, bytes]]


class Error:
    """An error by its name."""

    def __init__(self, name: str, is_fatal: bool = False) -> None:
        self.known, self.is_fatal = name, is_fatal

    def name(self) -> str:
        return self.known

    def str(self) -> str:
        return self.known.lower()

    def fatal(self) -> bool:
        return self.is_fatal


class KafkaException(Exception):
    """What calls raise: its first argument is an error."""


class TopicPartition(NamedTuple):
    topic: str
    partition: int
    offset: int = 0


class Message(NamedTuple):
    """A message that is there, or that waits to be sent."""

    topic: str
    partition: int
    key: bytes | None
    value: bytes | None
    headers: Headers

    def numbers(self) -> tuple[int, int, int]:
        told = dict(self.headers)
        high, low = told["pgsub.lsn"].split(b"/")
        lsn = (int(high, 16) << 32) + int(low, 16)
        return lsn, int(told["pgsub.n"]), int(told["pgsub.part"])


class FakeKafka:
    """By topic the messages of each partition. `accepts`: how many more messages are taken, None
    for all; then nothing is there any more."""

    def __init__(self) -> None:
        self.topics = dict[str, list[list[Message]]]()
        # None: the brokers don't tell it
        self.id: str | None = "cluster"
        self.accepts: int | None = None
        self.makes_topics, self.has_admin = True, True
        # how many messages of a partition are gone
        self.removed = 0
        # an error that each message gets, and one that is told of all
        self.rejects: Error | None = None
        self.tells: Error | None = None
        self.room = 100
        self.configs = list[dict[str, Any]]()
        # the producers that have threads
        self.producers = weakref.WeakSet[Producer]()

    def module(self) -> SimpleNamespace:
        return SimpleNamespace(
            Producer=lambda config: Producer(self, config),
            Consumer=lambda config: Consumer(self, config),
            KafkaException=KafkaException,
            TopicPartition=TopicPartition,
        )

    def admin(self) -> SimpleNamespace:
        return SimpleNamespace(
            AdminClient=lambda config: Admin(self),
            NewTopic=lambda topic, count, copies, config: (topic, count, copies, config),
        )

    def import_module(self, name: str) -> SimpleNamespace:
        return self.admin() if name.endswith(".admin") else self.module()

    def topic(self, name: str, partitions: int = 3) -> list[list[Message]]:
        return self.topics.setdefault(name, [[] for _ in range(partitions)])

    def listed(self, *names: str) -> SimpleNamespace:
        if self.accepts == 0:
            raise KafkaException(Error("_TRANSPORT"))
        for it in names:
            if self.makes_topics:
                self.topic(it)
        found = {
            name: SimpleNamespace(partitions=dict(enumerate(it)), error=None)
            for name, it in self.topics.items()
        }
        for it in names:
            wrong = SimpleNamespace(partitions={}, error=Error("UNKNOWN_TOPIC_OR_PART"))
            found.setdefault(it, wrong)
        return SimpleNamespace(topics=found, cluster_id=self.id)

    def said(self, topic: str) -> list[Message]:
        """The messages of a topic."""
        return [it for partition in self.topics.get(topic, []) for it in partition]

    def taken(self) -> dict[tuple[str, int], list[Message]]:
        """By topic and partition the messages of tables without those that are repeated."""
        found = dict[tuple[str, int], list[Message]]()
        for name, partitions in self.topics.items():
            for number, partition in enumerate(partitions):
                kept = found.setdefault((name, number), [])
                for it in partition:
                    if it.headers and (not kept or it.numbers() > kept[-1].numbers()):
                        kept.append(it)
        return {where: it for where, it in found.items() if it}


class Producer:
    """Messages wait until it is flushed."""

    def __init__(self, fake: FakeKafka, config: dict[str, Any]) -> None:
        if "no.such" in config:
            raise KafkaException('No such configuration property: "no.such"')
        self.fake, self.config, self.waiting = fake, config, list[Message]()
        fake.configs.append({**config, "on_delivery": None, "error_cb": None})
        fake.producers.add(self)

    def __len__(self) -> int:
        return len(self.waiting)

    def list_topics(self, *words: Any, timeout: float = 0) -> SimpleNamespace:
        return self.fake.listed(*words[:1])

    def produce(
        self,
        topic: str,
        value: bytes | None,
        key: bytes | None,
        headers: Headers,
        partition: int = -1,
    ) -> None:
        if len(self.waiting) >= self.fake.room:
            raise BufferError
        if self.fake.rejects and self.fake.rejects.name() == "MSG_SIZE_TOO_LARGE":
            raise KafkaException(self.fake.rejects)
        count = len(self.fake.topic(topic))
        at = partition if partition >= 0 else zlib.crc32(key or b"") % count
        self.waiting.append(Message(topic, at, key, value, headers))

    def poll(self, _: float) -> None:
        tell: Callable[[Error], None] = self.config["error_cb"]
        if self.fake.tells:
            tell(self.fake.tells)

    def flush(self, _: float) -> None:
        self.poll(0)
        while self.waiting and self.fake.accepts != 0:
            it = self.waiting.pop(0)
            if self.fake.rejects:
                self.config["on_delivery"](self.fake.rejects, None)
                continue
            self.fake.topic(it.topic)[it.partition].append(it)
            self.fake.accepts = self.fake.accepts and self.fake.accepts - 1

    def purge(self) -> None:
        self.waiting.clear()


class Consumer:
    """Reads one message."""

    def __init__(self, fake: FakeKafka, config: dict[str, Any]) -> None:
        self.fake = fake

    def get_watermark_offsets(self, where: TopicPartition, timeout: float) -> tuple[int, int]:
        count = len(self.fake.topics[where.topic][where.partition])
        return self.fake.removed, count + self.fake.removed

    def assign(self, where: list[TopicPartition]) -> None:
        self.where = where[0]

    def poll(self, _: float) -> SimpleNamespace | None:
        found = self.fake.topics[self.where.topic][self.where.partition][self.where.offset]
        return SimpleNamespace(error=lambda: None, value=lambda: found.value)

    def close(self) -> None:
        pass


class Admin:
    """Makes topics, where that is allowed."""

    def __init__(self, fake: FakeKafka) -> None:
        self.fake = fake

    def create_topics(self, topics: list[Any], request_timeout: float) -> dict[str, Any]:
        if not self.fake.has_admin:
            raise KafkaException(Error("_TIMED_OUT"))
        for name, count, copies, config in topics:
            assert (count, copies, config) == (1, -1, {"cleanup.policy": "compact"})
            self.fake.topic(name, count)
        return {name: SimpleNamespace(result=lambda: None) for name, *_ in topics}
