"""A cluster of Kafka, by Debian's python3-confluent-kafka over librdkafka: messages that all
replicas in sync have, and the last one of a topic."""

import contextlib
import importlib
import os
import time
import urllib.parse
from collections.abc import Callable, Iterable, Mapping
from typing import Any

from .. import log
from ..errors import EngineError, FileError, Passing, TooLarge, UsageError
from ..interruption import Check, undone_by
from ..ownership import readable_by, readable_text
from ..texts import shortened
from .connecting import TICK, Peer

# How long to wait for the cluster, and until it has one more message, in seconds.
CONNECT, LONGEST = 10.0, 30.0
# How many bytes, and messages, wait to be sent at most.
KILOBYTES, MOST = 65536, 100000
# What a message needs beside its key, its value and its headers.
AROUND, LARGEST = 200, "message.max.bytes"
# What the sink decides, and no file: a producer's messages are in order, or this ends.
OWN: dict[str, Any] = {
    "enable.idempotence": True,
    "acks": "all",
    "enable.gapless.guarantee": True,
    "message.timeout.ms": 0,
    "partitioner": "murmur2_random",
    "delivery.report.only.error": True,
    "queue.buffering.max.kbytes": KILOBYTES,
    "queue.buffering.max.messages": MOST,
    "log_level": 2,
}
SERVERS = "bootstrap.servers"
ALIKE = ("request.required.acks", "delivery.timeout.ms", "metadata.broker.list", "client.id")
SECRETS = ("password", "secret", "ssl.key", "oauthbearer")
# Errors after which another try ends in the same way, by their names.
LASTING = (
    *(f"{it}_AUTHORIZATION_FAILED" for it in ("TOPIC", "CLUSTER", "TRANSACTIONAL_ID")),
    *("SASL_AUTHENTICATION_FAILED", "UNSUPPORTED_SASL_MECHANISM", "ILLEGAL_SASL_STATE"),
    *("TOPIC_EXCEPTION", "POLICY_VIOLATION", "INVALID_RECORD", "INVALID_REQUIRED_ACKS"),
    *("UNKNOWN_TOPIC_OR_PART", "_UNKNOWN_TOPIC", "_UNKNOWN_PARTITION", "_AUTHENTICATION"),
    "_UNSUPPORTED_FEATURE",
)
TOO_LARGE = ("MSG_SIZE_TOO_LARGE", "INVALID_MSG_SIZE", "RECORD_LIST_TOO_LARGE")


def parts_of(url: str) -> tuple[str, dict[str, str]]:
    """The servers and words of `kafka://one:9092,other?name=value`, with several addresses."""
    place, _, query = url.removeprefix("kafka://").partition("?")
    hosts = place.removesuffix("/").split(",")
    if not all(hosts) or "/" in place.removesuffix("/"):
        raise UsageError("the URL of Kafka: it is no URL as kafka://localhost:9092,other:9092")
    if "@" in place:
        raise UsageError("the URL of Kafka: a login goes into the file of --kafka-config")
    servers = [it if ":" in it.rpartition("]")[2] else f"{it}:9092" for it in hosts]
    return ",".join(servers), dict(urllib.parse.parse_qsl(query, keep_blank_values=True))


def read_config(path: str) -> dict[str, str]:
    """Properties of librdkafka, a line `name=value` each. Warns where others may read secrets."""
    try:
        with open(path, encoding="utf-8") as file:
            lines, readable = file.read().splitlines(), readable_by(file.fileno())
    except UnicodeDecodeError:
        raise UsageError(f"--kafka-config {path}: it isn't UTF-8") from None
    found = dict[str, str]()
    for number, line in enumerate(lines, 1):
        name, sign, value = (it.strip() for it in line.partition("="))
        if not name or name.startswith("#"):
            continue
        if not sign:
            raise UsageError(f"--kafka-config {path}: line {number} is no name=value")
        if name in OWN or name in ALIKE or name == SERVERS:
            raise UsageError(f"--kafka-config {path}: {name} is what the sink decides itself")
        found[name] = value
    if readable and any(it in name for name in found for it in SECRETS):
        log.warning(readable_text(path, readable))
    return found


def kilobytes(config: Mapping[str, str]) -> int:
    """How many may wait to be sent: a message of any size that is allowed has room."""
    most = config.get(LARGEST, "")
    return max(KILOBYTES, int(most) >> 9 if most.isdecimal() else 0)


class Cluster(Peer):
    """A producer, and what it takes to look at what is there."""

    def __init__(self, servers: str, config: dict[str, str], check: Check) -> None:
        self.check, self.where = check, f"Kafka at {servers}"
        try:
            self.library: Any = importlib.import_module("confluent_kafka")
        except ModuleNotFoundError:
            text = "python3-confluent-kafka is needed: apt-get install python3-confluent-kafka"
            raise FileError(text) from None
        # the first error of a message, and the last one of a connection
        self.failed: Any = None
        self.told = ""
        self.config = {**config, SERVERS: servers, "client.id": f"pgsub {os.getpid()}"}
        mine: dict[str, Any] = {
            **OWN,
            **self.config,
            "queue.buffering.max.kbytes": kilobytes(config),
            "on_delivery": self.note,
            "error_cb": self.note_error,
        }
        self.producer = self.made(self.library.Producer, mine)
        # (what librdkafka takes for a number is one)
        self.most = int(config.get(LARGEST, 1000000))
        self.topics = dict[str, Any]()
        # which cluster it is, by whatever name its brokers were found
        with undone_by(self.close):
            self.id = str(self.listed().cluster_id or servers)

    def made(self, kind: Any, config: dict[str, Any]) -> Any:
        try:
            return kind(config)
        except (self.library.KafkaException, TypeError, ValueError) as error:
            raise UsageError(f"--kafka-config: {shortened(str(error))}") from None

    # ---- errors

    def note(self, error: Any, _: Any) -> None:
        self.failed = self.failed or error

    def note_error(self, error: Any) -> None:
        """Notes what is wrong with a connection, or with all of it."""
        self.told = error.str() or error.name()
        if error.fatal() or error.name() in LASTING:
            self.failed = self.failed or error

    def wrong(self, error: Any, about: str = "") -> Exception:
        name, text = error.name(), shortened(error.str() or error.name())
        told = f"{self.where}: {about}{text}"
        if name in TOO_LARGE:
            return TooLarge(f"{told}: raise max.message.bytes of the topic")
        return (EngineError if name in LASTING else Passing)(told)

    def look(self) -> None:
        """Takes what has come, and raises what is wrong with it."""
        self.check()
        self.producer.poll(0)
        if self.failed:
            raise self.wrong(self.failed)

    def patiently(self, call: Callable[[float], Any]) -> Any:
        """Calls again and again, as long as the cluster isn't there, some seconds at most."""
        end = time.monotonic() + CONNECT
        while True:
            self.look()
            try:
                return call(10 * TICK)
            except self.library.KafkaException as error:
                code = error.args[0]
                is_away = code.name() in ("_TRANSPORT", "_TIMED_OUT", "_ALL_BROKERS_DOWN")
                if not is_away or time.monotonic() > end:
                    self.look()
                    about = f"{self.told}: " if self.told and is_away else ""
                    raise self.wrong(code, about) from None

    # ---- what is there

    def listed(self) -> Any:
        return self.patiently(lambda time: self.producer.list_topics(timeout=time))

    def look_for_topics(self) -> None:
        """Notes which topics there are just now."""
        self.topics = self.listed().topics

    def partitions(self, topic: str) -> int:
        """How many partitions a topic has just now, which is made where brokers make topics."""
        end = time.monotonic() + CONNECT
        while True:
            # (where the machine has stood still it is looked once more)
            is_late = time.monotonic() > end
            listed = self.patiently(lambda time: self.producer.list_topics(topic, time))
            found = listed.topics[topic]
            if found.partitions and not found.error:
                return len(found.partitions)
            if is_late:
                text = f"{self.where}: there is no topic {topic}, and the brokers don't make it: make it"
                raise EngineError(text)
            time.sleep(TICK)

    def make_compacted(self, topic: str) -> None:
        """Makes a topic of one partition that keeps its last message for ever, where it isn't there
        and that is allowed. (Else brokers make one, whose messages may go.)"""
        if topic in self.topics:
            return
        admin = importlib.import_module("confluent_kafka.admin")
        maker = self.made(admin.AdminClient, {**self.config, "log_level": 2})
        wanted = admin.NewTopic(topic, 1, -1, config={"cleanup.policy": "compact"})
        with contextlib.suppress(Exception):
            maker.create_topics([wanted], request_timeout=CONNECT / 2)[topic].result()

    def last(self, topic: str) -> bytes | None:
        """The last message of a topic's first partition; b"" of one that is gone, else None."""
        if topic not in self.topics:
            return None
        more = {"group.id": "pgsub", "enable.auto.commit": False, "log_level": 2}
        consumer = self.made(
            self.library.Consumer, {**self.config, **more, "error_cb": self.note_error}
        )
        partition = self.library.TopicPartition
        try:
            low, high = self.patiently(
                lambda time: consumer.get_watermark_offsets(partition(topic, 0), timeout=time)
            )
            if low == high:
                return b"" if high else None
            consumer.assign([partition(topic, 0, high - 1)])
            return self.received(consumer)
        finally:
            consumer.close()

    def received(self, consumer: Any) -> bytes:
        end, is_late = time.monotonic() + LONGEST, False
        while not is_late:
            is_late = time.monotonic() > end
            self.look()
            message = consumer.poll(TICK)
            if message is not None and not message.error():
                return message.value() or b""
        raise Passing(f"{self.where}: it doesn't return a message in {LONGEST:.0f} seconds")

    # ---- messages

    def send(
        self,
        topic: str,
        key: bytes | None,
        value: bytes | None,
        headers: Iterable[tuple[str, bytes]] = (),
        partition: int | None = None,
    ) -> None:
        """Has a message wait to be sent. `partition`: by default that of the key."""
        more = {} if partition is None else {"partition": partition}
        while True:
            try:
                self.producer.produce(topic, value=value, key=key, headers=list(headers), **more)
                return self.look()
            except BufferError:
                self.wait(len(self.producer) // 2)
            except self.library.KafkaException as error:
                raise self.wrong(error.args[0], f"topic {topic}: ") from None

    def wait(self, most: int = 0) -> None:
        """Waits until at most so many messages aren't there yet."""
        left, since = len(self.producer), time.monotonic()
        while left > most:
            self.look()
            self.producer.flush(TICK)
            now = len(self.producer)
            if now < left:
                left, since = now, time.monotonic()
            elif time.monotonic() - since > LONGEST:
                about = f" ({self.told})" if self.told else ""
                text = f"{self.where}: it doesn't say in {LONGEST:.0f} seconds that it has a message{about}"
                raise Passing(text)
        self.look()

    def close(self) -> None:
        self.producer.purge()
        self.producer.flush(TICK)
        # (its threads and connections end once nothing names it, and it names this one)
        del self.producer
