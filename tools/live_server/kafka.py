"""A cluster of Kafka for a test, what a reader of all its messages finds there, and what they
should be. Nothing of the connector is used."""

from __future__ import annotations

import collections
import importlib
import json
import signal
import subprocess
import sys
import threading
import time
from collections.abc import Iterable, Iterator
from pathlib import Path
from typing import Any, Dict, List, NamedTuple, Optional, Tuple

from connect_schemas import checked
from feed_replay import commits, lsn_of

from .errors import Failed, Unusable
from .feeds import segments

# A partition of a topic, and the numbers of a message: the two halves of the LSN, the change and
# the part.
Where = Tuple[str, int]
Numbers = Tuple[int, int, int]
PARTITIONS = 4


def library() -> Any:
    try:
        return importlib.import_module("confluent_kafka")
    except ModuleNotFoundError:
        raise Unusable(
            "python3-confluent-kafka is needed: apt-get install python3-confluent-kafka"
        ) from None


class KafkaMock:
    """Three brokers, which go with their process."""

    def __init__(self) -> None:
        library()
        self.process: Optional[subprocess.Popen[str]] = None
        self.brokers = ""

    def start(self) -> None:
        program = Path(__file__).with_name("kafka_mock.py")
        self.process = subprocess.Popen(
            [sys.executable, str(program)], stdin=subprocess.PIPE, stdout=subprocess.PIPE, text=True
        )
        self.brokers = self.line()
        # (the mock makes no topic that it is asked to make, but one that somebody writes to)
        self.tell("topic pgsub.position 1")

    def line(self) -> str:
        assert self.process and self.process.stdout
        if line := self.process.stdout.readline().strip():
            return line
        raise Failed("the mock of Kafka has ended")

    def tell(self, words: str) -> None:
        assert self.process and self.process.stdin
        self.process.stdin.write(words + "\n")
        self.process.stdin.flush()
        if (said := self.line()) != words:
            raise Failed(f"the mock of Kafka says {said!r} in place of {words!r}")

    def url(self) -> str:
        return f"kafka://{self.brokers}"

    def pause(self) -> None:
        """Has all brokers stand still."""
        assert self.process
        self.process.send_signal(signal.SIGSTOP)

    def go_on(self) -> None:
        assert self.process
        self.process.send_signal(signal.SIGCONT)

    def kill(self) -> None:
        if self.process:
            self.process.kill()
            self.process.wait(30)
            self.process = None


class Message(NamedTuple):
    """A message that was read."""

    where: Where
    numbers: Numbers
    key: Optional[bytes]
    value: Optional[bytes]


def numbers_of(headers: Iterable[Tuple[str, bytes]]) -> Numbers:
    told = dict(headers)
    return lsn_of(told["pgsub.lsn"].decode()), int(told["pgsub.n"]), int(told["pgsub.part"])


class Reading(threading.Thread):
    """Reads all messages as they come, since the mock keeps the last ones alone. `taken` are those
    whose numbers are above all that their partition had before."""

    def __init__(self, brokers: str, prefix: str = "pgsub.") -> None:
        super().__init__(daemon=True)
        self.prefix, self.position = prefix, f"{prefix}position"
        self.library = library()
        config = {
            "bootstrap.servers": brokers,
            "group.id": "reading",
            "enable.auto.commit": False,
            "auto.offset.reset": "earliest",
            "log_level": 0,
            "topic.metadata.refresh.interval.ms": 500,
            # (a partition of the mock keeps five megabytes, which a sink writes in a second or two
            # once a broker is there again: the reader must not wait ten before it looks for that)
            "reconnect.backoff.ms": 10,
            "reconnect.backoff.max.ms": 50,
            "fetch.error.backoff.ms": 10,
        }
        self.consumer = self.library.Consumer(config)
        self.taken: Dict[Where, List[Message]] = {}
        self.last: Dict[Where, Numbers] = {}
        self.offsets: Dict[Where, int] = {}
        self.repeats, self.at, self.failure = 0, "", ""
        self.ended = threading.Event()

    def run(self) -> None:
        try:
            looked = 0.0
            while not self.ended.is_set():
                if time.monotonic() - looked > 0.5:
                    self.find()
                    looked = time.monotonic()
                for it in self.consumer.consume(500, 0.05):
                    self.take(it)
        except Exception as error:  # noqa: BLE001
            self.failure = f"{type(error).__name__}: {error}"
        finally:
            self.consumer.close()

    def find(self) -> None:
        """Takes up partitions that are new."""
        try:
            topics = self.consumer.list_topics(timeout=1).topics
        except self.library.KafkaException:
            return
        new = [
            (name, partition)
            for name, it in topics.items()
            if name.startswith(self.prefix)
            for partition in it.partitions
            if (name, partition) not in self.offsets
        ]
        for where in new:
            self.offsets[where] = 0
        if new:
            kind = self.library.TopicPartition
            self.consumer.assign([kind(*where, at) for where, at in self.offsets.items()])

    def take(self, it: Any) -> None:
        if it.error():
            if not it.error().retriable() and it.error().name() not in (
                "_ALL_BROKERS_DOWN",
                "_TRANSPORT",
                "UNKNOWN_TOPIC_OR_PART",
            ):
                raise Failed(str(it.error()))
            return
        where = it.topic(), it.partition()
        if it.offset() != self.offsets[where]:
            raise Failed(f"{where}: message {it.offset()} in place of {self.offsets[where]}")
        self.offsets[where] += 1
        if it.topic() == self.position:
            told = json.loads(it.value())
            self.at = told["lsn"] if told["attempt"] is None else ""
            return
        numbers = numbers_of(it.headers())
        if numbers <= self.last.get(where, (-1, -1, -1)):
            self.repeats += 1
            return
        self.last[where] = numbers
        self.taken.setdefault(where, []).append(Message(where, numbers, it.key(), it.value()))

    def check(self) -> None:
        if self.failure:
            raise Failed(f"reading: {self.failure}")

    def has_reached(self, end: int) -> bool:
        """Whether it has all up to an LSN: the position, and then what else there was in any
        partition."""
        self.check()
        return bool(self.at) and lsn_of(self.at) >= end and self.has_all()

    def has_all(self) -> bool:
        """Whether it has read each partition to its end. (Brokers may be away.)"""
        kind = self.library.TopicPartition
        try:
            return all(
                at >= self.consumer.get_watermark_offsets(kind(*where), timeout=2)[1]
                for where, at in list(self.offsets.items())
            )
        except self.library.KafkaException:
            return False

    def finish(self) -> None:
        self.ended.set()
        self.join(30)
        self.check()

    def count(self) -> int:
        return sum(map(len, self.taken.values()))


def murmur2(key: bytes) -> int:
    """The hash by which Java's clients choose partitions."""
    mask, mix = 0xFFFFFFFF, 0x5BD1E995
    found = 0x9747B28C ^ len(key)
    whole = len(key) & ~3
    for at in range(0, whole, 4):
        word = int.from_bytes(key[at : at + 4], "little") * mix & mask
        word = (word ^ word >> 24) * mix & mask
        found = (found * mix & mask) ^ word
    if rest := key[whole:]:
        found = (found ^ int.from_bytes(rest, "little")) * mix & mask
    found = (found ^ found >> 13) * mix & mask
    return found ^ found >> 15


def partition_of(key: Optional[bytes], partitions: int = PARTITIONS) -> int:
    return 0 if key is None else (murmur2(key) & 0x7FFFFFFF) % partitions


def topic_part(name: str) -> str:
    kept = b"_0123456789ABCDEFGHIJKLMNOPQRSTUVWXYZabcdefghijklmnopqrstuvwxyz"
    return "".join(chr(it) if it in kept else f"-{it:02X}" for it in name.encode())


def compact(value: Any) -> bytes:
    return json.dumps(value, ensure_ascii=False, separators=(",", ":")).encode()


# What a message says, but for its source and its times: key, op, and the rows before and after.
Said = Tuple[Optional[bytes], Optional[Tuple[str, Any, Any]]]


class Expected:
    """The messages that a feed should lead to, of columns of int4 and text."""

    def __init__(self) -> None:
        self.messages: Dict[Where, List[Tuple[Numbers, Said]]] = {}
        self.definitions: Dict[int, Any] = {}

    def add(self, topic: str, numbers: Numbers, said: Said, partition: int) -> None:
        self.messages.setdefault((topic, partition), []).append((numbers, said))

    def row(self, oid: int, cells: Any) -> Any:
        return cells and {
            name: int(cell) if kind == 23 and cell is not None else cell
            for (name, kind, _), cell in zip(self.definitions[oid]["columns"], cells)
        }

    def change(self, end: int, it: Dict[str, Any]) -> None:
        oid, n, op = it["oid"], it["n"], it["op"]
        of = self.definitions[oid]
        topic = f"pgsub.{topic_part(of['schema'])}.{topic_part(of['table'])}"
        if op == "x":
            return
        if op == "t":
            for partition in range(PARTITIONS):
                self.add(topic, (end, n, 0), (None, ("t", None, None)), partition)
            return
        before, after = self.row(oid, it["before"]), self.row(oid, it["after"])
        old, new = (self.key(of, row) for row in (before, after))
        if op == "u" and old and old != new:
            parts = [(old, ("d", before, None)), (old, None), (new, ("c", None, after))]
        elif op == "d":
            parts = [(old, ("d", before, None)), *([(old, None)] if old else [])]
        else:
            parts = [(new, (op, before, after))]
        for part, (key, value) in enumerate(parts):
            self.add(topic, (end, n, part), (key, value), partition_of(key))

    def key(self, of: Dict[str, Any], row: Any) -> Optional[bytes]:
        if row is None or of["key"] is None or any(row[it] is None for it in of["key"]):
            return None
        return compact({name: row[name] for name, _, _ in of["columns"] if name in of["key"]})


def expected_of(feed: Path) -> Expected:
    found = Expected()
    for path in segments(feed):
        for commit, body in commits(path):
            for line in body.splitlines():
                it = json.loads(line)
                if it["op"] == "table":
                    found.definitions[it["oid"]] = it
                elif it["op"] != "m":
                    found.change(lsn_of(commit["end"]), it)
    return found


def said_by(it: Message) -> Said:
    """What a message says. It is checked against its schemas where it has them."""
    value = None if it.value is None else payload(it.value)
    key = None if it.key is None else compact(payload(it.key))
    return key, value and (value["op"], value["before"], value["after"])


def payload(text: bytes) -> Any:
    return checked(text) if text.startswith(b'{"schema":') else json.loads(text)


def compare_with_feed(reading: Reading, feed: Path) -> int:
    """Fails where partitions don't have the messages of each change of a feed once, and in
    order."""
    theirs = expected_of(feed).messages
    wrong = set(theirs) ^ set(reading.taken)
    if wrong:
        raise Failed(f"partitions that only one of both has: {sorted(wrong)[:5]}")
    for where, wanted in theirs.items():
        ours = [(it.numbers, said_by(it)) for it in reading.taken[where]]
        if ours != wanted:
            pairs = ((one, other) for one, other in zip(ours, wanted) if one != other)
            raise Failed(f"{where}: {len(ours)} for {len(wanted)}; the first: {next(pairs, None)}")
    return sum(map(len, theirs.values()))


def keyed_rows(reading: Reading, topic: str) -> Iterator[Tuple[bytes, Any]]:
    """The rows that a topic leads to, by their keys, as a table that takes its messages has them.
    A `t` removes those of its partition."""
    for partition in range(PARTITIONS):
        rows: Dict[bytes, Any] = {}
        for it in reading.taken.get((topic, partition), []):
            key, value = said_by(it)
            if value and value[0] == "t":
                rows.clear()
            elif key is not None and value and value[2] is not None:
                rows[key] = value[2]
            elif key is not None:
                rows.pop(key, None)
        yield from rows.items()


def unkeyed_rows(reading: Reading, topic: str) -> "collections.Counter[Tuple[Any, ...]]":
    """The rows of a table without a key, whose messages are in the first partition, each as often
    as it is there."""
    rows = collections.Counter[Tuple[Any, ...]]()
    for it in reading.taken.get((topic, 0), []):
        key, value = said_by(it)
        if key is not None or value is None:
            raise Failed(f"{topic}: a message of a table without a key has one, or is a tombstone")
        op, before, after = value
        if op == "t":
            rows.clear()
        if before is not None:
            if not rows[cells_of(before)]:
                raise Failed(f"{topic}: the row before isn't there: {before}")
            rows[cells_of(before)] -= 1
        if after is not None:
            rows[cells_of(after)] += 1
    return +rows


def cells_of(row: Dict[str, Any]) -> Tuple[Any, ...]:
    return tuple(it if it is None else str(it) for it in row.values())
