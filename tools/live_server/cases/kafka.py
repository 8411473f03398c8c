"""Sinks that write to Kafka, which is librdkafka's mock: repeats are dropped by a reader, and what
it has then is compared with the feed, or with the server."""

from __future__ import annotations

import collections
import json
import pickle
import random
import signal
import threading
import time
from collections.abc import Sequence
from pathlib import Path
from typing import Any

from built import TOP

from .. import kafka_types
from ..child import Child
from ..follower import Supervisor, wait_until
from ..kafka import (
    PARTITIONS,
    KafkaMock,
    Reading,
    compare_with_feed,
    keyed_rows,
    unkeyed_rows,
)
from ..patience import Patience
from ..place import OK, Place
from ..rows import SETTINGS
from ..sinks import compare
from .case import Case
from .common import feed_of, moving
from .sinking import Writing, confirm, kill_part, last_end

# The topics of the tables of a feed's load.
TOPICS = tuple(f"pgsub.public.{it}" for it in ("a", "b-3Ac", "d-2Ee"))


def mocked(place: Place) -> KafkaMock:
    kafka = KafkaMock()
    place.closing.callback(kafka.kill)
    kafka.start()
    return kafka


def reading_of(place: Place, kafka: KafkaMock) -> Reading:
    found = Reading(kafka.brokers)
    place.closing.callback(found.ended.set)
    found.start()
    return found


def words_of(place: Place, kafka: KafkaMock, *more: str) -> Sequence[str]:
    feed = str(place.folder / "feed")
    return [str(place.options.connect), "sink", kafka.url(), "--feed", feed, *more]


def sink_of(place: Place, kafka: KafkaMock, *more: str) -> Supervisor:
    found = Supervisor(words_of(place, kafka, *more), place.folder / "kafka.log")
    place.closing.callback(found.kill)
    found.begin()
    return found


def disturb(kafka: KafkaMock, rng: random.Random) -> str:
    """Has a broker, or all of them, be away for a moment. Returns what was done."""
    if rng.random() < 0.3:
        kafka.pause()
        time.sleep(2 * rng.random())
        kafka.go_on()
        return "pauses"
    broker = rng.randrange(1, 4)
    kafka.tell(f"down {broker}")
    time.sleep(2 * rng.random())
    kafka.tell(f"up {broker}")
    return "brokers"


def killed(place: Place) -> None:
    """The sink is killed, and brokers go away, while a feed is written: each partition has each
    change once and in order, but for repeats."""
    rng = random.Random(f"kafka {place.options.seed}")
    kafka = mocked(place)
    reading = reading_of(place, kafka)
    writing = Writing(place.folder / "feed", random.Random(place.options.seed))
    sink = sink_of(place, kafka, "--reader", "kafka")
    writing.start()
    done = dict[str, int]()
    try:
        for _ in range(place.options.kills):
            time.sleep(rng.choice((0.1, 0.5, 1.5)) * rng.random() * Patience.factor)
            if rng.random() < 0.7:
                wait_until(sink.kill_connector, "finding a sink that runs", 30, sink.check)
                what = "sinks"
            else:
                what = disturb(kafka, rng)
            done[what] = done.get(what, 0) + 1
    finally:
        end = writing.finish()
    wait_until(lambda: reading.has_reached(end), "writing all to Kafka", 180, sink.check)
    sink.finish()
    reading.finish()
    messages = compare_with_feed(reading, place.folder / "feed")
    print(f"   {writing.count} commits, {messages} messages, {reading.repeats} repeats; {done}")


def two(place: Place) -> None:
    """A second sink of a feed writes nothing as long as the first one is there, also where that
    stands still, and goes on once it was killed."""
    kafka = mocked(place)
    reading = reading_of(place, kafka)
    writing = Writing(place.folder / "feed", random.Random(place.options.seed))
    words, count = words_of(place, kafka), max(2, place.options.kills // 10)

    def started(number: int) -> Child:
        found = Child(words, place.folder / f"kafka{number}.log")
        place.closing.callback(found.kill)
        return found

    writing.start()
    try:
        sink = started(0)
        for number in range(1, count + 1):
            before = reading.count()
            wait_until(lambda: reading.count() > before, "writing some messages", 60, sink.check)
            sink.signal(signal.SIGSTOP)
            other = started(number)
            other.wait_for("another sink of this feed writes there, process")
            wait_until(reading.has_all, "reading all", 30, reading.check)
            before = reading.count() + reading.repeats
            time.sleep(1)
            compare("messages meanwhile", [reading.count() + reading.repeats], [before])
            sink.signal(signal.SIGKILL)
            sink.end(30)
            other.wait_for("is written from")
            sink = other
    finally:
        end = writing.finish()
    wait_until(lambda: reading.has_reached(end), "writing all to Kafka", 180, sink.check)
    sink.stop()
    reading.finish()
    messages = compare_with_feed(reading, place.folder / "feed")
    print(f"   {messages} messages, {reading.repeats} repeats, {count + 1} sinks")


def example(place: Place) -> None:
    """The example that keeps rows of topics is killed as the sink is, and has the rows that a
    reader has."""
    rng = random.Random(f"kafka example {place.options.seed}")
    kafka = mocked(place)
    for name in TOPICS:
        kafka.tell(f"topic {name} {PARTITIONS}")
    reading, path = reading_of(place, kafka), place.folder / "rows"
    writing = Writing(place.folder / "feed", random.Random(place.options.seed))
    sink = sink_of(place, kafka)
    words = ["/usr/bin/python3", str(TOP / "examples/keep_kafka.py"), kafka.brokers, str(path)]
    keeper = Supervisor(["env", f"PYTHONPATH={TOP / 'connect'}", *words, *TOPICS], place.log)
    place.closing.callback(keeper.kill)
    keeper.begin()
    writing.start()
    try:
        for _ in range(place.options.kills):
            time.sleep(rng.random() * Patience.factor)
            victim = rng.choice((sink, keeper))
            wait_until(victim.kill_connector, "finding one that runs", 30, victim.check)
    finally:
        end = writing.finish()
    wait_until(lambda: reading.has_reached(end), "writing all to Kafka", 180, sink.check)
    sink.finish()
    theirs = {name: dict(keyed_rows(reading, name)) for name in TOPICS}
    wait_until(lambda: rows_of_example(path) == theirs, "keeping all rows", 60, keeper.check)
    reading.finish()
    compare_with_feed(reading, place.folder / "feed")
    count = sum(map(len, theirs.values()))
    print(f"   {count} rows, {reading.repeats} repeats, {keeper.starts} starts of the example")


def rows_of_example(path: Path) -> dict[str, dict[bytes, Any]]:
    found = dict[str, dict[bytes, Any]]()
    if path.exists():
        for (topic, _), (_, _, rows) in pickle.loads(path.read_bytes()).items():
            found.setdefault(topic, {}).update(rows)
    return found


def base_again(place: Place) -> None:
    """A sink that is killed while it writes its first rows begins them again: who drops repeats has
    those of the last export alone, and the changes since then."""
    place.run(
        "CREATE TABLE stock (id int PRIMARY KEY, name text)",
        "INSERT INTO stock SELECT it, 'a' FROM generate_series(1, 8000) it",
        "CREATE PUBLICATION pgsub FOR TABLE stock",
    )
    words = ("--feed", str(place.folder / "feed"))
    place.follow("--create", *words)
    kafka = mocked(place)
    reading = reading_of(place, kafka)
    for _ in range(3):
        sink = place.started([*words_of(place, kafka, "--store", str(place.store))])
        before = reading.count()
        wait_until(lambda: reading.count() > before + 500, "writing some rows", 60, sink.check)
        sink.signal(signal.SIGKILL)
        sink.end(30)
        place.run(
            "DELETE FROM stock WHERE id IN (SELECT id FROM stock ORDER BY random() LIMIT 500)"
        )
        place.follow(*words)
    done = place.started([*words_of(place, kafka, "--store", str(place.store), "--once")])
    place.has_ended(done, OK, "is written")
    end = last_end(place.folder / "feed")
    wait_until(lambda: reading.has_reached(end), "reading all", 60, reading.check)
    reading.finish()
    ours = sorted(json.loads(key)["id"] for key, _ in keyed_rows(reading, "pgsub.public.stock"))
    compare("rows", ours, sorted(int(it) for it in column_of(place, "SELECT id FROM stock")))
    print(f"   {len(ours)} rows of {reading.count()} messages")


def column_of(place: Place, query: str) -> list[str]:
    with place.cluster.connect(place.database) as session:
        return session.column(query)


class TypedLoad(threading.Thread):
    """Changes of a table with a column of each type, and of one without a key."""

    def __init__(self, place: Place, seed: str) -> None:
        super().__init__(daemon=True)
        self.place, self.rng = place, random.Random(seed)
        self.ended = threading.Event()

    def run(self) -> None:
        with self.place.cluster.connect(self.place.database) as session:
            while not self.ended.is_set():
                session.run(self.one())
                self.ended.wait(0.05)

    def one(self) -> str:
        rng, id = self.rng, self.rng.randint(1, 300)
        return rng.choice(
            (
                kafka_types.inserted(f"generate_series({id}, {id + rng.randrange(4)})"),
                f"UPDATE typed SET id = {1000 + rng.randrange(10**6)} WHERE id = {id}",
                f"DELETE FROM typed WHERE id BETWEEN {id} AND {id + 2}",
                f"INSERT INTO bag VALUES ('a', {id % 5}), (NULL, {id % 3})",
                f"UPDATE bag SET n = n + 1 WHERE n = {id % 5}",
                f"DELETE FROM bag WHERE n > {id % 7}",
                "TRUNCATE bag" if rng.random() < 0.2 else "SELECT 1",
            )
        )


def of_a_server(place: Place) -> None:
    """Follower, filter, sink and brokers fail under load: who drops repeats has the server's rows,
    of each type, first rows too. Each message is one of its schema."""
    rng = random.Random(f"kafka of a server {place.options.seed}")
    place.run(*kafka_types.SCHEMA, kafka_types.inserted("generate_series(1, 200)"))
    place.run("INSERT INTO bag SELECT 'first', 1 FROM generate_series(1, 5)")
    place.run("CREATE PUBLICATION pgsub FOR ALL TABLES")
    more = ("--create", "--feed", str(place.folder / "feed"), "--feed-max-age", "1d")
    follower = Supervisor(place.words(*more), place.log)
    place.closing.callback(follower.kill)
    follower.begin()
    wait_until(lambda: feed_is_there(place), "making the feed", 60, follower.check)
    kafka = mocked(place)
    reading, load = reading_of(place, kafka), TypedLoad(place, place.options.seed)
    load.start()
    sink = sink_of(place, kafka, "--store", str(place.store), "--reader", "kafka", "--schemas")
    done = collections.Counter[str]()
    try:
        for _ in range(place.options.kills):
            time.sleep(rng.choice((0.1, 0.5, 1.5)) * rng.random() * Patience.factor)
            chance = rng.random()
            if chance < 0.3:
                done[kill_part(place, follower, rng)] += 1
            elif chance < 0.8:
                wait_until(sink.kill_connector, "finding a sink that runs", 30, sink.check)
                done["sink"] += 1
            else:
                done[disturb(kafka, rng)] += 1
    finally:
        load.ended.set()
        load.join(30)
    place.run("SELECT pg_logical_emit_message(true, 'live', 'end')")
    confirm(place, follower)
    follower.finish()
    end = last_end(place.folder / "feed")
    wait_until(lambda: reading.has_reached(end), "writing all to Kafka", 180, sink.check)
    sink.finish()
    reading.finish()
    rows = compare_with_server(place, reading)
    print(f"   {rows} rows, {reading.count()} messages, {reading.repeats} repeats; {dict(done)}")


def feed_is_there(place: Place) -> bool:
    return place.store.exists() and any((place.folder / "feed").glob("0*"))


def compare_with_server(place: Place, reading: Reading) -> int:
    with place.cluster.connect(place.database) as session:
        session.run(*(f"SET {name} = '{value}'" for name, value in SETTINGS.items()))
        theirs = {
            row[0]: row for row in map(kafka_types.of_server, session.rows(kafka_types.QUERY))
        }
        bag = collections.Counter(session.rows("SELECT word, n::text FROM public.bag"))
    topic = "pgsub.public.typed"
    ours = {it["id"]: kafka_types.of_message(it) for _, it in keyed_rows(reading, topic)}
    compare("rows with a column of each type", ours, theirs)
    compare("rows without a key", unkeyed_rows(reading, "pgsub.public.bag"), bag)
    return len(ours) + sum(bag.values())


def beside_a_follower(place: Place) -> None:
    """`follow --sink kafka://` begins with the first rows, and waits for brokers that are away."""
    kafka = mocked(place)
    reading = reading_of(place, kafka)
    with moving(place, "--sink", kafka.url(), "--feed-max-age", "1d") as child:
        for _ in range(max(1, place.options.kills // 4)):
            time.sleep(1)
            kafka.pause()
            time.sleep(1)
            kafka.go_on()
            child.check()
    place.catch_up(child)
    end = last_end(feed_of(place))
    wait_until(lambda: reading.has_reached(end), "writing all to Kafka", 120, child.check)
    child.stop()
    reading.finish()
    ours = sorted(it["amount"] for _, it in keyed_rows(reading, "pgsub.public.account"))
    theirs = sorted(int(it) for it in column_of(place, "SELECT amount FROM account"))
    compare("amounts", ours, theirs)
    print(f"   {reading.count()} messages, {reading.repeats} repeats")


CASES = (
    Case("sinks-kafka-killed", killed),
    Case("sinks-kafka-two", two),
    Case("sinks-kafka-example", example),
    Case("sinks-kafka-base-again", base_again),
    Case("sinks-kafka-of-a-server", of_a_server, since=15),
    Case("sinks-kafka-beside-a-follower", beside_a_follower),
)
