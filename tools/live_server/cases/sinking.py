"""Sinks over a feed: Redis and NATS, which are killed as the sinks are, and what else may be in
their way."""

from __future__ import annotations

import collections
import contextlib
import random
import signal
import sqlite3
import threading
import time
from collections.abc import Sequence
from pathlib import Path

from feed_load import Load
from feed_replay import commits, lsn_of, replay
from feed_text import Column, Definition, Line, Message, Writer

from ..engines import Engine, NatsServer, RedisServer
from ..errors import Failed
from ..feeds import log_changes, segments
from ..follower import Supervisor, wait_until
from ..load import LOGGED, SCHEMA, Mixed
from ..patience import Patience
from ..place import OK, PASSING, REJECTED, SERVER, UNFIT, Place
from ..sinks import (
    compare,
    compare_hashes,
    compare_messages,
    hashes_of_feed,
    logical_of_feed,
    logical_of_nats,
    logical_of_stream,
    replay_streams,
    rows_of_feed,
    rows_of_server,
)
from .case import Case
from .common import feed_of, moving

STOCK = Definition(1, "public", "stock", "d", (Column("id", 23, -1, True), Column("name", 25)))
# The tables of the load of a server that have a key as long as it runs.
HASHED = (
    "keyed",
    "wide",
    "indexed",
    "parted_low",
    "parted_high",
    "kept",
    'Größe, Maß.a "quoted" name',
)
# A Redis that only writes a copy of all now and then, and goes back to that when it is killed.
COPIES = ("--save", "2 1", "--appendonly", "no")


def insert(id: str, name: str) -> Line:
    return Line(STOCK, "c", None, (id, name))


class Sinks:
    """Sinks of a feed, each with its engine. They are started again when they end, as a service
    manager would."""

    def __init__(self, place: Place, feed: Path, *more: str, hashed: Sequence[str] = ()) -> None:
        self.place, self.feed, self.hashed = place, feed, hashed
        folder = place.folder
        self.hashes, self.streams = RedisServer(folder / "hashes"), RedisServer(
            folder / "streams", *COPIES
        )
        self.nats = NatsServer(folder / "nats")
        self.engines: dict[str, Engine] = {
            "redis": self.hashes,
            "redis of streams": self.streams,
            "nats-server": self.nats,
        }
        self.more = more
        self.sinks: dict[str, Supervisor] = {}
        self.killed = collections.Counter[str]()

    def start(self) -> None:
        for engine in self.engines.values():
            self.place.closing.callback(engine.kill)
            engine.start()
        self.add("hashes", self.hashes, *(word for it in self.hashed for word in ("--table", it)))
        self.add("streams", self.streams, "--as", "streams")
        self.add("messages", self.nats)

    def add(self, name: str, engine: Engine, *words: str) -> None:
        sink = Supervisor(
            sink_words(self.place, engine, self.feed, *words, *self.more, "--reader", name),
            self.place.folder / f"{name}.log",
        )
        self.sinks[name] = sink
        self.place.closing.callback(sink.kill)
        sink.begin()

    def kill(self, rng: random.Random) -> None:
        """Kills a sink or an engine."""
        name = rng.choice((*self.sinks, *self.sinks, *self.engines))
        if name in self.engines:
            self.engines[name].restart()
        else:
            wait_until(self.sinks[name].kill_connector, f"finding {name} that run", 30, self.check)
        self.killed[name] += 1

    def check(self) -> None:
        for it in self.sinks.values():
            it.check()

    def finish(self, end: int) -> None:
        """Waits until all have all up to an LSN, and ends them."""
        for what, engine in (
            ("hashes", self.hashes),
            ("streams", self.streams),
            ("messages", self.nats),
        ):
            wait_until(lambda engine=engine: has_reached(engine, end), f"writing all as {what}", 120, self.check)  # type: ignore[misc]
        for it in self.sinks.values():
            it.finish()

    def said(self) -> str:
        kills = ", ".join(f"{count} {name}" for name, count in self.killed.items())
        starts = ", ".join(f"{it.starts} of {name}" for name, it in self.sinks.items())
        return f"killed {kills}; starts: {starts}"


def has_reached(engine: Engine, end: int) -> bool:
    assert isinstance(engine, (RedisServer, NatsServer))
    at = engine.at()
    return bool(at) and lsn_of(at) >= end


def sink_words(place: Place, engine: Engine, feed: Path, *more: str) -> list[str]:
    return [str(place.options.connect), "sink", engine.url(), "--feed", str(feed), *more]


class Writing(threading.Thread):
    """Writes a feed meanwhile."""

    def __init__(self, feed: Path, rng: random.Random) -> None:
        super().__init__(daemon=True)
        feed.mkdir()
        self.writer, self.load, self.rng = Writer(feed, most=200_000), Load(rng), rng
        self.ended = threading.Event()
        self.count = 0

    def run(self) -> None:
        while not self.ended.is_set():
            # (mostly small ones, and now and then one that takes longer than a MULTI of many)
            self.commit(self.load.lines(3000 if self.rng.random() < 0.01 else 12))
            self.ended.wait(0.01 * self.rng.random())

    def commit(self, lines: Sequence[Line]) -> None:
        messages = [
            Message(
                self.count + it, self.rng.choice(("order", "ä", "")), b"%d %d" % (self.count, it)
            )
            for it in range(self.rng.choice((0, 0, 0, 1, 5)))
        ]
        end = self.writer.at + self.rng.randrange(1, 5000)
        self.writer.commit(end, lines, messages=messages)
        self.count += 1

    def finish(self) -> int:
        """Ends it. Returns where the feed ends."""
        self.ended.set()
        self.join(30)
        self.commit(self.load.last())
        return self.writer.at


def killed(place: Place) -> None:
    """Sinks and engines are killed while a feed is written: hashes and replayed streams are its
    rows, and messages have each commit once, as they and streams have each logical message."""
    rng = random.Random(f"sinks {place.options.seed}")
    feed = place.folder / "feed"
    writing = Writing(feed, random.Random(place.options.seed))
    sinks = Sinks(place, feed)
    sinks.start()
    writing.start()
    try:
        for _ in range(place.options.kills):
            time.sleep(rng.choice((0.1, 0.5, 1.5)) * rng.random() * Patience.factor)
            sinks.kill(rng)
    finally:
        end = writing.finish()
    sinks.finish(end)
    state = replay(feed)
    rows = rows_of_feed(state)
    hashes = compare_hashes(sinks.hashes, hashes_of_feed(state))
    entries, logical = sinks.streams.entries(), logical_of_feed(state)
    compare("rows of the streams", replay_streams(entries), rows)
    told, messages = compare_messages(sinks.nats, feed)
    compare("rows of the messages", told, rows)
    compare("logical messages of the stream", logical_of_stream(entries), logical)
    compare("logical messages of NATS", logical_of_nats(sinks.nats.messages()), logical)
    print(
        f"   {writing.count} commits, {len(logical)} logical messages, {state.changes} changes, {hashes} hashes, {messages} messages; {sinks.said()}",
        flush=True,
    )


def a_feed(place: Place) -> Writer:
    """A feed with two commits."""
    feed = place.folder / "feed"
    feed.mkdir()
    writer = Writer(feed)
    writer.commit(0x100, [insert("1", "a")])
    writer.commit(0x200, [insert("2", "b")])
    return writer


def started(place: Place, engine: Engine) -> None:
    place.closing.callback(engine.kill)
    engine.start()


def ends(place: Place, engine: Engine, status: int, text: str, *more: str, url: str = "") -> None:
    """Writes what is there, and ends with this status."""
    words = sink_words(place, engine, place.folder / "feed", "--once", *more)
    words[2] = url or words[2]
    place.has_ended(place.started(words), status, text)


def second_sink(place: Place) -> None:
    """A second sink takes the place of the first, which ends and says so, and writes nothing
    more."""
    writer = a_feed(place)
    redis = RedisServer(place.folder / "redis")
    started(place, redis)
    first = place.started(sink_words(place, redis, writer.folder))
    wait_until(lambda: redis.at() == "0/200", "writing it", check=first.check)
    second = place.started(sink_words(place, redis, writer.folder))
    second.wait_for("is written from 0/200 on")
    writer.commit(0x300, [insert("3", "c")])
    place.has_ended(first, UNFIT, "another sink has begun to write there")
    wait_until(lambda: redis.at() == "0/300", "writing it", check=second.check)
    second.stop()
    compare("hashes", sorted(redis.hashes()), ["stock:1", "stock:2", "stock:3"])


def in_the_way(place: Place) -> None:
    """What is in the way for now has status 7, and what is for good another one: a Redis that isn't
    there, is full, or has a password."""
    writer = a_feed(place)
    redis = RedisServer(place.folder / "redis", "--unixsocket", str(place.folder / "redis/socket"))
    ends(place, redis, PASSING, "Redis at 127.0.0.1")
    started(place, redis)
    client = redis.client()
    client.config_set("maxmemory", "1")
    ends(place, redis, PASSING, "OOM command not allowed")
    client.config_set("maxmemory", "0")
    client.set("stock:9", "a text")
    ends(place, redis, UNFIT, "there are keys that begin with stock: already")
    client.delete("stock:9")
    ends(place, redis, OK, "all up to 0/200 is written")
    ends(place, redis, UNFIT, "take another database", "--as", "streams")
    other = redis.url()[:-1] + "1"
    client.execute_command("SELECT", 1)
    client.set("stock", "a text")
    ends(
        place,
        redis,
        UNFIT,
        "the key stock is there already, and isn't a stream",
        "--as",
        "streams",
        url=other,
    )
    client.delete("stock")
    ends(place, redis, OK, "all up to 0/200 is written", "--as", "streams", url=other)
    compare("ids", [at for at, _ in client.xrange("stock")], ["256-0", "512-0"])
    client.execute_command("SELECT", 0)
    ends(place, redis, OK, "all up to 0/200 is written", url=f"unix://{redis.folder}/socket?db=2")
    client.config_set("requirepass", "secret")
    ends(place, redis, SERVER, "uthentication required", url=redis.url())
    ends(place, redis, SERVER, "", url=redis.url().replace("://", "://:wrong@"))
    writer.commit(0x300, [insert("3", "c")])
    ends(
        place,
        redis,
        OK,
        "all up to 0/300 is written",
        url=redis.url().replace("://", "://:secret@"),
    )
    client.execute_command("AUTH", "secret")
    client.config_set("requirepass", "")
    compare("hashes", sorted(redis.hashes()), ["stock:1", "stock:2", "stock:3"])


def too_large(place: Place) -> None:
    """A change that makes a message above the server's limit ends a sink with status 1, with all
    before it, and nothing of its commit."""
    writer = a_feed(place)
    nats = NatsServer(place.folder / "nats", 2000)
    ends(place, nats, PASSING, "NATS at 127.0.0.1")
    redis = RedisServer(place.folder / "redis")
    started(place, redis)
    ends(
        place,
        redis,
        PASSING,
        "it says nothing for 10 seconds",
        url=redis.url().replace("redis://", "nats://").removesuffix("/0"),
    )
    started(place, nats)
    writer.commit(0x300, [insert("3", "c"), insert("4", "x" * 2000)])
    for _ in range(2):
        ends(place, nats, REJECTED, "0/300:1: a change of public.stock (1) makes a message of")
        compare(
            "ids",
            [id for _, id, _ in nats.messages()],
            ["0/0:commit", "0/100:0", "0/100:commit", "0/200:0", "0/200:commit"],
        )
    nats.kill()
    nats.most = 1 << 20
    nats.start()
    ends(place, nats, OK, "all up to 0/300 is written")
    compare_messages(nats, writer.folder)


def last_sequence(nats: NatsServer) -> int:
    found = nats.ask("STREAM.INFO.pgsub")
    return int(found["state"]["last_seq"]) if "state" in found else 0


def base_again(place: Place) -> None:
    """A sink to NATS that is killed, or ended within two seconds, while it writes its base gets on
    where it is started again at once."""
    place.run(
        "CREATE TABLE stock (sku int PRIMARY KEY, quantity int)",
        "INSERT INTO stock SELECT it, 0 FROM generate_series(1, 40000) it",
        "CREATE PUBLICATION pgsub FOR TABLE stock",
    )
    place.follow("--create")
    base, nats = place.folder / "base.db", NatsServer(place.folder / "nats")
    place.subcommand("export", "--store", str(place.store), "--into", str(base), "--text")
    with contextlib.closing(sqlite3.connect(base)) as rows:
        at = lsn_of(rows.execute("SELECT lsn FROM pgsub_position").fetchone()[0])
    writer = a_feed(place)
    for end in (at, at + 0x100):
        writer.commit(end, [insert(str(end), "c")])
    started(place, nats)
    words = sink_words(place, nats, writer.folder, "--base", str(base), "--once")
    for number in (signal.SIGKILL, signal.SIGTERM, signal.SIGKILL, signal.SIGTERM):
        sink, before = place.started(words), last_sequence(nats)
        wait_until(lambda before=before: last_sequence(nats) > before + 500, "publishing some rows", 60, sink.check)  # type: ignore[misc]
        sink.signal(number)
        began = time.monotonic()
        status = sink.end(30)
        if number == signal.SIGTERM and (
            status != PASSING or time.monotonic() - began > 2 * Patience.factor
        ):
            raise Failed(
                f"it ended with {status} after {time.monotonic() - began:.1f} s: {sink.said()}"
            )
    place.has_ended(place.started(words), OK, "is written")
    _, count = compare_messages(nats, writer.folder)
    if count != 40000 + 1 + 1 + 1:
        raise Failed(f"{count} messages")


def kill_part(place: Place, follower: Supervisor, rng: random.Random) -> str:
    """Kills the follower or its filter. Returns which. (Two kills of a filter in one transaction
    end the follower.)"""
    victim, kill = rng.choice(
        (("filter", follower.kill_filter), ("follower", follower.kill_connector))
    )
    wait_until(kill, f"finding a {victim} that runs", 60, follower.check)
    confirm(place, follower)
    return victim


def confirm(place: Place, follower: Supervisor) -> None:
    """Waits until all that is written is confirmed."""
    end = place.cluster.log_end()
    wait_until(lambda: place.has_confirmed(end), f"confirming {end}", 300, follower.check)


def last_end(feed: Path) -> int:
    """Where the last commit of a feed ends, 0 where it has none."""
    ends = (lsn_of(commit["end"]) for path in segments(feed)[-2:] for commit, _ in commits(path))
    return max(ends, default=0)


def of_a_server(place: Place) -> None:
    """Follower, filter, sinks and engines are killed under load: Redis and NATS have the server's
    rows, and each commit once."""
    rng = random.Random(f"sinks of a server {place.options.seed}")
    place.run(*SCHEMA, "CREATE PUBLICATION pgsub FOR ALL TABLES")
    log_changes(place.cluster, *LOGGED)
    load = Mixed(place.cluster, place.options.seed, place.options.workers, place.options.pause)
    follower = Supervisor(
        place.words(
            "--create",
            "--feed",
            str(feed_of(place)),
            "--feed-segment-bytes",
            "1000000",
            "--feed-max-age",
            "1d",
        ),
        place.log,
    )
    place.closing.callback(follower.kill)
    follower.begin()
    wait_until(place.store.exists, "making the store", 60, follower.check)
    load.begin()
    sinks = Sinks(place, feed_of(place), "--store", str(place.store), hashed=HASHED)
    sinks.start()
    try:
        for _ in range(place.options.kills):
            time.sleep(rng.choice((0.1, 0.5, 1.5, 3.0)) * rng.random() * Patience.factor)
            if rng.random() < 0.3:
                sinks.killed[kill_part(place, follower, rng)] += 1
            else:
                sinks.kill(rng)
    finally:
        load.end()
    place.run("SELECT pg_logical_emit_message(true, 'live', 'end')")
    confirm(place, follower)
    follower.finish()
    sinks.finish(last_end(feed_of(place)))
    hashes, rows = rows_of_server(place.cluster, "pgsub")
    count = compare_hashes(
        sinks.hashes, {key: it for key, it in hashes.items() if key.partition(":")[0] in HASHED}
    )
    compare("rows of the streams", replay_streams(sinks.streams.entries()), rows)
    told, messages = compare_messages(sinks.nats, feed_of(place))
    compare("rows of the messages", told, rows)
    print(f"   {count} hashes, {messages} messages; {sinks.said()}", flush=True)


def beside_a_follower(place: Place) -> None:
    """Redis and NATS go away and come back while a follower writes to them by itself: it shows
    that, and they have the server's rows, and each commit once."""
    rng = random.Random(f"sinks of a follower {place.options.seed}")
    engines: tuple[RedisServer, NatsServer] = (
        RedisServer(place.folder / "redis"),
        NatsServer(place.folder / "nats"),
    )
    words = ["--feed-max-age", "1d", "--status-file", str(place.folder / "status")]
    for it in engines:
        started(place, it)
        words += ["--sink", it.url()]
    with moving(place, *words) as child:
        for _ in range(place.options.kills):
            engine = rng.choice(engines)
            time.sleep(1.5 * rng.random())
            engine.kill()
            time.sleep(rng.choice((0.0, 0.5, 2.0)) * rng.random())
            engine.start()
            child.check()
        engines[0].kill()
        shown = place.folder / "status"
        wait_until(
            lambda: any(place.status(shown)["sinks"].values()), "showing it", 60, child.check
        )
        engines[0].start()
    place.catch_up(child)
    end = last_end(feed_of(place))
    for engine in engines:
        wait_until(lambda engine=engine: has_reached(engine, end), f"writing all to {engine.url()}", 180, child.check)  # type: ignore[misc]
    wait_until(
        lambda: not any(place.status(shown)["sinks"].values()), "being well", 60, child.check
    )
    said = child.stop()
    if "started again in" in said:
        raise Failed(f"a sink has ended: {said}")
    hashes, rows = rows_of_server(place.cluster, "pgsub")
    count = compare_hashes(engines[0], hashes)
    told, messages = compare_messages(engines[1], feed_of(place))
    compare("rows of the messages", told, rows)
    print(f"   {count} hashes, {messages} messages; waited {said.count('is waited for')} times")


CASES = (
    Case("sinks-killed", killed),
    Case("sinks-beside-a-follower", beside_a_follower),
    Case("sinks-second", second_sink),
    Case("sinks-in-the-way", in_the_way),
    Case("sinks-too-large", too_large),
    Case("sinks-base-again", base_again),
    Case("sinks-of-a-server", of_a_server),
)
