"""Engines of several servers: NATS of which one is killed, a Redis whose replica takes over, and a
Redis Cluster."""

from __future__ import annotations

import contextlib
import random
import signal
import time

from feed_replay import lsn_of, replay

from ..engines import NatsMember, RedisServer, Sentinel, free_port, nats_cluster
from ..errors import Failed
from ..follower import Supervisor, wait_until
from ..patience import Patience
from ..place import OK, SERVER, Place
from ..sinks import compare, compare_hashes, compare_messages, hashes_of_feed, rows_of_feed
from .case import Case
from .sinking import Writing, a_feed, ends, has_reached, insert, sink_words, started


def nats_of_three(place: Place) -> None:
    """One of three servers of NATS is killed again and again, and the sink too: with replicas the
    stream has each commit once, and in order."""
    rng = random.Random(f"cluster {place.options.seed}")
    servers = nats_cluster(place.folder / "nats", 3)
    for it in servers:
        started(place, it)
    wait_until(lambda: all(it.has_leader() for it in servers), "electing a leader")
    writing = Writing(place.folder / "feed", random.Random(place.options.seed))
    words = sink_words(place, servers[0], writing.writer.folder, "--replicas", "3")
    words[2] = "nats://" + ",".join(f"127.0.0.1:{it.port}" for it in servers)
    sink = Supervisor([*words, "--reader", "cluster"], place.folder / "sink.log")
    place.closing.callback(sink.kill)
    sink.begin()
    writing.start()
    killed = 0
    try:
        for _ in range(place.options.kills):
            time.sleep(2 * rng.random() * Patience.factor)
            if rng.random() < 0.4:
                wait_until(sink.kill_connector, "finding a sink that runs", 30, sink.check)
            else:
                kill_one(rng.choice(servers), rng)
                killed += 1
    finally:
        end = writing.finish()
    wait_until(lambda: has_reached(servers[0], end), "writing all", 180, sink.check)
    sink.finish()
    told, messages = compare_messages(servers[0], writing.writer.folder)
    compare("rows of the messages", told, rows_of_feed(replay(writing.writer.folder)))
    print(f"   {messages} messages; killed {killed} servers, {sink.starts} starts of the sink")


def kill_one(server: NatsMember, rng: random.Random) -> None:
    """Kills a server, and starts it again in a moment, once the others do without it."""
    server.kill()
    time.sleep(3 * rng.random())
    server.start()
    wait_until(server.has_leader, "finding the others")


def replica(place: Place) -> None:
    """A replica takes the place of a Redis that is killed: the sink goes on from what it has."""
    writer = a_feed(place)
    first, second = (RedisServer(place.folder / it) for it in ("first", "second"))
    for it in (first, second):
        started(place, it)
    second.client().replicaof("127.0.0.1", first.port)
    ends(place, first, OK, "all up to 0/200 is written")
    wait_until(lambda: second.at() == "0/200", "copying it")
    second.client().replicaof("127.0.0.1", free_port())
    writer.commit(0x300, [insert("3", "c")])
    ends(place, first, OK, "all up to 0/300 is written")
    first.kill()
    second.client().replicaof("NO", "ONE")
    writer.commit(0x400, [insert("4", "d")])
    ends(place, second, OK, "all up to 0/400 is written")
    count = compare_hashes(second, hashes_of_feed(replay(writer.folder)))
    print(f"   {count} hashes")


def sentinel(place: Place) -> None:
    """Sentinels name a replica in the place of a Redis that is killed before that one had the last
    commits: these are written again, under load, each time."""
    rng = random.Random(f"sentinel {place.options.seed}")
    master, replica = (RedisServer(place.folder / it) for it in ("first", "second"))
    for it in (master, replica):
        started(place, it)
    replica.client().replicaof("127.0.0.1", master.port)
    watching = Sentinel(place.folder / "sentinel", master)
    started(place, watching)
    wait_until(watching.knows_replica, "finding the replica")
    writing = Writing(place.folder / "feed", random.Random(place.options.seed))
    sink = Supervisor(sink_words(place, watching, writing.writer.folder), place.folder / "sink.log")
    place.closing.callback(sink.kill)
    sink.begin()
    writing.start()
    lost = 0
    try:
        for _ in range(max(1, place.options.kills // 5)):
            wait_until(lambda: is_in_step(master, replica), "copying all", 60, sink.check)
            lost += kill_before_it_is_copied(master, replica, rng, sink)
            wait_until(lambda: watching.names(replica), "promoting the replica", 60, sink.check)
            # (the one that was killed comes back as a replica)
            master.start()
            master, replica = replica, master
    finally:
        end = writing.finish()
    wait_until(lambda: has_reached(master, end), "writing all", 180, sink.check)
    sink.finish()
    count = compare_hashes(master, hashes_of_feed(replay(writing.writer.folder)))
    print(f"   {count} hashes; {lost} times the replica lacked commits; {sink.starts} starts")
    if not lost:
        raise Failed("the replica had all each time")


def is_in_step(master: RedisServer, replica: RedisServer) -> bool:
    """Whether a replica follows, and has what there was a moment ago."""
    # (one that becomes a replica ends its connections)
    with contextlib.suppress(Exception):
        at, info = master.at(), replica.client().info("replication")
        is_up = info.get("master_link_status") == "up"
        return is_up and lsn_of(replica.at()) >= lsn_of(at)
    return False


def kill_before_it_is_copied(
    master: RedisServer, replica: RedisServer, rng: random.Random, sink: Supervisor
) -> bool:
    """Kills a master while its replica stands still, which goes on then. Returns whether it lacks
    commits."""
    assert replica.process
    replica.process.send_signal(signal.SIGSTOP)
    # (what the kernel has for it already it gets all the same)
    master.client().client_kill_filter(_type="slave")
    at = master.at()
    wait_until(lambda: master.at() != at, "writing more", 30, sink.check)
    time.sleep(0.3 * rng.random())
    has = master.at()
    master.kill()
    replica.process.send_signal(signal.SIGCONT)
    wait_until(lambda: bool(replica.client().ping()), "going on")
    return lsn_of(replica.at()) < lsn_of(has)


def redis_cluster(place: Place) -> None:
    """A Redis Cluster is rejected by name, and nothing is written there."""
    a_feed(place)
    redis = RedisServer(place.folder / "redis", "--cluster-enabled", "yes")
    started(place, redis)
    client = redis.client()
    client.execute_command("CLUSTER", "ADDSLOTSRANGE", 0, 16383)
    ends(place, redis, SERVER, "it is of a Redis Cluster, in which a MULTI can't have the rows")
    compare("keys", client.keys(), [])


CASES = (
    Case("sinks-nats-of-three", nats_of_three),
    Case("sinks-redis-replica", replica),
    Case("sinks-redis-sentinel", sentinel),
    Case("sinks-redis-cluster", redis_cluster),
)
