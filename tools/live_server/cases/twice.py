"""One history, followed by both versions of the protocol."""

from __future__ import annotations

import itertools
import json
import random
import time
from collections.abc import Iterator
from pathlib import Path
from typing import Any, Tuple

from feed_replay import commits

from ..errors import Failed
from ..feeds import segments
from ..follower import wait_until
from ..load import SCHEMA, Mix, Mixed
from ..place import OK, Place
from .case import Case

# Of a commit: its line without where the one before it ends, the number of its bytes and their
# checksum, its changes, and its definitions.
Told = Tuple[Any, Any, Any]


def told(feed: Path) -> Iterator[Told]:
    """The commits that have changes. Version 2 has others, too, where all that a streamed
    transaction changed was rolled back."""
    for path in segments(feed):
        for commit, body in commits(path):
            lines = [json.loads(it) for it in body.splitlines()]
            if not commit["changes"]:
                continue
            del commit["bytes"], commit["prev"], commit["crc"]
            for it in lines:
                # (where a definition stands depends on what else the segment has)
                it.pop("at", None)
            yield commit, [it for it in lines if it["op"] != "table"], [
                it for it in lines if it["op"] == "table"
            ]


def difference(first: Told | None, second: Told | None) -> str:
    """What differs of two commits but their definitions; "" where nothing does."""
    if first is None or second is None:
        return "one feed has more commits"
    if first[0] != second[0]:
        return f"{first[0]} and {second[0]}"
    pair = next(
        (pair for pair in itertools.zip_longest(first[1], second[1]) if pair[0] != pair[1]), None
    )
    return f"in {first[0]['end']} {str(pair[0])[:600]} and {str(pair[1])[:600]}" if pair else ""


def subtransactions(place: Place, seed: str) -> None:
    """Large transactions that change what they changed, in subtransactions of which some are rolled
    back."""
    mix = Mix(random.Random(seed))
    with place.cluster.connect(place.database) as session:
        for number in range(20):
            session.run(
                "BEGIN", "CREATE TABLE IF NOT EXISTS shaped (id int PRIMARY KEY, word text)"
            )
            for step in range(4):
                session.run(
                    "SAVEPOINT a",
                    f"INSERT INTO shaped (id, word) SELECT it, repeat('x', 300) FROM generate_series({step * 500}, {step * 500 + 499}) it",
                    f"UPDATE shaped SET word = 'step {step}' WHERE id % 3 = {step % 3}",
                    f"ALTER TABLE shaped ADD c{number}_{step} int DEFAULT {step}",
                    f"UPDATE shaped SET id = id + 100000 WHERE id % 50 = {step}",
                    mix.rng.choice(("ROLLBACK TO a", "RELEASE a", "SAVEPOINT b")),
                )
            session.run("DELETE FROM shaped", mix.rng.choice(("COMMIT", "COMMIT", "ROLLBACK")))


def versions(place: Place) -> None:
    """The feeds of versions 1 and 2 are equal, commit by commit, but for the definitions' lines and
    commits without changes."""
    place.run(*SCHEMA, "CREATE PUBLICATION pgsub FOR ALL TABLES")
    place.set(logical_decoding_work_mem="64kB")
    place.run(
        "SELECT pg_create_logical_replication_slot('one', 'pgoutput')",
        "SELECT pg_copy_logical_replication_slot('one', 'two')",
    )
    load = Mixed(place.cluster, "twice", 3, 0.02)
    load.begin()
    time.sleep(3)
    subtransactions(place, "twice")
    wait_until(lambda: sum(it.committed for it in load.workers) > 300, "making transactions", 120)
    load.end()
    feeds = []
    for proto, slot in ((1, "one"), (2, "two")):
        place.slot, store, feed = slot, place.folder / f"{slot}.db", place.folder / slot
        child = place.start(
            "--no-copy", "--proto", str(proto), "--feed", str(feed), "--until", "now", store=store
        )
        place.has_ended(child, OK, "", 300)
        feeds.append(list(told(feed)))
    for pair in itertools.zip_longest(*feeds):
        if wrong := difference(*pair):
            raise Failed(wrong)
    streamed = place.value(
        "SELECT coalesce(sum(stream_txns), 0) FROM pg_stat_replication_slots WHERE slot_name = 'two'"
    )
    if len(feeds[0]) < 100 or streamed == "0":
        raise Failed(f"{len(feeds[0])} commits, of which {streamed} were streamed")


CASES = (Case("feeds-of-both-versions", versions, since=14),)
