"""Several servers of one cluster: a standby that is followed, a primary that is away for a moment,
slots that outlive a primary."""

from __future__ import annotations

import threading
import time
from collections.abc import Iterator
from contextlib import contextmanager
from functools import partial

from ..cluster import Cluster
from ..copies import Standby
from ..errors import Failed
from ..follower import is_confirmed, wait_until
from ..place import PASSING, UNFIT, Place
from ..rows import compare, rows_of_server
from .case import Case
from .common import mend


def standby_of(place: Place, primary: Cluster, **settings: str) -> Standby:
    """A standby that runs and has what the primary has."""
    standby = Standby(primary, place.options.folder, settings)
    place.closing.callback(standby.remove)
    standby.start()
    standby.catch_up()
    return standby


@contextmanager
def running_transactions(primary: Cluster) -> Iterator[None]:
    """Has the primary log its running transactions again and again, which a slot at a standby waits
    for."""
    ended = threading.Event()

    def log() -> None:
        while not ended.wait(0.5):
            primary.run("SELECT pg_log_standby_snapshot()", database="postgres")

    thread = threading.Thread(target=log, daemon=True)
    thread.start()
    try:
        yield
    finally:
        ended.set()
        thread.join()


def standby(place: Place) -> None:
    """Copies from a standby and follows it, and the standby's log has no error of it."""
    primary = place.own_server()
    place.stock()
    second = standby_of(place, primary)
    with running_transactions(primary):
        child = place.start(
            "--create", "--status-file", str(place.folder / "status"), dsn=second.dsn()
        )
        for _ in range(2):
            place.change()
            end = primary.log_end()
            place.run("SELECT pg_logical_emit_message(true, 'live', 'end')")
            wait_until(
                partial(is_confirmed, second, place.slot, end),
                f"confirming {end}",
                120,
                child.check,
            )
            # (the status thread looks at the log's end each five seconds)
            time.sleep(6)
        child.stop()
    compare(rows_of_server(primary, "pgsub"), place.rows())
    errors = [line for line in second.said().splitlines() if "ERROR:" in line]
    if errors:
        raise Failed(f"the standby's log has {errors[:3]}")


def hosts(place: Place) -> None:
    """Waits for a restarted primary where the connection string names its standby too, and goes
    on."""
    primary = place.own_server()
    place.stock()
    second = standby_of(place, primary)
    child = place.start(
        "--create",
        dsn=primary.dsn().replace(str(primary.folder), f"{primary.folder},{second.folder}"),
    )
    child.wait_for("following slot")
    place.catch_up(child)
    primary.stop("immediate")
    # (by then it has tried both)
    time.sleep(5)
    child.check()
    primary.start()
    place.change()
    place.catch_up(child)
    child.stop()
    place.equal()


def is_failover(cluster: Cluster, slot: str) -> bool:
    return (
        cluster.value(f"SELECT failover FROM pg_replication_slots WHERE slot_name = '{slot}'")
        == "t"
    )


def failover(place: Place) -> None:
    """Makes a failover slot, is held back while the standby is away, and goes on at the standby
    once it is promoted."""
    primary = place.own_server()
    place.stock()
    second = standby_of(place, primary)
    both = primary.dsn().replace(str(primary.folder), f"{primary.folder},{second.folder}")
    child = place.start("--create", "--failover", dsn=both)
    child.wait_for("following slot")
    place.catch_up(child)
    if not is_failover(primary, place.slot):
        raise Failed("the slot isn't one for failover")
    second.synchronize(place.slot)
    place.set(synchronized_standby_slots=second.slot)
    second.stop()
    place.change()
    end = primary.log_end()
    time.sleep(3)
    if place.has_confirmed(end):
        raise Failed("it was told a commit that the standby hasn't")
    second.start()
    place.catch_up(child)
    second.catch_up()
    primary.stop("immediate")
    second.promote()
    place.cluster = second
    place.change()
    place.catch_up(child)
    child.stop()
    place.equal()


def failover_too_early(place: Place) -> None:
    """Ends at a promoted standby that lacks a commit which the copy has, although it has the
    slot."""
    primary = place.own_server()
    place.run(
        "CREATE TABLE stock (sku int PRIMARY KEY, quantity int)",
        "CREATE PUBLICATION pgsub FOR TABLE stock",
    )
    second = standby_of(place, primary)
    place.run(
        f"SELECT pg_create_logical_replication_slot('{place.slot}', 'pgoutput', failover => true)"
    )
    place.change()
    child = place.start("--no-copy")
    place.catch_up(child)
    # (while it is followed, since the slot has to go on for that)
    second.synchronize(place.slot)
    child.stop()
    second.stop()
    place.change()
    place.follow()
    primary.stop("immediate")
    second.start()
    second.promote()
    place.cluster = second
    # (so that its log goes beyond the store's position)
    place.run("INSERT INTO stock SELECT it, 1 FROM generate_series(1000, 9000) it")
    place.ends(UNFIT, "the store has changes that the server hasn't")
    if "history" not in place.found():
        raise Failed(f"the checkpoint doesn't keep it: {place.found()}")


def became_primary(cluster: Cluster) -> None:
    wait_until(lambda: cluster.value("SELECT pg_is_in_recovery()") == "f", "promotion")


def make_slot(place: Place) -> None:
    """Makes the slot by hand, as is said where it isn't there."""
    place.ends(UNFIT, "has no slot")
    place.run(f"SELECT pg_create_logical_replication_slot('{place.slot}', 'pgoutput')")


def without_slot(place: Place) -> None:
    """A standby that is promoted hasn't the slot. One is made there by hand, and what is said then
    mends the copy: the promoted one has changes from before the slot, and lacks none."""
    primary = place.own_server()
    place.stock()
    place.follow("--create")
    second = standby_of(place, primary)
    place.change()
    place.follow()
    second.catch_up()
    primary.stop()
    second.promote()
    became_primary(second)
    place.cluster = second
    place.change()
    make_slot(place)
    place.change()
    place.ends(UNFIT, "somebody else moved the slot, or made it anew")
    mend(place, "gap")


def rewound(place: Place) -> None:
    """A primary is rewound to a standby that was promoted without its last commits, and becomes the
    primary again: it has neither these nor the slot."""
    primary = place.own_server({"wal_log_hints": "on"})
    place.stock()
    place.follow("--create")
    # (the rewound one reads the log from where both went on)
    second = standby_of(place, primary, wal_keep_size="256MB")
    second.stop()
    place.change()
    place.follow()
    end = primary.log_end()
    primary.stop()
    second.start()
    second.promote()
    became_primary(second)
    second.run("CHECKPOINT", "INSERT INTO stock VALUES (7, 7)")
    primary.rewind(second)
    primary.start()
    place.ends(PASSING, "the server is a standby")
    primary.control("promote")
    became_primary(primary)
    while place.value(f"SELECT pg_current_wal_insert_lsn() > '{end}'") != "t":
        place.run("SELECT pg_switch_wal()")
        place.change()
    make_slot(place)
    place.ends(UNFIT, "the store has changes that the server hasn't")
    place.ends(UNFIT, "--accept gap", "--accept", "history")
    mend(place, "history", "gap", "missing")


CASES = (
    Case("standby-is-followed", standby, since=16),
    Case("restarted-primary-of-several-hosts", hosts),
    Case("promoted-standby-without-the-slot", without_slot),
    Case("rewound-primary", rewound),
    Case("failover-slot", failover, since=17),
    Case("failover-before-the-standby-had-all", failover_too_early, since=17),
)
