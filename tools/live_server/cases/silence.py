"""Servers that fall silent, and filters and connectors that stand still."""

from __future__ import annotations

import contextlib
import os
import threading
import time
from signal import SIGCONT, SIGSTOP

from ..child import Child
from ..errors import Failed
from ..follower import wait_until
from ..patience import Patience
from ..place import SERVER, Place
from .case import Case


def hung_server(place: Place) -> None:
    """A server that hangs is given up, and followed again once it answers."""
    place.stock()
    proxy = place.proxy()
    child = place.start("--create", "--silence", "4", dsn=place.dsn(proxy.folder))
    place.catch_up(child)
    proxy.freeze()
    place.change()
    child.wait_for("said nothing for", 20)
    proxy.cut()
    proxy.thaw()
    place.catch_up(child)
    child.stop()
    place.equal()


def idle_server(place: Place) -> None:
    """A server that has nothing to say is kept: it answers when it is asked."""
    place.stock()
    place.set(wal_sender_timeout="0")
    child = place.start("--create", "--silence", "3")
    place.catch_up(child)
    time.sleep(8)
    child.check()
    if "said nothing" in child.said():
        raise Failed(f"it was given up: {child.said()}")
    place.change()
    place.catch_up(child)
    child.stop()
    place.equal()


# How much of its log a server keeps for a slot here, and how long a checkpoint may take once the
# slot is above that.
KEPT, CHECKPOINT = "32MB", 15.0
WAL_STATUS = "SELECT wal_status FROM pg_replication_slots"
SESSIONS = "SELECT count(*) FROM pg_stat_replication"


def limited(place: Place, *more: str, **settings: str) -> Child:
    """A follower of a server that keeps little log."""
    sizes = {"max_slot_wal_keep_size": KEPT, "min_wal_size": "32MB", "max_wal_size": "64MB"}
    place.own_server({**sizes, **settings})
    place.stock()
    place.run("CREATE TABLE large (id int, body text)", "ALTER PUBLICATION pgsub ADD TABLE large")
    child = place.start("--create", *more)
    place.catch_up(child)
    return child


def write(place: Place, megabytes: int) -> None:
    """Writes that much log, which is sent."""
    for _ in range(megabytes):
        place.run("INSERT INTO large SELECT it, repeat('x', 1000) FROM generate_series(1, 1000) it")


def checkpoint(place: Place) -> float:
    """How many seconds a checkpoint takes."""
    began = time.monotonic()
    thread = threading.Thread(target=lambda: place.run("CHECKPOINT"), daemon=True)
    thread.start()
    thread.join(90)
    took = time.monotonic() - began
    if took > CHECKPOINT * Patience.factor:
        raise Failed(f"a checkpoint took {took:.1f} seconds")
    return took


def filter_that_stands_still(place: Place) -> None:
    """A checkpoint that ends its slot isn't kept waiting by a filter that stands still."""
    child = limited(place)
    (pid,) = child.filters()
    os.kill(pid, SIGSTOP)
    write(place, 96)
    took = checkpoint(place)
    child.wait_for("has stood still for", 5)
    wait_until(lambda: place.value(WAL_STATUS) == "lost", "ending the slot", 20)
    checkpoint(place)
    os.kill(pid, SIGCONT)
    said = place.has_ended(child, SERVER, "is lost", 60)
    if "copies anew" not in said:
        raise Failed(f"no cure: {said}")
    print(f"  the checkpoint took {took:.1f} s")


def filter_that_goes_on(place: Place) -> None:
    """One that stands still for longer than --silence is waited for without a session."""
    place.stock()
    place.run("CREATE TABLE large (id int, body text)", "ALTER PUBLICATION pgsub ADD TABLE large")
    child = place.start("--create", "--silence", "3")
    place.catch_up(child)
    (pid,) = child.filters()
    os.kill(pid, SIGSTOP)
    write(place, 24)
    child.wait_for("has stood still for", 30)
    wait_until(lambda: place.value(SESSIONS) == "0", "ending the session", 10, child.check)
    time.sleep(3)
    if place.value(SESSIONS) != "0":
        raise Failed("a session was begun")
    os.kill(pid, SIGCONT)
    place.catch_up(child)
    child.stop()
    place.equal()


def filter_that_gets_on(place: Place) -> None:
    """A slow filter isn't given up, though the slot is about to be lost."""
    # (no checkpoint comes meanwhile)
    child = limited(place, "--silence", "4", max_wal_size="4GB", checkpoint_timeout="1h")
    (pid,) = child.filters()
    ended, states = threading.Event(), set[str]()

    def slow() -> None:
        with contextlib.suppress(ProcessLookupError):
            while not ended.is_set():
                os.kill(pid, SIGSTOP)
                ended.wait(0.9)
                os.kill(pid, SIGCONT)
                ended.wait(0.05)
                states.add(place.value(WAL_STATUS))

    thread = threading.Thread(target=slow, daemon=True)
    thread.start()
    try:
        write(place, 80)
        time.sleep(5)
    finally:
        ended.set()
        thread.join(10)
    place.catch_up(child)
    if "stood still" in child.said() or "unreserved" not in states:
        raise Failed(f"it was given up, or its slot was only {states}: {child.said()}")
    wait_until(lambda: place.value(WAL_STATUS) == "reserved", "being safe again", 20, child.check)
    child.stop()
    place.equal()


def connector_that_stands_still(place: Place) -> None:
    """A connector that stands still is given up by the server, whose checkpoint goes on."""
    child = limited(place, wal_sender_timeout="4s")
    child.signal(SIGSTOP)
    began = time.monotonic()
    try:
        wait_until(lambda: place.value(SESSIONS) == "0", "giving the session up", 20)
        write(place, 96)
        took = checkpoint(place)
    finally:
        child.signal(SIGCONT)
    whole = time.monotonic() - began
    print(f"  it was given up, and the checkpoint took {took:.1f} s, within {whole:.1f} s")
    child.kill()


CASES = (
    Case("hung-server", hung_server),
    Case("filter-that-stands-still", filter_that_stands_still),
    Case("filter-that-goes-on", filter_that_goes_on),
    Case("filter-that-gets-on", filter_that_gets_on),
    Case("connector-that-stands-still", connector_that_stands_still),
    Case("idle-server", idle_server),
)
