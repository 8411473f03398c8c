"""Commits that wait for the follower, while it adds, verifies and repairs: never two seconds."""

from __future__ import annotations

import contextlib
import sqlite3
import threading
import time
from collections.abc import Callable, Iterator
from signal import SIGCONT, SIGSTOP

from ..child import Child
from ..errors import Failed
from ..follower import wait_until
from ..patience import Patience
from ..place import NO_SLOT, OK, PASSING, SERVER, Place
from .adding import check_left
from .adding import words as add_words
from .case import Case
from .common import verify, verify_words
from .verifying import is_held

# How long a commit may take, and how many there are at least in a second.
LONGEST, LEAST = 2.0, 2
DIFFERENT = 1
# How often each of it is done.
TIMES = 4


class Writer:
    """Commits all the time, and notes how long each of them takes."""

    def __init__(self, place: Place, number: int) -> None:
        self.place, self.number, self.ended = place, number, threading.Event()
        self.longest, self.count = 0.0, 0
        self.thread = threading.Thread(target=self.run, daemon=True)

    def run(self) -> None:
        with self.place.cluster.connect(self.place.database) as session:
            while not self.ended.is_set():
                began = time.monotonic()
                session.run(f"UPDATE stock SET quantity = quantity + 1 WHERE sku = {self.number}")
                self.longest = max(self.longest, time.monotonic() - began)
                self.count += 1


def stock(place: Place) -> None:
    place.run(
        "CREATE TABLE stock (sku int PRIMARY KEY, quantity int)",
        "INSERT INTO stock SELECT it, 0 FROM generate_series(1, 1000) it",
        "CREATE TABLE other (sku int PRIMARY KEY, note text)",
        "INSERT INTO other SELECT it, 'other' FROM generate_series(1, 2000) it",
        "CREATE PUBLICATION pgsub FOR ALL TABLES",
    )


@contextlib.contextmanager
def waited_for(place: Place, writers: int, *more: str) -> Iterator[Child]:
    """A follower for which commits of some writers wait. At the end the rows are compared."""
    place.set(synchronous_standby_names=place.slot)
    child = place.start(*more)
    state = "SELECT sync_state FROM pg_stat_replication"
    wait_until(lambda: place.value(state) == "sync", "being waited for", 30, child.check)
    at_work = [Writer(place, it + 1) for it in range(writers)]
    began = time.monotonic()
    for it in at_work:
        it.thread.start()
    try:
        yield child
    finally:
        for it in at_work:
            it.ended.set()
        for it in at_work:
            it.thread.join(60)
        place.set(synchronous_standby_names="")
    longest, count = max(it.longest for it in at_work), sum(it.count for it in at_work)
    took = time.monotonic() - began
    print(f"  {writers} writers: {count} commits in {took:.1f} s, the longest took {longest:.3f} s")
    if longest > LONGEST * Patience.factor:
        raise Failed(f"a commit took {longest:.1f} seconds: {child.said()}")
    if count < LEAST * took:
        raise Failed(f"{count} commits in {took:.1f} seconds")
    place.catch_up(child)
    verify(place)
    check_left(place)
    child.stop()
    place.equal()


def spoil(place: Place) -> None:
    """Makes a row wrong in a store that nobody follows."""
    with contextlib.closing(sqlite3.connect(place.store)) as base:
        rows = "SELECT oid, ident FROM held ORDER BY oid DESC LIMIT 3"
        base.execute(f"DELETE FROM held WHERE (oid, ident) IN ({rows})")
        base.commit()


Work = Callable[[Place, Child], None]


def under(writers: int, work: Work, *more: str) -> Callable[[Place], None]:
    """What a case does while so many write."""

    def run(place: Place) -> None:
        stock(place)
        place.follow("--create")
        spoil(place)
        with waited_for(place, writers, *more) as child:
            work(place, child)
            child.check()

    return run


def verifies(place: Place, child: Child) -> None:
    for _ in range(TIMES):
        found, said = verify(place, status=DIFFERENT)
        if len(found) != 3:
            raise Failed(f"found {found}: {said}")
    verify(place, "--repair", status=OK)


def repairs(place: Place, child: Child) -> None:
    for _ in range(TIMES):
        verify(place, "--repair", status=OK)
        verify(place, "--table", "other")


def adds(place: Place, child: Child) -> None:
    for _ in range(TIMES):
        place.has_ended(place.started(add_words(place, "stock", "other")), OK, "", 60)


def one_verifies(place: Place) -> None:
    """`verify` succeeds each time while commits of one writer wait for the follower."""
    under(1, verifies)(place)


def many_verify(place: Place) -> None:
    """So it does while commits of eight writers wait, some of which always run."""
    under(8, verifies)(place)


def one_repairs(place: Place) -> None:
    """`verify --repair` repairs while commits of one writer wait for the follower."""
    under(1, repairs)(place)


def many_repair(place: Place) -> None:
    """So it does while commits of eight writers wait."""
    under(8, repairs)(place)


def one_adds(place: Place) -> None:
    """Tables are added while commits of one writer wait for the follower."""
    under(1, adds)(place)


def many_add(place: Place) -> None:
    """So they are while commits of eight writers wait."""
    under(8, adds)(place)


def beside_a_long_one(place: Place) -> None:
    """While the slot waits for a transaction that runs on, commits go on."""
    stock(place)
    place.follow("--create")
    with waited_for(place, 2):
        with place.cluster.connect(place.database) as session:
            session.run("BEGIN", "INSERT INTO other VALUES (9001, 'long')")
            child = place.started(verify_words(place, "--hold", "4"))
            status = child.end()
            if status != NO_SLOT:
                raise Failed(f"status {status}: {child.said()}")
            session.run("COMMIT")


def stopped_verifier(place: Place) -> None:
    """Where whoever compares is stopped, commits go on."""
    stock(place)
    # (as many as take it a while)
    place.run("INSERT INTO other SELECT it, 'other' FROM generate_series(2001, 300000) it")
    place.follow("--create")
    with waited_for(place, 2) as child:
        verifier = place.started(verify_words(place, "--hold", "20"))
        wait_until(lambda: is_held(place), "holding", 20)
        verifier.signal(SIGSTOP)
        time.sleep(5)
        verifier.signal(SIGCONT)
        status = verifier.end()
        if status not in (PASSING, OK):
            raise Failed(f"status {status}: {verifier.said()}")
        child.check()


def large_table(place: Place) -> None:
    """A table whose rows commits would wait for is rejected before the stream is held."""
    stock(place)
    place.run(
        "CREATE TABLE large (id int PRIMARY KEY, body text)",
        "INSERT INTO large SELECT it, repeat('x', 200) FROM generate_series(1, 60000) it",
    )
    place.follow("--create")
    with waited_for(place, 1):
        child, cure = place.started(add_words(place, "large")), "out of synchronous_standby_names"
        told = place.has_ended(child, SERVER, cure, 60)
        if "commits at the server would wait" not in told:
            raise Failed(told)
    child = place.start()
    place.has_ended(place.started(add_words(place, "large")), OK, "", 120)
    place.catch_up(child)
    child.stop()
    place.equal()


CASES = (
    Case("commits-wait-while-it-verifies", one_verifies),
    Case("many-commits-wait-while-it-verifies", many_verify),
    Case("commits-wait-while-it-repairs", one_repairs),
    Case("many-commits-wait-while-it-repairs", many_repair),
    Case("commits-wait-while-it-adds", one_adds),
    Case("many-commits-wait-while-it-adds", many_add),
    Case("commits-wait-beside-a-long-one", beside_a_long_one),
    Case("commits-wait-for-a-stopped-verifier", stopped_verifier),
    Case("commits-wait-for-a-large-table", large_table),
)
