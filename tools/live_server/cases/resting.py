"""What a follower with tables does at rest, and how soon it tells what comes."""

from __future__ import annotations

import contextlib
import json
import socket
import sqlite3
import time
from pathlib import Path
from typing import Dict

from ..child import Child
from ..errors import Failed
from ..follower import filters_of, tables_of, wait_until
from ..patience import Patience
from ..place import Place
from ..sessions import Session
from .case import Case
from .common import now_in_tables, position_of, rows_file

# How often they may wake in a second, for how many seconds that is counted, how long they have
# after a start, and how often it is tried until the server writes nothing meanwhile.
WAKES, SECONDS, STARTED, TRIES = 5, 10, 5, 12
WRITTEN = "SELECT pg_current_wal_lsn()"
# How long it may take until a lone commit is seen, and until an LSN that is there is told: the
# median of so many.
SEEN, TOLD, TIMES = 0.05, 0.02, 15


def wakes_of(child: Child) -> Dict[str, int]:
    """How often the threads of a follower, its filter and its tables have gone to sleep by
    themselves, by what they are."""
    pid, found = child.process.pid, dict[str, int]()
    for what, pids in (("", [pid]), ("filter", filters_of(pid)), ("tables", tables_of(pid))):
        for at in pids:
            for number, task in enumerate(sorted(Path(f"/proc/{at}/task").iterdir())):
                text = (task / "status").read_text("ascii")
                count = text.partition("\nvoluntary_ctxt_switches:")[2].split()[0]
                found[f"{what or 'follower'} {number}"] = int(count)
    return found


def check_rest(place: Place, child: Child) -> None:
    """(What the server writes by itself, as autovacuum does, is no rest. On a machine that is busy
    threads wake to wait for each other, too: there the best of several times is judged.)"""
    found = list[Dict[str, float]]()
    for _ in range(TRIES):
        at, before = place.value(WRITTEN), wakes_of(child)
        time.sleep(SECONDS)
        wakes = {it: (count - before.get(it, 0)) / SECONDS for it, count in wakes_of(child).items()}
        if place.value(WRITTEN) == at:
            found.append(wakes)
            if sum(wakes.values()) <= WAKES:
                return
        if len(found) >= Patience.factor:
            raise Failed(f"at rest they wake more than {WAKES} times a second: {found}")
    raise Failed("the server never rests")


def seen_after(place: Place, session: Session, wanted: int) -> float:
    """After how many seconds a lone commit is seen."""
    query = "SELECT quantity FROM stock WHERE sku = 1"
    with contextlib.closing(sqlite3.connect(rows_file(place), isolation_level=None)) as base:
        session.run(f"UPDATE stock SET quantity = {wanted} WHERE sku = 1")
        began = time.monotonic()
        while base.execute(query).fetchone() != (wanted,):
            if time.monotonic() - began > 30 * Patience.factor:
                raise Failed("a commit isn't seen")
            time.sleep(0.0005)
    return time.monotonic() - began


def told_after(place: Place, lsn: str) -> float:
    """After how many seconds the socket tells that the tables have an LSN."""
    began = time.monotonic()
    with socket.socket(socket.AF_UNIX) as asking:
        asking.connect(str(place.beside(".sock")))
        asked = {"ask": "wait", "lsn": lsn, "tables": str(rows_file(place))}
        asking.sendall(json.dumps(asked).encode() + b"\n")
        said = json.loads(asking.makefile().readline())
    if "reached" not in said:
        raise Failed(f"it was told {said}")
    return time.monotonic() - began


def median(times: list[float]) -> float:
    return sorted(times)[len(times) // 2]


def at_rest(place: Place) -> None:
    """At rest a follower with tables wakes at most five times a second in all; a lone commit is
    seen, and an LSN that is there told, at once."""
    place.stock()
    child = place.start("--create", "--tables", str(rows_file(place)))
    place.catch_up(child)
    wait_until(rows_file(place).exists, "making the tables", check=child.check)
    now_in_tables(place)
    time.sleep(STARTED * Patience.factor)
    check_rest(place, child)
    seen, told = [], []
    with place.cluster.connect(place.database) as session:
        for number in range(TIMES):
            time.sleep(0.2)
            seen.append(seen_after(place, session, 100 + number))
            told.append(told_after(place, position_of(place)))
    if median(seen) > SEEN * Patience.factor or median(told) > TOLD * Patience.factor:
        raise Failed(
            f"a commit is seen after {median(seen):.4f} s, and an LSN told after {median(told):.4f}"
        )
    check_rest(place, child)
    child.stop()
    place.equal()


CASES = [Case("feed-tables-at-rest", at_rest)]
