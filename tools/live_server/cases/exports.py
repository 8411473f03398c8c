"""`export` of a store that is followed: the rows of whole commits while the server changes them."""

from __future__ import annotations

import contextlib
import sqlite3
import time
from pathlib import Path

from ..errors import Failed
from ..place import Place
from .case import Case
from .common import moving


def export(place: Place, path: Path) -> sqlite3.Connection:
    place.subcommand("export", "--store", str(place.store), "--into", str(path))
    return sqlite3.connect(path)


def check_whole(base: sqlite3.Connection) -> tuple[int, int]:
    """Fails where an export has a part of a commit. Returns its position, and how many moves it
    has."""
    amounts = dict(base.execute("SELECT id, amount FROM account"))
    expected = dict.fromkeys(range(20), 100)
    count = rows = 0
    for source, target, more in base.execute("SELECT source, target, padding FROM move"):
        expected[source] -= 5
        expected[target] += 5
        count, rows = count + 1, rows + more
    padding = base.execute("SELECT count(*) FROM padding").fetchone()[0]
    if amounts != expected or padding != rows:
        raise Failed(
            f"after {count} moves: {amounts} in place of {expected}, and {padding} rows in place of {rows}"
        )
    high, low = base.execute("SELECT lsn FROM pgsub_position").fetchone()[0].split("/")
    return (int(high, 16) << 32) + int(low, 16), count


def under_load(place: Place) -> None:
    """Each export has whole commits alone, no older ones than the export before, and the follower
    goes on."""
    found: list[tuple[int, int]] = []
    with moving(place) as child:
        for number in range(5):
            time.sleep(0.5)
            with contextlib.closing(export(place, place.folder / f"rows{number % 2}.db")) as base:
                found.append(check_whole(base))
            child.check()
    if found != sorted(found) or found[-1][1] <= found[0][1]:
        raise Failed(f"positions and moves of the exports: {found}")
    place.catch_up(child)
    child.stop()
    place.equal()


CASES = (Case("export-under-load", under_load),)
