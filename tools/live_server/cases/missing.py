"""Changes that find no row, because the copy lacks what was changed beside the publication."""

from __future__ import annotations

import collections
import re

from ..errors import Failed
from ..follower import checkpoint_of
from ..place import MISSED, REJECTED, UNFIT, Place
from ..rows import compare
from .case import Case

COUNT = re.compile(r"^pgsub_missing_total\{[^}]*\} (\d+)$", re.M)


def unpublished(place: Place, *commands: str) -> None:
    """Runs commands while the table isn't in the publication, and accepts that it left: nothing
    tells any more what the copy lacks."""
    place.run(
        "ALTER PUBLICATION pgsub DROP TABLE stock",
        *commands,
        "ALTER PUBLICATION pgsub ADD TABLE stock",
    )
    place.finds("publication", "left and joined again", place.follow())
    place.follow("--accept", "publication")


def check_count(place: Place, count: int) -> None:
    """Fails unless the checkpoint has so many, and knows of all that is stored what found no
    row."""
    _, counted = checkpoint_of(place.store)
    if (counted["count"], counted["gap"]) != (count, None):
        raise Failed(f"the checkpoint has {counted} in place of {count}")


def missed_rows(place: Place) -> None:
    """An Update and a Delete find no row: told, with status 9, in the status file and in the
    metrics. --strict ends at each start, until that is accepted."""
    place.stock()
    place.follow("--create")
    unpublished(place, "INSERT INTO stock VALUES (7, 7), (8, 8)")
    place.run(
        "UPDATE stock SET quantity = 1 WHERE sku = 7",
        "DELETE FROM stock WHERE sku = 8",
        "INSERT INTO stock VALUES (9, 9)",
    )
    status, metrics = place.folder / "status", place.folder / "metrics"
    said = place.ends(
        MISSED,
        "found: missing",
        "--until",
        "now",
        "--status-file",
        str(status),
        "--metrics-file",
        str(metrics),
    )
    if "found no row, the first one of public.stock" not in said or "publication at" in said:
        raise Failed(f"it tells something else: {said}")
    check_count(place, 2)
    shown, found = place.status(status), COUNT.search(metrics.read_text())
    if (shown["missing"], list(shown["found"]), found and found[1]) != (2, ["missing"], "2"):
        raise Failed(f"the files tell {shown} and {metrics.read_text()}")
    for _ in range(2):
        place.ends(UNFIT, "missing: 2 changes found no row", "--strict")
    place.follow("--strict", "--accept", "missing")
    check_count(place, 0)
    place.follow("--strict")
    # (they stay as they are)
    compare(
        {("public", "stock"): collections.Counter([("1", "5"), ("2", "0"), ("9", "9")])},
        place.rows(),
    )


def missed_while_following(place: Place) -> None:
    """With --strict the first one ends the following, once it is counted."""
    place.stock()
    place.follow("--create")
    place.change()
    unpublished(place, "INSERT INTO stock VALUES (7, 7)")
    child = place.start("--strict")
    place.catch_up(child)
    place.run("DELETE FROM stock WHERE sku = 7")
    place.has_ended(child, UNFIT, "missing: 1 change found no row")
    check_count(place, 1)
    place.follow("--strict", "--accept", "missing")
    place.equal()


def missed_before_rejected(place: Place) -> None:
    """A commit is rejected right behind one whose change finds no row: that one is counted, and no
    later start says otherwise."""
    place.stock()
    place.follow("--create")
    unpublished(place, "INSERT INTO stock VALUES (7, 7)", "DELETE FROM stock WHERE sku = 1")
    place.run("UPDATE stock SET quantity = 1 WHERE sku = 7", "INSERT INTO stock VALUES (1, 1)")
    for _ in range(2):
        said = place.ends(REJECTED, "pgsub: store 1 Clash")
        if "1 change found no row" not in said or "not counted" in said:
            raise Failed(f"it doesn't tell that one change found no row: {said}")
        check_count(place, 1)


CASES = (
    Case("missed-rows", missed_rows),
    Case("missed-while-following", missed_while_following),
    Case("missed-before-rejected", missed_before_rejected),
)
