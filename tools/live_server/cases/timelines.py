"""Servers that were promoted or put back, so that they have another history than the store."""

from __future__ import annotations

from ..cluster import Cluster
from ..errors import Failed
from ..place import MISSED, UNFIT, Place
from .case import Case


def promoted(place: Place, older: Cluster) -> None:
    """Goes on with a copy of the server's files, promoted, whose log has grown past that of the
    server."""
    older.promote()
    place.cluster = older
    for _ in range(3):
        place.change()
        place.run("SELECT pg_switch_wal()")


def lacks_changes(place: Place) -> None:
    """A promoted server that lacks changes of the store ends the following, at each start, until
    somebody accepts it.

    Where rows differ, its changes may find none then, and that is told.
    """
    server = place.own_server()
    place.stock()
    place.follow("--create")
    server.stop()
    older = place.copy_of(server)
    server.start()
    place.change()
    place.follow()
    place.equal()
    server.stop()
    promoted(place, older)
    for _ in range(2):
        place.ends(UNFIT, "the store has changes that the server hasn't", seconds=40)
    if "history" not in place.found():
        raise Failed(f"the checkpoint has {place.found()}")
    said = place.follow("--accept", "history", status=MISSED)
    place.finds("history", "are missing, and the store has others", said)
    if place.checkpoint()["timeline"] != 2 or "found: missing" not in said:
        raise Failed(f"the checkpoint has {place.checkpoint()}")
    place.follow("--accept", "history")
    if place.found():
        raise Failed(f"the checkpoint has {place.found()}")


def ends_before(place: Place) -> None:
    """A promoted server that has all changes is followed, though its log ends before what a
    keepalive has confirmed."""
    server = place.own_server()
    place.stock()
    place.run("CREATE TABLE unpublished (word text)")
    place.follow("--create")
    server.stop()
    older = place.copy_of(server)
    server.start()
    for _ in range(3):
        # (a large transaction would be streamed, and its commit be one of the store's, though it is
        # empty; so is each before version 15)
        place.run("INSERT INTO unpublished VALUES ('x')", "SELECT pg_switch_wal()")
    place.follow()
    server.stop()
    older.promote()
    place.cluster = older
    said = place.follow()
    if "from the timeline 1 to 2" not in said:
        raise Failed(f"the timeline isn't told: {said}")
    place.change()
    place.follow("--strict")
    place.equal()


def has_all_changes(place: Place) -> None:
    """A promoted server that has all changes of the store is followed, and its timeline noted."""
    server = place.own_server()
    place.stock()
    place.follow("--create")
    server.stop()
    promoted(place, place.copy_of(server))
    said = place.follow()
    place.equal()
    if "from the timeline 1 to 2" not in said or place.checkpoint()["timeline"] != 2:
        raise Failed(f"the timeline isn't told: {said}")
    place.change()
    place.follow()
    place.equal()


def older_timeline(place: Place) -> None:
    """So does the server of before a promotion, where it comes back beside the one that was
    promoted."""
    server = place.own_server()
    place.stock()
    place.follow("--create")
    server.stop()
    promoted(place, place.copy_of(server))
    place.follow()
    place.cluster = server
    server.start()
    for _ in range(6):
        place.change()
        place.run("SELECT pg_switch_wal()")
    place.ends(UNFIT, "timeline", seconds=40)


CASES = (
    Case("promoted-server-lacks-changes", lacks_changes),
    Case("promoted-server-has-all-changes", has_all_changes),
    Case("promoted-server-ends-before-a-keepalive", ends_before, since=15),
    Case("server-of-before-a-promotion", older_timeline),
)
