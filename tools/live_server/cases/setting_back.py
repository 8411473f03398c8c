"""Servers that were set back by their files, as by a backup that is put back: on the same timeline
they send other commits than before, and their log has grown past what the store has."""

from __future__ import annotations

import re

from ..cluster import Cluster
from ..errors import Failed
from ..follower import wait_until
from ..place import REJECTED, UNFIT, Place
from .case import Case
from .common import ended, mend

SHOWN = "the commit that ends at"


def backup(place: Place, lost: int = 3) -> Cluster:
    """A store of a server, and a copy of that one's files which lacks the store's last commits."""
    server = place.own_server()
    place.stock()
    place.follow("--create")
    # (the filter that makes the copy notes no commits, as it isn't watched)
    place.change()
    place.follow()
    server.stop()
    older = place.copy_of(server)
    server.start()
    for _ in range(lost):
        place.change()
    place.follow()
    place.equal()
    return older


def put_back(place: Place, older: Cluster) -> str:
    """Puts the copy in the server's place. Returns where the server's log ended."""
    end = place.cluster.log_end()
    place.cluster.stop()
    older.start()
    place.cluster = older
    return end


def grow(place: Place, end: str) -> None:
    """Changes the server until its log has grown past an LSN."""
    while place.value(f"SELECT pg_current_wal_insert_lsn() > '{end}'") != "t":
        place.run("SELECT pg_switch_wal()")
        place.change()


def go_on(place: Place, older: Cluster, *commands: str) -> None:
    """Puts the copy in the server's place, and changes it until its log has grown past the
    server's."""
    end = put_back(place, older)
    place.run(*commands)
    grow(place, end)


def told(place: Place, said: str, kind: str = "repeat", text: str = SHOWN) -> None:
    """What was found is told and kept, and `status` has the cure."""
    place.finds(kind, text, said)
    said = place.subcommand("status", "--store", str(place.store), status=REJECTED)
    for it in ("the copy may be wrong: ", text, f"--accept {kind}", "verify --repair"):
        if it not in said:
            raise Failed(f"status doesn't tell {it!r}: {said}")


def set_back(place: Place) -> None:
    """It is told which commit is another one; the copy is the server's again once it is accepted
    and repaired."""
    older = backup(place)
    go_on(place, older, "INSERT INTO stock VALUES (7, 7)", "DELETE FROM stock WHERE sku = 1")
    child = place.start()
    place.catch_up(child)
    told(place, ended(child))
    mend(place, "repeat", "missing")


def same_ends(place: Place) -> None:
    """So it is by one commit that ends where that of before did."""
    older = backup(place, 1)
    go_on(place, older, "INSERT INTO stock VALUES (102, 1)", "UPDATE stock SET quantity = 9")
    child = place.start()
    place.catch_up(child)
    told(place, ended(child))


def strict_end(place: Place) -> None:
    """With --strict nothing of that commit or of those behind is stored, and the run ends, as each
    start does until that is accepted."""
    older = backup(place)
    go_on(place, older, "INSERT INTO stock VALUES (7, 7)")
    before = place.rows()
    said = place.ends(UNFIT, "nothing of that is stored", "--strict")
    place.finds("repeat", SHOWN, said)
    place.ends(UNFIT, SHOWN, "--strict")
    if place.rows() != before:
        raise Failed("something is stored behind that commit")


def while_followed(place: Place) -> None:
    """A follower that goes on meanwhile finds it, too, also where the server has lost all that came
    since it was started: what was noted before is compared still."""
    server = place.own_server()
    place.stock()
    place.follow("--create")
    # (the filter that makes the copy notes no commits, as it isn't watched)
    place.change()
    place.follow()
    proxy = place.proxy()
    child = place.start(dsn=place.dsn(proxy.folder))
    place.catch_up(child)
    server.stop()
    older = place.copy_of(server)
    server.start()
    for _ in range(3):
        place.change()
    place.catch_up(child)
    go_on(place, older, "INSERT INTO stock VALUES (7, 7)", "INSERT INTO stock VALUES (8, 8)")
    proxy.server = older.folder / f".s.PGSQL.{older.port}"
    wait_until(lambda: SHOWN in child.said(), "finding another commit", 60, child.check)
    place.catch_up(child, older)
    place.finds("repeat", SHOWN, ended(child))


def seen_behind(place: Place) -> None:
    """A start that meets a log which ends before the store keeps that: it is told once the log has
    grown, though none of the commits that are lost was noted."""
    server = place.own_server()
    place.stock()
    child = place.start("--create")
    place.catch_up(child)
    server.stop()
    older = place.copy_of(server)
    server.start()
    for _ in range(3):
        place.change()
    place.catch_up(child)
    # (the filter that makes the copy notes no commits)
    child.stop()
    end = put_back(place, older)
    place.ends(UNFIT, "it lost changes")
    grow(place, end)
    child = place.start()
    place.catch_up(child)
    told(place, ended(child), "history", "log ends at")
    mend(place, "history", "missing")


def after_a_crash(place: Place) -> None:
    """A server that crashes sends again what it forgot was confirmed, and that is the same."""
    server = place.own_server()
    place.stock()
    place.follow("--create")
    child = place.start()
    place.catch_up(child)
    place.run("CHECKPOINT")
    for _ in range(5):
        place.change()
    place.catch_up(child)
    server.stop("immediate")
    server.start()
    for _ in range(2):
        place.change()
    place.catch_up(child)
    said = child.stop()
    equal = max(map(int, re.findall("repeats: ([0-9]+) equal", said)), default=0)
    if "found: repeat" in said or not equal:
        raise Failed(f"no commit came again, or another one did: {said}")
    place.equal()


CASES = (
    Case("server-that-was-set-back", set_back, breaks_rules=True),
    Case("server-that-was-set-back-by-one-commit", same_ends, breaks_rules=True),
    Case("server-that-was-set-back-ends-a-strict-one", strict_end, breaks_rules=True),
    Case("server-that-was-set-back-while-followed", while_followed, breaks_rules=True),
    Case("server-that-was-set-back-and-seen-behind", seen_behind),
    Case("server-that-crashes-sends-commits-again", after_a_crash),
)
