"""A stream that isn't the server's any more when it reaches the connector: it breaks a rule of a
well-formed one, as docs/PROTOCOL.md has them."""

from __future__ import annotations

from collections.abc import Callable, Sequence

from ..errors import Failed
from ..follower import wait_until
from ..place import REJECTED, UNFIT, Place
from ..proxy import Edit
from .case import Case

# The letters of changes, and where a payload of XLogData has its message's.
CHANGES, AT = (b"I", b"U", b"D"), slice(25, 26)
# How many items of streamed transactions a watch holds.
HELD = 1_000_000
Transaction = Sequence[bytes]


class Once:
    """Makes another transaction of the first one that has changes."""

    def __init__(self, made: Callable[[Transaction], Transaction]) -> None:
        self.made = made
        self.begun: list[bytes] = []
        self.is_done = False

    def __call__(self, payload: bytes) -> Sequence[bytes]:
        letter = payload[AT]
        if not self.begun and (letter != b"B" or self.is_done):
            return [payload]
        self.begun.append(payload)
        if letter != b"C":
            return []
        whole, self.begun = self.begun, []
        if not any(it[AT] in CHANGES for it in whole):
            return whole
        self.is_done = True
        return self.made(whole)


def twice(whole: Transaction) -> Transaction:
    """The commit comes again, which is below the end of itself."""
    return [*whole, *whole]


def told_before(whole: Transaction) -> Transaction:
    """A keepalive says that nothing up to the commit's end is to come."""
    return [b"k" + whole[-1][35:43] + bytes(9), *whole]


def undescribed(whole: Transaction) -> Transaction:
    """No Relation message describes the table."""
    return [it for it in whole if it[AT] != b"R"]


def edits(made: Callable[[Transaction], Transaction]) -> Callable[[], Edit]:
    """What does so once in all, whatever connections there are."""
    once = Once(made)
    return lambda: once


def broken(place: Place, made: Callable[[Transaction], Transaction]) -> str:
    """A store of a server, before which a proxy will break a rule. Returns that one's DSN."""
    place.stock()
    place.follow("--create")
    proxy = place.proxy()
    proxy.editing = edits(made)
    place.change()
    return place.dsn(proxy.folder)


def check_status(place: Place, rule: str) -> None:
    """Fails unless `status` tells what was found and its cure, until that is accepted."""
    words = "--store", str(place.store)
    said = place.subcommand("status", *words, status=REJECTED)
    for it in ("the copy may be wrong: rule", rule, "--accept rule"):
        if it not in said:
            raise Failed(f"status doesn't tell {it!r}: {said}")
    place.follow("--accept", "rule")
    place.equal()
    if place.found():
        raise Failed(f"it still has {place.found()}")


def told(place: Place, made: Callable[[Transaction], Transaction], rule: str) -> None:
    """What the server breaks is kept and told, and what it sent is stored all the same."""
    said = place.follow(dsn=broken(place, made))
    place.finds("rule", f"{rule} broken by the frame at byte", said)
    place.equal()
    check_status(place, rule)


def commit_twice(place: Place) -> None:
    """A commit comes again in its session."""
    told(place, twice, "order")


def keepalive_above(place: Place) -> None:
    """A commit ends where a keepalive said before that nothing more is to come."""
    told(place, told_before, "rule 4")


def change_undescribed(place: Place) -> None:
    """A change whose table isn't described is rejected, and what it broke is kept. A server that
    keeps the rule sends it again."""
    said = place.ends(REJECTED, "relation 5 UnknownRelation", dsn=broken(place, undescribed))
    place.finds("rule", "rule 3 broken by the frame at byte", said)
    check_status(place, "rule 3")


def strict_end(place: Place) -> None:
    """With --strict nothing of the commit is stored, and the run ends, as each start does until that
    is accepted."""
    dsn, more = broken(place, twice), "nothing of that is stored"
    said = place.ends(UNFIT, more, "--strict", dsn=dsn)
    place.finds("rule", "order broken by the frame at byte", said)
    place.ends(UNFIT, more, "--strict")
    place.follow("--strict", "--accept", "rule")
    place.equal()
    place.follow("--strict")


def strict_and_accepted(place: Place) -> None:
    """Where it was accepted it may come again."""
    dsn = broken(place, twice)
    place.finds("rule", "order", place.follow("--strict", "--accept", "rule", dsn=dsn))
    place.equal()


def unwatched_stream(place: Place) -> None:
    """A session of which more is streamed than a watch holds isn't watched any further. That is told
    and kept, and doesn't end a strict one."""
    place.stock()
    place.follow("--create")
    place.set(logical_decoding_work_mem="64kB")
    child = place.start("--strict")
    place.catch_up(child)
    place.run(f"INSERT INTO stock SELECT it, 0 FROM generate_series(1000, {1000 + HELD}) it")
    end = place.value("SELECT pg_current_wal_insert_lsn()")
    wait_until(lambda: place.has_confirmed(end), f"confirming {end}", 300, child.check)
    place.finds("unwatched", "no more is held", child.stop())
    place.equal()
    said = place.subcommand("status", "--store", str(place.store), status=REJECTED)
    if "wasn't watched all the time" not in said or "--accept unwatched" not in said:
        raise Failed(f"status doesn't tell it: {said}")
    place.follow("--strict", "--accept", "unwatched")
    if place.found():
        raise Failed(f"it still has {place.found()}")


CASES = (
    Case("rule-broken-by-a-commit-twice", commit_twice, breaks_rules=True),
    Case("rule-broken-by-a-keepalive", keepalive_above, breaks_rules=True),
    Case("rule-broken-by-a-change-undescribed", change_undescribed, breaks_rules=True),
    Case("rule-broken-ends-a-strict-one", strict_end, breaks_rules=True),
    Case("rule-broken-and-accepted", strict_and_accepted, breaks_rules=True),
    Case("stream-that-isnt-watched", unwatched_stream, since=14, breaks_rules=True),
)
