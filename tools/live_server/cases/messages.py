"""Logical messages in a feed: each of a committed transaction once, under its commit, whatever is
killed, and nothing of what was rolled back or is of no transaction."""

from __future__ import annotations

import random
import re
import threading
import time
from collections import Counter
from collections.abc import Iterator
from pathlib import Path
from typing import NamedTuple

from feed_replay import lsn_of

from ..child import Child
from ..errors import Failed
from ..feeds import rows_of_feed
from ..patience import Patience
from ..place import OK, REJECTED, USAGE, Place
from ..rows import literal
from ..sessions import Session
from .case import Case
from .common import feed_of
from .feeding import kill_filter

# What no feed may have: a message that was rolled back, or is of no transaction.
NEVER = b"never"
PREFIXES = ("order", "ä b", "", "two words, 'quoted'")
# How many keys each of those has who write.
RANGE = 10_000_000
# What isn't UTF-8, what has U+0000, and what JSON escapes.
ODD = (b"\xff\xfe\x80", b"a\0b", 'é\n\t"\\\x7f𝄞'.encode(), b"")


class Told(NamedTuple):
    """A message: the end and the xid of its commit, and where it is, its prefix and content."""

    end: int
    xid: int | None
    lsn: int
    prefix: str
    content: bytes


def emitted(prefix: str, content: bytes, is_transactional: bool = True) -> str:
    text = f"decode('{content.hex()}', 'hex')"
    return f"SELECT pg_logical_emit_message({is_transactional}, {literal(prefix)}, {text})"


class Emitting(threading.Thread):
    """Runs transactions with messages. `told`: what the committed ones have written."""

    def __init__(self, place: Place, number: int) -> None:
        super().__init__(daemon=True)
        self.place, self.number = place, number
        self.rng = random.Random(f"{place.options.seed} {number}")
        self.ended, self.told, self.serial = threading.Event(), Counter[bytes](), 0
        self.error = ""
        # (no two of them wait for each other)
        self.first = RANGE * (number + 1)

    def run(self) -> None:
        try:
            with self.place.cluster.connect(self.place.database) as session:
                while not self.ended.is_set():
                    self.once(session)
                    self.ended.wait(self.rng.random() * 0.03 * Patience.factor)
        except Exception as error:
            self.error = str(error)

    def content(self) -> bytes:
        """One that no other message has."""
        self.serial += 1
        size = self.rng.choice((0, 0, 0, 0, 10, 5000)) if self.serial % 50 else 1 << 20
        return b"%d %d " % (self.number, self.serial) + self.rng.choice(ODD) + b"x" * size

    def once(self, session: Session) -> None:
        """One transaction."""
        is_kept, told = self.rng.random() < 0.85, list[bytes]()
        session.run("BEGIN", *self.commands(told, 0), "COMMIT" if is_kept else "ROLLBACK")
        self.told.update(told if is_kept else ())

    def commands(self, told: list[bytes], depth: int) -> Iterator[str]:
        """Messages and changes, some in subtransactions, of which some are rolled back."""
        rng = self.rng
        for _ in range(rng.choice((1, 2, 5)) if depth else rng.choice((1, 1, 3, 8))):
            luck = rng.random()
            if luck < 0.4:
                told.append(content := self.content())
                yield emitted(rng.choice(PREFIXES), content)
            elif luck < 0.5:
                yield emitted("never", NEVER + self.content(), False)
            elif luck < 0.75:
                self.serial += 1
                yield f"INSERT INTO stock VALUES ({self.first + self.serial}, 0)"
            elif luck < 0.8:
                ours = f"sku BETWEEN {self.first} AND {self.first + RANGE - 1}"
                yield f"UPDATE stock SET quantity = quantity + 1 WHERE sku % 7 = 0 AND {ours}"
            elif depth < 3:
                yield from self.nested(told, depth + 1)

    def nested(self, told: list[bytes], depth: int) -> Iterator[str]:
        """A subtransaction. What is in those of one that is rolled back is, too."""
        own = list[bytes]()
        yield f"SAVEPOINT s{depth}"
        yield from self.commands(own, depth)
        if self.rng.random() < 0.5:
            yield f"ROLLBACK TO SAVEPOINT s{depth}"
        else:
            yield f"RELEASE SAVEPOINT s{depth}"
            told += own


# What the other plugin prints of a message, and of a commit.
OF_MESSAGE = re.compile(
    rb"message: transactional: ([01]) prefix: (.*), sz: (\d+) content:(.*)", re.S
)
WITNESS = "witness"


def witnessed(place: Place) -> list[Told]:
    """What the server's own plugin tells of the same log: the transactional messages, each with
    its commit."""
    query = f"SELECT lsn, xid, encode(data, 'hex') FROM pg_logical_slot_peek_binary_changes('{WITNESS}', NULL, NULL)"
    found, waiting = list[Told](), list[Told]()
    with place.cluster.connect(place.database) as session:
        for lsn, xid, data in session.rows(query):
            told, at = bytes.fromhex(data or ""), lsn_of(lsn or "")
            if message := OF_MESSAGE.fullmatch(told):
                if message[1] == b"1":
                    content = message[4]
                    if len(content) != int(message[3]):
                        raise Failed(f"the witness tells {told!r}")
                    waiting.append(Told(0, int(xid or 0), at, message[2].decode(), content))
            elif told.startswith(b"COMMIT"):
                found += (it._replace(end=at) for it in waiting)
                waiting = []
    return found


def told_in(feed: Path) -> list[Told]:
    """What a feed tells."""
    _, state = rows_of_feed(feed)
    for it in state.messages:
        # (it ends where the commit's record begins, or before)
        if it.final is None or not it.lsn <= it.final < it.end:
            raise Failed(f"a message isn't before its commit: {it}")
    return [Told(it.end, it.xid, it.lsn, it.prefix, it.content) for it in state.messages]


def compare(place: Place) -> int:
    """Fails where the feed tells other messages than the server's own plugin. Returns how many."""
    found, wanted = told_in(feed_of(place)), witnessed(place)
    for number, (ours, theirs) in enumerate(zip(found, wanted)):
        if ours != theirs:
            raise Failed(f"message {number} is {ours!s:.300}, and not {theirs!s:.300}")
    if len(found) != len(wanted):
        raise Failed(f"{len(found)} messages and not {len(wanted)}")
    if never := [it for it in found if NEVER in it.content]:
        raise Failed(f"{never[0]} is told")
    return len(found)


def is_compared(place: Place) -> None:
    place.run(f"SELECT pg_create_logical_replication_slot('{WITNESS}', 'test_decoding')")


def each_once(place: Place, proto: int) -> None:
    """The feed tells each message of a committed transaction once, in order and under its commit,
    as the server's own plugin does, while filter and follower are killed."""
    place.stock()
    place.set(logical_decoding_work_mem="64kB")
    words = ("--create", "--proto", str(proto))
    child = place.start(*words, "--feed", str(feed_of(place)), "--messages")
    place.catch_up(child)
    is_compared(place)
    workers = [Emitting(place, it) for it in range(3)]
    for it in workers:
        it.start()
    try:
        for number in range(max(2, round(4 / Patience.factor))):
            time.sleep(1)
            kill_filter(child)
            time.sleep(1)
            if number % 2:
                child.kill()
                # (what the store has had is remembered)
                child = place.start(*words)
                child.wait_for("following slot")
        place.run("BEGIN", *large(), "COMMIT")
    finally:
        for it in workers:
            it.ended.set()
        for it in workers:
            it.join(60)
    for it in workers:
        if it.error:
            raise Failed(f"the load ended: {it.error}")
    place.catch_up(child)
    child.stop()
    check(place, workers)
    is_streamed(place)
    place.equal()


def large() -> Iterator[str]:
    """One transaction that is much, of which a part is rolled back."""
    yield "SELECT pg_logical_emit_message(true, 'many', it::text) FROM generate_series(1, 5000) it"
    yield "SAVEPOINT large"
    yield f"SELECT pg_logical_emit_message(true, 'large', repeat('{NEVER.decode()}', 1000000))"
    yield "ROLLBACK TO SAVEPOINT large"
    yield "INSERT INTO stock SELECT it, 0 FROM generate_series(1000000, 1003000) it"
    yield "SELECT pg_logical_emit_message(true, 'large', repeat('large', 1000000))"


def check(place: Place, workers: list[Emitting]) -> None:
    count = compare(place)
    told = Counter(it.content for it in told_in(feed_of(place)) if b" " in it.content[:9])
    wanted = sum((it.told for it in workers), Counter[bytes]())
    if told != wanted:
        some = list((told - wanted) + (wanted - told))[:3]
        raise Failed(f"{len(told)} messages of the load, and not {len(wanted)}: {some!s:.300}")
    if count < len(wanted) + 5001 or len(wanted) < 50:
        raise Failed(f"too little was done: {count} messages, {len(wanted)} of the load")


def is_streamed(place: Place) -> None:
    """Fails where the server has streamed a transaction to the follower."""
    query = f"SELECT stream_txns FROM pg_stat_replication_slots WHERE slot_name = '{place.slot}'"
    if place.value(query) not in ("0", ""):
        raise Failed("the server was asked to stream")


def version_1(place: Place) -> None:
    each_once(place, 1)


def version_2(place: Place) -> None:
    each_once(place, 2)


version_1.__doc__ = version_2.__doc__ = each_once.__doc__


def as_asked(place: Place) -> None:
    """Messages come from the start on that asks for them, until one that leaves them: meanwhile a
    commit that has nothing else is one of the feed."""
    place.stock()
    words = ("--create", "--feed", str(feed_of(place)))
    place.follow(*words)
    is_compared(place)
    alone = emitted("alone", b"1")
    for more, told in ((), 0), (("--messages", "5MB"), 1), ((), 2), (("--without-messages",), 2):
        child = place.start(*words, *more)
        place.catch_up(child)
        place.run(alone, "BEGIN", alone, "ROLLBACK")
        place.catch_up(child)
        child.stop()
        if len(told_in(feed_of(place))) != told:
            raise Failed(f"after {more} the feed has {told_in(feed_of(place))}")
    place.follow(*words)
    # (the witness has one from before, and one from after)
    found, wanted = told_in(feed_of(place)), witnessed(place)
    if found != wanted[1:3] or len(wanted) != 4:
        raise Failed(f"{found} and not {wanted[1:3]}")
    if place.found():
        raise Failed(f"it found {place.found()}")


def too_many(place: Place) -> None:
    """A transaction with more bytes of messages than are allowed ends following, with what to do:
    it is told once more are, or its commit is skipped."""
    place.stock()
    place.follow("--create", "--feed", str(feed_of(place)), "--messages", "1kB")
    is_compared(place)
    child = place.start()
    place.catch_up(child)
    fits, large = emitted("p", b"x" * 1023), emitted("p", b"x" * 1024)
    place.run(fits, "BEGIN", large, "INSERT INTO stock VALUES (7, 7)", "COMMIT")
    said = place.has_ended(child, REJECTED, "feed 4 MessagesTooLong")
    for text in ("give --messages more", "passes over it", "1024 bytes of messages"):
        if text not in said:
            raise Failed(f"it doesn't tell {text!r}: {said}")
    if (count := len(told_in(feed_of(place)))) != 1:
        raise Failed(f"{count} messages are told")
    place.follow("--messages", "2kB")
    if compare(place) != 2:
        raise Failed("not both are told")
    if place.found():
        raise Failed(f"it found {place.found()}")
    place.equal()


def needs_a_feed(place: Place) -> None:
    """There is nowhere to tell messages without a feed."""
    place.stock()
    place.ends(USAGE, "--messages needs --feed", "--create", "--messages")
    if place.store.exists():
        raise Failed("a store was made")
    said = place.subcommand("check", "--dsn", place.dsn(), "--create", "--messages", status=OK)
    if "ok messages: logical messages are sent" not in said:
        raise Failed(f"check says {said}")


def without_them(place: Place) -> None:
    """A server that has none is refused before anything is made."""
    place.stock()
    text = "--messages needs PostgreSQL 14, and this is 13."
    place.ends(USAGE, text, "--create", "--feed", str(feed_of(place)), "--messages")
    if place.store.exists() or place.value("SELECT count(*) FROM pg_replication_slots") != "0":
        raise Failed("something was made")


CASES = (
    Case("messages-version-1", version_1, since=14),
    Case("messages-version-2", version_2, since=14),
    Case("messages-as-asked", as_asked, since=14),
    Case("messages-too-many", too_many, since=14),
    Case("messages-need-a-feed", needs_a_feed, since=14),
    Case("messages-of-13", without_them, until=13),
)
