"""NATS JetStream: the stream's own last message says where a sink is, and each message is taken in
its place or not at all.

A commit of which only a part was published is completed: its first messages are there, and those
that follow are published. Nothing has two messages, since one is only taken as the one after the
message that was the last when it was made.
"""

import contextlib
import secrets
import time
from collections.abc import Iterator

from .. import log
from ..errors import Passing, TooLarge, Unfit
from ..interruption import Check, rest
from ..reader.commits import Commit
from ..reader.following import Chosen, Read
from ..texts import lsn_text
from .engine import Engine, Trail, Wanted, of_another, whole
from .first_rows import Base, numbered
from .jetstream import JetStream, Stored
from .nats_messages import (
    COMMIT,
    FIRST,
    Place,
    Read as ReadId,
    Said,
    last_message,
    message_of,
    place_of,
    read_id,
    read_last,
)
from .nats_wire import Wire

STREAM = "pgsub"
# A server writes to its disk what it has taken, and syncs that each two minutes. In seconds.
SYNCED = 150.0
# How often it is looked whether the server is there, in seconds.
OFTEN = 20.0
# For how long nobody may publish to a stream with a part of a base until that goes, in seconds.
STILL = 2.0


class Nats(Engine):
    """An engine."""

    def __init__(self, stream: JetStream, check: Check) -> None:
        self.peer, self.stream, self.name, self.check = stream.wire, stream, stream.stream, check
        self.end, self.looked = 0, time.monotonic()
        # of the commit that is published in part: its end, its last message, and what that says
        self.part: tuple[int, Place] | None = None
        self.part_said = b""
        # whether there is a part of a base
        self.has_left = False
        self.trail = Trail()

    # ---- what is there

    def open(self, wanted: Wanted) -> bool:
        self.chosen = Chosen(wanted.chosen)
        self.about = wanted.about()
        info = self.stream.begin()
        if f"{self.name}.>" not in info.subjects:
            text = f"{self.stream.where}: it is there, and its subjects aren't {self.name}.>: take another one"
            raise Unfit(text)
        if not self.stream.sequence:
            return False
        last = self.stream.message(seq=self.stream.sequence) if info.messages else None
        read = read_id(last.id) if last else None
        if last is None or read is None:
            # (what isn't of a sink somebody may need)
            found, anew = " is gone", ", or remove it to begin anew"
            if last:
                found, anew = f", {last.sequence}, isn't of a sink", ""
            text = f"{self.stream.where}: messages are there, and its last one{found}: take another one{anew}"
            raise Unfit(text)
        commit = (
            last
            if read.place is None
            else self.stream.message(last_by_subj=f"{self.name}.{COMMIT}")
        )
        if commit is None and read.place == FIRST:
            # (a base that was published in part; it goes once there is something to begin with)
            self.has_left = True
            return False
        rows = self.go_on(commit, read)
        self.part_said = last.data
        if rows is not None and last is commit and 0 < info.first < last.sequence - rows:
            # (an earlier base has left what is before the first message of the whole one)
            self.stream.purge(seq=last.sequence - rows)
        return True

    def go_on(self, commit: Stored | None, last: ReadId) -> int | None:
        """Goes on after the last message of a commit, and those of a part of the next one, up to
        the last that is there.
        Returns how many rows that commit has, which is a base."""
        try:
            at, about, rows = read_last(commit.data if commit else b"")
        except ValueError:
            text = f"{self.stream.where}: the last message of the commit before is gone: remove it to begin anew"
            raise Unfit(text) from None
        if about != self.about:
            raise of_another(self.stream.where, about, self.about, "stream")
        self.at = self.end = at
        self.trail.note(at, time.monotonic())
        self.part = None if last.place is None else (last.lsn, last.place)
        return rows

    def remove_left(self) -> None:
        """Removes the part of a base that a sink has left, but for its last message, by which a
        start knows it. One that publishes it still would go on, and never know of it."""
        rest(STILL, self.check, STILL / 20)
        if self.stream.last() != self.stream.sequence:
            raise Passing(f"{self.stream.where}: another sink publishes the rows of a base there")
        log.warning(
            f"{self.stream.where}: its messages are a part of a base: they go, and it begins anew"
        )
        self.stream.purge(keep=1)

    def begin(self, base: Base) -> None:
        if self.has_left:
            self.remove_left()
        commit, front, rows = Commit(base.lsn, base.lsn, 0, 0), f"base:{secrets.token_hex(4)}:", 0
        for it in numbered(base, base.tables()):
            if not it.n % 1000:
                self.check()
            self.publish(self.sized(message_of(self.name, commit, it, front)))
            rows = it.n + 1
        self.publish(last_message(self.name, commit, self.about, rows))
        self.end = base.lsn
        self.settle()
        if self.has_left:
            self.stream.purge(seq=self.stream.sequence - rows)

    # ---- commits

    def take(self, commit: Commit, read: Read) -> None:
        if self.part and self.part[0] != commit.end:
            raise self.other_part(f"the feed's next one ends at {commit.text()}")
        for message in whole(commit, lambda: self.messages(commit, read), self.check):
            self.publish(message)
        self.part, self.end = None, commit.end

    def messages(self, commit: Commit, read: Read) -> Iterator[Said]:
        """A commit's messages that aren't there yet, none where one of them is too large."""
        after = self.part[1] if self.part else FIRST
        is_known = after == FIRST
        for it in self.chosen.events(read()):
            if (place := place_of(it)) < after:
                continue
            message = message_of(self.name, commit, it)
            if place > after:
                yield self.sized(message)
            else:
                is_known = message.payload == self.part_said
        if not is_known:
            # (a filter that was killed may have left out a table since, by which numbers are others)
            raise self.other_part("the feed's has other changes")
        yield last_message(self.name, commit, self.about)

    def other_part(self, found: str) -> Unfit:
        where = f"a part of a commit that ends at {lsn_text(self.part[0] if self.part else 0)}"
        return Unfit(f"{self.stream.where}: it has {where}, and {found}: remove it to begin anew")

    def sized(self, message: Said) -> Said:
        size, most = len(self.stream.headers(message.id)) + len(message.payload), self.stream.most
        # (the sequence may have more digits by then)
        if size + 20 > most:
            self.settle()
            raise TooLarge(
                f"{message.id}: {message.about} makes a message of {size} bytes, and {self.stream.where} takes {most}:"
                " raise its max_payload"
            )
        return message

    def publish(self, message: Said) -> None:
        self.stream.publish(message.subject, message.id, message.payload)

    def settle(self) -> None:
        self.stream.settle()
        if self.end != self.at:
            self.at = self.end
            self.trail.note(self.at, time.monotonic())

    # (what was taken is published)
    forget = settle

    def look(self) -> None:
        now = time.monotonic()
        if now - self.looked > OFTEN:
            self.looked = now
            self.stream.wire.ping(OFTEN)
        else:
            self.stream.wire.receive(0.0)

    def safe(self) -> int | None:
        return self.trail.pass_to(time.monotonic() - SYNCED)


def connect(url: str, stream: str, replicas: int, check: Check) -> Nats:
    """The engine at the first server of a URL, as `nats://one,other:4222`, that is there."""
    urls = each_server(url)
    for it in urls[:-1]:
        with contextlib.suppress(Passing):
            return Nats(JetStream(Wire(it, check), stream, replicas), check)
    return Nats(JetStream(Wire(urls[-1], check), stream, replicas), check)


def each_server(url: str) -> list[str]:
    """The URL of each server of a URL, with its login."""
    scheme, _, rest = url.partition("://")
    login, sign, hosts = rest.rpartition("@")
    return [f"{scheme}://{login}{sign}{it}" for it in hosts.split(",")]
