"""What is noted of the payloads that are passed on: counts, the ends of commits, what Relation
messages say, and which tables the transactions under way touch."""

import collections
from collections.abc import Sequence

from pgsub_feed.tables.indexes import OTHER
from pgsub_feed.texts import lsn_text

from ..drift.remembered import Remembered
from ..status.state import StreamCounters
from . import messages
from .messages import AT, BEGIN, CHANGES, COMMIT, HEAD, RELATION, TRUNCATE, number
from .transactions import TRUNCATED, Described, Streamed, changes_text, count_truncates


class RelationLog:
    """Compares them. `wants_look`: a table came that isn't among those that are remembered, or
    wasn't published when these were, or one came whose primary key no message tells, of which
    `has_others` says whether any did."""

    def __init__(self, remembered: Remembered) -> None:
        self.remembered = remembered
        self.wants_look = self.has_looked = self.has_others = False
        self.strangers: set[int] = set()
        # the last Relation message, as it came, of each table that was compared
        self.compared: dict[int, bytes] = {}
        # those of tables that no commit has changed yet
        self.described: dict[int, list[bytes]] = {}

    def begin_session(self) -> None:
        """Forgets those of a session that has ended."""
        self.described = {}

    def note_look(self, wants_look: bool) -> None:
        self.wants_look, self.has_looked = wants_look, self.has_looked or not wants_look

    def knows_keys(self) -> bool:
        """Whether the server was looked at since a table came whose primary key no message tells,
        and since the start: that of a run before may not have been."""
        return self.has_looked and not self.wants_look

    def last_of(self, body: bytes) -> bytes:
        """A message's body, as the same object as the one before in the same words."""
        compared = self.compared.get(number(body[:4]))
        return compared if compared == body else body

    def describe(self, counts: dict[bytes, int], lsn: int, relations: Described) -> None:
        """Compares the Relation messages of tables that a commit changes with what is remembered.
        `counts`: its changes by letter and OID; `lsn`: its final LSN.

        One of a partition comes with that of the table under whose name its rows are sent, and no
        change has it, as long as it is one.
        """
        changed = {number(key[-4:]): None for key in counts}
        oids = [number(body[:4]) for _, body in relations.bodies]
        for oid, (maker, body) in zip(oids, relations.bodies):
            # (it comes once in a session, and after each alteration; in blocks with each of them, where
            # those that read a feed alone need to know)
            if messages.identity_of(body) in OTHER and (self.remembered.feed or not maker):
                self.wants_look = self.has_others = True
            if oid in changed or not self.remembered.is_partition(oid):
                self.described.setdefault(oid, []).append(body)
            if self.remembered.is_known(oid) and not (
                oid in changed and self.remembered.is_unpublished(oid, lsn)
            ):
                self.strangers.discard(oid)
            elif oid not in self.strangers:
                self.strangers.add(oid)
                self.wants_look = True
        # (of several that had one name the last one has it)
        order = {oid: at for at, oid in enumerate(oids)}
        known = (oid for oid in changed if oid in self.described)
        for oid in sorted(known, key=lambda it: order.get(it, -1)):
            self.compare(oid, self.described.pop(oid), lsn)
        for oid in oids:
            del self.described.get(oid, [])[:-1]

    def compare(self, oid: int, bodies: Sequence[bytes], lsn: int) -> None:
        """Compares the Relation messages of a table in one commit, one after the other."""
        last = self.remembered.last_sent(oid)
        for body in bodies:
            is_same = self.compared.get(oid) == body and self.remembered.has_name(oid)
            if is_same and last >= 0:
                self.remembered.note_again(oid, lsn)
            elif (relation := messages.relation_of(body)) is not None:
                self.compared[oid] = body
                # (those that read a feed wait for what the catalog says of its types)
                is_new = bool(self.remembered.feed) and self.remembered.is_altered(relation)
                self.wants_look |= is_new
                self.remembered.note(relation, lsn, last)


# A commit that was passed on: the message that has its xid and final LSN (Begin or Stream Commit),
# how many changes it has by letter and OID as they came, whether some of them may have been rolled
# back, and how many bytes it had.
Passed = tuple[bytes, dict[bytes, int], bool, int]


class Noting:
    """Notes payloads."""

    def __init__(self, progress: StreamCounters, remembered: Remembered) -> None:
        self.progress, self.remembered = progress, remembered
        self.relation_log = RelationLog(remembered)
        self.changes = self.commits = 0
        self.counts: dict[bytes, int] = {}
        self.begin_store()

    def begin_store(self) -> None:
        """A filter was started: it has what its store has."""
        # the ends of commits that were passed on and aren't confirmed yet, and what they were
        self.ends: collections.deque[int] = collections.deque()
        self.passed: collections.deque[Passed] = collections.deque()
        self.begin_session()

    def begin_session(self) -> None:
        """Forgets the transactions of a session that has ended."""
        self.open: dict[int, Streamed] = {}
        self.xid = 0
        self.relation_log.begin_session()
        # the length of the longest message, where it is one of the long ones
        self.longest = 0
        # the end of a keepalive that asks for a status
        self.asked: int | None = None
        self.last = self.begun = b""
        # how many bytes have come, how many of them the progress was told of, and how many came
        # before the transaction or block that is under way
        self.total = self.shown = self.began = 0
        # (what was passed on of a transaction that isn't complete was passed on all the same)
        self.changes += sum(self.counts.values())
        self.leave()

    def leave(self) -> None:
        """Between transactions. What comes here is out of order, which the filter tells."""
        self.current: Streamed | None = None
        self.counts = {}
        self.relations = Described()
        self.end = messages.OUTSIDE

    def note_long(self, length: int) -> None:
        """A message of this length is passed on, which is one of the long ones."""
        self.longest = max(self.longest, length)

    def note_answer(self, lsn: int) -> None:
        """A status is passed on that confirms up to this LSN."""
        if self.asked is not None and lsn >= self.asked:
            self.asked = None

    def note_all(self, payloads: Sequence[bytes]) -> None:
        """Notes payloads that were passed on, in one loop, since a call for each costs more."""
        counts, end, total = self.counts, self.end, self.total
        for payload in payloads:
            total += len(payload)
            key = payload[25:end]
            if key in counts:
                counts[key] += 1
                continue
            letter = key[0] if key else 0
            if letter in CHANGES:
                counts[key] = 1
            elif letter == BEGIN:
                self.begun, self.began = payload[:HEAD], total
                self.counts = counts = {}
            elif letter == COMMIT:
                self.changes += sum(counts.values())
                passed = (self.begun, counts, False, total - self.began)
                self.commit(passed, self.relations, payload[35:43])
                self.begun = b""
                self.counts = counts = {}
            elif letter:
                self.total = total
                self.note_other(letter, payload)
                counts, end = self.counts, self.end
            elif payload[17:] == b"\1":
                self.asked = number(payload[1:9])
        self.total = total
        self.last = payloads[-1][:AT] if payloads else self.last

    def note_rows(self, oid: int, count: int, size: int) -> None:
        """Notes Inserts of a table in the transaction under way, of so many bytes together."""
        key = b"I" + oid.to_bytes(4, "big")
        self.counts[key] = self.counts.get(key, 0) + count
        self.total += size

    def note_other(self, letter: int, payload: bytes) -> None:
        if letter == RELATION:
            # (kept until its commit, as one object where it was there before)
            maker, body = payload[26:30] if self.current else b"", payload[self.end - 4 :]
            self.relations.add(maker, self.relation_log.last_of(body))
        elif letter == TRUNCATE:
            head = TRUNCATED + payload[26 : self.end - 4]
            count_truncates(self.counts, head, payload, self.end + 1, self.is_met)
        elif letter in (messages.START, messages.STOP, messages.STREAM_COMMIT, messages.ABORT):
            self.note_block(letter, payload)

    def is_met(self, oid: int) -> bool:
        """Whether a table is known, or described by what has come."""
        is_known = self.remembered.is_known(oid) or oid in self.relation_log.described
        return is_known or self.relations.has(oid)

    def note_block(self, letter: int, payload: bytes) -> None:
        xid = number(payload[26:30])
        if letter == messages.START:
            self.xid, self.current = xid, self.open.pop(xid, None) or Streamed()
            self.relations, self.counts, self.end = self.current.relations, {}, messages.INSIDE
            self.began = self.total
        elif letter == messages.STOP:
            self.changes += sum(self.counts.values())
            if self.current:
                self.current.add(self.counts, self.total - self.began)
                if self.current.has_items():
                    self.open[self.xid] = self.current
            self.leave()
        elif letter == messages.STREAM_COMMIT:
            it = self.open.pop(xid, None) or Streamed()
            passed = payload[:HEAD], it.counts, it.about, it.size
            self.commit(passed, it.relations, payload[39:47])
        elif payload[26:30] == payload[30:34]:
            self.open.pop(xid, None)
        elif xid in self.open:
            self.open[xid].abort(payload[30:34])

    def commit(self, passed: Passed, relations: Described, end: bytes) -> None:
        self.ends.append(number(end))
        self.passed.append(passed)
        self.commits += 1
        if relations.bodies or self.relation_log.described:
            self.relation_log.describe(passed[1], messages.final_lsn(passed[0]), relations)
            self.relations = Described()

    def show(self) -> None:
        """Tells the progress what came, and how far the transaction that isn't complete has come.
        Called after each lot of payloads."""
        last = self.last
        if self.total != self.shown:
            self.shown = self.total
            self.progress.note_sent(last[9:17] if last[:1] == b"w" else last[1:9])
        self.progress.note_passed(self.changes + sum(self.counts.values()), self.commits)
        self.show_waiting()

    def show_waiting(self) -> None:
        """Tells how old the first commit is that was passed on, or is being, unconfirmed."""
        first = self.passed[0][0] if self.passed else self.begun
        self.progress.lag.note_waiting(messages.commit_time(first) if first else None)

    def confirm(self, confirmed: int, position: int) -> int:
        """Forgets confirmed commits. Returns the store's position, at least `position`."""
        ends, passed = self.ends, self.passed
        if not ends or ends[0] > confirmed:
            return position
        while ends and ends[0] <= confirmed:
            position = max(position, ends.popleft())
            last = passed.popleft()
        self.progress.lag.note_commit(messages.commit_time(last[0]))
        self.show_waiting()
        return position

    def stored(self, confirmed: int, position: int) -> int:
        """The store's position by commits where this is confirmed; at least `position`."""
        if self.ends and position <= self.ends[-1] <= confirmed:
            return self.ends[-1]
        return max((end for end in self.ends if end <= confirmed), default=position)

    def rejected_text(self, position: int) -> str:
        """What is said of the first commit above a position, which a filter rejected, or ""."""
        for end, (message, counts, about, _) in zip(self.ends, self.passed):
            if end > position:
                lsn, most = lsn_text(messages.final_lsn(message)), "at most " if about else ""
                return (
                    f"rejected: transaction {messages.xid_of(message)}, final LSN {lsn}, {most}{changes_text(counts, self.remembered)}:"
                    f" --skip {lsn} passes over it"
                )
        return ""

    def largest(self) -> tuple[int, int]:
        """The xid of the largest transaction that isn't confirmed, and its bytes so far."""
        sizes = {messages.xid_of(it[0]): it[3] for it in self.passed}
        sizes |= {xid: it.size for xid, it in self.open.items()}
        if self.current:
            sizes[self.xid] = self.current.size + self.total - self.began
        if self.begun:
            sizes[messages.xid_of(self.begun)] = self.total - self.began
        return max(sizes.items(), key=lambda it: it[1], default=(0, 0))
