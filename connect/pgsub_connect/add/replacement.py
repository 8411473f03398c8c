"""Replaces the rows of one table within a stream that goes on: which changes are left out, up to
which LSN the checkpoint has it, and the transaction that has the rows.

The rows are read as of the consistent point R of a temporary slot, while the stream goes on. As the
module `stream.hold` says, a commit whose final LSN is below R is seen by the slot's snapshot, and any
other isn't. The table's changes don't pass on from before the slot is asked for: those that the
snapshot doesn't see are kept aside. Once the rows are read, they stand at the next place P, at R or
above, that the module `stream.place` finds, with the kept changes behind them. So the stream to the
filter becomes this:

| What comes | Final LSN below P | P or above |
|---|---|---|
| Begin, Commit, Relation, Type, Origin, Message | passed on | passed on |
| Insert, Update, Delete of the table | left out, and kept from R on | passed on |
| Truncate of the table alone | left out, and kept from R on | passed on |
| Truncate of several tables | passed on without its OID, and kept from R on | passed on |
| a change of another table | passed on | passed on |
| a commit with nothing left | passed on, as one without changes | |
| a keepalive | passed on, the last one between transactions not before what comes behind it | passed on |

As long as P isn't known, all changes of the table are left out, as below any P. The rows'
transaction is Begin, Relation, Truncate, an Insert for each row that the snapshot has, the kept
changes in their order, Commit:

- Its final LSN is P - 1 and its end is P. A server's commit has neither: records begin and end at
  multiples of eight, and P is above the end of each commit before. What else it has tells R - 1.
- Its xid is 2, which no transaction of a server has (FrozenTransactionId); no other transaction is
  open where it begins, nor is any streamed: sessions ask for whole transactions from before the
  slot is asked for until the rows are stored. Thus each Begin tells the final LSN before the changes
  that it decides on.
- The Truncate drops what the copy has of the table, whatever that is, so that an Insert can't clash
  with it.
- The kept changes have the definition of the rows. Where one came under another Relation message, as
  of a table that was altered meanwhile, the rows are read again, in another session.

So what the filter gets is a session of a history: the server's, without the changes of the table in
commits below P that were not stored before, and with one more commit. Its LSNs rise, each change
has its Relation before it in the session (those of the table come with its own transaction, and the
server's are passed on), and each keepalive's end is below the end of every later commit with
changes. That is proved, wherever a session is cut off: by the laws of `crates/pgadding`
(specs/Laws.antt), as is that the rows with the kept changes are the server's at P (specs/Later.antt).
Beyond what they take from the paragraphs above, and what holds of any server, they ask two things of
it (specs/Around.antt):

- `KeepalivesTell`: what begins behind a keepalive between transactions has a final LSN of its end
  or above, also where it changes nothing.
- `KeepsDefinition`: the changes behind P have the definition that came with the rows. That is the
  server's last one of the table in this session, or the server sends another Relation message
  before the next change of the table.

A server keeps the second where what its changes come from is altered, as any table that isn't
partitioned. It doesn't where a partitioned table is published under its own name
(publish_via_partition_root) and altered alone, in its name or replica identity: it notes by
partition what it has described (`maybe_send_schema` in
src/backend/replication/pgoutput/pgoutput.c), and none was altered. So where the Relation message of
the rows isn't the last one of the table that was passed on in the session, nothing behind P is
passed on in it. Once the rows are stored it ends, and the next one begins at P and describes each
table anew. That is all that it mends: where partitions log no old rows that fit the replica
identity of their root, any new session has changes that can't be applied.

PostgreSQL's own table synchronisation differs in that it stores the rows before those changes, and
reads these from a second slot.

What a fault leaves at each step. The checkpoint has `adding`: for each table the P at which its
rows are stored, 0 as long as that isn't known. It is written durably before what it says is done:

| Cut | `adding` | The store | How it goes on |
|---|---|---|---|
| before it is noted | nothing | all changes of the table | the request is there still, or was never made |
| before P is known | 0 | without the table's changes since | a slot is made, and the rows are read again |
| after P is noted, before the rows are stored | P | at a position below P | P becomes 0, as the kept changes are gone, and the rows are read again |
| after the rows are stored | P | at P or above | the table leaves `adding` |

A position of P or above tells that the rows are stored, since no commit that ends there is passed
on before them; and P becomes 0 before a session without the snapshot passes anything on. Nothing is
confirmed that isn't stored: statuses come from the filter alone, and one with P or above comes only
once it has the rows' commit, or a keepalive or commit behind it. A session that ends within the
rows' transaction loses it as a whole. One that is to end behind it may be lost at any time: nothing
is noted of that, since each next session describes the tables anew.
"""

import struct
from collections.abc import Sequence

from pgsub_feed.reader.commits import XID

from ..copy.messages import InsertHeads, begin, commit, frame, inserts, relation
from ..drift.remembered import Remembered
from ..errors import ServerError
from ..server.catalog import Table
from ..store.checkpoint import Checkpoint
from ..stream.messages import BEGIN, CHANGES, COMMIT, RELATION, START, TRUNCATE, final_lsn
from .kept_changes import KeptChanges

# What CopyData and XLogData, and the filter that buffers it, add to a message, in bytes.
AROUND, BUFFERED = 30, 8


class Leaving:
    """Leaves changes of some tables out of whole transactions.

    `points`: by OID the LSN P below which commits lose the table's changes, 0 where all do.
    """

    def __init__(self) -> None:
        self.points: dict[int, int] = {}
        # what is kept of one of the tables, while its rows are read
        self.kept: KeptChanges | None = None
        self.begin_session()

    def begin_session(self) -> None:
        """Forgets the transaction that was under way, and how tables were described."""
        # the final LSN of the transaction that is under way, and whether one is
        self.lsn, self.is_inside = 0, False
        # by OID the last Relation message that was passed on
        self.described: dict[bytes, bytes] = {}

    def keep(self, kept: KeptChanges | None) -> None:
        """What is left out of that table is kept there from now on, or no more."""
        self.kept = kept

    def set(self, points: dict[int, int]) -> None:
        """Leaves out the changes of these tables from now on, and of no others."""
        self.points = dict(points)

    def leaves_out(self, oid: bytes) -> bool:
        """Whether a change of this table is left out in the transaction that is under way."""
        point = self.points.get(int.from_bytes(oid, "big"))
        return point is not None and (not point or self.lsn < point)

    def passing(self, payloads: list[bytes]) -> list[bytes]:
        """What is to be passed on of payloads, in their order."""
        passed = []
        for payload in payloads:
            letter = payload[25] if len(payload) > 25 else 0
            if letter == BEGIN:
                self.lsn, self.is_inside = final_lsn(payload), True
            elif letter == COMMIT:
                self.is_inside = False
            elif not self.points:
                pass
            elif letter in CHANGES and self.leaves_out(oid := payload[26:30]):
                if self.kept and self.kept.oid == oid:
                    self.kept.add(self.lsn, payload, self.described.get(oid, b""))
                continue
            elif letter == TRUNCATE:
                payload = self.truncation(payload)
            elif letter == RELATION:
                self.described[payload[26:30]] = payload[25:]
            elif letter == START:
                raise ServerError("the server streams a transaction, and was asked for whole ones")
            elif not letter and self.is_beyond(payload):
                continue
            if payload:
                passed.append(payload)
        return passed

    def is_beyond(self, keepalive: bytes) -> bool:
        """Whether a keepalive in a transaction says more than may be confirmed by then."""
        end = int.from_bytes(keepalive[1:9], "big")
        return self.is_inside and any(self.lsn < it <= end for it in self.points.values())

    def has_described_otherwise(self, message: bytes) -> bool:
        """Whether another Relation message of this table was passed on last in this session."""
        return self.described.get(message[1:5], message) != message

    def truncation(self, payload: bytes) -> bytes:
        """A Truncate without the tables that are left out; nothing where no other is left."""
        oids = [payload[at : at + 4] for at in range(31, len(payload) - 3, 4)]
        left = [it for it in oids if not self.leaves_out(it)]
        if len(left) == len(oids):
            return payload
        if self.kept and self.leaves_out(self.kept.oid):
            self.kept.add_truncate(self.lsn, payload, self.described.get(self.kept.oid, b""))
        head = payload[:26] + struct.pack(">I", len(left)) + payload[30:31]
        return head + b"".join(left) if left else b""


class Rows:
    """The transaction of a table's rows, as frames: what opens it, some rows after the other, and
    what closes it. `read`: the LSN as of which they are; `point`: that of its end.

    `cost`: how much the filter buffers of it, in bytes; `longest`: the length of the longest
    payload so far. `clock`: when it is made, in microseconds since 2000.
    """

    def __init__(self, table: Table, read: int, clock: int) -> None:
        self.table, self.read, self.told, self.clock = table, read, read - 1, clock
        self.heads, self.relation = InsertHeads(table, self.told), relation(table)
        self.cost = self.longest = self.count = 0
        self.stand_at(read)

    def stand_at(self, point: int) -> None:
        """It ends there."""
        self.point, self.lsn = point, point - 1

    def opening(self) -> list[bytes]:
        """Begin, Relation and Truncate."""
        truncate = struct.pack(">cIBI", b"T", 1, 0, self.table.oid)
        items = [frame(self.told, it) for it in (self.relation, truncate)]
        self.cost += sum(len(it) - AROUND + BUFFERED for it in items)
        return [frame(self.lsn, begin(self.lsn, XID, self.clock)), *items]

    def rows(self, lines: Sequence[bytes]) -> bytes:
        """The Inserts of lines in COPY's text format."""
        frames = inserts(list(lines), self.heads)
        self.count += len(lines)
        self.cost += len(frames) - (AROUND - BUFFERED) * len(lines)
        # (a cell's head has five bytes, of which a separator is in the line)
        heads = 4 * self.heads.width + len(self.heads.insert) + AROUND - 5
        self.longest = max(self.longest, len(max(lines, key=len)) + heads)
        return frames

    def closing(self) -> bytes:
        """Commit."""
        return frame(self.lsn, commit(self.lsn, self.point, self.clock))


def payload_of(framed: bytes) -> bytes:
    """The payload of one frame."""
    return framed[5:]


# How many tables at most lose their changes at a time.
MOST = 4


class LeftOut:
    """What `leaving` leaves out of a session."""

    def __init__(self, checkpoint: Checkpoint, remembered: Remembered) -> None:
        self.checkpoint, self.remembered = checkpoint, remembered
        self.leaving = Leaving()
        # whether the session asks for whole transactions because of tables
        self.is_whole = False

    def points(self) -> dict[int, int]:
        """The tables whose changes are left out: those added next, and the initial copy's."""
        return {**dict.fromkeys(sorted(self.remembered.partial), 0), **self.checkpoint.adding()}

    def fill(self) -> None:
        """Leaves out the changes of the next tables that are wanted, as many as may be."""
        adding, wanted = self.checkpoint.adding(), self.remembered.wanted
        for oid, why in wanted.items():
            if why or oid in adding or oid in self.remembered.partial:
                continue
            is_full = sum(not wanted.get(it) for it in adding) >= MOST
            if not is_full and self.checkpoint.has_room_for(oid):
                adding[oid] = 0
                self.checkpoint.write_adding(adding)

    def next_oid(self) -> int:
        """The table that is next, 0 where none is."""
        return next((oid for oid in self.leaving.points if not self.remembered.wanted.get(oid)), 0)

    def wants_session(self) -> bool:
        """Whether another session is to begin, of whole transactions, leaving out others."""
        if self.remembered.wanted and not self.next_oid():
            self.fill()
        points = self.points()
        return not self.leaving.points.keys() >= points.keys() or self.is_whole and not points

    def begin_session(self, streams: bool) -> bool:
        """Whether a session needs whole transactions. Snapshots of tables to come are gone."""
        self.checkpoint.write_adding(dict.fromkeys(self.checkpoint.adding(), 0))
        self.fill()
        self.leaving.begin_session()
        self.leaving.set(self.points())
        self.is_whole = bool(self.leaving.points) and streams
        return bool(self.leaving.points)

    def note_point(self, oid: int, point: int) -> None:
        """Changes of a table are left out below this LSN alone."""
        self.checkpoint.write_adding({**self.checkpoint.adding(), oid: point})
        self.leaving.set(self.points())

    def release(self, oid: int) -> None:
        """A table isn't added any more, and its changes pass."""
        self.forget(oid)
        self.leaving.set({it: lsn for it, lsn in self.leaving.points.items() if it != oid})

    def forget(self, oid: int) -> None:
        """The checkpoint has a table no longer."""
        adding = self.checkpoint.adding()
        self.checkpoint.write_adding({it: lsn for it, lsn in adding.items() if it != oid})
