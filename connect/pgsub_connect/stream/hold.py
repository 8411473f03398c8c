"""Stops the stream between two commits, so that the copy is exactly that of one LSN: for
`pgsub-connect verify`, or to repair rows.

That LSN is a slot's consistent point P, and the server is read under the snapshot that the slot
exports. It "will show exactly the state of the database after which all changes will be included in
the change stream" (PostgreSQL's documentation, Logical Decoding Concepts, Exported Snapshots). In
its source, src/backend/replication/logical: P is the end of the record at which decoding became
consistent (`DecodingContextFindStartpoint` in logical.c: `confirmed_flush = reader->EndRecPtr`),
and a commit is passed over where its record starts before P (`SnapBuildXactNeedsSkip` in
snapbuild.c: `ptr < start_decoding_at`, called by `DecodeCommit` in decode.c with `buf->origptr`).
Records don't overlap and P is the end of one, so of each commit's record one of two things holds:

- it ends at P or before: the snapshot sees the commit. Its final LSN, which is the record's start,
  is below P, and its end LSN, which is the record's end, isn't above P;
- it starts at P or behind: the snapshot doesn't see it. Its final LSN is P or above, and its end
  LSN is above P.

Commits come in the order of their records. So all that the snapshot sees have come, and no other
has, before the first of these: a Begin with a final LSN of P or above; a Stream Commit with an end
LSN above P; a keepalive between transactions with an end of P or above, since a server says there
up to where it has read its log and sent what commits in it. Blocks of open transactions may pass:
what they hold isn't in the store.

The stream is held before the slot is made, so P is above all that was passed on: its record is
written later than each commit that the server has sent. Where commits at the server wait for the
follower, it goes on up to a gate, as the module `stream.gate` says, which P is above. No frame is
made up or left out, and statuses go on meanwhile.

Whoever asks says and is answered the following, in this order, by the socket of the module
`store.socket_file`. With the connection goes the hold.

| Said | By | Means |
|---|---|---|
| `ask`, `into` | verify | `hold`, and the file to copy to, as in any request |
| `seconds` | verify | for how many seconds at most the stream may be held until `point` is there |
| `maker` | verify | the process at the server that makes the slot |
| `standbys` | verify | the server's `synchronous_standby_names` |
| `held` | the follower | nothing is passed on from now on; its position |
| `point` | verify | P: the stream goes on up to there, then the copy is taken |
| `copied` | the follower | the copy is there, and this is the end |

Where rows are to be repaired, as the module `follow.repair` says, the request has `repair`, and the
stream stays held behind `copied`:

| Said | By | Means |
|---|---|---|
| `tables` | verify | of these tables, by OIDs, changes are in the file `into`.changes |
| `ends` | verify | there are no changes |
| `repaired` | the follower | these are stored |
"""

import time
from collections.abc import Sequence

from .messages import BEGIN, COMMIT, STREAM_COMMIT, final_lsn

# The most seconds that a request may ask for.
LONGEST = 610.0
# What the name of the file with changes has behind that of the copy.
CHANGES = ".changes"
KEEPALIVE = b"k"


class Hold:
    """Whether payloads are held, and which come before the LSN of the copy."""

    def __init__(self) -> None:
        self.is_held = False
        # the file that is to be copied to
        self.into: str | None = None
        self.point: int | None = None
        self.until = 0.0
        # whether it stays held once the copy was taken, since rows may be repaired; whether it was
        # taken; the tables of the changes that are to be passed on, None as long as these aren't
        # told; and whether they were passed on
        self.keeps = self.is_copied = self.is_sent = False
        self.tables: list[int] | None = None
        # where commits wait: the process that makes the slot, and what may pass until it is made
        self.maker = 0
        self.gate: int | None = None
        # whether all commits up to the point, or the gate, have come, and what came behind
        self.is_there = self.is_at_gate = False
        self.kept: list[bytes] = []

    def begin(self, into: str, seconds: float, keeps: bool = False, maker: int = 0) -> None:
        """Nothing is passed on from now on, or as far as a gate lets it."""
        self.end()
        self.is_held, self.into, self.keeps, self.maker = True, into, keeps, maker
        self.until = time.monotonic() + seconds

    def go(self, point: int) -> None:
        """What was committed up to this LSN is passed on."""
        self.point, self.is_at_gate = point, False

    def open_to(self, gate: int) -> None:
        """What was committed below this LSN is passed on until the point is known."""
        self.gate, self.is_at_gate = gate, False

    def begin_copy(self) -> None:
        """The copy is taken now, which is the end unless it stays held."""
        self.is_copied = self.keeps

    def note_changes(self, tables: list[int]) -> None:
        """The changes of these tables are to be passed on."""
        self.tables = tables

    def note_sent(self) -> None:
        """The changes of these tables were passed on, the first of them at least."""
        self.is_sent = True

    def is_gated(self) -> bool:
        """Whether the point isn't known, and what is below it for certain is passed on."""
        return self.is_held and self.point is None and self.maker > 0

    def limit(self) -> int | None:
        """The LSN up to which payloads are passed on, None where there is none."""
        return self.gate if self.point is None else self.point

    def end(self) -> None:
        """All goes on, with what was kept back."""
        self.is_held, self.into, self.point, self.is_there = False, None, None, False
        self.maker, self.gate, self.is_at_gate = 0, None, False
        self.keeps, self.is_copied, self.is_sent, self.tables = False, False, False, None

    def end_session(self) -> None:
        """The server sends again what was kept back, and what the filter may have lost."""
        self.kept, self.is_there, self.is_at_gate = [], False, False

    def stops(self) -> bool:
        """Whether nothing may be passed on now."""
        return self.is_held and (self.is_there or self.is_at_gate or self.limit() is None)

    def is_due(self) -> bool:
        """Whether the copy is to be taken once all that was passed on is stored."""
        return self.is_there and not self.is_copied

    def is_going(self) -> bool:
        """Whether payloads are passed on up to the point."""
        return self.point is not None and not self.is_there

    def passing(self, payloads: list[bytes], is_inside: bool) -> list[bytes]:
        """Those to pass on; the rest is kept. `is_inside`: they begin between Begin and Commit."""
        limit = self.limit()
        if limit is None:
            return payloads
        count = count_below(payloads, limit, is_inside)
        self.kept = payloads[count:]
        if self.point is None:
            self.is_at_gate = bool(self.kept)
            return payloads[:count]
        self.is_there = bool(self.kept)
        if not self.keeps:
            return payloads[:count]
        # (within a transaction no server tells of the point or more; before the changes nothing
        # may)
        passed, point = payloads[:count], self.point
        return [
            it for it in passed if it[:1] != KEEPALIVE or int.from_bytes(it[1:9], "big") < point
        ]

    def keep_first(self, payloads: list[bytes]) -> None:
        """These come before what is kept."""
        self.kept = [*payloads, *self.kept]

    def take_kept(self) -> list[bytes]:
        kept, self.kept = self.kept, []
        return kept


def count_below(payloads: Sequence[bytes], point: int, is_inside: bool) -> int:
    """How many payloads come before the one that tells that all up to this LSN have come."""
    for index, payload in enumerate(payloads):
        letter = payload[25] if len(payload) > 25 else 0
        if letter == BEGIN:
            if final_lsn(payload) >= point:
                return index
            is_inside = True
        elif letter == COMMIT:
            is_inside = False
        elif letter == STREAM_COMMIT:
            if int.from_bytes(payload[39:47], "big") > point:
                return index
        elif not letter and not is_inside and int.from_bytes(payload[1:9], "big") >= point:
            return index
    return len(payloads)
