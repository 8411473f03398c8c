"""What a feed consists of."""

import dataclasses
from typing import NamedTuple

from ..json_values import Lsn, form_of
from ..relation import Relation
from ..texts import lsn_text


class Unsent:
    """A cell that the server hasn't sent, in what a change had that found no row."""

    def __repr__(self) -> str:
        return "UNSENT"


UNSENT = Unsent()
# The xid of the follower's own commits, of added or repaired rows: FrozenTransactionId.
XID = 2
# A text, a binary value, or null.
Cell = str | bytes | None
Cells = list[Cell]


@dataclasses.dataclass(frozen=True)
class Head:
    """The head of a segment: the LSN at which it begins, and what it is a feed of."""

    base: Lsn
    system: str
    database: str
    slot: str

    def source(self) -> tuple[str, str, str]:
        return self.system, self.database, self.slot

    def text(self) -> str:
        return f"slot {self.slot} of database {self.database}, system {self.system}"


# How one is written.
HEAD = form_of(Head)


@dataclasses.dataclass(frozen=True)
class Closing:
    """The last line of a segment that is full: the LSN at which the next one begins."""

    last: int


class Commit(NamedTuple):
    """A commit: where it ends and the one before it does, how many bytes and changes follow, and
    what its message told of it: the final LSN, the xid and the time in microseconds since 1970.

    `crc` is the CRC-32 that its line tells, and `begun` that of what stands before it in the line.

    `base`: rows from before the first commit, behind so many others. They are complete once one ends
    above 0."""

    end: int
    prev: int
    bytes: int
    changes: int
    lsn: int | None = None
    xid: int | None = None
    ts_us: int | None = None
    crc: int = 0
    begun: int = 0
    base: int | None = None

    def text(self) -> str:
        return lsn_text(self.end)


@dataclasses.dataclass(frozen=True)
class Cursor:
    """Where a reader is: the segment's base, the offset, and the end of the commit before."""

    segment: int
    offset: int
    at: int


class Message(NamedTuple):
    """A logical message of the transaction, as `pg_logical_emit_message` writes them: where it ends
    in the log, and its number among those of the commit. `content` is bytes where it is no text of
    UTF-8, or has U+0000."""

    lsn: int
    prefix: str
    content: str | bytes
    n: int

    def bytes(self) -> bytes:
        return self.content.encode() if isinstance(self.content, str) else self.content


class TableLine(NamedTuple):
    """The definition of a relation, for the changes of it that follow in the commit."""

    relation: Relation


# The op of a row from before the first commit.
BASE = "r"


class Change(NamedTuple):
    """A change: `op` is c, u, d or t, for an insert, an update, a delete and a truncation, or BASE;
    the rows are whole."""

    op: str
    relation: Relation
    n: int
    before: Cells | None
    after: Cells | None


class Missed(NamedTuple):
    """An update or delete without a row: `sent` is u or d, `kind` K, O or "" of no old tuple."""

    relation: Relation
    n: int
    sent: str
    kind: str
    old: list[Cell | Unsent] | None
    new: list[Cell | Unsent] | None

    def old_cells(self) -> list[Cell | Unsent] | None:
        """The old tuple; of a key, the columns that aren't in it weren't sent."""
        if self.old is None or self.kind != "K":
            return self.old
        pairs = zip(self.relation.shape.columns, self.old, strict=True)
        return [cell if column.key else UNSENT for column, cell in pairs]


# What a commit does, and what it has of it beside the definitions: its messages come first.
Event = Message | Change | Missed
Part = Event | TableLine
