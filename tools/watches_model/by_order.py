"""Streams that break the order of messages or of LSNs."""

from .frames import a_row, abort, again, begin, block, commit, insert, message, next_block
from .frames import origin, relation, start, stop, stream_commit, type_name
from .streams import Part, Stream, bad, cause


def stream(shows: str, told: str, *sessions: list[Part], version: int = 2) -> Stream:
    return Stream("order", shows, told, sessions, version)


ROW = a_row(0x100)
OPEN = block(10, relation(xid=10), insert(xid=10))

STREAMS = (
    stream("a Commit first", "order 3 CommitWithoutBegin", [bad(commit(0x100, 0x130))]),
    stream(
        "an Insert between transactions",
        "order 1 OutsideTransaction",
        [*ROW, message(), bad(insert()), *ROW],
    ),
    stream(
        "a Begin in a pair", "order 2 NestedBegin", [*ROW, begin(0x200, 11), bad(begin(0x300, 12))]
    ),
    stream("a Begin of an open xid", "order 2 NestedBegin", [*OPEN, bad(begin(0x300, 10))]),
    stream(
        "a Commit of another LSN, in the second session",
        "order 4 CommitLsnDiffers",
        [*ROW],
        [*ROW, begin(0x200, 11), origin(), type_name(), bad(commit(0x201, 0x230))],
    ),
    stream("a block in a block", "order 5 NestedStart", [start(10), bad(start(11)), stop()]),
    stream("a Stream Stop in a pair", "order 6 StopWithoutStart", [begin(0x100, 10), bad(stop())]),
    stream(
        "a first segment of an open xid, beside another one",
        "order 7 FirstFlagOnOpen",
        [*OPEN, *block(11), bad(start(10))],
    ),
    stream(
        "a later segment behind the abort of all",
        "order 8 LaterFlagOnUnknown",
        [*OPEN, abort(10, 10), bad(again(10))],
    ),
    stream(
        "a later segment in a new session, where the one before was cut off",
        "order 8 LaterFlagOnUnknown",
        [*OPEN, again(10)[:9]],
        [bad(again(10)), insert(xid=10)],
    ),
    stream(
        "a Stream Commit twice",
        "order 9 CommitOfUnknown",
        [*OPEN, stream_commit(10, 0x200, 0x230), bad(stream_commit(10, 0x300, 0x330))],
    ),
    stream("a block in version 1", "order 10 StreamInVersion1", [*ROW, bad(start(11))], version=1),
    stream(
        "a Stream Commit in a block",
        "order 11 CommitMisplaced",
        [*OPEN, again(10), bad(stream_commit(10, 0x200, 0x230))],
    ),
    stream(
        "a Stream Abort in a pair", "order 12 AbortMisplaced", [begin(0x100, 10), bad(abort(7, 8))]
    ),
    stream(
        "a commit one below the end of the one before",
        "a commit's LSN 0/12F is below the end 0/130 of the commit at {cause}",
        [*ROW[:-1], cause(ROW[-1]), begin(0x12F, 11), insert(), bad(commit(0x12F, 0x160))],
    ),
    stream(
        "a transaction again, in the middle",
        "a commit's LSN 0/100 is below the end 0/230 of the commit at {cause}",
        [
            *ROW,
            *a_row(0x200)[:-1],
            cause(commit(0x200, 0x230)),
            *ROW[:-1],
            bad(ROW[-1]),
            *a_row(0x300),
        ],
    ),
    stream(
        "a streamed transaction below one without changes",
        "a commit's LSN 0/220 is below the end 0/230 of the commit at {cause}",
        [
            *OPEN,
            begin(0x200, 11),
            cause(commit(0x200, 0x230)),
            *next_block(10, insert(xid=10)),
            bad(stream_commit(10, 0x220, 0x240)),
        ],
    ),
    stream(
        "a commit that ends at its LSN, beside another open one",
        "a commit's end 0/400 is not above its LSN 0/400",
        [*block(11, relation(xid=11)), *OPEN, bad(stream_commit(10, 0x400, 0x400))],
    ),
    stream(
        "a commit that ends below its LSN, in the third session",
        "a commit's end 0/1FF is not above its LSN 0/200",
        [*ROW],
        [*ROW],
        [*ROW, begin(0x200, 11), bad(commit(0x200, 0x1FF))],
    ),
)
