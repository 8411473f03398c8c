"""Streams whose subtransactions aren't nested (rule 2), and streams with changes that nothing
describes (rule 3)."""

from .frames import COPY_DONE, T, W, a_row, abort, begin, block, commit, delete, insert, message
from .frames import next_block, relation, stream_commit, truncate, type_name, update
from .streams import Part, Stream, bad, cause

END = bad(stream_commit(10, 0x400, 0x430))
ROW = a_row(0x100)


def unnested(shows: str, subxid: int, *sessions: list[Part]) -> Stream:
    told = f"what came at {{cause}} of subtransaction {subxid} is not nested"
    return Stream("rule 2", shows, told, sessions)


def undescribed(shows: str, oid: int, *sessions: list[Part], version: int = 2) -> Stream:
    told = f"the change at {{cause}} is committed and relation {oid} not described"
    return Stream("rule 3", shows, told, sessions, version)


def of_10(*inner: Part) -> list[Part]:
    """The first block of the transaction 10, which describes its table."""
    first = block(10, relation(xid=10))
    return [*first[:-1], *inner, first[-1]]


def more(*inner: Part) -> list[Part]:
    """A further block of it."""
    next_one = next_block(10)
    return [next_one[0], *inner, next_one[-1]]


ITEM, IN_12, IN_13, IN_14 = (insert(xid=it) for it in (10, 12, 13, 14))
GOES_ON: list[Part] = [*of_10(IN_12), cause(abort(10, 12)), *more(IN_12), END]

UNNESTED = (
    unnested("a subtransaction that goes on behind its abort", 12, GOES_ON),
    unnested("the same behind a session that was cut off", 12, [*ROW, ROW[0][:3]], GOES_ON),
    unnested(
        "the same behind the abort of all, and a new beginning",
        12,
        [*of_10(IN_12), abort(10, 10), *GOES_ON],
    ),
    unnested(
        "the same beside another transaction in blocks",
        12,
        [
            *of_10(IN_12),
            *block(11, relation(xid=11), IN_13),
            cause(abort(10, 12)),
            abort(11, 13),
            *next_block(11, insert(xid=11)),
            *more(IN_12),
            *a_row(0x200, xid=20),
            END,
        ],
    ),
    unnested(
        "an abort behind an item of the transaction",
        12,
        [*of_10(cause(IN_12), ITEM), abort(10, 12), END],
    ),
    unnested(
        "an abort of one without items, which has one later",
        12,
        [*of_10(message(12), type_name(12)), cause(abort(10, 12)), *more(IN_12), END],
    ),
    unnested(
        "an abort that is repeated behind an item of the transaction",
        12,
        [*of_10(IN_12), cause(abort(10, 12)), *more(ITEM), abort(10, 12), END],
    ),
    unnested(
        "two subtransactions that cross",
        12,
        [*of_10(cause(IN_12), IN_13, IN_12), *more(IN_13), END],
    ),
    unnested(
        "a subtransaction that goes on behind an item of the transaction",
        12,
        [*of_10(cause(IN_12), ITEM), *more(IN_12), END],
    ),
    unnested(
        "an inner one that goes on behind its abort",
        13,
        [*of_10(IN_12, IN_13), cause(abort(10, 13)), *more(IN_12, IN_13), END],
    ),
    unnested(
        "an inner one whose abort comes behind the next item",
        13,
        [*of_10(IN_12, cause(IN_13)), abort(10, 12), *more(ITEM), abort(10, 13), END],
    ),
    unnested(
        "one inside another that goes on when that does",
        12,
        [*of_10(cause(IN_12), IN_13, IN_14, IN_12), *more(IN_14), END],
    ),
    unnested(
        "a Relation message behind its abort",
        12,
        [*of_10(relation(W, 12)), cause(abort(10, 12)), *more(relation(W, 12), ITEM), END],
    ),
)

UNDESCRIBED = (
    undescribed(
        "an Insert first", T, [begin(0x100, 10), cause(insert()), bad(commit(0x100, 0x130))]
    ),
    undescribed(
        "a Relation behind the change",
        T,
        [begin(0x100, 10), cause(insert()), relation(), insert(), bad(commit(0x100, 0x130))],
    ),
    undescribed(
        "another table, in version 1",
        W,
        [*ROW, begin(0x200, 11), update(), cause(delete(W)), bad(commit(0x200, 0x230))],
        version=1,
    ),
    undescribed(
        "the second table of a Truncate",
        W,
        [begin(0x100, 10), relation(), cause(truncate(T, W)), bad(commit(0x100, 0x130))],
    ),
    undescribed(
        "a table that the session before described",
        T,
        [*ROW, COPY_DONE],
        [begin(0x100, 10), cause(insert()), bad(commit(0x100, 0x130)), *a_row(0x200)],
    ),
    undescribed(
        "a table that a rolled-back subtransaction described",
        W,
        [*of_10(relation(W, 12), insert(W, 12)), abort(10, 12), *more(cause(insert(W, 10))), END],
    ),
    undescribed(
        "a table that an aborted transaction described",
        T,
        [
            *block(11, relation(xid=11)),
            abort(11, 11),
            begin(0x200, 12),
            cause(update()),
            bad(commit(0x200, 0x230)),
        ],
    ),
    undescribed(
        "a table that a later transaction describes",
        T,
        [*of_10(ITEM), begin(0x200, 12), cause(delete()), bad(commit(0x200, 0x230)), *more(ITEM)],
    ),
    undescribed(
        "in a subtransaction inside another", W, [*of_10(IN_12, cause(insert(W, 13)), IN_12), END]
    ),
    undescribed(
        "the first change is rolled back, the second isn't",
        W,
        [
            *of_10(insert(W, 12)),
            abort(10, 12),
            *more(cause(truncate(W, xid=10)), insert(W, 10)),
            END,
        ],
    ),
    undescribed(
        "beside a transaction that describes it",
        T,
        [
            *block(10, ITEM)[:1],
            cause(ITEM),
            *block(10)[1:],
            *block(11, relation(xid=11), insert(xid=11)),
            END,
            stream_commit(11, 0x500, 0x530),
        ],
    ),
)
