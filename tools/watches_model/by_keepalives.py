"""Streams with a keepalive that isn't below a commit to come (rule 4)."""

from .by_items import END, IN_12, ITEM, ROW, more, of_10
from .frames import a_row, abort, begin, block, commit, insert, keepalive, pair, relation, truncate
from .streams import Part, Stream, bad, cause


def above(shows: str, end: str, told: str, *sessions: list[Part]) -> Stream:
    words = f"a commit's end 0/{end} is not above the end {told} of the keepalive at {{cause}}"
    return Stream("rule 4", shows, words, sessions)


START, LAST = ROW[:-1], bad(ROW[-1])

STREAMS = (
    above("its end itself, first", "130", "0/130", [cause(keepalive(0x130)), *START, LAST]),
    above(
        "the greatest end",
        "130",
        "FFFFFFFF/FFFFFFFF",
        [cause(keepalive(2**64 - 1)), *START, LAST, *a_row(0x200)],
    ),
    above("in the pair", "130", "0/131", [*START, cause(keepalive(0x131)), LAST]),
    above(
        "in a block",
        "430",
        "0/430",
        [*of_10(ITEM, cause(keepalive(0x430)), ITEM), END],
    ),
    above(
        "a smaller one behind it",
        "130",
        "0/180",
        [keepalive(0x20), cause(keepalive(0x180)), keepalive(0x140), *START, LAST],
    ),
    above(
        "an equal one behind it",
        "130",
        "0/140",
        [cause(keepalive(0x140)), *START, keepalive(0x140), LAST],
    ),
    above(
        "behind a good one, in the middle",
        "230",
        "0/230",
        [
            keepalive(0x12F),
            *ROW,
            cause(keepalive(0x230)),
            *a_row(0x200)[:-1],
            bad(commit(0x200, 0x230)),
        ],
    ),
    above(
        "a commit without changes between",
        "250",
        "0/250",
        [
            *ROW,
            cause(keepalive(0x250)),
            *pair(0x200),
            begin(0x240, 12),
            insert(),
            bad(commit(0x240, 0x250)),
        ],
    ),
    above(
        "in the second session",
        "130",
        "0/130",
        [keepalive(0x50), *ROW, keepalive(0x1000)],
        [*START, cause(keepalive(0x130)), LAST],
        [*ROW],
    ),
    above(
        "one change survives a rollback",
        "430",
        "0/500",
        [*of_10(IN_12), cause(keepalive(0x500)), abort(10, 12), *more(ITEM), END],
    ),
    above(
        "beside an open transaction",
        "330",
        "0/330",
        [
            *of_10(ITEM),
            cause(keepalive(0x330)),
            begin(0x300, 12),
            relation(),
            truncate(16384),
            bad(commit(0x300, 0x330)),
            *block(11),
        ],
    ),
)
