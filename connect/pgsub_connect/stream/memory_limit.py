"""How much a filter may buffer on this machine, how much of that stays in memory, and what is said of
what was too large for it."""

import contextlib
import dataclasses
import os

from .awake import GROUPS, groups
from .filter_end import FRAME_TOO_LARGE, MEMORY, OF_LIMITS, REJECTED, SPOOL_FULL, TOO_MANY_OPEN
from .filter_end import FilterEnded

# The longest frame that PostgreSQL can send, with its length.
LONGEST_FRAME = 2147483643
# How many pages a store's file has at most.
MOST_PAGES = 4294967294
MOST = 1 << 30
LEAST = 64 << 20
# What stays in memory where more goes on in a file: so many bytes, or this part of the memory.
IN_MEMORY, PART = 64 << 20, 8


@dataclasses.dataclass(frozen=True)
class BufferLimits:
    """What open transactions may have, also one that the connector makes, as of the rows of a table
    that is added, None for any; and the filter's longest frame. In bytes."""

    max_buffered: int | None = None
    max_frame: int = 0


def memory() -> int | None:
    """How many bytes of memory this process may have, by the machine and its control groups."""
    found = []
    with contextlib.suppress(ValueError, OSError):
        found.append(os.sysconf("SC_PAGE_SIZE") * os.sysconf("SC_PHYS_PAGES"))
    limits = [it / "memory.max" for it in groups()]
    for path in (GROUPS / "memory/memory.limit_in_bytes", *limits):
        # (of both versions; a group without a limit says `max`)
        with contextlib.suppress(OSError, ValueError):
            found.append(int(path.read_text(encoding="ascii")))
    return min(found, default=None)


def default_buffered() -> int:
    """What of open transactions is in memory alone at most: half of it, at most 1 GiB."""
    known = memory()
    return MOST if known is None else max(LEAST, min(MOST, known // 2))


def default_in_memory() -> int:
    """What `--spool-memory` is where it isn't said: 64 MiB, at most an eighth of the memory."""
    known = memory()
    return IN_MEMORY if known is None else max(1, min(IN_MEMORY, known // PART))


# How many transactions are open at most where they go on in a file: no option allows more.
MOST_OPEN = 65536
MANY = f"more than {MOST_OPEN} transactions were open at once"
# How the filter's line ends on a row of a load that is too long.
LINE_TOO_LONG = ": 6 TooLong"
# Below so many bytes no transaction is why a filter is killed, or runs out of memory.
SMALL = 1 << 20
SCARCE = "it needs more memory than there was (a unit's MemoryMax)"


class KilledTwice(FilterEnded):
    """The filter was killed twice in the same transaction: so it would be again."""

    def is_rejection(self) -> bool:
        return True


class Kills:
    """In which transaction the filter was killed last."""

    def __init__(self, limits: BufferLimits) -> None:
        self.limits, self.xid = limits, 0

    def note(self, ended: FilterEnded, xid: int, size: int) -> None:
        """Notes a filter's end in its largest transaction. Raises at the second one in that."""
        if ended.status >= 0 or size < SMALL:
            return
        if xid != self.xid:
            self.xid = xid
            return
        told = f"twice in the transaction {xid}, of which {size} bytes were passed on"
        if -ended.status in OF_LIMITS:
            raise KilledTwice(ended.status, told)
        is_bounded = self.limits.max_buffered is not None
        more = f", and --max-buffered of {size} bytes at least" if is_bounded else ""
        raise KilledTwice(ended.status, f"{told}: {SCARCE}{more}")


def limit_text(
    ended: FilterEnded, limits: BufferLimits, transaction: tuple[int, int], longest: int
) -> str:
    """What is said where a limit ended the filter, "" where none did.

    `transaction` is the xid of the largest one that isn't stored, and how many bytes of it were
    passed on, and `longest` the length of the longest message, or of the longest row of a load.
    """
    if ended.said == TOO_MANY_OPEN:
        return f"{MANY}, and no option allows that: let some of them end, then start it again"
    if ended.status == SPOOL_FULL and limits.max_buffered is not None:
        return full_text(limits.max_buffered, *transaction)
    if ended.status == FRAME_TOO_LARGE:
        return frame_text(limits, longest)
    if ended.status == REJECTED and ended.said.endswith(LINE_TOO_LONG):
        return frame_text(limits, longest, "row")
    if ended.status == MEMORY and transaction[1] >= SMALL:
        xid, size = transaction
        return f"transaction {xid} had {size} bytes so far: {SCARCE}"
    return ""


def full_text(most: int, xid: int, size: int) -> str:
    which = f"transaction {xid} had {size} bytes so far, and"
    which = which if size else "the open transactions had more than"
    allowed = f"{most} may be buffered of all that are open"
    wanted = 2 * max(most, size)
    more = "how much more comes until the commit isn't known, so that may be too little"
    return f"{which} {allowed}: give --max-buffered {wanted} at least, and room for it; {more}"


def frame_text(limits: BufferLimits, longest: int, what: str = "message") -> str:
    """A frame is four bytes longer than its message."""
    is_known = longest + 4 > limits.max_frame
    which = f"a {what} had {longest} bytes, and" if is_known else f"a {what} had more than the"
    text = f"{which} {limits.max_frame} are accepted"
    wanted = min(2 * max(limits.max_frame, longest + 4), LONGEST_FRAME)
    if wanted <= limits.max_frame:
        return f"{text}, which is the most that can be"
    most = limits.max_buffered
    more = f" --max-buffered {2 * wanted}" if most is not None and 2 * wanted > most else ""
    return f"{text}: give --max-frame {wanted}{more}, and memory for it"
