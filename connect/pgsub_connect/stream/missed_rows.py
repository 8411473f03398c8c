"""Changes that found no row: Updates and Deletes whose row the store doesn't have.

Such a change does nothing, and tells that the copy differed before. The filter counts them from its
beginning on, and says on standard error how many there were before it writes the status that
confirms their commits. They are put on the disk before that status goes on to the server, so what
is confirmed is counted. One that rejects a commit has said it of those before, which are stored and
not confirmed.

Where a filter was killed, or its store failed, after it had stored a commit and before its status
was noted, the store is found further than the checkpoint says, and what lies between is told as not
counted.
"""

import time

from pgsub_feed import log
from pgsub_feed.texts import counted, lsn_text

from ..drift.remembered import Remembered
from ..status.state import Counted
from ..store.checkpoint import MISSING
from .common import Common
from .filter_end import Missing

# After how many seconds more of them are told at the earliest.
AGAIN = 10.0


def texts_of(known: Counted, remembered: Remembered) -> list[str]:
    """What is said of the changes that found no row, and of those that weren't counted."""
    texts = []
    if known.count:
        table = remembered.text_of(known.relation)
        texts.append(
            f"{counted(known.count, 'change')} found no row, the first one of {table} in the commit that ends at {lsn_text(known.first)}"
        )
    if known.gap:
        after, upto = map(lsn_text, known.gap)
        texts.append(
            f"not counted in the commits that end behind {after} and up to {upto}: the filter, the connector or the machine ended before"
        )
    return texts


class Misses:
    """Counts them. `count`: those of this run; `is_new`: some since the caller looked last."""

    def __init__(self, common: Common) -> None:
        _, self.tolerance, self.checkpoint, self.progress, self.remembered = common
        self.count = 0
        # how many of the filter that runs are noted
        self.noted = 0
        self.is_new = self.is_untold = False
        self.next_telling = 0.0

    def begin_filter(self, position: int, has_told_all: bool) -> bool:
        """A filter begins at a store's position. Returns whether commits were stored before that
        weren't counted.

        `has_told_all`: the one before has begun in this run, and has said of all that it stored
        what found no row.
        """
        self.noted = 0
        accepts = has_told_all or self.tolerance.accepts(MISSING)
        is_found = self.checkpoint.begin_counting(position, accepts)
        self.show()
        if is_found and self.checkpoint.counted:
            self.warn(texts_of(self.checkpoint.counted, self.remembered)[-1])
        return is_found

    def is_news(self, missing: Missing) -> bool:
        """Whether a filter has said more than is noted."""
        return missing.total > self.noted

    def note(self, missing: Missing, position: int) -> None:
        """Notes durably what the filter says, before its commits up to here are confirmed."""
        more = missing.total - self.noted
        self.checkpoint.note_missing(more, missing.first, missing.relation, position)
        self.noted, self.count = missing.total, self.count + more
        self.is_new = self.is_untold = True
        self.show()

    def show(self) -> None:
        """Tells the progress what is counted."""
        known = self.checkpoint.counted
        table = self.remembered.text_of(known.relation) if known and known.count else ""
        text = "; ".join(texts_of(known, self.remembered)) if known else ""
        self.progress.findings.note_missing(known, table, {MISSING: text} if text else {})

    def take_new(self) -> bool:
        """Whether there were some since this was asked last."""
        is_new, self.is_new = self.is_new, False
        return is_new

    def tell(self, is_last: bool = False) -> None:
        """Tells the first one at once, and more of them later, with their number."""
        known, is_time = self.checkpoint.counted, is_last or time.monotonic() >= self.next_telling
        if self.is_untold and is_time and known:
            self.is_untold, self.next_telling = False, time.monotonic() + AGAIN
            self.warn(texts_of(known, self.remembered)[0])

    def warn(self, text: str) -> None:
        log.warning(f"found: {MISSING} at {self.checkpoint.findings().get(MISSING)}: {text}")
