"""Planted bugs of a feed: subscribers that store what they should, and tell or keep one thing of it
wrong.

They are the model's with a bug, in place of the program.
"""

from dataclasses import replace

from feed_folder import Folder
from feed_text import EPOCH, UNSENT

from .fed import Feeding, row_of


class TellsEnd(Feeding):
    """the end of a commit is told for its final LSN"""

    layer = "lines of commits"

    def tell(self, end):
        self.about = replace(self.about, final=end)
        super().tell(end)


class TellsLastBlock(Feeding):
    """a streamed commit has the xid of the last block that came"""

    layer = "lines of commits"

    def tell(self, end):
        self.about = replace(self.about, xid=self.top)
        super().tell(end)


class TellsFirstTime(Feeding):
    """each commit of a run has the time of the first one"""

    layer = "lines of commits"

    def tell(self, end):
        self.first = getattr(self, "first", self.about.time)
        self.about = replace(self.about, time=self.first)
        super().tell(end)


class TellsOwnEpoch(Feeding):
    """times are counted from 2000"""

    layer = "lines of commits"

    def tell(self, end):
        self.about = replace(self.about, time=self.about.time - EPOCH)
        super().tell(end)


class TellsRepeats(Feeding):
    """a repeat is told again"""

    layer = "lines of commits"

    def commit(self, xid, end):
        is_repeat = end <= self.position
        super().commit(xid, end)
        if is_repeat and self.writer:
            self.lines = []
            self.tell(end)


class LosesEmpty(Feeding):
    """a commit without changes isn't told"""

    layer = "lines of commits"

    def tell(self, end):
        if self.lines:
            super().tell(end)


class LosesLast(Feeding):
    """the last change of a commit with several is missing"""

    layer = "lines of changes"

    def tell(self, end):
        self.lines = self.lines[:-1] if len(self.lines) > 1 else self.lines
        super().tell(end)


class LosesMissed(Feeding):
    """a change that found no row is missing"""

    layer = "lines of changes"

    def tell(self, end):
        self.lines = [it for it in self.lines if it.op != "x"]
        super().tell(end)


class LosesTruncated(Feeding):
    """a Truncate of several relations is told of the first one alone"""

    layer = "lines of changes"

    def apply(self, tables, it):
        count = len(self.lines)
        super().apply(tables, it)
        if it.letter == b"T":
            del self.lines[count + 1 :]


class TellsOldAsSent(Feeding):
    """the row before a change is the old tuple that was sent"""

    layer = "images"

    def apply(self, tables, it):
        super().apply(tables, it)
        if it.old is not None and self.lines[-1].op in "ud":
            self.lines[-1] = replace(self.lines[-1], before=row_of(it.old))


class TellsNewAsSent(Feeding):
    """the row after an Update has null for each cell that wasn't sent"""

    layer = "images"

    def apply(self, tables, it):
        super().apply(tables, it)
        if it.letter == b"U" and self.lines[-1].op == "u":
            self.lines[-1] = replace(
                self.lines[-1], after=[None if cell is UNSENT else cell for cell in row_of(it.new)]
            )


class TellsAfterTwice(Feeding):
    """the row before an Update is the one after it"""

    layer = "images"

    def apply(self, tables, it):
        super().apply(tables, it)
        if it.letter == b"U" and self.lines[-1].op == "u":
            self.lines[-1] = replace(self.lines[-1], before=self.lines[-1].after)


class LosesMessage(Feeding):
    """the last message of a transaction isn't told"""

    layer = "lines of messages"

    def tell(self, end):
        self.heard = self.heard[:-1]
        super().tell(end)


class TellsOutside(Feeding):
    """a message of no transaction is told with the one in which it came"""

    layer = "lines of messages"

    def hear(self, flags, lsn, prefix, content):
        super().hear(1, lsn, prefix, content)


class TellsFirstDefinition(Feeding):
    """a definition that changes amid a commit is told once"""

    layer = "lines of tables"

    def tell(self, end):
        first = {}
        self.lines = [
            replace(it, definition=first.setdefault(it.definition.oid, it.definition))
            for it in self.lines
        ]
        super().tell(end)


class Unremoved(Folder):
    def open(self, position, asked):
        before = self.segments
        super().open(position, asked)
        self.segments = {**before, **self.segments}


class KeepsSegments(Feeding):
    """segments above the store's position stay"""

    layer, folder = "segments", Unremoved


class Uncut(Folder):
    def open(self, position, asked):
        texts = {base: segment.text for base, segment in self.segments.items()}
        super().open(position, asked)
        for base, segment in self.segments.items():
            segment.text = texts.get(base, segment.text)


class KeepsRest(Feeding):
    """what comes behind the store's position stays"""

    layer, folder = "segments", Uncut


class Overfilled(Folder):
    def is_full(self, length):
        return super().is_full(0)


class EndsFull(Feeding):
    """a segment ends behind the commit that makes it too long"""

    layer, folder = "segments", Overfilled


class Unended(Folder):
    def end(self):
        pass


class EndsUntold(Feeding):
    """a segment that ends has no line that says so"""

    layer, folder = "segments", Unended


class Ageless(Folder):
    def is_late(self, about):
        return super().is_late(about and replace(about, time=about.time - 1))


class EndsLate(Feeding):
    """a segment ends a microsecond too late"""

    layer, folder = "segments", Ageless


class Named(Folder):
    def begin(self):
        self.asked = replace(self.asked, database=self.asked.slot, slot=self.asked.database)
        super().begin()
        self.asked = replace(self.asked, database=self.asked.slot, slot=self.asked.database)


class SwapsNames(Feeding):
    """the database is told for the slot"""

    layer, folder = "segments", Named


PLANTED_FEEDS = (
    TellsEnd,
    TellsLastBlock,
    TellsFirstTime,
    TellsOwnEpoch,
    TellsRepeats,
    LosesEmpty,
    LosesLast,
    LosesMissed,
    LosesTruncated,
    TellsOldAsSent,
    TellsNewAsSent,
    TellsAfterTwice,
    LosesMessage,
    TellsOutside,
    TellsFirstDefinition,
    KeepsSegments,
    KeepsRest,
    EndsFull,
    EndsUntold,
    EndsLate,
    SwapsNames,
)
