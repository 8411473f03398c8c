"""The segments of a feed, and a reader of their commits, each once it is whole.

A segment's name is its base, in 16 hexadecimal digits. A reader has an LSN of its own: it passes
over the commits that don't end above it, and the first that it takes must be the one after it. A
commit whose bytes aren't all there yet is waited for; none is passed on whose bytes don't have the
checksum that its line tells, nor one whose changes name a definition in such a commit. Where the
feed was written anew from some commit on, the reader goes on from its LSN.

Of a long commit the lines behind its own are written first, which may be cut off again, and other
commits written there. So as long as its own line has a zero byte nothing behind it is read.

A crash may cut off what isn't confirmed. The server sends its commits again, each with the same
end; but the connector's own, of rows that are added or repaired, end at an LSN that doesn't come
again. So these are taken once they are confirmed.
"""

import bisect
import contextlib
import os
from collections.abc import Iterable, Iterator

from ..errors import COUNTS, ORDER, OTHER_FEED, Damaged, Unfit
from ..texts import lsn_text
from .commits import XID, Closing, Commit, Cursor, Head, Part
from .decoding import Decoder
from .folder import Listing, read_confirmed, segments
from .lines import COMMIT_SIZE, HEAD_SIZE, named_by
from .segment import Segment


def is_last(segment: Segment, there: list[tuple[int, str]]) -> bool:
    return all(base <= segment.base for base, _ in there[-1:])


def read_source(folder: str) -> Head | None:
    """What a feed is a feed of, by the head of its last segment; None where there is none yet."""
    for base, name in reversed(segments(folder)):
        with contextlib.suppress(FileNotFoundError), contextlib.closing(
            Segment(folder, base, name)
        ) as segment:
            return segment.head
    return None


class Between(Unfit):
    """The LSN of a reader lies within a commit. `begin` and `end`: that commit's."""

    def __init__(self, folder: str, at: int, commit: Commit) -> None:
        self.begin, self.end = lsn_text(commit.prev), commit.text()
        super().__init__(
            f"{folder}: no commit ends at {lsn_text(at)}: the next one goes from {self.begin} to {self.end}, so"
            " what was read before isn't what the feed has. Begin anew from an export"
        )


class Reader:
    """Reads the commits of a feed above an LSN; None: those of all segments that are there."""

    def __init__(self, folder: str, at: int | None = None) -> None:
        self.folder, self.at = folder, at
        self.segment: Segment | None = None
        self.head: Head | None = None
        self.listing = Listing(folder)
        self.decoder = Decoder()
        # where the next commit begins, and where the one before it ends
        self.offset = self.last = 0
        # where the lines of the commit begin that was taken last, and its bytes, unless there are many
        self.body, self.kept = 0, list[bytes]()
        # from where on the commits of the segment were tested, and where those before that begin
        self.tested, self.untested = 0, list[int]()

    def cursor(self) -> Cursor | None:
        """Where it is: after the commit that was taken last, None where there is no segment yet."""
        return Cursor(self.segment.base, self.offset, self.last) if self.segment else None

    def before(self, commit: Commit) -> Cursor:
        """Where the commit begins that was taken last."""
        assert self.segment
        return Cursor(self.segment.base, self.body - COMMIT_SIZE, commit.prev)

    def go_to(self, cursor: Cursor) -> None:
        """Goes where it has been before."""
        if self.segment is None or self.segment.base != cursor.segment:
            name = dict(segments(self.folder)).get(cursor.segment)
            if name is None or self.open(cursor.segment, name) is None:
                raise Unfit(
                    f"{self.folder}: the segment that begins at {lsn_text(cursor.segment)} is gone"
                )
        if self.segment:
            self.segment.look_again()
        self.offset, self.last, self.at = cursor.offset, cursor.at, cursor.at
        self.tested, self.untested = 0, []

    def go_back(self, at: int) -> None:
        """Goes back to an LSN, where a commit ends."""
        self.close()
        self.at = at

    def next(self) -> Commit | None:
        """The next commit, None where there is none yet. What it has, `parts` reads.

        An Unfit says that commits after the LSN aren't in the feed, and a Damaged that the feed
        can't be read.
        """
        was_open = self.segment is not None
        try:
            return self.step()
        except Damaged:
            if not was_open:
                raise
        # (the filter may have cut the feed, and other bytes are there now)
        self.close()
        return self.step()

    def is_lasting(self) -> bool:
        """Whether what is wrong where it reads now stays so, whatever the filter does."""
        return False

    def step(self) -> Commit | None:
        confirmed = 0
        while (segment := self.segment or self.find()) is not None:
            found = segment.commit(self.offset)
            if isinstance(found, Commit) and segment.has(self.offset + COMMIT_SIZE + found.bytes):
                if found.xid == XID and found.end > max(confirmed, self.at or 0):
                    confirmed = read_confirmed(self.folder) or 0
                    segment.look_again()
                    self.look_after(segment)
                    if confirmed < found.end:
                        return None
                    # (its line is read again: another commit may have been confirmed in its place)
                elif self.takes(segment, found):
                    return found
            elif not self.go_on(segment, found if isinstance(found, Closing) else None):
                self.look_after(segment)
                return None
        return None

    def takes(self, segment: Segment, commit: Commit) -> bool:
        """Goes on after a whole commit; whether it ends above the LSN, which it moves then."""
        if commit.prev != self.last or commit.end <= commit.prev:
            text = f"a commit from {lsn_text(commit.prev)} to {commit.text()} where {lsn_text(self.last)} was reached"
            raise Damaged(ORDER, segment.path, self.offset, text)
        at = self.last if self.at is None else self.at
        if commit.end > at and commit.prev != at:
            raise Between(self.folder, at, commit)
        body = self.offset + COMMIT_SIZE
        # (those below the LSN are passed over, whatever they have)
        kept = segment.check(commit, body) if commit.end > at else []
        self.tested = (self.tested or self.offset) if commit.end > at else 0
        self.body, self.kept = body, kept
        self.offset, self.last = body + commit.bytes, commit.end
        if commit.end <= at:
            return False
        self.at = commit.end
        return True

    def find(self) -> Segment | None:
        """Opens the segment with what follows the LSN. None where it isn't there yet."""
        there = segments(self.folder)
        if not there:
            return None
        at = there[0][0] if self.at is None else self.at
        before = [it for it in there if it[0] <= at]
        if not before:
            text = f"{self.folder}: the feed begins at {lsn_text(there[0][0])}, and the commits after {lsn_text(at)} aren't in it"
            raise Unfit(f"{text}. Begin anew from an export, as `pgsub-connect export` makes one")
        self.at = at
        return self.open(*before[-1])

    def open(self, base: int, name: str) -> Segment | None:
        """Opens a segment in the place of the one before. None where it is gone."""
        try:
            segment = Segment(self.folder, base, name)
        except FileNotFoundError:
            return None
        if self.head and segment.head.source() != self.head.source():
            segment.close()
            text = f"a feed of {segment.head.text()}, and before of {self.head.text()}"
            raise Damaged(OTHER_FEED, segment.path, 0, text)
        self.close()
        self.segment, self.head = segment, segment.head
        self.offset, self.last = HEAD_SIZE, base
        self.tested, self.untested = 0, []
        self.decoder.forget()
        return segment

    def go_on(self, segment: Segment, closing: Closing | None) -> bool:
        """Opens the segment behind this one. Returns false where it isn't there yet."""
        if closing and closing.last != self.last:
            text = f"the segment says that it ends at {lsn_text(closing.last)}, and its last commit at {lsn_text(self.last)}"
            raise Damaged(ORDER, segment.path, self.offset, text)
        if not closing and segment.torn(self.offset):
            self.check_is_last(segment)
        if self.last != segment.base and (name := self.named(self.last)):
            return self.open(self.last, name) is not None
        # (it is looked for by its name: there may be many, and this is asked again and again)
        there = self.listing.segments() if closing else []
        if there and there[-1][0] > self.last and not self.named(self.last):
            base = min(it for it, _ in there if it > self.last)
            raise Unfit(
                f"{self.folder}: the segment that begins at {lsn_text(self.last)} is gone, and the next one begins at"
                f" {lsn_text(base)}: commits are missing. Begin anew from an export"
            )
        return False

    def check_is_last(self, segment: Segment) -> None:
        """Rejects a part of a line in a segment behind which another one was begun: no line of it is
        written any more. (This one may have been, before that.)"""
        # (what was listed may be from before a cut, and to list them each time may take long)
        if is_last(segment, self.listing.segments()) or is_last(segment, segments(self.folder)):
            return
        if line := segment.torn(self.offset):
            raise segment.no_line(line, self.offset)

    def named(self, base: int) -> str | None:
        """The name of the segment that begins there, None where there is none."""
        names = (f"{base:016X}", f"{base:016x}")
        return next((it for it in names if os.path.exists(os.path.join(self.folder, it))), None)

    def look_after(self, segment: Segment) -> None:
        """Lets go of a segment that was replaced, removed, or cut before where the reader is."""
        if not segment.is_there() or segment.size() < self.offset:
            self.close()

    def own_line(self, commit: Commit) -> bytes:
        """The line of the commit that was taken last."""
        assert self.segment
        at, ahead_at = self.body - COMMIT_SIZE, self.segment.ahead_at
        if at >= ahead_at:
            return self.segment.read_on(at, COMMIT_SIZE)
        return self.segment.read(at, COMMIT_SIZE)

    def raw(self, commit: Commit) -> Iterable[list[bytes]]:
        """The lines of the commit that was taken last, without their ends, some at a time."""
        assert self.segment
        end = self.body + commit.bytes
        if len(self.kept) == 1:
            # (as of most commits)
            *lines, rest = self.kept[0].split(b"\n")
            if not rest:
                return (lines,)
        return self.segment.lines(self.kept or self.segment.pieces(self.body, end), end)

    def line_at(self, at: int) -> bytes | None:
        """The line at an offset of the segment, in the commit that was taken last or before it."""
        line = self.find_line(at)
        if at < self.body:
            self.check_kept()
        return line

    def find_line(self, at: int) -> bytes | None:
        """The same, which may be of other commits than the one that was taken was read with."""
        assert self.segment
        if not HEAD_SIZE <= at < self.offset:
            return None
        if at < self.tested:
            self.test(self.segment, at)
        return self.segment.line(at)

    def check_kept(self) -> None:
        """Rejects the commit that was taken last where it isn't there any more as it was read, which
        may have been ahead."""
        assert self.segment
        segment, kept = self.segment, b"".join(self.kept)
        if segment.read(self.body, len(kept)) != kept:
            what = "the segment was cut while it was read"
            raise Damaged(COUNTS, segment.path, self.body, what)

    def test(self, segment: Segment, at: int) -> None:
        """Tests the commit that has an offset: one that was passed over."""
        self.untested = self.untested or segment.starts(self.tested)
        start = self.untested[bisect.bisect(self.untested, at) - 1]
        if isinstance(commit := segment.commit(start), Commit):
            segment.check(commit, start + COMMIT_SIZE)

    def definitions(self, commit: Commit) -> Iterator[tuple[int, bytes]]:
        """The offsets that the changes of the commit name which was taken last, each with the line
        that stands there."""
        named = dict.fromkeys(named_by(it) for lines in self.raw(commit) for it in lines)
        for at in named:
            if at is not None and (line := self.find_line(at)) is not None:
                yield at, line
        self.check_kept()

    def parts(self, commit: Commit) -> Iterable[Part]:
        """What the commit that was taken last has, in order."""
        assert self.segment
        path, body, decoder = self.segment.path, self.body, self.decoder
        decoder.begin(
            commit,
            lambda number, offset, what: Damaged(number, path, body + offset, what),
            self.line_at,
        )
        if len(self.kept) != 1 or not self.kept[0].endswith(b"\n"):
            return self.read_parts(commit)
        # (as of most commits)
        parts = decoder.read_content(self.kept[0])
        decoder.finish()
        return parts

    def read_parts(self, commit: Commit) -> Iterator[Part]:
        """The same of a commit of many bytes, some at a time."""
        for lines in self.raw(commit):
            yield from self.decoder.read(lines)
        self.decoder.finish()

    def close(self) -> None:
        if self.segment:
            self.segment.close()
            self.segment = None
