"""One segment of a feed, open: its head, its commits and their bytes, of which some are read ahead."""

import os
import zlib
from collections.abc import Iterable, Iterator

from ..errors import CHECKSUM, COMMIT_LINE, COUNTS, NOT_A_FEED, OTHER_FEED, Damaged
from ..interruption import undone_by
from ..texts import lsn_text
from .commits import Closing, Commit, Head
from .lines import (
    COMMIT_SIZE,
    HEAD_SIZE,
    check_sum,
    no_head,
    read_commit,
    read_head,
    shown,
    summed,
    whole_lines,
)

CHUNK = 1 << 20
# How many bytes are read at least where commits are read one after the other: most are small.
AHEAD = 1 << 16
# How many bytes are read for the line of a definition, at first and at most: 1,600 columns with names
# of 63 characters, of which each may be written as six.
TABLE_SIZES = 1 << 13, 1 << 20


class Segment:
    """An open segment, which has its head before it has its name."""

    def __init__(self, folder: str, base: int, name: str) -> None:
        self.base, self.path = base, os.path.join(folder, name)
        # what was read ahead, and at which offset that begins
        self.ahead, self.ahead_at = b"", 0
        self.file = os.open(self.path, os.O_RDONLY | os.O_CLOEXEC)
        with undone_by(self.close):
            self.head = self.read_head()

    def read_head(self) -> Head:
        line = self.read(0, HEAD_SIZE)
        try:
            head = read_head(line)
        except ValueError as error:
            raise Damaged(NOT_A_FEED, self.path, 0, no_head(line, error)) from None
        if head.base != self.base:
            told = f"the segment begins at {lsn_text(head.base)}, and has another name"
            raise Damaged(OTHER_FEED, self.path, 0, told)
        return head

    def read(self, offset: int, size: int) -> bytes:
        return os.pread(self.file, size, offset)

    def read_on(self, offset: int, size: int) -> bytes:
        """The same of bytes that may have been read ahead, where all of them were: so a commit may
        be one that was there a moment ago, as where it is read more slowly. More than these are read
        where they go on from others: who passes over large commits needs their lines alone."""
        at = offset - self.ahead_at
        if not 0 <= at <= len(self.ahead) - size:
            most = max(size, AHEAD) if 0 <= at <= len(self.ahead) else size
            self.ahead, self.ahead_at, at = self.read(offset, most), offset, 0
        return self.ahead[at : at + size]

    def look_again(self) -> None:
        """Forgets what was read ahead."""
        self.ahead, self.ahead_at = b"", 0

    def has(self, end: int) -> bool:
        """Whether all bytes up to an offset are there."""
        return end <= self.ahead_at + len(self.ahead) or end <= self.size()

    def size(self) -> int:
        # (all is read by offset, so where the file is doesn't matter)
        return os.lseek(self.file, 0, os.SEEK_END)

    def commit(self, offset: int) -> Commit | Closing | None:
        """The line of a commit or of the end at an offset; None where it isn't there yet: some of it
        is zeros, or missing, whatever stands behind it."""
        line = self.read_on(offset, COMMIT_SIZE)
        # (the line of a long commit is written last; one of zeros may be what a power cut has left)
        if 0 in line:
            self.look_again()
            line = self.read(offset, COMMIT_SIZE)
        if len(line) < COMMIT_SIZE or 0 in line:
            return None
        try:
            return read_commit(line)
        except ValueError:
            raise self.no_line(line, offset) from None

    def no_line(self, line: bytes, offset: int) -> Damaged:
        told = f"this is no line of a commit: {shown(line)}"
        return Damaged(COMMIT_LINE, self.path, offset, told)

    def torn(self, offset: int) -> bytes | None:
        """The line at an offset, where a part of it is zeros."""
        line = self.read(offset, COMMIT_SIZE)
        is_torn = len(line) == COMMIT_SIZE and 0 in line and line.strip(b"\0")
        return line if is_torn else None

    def check(self, commit: Commit, offset: int) -> list[bytes]:
        """Rejects a commit whose bytes aren't as written. Returns them, unless there are many."""
        at, size = offset - COMMIT_SIZE, commit.bytes

        def fault(told: str) -> Damaged:
            return Damaged(CHECKSUM, self.path, at, told)

        if size <= AHEAD and len(content := self.read_on(offset, size)) == size:
            # (as of most commits)
            check_sum(commit, zlib.crc32(content, commit.begun), fault)
            return [content]
        pieces = summed(commit, self.pieces(offset, offset + size), fault)
        return [it for it in pieces if size <= CHUNK]

    def lines(self, pieces: Iterable[bytes], end: int) -> Iterable[list[bytes]]:
        """The lines of bytes up to an offset without their ends, some at a time."""
        text = "the commit's last line has no end where its bytes end"
        return whole_lines(pieces, lambda: Damaged(COUNTS, self.path, end, text))

    def pieces(self, offset: int, end: int) -> Iterator[bytes]:
        """The bytes between two offsets, some at a time."""
        while offset < end:
            piece = self.read(offset, min(CHUNK, end - offset))
            if not piece:
                raise Damaged(COUNTS, self.path, offset, "the segment was cut while it was read")
            offset += len(piece)
            yield piece

    def line(self, offset: int) -> bytes | None:
        """The line at an offset without its end, None where it has none."""
        at = offset - self.ahead_at
        if at >= 0 and (end := self.ahead.find(b"\n", at)) >= 0:
            return self.ahead[at:end]
        for size in TABLE_SIZES:
            line, has_end, _ = self.read(offset, size).partition(b"\n")
            if has_end:
                return line
        return None

    def starts(self, end: int) -> list[int]:
        """Where the commits begin up to an offset, where one does."""
        starts, offset = list[int](), HEAD_SIZE
        while offset < end and isinstance(commit := self.commit(offset), Commit):
            starts.append(offset)
            offset += COMMIT_SIZE + commit.bytes
        return starts

    def is_there(self) -> bool:
        """Whether the name is still that of the open file."""
        try:
            now = os.stat(self.path)
        except OSError:
            return False
        mine = os.fstat(self.file)
        return (now.st_ino, now.st_dev) == (mine.st_ino, mine.st_dev)

    def close(self) -> None:
        os.close(self.file)
