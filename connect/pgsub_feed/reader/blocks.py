"""The parts of a long commit, in blocks that are read again as often as they are asked for.

A commit may have more bytes than there is memory. So of a long one it is kept where its blocks are
in a file, with their checksums: the segment's, which stays open, whatever becomes of its name, or
one that was made of what came by a pipe. Where a segment was cut meanwhile the blocks aren't what
they were, and that is told.
"""

import os
import weakref
import zlib
from collections.abc import Callable, Iterator
from typing import NamedTuple

from ..errors import COUNTS, Damaged, Passing
from .commits import Commit, Part
from .decoding import Decoder
from .lines import whole_lines
from .segment import CHUNK
from .segments import Reader

# From how many bytes on a commit is a long one.
LONG = 8 << 20


class Block(NamedTuple):
    """Some lines of a commit: where they begin in it, how many bytes they have and their CRC-32,
    and how many changes and messages come before."""

    offset: int
    size: int
    crc: int
    changes: int
    messages: int


class Lasting(Decoder):
    """One of a single commit, which forgets none of the definitions that its changes name."""

    def forget(self) -> None:
        return


class Blocks:
    """The parts of a commit whose bytes a file has from an offset on. The file is its own, and the
    decoder too, which `find` tells the definitions that changes name by their offsets."""

    def __init__(
        self,
        commit: Commit,
        file: int,
        start: int,
        path: str,
        decoder: Lasting,
        find: Callable[[int], bytes | None],
    ) -> None:
        self.commit, self.file, self.start, self.path = commit, file, start, path
        self.decoder, self.find = decoder, find
        self.found = list[Block]()
        self.close = weakref.finalize(self, os.close, file)

    def begin(self) -> Decoder:
        self.decoder.begin(self.commit, self.damaged, self.find)
        return self.decoder

    def damaged(self, number: int, offset: int, what: str) -> Damaged:
        return Damaged(number, self.path, self.start + offset, what)

    def pieces(self, offset: int, end: int) -> Iterator[bytes]:
        """The commit's bytes between two offsets, some at a time."""
        while offset < end:
            piece = os.pread(self.file, min(CHUNK, end - offset), self.start + offset)
            if not piece:
                raise self.damaged(COUNTS, offset, "the segment was cut while it was read")
            offset += len(piece)
            yield piece

    def all(self) -> Iterator[list[Part]]:
        """All of them, for the first time: it is noted where the blocks are."""
        self.found.clear()
        decoder, size = self.begin(), self.commit.bytes
        told = "the commit's last line has no end where its bytes end"
        lines = whole_lines(self.pieces(0, size), lambda: self.damaged(COUNTS, size, told))
        for some in lines:
            offset, changes, messages = decoder.offset, decoder.n, decoder.messages
            parts = decoder.read(some)
            crc = zlib.crc32(b"\n".join([*some, b""]))
            block = Block(offset, decoder.offset - offset, crc, changes, messages)
            self.found.append(block)
            yield parts
        decoder.finish()

    def __iter__(self) -> Iterator[Part]:
        for parts in self.all():
            yield from parts

    def block(self, number: int) -> list[Part]:
        """The parts of a block, each relation's changes behind its definition. A Passing says that
        the file has others there by now."""
        it = self.found[number]
        try:
            content = b"".join(self.pieces(it.offset, it.offset + it.size))
        except Damaged:
            content = b""
        if zlib.crc32(content) != it.crc:
            told = f"{self.path}: the feed was altered while the commit that ends at {self.commit.text()} was read"
            raise Passing(told)
        decoder = self.begin()
        decoder.go_on(it.offset, it.changes, it.messages)
        return decoder.read(content.split(b"\n")[:-1])

    def backwards(self) -> Iterator[Part]:
        """All of them, the last one first; a definition is behind its changes, and may come again."""
        for _ in self.all():
            pass
        for number in reversed(range(len(self.found))):
            yield from reversed(self.block(number))


def blocks_of(reader: Reader, commit: Commit) -> Blocks:
    """Those of the commit that a reader has taken last. The definitions that it names are read with
    the first ones of `all`, as long as the reader is there."""
    segment = reader.segment
    assert segment
    place = os.dup(segment.file), reader.body, segment.path
    return Blocks(commit, *place, Lasting(), reader.line_at)


def parts_backwards(reader: Reader, commit: Commit) -> Iterator[Part]:
    """The parts of the commit that a reader has taken last, the last one first."""
    if commit.bytes > LONG:
        return blocks_of(reader, commit).backwards()
    return reversed(list(reader.parts(commit)))
