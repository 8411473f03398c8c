"""Frames that wait on the disk until they are passed on: the rows of a table, and its changes since.

The file has no name, so that nothing is left of it, whatever ends the connector. What was passed on
is given back to the disk at once, where the file system can do that: the filter has it then.
"""

import array
import contextlib
import ctypes
import os
import tempfile
from collections.abc import Iterator

# How many bytes are given back at a time.
GIVEN = 16 << 20
# FALLOC_FL_KEEP_SIZE and FALLOC_FL_PUNCH_HOLE of Linux.
PUNCH = 3


def give_back(file: int, start: int, end: int) -> None:
    """Gives a part of a file back to the disk, where that is possible."""
    with contextlib.suppress(AttributeError):
        call = ctypes.CDLL(None).fallocate64
        call(file, PUNCH, ctypes.c_int64(start), ctypes.c_int64(end - start))


class WaitingFrames:
    """Blocks of whole frames. An OSError says that the disk is full, or fails."""

    def __init__(self, folder: str) -> None:
        self.file = tempfile.TemporaryFile(dir=folder, buffering=0)
        # where each block ends
        self.ends = array.array("Q")

    def size(self) -> int:
        return self.ends[-1] if self.ends else 0

    def append(self, frames: bytes | bytearray) -> None:
        """Puts a block behind the others."""
        left = memoryview(frames)
        while left:
            left = left[self.file.write(left) or 0 :]
        self.ends.append(self.size() + len(frames))

    def blocks(self, first: int = 0) -> Iterator[bytes]:
        """Yields them from one on, once: they are gone then."""
        start = given = self.ends[first - 1] if first else 0
        for end in self.ends[first:]:
            block = os.pread(self.file.fileno(), end - start, start)
            if len(block) < end - start:
                raise OSError(0, "rows of a table that wait on the disk are cut short")
            yield block
            start = end
            if start - given >= GIVEN:
                give_back(self.file.fileno(), given, start)
                given = start

    def close(self) -> None:
        self.file.close()
