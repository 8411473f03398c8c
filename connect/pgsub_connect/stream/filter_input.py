"""What waits for the pipe to a filter."""

import collections
import contextlib
import fcntl
import os
from typing import IO

# How many bytes wait for the filter before no more are read from the server.
ROOM = 1 << 20
PIECE = 1 << 16
# The size that the pipe to the filter is asked to have.
PIPE = 1 << 20


class FilterInput:
    """The standard input of a filter that runs; of none it takes nothing."""

    def __init__(self, file: IO[bytes] | None = None) -> None:
        self.file, self.takes = file, file is not None
        self.number = file.fileno() if file else -1
        self.pending: collections.deque[bytearray | memoryview] = collections.deque()
        # how many bytes wait, how many of the first piece are written, and how many in all
        self.waiting = self.written = self.taken = 0
        if file:
            os.set_blocking(self.number, False)
            with contextlib.suppress(OSError):
                fcntl.fcntl(self.number, fcntl.F_SETPIPE_SZ, PIPE)

    def waits(self) -> bool:
        return self.takes and self.waiting > 0

    def push(self, piece: bytes | memoryview) -> None:
        """Gives it bytes, at once as far as the pipe takes them."""
        done = self.written_of(piece) if self.takes and not self.waiting else 0
        if done < len(piece):
            self.keep(memoryview(piece)[done:])

    def keep(self, rest: memoryview) -> None:
        """Keeps what waits until the pipe takes it, and copies of small pieces together: a long one
        may be a row of any size."""
        pending = self.pending
        last = pending[-1] if pending else None
        if len(rest) >= PIECE:
            pending.append(rest)
        elif isinstance(last, bytearray) and len(last) < PIECE:
            last += rest
        else:
            pending.append(bytearray(rest))
        self.waiting += len(rest)

    def write(self) -> None:
        """Writes what waits, as far as the pipe takes it."""
        pending, done = self.pending, 1
        while pending and done and self.takes:
            with memoryview(pending[0]) as first:
                done = self.written_of(first[self.written :])
            self.waiting -= done
            self.written += done
            if pending and self.written == len(pending[0]):
                pending.popleft()
                self.written = 0

    def written_of(self, piece: bytes | memoryview) -> int:
        """Writes as much as the pipe takes. (The end of one that has ended says why not.)"""
        try:
            done = os.write(self.number, piece)
            self.taken += done
            return done
        except BlockingIOError:
            return 0
        except BrokenPipeError:
            self.finish()
            return 0

    def finish(self) -> None:
        """Ends it. What the filter hasn't read is dropped: a frame that ends early is no fault."""
        if self.takes:
            self.takes = False
            self.pending.clear()
            self.waiting = self.written = 0
            if self.file:
                self.file.close()
