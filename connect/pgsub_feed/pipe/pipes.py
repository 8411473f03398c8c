"""Two pipes to another process: lines and bytes that come, and what is written."""

import contextlib
import os
import select
from collections.abc import Iterator

from ..interruption import Check

# How many bytes are read or written at once, and a line has, and how often it may end.
CHUNK, LONGEST, STEP = 1 << 16, 1 << 20, 0.1


class Cut(Exception):
    """The other side is gone, or writes what isn't of the protocol."""


class Pipes:
    """The pipes. While one of them is full what comes by the other one is read, so that the two
    sides never wait for each other."""

    def __init__(self, source: int, target: int, check: Check) -> None:
        self.source, self.target, self.check = source, target, check
        self.buffer = bytearray()
        self.has_ended = False
        os.set_blocking(target, False)

    def put(self, text: bytes) -> None:
        """Writes it all, as the other side takes it."""
        left = memoryview(text)
        while left:
            reads = [] if self.has_ended else [self.source]
            readable, writable, _ = select.select(reads, [self.target], [], STEP)
            self.check()
            if readable:
                self.read()
            if writable:
                with contextlib.suppress(BlockingIOError):
                    left = left[self.write(left[:CHUNK]) :]

    def write(self, piece: memoryview) -> int:
        try:
            return os.write(self.target, piece)
        except (BrokenPipeError, ConnectionError):
            raise Cut("who reads is gone") from None

    def read(self) -> None:
        """Reads what is there."""
        with contextlib.suppress(BlockingIOError):
            try:
                piece = os.read(self.source, CHUNK)
            except ConnectionError:
                piece = b""
            self.buffer += piece
            self.has_ended = not piece

    def look(self, seconds: float = 0) -> bool:
        """Reads what is there, or comes in so many seconds. Returns whether something came."""
        if self.has_ended or not select.select([self.source], [], [], seconds)[0]:
            return False
        self.read()
        return True

    def wait(self) -> None:
        """Waits until something comes. A Cut says that nothing will."""
        self.check()
        while not self.look(STEP):
            if self.has_ended:
                raise Cut("it has ended")
            self.check()

    def lines(self) -> Iterator[bytes]:
        """The lines that are there, without their ends."""
        while (end := self.buffer.find(b"\n")) >= 0:
            line = bytes(self.buffer[:end])
            del self.buffer[: end + 1]
            yield line

    def line(self) -> bytes:
        """The next line, which is waited for, with its end."""
        while (end := self.buffer.find(b"\n")) < 0:
            if len(self.buffer) > LONGEST:
                raise Cut("a line is too long")
            self.wait()
        line = bytes(self.buffer[: end + 1])
        del self.buffer[: end + 1]
        return line

    def pieces(self, size: int) -> Iterator[bytes]:
        """The next bytes, so many of them, which are waited for."""
        while size:
            if not self.buffer:
                self.wait()
            piece = bytes(self.buffer[:size])
            del self.buffer[: len(piece)]
            size -= len(piece)
            yield piece
