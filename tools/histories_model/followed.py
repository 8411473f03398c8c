"""What `follow` writes while it reads: a status at once, and after each piece the replies and what
has been confirmed since.

Where changes of a piece found no row, a line tells how many have by then.
"""

import struct

from . import tables as model
from .reader import Fault
from .wire import COPY_DONE, lsn_text

# the most bytes that are read at once
PIECE = 1 << 20
STATUS = struct.Struct(">cIcQQQqB")


# The exit status of each fault that isn't the stream's.
STATUSES = {
    "spool 1 SpoolFull": 10,
    "wire 3 TooLarge": 11,
    "store 8 Refused": 13,
    "store 10 NotAStore": 13,
    "memory": 14,
    "read": 15,
}


# where there is no fault, but changes found no row
ROWS_MISSED = 16


def exit_status(read):
    """The exit status of a `follow` that read this."""
    if read.fault is None:
        return ROWS_MISSED if read.missed else 0
    return STATUSES.get(read.fault, 1)


def missed_line(missed):
    """What is told of changes that found no row: how many they are, and where the first one was."""
    oid, end = missed[0]
    return f"pgsub: rows not found: {len(missed)}, first in relation {oid} at {lsn_text(end)}\n".encode()


def status(fields):
    """The frame of a status whose clock is 0."""
    return STATUS.pack(b"d", STATUS.size - 1, b"r", *fields, 0, 0)


def without_clocks(out):
    """Statuses with their clocks set to 0; what isn't statuses stays as it is."""
    if len(out) % STATUS.size:
        return out
    fields = STATUS.iter_unpack(out)
    return b"".join(STATUS.pack(*it[:6], 0, it[7]) for it in fields)


class Splitter:
    """Divides the bytes of several sessions: each but the last ends in a CopyDone."""

    def __init__(self):
        self.header, self.left, self.is_lost = b"", 0, False

    def part(self, content):
        """The number of first bytes that are of this session, and whether they end it."""
        at = 0
        while at < len(content) and not self.is_lost:
            if self.left:
                step = min(self.left, len(content) - at)
                self.left -= step
                at += step
                continue
            self.header += content[at : at + 1]
            at += 1
            if len(self.header) == 5:
                length = int.from_bytes(self.header[1:], "big")
                ends, self.is_lost = self.header == COPY_DONE, self.header[:1] != b"d" or length < 4
                self.header, self.left = b"", length - 4
                if ends:
                    self.__init__()
                    return at, True
        return len(content), False


class Followed:
    """A filter over a reader's store."""

    def __init__(self, reader):
        self.reader, self.splitter, self.written, self.told = reader, Splitter(), b"", b""

    def follow(self, content):
        self.reader.disconnect()
        self.written += status(self.reader.status_fields())
        try:
            for at in range(0, len(content), PIECE):
                self.piece(content[at : at + PIECE])
        except Fault as fault:
            self.reader.fault = str(fault)
        except model.StoreFault as fault:
            self.reader.fault = fault.text()
        return self

    def piece(self, content):
        while content:
            length, ends = self.splitter.part(content)
            self.part(content[:length], ends)
            content = content[length:]

    def part(self, content, ends):
        reader, told, missed = self.reader, self.reader.confirmed, len(self.reader.missed)
        try:
            reader.feed(content)
        finally:
            if len(reader.missed) > missed:
                self.told += missed_line(reader.missed)
        if reader.confirmed != told:
            reader.replies.append(reader.status_fields())
        self.written += b"".join(map(status, reader.replies))
        reader.replies = []
        if ends:
            reader.disconnect()
