"""The changes of a table that come while its rows are read: they are kept aside, and come behind its
rows.

They are kept from before its slot is asked for. Once the slot's consistent point P is known, those of
commits below P are left out, since the snapshot has them.
"""

import struct
from collections.abc import Iterator

from ..stream.messages import HEADERS
from .waiting_frames import WaitingFrames

# How many bytes are written to the disk at a time.
BLOCK = 1 << 16
# What XLogData has before a message.
HEAD = struct.Struct(">cQQq").pack


class KeptChanges:
    """Those of one table. `reached`: an LSN that all was below that came before they were kept;
    `count`: how many there are, also of those that are left out."""

    def __init__(self, oid: int, folder: str, reached: int) -> None:
        self.oid, self.reached = struct.pack(">I", oid), reached
        self.frames, self.pending = WaitingFrames(folder), bytearray()
        # P, the first block that isn't left out; until then by commit its first block
        self.point = self.first = 0
        self.starts: list[tuple[int, int]] = []
        # why not all are kept
        self.error: OSError | None = None
        # the final LSN of the last commit that has any, and of the last one under each definition
        self.lsn = self.count = 0
        self.definitions: dict[bytes, int] = {}

    def add(self, lsn: int, payload: bytes, definition: bytes) -> None:
        """Keeps a change of the commit with this final LSN, under this Relation message."""
        if lsn < self.point or self.error:
            return
        if not self.point and lsn != self.lsn:
            self.write()
            self.starts.append((lsn, len(self.frames.ends)))
        self.lsn, self.definitions[definition] = lsn, lsn
        self.count += 1
        self.pending += HEADERS[len(payload)]
        self.pending += payload
        if len(self.pending) >= BLOCK:
            self.write()

    def add_truncate(self, lsn: int, payload: bytes, definition: bytes) -> None:
        """Keeps what a Truncate does to the table, where it is among its tables."""
        oids = [payload[at : at + 4] for at in range(31, len(payload) - 3, 4)]
        for _ in range(oids.count(self.oid)):
            alone = payload[:26] + struct.pack(">I", 1) + payload[30:31] + self.oid
            self.add(lsn, alone, definition)

    def write(self) -> None:
        """Puts on the disk what isn't there. (Where that fails the stream goes on.)"""
        pending, self.pending = self.pending, bytearray()
        if pending and not self.error:
            try:
                self.frames.append(pending)
            except OSError as error:
                self.error = error

    def require(self) -> None:
        """Raises where not all are kept."""
        self.write()
        if self.error:
            raise self.error

    def begin_at(self, point: int) -> None:
        """P is known."""
        self.write()
        behind = (block for lsn, block in self.starts if lsn >= point)
        self.point, self.first = point, next(behind, len(self.frames.ends))
        self.starts = []

    def has_others(self, relation: bytes) -> bool:
        """Whether a change behind P has another definition than this Relation message."""
        behind = (it for it, lsn in self.definitions.items() if lsn >= self.point)
        return any(it != relation for it in behind)

    def size(self) -> int:
        """How many bytes they have."""
        left_out = self.frames.ends[self.first - 1] if self.first else 0
        return self.frames.size() - left_out + len(self.pending)

    def blocks(self, told: int) -> Iterator[list[bytes]]:
        """Yields their payloads, all of which tell the same LSN."""
        head = HEAD(b"w", told, told, 0)
        for block in self.frames.blocks(self.first):
            yield [head + it[len(head) :] for it in split(block)]

    def close(self) -> None:
        self.frames.close()


def split(frames: bytes) -> Iterator[bytes]:
    """The payloads of whole frames."""
    at = 0
    while at < len(frames):
        end = at + 1 + int.from_bytes(frames[at + 1 : at + 5], "big")
        yield frames[at + 5 : end]
        at = end
