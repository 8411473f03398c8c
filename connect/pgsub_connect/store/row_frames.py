"""What the processes are told that get the rows of an initial copy while they are read, and the frames
in which these come: of whole lines of COPY's text, each with the OID of its table and how many
columns that has; and a CopyDone at the end.
"""

import struct
from typing import NamedTuple

# The head of a frame: a letter and a length, which counts itself; the OID and how many columns.
HEAD = struct.Struct(">cIIH")
DONE = b"c\x00\x00\x00\x04"


class TablesWanted(NamedTuple):
    """The file, and the store that it is of, whose tables are remembered; the feed to follow; how
    it has numerics; its mode; the LSN of the rows. The process is told it as a list of JSON."""

    into: str
    store: str
    feed: str
    form: str
    mode: int
    point: int


class BaseWanted(NamedTuple):
    """The feed's folder, the store whose tables are remembered, the mode of the files, the LSN as
    of which the rows are, and what the feed is of. The process is told it as a list of JSON."""

    feed: str
    store: str
    mode: int
    point: int
    system: str
    database: str
    slot: str


def rows_frame(oid: int, width: int, lines: list[bytes]) -> bytes:
    """The frame of some rows."""
    size = HEAD.size - 1 + sum(map(len, lines))
    return b"".join((HEAD.pack(b"d", size, oid, width), *lines))
