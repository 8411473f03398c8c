"""The frames between the server and the filter, and the fields of their messages that are looked
at here.

PROTOCOL.md has the layouts; the letter is byte 25 of an XLogData, and in a block the xid of who
made a change or sent a Relation follows it.
"""

import struct
import time

from pgsub_feed.relation import Column, Relation, Shape

from ..server.copied_text import Heads

BEGIN, COMMIT, RELATION, TRUNCATE = b"BCRT"
START, STOP, STREAM_COMMIT, ABORT = b"SEcA"
CHANGES = b"IUD"
# Where the OID of a change ends, outside of a block and in one.
OUTSIDE, INSIDE = 30, 34
# How many bytes of a Begin or Stream Commit are read, and of any message: its LSN.
HEAD, AT = 55, 17
# 2000-01-01, from which the server counts, in seconds since 1970.
EPOCH = 946684800


def clock() -> int:
    """The time as the server counts it, in microseconds since 2000."""
    return round((time.time() - EPOCH) * 1000000)


def number(text: bytes) -> int:
    return int.from_bytes(text, "big")


def xid_of(message: bytes) -> int:
    """The xid in a Begin or Stream Commit."""
    return number(message[42:46] if message[25:26] == b"B" else message[26:30])


def final_lsn(message: bytes) -> int:
    """The final LSN in a Begin or Stream Commit: that of the commit's own record."""
    return number(message[26:34] if message[25:26] == b"B" else message[31:39])


def commit_time(message: bytes) -> float:
    """The commit's time in a Begin or Stream Commit, in seconds since 1970."""
    return EPOCH + number(message[34:42] if message[25:26] == b"B" else message[47:55]) / 1000000


def identity_of(body: bytes) -> str:
    """The replica identity in a Relation message from its OID on; "" where it is none."""
    return body[4:].partition(b"\0")[2].partition(b"\0")[2][:1].decode(errors="replace")


def relation_of(body: bytes) -> Relation | None:
    """A Relation message from its OID on; None where it is none, which the filter tells."""
    try:
        namespace = body.index(b"\0", 4)
        name = body.index(b"\0", namespace + 1)
        identity, count = struct.unpack_from(">cH", body, name + 1)
        columns, at = [], name + 4
        # (what is left is never copied: there may be as many columns as an Int16 counts)
        for _ in range(count):
            end = body.index(b"\0", at + 1)
            type_oid, modifier = struct.unpack_from(">Ii", body, end + 1)
            columns.append(Column(body[at + 1 : end].decode(), type_oid, modifier, body[at] == 1))
            at = end + 9
        shape = Shape(identity.decode(), tuple(columns))
        schema = body[4:namespace].decode() or "pg_catalog"
        return Relation(number(body[:4]), schema, body[namespace + 1 : name].decode(), shape)
    except (ValueError, IndexError, struct.error):
        return None


# A status: CopyData of 34 bytes, `r`, then written, flushed, applied, clock and ask.
STATUS = 39
STATUS_HEAD = b"d\x00\x00\x00\x26r"
COPY_DONE = b"c\x00\x00\x00\x04"


def flushed(payload: bytes) -> int:
    """The LSN up to which a status confirms."""
    return int.from_bytes(payload[9:17], "big")


def without_received(payload: bytes) -> bytes:
    """A status that claims no more than is confirmed: what holds after a disconnection."""
    return payload[:1] + payload[9:17] + payload[9:]


def lowered(payload: bytes, lsn: int) -> bytes:
    """A status that confirms less than another one: up to this LSN."""
    return payload[:9] + 2 * lsn.to_bytes(8, "big") + payload[25:]


def asking(payload: bytes) -> bytes:
    """A status that asks the server for an answer."""
    return payload[:-1] + b"\x01"


# The five bytes before the payload of a CopyData, by the payload's length.
HEADERS = Heads(lambda length: struct.pack(">ci", b"d", length + 4))
