"""The bytes of frames, by what they say; for streams that are written by hand."""

import struct

RELATION = b"public\0t\0d\0\2" b"\1id\0" + struct.pack(">Ii", 23, -1) + b"\0v\0" + struct.pack(
    ">Ii", 25, -1
)
ROW = b"\0\2t\0\0\0\0011t\0\0\0\1a"
T, W = 16384, 16385
COPY_DONE = b"c\0\0\0\4"


def copy_data(payload: bytes) -> bytes:
    return b"d" + struct.pack(">I", len(payload) + 4) + payload


def data(body: bytes) -> bytes:
    """A logical message."""
    return copy_data(b"w" + bytes(24) + body)


def body_of(frame: bytes) -> bytes | None:
    """The logical message of a frame, where it has one."""
    return frame[30:] if frame[:1] == b"d" and frame[5:6] == b"w" and len(frame) > 30 else None


def with_body(frame: bytes, body: bytes) -> bytes:
    """The same frame with another logical message."""
    return copy_data(frame[5:30] + body)


def keepalive(end: int) -> bytes:
    return copy_data(struct.pack(">cQqB", b"k", end, 0, 0))


def begin(lsn: int, xid: int) -> bytes:
    return data(struct.pack(">cQqI", b"B", lsn, 0, xid))


def commit(lsn: int, end: int) -> bytes:
    return data(struct.pack(">cBQQq", b"C", 0, lsn, end, 0))


def of(letter: bytes, xid: int | None, rest: bytes) -> bytes:
    return data(letter + (b"" if xid is None else struct.pack(">I", xid)) + rest)


def relation(oid: int = T, xid: int | None = None) -> bytes:
    return of(b"R", xid, struct.pack(">I", oid) + RELATION)


def insert(oid: int = T, xid: int | None = None) -> bytes:
    return of(b"I", xid, struct.pack(">I", oid) + b"N" + ROW)


def update(oid: int = T, xid: int | None = None) -> bytes:
    return of(b"U", xid, struct.pack(">I", oid) + b"N" + ROW)


def delete(oid: int = T, xid: int | None = None) -> bytes:
    return of(b"D", xid, struct.pack(">I", oid) + b"O" + ROW)


def truncate(*oids: int, xid: int | None = None) -> bytes:
    return of(b"T", xid, struct.pack(f">IB{len(oids)}I", len(oids), 0, *oids))


def message(xid: int | None = None) -> bytes:
    return of(b"M", xid, b"\0" + bytes(8) + b"prefix\0" + struct.pack(">I", 1) + b"x")


def origin() -> bytes:
    return data(b"O" + bytes(8) + b"one\0")


def type_name(xid: int | None = None) -> bytes:
    return of(b"Y", xid, struct.pack(">I", 49152) + b"public\0mood\0")


def start(xid: int) -> bytes:
    return data(struct.pack(">cIB", b"S", xid, 1))


def again(xid: int) -> bytes:
    return data(struct.pack(">cIB", b"S", xid, 0))


def stop() -> bytes:
    return data(b"E")


def stream_commit(xid: int, lsn: int, end: int) -> bytes:
    return data(struct.pack(">cIBQQq", b"c", xid, 0, lsn, end, 0))


def abort(xid: int, subxid: int) -> bytes:
    return data(struct.pack(">cII", b"A", xid, subxid))


def pair(lsn: int, *inner: bytes, end: int | None = None, xid: int = 10) -> list[bytes]:
    """A whole transaction in a pair."""
    return [begin(lsn, xid), *inner, commit(lsn, lsn + 0x30 if end is None else end)]


def block(xid: int, *inner: bytes) -> list[bytes]:
    """The first block of a transaction."""
    return [start(xid), *inner, stop()]


def next_block(xid: int, *inner: bytes) -> list[bytes]:
    return [again(xid), *inner, stop()]


def a_row(lsn: int, xid: int = 10) -> list[bytes]:
    """A transaction that describes a table and inserts a row."""
    return pair(lsn, relation(), insert(), xid=xid)
