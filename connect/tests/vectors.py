"""Messages of a server, byte by byte, and readings of a server's publications."""

from __future__ import annotations

import contextlib
import struct
from collections.abc import Iterator, Sequence
from unittest import mock

from pgsub_connect.server.catalog import Catalog, Part, Partition, Publication, Table
from pgsub_feed.relation import Column, Shape

from .fake_server import with_level


@contextlib.contextmanager
def logged() -> Iterator[list[str]]:
    """The lines that are logged meanwhile."""
    lines: list[str] = []
    with mock.patch(
        "pgsub_feed.log.line", lambda level, text: lines.append(with_level(level, text))
    ):
        yield lines


# A column as in a Relation message: key flag, name, type and modifier.
Described = tuple[int, str, int, int]
ID, NAME = (1, "id", 23, -1), (0, "name", 25, -1)


def data(body: bytes, end: int = 0x500) -> bytes:
    """An XLogData."""
    return struct.pack(">cQQq", b"w", 0, end, 0) + body


def keepalive(end: int, asks: bool = False) -> bytes:
    return struct.pack(">cQqB", b"k", end, 0, asks)


def begin(lsn: int, xid: int) -> bytes:
    return data(struct.pack(">cQqI", b"B", lsn, 0, xid))


def commit(lsn: int, end: int) -> bytes:
    return data(struct.pack(">cBQQq", b"C", 0, lsn, end, 0))


def logical(lsn: int, flags: int = 1) -> bytes:
    """A logical message: 1 of a transaction, 0 of none."""
    return data(struct.pack(">cBQ", b"M", flags, lsn) + b"order\0\0\0\0\1x")


def start(xid: int, first: bool) -> bytes:
    return data(struct.pack(">cIB", b"S", xid, first))


def stop() -> bytes:
    return data(b"E")


def stream_commit(xid: int, lsn: int, end: int) -> bytes:
    return data(struct.pack(">cIBQQq", b"c", xid, 0, lsn, end, 0))


def stream_abort(xid: int, subxid: int) -> bytes:
    return data(struct.pack(">cII", b"A", xid, subxid))


def who(xid: int | None) -> bytes:
    """The xid that follows the letter in a block."""
    return b"" if xid is None else struct.pack(">I", xid)


def relation_body(
    oid: int, name: str, identity: str, columns: Sequence[Described], namespace: str = "public"
) -> bytes:
    parts = [
        struct.pack(">I", oid),
        namespace.encode(),
        b"\0",
        name.encode(),
        b"\0",
        identity.encode(),
    ]
    parts.append(struct.pack(">H", len(columns)))
    for key, column, type_oid, modifier in columns:
        parts += [bytes([key]), column.encode(), b"\0", struct.pack(">Ii", type_oid, modifier)]
    return b"".join(parts)


def relation(
    oid: int,
    name: str,
    columns: Sequence[Described] = (ID, NAME),
    identity: str = "d",
    xid: int | None = None,
) -> bytes:
    return data(b"R" + who(xid) + relation_body(oid, name, identity, columns))


def insert(oid: int, xid: int | None = None) -> bytes:
    return data(b"I" + who(xid) + struct.pack(">IcHcI", oid, b"N", 1, b"t", 1) + b"x")


def update(oid: int, xid: int | None = None) -> bytes:
    return data(b"U" + who(xid) + struct.pack(">IcHcI", oid, b"N", 1, b"t", 1) + b"x")


def delete(oid: int, xid: int | None = None) -> bytes:
    return data(b"D" + who(xid) + struct.pack(">IcHcI", oid, b"K", 1, b"t", 1) + b"x")


def truncate(*oids: int, xid: int | None = None) -> bytes:
    return data(b"T" + who(xid) + struct.pack(f">IB{len(oids)}I", len(oids), 0, *oids))


def message(xid: int | None = None) -> bytes:
    return data(
        b"M" + who(xid) + struct.pack(">BQ", 1, 0) + b"prefix\0" + struct.pack(">I", 2) + b"hi"
    )


def a_type(oid: int, xid: int | None = None) -> bytes:
    return data(b"Y" + who(xid) + struct.pack(">I", oid) + b"public\0mood\0")


def a_shape(
    columns: Sequence[Described] = (ID, NAME),
    identity: str = "d",
    numbers: Sequence[int] | None = None,
) -> Shape:
    numbers = numbers or range(1, len(columns) + 1)
    return Shape(
        identity,
        tuple(
            Column(name, oid, mod, bool(key), at)
            for (key, name, oid, mod), at in zip(columns, numbers)
        ),
    )


def a_table(
    oid: int,
    name: str,
    shape: Shape | None = None,
    *,
    kind: str = "r",
    part: Part | None = None,
    fresh: bool = False,
    schema: str = "public",
) -> Table:
    return Table(
        oid,
        schema,
        name,
        kind,
        shape or a_shape(),
        {"pgsub": part or Part(None, None, False)},
        fresh,
        fresh,
    )


ALL = ("insert", "update", "delete", "truncate")
PGSUB = Publication(900, False, ALL, False, False)


def a_catalog(
    *tables: Table,
    lsn: int = 100,
    highest: int = 1000,
    publication: Publication | None = PGSUB,
    partitions: Sequence[Partition] = (),
    types: dict[int, dict[str, str]] | None = None,
    names: Sequence[str] = ("pgsub",),
) -> Catalog:
    publications = {} if publication is None else {"pgsub": publication}
    return Catalog(
        tuple(names),
        lsn,
        highest,
        publications,
        {it.oid: it for it in tables},
        {it.oid: it for it in partitions},
        types or {},
    )
