"""Messages of a PostgreSQL server, for servers in small (connect/tests/small_server.py) and for one
that lies (tools/hostile)."""

from __future__ import annotations

import struct
from collections.abc import Sequence

READY = b"Z\0\0\0\x05I"
COPY_BOTH = b"W\0\0\0\x07\0\0\0"


def message(tag: bytes, body: bytes) -> bytes:
    return tag + struct.pack(">i", len(body) + 4) + body


def fields(**values: str) -> bytes:
    return b"".join(tag.encode() + text.encode() + b"\0" for tag, text in values.items()) + b"\0"


def error(text: str, sqlstate: str, tag: bytes = b"E", function: str = "x") -> bytes:
    return message(tag, fields(S="ERROR", V="ERROR", C=sqlstate, M=text, R=function))


def described(width: int) -> bytes:
    """What comes before rows of so many columns, in text format."""
    column = b"c\0" + struct.pack(">ihihih", 0, 0, 25, -1, -1, 0)
    return message(b"T", struct.pack(">h", width) + column * width)


def row(*values: bytes | None) -> bytes:
    cells = (
        struct.pack(">i", -1) if it is None else struct.pack(">i", len(it)) + it for it in values
    )
    return message(b"D", struct.pack(">h", len(values)) + b"".join(cells))


def command_done(text: str) -> bytes:
    return message(b"C", text.encode() + b"\0")


def answered(rows: Sequence[Sequence[str | None]]) -> bytes:
    """The messages of a query's result."""
    texts = (row(*(None if it is None else it.encode() for it in cells)) for cells in rows)
    return b"".join([described(len(rows[0]) if rows else 0), *texts, command_done("SELECT 1")])
