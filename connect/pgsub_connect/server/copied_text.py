"""Rows in COPY's text format, as tuples of the protocol.

Lines are encoded a block at a time and column by column, since a call for each value costs more
than all else. Within a line only the server's own tabs and newlines are tabs and newlines: those of
values come as `\\t` and `\\n`.
"""

import re
import struct
from collections.abc import Callable

from ..errors import WrongAnswer

NULL = b"\\N"
ESCAPES = {b"\\b": b"\b", b"\\f": b"\f", b"\\n": b"\n", b"\\r": b"\r", b"\\t": b"\t", b"\\v": b"\v"}
OTHER = re.compile(rb"\\(.)", re.S)
# The heads of what is no longer than this are kept.
KEPT = 1 << 12


class Heads(dict[int, bytes]):
    """What comes before something, by its length."""

    def __init__(self, make: Callable[[int], bytes]) -> None:
        super().__init__()
        self.make = make

    def __missing__(self, length: int) -> bytes:
        head = self.make(length)
        if length < KEPT:
            self[length] = head
        return head


# Those of values.
CELL_HEADS = Heads(lambda length: struct.pack(">cI", b"t", length))


def unescaped(text: bytes) -> bytes:
    """The value of a text, in whose pieces between escaped backslashes escapes stand alone."""
    pieces = text.split(b"\\\\")
    for index, piece in enumerate(pieces):
        if b"\\" in piece:
            for escape, character in ESCAPES.items():
                piece = piece.replace(escape, character)
            pieces[index] = OTHER.sub(rb"\1", piece) if b"\\" in piece else piece
    return b"\\".join(pieces)


def encoded(column: list[bytes]) -> tuple[list[bytes], list[bytes]]:
    """The heads and the values of a column's texts."""
    if b"\\" not in b"".join(column):
        return list(map(CELL_HEADS.__getitem__, map(len, column))), column
    values = [
        text if b"\\" not in text else None if text == NULL else unescaped(text) for text in column
    ]
    heads = [b"n" if value is None else CELL_HEADS[len(value)] for value in values]
    return heads, [value or b"" for value in values]


def put_cells(text: bytes, width: int, parts: list[bytes]) -> None:
    """Puts lines' cells into parts: of each line one is free, and two follow for each cell."""
    texts, step = text[:-1].replace(b"\n", b"\t").split(b"\t"), 2 * width + 1
    if len(texts) * step != width * len(parts):
        raise WrongAnswer(f"the server copied rows of another width than {width} columns")
    for index in range(width):
        parts[2 * index + 1 :: step], parts[2 * index + 2 :: step] = encoded(texts[index::width])


def tuples(text: bytes, width: int) -> list[bytes]:
    """The tuples of lines."""
    head, step = struct.pack(">H", width), 2 * width + 1
    parts = [head] * (text.count(b"\n") * step)
    if width:
        put_cells(text, width, parts)
    return [b"".join(parts[at : at + step]) for at in range(0, len(parts), step)]
