"""The rows of a store, read into values of SQLite.

A row has an Int16 count, and of each cell a letter, and of one that isn't null an Int32 length and
the bytes. Rows with texts and nulls alone are read at once, column by column: the type is looked at
once for all texts of a column. Where one of them isn't as most are, as NaN, each text of the column
is read by itself; what else there is, and what is wrong, each row tells by itself.
"""

import itertools
import struct
from collections.abc import Callable, Sequence
from operator import itemgetter, methodcaller

from .values import (
    BINARY,
    GREATEST,
    LEAST,
    NULL,
    TEXT,
    Kind,
    Malformed,
    Read,
    Unlike,
    Value,
    read_bool,
    read_float,
    read_int,
)

# A text, or null.
Text = str | None
# Reads the texts of a column. A ValueError says that one isn't as most are, or is none.
ReadTexts = Callable[[Sequence[str]], list[Value]]

# The bytes of numbers with commas between them, and what Python reads and they haven't.
INTEGER, NUMBER = b"0123456789-,", b"0123456789-,.e+"
NO_NUMBERS = ",.", "-.", ".,", ".e", ",+"
BOOLS = {"t": 1, "f": 0}


def integers(texts: Sequence[str]) -> list[Value]:
    if ",".join(texts).encode().translate(None, INTEGER):
        raise ValueError
    found = [*map(int, texts)]
    if not (LEAST <= min(found, default=0) and max(found, default=0) <= GREATEST):
        raise ValueError
    return [*found]


def numbers(texts: Sequence[str]) -> list[Value]:
    joined = f",{','.join(texts)},"
    if joined.encode().translate(None, NUMBER) or any(it in joined for it in NO_NUMBERS):
        raise ValueError
    return [*map(float, texts)]


def bools(texts: Sequence[str]) -> list[Value]:
    if not BOOLS.keys() >= {*texts}:
        raise ValueError
    return [BOOLS[it] for it in texts]


QUICK: dict[Read, ReadTexts] = {read_int: integers, read_bool: bools, read_float: numbers}


class Column:
    """A column of SQLite: of which one of the rows' columns it is, by its index, and what reads
    its texts, None where they stay as they are."""

    def __init__(self, at: int, kind: Kind) -> None:
        self.at, (name, self.read, _) = at, kind
        self.is_text = name == "TEXT"
        self.quick = numbers if name == "REAL" else QUICK.get(self.read, self.each)

    def each(self, texts: Sequence[str]) -> list[Value]:
        return [self.read(it.encode()) for it in texts]

    def values(self, cells: Sequence[Text]) -> Sequence[Value]:
        """The values of its cells. A ValueError says that one isn't a value of the type."""
        if self.is_text:
            return cells
        texts = [it for it in cells if it is not None]
        try:
            values = self.quick(texts)
        except ValueError:
            values = self.each(texts)
        if len(values) == len(cells):
            return values
        left = iter(values)
        return [None if it is None else next(left) for it in cells]


class Typed:
    """A table's columns: of each of its rows' those that it becomes in SQLite."""

    def __init__(self, several: Sequence[Sequence[Kind]]) -> None:
        self.width = len(several)
        self.columns = [Column(at, kind) for at, kinds in enumerate(several) for kind in kinds]
        self.is_wider = len(self.columns) > self.width

    def values(self, cells: Sequence[Text]) -> list[Value]:
        """The values of rows, one row's after the other's, by their cells in the same order. A
        ValueError says that one isn't a value of its type."""
        values: list[Value] = [*cells]
        width = len(self.columns)
        if self.is_wider:
            values = [None] * (len(cells) // self.width * width)
        for place, column in enumerate(self.columns):
            if self.is_wider or not column.is_text:
                values[place::width] = column.values(cells[column.at :: self.width])
        return values


# What is before a text of less than 256 bytes, but the last byte of its length.
SHORT = b"t\0\0\0"
# A row of more bytes is read by itself, in less memory.
LARGE = 1 << 20
LENGTH = struct.Struct(">I").unpack_from
# A byte is a character, so that those of a text are where its bytes are.
BYTES = "latin-1"

shorts_in = methodcaller("count", SHORT)
first_of, rest_of = itemgetter(0), itemgetter(slice(1, None))


def row_reader(columns: Sequence[Sequence[Kind]]) -> Callable[[bytes], list[Value]]:
    """What reads a row into values: of each column, one for each that it becomes."""
    count = len(columns).to_bytes(2, "big")

    def read_row(body: bytes) -> list[Value]:
        at, first, index, values = 2, 2, 0, list[Value]()
        try:
            for index, kinds in enumerate(columns):
                if (letter := body[at]) == NULL:
                    values += [None] * len(kinds)
                    at += 1
                    continue
                first = at + 5
                at = first + LENGTH(body, at + 1)[0]
                cell = body[first:at]
                if letter == TEXT:
                    values += [read(cell) for _, read, _ in kinds]
                elif letter == BINARY:
                    values += [read(cell) for _, _, read in kinds]
                else:
                    raise Malformed
        except (IndexError, struct.error):
            raise Malformed from None
        except ValueError:
            # (what was cut may be no value either)
            if at > len(body):
                raise Malformed from None
            raise Unlike(index, body[first:at]) from None
        if at != len(body) or body[:2] != count:
            raise Malformed
        return values

    return read_row


def rows_reader(columns: Sequence[Sequence[Kind]]) -> Callable[[Sequence[bytes]], list[Value]]:
    """What reads rows into values, one row's after the other's."""
    read_row, typed, width = row_reader(columns), Typed(columns), len(columns)

    def read_rows(bodies: Sequence[bytes]) -> list[Value]:
        try:
            return typed.values(texts_of(bodies, width))
        except (ValueError, IndexError, struct.error):
            return [*itertools.chain.from_iterable(map(read_row, bodies))]

    return read_rows


def texts_of(bodies: Sequence[bytes], width: int) -> Sequence[Text]:
    """The cells of rows with so many, where all are texts and nulls. An error of Python's says that
    they aren't, or that these are no such rows."""
    if max(map(len, bodies), default=0) > LARGE:
        raise ValueError
    are_short = {*map(shorts_in, bodies)} == {width}
    cells = short_texts(bodies, width) if are_short else any_texts(bodies, width)
    if all(map(bytes.isascii, bodies)):
        return cells
    return [it if it is None or it.isascii() else it.encode(BYTES).decode() for it in cells]


def short_texts(bodies: Sequence[bytes], width: int) -> Sequence[Text]:
    """The cells of rows that each have what is before a short text as often as cells: so each cell
    begins where that is, and ends where the next one is, or the row."""
    pieces = SHORT.join(bodies).decode(BYTES).split(SHORT.decode())
    if {*pieces[:: width + 1]} != {width.to_bytes(2, "big").decode(BYTES)}:
        raise ValueError
    del pieces[:: width + 1]
    texts = [*map(rest_of, pieces)]
    if "".join(map(first_of, pieces)).encode(BYTES) != bytes(map(len, texts)):
        raise ValueError
    return texts


def any_texts(bodies: Sequence[bytes], width: int) -> Sequence[Text]:
    """The cells of rows, whatever texts these have."""
    cells, count = list[Text](), width.to_bytes(2, "big")
    for body in bodies:
        text, at = body.decode(BYTES), 2
        for _ in range(width):
            if body[at] == NULL:
                cells.append(None)
                at += 1
                continue
            if body[at] != TEXT:
                raise ValueError
            first = at + 5
            at = first + LENGTH(body, at + 1)[0]
            cells.append(text[first:at])
        if at != len(body) or body[:2] != count:
            raise ValueError
    return cells
