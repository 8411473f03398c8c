"""Digests of a table's rows, computed by the server in SQL and here over the rows of a copy.

A row's text has for each field its value as the server prints it, after the value's length in bytes
and a colon, or `n` for null: so no two rows have one text. Its SHA-256 counts by two words of 32
bits, which are added up for each chunk of the table, beside how many rows there are. A row is in
the chunk that a hash of its key says, or one of all of it where the table has no key; so a row
whose other fields differ is in the same chunk on both sides. Sums, and not the exclusive or: two
equal rows are to count twice.
"""

import array
from collections.abc import Sequence

from pgsub_feed.tables.digests import (
    CHUNK_WORD,
    FIRST_WORD,
    SECOND_WORD,
    Field,
    FieldTexts,
    hash_of,
    text_of,
    words_of,
)
from pgsub_feed.tables.values import BINARY, NULL, TEXT, Malformed
from pgsub_feed.texts import identifier

from ..server.catalog import Table

# How many rows a chunk has on average, and how many chunks a table has at most.
ROWS, MOST_CHUNKS = 256, 1 << 16
# The most arguments that are given to a function of the server; it takes 100.
MOST_ARGUMENTS = 50
UTF8 = "UTF8"


class NotText(Exception):
    """A value in binary form, which has no text here."""


def fields_of(body: bytes, width: int) -> list[Field]:
    """The fields of a stored row: an Int16 count, and of each a letter, and of one that isn't null
    an Int32 length and the value."""
    if int.from_bytes(body[:2], "big") != width:
        raise Malformed
    at, size, fields = 2, len(body), list[Field]()
    for _ in range(width):
        letter = body[at] if at < size else 0
        if letter == NULL:
            fields.append(None)
            at += 1
            continue
        first = at + 5
        at = first + int.from_bytes(body[at + 1 : first], "big")
        if letter not in (TEXT, BINARY) or at > size or first > size:
            raise Malformed
        if letter == BINARY:
            raise NotText
        fields.append(body[first:at])
    if at != size:
        raise Malformed
    return fields


def chunks_for(rows: int) -> int:
    """How many chunks a table of about so many rows has: a power of two."""
    return min(MOST_CHUNKS, 1 << max(0, (rows // ROWS).bit_length()))


class Plan:
    """How a table is digested: which of its columns are the key, and how many chunks it has."""

    def __init__(self, table: Table, chunks: int) -> None:
        self.table, self.chunks, self.width = table, chunks, len(table.columns)
        is_keyed = table.identity in ("d", "i")
        # (a column list may leave out a part of the key: then several rows may have the rest)
        self.key = [at for at, column in enumerate(table.columns) if column.key and is_keyed]

    def key_text(self, fields: FieldTexts, text: bytes) -> bytes:
        """The text of a row's key, which is all of it in a table without one."""
        return text_of([fields[at] for at in self.key]) if self.key else text

    def chunk_of(self, key: bytes) -> int:
        return int(words_of(hash_of(key))[CHUNK_WORD]) & (self.chunks - 1)


class Sums:
    """Of each chunk of a table: how many rows it has, and the sums of two words of their hashes."""

    def __init__(self, chunks: int) -> None:
        self.rows, self.first, self.second = (array.array("q", bytes(8 * chunks)) for _ in range(3))

    def set(self, chunk: int, rows: int, first: int, second: int) -> None:
        self.rows[chunk], self.first[chunk], self.second[chunk] = rows, first, second

    def total(self) -> int:
        return sum(self.rows)

    def differing(self, other: "Sums") -> list[int]:
        """The chunks that aren't the same."""
        both = (zip(it.rows, it.first, it.second) for it in (self, other))
        return [chunk for chunk, (one, two) in enumerate(zip(*both)) if one != two]


class Summing:
    """Adds up the rows of a copy."""

    def __init__(self, plan: Plan) -> None:
        self.plan, self.sums = plan, Sums(plan.chunks)

    def add(self, body: bytes, copies: int) -> None:
        """Adds a stored row that is there so often."""
        self.add_fields(fields_of(body, self.plan.width), copies)

    def add_fields(self, fields: FieldTexts, copies: int) -> None:
        """Adds a row by its fields."""
        plan, sums = self.plan, self.sums
        text = text_of(fields)
        words = words_of(hash_of(text))
        key = words_of(hash_of(plan.key_text(fields, text))) if plan.key else words
        chunk = key[CHUNK_WORD] & (plan.chunks - 1)
        sums.rows[chunk] += copies
        sums.first[chunk] += copies * words[FIRST_WORD]
        sums.second[chunk] += copies * words[SECOND_WORD]


class Queries:
    """What is asked about a table. `encoding`: the server's; texts are digested in UTF-8."""

    def __init__(self, plan: Plan, encoding: str) -> None:
        self.plan, self.encoding = plan, encoding

    def encoded(self, text: str) -> str:
        """A text in UTF-8: bytes."""
        return f"pg_catalog.convert_to({text}, '{UTF8}')"

    def field(self, name: str) -> str:
        """A field of the row's text. A text that is null makes the whole of it null."""
        counted = name if self.encoding == UTF8 else self.encoded(name)
        return f"COALESCE(pg_catalog.octet_length({counted}) || ':' || {name}, 'n')"

    def joined(self, indexes: Sequence[int]) -> str:
        """The text of these columns' fields."""
        parts = [self.field(f"t{index}") for index in indexes] or ["''"]
        while len(parts) > 1:
            starts = range(0, len(parts), MOST_ARGUMENTS)
            several = (", ".join(parts[at : at + MOST_ARGUMENTS]) for at in starts)
            parts = [f"pg_catalog.concat({it})" for it in several]
        return parts[0]

    def rows(self) -> str:
        """The texts of each row `r` and its key `k`.

        A value's text is what its type prints, by concat: a cast gives other ones, of bool and
        char(n) say. IS NULL holds of a row type's value whose fields are null. (OFFSET 0 keeps the
        server from printing a value anew at each place.)
        """
        columns = ", ".join(
            f"CASE WHEN {identifier(it.name)} IS DISTINCT FROM NULL THEN pg_catalog.concat({identifier(it.name)}) END AS t{index}"
            for index, it in enumerate(self.plan.table.columns)
        )
        printed = f"SELECT {columns} {self.plan.table.source()} OFFSET 0"
        key = f", {self.joined(self.plan.key)} AS k" if self.plan.key else ""
        return f"SELECT {self.joined(range(self.plan.width))} AS r{key} FROM ({printed}) v OFFSET 0"

    def hashed(self, text: str) -> str:
        return f"pg_catalog.encode(pg_catalog.sha256({self.encoded(text)}), 'hex')"

    def word(self, text: str, word: int) -> str:
        """A word of a hash, by its hexadecimal digits."""
        return f"('x' || pg_catalog.substr({text}, {8 * word + 1}, 8))::bit(32)::integer"

    def chunk(self, text: str) -> str:
        if self.plan.chunks == 1:
            return "0"
        return f"({self.word(text, CHUNK_WORD)} & {self.plan.chunks - 1})"

    def sums(self) -> str:
        """Of each chunk that has rows: its number, how many, and the two sums."""
        is_keyed = self.plan.key and self.plan.chunks > 1
        key, name = (f", {self.hashed('k')} AS k", "k") if is_keyed else ("", "h")
        hashed = f"SELECT {self.hashed('r')} AS h{key} FROM ({self.rows()}) s OFFSET 0"
        return (
            f"SELECT w.c, pg_catalog.count(*), pg_catalog.sum(w.a), pg_catalog.sum(w.b) FROM (SELECT {self.chunk(name)} AS c,"
            f" {self.word('h', FIRST_WORD)} AS a, {self.word('h', SECOND_WORD)} AS b FROM ({hashed}) d) w GROUP BY w.c"
        )

    def texts(self, chunks: Sequence[int]) -> str:
        """The COPY of the row texts of some chunks, or of all where none is named, in the order of
        their keys' bytes and then their own."""
        name = "k" if self.plan.key else "r"
        ordered = ", ".join(dict.fromkeys((self.encoded(name), self.encoded("r"))))
        chunk, some = self.chunk(self.hashed(name)), ", ".join(map(str, chunks))
        where = f"WHERE {chunk} IN ({some}) " if chunks else ""
        return f"COPY (SELECT s.r FROM ({self.rows()}) s {where}ORDER BY {ordered}) TO STDOUT"
