"""A feed's text to the byte: what readers are tried on, and what the program's is compared with."""

from __future__ import annotations

import contextlib
import json
import re
import zlib
from collections.abc import Sequence
from dataclasses import dataclass
from pathlib import Path
from typing import Any

SEGMENT_SIZE, COMMIT_SIZE = 1024, 256
# what a segment is named until it has its head
NEW_NAME = "segment.new"
# from 1970 to 2000, in microseconds
EPOCH = 946684800000000


class Unsent:
    """A cell that the server hasn't sent."""

    def __repr__(self) -> str:
        return "UNSENT"


UNSENT = Unsent()
# a text, a binary value, null
Cell = str | bytes | None | Unsent
Row = Sequence[Cell]


@dataclass(frozen=True)
class Column:
    name: str
    type_oid: int
    modifier: int = -1
    key: bool = False


@dataclass(frozen=True)
class Definition:
    """What a Relation message says; an empty schema is pg_catalog."""

    oid: int
    schema: str
    table: str
    letter: str
    columns: tuple[Column, ...]

    def is_keyed(self) -> bool:
        return self.letter in ("d", "i") and any(it.key for it in self.columns)


@dataclass(frozen=True)
class Line:
    """A change: `op` is c, u, d or t, or x of one that found no row, which has what was sent: a
    kind, K or O, with the old tuple."""

    definition: Definition
    op: str
    before: Row | None = None
    after: Row | None = None
    kind: str | None = None


@dataclass(frozen=True)
class Message:
    """A logical message: where it ends in the log, its prefix and what it has."""

    lsn: int
    prefix: str
    content: bytes


# What the commits of tests are given.
Lines = Sequence[Line]
Messages = Sequence[Message]


@dataclass(frozen=True)
class About:
    """The final LSN, the xid, and the time in microseconds since 2000."""

    final: int
    xid: int
    time: int


def compact(value: Any) -> str:
    return json.dumps(value, ensure_ascii=False, separators=(",", ":"))


def lsn_text(lsn: int) -> str:
    return f"{lsn >> 32:X}/{lsn & 0xFFFFFFFF:X}"


def padded(size: int, text: str) -> bytes:
    body = text.encode()
    return body + b" " * (size - 1 - len(body)) + b"\n"


def segment_name(base: int) -> str:
    return f"{base:016X}"


def segment_head(base: int, system: str, database: str, slot: str) -> bytes:
    what = f'"system":{compact(system)},"database":{compact(database)},"slot":{compact(slot)}'
    return padded(SEGMENT_SIZE, f'{{"feed":4,"base":"{lsn_text(base)}",{what}}}')


def closing_line(end: int) -> bytes:
    """The last line of a segment that is full: the LSN at which it ends."""
    return padded(COMMIT_SIZE, f'{{"last":"{lsn_text(end)}"}}')


def about_text(about: About | None) -> str:
    if about is None:
        return '"lsn":null,"xid":null,"ts_us":null'
    return f'"lsn":"{lsn_text(about.final)}","xid":{about.xid},"ts_us":{about.time + EPOCH}'


def commit_line(end: int, prev: int, body: bytes, changes: int, about: About | None) -> bytes:
    """The line of a commit, behind which these bytes follow. Its checksum is that of what stands
    before it, and of these."""
    front = f'{{"end":"{lsn_text(end)}","prev":"{lsn_text(prev)}","bytes":{len(body)},'
    told = f'{front}"changes":{changes},{about_text(about)}'
    return padded(COMMIT_SIZE, f'{told},"crc":{zlib.crc32(told.encode() + body)}}}')


def summed(text: bytes) -> bytes:
    """The text of a commit that somebody has changed, whose line gets the checksum of what it has
    now."""
    told, size = text[: text.index(b',"crc":')], re.search(rb'"bytes":(\d+)', text)
    assert size
    crc = zlib.crc32(told + text[COMMIT_SIZE : COMMIT_SIZE + int(size[1])])
    line = told + b',"crc":%d}' % crc
    return line.ljust(COMMIT_SIZE - 1) + b"\n" + text[COMMIT_SIZE:]


def cell_value(cell: Cell) -> Any:
    if isinstance(cell, Unsent):
        return {"unchanged": True}
    return {"hex": cell.hex()} if isinstance(cell, bytes) else cell


def row_text(row: Row | None) -> str:
    return compact(None if row is None else [cell_value(it) for it in row])


def content_value(content: bytes) -> Any:
    """What is no text of UTF-8, or has U+0000, is in hexadecimal."""
    with contextlib.suppress(UnicodeDecodeError):
        if b"\0" not in content:
            return content.decode()
    return {"hex": content.hex()}


def message_line(it: Message) -> bytes:
    told = f'"prefix":{compact(it.prefix)},"content":{compact(content_value(it.content))}'
    return f'{{"op":"m","lsn":"{lsn_text(it.lsn)}",{told}}}\n'.encode()


def table_line(it: Definition) -> bytes:
    key = [column.name for column in it.columns if column.key] if it.is_keyed() else None
    columns = [[column.name, column.type_oid, column.modifier] for column in it.columns]
    named = f'"schema":{compact(it.schema or "pg_catalog")},"table":{compact(it.table)},"identity":{compact(it.letter)}'
    return f'{{"op":"table","oid":{it.oid},{named},"key":{compact(key)},"columns":{compact(columns)}}}\n'.encode()


def change_line(at: int, n: int, it: Line) -> bytes:
    front = f'{{"op":"{it.op}","at":{at},"n":{n},'
    if it.op == "x":
        old = None if it.kind is None else [it.kind, [cell_value(cell) for cell in it.before or ()]]
        sent = "d" if it.after is None else "u"
        return (
            f'{front}"sent":"{sent}","old":{compact(old)},"new":{row_text(it.after)}}}\n'.encode()
        )
    return f'{front}"before":{row_text(it.before)},"after":{row_text(it.after)}}}\n'.encode()


# The definition of each relation that a segment told last, and at which offset its line begins.
Told = dict[int, tuple[Definition, int]]


def body_text(lines: Lines, told: Told, start: int, messages: Messages = ()) -> bytes:
    """The lines of a commit, which begin at an offset of the segment: those of messages, then before
    a change its definition, unless it is told. What they tell is told then."""
    body = b"".join(map(message_line, messages))
    for n, line in enumerate(lines):
        definition = line.definition
        known, at = told.get(definition.oid, (None, 0))
        if known != definition:
            at = start + len(body)
            told[definition.oid] = definition, at
            body += table_line(definition)
        body += change_line(at, n, line)
    return body


def entry_text(
    prev: int,
    end: int,
    lines: Lines,
    about: About | None = None,
    told: Told | None = None,
    size: int = SEGMENT_SIZE,
    messages: Messages = (),
) -> bytes:
    """The text of a commit behind so many bytes of a segment, which has told these definitions."""
    body = body_text(lines, {} if told is None else told, size + COMMIT_SIZE, messages)
    return commit_line(end, prev, body, len(lines), about) + body


class Writer:
    """Writes a feed's folder. A segment ends before the commit that would pass `most` bytes, unless
    it has none yet."""

    def __init__(
        self,
        folder: Path,
        base: int = 0,
        most: int = 1 << 30,
        named: tuple[str, str, str] = ("7", "shop", "pgsub"),
    ) -> None:
        self.folder, self.at, self.most, self.named = folder, base, most, named
        self.begin()

    def begin(self) -> None:
        """Makes the segment that begins here, which has its head before it has its name."""
        self.path, new = self.folder / segment_name(self.at), self.folder / NEW_NAME
        self.size = new.write_bytes(segment_head(self.at, *self.named))
        self.is_empty = True
        self.told: Told = {}
        new.replace(self.path)

    def put(self, text: bytes) -> None:
        with open(self.path, "ab") as file:
            file.write(text)
        self.size += len(text)

    def put_behind(self, offset: int, text: bytes) -> None:
        """Puts a part of a commit so many bytes behind the last one, which doesn't count yet."""
        with open(self.path, "r+b") as file:
            file.seek(self.size + offset)
            file.write(text)

    def text(
        self,
        end: int,
        lines: Lines,
        about: About | None = None,
        messages: Messages = (),
    ) -> bytes:
        """Makes room for a commit; its text, which is to be put next."""
        told = self.told.copy()
        text = entry_text(self.at, end, lines, about, told, self.size, messages)
        if not self.is_empty and self.size + len(text) > self.most:
            self.end()
            told = self.told.copy()
            text = entry_text(self.at, end, lines, about, told, self.size, messages)
        self.at, self.is_empty, self.told = end, False, told
        return text

    def commit(
        self, end: int, lines: Lines = (), about: About | None = None, messages: Messages = ()
    ) -> None:
        self.put(self.text(end, lines, about, messages))

    def end(self) -> None:
        """Closes the segment, and begins the next."""
        self.put(closing_line(self.at))
        self.begin()

    def confirm(self, lsn: int) -> None:
        new = self.folder / "confirmed.new"
        new.write_text(lsn_text(lsn) + "\n")
        new.replace(self.folder / "confirmed")
