"""The lines of the checkpoint `STORE.connector`.

It has two of the same kind, each with room for the longest names and all findings, and written in
turns: as long as one isn't whole the other one counts. A line is one object of JSON:

| Field | Means |
|---|---|
| `version` | 4 |
| `crc32` | the checksum of the version and of what follows in the line, as eight digits |
| `number` | the line with the higher one was written last |
| `known` | what is known of the store |
| `counted` | of changes that found no row, null where none are counted yet |

A text ends with a line feed and blanks fill the rest, which nobody reads: so one that is shorter
than a sector of the disk is there or not, as the disk finishes each sector it begins.
"""

import dataclasses
import json
import os
import re
import zlib
from typing import Annotated, Any

from pgsub_feed.errors import FileError, told_of
from pgsub_feed.json_texts import Unreadable, lsn_of, parsed, text_of
from pgsub_feed.json_values import Form, Oid, form_of, unkept
from pgsub_feed.texts import lsn_text

from ..status.state import Counted

VERSION, SIZE = 4, 4096
TEXT = json.JSONEncoder(separators=(",", ":"))
LINE = re.compile(rb'\{"version":([0-9]{1,9}),"crc32":"([0-9a-f]{8})",(.*)', re.DOTALL)
NEW, COPYING, SLOT, COPIED, FOLLOWING = "new", "copying", "slot", "copied", "following"
PHASES = (NEW, COPYING, SLOT, COPIED, FOLLOWING)
# those with a copy that the next start goes on with
INTERRUPTED = (SLOT, COPIED)


def lsn_or_none(value: Any) -> str:
    """The text of an LSN, or none."""
    return lsn_text(lsn_of(value)) if value else text_of(value)


LsnText = Annotated[str, Form(lsn_or_none)]


@dataclasses.dataclass
class Known:
    """What is known of the store."""

    phase: str = NEW
    system: str = ""
    database: str = ""
    slot: str = ""
    timeline: int = 0
    started: int = 0
    confirmed: int = 0
    position: int = 0
    found: dict[str, LsnText] = dataclasses.field(default_factory=dict)
    skipped: LsnText = ""
    adding: dict[Oid, int] = dataclasses.field(default_factory=dict)
    encrypted: bool = False
    tables: str = ""
    repeats: int = 0
    publications: int = 0

    def move(self, confirmed: int, position: int) -> None:
        """The store is further."""
        self.confirmed, self.position = confirmed, position


@dataclasses.dataclass(frozen=True)
class Line:
    """A line. `at`: which of the two places has it."""

    number: int
    known: Known
    counted: Counted | None
    at: int = unkept(1)


READ = form_of(Line)


def line_of(number: int, known: str, counted: Counted | None) -> bytes:
    """A line, of which `known` is spelled already. Its length is what has to fit."""
    rest = f'"number":{number},"known":{known},"counted":{spelled_counted(counted)}}}\n'.encode()
    return b'{"version":%d,"crc32":"%08x",%b' % (VERSION, checksum(VERSION, rest), rest)


def spelled_counted(it: Counted | None) -> str:
    """Its text, as TEXT has it. It is written for most of the statuses, and is numbers alone."""
    if it is None:
        return "null"
    gap = "null" if it.gap is None else f"[{it.gap[0]},{it.gap[1]}]"
    rest = f'"count":{it.count},"first":{it.first},"relation":{it.relation},"gap":{gap}'
    return f'{{"since":{it.since},"upto":{it.upto},{rest}}}'


def checksum(version: int, rest: bytes) -> int:
    return zlib.crc32(rest, version)


def padded(line: bytes) -> bytes:
    return line.ljust(SIZE - 1) + b"\n"


def read_lines(content: bytes, path: str) -> Line:
    """The line that counts of a file's content. An empty file knows nothing yet."""
    try:
        found = [
            it for at in (0, 1) if (it := read_line(content[at * SIZE : (at + 1) * SIZE], at, path))
        ]
        if found:
            return max(found, key=lambda it: it.number)
        if not content.strip(b"\0 \n"):
            return Line(0, Known(), None)
    except Unreadable:
        pass
    raise FileError(
        f"{path}: not a checkpoint of this program, or a spoiled one: put back a backup of all"
        " files of the store, or remove them to copy anew"
    )


def read_line(content: bytes, at: int, path: str) -> Line | None:
    """The line in one of the places; None where none is whole."""
    found = LINE.match(content[: content.find(b"\n") + 1])
    if not found or checksum(version := int(found[1]), found[3]) != int(found[2], 16):
        return None
    if version != VERSION:
        raise FileError(f"{path}: of another version of this program ({version}): install that one")
    said = parsed(b"{" + found[3])
    line: Line = READ.read(said)
    if line.known.phase not in PHASES or READ.written(line) != said:
        raise Unreadable("of another program")
    return dataclasses.replace(line, at=at)


def read_file(file: int, path: str) -> Line:
    """The line that counts of an open file."""
    with told_of(path):
        return read_lines(os.pread(file, 2 * SIZE, 0), path)
