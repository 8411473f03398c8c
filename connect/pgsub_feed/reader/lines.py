"""The lines of a feed, read."""

import binascii
import contextlib
import functools
import json
import re
import zlib
from collections.abc import Callable, Iterable, Iterator
from typing import Any, cast

from ..errors import Damaged
from ..json_texts import GREATEST, GREATEST_OID, lsn_of, object_of, signed_of, text_of, whole_of
from ..relation import Column, Relation, Shape
from . import commits
from .commits import UNSENT, Cells, Change, Commit, Unsent

FORMAT = 4
# How many bytes the head of a segment has, and the line of a commit, or that which closes a
# segment.
HEAD_SIZE, COMMIT_SIZE = 1024, 256
# How the line of a definition begins, and that of a message, as they are written.
DEFINITION, MESSAGE = b'{"op":"table",', b'{"op":"m",'
# How the line of a change begins, as it is written: it names where its definition stands.
NAMING = re.compile(rb'\{"op":"\w","at":(\d+),')
# The line of a commit as it is written.
LSN = rb'"([0-9A-F]{1,8}/[0-9A-F]{1,8})"'
PLAIN = re.compile(
    rb'\{"end":%b,"prev":%b,"bytes":(\d+),"changes":(\d+),"lsn":(?:%b,"xid":(\d+),"ts_us":(-?\d+)|null,"xid":null,"ts_us":null),"crc":(\d+)\} *\n'
    % (LSN, LSN, LSN)
)
decoded = json.JSONDecoder().raw_decode
# What stands before its checksum, which is that of all before this, and of the lines that follow.
CRC = b',"crc":'
# What may stand around a text in JSON.
BLANKS = " \t\n\r"
# What may be the escape of half of a pair.
SURROGATE = re.compile(r"\\u[dD]")
SENT = {str, type(None)}
# (a call of `Change` takes twice as long)
as_change = cast(Callable[[tuple[object, ...]], Change], functools.partial(tuple.__new__, Change))
as_commit = cast(Callable[[tuple[object, ...]], Commit], functools.partial(tuple.__new__, Commit))


def parsed(content: bytes) -> Any:
    """A text in JSON, whose strings are UTF-8. A ValueError says that it is none."""
    text = content.decode().lstrip(BLANKS)
    try:
        found, end = decoded(text)
    except RecursionError:
        raise ValueError from None
    if end < len(text) and text[end:].strip(BLANKS):
        raise ValueError
    if "\\u" in text and SURROGATE.search(text):
        # (half of a pair has no encoding)
        json.dumps(found, ensure_ascii=False).encode()
    return found


def read_object(line: bytes) -> dict[str, Any]:
    """The object that a padded line has. A ValueError says that it is none."""
    if not line.endswith(b"\n"):
        raise ValueError
    return object_of(parsed(line))


oid = functools.partial(whole_of, most=GREATEST_OID)


class OtherFormat(ValueError):
    """The head of a segment in another format."""


def read_head(line: bytes) -> commits.Head:
    """The head of a segment. A ValueError says that it isn't one, an OtherFormat that it is one of
    another format, and what to do."""
    found = read_object(line)
    if (form := whole_of(found.get("feed"))) != FORMAT:
        age = "an earlier" if form < FORMAT else "a later"
        raise OtherFormat(
            f"this is a feed of format {form}, which {age} version writes, and this one reads format {FORMAT}: name an empty"
            " folder by --feed, with --without-feed, and have its readers begin anew, or go on with that version"
        )
    head: commits.Head = commits.HEAD.read(found)
    return head


def read_commit(line: bytes) -> Commit | commits.Closing:
    """The line of a commit, or that which closes a segment. A ValueError says that it is
    neither."""
    if plain := PLAIN.fullmatch(line):
        end, prev, size, changes, final, xid, time, crc = plain.groups()
        about = (plain_lsn(final), int(xid), int(time)) if final else (None, None, None)
        sums = int(crc), zlib.crc32(line[: plain.start(8) - len(CRC)])
        counts = int(size), int(changes)
        return as_commit((plain_lsn(end), plain_lsn(prev), *counts, *about, *sums, None))
    return read_commit_object(line)


def plain_lsn(text: bytes) -> int:
    high, low = text.split(b"/")
    return (int(high, 16) << 32) + int(low, 16)


def read_commit_object(line: bytes) -> Commit | commits.Closing:
    """The same of a line that isn't as it is written today: with more fields, or in another
    order."""
    found = read_object(line)
    try:
        if "last" in found:
            return commits.Closing(lsn_of(found["last"]))
        ends = lsn_of(found["end"]), lsn_of(found["prev"])
        sizes = whole_of(found["bytes"]), whole_of(found["changes"])
        about = found["lsn"], found["xid"], found["ts_us"]
        sums = whole_of(found["crc"]), zlib.crc32(line[: line.index(CRC)])
    except KeyError:
        raise ValueError from None
    if about == (None, None, None):
        return Commit(*ends, *sizes, None, None, None, *sums)
    told = lsn_of(about[0]), whole_of(about[1]), whole_of(about[2], -GREATEST)
    return Commit(*ends, *sizes, *told, *sums)


def read_relation(found: dict[str, Any]) -> Relation:
    """The line of a definition. A column is one of the key where the line lists its name, in a
    table that has a key."""
    listed = found["key"]
    keys = set(map(text_of, listed)) if listed is not None else set[str]()
    columns = tuple(
        Column(text_of(name), oid(kind), signed_of(modifier), name in keys)
        for name, kind, modifier in found["columns"]
    )
    shape = Shape(text_of(found["identity"]), columns)
    return Relation(oid(found["oid"]), text_of(found["schema"]), text_of(found["table"]), shape)


def read_cell(cell: object) -> str | bytes | Unsent | None:
    if cell is None or isinstance(cell, str):
        return cell
    if isinstance(cell, dict) and list(cell) == ["hex"]:
        return binascii.unhexlify(text_of(cell["hex"]))
    if cell == {"unchanged": True}:
        return UNSENT
    raise ValueError


def read_whole(row: list[object]) -> Cells:
    """The cells of a row that has binary values, or what is no row."""
    cells: Cells = []
    for it in row:
        cell = read_cell(it)
        if isinstance(cell, Unsent):
            raise ValueError
        cells.append(cell)
    return cells


def summed(
    commit: Commit, pieces: Iterable[bytes], fault: Callable[[str], Damaged]
) -> Iterator[bytes]:
    """The bytes of a commit, which come in pieces. Behind the last one `fault` makes the error where
    they aren't those that were written."""
    crc = commit.begun
    for piece in pieces:
        crc = zlib.crc32(piece, crc)
        yield piece
    check_sum(commit, crc, fault)


def check_sum(commit: Commit, crc: int, fault: Callable[[str], Damaged]) -> None:
    """Rejects a commit whose bytes have another checksum than its line tells."""
    if crc != commit.crc:
        text = f"the commit that ends at {commit.text()} isn't as it was written: its bytes have the checksum {crc}, and its line says {commit.crc}"
        raise fault(text)


def whole_lines(pieces: Iterable[bytes], fault: Callable[[], Damaged]) -> Iterator[list[bytes]]:
    """The lines of what comes in pieces, without their ends, some at a time: a line may be as long as
    a commit. `fault` makes the error of one that has no end."""
    begun = list[bytes]()
    for piece in pieces:
        first, *more = piece.split(b"\n")
        begun.append(first)
        if more:
            yield [b"".join(begun), *more[:-1]]
            begun = more[-1:]
    if any(begun):
        raise fault()


def named_by(line: bytes) -> int | None:
    """The offset that a line names, None where it is no change. (Of one that is spoiled the reader
    says so.)"""
    if named := NAMING.match(line):
        return int(named[1])
    if line.startswith((DEFINITION, MESSAGE)):
        return None
    with contextlib.suppress(KeyError, TypeError, ValueError):
        return whole_of(parsed(line)["at"])
    return None


def no_head(line: bytes, error: ValueError) -> str:
    """Why a line is no head of a segment."""
    told = f"this is no head of a feed's segment: {shown(line)}"
    return str(error) if isinstance(error, OtherFormat) else told


def shown(line: bytes) -> str:
    return repr(line[:80].decode(errors="backslashreplace"))
