"""The rows that there were where a feed begins: files in `FOLDER/base`, beside its segments.

They are numbered from 1, and are there together or not at all: the folder gets its name once all
are complete. A file is a head and lines, definitions and rows; a row is of the definition before
it. The head tells how many rows there are, and a checksum of all that follows it.
"""

import contextlib
import os
import zlib
from collections.abc import Collection, Iterator
from typing import Any, NamedTuple, Protocol

from ..errors import COUNTS, LINE, NOT_A_FEED, OTHER_FEED, WIDTH, Damaged, FileError, Unfit
from ..files import NEW
from ..interruption import Check, undone_by
from ..json_texts import whole_of
from ..relation import Relation
from ..texts import lsn_text
from .commits import HEAD, Cells, Head
from .lines import HEAD_SIZE, SENT, parsed, read_object, read_relation, read_whole, shown

FOLDER, FORMAT = "base", 2
# How much is read at once, in bytes.
CHUNK = 1 << 20


class Section(NamedTuple):
    """Some rows of one table, perhaps none."""

    relation: Relation
    rows: list[Cells]


class FirstRows(Protocol):
    """The rows that there were at an LSN."""

    @property
    def lsn(self) -> int:
        ...

    def sections(self) -> Iterator[Section]:
        """All of them. Each table has a section."""


class FileHead(NamedTuple):
    """The head of a file: the LSN, what it is of, its number and whether it is the last one; how
    many rows and bytes follow, and their CRC-32."""

    source: Head
    number: int
    is_last: bool
    rows: int
    bytes: int
    crc: int


def file_name(number: int) -> str:
    return f"{number:08}"


def read_file_head(line: bytes) -> FileHead:
    """A ValueError says that it isn't one."""
    found = read_object(line)
    try:
        if found["base"] != FORMAT:
            raise ValueError
        source: Head = HEAD.read({**found, "base": found["lsn"]})
        number, rows, size, crc = (whole_of(found[it]) for it in ("number", "rows", "bytes", "crc"))
        return FileHead(source, number, found["last"] is True, rows, size, crc)
    except KeyError:
        raise ValueError from None


class Span(NamedTuple):
    """A part of a file: its rows are of one definition."""

    number: int
    offset: int
    size: int


class BaseFile:
    """An open file of them, whose head was read."""

    def __init__(self, folder: str, number: int) -> None:
        self.path, self.number = os.path.join(folder, file_name(number)), number
        try:
            self.file = open(self.path, "rb")
        except FileNotFoundError:
            raise Unfit(f"{self.path} is gone: the feed's first rows were removed") from None
        except OSError as error:
            raise FileError(f"{self.path}: {error.strerror}") from None
        with undone_by(self.close):
            self.head = self.read_head()

    def read_head(self) -> FileHead:
        line = self.file.read(HEAD_SIZE)
        try:
            head = read_file_head(line)
        except ValueError:
            told = f"this is no head of a file of first rows: {shown(line)}"
            raise Damaged(NOT_A_FEED, self.path, 0, told) from None
        if head.number != self.number:
            raise Damaged(OTHER_FEED, self.path, 0, f"the file has number {head.number}")
        return head

    def check(self) -> None:
        """Rejects a file whose bytes aren't those that were written."""
        crc = size = 0
        while piece := self.file.read(CHUNK):
            crc, size = zlib.crc32(piece, crc), size + len(piece)
        if (crc, size) != (self.head.crc, self.head.bytes):
            told = f"{size} bytes of checksum {crc}, where its head has {self.head.bytes} of {self.head.crc}"
            raise Damaged(COUNTS, self.path, HEAD_SIZE, told)
        self.file.seek(HEAD_SIZE)

    def spans(self, known: dict[bytes, Relation]) -> list[tuple[Relation, Span]]:
        """Where each definition's rows are. `known`: the relations of lines that come again."""
        found, told, offset = list[tuple[Relation, Span]](), list[tuple[int, bytes]](), HEAD_SIZE
        self.file.seek(offset)
        for line in self.file:
            if line.startswith(b"{"):
                told.append((offset, line))
            offset += len(line)
        for (at, line), (end, _) in zip(told, [*told[1:], (offset, b"")], strict=True):
            if line not in known:
                (section,) = sections_of(self.path, at, [line], None)
                known[line] = section.relation
            begin = at + len(line)
            found.append((known[line], Span(self.number, begin, end - begin)))
        return found

    def part(self, relation: Relation | None, offset: int, size: int) -> Iterator[Section]:
        """The rows at an offset, which are of this relation until another one is told."""
        self.file.seek(offset)
        end = offset + size
        # (the line that passes this is the last one of some)
        while offset < end and (lines := self.file.readlines(min(CHUNK, end - offset - 1))):
            for it in sections_of(self.path, offset, lines, relation):
                relation = it.relation
                yield it
            offset += sum(map(len, lines))

    def sections(self) -> Iterator[Section]:
        self.check()
        rows, size = 0, self.head.bytes
        for it in self.part(None, HEAD_SIZE, size):
            rows += len(it.rows)
            yield it
        if rows != self.head.rows:
            told = f"the file has {rows} rows, and its head says {self.head.rows}"
            raise Damaged(COUNTS, self.path, HEAD_SIZE + size, told)

    def close(self) -> None:
        self.file.close()


def sections_of(
    path: str, offset: int, lines: list[bytes], before: Relation | None
) -> Iterator[Section]:
    """The sections of some lines, which may begin with rows of a relation that was told before."""
    section = Section(before, []) if before else None
    is_new = False
    for line, found in zip(lines, objects_of(path, offset, lines), strict=True):
        try:
            if type(found) is not list:
                if section and (section.rows or is_new):
                    yield section
                section, is_new = Section(read_relation(found), []), True
            elif section is None:
                raise ValueError
            else:
                section.rows.append(row_of(path, offset, found, section.relation))
        except (ValueError, KeyError, TypeError):
            told = f"this is no line of first rows: {shown(line)}"
            raise Damaged(LINE, path, offset, told) from None
        offset += len(line)
    if section:
        yield section


def objects_of(path: str, offset: int, lines: list[bytes]) -> list[Any]:
    try:
        objects = parsed(b"[" + b",".join(lines) + b"]")
        if len(objects) == len(lines):
            return list(objects)
    except ValueError:
        pass
    raise Damaged(LINE, path, offset, "these are no lines of first rows")


def row_of(path: str, offset: int, row: list[Any], relation: Relation) -> Cells:
    width = len(relation.shape.columns)
    if len(row) != width:
        told = f"a row of {len(row)} cells, where there are {width} columns"
        raise Damaged(WIDTH, path, offset, told)
    return row if SENT.issuperset(map(type, row)) else read_whole(row)


class BaseFiles:
    """Those of a feed."""

    def __init__(self, feed: str) -> None:
        self.folder = os.path.join(feed, FOLDER)
        with contextlib.closing(BaseFile(self.folder, 1)) as first:
            self.source = first.head.source
        self.lsn = self.source.base

    def files(self) -> Iterator[BaseFile]:
        number, is_last = 1, False
        while not is_last:
            with contextlib.closing(BaseFile(self.folder, number)) as file:
                if file.head.source != self.source:
                    text = f"a file of {file.head.source.text()} at {lsn_text(file.head.source.base)}, and before of {self.source.text()} at {lsn_text(self.lsn)}"
                    raise Damaged(OTHER_FEED, file.path, 0, text)
                yield file
                is_last = file.head.is_last
            number += 1

    def sections(self) -> Iterator[Section]:
        for file in self.files():
            yield from file.sections()

    def count(self) -> int:
        """How many rows there are, by the heads of the files."""
        return sum(it.head.rows for it in self.files())

    def spans(self, check: Check) -> list[tuple[Relation, Span]]:
        """Where the rows of each definition are."""
        found, known = [], dict[bytes, Relation]()
        for file in self.files():
            check()
            file.check()
            found += file.spans(known)
        return found

    def rows(self, relation: Relation, span: Span) -> Iterator[Cells]:
        """The rows of such a part."""
        with contextlib.closing(BaseFile(self.folder, span.number)) as file:
            for section in file.part(relation, span.offset, span.size):
                yield from section.rows


def base_of_feed(feed: str, bases: Collection[int], head: Head | None) -> BaseFiles | None:
    """The first rows of a feed with this head, whose segments begin at these LSNs; None where there
    are none from which it goes on."""
    if not has_base(feed):
        return None
    found = BaseFiles(feed)
    if head and found.source.source() != head.source():
        text = f"first rows of {found.source.text()}, and the feed is of {head.text()}"
        raise Damaged(OTHER_FEED, found.folder, 0, text)
    return found if any(it <= found.lsn for it in bases) else None


def base_bytes(feed: str) -> int:
    """How many bytes the first rows of a feed have."""
    with contextlib.suppress(FileNotFoundError, NotADirectoryError):
        with os.scandir(os.path.join(feed, FOLDER)) as there:
            return sum(it.stat().st_size for it in there)
    return 0


def has_base(feed: str) -> bool:
    return os.path.isdir(os.path.join(feed, FOLDER))


def remove_base(feed: str) -> None:
    """Removes the first rows of a feed, and what was begun of some."""
    remove_begun(feed)
    folder = os.path.join(feed, FOLDER)
    # (a kill leaves all of them under their name, or none)
    with contextlib.suppress(FileNotFoundError, NotADirectoryError):
        os.rename(folder, folder + NEW)
    remove_begun(feed)


def remove_begun(feed: str) -> None:
    """Removes what was begun of first rows, or left of some, by a process that was killed."""
    # (a start takes as long as what it imports)
    from shutil import rmtree

    with contextlib.suppress(FileNotFoundError, NotADirectoryError):
        rmtree(os.path.join(feed, FOLDER + NEW))
