"""The folder of a feed in memory, to the byte: what each run over a store leaves there, by
docs/FORMATS.md, and what differs in another one."""

from __future__ import annotations

from collections.abc import Mapping
from dataclasses import dataclass
from itertools import zip_longest
from pathlib import Path

from feed_text import (
    SEGMENT_SIZE,
    About,
    Lines,
    Messages,
    Told,
    closing_line,
    entry_text,
    segment_head,
    segment_name,
)

SEGMENT_BYTES = 67108864
LAST_LSN = (1 << 64) - 1
SECOND = 1_000_000
FOLDER_MODE, FILE_MODE = 0o700, 0o600
NOT_A_FEED, TOO_LONG = "feed 1 NotAFeed", "feed 2 TooLong"
# more segments of one folder aren't told, nor more of a line
MOST_TOLD, MOST_SHOWN = 5, 400


class NotOpened(Exception):
    """A folder in which a run can't keep the feed of its store; the text says why."""


@dataclass(frozen=True)
class Asked:
    """What a run is asked to keep: what the feed is of, how many bytes a segment may have, and how
    many seconds it is open, 0 for any number; and how many bytes of messages a transaction may have,
    0 where none are told."""

    system: str = ""
    database: str = ""
    slot: str = ""
    segment_bytes: int = SEGMENT_BYTES
    segment_seconds: int = 0
    messages: int = 0

    def head(self, base: int) -> bytes:
        return segment_head(base, self.system, self.database, self.slot)

    def is_too_long(self) -> bool:
        """Whether the head of some segment has no room for it."""
        return len(self.head(LAST_LSN)) > SEGMENT_SIZE


class Segment:
    """A segment: its bytes, and of each of its commits the LSN at which it ends and the length up
    to there."""

    def __init__(self, head: bytes) -> None:
        self.text, self.ends = head, dict[int, int]()
        self.told: Told = {}

    def entry(
        self,
        at: int,
        end: int,
        lines: Lines,
        about: About | None,
        told: Told,
        messages: Messages = (),
    ) -> bytes:
        """The text of a commit here. What it tells is told then."""
        return entry_text(at, end, lines, about, told, len(self.text), messages)

    def add(self, end: int, text: bytes) -> None:
        self.text += text
        self.ends[end] = len(self.text)

    def cut(self, end: int) -> None:
        """Takes away all behind the commit that ends there, or where it begins there, its head. From
        now on definitions are told anew."""
        self.told = Told()
        self.text = self.text[: self.ends.get(end, SEGMENT_SIZE)]
        self.ends = {it: length for it, length in self.ends.items() if it <= end}


class Folder:
    """The segments by their bases. A run opens it at the position of its store, and each commit is
    added to the last one."""

    def __init__(self) -> None:
        self.segments = dict[int, Segment]()
        self.asked, self.at = Asked(), 0
        # the time of the last segment's first commit of this run
        self.first: int | None = None

    def last(self) -> Segment:
        return self.segments[max(self.segments)]

    def open(self, position: int, asked: Asked) -> None:
        """Begins a run: what the store doesn't have goes. Where that raises, all stays."""
        if asked.is_too_long():
            raise NotOpened(TOO_LONG)
        base = self.base_at(position)
        self.asked, self.at = asked, position
        self.segments = {it: segment for it, segment in self.segments.items() if it <= base}
        if self.segments:
            self.segments[base].cut(position)
        else:
            self.begin()
        self.first = None

    def base_at(self, position: int) -> int:
        """The base of the segment that a store with this position goes on with."""
        base = max((it for it in self.segments if it <= position), default=None)
        if base is None and not self.segments:
            return position
        if base is None or (base < position and position not in self.segments[base].ends):
            raise NotOpened(NOT_A_FEED)
        return base

    def begin(self) -> None:
        """Makes the segment that begins here."""
        self.segments[self.at] = Segment(self.asked.head(self.at))
        self.first = None

    def end(self) -> None:
        """Ends the last segment."""
        self.last().text += closing_line(self.at)

    def commit(
        self, end: int, lines: Lines = (), about: About | None = None, messages: Messages = ()
    ) -> None:
        messages = messages if self.asked.messages else ()
        told = self.last().told.copy()
        text = self.last().entry(self.at, end, lines, about, told, messages)
        if self.is_full(len(text)) or self.is_late(about):
            self.end()
            self.begin()
            told = Told()
            text = self.last().entry(self.at, end, lines, about, told, messages)
        self.last().add(end, text)
        self.last().told = told
        self.at = end
        if self.first is None and about:
            self.first = about.time

    def is_full(self, length: int) -> bool:
        return bool(self.last().ends) and len(self.last().text) + length > self.asked.segment_bytes

    def is_late(self, about: About | None) -> bool:
        seconds = self.asked.segment_seconds
        return (
            bool(seconds)
            and about is not None
            and self.first is not None
            and about.time - self.first >= seconds * SECOND
        )

    def files(self) -> dict[str, bytes]:
        return {segment_name(base): segment.text for base, segment in self.segments.items()}


def shown(line: bytes, at: int) -> str:
    """A line without the blanks at its end, or what it has about an offset where it is long."""
    text = line.decode(errors="replace").rstrip(" ") or "nothing"
    begin = max(0, min(at - MOST_SHOWN // 4, len(text) - MOST_SHOWN))
    part = text[begin : begin + MOST_SHOWN]
    return part if part == text else f".. {part} .."


def first_difference(found: bytes, wanted: bytes) -> str:
    """The first line in which two segments differ, other than by its checksum."""
    lines = zip_longest(found.split(b"\n"), wanted.split(b"\n"), fillvalue=b"")
    others = [(number, *pair) for number, pair in enumerate(lines, 1) if pair[0] != pair[1]]
    if not others:
        # (an empty line at the end is no line)
        return f"{len(found)} bytes and not {len(wanted)}"
    # (a checksum differs wherever something that it is of does)
    number, ours, theirs = min(others, key=lambda it: unsummed(it[1]) == unsummed(it[2]))
    at = next(
        (place for place, pair in enumerate(zip(ours, theirs)) if pair[0] != pair[1]),
        min(len(ours), len(theirs)),
    )
    return f"line {number} from byte {at}: {shown(ours, at)}\n   and not {shown(theirs, at)}"


def unsummed(line: bytes) -> bytes:
    return line.partition(b',"crc":')[0]


def differences(found: Mapping[str, bytes], wanted: Mapping[str, bytes]) -> list[str]:
    """What a folder has other than is wanted, a text for each of the first files."""
    told = []
    for name in sorted(found.keys() | wanted.keys()):
        if name not in wanted:
            told.append(f"{name} is there, with {len(found[name])} bytes")
        elif name not in found:
            told.append(f"{name} isn't there")
        elif found[name] != wanted[name]:
            told.append(f"{name}, {first_difference(found[name], wanted[name])}")
    return told[:MOST_TOLD]


def wrong_modes(folder: Path) -> list[str]:
    """The folder and the segments that others than their owner may read."""
    paths = {
        it: FILE_MODE for it in sorted(folder.iterdir()) if len(it.name) == len(segment_name(0))
    }
    modes = {it: it.stat().st_mode & 0o777 for it in (folder, *paths)}
    return [
        f"{it.name} has the mode {mode:o}"
        for it, mode in modes.items()
        if mode != paths.get(it, FOLDER_MODE)
    ]


def findings(folder: Path, wanted: Mapping[str, bytes]) -> list[str]:
    """What is wrong with a folder on the disk; nothing where it has the files that are wanted.
    Where that are none, it may not be there."""
    if not folder.exists():
        return differences({}, wanted)
    found = {it.name: it.read_bytes() for it in folder.iterdir() if it.is_file()}
    return differences(found, wanted) + wrong_modes(folder)
