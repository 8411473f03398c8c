"""Which segments of a feed are kept: old ones go, by their size, by their age, or once all readers
have them.

First rows beside the segments go with the first of these, without which they lead nowhere; they
count as bytes of the feed, and go first where it has too many.

A reader is known by its file `FOLDER/readers/NAME`. What it hasn't read stays, unless the feed
would get larger than it may. The last segment stays, and whatever has the commit at the store's
position or one above it, as opening the feed needs it.
"""

import contextlib
import dataclasses
import os

from pgsub_feed.column_types import TYPES
from pgsub_feed.errors import Failure, FileError, told_of
from pgsub_feed.files import NEW, remove
from pgsub_feed.known_tables import KEYS
from pgsub_feed.reader.base import FOLDER as BASE
from pgsub_feed.reader.base import base_bytes, base_of_feed, has_base, remove_base, remove_begun
from pgsub_feed.reader.folder import CONFIRMED, READERS, segments
from pgsub_feed.texts import parse_lsn


@dataclasses.dataclass(frozen=True)
class Limits:
    """How many bytes a feed may have, and how old a segment may get that nobody needs."""

    most_bytes: int | None = None
    oldest: float | None = None


@dataclasses.dataclass(frozen=True)
class Segment:
    """A segment that is complete: where it ends, and its file."""

    end: int
    path: str
    size: int
    written: float


@dataclasses.dataclass
class Retired:
    """What has gone: how many segments, whether first rows, and readers that lacked them."""

    segments: int = 0
    base: bool = False
    readers: set[str] = dataclasses.field(default_factory=set)


def read_readers(folder: str) -> dict[str, int]:
    """The LSN of each reader's file, by name; not of folders and what NFS leaves."""
    path, found = os.path.join(folder, READERS), dict[str, int]()
    with contextlib.suppress(FileNotFoundError), os.scandir(path) as there:
        for it in there:
            if not it.name.startswith(".") and not it.name.endswith(".new") and it.is_file():
                found[it.name] = read_lsn(it.path)
    return found


def read_lsn(path: str) -> int:
    try:
        with told_of(path), open(path, encoding="ascii") as file:
            return parse_lsn(file.read().strip())
    except ValueError as error:
        raise FileError(f"{path}: {error}") from None


def complete(folder: str) -> list[Segment]:
    """The segments after which another one was begun, the oldest first."""
    there, found = segments(folder), []
    for (_, name), (end, _) in zip(there, there[1:]):
        path = os.path.join(folder, name)
        about = os.stat(path)
        found.append(Segment(end, path, about.st_size, about.st_mtime))
    return found


def feed_bytes(folder: str) -> int:
    """How many bytes the segments of a feed have, and its first rows."""
    return base_bytes(folder) + sum(
        os.stat(os.path.join(folder, name)).st_size for _, name in segments(folder)
    )


def retire(folder: str, limits: Limits, position: int, now: float) -> Retired:
    """Removes old segments: of those before the one that has the commit at the store's position."""
    remove_begun(folder)
    readers, total, retired = read_readers(folder), feed_bytes(folder), Retired()
    size = base_bytes(folder)
    if size and limits.most_bytes is not None and total > limits.most_bytes:
        remove_base(folder)
        total, retired.base = total - size, True
        # (those that have none of them yet)
        retired.readers |= {name for name, lsn in readers.items() if not lsn}
    for it in complete(folder):
        behind = {name for name, lsn in readers.items() if lsn < it.end}
        is_too_much = limits.most_bytes is not None and total > limits.most_bytes
        is_done = not behind and (
            bool(readers) if limits.oldest is None else now - it.written > limits.oldest
        )
        if it.end >= position or not (is_too_much or is_done):
            break
        os.unlink(it.path)
        total -= it.size
        retired.segments += 1
        retired.readers |= behind
    if has_base(folder) and is_behind(folder):
        remove_base(folder)
        retired.base = True
    return retired


def is_behind(folder: str) -> bool:
    """Whether the feed doesn't go on from its first rows any more."""
    with contextlib.suppress(Failure):
        return base_of_feed(folder, [base for base, _ in segments(folder)], None) is None
    return False


def others_in(folder: str) -> list[str]:
    """The names in a folder that no feed has."""
    own = {READERS, BASE, CONFIRMED, KEYS, TYPES, *(name for _, name in segments(folder))}
    # (files in the making have more behind the name)
    return sorted(it for it in os.listdir(folder) if it.partition(".")[0] not in own)


def remove_feed(folder: str) -> None:
    """Removes a feed and what its readers have noted. What else is there stays, with the folder."""
    readers = os.path.join(folder, READERS)
    names = [name for _, name in segments(folder)]
    names += [it + end for it in (CONFIRMED, KEYS, TYPES) for end in ("", NEW)]
    for path in [os.path.join(folder, it) for it in names]:
        remove(path)
    remove_base(folder)
    with contextlib.suppress(FileNotFoundError):
        for it in list(os.scandir(readers)):
            if it.is_file(follow_symlinks=False):
                remove(it.path)
    for path in (readers, folder):
        with contextlib.suppress(FileNotFoundError):
            if not os.listdir(path):
                os.rmdir(path)
