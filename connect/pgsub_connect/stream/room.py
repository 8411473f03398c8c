"""How much room is left where a filter writes: of a feed it doesn't say that there is none."""

import contextlib
import os
from collections.abc import Iterator, Sequence

from pgsub_feed.texts import counted

# What a disk that was full a moment ago may have again, and below what none is taken to have room,
# in bytes.
LITTLE, NONE = 16 << 20, 1 << 20


def room_of(path: str) -> int:
    """How many bytes the disk of a file has left."""
    disk = os.statvfs(os.path.dirname(os.path.realpath(path)))
    return disk.f_bavail * disk.f_frsize


def rooms(words: Sequence[str]) -> Iterator[tuple[str, int]]:
    """The files that a filter's words name and it writes, each with what its disk has left."""
    for option in ("--store", "--feed", "--spool"):
        if option in words:
            path = words[words.index(option) + 1]
            with contextlib.suppress(OSError):
                yield path, room_of(path)


def room_text(words: Sequence[str]) -> str:
    """That there is little, "" where there is enough."""
    little = ((path, left) for path, left in rooms(words) if left < LITTLE)
    return next(
        (f"the disk of {path} has {counted(left, 'byte')} left" for path, left in little), ""
    )


def is_full(words: Sequence[str]) -> bool:
    return any(left < NONE for _, left in rooms(words))
