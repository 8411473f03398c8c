"""Files of SQLite that these programs make: exports, and tables that follow a feed."""

import contextlib
import os
import sqlite3
import urllib.parse

from ..errors import FileError, Passing

# The first version of SQLite with STRICT tables and columns of type ANY.
OLDEST = (3, 37, 0)
# What SQLite says of a disk that is full, and of a file that only for now can't be written.
FULL = "is full"
PASSING = ("is locked", FULL)
# What tells these files from others: the application of the head, `pgse` or `pgst`.
MAGIC, APPLICATION_AT, VERSION_AT = b"SQLite format 3\0", 68, 60
EXPORT, FOLLOWING = 0x70677365, 0x70677374
# The versions of files that have other types, by an earlier version of these programs.
EARLIER = (0, 1, 2)


def number_at(path: str, at: int) -> int | None:
    """A number in the head of a file of SQLite; None of any other file."""
    with open(path, "rb") as file:
        head = file.read(100)
    return int.from_bytes(head[at : at + 4], "big") if head.startswith(MAGIC) else None


def is_earlier(path: str) -> bool:
    """Whether an export, or a file of tables, is one of an earlier version."""
    return number_at(path, VERSION_AT) in EARLIER


def is_export(path: str) -> bool:
    return number_at(path, APPLICATION_AT) == EXPORT


def is_tables(path: str) -> bool:
    """Whether a file is one of tables that follow a feed."""
    return number_at(path, APPLICATION_AT) == FOLLOWING


def opened(path: str) -> sqlite3.Connection:
    """Opens a file of tables for reading."""
    name = f"file:{urllib.parse.quote(os.fsencode(os.path.abspath(path)))}?mode=ro"
    return sqlite3.connect(name, uri=True, timeout=10.0, isolation_level=None)


def inode_of(path: str) -> tuple[int, int] | None:
    """Which file has a name, None where none has."""
    with contextlib.suppress(FileNotFoundError):
        about = os.stat(path)
        return about.st_dev, about.st_ino
    return None


def end_log(path: str) -> None:
    """Has a file that is about to get another name need no log beside it. An error says that it
    can't be, as where the disk is full."""
    with contextlib.closing(sqlite3.connect(path, isolation_level=None)) as db:
        db.execute("PRAGMA journal_mode = DELETE")


def check_sqlite() -> None:
    """Rejects an SQLite that is too old."""
    if sqlite3.sqlite_version_info < OLDEST:
        wanted = ".".join(map(str, OLDEST[:2]))
        text = f"SQLite {wanted} or later is needed for STRICT tables, and this is {sqlite3.sqlite_version}"
        raise FileError(text)


def failed(error: sqlite3.Error, told: str) -> FileError | Passing:
    """What ends it where SQLite can't read or write files, which are told: a disk that is full may
    have room later, and what is locked be free."""
    text = f"{told}: {error}"
    return Passing(text) if any(it in str(error) for it in PASSING) else FileError(text)
