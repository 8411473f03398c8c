"""What is in a feed's folder: its segments, by their names, up to where it has all commits, and
where its readers are: `readers/NAME` has the LSN up to which a reader needs no commit any more."""

import contextlib
import os
import re
import time

from ..errors import FileError, NoFeed
from ..files import LOG, replace_file, sync_folder
from ..ownership import opened, real, set_mode
from ..texts import lsn_text, parse_lsn

NAME = re.compile(r"[0-9A-Fa-f]{16}")
CONFIRMED = "confirmed"
# How long a file system may give one time to two changes of a folder, in seconds.
COARSE = 2.5


def segments(folder: str) -> list[tuple[int, str]]:
    """The segments of a feed, by their bases, with the names of their files."""
    try:
        return sorted((int(it, 16), it) for it in os.listdir(folder) if NAME.fullmatch(it))
    except FileNotFoundError:
        text = f"there is no feed {folder}: start `pgsub-connect follow` with --feed {folder}"
        raise NoFeed(text) from None
    except OSError as error:
        raise FileError(f"{folder}: {error.strerror}") from None


def read_confirmed(folder: str) -> int | None:
    """The LSN up to which the feed has all commits, None where it doesn't say."""
    path = os.path.join(folder, CONFIRMED)
    try:
        with open(path, encoding="ascii") as file:
            return parse_lsn(file.read().strip())
    except FileNotFoundError:
        return None
    except OSError as error:
        raise FileError(f"{path}: {error.strerror}") from None
    except ValueError as error:
        raise FileError(f"{path}: {error}") from None


class Listing:
    """The segments of a feed, of which there may be many: listed where the folder has another time,
    and once more a while after that."""

    def __init__(self, folder: str) -> None:
        self.folder = folder
        self.changed, self.again = -1, 0.0
        self.found: list[tuple[int, str]] = []

    def segments(self) -> list[tuple[int, str]]:
        with contextlib.suppress(OSError):
            changed, now = os.stat(self.folder).st_mtime_ns, time.monotonic()
            if changed != self.changed or now >= self.again:
                self.again = now + COARSE if changed != self.changed else float("inf")
                self.found, self.changed = segments(self.folder), changed
            return self.found
        return segments(self.folder)


READERS = "readers"
# How often an LSN is noted at most, in seconds.
OFTEN = 1.0


def make_folder(path: str, mode: int) -> None:
    """Makes a folder, unless it is there, for whoever may read a file of this mode."""
    try:
        os.mkdir(path, 0o700)
    except FileExistsError:
        if os.path.isdir(path):
            return
        raise
    set_mode(path, mode | (mode & 0o444) >> 2)
    sync_folder(path)


class Noted:
    """A reader's LSN, of rows in a file of SQLite's with a log, or on a disk already."""

    def __init__(self, feed: str, name: str, rows: str | None, mode: int) -> None:
        self.folder, self.rows, self.mode = os.path.join(feed, READERS), rows, mode
        self.path = os.path.join(self.folder, name)
        self.at, self.when = -1, 0.0

    def note(self, at: int, is_last: bool = False) -> None:
        """Notes an LSN once the disk has the rows, unless another one was noted just now."""
        now = time.monotonic()
        if at == self.at or not is_last and now - self.when < OFTEN:
            return
        self.at, self.when = at, now
        if self.rows is not None:
            sync_log(self.rows)
        make_folder(self.folder, self.mode)
        replace_file(self.path, f"{lsn_text(at)}\n".encode(), self.mode)


def noted_of(feed: str, after: int | None, name: str, mode: int) -> Noted:
    """Where the LSN of a reader is noted whose rows are on a disk already; None: it has nothing. It
    is noted at once, so that what it needs stays."""
    noted = Noted(feed, name, None, mode)
    first = [base for base, _ in segments(feed)[:1]]
    if (at := first[0] if after is None and first else after) is not None:
        noted.note(at, is_last=True)
    return noted


def sync_log(rows: str) -> None:
    """Has the disk have what is in the log of a file."""
    with contextlib.suppress(FileNotFoundError), opened(real(rows) + LOG) as file:
        os.fsync(file)
