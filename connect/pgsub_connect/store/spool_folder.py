"""`STORE.spool`: the folder of the file in which a filter keeps the changes of open transactions that
its memory doesn't hold.

Nothing in it outlasts a filter: it is emptied before one begins, and once it has ended. It is its
owner's alone, so that nobody puts a link where the program is about to write.
"""

import contextlib
import os
import stat
from collections.abc import Iterator

from pgsub_feed.errors import FileError, Passing
from pgsub_feed.files import remove
from pgsub_feed.program import PASSING_ERRORS
from pgsub_feed.texts import counted

from ..judged import Result, error, ok

# What follows a store's name in the folder's, and the file in it.
SUFFIX, FILE = ".spool", "transactions"
MODE = 0o700
FLAGS = os.O_RDONLY | os.O_DIRECTORY | os.O_NOFOLLOW | os.O_CLOEXEC


class NoFolder(Passing):
    """It can't be made for now, as on a full disk."""


class SpoolFolder:
    """It. `in_memory`: how many bytes of open transactions stay there; `had`: how many the disk had
    for the file as the last filter ended."""

    def __init__(self, store: str, in_memory: int = 0) -> None:
        self.in_memory = in_memory
        self.folder = os.path.abspath(store + SUFFIX)
        self.path = os.path.join(self.folder, FILE)
        self.had = 0

    def begin(self) -> None:
        """A filter is about to begin: the folder is made or emptied. A FileError names what isn't
        a folder of this account; NoFolder says why it can't be made for now."""
        try:
            with contextlib.suppress(FileExistsError):
                os.mkdir(self.folder, MODE)
            check_own(self.folder)
            with opened(self.folder) as folder:
                if stat.S_IMODE(os.fstat(folder).st_mode) != MODE:
                    # (some file systems have no modes)
                    with contextlib.suppress(PermissionError):
                        os.fchmod(folder, MODE)
                empty(folder)
        except OSError as failed:
            kind = NoFolder if failed.errno in PASSING_ERRORS else FileError
            raise kind(f"{self.folder}: {failed.strerror}") from None

    def end(self) -> None:
        """The filter has ended. What can't be removed now goes before the next one begins."""
        with contextlib.suppress(OSError), opened(self.folder) as folder:
            disk = os.fstatvfs(folder)
            self.had = disk.f_bavail * disk.f_frsize + size_in(self.folder)
            empty(folder)

    def room(self) -> int:
        """How many bytes the disk has left. An OSError says that the folder isn't there."""
        disk = os.statvfs(self.folder)
        return disk.f_bavail * disk.f_frsize

    def remove(self) -> None:
        """No filter begins any more: an empty folder goes, unless another disk has that name."""
        with contextlib.suppress(OSError):
            os.rmdir(self.folder)


def check_spool(store: str) -> None:
    """Rejects what is in the folder's place, and isn't a folder of this account."""
    folder = os.path.abspath(store + SUFFIX)
    if os.path.lexists(folder):
        check_own(folder)


def check_own(folder: str, account: int | None = None) -> None:
    """Rejects what isn't a folder of this account, by default of the one that runs this."""
    about, own = os.lstat(folder), os.geteuid() if account is None else account
    if stat.S_ISDIR(about.st_mode) and about.st_uid == own:
        return
    what = f"a folder of another account ({about.st_uid})"
    if stat.S_ISLNK(about.st_mode):
        what = "a link"
    elif not stat.S_ISDIR(about.st_mode):
        what = "a file"
    text = f"{folder}: {what} in the place of the folder for open transactions"
    raise FileError(f"{text}: remove it, or keep them in memory by --spool-memory no")


@contextlib.contextmanager
def opened(folder: str) -> Iterator[int]:
    number = os.open(folder, FLAGS)
    try:
        yield number
    finally:
        os.close(number)


def empty(folder: int) -> None:
    """Removes the files in an open folder. (What a disk has of its own, as `lost+found`, stays.)"""
    for name in os.listdir(folder):
        if not stat.S_ISDIR(os.stat(name, dir_fd=folder, follow_symlinks=False).st_mode):
            os.unlink(name, dir_fd=folder)


def size_in(folder: str) -> int:
    """How many bytes the file has, 0 where it isn't there."""
    try:
        return os.stat(os.path.join(folder, FILE), follow_symlinks=False).st_size
    except FileNotFoundError:
        return 0


def remove_spool(folder: str) -> None:
    """Removes the folder with its files, or what is in its place. What a disk has there stays."""
    if os.path.islink(folder) or not os.path.isdir(folder):
        return remove(folder)
    with opened(folder) as number:
        empty(number)
        is_empty = not os.listdir(number)
    if is_empty and not os.path.ismount(folder):
        os.rmdir(folder)


def judge_spool(store: str) -> Result | None:
    """Whether a filter of the store's account can use the folder, and how much is in it; nothing
    where that is nothing, or isn't known."""
    folder = os.path.abspath(store + SUFFIX)
    if not os.path.lexists(folder):
        return None
    try:
        check_own(folder, account_of(store))
        size = size_in(folder)
    except PermissionError:
        # (who asks isn't that account)
        return None
    except (FileError, OSError) as failed:
        return error("spool", str(failed))
    if not size:
        return None
    return ok("spool", f"{counted(size, 'byte')} of open transactions are in {folder}")


def account_of(store: str) -> int | None:
    """Whose a store is, None where it isn't there."""
    try:
        return os.stat(store).st_uid
    except FileNotFoundError:
        return None
