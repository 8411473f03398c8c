"""Files that appear as a whole, whatever ends the process or the machine meanwhile."""

import contextlib
import os
import re
import time
from collections.abc import Callable, Iterator

from .errors import Passing
from .interruption import Check, never
from .ownership import opened, real, succeed

LOG = "-wal"
# A file, and what SQLite may have beside it, as a journal, which would change another one there.
OF_FILE = ("", LOG, "-shm", "-journal")
CHUNK = 1 << 22
# What a file that is to replace another one has behind its name.
NEW = ".new"
# After how many seconds a file that a killed process has left is removed.
STALE = 3600.0
# What a file that a process makes for itself has in its name behind another one's: its id, as
# nobody else names files. Beside it there may be such a file again, changes of rows that are
# repaired, and what SQLite makes.
OWN = r"\.pgsub-([0-9]+)(?:(?:\.copied)?\.pgsub-[0-9]+)?(?:\.pgsub-new|\.changes)?(?:-wal|-shm|-journal)?"


def meant(path: str) -> str:
    """The file that a name means: the one that a link leads to, also where that isn't there yet.

    A FileError names a link of another account, also one to a folder on the way."""
    found = real(path)
    return found if os.path.islink(path) else path


def remove(path: str) -> None:
    with contextlib.suppress(FileNotFoundError):
        os.unlink(path)


def copy(source: str, target: str, mode: int, tick: Callable[[], None]) -> None:
    """Copies a file, by reference where the file system can. One that isn't there has no copy."""
    try:
        read = os.open(source, os.O_RDONLY | os.O_CLOEXEC)
    except FileNotFoundError:
        if source.endswith(LOG):
            return
        raise
    write = os.open(target, os.O_WRONLY | os.O_CREAT | os.O_EXCL | os.O_CLOEXEC, mode)
    try:
        while copied(read, write):
            tick()
    finally:
        os.close(read)
        os.close(write)


def copied(read: int, write: int) -> int:
    """Copies the next part. Returns how many bytes."""
    try:
        return os.copy_file_range(read, write, CHUNK)
    except OSError:
        # (not between these file systems)
        piece = os.read(read, CHUNK)
        view = memoryview(piece)
        while view:
            view = view[os.write(write, view) :]
        return len(piece)


def sync_folder(path: str) -> None:
    """Makes the name of a file outlast a power cut."""
    with opened(os.path.dirname(os.path.abspath(path))) as folder:
        os.fsync(folder)


def own_files(path: str) -> re.Pattern[str]:
    """The names of the files that processes make for themselves beside this one, and of what is
    made beside those; the first group has the process's id."""
    return re.compile(re.escape(os.path.basename(path)) + OWN)


def own_name(path: str) -> str:
    """A name for a file of this process alone. What killed processes have left goes."""
    pattern = own_files(path)
    for entry in os.scandir(os.path.dirname(os.path.abspath(path))):
        found = pattern.fullmatch(entry.name)
        # (a number may be none of a process)
        with contextlib.suppress(OSError, OverflowError):
            if found and not is_alive(int(found[1])):
                if time.time() - entry.stat().st_mtime > STALE:
                    os.unlink(entry.path)
    return f"{path}.pgsub-{os.getpid()}"


def is_alive(process: int) -> bool:
    try:
        os.kill(process, 0)
    except ProcessLookupError:
        return False
    except OSError:
        pass
    return True


def remove_files(path: str) -> None:
    """Removes a file with what SQLite may have made beside it."""
    for suffix in OF_FILE:
        remove(path + suffix)


@contextlib.contextmanager
def placed(into: str, mode: int, check: Check = never) -> Iterator[str]:
    """Gives the name of a new empty file, which gets its mode and the name `into`, where a link
    leads, once the disk has it and unless `check` raises. An error leaves nothing of it."""
    into = meant(into)
    new = own_name(into)
    try:
        remove_files(new)
        os.close(os.open(new, os.O_WRONLY | os.O_CREAT | os.O_EXCL | os.O_CLOEXEC, 0o600))
        yield new
        with opened(new, os.O_NOFOLLOW) as file:
            os.fchmod(file, mode)
            os.fsync(file)
        # (the disk may have taken long)
        check()
        for suffix in OF_FILE[1:]:
            remove(into + suffix)
        os.replace(new, into)
        sync_folder(into)
    except OSError as error:
        remove_files(new)
        error.filename = error.filename or into
        raise
    except BaseException:
        remove_files(new)
        raise


def replace_file(path: str, content: bytes, mode: int = 0o600) -> int:
    """Replaces a file durably, for readers as a whole. Returns the number of its inode."""
    new = path + NEW
    try:
        remove(new)
        number = os.open(new, os.O_WRONLY | os.O_CREAT | os.O_EXCL | os.O_CLOEXEC, mode)
        # (whatever the umask leaves of it)
        os.fchmod(number, mode)
        with open(number, "wb") as file:
            file.write(content)
            file.flush()
            succeed(number, path)
            os.fsync(number)
            inode = os.fstat(number).st_ino
        os.replace(new, path)
        sync_folder(path)
    except OSError as error:
        with contextlib.suppress(OSError):
            os.unlink(new)
        raise Passing(f"{path}: {error.strerror}") from None
    return inode
