"""Files and links of other accounts, which root meets where it works on a store that isn't its own.

A name may mean another file a moment later, so what is given to an account, or gets a mode, is an
open file. A link may lead anywhere: links are resolved here as the kernel does in a sticky folder
(`fs.protected_symlinks`), since what is resolved in a program isn't looked at by the kernel.
"""

import contextlib
import os
import stat
from collections.abc import Iterator

from .errors import FileError

# How many links a path may have, as in Linux.
LINKS = 40


def real(path: str) -> str:
    """A path without links, also where its end isn't there yet.

    A FileError names a link that is neither root's nor this account's. One that leads to itself
    stays.
    """
    found, links = "/", 0
    left = [*reversed(os.path.join(os.getcwd(), path).split("/"))]
    while left:
        name = left.pop()
        if name == "..":
            found = os.path.dirname(found)
            continue
        if name in ("", "."):
            continue
        step = os.path.join(found, name)
        target = target_of(step) if links < LINKS else None
        if target is None:
            found = step
            continue
        links += 1
        found = "/" if target.startswith("/") else found
        left += reversed(target.split("/"))
    return found


def target_of(path: str) -> str | None:
    """What a link leads to; None where there is no link."""
    try:
        about = os.lstat(path)
        target = os.readlink(path) if stat.S_ISLNK(about.st_mode) else None
    except OSError:
        # (not there; or whoever opens it is told why it can't be looked at)
        return None
    if target is not None and about.st_uid not in (0, os.geteuid()):
        text = f"{path}: a link of another account ({about.st_uid}) isn't followed"
        raise FileError(f"{text}: name the file that is meant, in a folder that others can't write")
    return target


def give(file: int, about: os.stat_result) -> None:
    """Gives an open file the owner and group of another one, as far as this account may."""
    own = os.fstat(file)
    if (own.st_uid, own.st_gid) == (about.st_uid, about.st_gid):
        return
    try:
        os.fchown(file, about.st_uid, about.st_gid)
    except PermissionError:
        # (a group that this account is in can be given)
        with contextlib.suppress(PermissionError):
            os.fchown(file, -1, about.st_gid)


def succeed(file: int, path: str) -> None:
    """Gives an open file, which is to replace the one with this name, the owner of that one.

    Where root works for another account the mode stays too, and where there is no such file yet
    it is for the account whose folder it is in.
    """
    is_root = os.geteuid() == 0
    try:
        about = os.lstat(path)
    except FileNotFoundError:
        if is_root:
            give(file, os.stat(os.path.dirname(os.path.abspath(path))))
        return
    if not stat.S_ISREG(about.st_mode):
        return
    give(file, about)
    if is_root and about.st_uid != 0:
        os.fchmod(file, stat.S_IMODE(about.st_mode))


def readable_by(file: int) -> str:
    """Which accounts beside its owner and root may read an open file, "" where none may."""
    mode = os.fstat(file).st_mode
    if not stat.S_ISREG(mode) or not mode & 0o044:
        return ""
    return "every account" if mode & 0o004 else "its group"


def readable_text(path: str, readers: str) -> str:
    """What is said of a file with a password that they may read."""
    return f"{path} has a password, and {readers} may read it: chmod 600"


@contextlib.contextmanager
def opened(path: str, flags: int = 0, folder: int | None = None) -> Iterator[int]:
    """Opens a file or folder for reading, or as flags say, and closes it again."""
    file = os.open(path, os.O_RDONLY | os.O_CLOEXEC | flags, dir_fd=folder)
    try:
        yield file
    finally:
        os.close(file)


def set_mode(path: str, mode: int) -> None:
    """Gives a file or folder a mode. A link isn't followed."""
    with opened(path, os.O_NOFOLLOW | os.O_NONBLOCK) as file:
        os.fchmod(file, mode)
