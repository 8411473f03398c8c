"""Files that appear as a whole: written beside their place, and renamed once synced."""

import contextlib
import os
from collections.abc import Callable, Sequence

from pgsub_feed.errors import FileError, UsageError, told_of
from pgsub_feed.files import OF_FILE, meant
from pgsub_feed.ownership import real

from .file import NEW
from .repeats_file import SUFFIX as REPEATS
from .socket_file import SUFFIX
from .spool_folder import SUFFIX as SPOOL

# The end of the name of the file that says how the filter left its store.
LEFT = ".left"
# What follows a store's name in those of its files, the checkpoint last, by which a start tells.
OF_STORE = (
    *(NEW, *OF_FILE[1:], "", SUFFIX, REPEATS, SPOOL),
    *(LEFT + ".new", LEFT, ".tables.new", ".tables", ".connector"),
)
Identity = str | tuple[int, int]


def identities(*paths: str) -> set[Identity]:
    """What the names of one file have in common: the path without links, or the inode."""
    found: set[Identity] = {os.path.realpath(path) for path in paths}
    for path in paths:
        with contextlib.suppress(OSError):
            about = os.stat(path)
            found.add((about.st_dev, about.st_ino))
    return found


def check_apart(
    store: str, written: Sequence[tuple[str, str]], read: Sequence[tuple[str, str]]
) -> None:
    """Rejects files to write, by their options, that are a store's own or named twice."""
    # (the connector's are beside the name that it was given, the program's beside what that links to)
    names = (store, os.path.realpath(store)) if store else ()
    own = identities(*(name + it for name in names for it in OF_STORE))
    for at, (option, path) in enumerate(written):
        if not own.isdisjoint(identities(path, os.path.dirname(os.path.realpath(path)))):
            raise UsageError(f"{option} {path}: that is a file of the store itself")
        files = identities(*(path + it for it in OF_FILE))
        for other, its in (*written[at + 1 :], *read):
            if not files.isdisjoint(identities(*(its + it for it in OF_FILE))):
                raise UsageError(f"{option} {path} and {other} {its}: each needs a file of its own")


def check_meant(store: str) -> None:
    """Rejects a link as a store's name where it leads to no place for a file."""
    path = meant(store)
    folder = os.path.dirname(path)
    if os.path.islink(path):
        raise FileError(f"--store {store}: the link leads to itself")
    if not os.path.isdir(folder or "."):
        leads = f" leads to {path}" if path != store else ""
        raise FileError(f"--store {store}{leads}: there is no folder {folder}")


def check_into(
    store: str, into: str, is_earlier: Callable[[str], bool], what: str, option: str = "--into"
) -> None:
    """Rejects, by its option, a file to write that isn't an earlier one, or is the store's."""
    check_apart(store, [(option, into)], [])
    folder = os.path.dirname(real(into))
    if not os.path.isdir(folder):
        raise FileError(f"{option} {into}: there is no folder {folder}")
    if not os.path.lexists(meant(into)):
        return
    with told_of(into):
        is_good = os.path.isfile(into) and is_earlier(into)
    if not is_good:
        # (whose it is isn't known)
        raise FileError(f"{option} {into} is there and isn't {what}: name another file")
