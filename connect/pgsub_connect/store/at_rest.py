"""A store's file at rest, for whoever reads it: where it is followed, a copy that its follower is
asked for; and whether it has all rows of its initial copy. Until then its file has the store's
name, at a position that is none of a server's, and its checkpoint says so."""

import contextlib
import errno
import fcntl
import os
import sqlite3
import struct
import time
from collections.abc import Iterator

from pgsub_feed import log
from pgsub_feed.errors import FileError, Passing, told_of
from pgsub_feed.files import LOG, copy, own_name, remove_files
from pgsub_feed.interruption import Check
from pgsub_feed.ownership import real
from pgsub_feed.tables.sqlite_files import failed

from .checkpoint import has_name, read_known
from .checkpoint_lines import COPYING, SLOT
from .file import NEW, fold, position_in
from .socket_file import SUFFIX, Asking

# Where SQLite, and so the program, locks a file: the bytes of its readers.
SHARED_FIRST, SHARED_SIZE = 0x40000002, 510
# How long a follower may take to begin a copy, to have its socket, and until another look.
PATIENCE, STARTING = 300.0, 10.0
LOOK = 0.1
# The greatest position of a store whose load hasn't ended: each LSN of a server is above it.
MOST_PARTS = 0xFFFFF


@contextlib.contextmanager
def at_rest(store: str, beside: str, check: Check) -> Iterator[tuple[str, bool]]:
    """Gives a file with the rows of a store that nobody writes meanwhile, and whether it is a copy,
    which goes afterwards.

    The follower of a running store makes the copy in the store's folder. Where none runs, the
    store's own file is held; only one whose log isn't empty is copied, to a name beside `beside`.
    """
    check_there(store)
    with contextlib.ExitStack() as stack:
        while (file := locked_checkpoint(store)) is None:
            copied = ask(store, check)
            if copied is not None:
                stack.callback(remove_files, copied)
                yield copied, True
                return
        stack.callback(os.close, file)
        yield stack.enter_context(unopened(store, beside, check))


@contextlib.contextmanager
def unopened(store: str, beside: str, check: Check) -> Iterator[tuple[str, bool]]:
    """The same of a store that no connector but this one may open meanwhile."""
    with contextlib.ExitStack() as stack:
        stack.callback(os.close, hold(store))
        if not has_log(store):
            yield store, False
            return
        copied = own_name(beside + ".copied")
        stack.callback(remove_files, copied)
        try:
            for suffix in (LOG, ""):
                copy(real(store) + suffix, copied + suffix, 0o600, check)
        except OSError as error:
            # (a write that fails names no file)
            error.filename = error.filename or beside
            raise
        try:
            fold(copied)
        except sqlite3.Error as error:
            raise failed(error, store) from None
        yield copied, True


def check_there(store: str) -> None:
    if is_being_copied(store):
        text = f"there is no store {store} yet: its first rows are being copied, or their copy was interrupted"
        raise Passing(text)
    if not os.path.exists(store):
        raise FileError(f"there is no store {store}")
    if not os.path.isfile(store):
        raise FileError(f"{store}: not a file")


def has_log(store: str) -> bool:
    """Whether a killed program's log has rows: it is beside the file, whatever links to it."""
    try:
        return os.stat(real(store) + LOG).st_size > 0
    except FileNotFoundError:
        return False


def locked_checkpoint(store: str) -> int | None:
    """An open file that keeps connectors from starting here; None where one is at work."""
    path = store + ".connector"
    try:
        file = os.open(path, os.O_RDONLY | os.O_NONBLOCK | os.O_CLOEXEC)
    except FileNotFoundError:
        # (nobody has followed into it: a snapshot, or what was made of a recording)
        return os.open(os.devnull, os.O_RDONLY | os.O_CLOEXEC)
    except OSError as error:
        if error.errno == errno.EACCES and os.stat(path).st_uid != os.geteuid():
            # (of another account: the lock of the store's own file is what is left)
            return os.open(os.devnull, os.O_RDONLY | os.O_CLOEXEC)
        raise FileError(f"{path}: {error.strerror}") from None
    try:
        fcntl.flock(file, fcntl.LOCK_EX | fcntl.LOCK_NB)
    except BlockingIOError:
        os.close(file)
        return None
    if not has_name(file, path):
        # (removed meanwhile, and perhaps made anew)
        os.close(file)
        return locked_checkpoint(store)
    return file


def hold(store: str) -> int:
    """Opens a store's file and locks it as a reader, so that no `pgsub` opens it. Raises where one
    has it open.

    The lock is one of the open file: SQLite in this process may open and close the same file.
    """
    with told_of(store):
        file = os.open(store, os.O_RDONLY | os.O_CLOEXEC)
    lock = struct.pack("hhqqi4x", fcntl.F_RDLCK, os.SEEK_SET, SHARED_FIRST, SHARED_SIZE, 0)
    try:
        fcntl.fcntl(file, fcntl.F_OFD_SETLK, lock)
    except OSError as error:
        os.close(file)
        if error.errno in (errno.EAGAIN, errno.EACCES):
            raise Passing(f"{store}: another program has it open") from None
        # (a file system without locks)
        raise FileError(f"{store}: {error.strerror}") from None
    return file


def ask(store: str, check: Check) -> str | None:
    """Asks the follower for a copy, and waits for it. Returns None where the follower has ended."""
    into = os.path.abspath(own_name(store + ".export"))
    asking = follower_of(store, check)
    if asking is None:
        return None
    with contextlib.ExitStack() as undone:
        undone.callback(remove_files, into)
        with contextlib.closing(asking):
            log.info(f"{store} is being followed: its follower is asked for a copy")
            asking.say(ask="copy", into=into)
            if not is_copied(asking, into):
                return None
        undone.pop_all()
    return into


def follower_of(store: str, check: Check) -> Asking | None:
    """A connection to the follower of a store. None where it has ended meanwhile."""
    began = time.monotonic()
    while is_followed(store):
        # (a follower that was killed has left a socket, and its filter has the store for a moment)
        with contextlib.suppress(BlockingIOError, ConnectionRefusedError, FileNotFoundError):
            return Asking(store, check)
        waited = time.monotonic() - began
        if waited > PATIENCE or waited > STARTING and not os.path.lexists(store + SUFFIX):
            raise Passing(
                f"{store}: nobody answers at {store}{SUFFIX}: is its follower of an older version?"
            )
        check()
        time.sleep(LOOK)
    return None


def is_copied(asking: Asking, into: str) -> bool:
    """Waits for a follower's copy. Returns false where it has ended without one."""
    answer = asking.answer(PATIENCE, lambda: os.path.exists(into + NEW))
    if answer is None:
        return False
    if "error" in answer:
        raise Passing(f"{asking.store}: its follower couldn't copy it: {answer['error']}")
    # (what isn't the follower's copy, but a link to some other file)
    if os.path.islink(into):
        text = f"{into}: a link in the place of a copy: the store's folder has to be its account's alone"
        raise FileError(text)
    if not os.path.exists(into):
        raise Passing(f"{into}: the copy isn't there")
    return True


def is_followed(store: str) -> bool:
    file = locked_checkpoint(store)
    if file is not None:
        os.close(file)
    return file is None


def is_being_copied(store: str) -> bool:
    """Whether a store's first rows are being copied, or their copy was interrupted."""
    if not os.path.exists(store):
        return False
    try:
        return read_known(store + ".connector").phase in (COPYING, SLOT)
    except FileError:
        # (of another account)
        return 0 < (position_in(store) or 0) <= MOST_PARTS


def is_whole(store: str) -> bool:
    """Whether a store is there, with all rows of its initial copy."""
    return os.path.exists(store) and not is_being_copied(store)
