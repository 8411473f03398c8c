"""The socket `STORE.sock`, by which programs of the same machine ask the follower of a store.

An address of a socket has 107 bytes at most, and a store may lie deeper or have a longer name. So
it is bound by a short name in the folder, which is open, and renamed then. That replaces what a
killed follower has left, or somebody has put there; the follower has locked the checkpoint. A
program connects to the file that it has opened, which nobody can replace by a link.

Whoever may read the store may connect. What each may ask is decided by the account of its process,
which the kernel says (SO_PEERCRED). A program looks at the follower's in the same way.

Requests and answers are objects of JSON, one on each line.

| The program says | The follower answers |
|---|---|
| `{"ask": "copy", "into": FILE}` | `copied`: the LSN of the copy |
| `{"ask": "hold", "into": FILE, ..}`, `{"point": LSN}`, `{"tables": [OID, ..]}` | as the module `stream.hold` says |
| `{"ask": "add", "add": [OID, ..], "remove": [OID, ..]}` | `noted`: it is done from now on |
| `{"ask": "wait", "lsn": LSN, "tables": FILE}` | `reached`: an LSN at which the tables have all that was committed up to that |

A file is one in the store's folder that isn't there yet. Each answer may be `error`, with a text, in
place of that. Where one of the two ends, so does the connection, and with it what was asked.
"""

import collections
import contextlib
import json
import os
import select
import socket
import stat
import struct
import time
from collections.abc import Callable
from typing import Any

from pgsub_feed.errors import FileError, Passing
from pgsub_feed.interruption import Check, interruptible, undone_by
from pgsub_feed.json_texts import Unreadable, object_of, parsed
from pgsub_feed.ownership import opened, real

SUFFIX = ".sock"
# How many connections may wait to be accepted.
BACKLOG = 128
# How many bytes a line may have, and how many are read at once.
LONGEST, PIECE = 1 << 20, 1 << 16


def listening(store: str, mode: int) -> socket.socket:
    """Makes the socket, for those that a file with this mode may be read by."""
    path, made = store + SUFFIX, socket.socket(socket.AF_UNIX, socket.SOCK_STREAM)
    with undone_by(made.close):
        try:
            bind(made, path, mode)
        except OSError as error:
            raise FileError(f"{path}: {error.strerror or error}") from None
    return made


def bind(made: socket.socket, path: str, mode: int) -> None:
    folder_of, short = os.path.dirname(os.path.abspath(path)), f".pgsub-{os.getpid()}{SUFFIX}"
    with opened(folder_of, os.O_PATH | os.O_DIRECTORY) as folder:
        with contextlib.suppress(FileNotFoundError):
            os.unlink(short, dir_fd=folder)
        # (its file begins with this mode)
        os.fchmod(made.fileno(), 0o600)
        made.setblocking(False)
        made.bind(f"/proc/self/fd/{folder}/{short}")
        with undone_by(lambda: os.unlink(short, dir_fd=folder)):
            made.listen(BACKLOG)
            set_mode(short, folder, mode)
            os.rename(short, os.path.basename(path), src_dir_fd=folder, dst_dir_fd=folder)


def set_mode(name: str, folder: int, mode: int) -> None:
    """Lets those connect who may read a file with this mode: a socket has to be writable for it."""
    readers = mode & 0o444
    with opened(name, os.O_PATH | os.O_NOFOLLOW, folder) as file:
        os.chmod(f"/proc/self/fd/{file}", 0o600 | readers | readers >> 1)


def connected(store: str) -> socket.socket:
    """A connection to a store's follower, which doesn't block. An OSError says why not."""
    path, made = store + SUFFIX, socket.socket(socket.AF_UNIX, socket.SOCK_STREAM)
    with undone_by(made.close), opened(path, os.O_PATH | os.O_NOFOLLOW) as file:
        if not stat.S_ISSOCK(os.fstat(file).st_mode):
            raise FileError(f"{path}: not a socket")
        made.setblocking(False)
        made.connect(f"/proc/self/fd/{file}")
        if (uid := account_of(made)) not in (0, os.geteuid(), os.stat(real(store)).st_uid):
            raise FileError(f"{path}: another account ({uid}) answers there, not the store's")
    return made


def account_of(made: socket.socket) -> int:
    """The account of the process at the other end."""
    said = made.getsockopt(socket.SOL_SOCKET, socket.SO_PEERCRED, struct.calcsize("iII"))
    return int(struct.unpack("iII", said)[1])


def line_of(fields: dict[str, Any]) -> bytes:
    return json.dumps(fields).encode() + b"\n"


class Lines:
    """Takes the objects out of what comes. An Unreadable names what is none, or is too long."""

    def __init__(self, longest: int = LONGEST) -> None:
        self.longest, self.begun = longest, b""

    def take(self, piece: bytes) -> list[dict[str, Any]]:
        *lines, self.begun = (self.begun + piece).split(b"\n")
        if len(self.begun) > self.longest:
            raise Unreadable(f"longer than {self.longest} bytes")
        return [object_of(parsed(it, self.longest)) for it in lines]


# How long it is waited until it is looked for the end, in seconds, which a signal cuts short.
STEP = 1.0


class Asking:
    """A connection to the follower of a store."""

    def __init__(self, store: str, check: Check) -> None:
        self.store, self.check = store, check
        self.socket: socket.socket = connected(store)
        self.lines, self.answers = Lines(), collections.deque[dict[str, Any]]()
        # whether the follower has ended, or the connection
        self.is_over = False

    def say(self, **fields: object) -> None:
        left = memoryview(line_of(fields))
        while left and not self.is_over:
            try:
                left = left[self.socket.send(left) :]
            except BlockingIOError:
                self.wait(STEP, writes=True)
            except OSError:
                # (what it said before is read still)
                return

    def answer(
        self, seconds: float, has_begun: Callable[[], bool] = lambda: False
    ) -> dict[str, Any] | None:
        """The next answer, None where there is none since the follower has ended. Raises where it
        hasn't come in this time, unless what was asked has begun."""
        until = time.monotonic() + seconds
        while not self.answers and not self.is_over:
            left = until - time.monotonic()
            if left <= 0 and not has_begun():
                text = f"{self.store}: its follower hasn't answered in {seconds:.0f} seconds"
                raise Passing(text)
            if self.wait(min(left, STEP) if left > 0 else STEP):
                self.read()
        return self.answers.popleft() if self.answers else None

    def wait(self, seconds: float, writes: bool = False) -> bool:
        """Whether it can be read, or written, within this time."""
        reads = [] if writes else [self.socket]
        with interruptible(self.check):
            return any(select.select(reads, [self.socket] if writes else [], [], seconds))

    def read(self) -> None:
        try:
            piece = self.socket.recv(PIECE)
            self.answers += self.lines.take(piece)
        except BlockingIOError:
            return
        except OSError:
            piece = b""
        except Unreadable as error:
            raise FileError(f"{self.store}{SUFFIX}: an answer can't be read: {error}") from None
        self.is_over = not piece

    def close(self) -> None:
        self.socket.close()
