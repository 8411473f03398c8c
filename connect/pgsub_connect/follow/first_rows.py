"""The processes that get the rows of an initial copy while they are read: they make the tables of
`--tables`, as the module `store.copied_rows` says, and the first rows of a feed (`store.base_files`).
A copy that goes on after it was interrupted has rows that no process got: then these are made from
the store, once that is whole.

Each has the checkpoint open, as the filter has: the next start of a connector that was killed waits
until it has ended.
"""

import contextlib
import fcntl
import json
import os
import subprocess
import sys
import threading
import time

from pgsub_feed import log
from pgsub_feed.files import meant, remove_files
from pgsub_feed.interruption import Check, never
from pgsub_feed.reader.base import has_base, remove_begun

from ..copy.rows_beside import RowsBeside
from ..server.catalog import Table
from ..store.checkpoint import Checkpoint
from ..store.row_frames import DONE, BaseWanted, TablesWanted, rows_frame
from .process_beside import START, TablesSettings, environment

CODE = f"{START}from pgsub_connect.store import base_files, copied_rows; %s()"
# How many bytes may wait for the process, and how many seconds it has at the follower's end.
ROOM, PATIENCE = 1 << 20, 20.0
# How often it is looked whether to end, in seconds.
STEP = 0.1


class FromCopy(RowsBeside):
    """A process, by the function of `store` that it calls. `name`: what it makes."""

    def __init__(self, name: str, call: str, checkpoint: int) -> None:
        self.name, self.call, self.checkpoint = name, call, checkpoint
        self.child: subprocess.Popen[bytes] | None = None
        self.has_all = False
        self.writing = threading.Lock()

    def wanted(self, point: int) -> TablesWanted | BaseWanted:
        """What it is told."""
        raise NotImplementedError

    def forget(self, child: int) -> None:
        """Removes what such a process has left that was killed."""
        raise NotImplementedError

    def begin(self, point: int) -> None:
        self.abandon()
        try:
            # (a session of its own: an interrupt at the terminal is for the follower)
            self.child = child = subprocess.Popen(
                [sys.executable, "-c", CODE % self.call, json.dumps(self.wanted(point))],
                bufsize=0,
                stdin=subprocess.PIPE,
                start_new_session=True,
                pass_fds=(self.checkpoint,),
                env=environment(),
            )
        except OSError as error:
            # (processes or memory may be too few)
            log.warning(f"{self.name} can't be made while rows are copied: {error.strerror}")
            return
        assert child.stdin
        with contextlib.suppress(OSError):
            fcntl.fcntl(child.stdin, fcntl.F_SETPIPE_SZ, ROOM)

    def take(self, table: Table, lines: list[bytes]) -> None:
        if self.child:
            self.write(rows_frame(table.oid, len(table.columns), lines))

    def write(self, frame: bytes) -> None:
        left = memoryview(frame)
        with self.writing:
            while left and self.child and self.child.stdin and not self.child.stdin.closed:
                try:
                    left = left[os.write(self.child.stdin.fileno(), left) :]
                except BrokenPipeError:
                    # (it has told why it ended)
                    self.child.stdin.close()

    def end(self) -> None:
        self.write(DONE)
        with self.writing:
            if self.child and self.child.stdin:
                self.child.stdin.close()
                self.has_all = True

    def is_whole(self, child: subprocess.Popen[bytes]) -> bool:
        """Waits for a process, and returns whether it has made what it should."""
        if child.wait() == 0:
            return True
        self.forget(child.pid)
        return False

    def abandon(self) -> None:
        child = self.child
        if child is None:
            return
        if self.has_all:
            with contextlib.suppress(subprocess.TimeoutExpired):
                child.wait(PATIENCE)
        child.kill()
        self.is_whole(child)
        with self.writing:
            assert child.stdin
            child.stdin.close()
        self.child, self.has_all = None, False


class FirstRows(FromCopy):
    """That which makes tables. Where it fails, they are made from the store."""

    def __init__(self, settings: TablesSettings, checkpoint: int) -> None:
        super().__init__(settings.path, "copied_rows.run", checkpoint)
        self.settings = settings

    def wanted(self, point: int) -> TablesWanted:
        it = self.settings
        return TablesWanted(it.path, it.store, it.feed, it.numeric, it.mode, point)

    def is_ready(self, check: Check) -> bool:
        """(It has begun before anything follows, by which tables may be altered.)"""
        until = time.monotonic() + PATIENCE
        while (child := self.child) and child.poll() is None and time.monotonic() < until:
            if os.path.exists(self.begun(child.pid)):
                break
            check()
            time.sleep(STEP)
        return True

    def begun(self, child: int) -> str:
        """The file that a process makes."""
        return f"{meant(self.name)}.pgsub-{child}"

    def forget(self, child: int) -> None:
        remove_files(self.begun(child))

    def wait(self) -> None:
        if child := self.child:
            how = "was made with the copy" if self.is_whole(child) else "is made from the store"
            log.info(f"tables: {self.name} {how}")


class BaseRows(FromCopy):
    """That which makes the first rows of a feed: before the feed begins."""

    def __init__(self, feed: str, store: str, mode: int, checkpoint: Checkpoint) -> None:
        super().__init__(feed, "base_files.run", checkpoint.file)
        self.store, self.mode, self.known = store, mode, checkpoint

    def wanted(self, point: int) -> BaseWanted:
        it = self.known.known
        source = it.system, it.database, it.slot
        return BaseWanted(self.name, self.store, self.mode, point, *source)

    def forget(self, child: int) -> None:
        remove_begun(self.name)

    def wait(self, check: Check = never) -> None:
        while self.child and self.child.poll() is None:
            check()
            time.sleep(STEP)
        if self.child:
            self.is_whole(self.child)
        remove_begun(self.name)

    def is_ready(self, check: Check) -> bool:
        self.end()
        self.wait(check)
        return has_base(self.name)

    def complete(self, is_copied: bool, check: Check) -> None:
        """Has them be there, before the feed begins. `is_copied`: the store has what was copied and
        nothing else, and nobody has it open."""
        self.wait()
        if is_copied and not has_base(self.name):
            self.make_from_store(check)
        if not has_base(self.name):
            text = f"{self.name} has no first rows: its readers begin with an export, by --base"
            log.warning(text)

    def make_from_store(self, check: Check) -> None:
        log.info(f"{self.name}: its first rows are read from {self.store}")
        self.call = "base_files.run_from_store"
        self.begin(self.known.known.position)
        self.wait(check)
