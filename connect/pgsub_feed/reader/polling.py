"""Waits for what a feed has next: looks again and again, or is told by the follower."""

import contextlib
import os
import select
import time
from collections.abc import Callable, Iterator

from ..errors import Damaged, Stopped, Unfit
from ..interruption import Check, interruptible, never
from ..texts import lsn_text, parse_lsn
from .commits import Commit
from .segments import Reader

# How long to wait at first and at most until the feed is looked at again, in seconds.
SHORT, LONG = 0.005, 0.02
# For how long a follower that tells what comes is waited for, at first and at most, in seconds.
LEAST, MOST = 1.0, 8.0
# For how many seconds what can't be read may be what the filter is about to cut off.
PATIENCE = 3.0


class Parent:
    """The follower that has started this process: by a line on standard input it tells that the
    feed has more, and this ends with that input. A line with an LSN asks for one on standard output
    once that LSN is reached."""

    def __init__(self, check: Check) -> None:
        self.check_signals = check
        self.begun, self.asked = b"", list[int]()
        # whether it has told something since it was waited for, and how long it is waited for at
        # most: who reads has something to do in its time
        self.has_told, self.pause = True, LEAST

    def check(self) -> None:
        """Takes what was told. Raises where the end was asked for."""
        self.check_signals()
        if select.select([0], [], [], 0)[0]:
            self.read()

    def read(self) -> None:
        piece = os.read(0, 1 << 12)
        if not piece:
            raise Stopped
        *lines, self.begun = (self.begun + piece).split(b"\n")
        self.asked += [parse_lsn(it.decode()) for it in lines if it]
        self.has_told, self.pause = True, LEAST

    def wait(self) -> None:
        """Waits until it tells something."""
        if not self.has_told:
            with interruptible(self.check_signals):
                is_ready = select.select([0], [], [], self.pause)[0]
            self.pause = min(2 * self.pause, MOST)
            if is_ready:
                self.read()
        self.has_told = False

    def tell(self, at: int) -> None:
        """Answers where this LSN was waited for."""
        if any(it <= at for it in self.asked):
            self.asked = [it for it in self.asked if it > at]
            # (where it is gone, its end is seen next)
            with contextlib.suppress(OSError):
                os.write(1, f"{lsn_text(at)}\n".encode())


class Poll:
    """Asks a reader again and again. Not following: what is there has to be readable at once."""

    def __init__(
        self, reader: Reader, is_following: bool, check: Check, parent: Parent | None = None
    ) -> None:
        self.reader, self.is_following, self.check = reader, is_following, check
        self.parent = parent
        self.pause = SHORT
        # since when something is wrong, and at which LSN
        self.wrong: float | None = None
        self.wrong_at = 0

    def next(self) -> Commit | None:
        """The next commit that is there, None where there is none."""
        try:
            commit = self.reader.next()
        except (Damaged, Unfit) as wrong:
            self.bear(wrong, self.reader.at or 0)
            return None
        if commit and commit.prev >= self.wrong_at:
            self.wrong = None
        self.pause = SHORT if commit else self.pause
        return commit

    def bear(self, wrong: Damaged | Unfit, at: int) -> None:
        """Lets what is wrong pass for now, or raises it. It is right again once a commit is there
        that begins at this LSN or later."""
        now = time.monotonic()
        self.wrong, self.wrong_at = now if self.wrong is None else self.wrong, at
        is_late = now - self.wrong > PATIENCE or self.reader.is_lasting()
        if not self.is_following or is_late:
            raise wrong
        self.reader.close()

    def rest(self) -> None:
        """Waits until it is time to look again."""
        self.check()
        if self.parent and self.wrong is None:
            self.parent.wait()
            return
        time.sleep(self.pause)
        self.pause = min(self.pause * 1.5, LONG)

    def commits(self, idle: Callable[[], None] = never) -> Iterator[Commit]:
        """All of them; where it isn't following, those that are there. `idle` is called where there
        are none for now."""
        while (commit := self.next()) or self.is_following:
            if commit:
                yield commit
            else:
                idle()
                self.rest()

    def try_again(self, damaged: Damaged, commit: Commit, at: int) -> None:
        """Goes back to an LSN from a commit whose lines can't be read: they may be what is about to
        be cut off."""
        self.bear(damaged, commit.end)
        self.reader.go_back(at)
        self.rest()
