"""An engine that follows a feed: begun, or gone on with, and waited for where it is away."""

import contextlib
import os
import time
from collections.abc import Callable

from .. import log
from ..errors import Passing, Stopped
from ..interruption import Check, at_most, is_ended, rest
from ..reader.folder import Noted, segments
from ..reader.following import Following, Reading
from ..reader.polling import Parent, Poll
from ..reader.segments import Reader
from ..tables.first_rows import head_of, keeping
from ..texts import lsn_text
from .connecting import GRACE
from .engine import Engine, Wanted
from .first_rows import base_of

# After how many seconds an engine that is away is tried again, at first and at most, how long it
# has to be there until that is forgotten, and how often it is looked meanwhile whether to end.
FIRST_DELAY, LONGEST_DELAY, FORGET, STEP = 1.0, 60.0, 60.0, 0.1
WAITS = f"it is waited for, and tried again at least every {LONGEST_DELAY:.0f} seconds"


class Outages:
    """How long an engine is waited for; a line tells that it is away, and is there again."""

    def __init__(self) -> None:
        self.delay = 0.0
        self.is_told, self.is_away = False, True
        # the LSN at which an engine was last, and since when it is there
        self.at, self.since = 0, time.monotonic()

    def begin(self) -> None:
        self.since = time.monotonic()

    def note(self, error: Passing, at: int) -> None:
        """It is away, and was at this LSN; 0 where it wasn't there at all."""
        lasted = bool(at) and time.monotonic() - self.since > FORGET
        if lasted or at not in (0, self.at):
            self.delay, self.is_told = 0.0, False
        self.at, self.delay = at or self.at, min(2 * self.delay, LONGEST_DELAY) or FIRST_DELAY
        if not self.is_told:
            log.warning(f"{error}: {WAITS}")
            self.is_told = self.is_away = True

    def tell_there(self, text: str) -> None:
        if self.is_away:
            log.info(text)
        self.is_away = False

    def wait(self, check: Check) -> None:
        rest(self.delay, check, STEP)


def keep(
    reading: Reading, connect: Callable[[], Engine], check: Check, parent: Parent | None = None
) -> None:
    """Keeps what a feed has. Unless it is to end by itself, it waits for an engine."""
    outages = Outages()
    try:
        while True:
            at = 0
            try:
                with contextlib.closing(connect()) as engine:
                    outages.begin()
                    try:
                        follow(reading, engine, check, parent, outages)
                    finally:
                        at = engine.at
                    return log.info(f"all up to {lsn_text(at)} is written")
            except Passing as error:
                if not reading.follows or is_ended(check):
                    raise
                outages.note(error, at)
            outages.wait(check)
    except Stopped:
        if not reading.follows or reading.until is not None:
            raise Passing("ended before all of it was written") from None
        raise


def follow(
    reading: Reading, engine: Engine, check: Check, parent: Parent | None, outages: Outages
) -> None:
    wanted = Wanted(
        head_of(reading, check), reading.chosen, lambda at: check_after(reading, at, check)
    )
    if reading.name:
        # (first of all, since another sink that is fine is ended once this one has begun)
        engine.check_disk()
    if not engine.open(wanted):
        with keeping(reading), base_of(reading, check) as base:
            engine.begin(base)
    following = Following(reading, engine, check, noted_of(reading, engine), parent=parent)
    if reading.follows:
        outages.tell_there(f"{reading.feed} is written from {lsn_text(engine.at)} on")
    with contextlib.closing(following.reader):
        try:
            following.follow()
        except Stopped:
            end(following, engine)
            if not reading.follows or reading.until is not None:
                raise
            return
        following.finish()


def end(following: Following, engine: Engine) -> None:
    """Ends by a signal: has what was taken, and notes what is safe."""
    if not engine.finish(GRACE):
        # (the next run completes what may be there in part)
        raise Passing(
            "the engine doesn't answer, so it isn't known how much of the last commits is written"
        ) from None
    with at_most(GRACE):
        following.note(is_last=True)


def noted_of(reading: Reading, engine: Engine) -> Noted | None:
    """Where the LSN of a reader with a name is noted."""
    if not reading.name:
        return None
    noted = Noted(reading.feed, reading.name, None, reading.mode)
    if not os.path.exists(noted.path):
        # (so that nothing goes before it is known to be on a disk, though it is written)
        first = [base for base, _ in segments(reading.feed)[:1]]
        noted.note(min([engine.at, *first]), is_last=True)
    return noted


def check_after(reading: Reading, at: int, check: Check) -> None:
    """Rejects a feed that lacks commits after an LSN, as one that was begun anew does."""
    with contextlib.closing(Reader(reading.feed, at)) as reader:
        poll = Poll(reader, reading.follows, check)
        while poll.next() is None and poll.wrong is not None:
            poll.rest()
