"""What is known of a follower: what is counted of the stream and of an initial copy, how far the copy
is behind the server, what was found, and the feed beside the store."""

import collections
import dataclasses
import os
import threading
import time


class StreamCounters:
    """What was passed on of the stream, and how far the store has it."""

    def __init__(self) -> None:
        self.changes = self.commits = 0
        self.sent_to = bytes(8)
        self.confirmed = self.position = 0
        self.last_message: float | None = None
        self.lag = Lag()

    def note_passed(self, changes: int, commits: int) -> None:
        """So many were passed on since the follower began."""
        self.changes, self.commits = changes, commits

    def note_sent(self, sent_to: bytes) -> None:
        """A message has come that tells up to which LSN the server has sent its log."""
        self.sent_to, self.last_message = sent_to, time.time()

    def note_confirmed(self, confirmed: int, position: int) -> None:
        self.confirmed, self.position = confirmed, position
        self.lag.note_confirmed(confirmed)

    def server_end(self) -> int:
        """The greatest LSN that the server is known to have reached; 0 where none is known."""
        return max(self.lag.end, int.from_bytes(self.sent_to, "big"))

    def lag_bytes(self) -> int | None:
        return self.lag.bytes(self.server_end())

    def lag_of(self, reader: int) -> int:
        """How many bytes of the server's log are between a reader and the store's position."""
        return max(self.position - reader, 0)


class CopyCounters:
    """How far an initial copy is. What the server's statistics don't tell is None."""

    def __init__(self) -> None:
        self.rows = self.tables = 0
        self.total_rows: int | None = None
        self.total_tables: int | None = None
        # the table that is copied
        self.table: str | None = None

    def begin(self) -> None:
        """An attempt begins: nothing is there of one before."""
        self.rows = self.tables = 0

    def note_total(self, rows: int | None, tables: int | None) -> None:
        self.total_rows, self.total_tables = rows, tables

    def begin_part(self, table: str) -> None:
        self.table = table

    def note_part(self, rows: int, is_last: bool) -> None:
        """A part is there, the last one of its table maybe."""
        self.rows += rows
        self.tables += is_last

    def end(self) -> None:
        self.table = None

    def seconds_left(self, rate: float) -> int | None:
        """How long it takes on, by the server's statistics and this rate."""
        if self.table is None or self.total_rows is None or rate <= 0:
            return None
        return round(max(self.total_rows - self.rows, 0) / rate)


# For how many seconds the last answer of the server's is taken for what it has now.
FRESH = 10.0
# How many ends of the server's log are kept that the copy hasn't reached. Without the oldest ones
# it is known later what it is complete as of.
MOST = 50000


class Lag:
    """How old the oldest commit is that the copy lacks, from what is known of it. All times are in
    seconds since 1970.

    Two things tell as of when a copy is complete: the time of the last commit that it has, and the
    end that the server's log had when it was asked. A commit that was passed on and isn't confirmed
    yet tells its age itself. Commits have the times of the server's clock, which `skew` brings to
    this one's.

    The thread that follows calls `note_confirmed`, `note_commit` and `note_waiting`, the one that
    asks calls `note_answer`, and the one that reports, where there is one, calls `bytes` and
    `seconds`.
    """

    def __init__(self) -> None:
        # the LSN up to which the copy is complete
        self.confirmed = 0
        # the commit times of the last commit that is confirmed, and of the first one that isn't
        self.last_commit: float | None = None
        self.waits_since: float | None = None
        # the greatest end of the server's log that is known
        self.end = 0
        self.skew = 0.0
        # when the server was asked, and the end that it told, of those that aren't reached
        self.asked = collections.deque[tuple[float, int]](maxlen=MOST)
        self.lock = threading.Lock()
        self.answered = 0.0
        self.complete: float | None = None

    def note_confirmed(self, confirmed: int) -> None:
        self.confirmed = confirmed

    def note_commit(self, at: float) -> None:
        """Notes the commit time of the last commit that is confirmed."""
        self.last_commit = at

    def note_waiting(self, since: float | None) -> None:
        """Notes the commit time of the first commit passed on unconfirmed; None of none."""
        self.waits_since = since

    def note_answer(self, asked: float, answered: float, clock: float | None, end: int) -> None:
        """Notes an answer of the server's: what its clock showed, and where its log ended."""
        if clock is not None:
            self.skew = clock - (asked + answered) / 2
        self.end = end
        self.forget_reached()
        self.asked.append((asked, end))
        self.answered = answered

    def forget_reached(self) -> None:
        """Forgets the ends that are reached, but for when the last of them was asked for."""
        with self.lock:
            while self.asked and self.asked[0][1] <= self.confirmed:
                self.complete = self.asked.popleft()[0]

    def bytes(self, sent_to: int) -> int | None:
        """How much of the server's log the copy lacks; None where nothing is known of it.
        `sent_to`: how far the server has sent."""
        end = max(self.end, sent_to)
        return max(end - self.confirmed, 0) if end else None

    def seconds(self, now: float) -> float | None:
        """How old the oldest commit may be that the copy lacks; 0 for none, None if unknown."""
        self.forget_reached()
        waits_since, last_commit = self.waits_since, self.last_commit
        if waits_since is not None:
            return max(now - (waits_since - self.skew), 0.0)
        if not self.asked and self.complete is not None and now - self.answered < FRESH:
            return 0.0
        known = [] if self.complete is None else [self.complete]
        known += [] if last_commit is None else [last_commit - self.skew]
        return max(now - max(known), 0.0) if known else None


# The kinds of what may be found; the last, by changes that found no row.
KINDS = (
    *("history", "slot", "names", "publication", "values", "rule", "repeat", "unwatched"),
    "missing",
)


@dataclasses.dataclass(frozen=True)
class Counted:
    """What is known of changes that found no row."""

    since: int
    upto: int
    count: int = 0
    first: int = 0
    relation: int = 0
    gap: tuple[int, int] | None = None


class Findings:
    """The findings, as they are shown."""

    def __init__(self) -> None:
        # the text of each kind
        self.found: dict[str, str] = {}
        # the changes that found no row, and the table of the first one
        self.counted: Counted | None = None
        self.missing_in = ""
        # the final LSN of the commit that was skipped
        self.skipped = ""
        # the tables that are being added, and how that goes
        self.adding: dict[str, str] = {}

    def note(self, found: dict[str, str]) -> None:
        self.found = found

    def note_counted(self, counted: Counted | None) -> None:
        self.counted = counted

    def note_missing(self, counted: Counted | None, missing_in: str, found: dict[str, str]) -> None:
        """`found`: what this adds to the findings."""
        self.counted, self.missing_in = counted, missing_in
        self.found = {**self.found, **found}

    def note_skipped(self, lsn: str) -> None:
        self.skipped = lsn

    def note_adding(self, adding: dict[str, str]) -> None:
        self.adding = adding


class SpoolState:
    """The file of open transactions' changes. Nothing of it is known where they stay in memory."""

    def __init__(self) -> None:
        self.path = ""
        # what is wrong with it, and up to which LSN the copy isn't confirmed as long as that lasts
        self.failed = "", 0

    def note_path(self, path: str) -> None:
        self.path = path

    def note_fault(self, text: str, until: int) -> None:
        self.failed = text, until

    def fault(self, confirmed: int) -> str:
        """What is wrong with it, "" once the copy is confirmed up to where the server was then."""
        text, until = self.failed
        return text if confirmed < until else ""

    def bytes(self) -> int | None:
        """How large it is, None where nothing is in it, or no filter runs."""
        try:
            return os.stat(self.path).st_size or None
        except OSError:
            return None


# What a sink is at that has yet to say whether it is well.
BEGINS = "begins"


class FeedState:
    """Nothing of it is known where there is no feed."""

    def __init__(self) -> None:
        # how many bytes its segments have, and the LSN of each reader
        self.bytes: int | None = None
        self.readers: dict[str, int] = {}
        # by the name of each when it was seen to move last, in seconds since 1970
        self.moved: dict[str, float] = {}
        # the file of the tables that follow it, "" where there are none
        self.tables = ""
        # what ended the tables that follow it, and which of them are set aside, and why
        self.tables_error = ""
        self.tables_aside: dict[str, str] = {}
        # what is wrong with each sink, "" where it is well
        self.sinks: dict[str, str] = {}

    def note(self, readers: dict[str, int], size: int) -> None:
        now = time.time()
        self.moved = {
            name: self.moved.get(name, now) if self.readers.get(name) == lsn else now
            for name, lsn in readers.items()
        }
        self.readers, self.bytes = readers, size

    def note_tables(self, path: str) -> None:
        self.tables = path

    def note_tables_error(self, error: str) -> None:
        self.tables_error = error

    def note_tables_aside(self, tables: dict[str, str]) -> None:
        self.tables_aside = tables

    def note_sink(self, where: str, wrong: str) -> None:
        self.sinks = {**self.sinks, where: wrong}
