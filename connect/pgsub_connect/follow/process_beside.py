"""Processes of this program beside a follower, which read from its feed: `pgsub-connect tables`
for `--tables`, and `pgsub-connect sink` for each `--sink`.

Each is a reader of the feed with a name, so that the feed has what it lacks, and begins with a copy
of the store, for which it asks the follower as any other program does; tables with the file that
`follow.first_rows` has made with an initial copy, where there is one. It ends with the follower: a
signal ends it, and where the follower is killed, the end of its input. A line of its input tells
that the feed has more: until then it sleeps. One with an LSN asks for a line of its output with the
LSN that it has reached, once that is this one.
"""

import contextlib
import dataclasses
import os
import signal
import sqlite3
import subprocess
import sys
import threading
import time
from collections.abc import Mapping, Sequence
from typing import IO

from pgsub_feed import log
from pgsub_feed.errors import FileError
from pgsub_feed.interruption import Check, never
from pgsub_feed.reader.folder import READERS
from pgsub_feed.sinks.urls import ENVIRONMENT
from pgsub_feed.tables.set_aside import shown_asides
from pgsub_feed.tables.sqlite_files import is_tables, opened
from pgsub_feed.tables.values import BOTH
from pgsub_feed.texts import lsn_text, parse_lsn

from ..status.progress import Progress
from ..status.state import BEGINS
from ..stream.filter import KEPT
from .retention import read_lsn

# The statuses that another try doesn't mend, and that of one that can't be started now.
LASTING, PASSING = (1, 2, 3, 4, 5, 6), 7
# After how many seconds it is started again, at first and at most, and when that is forgotten.
FIRST_DELAY, LONGEST_DELAY, FORGET = 1.0, 60.0, 60.0
# How long it may take to end, in seconds: it ends between two transactions.
PATIENCE = 60.0
TOP = os.path.dirname(os.path.dirname(os.path.dirname(os.path.realpath(__file__))))
# (the working directory, which is the first of its path, may have modules of others)
START = f"import sys; sys.path[:] = [{TOP!r}, *filter(None, sys.path)]; "
CODE = f"{START}from pgsub_connect.cli import run; run()"


def environment() -> dict[str, str]:
    """What each such process needs of the environment: not the passwords of a server."""
    names = [it for it in os.environ if it in KEPT or it.startswith("PYTHON")]
    return {it: os.environ[it] for it in names}


class ProcessBeside(threading.Thread):
    """Starts it, again and again where that may help, and tells how it ended. `name`: what it
    writes; `head`: what goes before its lines in the log; `environment`: what it has beside what
    each has; `wake` has the main loop look what it has told."""

    environment: Mapping[str, str] = {}

    def __init__(self, name: str, head: str, words: Sequence[str], wake: Check = never) -> None:
        super().__init__(daemon=True, name=name)
        self.head, self.wake = head, wake
        self.words = [sys.executable, "-c", CODE, *words, "--while-input"]
        self.child: subprocess.Popen[bytes] | None = None
        self.lock, self.ended = threading.Lock(), threading.Event()
        # the LSN that it has told, and the LSNs at which it is to tell its own
        self.at, self.asked = 0, set[int]()
        self.said = ""
        # the status with which it has ended for good
        self.lasting = 0

    def run(self) -> None:
        delay = FIRST_DELAY
        self.look()
        while True:
            began = time.monotonic()
            status = self.run_once()
            if self.ended.is_set():
                return
            if status in LASTING:
                self.lasting, error = status, self.said or f"status {status}"
                self.note_error(error)
                log.error(f"{self.name} follows no more, status {status}: {error}")
                return
            delay = FIRST_DELAY if time.monotonic() - began > FORGET else delay
            log.warning(
                f"{self.name}: what follows has ended with status {status}: it is started again in {delay:.0f} s"
            )
            if self.ended.wait(delay):
                return
            delay = min(2 * delay, LONGEST_DELAY)

    def run_once(self) -> int:
        """Starts it, passes on what it says, and returns the status with which it ends."""
        self.said = ""
        with self.lock:
            if self.ended.is_set():
                return 0
            try:
                child = self.launched()
            except OSError as error:
                # (processes or memory may be too few)
                log.warning(f"{self.name}: what follows can't be started now: {error.strerror}")
                return PASSING
            self.child = child
            # (what is waited for is asked of this one too)
            self.asked = set()
            self.note_started()
            self.wake()
        assert child.stdin and child.stdout and child.stderr
        telling = threading.Thread(target=self.hear_output, args=(child.stdout,), daemon=True)
        telling.start()
        for line in child.stderr:
            self.hear(line.decode(errors="replace").rstrip("\n"))
        telling.join()
        status = child.wait()
        with self.lock:
            child.stdin.close()
        child.stdout.close()
        child.stderr.close()
        return status

    def launched(self) -> subprocess.Popen[bytes]:
        """A process of it, whose input doesn't block. (A session of its own: an interrupt at the
        terminal is for the follower, which ends it.)"""
        pipe, own = subprocess.PIPE, {**environment(), **self.environment}
        child = subprocess.Popen(
            self.words, stdin=pipe, stdout=pipe, stderr=pipe, start_new_session=True, env=own
        )
        assert child.stdin
        os.set_blocking(child.stdin.fileno(), False)
        return child

    def tell(self, text: str = "") -> bool:
        """Tells that the feed has more, or something else. Returns false where the pipe is full, so
        that it is about to look anyway, or nothing runs."""
        with self.lock:
            return self.put(text)

    def put(self, text: str) -> bool:
        """The same for who has the lock."""
        with contextlib.suppress(OSError):
            if self.child and self.child.stdin and not self.child.stdin.closed:
                return os.write(self.child.stdin.fileno(), f"{text}\n".encode()) > 0
        return False

    def ask(self, lsn: int) -> None:
        """Has it tell its LSN once it is this one or above."""
        # (with the lock: another one that is started meanwhile wasn't asked)
        with self.lock:
            if lsn not in self.asked and self.put(lsn_text(lsn)):
                self.asked.add(lsn)

    def hear_output(self, said: IO[bytes]) -> None:
        """Notes what it tells of its LSN."""
        for line in said:
            with contextlib.suppress(ValueError):
                self.at = parse_lsn(line.decode(errors="replace").strip())
            self.wake()

    def hear(self, line: str) -> None:
        """Passes a line on, without its time and the name of this program."""
        head, _, text = line.partition(f" {log.PROGRAM}: ")
        level, _, rest = text.partition(": ")
        if head and level in ("info", "warning", "error"):
            log.line(level, f"{self.head}: {rest}")
        else:
            log.info(f"{self.head}: {line}")
        if level == "error":
            self.said = rest
        self.note_said(level, rest)
        self.look()

    def finish(self) -> None:
        """Ends it."""
        self.ended.set()
        with self.lock:
            child = self.child
        if child and child.poll() is None:
            child.send_signal(signal.SIGTERM)
        if self.is_alive():
            self.join(PATIENCE)
        if child and child.poll() is None:
            log.warning(f"{self.name}: what follows doesn't end, and is killed")
            child.kill()

    # what one of a kind does

    def look(self) -> None:
        """Looks what has become of what it writes."""

    def note_started(self) -> None:
        """It was started."""

    def note_said(self, level: str, text: str) -> None:
        """It has said a line."""

    def note_error(self, error: str) -> None:
        """It has ended for good."""

    def has(self, lsn: int) -> bool:
        """Whether it has all up to this LSN, or follows no more."""
        if self.at < lsn and self.is_alive():
            self.ask(lsn)
            return False
        return True


READER = "tables"


@dataclasses.dataclass(frozen=True)
class TablesSettings:
    """The file of tables, the feed that it follows and the store that the feed is of. `init`: the
    SQL that is run once a table was made or altered; `digests`: whether one is kept of each
    table; `numeric`: how numerics are kept; `indexes`: whether there are the server's."""

    path: str
    feed: str
    store: str
    mode: int = 0o600
    init: str | None = None
    digests: bool = False
    numeric: str = BOTH
    indexes: bool = False

    def check(self) -> None:
        """Rejects a file that can't be one of tables that follow this store's feed."""
        path, folder = self.path, os.path.dirname(os.path.abspath(self.path))
        if not os.path.lexists(path):
            if not os.path.isdir(folder):
                raise FileError(f"--tables {path}: there is no folder {folder}")
        elif not (os.path.isfile(path) and is_tables(path)):
            text = f"{path} is there and has no tables that follow a feed"
            raise FileError(f"{text}: name another file by --tables")

    def words(self) -> list[str]:
        """How it is started."""
        words = ["tables", "--feed", self.feed, "--into", self.path, "--store", self.store]
        words += ["--reader", READER, "--mode", f"{self.mode:o}", "--numeric", self.numeric]
        words += ["--digests"] * self.digests + ["--indexes"] * self.indexes
        return words + (["--init", self.init] if self.init else [])


class Beside(ProcessBeside):
    """That process."""

    def __init__(
        self, settings: TablesSettings, progress: Progress, wake: Check = never, wait: Check = never
    ) -> None:
        super().__init__(settings.path, "tables", settings.words(), wake)
        self.wait = wait
        self.path, self.progress = settings.path, progress
        self.progress.feed.note_tables(settings.path)
        self.reader = os.path.join(settings.feed, READERS, READER)

    def run(self) -> None:
        # (for what makes the file now)
        self.wait()
        super().run()

    def is_of(self, path: object) -> bool:
        """Whether these are the tables of a file."""
        with contextlib.suppress(OSError, ValueError):
            return isinstance(path, str) and os.path.samefile(path, self.path)
        return False

    def note_error(self, error: str) -> None:
        self.progress.feed.note_tables_error(error)

    def look(self) -> None:
        """Shows which tables are set aside. It says a line of each once the file has it."""
        with contextlib.suppress(OSError, sqlite3.Error, ValueError):
            if os.path.exists(self.path):
                with contextlib.closing(opened(self.path)) as db:
                    asides = {it.name(): it.text() for it in shown_asides(db).values()}
                self.progress.feed.note_tables_aside(asides)

    def has(self, lsn: int) -> bool:
        """Whether the disk has the tables at this LSN, or they don't follow any more."""
        if self.progress.feed.tables_error or not self.is_alive():
            return True
        try:
            # (before they are made its LSN is that of what they need)
            return os.path.exists(self.path) and read_lsn(self.reader) >= lsn
        except FileError:
            return False


@dataclasses.dataclass(frozen=True)
class SinkSettings:
    """Where it writes, the feed that it follows and the store that the feed is of."""

    url: str
    feed: str
    store: str
    mode: int = 0o600

    def where(self) -> str:
        """The URL without name and password, which may be after a `?` too, by which it is called."""
        from urllib.parse import parse_qs

        scheme, _, rest = self.url.partition("://")
        place, _, query = rest.partition("?")
        words = parse_qs(query)
        told = [f"?{it}={words[it][0]}" for it in ("db", "topic.prefix") if it in words]
        return f"{scheme}://{place.rpartition('@')[2]}{''.join(told)}"

    def reader(self) -> str:
        """Its name as a reader of the feed."""
        from urllib.parse import quote

        scheme, _, place = self.where().partition("://")
        return f"sink-{scheme}-{quote(place, safe='')}"

    def words(self) -> list[str]:
        """How it is started; the URL goes where no other account reads it."""
        return [
            *("sink", "--feed", self.feed, "--store", self.store),
            *("--reader", self.reader(), "--mode", f"{self.mode:o}"),
        ]


class Sink(ProcessBeside):
    """One of them."""

    def __init__(self, settings: SinkSettings, progress: Progress) -> None:
        where = settings.where()
        super().__init__(where, f"sink {where}", settings.words())
        self.environment, self.feed = {ENVIRONMENT: settings.url}, progress.feed
        self.note_started()

    def note_started(self) -> None:
        self.feed.note_sink(self.name, BEGINS)

    def note_said(self, level: str, text: str) -> None:
        """Shows that it waits, or why it ends, until it is well again."""
        from pgsub_feed.sinks.following import WAITS

        if level == "info" or level == "error" or WAITS in text:
            self.feed.note_sink(self.name, "" if level == "info" else text)

    def note_error(self, error: str) -> None:
        self.feed.note_sink(self.name, f"ended: {error}")
