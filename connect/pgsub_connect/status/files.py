"""The files of `--status-file` and `--metrics-file`, which are replaced each second.

`STORE.status` is a link to the first one, or that file itself where none is named, and replaced
less often then: so whoever knows the store finds it.
"""

import contextlib
import dataclasses
import json
import os
import subprocess
import threading
import time

from pgsub_feed import log
from pgsub_feed.texts import lsn_text
from pgsub_feed.version import OWN, VERSION

from ..server import transport
from .metrics import metrics_text
from .progress import Progress


def status_fields(
    progress: Progress, rate: float, now: float, store: str = ""
) -> dict[str, object]:
    """The object at this moment; without what isn't known."""
    found, since = progress.findings, progress.unconnected
    fields: dict[str, object] = {
        "state": progress.state,
        "heartbeat": time_text(progress.heartbeat),
        "updated": time_text(now),
        "store": os.path.abspath(store) if store else None,
        "unconnected_seconds": None if since is None else round(max(now - since, 0.0)),
        **shown_stream(progress, rate, now),
        **shown_copy(progress, rate),
        "last_error": progress.last_error,
        "found": found.found or None,
        **shown_missing(progress),
        "skipped": found.skipped or None,
        "adding": found.adding or None,
        **shown_feed(progress, now),
        "server_version": progress.server.version or None,
        "timeline": progress.server.timeline or None,
        **transport.OWN.shown(),
        "connector_version": OWN.get("version", VERSION),
        "connector_commit": OWN.get("commit"),
        "program_version": progress.program or None,
        "pid": os.getpid(),
    }
    return {name: value for name, value in fields.items() if value is not None}


def shown_stream(progress: Progress, rate: float, now: float) -> dict[str, object]:
    stream, slot = progress.stream, progress.slot
    end, seconds = stream.server_end(), stream.lag.seconds(now)
    return {
        "position": lsn_text(stream.position),
        "confirmed": lsn_text(stream.confirmed),
        "server_end": lsn_text(end) if end else None,
        "lag_bytes": stream.lag_bytes(),
        "lag_seconds": None if seconds is None else round(seconds, 1),
        "last_message": time_text(stream.last_message),
        "last_commit": time_text(stream.lag.last_commit),
        "wal_status": slot.wal_status or None,
        "safe_wal_size": slot.safe_wal_size,
        "changes_per_second": round(rate, 1),
        "changes": stream.changes,
        "commits": stream.commits,
        "sessions": progress.server.sessions,
        "filter_restarts": progress.restarts,
        "filter_losses": progress.losses(now) or None,
        "spool_bytes": progress.spool.bytes(),
        "spool_error": progress.spool.fault(stream.confirmed) or None,
    }


def shown_copy(progress: Progress, rate: float) -> dict[str, object]:
    copy = progress.copy
    return {
        "copied_rows": copy.rows,
        "copy_total_rows": copy.total_rows,
        "copied_tables": copy.tables if copy.total_tables is not None else None,
        "copy_total_tables": copy.total_tables,
        "copy_seconds_left": copy.seconds_left(rate),
        "copying_table": copy.table,
    }


def shown_missing(progress: Progress) -> dict[str, object]:
    """The fields of changes that found no row."""
    counted = progress.findings.counted
    if counted is None:
        return {}
    return {
        "missing": counted.count,
        "missing_first": lsn_text(counted.first) if counted.count else None,
        "missing_in": progress.findings.missing_in or None,
        "counted_since": lsn_text(counted.since),
        "counted_upto": lsn_text(counted.upto),
        "not_counted": [lsn_text(it) for it in counted.gap] if counted.gap else None,
    }


def shown_feed(progress: Progress, now: float) -> dict[str, object]:
    feed, lag_of = progress.feed, progress.stream.lag_of
    readers = {
        name: {
            "lsn": lsn_text(lsn),
            "lag_bytes": lag_of(lsn),
            "still_seconds": round(max(now - feed.moved.get(name, now), 0.0)),
        }
        for name, lsn in sorted(feed.readers.items())
    }
    return {
        "feed_bytes": feed.bytes,
        "readers": readers or None,
        "tables_error": feed.tables_error or None,
        "tables_missing": feed.tables if feed.tables and not os.path.exists(feed.tables) else None,
        "tables_aside": feed.tables_aside or None,
        "sinks": {name: wrong or None for name, wrong in sorted(feed.sinks.items())} or None,
    }


def time_text(at: float | None) -> str | None:
    return None if at is None else time.strftime("%Y-%m-%dT%H:%M:%SZ", time.gmtime(at))


# How often, in seconds, and how often where nobody has asked for any. (A new state shows at once.)
INTERVAL, SELDOM = 1.0, 5.0
# What follows a new file's name until it is whole, and a store's in that of its status file.
NEW, STATUS = ".pgsub-new", ".status"
# over how many intervals the rate is taken
RATE = 5
# After how many seconds in which a file was written all the time the same cause is told again.
FORGET = 60.0


@dataclasses.dataclass(frozen=True)
class ReportSettings:
    """Which files, and what they say of the follower that doesn't change: its store, its slot, and
    the program whose version is asked for. `is_asked_for`: whether somebody has named one."""

    store: str
    slot: str = "pgsub"
    program: str = ""
    status_file: str | None = None
    metrics_file: str | None = None
    mode: int = 0o600
    is_asked_for: bool = True


class Reporter(threading.Thread):
    """Writes the files. It only shows what others say, as when the main loop was alive last."""

    def __init__(self, settings: ReportSettings, progress: Progress) -> None:
        super().__init__(daemon=True)
        self.settings, self.progress = settings, progress
        self.status, self.metrics = (
            Replaced(path, settings.mode) if path else None
            for path in (settings.status_file, settings.metrics_file)
        )
        self.ended = threading.Event()
        self.interval = INTERVAL if settings.is_asked_for else SELDOM
        self.rates = [(time.monotonic(), 0)]

    def run(self) -> None:
        self.link()
        self.progress.note_program(program_version(self.settings.program))
        while not self.ended.is_set():
            self.write()
            self.progress.has_entered.wait(self.interval)
            self.progress.has_entered.clear()

    def link(self) -> None:
        """Has the store's own name lead to a status file that has another one."""
        path, own = self.settings.status_file, self.settings.store + STATUS
        if path and os.path.abspath(path) != os.path.abspath(own):
            with contextlib.suppress(OSError):
                with contextlib.suppress(FileNotFoundError):
                    os.unlink(own)
                os.symlink(os.path.abspath(path), own)

    def finish(self) -> None:
        """Ends the thread, and shows what is there at the end."""
        self.ended.set()
        self.progress.has_entered.set()
        self.join(5)
        self.write()

    def rate(self) -> float:
        """Changes and copied rows a second."""
        done = self.progress.stream.changes + self.progress.copy.rows
        self.rates = [*self.rates[-RATE:], (time.monotonic(), done)]
        (began, before), (now, after) = self.rates[0], self.rates[-1]
        return max(after - before, 0) / (now - began) if now > began else 0.0

    def write(self) -> None:
        now, store = time.time(), self.settings.store
        if self.status:
            fields = status_fields(self.progress, self.rate(), now, store)
            self.status.write(json.dumps(fields) + "\n")
        if self.metrics:
            # (files of followers in several folders are collected side by side)
            labels = {"slot": self.settings.slot, "store": os.path.abspath(store)}
            self.metrics.write(metrics_text(self.progress, now, labels))


def program_version(program: str) -> str:
    """What the program `pgsub` says of itself, "" where it doesn't."""
    words, null = [program, "--version"], subprocess.DEVNULL
    with contextlib.suppress(OSError, subprocess.SubprocessError):
        said = subprocess.check_output(words, stdin=null, stderr=null, timeout=5)
        return said.decode(errors="replace").partition("\n")[0].strip()
    return ""


class Replaced:
    """A file that is replaced again and again. Why it can't be written is told once, and again
    where it is for another cause."""

    def __init__(self, path: str, mode: int) -> None:
        self.path, self.mode = path, mode
        self.cause: str | None = None
        self.failed = 0.0

    def write(self, text: str) -> None:
        now = time.monotonic()
        try:
            replace(self.path, text, self.mode)
            if now - self.failed > FORGET:
                self.cause = None
        except OSError as error:
            cause, self.failed = error.strerror or type(error).__name__, now
            if cause != self.cause:
                log.warning(f"{self.path} can't be written: {cause}")
            self.cause = cause


def replace(path: str, text: str, mode: int) -> None:
    """Replaces a file by one with this text and mode: who reads it finds one of both whole."""
    new = path + NEW
    with contextlib.suppress(FileNotFoundError):
        os.unlink(new)
    number = os.open(new, os.O_WRONLY | os.O_CREAT | os.O_EXCL | os.O_CLOEXEC, mode)
    try:
        # (a path may be no UTF-8)
        with open(number, "w", encoding="utf-8", errors="replace") as file:
            # (whatever the umask leaves of it; some file systems have no modes)
            with contextlib.suppress(PermissionError):
                os.fchmod(number, mode)
            file.write(text)
        os.replace(new, path)
    except OSError:
        with contextlib.suppress(OSError):
            os.unlink(new)
        raise
