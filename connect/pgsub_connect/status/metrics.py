"""What a follower shows, in Prometheus' text format, as of its textfile collector."""

from collections.abc import Iterable, Iterator, Mapping
from typing import NamedTuple

from pgsub_feed.version import VERSION

from ..server.slot import Slot
from .progress import STATES, Progress
from .state import BEGINS, KINDS, Counted, StreamCounters

GAUGE, COUNTER = "gauge", "counter"
# What the server says of a slot's log.
WAL_STATUSES = ("reserved", "extended", "unreserved", "lost")

Value = int | float | None
# A sample: its own labels, and the value; None of one that isn't known.
Sample = tuple[Mapping[str, str], Value]


class Metric(NamedTuple):
    """A metric with its samples."""

    name: str
    kind: str
    help: str
    samples: list[Sample]


def gauge(name: str, about: str, value: Value, kind: str = GAUGE) -> Metric:
    return Metric(name, kind, about, [({}, value)])


def chosen(name: str, about: str, label: str, values: tuple[str, ...], which: set[str]) -> Metric:
    """A metric with 1 for what holds and 0 for what doesn't."""
    every = (*values, *sorted(which - set(values)))
    return Metric(name, GAUGE, about, [({label: it}, int(it in which)) for it in every])


def metrics(progress: Progress, now: float) -> Iterator[Metric]:
    versions = {"connector": VERSION, "program": progress.program}
    labels = {**versions, "server": str(progress.server.version or "")}
    yield Metric("pgsub_info", GAUGE, "Versions of what follows.", [(labels, 1)])
    yield chosen("pgsub_state", "What the follower is at.", "state", STATES, {progress.state})
    beat = "pgsub_heartbeat_timestamp_seconds", "When the main loop was alive last."
    yield gauge(*beat, progress.heartbeat)
    yield from (gauge(*it) for it in of_stream(progress.stream, now))
    if progress.spool.path:
        yield from (gauge(*it) for it in of_spool(progress))
    yield from slot_metrics(progress.slot)
    text = "What was found that may have made the copy wrong."
    yield chosen("pgsub_found", text, "kind", KINDS, set(progress.findings.found))
    if progress.findings.counted is not None:
        yield from (gauge(*it) for it in of_missing(progress.findings.counted))
    if progress.feed.bytes is not None:
        yield from feed_metrics(progress)
    if progress.feed.sinks:
        yield sink_metric(progress.feed.sinks)
    yield from (gauge(*it) for it in of_totals(progress))


# What `gauge` is told of metrics without labels of their own.
Told = Iterable[tuple[str, str, Value] | tuple[str, str, Value, str]]


def of_stream(it: StreamCounters, now: float) -> Told:
    message, commit = "pgsub_last_message_timestamp_seconds", "pgsub_last_commit_timestamp_seconds"
    age = "At most how old the oldest commit is that the copy lacks."
    complete = "LSN up to which the copy is complete and confirmed."
    return (
        (message, "When the server's last message came.", it.last_message),
        (commit, "Commit time of the last commit that is confirmed.", it.lag.last_commit),
        ("pgsub_position_lsn", "End of the last commit that the store has.", it.position),
        ("pgsub_confirmed_lsn", complete, it.confirmed),
        ("pgsub_server_end_lsn", "Where the server's log ends.", it.server_end() or None),
        ("pgsub_lag_bytes", "How much of the server's log the copy lacks.", it.lag_bytes()),
        ("pgsub_lag_seconds", age, it.lag.seconds(now)),
    )


def of_spool(it: Progress) -> Told:
    size = "How large the file of open transactions is."
    failed = "Whether that file has failed, and what it lacked isn't stored yet."
    return (
        ("pgsub_spool_bytes", size, it.spool.bytes() or 0),
        ("pgsub_spool_failed", failed, int(bool(it.spool.fault(it.stream.confirmed)))),
    )


def slot_metrics(slot: Slot) -> Iterator[Metric]:
    text = "How much log may come before the slot is lost."
    yield gauge("pgsub_slot_safe_wal_bytes", text, slot.safe_wal_size)
    if slot.wal_status:
        text = "What the server says of the slot's log."
        which = {slot.wal_status}
        yield chosen("pgsub_slot_wal_status", text, "status", WAL_STATUSES, which)


def of_missing(it: Counted) -> Told:
    missing = "Changes that found no row, until they are accepted."
    uncounted = "Log in which such changes weren't counted, until that is accepted."
    after, upto = it.gap or (0, 0)
    return (
        ("pgsub_missing_total", missing, it.count, COUNTER),
        ("pgsub_counted_lsn", "LSN up to which changes that found no row are counted.", it.upto),
        ("pgsub_not_counted_bytes", uncounted, upto - after),
    )


def feed_metrics(progress: Progress) -> Iterator[Metric]:
    feed, lag_of = progress.feed, progress.stream.lag_of
    yield gauge("pgsub_feed_bytes", "How large the feed is.", feed.bytes)
    readers = sorted(feed.readers.items())
    lags: list[Sample] = [({"reader": name}, lag_of(lsn)) for name, lsn in readers]
    text = "How much of the server's log a reader of the feed lacks that the store has."
    yield Metric("pgsub_reader_lag_bytes", GAUGE, text, lags)
    positions: list[Sample] = [({"reader": name}, lsn) for name, lsn in readers]
    text = "LSN up to which a reader of the feed has all."
    yield Metric("pgsub_reader_lsn", GAUGE, text, positions)
    text = "Whether the tables that follow the feed have ended by a fault."
    yield gauge("pgsub_tables_failed", text, int(bool(feed.tables_error)))
    text = "How many of them are set aside until their rows come anew."
    yield gauge("pgsub_tables_aside", text, len(feed.tables_aside))


def sink_metric(sinks: Mapping[str, str]) -> Metric:
    text = "Whether a sink that the follower runs doesn't write."
    samples: list[Sample] = [
        ({"sink": name}, int(wrong not in ("", BEGINS))) for name, wrong in sorted(sinks.items())
    ]
    return Metric("pgsub_sink_failed", GAUGE, text, samples)


def of_totals(it: Progress) -> Told:
    restarts = "pgsub_filter_restarts_total", "How often the filter was lost."
    return (
        ("pgsub_changes_total", "Changes that were passed on.", it.stream.changes, COUNTER),
        ("pgsub_commits_total", "Commits that were passed on.", it.stream.commits, COUNTER),
        ("pgsub_sessions_total", "Sessions with the server.", it.server.sessions, COUNTER),
        (*restarts, it.restarts, COUNTER),
        ("pgsub_copied_rows", "Rows that this run's initial copy has so far.", it.copy.rows),
        ("pgsub_copy_total_rows", "Rows to copy, by the server's statistics.", it.copy.total_rows),
    )


def escaped(text: str) -> str:
    return text.replace("\\", "\\\\").replace("\n", "\\n")


def metrics_text(progress: Progress, now: float, labels: Mapping[str, str]) -> str:
    """All metrics, each sample with these labels too. One without a value is left out."""
    lines = []
    for metric in metrics(progress, now):
        samples = [(own, value) for own, value in metric.samples if value is not None]
        if samples:
            lines.append(f"# HELP {metric.name} {escaped(metric.help)}")
            lines.append(f"# TYPE {metric.name} {metric.kind}")
        for own, value in samples:
            named = ((name, escaped(text)) for name, text in {**labels, **own}.items())
            pairs = ",".join('{}="{}"'.format(it, text.replace('"', '\\"')) for it, text in named)
            number = str(value) if isinstance(value, int) else f"{value:.3f}"
            lines.append(f"{metric.name}{{{pairs}}} {number}")
    return "\n".join(lines) + "\n"
