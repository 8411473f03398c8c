"""How a follower is by its status file: what isn't well, what mends it, and a screen."""

import sys
from collections.abc import Callable, Iterable, Iterator, Mapping
from typing import Any, NamedTuple

from pgsub_feed import json_texts, log
from pgsub_feed.log import progress_text
from pgsub_feed.texts import counted, shortened
from pgsub_feed.version import OWN, VERSION

from .state import BEGINS

# Of which kind the fields are that are looked at.
KINDS: dict[str, Callable[[Any], object]] = {
    **dict.fromkeys(("found", "tables_aside", "readers", "sinks", "adding"), json_texts.object_of),
    **dict.fromkeys(
        ("lag_bytes", "filter_losses", "copied_rows", "spool_bytes"), json_texts.whole_of
    ),
    **dict.fromkeys(
        ("lag_seconds", "changes_per_second", "unconnected_seconds"), json_texts.number_of
    ),
    **dict.fromkeys(
        (
            *("position", "wal_status", "tables_error", "tables_missing", "last_error", "store"),
            "spool_error",
        ),
        json_texts.text_of,
    ),
}
# States in which nothing follows any more.
ENDED = ("stopped", "failed")
# How often the filter may be lost within the time that the status file counts, and for how many
# seconds a reader may stand still while it lacks commits, or there may be no session.
LOSSES, STILL = 2, 60.0
# What mends what was found of a kind, and of a table whose rows are to come.
ADDED = "its rows are being copied: wait for that"
CURES = {
    "names": "`pgsub-connect names --store {store}` tells them apart; then start it with --accept names",
    "publication": "`pgsub-connect refresh --store {store} --dsn ..`",
    "values": "`pgsub-connect add --store {store} --dsn .. --table T`, or start it with --accept values",
    "missing": "`pgsub-connect verify --repair --store {store} --dsn ..`, then start it with --accept missing",
}
# What doesn't make the copy wrong by itself.
UNWATCHED = "unwatched"
UNWATCHED_CURE = "`pgsub-connect verify --store {store} --dsn ..` compares the copy; then start it with --accept unwatched"
COMPARED = "`pgsub-connect verify --repair --store {store} --dsn ..`, once it was started with --accept {kind}"
# What the start that accepts it finds again.
AGAIN = ("history", "slot")


class Fault(NamedTuple):
    """Something that isn't well, and what mends it."""

    text: str
    cure: str


class Limit(NamedTuple):
    """A lag that isn't to be passed: in seconds, or in bytes."""

    text: str
    field: str
    most: float


def faults(
    status: dict[str, Any], age: float, most_age: float, limits: Iterable[Limit]
) -> list[Fault]:
    """What isn't well of a follower whose main loop was alive so many seconds ago."""
    of_status = of_parts, of_findings, of_tables, of_readers
    found = [*of_life(status, age, most_age), *of_lag(status, limits)]
    return list(dict.fromkeys([*found, *(it for of in of_status for it in of(status))]))


def of_life(status: dict[str, Any], age: float, most_age: float) -> Iterator[Fault]:
    again = f"`pgsub-connect follow {named(status)}`, with its --dsn, goes on"
    if status["state"] == "stopped":
        yield Fault("the follower has ended", again)
    elif status["state"] in ENDED and status.get("wal_status") == "lost":
        # (that is told of the slot, with what mends it)
        return
    elif status["state"] in ENDED:
        yield Fault("the follower has failed", f"mend what its last error says; then {again}")
    elif age > most_age:
        yield Fault(f"no sign of life for {age:.0f} s", f"its log tells why; {again}")
    elif (since := status.get("unconnected_seconds") or 0) > STILL:
        why = "mend what its last error says" if status.get("last_error") else "its log tells why"
        yield Fault(
            f"no session with the server for {since} s", f"{why}; then it goes on by itself"
        )


def of_lag(status: dict[str, Any], limits: Iterable[Limit]) -> Iterator[Fault]:
    for limit in limits:
        lag = status.get(limit.field)
        if not isinstance(lag, (int, float)):
            yield Fault("how far it is behind isn't known", "its log tells why")
        elif lag > limit.most:
            cure = "let it catch up; its log tells what it waits for"
            yield Fault(f"more than {limit.text} behind", cure)


def of_parts(status: dict[str, Any]) -> Iterator[Fault]:
    """Of the slot, of the filter and of the file of open transactions."""
    if status.get("wal_status") == "lost":
        yield Fault(
            "the slot is lost", f"`pgsub-connect drop {named(status)} --dsn ..`, and copy anew"
        )
    if error := status.get("spool_error"):
        yield Fault("the changes of open transactions can't be kept on the disk", error)
    if (losses := status.get("filter_losses") or 0) > LOSSES:
        why = status.get("last_error")
        yield Fault(
            f"the program `pgsub` has ended {losses} times in ten minutes",
            f"mend that: {why}" if why else "its log tells why",
        )


def of_findings(status: dict[str, Any]) -> Iterator[Fault]:
    found, store = dict(status.get("found") or {}), status.get("store") or "STORE"
    if text := found.pop(UNWATCHED, None):
        cure = UNWATCHED_CURE.format(store=store)
        yield Fault("the server wasn't watched all the time", f"{text}: {cure}")
    if found:
        cures = CURES | going_cures(found, status.get("adding") or {})
        texts = []
        for kind, text in sorted(found.items()):
            cure = cures.get(kind, COMPARED).format(store=store, kind=kind)
            cure += "; then start it so again" if kind in AGAIN else ""
            texts.append(f"{kind}: {text}: {cure}" if len(found) > 1 else f"{text}: {cure}")
        yield Fault(f"the copy may be wrong: {', '.join(sorted(found))}", "\n".join(texts))


def going_cures(found: dict[str, str], adding: Mapping[str, str]) -> dict[str, str]:
    """What is to be done about what the follower itself is at."""
    if not adding:
        return {}
    texts = found.get("values", "").split("; ")
    is_whole = all(any(table in it for table in adding) for it in texts)
    return dict.fromkeys(("publication", *(["values"] if is_whole else [])), ADDED)


def of_tables(status: dict[str, Any]) -> Iterator[Fault]:
    """Of the tables that `--tables` keeps."""
    if error := status.get("tables_error"):
        yield Fault("the tables don't follow any more", f"{error}; then start the follower again")
    elif path := status.get("tables_missing"):
        cure = "wait until its first rows are copied, as the log tells; if it was removed, start the follower again"
        yield Fault(f"{path} isn't there", cure)
    if aside := status.get("tables_aside"):
        names = sorted(aside)
        words = " ".join(f"--table {it}" for it in names)
        why = "\n".join(f"{it}: {aside[it]}" for it in names)
        yield Fault(
            f"set aside in the tables, `pgsub-connect add` them: {', '.join(names)}",
            f"`pgsub-connect add {named(status)} --dsn .. {words}`\n{why}",
        )


def of_readers(status: dict[str, Any]) -> Iterator[Fault]:
    """Of those that read the feed, and of the sinks that the follower runs."""
    for name, wrong in sorted((status.get("sinks") or {}).items()):
        if wrong and wrong != BEGINS:
            yield Fault(f"the sink {name} doesn't write", f"{wrong}; its log tells more")
    for name, said in sorted((status.get("readers") or {}).items()):
        reader = json_texts.object_of(said)
        lag = json_texts.whole_of(reader.get("lag_bytes"))
        still = json_texts.number_of(reader.get("still_seconds", 0))
        if lag and still > STILL:
            yield Fault(
                f"the reader {name} has ended or hangs, {counted(lag, 'byte')} behind for {still:.0f} s",
                f"start it again, or remove `readers/{name}` of the feed if nobody reads it any more",
            )


def named(status: dict[str, Any]) -> str:
    """The option that names the store."""
    return f"--store {status.get('store') or 'STORE'}"


# How many characters the bar of a copy has.
BAR = 40


def behind_text(status: Mapping[str, Any]) -> str:
    """How far it is behind, "" where that isn't known."""
    if status.get("lag_bytes") is None:
        return ""
    behind = counted(status["lag_bytes"], "byte")
    if "lag_seconds" not in status:
        return f"{behind} behind"
    return f"{behind} and {status['lag_seconds']} s behind"


def line_of(status: Mapping[str, Any], age: float, wrong: list[Fault]) -> str:
    """What isn't well, or that all is, and how far it is."""
    parts = [status["state"], behind_text(status)]
    if "position" in status:
        parts.append(f"at {status['position']}")
    if size := status.get("spool_bytes"):
        parts.append(f"{counted(size, 'byte')} of open transactions on the disk")
    parts.append(f"heartbeat {age:.0f} s ago")
    is_waiting = status["state"] == "waiting to connect again"
    if (wrong or is_waiting) and status.get("last_error"):
        parts.append(f"last error: {shortened(status['last_error'])}")
    text = "; ".join(it.text for it in wrong) or "ok"
    return log.escaped(f"{text} ({', '.join(filter(None, parts))})".replace("\n", " "))


def cures_of(status: Mapping[str, Any], wrong: list[Fault]) -> Iterator[str]:
    """What mends what isn't well, a line each."""
    for fault in wrong:
        # (the first line of the screen says what one fault is, that of a fault what its others are)
        lines = fault.cure.split("\n")
        head = f"{fault.text}: " if len(wrong) > 1 and len(lines) == 1 else ""
        yield from (f"  {log.escaped(head + it)}" for it in lines)
    runs = (status.get("connector_version"), status.get("connector_commit"))
    if runs[0] and runs != (own := (OWN.get("version", VERSION), OWN.get("commit"))):
        old, new = (" of ".join(map(str, filter(None, it))) for it in (runs, own))
        yield log.escaped(f"  it runs version {old}, and {new} is installed: start it again")


def lines_of(status: Mapping[str, Any], age: float, wrong: list[Fault]) -> Iterator[str]:
    """What is printed once."""
    yield log.coloured(line_of(status, age, wrong), "error" if wrong else "ok", sys.stdout)
    yield from cures_of(status, wrong)


def screen_of(status: Mapping[str, Any], age: float, wrong: list[Fault]) -> Iterator[str]:
    """The lines of the screen."""
    yield from lines_of(status, age, wrong)
    yield ""
    said = status.get("changes_per_second")
    rate = float(said) if isinstance(said, (int, float)) else 0.0
    if (table := status.get("copying_table")) is not None:
        yield from copy_of(status, str(table), rate)
    yield f"  rate       {rate:.0f} changes and copied rows a second"
    yield f"  position   {status.get('position', '')} ({behind_text(status) or 'how far behind is not known'})"
    for table, how in sorted((status.get("adding") or {}).items()):
        yield log.escaped(f"  adding     {table}: {how}")
    for name, reader in sorted((status.get("readers") or {}).items()):
        behind = counted(reader["lag_bytes"], "byte")
        yield log.escaped(f"  reader     {name}: {behind} behind, at {reader['lsn']}")


def copy_of(status: Mapping[str, Any], table: str, rate: float) -> Iterator[str]:
    """How far an initial copy is."""
    done, total = status["copied_rows"], status.get("copy_total_rows")
    if total:
        full = min(BAR * done // total, BAR)
        yield f"  copying    [{'#' * full}{' ' * (BAR - full)}] {min(100 * done // total, 100)} %"
    yield log.escaped(f"  copying    {table}: {progress_text(done, total, rate)}")
