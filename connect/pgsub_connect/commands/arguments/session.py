"""Options on how a store is followed: by which program, for how long, what is taken as it is, what
is done about tables that are altered, and which files are kept beside it."""

import argparse
import dataclasses
import os
import shutil
import sys
from collections.abc import Sequence
from typing import Any, TypeVar

from pgsub_feed.options import add_fields, file, flag, lsn, option, size

from ...record import LONGEST
from ...store.checkpoint import KINDS
from ...stream.memory_limit import (
    LONGEST_FRAME,
    MOST_PAGES,
    BufferLimits,
    default_buffered,
)
from .server import PLAINTEXT
from .words import NO, any_seconds, lsn_or_now, seconds, size_or_no, within

# The top of a checkout, or where the packages are installed.
TOP = os.path.realpath(__file__).rsplit(os.sep, 5)[0]


def program() -> str:
    """The program `pgsub`: the one beside this one, that of a checkout, or the one in PATH."""
    beside = os.path.join(os.path.dirname(os.path.realpath(sys.argv[0])), "pgsub")
    checkout = os.path.join(TOP, "crates", "pgsub", "out", "pgsub")
    for path in (checkout,) if os.path.isdir(os.path.join(TOP, "crates")) else (beside,):
        if os.access(path, os.X_OK) and os.path.isfile(path):
            return path
    return shutil.which("pgsub") or checkout


def program_option() -> Any:
    text = "the program `pgsub` (default: the one installed beside this one)"
    return option(text, "", value="PROGRAM")


@dataclasses.dataclass(frozen=True)
class SizeOptions:
    """The program, and its memory in bytes and pages; 0 and None for what it is by default.
    `is_bounded`: whether open transactions have no more than `max_buffered`, also in a file."""

    pgsub: str = program_option()
    spool_memory: int | str = option(
        "how much of open transactions stays in memory, where the rest goes on in a file beside the store; no: all of it, within --max-buffered (default: 64MB, at most an eighth of the memory)",
        0,
        type=size_or_no,
        value="SIZE|no",
    )
    max_buffered: int = option(
        "the most that open transactions, and rows that are added or repaired, may have, in memory and in that file (default: any; in memory alone half of it, at most 1 GiB)",
        0,
        type=within(1, (1 << 63) - 1),
        value="BYTES",
    )
    max_frame: int = option(
        f"the longest message that is accepted (default: --max-buffered, at most {LONGEST_FRAME}, or half of the memory, at most 1 GiB)",
        0,
        type=within(1 << 10, LONGEST_FRAME),
        value="BYTES",
    )
    cache: int | None = option(
        "pages of the store's file that stay in memory (default: 20000, which cost 20 MB; see `pgsub follow --help`)",
        type=within(100, MOST_PAGES),
        value="PAGES",
    )
    is_bounded: bool = True

    def limits(self) -> BufferLimits:
        return BufferLimits(self.max_buffered if self.is_bounded else None, self.max_frame)


Settled = TypeVar("Settled", bound=SizeOptions)


def settled_sizes(options: Settled) -> Settled:
    """The options with what is the default on this machine."""
    most = options.max_buffered or default_buffered()
    sizes = {"max_buffered": most, "max_frame": options.max_frame or min(most, LONGEST_FRAME)}
    is_bounded = bool(options.max_buffered) or options.spool_memory == NO
    return dataclasses.replace(
        options, pgsub=options.pgsub or program(), is_bounded=is_bounded, **sizes
    )


ACCEPTED = (*KINDS, "all", PLAINTEXT)


# How far a server is watched.
ALL, RULES = "all", "rules"


@dataclasses.dataclass(frozen=True)
class SessionOptions:
    """Where it ends, and what is watched, taken as it is, or passed over."""

    until: int | str | None = option(
        "stop once all that was committed up to this LSN, or up to now, is stored, and in tables and sinks beside it",
        type=lsn_or_now,
        value="LSN|now",
    )
    silence: float = option(
        "give a server up that says nothing for N seconds (default: 60)", 60.0, type=seconds
    )
    strict: bool = flag(
        "end with status 5 where something was found that may have made the copy wrong"
    )
    watch: str = option(
        "watch whether the server keeps the rules of the proof, and whether commits that it sends again are the same; the rules alone, which takes less of the processor; or nothing (default: all)",
        ALL,
        choices=(ALL, RULES, NO),
    )
    accept: Sequence[str] = option(
        f"take what was found of this kind as it is, may be repeated: {', '.join(ACCEPTED)}; the last, which isn't in all: go on without TLS",
        (),
        choices=ACCEPTED,
        value="KIND",
    )
    skip: int = option("pass over the changes of the commit with this final LSN", 0, type=lsn)


def add_session(group: argparse._ArgumentGroup) -> None:
    add_fields(group.add_argument, SessionOptions)
    group.add_argument(
        "--accept-gap",
        dest="accept",
        action="append_const",
        const="gap",
        help="go on although changes between the store and the slot may be missing",
    )


REFRESH, TELL = "refresh", "tell"
MOST = 100 << 20


@dataclasses.dataclass(frozen=True)
class AlterOptions:
    """What is done about them, and of how many bytes a table may be for that."""

    on_alter: str = option(
        "copy a table anew whose rows an ALTER has changed, but for a synchronous follower, or tell it alone (default: refresh)",
        REFRESH,
        choices=(REFRESH, TELL),
    )
    on_alter_max_bytes: int = option(
        "tell it alone of a table whose files are larger (default: 100MB)", MOST, type=size
    )

    def renewed(self) -> int | None:
        """Of how many bytes a table may be that is copied anew; None where none is."""
        return self.on_alter_max_bytes if self.on_alter == REFRESH else None


@dataclasses.dataclass(frozen=True)
class WatchOptions:
    """The files, and how often the snapshot is replaced, in seconds; 0 for when it is asked for."""

    status_file: str | None = file(
        "replace this file each second by a JSON object that says how it goes"
    )
    metrics_file: str | None = file(
        "replace this file each second by the same as Prometheus' text format"
    )
    snapshot: str | None = file(
        "copy the store to this file for readers, which can't open the store itself: at SIGUSR1, and as --snapshot-every says"
    )
    snapshot_every: float = option(
        "replace the snapshot each N seconds (default: at SIGUSR1 alone)", 0.0, type=any_seconds
    )


def longest() -> Any:
    return option(
        f"stop before the recording is longer than N bytes (default: {LONGEST}, which is pgsub's limit)",
        LONGEST,
        type=within(1, 1 << 62),
    )
