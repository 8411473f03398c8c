"""`pgsub-connect status`: a probe that reads the status file of a follower."""

import argparse
import calendar
import contextlib
import dataclasses
import glob
import os
import re
import select
import sys
import termios
import time
import tty
from collections.abc import Callable, Iterator, Sequence
from typing import Any

from pgsub_feed import json_texts, log
from pgsub_feed.errors import Stopped, UsageError
from pgsub_feed.interruption import Check
from pgsub_feed.options import BYTES, SECONDS, add_fields, duration, flag, no, option

from ..status.files import STATUS
from ..status.health import ENDED, KINDS, Fault, Limit, faults, lines_of, screen_of
from ..stream.room import NONE, room_of

ABOUT = """\
tell how a follower is, as a probe does, or on a screen

It prints one line, and one for each thing that isn't well, with what mends it. Without --store and --status-file it looks for stores in
this folder, and for the followers of the service. The exit status is 0 where all is well; 1 where the follower has ended or failed, shows
no sign of life, is without a session for a minute, has lost its slot, loses its filter again and again, can't keep open transactions on
the disk, is further behind than --max-lag (or it isn't known how far), has found what may have made the copy wrong, has set a table of
`rows.db` aside or has no such file yet, or where a reader of the feed stands still; 2 for a usage error; 3 where there is no such file, or
it isn't a status file.
"""
# (the exit status is in what it is about)
ENDS = None
FINE, BAD, NO_FILE = 0, 1, 3
LAG = re.compile(rf"(\d+(?:\.\d+)?)({'|'.join([*SECONDS, *BYTES])})")
# Where the service has the status files of its followers.
SERVICE = "/run/pgsub/*/status.json"
# How often the screen is drawn, and how often a line is written where there is none, in seconds.
DRAWN, WRITTEN = 1.0, 30.0
# Which follower hasn't replaced its file for so many seconds may have a disk that is full.
UNREPLACED = 5.0
CLEARED = "\x1b[H\x1b[2J"


def lag_limit(text: str) -> Limit:
    found = LAG.fullmatch(text)
    if not found:
        raise no(text, "time and no size, as 60s, 5min, 10MB or 1GB")
    number, unit = float(found[1]), found[2]
    if unit in SECONDS:
        return Limit(text, "lag_seconds", number * SECONDS[unit])
    return Limit(text, "lag_bytes", number * BYTES[unit])


@dataclasses.dataclass(frozen=True)
class Options:
    """Which followers are looked at, and what is well."""

    store: str = ""
    status_file: str = ""
    watch: bool = flag("go on with it on the screen, until q or Ctrl-C")
    max_lag: Sequence[Limit] = option(
        "the most that the copy may be behind: a time (60s, 5min, 1h) or a size (10MB, 1GB), may be repeated (default: any)",
        (),
        type=lag_limit,
        value="LAG",
    )
    max_age: float = option(
        "the most that the last sign of life may be old (default: 30s)", 30.0, type=duration
    )


def add_options(parser: argparse.ArgumentParser) -> None:
    which = parser.add_mutually_exclusive_group().add_argument
    which("--store", metavar="FILE", default="", help="the store whose follower is meant")
    which(
        "--status-file",
        metavar="FILE",
        default="",
        help="the file that its follower replaces each second",
    )
    add_fields(parser.add_argument, Options)


def files(options: Options) -> list[str]:
    """The status files that are looked at."""
    if options.status_file or options.store:
        return [options.status_file or options.store + STATUS]
    here = [it.removesuffix(".connector") + STATUS for it in glob.glob("*.connector")]
    if found := sorted(here or [it for it in glob.glob(SERVICE) if not is_dropped(it)]):
        return found
    raise UsageError("there is no store in this folder: name one by --store")


def is_dropped(path: str) -> bool:
    """Whether a status file is what a follower has left that has ended, and whose store was
    dropped: the store's own name for it is gone then."""
    # (what else is wrong with it is told by who looks at it)
    with contextlib.suppress(OSError, ValueError, OverflowError, LookupError, TypeError):
        status = read(path)
        if status["state"] in ENDED:
            try:
                os.lstat(status["store"] + STATUS)
            except FileNotFoundError:
                return True
    return False


def read(path: str) -> dict[str, Any]:
    """The object of a status file. A ValueError says that it isn't one."""
    status = json_texts.object_of(json_texts.parsed(json_texts.read_plain(path)))
    for name, kind in KINDS.items():
        if status.get(name) is not None:
            kind(status[name])
    for name in ("state", "heartbeat"):
        json_texts.text_of(status.get(name))
    return status


Text = Callable[[dict[str, Any], float, list[Fault]], Iterator[str]]


def look(path: str, options: Options, text: Text) -> tuple[int, list[str]]:
    """Looks at one follower: the exit status, and what is told."""
    try:
        status = read(path)
        # (when the main loop was alive)
        alive = calendar.timegm(time.strptime(status["heartbeat"], "%Y-%m-%dT%H:%M:%SZ"))
        age = max(time.time() - alive, 0.0)
        wrong = faults(status, age, options.max_age, options.max_lag)
        if age > UNREPLACED and status["state"] not in ENDED and room_of(path) < NONE:
            cure = "make room there: the follower goes on by itself, and then tells more"
            wrong.insert(0, Fault(f"the disk of {path} is full", cure))
        return BAD if wrong else FINE, list(text(status, age, wrong))
    except OSError as error:
        return NO_FILE, [log.escaped(f"{path}: {error.strerror}")]
    except (ValueError, OverflowError, LookupError, TypeError):
        return NO_FILE, [log.escaped(f"{path}: not a status file")]


def look_at_all(options: Options, text: Text) -> tuple[int, str]:
    """Looks at each of the followers."""
    found, lines = [(path, *look(path, options, text)) for path in files(options)], list[str]()
    for path, _, told in found:
        lines += [f"{log.escaped(path)}:", *told] if len(found) > 1 else told
    return max(code for _, code, _ in found), "\n".join(lines)


def run(options: Options, check: Check) -> int:
    if options.watch:
        return watch(options, check)
    code, text = look_at_all(options, lines_of)
    sys.stdout.write(f"{text}\n")
    return code


def watch(options: Options, check: Check) -> int:
    """Goes on with that until a signal or the letter q; the exit status is of the last look."""
    is_drawn, code = log.is_terminal(sys.stdout), FINE
    with contextlib.suppress(Stopped, KeyboardInterrupt), keys() as has_ended:
        while True:
            code, text = look_at_all(options, screen_of if is_drawn else lines_of)
            if is_drawn:
                text = f"{CLEARED}{text}\n\nq ends this"
            sys.stdout.write(f"{text}\n")
            sys.stdout.flush()
            until = time.monotonic() + (DRAWN if is_drawn else WRITTEN)
            while (left := until - time.monotonic()) > 0:
                check()
                if has_ended(min(left, DRAWN)):
                    return code
    return code


@contextlib.contextmanager
def keys() -> Iterator[Callable[[float], bool]]:
    """Gives what waits for the letter q, for so many seconds at most, and tells whether it came.
    The terminal gives each letter at once meanwhile."""
    if not log.is_terminal(sys.stdin):
        yield lambda seconds: bool(select.select([], [], [], seconds)[0])
        return
    before = termios.tcgetattr(sys.stdin)
    tty.setcbreak(sys.stdin)
    # (Ctrl-C takes back the letters before it: whoever has seen one doesn't wait for it)
    now = termios.tcgetattr(sys.stdin)
    now[6][termios.VMIN] = 0
    termios.tcsetattr(sys.stdin, termios.TCSANOW, now)

    def has_ended(seconds: float) -> bool:
        ready = select.select([sys.stdin], [], [], seconds)[0]
        return bool(ready) and b"q" in os.read(sys.stdin.fileno(), 100).lower()

    try:
        yield has_ended
    finally:
        termios.tcsetattr(sys.stdin, termios.TCSADRAIN, before)
