"""The connector as a child that is started again whenever it ends."""

from __future__ import annotations

import contextlib
import json
import os
import signal
import subprocess
import threading
import time
from collections.abc import Callable, Iterator, Sequence
from pathlib import Path
from typing import Any

import psycopg

from .cluster import Cluster
from .errors import Failed
from .patience import Patience

# The statuses after which a supervisor starts the connector again: something is in the way only for
# now.
AGAIN = (7,)
# What a connector tells of a server that breaks a rule, sends other commits than before, or isn't
# watched.
OF_RULES = ("found: rule at", "found: repeat at", "found: unwatched at")


# The states of a process that has ended, and of a thread that stands still or has ended, too.
ENDED, STANDING = "ZX", "TZX"


def nothing() -> None:
    """Checks nothing."""


def is_in(stat: Path, states: str) -> bool:
    """Whether what this file of the system tells of is in one of some states. One that isn't there
    has ended."""
    try:
        return stat.read_text(encoding="utf-8").rpartition(")")[2].split()[0] in states
    except (FileNotFoundError, ProcessLookupError):
        return True


def has_ended(pid: int) -> bool:
    """Whether a process has ended, whoever is still to learn of that."""
    return is_in(Path(f"/proc/{pid}/stat"), ENDED)


def stands_still(pid: int) -> bool:
    """Whether all threads of a process that was stopped stand still. One that starts a child does
    so once that runs its own program."""
    with contextlib.suppress(FileNotFoundError, ProcessLookupError):
        threads = os.listdir(f"/proc/{pid}/task")
        return all(is_in(Path(f"/proc/{pid}/task/{it}/stat"), STANDING) for it in threads)
    return True


def children_of(pid: int, word: str) -> list[int]:
    """The children that were started with a word."""
    return children_with(pid, f"\0{word}\0")


def children_with(pid: int, text: str) -> list[int]:
    """Those that have a text in their words. (Those of any thread: the file of one has its own
    alone.)"""
    found = []
    with contextlib.suppress(FileNotFoundError, ProcessLookupError):
        for thread in os.listdir(f"/proc/{pid}/task"):
            for child in (
                Path(f"/proc/{pid}/task/{thread}/children").read_text(encoding="ascii").split()
            ):
                if text.encode() in Path(f"/proc/{child}/cmdline").read_bytes():
                    found.append(int(child))
    return found


def filters_of(pid: int) -> list[int]:
    """The filters that a connector runs. While it starts, it has other children, which look for
    libpq."""
    return children_of(pid, "follow")


def tables_of(pid: int) -> list[int]:
    """What keeps tables of SQLite beside a connector."""
    return children_of(pid, "tables")


def kill_all(pids: Sequence[int]) -> bool:
    """Kills processes. Returns whether one of them was there."""
    killed = False
    for pid in pids:
        with contextlib.suppress(ProcessLookupError):
            os.kill(pid, signal.SIGKILL)
            killed = True
    return killed


def check_rules(log: Path, of_rules: Sequence[str] = OF_RULES) -> None:
    """Fails where connectors have told that the server broke a rule of docs/PROTOCOL.md, or wasn't
    watched all the time."""
    if not log.exists():
        return
    lines = log.read_text(encoding="utf-8", errors="replace").splitlines()
    told = [line for line in lines if any(it in line for it in of_rules)]
    if told:
        raise Failed("\n".join(("the server didn't keep the rules, or wasn't watched:", *told)))


class Supervisor(threading.Thread):
    """Keeps the connector running, as a service manager would."""

    child: subprocess.Popen[bytes]

    def __init__(self, words: Sequence[str | Path], log: Path) -> None:
        super().__init__(daemon=True)
        self.words, self.log = list(words), log
        self.begun, self.ended = threading.Event(), threading.Event()
        # whoever holds it looks at what a killed connector has left
        self.looking = threading.Lock()
        self.killed = False
        self.failure = ""
        self.starts = 0
        # what its log may not have
        self.of_rules: Sequence[str] = OF_RULES
        # in how many seconds a filter ends that a killed connector has left: once it has stored
        # what it reads
        self.ends_within = 60.0

    def run(self) -> None:
        while not self.ended.is_set() and not self.failure:
            with self.looking, open(self.log, "ab") as log:
                self.killed = False
                self.child = subprocess.Popen(
                    self.words, stdout=log, stderr=log, stdin=subprocess.DEVNULL
                )
                self.starts += 1
                self.begun.set()
            status = self.child.wait()
            if not self.ended.is_set() and not self.killed and status not in AGAIN:
                self.failure = f"the connector ended with status {status}"
            self.ended.wait(0.3)

    def begin(self) -> None:
        self.start()
        self.begun.wait()

    @contextlib.contextmanager
    def stopped(self) -> Iterator[list[int]]:
        """Has the connector stand still. Gives its filters."""
        child = self.child
        child.send_signal(signal.SIGSTOP)
        try:
            wait_until(lambda: stands_still(child.pid), "to stand still", step=0.002)
            yield filters_of(child.pid)
        finally:
            child.send_signal(signal.SIGCONT)

    def kill_connector(self, look: Callable[[], None] = nothing) -> bool:
        """Kills the connector, and looks at what is left once its filter has ended, too. Returns
        whether one ran."""
        with self.looking:
            if self.killed or self.child.poll() is not None:
                return False
            self.killed = True
            with self.stopped() as filters:
                self.child.send_signal(signal.SIGKILL)
            wait_until(
                lambda: all(map(has_ended, (self.child.pid, *filters))),
                "the end of the connector and its filter",
                self.ends_within,
            )
            look()
            return True

    def kill_filter(self, look: Callable[[], None] = nothing) -> bool:
        """Kills the filter, and looks at what it has left before the connector starts another.
        Returns whether one ran."""
        with self.stopped() as filters:
            killed = kill_all(filters)
            wait_until(lambda: all(map(has_ended, filters)), "the end of the filter")
            if killed:
                look()
            return killed

    def kill_tables(self) -> bool:
        """Kills what keeps tables of SQLite. Returns whether it ran."""
        return kill_all(tables_of(self.child.pid))

    def finish(self) -> None:
        """Ends the connector in the orderly way."""
        self.ended.set()
        self.child.send_signal(signal.SIGTERM)
        try:
            status = self.child.wait(120)
        except subprocess.TimeoutExpired:
            self.child.kill()
            raise Failed("the connector didn't end within 120 seconds of SIGTERM") from None
        self.join(10)
        if status:
            raise Failed(
                f"the connector ended with status {status} after SIGTERM: {self.last_said()}"
            )
        check_rules(self.log, self.of_rules)

    def kill(self) -> None:
        """Ends what still runs."""
        self.ended.set()
        if self.begun.is_set() and self.child.poll() is None:
            self.child.kill()

    def last_said(self) -> str:
        with open(self.log, "rb") as log:
            return log.read()[-2000:].decode(errors="replace")

    def said(self, words: str) -> list[str]:
        """The lines of its log that have these words."""
        with open(self.log, encoding="utf-8", errors="replace") as log:
            return [line.rstrip() for line in log if words in line]

    def check(self) -> None:
        if self.failure:
            raise Failed(f"{self.failure}\n{self.last_said()}")


def wait_until(
    condition: Callable[[], bool],
    what: str,
    seconds: float = 60,
    check: Callable[[], None] = nothing,
    step: float = 0.05,
) -> None:
    """Waits for a condition, which is looked at every `step` seconds. A server that isn't there
    meanwhile is no fault."""
    seconds *= Patience.factor
    until = time.monotonic() + seconds
    while True:
        check()
        with contextlib.suppress(psycopg.Error):
            if condition():
                return
        if time.monotonic() > until:
            raise Failed(f"{what} took more than {seconds:.0f} seconds")
        time.sleep(step)


def is_confirmed(cluster: Cluster, slot: str, lsn: str, database: str = "shop") -> bool:
    """Whether the server has been told that everything up to an LSN is stored."""
    query = f"SELECT confirmed_flush_lsn >= '{lsn}' FROM pg_replication_slots WHERE slot_name = '{slot}'"
    return cluster.value(query, database) == "t"


def checkpoint_of(store: Path) -> tuple[dict[str, Any], dict[str, Any]]:
    """What a store's checkpoint knows and has counted, by the line that was written last; nothing
    where there is none yet."""
    text = Path(f"{store}.connector").read_text(encoding="utf-8")
    lines = [
        json.loads(it)
        for it in text.replace("\0", " ").splitlines()
        if it.strip().startswith('{"version":')
    ]
    last: dict[str, Any] = max(lines, key=lambda it: int(it["number"]), default={})
    return last.get("known") or {}, last.get("counted") or {}


def remembered_of(store: Path) -> dict[str, Any]:
    """What is remembered of a store's tables, but for what messages said since, which stands in
    further lines."""
    first: dict[str, Any] = json.loads(
        Path(f"{store}.tables").read_text(encoding="utf-8").partition("\n")[0]
    )
    return first


def is_adding(store: Path) -> bool:
    """Whether rows of some table are still to come into a copy, by the files beside it."""
    try:
        remembered, (known, _) = remembered_of(store), checkpoint_of(store)
    except FileNotFoundError:
        return True
    is_copied = store.exists() and known.get("phase") not in ("copying", "slot")
    return not is_copied or bool(remembered["outstanding"]["wanted"] or known.get("adding"))
