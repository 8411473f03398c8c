"""Open transactions that memory doesn't hold, and go on in a file beside the store: large ones, some
that come in turns, and one whose disk is full."""

from __future__ import annotations

import subprocess
from collections.abc import Iterator
from contextlib import ExitStack, contextmanager
from pathlib import Path

from ..errors import Failed
from ..follower import Supervisor, wait_until
from ..place import Place
from ..sessions import Session
from .case import Case
from .sizes import CONFIRMED, NOT_WELL, followed
from .stops import fill

# How many bytes of open transactions stay in memory.
IN_MEMORY = 16 << 10
# How many transactions come in turns, and how many rows of 200 bytes each has in a turn.
COUNT, TURNS, ROWS = 8, 4, 150
# Which part is killed once so many turns have come.
VICTIMS = {1: "filter", 2: "connector", 3: "filter"}
FULL, CURE = "pgsub: spool 4 NoRoom", "make room on that disk"


def large(place: Place) -> None:
    """100,000 rows are inserted, updated and deleted in one transaction each, of which 64 kB are in
    memory, with kills."""
    followed(place, "inserts", "identity-full", "update", "delete", in_memory=64 << 10)


def spooled(place: Place) -> int:
    """How large the file is."""
    file = place.beside(".spool/transactions")
    return file.stat().st_size if file.exists() else 0


@contextmanager
def opened(place: Place) -> Iterator[list[Session]]:
    """Sessions with a transaction each."""
    with ExitStack() as closing:
        sessions = []
        for _ in range(COUNT):
            session = place.cluster.connect(place.database)
            closing.callback(session.close)
            session.run("BEGIN")
            sessions.append(session)
        yield sessions


def turn(session: Session, number: int, turn: int) -> None:
    """What a transaction does in a turn. Every third one rolls a part of it back."""
    rows = (
        f"SELECT {number}, {turn * ROWS} + it, repeat('x', 200) FROM generate_series(1, {ROWS}) it"
    )
    session.run("SAVEPOINT before", f"INSERT INTO turns {rows}")
    if number % 3 == 0:
        session.run("ROLLBACK TO before", f"INSERT INTO turns VALUES ({number}, {-turn}, 'kept')")


def kill(supervisor: Supervisor, victim: str) -> None:
    it = supervisor.kill_filter if victim == "filter" else supervisor.kill_connector
    wait_until(it, f"finding a {victim} that runs", 60, supervisor.check)


def interleaved(place: Place) -> None:
    """Transactions that are streamed in turns have more than memory holds. Filter and connector are
    killed while they are open; then some are committed, and others rolled back."""
    place.run(
        "CREATE TABLE turns (id int, at int, word text, PRIMARY KEY (id, at))",
        "CREATE PUBLICATION pgsub FOR TABLE turns",
    )
    words = place.words("--create", "--spool-memory", str(IN_MEMORY))
    supervisor = Supervisor(words, place.log)
    place.closing.callback(supervisor.kill)
    supervisor.begin()
    wait_until(lambda: place.has_confirmed("0/1"), "the first copy", 60, supervisor.check)
    with opened(place) as sessions:
        for at in range(TURNS):
            for number, session in enumerate(sessions):
                turn(session, number, at)
            wait_until(
                lambda: spooled(place) > 2 * IN_MEMORY, "going on in a file", 60, supervisor.check
            )
            if victim := VICTIMS.get(at):
                kill(supervisor, victim)
        for number, session in enumerate(sessions):
            session.run("ROLLBACK" if number % 4 == 3 else "COMMIT")
    end = place.cluster.log_end()
    place.run("INSERT INTO turns VALUES (-1, 0, 'end')")
    wait_until(lambda: place.has_confirmed(end), f"confirming {end}", 120, supervisor.check)
    supervisor.finish()
    place.equal()
    if (folder := place.beside(".spool")).exists():
        raise Failed(f"{folder} is left, with {sorted(folder.iterdir())}")


def small_spool(place: Place) -> Path:
    """Has the file on a small disk of its own. Returns the disk's folder."""
    disk, folder = place.small_disk(8), place.beside(".spool")
    for it in (disk / "spool", folder):
        it.mkdir()
    subprocess.run(["mount", "--bind", disk / "spool", folder], check=True)
    place.closing.callback(lambda: subprocess.run(["umount", "-l", folder], check=False))
    return disk


def full_disk(place: Place) -> None:
    """Where the disk of the file is full, nothing of the transaction is stored or confirmed, and
    `status`, metrics and log tell what to do. It goes on by itself once there is room."""
    metrics, filler = place.folder / "metrics", small_spool(place) / "filler"
    words = ("--spool-memory", str(IN_MEMORY), "--metrics-file", str(metrics))
    place.stock()
    place.follow("--create", *words)
    before, confirmed = place.rows(), place.value(CONFIRMED)
    fill(filler)
    place.run("INSERT INTO stock SELECT it, it FROM generate_series(1000, 6000) it")
    child = place.start(*words)
    child.wait_for(FULL)
    child.wait_for(CURE)
    wait_until(lambda: is_told(place, metrics), "telling the full disk", 60, child.check)
    child.stop()
    if place.rows() != before or place.value(CONFIRMED) != confirmed:
        raise Failed(f"it has rows of it, or has confirmed {place.value(CONFIRMED)}")
    child = place.start(*words)
    wait_until(lambda: child.said().count(FULL) > 1, "failing again", 60, child.check)
    filler.unlink()
    place.catch_up(child)
    wait_until(lambda: not is_told(place, metrics), "telling that it goes on", 60, child.check)
    child.stop()
    place.equal()
    if found := place.found():
        raise Failed(f"it has found {found}")


def is_told(place: Place, metrics: Path) -> bool:
    """Whether `status` and metrics tell that the disk is full."""
    words = [str(place.options.connect), "status", "--store", str(place.store)]
    ran = subprocess.run(words, capture_output=True, text=True, check=False)
    is_shown = ran.returncode == NOT_WELL and FULL in ran.stdout and CURE in ran.stdout
    failed = [line for line in metrics.read_text().splitlines() if "pgsub_spool_failed{" in line]
    return is_shown and any(it.endswith(" 1") for it in failed)


CASES = (
    Case("large-changes-in-a-file", large),
    Case("interleaved-in-a-file", interleaved, since=14),
    Case("full-disk-of-open-transactions", full_disk, root=True),
)
