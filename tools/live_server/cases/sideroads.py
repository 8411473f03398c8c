"""What lies beside the way of the changes, and may not end the following: recordings, the status
file, standard error."""

from __future__ import annotations

import sys
import time
from pathlib import Path

from ..errors import Failed
from ..follower import wait_until
from ..place import Place
from .case import Case

# Runs a program whose standard error nobody reads any more.
UNHEARD = "import os, sys; r, w = os.pipe(); os.close(r); os.dup2(w, 2); os.execv(sys.argv[1], sys.argv[1:])"
ROWS = "INSERT INTO stock SELECT it, it FROM generate_series({}, {}) it"


def full_disk(place: Place) -> None:
    """Ends a recording beside the store on a full disk, and not the following."""
    place.stock()
    full = place.folder / "full.pgx"
    full.symlink_to("/dev/full")
    child = place.start("--create", "--record", str(full))
    place.catch_up(child)
    place.run(ROWS.format(1000, 3000))
    place.catch_up(child)
    said = child.stop()
    if "the recording ends here" not in said:
        raise Failed(said)
    place.equal()


def kept_recording(place: Place) -> None:
    """Adds to the recording that is there at each start."""
    place.stock()
    record = place.folder / "sessions.pgx"
    place.follow("--create", "--record", str(record))
    place.run(ROWS.format(1000, 1010))
    place.follow("--record", str(record))
    first = record.read_bytes()
    place.change()
    place.follow("--record", str(record))
    if not record.read_bytes().startswith(first) or record.stat().st_size == len(first):
        raise Failed(f"the recording has {record.stat().st_size} bytes, and it had {len(first)}")
    place.equal()


def unheard(place: Place) -> None:
    """Goes on where nobody reads its standard error any more."""
    place.stock()
    child = place.started([sys.executable, "-c", UNHEARD, *place.words("--create")])
    followed = "SELECT count(*) FROM pg_stat_replication JOIN pg_replication_slots ON pid = active_pid WHERE state = 'streaming'"
    for _ in range(2):
        wait_until(lambda: place.value(followed) == "1", "following", 60, child.check)
        place.change()
        end = place.cluster.log_end()
        place.run("SELECT pg_logical_emit_message(true, 'live', 'end')")
        wait_until(lambda end=end: place.has_confirmed(end), f"confirming {end}", 60, child.check)  # type: ignore[misc]
        place.run("SELECT pg_terminate_backend(active_pid) FROM pg_replication_slots WHERE active")
    child.stop()
    place.equal()


def no_folder(place: Place) -> None:
    """Says once, and not each second, that there is no folder for the status file; writes it once
    there is one."""
    place.stock()
    folder = place.folder / "later"
    child = place.start("--create", "--status-file", str(folder / "status"))
    place.catch_up(child)
    time.sleep(5)
    told = [line for line in child.said().splitlines() if str(folder) in line]
    if not 1 <= len(told) <= 2:
        raise Failed(f"it was told {len(told)} times: {child.said()}")
    folder.mkdir()
    wait_until(Path(folder / "status").exists, "writing the status file", 60, child.check)
    child.stop()
    place.equal()


CASES = (
    Case("recording-on-a-full-disk", full_disk),
    Case("recording-is-kept-at-a-restart", kept_recording),
    Case("nobody-reads-standard-error", unheard),
    Case("status-file-without-a-folder", no_folder),
)
