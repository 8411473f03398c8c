"""Which rules of a well-formed server, as docs/PROTOCOL.md has them, real sessions keep: by what
`pgsub watch` tells of a recording."""

from __future__ import annotations

import collections
import subprocess
import time

from ..errors import Failed
from ..follower import wait_until
from ..place import Place
from .case import Case
from .common import changing

KEPT, NOT_SEEN, NOT_WATCHED = "kept", "not seen", "not watched"
# Rule 1 is about several sessions.
WATCHED = ("order", *(f"rule {it}" for it in range(2, 8)))
END = "SELECT count(pg_terminate_backend(active_pid)) FROM pg_replication_slots WHERE active"
# How many sessions are ended amid the changes, and after how many seconds each.
ENDED, PAUSE = 3, 1.5

Told = dict[str, "collections.Counter[str]"]


def told(place: Place, recording: str) -> Told:
    """How many sessions of a recording tell what of each rule. Fails where one is broken, or isn't
    watched."""
    words = [str(place.options.program), "watch", recording]
    done = subprocess.run(words, capture_output=True, text=True, check=False)
    found: Told = collections.defaultdict(collections.Counter)
    for line in done.stdout.splitlines():
        for rule in ("rule 1", *WATCHED):
            if line.startswith(f"{rule} "):
                found[rule][line.removeprefix(f"{rule} ")] += 1
    wrong = [it for it in WATCHED if found[it].keys() - {KEPT, NOT_SEEN}]
    if done.returncode or wrong or found["rule 1"].keys() != {NOT_WATCHED}:
        raise Failed(f"status {done.returncode}: {done.stdout[-2000:]}{done.stderr[-500:]}")
    return found


def recorded(place: Place, proto: str) -> Told:
    """What is told of sessions while changes of every kind are made."""
    recording = place.folder / "sessions.pgx"
    with changing(place, "rules", "--record", str(recording), "--proto", proto, pause=0.4) as child:
        for _ in range(ENDED):
            time.sleep(PAUSE)
            wait_until(
                lambda: place.value(END) != "0", "a session that can be ended", 30, child.check
            )
    child.stop()
    place.equal()
    found = told(place, str(recording))
    print("   sessions that kept it:", ", ".join(f"{it} {found[it][KEPT]}" for it in WATCHED))
    # (one that is ended at once has no commit)
    if found["rule 1"].total() <= ENDED or found["order"][KEPT] < 2:
        raise Failed(f"too few sessions: {found}")
    return found


def of_whole_transactions(place: Place) -> None:
    """A server's sessions by version 1, some of which are cut off, keep all rules that are
    watched."""
    if (found := recorded(place, "1"))["rule 2"][KEPT]:
        raise Failed(f"no transaction is streamed, and yet: {found}")


def of_streams(place: Place) -> None:
    """So do those by version 2, with subtransactions that are rolled back once they were sent."""
    if not (found := recorded(place, "2"))["rule 2"][KEPT]:
        raise Failed(f"no subtransaction was aborted that had sent something: {found}")


CASES = (
    Case("server-keeps-the-rules", of_whole_transactions),
    Case("server-keeps-the-rules-of-streams", of_streams, since=14),
)
