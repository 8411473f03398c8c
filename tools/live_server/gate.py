"""The short run of the merge gate: a copy of rows, following with a feed and tables, each part
killed once, a comparison, and README's walkthrough."""

from __future__ import annotations

import contextlib
import dataclasses
import time

from . import questions
from .checks import Checks
from .follower import wait_until
from .killing import Run, mixed
from .load import Mixed
from .options import Options
from .patience import Patience
from .place import Place
from .sizes import Form, Large, Size, run_steps, server_of
from .walking import walk

# What takes longer, in seconds, doesn't come: a busy machine gets on in this time.
LATE = 300
# What is done of `tools/large`, how many bytes of open transactions stay in memory, and by how many
# its sizes are divided.
LARGE = ("inserts", "identity-full", "update", "subtransactions", "delete")
IN_MEMORY, OF = 64 << 10, 1000


def run(options: Options, checks: Checks) -> None:
    # (before version 14 of the server there is no version 2)
    run, load = mixed(
        dataclasses.replace(options, workers=2, pause=0.2 * Patience.factor, feed=True),
        options.proto or 2,
    )
    try:
        if checks.run("copies rows while others are written", lambda: copies(run, load)):
            load.truncate(True)
            follows(run, checks)
            checks.run("its tables answer as the server", lambda: answers(run))
    finally:
        run.close()
    checks.run("follows large transactions", lambda: large(options))
    checks.run("README's walkthrough with a server", lambda: walk(options))


def copies(run: Run, load: Mixed) -> None:
    load.truncate(False)
    questions.fill(run.cluster, 1000, run.options.seed)
    load.fill(20_000)
    run.begin()
    run.wait_copied(LATE)


def follows(run: Run, checks: Checks) -> None:
    for victim in ("filter", "tables", "connector", "server"):
        checks.run(f"goes on after its {victim} was killed", lambda: goes_on(run, victim))
    checks.run("has the rows of the server", lambda: equal(run))


def goes_on(run: Run, victim: str) -> None:
    """Kills a part, and waits until what is written afterwards is confirmed."""
    # (a filter is started anew after the copy, and after each of the other kills)
    wait_until(lambda: run.kill(victim), f"finding a {victim} that runs", LATE)
    time.sleep(0.5)
    end = run.cluster.log_end()
    run.wait_for(end, LATE, f"confirming {end}")


def equal(run: Run) -> str:
    committed = run.load.end()
    return f"{run.compare()}; {committed} transactions"


def large(options: Options) -> str:
    """Large transactions, with a kill in each."""
    form = Form(options.proto or 2, kills=1, in_memory=IN_MEMORY)
    with contextlib.closing(Place(options, server_of(options, form))) as place:
        place.closing.callback(place.cluster.remove)
        return run_steps(Large(place, Size(OF), form), LARGE)


def answers(run: Run) -> str:
    assert run.fed
    return questions.compare(run.cluster, run.fed.rows, run.options.seed)
