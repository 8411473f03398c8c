"""Transactions and changes of shape that are large, at a hundredth of what `tools/large` does, and
what happens where one is above a limit."""

from __future__ import annotations

import re

from ..errors import Failed
from ..follower import wait_until
from ..place import REJECTED, Place
from ..sizes import Form, Large, Size, run_steps
from .case import Case

OF, KILLS = 100, 2
# What `status` ends with where something isn't well.
NOT_WELL = 1
FULL = "pgsub: spool 1 SpoolFull"
CONFIRMED = "SELECT confirmed_flush_lsn FROM pg_replication_slots"
# So many bytes the program may have, and what it says then.
LITTLE, MEMORY = 48 << 20, "filter ended with status 14"
# How often a limit is raised at most, each time at least to twice what it was.
MOST_RAISED = 8


def followed(place: Place, *steps: str, proto: int = 2, in_memory: int = 0) -> None:
    version = place.options.installed.version
    form = Form(min(proto, 1 if version < 14 else 2), kills=KILLS, in_memory=in_memory)
    run_steps(Large(place, Size(OF), form), steps)


def changes(place: Place) -> None:
    """100,000 rows are inserted, updated under REPLICA IDENTITY FULL, and deleted, in one
    transaction each, in each of which filter and connector are killed."""
    followed(place, "inserts", "identity-full", "update", "delete")


def shapes(place: Place) -> None:
    """A table of 100,000 rows is given columns and other replica identities, loses a column, and is
    added anew, with kills in each."""
    followed(place, "inserts", "identity-index", "add-column", "drop-column", "add")


def subtransactions(place: Place) -> None:
    """A transaction has 10,000 subtransactions, of which a third is rolled back, and is streamed
    beside 50 others, with kills."""
    followed(place, "subtransactions")


def whole_subtransactions(place: Place) -> None:
    """The same, but sent whole."""
    followed(place, "subtransactions", proto=1)


def above_limit(place: Place) -> None:
    """A transaction above --max-buffered ends the follower each time, with what it needs, which
    `status` tells, too. Nothing of it is stored or confirmed, and with enough it goes on."""
    place.stock()
    place.follow("--create")
    before, confirmed = place.rows(), place.value(CONFIRMED)
    place.run("INSERT INTO stock SELECT it, it FROM generate_series(1000, 40000) it")
    needed = "200000"
    for _ in range(2):
        needed = ends_at_limit(place, "200000")
    if place.rows() != before or place.value(CONFIRMED) != confirmed:
        raise Failed(f"it has rows of it, or has confirmed {place.value(CONFIRMED)}")
    for _ in range(MOST_RAISED):
        child = place.start("--max-buffered", needed)
        try:
            place.catch_up(child)
        except Failed:
            needed = told_by(place.has_ended(child, REJECTED, FULL))
        else:
            child.stop()
            place.equal()
            return
    raise Failed(f"it is too much for {needed}, too")


def ends_at_limit(place: Place, most: str) -> str:
    """The follower ends, and `status` tells what it needs, too. Returns that."""
    needed = told_by(place.ends(REJECTED, FULL, "--max-buffered", most))
    said = place.subcommand("status", "--store", str(place.store), status=NOT_WELL)
    if FULL not in said or told_by(said) != needed:
        raise Failed(f"status doesn't tell --max-buffered {needed}: {said}")
    return needed


def told_by(said: str) -> str:
    """As how many bytes more is asked for."""
    if not (told := re.search(r"--max-buffered (\d+)", said)):
        raise Failed(f"it doesn't tell how much it needs: {said}")
    return told[1]


def too_little_memory(place: Place) -> None:
    """The program runs out of memory in a transaction, again and again: it tells so, and `status`
    tells what it needs. With more it goes on, and each row is there once."""
    place.stock()
    place.follow("--create")
    program = place.folder / "little"
    program.write_text(f'#!/bin/sh\nexec prlimit --data={LITTLE} {place.options.program} "$@"\n')
    program.chmod(0o755)
    before = place.rows()
    place.run("INSERT INTO stock SELECT it, it FROM generate_series(1000, 400000) it")
    child = place.start("--pgsub", str(program))
    wait_until(lambda: child.said().count(MEMORY) > 3, "running out of memory", 120, child.check)
    said = place.subcommand("status", "--store", str(place.store), status=NOT_WELL)
    if "more memory" not in said or "times in ten minutes" not in said:
        raise Failed(f"status doesn't tell that it needs memory: {said}")
    child.stop()
    if place.rows() != before:
        raise Failed("it has rows of it")
    place.follow()
    place.equal()


CASES = (
    Case("large-changes", changes),
    Case("large-shapes", shapes),
    Case("large-subtransactions", subtransactions, since=14),
    Case("large-subtransactions-sent-whole", whole_subtransactions),
    Case("transaction-above-its-limit", above_limit),
    Case("transaction-above-the-memory", too_little_memory),
)
