"""`pgsub-connect verify --tables`: compares tables that follow a feed with the server, or with
another such file.

The server is seen as of the LSN P of a temporary slot; the file is read in one transaction, at
whatever LSN it has then, once it has all commits that end up to P. Those that end above P, which
the slot's snapshot doesn't see (the module `stream.hold` says why), are taken back by the feed's
images. So nothing is held, neither the stream nor what follows the feed, and nothing is changed but
for the slot.

A table that was truncated, altered or repaired meanwhile is compared once more, and told where it
can't be then either. One that the file has set aside differs.

With `--digests` the sums are those that the files keep, as the module `pgsub_feed.tables.digests`
says, and rows are read where they differ, or where there are none. Without, all rows are read, and
the sums that a file keeps are checked by that.
"""

import contextlib
import dataclasses
import os
import sqlite3
import time
from collections.abc import Iterator, Sequence

from pgsub_feed import log
from pgsub_feed.errors import FileError, Passing, Stopped, Unfit
from pgsub_feed.interruption import Check
from pgsub_feed.reader.commits import Head
from pgsub_feed.reader.segments import read_source
from pgsub_feed.reader.trail import Trail
from pgsub_feed.relation import Column, Shape
from pgsub_feed.tables.file import OLDER
from pgsub_feed.tables.schema import full_name, read_position
from pgsub_feed.tables.set_aside import cure, store_at
from pgsub_feed.tables.sqlite_files import is_tables
from pgsub_feed.texts import counted, lsn_text

from ..copy.source import Source, chosen
from ..drift.remembered import Remembered
from ..server.catalog import Table
from ..server.publication_setup import names_of
from ..store.checkpoint import read_known
from ..store.checkpoint_lines import FOLLOWING, Known
from .comparison import DIFFERENT, EQUAL, Choose, Compared, Verifier, settled, tell_left
from .digests import Plan, Sums, chunks_for
from .sides import Row, Sides
from .store import StoreComparison
from .view import View, check_tables


@dataclasses.dataclass(frozen=True)
class TablesComparison(StoreComparison):
    """Which tables are compared: those of a file with the server, or those of another file.
    `store`: whose publications are meant; `feed`: what the file follows, or ""; `digests`: by those
    that are kept; `chosen`: the named tables."""

    path: str = ""
    other: str = ""
    feed: str = ""
    digests: bool = False
    chosen: Sequence[str] = ()


class Files(Sides):
    """Another file, and this one."""

    names, more = ("other", "copy"), ("more_in_other", "more_in_copy")
    places = ("in the other file", "in the copy")

    def __init__(self, other: View, view: View) -> None:
        self.other, self.copy = other, view
        # (the sums of all tables are made at once, by one pass over the feed)
        self.plans: list[Plan] = []
        self.found: dict[int, Sums] = {}

    def plan(self, table: Table) -> Plan:
        rows = max(it.counts.get(table.oid, 0) for it in (self.other, self.copy))
        self.plans.append(Plan(table, chunks_for(rows)))
        return self.plans[-1]

    def sums(self, plan: Plan) -> Sums:
        if not self.found:
            self.found = self.other.sums(self.plans)
        return self.found[plan.table.oid]

    def digested(self, plans: list[Plan]) -> dict[int, Sums]:
        return self.other.digested(plans)

    def rows(self, plan: Plan, chunks: list[int]) -> Iterator[Row]:
        return self.other.rows(plan, chunks)


class ByDigests(Verifier):
    """Compares tables by the digests that are kept, and of those that differ the rows."""

    def run(self, tables: list[Table]) -> bool:
        plans = [Plan(it, 1) for it in tables if self.has_columns(it)]
        theirs, ours = self.sides.digested(plans), self.sides.copy.digested(plans)
        equal = {oid for oid, sums in theirs.items() if not sums.differing(ours[oid])}
        rows = sum(it.total() for it in theirs.values())
        if read := [it.table for it in plans if it.table.oid not in equal]:
            super().run(read)
        self.rows, self.different = rows, [it for it in tables if it.oid not in equal]
        return not self.different


def tables_of(views: Sequence[View]) -> list[Table]:
    """All tables that any of the files has."""
    found = dict[int, Table]()
    for view in views:
        for oid, valued in view.tables.items():
            relation = valued.relation
            columns = tuple(Column(*it[:4]) for it in relation.shape.columns)
            named, shape = full_name(relation), Shape(relation.shape.identity, columns)
            found.setdefault(oid, Table(oid, named[0], named[1], "r", shape))
    for oid, it in ((oid, it) for view in views for oid, it in view.asides.items()):
        found.setdefault(oid, Table(oid, it.schema, it.table, "r", Shape("", ())))
    return [*found.values()]


def source_in(view: View, feed: str) -> Head | None:
    """What a file's rows are of. Of one without a commit yet its feed says it."""
    folder = feed or view.folder
    return view.source or (read_source(folder) if os.path.isdir(folder) else None)


def with_rows(comparison: TablesComparison, view: View, tables: list[Table]) -> list[Table]:
    """The tables that a file has; tells which it was made without, and which are set aside."""
    tables = view.without_asides(tables)
    for aside in view.lacks:
        log.warning(f"{aside.name()} is set aside in {view.path} {aside.text()}")
    left = [it for it in tables if not view.is_chosen(it)]
    names = names_of([it.text() for it in left])
    if left and comparison.chosen:
        raise Unfit(f"{view.path} was made without {names}")
    if left:
        log.info(f"{view.path} was made without {counted(len(left), 'table')}: {names}")
    return [it for it in tables if it not in left]


def compare(
    comparison: TablesComparison, sides: Sides, tables: list[Table], where: str, views: list[View]
) -> int:
    """Compares tables, and tells what differs; the exit status."""
    kind = ByDigests if comparison.digests else Verifier
    verifier = kind(comparison.show, sides)
    is_equal = verifier.run(tables)
    for view in views:
        for relation in view.wrong:
            log.warning(
                f"{view.path}: the digest that it keeps of {relation.text()} isn't that of its rows: another program has written there"
            )
    is_right = not any(it.wrong for it in views)
    how = " by the digests that are kept" if comparison.digests else ""
    text = f"{counted(len(tables), 'table')}, {counted(verifier.rows, 'row')} {where}"
    equal = ("equal" if is_right else "equal rows") + how
    log.info(f"{text}: {equal if is_equal else 'the copy differs'}")
    wrong = {".".join(full_name(it)) for view in views for it in view.wrong}
    wrong |= {it.name() for view in views for it in view.lacks}
    wrong |= {it.text() for it in verifier.different}
    if wrong:
        store = comparison.store or store_at(views[-1].folder)
        log.warning(f"rows come anew by: {cure(store, sorted(wrong))}")
    return DIFFERENT if wrong else EQUAL


# For how long feed and tables may take to have all commits up to the LSN, in seconds.
PATIENCE = 60.0
# How often it is looked whether they have, in seconds.
LOOK = 0.02


def compare_tables(comparison: TablesComparison, check: Check) -> int:
    """Compares; the exit status."""
    try:
        return (with_file if comparison.other else with_server)(comparison, check)
    except Stopped:
        raise Passing("ended before all was compared") from None
    except sqlite3.Error as error:
        raise FileError(f"{comparison.path}: {error}") from None


def store_of(path: str) -> str:
    """The store whose feed a file follows, by the feed's name; "" where it has another one."""
    with contextlib.suppress(OSError, sqlite3.Error, TypeError):
        store = read_position(path)[1].removesuffix(".feed") if is_tables(path) else ""
        return store if os.path.exists(store + ".connector") else ""
    return ""


def with_server(comparison: TablesComparison, check: Check) -> int:
    check_tables(comparison.path)
    found = Compared()
    tries = found.tries(lambda it: it.chosen(list(comparison.chosen)))
    return found.ended(max(compare_with_server(comparison, it, found, check) for it in tries))


def compare_with_server(
    comparison: TablesComparison, choose: Choose, found: Compared, check: Check
) -> int:
    with contextlib.ExitStack() as stack:
        at, folder = read_position(comparison.path)
        trail = stack.enter_context(contextlib.closing(Trail(comparison.feed or folder, at)))
        source = stack.enter_context(contextlib.closing(source_of(comparison, check)))
        tables = followed(comparison, choose(source))
        point, snapshot = source.make_slot(comparison.hold)
        source.see(snapshot, leaves=True)
        if point < at:
            # (of a standby that is behind)
            trail = stack.enter_context(contextlib.closing(Trail(comparison.feed or folder, point)))
        wait(comparison.path, trail, point, check)
        view = stack.enter_context(contextlib.closing(View(comparison.path, check)))
        if view.at < trail.last:
            text = f"{comparison.path} was taken back to {lsn_text(view.at)} meanwhile: nothing was compared"
            raise Passing(text)
        view.go_back(trail)
        # (of one that is added since then the feed lacks changes up to here, or truncates it)
        followed(comparison, tables)
        tables = with_rows(comparison, view, tables)
        tables = found.leave(tables, {**trail.unknown(view.at), **source.left})
        sides = Sides(source, view)
        tell_left(sides)
        where = f"on the server at {lsn_text(point)}"
        status = compare(comparison, sides, tables, where, [view])
    return status


def followed(comparison: TablesComparison, tables: list[Table]) -> list[Table]:
    """Tables none of which is being added now, as far as the store is known."""
    store = comparison.store
    return settled(tables, read_known(store + ".connector"), Remembered(store).partial)


def source_of(comparison: TablesComparison, check: Check) -> Source:
    """The server of a file's rows."""
    with contextlib.closing(View(comparison.path, check)) as view:
        head = source_in(view, comparison.feed)
    if head is None:
        raise Passing(f"{comparison.path} has followed nothing yet")
    known = Known(FOLLOWING, head.system, head.database, head.slot)
    subscription = dataclasses.replace(comparison.subscription, slot=head.slot)
    return Source(subscription, comparison.path, known, check, "verify")


def wait(path: str, trail: Trail, point: int, check: Check) -> None:
    """Waits until the feed has all commits that end up to an LSN, and the tables have those."""
    until = time.monotonic() + PATIENCE
    while not (has := trail.has(point)) or read_position(path)[0] < trail.last:
        if time.monotonic() > until:
            behind = f"the feed {trail.folder} doesn't have all"
            behind = f"{path} is at {lsn_text(read_position(path)[0])}" if has else behind
            text = f"{behind}, and {lsn_text(point)} wasn't reached in {PATIENCE:.0f} seconds"
            raise Passing(f"{text}: does its follower run? Nothing was compared")
        check()
        time.sleep(LOOK)


def with_file(comparison: TablesComparison, check: Check) -> int:
    paths = (comparison.other, comparison.path)
    for path in paths:
        check_tables(path)
    with contextlib.ExitStack() as stack:
        other, view = (stack.enter_context(contextlib.closing(View(it, check))) for it in paths)
        check_same_source(other, view)
        point = min(other.at, view.at)
        for it in (other, view):
            if it.at > point:
                trail = stack.enter_context(contextlib.closing(trail_to(comparison, it, point)))
                it.go_back(trail)
        tables = [it for it in tables_of((other, view)) if not is_former(it, (other, view))]
        tables = chosen(tables, list(comparison.chosen)) if comparison.chosen else tables
        both = with_rows(comparison, other, with_rows(comparison, view, tables))
        found, unknown = Compared(), dict[int, str]()
        for it in (other, view):
            unknown |= it.trail.unknown(it.at) if it.trail else {}
        rest = found.leave(both, unknown)
        where = f"in {other.path} at {lsn_text(point)}"
        status = compare(comparison, Files(other, view), rest, where, [other, view])
    return found.ended(status)


def is_former(table: Table, views: Sequence[View]) -> bool:
    """Whether only one file has a table, under the name of one whose own another table got: nobody
    reads its rows, and a file that began with a store's never had them."""
    found = [view.tables[table.oid].name for view in views if table.oid in view.tables]
    return len(found) == 1 and found[0].startswith(OLDER)


def check_same_source(one: View, two: View) -> None:
    """Rejects two files that can't be compared by LSNs."""
    ours, theirs = source_in(one, ""), source_in(two, "")
    if ours is None or theirs is None:
        raise Passing(f"{(two if ours else one).path} has followed nothing yet")
    if (ours.system, ours.database) != (theirs.system, theirs.database):
        raise Unfit(f"{one.path} has rows of {ours.text()}, and {two.path} of {theirs.text()}")


def trail_to(comparison: TablesComparison, view: View, point: int) -> Trail:
    """The way back of the file that is ahead."""
    folder = comparison.feed or view.folder
    if not os.path.isdir(folder):
        text = f"{view.path} is at {lsn_text(view.at)}, and its feed {folder} isn't here to take it back to {lsn_text(point)}: name one by --feed"
        raise Unfit(text)
    trail = Trail(folder, point)
    if not trail.has(point):
        trail.close()
        raise Unfit(f"{folder}: the feed doesn't have the commits up to {lsn_text(view.at)}")
    return trail
