"""Compares tables of two sides one after the other, and tells what differs.

Of each table the sums of the module `verify.digests` are compared, chunk by chunk. Of chunks that
differ, as many as rows are to be shown, the rows are read on both sides in the order of their keys,
and those that differ are printed, a JSON object on each line. A value of more than some hundred
characters is cut, and its length and hash are told.
"""

import hashlib
import itertools
import json
from collections.abc import Callable, Collection, Iterable, Iterator, Mapping

from pgsub_feed import log
from pgsub_feed.errors import Passing
from pgsub_feed.log import Meter
from pgsub_feed.tables.digests import Field, FieldTexts, fields_in
from pgsub_feed.texts import counted

from ..copy.source import Source
from ..server.catalog import Table
from ..server.publication_setup import names_of
from ..store.checkpoint_lines import Known
from .digests import Plan, Sums
from .sides import Group, Sides

EQUAL, DIFFERENT = 0, 1
# How often tables are compared once more that others have truncated, altered or locked meanwhile.
AGAIN = 1
# How much of a value is shown.
SHOWN = 300

# Which tables of a server are compared.
Choose = Callable[[Source], list[Table]]


def shown(field: Field) -> str | None:
    """A value as it is printed."""
    if field is None:
        return None
    text = field.decode(errors="backslashreplace")
    if len(text) <= SHOWN:
        return text
    hashed = hashlib.sha256(field).hexdigest()[:16]
    return f"{text[:SHOWN]}.. ({len(field)} bytes, SHA-256 {hashed})"


class Verifier:
    """Compares the tables one after the other."""

    def __init__(self, show: int, sides: Sides) -> None:
        self.sides = sides
        # how many keys may be shown yet
        self.left = show
        self.rows = 0
        # the tables that differ
        self.different: list[Table] = []
        self.meter = Meter("comparing with the server")

    def run(self, tables: list[Table]) -> bool:
        """Compares all of these. Returns whether they are equal."""
        plans = [self.sides.plan(it) for it in tables if self.has_columns(it)]
        ours = self.sides.copy.sums(plans)
        total = sum(it.total() for it in ours.values())
        equal = {it.table.oid for it in plans if self.is_equal(it, ours[it.table.oid], total)}
        self.different = [it for it in tables if it.oid not in equal]
        return not self.different

    def has_columns(self, table: Table) -> bool:
        """Whether a table has the same columns on both sides; tells where it hasn't."""
        if self.sides.has_columns(table):
            return True
        there, here = [it.name for it in table.columns], self.sides.copy.columns(table)
        self.tell({"table": table.text(), "columns": dict(zip(self.sides.names, (there, here)))})
        one, two = self.sides.places
        text = f"it has other columns {one} than {two}, so its rows aren't compared"
        log.warning(f"{table.text()}: {text}")
        return False

    def is_equal(self, plan: Plan, ours: Sums, total: int) -> bool:
        """Compares a table, and tells what differs. `total`: how many rows all of them have."""
        self.meter.note(self.rows, total, plan.table.text())
        theirs = self.sides.sums(plan)
        self.rows += theirs.total()
        chunks = theirs.differing(ours)
        if not chunks:
            return True
        one, two = self.sides.places
        text = f"{plan.table.text()}: {counted(theirs.total(), 'row')} {one}, {ours.total()} {two}"
        log.warning(f"{text}; {len(chunks)} of {counted(plan.chunks, 'chunk')} differ")
        if self.left > 0:
            # (each of them has a row to show)
            self.show(plan, chunks[: self.left])
        return False

    def show(self, plan: Plan, chunks: list[int]) -> None:
        """Prints the rows of some chunks that differ, as many as may be shown."""
        found = 0
        for key, theirs, ours in self.sides.differing(plan, chunks):
            found += 1
            if self.left > 0:
                self.left -= 1
                self.show_key(plan, key, theirs - ours, ours - theirs)
        text = counted(found, "key" if plan.key else "row")
        log.info(f"{plan.table.text()}: {text} in {counted(len(chunks), 'chunk')} differ")

    def show_key(self, plan: Plan, key: bytes, theirs: Group, ours: Group) -> None:
        """Prints what each side has of a key that the other hasn't."""
        names = [it.name for it in plan.table.columns]

        def row(fields: FieldTexts) -> dict[str, str | None]:
            return dict(zip(names, map(shown, fields), strict=True))

        if not plan.key:
            more = {it: sum(group.values()) for it, group in zip(self.sides.more, (theirs, ours))}
            self.tell({"table": plan.table.text(), "row": row(fields_in(key)), **more})
            return
        about = dict(zip((names[it] for it in plan.key), map(shown, fields_in(key)), strict=True))
        for one, two in itertools.zip_longest(theirs.elements(), ours.elements()):
            there, here = (None if it is None else row(fields_in(it)) for it in (one, two))
            both = dict(zip(self.sides.names, (there, here)))
            self.tell({"table": plan.table.text(), "key": about, **both})

    def tell(self, line: dict[str, object]) -> None:
        print(log.escaped(json.dumps(line, ensure_ascii=False)), flush=True)


class Compared:
    """What comparisons have found. `left`: by OID the tables that weren't compared, and why."""

    def __init__(self) -> None:
        self.different: list[Table] = []
        self.left: dict[int, str] = {}

    def tries(self, choose: Choose) -> Iterator[Choose]:
        """How tables are chosen: at first so, and then those that were left."""
        yield choose
        for _ in range(AGAIN):
            if self.left:
                log.info(f"compared once more: {self.names()}")
                yield among(list(self.left))

    def leave(self, chosen: Iterable[Table], why: Mapping[int, str]) -> list[Table]:
        """Notes which of chosen tables can't be compared now. Returns the others."""
        self.left = {}
        return self.leave_more(chosen, why)

    def leave_more(self, chosen: Iterable[Table], why: Mapping[int, str]) -> list[Table]:
        """Notes so beside those that were left before."""
        tables = list(chosen)
        left = [it for it in tables if it.oid in why]
        self.left |= {it.oid: f"{it.text()} was {why[it.oid]} meanwhile" for it in left}
        return [it for it in tables if it.oid not in why]

    def names(self) -> str:
        return names_of(list(self.left.values()))

    def ended(self, status: int) -> int:
        """The exit status: where not all was compared it isn't that of equal tables."""
        if self.left and status == EQUAL:
            raise Passing(f"not compared: {self.names()}: compare later, or the others by --table")
        if self.left:
            log.warning(f"not compared: {self.names()}")
        return status


def among(oids: Collection[int]) -> Choose:
    return lambda source: [it for it in source.tables if it.oid in oids]


def settled(tables: list[Table], known: Known, partial: Collection[int] = ()) -> list[Table]:
    """Tables none of which is being added: of such a one the copy has no state."""
    if going := [it.text() for it in tables if it.oid in known.adding or it.oid in partial]:
        text = f"being added just now, or refused: {names_of(going)}: nothing was compared. Wait for it, or choose others by --table"
        raise Passing(text)
    return tables


def tell_left(sides: Sides) -> None:
    """Tells which rows of the copy aren't compared."""
    source = sides.source
    left = [it.text() for it in sides.copy.left(source.tables) if it.oid not in source.left]
    if left:
        what = counted(len(left), "table")
        text = f"the copy has rows of {what} that the publications don't have now"
        log.info(f"{text}: {names_of(left)}")
