"""Makes the rows of a copy those of its server by the changes of what differs alone: for
`pgsub-connect verify --repair`.

The tables that differ are compared once more, while the follower holds the stream at the LSN of
that comparison. What differs is written into a file, which the follower passes on as one
transaction that ends there, as the module `follow.repair` says:

| Table | Rows that only the server has | that only the copy has | another row of a key |
|---|---|---|---|
| with a key | an Insert | a Delete by the key | an Update by the key |
| REPLICA IDENTITY FULL | an Insert for each copy | a Delete by the old row for each copy | |
| any other | an Insert for each copy | no change tells which one is meant | |

A table is copied anew as a whole, as the module `add.adder` says, where no change tells which row
is meant, not to the copy or, without a key, not to who reads its feed, who may have other rows than
the copy; where the copy has it under another definition; where a column list leaves out a part of
its key, so that several rows have what is left; and where more than a share of its rows differs.
"""

import collections
import os
import struct
from collections.abc import Iterator

from pgsub_feed import log
from pgsub_feed.ownership import give
from pgsub_feed.tables.digests import fields_in
from pgsub_feed.texts import counted

from ..copy.messages import delete, insert, relation, update
from ..server.catalog import Table
from .digests import Plan, Sums
from .sides import Group, Sides

# A table is copied anew where more than one row in so many differs, but for so few.
SHARE, FEW = 3, 256
# What is said of each change, by its message's letter.
WORDS = {b"I": "inserted", b"U": "updated", b"D": "deleted"}


class NoChange(Exception):
    """No change tells which row is meant."""


def changes_of(plan: Plan, theirs: Group, ours: Group) -> Iterator[bytes]:
    """The changes that make the rows of a key in the copy those of the server."""
    table, oid = plan.table, plan.table.oid
    if not plan.key:
        for text in (theirs - ours).elements():
            yield insert(oid, fields_in(text))
        for text in (ours - theirs).elements():
            if table.identity != "f":
                raise NoChange(
                    "without a key or REPLICA IDENTITY FULL no change tells which row goes"
                )
            yield delete(oid, b"O", fields_in(text))
        return
    if max(sum(theirs.values()), sum(ours.values())) > 1:
        raise NoChange("several rows have what is published of their key")
    for text in theirs:
        yield (update if ours else insert)(oid, fields_in(text))
    for text in ours.keys() if not theirs else ():
        fields = fields_in(text)
        yield delete(oid, b"K", [it if at in plan.key else None for at, it in enumerate(fields)])


class Changes:
    """A file of changes, each behind its length, and table by table behind its Relation."""

    def __init__(self, path: str, store: str) -> None:
        number = os.open(path, os.O_WRONLY | os.O_CREAT | os.O_EXCL | os.O_CLOEXEC, 0o600)
        self.file = open(number, "wb")
        if os.getuid() == 0:
            # (so that a follower of another account may read it)
            give(self.file.fileno(), os.stat(store))
        self.began = 0

    def begin(self, table: Table) -> None:
        self.began = self.file.tell()
        self.put(relation(table))

    def put(self, message: bytes) -> None:
        self.file.write(struct.pack(">I", len(message)) + message)

    def take_back(self) -> None:
        """Drops what was written of the last table."""
        self.file.seek(self.began)
        self.file.truncate()

    def close(self) -> None:
        self.file.close()


class Mender:
    """Writes the changes of tables. `written`: how many of each there are by letter; `left`: the
    tables that are to be copied anew; `is_fed`: whether the changes come into a feed, too."""

    def __init__(self, sides: Sides, changes: Changes, is_fed: bool = False) -> None:
        self.sides, self.changes, self.is_fed = sides, changes, is_fed
        self.written: dict[int, collections.Counter[bytes]] = {}
        self.left: list[Table] = []

    def run(self, tables: list[Table]) -> None:
        """Writes the changes of all of these that differ."""
        plans = [self.sides.plan(it) for it in tables if self.has_shape(it)]
        ours = self.sides.copy.sums(plans)
        for plan in plans:
            self.mend(plan, ours[plan.table.oid])

    def has_shape(self, table: Table) -> bool:
        """Whether the copy has a table under the same definition; leaves it where it hasn't."""
        here = self.sides.copy.relations.get(table.oid)
        known = here and (here.shape.identity, [(it.name, it.key) for it in here.shape.columns])
        if known and known != (table.identity, [(it.name, it.key) for it in table.columns]):
            self.leave(table, "the copy has it under another definition")
            return False
        return True

    def leave(self, table: Table, why: str) -> None:
        log.info(f"{table.text()}: {why}: it is copied anew")
        self.left.append(table)

    def mend(self, plan: Plan, ours: Sums) -> None:
        """Writes the changes of a table, or leaves it."""
        theirs = self.sides.sums(plan)
        if not (chunks := theirs.differing(ours)):
            return
        few, many = sorted((theirs.total(), ours.total()))
        most = max(FEW, many // SHARE)
        if self.is_fed and not plan.key:
            why = "without a key no change tells readers of the feed which row is meant"
        elif many - few > most:
            why = f"more than {most} of its rows differ"
        else:
            why = self.write(plan, chunks, most)
        if why:
            self.leave(plan.table, why)

    def write(self, plan: Plan, chunks: list[int], most: int) -> str:
        """Writes the changes of some chunks. Returns why there are none, "" where there are.

        The server sends all rows to the end, so they are read also where no change is wanted any
        more.
        """
        counts, why = collections.Counter[bytes](), ""
        self.changes.begin(plan.table)
        for _, theirs, ours in self.sides.differing(plan, chunks):
            if why:
                continue
            try:
                for it in changes_of(plan, theirs, ours):
                    counts[it[:1]] += 1
                    self.changes.put(it)
            except NoChange as error:
                why = str(error)
            if sum(counts.values()) > most:
                why = why or f"more than {most} of its rows differ"
        if why:
            self.changes.take_back()
            return why
        self.written[plan.table.oid] = counts
        changes = ", ".join(f"{counts[it]} {word}" for it, word in WORDS.items())
        log.info(f"{plan.table.text()}: {changes}")
        return ""

    def text(self) -> str:
        """How much was written."""
        rows = sum(sum(it.values()) for it in self.written.values())
        return f"{counted(rows, 'row')} of {counted(len(self.written), 'table')}"
