"""The changes of a feed's commits, made to the tables of a file.

The rows of a table with a key are found by it, and of a row's changes the last one tells what it
is: so they are joined, and each row is written once, whatever was made of it. What a user adds may
see the steps, though, as a unique index of his own does: there they stay as they came.
"""

import itertools
import operator
import sqlite3
from collections.abc import Iterable, Sequence

from ..interruption import Check
from ..reader.commits import XID, Change, Commit, Part, TableLine
from ..relation import Relation
from ..texts import identifier
from .file import OLDER, Rows
from .set_aside import CANT_KEEP, Unkept, reason
from .table import Kept
from .user_sql import Added
from .values import Value
from .waiting import Joined, Ordered, Waiting

# How many bytes the line of a change has beside its values, about.
AROUND = 60


# How many bytes of the feed's lines wait at most: rows may be large.
ROOM = 32 << 20


def size_of(change: Change) -> int:
    """How many bytes a change has, about, in a commit's lines."""
    rows = change.before or (), change.after or ()
    return AROUND + sum(len(it or "null") + 3 for row in rows for it in row)


class Applier:
    """Makes changes in the open transaction, those of one kind to one table at once.

    `joins`: changes wait over the ends of commits, until `flush`, and those of a row are joined.
    """

    def __init__(self, rows: Rows, check: Check, joins: bool = False) -> None:
        self.rows, self.db, self.check, self.joins = rows, rows.db, check, joins
        self.added = Added(rows.db)
        # by OID what was told of a table last, the table, and its changes that wait
        self.told: dict[int, Relation] = {}
        self.kept: dict[int, Kept | None] = {}
        self.waiting: dict[int, Waiting] = {}
        # how many bytes these have, about, and each change of the commit
        self.bytes = self.each = 0
        # those of them whose name another one has
        self.older = set[int]()
        # of the commit: its end, and whether it repairs rows, but for tables that it truncates
        self.at = 0
        self.is_repair, self.truncated = False, set[int]()
        # of a repair: whether a table had no row before it
        self.was_empty: dict[int, bool] = {}
        self.forget()

    def forget(self) -> None:
        """Forgets what waits, and what was told of the tables: a transaction begins, or was undone."""
        self.told.clear()
        self.kept.clear()
        self.waiting.clear()
        self.older.clear()
        # whether changes of different tables may be made in another order
        self.is_free = self.joins and not self.added.has_triggers()

    def apply(self, commit: Commit, parts: Iterable[Part]) -> None:
        """Makes a commit's changes within the caller's transaction, or has them wait."""
        is_repair = commit.xid == XID
        if is_repair or not self.is_free:
            # (what waits is made as the commits that it is of, before anything is noted of this one)
            self.flush()
            self.forget()
        self.at, self.is_repair = commit.end, is_repair
        # (of a long one by themselves: those of its rows that come together may all be large)
        self.each = 0 if commit.bytes > ROOM else commit.bytes // max(commit.changes, 1)
        self.truncated.clear()
        self.was_empty.clear()
        self.put_parts(commit, parts)
        if self.is_repair or not self.is_free or self.rows.is_init_due:
            self.finish()
            self.forget()

    def put_parts(self, commit: Commit, parts: Iterable[Part]) -> None:
        """Has a commit's changes wait, or makes them."""
        # (where all of them have room none is counted by itself)
        have_room = self.each > 0 and self.bytes + commit.bytes <= ROOM
        waiting, told = self.waiting, self.told
        for part in parts:
            if isinstance(part, Change):
                there = waiting.get(part.relation.oid)
                if there is None or not there.add(part):
                    self.put(part)
                if not have_room:
                    self.count(part)
            elif isinstance(part, TableLine):
                relation = part.relation
                if told.get(relation.oid) is not relation:
                    self.describe(relation)
        if have_room:
            self.bytes += commit.bytes

    def count(self, change: Change) -> None:
        """Makes the changes that wait where they have too many bytes with this one."""
        self.bytes += self.each or size_of(change)
        if self.bytes > ROOM:
            self.flush()

    def finish(self) -> None:
        """Makes the changes that wait, and has the user's own SQL see them where it is due."""
        self.flush()
        self.rows.initialize()

    def describe(self, relation: Relation) -> None:
        """Has the table of a relation be as it is told."""
        kept = self.rows.as_told(relation)
        if kept is None and not self.rows.is_left(relation):
            # (it may take another table's name)
            self.flush()
            kept = self.rows.describe(relation, self.at)
            self.look_again()
        self.told[relation.oid], self.kept[relation.oid] = relation, kept

    def look_again(self) -> None:
        """Tables may have other names."""
        self.told.clear()
        self.kept = {oid: self.rows.kept.get(oid) for oid in self.kept}
        self.older = {oid for oid, it in self.kept.items() if it and it.name.startswith(OLDER)}

    def put(self, change: Change) -> None:
        """Has a change wait, behind those of its table that do, or makes it."""
        oid = change.relation.oid
        if oid in self.older:
            # (another table has had its name in between, and nothing is told again)
            self.describe(change.relation)
        waiting = self.waiting.get(oid)
        if waiting is None:
            if not self.is_free or self.is_repair:
                self.flush()
            waiting = self.waiting[oid] = self.waiting_of(change.relation)
        if not waiting.add(change):
            self.make_waiting(oid)
            waiting = self.waiting[oid] = self.waiting_of(change.relation)
            if not waiting.add(change):
                del self.waiting[oid]
                self.make_alone(change)

    def make_alone(self, change: Change) -> None:
        if change.op == "t":
            oid = change.relation.oid
            self.truncated.add(oid)
            if oid in self.rows.asides.known:
                # (it may take another table's name)
                self.flush()
                self.rows.take_up(change.relation, self.at)
                self.look_again()
        self.make_those(self.at, [change])

    def waiting_of(self, relation: Relation) -> Waiting:
        """What the changes of a table wait in."""
        kept = self.kept[relation.oid] if self.is_free and not self.is_repair else None
        # (a key that only the catalog tells may be that of several rows for a while)
        is_joined = kept is not None and kept.target.is_keyed and not kept.primary
        if kept and is_joined and not self.added.has_unique_indexes(kept.name):
            return Joined(self.at, kept, relation)
        return Ordered(self.at)

    def flush(self) -> None:
        """Makes the changes that wait."""
        for oid in list(self.waiting):
            self.make_waiting(oid)
        self.waiting.clear()
        self.bytes = 0

    def make_waiting(self, oid: int) -> None:
        waiting = self.waiting[oid]
        for changes in waiting.taken():
            self.make_those(waiting.at, changes)

    def make_those(self, at: int, changes: list[Change]) -> None:
        """Makes changes of one kind, of commits from that on which ends there. A table that can't
        have them is set aside, until it is truncated."""
        relation = changes[0].relation
        if (kept := self.kept[relation.oid]) is None:
            return
        self.check()
        try:
            self.take(kept, changes)
            return
        except CANT_KEEP as error:
            why = reason(error)
        self.kept[relation.oid] = None
        self.rows.set_aside(relation, at, why)

    def take(self, kept: Kept, changes: list[Change]) -> None:
        """Makes changes of one kind, in the digest too."""
        if self.is_repair and not self.is_sure(kept, changes[0].op):
            self.repair(kept, changes)
        else:
            self.make_noted(kept, changes)

    def make_noted(self, kept: Kept, changes: list[Change]) -> None:
        self.make(kept, changes)
        if self.rows.digests:
            self.rows.digests.note(kept, changes)

    def is_sure(self, kept: Kept, op: str) -> bool:
        """Whether a repair finds here what it says: of a table that it truncates, or that had no
        row and gets some, as one does that is added."""
        query = f"SELECT NOT EXISTS (SELECT 1 FROM {identifier(kept.name)})"
        if kept.oid not in self.was_empty:
            self.was_empty[kept.oid] = bool(self.db.execute(query).fetchone()[0])
        return kept.oid in self.truncated or self.was_empty[kept.oid] and op == "c"

    def repair(self, kept: Kept, changes: list[Change]) -> None:
        """Makes rows what they were repaired to. What was before may never have been here."""
        if not kept.target.is_keyed or kept.have_null_keys(
            [it.after for it in changes if it.after]
        ):
            why = "rows were repaired, and without a key nobody knows which of those here"
            raise Unkept(kept.relation, why)
        images = (it for change in changes for it in (change.before, change.after) if it)
        keys = list(dict.fromkeys(tuple(it) for it in kept.searched([*images])))
        if self.rows.digests:
            self.rows.digests.take_off(kept, keys)
        self.db.executemany(kept.deletion, keys)
        added = [Change("c", it.relation, it.n, None, it.after) for it in changes if it.after]
        if added:
            self.make_noted(kept, added)

    def make(self, kept: Kept, changes: list[Change]) -> None:
        """Makes changes of one kind. A table whose key is none of SQLite's is made anew."""
        if kept.have_null_keys([it.after for it in changes if it.after]):
            kept = self.loosened(kept)
        keeps = changes[0].op == "u" and kept.keeps_keys(changes)
        # (a single statement leaves nothing where it fails, and none of rows whose keys stay fails
        # for these, unless a trigger does)
        is_nested = len(changes) > 1 and kept.target.is_keyed and not (keeps and self.is_free)
        if is_nested:
            self.db.execute("SAVEPOINT changes")
        try:
            self.execute(kept, changes, keeps)
        except sqlite3.IntegrityError as error:
            if not (kept.target.is_keyed and kept.is_of_key(error)):
                raise
            if is_nested:
                self.db.execute("ROLLBACK TO changes")
            self.execute(self.loosened(kept), changes, False)
        finally:
            # (a disk that is full may have ended the whole transaction)
            if is_nested and self.db.in_transaction:
                self.db.execute("RELEASE changes")

    def loosened(self, kept: Kept) -> Kept:
        self.kept[kept.oid] = kept = self.rows.loosen(kept)
        return kept

    def execute(self, kept: Kept, changes: list[Change], keeps: bool) -> None:
        """Runs the statements of changes of one kind. `keeps`: they are updates of which each finds
        its row by a key that stays."""
        op = changes[0].op
        if op == "t":
            self.db.execute(kept.truncation)
            # (its rows come anew, so it costs nothing)
            self.kept[kept.oid] = self.rows.rekeyed(kept)
            return
        if op == "c":
            values = kept.values([it.after or () for it in changes])
            self.check_done(kept, len(changes), kept.target.insert(self.db, values))
            return
        kept.find_rows(self.db)
        after = [it.after or () for it in changes]
        if keeps:
            self.run(kept, kept.change, kept.changed_keyed(after))
            return
        before = [it.before or () for it in changes]
        if op == "d":
            self.run(kept, kept.deletion, kept.searched(before))
            return
        changed = kept.changed(before, after)
        for keeps, some in itertools.groupby(changed, operator.itemgetter(0)):
            self.run(kept, kept.change if keeps else kept.update, [values for _, values in some])

    def run(self, kept: Kept, statement: str, rows: Sequence[Sequence[Value]]) -> None:
        """Runs a statement with each of these, which has to change one row each time."""
        if statement:
            self.check_done(kept, len(rows), self.db.executemany(statement, rows).rowcount)

    def check_done(self, kept: Kept, rows: int, done: int) -> None:
        if done != rows:
            why = "a row that the feed changes isn't in it: another program has changed the file"
            raise Unkept(kept.relation, why)
