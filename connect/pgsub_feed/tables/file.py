"""A file of tables that follows a feed, as the module `schema` describes it."""

import json
import sqlite3

from .. import log
from ..errors import FileError, Passing, Unfit
from ..interruption import undone_by
from ..known_tables import KnownTables
from ..reader.commits import Head
from ..relation import Relation
from ..texts import identifier, lsn_text, parse_lsn
from .digests import FORMAT as WITH_DIGESTS, Digests, has_digests
from .indexes import Indexes, Keys, inherited
from .names import OLD, POSITION, TABLES, distinct_name, folded, names_of
from .reshape import LOOSE, carry, loose, reshaped
from .schema import (
    FEED,
    FORMAT,
    FORMS,
    RELATIONS,
    definition,
    full_name,
    path_bytes,
    read_definition,
    read_folder,
)
from .set_aside import CANT_KEEP, Asides, Unkept, nested, reason
from .sqlite_files import inode_of
from .table import IS_MINUS_ZERO, Kept, is_minus_zero
from .user_sql import Init
from .values import BOTH

# What the name of an older table begins with whose name another one got.
OLDER = OLD + " "
# How many pages of 4 KiB the log gets until they go to the file: a page that changes again and again
# goes there once.
LOGGED = 4000
# How long to wait for others that write the file or read it, in seconds.
BUSY = 60.0


class Rows:
    """The file, open for writing. All that is done to it is in a transaction, which `settle`
    commits with an LSN. `form`: how numerics are kept."""

    def __init__(
        self,
        path: str,
        init: Init | None = None,
        known: KnownTables | None = None,
        form: str = BOTH,
        indexes: Indexes | None = None,
    ) -> None:
        self.path, self.init, self.keys, self.form = path, init, Keys(known), form
        self.indexes = indexes
        self.db = sqlite3.connect(path, timeout=BUSY, isolation_level=None, cached_statements=2000)
        self.number, self.asides = inode_of(path), Asides(self.db, path)
        with undone_by(self.db.close):
            self.set_up()
            self.reload()

    def set_up(self) -> None:
        if self.db.execute("PRAGMA user_version").fetchone()[0] not in (FORMAT, WITH_DIGESTS):
            raise FileError(f"{self.path}: another version of {log.PROGRAM} has made the file")
        if self.db.execute("PRAGMA journal_mode = WAL").fetchone()[0] != "wal":
            raise FileError(f"{self.path}: SQLite can't keep a log beside the file there")
        # (what a power cut takes, the feed still has)
        settings = "synchronous = NORMAL", "legacy_alter_table = ON", "foreign_keys = OFF"
        sizes = "cache_size = -32000", f"wal_autocheckpoint = {LOGGED}"
        for pragma in (*settings, *sizes):
            self.db.execute(f"PRAGMA {pragma}")
        self.db.create_function(IS_MINUS_ZERO, 1, is_minus_zero, deterministic=True)

    def reload(self) -> None:
        """Reads what the file has."""
        db = self.db
        self.at = self.position()
        self.kept: dict[int, Kept] = {}
        self.left_out: set[int] = set()
        # those with a name of the publisher's, by that as SQLite compares it, and as it is
        self.names: dict[str, Kept] = {}
        self.holders: dict[tuple[str, str], Kept] = {}
        self.asides.load()
        self.is_init_due = False
        for oid, name, text in db.execute(f"SELECT * FROM {RELATIONS}").fetchall():
            if name is None:
                self.left_out |= {oid} - self.asides.known.keys()
            else:
                self.load(name, *read_definition(text))
        chosen = db.execute(f"SELECT chosen FROM {FEED}").fetchone()
        self.chosen = set(json.loads(chosen[0])) if chosen else set[str]()
        self.digests = Digests(db) if has_digests(db) else None

    def load(self, name: str, relation: Relation, form: str, primary: tuple[str, ...]) -> None:
        if form != self.form:
            raise Unfit(f"{self.path}: {FORMS % (form, self.form)}: name that, or another file")
        keys = self.db.execute("SELECT 1 FROM pragma_table_info(?) WHERE pk", (name,)).fetchone()
        kept = Kept(name, relation, form, primary, is_loose=not keys)
        kept.find_index(self.db)
        self.kept[relation.oid] = kept
        self.keys.loaded(relation, primary)
        if not name.startswith(OLDER):
            self.hold(kept)

    def hold(self, kept: Kept) -> None:
        """A table has its name."""
        self.names[folded(kept.name)] = self.holders[full_name(kept.relation)] = kept

    def position(self) -> int:
        return parse_lsn(self.db.execute(f"SELECT lsn FROM {POSITION}").fetchone()[0])

    def begin(self) -> None:
        """Begins a transaction, unless one is open."""
        if not self.db.in_transaction:
            self.db.execute("BEGIN IMMEDIATE")
            # (one that is about to end, since what has started it was killed)
            if self.position() != self.at:
                raise Passing(f"{self.path}: another process has written it meanwhile")
            if inode_of(self.path) not in (None, self.number):
                raise Passing(f"{self.path}: another file has its name by now")

    def settle(self, at: int) -> None:
        """Ends the transaction: the rows are those after the commit that ends there."""
        if self.db.in_transaction:
            if self.digests:
                self.digests.write()
            self.db.execute(f"UPDATE {POSITION} SET lsn = ?", (lsn_text(at),))
            self.db.execute("COMMIT")
            self.at = at
            if self.asides.known or self.asides.told:
                self.asides.tell(read_folder(self.db))

    def roll_back(self) -> None:
        if self.db.in_transaction:
            self.db.execute("ROLLBACK")
            self.reload()

    def reload_within(self) -> None:
        """Reads what the file has once a part of the transaction was undone."""
        is_init_due = self.is_init_due
        if self.digests:
            self.digests.write()
        self.reload()
        self.is_init_due = is_init_due

    def close(self, is_orderly: bool) -> None:
        """Closes the file. In the end it needs no log, unless somebody reads it just then."""
        if self.db.in_transaction:
            self.db.execute("ROLLBACK")
        if is_orderly:
            self.db.execute("PRAGMA busy_timeout = 200")
            try:
                self.db.execute("PRAGMA wal_checkpoint(TRUNCATE)")
                self.db.execute("PRAGMA journal_mode = DELETE")
            except sqlite3.OperationalError:
                # (it is locked)
                pass
        self.db.close()

    # ---- what it is kept of

    def note_folder(self, folder: str) -> None:
        """Notes where the feed is, for those who wait."""
        if read_folder(self.db) != folder:
            self.begin()
            self.db.execute(f"UPDATE {FEED} SET folder = CAST(? AS TEXT)", (path_bytes(folder),))
            self.settle(self.at)

    def check_source(self, head: Head) -> None:
        """Notes what the feed is a feed of, or rejects one of something else."""
        source = self.db.execute(f"SELECT system, database, slot FROM {FEED}").fetchone()
        if source[0] is None:
            self.begin()
            self.db.execute(f"UPDATE {FEED} SET system = ?, database = ?, slot = ?", head.source())
            self.settle(self.at)
        elif source != head.source():
            was = Head(0, *source)
            raise Unfit(f"{self.path} has rows of {was.text()}, and the feed is of {head.text()}")

    def keep_digests(self) -> None:
        """Keeps a digest of each table from now on."""
        self.begin()
        self.digests = Digests.begun(self.db, self.kept.values())
        self.settle(self.at)

    def is_chosen(self, relation: Relation) -> bool:
        return not self.chosen or bool(self.chosen & names_of(relation.namespace, relation.name))

    # ---- its tables

    def as_told(self, relation: Relation) -> Kept | None:
        """The table of a relation, where it has its name and shape, and its known key."""
        kept = self.kept.get(relation.oid)
        if kept is None or not kept.is_of(relation) or kept.name.startswith(OLDER):
            return None
        return None if self.keys.has_news(relation) else kept

    def unseen(self) -> list[str]:
        """The chosen names that no table has, of those that were told so far."""
        told = {full_name(it.relation) for it in self.kept.values()}
        told |= {(it.schema, it.table) for it in self.asides.known.values()}
        return sorted(self.chosen.difference(*(names_of(*it) for it in told)))

    def is_left(self, relation: Relation) -> bool:
        """Whether it is noted already that a relation wasn't chosen, or is set aside."""
        oid, aside = relation.oid, self.asides.known.get(relation.oid)
        if not self.is_chosen(relation):
            return oid in self.left_out
        return aside is not None and aside[:2] == full_name(relation)

    def describe(self, relation: Relation, at: int) -> Kept | None:
        """The table of a relation, in the shape that was told last, by the commit that ends there.
        None of one that wasn't chosen, or is set aside."""
        if kept := self.as_told(relation):
            return kept
        if not self.is_chosen(relation):
            self.leave_out(relation, self.kept.get(relation.oid))
            return None
        if relation.oid in self.asides.known:
            self.asides.rename(relation)
            return None
        return self.attempt(relation, at)

    def attempt(self, relation: Relation, at: int) -> Kept | None:
        """Makes a table, or gives it another name or shape; where that can't be, sets it aside."""
        try:
            with nested(self.db):
                return self.shape(relation)
        except CANT_KEEP as error:
            why = reason(error)
        self.reload_within()
        self.set_aside(relation, at, why)
        return None

    def shape(self, relation: Relation) -> Kept:
        kept = self.kept.get(relation.oid)
        if relation.oid in self.left_out:
            why = "it had another name before, which wasn't chosen: its rows from then are missing"
            raise Unkept(relation, why)
        name = self.claim(relation, kept)
        before = kept and kept.relation.shape.columns
        primary = self.keys.of(relation)
        if kept is None:
            kept = Kept(name, relation, self.form, primary or ())
            kept.make(self.db)
        else:
            primary = inherited(kept, relation) if primary is None else primary
            self.rename(kept, name)
            kept = reshaped(self.db, kept, Kept(name, relation, self.form, primary))
        self.is_init_due = True
        self.note(kept)
        if self.digests and before != relation.shape.columns:
            self.digests.add_up(kept)
        return kept

    def claim(self, relation: Relation, kept: Kept | None) -> str:
        """The name of a relation's table. Another one that had the name is moved aside."""
        named = full_name(relation)
        holder = self.holders.get(named)
        if holder and holder.oid != relation.oid:
            self.rename(holder, OLDER + str(holder.oid))
            self.note(holder)
        elif holder:
            return holder.name
        own = {folded(kept.name)} if kept else set[str]()
        return distinct_name(relation.oid, *named, self.names.keys() - own)

    def set_aside(self, relation: Relation, at: int, why: str) -> None:
        """Leaves a table out from the commit that ends there on, until its rows come anew."""
        if kept := self.kept.get(relation.oid):
            self.drop(kept)
        self.left_out.discard(relation.oid)
        self.write(relation.oid)
        self.asides.put(relation, at, why)

    def take_up(self, relation: Relation, at: int) -> Kept | None:
        """Makes a table again that was set aside: all of its rows come."""
        self.asides.drop(relation.oid)
        self.db.execute(f"DELETE FROM {RELATIONS} WHERE oid = ?", (relation.oid,))
        return self.describe(relation, at)

    def rename(self, kept: Kept, name: str) -> None:
        if kept.name == name:
            return
        self.db.execute(f"ALTER TABLE {identifier(kept.name)} RENAME TO {OLD}")
        self.db.execute(f"ALTER TABLE {OLD} RENAME TO {identifier(name)}")
        self.forget(kept)
        kept.rename(name)

    def rekeyed(self, kept: Kept) -> Kept:
        """Gives a table that is empty now the primary key that the server has, or that rows from
        before an alteration didn't let it have."""
        primary = self.keys.of(kept.relation)
        new = Kept(kept.name, kept.relation, self.form, primary or ())
        is_same = new.target.key == kept.target.key and kept.target.is_keyed
        if is_same or not new.target.is_keyed:
            return kept
        return self.carried(kept, new)

    def loosen(self, kept: Kept) -> Kept:
        """Makes a table anew whose key can't be a primary key."""
        log.warning(f"{kept.relation.text()}: {LOOSE}")
        return self.carried(kept, loose(kept))

    def carried(self, old: Kept, new: Kept) -> Kept:
        with nested(self.db):
            new = carry(self.db, old, new)
        self.is_init_due = True
        self.note(new)
        return new

    def drop(self, kept: Kept) -> None:
        self.db.execute(f"DROP TABLE IF EXISTS {identifier(kept.name)}")
        self.db.execute(f"DELETE FROM {RELATIONS} WHERE oid = ?", (kept.oid,))
        self.forget(kept)
        del self.kept[kept.oid]
        if self.digests:
            self.digests.drop(kept.oid)

    def leave_out(self, relation: Relation, kept: Kept | None) -> None:
        if kept:
            self.drop(kept)
        self.asides.drop(relation.oid)
        if relation.oid not in self.left_out:
            self.left_out.add(relation.oid)
            self.write(relation.oid)

    def forget(self, kept: Kept) -> None:
        """Takes a table's name away."""
        if self.names.get(folded(kept.name)) is kept:
            del self.names[folded(kept.name)]
        if self.holders.get(full_name(kept.relation)) is kept:
            del self.holders[full_name(kept.relation)]
        self.db.execute(f"DELETE FROM {TABLES} WHERE oid = ?", (kept.oid,))

    def note(self, kept: Kept) -> None:
        """Writes down a table's name and definition."""
        relation = kept.relation
        if before := self.kept.get(kept.oid):
            self.forget(before)
        self.kept[kept.oid] = kept
        if not kept.name.startswith(OLDER):
            self.hold(kept)
            named = (kept.name, relation.namespace or "pg_catalog", relation.name, kept.oid)
            self.db.execute(f"INSERT INTO {TABLES} VALUES (?, ?, ?, ?)", named)
        self.write(kept.oid, kept.name, definition(kept.target))

    def write(self, oid: int, name: str | None = None, told: str | None = None) -> None:
        """Writes a table's line; one without a name is left out."""
        self.db.execute(f"INSERT OR REPLACE INTO {RELATIONS} VALUES (?, ?, ?)", (oid, name, told))

    def run_init(self) -> None:
        """Runs it in a transaction of its own."""
        self.begin()
        self.is_init_due = True
        self.initialize()
        self.settle(self.at)

    def make_indexes(self) -> None:
        if self.indexes:
            self.indexes.make(self.db, [it.target for it in self.kept.values()])

    def initialize(self) -> None:
        """Makes indexes, and runs what the user wants, after a table was made or altered."""
        if self.is_init_due:
            self.make_indexes()
            if self.init:
                self.init.run(self.db)
        self.is_init_due = False
