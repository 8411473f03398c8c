"""A feed's commits as lines of a bulk request, for Elasticsearch and OpenSearch, and the command
of a user's for TRUNCATE.

A document's version is the LSN at which its commit ends. One version can say one thing of a
document alone: so each commit has one line of each key that it changes, what it leaves of the row.
Whatever is sent again, or late, has a version that isn't above the one that is there, and is
rejected with the status 409, which loses nothing.
"""

import contextlib
import shlex
import sqlite3
import subprocess
import sys
import time
from collections.abc import Iterator

from .. import log
from ..errors import Passing, Unfit, UsageError
from ..interruption import Check, never, undone_by
from ..known_tables import KnownTables
from ..reader.blocks import LONG
from ..reader.commits import Change, Commit, Missed
from ..reader.following import Chosen
from ..reader.segments import Reader
from ..relation import Relation
from ..tables.indexes import OTHER, UNKNOWN, lacking, other_key
from ..tables.set_aside import cure
from ..texts import lsn_text
from .keys import index_text, key_of, row_text
from .lines import Objects, Row, json_line

# How often it is looked whether to end while it runs, in seconds.
STEP = 0.1


class Command:
    """The command, words as of a shell. It ends with 0 once nothing is left of the table."""

    def __init__(self, text: str, check: Check) -> None:
        try:
            self.words, self.check = shlex.split(text), check
        except ValueError as error:
            raise UsageError(f"--on-truncate {text}: {error}") from None
        if not self.words:
            # (else the table's name would be run)
            raise UsageError(f"--on-truncate {text!r}: it names no command")

    def run(self, commit: Commit, relation: Relation, index: str) -> None:
        """Runs it, once all lines before were written. A Passing says that it failed."""
        table = f"{relation.namespace or 'pg_catalog'}.{relation.name}"
        sys.stdout.buffer.flush()
        if why := self.failure([*self.words, table, commit.text(), index]):
            text = f"{commit.text()} truncates {relation.text()}, and {self.words[0]} {why}: go on with --from {lsn_text(commit.prev)}"
            raise Passing(text)

    def failure(self, words: list[str]) -> str:
        """Why it failed, "" where it didn't. (What it prints isn't for who reads the lines.)"""
        try:
            child = subprocess.Popen(words, stdin=subprocess.DEVNULL, stdout=sys.stderr.fileno())
        except OSError as error:
            return f"can't be run, {error.strerror}"
        with undone_by(child.terminate):
            while child.poll() is None:
                self.check()
                time.sleep(STEP)
        return f"has ended with status {child.returncode}" if child.returncode else ""


# What has the documents of a long commit, by the index and the id; `n` rises with their changes.
ROOM = "CREATE TABLE found (n INTEGER PRIMARY KEY AUTOINCREMENT, place TEXT, id TEXT, row BLOB, UNIQUE (place, id))"
HAS = "SELECT 1 FROM found WHERE place = ? AND id = ? AND row NOT NULL"
PUT = "INSERT OR REPLACE INTO found (place, id, row) VALUES (?, ?, ?)"
# The versions are positive, and have 64 bits with a sign; an id has at most so many bytes.
MOST_VERSION, MOST_ID = (1 << 63) - 1, 512


class Documents:
    """What a commit leaves of documents, None of one that it removes, in the order of their last
    changes. Those of a long commit are in a file of SQLite's without a name."""

    def __init__(self, is_long: bool) -> None:
        self.found = dict[tuple[str, str], Row]()
        self.db = sqlite3.connect("", isolation_level=None) if is_long else None
        if self.db:
            self.db.execute(ROOM)
            self.db.execute("BEGIN")

    def put(self, index: str, row_id: str, row: Row) -> bool:
        """Notes what a change leaves of a document. Returns whether one before has left some."""
        if self.db:
            key = index, row_id
            was = self.db.execute(HAS, key).fetchone()
            text = None if row is None else json_line(row)
            self.db.execute(PUT, (*key, text))
            return was is not None
        other = self.found.pop((index, row_id), None)
        self.found[index, row_id] = row
        return other is not None

    def forget(self, index: str) -> None:
        """Forgets the documents of an index."""
        if self.db:
            self.db.execute("DELETE FROM found WHERE place = ?", (index,))
        for it in [it for it in self.found if it[0] == index]:
            del self.found[it]

    def lines(self) -> Iterator[tuple[str, str, bytes | None]]:
        if self.db:
            yield from self.db.execute("SELECT place, id, row FROM found ORDER BY n")
        for (index, row_id), row in self.found.items():
            yield index, row_id, None if row is None else json_line(row)

    def close(self) -> None:
        if self.db:
            self.db.close()


class Bulk(Objects):
    """The lines of a bulk request. `truncated` is the commit whose TRUNCATEs were made in the
    indexes already, and `command` makes them; the store knows primary keys."""

    def __init__(
        self,
        chosen: Chosen,
        truncated: int | None = None,
        store: KnownTables | None = None,
        *,
        command: Command | None = None,
        check: Check = never,
    ) -> None:
        super().__init__(chosen)
        self.truncated, self.store, self.check = truncated, store, check
        self.command = command
        self.told = log.Once()
        # by OID: the columns that name documents, and the tables left out since that is no key now
        self.keys = dict[int, list[str]]()
        self.given_up = set[int]()
        # by OID a relation of the commit, and the key that it has there
        self.found = dict[int, tuple[Relation, list[int]]]()

    def print(self, reader: Reader, commit: Commit) -> Iterator[bytes]:
        if commit.end > MOST_VERSION:
            raise Unfit(f"{commit.text()}: the LSN is above the greatest version of a document")
        self.found.clear()
        with contextlib.closing(Documents(commit.bytes > LONG)) as left:
            for it in self.chosen.events(reader.parts(commit)):
                if isinstance(it, Missed):
                    text = "a change that found no row is left out, and any later one"
                    self.told.warning("x", f"{commit.text()}: {text}")
                elif isinstance(it, Change) and it.op == "t":
                    self.truncate(commit, it.relation, left)
                elif isinstance(it, Change):
                    self.change(commit, it, left)
            for index, row_id, line in left.lines():
                about = {
                    "_index": index,
                    "_id": row_id,
                    "version": commit.end,
                    "version_type": "external",
                }
                yield json_line({"delete" if line is None else "index": about})
                if line is not None:
                    yield line

    def key(self, commit: Commit, relation: Relation) -> list[int]:
        """The columns by which a table's documents are named; none where it is left out."""
        oid = relation.oid
        if oid in self.found and self.found[oid][0] is relation:
            return self.found[oid][1]
        primary, lacks = self.primary(commit, relation)
        key = key_of(relation, primary)
        names = [relation.shape.columns[at].name for at in key]
        was, self.keys[oid] = self.keys.get(oid, names), names
        self.found[oid] = relation, [] if oid in self.given_up else key
        if was != names and relation.shape.identity in OTHER:
            text = (
                f"it has the key {', '.join(names) or 'none'}, and had {', '.join(was) or 'none'}"
            )
            self.give_up(commit, relation, text)
        elif not key:
            text = "has no key, so its rows are no documents and are left out"
            told = f"{commit.text()}: {relation.text()} {text}{lacks}"
            self.told.warning(relation.text(), told)
        return self.found[oid][1]

    def primary(self, commit: Commit, relation: Relation) -> tuple[tuple[str, ...], str]:
        """A table's primary key beside another replica identity, and what is told of none."""
        if relation.shape.identity not in OTHER:
            return (), ""
        if self.store is None:
            return (), UNKNOWN
        self.store.require(commit.end, self.check)
        self.store.wait(relation.oid, commit.end, self.check)
        known = self.store.primary(relation.oid) or ()
        lacks = lacking(known, relation)
        return ((), f": {lacks}") if lacks else (other_key(relation, known), "")

    def give_up(self, commit: Commit, relation: Relation, why: str) -> None:
        """Leaves a table out from now on: documents of others have one name with its rows."""
        if relation.oid in self.given_up:
            return
        self.given_up.add(relation.oid)
        self.found[relation.oid] = relation, []
        index = index_text(relation.namespace, relation.name)
        name = f"{relation.namespace or 'pg_catalog'}.{relation.name}"
        anew = cure(self.store.path if self.store else "", [name])
        log.warning(
            f"{commit.text()}: {relation.text()}: {why}, so documents of the index {index} may be wrong, and"
            f" the table is left out from here on. Its rows come anew by: {anew}"
        )

    def change(self, commit: Commit, it: Change, left: Documents) -> None:
        """Notes what a change leaves of the row before and the row after it."""
        relation = it.relation
        if not (key := self.key(commit, relation)):
            return
        index = index_text(relation.namespace, relation.name)
        is_sure = relation.shape.identity not in OTHER
        for cells, row in ((it.before, None), (it.after, self.row(relation, it.after))):
            if cells is not None:
                row_id = row_text(key, cells)
                if len(row_id.encode()) > MOST_ID:
                    text = f"{commit.text()}: {relation.text()} has a key of more than {MOST_ID} bytes, which no document's id has"
                    raise Unfit(text)
                # (the last line of a document is where its last change is)
                had = left.put(index, row_id, row)
                is_taken = row is not None and had
                if not is_sure and (is_taken or any(cells[at] is None for at in key)):
                    self.give_up(commit, relation, "rows have null in the key, or equal values")
                    left.forget(index)
                    return

    def truncate(self, commit: Commit, relation: Relation, left: Documents) -> None:
        index = index_text(relation.namespace, relation.name)
        key = key_of(relation, self.primary(commit, relation)[0])
        if key and self.command:
            self.command.run(commit, relation, index)
        elif key and commit.end != self.truncated:
            raise Unfit(
                f"{commit.text()} truncates {relation.text()}, which no line of a bulk request says: delete all documents of the index"
                f" {index}, and go on with --from {lsn_text(commit.prev)} --truncated {commit.text()}"
            )
        left.forget(index)
        # (none is left, whatever they were named by: its rows come anew)
        self.given_up.discard(relation.oid)
        self.keys.pop(relation.oid, None)
        self.found.pop(relation.oid, None)
