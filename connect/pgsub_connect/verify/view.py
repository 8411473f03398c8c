"""The tables of a file that follows a feed, read in one transaction, and taken back to an LSN by
the images of its feed.

They are a side of a comparison, as the module `pgsub_connect.verify.sides` has a store's file. Of
each table its rows are summed up by chunks, or the digest is taken that the file keeps; the images
of the commits above the LSN are taken off.
"""

import contextlib
import json
import os
import sqlite3
from collections.abc import Collection, Iterable, Iterator

from pgsub_feed.errors import FileError, Passing, Unfit
from pgsub_feed.interruption import Check, undone_by
from pgsub_feed.reader.commits import Head
from pgsub_feed.reader.trail import Image, Trail
from pgsub_feed.relation import Relation
from pgsub_feed.tables.digests import Digest, FieldTexts, Fields, read_digests, text_of
from pgsub_feed.tables.first_rows import EARLIER
from pgsub_feed.tables.names import POSITION, names_of
from pgsub_feed.tables.schema import FEED, RELATIONS, read_definition
from pgsub_feed.tables.set_aside import Aside, read_asides
from pgsub_feed.tables.sqlite_files import is_earlier, is_tables, opened
from pgsub_feed.tables.table import Valued
from pgsub_feed.tables.values import BOTH
from pgsub_feed.texts import identifier, parse_lsn

from ..server.catalog import Table
from .digests import Plan, Summing, Sums
from .sides import ROWS, Copied, Row


def check_tables(path: str) -> None:
    """Rejects a file without such tables."""
    if not os.path.isfile(path):
        raise FileError(f"there is no file {path}")
    if not is_tables(path):
        raise FileError(f"{path} has no tables that follow a feed")
    if is_earlier(path):
        raise FileError(f"{path}: {EARLIER}: what follows the feed makes it anew at its next start")


class View(Copied):
    """A file's tables at its LSN, `at`, until `close`; with a trail, at the trail's point."""

    def __init__(self, path: str, check: Check) -> None:
        self.path, self.check = path, check
        self.db = opened(path)
        self.trail: Trail | None = None
        with undone_by(self.db.close):
            self.db.text_factory = lambda it: it.decode(errors="surrogateescape")
            self.db.execute("BEGIN")
            self.read()

    def read(self) -> None:
        db = self.db
        self.at = parse_lsn(db.execute(f"SELECT lsn FROM {POSITION}").fetchone()[0])
        self.folder, *source, chosen = db.execute(
            f"SELECT folder, system, database, slot, chosen FROM {FEED}"
        ).fetchone()
        # what it is a feed of, None where nothing was taken of it yet
        self.source = Head(0, *source) if source[0] is not None else None
        self.chosen = set(json.loads(chosen))
        self.digests: dict[int, Digest] = read_digests(db)
        # those whose digest isn't that of their rows
        self.wrong: list[Relation] = []
        self.left_out = set[int]()
        # those that are set aside, and what of them was looked for
        self.asides: dict[int, Aside] = read_asides(db)
        self.lacks: list[Aside] = []
        self.tables: dict[int, Valued] = {}
        for oid, name, text in db.execute(f"SELECT * FROM {RELATIONS}").fetchall():
            if name is None:
                self.left_out |= {oid} - self.asides.keys()
            else:
                self.tables[oid] = Valued(name, *read_definition(text))
        self.relations = {oid: it.relation for oid, it in self.tables.items()}
        self.counts = {oid: self.count(it) for oid, it in self.tables.items()}

    def go_back(self, trail: Trail) -> None:
        """Has the tables as of the trail's point from here on."""
        self.trail = trail

    def without_asides(self, tables: list[Table]) -> list[Table]:
        """The tables without those that are set aside, which the file lacks."""
        self.lacks += [self.asides[it.oid] for it in tables if it.oid in self.asides]
        return [it for it in tables if it.oid not in self.asides]

    def count(self, table: Valued) -> int:
        return int(self.db.execute(f"SELECT count(*) FROM {identifier(table.name)}").fetchone()[0])

    def is_chosen(self, table: Table) -> bool:
        """Whether the file has a table's rows, or would have them."""
        if table.oid in self.tables:
            return True
        names = names_of(table.namespace, table.name)
        return table.oid not in self.left_out and (not self.chosen or bool(self.chosen & names))

    def fields(self, plan: Plan) -> Fields | None:
        """What makes the fields of a table's rows, None where it isn't here."""
        valued = self.tables.get(plan.table.oid)
        if valued and (lost := valued.target.inexact()):
            raise Unfit(
                f"{valued.relation.text()}: by --numeric real {self.path} hasn't the exact values of"
                f" {', '.join(it.name for it in lost)}, so they can't be compared: choose other tables"
            )
        return Fields(valued) if valued else None

    def texts(self, plan: Plan) -> Iterator[FieldTexts]:
        """The fields of a table's rows at the LSN of the file."""
        if fields := self.fields(plan):
            rows = self.db.execute(fields.query)
            while several := rows.fetchmany(ROWS):
                self.check()
                yield from map(fields.of_row, several)

    def sums(self, plans: Iterable[Plan]) -> dict[int, Sums]:
        found = {it.table.oid: Summing(it) for it in plans}
        for oid, summing in found.items():
            for fields in self.texts(summing.plan):
                summing.add_fields(fields, 1)
            kept = self.digests.get(oid) if oid in self.relations else None
            sums = summing.sums
            if kept not in (None, (sums.total(), sum(sums.first), sum(sums.second))):
                self.wrong.append(self.relations[oid])
        self.take_back(found)
        return {oid: it.sums for oid, it in found.items()}

    def digested(self, plans: Iterable[Plan]) -> dict[int, Sums]:
        """By the digests that the file keeps, or else by the rows."""
        found, read = dict[int, Summing](), list[Plan]()
        for plan in plans:
            digest = self.digests.get(plan.table.oid)
            if digest is None:
                read.append(plan)
            else:
                found[plan.table.oid] = Summing(plan)
                found[plan.table.oid].sums.set(0, *digest)
        self.take_back(found)
        return {**{oid: it.sums for oid, it in found.items()}, **self.sums(read)}

    def take_back(self, found: dict[int, Summing]) -> None:
        for image, fields in self.images([it.plan for it in found.values()]):
            found[image.relation.oid].add_fields(fields, image.sign)

    def images(self, plans: Collection[Plan]) -> Iterator[tuple[Image, FieldTexts]]:
        """The images that take these tables back, with their fields."""
        if self.trail is None:
            return
        by_oid = {it.table.oid: it for it in plans}
        valued = dict[int, Fields]()
        for image in self.trail.images(self.at, by_oid.keys()):
            self.check()
            relation, oid = image.relation, image.relation.oid
            if oid not in valued or valued[oid].valued.relation is not relation:
                columns = [it[:3] for it in by_oid[oid].table.columns]
                if [it[:3] for it in relation.shape.columns] != columns:
                    raise Passing(f"{relation.text()} was altered meanwhile: compare again")
                form = self.tables[oid].target.form if oid in self.tables else BOTH
                valued[oid] = Fields(Valued("", relation, form))
            yield image, valued[oid].of_cells(image.cells)

    def rows(self, plan: Plan, chunks: list[int]) -> Iterator[Row]:
        wanted = set(chunks)

        def found() -> Iterator[Row]:
            there = ((fields, 1) for fields in self.texts(plan))
            back = ((fields, image.sign) for image, fields in self.images([plan]))
            for some in (there, back):
                for fields, copies in some:
                    text = text_of(fields)
                    key = plan.key_text(fields, text)
                    if plan.chunk_of(key) in wanted:
                        yield key, text, copies

        # (what is large is on the disk)
        with contextlib.closing(sqlite3.connect("", isolation_level=None)) as room:
            room.execute("CREATE TABLE found (key BLOB, text BLOB, copies INTEGER)")
            room.execute("BEGIN")
            room.executemany("INSERT INTO found VALUES (?, ?, ?)", found())
            yield from room.execute(
                "SELECT key, text, sum(copies) FROM found GROUP BY key, text HAVING sum(copies) <> 0 ORDER BY key, text"
            )

    def close(self) -> None:
        self.db.close()
