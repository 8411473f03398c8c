"""The rows with which a sink begins: an export's texts, those beside the feed, or none."""

import contextlib
import dataclasses
import itertools
import os
import sqlite3
from collections.abc import Iterable, Iterator

from ..errors import FileError
from ..files import own_name, remove
from ..interruption import Check
from ..log import Meter
from ..reader.base import BaseFiles, Section, Span
from ..reader.commits import BASE, Cells, Change
from ..reader.following import Chosen, Reading
from ..relation import Relation, Shape
from ..tables.first_rows import EARLIER, first_rows_of
from ..tables.names import POSITION
from ..tables.schema import RELATIONS, read_definition
from ..tables.sqlite_files import is_earlier, is_export, opened
from ..tables.values import ALL_TEXT
from ..texts import identifier, parse_lsn

# After how many rows it is noted how far it is.
NOTED = 1000


class Base:
    """No rows, those before the first commit of a feed."""

    lsn = 0

    def tables(self) -> list[Relation]:
        return []

    def rows(self, relation: Relation) -> Iterator[Cells]:
        """The rows of one of the tables."""
        raise NotImplementedError


class OfFeed(Base):
    """Those beside the feed."""

    def __init__(self, files: BaseFiles, chosen: tuple[str, ...], check: Check) -> None:
        self.files, self.chosen, self.lsn = files, Chosen(chosen), files.lsn
        # by OID where rows of a table are
        self.parts = dict[int, list[tuple[Relation, Span]]]()
        for relation, span in files.spans(check):
            self.parts.setdefault(relation.oid, []).append((relation, span))

    def tables(self) -> list[Relation]:
        found = [parts[-1][0] for parts in self.parts.values()]
        return [it for it in found if self.chosen(it)]

    def rows(self, relation: Relation) -> Iterator[Cells]:
        meter = Meter(f"writing {relation.text()}")
        spans = self.parts[relation.oid]
        rows = (row for told, span in spans for row in self.files.rows(told, span))
        for done, row in enumerate(rows):
            if done % NOTED == 0:
                meter.note(done)
            yield row


def numbered(base: Base, relations: Iterable[Relation], first: int = 0) -> Iterator[Change]:
    """The rows of some of its tables as changes, numbered from that on."""
    rows = ((relation, row) for relation in relations for row in base.rows(relation))
    for n, (relation, row) in enumerate(rows, first):
        yield Change(BASE, relation, n, None, row)


class Exported(Base):
    """Those of an export."""

    def __init__(self, db: sqlite3.Connection, path: str, chosen: tuple[str, ...]) -> None:
        self.db, self.path, self.chosen = db, path, Chosen(chosen)
        self.lsn = parse_lsn(db.execute(f"SELECT lsn FROM {POSITION}").fetchone()[0])
        self.names = dict[int, str]()

    def tables(self) -> list[Relation]:
        return [with_key(it, primary) if primary else it for it, primary in self.told()]

    def told(self) -> list[tuple[Relation, tuple[str, ...]]]:
        """The tables as messages told them, with primary keys beside other replica identities."""
        found = []
        for name, text in self.db.execute(
            f"SELECT name, definition FROM {RELATIONS} ORDER BY oid"
        ).fetchall():
            relation, form, primary = read_definition(text)
            if self.chosen(relation):
                if form != ALL_TEXT:
                    raise FileError(
                        f"--base {self.path}: its values aren't as the server prints them: make it by `pgsub-connect export --text`"
                    )
                self.names[relation.oid] = name
                found.append((relation, primary))
        return found

    def sections(self) -> Iterator[Section]:
        """All rows, some at a time, each table in at least one part."""
        for relation, _ in self.told():
            rows = self.rows(relation)
            some = list(itertools.islice(rows, NOTED))
            yield Section(relation, some)
            while some := list(itertools.islice(rows, NOTED)):
                yield Section(relation, some)

    def rows(self, relation: Relation) -> Iterator[Cells]:
        name, meter = identifier(self.names[relation.oid]), Meter(f"writing {relation.text()}")
        total = self.db.execute(f"SELECT count(*) FROM {name}").fetchone()[0]
        for done, row in enumerate(self.db.execute(f"SELECT * FROM {name} ORDER BY rowid")):
            if done % NOTED == 0:
                meter.note(done, total)
            # (one without columns has one there)
            yield list(row) if relation.shape.columns else []


def with_key(relation: Relation, primary: tuple[str, ...]) -> Relation:
    """A relation whose primary key tells its rows apart."""
    columns = tuple(it._replace(key=it.name in primary) for it in relation.shape.columns)
    return dataclasses.replace(relation, shape=Shape("d", columns))


@contextlib.contextmanager
def base_of(reading: Reading, check: Check) -> Iterator[Base]:
    """What a sink begins with: an export that is named or asked for, the rows beside its feed, or
    nothing, where that is what the feed begins with."""
    if reading.base:
        with exported(reading.base, reading.chosen) as found:
            yield found
    elif reading.store:
        path = own_name(reading.store.path + ".base")
        try:
            reading.store.export(path, ALL_TEXT, reading.chosen, check)
            with exported(path, reading.chosen) as found:
                yield found
        finally:
            remove(path)
    elif files := first_rows_of(reading, check):
        yield OfFeed(files, reading.chosen, check)
    else:
        yield Base()


@contextlib.contextmanager
def exported(path: str, chosen: tuple[str, ...]) -> Iterator[Exported]:
    if not (os.path.isfile(path) and is_export(path)):
        raise FileError(f"--base {path}: it is no export")
    if is_earlier(path):
        raise FileError(f"--base {path}: {EARLIER}: make it anew")
    with contextlib.closing(opened(path)) as db:
        yield Exported(db, path, chosen)
