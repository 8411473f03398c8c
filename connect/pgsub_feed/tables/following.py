"""A file of tables that follows a feed: made, or gone on with; and taken back to an LSN, by the
rows that its feed has from before each change.

What the feed doesn't have can't be had again: rows that a truncation took, and the values of
columns that were dropped or whose type is another one since.
"""

import contextlib
import dataclasses
import os
from collections.abc import Iterable, Iterator

from .. import log
from ..errors import Passing, Stopped, Unfit
from ..files import OF_FILE, meant, own_name, remove, remove_files, sync_folder
from ..interruption import Check
from ..known_tables import KnownTables
from ..reader.base import base_of_feed
from ..reader.blocks import parts_backwards
from ..reader.commits import Change, Commit, Cursor, Message, Missed, Part, TableLine
from ..reader.folder import Noted, segments
from ..reader.following import Following, Read, Reading
from ..reader.polling import Parent, Poll
from ..reader.segments import Reader
from ..relation import Relation
from ..texts import identifier, lsn_text
from .applier import Applier
from .digests import has_digests
from .file import Rows
from .first_rows import EARLIER, begins_at, keeping, make
from .indexes import Indexes
from .reshape import is_alike, sources
from .set_aside import shown_asides
from .sqlite_files import end_log, is_earlier, opened
from .table import Valued
from .user_sql import Init
from .values import BOTH, NUMERIC


class Lost(Unfit):
    """The feed can't have it again."""


@dataclasses.dataclass
class Way:
    """What lies between an LSN and that of a file: the commits, and by OID what was told of
    relations up to there, the latest last."""

    at: int
    # whether the feed begins with an empty copy
    is_whole: bool
    commits: list[tuple[Cursor, Commit]] = dataclasses.field(default_factory=list)
    told: dict[int, Relation] = dataclasses.field(default_factory=dict)

    def note(self, parts: Iterable[Part]) -> None:
        """Notes what a commit tells of relations, by definitions or by rows of another one."""
        last: Relation | None = None
        for part in parts:
            if isinstance(part, (Message, Missed)):
                continue
            if part.relation is not last:
                last = part.relation
                self.told.pop(last.oid, None)
                self.told[last.oid] = last


def look(reader: Reader, rows: Rows, at: int, check: Check) -> Way:
    """Looks for the way from a file back to an LSN."""
    first = segments(reader.folder)[:1]
    if not first or first[0][0] > at:
        text = f"{reader.folder}: the feed doesn't have the commits after {lsn_text(at)}: begin from an export before it"
        raise Unfit(text)
    way, end = Way(first[0][0], first[0][0] == 0), 0
    for commit in Poll(reader, False, check).commits():
        check()
        if commit.end > rows.at:
            break
        end = commit.end
        if commit.end > at:
            way.commits.append((reader.before(commit), commit))
            continue
        way.at = commit.end
        way.note(reader.parts(commit))
    if end != rows.at:
        raise Unfit(f"{reader.folder}: no commit ends at {lsn_text(rows.at)}, where {rows.path} is")
    return way


def walk(folder: str, rows: Rows, at: int, check: Check) -> None:
    """Takes a file back, in one transaction."""
    reader = Reader(folder)
    try:
        way = look(reader, rows, at, check)
        if reader.head:
            rows.check_source(reader.head)
        rows.begin()
        applier = Applier(rows, check)
        for cursor, commit in reversed(way.commits):
            reader.go_to(cursor)
            if reader.next() != commit:
                raise Unfit(f"{folder}: the commit that ends at {commit.text()} is gone meanwhile")
            applier.apply(commit, turned(rows, commit, parts_backwards(reader, commit)))
        settle(rows, way)
    except Lost as lost:
        raise Lost(f"{lost}. {forward(way, at)}") from lost
    finally:
        reader.close()


def forward(way: Way, at: int) -> str:
    """How the tables are had without going back."""
    earlier = f"with --base, an export or tables of {lsn_text(at)} or before"
    base = "without --base" if way.is_whole else earlier
    return f"Go forward to there: make a new file by --into, {base}"


def turned(rows: Rows, commit: Commit, parts: Iterable[Part]) -> Iterator[Part]:
    """What takes a commit back, whose parts come last one first: its changes turned round."""
    described: dict[int, Relation] = {}
    for part in parts:
        if isinstance(part, (Message, TableLine)):
            continue
        relation = part.relation
        if described.get(relation.oid) != relation:
            described[relation.oid] = relation
            check_shape(rows, relation)
            yield TableLine(relation)
        if not isinstance(part, Missed) and (change := turned_change(rows, commit, part)):
            yield change


def turned_change(rows: Rows, commit: Commit, it: Change) -> Change | None:
    if it.op == "t":
        if rows.is_chosen(it.relation):
            text = f"{commit.text()} truncates {it.relation.text()}, and the feed doesn't have the rows that were in it"
            raise Lost(text)
        return None
    op = {"c": "d", "d": "c", "u": "u"}[it.op]
    return Change(op, it.relation, it.n, it.after, it.before)


def check_shape(rows: Rows, relation: Relation) -> None:
    """Rejects a shape from before that has values which the rows haven't any more."""
    kept = rows.kept.get(relation.oid)
    if kept is None or kept.relation == relation or not rows.is_chosen(relation):
        return
    was = Valued(kept.name, relation, rows.form)
    pairs = zip(sources(kept, was), was.target.relation.shape.columns, strict=True)
    for place, (at, column) in enumerate(pairs):
        # (the text of a numeric has all of it)
        is_lost = at is None or not (
            is_alike(kept, was, [place])
            or column.type_oid == NUMERIC
            and kept.target.types(at) == ["REAL", "TEXT"]
        )
        query = f"SELECT EXISTS (SELECT 1 FROM {identifier(kept.name)})"
        if is_lost and rows.db.execute(query).fetchone()[0]:
            text = f"{relation.text()}: the column {column.name} was dropped or altered since, and its values are lost"
            raise Lost(text)


def settle(rows: Rows, way: Way) -> None:
    """Gives the tables the shapes and names that they had, and ends the transaction."""
    for relation in way.told.values():
        check_shape(rows, relation)
        rows.describe(relation, way.at)
    if way.is_whole:
        for kept in [it for oid, it in rows.kept.items() if oid not in way.told]:
            rows.drop(kept)
    rows.initialize()
    rows.settle(way.at)


# How many changes one transaction takes where more commits are there.
MOST = 20000


@dataclasses.dataclass(frozen=True)
class Wanted:
    """The file that is wanted, with a user's SQL and digests. `keys` knows primary keys, and
    indexes, made where they are wanted; `form`: how numerics are kept."""

    into: str
    reading: Reading
    init: str | None = None
    has_digests: bool = False
    keys: KnownTables | None = None
    form: str = BOTH
    has_indexes: bool = False


class Tables:
    """Keeps commits in the tables of an open file, several in one transaction."""

    def __init__(self, rows: Rows, check: Check) -> None:
        self.rows, self.check, self.applier = rows, check, Applier(rows, check, joins=True)
        # of the open transaction: how many changes it has, and where its last commit ends
        self.changes, self.end = 0, rows.at
        self.has_told = False

    @property
    def at(self) -> int:
        return self.rows.at

    def take(self, commit: Commit, read: Read) -> None:
        if not self.rows.db.in_transaction:
            self.changes = 0
            self.rows.begin()
            self.applier.forget()
        self.applier.apply(commit, read())
        self.changes += commit.changes + 1
        self.end = commit.end
        if self.changes >= MOST:
            self.settle()

    def settle(self) -> None:
        if self.rows.db.in_transaction:
            self.applier.finish()
        self.rows.settle(self.end)

    def forget(self) -> None:
        self.rows.roll_back()
        self.applier.forget()
        self.end = self.rows.at

    def look(self) -> None:
        """Has the indexes that the server has by now. (Nobody else writes the file.)"""
        self.tell_unseen()
        if self.rows.indexes and self.rows.indexes.has_news():
            self.rows.begin()
            self.rows.make_indexes()
            self.rows.settle(self.rows.at)

    def tell_unseen(self) -> None:
        """Warns once of names that no table has, as misspelt ones."""
        for name in [] if self.has_told else self.rows.unseen():
            log.warning(f"--table {name}: the feed has told of no such table so far")
        self.has_told = True

    def safe(self) -> int:
        """(`Noted` has the disk have the file's log.)"""
        return self.rows.at


def keep(wanted: Wanted, check: Check, parent: Parent | None = None) -> tuple[int, list[str]]:
    """Keeps the tables of a file. Returns its LSN at the end, and the tables that are set aside.

    A file that can't be taken back to an LSN is made anew, where there are first rows from which
    the feed leads there."""
    try:
        return keep_file(wanted, check, parent)
    except Lost as lost:
        if not leads_there(wanted.reading):
            raise
        log.info(f"{wanted.into} is made anew: {lost.__cause__}")
    return keep_anew(wanted, check, parent)


def leads_there(reading: Reading) -> bool:
    """Whether there are first rows, named or beside the feed, of that LSN or before."""
    if reading.until is None or reading.store:
        return False
    if reading.base:
        return begins_at(reading) <= reading.until
    files = base_of_feed(reading.feed, [base for base, _ in segments(reading.feed)], None)
    return files is not None and files.lsn <= reading.until


def keep_anew(wanted: Wanted, check: Check, parent: Parent | None) -> tuple[int, list[str]]:
    """The same with a new file, which replaces the one that is there once it is complete."""
    into = meant(wanted.into)
    new = own_name(into)
    with contextlib.closing(opened(into)) as db:
        has = wanted.has_digests or has_digests(db)
    try:
        done = keep_file(dataclasses.replace(wanted, into=new, has_digests=has), check, parent)
        end_log(new)
        for suffix in OF_FILE[1:]:
            remove(into + suffix)
        os.replace(new, into)
        sync_folder(into)
        return done
    finally:
        remove_files(new)


def keep_file(wanted: Wanted, check: Check, parent: Parent | None) -> tuple[int, list[str]]:
    """The same of the file that is there, or isn't yet."""
    reading = wanted.reading
    init = Init(wanted.init) if wanted.init else None
    is_there = os.path.exists(wanted.into)
    if is_there and is_earlier(wanted.into):
        log.warning(f"{wanted.into}: {EARLIER}: it is made anew")
        is_there = False
    if not is_there:
        with keeping(reading):
            make(wanted.into, reading, wanted.form, check, wanted.keys)
    indexes = Indexes(wanted.keys) if wanted.keys and wanted.has_indexes else None
    rows, is_orderly = Rows(wanted.into, init, wanted.keys, wanted.form, indexes), False
    try:
        prepare(rows, wanted, check)
        is_stopped = follow(rows, wanted, check, parent)
        is_orderly = True
        if is_stopped and not reading.follows:
            raise Passing(f"ended before {wanted.into} had all of it")
        left = [it.name() for it in shown_asides(rows.db).values()]
    finally:
        rows.close(is_orderly)
    return rows.at, left


def prepare(rows: Rows, wanted: Wanted, check: Check) -> None:
    """Has a file be what is wanted, and no further than that."""
    reading, folder = wanted.reading, os.path.abspath(wanted.reading.feed)
    check_chosen(rows, reading.chosen)
    rows.note_folder(folder)
    if wanted.has_digests and not rows.digests:
        rows.keep_digests()
    if reading.until is not None and rows.at > reading.until:
        walk(reading.feed, rows, reading.until, check)
    if rows.init or rows.indexes:
        rows.run_init()
    rows.asides.tell(folder)


def follow(rows: Rows, wanted: Wanted, check: Check, parent: Parent | None = None) -> bool:
    """Follows a feed to the end. Returns whether a signal was that."""
    reading = wanted.reading
    noted = Noted(reading.feed, reading.name, wanted.into, reading.mode) if reading.name else None
    tables = Tables(rows, check)
    following = Following(reading, tables, check, noted, rows.check_source, parent)
    if reading.follows:
        log.info(f"{wanted.into} follows {reading.feed} from {lsn_text(rows.at)}")
    is_stopped = False
    try:
        following.follow()
        tables.tell_unseen()
    except Stopped:
        is_stopped = True
    following.finish()
    return is_stopped


def check_chosen(rows: Rows, chosen: tuple[str, ...]) -> None:
    if set(chosen) != rows.chosen:
        was = ", ".join(sorted(rows.chosen)) or "all"
        raise Unfit(f"{rows.path} was made for these tables: {was}. For others make another file")
