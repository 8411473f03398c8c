"""A new file of tables: empty, with the rows of an export, or a copy of another such file."""

import contextlib
import json
import os
import sqlite3
import time
from collections.abc import Iterable, Iterator

from .. import log
from ..errors import FileError, Passing, Unfit
from ..files import copy, own_name, placed, remove
from ..interruption import Check, never, undone_by
from ..known_tables import KnownTables
from ..log import Meter
from ..ownership import real
from ..reader.base import BaseFiles, base_of_feed
from ..reader.commits import Head
from ..reader.folder import Noted, read_confirmed, segments
from ..reader.following import Reading
from ..reader.polling import Poll
from ..reader.segments import Reader
from ..reader.whole import Sections
from ..texts import identifier, lsn_text, parse_lsn
from .applier import Applier
from .file import Rows
from .names import POSITION, TABLES, names_of
from .schema import FEED, FORMS, MORE, RELATIONS, SCHEMA, path_bytes, read_definition
from .sqlite_files import end_log, is_earlier, is_export, is_tables, opened
from .values import ALL_TEXT

# What is told of a file of an earlier version.
EARLIER = "an earlier version has made it, whose numerics are texts"
# For how many seconds a feed's first segment is waited for until that is told.
UNTOLD = 5.0


def check_file(path: str) -> None:
    """Rejects a file that can't be made, or is there and isn't one of tables that follow a feed."""
    folder = os.path.dirname(real(path))
    if not os.path.isdir(folder):
        raise FileError(f"--into {path}: there is no folder {folder}")
    if os.path.lexists(path) and not (os.path.isfile(path) and is_tables(path)):
        text = f"{path} is there and has no tables that follow a feed: name another file"
        raise FileError(text)


@contextlib.contextmanager
def keeping(reading: Reading) -> Iterator[None]:
    """Keeps the segments that a new reader with a name needs, while its first rows are made. Where
    that fails its name goes again."""
    bases = [base for base, _ in segments(reading.feed)] if reading.name else []
    if not reading.name or not bases:
        yield
        return
    at, noted = begins_at(reading), Noted(reading.feed, reading.name, None, reading.mode)
    # (the rows may be taken back from there)
    at = at if reading.until is None else min(at, reading.until)
    was_there = os.path.exists(noted.path)
    noted.note(max((it for it in bases if it <= at), default=bases[0]), is_last=True)
    with undone_by(never if was_there else lambda: remove(noted.path)):
        yield


def begins_at(reading: Reading) -> int:
    """An LSN that a new reader's first rows aren't below, 0 where none is known."""
    if reading.base:
        with contextlib.suppress(OSError, sqlite3.Error, TypeError, ValueError), contextlib.closing(
            opened(reading.base)
        ) as db:
            return parse_lsn(db.execute(f"SELECT lsn FROM {POSITION}").fetchone()[0])
        return 0
    # (the copy that a follower makes has all that is confirmed)
    is_followed = reading.store is not None and reading.store.is_followed()
    return read_confirmed(reading.feed) or 0 if is_followed else 0


def make(
    into: str, reading: Reading, form: str, check: Check, keys: KnownTables | None = None
) -> None:
    """Makes the file. `form`: how numerics are kept; `keys` knows primary keys."""
    if reading.base:
        make_from(reading.base, into, reading, form, check)
    elif reading.store:
        base = own_name(into + ".base")
        try:
            reading.store.export(base, form, (), check)
            make_from(base, into, reading, form, check)
        finally:
            remove(base)
    else:
        files = first_rows_of(reading, check)
        with placed(into, reading.mode, check) as new:
            with contextlib.closing(sqlite3.connect(new, isolation_level=None)) as db:
                prepare(db, os.path.abspath(reading.feed), reading.chosen, False)
            if files:
                fill(new, files, form, check, keys)


def fill(new: str, files: BaseFiles, form: str, check: Check, keys: KnownTables | None) -> None:
    """Fills a new file with the rows beside a feed, in one transaction."""
    rows, sections, is_orderly = Rows(new, None, keys, form), Sections(files), False
    try:
        applier = Applier(rows, check)
        rows.begin()
        meter, total = Meter("making the tables"), files.count()
        meter.note(0, total)
        while commit := sections.next():
            applier.apply(commit, sections.inserts())
            meter.note(sections.n + commit.changes, total)
        applier.finish()
        rows.settle(files.lsn)
        is_orderly = True
    finally:
        rows.close(is_orderly)
    end_log(new)


def make_from(base: str, into: str, reading: Reading, form: str, check: Check) -> None:
    """Makes the file with the rows of another one."""
    folder = os.path.abspath(reading.feed)
    if not (os.path.isfile(base) and (is_export(base) or is_tables(base))):
        raise FileError(f"--base {base}: it is no export, nor a file of tables that follow a feed")
    check_base(base, form)
    with placed(into, reading.mode, check) as new:
        if is_tables(base):
            clone(base, new)
            return
        remove(new)
        copy(base, new, 0o600, check)
        with contextlib.closing(sqlite3.connect(new, isolation_level=None)) as db:
            prepare(db, folder, reading.chosen, True)


def check_base(base: str, form: str) -> None:
    """Rejects a file whose values are kept in another form."""
    if is_earlier(base):
        raise FileError(f"--base {base}: {EARLIER}: make it anew")
    with contextlib.closing(opened(base)) as db:
        for (text,) in db.execute(f"SELECT definition FROM {RELATIONS} WHERE name NOT NULL"):
            if (has := read_definition(text)[1]) != form:
                told = "its values are texts, by --text" if has == ALL_TEXT else FORMS % (has, form)
                raise Unfit(f"--base {base}: {told}: make another one")


def prepare(db: sqlite3.Connection, folder: str, chosen: Iterable[str], is_base: bool) -> None:
    """Makes a new file, or an export, one that follows a feed."""
    db.execute("BEGIN IMMEDIATE")
    for statement in (() if is_base else SCHEMA) + MORE:
        db.execute(statement)
    names = sorted(set(chosen))
    feed = f"INSERT INTO {FEED} VALUES (CAST(? AS TEXT), NULL, NULL, NULL, ?)"
    db.execute(feed, (path_bytes(folder), json.dumps(names)))
    for name, schema, table, oid in db.execute(f"SELECT * FROM {TABLES}").fetchall():
        if names and not set(names) & names_of(schema, table):
            db.execute(f"DROP TABLE {identifier(name)}")
            db.execute(f"DELETE FROM {TABLES} WHERE oid = ?", (oid,))
            nothing = "name = NULL, definition = NULL"
            db.execute(f"UPDATE {RELATIONS} SET {nothing} WHERE oid = ?", (oid,))
    db.execute("COMMIT")


def clone(base: str, new: str) -> None:
    """Copies a file that may be in use."""
    with contextlib.closing(opened(base)) as source, contextlib.closing(
        sqlite3.connect(new, isolation_level=None)
    ) as db:
        source.backup(db)
        db.execute("PRAGMA journal_mode = DELETE")


def head_of(reading: Reading, check: Check) -> Head:
    """The head of the feed's first segment, which is waited for where it follows."""
    with contextlib.closing(Reader(reading.feed)) as reader:
        poll = Poll(reader, reading.follows, check)
        tells_from = time.monotonic() + UNTOLD
        while poll.next() is None and reader.head is None and reading.follows:
            if time.monotonic() > tells_from:
                tells_from = float("inf")
                why = "as before a follower's first copy is done: it is waited for"
                log.info(f"{reading.feed} has no segment yet, {why}")
            poll.rest()
        if reader.head is None:
            text = f"{reading.feed}: the feed has no segment yet: is it the --feed of a follower?"
            raise Passing(text)
        return reader.head


def first_rows_of(reading: Reading, check: Check) -> BaseFiles | None:
    """The rows beside the feed, None where it begins with an empty copy. An Unfit says that rows
    from before its first segment are missing."""
    head = head_of(reading, check)
    if found := base_of_feed(reading.feed, [head.base], head):
        return found
    if base := head.base:
        raise Unfit(
            f"{reading.feed}: the feed begins at {lsn_text(base)}, and there may be rows from before: name the store"
            " by --store, or an export since then by --base"
        )
    return None
