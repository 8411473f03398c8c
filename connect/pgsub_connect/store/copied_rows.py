"""A new file of tables from the rows of an initial copy, by a process that gets them while they are
read: without it the tables would be made from the store once that is complete.

It gets the rows that the program gets, too, in the frames of `store.row_frames`. Without their end
nothing is left of the file.
"""

import contextlib
import json
import os
import sqlite3
import sys
from collections.abc import Callable, Iterator
from typing import BinaryIO

from pgsub_feed import log
from pgsub_feed.errors import Failure, Passing, Stopped
from pgsub_feed.files import placed
from pgsub_feed.interruption import Check
from pgsub_feed.program import check_signals, collected_rarely, guarded
from pgsub_feed.tables.first_rows import prepare
from pgsub_feed.tables.sqlite_files import check_sqlite
from pgsub_feed.tables.values import Malformed

from ..drift.remembered import Remembered
from ..server.copied_text import tuples
from .export import Export, ExportSettings
from .row_frames import DONE, HEAD, TablesWanted

# How much is read at once, in bytes.
READ = 1 << 20


def rows_of(source: BinaryIO) -> Iterator[tuple[int, bytes, int]]:
    """The rows, each once, with the OIDs of their tables."""
    while len(head := source.read(len(DONE))) == len(DONE) and head != DONE:
        size = int.from_bytes(head[1:], "big") - 4
        if len(frame := head + source.read(size)) != len(head) + size:
            break
        _, _, oid, width = HEAD.unpack_from(frame)
        for row in tuples(frame[HEAD.size :], width):
            yield oid, row, 1
    if head != DONE:
        raise Stopped


def fill(wanted: TablesWanted, source: BinaryIO, check: Check) -> None:
    """Makes the file. Once it is begun, whatever is remembered of tables later makes no difference."""
    check_sqlite()
    remembered = Remembered(wanted.store)
    with placed(wanted.into, wanted.mode) as new, contextlib.closing(
        sqlite3.connect(new, isolation_level=None)
    ) as db:
        settings = ExportSettings(wanted.store, wanted.into, wanted.form)
        export = Export(db, settings, check, lambda rows: None)
        export.run(remembered, wanted.point, {}, rows_of(source))
        prepare(db, os.path.abspath(wanted.feed), (), True)


def filled(wanted: TablesWanted, source: BinaryIO, check: Check) -> int:
    """Makes the file; the exit status."""
    lacks = f"{wanted.into} can't be made while rows are copied"
    return attempted(lambda: fill(wanted, source, check), lacks)


def attempted(make: Callable[[], None], lacks: str) -> int:
    """Makes something of rows, or tells why it isn't there; the exit status."""
    try:
        make()
        return 0
    except Stopped:
        return Passing.STATUS
    except (Failure, Malformed, OSError, UnicodeDecodeError, sqlite3.Error) as error:
        why = "a row isn't one of its table" if isinstance(error, Malformed) else error
        log.warning(f"{lacks}: {why}")
        return Passing.STATUS


def run() -> None:
    wanted, check = TablesWanted(*json.loads(sys.argv[1])), check_signals()
    with open(0, "rb", buffering=READ) as source, collected_rarely():
        sys.exit(guarded(lambda: filled(wanted, source, check)))
