"""`pgsub-connect tables`: tables of SQLite that follow a feed, each commit with its LSN."""

import argparse
import dataclasses
import os
import sqlite3

from pgsub_feed import log
from pgsub_feed.errors import UsageError
from pgsub_feed.interruption import Check
from pgsub_feed.known_tables import known_beside
from pgsub_feed.options import add_fields, file, flag, lsn, option
from pgsub_feed.program import collected_rarely
from pgsub_feed.tables.first_rows import check_file
from pgsub_feed.tables.following import Wanted, keep
from pgsub_feed.tables.set_aside import cure, store_at
from pgsub_feed.tables.sqlite_files import check_sqlite, failed
from pgsub_feed.texts import lsn_text

from ..server.publication_setup import names_of
from .arguments import following
from .arguments.words import FED, check_files, check_texts, each, use_mode

ABOUT = """\
keep ordinary tables of SQLite that follow a feed

FILE gets one table for each published table, and keeps the LSN of the last commit whose changes are in it. Any SQLite from 3.37 on may
read it meanwhile, and sees whole commits. It is gone on with where it is there; a new one begins with the feed's first rows, or those
of an export.
"""
ENDS = FED
# The exit status where tables are set aside.
LEFT = 1


@dataclasses.dataclass(frozen=True)
class Options(following.FollowingOptions):
    """Which feed is followed, into which file, and up to where."""

    into: str = file("the file with the tables", "", required=True)
    init: str | None = file(
        "run this SQL once a table was made or altered, for indexes and views: CREATE INDEX IF NOT EXISTS .."
    )
    digests: bool = flag(
        "keep a digest of each table, for `verify`; a file that has them keeps them"
    )
    numeric: str = following.numeric_option()
    indexes: bool = flag(f"with {following.INDEXES}; it needs the store of the feed")
    at: int | None = option(
        "the tables as of this LSN: end before the first commit above it, or go back to there",
        type=lsn,
    )

    def wanted(self) -> Wanted:
        """What is kept, and the rows that it begins with."""
        reading = self.reading(self.table, self.at)
        known = known_beside(self.feed, self.store)
        if self.indexes and not known:
            raise UsageError("--indexes needs the store of the feed: name it by --store")
        more = known, self.numeric, self.indexes
        return Wanted(self.into, reading, self.init, self.digests, *more)


def add_options(parser: argparse.ArgumentParser) -> None:
    add_fields(parser.add_argument, Options)
    base = "or file of tables, where the file isn't there yet"
    following.add_following(parser, base, "the disk", "in the file")


def check_options(parser: argparse.ArgumentParser, options: Options) -> Options:
    """The tables as of an LSN end there."""
    following.check_numeric(parser, options.numeric, options.digests)
    return dataclasses.replace(options, once=options.once or options.at is not None)


def settled(options: Options) -> Options:
    files = {"--init": options.init, "--base": options.base}
    check_files(options.store, {"--into": options.into}, files)
    check_texts(each("--table", options.table))
    use_mode(options.mode)
    return options


@collected_rarely()
def run(options: Options, check: Check) -> int:
    parent = options.parent(check)
    check = parent.check if parent else check
    check_sqlite()
    check_file(options.into)
    try:
        at, left = keep(options.wanted(), check, parent)
    except sqlite3.Error as error:
        raise failed(error, options.into) from None
    log.info(f"{options.into}: the rows at {lsn_text(at)}")
    if left and options.once:
        anew = cure(store_at(os.path.abspath(options.feed)), left)
        log.error(
            f"{options.into} lacks {names_of(left)}, set aside as told above. Their rows come anew by: {anew}"
        )
        return LEFT
    return 0
