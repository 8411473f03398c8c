"""`pgsub-connect verify`: compares the copy of a running follower with its server, or tables that
follow a feed with the server or another such file."""

import argparse
import dataclasses
import sqlite3
from collections.abc import Sequence

from pgsub_feed import log
from pgsub_feed.errors import FileError, Passing, Stopped, Unfit
from pgsub_feed.interruption import Check
from pgsub_feed.options import file, flag, option, repeated
from pgsub_feed.tables.values import SPOILED, Malformed

from ..errors import Unrepaired
from ..verify.comparison import DIFFERENT, EQUAL, Compared
from ..verify.digests import NotText
from ..verify.store import StoreComparison, compare, repair
from ..verify.tables_file import TablesComparison, compare_tables, store_of
from . import add
from .arguments.server import StoreOptions, settled_store
from .arguments.words import check_needs, each, store_option, within, within_seconds

ABOUT = "compare the copy of a follower that runs with its server, both at one LSN"
ENDS = """\
exit status: 0 equal, or repaired; 1 the copy differs; 8 the server made no slot in time, so nothing was compared; 2 to 7 as those of `follow`
"""


@dataclasses.dataclass(frozen=True)
class Options(StoreOptions):
    """What is compared, and what is told of it."""

    store: str = store_option(
        "the store, which has to be followed meanwhile; with --tables whose publications are meant (default: that of the feed STORE.feed)",
        False,
    )
    tables: str = file("compare these tables that follow a feed, and hold nothing meanwhile", "")
    other: str = file(
        "compare --tables with those of this file, and not with the server", "", word="--with"
    )
    feed: str = option(
        "the feed of --tables (default: the one that the file follows)", "", value="FOLDER"
    )
    digests: bool = flag(
        "compare the digests that --tables keep, and read rows only where they differ"
    )
    table: Sequence[str] = repeated("compare this table", "all that are published")
    repair: bool = flag(
        "have the follower mend the rows that differ, or copy a table anew of which many do"
    )
    show: int = option(
        "print at most N keys that differ (default: 20)", 20, type=within(0, 1 << 20)
    )
    hold: float = option(
        "wait for at most N seconds until the server has made a slot, and hold the stream to a store meanwhile (default: 10)",
        10.0,
        type=within_seconds(600.0),
    )

    def tables_comparison(self) -> TablesComparison:
        more = self.tables, self.other, self.feed, self.digests, self.table
        return TablesComparison(self.subscription(), self.store, self.hold, self.show, *more)


def check_options(parser: argparse.ArgumentParser, options: Options) -> Options:
    """Rejects options that don't go together."""
    if not (options.store or options.tables):
        parser.error("--store or --tables is needed")
    check_needs(parser, options, *((it, "tables") for it in ("other", "feed", "digests")))
    if options.tables and options.repair:
        parser.error(
            "--repair is for a store: rows of --tables come anew by `pgsub-connect add --store STORE --table T`"
        )
    return options


def settled(options: Options) -> Options:
    if options.tables and not options.store:
        options = dataclasses.replace(options, store=store_of(options.tables))
    return settled_store(options, told=each("--table", options.table))


def run(options: Options, check: Check) -> int:
    if options.tables:
        return compare_tables(options.tables_comparison(), check)
    try:
        return verify(options, check)
    except Stopped:
        raise Passing("ended before all was compared") from None
    except NotText:
        text = f"{options.store}: it has values in binary form, which can't be compared"
        raise Unfit(text) from None
    except Malformed:
        raise FileError(f"{options.store}: {SPOILED}") from None
    except sqlite3.Error as error:
        raise FileError(f"{options.store}: {error}") from None


def verify(options: Options, check: Check) -> int:
    found, it = Compared(), options
    comparison = StoreComparison(it.subscription(), it.store, it.hold, it.show)
    for choose in found.tries(lambda it: it.chosen(list(options.table))):
        compare(comparison, choose, found, check)
    if found.different and options.repair:
        return found.ended(repaired(options, comparison, found, check))
    return found.ended(DIFFERENT if found.different else EQUAL)


def repaired(options: Options, comparison: StoreComparison, found: Compared, check: Check) -> int:
    try:
        left = repair(comparison, found, check)
    except Unrepaired as error:
        log.error(str(error))
        return DIFFERENT
    adds = {it.oid: it.text() for it in left}
    return add.add(options.store, options.mode, adds, {}, check) if adds else EQUAL
