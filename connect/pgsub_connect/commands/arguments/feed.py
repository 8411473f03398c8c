"""Options on the feed of commits, and on the tables that follow it."""

import dataclasses
import os
from collections.abc import Sequence
from typing import Any, TypeVar

from pgsub_feed.errors import Unfit, UsageError
from pgsub_feed.options import duration, file, flag, option, size
from pgsub_feed.sinks.urls import FORMS, url
from pgsub_feed.tables.schema import read_numeric
from pgsub_feed.tables.values import BOTH

from ...drift.remembered import summary_of
from ...follow.feed import FeedSettings
from ...follow.process_beside import SinkSettings, TablesSettings
from ...follow.retention import Limits
from ...store.checkpoint import read_known
from .following import INDEXES, numeric_option
from .server import has_begun
from .words import within

# What each of these options needs.
OF_FEED = "segment_bytes", "segment_seconds", "max_bytes", "max_age", "base"
NEEDS = {
    **dict.fromkeys(("init", "digests", "indexes"), "tables"),
    **dict.fromkeys((f"feed_{it}" for it in OF_FEED), "feed"),
    "messages": "feed",
}
# Of how many bytes the messages of a transaction may be where it isn't said.
MOST_OF_MESSAGES = 64 << 20
FEED_BASE = "keep the rows of the initial copy as files of the feed, too, yes or no (default: yes where --feed is named)"


def messages_option(about: str) -> Any:
    """--messages, or with a size: 0 where it isn't said."""
    return option(about, 0, nargs="?", const=MOST_OF_MESSAGES, type=size)


@dataclasses.dataclass(frozen=True)
class FeedOptions:
    """The folder of the feed, when segments of it begin and go, and the file of tables."""

    feed: str = option(
        "keep a feed of all commits in this folder, as lines of JSON with each row before and after (default: the one that the store has had)",
        "",
        value="FOLDER",
    )
    without_feed: bool = flag("leave the feed that the store has had; it ends for good")
    feed_segment_bytes: int = option(
        "begin another segment before one gets larger (default: 67108864)",
        0,
        type=within(1 << 12, 1 << 40),
        value="BYTES",
    )
    feed_segment_seconds: int = option(
        "begin another segment after N seconds (default: never)", 0, type=within(1, 1 << 31)
    )
    feed_max_bytes: int = option(
        "remove the oldest segments of a feed that gets larger, as 10GB, whoever hasn't read them",
        0,
        type=size,
    )
    feed_max_age: float | None = option(
        "remove segments that are older, as 7d, and that all readers have read (default: as soon as all readers have, where there are any)",
        type=duration,
    )
    feed_base: str = option(FEED_BASE, "", choices=["yes", "no"], value="WHETHER")
    messages: int = messages_option(
        "tell in the feed what transactions write by pg_logical_emit_message (PostgreSQL 14), of each at most SIZE (default: 64MB, and as the store has had it); large transactions come whole then"
    )
    without_messages: bool = flag("tell them no more")
    tables: str = file(
        "keep ordinary tables in this file of SQLite, by `pgsub-connect tables` beside the follower (default: those that the store has had); the feed is STORE.feed by default",
        "",
    )
    without_tables: bool = flag("leave the tables that the store has had: they follow no more")
    init: str | None = file(
        "with --tables: run this SQL once a table was made or altered, for indexes and views"
    )
    digests: bool = flag("with --tables: keep a digest of each table, for `verify`")
    numeric: str = numeric_option("")
    indexes: bool = flag(f"with --tables: {INDEXES}")
    sink: Sequence[str] = option(
        f"write the rows to Redis, NATS or Kafka, by `pgsub-connect sink` beside the follower, may be repeated: {FORMS}; the feed is STORE.feed by default",
        (),
        type=url,
        value="URL",
    )

    def feed_settings(self, store: str, mode: int) -> FeedSettings:
        how = self.init, self.digests, self.numeric, self.indexes
        tables = TablesSettings(self.tables, self.feed, store, mode, *how) if self.tables else None
        sinks = (SinkSettings(it, self.feed, store, mode) for it in dict.fromkeys(self.sink))
        limits = Limits(self.feed_max_bytes or None, self.feed_max_age)
        sizes = self.feed_segment_bytes, self.feed_segment_seconds
        has_base, whose = self.feed_base == "yes", (store, self.feed, self.without_feed, mode)
        told = tuple(sinks), has_base, self.messages
        return FeedSettings(*whose, sizes[0], sizes[1], limits, tables, *told)


Settled = TypeVar("Settled", bound=FeedOptions)


def settled_feed(options: Settled, store: str) -> Settled:
    """The options with the feed and the tables that a store has had where none are named. Raises
    where others are, or where options need what there isn't."""
    leaves = options.without_tables or options.without_feed
    was = "" if leaves else read_known(store + ".connector").tables
    tables, feed = options.tables or was, options.feed
    if was and os.path.lexists(was) and os.path.realpath(was) != os.path.realpath(tables):
        text = f"the tables of {store} are in {was}: leave --tables out. To have them in {tables}, move or remove that file, or say --without-tables once"
        raise Unfit(text)
    is_base_wanted, messages = bool(feed), options.messages
    if not options.without_feed and has_begun(store):
        known = summary_of(store)
        if not feed:
            feed, is_base_wanted = known.feed, known.has_base
        messages = messages or (0 if options.without_messages else known.messages)
    has_base = options.feed_base or ("yes" if is_base_wanted else "")
    feed = feed or (store + ".feed" if tables or options.sink else "")
    numeric = options.numeric or tables and read_numeric(tables) or BOTH
    more = {"numeric": numeric, "feed_base": has_base, "messages": messages}
    options = dataclasses.replace(options, tables=tables, feed=feed, **more)
    for given, needed in NEEDS.items():
        if getattr(options, given) and not getattr(options, needed):
            raise UsageError(f"--{given.replace('_', '-')} needs --{needed}")
    if options.numeric != BOTH and not options.tables:
        raise UsageError("--numeric needs --tables")
    return options
