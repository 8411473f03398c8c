"""Options on what follows a feed, and the store beside it."""

import argparse
import dataclasses
from collections.abc import Collection, Iterable, Sequence
from typing import Any

from pgsub_feed.interruption import Check
from pgsub_feed.options import flag, option, plain_name, repeated
from pgsub_feed.reader.following import Reading
from pgsub_feed.reader.polling import Parent
from pgsub_feed.tables.values import AS_REAL, AS_TEXT, BOTH

from ...store.at_rest import is_followed
from ...store.export import ExportSettings, export_store
from .words import mode_option

INDEXES = "the server's indexes of btree over plain columns, none of them unique; what is left out is told"


@dataclasses.dataclass(frozen=True)
class FollowingOptions:
    """Which feed is followed, with which rows it begins, and of which tables."""

    feed: str = option("the feed", "", required=True, value="FOLDER")
    base: str | None = None
    store: str = ""
    table: Sequence[str] = repeated("keep this table", "all")
    reader: str | None = None
    once: bool = False
    while_input: bool = flag("end once standard input ends, too")
    mode: int = mode_option("mode of a file that is made")

    def parent(self, check: Check) -> Parent | None:
        """Whoever has started this, where it ends with that one's input."""
        return Parent(check) if self.while_input else None

    def reading(self, tables: Iterable[str], until: int | None) -> Reading:
        store = StoreBeside(self.store, self.mode) if self.store else None
        more = not self.once, until, self.base, store, self.reader, self.mode
        return Reading(self.feed, tuple(tables), *more)


def add_following(parser: argparse.ArgumentParser, base: str, disk: str, done: str) -> None:
    """Options on the rows with which it begins, on its reader, and for how long it follows."""
    add = parser.add_mutually_exclusive_group().add_argument
    add("--base", metavar="FILE", help=f"begin with the rows of this export, {base}")
    add(
        "--store",
        metavar="FILE",
        default="",
        help="begin with the rows of this store; its follower is asked for a copy",
    )
    parser.add_argument(
        "--reader",
        metavar="NAME",
        type=plain_name,
        help=f"keep the LSN as FOLDER/readers/NAME too, once {disk} has the rows",
    )
    add = parser.add_mutually_exclusive_group().add_argument
    add(
        "--follow",
        dest="once",
        action="store_false",
        default=False,
        help="follow the feed until a signal asks for the end (default)",
    )
    add("--once", dest="once", action="store_true", help=f"end once all that is there is {done}")


def numeric_option(default: str = BOTH) -> Any:
    return option(
        "numerics as REAL, those of more than 15 digits with their text in NAME_text (both, the default), as TEXT, or as REAL alone, which can't be verified (real)",
        default,
        choices=(BOTH, AS_TEXT, AS_REAL),
    )


def check_numeric(parser: argparse.ArgumentParser, numeric: str, has_digests: bool) -> None:
    """Rejects digests of values that aren't kept."""
    if numeric == AS_REAL and has_digests:
        parser.error("--digests needs the exact values, which --numeric real doesn't keep")


@dataclasses.dataclass(frozen=True)
class StoreBeside:
    """One whose exports have this mode."""

    path: str
    mode: int

    def is_followed(self) -> bool:
        return is_followed(self.path)

    def export(self, into: str, form: str, chosen: Collection[str], check: Check) -> None:
        settings = ExportSettings(self.path, into, form, tuple(chosen), self.mode)
        export_store(settings, check)
