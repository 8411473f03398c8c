"""`pgsub-connect export`: ordinary tables of SQLite from the rows of a store."""

import dataclasses
from collections.abc import Sequence

from pgsub_feed.interruption import Check
from pgsub_feed.options import flag, repeated
from pgsub_feed.program import collected_rarely
from pgsub_feed.tables.values import ALL_TEXT

from ..store.export import ExportSettings, export_store
from .arguments.following import INDEXES, numeric_option
from .arguments.words import COPIED, StoreCopyOptions, check_texts, each, settled_store_copy

ABOUT = "make ordinary tables of SQLite from the rows of a store, or of a copy of one"
ENDS = COPIED.replace(
    "6 a bug", "5 a value isn't one of its column's type: --text exports it; 6 a bug"
)


@dataclasses.dataclass(frozen=True)
class Options(StoreCopyOptions):
    """What is exported."""

    text: bool = flag("each value as TEXT, as the server prints it")
    numeric: str = numeric_option()
    table: Sequence[str] = repeated("export this table", "all")
    indexes: bool = flag(f"with {INDEXES}")


def settled(options: Options) -> Options:
    check_texts(each("--table", options.table))
    return settled_store_copy(options)


@collected_rarely()
def run(options: Options, check: Check) -> int:
    form, chosen = ALL_TEXT if options.text else options.numeric, tuple(options.table)
    how = form, chosen, options.mode, options.indexes
    export_store(ExportSettings(options.store, options.into, *how), check)
    return 0
