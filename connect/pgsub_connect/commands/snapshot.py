"""`pgsub-connect snapshot`: a copy of a store in one file, which `pgsub dump` and `export` read."""

import contextlib
import dataclasses
import os
import sqlite3

from pgsub_feed import log
from pgsub_feed.errors import FileError, Passing, Stopped
from pgsub_feed.files import LOG, copy, placed, remove
from pgsub_feed.interruption import Check
from pgsub_feed.tables.sqlite_files import failed
from pgsub_feed.texts import lsn_text

from ..store.at_rest import at_rest
from ..store.file import check_store, fold, is_store, position_in
from ..store.placing import check_into
from .arguments.words import COPIED, StoreCopyOptions, settled_store_copy

ABOUT = "copy a store into one file"
ENDS = COPIED


@dataclasses.dataclass(frozen=True)
class Options(StoreCopyOptions):
    """What is copied."""


def is_snapshot(path: str) -> bool:
    """Whether a file is a store that nobody follows into."""
    return is_store(path) and not any(os.path.exists(path + it) for it in (".connector", LOG))


def check_copied(store: str, path: str, option: str = "--into") -> None:
    """Rejects to replace, by a copy of a store, a file of an option that is no such copy."""
    check_into(store, path, is_snapshot, "an earlier copy of a store", option)


settled = settled_store_copy


def run(options: Options, check: Check) -> int:
    check_copied(options.store, options.into)
    try:
        with at_rest(options.store, options.into, check) as (path, is_own), placed(
            options.into, options.mode
        ) as new:
            check_store(path, options.store)
            put(path, new, is_own, check)
            position = position_in(new)
    except Stopped:
        raise Passing(f"ended before {options.into} was complete") from None
    if position is None:
        raise FileError(f"{options.store}: the store has no position")
    log.info(f"{options.into}: the rows at {lsn_text(position)}")
    return 0


def put(path: str, new: str, is_own: bool, check: Check) -> None:
    """Moves a copy to its new name, or copies it where that lies on another disk."""
    if is_own:
        with contextlib.suppress(OSError):
            return os.rename(path, new)
    remove(new)
    copy(path, new, 0o600, check)
    try:
        fold(new)
    except sqlite3.Error as error:
        raise failed(error, new) from None
