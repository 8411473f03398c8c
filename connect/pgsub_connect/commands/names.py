"""`pgsub-connect names`: which OID each name of a table has now, and which ones had it before."""

import dataclasses
import json
import os

from pgsub_feed.errors import FileError
from pgsub_feed.interruption import Check
from pgsub_feed.texts import lsn_text

from ..drift.remembered import Remembered
from .arguments.words import store_option

ABOUT = "tell which OID the name of each table has now, and which ones had it before"
ENDS = """\
exit status: 0 printed; 2 usage error; 3 a file can't be used; 6 a bug
"""


@dataclasses.dataclass(frozen=True)
class Options:
    """Of which store."""

    store: str = store_option("the store, which may be in use")


def run(options: Options, _: Check) -> int:
    """Prints a JSON object per line."""
    remembered = Remembered(options.store)
    if remembered.catalog is None and not os.path.exists(options.store):
        raise FileError(f"there is no store {options.store}")
    if remembered.catalog is None:
        raise FileError(f"{remembered.path}: there is no such file yet: the next session makes it")
    for it in remembered.names.rows():
        told = {**it._asdict(), "since": lsn_text(it.since)}
        print(json.dumps(told, ensure_ascii=False))
    return 0
