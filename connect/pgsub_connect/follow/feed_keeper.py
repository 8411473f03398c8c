"""What is done in the folder of a feed while its store is followed: it tells readers what is
confirmed, up to where the primary keys in `STORE.tables` are right, and what the catalog says of
types, looks where they are, and removes old segments.

`types`, which `pgsub_feed.column_types` reads, has what looks at the server's catalog have found of
the types of columns, and from which LSN on. It is replaced as a whole. A line goes once no segment
has a commit before the one that follows it.
"""

import contextlib
import itertools
import os
import threading
import time
from collections.abc import Callable
from typing import Any

from pgsub_feed import json_texts, log
from pgsub_feed.column_types import FORMAT, TYPES, entry_of
from pgsub_feed.errors import FileError, Passing
from pgsub_feed.files import remove, replace_file
from pgsub_feed.known_tables import KEYS
from pgsub_feed.reader.folder import CONFIRMED, read_confirmed, segments
from pgsub_feed.relation import Column, ColumnType
from pgsub_feed.texts import counted, lsn_text

from ..copy.rows_beside import RowsBeside
from ..drift.remembered import Remembered
from ..server.catalog import Catalog, Table
from ..status.progress import Progress
from ..stream.statuses import Reached
from .retention import Limits, feed_bytes, read_readers, retire

# A line of a table; `until`: the table wasn't published any more at that LSN.
Line = dict[str, Any]
WHEN = ("from", "until")


def column_line(column: Column, found: ColumnType) -> Line:
    more = {"labels": found.labels} if found.labels else {}
    return {
        "name": column.name,
        "oid": column.type_oid,
        "modifier": column.modifier,
        "type": found.name,
        "not_null": found.not_null,
        **more,
        **({"base": list(found.base)} if found.base else {}),
    }


def table_line(table: Table, lsn: int) -> Line:
    columns = [column_line(*it) for it in table.types or ()]
    return {"table": table.oid, "from": lsn_text(lsn), "primary": table.primary, "columns": columns}


def is_same(one: Line, other: Line) -> bool:
    """Whether two lines say the same of a table, whenever that was found."""
    written = (
        json_texts.compact({name: said for name, said in it.items() if name not in WHEN})
        for it in (one, other)
    )
    return len(set(written)) == 1


class TypesFile:
    """The file. `remembered` has what was read last of the catalog."""

    def __init__(self, folder: str, mode: int, remembered: Remembered) -> None:
        self.folder, self.mode, self.remembered = folder, mode, remembered
        self.path = os.path.join(folder, TYPES)
        # what the last look that was written has found, and the lines of each table
        self.written: Catalog | None = None
        self.lines: dict[int, list[Line]] | None = None

    def is_due(self) -> bool:
        """Whether there was a look since it was written."""
        return self.looked() is not self.written

    def looked(self) -> Catalog | None:
        """What the last look of this run has found, None before it."""
        catalog = self.remembered.catalog
        is_read = catalog and all(it.types is not None for it in list(catalog.tables.values()))
        return catalog if is_read else self.written

    def begin(self) -> None:
        """Makes it where it isn't there, so that readers wait for what isn't known yet."""
        if self.is_due() or not os.path.exists(self.path):
            self.write()

    def write(self) -> None:
        """Replaces it by what is known now."""
        catalog = self.looked()
        lines = self.read() if self.lines is None else self.lines
        lsn = 0
        if catalog:
            lsn = catalog.lsn
            add_lines(lines, list(catalog.tables.values()), lsn)
        first = min((base for base, _ in segments(self.folder)), default=0)
        self.lines = {oid: kept for oid, it in sorted(lines.items()) if (kept := needed(it, first))}
        head = {"types": FORMAT, "lsn": lsn_text(lsn)}
        said = [head, *itertools.chain.from_iterable(self.lines.values())]
        text = "".join(json_texts.compact(it) + "\n" for it in said)
        replace_file(self.path, text.encode(), self.mode)
        self.written = catalog

    def forget(self) -> None:
        """Removes what a first start has left that was given up."""
        with contextlib.suppress(NotADirectoryError):
            remove(self.path)

    def read(self) -> dict[int, list[Line]]:
        """The lines that are there; none of a file that can't be read, which is written anew."""
        found = dict[int, list[Line]]()
        try:
            content = json_texts.read_plain(self.path, json_texts.LARGEST)
            for line in content.splitlines()[1:]:
                said = json_texts.object_of(json_texts.parsed(line))
                entry_of(said)
                found.setdefault(json_texts.oid_of(said["table"]), []).append(said)
        except (OSError, KeyError, ValueError):
            return {}
        return found


def add_lines(lines: dict[int, list[Line]], tables: list[Table], lsn: int) -> None:
    """Adds what a look at an LSN has found new, and notes which tables were gone by then."""
    for table in tables:
        now, known = table_line(table, lsn), lines.setdefault(table.oid, [])
        if known and is_same(known[-1], now):
            known[-1].pop("until", None)
        else:
            known.append(now)
    for oid in lines.keys() - {it.oid for it in tables}:
        lines[oid][-1].setdefault("until", lsn_text(lsn))


def needed(lines: list[Line], first: int) -> list[Line]:
    """Those of a table that commits above an LSN may need."""
    ends = [*(it["from"] for it in lines[1:]), lines[-1].get("until")]
    return [it for it, end in zip(lines, ends) if end is None or json_texts.lsn_of(end) > first]


class TypesBeside(RowsBeside):
    """Has the file there before the first rows are."""

    def __init__(self, file: TypesFile) -> None:
        self.file = file

    def begin(self, point: int) -> None:
        self.file.begin()


# How often what is confirmed is written where a keepalive alone has moved it, and else; how often
# the readers are looked at, and how often old segments are looked for, in seconds.
QUIET, BUSY, LOOK, RETIRE = 0.25, 1.0, 1.0, 10.0


class Keeper(threading.Thread):
    """Writes what is confirmed, looks after the readers, and removes old segments."""

    def __init__(
        self, limits: Limits, progress: Progress, reached: Callable[[], Reached], types: TypesFile
    ) -> None:
        super().__init__(daemon=True)
        self.limits, self.types = limits, types
        self.folder, self.mode = types.folder, types.mode
        self.keys_file = os.path.join(self.folder, KEYS)
        self.progress, self.reached = progress, reached
        self.ended = threading.Event()
        # set where the store has more
        self.changed = threading.Event()
        # why what can't be done now can't be
        self.causes = dict[str, str]()
        # what was written last, and when; when the readers were looked at, and segments looked for
        self.confirmed, self.written = -1, 0.0
        # the same of the LSN up to which primary keys are known
        self.keys, self.told_keys = -1, 0.0
        self.looked = self.retired = 0.0

    def run(self) -> None:
        if not os.path.exists(self.keys_file):
            # (before there is a commit: who finds none doesn't wait for it)
            self.attempt(self.tell_keys, Reached(0, 0))
        while not self.ended.is_set():
            is_told = self.changed.wait(QUIET if self.lags() else LOOK)
            self.changed.clear()
            if is_told:
                # (much may come within a moment)
                self.ended.wait(QUIET)
            self.tend(time.monotonic())

    def lags(self) -> bool:
        """Whether what is confirmed isn't written yet."""
        return self.reached().confirmed != self.confirmed

    def finish(self) -> None:
        """Ends the thread, and notes what is there at the end."""
        self.ended.set()
        self.changed.set()
        self.join()
        self.written = self.looked = self.told_keys = -BUSY
        self.tend(time.monotonic())

    def tend(self, now: float) -> None:
        """Does what it is time for. Old segments go first: a full disk may have room by that."""
        reached = self.reached()
        if now - self.retired >= RETIRE:
            self.retired = now
            self.attempt(self.retire, reached)
        if now - self.looked >= LOOK:
            self.looked = now
            self.attempt(self.look, reached)
        wait = QUIET if reached.confirmed > reached.position else BUSY
        if reached.confirmed != self.confirmed and now - self.written >= wait:
            self.written = now
            self.attempt(self.confirm, reached)
        if self.has_keys_to_tell(reached) and now - self.told_keys >= QUIET:
            self.told_keys = now
            self.attempt(self.tell_keys, reached)
        if self.types.is_due():
            self.attempt(self.tell_types, reached)

    def attempt(self, step: Callable[[Reached], None], reached: Reached) -> None:
        """Does one of these. What can't be done is told once for each cause, and tried again."""
        try:
            step(reached)
            self.causes.pop(step.__name__, None)
        except (FileError, Passing, OSError) as error:
            cause = str(error)
            if cause not in self.causes.values():
                log.warning(f"the feed can't be looked after: {cause}")
            self.causes[step.__name__] = cause

    def confirm(self, reached: Reached) -> None:
        """Tells readers up to where the feed has all commits, which the disk has by then."""
        if self.confirmed < 0:
            self.confirmed = read_confirmed(self.folder) or 0
        if reached.confirmed != self.confirmed:
            text = f"{lsn_text(reached.confirmed)}\n".encode()
            replace_file(os.path.join(self.folder, CONFIRMED), text, self.mode)
            self.confirmed = reached.confirmed

    def has_keys_to_tell(self, reached: Reached) -> bool:
        """Where tables have keys that no message tells, and once in a run: that of the run before
        may lack a look. After a failover less may be confirmed, and other commits follow."""
        if reached.confirmed < self.keys:
            return True
        return reached.keys > max(self.keys, 0) and (reached.tells_keys or self.keys <= 0)

    def tell_keys(self, reached: Reached) -> None:
        """Tells readers up to which commit it is known which primary keys tables have."""
        replace_file(self.keys_file, f"{lsn_text(reached.keys)}\n".encode(), self.mode)
        self.keys = reached.keys

    def tell_types(self, reached: Reached) -> None:
        """Tells readers what a look at the catalog has found."""
        self.types.write()

    def look(self, reached: Reached) -> None:
        """Shows how far behind each reader is, and how large the feed."""
        self.progress.feed.note(read_readers(self.folder), feed_bytes(self.folder))

    def retire(self, reached: Reached) -> None:
        gone = retire(self.folder, self.limits, reached.position, time.time())
        if gone.segments:
            log.info(f"removed {counted(gone.segments, 'segment')} of the feed {self.folder}")
        if gone.base:
            log.info(f"removed the first rows of the feed {self.folder}")
        for name in sorted(gone.readers):
            log.warning(
                f"the reader {name} hadn't read all of that, and has to begin anew: the feed may have {self.limits.most_bytes} bytes"
            )
