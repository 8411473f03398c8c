"""Whether SQLite finds a store's file sound, and its tables have the form of a store's."""

from __future__ import annotations

import contextlib
import shutil
import sqlite3
import tempfile
import urllib.parse
from collections.abc import Iterator
from pathlib import Path

from .contents import INDEX, TABLES, Contents, Relation, Row, differences, read
from .form import Malformed, Shape, shape_of

# more of one file aren't told
MOST_TOLD = 10
MAGIC = b"SQLite format 3\0"
OBJECTS: set[tuple[str, str, str | None]] = {
    ("table", name, text) for name, text in TABLES.items()
} | {("index", INDEX, None)}


def log_of(path: Path) -> Path:
    """The log beside a file."""
    return path.with_name(path.name + "-wal")


@contextlib.contextmanager
def at_rest(path: Path) -> Iterator[sqlite3.Connection]:
    """Opens a file that nobody writes, without its log: a run that has ended has put that into it.
    Nothing is made beside it."""
    name = f"file:{urllib.parse.quote(str(path.absolute()))}?mode=ro&immutable=1"
    with contextlib.closing(sqlite3.connect(name, uri=True, isolation_level=None)) as base:
        yield base


@contextlib.contextmanager
def copied(path: Path) -> Iterator[sqlite3.Connection]:
    """Opens a copy of a file and of its log, as after a crash: the file itself and its log stay as
    they are."""
    with tempfile.TemporaryDirectory(prefix="store-", dir=path.parent) as folder:
        copy = Path(folder, "copy.db")
        for here, there in ((path, copy), (log_of(path), log_of(copy))):
            if here.exists():
                shutil.copyfile(here, there)
        with contextlib.closing(sqlite3.connect(copy, isolation_level=None)) as base:
            yield base


def broken_parts(base: sqlite3.Connection) -> list[str]:
    """What `PRAGMA integrity_check` tells, but `ok`."""
    told = [row[0] for row in base.execute(f"PRAGMA integrity_check({MOST_TOLD})")]
    return (
        [f"integrity_check: {it}" for it in told if it != "ok"]
        if told
        else ["integrity_check tells nothing"]
    )


def plain(text: str | None) -> str | None:
    """A text of SQL without what means nothing in it."""
    return text and "".join(text.split()).lower()


def wrong_objects(base: sqlite3.Connection, in_other_words: bool = False) -> list[str]:
    """Whether the file has a store's tables with their index, and nothing else; the texts may have
    other blanks and small letters."""
    found = set(base.execute("SELECT type, name, sql FROM sqlite_schema"))
    wanted = OBJECTS
    if in_other_words:
        found, wanted = (
            {(kind, name, plain(text)) for kind, name, text in them} for them in (found, wanted)
        )
    told = [
        f"there is no {kind} {name} as a store's"
        for kind, name, _ in sorted(wanted - found, key=str)
    ]
    return told + [
        f"there is a {kind} {name}: {text}" for kind, name, text in sorted(found - wanted, key=str)
    ]


def wrong_rows(base: sqlite3.Connection) -> list[str]:
    """The definitions and rows that no store writes."""
    told: list[str] = []
    shapes: dict[int, Shape] = {}
    for oid, *relation in base.execute("SELECT oid, nsp, name, letter, cols FROM rel"):
        try:
            shapes[oid] = shape_of(oid, Relation(*relation))
        except Malformed as malformed:
            told.append(f"relation {oid}: {malformed}")
    for rowid, oid, identity, *row in base.execute(
        "SELECT rowid, oid, ident, body, copies FROM held NOT INDEXED"
    ):
        try:
            if oid not in shapes:
                raise Malformed("its relation has no definition")
            shapes[oid].check_row(identity, Row(*row))
        except Malformed as malformed:
            told.append(f"row {rowid}, {oid} {identity.hex()}: {malformed}")
    return told


def wrong_position(base: sqlite3.Connection) -> list[str]:
    """Whether `pos` has its one row, with eight bytes."""
    found = base.execute("SELECT id, length(lsn) FROM pos").fetchall()
    return [] if found == [(0, 8)] else [f"pos has the identifiers and lengths {found}"]


def is_database(path: Path) -> bool:
    with open(path, "rb") as file:
        return file.read(len(MAGIC)) == MAGIC


def is_bare(base: sqlite3.Connection) -> bool:
    """Whether a database has no tables yet, as one whose making was interrupted."""
    return not base.execute("SELECT name FROM sqlite_schema").fetchall()


def findings_of(
    base: sqlite3.Connection, wanted: Contents | None = None, in_other_words: bool = False
) -> list[str]:
    """What is wrong with a store that is open, the first of it; nothing where it is sound and holds
    what is wanted."""
    try:
        told = (
            broken_parts(base)
            or wrong_objects(base, in_other_words)
            or wrong_rows(base) + wrong_position(base)
        )
        if not told and wanted is not None:
            told = differences(read(base), wanted)
    except sqlite3.Error as error:
        told = [f"SQLite: {error}"]
    return told[:MOST_TOLD]


def findings(path: Path, wanted: Contents | None = None, in_other_words: bool = False) -> list[str]:
    """What is wrong with a store's file at rest; nothing where it is sound and holds what is
    wanted."""
    if not path.exists():
        return ["there is no file"]
    with at_rest(path) as base:
        return findings_of(base, wanted, in_other_words)


def findings_with_log(path: Path) -> list[str]:
    """What is wrong with a store's file and its log as a run left them that may have made no file
    or no tables yet."""
    if not path.exists():
        return []
    with copied(path) as base:
        return [] if is_bare(base) else findings_of(base)
