"""The feed of a follower, and the tables that follow it, compared with the publisher. Nothing of
the connector is used.

What triggers on the publisher log of each change, as OLD and NEW, is published too: so each commit
of the feed has the rows before and after by the program, and by the publisher.
"""

from __future__ import annotations

import collections
import contextlib
import json
import math
import re
import sqlite3
import struct
import threading
import time
from collections.abc import Callable, Iterable, Iterator, Mapping
from pathlib import Path
from typing import Any, Dict, List, NamedTuple, Optional, Tuple, Union

from feed_replay import Replay, commits, lsn_of
from stores import contents, sound

from .cluster import Cluster
from .errors import Failed
from .rows import SETTINGS, Row, Rows, published, quoted, rows_of_store
from .sessions import Session

# A value in a table of SQLite.
Value = Union[int, float, bytes, str, None]
Read = Callable[[str], Value]


def number(text: str) -> Value:
    return text if text == "NaN" else float(text)


def rounded(text: str) -> Value:
    return math.inf if text == "NaN" else float(text)


# By the name of a type that of a column in a table of SQLite, and what that has of a value which is
# printed so; any other is its text.
HAS: Dict[str, Tuple[str, Read]] = {
    "smallint": ("INTEGER", int),
    "integer": ("INTEGER", int),
    "bigint": ("INTEGER", int),
    "boolean": ("INTEGER", lambda it: int(it == "t")),
    "bytea": ("BLOB", lambda it: bytes.fromhex(it[2:])),
    "real": ("ANY", number),
    "double precision": ("ANY", number),
}
TEXT: Tuple[str, Read] = ("TEXT", str)
NUMERIC, REAL = 1700, ("REAL", rounded)
LIMITS = re.compile(r"numeric\((\d+),(-?\d+)\)")
# The OIDs of these types.
OIDS = {
    "smallint": 21,
    "integer": 23,
    "bigint": 20,
    "boolean": 16,
    "bytea": 17,
    "real": 700,
    "double precision": 701,
}
NAMES = {oid: name for name, oid in OIDS.items()}
LOGGED = "CREATE TABLE logged (id bigserial PRIMARY KEY, tab text, op text, old text[], new text[])"
LETTERS = {"INSERT": "c", "UPDATE": "u", "DELETE": "d"}
# Of a change: its table, its letter, and the rows before and after.
Change = Tuple[str, str, Optional[List[Optional[str]]], Optional[List[Optional[str]]]]


def has(kind: str) -> list[tuple[str, Read]]:
    """The columns of SQLite that one of a type becomes: two of a numeric of over 15 digits."""
    limits = LIMITS.fullmatch(kind)
    if kind != "numeric" and not limits:
        return [HAS.get(kind, TEXT)]
    return (
        [REAL] if limits and int(limits[1]) <= 15 and abs(int(limits[2])) <= 290 else [REAL, TEXT]
    )


def kind_of(oid: int, modifier: int) -> str:
    """The name of a type of a definition."""
    if oid != NUMERIC:
        return NAMES.get(oid, "")
    limits = modifier - 4
    scale = limits & 0x7FF if limits & 0x400 == 0 else (limits & 0x7FF) - 0x800
    return f"numeric({limits >> 16},{scale})" if modifier >= 4 else "numeric"


def columns_of(session: Session, table: str) -> list[tuple[str, str]]:
    """The published columns of a table, with the names of their types."""
    found = session.rows(
        "SELECT attname, format_type(atttypid, CASE WHEN atttypid = 'numeric'::regtype THEN atttypmod END) FROM pg_attribute"
        f" WHERE attrelid = '{table}'::regclass AND attnum > 0 AND NOT attisdropped AND attgenerated = '' ORDER BY attnum"
    )
    return [(name or "", kind or "") for name, kind in found]


def log_changes(cluster: Cluster, *tables: str) -> None:
    """Has triggers log each change of these tables."""
    with cluster.connect() as session:
        session.run(LOGGED)
        settings = " ".join(
            f"SET {name} = '{value}'" for name, value in SETTINGS.items() if name != "search_path"
        )
        for number, table in enumerate(tables):
            old, new = (listed(session, table, it) for it in ("OLD", "NEW"))
            session.run(
                f"CREATE FUNCTION log_{number}() RETURNS trigger LANGUAGE plpgsql {settings} AS $$ BEGIN"
                f" INSERT INTO public.logged (tab, op, old, new) VALUES (TG_TABLE_NAME, TG_OP,"
                f" CASE WHEN TG_OP <> 'INSERT' THEN ARRAY[{old}] END, CASE WHEN TG_OP <> 'DELETE' THEN ARRAY[{new}] END);"
                " RETURN NULL; END $$",
                f"CREATE TRIGGER logs AFTER INSERT OR UPDATE OR DELETE ON {table} FOR EACH ROW EXECUTE FUNCTION log_{number}()",
            )


def listed(session: Session, table: str, row: str) -> str:
    """The values of a row as their types print them (which for some isn't what a cast to text
    gives)."""
    cells = [f"{row}.{quoted(name)}" for name, _ in columns_of(session, table)]
    return ", ".join(
        f"CASE WHEN {it} IS DISTINCT FROM NULL THEN format('%s', {it}) END" for it in cells
    )


def read_array(text: str | None) -> list[str | None] | None:
    """An array of texts as the server prints it."""
    if text is None:
        return None
    found, at = list[Optional[str]](), 1
    while at < len(text) - 1:
        if text[at] == '"':
            cell, at = "", at + 1
            while text[at] != '"':
                at += text[at] == "\\"
                cell, at = cell + text[at], at + 1
            found.append(cell)
            at += 1
        else:
            end = min(it for it in (text.find(",", at), len(text) - 1) if it > 0)
            found.append(None if text[at:end] == "NULL" else text[at:end])
            at = end
        at += 1
    return found


class Images:
    """Compares, in each commit, the changes of a table with what its trigger has logged."""

    def __init__(self, *tables: str) -> None:
        self.tables, self.count = set(tables), 0

    def check(self, end: str, body: bytes) -> None:
        names, changes, logged = dict[int, str](), list[Change](), list[Change]()
        for it in map(json.loads, body.splitlines()):
            if it["op"] == "m":
                continue
            if it["op"] == "table":
                names[it["oid"]] = it["table"]
            elif names[it["oid"]] == "logged" and it["op"] == "c":
                _, table, op, old, new = it["after"]
                logged.append((table, LETTERS[op], read_array(old), read_array(new)))
            elif names[it["oid"]] in self.tables and it["op"] in "cud":
                changes.append((names[it["oid"]], it["op"], it["before"], it["after"]))
        for table in self.tables:
            ours, theirs = ([it for it in some if it[0] == table] for some in (changes, logged))
            if ours != theirs:
                first = next(
                    (pair for pair in zip(ours, theirs) if pair[0] != pair[1]),
                    (len(ours), len(theirs)),
                )
                raise Failed(
                    f"commit {end}, table {table}: the feed has {str(first[0])[:600]}, and the trigger {str(first[1])[:600]}"
                )
            self.count += len(ours)


def segments(feed: Path) -> list[Path]:
    return sorted(it for it in feed.iterdir() if len(it.name) == 16)


def columns_in(described: bytes) -> list[list[Any]]:
    """Name, type and modifier of each column of a definition, as a store has that."""
    found, at = list[List[Any]](), 2
    while at < len(described):
        end = described.index(b"\0", at + 1)
        found.append(
            [described[at + 1 : end].decode(), *struct.unpack_from(">Ii", described, end + 1)]
        )
        at = end + 9
    return found


def definitions_of(store: Path) -> dict[tuple[str, str], dict[str, Any]]:
    """What a store's tables are, by schema and name, as a feed would tell it."""
    with sound.copied(store) as base:
        relations = contents.read(base).relations
    found = {}
    for oid, it in sorted(relations.items()):
        schema, columns = it.namespace or "pg_catalog", columns_in(it.columns)
        found[schema, it.name] = {
            "oid": oid,
            "schema": schema,
            "table": it.name,
            "columns": columns,
        }
    return found


def base_of(
    cluster: Cluster, program: Path, snapshot: Path, *publications: str, database: str = "shop"
) -> Replay:
    """The rows of a copy of the store, from which a feed is replayed. (The server may have altered
    a table since, so what that was is told by the copy.)"""
    rows, position = rows_of_store(program, snapshot)
    state, definitions = Replay(lsn_of(position)), definitions_of(snapshot)
    with cluster.connect(database) as session:
        tables = [(schema, table) for schema, table, _ in published(session, publications)]
    for it in tables:
        if it in definitions:
            state.begin(definitions[it], collections.Counter(rows.get(it, {})))
    return state


def rows_of_feed(
    feed: Path, state: Replay | None = None, look: Callable[[Replay], None] = lambda _: None
) -> tuple[Rows, Replay]:
    """The rows to which a feed leads, from its beginning or a base. Fails where a change found no
    row. `look` is called at each commit."""
    state = state or Replay(int(segments(feed)[0].name, 16))
    look(state)
    for path in segments(feed):
        for commit, body in commits(path):
            state.commit(commit, body)
            look(state)
    if state.missed:
        raise Failed(f"{state.missed} changes of the feed found no row")
    found: Rows = {}
    for oid, rows in state.rows.items():
        if counted := +rows:
            definition = state.definitions[oid]
            found[definition["schema"], definition["table"]] = counted  # type: ignore[assignment]
    return found, state


def check_images(feed: Path, *tables: str, above: int = 0) -> int:
    """Compares all images of a feed, of the commits that end above an LSN. Returns how many changes
    that were."""
    images = Images(*tables)
    for path in segments(feed):
        for commit, body in commits(path):
            if lsn_of(commit["end"]) > above:
                images.check(commit["end"], body)
    return images.count


@contextlib.contextmanager
def reading(path: Path) -> Iterator[sqlite3.Connection]:
    """A file of tables, in one transaction."""
    with contextlib.closing(
        sqlite3.connect(f"file:{path}?mode=ro", uri=True, timeout=30, isolation_level=None)
    ) as base:
        base.execute("BEGIN")
        yield base


class Held(NamedTuple):
    """What a table has: the types of its columns, and how often it has each row, told so that 1,
    1.0 and true are others, and -0 is."""

    kinds: Tuple[str, ...]
    rows: "collections.Counter[str]"


# By schema and name.
Tables = Dict[Tuple[str, str], Held]


def held(kinds: Iterable[str], rows: Iterable[tuple[Value, ...]]) -> Held:
    return Held(tuple(kinds), collections.Counter(repr(tuple(row)) for row in rows))


def tables_of_file(path: Path) -> tuple[Tables, str]:
    """The tables of a file that have rows, and the file's LSN."""
    found: Tables = {}
    with reading(path) as base:
        (lsn,) = base.execute("SELECT lsn FROM pgsub_position").fetchone()
        for name, schema, table, _ in base.execute("SELECT * FROM pgsub_tables").fetchall():
            kinds = [
                kind for (kind,) in base.execute("SELECT type FROM pragma_table_info(?)", (name,))
            ]
            it = held(kinds, base.execute(f"SELECT * FROM {quoted(name)}"))
            if it.rows:
                found[schema, table] = it
    return found, lsn


def tables_of_session(session: Session, *publications: str) -> Tables:
    """Those that SQLite has to have for the rows that a session sees of published tables."""
    found: Tables = {}
    for schema, table, query in list(published(session, publications)):
        name = f"{quoted(schema)}.{quoted(table)}".replace("'", "''")
        kinds = [has(kind) for _, kind in columns_of(session, name)]
        types = (kind for several in kinds for kind, _ in several)
        it = held(types, (valued(kinds, row) for row in session.copied(query)))
        if it.rows:
            found[schema, table] = it
    return found


def settle(session: Session) -> None:
    """Has values printed as they are sent."""
    session.run(*(f"SET {name} = '{value}'" for name, value in SETTINGS.items()))


def tables_of_server(cluster: Cluster, *publications: str, database: str = "shop") -> Tables:
    with cluster.connect(database) as session:
        settle(session)
        return tables_of_session(session, *publications)


def valued(kinds: list[list[tuple[str, Read]]], row: Row) -> tuple[Value, ...]:
    return tuple(
        None if cell is None else read(cell)
        for several, cell in zip(kinds, row)
        for _, read in several
    )


def compare_file(path: Path, theirs: Tables) -> int:
    """Fails where the tables of a file aren't these. Returns how many rows there are."""
    ours, lsn = tables_of_file(path)
    none = Held((), collections.Counter())
    for table in sorted({*ours, *theirs}):
        here, there = ours.get(table, none), theirs.get(table, none)
        if here.rows != there.rows:
            lacks, has = (
                list((there.rows - here.rows).items())[:3],
                list((here.rows - there.rows).items())[:3],
            )
            raise Failed(
                f"{path} at {lsn}, {'.'.join(table)}: it lacks {str(lacks)[:600]}, and has {str(has)[:600]} instead"
            )
        if here.kinds != there.kinds:
            raise Failed(
                f"{path} at {lsn}, {'.'.join(table)}: columns of the types {here.kinds} in place of {there.kinds}"
            )
    return sum(sum(it.rows.values()) for it in ours.values())


def compare_tables(cluster: Cluster, path: Path, *publications: str, database: str = "shop") -> int:
    """Fails where the tables of a file don't have the server's rows. Returns how many rows there
    are."""
    return compare_file(path, tables_of_server(cluster, *publications, database=database))


# How many rows there are, and a number for these, which is another one for other rows.
Digest = Tuple[int, int]
# By schema and name of a table that has rows.
Digests = Dict[Tuple[str, str], Digest]
NO_ROWS = 0, 0


class Unlike(Failed):
    """A file had other rows at an LSN than those to which the feed leads there, in these tables:
    how many, and which."""

    def __init__(self, at: int, found: Digests, wanted: Digests) -> None:
        tables = sorted({*found, *wanted})
        self.at = at
        self.tables = {
            it: found.get(it, NO_ROWS) for it in tables if found.get(it) != wanted.get(it)
        }
        told = [
            f"{'.'.join(it)} ({rows}, where it leads to {wanted.get(it, NO_ROWS)[0]})"
            for it, (rows, _) in self.tables.items()
        ]
        super().__init__(
            f"at {at:X} a reader saw other rows of {', '.join(told)} than the feed leads to"
        )


def digest_of(rows: Mapping[Any, int]) -> Digest:
    return sum(rows.values()), hash(frozenset(rows.items()))


def explained(feed: Path, base: Replay | None, unlike: Unlike) -> str:
    """After which commits a feed leads to the rows that were seen of each table."""
    found: dict[tuple[str, str], list[str]] = {it: [] for it in unlike.tables}

    def look(state: Replay) -> None:
        led = digests_of_replay(state)
        for table, digest in unlike.tables.items():
            if led.get(table, NO_ROWS) == digest:
                found[table].append(f"{state.at:X}")

    rows_of_feed(feed, base, look)
    told = (
        f"{'.'.join(table)} after {f'{at[0]} to {at[-1]}' if at else 'no commit'}"
        for table, at in found.items()
    )
    return f"it leads to those of {', '.join(told)}"


def digests_of_file(path: Path) -> tuple[Digests, str]:
    """Those of the tables of a file, and its LSN."""
    found: Digests = {}
    with reading(path) as base:
        (lsn,) = base.execute("SELECT lsn FROM pgsub_position").fetchone()
        for name, schema, table, _ in base.execute("SELECT * FROM pgsub_tables").fetchall():
            if rows := collections.Counter(base.execute(f"SELECT * FROM {quoted(name)}")):
                found[schema, table] = digest_of(rows)
    return found, lsn


def digests_of_replay(state: Replay) -> Digests:
    """Those of the tables that SQLite has to have for the rows to which a feed has led."""
    found: Digests = {}
    for oid, rows in state.rows.items():
        definition = state.definitions[oid]
        kinds = [has(kind_of(oid, modifier)) for _, oid, modifier in definition["columns"]]
        told = collections.Counter[Any]()
        for row, count in (+rows).items():
            told[valued(kinds, row)] += count  # type: ignore[arg-type]
        if told:
            found[definition["schema"], definition["table"]] = digest_of(told)
    return found


class Reader(threading.Thread):
    """Reads a file of tables again and again while it is written, and keeps which rows it had at
    which LSN."""

    def __init__(self, path: Path) -> None:
        super().__init__(daemon=True)
        self.path, self.ended = path, threading.Event()
        self.seen: Dict[int, Digests] = {}
        self.wrong = ""

    def run(self) -> None:
        pause = 0.1
        while not self.ended.wait(pause) and not self.wrong:
            began = time.monotonic()
            if self.path.exists():
                self.read()
            pause = 0.1 + time.monotonic() - began

    def read(self) -> None:
        try:
            found, text = digests_of_file(self.path)
        except sqlite3.Error as error:
            self.wrong = f"a reader got: {error}"
            return
        if self.seen.setdefault(lsn_of(text), found) != found:
            self.wrong = f"a reader saw two states at {text}"

    def check(self, state: Replay) -> None:
        """Fails where it has seen other rows than those to which the feed leads there."""
        found = self.seen.get(state.at)
        if found is not None and found != (wanted := digests_of_replay(state)):
            raise Unlike(state.at, found, wanted)

    def finish(self) -> None:
        self.ended.set()
        self.join()
        if self.wrong:
            raise Failed(self.wrong)
