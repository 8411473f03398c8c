"""What sinks have written, compared with a feed and with a server's rows. Nothing of the connector
is used."""

from __future__ import annotations

import collections
import json
from collections.abc import Iterable, Iterator, Sequence
from pathlib import Path
from typing import Any, Dict, FrozenSet, List, Optional, Tuple

from feed_replay import Replay, commits, lsn_of

from .cluster import Cluster
from .engines import NatsServer, RedisServer
from .errors import Failed
from .feeds import columns_of, segments
from .rows import SETTINGS, published, quoted

# A row by the names of its columns, without those that are null.
Named = FrozenSet[Tuple[str, str]]
# By OID the rows of each table, each as often as it is there.
Counted = Dict[int, "collections.Counter[Named]"]
Hashes = Dict[str, Dict[str, str]]


def named(names: Iterable[str], cells: Iterable[Optional[str]]) -> Named:
    return frozenset((name, cell) for name, cell in zip(names, cells) if cell is not None)


def plain(text: str, signs: str) -> str:
    """A text in which some signs are written by their numbers."""
    return "".join(f"%{ord(it):02X}" if it in signs else it for it in text)


def key_of(schema: str, table: str, key: Sequence[Optional[str]]) -> str:
    """The key of a row's hash."""
    name = plain(table, "%:.")
    name = name if schema == "public" else f"{plain(schema, '%:.')}.{name}"
    return ":".join([name, *("%null" if it is None else plain(it, "%:") for it in key)])


def hashes_of_feed(state: Replay) -> Hashes:
    """The hashes that a replayed feed leads to, of the tables with a key."""
    found = {}
    for oid, rows in state.rows.items():
        it = state.definitions[oid]
        names = [name for name, _, _ in it["columns"]]
        for row in +rows:
            cells = dict(zip(names, row))
            if it["key"] is not None:
                key = key_of(it["schema"], it["table"], [cells[name] for name in it["key"]])
                found[key] = {name: str(cell) for name, cell in cells.items() if cell is not None}
    return found


def rows_of_feed(state: Replay) -> Counted:
    found: Counted = {}
    for oid, rows in state.rows.items():
        names = [name for name, _, _ in state.definitions[oid]["columns"]]
        counted = collections.Counter[Named]()
        for row, copies in (+rows).items():
            counted[named(names, row)] += copies  # type: ignore[arg-type]
        if counted:
            found[oid] = counted
    return found


class Told:
    """Replays changes as a sink tells them: the rows are by the names of their columns, and carried
    by these."""

    def __init__(self) -> None:
        self.columns = dict[int, FrozenSet[str]]()
        self.rows: Counted = collections.defaultdict(collections.Counter)

    def change(self, oid: int, op: str, before: Any, after: Any) -> None:
        rows = self.rows[oid]
        if op == "x":
            return
        if op == "t":
            return rows.clear()
        for it in (before, after):
            if it is not None:
                self.carry(oid, frozenset(it))
        rows = self.rows[oid]
        if before is not None:
            row = named(before, before.values())
            if not rows[row]:
                raise Failed(f"table {oid}: the row before isn't there: {before}")
            rows[row] -= 1
        if after is not None:
            rows[named(after, after.values())] += 1
        return None

    def carry(self, oid: int, columns: FrozenSet[str]) -> None:
        old = self.columns.get(oid, columns)
        if old != columns:
            carried = collections.Counter[Named]()
            for row, copies in (+self.rows[oid]).items():
                carried[frozenset(it for it in row if it[0] in columns)] += copies
            self.rows[oid] = carried
        self.columns[oid] = columns

    def left(self) -> Counted:
        return {oid: +rows for oid, rows in self.rows.items() if +rows}


def read_id(text: str) -> Tuple[int, int]:
    lsn, n = text.split("-")
    return int(lsn), int(n)


# The stream of logical messages, and their subject.
STREAM, SUBJECT = "pgsub:message", "pgsub.message"
# One as a sink tells it: where its commit ends, its number there, and what it has.
Logical = Tuple[int, int, int, str, str]


def logical_of_feed(state: Replay) -> List[Logical]:
    """The messages that a replayed feed tells."""
    found, ends = list[Logical](), collections.Counter[int]()
    for it in state.messages:
        found.append((it.end, ends[it.end], it.lsn, it.prefix, it.content.decode()))
        ends[it.end] += 1
    return found


def logical_of_stream(entries: Dict[str, List[Tuple[str, Dict[str, str]]]]) -> List[Logical]:
    return [
        (*read_id(at), lsn_of(it["lsn"]), it["prefix"], it["content"])
        for at, it in entries.get(STREAM, [])
    ]


def logical_of_nats(messages: Iterable[Tuple[str, str, Any]]) -> List[Logical]:
    return [
        (lsn_of(it["end"]), it["n"], lsn_of(it["lsn"]), it["prefix"], it["content"])
        for subject, _, it in messages
        if subject == SUBJECT
    ]


def replay_streams(entries: Dict[str, List[Tuple[str, Dict[str, str]]]]) -> Counted:
    """The rows to which streams lead, whose ids give the order."""
    told, ordered = Told(), list[Tuple[int, int, Dict[str, str]]]()
    for stream in (it for name, it in entries.items() if name != STREAM):
        ids = [read_id(at) for at, _ in stream]
        if ids != sorted(set(ids)):
            raise Failed("the ids of a stream don't rise")
        ordered += [(*at, fields) for at, (_, fields) in zip(ids, stream)]
    for _, _, fields in sorted(ordered, key=lambda it: it[:2]):
        rows = [json.loads(fields[it]) if it in fields else None for it in ("before", "after")]
        told.change(int(fields["oid"]), fields["op"], *rows)
    return told.left()


def replay_messages(messages: Iterable[Tuple[str, str, Any]]) -> Tuple[Counted, List[str]]:
    """The rows to which messages lead, and their ids."""
    told, ids = Told(), []
    for _, id, it in messages:
        ids.append(id)
        if "oid" in it:
            told.change(it["oid"], it["op"], it.get("before"), it.get("after"))
    return told.left(), ids


def ids_of_feed(feed: Path, above: int) -> Iterator[str]:
    """The ids of the messages that the commits after an LSN have."""
    for path in segments(feed):
        for commit, body in commits(path):
            if lsn_of(commit["end"]) > above:
                count = sum(it.startswith(b'{"op":"m",') for it in body.splitlines())
                yield from (f"{commit['end']}:m{n}" for n in range(count))
                yield from (f"{commit['end']}:{n}" for n in range(commit["changes"]))
                yield f"{commit['end']}:commit"


def compare(what: str, ours: Any, theirs: Any) -> None:
    """Fails where two dictionaries, or lists, differ."""
    if ours == theirs:
        return
    wrong: List[Any]
    if isinstance(ours, dict):
        wrong = [
            (it, ours.get(it), theirs.get(it))
            for it in {**ours, **theirs}
            if ours.get(it) != theirs.get(it)
        ]
    else:
        wrong = [it for it in zip(ours, theirs) if it[0] != it[1]]
    raise Failed(
        f"{what}: {len(ours)} in place of {len(theirs)}; {len(wrong)} differ, as {str(wrong[:2])[:1500]}"
    )


def compare_hashes(redis: RedisServer, theirs: Hashes) -> int:
    ours = redis.hashes()
    compare("hashes", ours, theirs)
    return len(ours)


def compare_messages(nats: NatsServer, feed: Path) -> Tuple[Counted, int]:
    """Fails where a stream doesn't have each commit of a feed after its base once, and in order.
    Returns the rows, and how many messages."""
    rows, ids = replay_messages(nats.messages())
    begun = next(at for at, it in enumerate(ids) if it.endswith(":commit"))
    base = ids[begun].partition(":")[0]
    number = ids[0].split(":")[2] if begun else ""
    compare(
        "messages of the base", ids[:begun], [f"{base}:base:{number}:{n}" for n in range(begun)]
    )
    compare("messages", ids[begun + 1 :], list(ids_of_feed(feed, lsn_of(base))))
    return rows, len(ids)


# The primary key, unless that is deferrable, and else the index of the replica identity.
KEY = (
    "SELECT a.attname FROM (SELECT * FROM pg_index WHERE indrelid = '{0}'::regclass AND indimmediate"
    " AND (indisprimary OR indisreplident) ORDER BY indisprimary DESC LIMIT 1) i JOIN pg_attribute a"
    " ON a.attrelid = i.indrelid AND a.attnum = ANY ((i.indkey::int2[])[0:i.indnkeyatts - 1]) ORDER BY a.attnum"
)


def rows_of_server(cluster: Cluster, *publications: str) -> Tuple[Hashes, Counted]:
    """The hashes that a server's published rows are, and all of its rows."""
    hashes: Hashes = {}
    counted: Counted = {}
    with cluster.connect() as session:
        session.run(*(f"SET {name} = '{value}'" for name, value in SETTINGS.items()))
        for schema, table, query in list(published(session, publications)):
            name = f"{quoted(schema)}.{quoted(table)}".replace("'", "''")
            columns = [it for it, _ in columns_of(session, name)]
            keys = session.column(KEY.format(name))
            rows = collections.Counter[Named]()
            for row in session.copied(query):
                rows[named(columns, row)] += 1
                cells = dict(zip(columns, row))
                if keys:
                    found = {column: it for column, it in cells.items() if it is not None}
                    hashes[key_of(schema, table, [cells[it] for it in keys])] = found
            if rows:
                counted[int(session.value(f"SELECT '{name}'::regclass::oid"))] = rows
    return hashes, counted
