"""The messages of a change, also as lines: its envelope under the row's key, and what a key that
is gone needs.

| Change | Messages |
|---|---|
| insert, update, row of a base | an envelope with `c`, `u` or `r` |
| update of the key | `d` and a tombstone under the old key, `c` under the new one |
| delete | `d` and a tombstone |
| TRUNCATE | `t` without a key |
| logical message | `m` under its prefix |

A table without a key has no tombstones, and updates as they are.
"""

import collections
import functools
import time
from collections.abc import Callable, Iterable, Iterator, Sequence
from typing import Any, NamedTuple

from .. import log
from ..column_types import KnownTypes
from ..formats.lines import json_line
from ..interruption import Check, never
from ..known_tables import KnownTables
from ..reader.commits import XID, Cells, Change, Commit, Event, Head, Message as Logical, Missed
from ..reader.following import Chosen
from ..reader.segments import Reader
from ..relation import Relation, TableTypes
from ..tables.indexes import OTHER, lacking, other_key
from . import logical_messages
from .kinds import fields, of
from .settings import TOMBSTONES, TRANSACTIONS, Settings
from .tables import Source, Table, schema_text, times_of, versioned

METADATA = "io.debezium.connector.common.TransactionMetadata"
TRANSACTION_KEY = schema_text(versioned(f"{METADATA}Key", 1, fields(False, id="string")))
COLLECTION = versioned(
    "event.collection", 1, fields(False, data_collection="string", event_count="int64")
)
TRANSACTION_VALUE = schema_text(
    versioned(
        f"{METADATA}Value",
        1,
        [
            *fields(False, status="string", id="string"),
            *fields(True, event_count="int64"),
            of({"type": "array", "items": COLLECTION}, True, field="data_collections"),
            *fields(False, ts_ms="int64"),
        ],
    )
)


class Message(NamedTuple):
    """A message of a topic: `key` and `value` are JSON, or None. `n` is the number of its change,
    `part` that of the message among the change's. `is_to_all`: it is for each partition."""

    topic: str
    key: bytes | None
    value: bytes | None
    n: int
    part: int = 0
    is_to_all: bool = False


def with_schema(schema: bytes, payload: object) -> bytes:
    return b'{"schema":%b,"payload":%b}' % (schema, json_line(payload).rstrip(b"\n"))


class Envelopes:
    """Makes messages of changes. `known`: the store knows primary keys that no message tells;
    `types`: the feed says what the catalog does."""

    def __init__(
        self,
        settings: Settings,
        known: KnownTables | None = None,
        check: Check = never,
        types: KnownTypes | None = None,
    ) -> None:
        self.settings, self.known, self.check = settings, known, check
        self.types = types or KnownTypes()
        self.tables = dict[int, Table]()
        # the definitions of the commit by now, with what is known of them
        self.typed = dict[int, tuple[Relation, TableTypes | None]]()
        self.told = log.Once()
        self.topics = dict[str, int]()

    def begin(self, head: Head, commit: Commit, is_base: bool = False) -> None:
        """Begins a commit, or the rows of a base."""
        self.commit, self.typed = commit, {}
        self.times = times_of(time.time_ns())
        self.source = Source(self.settings.prefix, head, commit, self.times, is_base)
        has_xid = commit.xid is not None and commit.xid != XID
        self.id = f"{commit.xid}:{self.source.lsn}" if has_xid else None
        # how many envelopes the commit has so far, by table and in all
        self.counts = collections.Counter[str]()
        self.total = 0

    def messages(self, it: Event) -> Iterator[Message]:
        """Those of a change. One that found no row has none, which is told once."""
        if isinstance(it, Logical):
            yield self.logical(it)
            return
        if isinstance(it, Missed):
            text = "a change that found no row is left out, and any later"
            self.told.warning("x", f"{self.commit.text()}: {text}")
            return
        table = self.table(it.relation)
        before, after = (self.key(table, it.n, row) for row in (it.before, it.after))
        if it.op == "u" and before and before != after:
            yield from self.deletion(table, before, it)
            yield self.envelope(table, after, "c", None, it.after, it.n, 2)
        elif it.op == "d":
            yield from self.deletion(table, before, it)
        else:
            is_to_all = it.op == "t"
            yield self.envelope(table, after, it.op, it.before, it.after, it.n, is_to_all=is_to_all)

    def deletion(self, table: Table, key: bytes | None, it: Change) -> Iterator[Message]:
        yield self.envelope(table, key, "d", it.before, None, it.n)
        if key is not None and self.settings[TOMBSTONES] == "true":
            yield Message(table.topic, key, None, it.n, 1)

    def envelope(
        self,
        table: Table,
        key: bytes | None,
        op: str,
        before: Cells | None,
        after: Cells | None,
        n: int,
        part: int = 0,
        is_to_all: bool = False,
    ) -> Message:
        relation = table.relation
        where = {"schema": relation.namespace or "pg_catalog", "table": relation.name}
        payload: dict[str, object] = {
            "before": table.row(before),
            "after": table.row(after),
            "source": self.source.told | where,
            "transaction": self.order(table.collection),
            "op": op,
        }
        value = self.text(lambda: table.schema, payload | self.times)
        return Message(table.topic, key, value, n, part, is_to_all)

    def logical(self, it: Logical) -> Message:
        """That of a logical message."""
        settings, order = self.settings, self.order(logical_messages.COLLECTION)
        told = settings, self.times, self.source.told, order
        value = logical_messages.value_of(it, *told)
        return Message(
            logical_messages.topic_of(settings),
            self.text(lambda: logical_messages.KEY, logical_messages.key_of(it)),
            self.text(lambda: self.message_schema, value),
            it.n,
        )

    @functools.cached_property
    def message_schema(self) -> bytes:
        return logical_messages.schema_of(self.settings)

    def order(self, collection: str) -> dict[str, object] | None:
        """Counts one more of a table, or a message. Returns where it is in its transaction."""
        self.total += 1
        self.counts[collection] += 1
        order: dict[str, object] = {
            "id": self.id,
            "total_order": self.total,
            "data_collection_order": self.counts[collection],
        }
        return order if self.id else None

    def text(self, schema: Callable[[], bytes], payload: object) -> bytes:
        if self.settings.schemas:
            return with_schema(schema(), payload)
        return json_line(payload).rstrip(b"\n")

    def key(self, table: Table, n: int, cells: Sequence[Any] | None) -> bytes | None:
        if cells is None or not table.key:
            return None
        row = table.key_row(cells)
        if row is None:
            name = table.relation.text()
            text = "a row has null in the key, so its messages have none"
            self.told.warning(name, f"{self.commit.text()}:{n}: {name}: {text}")
            return None
        return self.text(lambda: table.key_schema, row)

    # ---- transactions

    def boundary(self, is_end: bool) -> Iterator[Message]:
        """What tells that the transaction of a commit begins or ends, where that is asked for."""
        if self.settings[TRANSACTIONS] != "true" or self.id is None:
            return
        collections_told = [
            {"data_collection": name, "event_count": count} for name, count in self.counts.items()
        ]
        payload = {
            "status": "END" if is_end else "BEGIN",
            "id": self.id,
            "event_count": self.total if is_end else None,
            "data_collections": collections_told if is_end else None,
            "ts_ms": self.source.told["ts_ms"],
        }
        key = self.text(lambda: TRANSACTION_KEY, {"id": self.id})
        value = self.text(lambda: TRANSACTION_VALUE, payload)
        n = self.commit.changes if is_end else -1
        yield Message(f"{self.settings.prefix}.transaction", key, value, n)

    def of_commit(self, head: Head, commit: Commit, events: Iterable[Event]) -> Iterator[Message]:
        """All messages of a commit, in order."""
        self.begin(head, commit, commit.base is not None)
        yield from self.boundary(is_end=False)
        for it in events:
            yield from self.messages(it)
        yield from self.boundary(is_end=True)

    # ---- tables

    def table(self, relation: Relation) -> Table:
        found, types = self.tables.get(relation.oid), self.types_of(relation)
        primary = self.primary(relation, types)
        now = relation, primary, types
        if found is None or (found.relation, found.primary, found.types) != now:
            told = self.settings, self.told
            found = self.tables[relation.oid] = Table(relation, primary, *told, types)
            self.claim(found)
        return found

    def types_of(self, relation: Relation) -> TableTypes | None:
        """What the catalog says of a table where the commit changes it."""
        known = self.typed.get(relation.oid)
        if known is None or known[0] is not relation:
            known = self.typed[relation.oid] = relation, self.types.of(relation, self.commit)
        return known[1]

    def claim(self, table: Table) -> None:
        """Tells where another table has had the topic."""
        oid = self.topics.setdefault(table.topic, table.relation.oid)
        if oid != table.relation.oid:
            name = table.relation.text()
            text = f"the topic {table.topic} has rows of another table, {oid}, too"
            self.told.warning(name, f"{name}: {text}")
            self.topics[table.topic] = table.relation.oid

    def primary(self, relation: Relation, types: TableTypes | None) -> tuple[str, ...]:
        """The columns of a primary key beside the replica identity, by the store, or the feed."""
        if relation.shape.identity not in OTHER:
            return ()
        if self.known is None:
            found = types.primary if types else ()
        else:
            if relation.oid in self.tables:
                self.known.look()
            else:
                self.known.wait(relation.oid, self.commit.end, self.check)
            found = self.known.primary(relation.oid) or ()
        return () if lacking(found, relation) else other_key(relation, found)


class Debezium:
    """The values, each a line. `with_keys`: also the tombstones, which have none, and before each
    the key and a tab, both empty where there is none."""

    def __init__(self, chosen: Chosen, envelopes: Envelopes, with_keys: bool) -> None:
        self.chosen, self.envelopes, self.with_keys = chosen, envelopes, with_keys

    def print(self, reader: Reader, commit: Commit) -> Iterator[bytes]:
        assert reader.head
        events = self.chosen.events(reader.parts(commit))
        for it in self.envelopes.of_commit(reader.head, commit, events):
            if self.with_keys:
                yield (it.key or b"") + b"\t" + (it.value or b"") + b"\n"
            elif it.value is not None:
                yield it.value + b"\n"
