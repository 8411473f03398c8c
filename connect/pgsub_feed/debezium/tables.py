"""A table as messages have it: its topic, key, rows and source, and their schemas."""

import functools
from collections.abc import Mapping, Sequence

from .. import log
from ..errors import Unfit
from ..formats.keys import escaped, full, key_of
from ..json_texts import compact
from ..reader.commits import Cell, Commit, Head
from ..relation import Column, ColumnType, Relation, TableTypes
from ..tables.reshape import printed
from ..tables.values import KINDS, TEXTS
from ..version import VERSION
from .kinds import Schema, debezium, fields, kind_of_column, of
from .settings import DECIMALS, FAILURES, Settings

CONNECTOR = "postgresql"
SNAPSHOTS = "true,first,first_in_data_collection,last_in_data_collection,last,false,incremental"


def versioned(
    name: str, version: int, fields: list[Schema], optional: bool = False, **more: str
) -> Schema:
    about = {"optional": optional, "name": name, "version": version}
    return {"type": "struct", "fields": fields, **about, **more}


SNAPSHOT = of(
    debezium("string", "data.Enum", allowed=SNAPSHOTS), True, default="false", field="snapshot"
)
SOURCE = versioned(
    "io.debezium.connector.postgresql.Source",
    1,
    [
        *fields(False, version="string", connector="string", name="string", ts_ms="int64"),
        SNAPSHOT,
        *fields(False, db="string"),
        *fields(True, sequence="string", ts_us="int64", ts_ns="int64"),
        *fields(False, schema="string", table="string"),
        *fields(True, txId="int64", lsn="int64", xmin="int64"),
    ],
    field="source",
)
ORDER = fields(False, id="string", total_order="int64", data_collection_order="int64")
TRANSACTION = versioned("event.block", 1, ORDER, True, field="transaction")
TIMES = fields(True, ts_ms="int64", ts_us="int64", ts_ns="int64")


def times_of(nanoseconds: int) -> dict[str, object]:
    """When something was, in nanoseconds since 1970, as messages have it."""
    return {
        "ts_ms": nanoseconds // 1000000,
        "ts_us": nanoseconds // 1000,
        "ts_ns": nanoseconds,
    }


class Source:
    """What all changes of a commit have of their source. Where the commit's time isn't known it is
    that at which its messages were made."""

    def __init__(
        self, prefix: str, head: Head, commit: Commit, now: Mapping[str, object], is_base: bool
    ) -> None:
        self.lsn = commit.end if commit.lsn is None else commit.lsn
        before = "null" if is_base else f'"{commit.prev}"'
        times = now if commit.ts_us is None else times_of(commit.ts_us * 1000)
        self.told: dict[str, object] = {
            "version": VERSION,
            "connector": CONNECTOR,
            "name": prefix,
            "ts_ms": times["ts_ms"],
            "snapshot": "true" if is_base else "false",
            "db": head.database,
            "sequence": f'[{before},"{self.lsn}"]',
            "ts_us": times["ts_us"],
            "ts_ns": times["ts_ns"],
            "schema": "",
            "table": "",
            "txId": commit.xid,
            "lsn": self.lsn,
            "xmin": None,
        }


# What stays as it is in a part of a topic's name. (`-` begins what another byte is written as.)
OF_TOPIC = frozenset(b"_0123456789ABCDEFGHIJKLMNOPQRSTUVWXYZabcdefghijklmnopqrstuvwxyz")
MOST_TOPIC = 249
WRONG = (ValueError, LookupError, ArithmeticError)


def topic_part(name: str) -> str:
    return escaped(name, OF_TOPIC, "-{:02X}")


def topic_of(prefix: str, relation: Relation) -> str:
    found = f"{prefix}.{topic_part(full(relation.namespace))}.{topic_part(relation.name)}"
    if len(found) > MOST_TOPIC:
        raise Unfit(
            f"{relation.text()}: its topic {found} has more than {MOST_TOPIC} characters: leave the table out by --table, or take"
            " a shorter topic.prefix"
        )
    return found


def schema_text(schema: Schema) -> bytes:
    return compact(schema).encode()


class Table:
    """A relation with what its settings make of it. `primary`: the columns of its primary key,
    where its replica identity is another; `types`: what the catalog says of it."""

    def __init__(
        self,
        relation: Relation,
        primary: Sequence[str],
        settings: Settings,
        told: log.Once,
        types: TableTypes | None = None,
    ) -> None:
        self.relation, self.primary, self.settings, self.told = (relation, primary, settings, told)
        self.types, self.columns = types, relation.shape.columns
        known: dict[str, ColumnType] = types.columns if types else {}
        self.kinds = [kind_of_column(it, known.get(it.name), settings) for it in self.columns]
        self.optional = [not (it.name in known and known[it.name].not_null) for it in self.columns]
        self.key = key_of(relation, primary)
        self.topic = topic_of(settings.prefix, relation)
        self.collection = f"{full(relation.namespace)}.{relation.name}"

    def field(self, at: int, optional: bool) -> Schema:
        return of(self.kinds[at].schema, optional, field=self.columns[at].name)

    @functools.cached_property
    def key_schema(self) -> bytes:
        key = [self.field(at, False) for at in self.key]
        return schema_text(of({"type": "struct", "fields": key}, False, name=f"{self.topic}.Key"))

    @functools.cached_property
    def schema(self) -> bytes:
        """That of an envelope."""
        columns = [self.field(at, it) for at, it in enumerate(self.optional)]
        row = of({"type": "struct", "fields": columns}, True, name=f"{self.topic}.Value")
        rows = [{**row, "field": it} for it in ("before", "after")]
        told = [*rows, SOURCE, TRANSACTION, *fields(False, op="string"), *TIMES]
        return schema_text(versioned(f"{self.topic}.Envelope", 2, told))

    def value(self, at: int, cell: Cell) -> object:
        """A cell as JSON has it. Raises one of those in WRONG where its type has no such value."""
        if cell is None:
            return None
        if isinstance(cell, bytes):
            cell = text_of(self.columns[at], cell)
        return self.kinds[at].read(cell)

    def row(self, cells: Sequence[Cell] | None) -> dict[str, object] | None:
        if cells is None:
            return None
        found = dict[str, object]()
        for at, cell in enumerate(cells):
            try:
                value = self.value(at, cell)
            except WRONG as error:
                self.note_wrong(at, error)
                value = None
            if value is None and not self.optional[at]:
                self.note_null(at)
            found[self.columns[at].name] = value
        return found

    def note_null(self, at: int) -> None:
        """Has a column be optional that the catalog said is never null: rows may be from before it
        was so, or had no such column."""
        self.optional[at] = True
        self.__dict__.pop("schema", None)

    def key_row(self, cells: Sequence[Cell]) -> dict[str, object] | None:
        """A row's key, None where the table has none, or null is in it."""
        if not self.key or any(cells[at] is None for at in self.key):
            return None
        try:
            return {self.columns[at].name: self.value(at, cells[at]) for at in self.key}
        except WRONG as error:
            names = ", ".join(self.columns[at].name for at in self.key)
            raise Unfit(
                f"{self.relation.text()}: the key {names} has a value that its type has no form for ({error}): say {DECIMALS}=string, or leave"
                " the table out by --table"
            ) from None

    def note_wrong(self, at: int, error: Exception) -> None:
        """Tells once of a column that it has a value which its type has no form for."""
        column = self.columns[at]
        text = f"{self.relation.text()}: the column {column.name} has a value that its type has no form for ({error})"
        if self.settings[FAILURES] == "fail":
            raise Unfit(f"{text}: leave the table out by --table, or say {FAILURES}=warn") from None
        where = f"{self.topic} {column.name}"
        self.told.warning(where, f"{text}: null is in its place, there and later")


def text_of(column: Column, cell: bytes) -> str:
    """A value in binary format as the server prints it, where its type is known."""
    if column.type_oid in TEXTS:
        return cell.decode()
    if column.type_oid not in KINDS:
        raise ValueError(f"its type {column.type_oid} isn't read in binary format")
    _, _, read = KINDS[column.type_oid]
    return str(printed(column, read(cell)))
