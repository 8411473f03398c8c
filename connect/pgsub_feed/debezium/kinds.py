"""The types of PostgreSQL as types of Kafka Connect: the schema of each, and what reads a value.

A type that isn't PostgreSQL's own, nor an enumeration or a domain, or has no form of its own in
Debezium, is a string, as the server prints it.
"""

import base64
import re
from collections.abc import Callable, Sequence
from typing import Any, NamedTuple

from ..changes import DATE, OID, TIME, TIMESTAMP, TIMESTAMPTZ, UUID, read_bool
from ..relation import Column, ColumnType
from ..tables.values import BOOL, BYTEA, FLOAT4, FLOAT8, INT2, INT4, INT8, NUMERIC
from . import values
from .settings import BINARIES, DECIMALS, INTERVALS, TIMES, Settings

Schema = dict[str, Any]

JSON, XML, POINT, MONEY, INTERVAL, TIMETZ = 114, 142, 600, 790, 1186, 1266
BIT, VARBIT, JSONB, TSVECTOR = 1560, 1562, 3802, 3614
# By the OID of an array's type that of its elements'. (Those of box are separated by `;`.)
ARRAYS = {
    143: XML, 199: JSON, 271: 5069, 629: 628, 651: 650, 719: 718, 775: 774, 791: MONEY, 1000: BOOL,
    1001: BYTEA, 1002: 18, 1003: 19, 1005: INT2, 1007: INT4, 1008: 24, 1009: 25, 1010: 27, 1011: 28,
    1012: 29, 1014: 1042, 1015: 1043, 1016: INT8, 1017: POINT, 1018: 601, 1019: 602, 1021: FLOAT4,
    1022: FLOAT8, 1027: 604, 1028: OID, 1034: 1033, 1040: 829, 1041: 869, 1115: TIMESTAMP,
    1182: DATE, 1183: TIME, 1185: TIMESTAMPTZ, 1187: INTERVAL, 1231: NUMERIC, 1263: 2275,
    1270: TIMETZ, 1561: BIT, 1563: VARBIT, 2201: 1790, 2210: 2205, 2211: 2206, 2949: 2970,
    2951: UUID, 3221: 3220, 3643: TSVECTOR, 3645: 3615, 3807: JSONB, 3905: 3904, 3907: 3906,
    3909: 3908, 3911: 3910, 3913: 3912, 3927: 3926, 4073: 4072, 5039: 5038, 6150: 4451, 6151: 4532,
    6152: 4533, 6153: 4534, 6155: 4535, 6157: 4536,
}  # fmt: skip
NO_LENGTH = 2147483647
STRING: Schema = {"type": "string"}


class Kind(NamedTuple):
    """A schema without what a field has of its own, and what makes JSON's value of a text. That
    raises a ValueError, a LookupError or an ArithmeticError where it can't."""

    schema: Schema
    read: values.Read


def named(kind: str, name: str, **parameters: str) -> Schema:
    found: Schema = {"type": kind, "name": name, "version": 1}
    return {**found, "parameters": parameters} if parameters else found


def debezium(kind: str, name: str, **parameters: str) -> Schema:
    return named(kind, f"io.debezium.{name}", **parameters)


def connect(kind: str, name: str, **parameters: str) -> Schema:
    return named(kind, f"org.apache.kafka.connect.data.{name}", **parameters)


def text(text: str) -> str:
    return text


def of(schema: Schema, optional: bool, **more: Any) -> Schema:
    """The schema of a field, in the order in which Connect writes one."""
    kind = {it: schema[it] for it in ("type", "items", "fields") if it in schema}
    rest = {name: it for name, it in schema.items() if name not in kind}
    return {**kind, "optional": optional, **rest, **more}


def fields(optional: bool, /, **kinds: str) -> list[Schema]:
    """Fields with these names, of these types."""
    return [{"type": kind, "optional": optional, "field": name} for name, kind in kinds.items()]


SMALL, LARGE = Kind({"type": "float"}, values.read_float), Kind(
    {"type": "double"}, values.read_float
)
TEXT = Kind(STRING, text)
# Those that are the same whatever the settings and the type modifier are.
PLAIN: dict[int, Kind] = {
    BOOL: Kind({"type": "boolean"}, read_bool),
    INT2: Kind({"type": "int16"}, values.signed(16)),
    INT4: Kind({"type": "int32"}, values.signed(32)),
    INT8: Kind({"type": "int64"}, values.signed(64)),
    OID: Kind({"type": "int64"}, values.whole(0, (1 << 32) - 1)),
    FLOAT4: SMALL,
    FLOAT8: LARGE,
    JSON: Kind(debezium("string", "data.Json"), text),
    JSONB: Kind(debezium("string", "data.Json"), text),
    XML: Kind(debezium("string", "data.Xml"), text),
    UUID: Kind(debezium("string", "data.Uuid"), text),
    TSVECTOR: Kind(debezium("string", "data.Tsvector"), text),
    TIMESTAMPTZ: Kind(debezium("string", "time.ZonedTimestamp"), values.zoned_moment),
    TIMETZ: Kind(debezium("string", "time.ZonedTime"), values.zoned_clock),
    POINT: Kind(
        {
            **debezium("struct", "data.geometry.Point"),
            "doc": "Geometry (POINT)",
            "fields": [
                *fields(False, x="double", y="double"),
                *fields(True, wkb="bytes", srid="int32"),
            ],
        },
        values.read_point,
    ),
}
VARIABLE_SCALE = Kind(
    {
        **debezium("struct", "data.VariableScaleDecimal"),
        "doc": "Variable scaled decimal",
        "fields": fields(False, scale="int32", value="bytes"),
    },
    values.variable_scale,
)
OF_BYTES: dict[str, Callable[[bytes], str]] = {
    "bytes": values.based,
    "base64": values.based,
    "base64-url-safe": lambda it: base64.urlsafe_b64encode(it).decode(),
    "hex": bytes.hex,
}
BYTES = {
    mode: Kind({"type": "bytes"} if mode == "bytes" else STRING, values.bytes_as(form))
    for mode, form in OF_BYTES.items()
}


def numeric(modifier: int, settings: Settings) -> Kind:
    mode = settings[DECIMALS]
    if mode != "precise":
        return LARGE if mode == "double" else TEXT
    if modifier < 4:
        return VARIABLE_SCALE
    scale = ((modifier - 4) & 0x7FF ^ 0x400) - 0x400
    precision = {"connect.decimal.precision": str((modifier - 4) >> 16)}
    return Kind(connect("bytes", "Decimal", scale=str(scale), **precision), values.scaled(scale))


def money(_: int, settings: Settings) -> Kind:
    mode = settings[DECIMALS]
    if mode == "precise":
        return Kind(connect("bytes", "Decimal", scale="2"), values.of_money(values.scaled(2)))
    return (
        Kind({"type": "double"}, values.of_money(values.read_float))
        if mode == "double"
        else MONEY_TEXT
    )


MONEY_TEXT = Kind(STRING, values.plain_money)


def in_millis(read: Callable[[str], int]) -> values.Read:
    return lambda it: read(it) // 1000


def date(_: int, settings: Settings) -> Kind:
    form = connect if settings[TIMES] == "connect" else debezium
    return Kind(form("int32", "Date" if form is connect else "time.Date"), values.read_days)


def time(modifier: int, settings: Settings) -> Kind:
    mode = settings[TIMES]
    if mode == "connect":
        return Kind(connect("int32", "Time"), in_millis(values.read_clock))
    if mode == "adaptive" and 0 <= modifier <= 3:
        return Kind(debezium("int32", "time.Time"), in_millis(values.read_clock))
    return Kind(debezium("int64", "time.MicroTime"), values.read_clock)


def timestamp(modifier: int, settings: Settings) -> Kind:
    if settings[TIMES] == "connect":
        return Kind(connect("int64", "Timestamp"), read_millis)
    if 0 <= modifier <= 3:
        return Kind(debezium("int64", "time.Timestamp"), read_millis)
    return Kind(debezium("int64", "time.MicroTimestamp"), values.read_micros)


def read_millis(it: str) -> int:
    # (years that microseconds in eight bytes don't reach)
    return (values.INFINITE[it] if it in values.INFINITE else values.read_moment(it)) // 1000


def interval(_: int, settings: Settings) -> Kind:
    if settings[INTERVALS] == "string":
        return Kind(debezium("string", "time.Interval"), values.interval_text)
    return Kind(debezium("int64", "time.MicroDuration"), values.interval_micros)


def bits(modifier: int, _: Settings) -> Kind:
    length = modifier if modifier > 0 else None
    schema = debezium("bytes", "data.Bits", length=str(length or NO_LENGTH))
    return Kind(schema, values.bits_of(length))


def bit(modifier: int, settings: Settings) -> Kind:
    return Kind({"type": "boolean"}, values.read_bit) if modifier == 1 else bits(modifier, settings)


BY_SETTINGS: dict[int, Callable[[int, Settings], Kind]] = {
    BYTEA: lambda _, settings: BYTES[settings[BINARIES]],
    NUMERIC: numeric,
    MONEY: money,
    DATE: date,
    TIME: time,
    TIMESTAMP: timestamp,
    INTERVAL: interval,
    BIT: bit,
    VARBIT: bits,
}


def array(element: Kind) -> Kind:
    """The array of elements that may be null."""

    def read(text: str) -> list[object]:
        return [None if it is None else element.read(it) for it in read_elements(text)]

    return Kind({"type": "array", "items": of(element.schema, True)}, read)


def enumeration(labels: Sequence[str]) -> Kind:
    return Kind(debezium("string", "data.Enum", allowed=",".join(labels)), text)


def kind_of_column(column: Column, known: ColumnType | None, settings: Settings) -> Kind:
    """What a column's type is in Connect: a domain is what it is of, an enumeration has its labels.
    `known`: what the catalog says of it."""
    name, type_oid, modifier = "", column.type_oid, column.modifier
    if known:
        name, type_oid, modifier = known.base or (known.name, type_oid, modifier)
    if known and known.labels:
        kind = enumeration(known.labels)
        return array(kind) if name.endswith("[]") else kind
    return kind_of(type_oid, modifier, settings)


def kind_of(type_oid: int, modifier: int, settings: Settings) -> Kind:
    """What a type is in Connect."""
    if type_oid in ARRAYS:
        return array(kind_of(ARRAYS[type_oid], modifier, settings))
    if type_oid in BY_SETTINGS:
        return BY_SETTINGS[type_oid](modifier, settings)
    return PLAIN.get(type_oid, TEXT)


# An element: quoted, with escapes, or as it is; and what comes after it.
ELEMENT = re.compile(r'(?:"((?:[^"\\]|\\.)*)"|([^,{}"\\]+))([,}])', re.DOTALL)
ESCAPED = re.compile(r"\\(.)", re.DOTALL)
BOUNDS = re.compile(r"\[-?\d+:-?\d+\]=")


def read_elements(text: str) -> list[str | None]:
    """The elements of an array of one dimension, wherever it begins; else a ValueError."""
    if bounds := BOUNDS.match(text):
        text = text[bounds.end() :]
    if text == "{}":
        return []
    if not text.startswith("{"):
        raise ValueError("it has more than one dimension, or is no array")
    found, at, sign = list[str | None](), 1, ","
    while sign == ",":
        element = ELEMENT.match(text, at)
        if not element:
            raise ValueError("it has more than one dimension, or is no array")
        quoted, plain, sign = element.groups()
        if quoted is not None:
            found.append(ESCAPED.sub(r"\1", quoted))
        else:
            found.append(None if plain.upper() == "NULL" else plain)
        at = element.end()
    if at != len(text):
        raise ValueError("something follows the array")
    return found
