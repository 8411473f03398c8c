"""A table with a column of each type, what fills it, and its values as the server tells them and as
messages of Debezium's form have them: both as one text."""

from __future__ import annotations

import base64
import json
import struct
from collections.abc import Callable
from typing import Any, NamedTuple

DAY = 86400 * 10**6
EPOCH = "(extract(epoch from {}) * %d)::int8"


class Typed(NamedTuple):
    """A type, SQL that makes a value, SQL that tells the column's, and what tells it of the value
    in JSON. `of_server` makes the server's text the same."""

    kind: str
    made: str
    told: str
    of_json: Callable[[Any], Any] = str
    of_server: Callable[[str], Any] = str


def whole(text: str) -> int:
    return int.from_bytes(base64.b64decode(text), "big", signed=True)


def scaled(number: int, scale: int) -> str:
    digits = str(abs(number)).rjust(scale + 1, "0")
    sign = "-" if number < 0 else ""
    return sign + (f"{digits[:-scale]}.{digits[-scale:]}" if scale else digits)


def hex_of(form: str, *numbers: Any) -> str:
    return struct.pack(form, *map(float, numbers)).hex()


def bits(text: str) -> int:
    return int.from_bytes(base64.b64decode(text), "little")


def moment(text: str) -> str:
    whole, _, part = text.removesuffix("Z").partition(".")
    return f"{whole}.{part.ljust(6, '0')}"


def clock(text: str) -> int:
    time, _, part = text.removesuffix("Z").partition(".")
    hour, minute, second = map(int, time.split(":"))
    return (((hour * 60 + minute) * 60 + second) * 10**6 + int(part.ljust(6, "0"))) % DAY


def same(value: Any) -> Any:
    return value


PLAIN = "{}::text"
LIST = "array_to_json({})::text"
EACH = (
    "CASE WHEN {0} IS NOT NULL THEN array_to_json(array(SELECT %s FROM unnest({0}) it))::text END"
)
MONTHS = "(extract(year from {0}) * 12 + extract(month from {0})) * 2629800000000"
CLOCK = "extract(hour from {0}) * 3600 + extract(minute from {0}) * 60 + extract(second from {0})"
# (where nothing is told the value is a string, or a number, as the server prints it)
TYPES = (
    Typed("smallint", "random() * 60000 - 30000", PLAIN),
    Typed("bigint", "(random() * 1.8e19 - 9e18)::numeric::int8", PLAIN),
    Typed("boolean", "random() < 0.5", PLAIN, lambda it: str(it).lower()),
    Typed("real", "random() * 1e10 - 5e9", "encode(float4send({}), 'hex')", lambda it: hex_of(">f", it)),
    Typed("double precision", "random() / 1e20", "encode(float8send({}), 'hex')", lambda it: hex_of(">d", it)),
    Typed("numeric(12,3)", "random() * 1e9 - 5e8", PLAIN, lambda it: scaled(whole(it), 3)),
    Typed("numeric", "(random() * 1e6)::numeric(30,5) ^ 3", PLAIN, lambda it: scaled(whole(it["value"]), it["scale"])),
    Typed("money", "(random() * 1e6 - 5e5)::numeric::money", "{}::numeric::text", lambda it: scaled(whole(it), 2)),
    Typed("text", "E'Ünïcödé \\t\\n\"\\\\ 🐘 ' || random()", PLAIN),
    Typed("varchar(40)", "md5(random()::text)", PLAIN),
    Typed("char(8)", "left(md5(random()::text), (random() * 8)::int)", "rpad({}, 8)"),
    Typed("bytea", "decode(md5(random()::text), 'hex')", "encode({}, 'hex')", lambda it: base64.b64decode(it).hex()),
    Typed("date", "date '1500-01-01' + (random() * 400000)::int", "({} - date '1970-01-01')::text"),
    Typed("time", "random() * interval '24 hours'", EPOCH % 10**6 + "::text"),
    Typed("time(3)", "random() * interval '24 hours'", EPOCH % 1000 + "::text"),
    Typed("timestamp", "timestamp '0900-01-01' + random() * interval '3000 years'", EPOCH % 10**6 + "::text"),
    Typed("timestamp(2)", "timestamp '0900-01-01' + random() * interval '3000 years'", EPOCH % 1000 + "::text"),
    Typed("timestamptz", "timestamptz '0900-01-01' + random() * interval '3000 years'",
          "to_char({} at time zone 'UTC', 'YYYY-MM-DD\"T\"HH24:MI:SS.US')", moment),
    Typed("timetz", "(random() * interval '24 hours')::time::text::timetz at time zone interval '-03:30'",
          EPOCH % 10**6 + "::text", clock, lambda it: int(it) % DAY),
    Typed("interval", "random() * interval '50 years' - random() * interval '400 days' + random() * interval '9 hours'",
          f"({MONTHS} + extract(day from {{0}}) * 86400000000 + ({CLOCK}) * 1000000)::int8::text"),
    Typed("uuid", "md5(random()::text)::uuid", PLAIN),
    Typed("json", "json_build_object('a', random(), 'é', ARRAY[1, NULL])", PLAIN),
    Typed("jsonb", "jsonb_build_object('b', random(), 'é', ARRAY[1, NULL])", PLAIN),
    Typed("xml", "xmlelement(name a, random())", PLAIN),
    Typed("bit(10)", "(random() * 1023)::int::bit(10)", PLAIN, bits, lambda it: int(it, 2)),
    Typed("varbit(20)", "substring((random() * 1048575)::int::bit(20) for 1 + (random() * 19)::int)", PLAIN, bits,
          lambda it: int(it, 2)),
    Typed("bit(1)", "(random() < 0.5)::int::bit(1)", PLAIN, lambda it: str(int(it))),
    Typed("point", "point(random(), -random())",
          "encode(float8send({0}[0]), 'hex') || encode(float8send({0}[1]), 'hex')", lambda it: hex_of(">dd", it["x"], it["y"])),
    Typed("inet", "inet '10.0.0.0/8' + (random() * 1000000)::int", PLAIN),
    Typed("macaddr", "left(md5(random()::text), 12)::macaddr", PLAIN),
    Typed("int4range", "int4range(0, 1 + (random() * 100)::int)", PLAIN),
    Typed("oid", "(random() * 4e9)::int8::oid", PLAIN),
    Typed("tsvector", "to_tsvector('simple', md5(random()::text) || ' a')", PLAIN),
    Typed("mood", "(ARRAY['calm', 'it''s fine'])[1 + (random() * 1)::int]::mood", PLAIN),
    Typed("mood[]", "ARRAY['calm', NULL, 'it''s fine']::mood[]", "array_to_json({}::text[])::text", same, json.loads),
    Typed("price", "random() * 1000", "{}::numeric::text", lambda it: scaled(whole(it), 2)),
    Typed("several", "ARRAY[(random() * 1000)::int, NULL]", "array_to_json({}::int[])::text", same, json.loads),
    Typed("int[]", "ARRAY[(random() * 1000)::int, NULL]", LIST, same, json.loads),
    Typed("text[]", "ARRAY['a,b', NULL, '\"', '', 'NULL', E'\\\\', random()::text]", LIST, same, json.loads),
    Typed("boolean[]", "ARRAY[random() < 0.5, NULL]", LIST, same, json.loads),
    Typed("numeric(8,2)[]", "ARRAY[random() * 1000, NULL, -1]", "array_to_json({}::text[])::text",
          lambda it: [each if each is None else scaled(whole(each), 2) for each in it], json.loads),
    Typed("timestamp[]", "ARRAY[timestamp '1990-01-01' + random() * interval '90 years']",
          EACH % (EPOCH.format("it") % 10**6), same, json.loads),
    Typed("bytea[]", "ARRAY[decode(md5(random()::text), 'hex')]", EACH % "encode(it, 'hex')",
          lambda it: [base64.b64decode(each).hex() for each in it], json.loads),
)  # fmt: skip
NAMES = [f"c{at}" for at in range(len(TYPES))]
COLUMNS = ", ".join(f"{name} {it.kind}" for name, it in zip(NAMES, TYPES))
SCHEMA = (
    "CREATE TYPE mood AS ENUM ('calm', 'it''s fine')",
    "CREATE DOMAIN cost AS numeric(8, 2)",
    "CREATE DOMAIN price AS cost CHECK (value >= 0)",
    "CREATE DOMAIN several AS int[]",
    f"CREATE TABLE typed (id int PRIMARY KEY, {COLUMNS})",
    "CREATE TABLE bag (word text, n int)",
    "ALTER TABLE bag REPLICA IDENTITY FULL",
)


def values(share: float) -> str:
    """SQL that makes a row's values, some of them null."""
    return ", ".join(
        f"CASE WHEN random() < {share} THEN NULL ELSE ({it.made})::{it.kind} END" for it in TYPES
    )


def inserted(rows: str) -> str:
    """SQL that makes rows of these ids, from `it`, or all columns of those that are there."""
    changes = ", ".join(f"{name} = excluded.{name}" for name in NAMES)
    return f"INSERT INTO typed SELECT it, {values(0.1)} FROM {rows} it ON CONFLICT (id) DO UPDATE SET {changes}"


QUERY = f"SELECT id::text, {', '.join(it.told.format(name) for name, it in zip(NAMES, TYPES))} FROM public.typed"


def of_server(row: tuple[Any, ...]) -> tuple[Any, ...]:
    """A row of QUERY."""
    pairs = zip(TYPES, row[1:])
    return int(row[0]), *(None if cell is None else it.of_server(cell) for it, cell in pairs)


def of_message(row: dict[str, Any]) -> tuple[Any, ...]:
    cells = zip(TYPES, (row[name] for name in NAMES))
    return row["id"], *(None if cell is None else it.of_json(cell) for it, cell in cells)
