"""Kafka Connect's rules on messages in JSON: whether a value is one of its schema, as the types of
`org.apache.kafka.connect.data.Schema` and the form of `JsonConverter` have it, and what its logical
types, and Debezium's, may say. Nothing of the connector is used."""

from __future__ import annotations

import base64
import json
import re
from collections.abc import Callable
from typing import Any

WHOLE = {"int8": 8, "int16": 16, "int32": 32, "int64": 64}
KINDS = {*WHOLE, "float", "double", "boolean", "string", "bytes", "array", "map", "struct"}
KNOWN = {"type", "optional", "name", "version", "doc", "parameters", "default", "field"}
MORE = {"array": {"items"}, "map": {"keys", "values"}, "struct": {"fields"}}
NO_NUMBERS = ("NaN", "Infinity", "-Infinity")
CONNECT, DEBEZIUM = "org.apache.kafka.connect.data.", "io.debezium."
ZONED = r"T\d\d:\d\d:\d\d(\.\d{1,6})?Z"
DAY = 86400 * 10**6


class Invalid(Exception):
    """It isn't as Connect has it."""


def need(is_so: bool, what: str) -> None:
    if not is_so:
        raise Invalid(what)


def is_whole(value: Any) -> bool:
    return type(value) is int


def bytes_of(value: Any) -> bytes:
    try:
        return base64.b64decode(value, validate=True)
    except (TypeError, ValueError):
        raise Invalid(f"{value!r} is no base64") from None


def text_like(pattern: str) -> Callable[[Any, dict[str, Any]], None]:
    return lambda value, _: need(
        re.fullmatch(pattern, value) is not None, f"{value!r} isn't {pattern}"
    )


def within(least: int, most: int) -> Callable[[Any, dict[str, Any]], None]:
    return lambda value, _: need(least <= value <= most, f"{value} isn't from {least} to {most}")


def anything(value: Any, schema: dict[str, Any]) -> None:
    pass


def is_json(value: Any, _: dict[str, Any]) -> None:
    try:
        json.loads(value)
    except ValueError:
        raise Invalid(f"{value!r} is no JSON") from None


def is_decimal(value: Any, schema: dict[str, Any]) -> None:
    found, parameters = bytes_of(value), schema["parameters"]
    need(len(found) > 0, "no bytes")
    need(re.fullmatch(r"-?\d+", parameters["scale"]) is not None, "no scale")
    digits = len(str(abs(int.from_bytes(found, "big", signed=True))))
    need(digits <= int(parameters.get("connect.decimal.precision", digits)), "too many digits")


def is_bits(value: Any, schema: dict[str, Any]) -> None:
    found, length = bytes_of(value), int(schema["parameters"]["length"])
    need(length == (1 << 31) - 1 or len(found) == (length + 7) // 8, "another number of bytes")
    need(int.from_bytes(found, "little") < 1 << min(length, 1 << 16), "bits above the length")


def is_of_enum(value: Any, schema: dict[str, Any]) -> None:
    need(value in schema["parameters"]["allowed"].split(","), f"{value!r} isn't allowed")


# Of each logical type the type that it is, and what its values are.
LOGICAL: dict[str, tuple[str, Callable[[Any, dict[str, Any]], None]]] = {
    CONNECT + "Decimal": ("bytes", is_decimal),
    CONNECT + "Date": ("int32", anything),
    CONNECT + "Time": ("int32", within(0, 86400000)),
    CONNECT + "Timestamp": ("int64", anything),
    DEBEZIUM + "time.Date": ("int32", anything),
    DEBEZIUM + "time.Time": ("int32", within(0, DAY // 1000)),
    DEBEZIUM + "time.MicroTime": ("int64", within(0, DAY)),
    DEBEZIUM + "time.Timestamp": ("int64", anything),
    DEBEZIUM + "time.MicroTimestamp": ("int64", anything),
    DEBEZIUM + "time.MicroDuration": ("int64", anything),
    DEBEZIUM
    + "time.Interval": ("string", text_like(r"P-?\d+Y-?\d+M-?\d+DT-?\d+H-?\d+M-?\d+(\.\d+)?S")),
    DEBEZIUM
    + "time.ZonedTimestamp": ("string", text_like(rf"[+-]?\d{{4,}}-\d\d-\d\d{ZONED}|-?infinity")),
    DEBEZIUM + "time.ZonedTime": ("string", text_like(ZONED[1:])),
    DEBEZIUM + "data.Json": ("string", is_json),
    DEBEZIUM + "data.Xml": ("string", anything),
    DEBEZIUM + "data.Uuid": ("string", text_like("[0-9a-f]{8}(-[0-9a-f]{4}){3}-[0-9a-f]{12}")),
    DEBEZIUM + "data.Tsvector": ("string", anything),
    DEBEZIUM + "data.Enum": ("string", is_of_enum),
    DEBEZIUM + "data.Bits": ("bytes", is_bits),
    DEBEZIUM + "data.VariableScaleDecimal": ("struct", anything),
    DEBEZIUM + "data.geometry.Point": ("struct", anything),
}


def check_schema(schema: Any, is_field: bool = False) -> None:
    """Raises an Invalid where it is no schema."""
    need(isinstance(schema, dict), "no object")
    kind = schema.get("type")
    need(kind in KINDS, f"no type: {kind}")
    need(set(schema) <= KNOWN | MORE.get(kind, set()), f"{sorted(schema)} of {kind}")
    need(type(schema.get("optional")) is bool, "optional or not isn't told")
    need(("field" in schema) == is_field, "a name of a field")
    need(all(isinstance(schema.get(it, ""), str) for it in ("name", "doc", "field")), "no text")
    need(is_whole(schema.get("version", 1)), "no version")
    need(
        all(isinstance(it, str) for pair in schema.get("parameters", {}).items() for it in pair),
        "parameters are texts",
    )
    for part in MORE.get(kind, ()):
        for it in schema[part] if part == "fields" else [schema[part]]:
            check_schema(it, part == "fields")
    if kind == "struct":
        names = [it["field"] for it in schema["fields"]]
        need(len(set(names)) == len(names), "two fields of one name")
    name = schema.get("name", "")
    if name in LOGICAL:
        need(LOGICAL[name][0] == kind, f"{name} isn't {kind}")
    else:
        need(not name.startswith((CONNECT, DEBEZIUM + "data", DEBEZIUM + "time")), f"no {name}")
    if "default" in schema:
        check_value(schema, schema["default"])


def check_value(schema: dict[str, Any], value: Any) -> None:
    """Raises an Invalid where a value isn't one of the schema."""
    where = schema.get("field") or schema.get("name") or schema["type"]
    if value is None:
        return need(schema["optional"], f"{where} is null")
    try:
        check_type(schema, value)
        if schema.get("name") in LOGICAL:
            LOGICAL[schema["name"]][1](value, schema)
    except Invalid as error:
        raise Invalid(f"{where}: {error}") from None
    return None


def check_type(schema: dict[str, Any], value: Any) -> None:
    kind = schema["type"]
    if kind in WHOLE:
        need(is_whole(value), f"{value!r} is no whole number")
        need(-(1 << WHOLE[kind] - 1) <= value < 1 << WHOLE[kind] - 1, f"{value} is no {kind}")
    elif kind in ("float", "double"):
        need(is_whole(value) or type(value) is float or value in NO_NUMBERS, f"{value!r}")
        # (one of four bytes is the nearest to a number of eight)
    elif kind == "boolean":
        need(type(value) is bool, f"{value!r} is neither true nor false")
    elif kind == "string":
        need(isinstance(value, str), f"{value!r} is no text")
    elif kind == "bytes":
        bytes_of(value)
    elif kind == "array":
        need(isinstance(value, list), f"{value!r} is no array")
        for it in value:
            check_value(schema["items"], it)
    elif kind == "struct":
        need(isinstance(value, dict), f"{value!r} is no struct")
        need(
            set(value) == {it["field"] for it in schema["fields"]},
            f"its fields are {sorted(value)}",
        )
        for it in schema["fields"]:
            check_value(it, value[it["field"]])
    else:
        # (JsonConverter writes a map with keys of text as an object, and any other as pairs)
        is_of_texts = schema["keys"]["type"] == "string" and not schema["keys"]["optional"]
        need(isinstance(value, dict if is_of_texts else list), f"{value!r} is no map")
        for pair in value.items() if is_of_texts else value:
            check_value(schema["keys"], pair[0])
            check_value(schema["values"], pair[1])


def checked(text: bytes | str) -> Any:
    """The payload of a message that has its schema. Raises an Invalid where they don't fit."""
    message = json.loads(text)
    need(isinstance(message, dict) and set(message) == {"schema", "payload"}, "no envelope")
    check_schema(message["schema"])
    check_value(message["schema"], message["payload"])
    return message["payload"]
