"""Values as messages of Debezium have them: each type in each mode, checked against its schema."""

from __future__ import annotations

import base64
import datetime
import struct
import unittest
from decimal import Decimal
from fractions import Fraction
from typing import Any

from connect_schemas import Invalid, check_schema, check_value, checked
from hypothesis import given, strategies as drawn

from pgsub_feed.debezium.kinds import kind_of, of, read_elements
from pgsub_feed.debezium.values import integer_bytes, unscaled
from pgsub_feed.debezium.settings import Settings, read_settings
from pgsub_feed.debezium.values import date_of, days_of, read_moment, zoned_moment
from pgsub_feed.tables.floats import printed_float

from .drawn import ANY

DEFAULTS = read_settings(())
NUMERIC, MONEY, BIT, VARBIT, TIME, TIMESTAMP, INTERVAL = 1700, 790, 1560, 1562, 1083, 1114, 1186
MODIFIER_10_2, MODIFIER_3_MINUS_2 = ((10 << 16) | 2) + 4, ((3 << 16) | (-2 & 0x7FF)) + 4


def based(*numbers: int) -> str:
    return base64.b64encode(bytes(numbers)).decode()


def unix(*parts: int) -> int:
    moment = datetime.datetime(*parts, tzinfo=datetime.timezone.utc)  # type: ignore[arg-type,misc]
    return (
        moment - datetime.datetime(1970, 1, 1, tzinfo=datetime.timezone.utc)
    ) // datetime.timedelta(microseconds=1)


NOON = unix(2026, 11, 26, 12)
POINT = {
    "x": 1.5,
    "y": -2.0,
    "wkb": base64.b64encode(struct.pack("<BIdd", 1, 1, 1.5, -2.0)).decode(),
    "srid": None,
}
# A type's OID and its modifier, a text of the server's, the type in Connect, its name, and the value in JSON.
EACH: tuple[tuple[int, int, str, str, str, Any], ...] = (
    (16, -1, "t", "boolean", "", True),
    (21, -1, "-32768", "int16", "", -32768),
    (23, -1, "2147483647", "int32", "", 2147483647),
    (20, -1, "-9223372036854775808", "int64", "", -(1 << 63)),
    (26, -1, "4294967295", "int64", "", 4294967295),
    (700, -1, "1.1", "float", "", 1.1),
    (701, -1, "1e-300", "double", "", 1e-300),
    (701, -1, "NaN", "double", "", "NaN"),
    (700, -1, "-Infinity", "float", "", "-Infinity"),
    (NUMERIC, MODIFIER_10_2, "-12345678.90", "bytes", "org.apache.kafka.connect.data.Decimal", based(0xB6, 0x69, 0xFD, 0x2E)),
    (NUMERIC, MODIFIER_10_2, "0.00", "bytes", "org.apache.kafka.connect.data.Decimal", based(0)),
    (NUMERIC, MODIFIER_10_2, "1.28", "bytes", "org.apache.kafka.connect.data.Decimal", based(0, 128)),
    (NUMERIC, MODIFIER_3_MINUS_2, "99900", "bytes", "org.apache.kafka.connect.data.Decimal", based(3, 231)),
    (NUMERIC, -1, "1.50", "struct", "io.debezium.data.VariableScaleDecimal", {"scale": 2, "value": based(0, 150)}),
    (NUMERIC, -1, "-1000", "struct", "io.debezium.data.VariableScaleDecimal", {"scale": 0, "value": based(0xFC, 0x18)}),
    (MONEY, -1, "-$1,234.56", "bytes", "org.apache.kafka.connect.data.Decimal", based(0xFE, 0x1D, 0xC0)),
    (25, -1, 'é"\\', "string", "", 'é"\\'),
    (1042, 9, "a    ", "string", "", "a    "),
    (1043, 9, "a", "string", "", "a"),
    (18, -1, "x", "string", "", "x"),
    (17, -1, "\\x00ff", "bytes", "", based(0, 255)),
    (BIT, 1, "1", "boolean", "", True),
    (BIT, 10, "1000000001", "bytes", "io.debezium.data.Bits", based(1, 2)),
    (VARBIT, 20, "101", "bytes", "io.debezium.data.Bits", based(5, 0, 0)),
    (VARBIT, -1, "100000001", "bytes", "io.debezium.data.Bits", based(1, 1)),
    (VARBIT, -1, "", "bytes", "io.debezium.data.Bits", ""),
    (1082, -1, "2026-11-26", "int32", "io.debezium.time.Date", NOON // 86400000000),
    (1082, -1, "0001-12-31 BC", "int32", "io.debezium.time.Date", -719163),
    (1082, -1, "infinity", "int32", "io.debezium.time.Date", (1 << 31) - 1),
    (TIME, -1, "24:00:00", "int64", "io.debezium.time.MicroTime", 86400000000),
    (TIME, 6, "00:00:01.5", "int64", "io.debezium.time.MicroTime", 1500000),
    (TIME, 3, "00:00:01.5", "int32", "io.debezium.time.Time", 1500),
    (TIMESTAMP, -1, "2026-11-26 12:00:00.000001", "int64", "io.debezium.time.MicroTimestamp", NOON + 1),
    (TIMESTAMP, 3, "2026-11-26 12:00:00.001", "int64", "io.debezium.time.Timestamp", NOON // 1000 + 1),
    (TIMESTAMP, 0, "1969-12-31 23:59:59", "int64", "io.debezium.time.Timestamp", -1000),
    (TIMESTAMP, -1, "-infinity", "int64", "io.debezium.time.MicroTimestamp", -9223372036832400000),
    (TIMESTAMP, 3, "294276-12-31 23:59:59.999", "int64", "io.debezium.time.Timestamp", 9224318015999999),
    (1184, -1, "2026-11-26 12:00:00.12+00", "string", "io.debezium.time.ZonedTimestamp", "2026-11-26T12:00:00.12Z"),
    (1184, -1, "2026-11-26 12:00:00+05:30", "string", "io.debezium.time.ZonedTimestamp", "2026-11-26T06:30:00Z"),
    (1184, -1, "0044-03-15 00:00:00+00 BC", "string", "io.debezium.time.ZonedTimestamp", "-0043-03-15T00:00:00Z"),
    (1184, -1, "10000-01-01 00:00:00+00", "string", "io.debezium.time.ZonedTimestamp", "+10000-01-01T00:00:00Z"),
    (1184, -1, "infinity", "string", "io.debezium.time.ZonedTimestamp", "infinity"),
    (1266, -1, "01:00:00.5+02", "string", "io.debezium.time.ZonedTime", "23:00:00.5Z"),
    (1266, -1, "24:00:00+00", "string", "io.debezium.time.ZonedTime", "24:00:00Z"),
    (1266, -1, "12:00:00-15:59:59", "string", "io.debezium.time.ZonedTime", "03:59:59Z"),
    (INTERVAL, -1, "1 year 2 mons 3 days 04:05:06.78", "int64", "io.debezium.time.MicroDuration", 37091106780000),
    (INTERVAL, -1, "-1 days +02:03:00", "int64", "io.debezium.time.MicroDuration", -79020000000),
    (INTERVAL, -1, "00:00:00", "int64", "io.debezium.time.MicroDuration", 0),
    (INTERVAL, -1, "-00:00:00.000001", "int64", "io.debezium.time.MicroDuration", -1),
    (114, -1, '{"a": 1}', "string", "io.debezium.data.Json", '{"a": 1}'),
    (3802, -1, "[1]", "string", "io.debezium.data.Json", "[1]"),
    (142, -1, "<a/>", "string", "io.debezium.data.Xml", "<a/>"),
    (2950, -1, "5c0f1a9e-0000-4000-8000-000000000000", "string", "io.debezium.data.Uuid", "5c0f1a9e-0000-4000-8000-000000000000"),
    (600, -1, "(1.5,-2)", "struct", "io.debezium.data.geometry.Point", POINT),
    (869, -1, "10.0.0.1/8", "string", "", "10.0.0.1/8"),
    (3904, -1, "[1,3)", "string", "", "[1,3)"),
    (3614, -1, "'a' 'b'", "string", "io.debezium.data.Tsvector", "'a' 'b'"),
    (603, -1, "(1,1),(0,0)", "string", "", "(1,1),(0,0)"),
    (99999, -1, "{x}", "string", "", "{x}"),
    (1007, -1, "{1,NULL,-3}", "array", "", [1, None, -3]),
    (1007, -1, "[0:1]={1,2}", "array", "", [1, 2]),
    (1009, -1, '{a,"b \\"c\\\\,{}","NULL",NULL,""}', "array", "", ["a", 'b "c\\,{}', "NULL", None, ""]),
    (1231, MODIFIER_10_2, "{1.28}", "array", "", [based(0, 128)]),
    (1115, 3, '{"2026-11-26 12:00:00"}', "array", "", [NOON // 1000]),
    (1182, -1, "{1970-01-02}", "array", "", [1]),
    (1017, -1, '{"(1.5,-2)"}', "array", "", [POINT]),
    (1001, -1, '{"\\\\x00ff"}', "array", "", [based(0, 255)]),
)  # fmt: skip
# The same in other modes: a property, and what differs.
OTHER: tuple[tuple[str, int, int, str, str, str, Any], ...] = (
    ("decimal.handling.mode=double", NUMERIC, MODIFIER_10_2, "1.28", "double", "", 1.28),
    ("decimal.handling.mode=double", NUMERIC, -1, "NaN", "double", "", "NaN"),
    ("decimal.handling.mode=double", MONEY, -1, "$1,000.50", "double", "", 1000.5),
    ("decimal.handling.mode=string", NUMERIC, MODIFIER_10_2, "1.20", "string", "", "1.20"),
    ("decimal.handling.mode=string", NUMERIC, -1, "Infinity", "string", "", "Infinity"),
    ("decimal.handling.mode=string", MONEY, -1, "-$1,000.50", "string", "", "-1000.50"),
    ("decimal.handling.mode=string", 1231, -1, "{1.20,NULL}", "array", "", ["1.20", None]),
    ("time.precision.mode=adaptive_time_microseconds", TIME, 0, "00:00:01", "int64", "io.debezium.time.MicroTime", 1000000),
    ("time.precision.mode=adaptive_time_microseconds", TIMESTAMP, 0, "1970-01-01 00:00:01", "int64", "io.debezium.time.Timestamp", 1000),
    ("time.precision.mode=connect", TIME, -1, "00:00:01.0019", "int32", "org.apache.kafka.connect.data.Time", 1001),
    ("time.precision.mode=connect", TIMESTAMP, -1, "1970-01-01 00:00:01.0019", "int64", "org.apache.kafka.connect.data.Timestamp", 1001),
    ("time.precision.mode=connect", 1082, -1, "1970-01-03", "int32", "org.apache.kafka.connect.data.Date", 2),
    ("interval.handling.mode=string", INTERVAL, -1, "1 year 2 mons 3 days 04:05:06.78", "string", "io.debezium.time.Interval", "P1Y2M3DT4H5M6.78S"),
    ("interval.handling.mode=string", INTERVAL, -1, "-1 years -2 mons +3 days -04:05:06.78", "string", "io.debezium.time.Interval", "P-1Y-2M3DT-4H-5M-6.78S"),
    ("interval.handling.mode=string", INTERVAL, -1, "00:00:00", "string", "io.debezium.time.Interval", "P0Y0M0DT0H0M0S"),
    ("binary.handling.mode=base64", 17, -1, "\\xfbff", "string", "", "+/8="),
    ("binary.handling.mode=base64-url-safe", 17, -1, "\\xfbff", "string", "", "-_8="),
    ("binary.handling.mode=hex", 17, -1, "\\xfbff", "string", "", "fbff"),
    ("binary.handling.mode=hex", 1001, -1, '{"\\\\xfbff"}', "array", "", ["fbff"]),
)  # fmt: skip
# What has no form: a property, a type and its modifier, and a text.
NONE = (
    ("", NUMERIC, MODIFIER_10_2, "NaN"),
    ("", NUMERIC, -1, "Infinity"),
    ("", NUMERIC, MODIFIER_10_2, "1.234"),
    ("", INTERVAL, -1, "infinity"),
    ("", INTERVAL, -1, "178000000 years"),
    ("", TIMESTAMP, -1, "294276-12-31 23:59:59"),
    ("", 23, -1, "one"),
    ("", 21, -1, "32768"),
    ("", 16, -1, "1"),
    ("", 1007, -1, "{{1,2},{3,4}}"),
    ("", 1007, -1, "[1:1][1:1]={{1}}"),
    ("", 1007, -1, "{1"),
    ("", 1007, -1, "1"),
    ("", 1007, -1, "{1}2"),
    ("", 1266, -1, "12:00:00"),
    ("", 600, -1, "1,2"),
    ("", MONEY, -1, "1 €"),
    ("", 17, -1, "\\xf"),
    ("interval.handling.mode=string", INTERVAL, -1, "-infinity"),
)


def settings(word: str) -> Settings:
    return read_settings([word] if word else ())


class Values(unittest.TestCase):
    def expect(
        self, word: str, oid: int, modifier: int, text: str, kind: str, name: str, value: Any
    ) -> None:
        found = kind_of(oid, modifier, settings(word))
        schema = of(found.schema, False)
        self.assertEqual((schema["type"], schema.get("name", "")), (kind, name))
        check_schema(schema)
        self.assertEqual(found.read(text), value)
        check_value(schema, value)

    def test_each(self) -> None:
        for oid, modifier, text, kind, name, value in EACH:
            with self.subTest(f"{oid} {modifier} {text}"):
                self.expect("", oid, modifier, text, kind, name, value)

    def test_other_modes(self) -> None:
        for it in OTHER:
            with self.subTest(str(it)):
                self.expect(*it)

    def test_what_has_no_form(self) -> None:
        for word, oid, modifier, text in NONE:
            with self.subTest(f"{word} {oid} {text}"), self.assertRaises(
                (ValueError, LookupError, ArithmeticError)
            ):
                kind_of(oid, modifier, settings(word)).read(text)

    def test_parameters(self) -> None:
        decimal = kind_of(NUMERIC, MODIFIER_10_2, DEFAULTS).schema
        self.assertEqual(decimal["parameters"], {"scale": "2", "connect.decimal.precision": "10"})
        below = kind_of(NUMERIC, MODIFIER_3_MINUS_2, DEFAULTS).schema
        self.assertEqual(below["parameters"], {"scale": "-2", "connect.decimal.precision": "3"})
        self.assertEqual(kind_of(MONEY, -1, DEFAULTS).schema["parameters"], {"scale": "2"})
        self.assertEqual(kind_of(BIT, 10, DEFAULTS).schema["parameters"], {"length": "10"})
        self.assertEqual(
            kind_of(VARBIT, -1, DEFAULTS).schema["parameters"], {"length": "2147483647"}
        )

    @ANY
    @given(drawn.integers(-5000000 * 365, 5000000 * 365))
    def test_days(self, days: int) -> None:
        self.assertEqual(days_of(*date_of(days)), days)

    @ANY
    @given(drawn.datetimes())
    def test_moments(self, moment: datetime.datetime) -> None:
        text = str(moment)
        exact = (moment - datetime.datetime(1970, 1, 1)) // datetime.timedelta(microseconds=1)
        self.assertEqual(read_moment(text), exact)
        found = zoned_moment(text + "+00").removesuffix("Z")
        self.assertEqual(
            datetime.datetime.fromisoformat(found + "+00:00"),
            moment.replace(tzinfo=datetime.timezone.utc),
        )

    @ANY
    @given(drawn.integers())
    def test_whole_numbers(self, number: int) -> None:
        found = base64.b64decode(integer_bytes(number))
        self.assertEqual(int.from_bytes(found, "big", signed=True), number)
        self.assertFalse(len(found) > 1 and found[0] in (0, 255) and found[0] >> 7 == found[1] >> 7)

    @ANY
    @given(drawn.decimals(allow_nan=False, allow_infinity=False))
    def test_decimals(self, number: Decimal) -> None:
        text = f"{number:f}"
        found: Any = kind_of(NUMERIC, -1, DEFAULTS).read(text)
        exact = int.from_bytes(base64.b64decode(found["value"]), "big", signed=True)
        self.assertEqual(Fraction(exact, 10 ** found["scale"]), Fraction(text))

    def test_a_large_decimal(self) -> None:
        self.assertEqual(unscaled(Decimal("9" * 131072 + "." + "9" * 16383), 16383) % 1000, 999)

    @ANY
    @given(drawn.lists(drawn.none() | drawn.text()))
    def test_arrays(self, elements: list[str | None]) -> None:
        quoted = [
            "NULL" if it is None else '"' + it.replace("\\", "\\\\").replace('"', '\\"') + '"'
            for it in elements
        ]
        self.assertEqual(read_elements("{" + ",".join(quoted) + "}"), elements)

    @ANY
    @given(drawn.floats(width=32))
    def test_short_floats(self, number: float) -> None:
        text = "NaN" if number != number else printed_float(number, True)
        check_value({"type": "float", "optional": False}, kind_of(700, -1, DEFAULTS).read(text))


class Checker(unittest.TestCase):
    """That the checker rejects what Connect doesn't take."""

    def test_schemas(self) -> None:
        for schema in (
            None,
            {"type": "int"},
            {"type": "int32"},
            {"type": "int32", "optional": True, "field": "a"},
            {"type": "string", "optional": True, "items": {}},
            {"type": "array", "optional": True, "items": {"type": "int32"}},
            {"type": "struct", "optional": True, "fields": [{"type": "int32", "optional": True}]},
            {"type": "int64", "optional": True, "name": "io.debezium.time.Date"},
            {"type": "int64", "optional": True, "name": "io.debezium.time.Datum"},
            {"type": "int32", "optional": True, "default": "1"},
            {"type": "int32", "optional": True, "parameters": {"a": 1}},
            {"type": "struct", "optional": True, "fields": [{"type": "int32", "optional": True, "field": "a"}] * 2},
        ):  # fmt: skip
            with self.subTest(str(schema)), self.assertRaises(Invalid):
                check_schema(schema)

    def test_values(self) -> None:
        bits: dict[str, Any] = {"name": "io.debezium.data.Bits", "parameters": {"length": "3"}}
        decimal: dict[str, Any] = {
            "name": "org.apache.kafka.connect.data.Decimal",
            "parameters": {"scale": "0", "connect.decimal.precision": "2"},
        }
        texts = {"type": "string", "optional": False}
        several: tuple[tuple[str, Any, dict[str, Any]], ...] = (
            ("int8", 128, {}),
            ("int32", True, {}),
            ("int32", 1.0, {}),
            ("double", "nan", {}),
            ("boolean", 1, {}),
            ("string", 1, {}),
            ("string", None, {}),
            ("bytes", "é", {}),
            ("bytes", "AP8", {}),
            ("bytes", based(8), bits),
            ("bytes", based(1, 0), bits),
            ("bytes", based(100), decimal),
            ("array", [None], {"items": texts}),
            ("map", {"a": None}, {"keys": texts, "values": texts}),
            ("struct", {"a": "b", "c": "d"}, {"fields": [{**texts, "field": "a"}]}),
            ("struct", {}, {"fields": [{**texts, "field": "a"}]}),
            ("string", "P1Y", {"name": "io.debezium.time.Interval"}),
            ("string", "{", {"name": "io.debezium.data.Json"}),
        )  # fmt: skip
        for kind, value, more in several:
            schema: dict[str, Any] = {"type": kind, "optional": False, **more}
            with self.subTest(f"{kind} {value}"), self.assertRaises(Invalid):
                check_value(schema, value)
        with self.assertRaises(Invalid):
            checked('{"payload":1}')


if __name__ == "__main__":
    unittest.main()
