"""Messages of Debezium's form: each change with its schemas, which are checked by Connect's rules."""

from __future__ import annotations

import contextlib
import io
import json
from collections.abc import Sequence
from typing import Any
from unittest import mock

from connect_schemas import checked
from feed_text import UNSENT, About, Column, Definition, Line

from pgsub_feed.debezium.tables import topic_part
from pgsub_feed.errors import UNFIT, USAGE
from pgsub_feed.known_tables import KnownTable, KnownTables
from pgsub_feed.version import VERSION

from .feeds import ID, STOCK, delete, insert, table, truncate, update
from .test_debezium_values import EACH
from .test_feed_printing import PrintingCase
from .vectors import logged

# the commit that ends at 0/25504168, and when its messages are made
ABOUT = About(0x25504100, 742, 822823200123456)
NOW = 1769508001000000007
MADE = {"ts_ms": NOW // 1000000, "ts_us": NOW // 1000, "ts_ns": NOW}
SOURCE = {
    "version": VERSION,
    "connector": "postgresql",
    "name": "pgsub",
    "ts_ms": 1769508000123,
    "snapshot": "false",
    "db": "shop",
    "sequence": '["256","626016512"]',
    "ts_us": 1769508000123456,
    "ts_ns": 1769508000123456000,
    "schema": "public",
    "table": "stock",
    "txId": 742,
    "lsn": 626016512,
    "xmin": None,
}
TYPES = [Column(f"c{at}", oid, modifier) for at, (oid, modifier, *_) in enumerate(EACH)]


class MessagesCase(PrintingCase):
    def setUp(self) -> None:
        super().setUp()
        self.feed.commit(0x100)
        patched = mock.patch("pgsub_feed.debezium.envelopes.time.time_ns", lambda: NOW)
        patched.start()
        self.addCleanup(patched.stop)

    def lines(self, *words: str, status: int = 0) -> list[str]:
        return self.print(
            "--from", "0/100", "--format", "debezium", *words, status=status
        ).splitlines()

    def payloads(self, *words: str) -> list[Any]:
        """The values, as their schemas have them."""
        return [checked(it) for it in self.lines("--schemas", *words)]

    def pairs(self, *words: str) -> list[tuple[Any, Any]]:
        """Keys and values, as their schemas have them; None where there is none."""
        pairs = [it.split("\t") for it in self.lines("--schemas", "--keys", *words)]
        return [
            (checked(key) if key else None, checked(value) if value else None)
            for key, value in pairs
        ]


class Messages(MessagesCase):
    def test_each(self) -> None:
        self.feed.commit(
            0x25504168,
            [
                insert("1", "a"),
                update(["1", "a"], ["1", None]),
                update(["1", None], ["2", "b"]),
                delete("2", "b"),
                truncate(),
            ],
            ABOUT,
        )
        order = 0
        rows = list[tuple[Any, Any]]()
        for key, value in self.pairs():
            if value is None:
                rows.append((key, None))
                continue
            order += 1
            transaction = {
                "id": "742:626016512",
                "total_order": order,
                "data_collection_order": order,
            }
            told = (value.pop("source"), value.pop("transaction"))
            self.assertEqual(told, (SOURCE, transaction))
            self.assertEqual({it: value.pop(it) for it in MADE}, MADE)
            rows.append((key, tuple(value.values())))
        one, two = {"id": 1}, {"id": 2}
        self.assertEqual(
            rows,
            [
                (one, (None, {"id": 1, "name": "a"}, "c")),
                (one, ({"id": 1, "name": "a"}, {"id": 1, "name": None}, "u")),
                (one, ({"id": 1, "name": None}, None, "d")),
                (one, None),
                (two, (None, {"id": 2, "name": "b"}, "c")),
                (two, ({"id": 2, "name": "b"}, None, "d")),
                (two, None),
                (None, (None, None, "t")),
            ],
        )

    def test_schemas(self) -> None:
        self.feed.commit(0x200, [insert("1", "a")])
        key, value = self.lines("--schemas", "--keys", "--debezium", "topic.prefix=x")[0].split(
            "\t"
        )
        self.assertEqual(
            json.loads(key)["schema"],
            {
                "type": "struct",
                "fields": [{"type": "int32", "optional": False, "field": "id"}],
                "optional": False,
                "name": "x.public.stock.Key",
            },
        )
        schema = json.loads(value)["schema"]
        self.assertEqual(
            (schema["name"], schema["version"], [it["field"] for it in schema["fields"]]),
            (
                "x.public.stock.Envelope",
                2,
                ["before", "after", "source", "transaction", "op", "ts_ms", "ts_us", "ts_ns"],
            ),
        )
        self.assertEqual(
            schema["fields"][1],
            {
                "type": "struct",
                "fields": [
                    {"type": "int32", "optional": True, "field": "id"},
                    {"type": "string", "optional": True, "field": "name"},
                ],
                "optional": True,
                "name": "x.public.stock.Value",
                "field": "after",
            },
        )
        self.assertEqual(
            [schema["fields"][at]["name"] for at in (2, 3)],
            ["io.debezium.connector.postgresql.Source", "event.block"],
        )

    def test_all_types(self) -> None:
        """A row of each type, in each mode, is one of its schema."""
        of = table(2, "many", [ID, *TYPES])
        row = ["1", *(it[2] for it in EACH)]
        self.feed.commit(
            0x200, [insert(*row, of=of), update(row, ["1", *[None] * len(EACH)], of=of)]
        )
        modes = (
            (),
            ("decimal.handling.mode=string", "time.precision.mode=connect"),
            ("decimal.handling.mode=double", "time.precision.mode=adaptive_time_microseconds"),
            ("interval.handling.mode=string", "binary.handling.mode=hex"),
        )
        for words in modes:
            with self.subTest(str(words)), logged() as told:
                found = self.payloads(*(word for it in words for word in ("--debezium", it)))
                self.assertEqual([it["op"] for it in found], ["c", "u"])
                self.assertEqual(found[0]["after"], found[1]["before"])
                self.assertEqual(told, [])
        by_name = {f"c{at}": it[-1] for at, it in enumerate(EACH)}
        self.assertEqual(self.payloads()[0]["after"], {"id": 1, **by_name})

    def test_no_key(self) -> None:
        bag = table(2, "bag", letter="f")
        row = ["1", "a"]
        self.feed.commit(0x200, [update(row, ["2", "a"], of=bag), delete(*row, of=bag)])
        self.assertEqual([key for key, _ in self.pairs()], [None, None])
        self.assertEqual([it["op"] for it in self.payloads()], ["u", "d"])

    def test_the_key_that_the_store_knows(self) -> None:
        full = table(2, "full", letter="f")
        self.feed.commit(0x200, [update(["1", "a"], ["2", "a"], of=full)])
        known = KnownTables("x")
        known.tables[2] = KnownTable(("id",))
        with mock.patch("pgsub_feed.command.known_beside", lambda *_: known), mock.patch.object(
            KnownTables, "look"
        ):
            found = self.pairs()
        self.assertEqual(
            [(key, value and value["op"]) for key, value in found],
            [({"id": 1}, "d"), ({"id": 1}, None), ({"id": 2}, "c")],
        )

    def test_null_in_a_key(self) -> None:
        with logged() as told:
            self.feed.commit(0x200, [update([None, "a"], ["2", "a"]), delete(None, "b")])
            found = self.pairs()
        self.assertEqual([key for key, _ in found], [{"id": 2}, None])
        self.assertRegex(told[0], r"0/200:0: public.stock \(1\): a row has null in the key")
        self.assertEqual(len(told), 1)

    def test_without_xid_and_time(self) -> None:
        self.feed.commit(0x25504200, [insert("1", "b")])
        found = self.payloads()[0]
        self.assertEqual(
            found["source"],
            {**SOURCE, **MADE, "txId": None, "lsn": 0x25504200, "sequence": '["256","626016768"]'},
        )
        self.assertIsNone(found["transaction"])

    def test_what_found_no_row(self) -> None:
        missed = Line(STOCK, "x", ["7", None], ["8", UNSENT], "K")
        self.feed.commit(0x200, [missed, insert("1", "b"), missed])
        with logged() as told:
            self.assertEqual([it["op"] for it in self.payloads()], ["c"])
        self.assertRegex(told[0], "0/200: a change that found no row is left out, and any later")
        self.assertEqual(len(told), 1)

    def test_transactions(self) -> None:
        other = table(2, "other", schema="s")
        lines = [insert("1", "a"), insert("1", "a", of=other), update(["1", "a"], ["2", "a"])]
        self.feed.commit(0x25504168, lines, ABOUT)
        self.feed.commit(0x25504200, lines)
        words = ("--debezium", "provide.transaction.metadata=true")
        (key, begin), *_, (_, end) = self.pairs(*words, "--to", "0/25504168")
        about = {"id": "742:626016512", "ts_ms": 1769508000123}
        self.assertEqual(key, {"id": "742:626016512"})
        self.assertEqual(
            begin, {"status": "BEGIN", "event_count": None, "data_collections": None, **about}
        )
        counts = [("public.stock", 3), ("s.other", 1)]
        collections = [{"data_collection": name, "event_count": it} for name, it in counts]
        self.assertEqual(
            end, {"status": "END", "event_count": 4, "data_collections": collections, **about}
        )
        found = self.payloads(*words, "--table", "s.other")
        self.assertEqual(
            [it.get("status", it.get("op")) for it in found], ["BEGIN", "c", "END", "c"]
        )

    def test_without_tombstones(self) -> None:
        self.feed.commit(0x200, [delete("1", "a")])
        found = self.pairs("--debezium", "tombstones.on.delete=false")
        self.assertEqual([value["op"] for _, value in found], ["d"])


class Failures(MessagesCase):
    def of(self, column: Column) -> Definition:
        return table(2, "odd", [ID, column])

    def test_values_without_a_form(self) -> None:
        of = self.of(Column("n", 1700, ((10 << 16) | 2) + 4))
        self.feed.commit(0x200, [insert("1", "NaN", of=of), insert("2", "Infinity", of=of)])
        with logged() as told:
            self.assertEqual([it["after"]["n"] for it in self.payloads()], [None, None])
        self.assertRegex(
            told[0],
            r"public.odd \(2\): the column n has a value that its type has no form for \(NaN is no decimal number\): null is in its place",
        )
        self.assertEqual(len(told), 1)
        with logged() as told:
            self.lines("--debezium", "event.converting.failure.handling.mode=fail", status=UNFIT)
        self.assertRegex(told[0], "leave the table out by --table, or say event.converting")

    def test_a_key_without_a_form(self) -> None:
        of = self.of(Column("n", 1700, -1, True))
        self.feed.commit(0x200, [insert("1", "NaN", of=of)])
        with logged() as told:
            self.lines("--keys", status=UNFIT)
        self.assertRegex(told[0], "the key id, n has a value .* say decimal.handling.mode=string")
        found = self.lines("--keys", "--debezium", "decimal.handling.mode=string")
        self.assertTrue(found[0].startswith('{"id":1,"n":"NaN"}\t'))

    def test_binary_values(self) -> None:
        columns = [
            Column("b", 16),
            Column("y", 17),
            Column("f", 700),
            Column("t", 25),
            Column("d", 1082),
        ]
        of = table(2, "binary", [ID, *columns])
        row = [b"\0\0\0\1", b"\1", b"\0\xff", b"\x3f\xc0\0\0", b"a", b"\0\0\0\0"]
        self.feed.commit(
            0x200,
            [insert(*row, of=of), insert("2", *[None] * 2, b"\x7f\xc0\0\0", *[None] * 2, of=of)],
        )
        with logged() as told:
            found = [it["after"] for it in self.payloads()]
        self.assertEqual(found[0], {"id": 1, "b": True, "y": "AP8=", "f": 1.5, "t": "a", "d": None})
        self.assertEqual(found[1]["f"], "NaN")
        self.assertRegex(told[0], "the column d has a value .*isn't read in binary format")

    def test_two_tables_of_one_topic(self) -> None:
        self.feed.commit(0x200, [insert("1", "a"), insert("1", "a", of=table(2))])
        with logged() as told:
            self.lines()
        self.assertRegex(told[0], "the topic pgsub.public.stock has rows of another table, 1, too")

    def test_names(self) -> None:
        self.assertEqual(topic_part("Ab_9.é-"), "Ab_9-2E-C3-A9-2D")
        odd = table(2, "é" * 31, schema="ö" * 31)
        self.feed.commit(0x200, [insert("1", "a", of=odd)])
        with logged() as told:
            self.lines(status=UNFIT)
        self.assertRegex(told[0], "has more than 249 characters")

    def test_words(self) -> None:
        several: Sequence[Sequence[str]] = (
            ["--format", "objects", "--keys"],
            ["--schemas"],
            ["--debezium", "topic.prefix=x"],
            ["--format", "debezium", "--debezium", "topic.prefix=x y"],
            ["--format", "debezium", "--debezium", "topic.prefix"],
            ["--format", "debezium", "--debezium", "decimal.handling.mode=exact"],
            ["--format", "debezium", "--debezium", "snapshot.mode=never"],
        )
        for words in several:
            with self.subTest(str(words)), self.assertRaises(
                SystemExit
            ) as ended, contextlib.redirect_stderr(io.StringIO()):
                self.print(*words)
            self.assertEqual(ended.exception.code, USAGE)
