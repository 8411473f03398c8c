"""What is compared of a feed with a server: arrays as it prints them, the images of a commit with
what triggers have logged, and tables with the rows to which a feed leads."""

from __future__ import annotations

import contextlib
import json
import random
import sqlite3
import tempfile
import unittest
from collections import Counter
from pathlib import Path
from unittest import mock

from feed_replay import Replay
from feed_text import compact, summed
from stores.contents import Contents
from stores.text import Writer

from . import stored

try:
    from live_server import feeds
    from live_server.errors import Failed
    from live_server.feeds import (
        HAS,
        Held,
        Images,
        Reader,
        Tables,
        Unlike,
        base_of,
        compare_file,
        digests_of_replay,
        explained,
        has,
        held,
        kind_of,
        read_array,
        valued,
    )
except ModuleNotFoundError:
    raise unittest.SkipTest("psycopg is needed") from None


ARRAYS: dict[str | None, list[str | None] | None] = {
    None: None,
    "{}": [],
    "{1}": ["1"],
    "{1,NULL,a b}": ["1", None, "a b"],
    '{"",x}': ["", "x"],
    '{"NULL",NULL}': ["NULL", None],
    r'{"a\"b","c\\d","e,f","{}"}': ['a"b', "c\\d", "e,f", "{}"],
    '{"line\nbreak","ä 漢"}': ["line\nbreak", "ä 漢"],
}


class Arrays(unittest.TestCase):
    def test_cells(self) -> None:
        for text, cells in ARRAYS.items():
            self.assertEqual(read_array(text), cells)


class Compared(unittest.TestCase):
    def check(self, *lines: object) -> int:
        images = Images("stock")
        body = "".join(json.dumps(it) + "\n" for it in lines).encode()
        images.check("0/100", body)
        return images.count

    def commit(self, before: list[str], logged: str, op: str = "UPDATE") -> int:
        return self.check(
            {"op": "table", "oid": 1, "table": "stock"},
            {"op": "u", "oid": 1, "n": 0, "before": before, "after": ["A", "4"]},
            {"op": "table", "oid": 2, "table": "logged"},
            {
                "op": "c",
                "oid": 2,
                "n": 1,
                "before": None,
                "after": ["1", "stock", op, logged, "{A,4}"],
            },
        )

    def test_the_same(self) -> None:
        self.assertEqual(self.commit(["A", "5"], "{A,5}"), 1)

    def test_others(self) -> None:
        for before, logged, op in (
            (["A", "6"], "{A,5}", "UPDATE"),
            (["A", "5"], "{A,NULL}", "UPDATE"),
            (["A", "5"], "{A,5}", "DELETE"),
        ):
            with self.assertRaisesRegex(Failed, "commit 0/100, table stock"):
                self.commit(before, logged, op)

    def test_one_that_no_trigger_saw(self) -> None:
        with self.assertRaisesRegex(Failed, "the feed has 1, and the trigger 0"):
            self.check(
                {"op": "table", "oid": 1, "table": "stock"},
                {"op": "d", "oid": 1, "n": 0, "before": ["A", "5"], "after": None},
            )


class Based(unittest.TestCase):
    def test_a_table_that_was_altered_behind_the_copy(self) -> None:
        """The rows of a copy have the columns that the table had there."""
        store = Path(self.enterContext(tempfile.TemporaryDirectory())) / "copy.db"
        writer = Writer(store, random.Random(1))
        writer.make(1024)
        key, row = stored.keyed_row(1, b"x")
        writer.write(Contents(), Contents({stored.STOCK: stored.KEYED}, {key: row}, 0x130))
        rows = {("public", "stock"): Counter({("1", "x"): 1})}
        with mock.patch.multiple(
            feeds,
            rows_of_store=lambda *_: (rows, "0/130"),
            published=lambda *_: [("public", "stock", ""), ("public", "other", "")],
            columns_of=lambda *_: [("id", "integer"), ("name", "text"), ("more", "integer")],
        ):
            state = base_of(mock.MagicMock(), Path("program"), store, "pgsub")
        (definition,) = state.definitions.values()
        self.assertEqual(definition["columns"], [["id", 23, -1], ["name", 25, -1]])
        altered = [*definition["columns"], ["more", 23, -1]]
        state.describe({**definition, "columns": altered})
        self.assertEqual(state.rows, {stored.STOCK: Counter({("1", "x", None): 1})})


class OfTables(unittest.TestCase):
    """A file of one table with a row, compared with others."""

    def setUp(self) -> None:
        folder = tempfile.TemporaryDirectory()
        self.addCleanup(folder.cleanup)
        self.path = Path(folder.name) / "rows.db"
        self.put("0/100", 1, -0.0)

    def put(self, lsn: str, *row: object) -> None:
        self.path.unlink(missing_ok=True)
        with contextlib.closing(sqlite3.connect(self.path, isolation_level=None)) as base:
            base.executescript(
                'CREATE TABLE pgsub_position (lsn TEXT); CREATE TABLE pgsub_tables (name TEXT, schema TEXT, "table" TEXT, oid INTEGER);'
                "INSERT INTO pgsub_tables VALUES ('t', 'public', 't', 1); CREATE TABLE t (a INTEGER, b ANY) STRICT"
            )
            base.execute("INSERT INTO pgsub_position VALUES (?)", (lsn,))
            base.execute("INSERT INTO t VALUES (?, ?)", row)

    def of(self, kinds: tuple[str, ...] = ("INTEGER", "ANY"), *row: object) -> Tables:
        return {("public", "t"): held(kinds, [row or (1, -0.0)])}  # type: ignore[list-item]

    def test_the_same(self) -> None:
        self.assertEqual(compare_file(self.path, self.of()), 1)

    def test_others(self) -> None:
        for row in ((1, 0.0), (1, 0), (1.0, -0.0), (True, -0.0), (1, None), (2, -0.0)):
            with self.assertRaisesRegex(Failed, "at 0/100, public.t: it lacks"):
                compare_file(self.path, self.of(("INTEGER", "ANY"), *row))
        with self.assertRaisesRegex(Failed, "columns of the types"):
            compare_file(self.path, self.of(("INTEGER", "REAL")))
        with self.assertRaisesRegex(Failed, "public.other: it lacks"):
            compare_file(
                self.path,
                {**self.of(), ("public", "other"): Held(("INTEGER",), held((), [(1,)]).rows)},
            )

    def test_values_of_types(self) -> None:
        texts = {
            "smallint": "7",
            "integer": "-7",
            "bigint": "9223372036854775807",
            "boolean": "t",
            "bytea": "\\x00ff",
            "real": "0.1",
            "double precision": "NaN",
        }
        found = {kind: HAS[kind][1](text) for kind, text in texts.items()}
        self.assertEqual(list(found.values()), [7, -7, (1 << 63) - 1, 1, b"\0\xff", 0.1, "NaN"])
        for kind, modifier, row in (
            ("numeric", -1, (1.5, "1.50")),
            ("numeric(15,2)", (15 << 16 | 2) + 4, (1.5,)),
            ("numeric(3,-300)", (3 << 16 | -300 & 0x7FF) + 4, (1.5, "1.50")),
            ("numeric(16,2)", (16 << 16 | 2) + 4, (1.5, "1.50")),
            ("numeric[]", None, ("1.50",)),
        ):
            self.assertEqual(valued([has(kind)], ("1.50",)), row)
            if modifier is not None:
                self.assertEqual(kind_of(1700, modifier), kind)

    def replayed(self, b: str) -> Replay:
        state = Replay(0x100)
        definition = {
            "oid": 1,
            "schema": "public",
            "table": "t",
            "columns": [["a", 23, -1], ["b", 701, -1]],
        }
        state.describe(definition)
        state.change({"op": "c", "oid": 1, "before": None, "after": ["1", b]})
        return state

    def test_where_a_feed_leads_to_what_was_seen(self) -> None:
        feed = self.path.parent / "feed"
        feed.mkdir()
        definition = self.replayed("1").definitions[1]
        text = json.dumps({"base": "0/100"}).ljust(1023) + "\n"
        for at, b in ((0x200, "2"), (0x300, "3")):
            change = {
                "op": "c",
                "at": len(text) + 256,
                "n": 0,
                "before": None,
                "after": ["1", b],
            }
            lines = "".join(json.dumps(it) + "\n" for it in ({"op": "table", **definition}, change))
            commit = {"end": f"0/{at:X}", "prev": f"0/{at - 0x100:X}", "changes": 1}
            line = compact({**commit, "bytes": len(lines), "crc": 0}).ljust(255) + "\n"
            text += summed((line + lines).encode()).decode()
        (feed / f"{0x100:016X}").write_text(text)
        seen = self.replayed("1")
        seen.change({"op": "c", "oid": 1, "before": None, "after": ["1", "2"]})
        found = digests_of_replay(seen)
        nothing: dict[tuple[str, str], tuple[int, int]] = {}
        for wanted, told in (
            (found, "public.t after 200 to 200"),
            (nothing, "public.t after no commit"),
        ):
            unlike = Unlike(0x300, wanted, {("public", "t"): (9, 9)})
            self.assertIn(told, explained(feed, self.replayed("1"), unlike))

    def test_what_a_reader_sees(self) -> None:
        reader = Reader(self.path)
        reader.read()
        reader.check(self.replayed("-0"))
        told = (
            r"at 100 a reader saw other rows of public.t \(1, where it leads to 1\) than the feed"
        )
        with self.assertRaisesRegex(Failed, told):
            reader.check(self.replayed("2"))
        self.put("0/100", 1, 5.0)
        reader.read()
        self.assertEqual(reader.wrong, "a reader saw two states at 0/100")
        self.path.write_bytes(b"no database at all" * 100)
        reader.read()
        self.assertIn("a reader got: ", reader.wrong)
