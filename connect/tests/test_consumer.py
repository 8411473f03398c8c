"""The library by which a program of one's own reads a feed, and the example of one."""

from __future__ import annotations

import datetime
import decimal
import os
import random
import signal
import subprocess
import sys
import time
import uuid
from collections.abc import Iterator
from pathlib import Path
from typing import Any
from unittest import mock

import feed_replay
from feed_text import EPOCH, UNSENT, About, Column, Line

import pgsub_feed
from pgsub_feed import Column as Published
from pgsub_feed import (
    Commit,
    Damaged,
    Delete,
    Insert,
    Missed,
    Truncate,
    Unfit,
    Update,
    python_value,
)
from pgsub_feed.errors import UsageError

from .feeds import ID, NAME, STOCK, FeedCase, delete, insert, table, truncate, update

CONNECT = Path(__file__).resolve().parent.parent
EXAMPLE = CONNECT.parent / "examples/keep_dict.py"
OTHER = table(2, "other", schema="sales")
# Imports each module of the package where neither psycopg nor the connector can be imported.
ALONE = """
import importlib, pkgutil, sys
class Refuse:
    def find_spec(self, name, path=None, target=None):
        if name.partition(".")[0] in ("psycopg", "psycopg_c", "psycopg_binary", "pgsub_connect"):
            raise ModuleNotFoundError(name)
sys.meta_path.insert(0, Refuse())
import pgsub_feed
for it in pkgutil.walk_packages(pgsub_feed.__path__, "pgsub_feed."):
    importlib.import_module(it.name)
    print(it.name)
"""


class Alone(FeedCase):
    def run_python(self, *words: str) -> str:
        environment = {"PATH": os.environ["PATH"], "PYTHONPATH": str(CONNECT)}
        done = subprocess.run(
            ["/usr/bin/python3", *words],
            env=environment,
            capture_output=True,
            text=True,
            timeout=300,
        )
        self.assertEqual((done.returncode, done.stderr), (0, ""))
        return done.stdout

    def test_no_module_needs_the_connector(self) -> None:
        files = {it for it in (CONNECT / "pgsub_feed").rglob("*.py") if it.name != "__init__.py"}
        packages = list((CONNECT / "pgsub_feed").glob("*/__init__.py"))
        imported = self.run_python("-c", ALONE).split()
        self.assertEqual(len(imported), len(files) + len(packages))

    def test_the_standard_library_is_enough_to_read(self) -> None:
        """(-S leaves out whatever is installed beside it.)"""
        self.feed.commit(0x100, [insert("1", "a")])
        code = "import pgsub_feed, sys; print([it.text() for it in pgsub_feed.read(sys.argv[1])])"
        self.assertEqual(self.run_python("-S", "-c", code, str(self.path)), "['0/100']\n")


class Reads(FeedCase):
    def read(self, after: int | None = None, **more: Any) -> list[Commit]:
        return list(pgsub_feed.read(self.path, after, **more))

    def told(self, after: int | None = None, **more: Any) -> list[tuple[int, list[Any]]]:
        """Of each commit the LSN, and the changes with their rows."""
        return [
            (it.lsn, [self.shown(change) for change in it.changes])
            for it in self.read(after, **more)
        ]

    def shown(self, it: pgsub_feed.Change) -> tuple[Any, ...]:
        if isinstance(it, Missed):
            return Missed, it.table.name, it.sent, it.old, it.new
        rows = (getattr(it, name, None) for name in ("before", "after"))
        return type(it), it.table.name, *(dict(row) for row in rows if row is not None)

    def test_changes(self) -> None:
        self.feed.commit(
            0x100,
            [
                insert("1", None),
                update(["1", None], ["2", "b"]),
                delete("2", "b"),
                truncate(),
                Line(STOCK, "x", ["1", None], ["1", UNSENT], "K"),
            ],
            About(0xFF, 7, 1_500_000 - EPOCH),
        )
        self.assertEqual(
            self.told(),
            [
                (
                    0x100,
                    [
                        (Insert, "stock", {"id": "1", "name": None}),
                        (
                            Update,
                            "stock",
                            {"id": "1", "name": None},
                            {"id": "2", "name": "b"},
                        ),
                        (Delete, "stock", {"id": "2", "name": "b"}),
                        (Truncate, "stock"),
                        (Missed, "stock", "u", {"id": "1"}, {"id": "1"}),
                    ],
                )
            ],
        )
        found = self.read()[0]
        self.assertEqual((found.prev, found.xid, found.is_repair()), (0, 7, False))
        zone = datetime.timezone.utc
        self.assertEqual(found.time, datetime.datetime(1970, 1, 1, 0, 0, 1, 500000, zone))
        self.assertEqual([it.name for it in found.tables], ["stock"])

    def test_rows(self) -> None:
        bag = table(3, "bag", letter="f")
        self.feed.commit(0x100, [insert("1", "a"), insert("2", "b", of=bag)])
        one, other = (it.after for it in self.read()[0].changes if isinstance(it, Insert))
        self.assertEqual(
            (one["name"], one.key(), one.python()), ("a", ("1",), {"id": 1, "name": "a"})
        )
        self.assertEqual((len(other), other.key()), (2, ("2", "b")))
        with self.assertRaises(KeyError):
            one["none"]

    def test_each_commit_after_an_lsn(self) -> None:
        for number in range(1, 4):
            self.feed.commit(number << 8, [insert(str(number), "a")])
        self.assertEqual([it.lsn for it in self.read(0x100)], [0x200, 0x300])
        self.assertEqual(self.read(0x300), [])
        with self.assertRaisesRegex(Unfit, "no commit ends at 0/180"):
            self.read(0x180)

    def test_a_repair_is_told(self) -> None:
        self.feed.commit(0x100, [insert("1", "a")], About(0xFF, 2, 0))
        self.assertEqual(self.read(), [])
        self.feed.confirm(0x100)
        self.assertTrue(self.read()[0].is_repair())

    def test_chosen_tables(self) -> None:
        self.feed.commit(0x100, [insert("1", "a"), insert("2", "b", of=OTHER)])
        self.feed.commit(0x200, [insert("3", "a")])
        row = {"id": "2", "name": "b"}
        self.assertEqual(
            self.told(tables=["sales.other"]), [(0x100, [(Insert, "other", row)]), (0x200, [])]
        )

    def test_what_cant_be_read(self) -> None:
        self.feed.put(b"x" * 300)
        with self.assertRaisesRegex(Damaged, "reading 3 CommitLine"):
            self.read()

    def test_what_is_cut_off_while_it_follows(self) -> None:
        """A commit comes whole or not at all, also one whose lines are another's at first."""
        text = self.feed.text(0x100, [insert("1", "a"), insert("2", "b")])
        self.feed.put(text[:-20] + b"x" * 19 + b"\n")
        asked = list[int]()

        def check() -> None:
            asked.append(1)
            if len(asked) == 3:
                with open(self.feed.path, "r+b") as file:
                    file.seek(-len(text), os.SEEK_END)
                    file.write(text)

        found = next(pgsub_feed.read(self.path, 0, follow=True, check=check))
        self.assertEqual((found.lsn, len(found.changes), len(asked)), (0x100, 2, 3))

    def test_a_line_that_comes_last(self) -> None:
        """Whatever stands behind the zeros of a commit's line isn't there yet."""
        self.feed.commit(0x100, [insert("1", "a")])
        before, size = self.feed.path.read_bytes(), self.feed.size
        text = self.feed.text(0x200, [insert("2", "b"), insert("3", "c")])
        lines = [bytes(256), text[:100] + bytes(156), text[:255] + b"\0", text[:256]]

        def check() -> None:
            if lines:
                self.feed.path.write_bytes(before + lines.pop(0) + text[256:])

        with mock.patch("pgsub_feed.reader.polling.PATIENCE", 0.0):
            found = pgsub_feed.read(self.path, 0, follow=True, check=check)
            self.assertEqual([next(found).lsn for _ in range(2)], [0x100, 0x200])
        self.assertEqual(lines, [])
        self.feed.path.write_bytes(before + text[:100] + bytes(156) + text[256:])
        self.assertEqual([it.lsn for it in self.read()], [0x100])
        os.truncate(self.feed.path, size)
        self.assertEqual([it.lsn for it in self.read()], [0x100])

    def test_what_is_done_is_noted(self) -> None:
        for number in range(1, 4):
            self.feed.commit(number << 8, [insert(str(number), "a")])

        def noted() -> str:
            return (self.path / "readers/mine").read_text().strip()

        found = pgsub_feed.read(self.path, 0x100, reader="mine")
        next(found)
        self.assertEqual(noted(), "0/100")
        next(found)
        # (what the body hasn't ended with isn't done)
        found.close()  # type: ignore[attr-defined]
        self.assertEqual(noted(), "0/200")
        self.assertEqual(len(self.read(0x200, reader="mine")), 1)
        self.assertEqual(noted(), "0/300")

    def test_a_new_reader_needs_all_that_is_there(self) -> None:
        with self.assertRaises(StopAsked):
            next(pgsub_feed.read(self.path, 0, follow=True, reader="mine", check=self.stop))
        self.assertEqual((self.path / "readers/mine").read_text(), "0/0\n")

    def test_names_that_keep_nothing(self) -> None:
        """What is in such files isn't looked at where old segments are removed."""
        before = sorted(self.path.rglob("*"))
        for name in ("", ".mine", "mine.new", "../mine", "my/mine", "..", "a\0b"):
            for feed in (str(self.path), f"ssh://host{self.path}"):
                with self.subTest(name, feed=feed), self.assertRaises(UsageError) as raised:
                    pgsub_feed.read(feed, 0, reader=name)
                self.assertIn("is no name for a file", str(raised.exception))
        self.assertEqual(sorted(self.path.rglob("*")), before)

    def test_a_text_in_place_of_names(self) -> None:
        with self.assertRaisesRegex(UsageError, r"tables='stock': .* as \['stock'\]"):
            self.read(0, tables="stock")

    @staticmethod
    def stop() -> None:
        raise StopAsked


class StopAsked(Exception):
    pass


class Values(FeedCase):
    def test_texts(self) -> None:
        zone = datetime.timezone.utc
        for oid, text, value in (
            (16, "t", True),
            (17, "\\x00ff", b"\0\xff"),
            (20, "-9223372036854775808", -(1 << 63)),
            (25, "a", "a"),
            (701, "-Infinity", float("-inf")),
            (701, "0.1", 0.1),
            (1082, "2026-11-25", datetime.date(2026, 11, 25)),
            (1083, "09:30:00.5", datetime.time(9, 30, 0, 500000)),
            (1114, "2026-11-25 09:30:00", datetime.datetime(2026, 11, 25, 9, 30)),
            (
                1184,
                "2026-11-25 09:30:00.25+00",
                datetime.datetime(2026, 11, 25, 9, 30, 0, 250000, zone),
            ),
            (1700, "1.50", decimal.Decimal("1.50")),
            (
                2950,
                "a0eebc99-9c0b-4ef8-bb6d-6bb9bd380a11",
                uuid.UUID(int=0xA0EEBC999C0B4EF8BB6D6BB9BD380A11),
            ),
            # what Python can't hold, and types that it hasn't
            (1082, "infinity", "infinity"),
            (1082, "0044-03-15 BC", "0044-03-15 BC"),
            (1083, "24:00:00", "24:00:00"),
            (1114, "12026-11-25 09:30:00", "12026-11-25 09:30:00"),
            (16, "x", "x"),
            (1700, "x", "x"),
            (3802, '{"a": 1}', '{"a": 1}'),
            (1007, "{1,2}", "{1,2}"),
        ):
            with self.subTest(oid, text=text):
                found = python_value(Published("c", oid, -1, False), text)
                self.assertEqual((type(found), found), (type(value), value))
        self.assertIsNone(python_value(Published("c", 23, -1, False), None))

    def test_binary_values(self) -> None:
        for oid, cell, value in (
            (16, b"\1", True),
            (17, b"\xff", b"\xff"),
            (21, b"\xff\xfe", -2),
            (25, b"a", "a"),
            (25, b"\xff", b"\xff"),
            (23, b"\0", b"\0"),
            (701, b"\x7f\xf0" + bytes(6), float("inf")),
            (1700, b"\0\1", b"\0\1"),
        ):
            with self.subTest(oid, cell=cell):
                found = python_value(Published("c", oid, -1, False), cell)
                self.assertEqual((type(found), found), (type(value), value))


def random_lines(rng: random.Random, tables: dict[int, dict[str, str]]) -> Iterator[Line]:
    """The changes of one commit to the rows of these tables, which get them."""
    for _ in range(rng.choice((0, 1, 5))):
        of = rng.choice((STOCK, OTHER))
        rows = tables.setdefault(of.oid, {})
        key, value = str(rng.randrange(20)), str(rng.randrange(1000))
        if rng.random() < 0.03:
            rows.clear()
            yield truncate(of)
        elif key not in rows:
            rows[key] = value
            yield insert(key, value, of=of)
        elif rng.random() < 0.3:
            yield delete(key, rows.pop(key), of=of)
        else:
            new = rng.choice([key, *(it for it in ("90", "91", "92") if it not in rows)])
            was = rows.pop(key)
            rows[new] = value
            yield update([key, was], [new, value], of=of)


class Example(FeedCase):
    """The example of the documents, killed again and again."""

    most = 8000

    def start(self) -> subprocess.Popen[bytes]:
        words = [sys.executable, str(EXAMPLE), str(self.path), str(self.folder / "dict")]
        return subprocess.Popen(words, env={**os.environ, "PYTHONPATH": str(CONNECT)})

    def test_killed_at_random(self) -> None:
        rng = random.Random(7)
        rows: dict[int, dict[str, str]] = {}
        kills, child = 0, self.start()
        for number in range(1, 301):
            self.feed.commit(number << 8, list(random_lines(rng, rows)))
            if number % 25 == 0:
                time.sleep(rng.random() * 0.3)
                child.kill()
                kills += child.wait() == -signal.SIGKILL
                child = self.start()
        try:
            until = time.monotonic() + 60
            while self.kept_dict()[0] < self.feed.at and time.monotonic() < until:
                self.assertIsNone(child.poll())
                time.sleep(0.02)
        finally:
            child.kill()
            child.wait()
        self.assertEqual(kills, 12)
        lsn, found = self.kept_dict()
        self.assertEqual((lsn, found), replayed(self.path))
        self.assertGreater(len(found), 10)

    def test_definitions_that_change(self) -> None:
        """Rows are found by other columns from then on, or by all, and equal ones are several."""
        full, bag = table(letter="f"), table(3, "bag", letter="f")
        wider = table(columns=(ID, Column("more", 23), NAME), letter="f")
        self.feed.commit(0x100, [insert(it, "a") for it in "1234"])
        self.feed.commit(
            0x200, [update(["1", "a"], ["1", "b"], of=full), delete("2", "a", of=full)]
        )
        self.feed.commit(0x300, [delete("3", None, "a", of=wider), update(["1", "b"], ["5", "b"])])
        self.feed.commit(0x400, [insert("1", "x", of=bag)] * 3)
        self.feed.commit(0x500, [delete("1", "x", of=bag)])
        child, until = self.start(), time.monotonic() + 60
        while self.kept_counted()[0] < self.feed.at and time.monotonic() < until:
            time.sleep(0.02)
        child.kill()
        child.wait()
        stock = {it: (1, (it,)) for it in "45"}
        expected = {
            stock["4"]: ({"id": "4", "name": "a"}, 1),
            stock["5"]: ({"id": "5", "name": "b"}, 1),
            (3, ("1", "x")): ({"id": "1", "name": "x"}, 2),
        }
        self.assertEqual(self.kept_counted(), (0x500, expected))


def replayed(feed: Path) -> tuple[int, dict[Any, Any]]:
    """What the example is to have of a feed."""
    there = feed_replay.replay(feed)
    return there.at, {
        (oid, (key,)): {"id": key, "name": name}
        for oid, counted in there.rows.items()
        for (key, name), copies in counted.items()
        if copies
    }
