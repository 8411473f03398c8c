"""The example that reads a feed by its files alone, without the library."""

from __future__ import annotations

import os
import pickle
import random
import signal
import subprocess
import sys
import time
from typing import Any

from feed_text import About, Column, Line, Message

from .bases import make_base
from .feeds import ID, NAME, STOCK, FeedCase, delete, insert, table, truncate, update
from .small_world import wait_for
from .test_consumer import CONNECT, OTHER, random_lines

EXAMPLE = CONNECT.parent / "examples/read_files.py"
MOST_LINES = 60
P = 0x100
BAG = table(3, "bag", letter="f")
WIDER = table(columns=(ID, Column("more", 23), NAME))


class ExampleCase(FeedCase):
    base, most = P, 8000

    def start(self) -> subprocess.Popen[bytes]:
        """(-I: without this package.)"""
        words = [sys.executable, "-I", str(EXAMPLE), str(self.path), str(self.folder / "kept")]
        return subprocess.Popen(words)

    def kept(self) -> tuple[int, dict[int, list[dict[str, Any]]]]:
        """The LSN and the rows of each table, each as often as it is there."""
        path = self.folder / "kept"
        if not path.exists():
            return 0, {}
        at, _, tables = pickle.loads(path.read_bytes())
        found = {
            oid: [row for row, copies in rows.values() for _ in range(copies)]
            for oid, rows in tables.items()
        }
        return at, found

    def wait(self, child: subprocess.Popen[bytes]) -> None:
        until = time.monotonic() + 120
        try:
            while self.kept()[0] < self.feed.at and time.monotonic() < until:
                self.assertIsNone(child.poll())
                time.sleep(0.02)
        finally:
            child.kill()
            child.wait()


class Reads(ExampleCase):
    def test_it_is_short_and_alone(self) -> None:
        text = EXAMPLE.read_text()
        self.assertLessEqual(len(text.splitlines()), MOST_LINES)
        self.assertNotIn("pgsub", text)

    def test_all_kinds_of_changes(self) -> None:
        rows = [(STOCK, ("1", "a")), (STOCK, ("2", "b")), (BAG, ("1", "x")), (BAG, ("1", "x"))]
        make_base(self.path, P, [STOCK, OTHER, BAG], rows, room=10, least=100)
        self.feed.commit(0x200, [update(["1", "a"], ["5", "c"]), delete("1", "x", of=BAG)])
        self.feed.commit(0x300, [insert("9", None, of=OTHER), truncate(OTHER)])
        self.feed.commit(0x400, [insert("3", b"\0\xff"), insert("3", "x", of=BAG)])
        self.feed.end()
        self.feed.commit(0x500, [Line(WIDER, "c", None, ["7", "8", "d"])])
        self.feed.commit(0x600, [Line(WIDER, "x", ["7", None, None], None, "K")])
        # (a repair: what is there before isn't what it says)
        wrong, right = ["2", "1", "q"], ["2", "1", "r"]
        self.feed.commit(0x700, [Line(WIDER, "u", wrong, right)], About(0x6FF, 2, 0))
        self.feed.confirm(0x700)
        self.wait(self.start())
        at, found = self.kept()
        stock = {it["id"]: (it["more"], it["name"]) for it in found[STOCK.oid]}
        expected = {
            "5": (None, "c"),
            "2": ("1", "r"),
            "3": (None, {"hex": "00ff"}),
            "7": ("8", "d"),
        }
        self.assertEqual((at, stock), (0x700, expected))
        self.assertEqual(found[OTHER.oid], [])
        bag = sorted(it["id"] for it in found[BAG.oid])
        self.assertEqual(bag, ["1", "3"])

    def test_what_isnt_there_yet(self) -> None:
        self.feed.path.unlink()
        self.assertNotEqual(self.start().wait(60), 0)
        self.feed = type(self.feed)(self.path, 0)
        self.feed.commit(0x200, [insert("1", "a")])
        text = self.feed.text(0x300, [insert("2", "b")])
        self.feed.put(text[:-5])
        self.feed.at = 0x200
        child = self.start()
        self.wait(child)
        self.assertEqual(len(self.kept()[1][STOCK.oid]), 1)
        self.feed.put(text[-5:])
        self.feed.at = 0x300
        self.wait(self.start())
        self.assertEqual(len(self.kept()[1][STOCK.oid]), 2)

    def test_a_line_that_comes_last(self) -> None:
        """A long commit's own line is written behind its others, and may be seen in parts."""
        make_base(self.path, P, [STOCK], [])
        self.feed.commit(0x200, [insert("1", "a")])
        before, size = self.feed.path.read_bytes(), self.feed.size
        text = self.feed.text(0x300, [insert("2", "b"), insert("3", "c")])
        self.feed.at, child = 0x200, self.start()
        self.addCleanup(child.kill)
        for line in (bytes(256), text[:100] + bytes(156), bytes(100) + text[100:256]):
            self.feed.path.write_bytes(before + line + text[256:])
            self.assertTrue(wait_for(lambda: self.kept()[0] > 0))
            time.sleep(0.2)
            self.assertEqual((child.poll(), self.kept()[0]), (None, 0x200))
        os.truncate(self.feed.path, size)
        self.feed.size, self.feed.told = size, {}
        self.feed.commit(0x280, [insert("4", "d")])
        self.wait(child)
        found = self.kept()
        self.assertEqual((found[0], [it["id"] for it in found[1][STOCK.oid]]), (0x280, ["1", "4"]))

    def test_a_repair_that_isnt_confirmed(self) -> None:
        make_base(self.path, P, [STOCK], [])
        self.feed.commit(0x200, [insert("1", "a")], About(0x1FF, 2, 0))
        child, until = self.start(), time.monotonic() + 60
        while not self.kept()[0] and time.monotonic() < until:
            time.sleep(0.02)
        time.sleep(0.5)
        self.assertEqual(self.kept(), (P, {STOCK.oid: []}))
        self.feed.confirm(0x200)
        self.wait(child)

    def test_a_spoiled_file(self) -> None:
        make_base(self.path, P, [STOCK], [(STOCK, ("1", "a"))])
        path = self.path / "base/00000001"
        path.write_bytes(path.read_bytes().replace(b'"a"', b'"b"'))
        self.assertEqual(self.start().wait(60), 1)


class Killed(ExampleCase):
    def test_killed_at_random(self) -> None:
        rng = random.Random(5)
        rows = {it.oid: {str(key): "x" for key in range(500)} for it in (STOCK, OTHER)}
        held = ((it, pair) for it in (STOCK, OTHER) for pair in list(rows[it.oid].items()))
        make_base(self.path, P, [STOCK, OTHER], held, room=1000, least=10000)
        kills, child = 0, self.start()
        for number in range(2, 302):
            messages = [Message(number << 8, "p", b"x")] * (number % 3)
            self.feed.commit(number << 8, list(random_lines(rng, rows)), messages=messages)
            if number % 20 == 0:
                time.sleep(rng.random() * 0.3)
                child.kill()
                kills += child.wait() == -signal.SIGKILL
                child = self.start()
        self.wait(child)
        self.assertEqual(kills, 15)
        at, found = self.kept()
        ids = {oid: {it["id"]: it["name"] for it in some} for oid, some in found.items()}
        self.assertEqual((at, ids), (self.feed.at, rows))
        self.assertEqual(
            {oid: len(it) for oid, it in found.items()}, {oid: len(it) for oid, it in ids.items()}
        )
