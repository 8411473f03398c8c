"""What `pgsub-feed` prints of the rows from before a feed's first commit, and what it runs at a
TRUNCATE."""

from __future__ import annotations

import json
import subprocess
from pathlib import Path
from typing import Any

from pgsub_feed.errors import PASSING, UNFIT
from pgsub_feed.files import replace_file

from .bases import make_base
from .feeds import STOCK, delete, insert, table, truncate, update
from .test_consumer import CONNECT, OTHER
from .test_feed_printing import PrintingCase
from .vectors import logged

P = 0x100
BAG = table(3, "bag", letter="f")


class Printed(PrintingCase):
    base = P

    def setUp(self) -> None:
        super().setUp()
        rows = [(STOCK, ("1", "a")), (STOCK, ("2", None)), (OTHER, ("1", "x")), (BAG, ("1", "y"))]
        make_base(self.path, P, [STOCK, OTHER, BAG], rows)
        self.feed.commit(0x200, [update(["1", "a"], ["1", "b"])])

    def found(self, *words: str) -> list[Any]:
        return [json.loads(it) for it in self.print(*words).splitlines()]

    def test_objects(self) -> None:
        found = self.found()
        self.assertEqual([it["op"] for it in found], ["r", "r", "r", "r", "u"])
        self.assertEqual([it["id"] for it in found][:4], [f"0/100:{it}" for it in range(4)])
        self.assertEqual((found[1]["after"], found[1]["before"]), ({"id": 2, "name": None}, None))
        self.assertEqual([it["op"] for it in self.found("--from", "0/100")], ["u"])
        self.assertEqual(len(self.found("--table", "sales.other")), 1)
        self.assertEqual([it["op"] for it in self.found("--to", "0/100")], ["r"] * 4)
        self.assertEqual(self.found("--to", "0/FF"), [])

    def test_lines(self) -> None:
        first = self.print("--format", "lines").splitlines()
        told = json.loads(first[0])
        self.assertEqual((told["base"], told["end"], told["rows"]), ("0/100", "0/0", 2))
        size = sum(len(it) + 1 for it in first[1:4])
        self.assertEqual((size, first[3]), (told["bytes"], '["2",null]'))

    def test_debezium(self) -> None:
        found = self.found("--format", "debezium")
        self.assertEqual([it["op"] for it in found], ["r", "r", "r", "r", "u"])
        source = found[0]["source"]
        self.assertEqual((source["snapshot"], source["lsn"]), ("true", P))
        self.assertEqual(found[4]["source"]["snapshot"], "false")

    def test_bulk(self) -> None:
        with logged() as told:
            found = self.found("--format", "bulk")
        self.assertIn("bag (3) has no key", told[0])
        about = [it["index"] for it in found if "index" in it]
        names = [(it["_index"], it["_id"], it["version"]) for it in about]
        rows = [
            ("stock", "1", P),
            ("stock", "2", P),
            ("sales.other", "1", P),
            ("stock", "1", 0x200),
        ]
        self.assertEqual(names, rows)
        self.assertEqual(found[1], {"id": 1, "name": "a"})

    def test_a_feed_without_them(self) -> None:
        for it in (self.path / "base").iterdir():
            it.unlink()
        (self.path / "base").rmdir()
        self.assertEqual([it["op"] for it in self.found()], ["u"])


class Truncated(PrintingCase):
    """A command that is run between the lines."""

    def setUp(self) -> None:
        super().setUp()
        self.out, self.said = self.folder / "out", self.folder / "said"
        self.script = self.folder / "script"
        self.write(0)
        self.feed.commit(0x200, [insert("1", "a"), insert("1", "x", of=OTHER)])
        self.feed.commit(0x300, [insert("2", "b"), truncate(), insert("3", "c"), truncate(OTHER)])
        self.feed.commit(0x400, [delete("3", "c")])

    def write(self, status: int) -> None:
        """(It notes its words, and how much was written before.)"""
        text = f'#!/bin/sh\necho "$@" $(wc -l < {self.out}) >> {self.said}\necho printed\nexit {status}\n'
        replace_file(str(self.script), text.encode(), 0o700)

    def run_bulk(self, *words: str) -> int:
        command = [str(CONNECT / "pgsub-feed"), "--feed", str(self.path), "--format", "bulk"]
        with open(self.out, "wb") as out:
            done = subprocess.run([*command, *words], stdout=out, timeout=300, check=False)
        return done.returncode

    def lines(self, path: Path) -> list[str]:
        return path.read_text().splitlines()

    def test_between_the_lines(self) -> None:
        self.assertEqual(self.run_bulk("--on-truncate", f"{self.script} 'a b'"), 0)
        said = ["a b public.stock 0/300 stock 4", "a b sales.other 0/300 sales.other 4"]
        self.assertEqual(self.lines(self.said), said)
        about = [json.loads(it) for it in self.lines(self.out)[4:]]
        self.assertEqual([it.get("index", {}).get("_id") for it in about], ["3", None, None])
        self.assertEqual(about[2]["delete"]["version"], 0x400)

    def test_one_that_fails(self) -> None:
        """Nothing of the commit is written, and it is run again."""
        self.write(3)
        self.assertEqual(self.run_bulk("--on-truncate", str(self.script)), PASSING)
        self.assertEqual((len(self.lines(self.out)), len(self.lines(self.said))), (4, 1))
        self.assertEqual(self.run_bulk("--on-truncate", "/none/at/all"), PASSING)
        self.assertEqual(self.run_bulk("--on-truncate", "'"), 2)
        self.assertEqual(self.run_bulk("--on-truncate", " "), 2)
        self.assertEqual(self.run_bulk(), UNFIT)
        self.write(0)
        self.assertEqual(self.run_bulk("--on-truncate", str(self.script), "--from", "0/200"), 0)

    def test_tables_without_a_key(self) -> None:
        self.feed.commit(0x500, [truncate(BAG)])
        words = "--from", "0/400", "--on-truncate", str(self.script)
        self.assertEqual(self.run_bulk(*words), 0)
        self.assertFalse(self.said.exists())
