"""What is read of a store that a follower has left: by the program's dump and in its file, also
where something was killed."""

from __future__ import annotations

import collections
import os
import random
import signal
import subprocess
import sys
import tempfile
import time
import unittest
from pathlib import Path

from stores.contents import Contents
from stores.text import Writer

from . import stored

try:
    from live_server.errors import Failed
    from live_server.follower import Supervisor, has_ended, kill_all
    from live_server.rows import check_file, rows_of_file, rows_of_store
except ModuleNotFoundError:
    raise unittest.SkipTest("psycopg is needed") from None

DUMP = """["pg_catalog","log",["a"],2]
["public","stock",["1","x"],1]
["public","stock",["2",null],1]
position 1/30
"""
# prints a text for `dump`
PROGRAM = """#!/bin/sh
cat "$0.txt"
"""
# in seconds
LONG = 1.0
# stands for the connector: it says which child it has, which stands for the filter and ends with
# its input, and starts another if that ends
CONNECTOR = """
import subprocess, sys
while True:
    words = [sys.executable, "-c", "import sys; sys.stdin.read()", "follow"]
    child = subprocess.Popen(words, stdin=subprocess.PIPE)
    print(child.pid, flush=True)
    child.wait()
"""


class Case(unittest.TestCase):
    def setUp(self) -> None:
        room = tempfile.TemporaryDirectory()
        self.addCleanup(room.cleanup)
        self.folder = Path(room.name)
        self.store, self.program = self.folder / "copy.db", self.folder / "program"
        self.program.write_text(PROGRAM)
        self.program.chmod(0o755)
        self.dumps(DUMP)
        body = b"\0\2" + stored.cell(b"2") + b"n"
        key, row = stored.keyed_row(2, b"")
        rows = dict(
            [stored.full_row(b"a", 2), stored.keyed_row(1, b"x"), (key, type(row)(body, 1))]
        )
        self.held = Contents(
            {stored.STOCK: stored.KEYED, stored.LOG: stored.FULL}, rows, 0x1_0000_0030
        )
        self.writer = Writer(self.store, random.Random(1))
        self.writer.make(1024)
        self.writer.write_log(Contents(), self.held)

    def dumps(self, text: str) -> None:
        Path(f"{self.program}.txt").write_text(text)

    def test_the_file_is_as_the_dump(self) -> None:
        rows, position = rows_of_store(self.program, self.store)
        self.assertEqual(position, "1/30")
        self.assertEqual(
            rows,
            {
                ("pg_catalog", "log"): collections.Counter({("a",): 2}),
                ("public", "stock"): collections.Counter([("1", "x"), ("2", None)]),
            },
        )
        self.assertEqual(rows_of_file(self.store), (rows, position))
        # (neither the file nor its log was changed)
        self.assertEqual(
            sorted(it.name for it in self.folder.iterdir()),
            ["copy.db", "copy.db-wal", "program", "program.txt"],
        )

    def test_the_dump_has_other_rows(self) -> None:
        for old, new, told in (
            ('["a"],2', '["a"],1', "pg_catalog.log: the copy lacks"),
            ('"x"', '"y"', "public.stock: the copy lacks"),
            ("null", '""', "public.stock"),
            ("1/30", "1/31", "copy.db has the position 1/30, and the dump 1/31"),
        ):
            self.dumps(DUMP.replace(old, new))
            with self.assertRaisesRegex(Failed, told):
                rows_of_store(self.program, self.store)

    def test_the_file_is_not_sound(self) -> None:
        self.writer.write(self.held, self.held)
        whole = self.store.read_bytes()
        with stored.trees(self.store) as base:
            base.execute("DELETE FROM entries WHERE number = 1")
        told = "the file copy.db\n   integrity_check: row 1 missing from index"
        with self.assertRaisesRegex(Failed, told):
            check_file(self.store)
        with self.assertRaisesRegex(Failed, told):
            rows_of_store(self.program, self.store)
        self.store.write_bytes(whole)
        check_file(self.store)

    def test_no_store_yet(self) -> None:
        check_file(self.folder / "no.db")
        with stored.opened(self.folder / "bare.db") as base:
            base.execute("PRAGMA journal_mode = WAL")
        check_file(self.folder / "bare.db")


class Killed(unittest.TestCase):
    """A connector that is started again, and its filter."""

    def setUp(self) -> None:
        room = tempfile.TemporaryDirectory()
        self.addCleanup(room.cleanup)
        self.log = Path(room.name, "log")
        self.supervisor = Supervisor([sys.executable, "-c", CONNECTOR], self.log)
        self.supervisor.begin()
        self.addCleanup(self.supervisor.join)
        self.addCleanup(self.supervisor.kill)
        self.seen = list[list[int]]()

    def filters(self, count: int) -> list[int]:
        """The filters that have been started, at least so many of them."""
        while self.log.read_text().count("\n") < count:
            self.supervisor.check()
        return [int(it) for it in self.log.read_text().split()]

    def look(self) -> None:
        """Sees that nothing runs that writes a store."""
        pids = self.filters(1)
        self.assertEqual([it for it in pids if not has_ended(it)], [])
        self.seen.append(pids)

    def test_the_filter(self) -> None:
        self.filters(1)
        while not self.supervisor.kill_filter(self.look):
            self.supervisor.check()
        self.assertEqual((len(self.filters(2)), len(self.seen), self.supervisor.starts), (2, 1, 1))

    def look_long(self) -> None:
        """The same, for longer than it takes to start a connector again."""
        time.sleep(LONG)
        self.look()

    def test_the_connector(self) -> None:
        first = self.filters(1)
        self.assertTrue(self.supervisor.kill_connector(self.look_long))
        self.assertEqual(self.seen[0], first)
        self.filters(2)
        self.assertGreaterEqual(self.supervisor.starts, 2)

    def test_whether_a_process_has_ended(self) -> None:
        child = subprocess.Popen(["sleep", "100"])
        self.assertFalse(has_ended(child.pid))
        self.assertTrue(kill_all([child.pid]))
        # (nobody has asked for its status yet)
        os.waitid(os.P_PID, child.pid, os.WEXITED | os.WNOWAIT)
        self.assertTrue(has_ended(child.pid))
        self.assertEqual(child.wait(), -signal.SIGKILL)
        self.assertTrue(has_ended(child.pid))
        self.assertFalse(kill_all([child.pid]))


if __name__ == "__main__":
    unittest.main()
