"""What `bench/run loads` has a server do, and what it tells of followers."""

from __future__ import annotations

import collections
import importlib
import re
import sys
import tempfile
import unittest
from pathlib import Path
from typing import Any

from built import TOP

try:
    from live_server import installed
    from live_server.cluster import Cluster
except ModuleNotFoundError:
    raise unittest.SkipTest("psycopg is needed") from None

sys.path[:0] = [str(TOP / "bench"), str(TOP / "bench/loads")]
kinds, taking = importlib.import_module("kinds"), importlib.import_module("taking")
loads = importlib.import_module("loads")

SLOT = "counted"
# What the changes of a slot are, by the first letter of their messages.
CHANGES = (
    "SELECT chr(get_byte(data, 0)), count(*) FROM pg_logical_slot_get_binary_changes("
    f"'{SLOT}', NULL, NULL, 'proto_version', '1', 'publication_names', 'pgsub') GROUP BY 1"
)
# How many changes each load is tried with: no multiple of what a transaction has, and more than there
# are rows with a text that isn't sent.
ROWS = 2050
LETTERS = {"inserts": "I", "deletes": "D", "updates": "U"}


def each_of(name: str) -> int:
    """How many changes a transaction of a load has."""
    if "one transaction" in name:
        return ROWS
    told = re.search(r"(\d+) a transaction", name)
    return int(told[1]) if told else 100


class Changes(unittest.TestCase):
    """Each load makes as many changes as it says, of the kind that its name says."""

    def setUp(self) -> None:
        folder = tempfile.TemporaryDirectory()
        self.addCleanup(folder.cleanup)
        # the server's account goes through it
        Path(folder.name).chmod(0o711)
        self.server = Cluster(installed.find(None, None, "postgres"), Path(folder.name))
        self.addCleanup(self.server.remove)
        self.server.start()

    def found(self, kind: Any, database: str) -> dict[str, int]:
        """The changes of a load, by letter."""
        self.server.run(f"CREATE DATABASE {database}", database="postgres")
        self.server.run(*kind.tables, "CREATE PUBLICATION pgsub FOR ALL TABLES", database=database)
        with self.server.connect(database) as session:
            session.run(*kind.fill)
            session.run(f"SELECT pg_create_logical_replication_slot('{SLOT}', 'pgoutput')")
            session.run(*kind.make, kind.last)
            found = {str(name): int(count or 0) for name, count in session.rows(CHANGES)}
            session.run(f"SELECT pg_drop_replication_slot('{SLOT}')")
        return found

    def test_each_makes_as_many_as_it_says(self) -> None:
        for at, load in enumerate(kinds.KINDS):
            with self.subTest(load.name):
                kind = load.sized(ROWS)
                found = collections.Counter(self.found(kind, f"load_{at}"))
                # (and the last one, which is by itself)
                found["I"] -= 1
                found["B"] -= 1
                letter = LETTERS[re.split(r"\W", load.name)[0]]
                self.assertEqual({it: found[it] for it in "IDU" if found[it]}, {letter: ROWS})
                self.assertEqual(found["B"], -(-ROWS // each_of(load.name)))


class Sizes(unittest.TestCase):
    def test_their_own_and_others(self) -> None:
        by_name = {it.name: it for it in kinds.KINDS}
        self.assertEqual(len(by_name), len(kinds.KINDS))
        keyless = by_name["deletes from a table without a key"]
        whole = by_name["inserts, one transaction"]
        for load, asked, changes in (
            (whole, None, 5_000_000),
            (whole, 1_000_000, 1_000_000),
            (keyless, None, 5_000),
            (keyless, 5_000_000, 5_000),
            (keyless, 7, 7),
        ):
            self.assertEqual(load.sized(asked).changes, changes)

    def test_each_number_below_a_prime_comes_once(self) -> None:
        for number, prime in ((1, 2), (250, 251), (100_000, 100_003), (48_270, 48_281)):
            self.assertEqual(kinds.prime_above(number), prime)
            found = {it * kinds.FACTOR % prime for it in range(1, prime)}
            self.assertEqual(found, set(range(1, prime)))


class Told(unittest.TestCase):
    def test_a_line(self) -> None:
        kind = kinds.KINDS[0].sized(1000)
        subscription = taking.Run(0.01, 0.5, 0.7, {"worker": 0.4, "walsender": 0.1})
        parts = {"connector": 0.3, "filter": 0.57, "walsender": 0.1}
        program = taking.Run(0.4, 1.0, 1.0, parts)
        self.assertEqual(
            loads.line(kind, [subscription], [program]),
            "| inserts, rising keys, 100 a transaction | 1,000 | 2,000 | 1,000 | 0.50: 0.50 | 0.01 | 0.40"
            " | 0.40 | 0.57 | 0.30 | 0.10 | 0.10 | filter, 95% |",
        )
        self.assertEqual(loads.HEAD.splitlines()[-2].count("|"), 14)


if __name__ == "__main__":
    unittest.main()
