"""What is told once in a run of what is published."""

from __future__ import annotations

import dataclasses
import unittest

from pgsub_connect.drift.doubts import warnings
from pgsub_connect.server.catalog import Catalog, Partition

from .fake_server import FakeServer, connection_to
from .vectors import ID, NAME, PGSUB, a_catalog, a_shape, a_table

MISSING = "these changes are missing in the copy"
ROOT = a_table(10, "root", kind="p")
TREE = (
    Partition(10, 0, "public.root", False),
    Partition(11, 10, "public.p1", True),
    Partition(12, 10, "public.p2", True, logged=False),
    Partition(13, 10, "public.p3", True, logged=False),
)


class Told(unittest.TestCase):
    def setUp(self) -> None:
        self.server = FakeServer()

    def told(self, now: Catalog, made: dict[str, int] = {}) -> list[str]:
        return list(warnings(connection_to(self.server), now, made))

    def test_nothing(self) -> None:
        self.assertEqual(self.told(a_catalog(a_table(1, "t"))), [])
        self.assertEqual(self.told(a_catalog()), [])

    def test_changes_that_are_left_out(self) -> None:
        now = a_catalog(publication=dataclasses.replace(PGSUB, actions=("insert", "update")))
        self.assertEqual(
            self.told(now),
            ["publication pgsub has no deletes and no truncates: " + MISSING],
        )
        self.assertEqual(self.told(now, {"pgsub": 900}), [])

    def test_partitions_that_are_in_no_log(self) -> None:
        told = "unlogged or foreign, so no change of them is sent, and their rows aren't copied: "
        self.assertEqual(
            self.told(a_catalog(ROOT, partitions=TREE)), [told + "public.p2, public.p3"]
        )
        alone = dataclasses.replace(a_table(12, "p2"), logged=False)
        self.assertEqual(
            self.told(a_catalog(a_table(11, "p1"), alone, partitions=TREE)), [told + "public.p2"]
        )

    def test_columns_that_name_other_objects(self) -> None:
        self.server.answer("RECURSIVE", [["2205"], ["2210"]])
        shape = a_shape([ID, NAME, (0, "which", 2205, -1), (0, "all", 2210, -1)])
        told = self.told(a_catalog(a_table(1, "t", shape), a_table(2, "u")))
        self.assertEqual(len(told), 1)
        self.assertIn("names of other objects", told[0])
        self.assertTrue(told[0].endswith("is renamed: public.t.all, public.t.which"), told)
        self.assertIn("y.oid IN (23, 25, 2205, 2210)", self.server.commands[0])


if __name__ == "__main__":
    unittest.main()
