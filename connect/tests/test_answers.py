"""Answers that no PostgreSQL server gives: each is an error of the server, which lasts, and none is
a bug."""

from __future__ import annotations

import unittest
from collections.abc import Callable

from pgsub_connect.errors import ServerError, WrongAnswer, understood
from pgsub_connect.server import catalog_reader, preflight, session, slot
from pgsub_connect.server.catalog import Partition
from pgsub_connect.server.catalog_reader import check_tree, ways_to
from pgsub_connect.server.connection import Connection

from .fake_server import FakeServer, Quiet, Row, connection_to

ANSWERS: tuple[list[Row], ...] = (
    [],
    [[]],
    [["x"]],
    [["x", "y", "z"]],
    [[None] * 4],
    [["many"] * 20],
    [["9" * 5000] * 4],
    [["77", "1", "0/", "shop"]],
    [["1", "-"]],
)


class Reading(Quiet):
    """What reads an answer, of each kind."""

    def test_each(self) -> None:
        """It gives a value, or it is the server's error."""
        calls: tuple[Callable[[Connection], object], ...] = (
            session.identify,
            lambda it: session.left_at(it, 2, 1),
            lambda it: session.slot_position(it, "pgsub"),
            session.sender_timeout,
            session.log_end,
            session.postmaster_start,
            lambda it: catalog_reader.read_catalog(it, ["pgsub"]),
            lambda it: preflight.server_facts(it, "pgsub"),
            preflight.role_facts,
            lambda it: slot.read_slot(it, "pgsub"),
            lambda it: preflight.tables_facts(it, "SELECT"),
        )
        rejected = 0
        for rows in ANSWERS:
            for call in calls:
                small = FakeServer()
                small.answer("", rows)
                try:
                    call(connection_to(small))
                except ServerError as error:
                    self.assertTrue(error.is_lasting() or error.sqlstate, error)
                    self.assertTrue(len(str(error)) < 2200)
                    rejected += 1
                except Exception as error:
                    if type(error).__name__ != "Unfit":
                        raise
        self.assertGreater(rejected, len(calls) * len(ANSWERS) // 2)

    def test_as_a_decorator(self) -> None:
        @understood("a number")
        def read(text: str) -> int:
            return int(text)

        self.assertEqual(read("7"), 7)
        with self.assertRaisesRegex(
            WrongAnswer, "about a number isn't one of PostgreSQL: invalid literal"
        ):
            read("seven")


class Circles(unittest.TestCase):
    def partitions(self, **parents: int) -> dict[int, Partition]:
        return {
            int(name[1:]): Partition(int(name[1:]), parent, name, True, since="7")
            for name, parent in parents.items()
        }

    def test_of_partitions(self) -> None:
        for parents, at in (
            ({"p1": 1}, 1),
            ({"p1": 2, "p2": 1}, 1),
            ({"p5": 4, "p4": 3, "p3": 4}, 4),
        ):
            with self.assertRaisesRegex(WrongAnswer, f"in a circle: {at} is below itself"):
                check_tree(self.partitions(**parents))

    def test_trees(self) -> None:
        """Ones that share what is above them, which may not be known."""
        partitions = self.partitions(p1=0, p2=1, p3=1, p4=2, p5=2, p6=99)
        check_tree(partitions)
        self.assertEqual(list(ways_to(5, {1: ["a"], 2: ["b"]}, partitions)), ["b/7", "a/7/7"])

    def test_of_a_server(self) -> None:
        small = FakeServer()
        small.answer(
            "WITH RECURSIVE t (oid, parent)",
            [[*"12p", "t", "t", "7", "7", "t", "0"], [*"21q", "t", "t", "7", "7", "t", "0"]],
        )
        with self.assertRaisesRegex(WrongAnswer, "in a circle"):
            catalog_reader.read_partitions(connection_to(small), ["pgsub"])


if __name__ == "__main__":
    unittest.main()
