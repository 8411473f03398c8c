"""What the rows are asked where the catalog leaves something in doubt."""

from __future__ import annotations

import dataclasses
import re
import unittest
from unittest import mock

from pgsub_connect.drift import doubts
from pgsub_connect.drift.differences import differences
from pgsub_connect.drift.doubts import resolved
from pgsub_connect.errors import ServerError
from pgsub_connect.server.catalog import Catalog, Partition

from .fake_server import FakeServer, Row, connection_to
from .vectors import a_catalog, a_table

ROOT = a_table(10, "root", kind="p")
T = dataclasses.replace(a_table(1, "t"), node=1, altered="700")
AGAIN = dataclasses.replace(T, node=2, altered="800")
TREE = (
    Partition(10, 0, "public.root", False),
    Partition(11, 10, "public.p1", True, node=11, since="600"),
)
NEW = Partition(12, 10, "public.p2", True, node=12, since="741")
SUB, BELOW = Partition(13, 10, "public.sub", False, since="742"), Partition(
    14, 13, "public.p3", True, node=14, since="740"
)


class Case(unittest.TestCase):
    """A server whose rows are neither older than a reading nor than what was written, unless a test
    says so."""

    def setUp(self) -> None:
        self.server = FakeServer()
        self.server.answer(
            "SELECT n.nspname, c.relname",
            lambda command: [["public", 't"' + command.rpartition(" = ")[2]]],
        )
        self.server.answer("txid_snapshot_xmax", [[str((1 << 32) + 950)]])
        self.server.answer("SELECT c.xmin::", [["801"]])
        self.older, self.earlier = set[int](), set[int]()
        self.server.answer("SELECT EXISTS", self.has)

    def has(self, command: str) -> list[Row]:
        found = re.search(r'ONLY "public"."t""(\d+)" r WHERE', command)
        assert found
        return [
            [
                "t"
                if int(found[1]) in (self.older if "age(r.xmin) > " in command else self.earlier)
                else "f"
            ]
        ]

    def resolved(
        self, before: Catalog, now: Catalog, running: int = (1 << 32) + 900
    ) -> tuple[set[int], set[int]]:
        found = resolved(
            connection_to(self.server), dataclasses.replace(before, running=running), now
        )
        self.assertEqual(found, now)
        return set(found.kept), set(found.fresh)


class Values(Case):
    def test_a_row_is_older_than_the_reading_before(self) -> None:
        """So no ALTER TABLE has written them all; VACUUM FULL and CLUSTER keep by whom they were
        written."""
        self.older, self.earlier = {1}, {1}
        self.assertEqual(self.resolved(a_catalog(T), a_catalog(AGAIN)), ({1}, set()))
        query = self.server.told("SELECT EXISTS")[0]
        self.assertEqual(
            query,
            'SELECT EXISTS (SELECT FROM ONLY "public"."t""1" r'
            " WHERE pg_catalog.age(r.xmin) < 0"
            " OR pg_catalog.age(r.xmin) > pg_catalog.age('900'::pg_catalog.xid))",
        )

    def test_each_row_is_later_than_the_file(self) -> None:
        """So it is after a TRUNCATE."""
        self.assertEqual(self.resolved(a_catalog(T), a_catalog(AGAIN)), ({1}, set()))
        self.assertIn(
            "LEAST(pg_catalog.age('801'::pg_catalog.xid))", self.server.told("SELECT EXISTS")[1]
        )

    def test_a_row_was_written_with_it(self) -> None:
        self.earlier = {1}
        self.assertEqual(self.resolved(a_catalog(T), a_catalog(AGAIN)), (set(), set()))

    def test_it_isnt_known_what_ran(self) -> None:
        """Or it is too long ago to tell older transactions from later ones: a row that is older
        tells nothing then."""
        self.older, self.earlier = {1}, {1}
        now = (1 << 32) + 950
        for running, kept in ((0, set()), (now - (1 << 31), set()), (now - (1 << 31) + 1, {1})):
            found = self.resolved(a_catalog(T), a_catalog(AGAIN), running)
            self.assertEqual(found, (kept, set()), running)

    def test_what_cant_be_asked_stays_in_doubt(self) -> None:
        for sqlstate in ("42501", "55P03", "57014", "42P01"):
            self.server.answer("SELECT EXISTS", ServerError("no", sqlstate))
            self.assertEqual(self.resolved(a_catalog(T), a_catalog(AGAIN)), (set(), set()))
        self.assertEqual(
            self.server.commands[-1], "SET statement_timeout = 0; SET row_security = on"
        )
        self.server.answer("SELECT n.nspname, c.relname", [])
        self.assertEqual(self.resolved(a_catalog(T), a_catalog(AGAIN)), (set(), set()))

    def test_a_lost_connection_is_no_answer(self) -> None:
        self.server.answer("SELECT EXISTS", ServerError("gone"))
        with self.assertRaisesRegex(ServerError, "gone"):
            resolved(connection_to(self.server), a_catalog(T), a_catalog(AGAIN))

    def test_no_time_is_left(self) -> None:
        with mock.patch.object(doubts, "ALL", 0):
            self.assertEqual(self.resolved(a_catalog(T), a_catalog(AGAIN)), (set(), set()))
        self.assertEqual(self.server.told("SELECT EXISTS"), [])

    def test_nothing_is_in_doubt(self) -> None:
        long = dataclasses.replace(T, toast=5)
        for before, now in (
            (T, T),
            (T, dataclasses.replace(T, node=2)),
            (T, dataclasses.replace(T, altered="800")),
            (long, dataclasses.replace(AGAIN, toast=5)),
            (long, dataclasses.replace(AGAIN, toast=6)),
        ):
            self.assertEqual(self.resolved(a_catalog(before), a_catalog(now)), (set(), set()))
        self.assertEqual(self.server.commands, [])

    def test_each_partition_is_asked(self) -> None:
        before = a_catalog(dataclasses.replace(ROOT, altered="700"), partitions=(*TREE, NEW))
        anew = tuple(dataclasses.replace(it, node=it.node and it.node + 100) for it in (*TREE, NEW))
        now = a_catalog(dataclasses.replace(ROOT, altered="800"), partitions=anew)
        self.assertEqual(self.resolved(before, now), ({10}, set()))
        self.earlier = {12}
        self.assertEqual(self.resolved(before, now), (set(), set()))
        self.older = {12}
        self.assertEqual(self.resolved(before, now), ({10}, set()))


class Truncated(Case):
    def test_a_row_is_older(self) -> None:
        before, now = a_catalog(ROOT, partitions=(*TREE, NEW)), a_catalog(
            ROOT, partitions=(*TREE, dataclasses.replace(NEW, node=99))
        )
        self.assertEqual(self.resolved(before, now), (set(), set()))
        self.older = {12}
        self.assertEqual(self.resolved(before, now), ({12}, set()))
        self.assertEqual(
            list(differences(before, dataclasses.replace(now, kept=frozenset({12})))), []
        )


class Attached(Case):
    def test_each_row_is_later(self) -> None:
        for before, now in (
            (a_catalog(ROOT, partitions=TREE), a_catalog(ROOT, partitions=(*TREE, NEW))),
            (a_catalog(partitions=TREE), a_catalog(a_table(12, "p2"), partitions=(*TREE, NEW))),
        ):
            self.assertEqual(self.resolved(before, now), (set(), {12}))
        self.assertIn(
            "pg_catalog.age(r.xmin) < 0 OR pg_catalog.age(r.xmin) >= LEAST(pg_catalog.age('741'::",
            self.server.told("SELECT EXISTS")[0],
        )

    def test_a_row_is_older(self) -> None:
        self.earlier = {12}
        self.assertEqual(
            self.resolved(
                a_catalog(ROOT, partitions=TREE), a_catalog(ROOT, partitions=(*TREE, NEW))
            ),
            (set(), set()),
        )

    def test_all_that_was_attached_above_it_counts(self) -> None:
        self.assertEqual(
            self.resolved(
                a_catalog(ROOT, partitions=TREE), a_catalog(ROOT, partitions=(*TREE, SUB, BELOW))
            ),
            (set(), {14}),
        )
        self.assertIn(
            "LEAST(pg_catalog.age('740'::pg_catalog.xid), pg_catalog.age('742'::pg_catalog.xid))",
            self.server.told("SELECT EXISTS")[0],
        )

    def test_what_was_published_before_is_another_matter(self) -> None:
        for before, now in (
            (a_catalog(ROOT), a_catalog(ROOT, partitions=(TREE[0], NEW))),
            (
                a_catalog(a_table(12, "p2"), partitions=TREE),
                a_catalog(ROOT, partitions=(*TREE, NEW)),
            ),
            (
                a_catalog(ROOT, partitions=TREE),
                a_catalog(ROOT, partitions=(*TREE, dataclasses.replace(NEW, made=True))),
            ),
            (
                a_catalog(ROOT, partitions=TREE),
                a_catalog(ROOT, partitions=(*TREE, dataclasses.replace(NEW, logged=False))),
            ),
            (
                a_catalog(ROOT, partitions=TREE),
                a_catalog(ROOT, partitions=(*TREE, dataclasses.replace(NEW, since=""))),
            ),
        ):
            self.assertEqual(self.resolved(before, now), (set(), set()))


if __name__ == "__main__":
    unittest.main()
