"""Digests of rows: what tells rows apart, and what is asked of a server."""

from __future__ import annotations

import unittest

from pgsub_connect.server.catalog import Part, Table
from pgsub_connect.verify.digests import (
    MOST_CHUNKS,
    NotText,
    Plan,
    Queries,
    Summing,
    Sums,
    chunks_for,
    fields_of,
)
from pgsub_feed.relation import Column, Shape
from pgsub_feed.tables.digests import Field, fields_in, text_of
from pgsub_feed.tables.values import Malformed

from .stores import Cell, spelled


def a_table(
    *names: str, keys: int = 1, identity: str = "d", kind: str = "r", row_filter: str | None = None
) -> Table:
    """A table whose first columns are its key."""
    columns = [Column(name, 25, -1, at < keys, at + 1) for at, name in enumerate(names)]
    return Table(
        1,
        "public",
        "t",
        kind,
        Shape(identity, tuple(columns)),
        {"pgsub": Part(row_filter, None, False)},
    )


def summed(plan: Plan, *rows: tuple[list[Cell], int]) -> Sums:
    summing = Summing(plan)
    for cells, copies in rows:
        summing.add(spelled(cells), copies)
    return summing.sums


class Texts(unittest.TestCase):
    def test_there_and_back(self) -> None:
        rows: list[list[Field]] = [
            [],
            [None],
            [b""],
            [None, b"", None],
            [b"1:a", b"n", b"12"],
            [b"\xff\0\n", b"x" * 1000, None],
        ]
        for fields in rows:
            self.assertEqual(fields_in(text_of(fields)), fields)

    def test_no_two_rows_have_one_text(self) -> None:
        values: list[Field] = [
            None,
            b"",
            b"n",
            b"nn",
            b":",
            b"0:",
            b"1:n",
            b"n0:",
            b"3:0:n",
            b" ",
            b"a",
            b"a ",
        ]
        rows: list[list[Field]] = [
            [],
            *[[it] for it in values],
            *[[one, two] for one in values for two in values],
        ]
        self.assertEqual(len({text_of(it) for it in rows}), len(rows))

    def test_stored_rows(self) -> None:
        self.assertEqual(
            fields_of(spelled(["1", None, "ä", ""]), 4), [b"1", None, "ä".encode(), b""]
        )
        self.assertEqual(fields_of(spelled([]), 0), [])

    def test_malformed_rows(self) -> None:
        body = spelled(["1", None, "abc"])
        for wrong in (
            b"",
            body[:-1],
            body + b"n",
            body[:2] + b"x" + body[3:],
            body[:2] + b"t\xff\xff\xff\xff" + body[7:],
            body[:5],
        ):
            with self.assertRaises(Malformed, msg=wrong):
                fields_of(wrong, 3)
        for width in (2, 4):
            with self.assertRaises(Malformed):
                fields_of(body, width)

    def test_binary_values(self) -> None:
        with self.assertRaises(NotText):
            fields_of(spelled([b"\0\0\0\1"]), 1)


class Sum(unittest.TestCase):
    def test_how_many_chunks(self) -> None:
        self.assertEqual(
            [chunks_for(it) for it in (0, 1, 255, 256, 1000, 10_000)], [1, 1, 1, 2, 4, 64]
        )
        self.assertEqual(chunks_for(1 << 40), MOST_CHUNKS)

    def test_the_order_of_rows_doesnt_matter(self) -> None:
        plan, rows = Plan(a_table("id", "name"), 4), [([str(it), "x"], 1) for it in range(100)]
        one, two = summed(plan, *rows), summed(plan, *reversed(rows))  # type: ignore[arg-type]
        self.assertEqual(one.differing(two), [])
        self.assertEqual(one.total(), 100)
        self.assertTrue(all(one.rows))

    def test_each_difference(self) -> None:
        plan = Plan(a_table("id", "name"), 4)
        rows: list[tuple[list[Cell], int]] = [([str(it), None], 1) for it in range(50)]
        right = summed(plan, *rows)
        for changed in (["7", ""], ["7", "n"], ["7 ", None], [None, "7"]):
            wrong = summed(plan, *rows[:7], (changed, 1), *rows[8:])  # type: ignore[arg-type]
            self.assertNotEqual(right.differing(wrong), [], changed)
        for fewer in (rows[1:], [*rows, rows[3]], rows[:-1] + rows[:1]):
            self.assertNotEqual(right.differing(summed(plan, *fewer)), [])

    def test_a_changed_row_stays_in_its_chunk(self) -> None:
        plan = Plan(a_table("id", "name"), 1 << 10)
        self.assertEqual(
            len(summed(plan, (["7", "a"], 1)).differing(summed(plan, (["7", "b"], 1)))), 1
        )

    def test_equal_rows_are_counted(self) -> None:
        plan = Plan(a_table("a", "b", keys=2, identity="f"), 8)
        self.assertEqual(plan.key, [])
        once, twice = summed(plan, (["x", "y"], 1)), summed(plan, (["x", "y"], 2))
        self.assertEqual(twice.differing(summed(plan, (["x", "y"], 1), (["x", "y"], 1))), [])
        self.assertEqual(len(once.differing(twice)), 1)
        self.assertEqual(len(summed(plan).differing(summed(plan, (["x", "y"], 2)))), 1)


class Asked(unittest.TestCase):
    def test_which_rows(self) -> None:
        query = Queries(Plan(a_table("id", row_filter="(id > 3)"), 4), "UTF8").sums()
        self.assertIn('FROM ONLY "public"."t" WHERE (id > 3) OFFSET 0', query)
        self.assertIn(
            'FROM "public"."t" OFFSET 0', Queries(Plan(a_table("id", kind="p"), 4), "UTF8").sums()
        )

    def test_values_as_they_are_printed(self) -> None:
        """A cast to text prints other texts, and IS NULL is true of a row of nulls."""
        query = Queries(Plan(a_table("id", 'a "b"'), 4), "UTF8").sums()
        self.assertIn(
            'CASE WHEN "a ""b""" IS DISTINCT FROM NULL THEN pg_catalog.concat("a ""b""") END AS t1',
            query,
        )
        self.assertNotIn("::text", query)

    def test_lengths_are_those_in_utf_8(self) -> None:
        query = Queries(Plan(a_table("id"), 1), "LATIN1").sums()
        self.assertIn("pg_catalog.octet_length(pg_catalog.convert_to(t0, 'UTF8'))", query)

    def test_more_columns_than_a_function_takes(self) -> None:
        queries = Queries(Plan(a_table(*(f"c{it}" for it in range(1600))), 1), "UTF8")
        joined = queries.joined(range(1600))
        self.assertEqual(joined.count("COALESCE"), 1600)
        self.assertEqual(joined.count("pg_catalog.concat("), 33)
        self.assertEqual(queries.joined([]), "''")

    def test_one_chunk(self) -> None:
        """The key needn't be hashed."""
        query = Queries(Plan(a_table("id", "name"), 1), "UTF8").sums()
        self.assertIn("SELECT 0 AS c", query)
        self.assertEqual(query.count("sha256"), 1)

    def test_rows_of_chunks(self) -> None:
        keyed = Queries(Plan(a_table("id", "name"), 8), "UTF8").texts([2, 5])
        self.assertIn(
            "& 7) IN (2, 5) ORDER BY pg_catalog.convert_to(k, 'UTF8'), pg_catalog.convert_to(r, 'UTF8')) TO STDOUT",
            keyed,
        )
        keyless = Queries(Plan(a_table("id", identity="n"), 8), "UTF8").texts([2])
        self.assertIn("IN (2) ORDER BY pg_catalog.convert_to(r, 'UTF8')) TO STDOUT", keyless)


if __name__ == "__main__":
    unittest.main()
