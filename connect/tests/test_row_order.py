"""In which order a table's rows are read for its first copy, and what of it at once."""

from __future__ import annotations

import re
import unittest
from collections.abc import Iterator
from unittest import mock

from pgsub_connect.copy import row_order
from pgsub_connect.copy.row_order import Run, order_of, runs_of
from pgsub_connect.errors import ServerError
from pgsub_connect.server.catalog import Leaves, Part, Table
from pgsub_feed.relation import Column, Shape

from .vectors import logged

INT, TEXT, UUID, NUMERIC = 23, 25, 2950, 1700
LARGE = 100 << 20


def table(
    *keys: tuple[str, int], identity: str = "d", kind: str = "r", row_filter: str | None = None
) -> Table:
    columns = (*(Column(name, type_oid, -1, True) for name, type_oid in keys),)
    shape = Shape(identity, (*columns, Column("note", TEXT, -1, False)))
    return Table(16385, "public", "t", kind, shape, {"p": Part(row_filter, None, False)})


class Source:
    """A connection that has some statistics, and sorts or can't."""

    def __init__(self, correlation: str | None = "0.1", version: int = 180000) -> None:
        self.correlation, self.number = correlation, version
        self.said: list[str] = []
        self.failure: ServerError | None = None
        self.fails_after = 0

    def version(self) -> int:
        return self.number

    def value(self, query: str) -> str | None:
        self.said.append(query)
        return self.correlation

    def text(self, _: str) -> str:
        return "8192"

    def run(self, command: str) -> None:
        self.said.append(command)

    def copied_blocks(self, query: str, _: int) -> Iterator[list[bytes]]:
        self.said.append(query)
        fails = self.failure and "ORDER BY" in query
        for at in range(self.fails_after if fails else 2):
            yield [b"%d\n" % at]
        if fails and self.failure:
            raise self.failure


def runs(source: Source, of: Table, size: int = LARGE) -> list[Run]:
    with logged():
        return runs_of(source, of, size)  # type: ignore[arg-type]


class Order(unittest.TestCase):
    """The terms that put rows into the order of their identities."""

    def test_by_length_first(self) -> None:
        text = 'pg_catalog.octet_length("a"), "a" COLLATE pg_catalog."C"'
        self.assertEqual(order_of(table(("a", TEXT))), text)

    def test_types_with_the_order_of_their_texts(self) -> None:
        self.assertEqual(order_of(table(("a", INT), ("b", UUID))), '"a", "b"')

    def test_other_types_by_their_texts(self) -> None:
        text = '"n"::pg_catalog.text'
        terms = f'pg_catalog.octet_length({text}), {text} COLLATE pg_catalog."C"'
        self.assertEqual(order_of(table(("n", NUMERIC))), terms)

    def test_without_a_key(self) -> None:
        """The whole row is the identity, or there is no key."""
        self.assertEqual(order_of(table(("a", INT), identity="f")), "")
        self.assertEqual(order_of(table()), "")

    def test_rows_of_leaves_come_one_by_one(self) -> None:
        it = table(("a", INT), kind="p")
        self.assertEqual(order_of(it), '"a"')
        foreign = Table(
            *(it.oid, it.namespace, it.name, it.kind, it.shape), leaves=Leaves([], [], [7])
        )
        self.assertEqual(order_of(foreign), "")


class Runs(unittest.TestCase):
    def test_sorted_at_once(self) -> None:
        (run,) = runs(Source(), table(("a", INT)))
        self.assertIn(' ORDER BY "a") TO STDOUT', run.query)
        self.assertEqual(run.query.replace(' ORDER BY "a"', ""), run.unsorted)

    def test_as_they_lie(self) -> None:
        """Small tables, those in the order of their key, and those without one."""
        plain = [Run(table(("a", INT)).query())]
        self.assertEqual(runs(Source(), table(("a", INT)), row_order.LEAST - 1), plain)
        self.assertEqual(runs(Source("0.97"), table(("a", INT))), plain)
        self.assertEqual(runs(Source(), table()), [Run(table().query())])

    def test_without_statistics(self) -> None:
        """They are sorted: it isn't known how they lie. So are those that lie the other way."""
        for found in (None, "-1"):
            self.assertIn("ORDER BY", runs(Source(found), table(("a", INT)))[0].query)

    def test_names_are_quoted(self) -> None:
        source = Source()
        it = Table(7, "o'b", "t", "r", table(('a"b', INT)).shape)
        self.assertIn('ORDER BY "a""b"', runs(source, it)[0].query)
        self.assertIn("schemaname = 'o''b'", source.said[0])

    def test_large_ones_in_parts(self) -> None:
        """Each page is in one part, and the last part has all that are left."""
        it = table(("a", INT), row_filter="note = 'x' OR a > 1")
        found = runs(Source(), it, 5 * row_order.RUN // 2)
        bounds = [re.findall(r"ctid (>=|<) '\((\d+),0\)'", run.query) for run in found]
        ends = [[int(at) for _, at in of] for of in bounds]
        self.assertEqual([*map(len, bounds)], [2, 2, 1])
        self.assertEqual((ends[0][0], ends[0][1], ends[1][1]), (0, ends[1][0], ends[2][0]))
        self.assertEqual(ends[1][0] * 8192, row_order.RUN)
        for run in found:
            self.assertIn("WHERE (note = 'x' OR a > 1) AND ctid", run.query)
            self.assertEqual(run.query.replace(' ORDER BY "a"', ""), run.unsorted)

    def test_large_ones_as_they_lie(self) -> None:
        """Where a part isn't read alone."""
        for source, kind in ((Source(version=130023), "r"), (Source(), "p")):
            it = table(("a", INT), kind=kind)
            self.assertEqual(runs(source, it, row_order.RUN + 1), [Run(it.query())])


class Blocks(unittest.TestCase):
    """What comes of a run."""

    def lines(self, source: Source) -> list[bytes]:
        (run,) = runs(source, table(("a", INT)))
        with logged() as self.told:
            return [line for block in run.blocks(source, 7) for line in block]  # type: ignore[arg-type]

    def test_all(self) -> None:
        source = Source()
        self.assertEqual(self.lines(source), [b"0\n", b"1\n"])
        self.assertEqual(source.said[-1], "RELEASE SAVEPOINT sorted")

    def test_without_room_to_sort(self) -> None:
        """They come as they lie, within the same transaction."""
        for state in row_order.NO_ROOM:
            source = Source()
            source.failure = ServerError("temporary file size exceeds", state)
            self.assertEqual(self.lines(source), [b"0\n", b"1\n"])
            self.assertEqual(source.said[-2], "ROLLBACK TO SAVEPOINT sorted")
            self.assertNotIn("ORDER BY", source.said[-1])
            self.assertIn("temporary file size exceeds", "".join(self.told))

    def test_other_errors(self) -> None:
        """And any once rows have come, which would come twice."""
        for state, after in (("22012", 0), (row_order.NO_ROOM[0], 1)):
            source = Source()
            source.failure, source.fails_after = ServerError("x", state), after
            with self.assertRaises(ServerError):
                self.lines(source)

    def test_unsorted(self) -> None:
        source = mock.Mock()
        source.copied_blocks.return_value = iter([[b"0\n"]])
        self.assertEqual([*Run("COPY x").blocks(source, 7)], [[b"0\n"]])
        source.run.assert_not_called()


if __name__ == "__main__":
    unittest.main()
