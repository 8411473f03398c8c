"""What is written so that the rows of a copy are those of the server, byte for byte, and what is
left to be copied anew."""

from __future__ import annotations

import collections
import contextlib
import os
import random
import struct
import unittest
from types import SimpleNamespace
from typing import cast
from unittest import mock

from hypothesis import given, settings, strategies as st

from pgsub_connect.copy.messages import relation
from pgsub_connect.copy.source import Source
from pgsub_connect.server.catalog import Table
from pgsub_connect.verify import sides
from pgsub_connect.verify.digests import Plan, Queries
from pgsub_connect.verify.repair_rows import Changes, Mender, NoChange, changes_of
from pgsub_connect.verify.sides import Copy, Sides
from pgsub_feed.interruption import never
from pgsub_feed.relation import Column, Shape
from pgsub_feed.tables.digests import text_of

from .drawn import ANY
from .fake_server import connection_to
from .row_filter import Store, Subscriber
from .test_verifying import EQUAL_ROWS, KEYED, ROWS, WHOLE, Case, Rows
from .vectors import begin, commit, data, logged

NOTHING = Table(3, "public", "bare", "r", Shape("n", (Column("a", 25, -1, False, 1),)))
# A key of two columns, of which the first isn't one.
COLUMNS = [
    Column("n", 25, -1, False, 1),
    Column("a", 25, -1, True, 2),
    Column("b", 25, -1, True, 3),
]
TWO = Table(4, "public", "two", "r", Shape("i", tuple(COLUMNS)))
TOO_MANY: Rows = [[f"too many {it}", None] for it in range(300)]
Some = dict[tuple[str | None, ...], int]
WORDS = st.sampled_from(["", None, "a", "b\t\\", "c\n", "\u00e4", "n", "1:", "\\N"])
# a table with a key, and one without
TABLES: st.SearchStrategy[dict[int, Rows]] = st.fixed_dictionaries(
    {
        1: st.dictionaries(st.integers(0, 39), WORDS, max_size=30).map(
            lambda rows: [[str(key), word] for key, word in rows.items()]
        ),
        2: st.lists(st.lists(WORDS, min_size=2, max_size=2), max_size=30),
    }
)


def group(rows: Some) -> collections.Counter[bytes]:
    return collections.Counter(
        {
            text_of([None if it is None else it.encode() for it in row]): count
            for row, count in rows.items()
        }
    )


def made(table: Table, theirs: Some, ours: Some) -> list[bytes]:
    return list(changes_of(Plan(table, 1), group(theirs), group(ours)))


class Bytes(unittest.TestCase):
    """As the protocol has them."""

    def test_by_a_key(self) -> None:
        row, other = ("7", "a"), ("7", None)
        self.assertEqual(made(KEYED, {row: 1}, {}), [b"I\0\0\0\x01N\0\x02t\0\0\0\x017t\0\0\0\x01a"])
        self.assertEqual(made(KEYED, {other: 1}, {row: 1}), [b"U\0\0\0\x01N\0\x02t\0\0\0\x017n"])
        self.assertEqual(made(KEYED, {}, {row: 1}), [b"D\0\0\0\x01K\0\x02t\0\0\0\x017n"])

    def test_by_a_key_of_several_columns(self) -> None:
        self.assertEqual(
            made(TWO, {}, {("x", "", "bb"): 1}), [b"D\0\0\0\x04K\0\x03nt\0\0\0\0t\0\0\0\x02bb"]
        )

    def test_by_the_whole_row(self) -> None:
        row, other = ("x", None), ("x", "")
        insert, delete = b"I\0\0\0\x02N\0\x02t\0\0\0\x01xn", b"D\0\0\0\x02O\0\x02t\0\0\0\x01xn"
        self.assertEqual(made(WHOLE, {row: 3}, {row: 1}), [insert, insert])
        self.assertEqual(made(WHOLE, {row: 1}, {row: 3}), [delete, delete])
        self.assertEqual(
            made(WHOLE, {other: 1}, {row: 1}), [b"I\0\0\0\x02N\0\x02t\0\0\0\x01xt\0\0\0\0", delete]
        )

    def test_without_an_identity(self) -> None:
        self.assertEqual(
            made(NOTHING, {("x",): 2}, {("x",): 1}), [b"I\0\0\0\x03N\0\x01t\0\0\0\x01x"]
        )
        with self.assertRaisesRegex(NoChange, "which row goes"):
            made(NOTHING, {("x",): 1}, {("x",): 2})

    def test_several_rows_of_what_is_published_of_a_key(self) -> None:
        for theirs, ours in (
            ({("7", "a"): 1, ("7", "b"): 1}, {}),
            ({("7", "a"): 2}, {("7", "a"): 1}),
            ({("7", "a"): 1}, {("7", "a"): 2}),
        ):
            with self.assertRaisesRegex(NoChange, "several rows"):
                made(KEYED, cast(Some, theirs), cast(Some, ours))

    def test_equal_rows(self) -> None:
        self.assertEqual(made(WHOLE, {("x", "y"): 2}, {("x", "y"): 2}), [])


class Written(Case):
    """A whole comparison."""

    def setUp(self) -> None:
        super().setUp()
        self.file = self.folder + "/changes"

    def mend(self, *tables: Table, is_fed: bool = False) -> Mender:
        self.store.move(0x130)
        source = SimpleNamespace(
            plain=connection_to(self.server), encoding="UTF8", tables=list(self.tables)
        )

        def sums(queries: Queries) -> str:
            self.server.answer("SUMS", self.server.sums(queries.plan))
            return "SUMS"

        def texts(queries: Queries, chunks: list[int]) -> str:
            self.server.lines = self.server.texts(
                queries.plan, chunks or list(range(queries.plan.chunks))
            )
            return "TEXTS"

        with contextlib.ExitStack() as stack:
            self.said = stack.enter_context(logged())
            stack.enter_context(
                mock.patch.multiple("pgsub_connect.verify.digests.Queries", sums=sums, texts=texts)
            )
            copy = stack.enter_context(contextlib.closing(Copy(self.path, self.path, 0x130, never)))
            with contextlib.suppress(FileNotFoundError):
                os.unlink(self.file)
            changes = stack.enter_context(contextlib.closing(Changes(self.file, self.path)))
            mender = Mender(Sides(cast(Source, source), copy), changes, is_fed)
            mender.run(list(tables or self.tables))
        return mender

    def messages(self) -> list[bytes]:
        with open(self.file, "rb") as file:
            found = []
            while head := file.read(4):
                found.append(file.read(struct.unpack(">I", head)[0]))
        return found

    def check(self) -> None:
        """The copy has the server's rows once the messages are applied in one transaction."""
        with contextlib.closing(Store(self.path).base):
            store = Store(self.path)
            subscriber = Subscriber(store)
            for payload in (begin(0x1FF, 2), *map(data, self.messages()), commit(0x1FF, 0x200)):
                subscriber.take(payload)
            expected = {
                oid: collections.Counter(tuple(it) for it in rows)
                for oid, rows in self.server.tables.items()
                if rows
            }
            self.assertEqual(store.rows(), expected)

    def test_nothing(self) -> None:
        self.assertEqual((self.mend().written, self.messages()), ({}, []))

    def test_what_differs_and_nothing_else(self) -> None:
        self.keep(
            {1: [*ROWS[:7], ["7", "other"], *ROWS[9:], ["x", "y"]], 2: [*EQUAL_ROWS[1:], ["x", ""]]}
        )
        mender = self.mend()
        self.assertEqual(mender.written, {1: {b"I": 1, b"U": 1, b"D": 1}, 2: {b"I": 1, b"D": 1}})
        self.assertEqual((mender.left, mender.text()), ([], "5 rows of 2 tables"))
        first = [
            b"U\0\0\0\x01N\0\x02t\0\0\0\x017t\0\0\0\x06name 7",
            b"I\0\0\0\x01N\0\x02t\0\0\0\x018t\0\0\0\x06name 8",
            b"D\0\0\0\x01K\0\x02t\0\0\0\x01xn",
        ]
        second = [b"D\0\0\0\x02O\0\x02t\0\0\0\x01xt\0\0\0\0", b"I\0\0\0\x02N\0\x02t\0\0\0\x01xn"]
        self.assertEqual(self.messages(), [relation(KEYED), *first, relation(WHOLE), *second])
        self.assertIn("public.keyed: 1 inserted, 1 updated, 1 deleted", self.said)
        self.check()

    def test_without_a_key_where_a_feed_has_it_too(self) -> None:
        """Its readers may have other rows than the copy, so no change tells them which of equal
        ones is meant."""
        self.keep({1: [*ROWS[:7], ["7", "other"], *ROWS[8:]], 2: EQUAL_ROWS[1:]})
        mender = self.mend(is_fed=True)
        self.assertEqual((mender.written, mender.left), ({1: {b"U": 1}}, [WHOLE]))

    def test_what_others_may_read(self) -> None:
        self.mend()
        self.assertEqual(os.stat(self.file).st_mode & 0o777, 0o600)
        self.assertEqual(os.stat(self.file).st_uid, os.stat(self.path).st_uid)

    def test_a_share(self) -> None:
        """Up to a third of the rows, of whatever kind; all that is written of another table
        stays."""
        more: Rows = [[f"more {it}", "x"] for it in range(300)]
        self.server.tables[1] = [*ROWS, *more]
        for mine in (
            ROWS,
            [*ROWS[:450], *more],
            [*more, *([it[0], "other"] for it in ROWS[:300]), *ROWS[300:]],
            [*more, *ROWS, *([it[0], "y"] for it in TOO_MANY)],
            [*more, *([it[0], "other"] for it in ROWS[:100]), *ROWS[200:], *TOO_MANY[:100]],
        ):
            self.keep({1: cast(Rows, mine), 2: EQUAL_ROWS[1:]})
            mender = self.mend()
            self.assertEqual(([it.oid for it in mender.left], list(mender.written)), ([], [1, 2]))
            self.check()

    def test_few(self) -> None:
        """A table that lacks all rows gets them, where they are few."""
        self.server.tables[1] = ROWS[:256]
        self.keep({2: EQUAL_ROWS})
        self.assertEqual(self.mend().written, {1: {b"I": 256}})
        self.check()

    def test_more_than_a_share(self) -> None:
        """It is copied anew, also where both sides have as many rows."""
        for mine in (
            ROWS[:300],
            [[it[0], "other"] for it in ROWS],
            [[f"x{it}", "name"] for it in range(600)],
            [],
        ):
            self.keep({1: cast(Rows, mine), 2: EQUAL_ROWS[1:]})
            mender = self.mend()
            self.assertEqual(([it.oid for it in mender.left], list(mender.written)), ([1], [2]))
            self.assertEqual(self.messages()[0], relation(WHOLE))
            self.assertIn(
                "public.keyed: more than 256 of its rows differ: it is copied anew", self.said
            )

    def test_another_definition(self) -> None:
        for columns, letter in (
            (((1, "id", 23, -1), (1, "name", 25, -1)), "d"),
            (((1, "id", 23, -1), (0, "name", 25, -1)), "f"),
            (((1, "id", 23, -1), (0, "title", 25, -1)), "d"),
            (((1, "id", 23, -1),), "d"),
        ):
            self.store.base.execute("DELETE FROM rel WHERE oid = 1")
            self.store.table(1, "keyed", columns, letter=letter)
            self.assertEqual([it.oid for it in self.mend(KEYED).left], [1], (columns, letter))
        self.store.base.execute("DELETE FROM rel WHERE oid = 1")
        self.store.table(1, "was", ((1, "id", 20, -1), (0, "name", 1043, 9)))
        self.keep({1: ROWS[1:], 2: EQUAL_ROWS})
        self.assertEqual(self.mend(KEYED).written, {1: {b"I": 1}})

    def test_a_table_of_which_nothing_ever_came(self) -> None:
        self.store.base.execute("DELETE FROM rel WHERE oid = 2")
        self.keep({1: ROWS})
        self.assertEqual(self.mend().written, {2: {b"I": 4}})
        self.check()

    def test_no_change_tells_which_row(self) -> None:
        """All rows that the server sends are read all the same, and nothing stays of the table in
        the file."""
        self.tables = (NOTHING, WHOLE)
        self.store.table(3, "bare", ((0, "a", 25, -1),), letter="n")
        self.server.tables[3] = [["a"], ["c"]]
        self.keep({3: [["b"], ["c"]], 2: EQUAL_ROWS[1:], 1: ROWS})
        mender = self.mend()
        self.assertEqual(
            ([it.oid for it in mender.left], list(mender.written), self.messages()[0]),
            ([3], [2], relation(WHOLE)),
        )

    def test_more_chunks_than_a_query_names(self) -> None:
        """The server sends all rows then, and those of other chunks are passed over."""
        rng = random.Random(7)
        with mock.patch.object(sides, "NAMED", 1):
            for _ in range(5):
                mine = [
                    [it[0], "x"] if rng.random() < 0.1 else it for it in ROWS if rng.random() < 0.95
                ]
                self.keep({1: cast(Rows, mine), 2: EQUAL_ROWS})
                self.assertEqual(self.mend().left, [])
                self.check()

    @settings(ANY, max_examples=60)
    @given(TABLES, TABLES)
    def test_anything(self, theirs: dict[int, Rows], mine: dict[int, Rows]) -> None:
        self.server.tables = theirs
        self.keep(mine)
        self.assertEqual(self.mend().left, [])
        self.check()


if __name__ == "__main__":
    unittest.main()
