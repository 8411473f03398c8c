"""What a comparison finds between a store's file and what a server says of its tables."""

from __future__ import annotations

import contextlib
import dataclasses
import io
import json
import sqlite3
from collections.abc import Sequence
from types import SimpleNamespace
from typing import Any, cast
from unittest import mock

from pgsub_connect import cli
from pgsub_connect.commands import add as add_module, verify
from pgsub_connect.copy.source import Source
from pgsub_connect.errors import NoSlot, Unrepaired
from pgsub_connect.server.catalog import Table
from pgsub_connect.store.checkpoint_lines import FOLLOWING, Known
from pgsub_connect.verify.comparison import Compared, Verifier, settled
from pgsub_connect.verify.digests import NotText, Plan, Summing, fields_of
from pgsub_connect.verify.sides import Copy, Sides
from pgsub_feed.errors import FileError, Passing, Stopped, Unfit
from pgsub_feed.interruption import never
from pgsub_feed.relation import Column, Shape
from pgsub_feed.tables.digests import text_of
from pgsub_feed.tables.values import Malformed

from .fake_server import FakeServer, connection_to
from .stores import Cell, StoreCase, spelled
from .vectors import logged

KEYED = Table(
    1,
    "public",
    "keyed",
    "r",
    Shape("d", (Column("id", 23, -1, True, 1), Column("name", 25, -1, False, 2))),
)
WHOLE = Table(
    2,
    "public",
    "whole",
    "r",
    Shape("f", (Column("a", 25, -1, True, 1), Column("b", 25, -1, True, 2))),
)
Rows = list[Sequence[Cell]]
ROWS: Rows = [[str(it), f"name {it}"] for it in range(600)]
EQUAL_ROWS: Rows = [["x", None], ["x", None], ["x", ""], ["tab\t\\N", "new\nline"]]
ESCAPES = {"\\": "\\\\", "\t": "\\t", "\n": "\\n"}


def copied(text: bytes) -> bytes:
    """A line of COPY."""
    return "".join(ESCAPES.get(it, it) for it in text.decode()).encode() + b"\n"


class Publisher(FakeServer):
    """A server with rows of tables, which says what is asked about these."""

    def __init__(self, rows: dict[int, Rows]) -> None:
        super().__init__()
        self.tables = rows
        self.asked: list[tuple[int, list[int]]] = []

    def texts(self, plan: Plan, chunks: list[int]) -> list[bytes]:
        """The lines of the COPY of chunks."""
        self.asked.append((plan.table.oid, chunks))
        texts = [
            text_of(fields_of(spelled(row), plan.width))
            for row in self.tables.get(plan.table.oid, [])
        ]
        keyed = sorted(
            (plan.key_text(fields_of(spelled(row), plan.width), text), text)
            for row, text in zip(self.tables.get(plan.table.oid, []), texts)
        )
        return [copied(text) for key, text in keyed if plan.chunk_of(key) in chunks]

    def sums(self, plan: Plan) -> list[list[str | None]]:
        summing = Summing(plan)
        for row in self.tables.get(plan.table.oid, []):
            summing.add(spelled(row), 1)
        found = zip(summing.sums.rows, summing.sums.first, summing.sums.second)
        return [[str(chunk), *map(str, it)] for chunk, it in enumerate(found) if it[0]]


class Case(StoreCase):
    tables: Sequence[Table] = (KEYED, WHOLE)

    def setUp(self) -> None:
        super().setUp()
        self.server = Publisher({1: list(ROWS), 2: list(EQUAL_ROWS)})
        self.options = verify.Options(store=self.path)
        self.store.table(1, "keyed", ((1, "id", 23, -1), (0, "name", 25, -1)))
        self.store.table(2, "whole", ((1, "a", 25, -1), (1, "b", 25, -1)), letter="f")
        self.keep({1: ROWS, 2: EQUAL_ROWS})
        self.server.answer("reltuples", [["600"]])

    def keep(self, rows: dict[int, Rows]) -> None:
        """Puts rows into the store in the place of what it has."""
        self.store.base.execute("BEGIN")
        self.store.base.execute("DELETE FROM held")
        for oid, several in rows.items():
            for row in several:
                key = 1 if oid == 1 else None
                ident, body = spelled(row[:key]), spelled(row)
                self.store.base.execute(
                    "INSERT INTO held VALUES (?, ?, ?, 1) ON CONFLICT (oid, ident) DO UPDATE SET copies = copies + 1",
                    (oid, ident, body),
                )
        self.store.base.execute("COMMIT")

    def compare(self) -> list[dict[str, Any]]:
        """Compares. Returns what was printed, and keeps whether it is equal and what was said."""
        source = SimpleNamespace(
            plain=connection_to(self.server), encoding="UTF8", tables=list(self.tables)
        )

        def sums(queries: Any) -> str:
            self.server.answer("SUMS", self.server.sums(queries.plan))
            return "SUMS"

        def texts(queries: Any, chunks: list[int]) -> str:
            self.server.lines = self.server.texts(queries.plan, chunks)
            return "TEXTS"

        out = io.StringIO()
        with contextlib.ExitStack() as stack:
            self.said = stack.enter_context(logged())
            stack.enter_context(contextlib.redirect_stdout(out))
            stack.enter_context(
                mock.patch.multiple("pgsub_connect.verify.digests.Queries", sums=sums, texts=texts)
            )
            copy = stack.enter_context(contextlib.closing(Copy(self.path, self.path, 0x130, never)))
            self.is_equal = Verifier(self.options.show, Sides(cast(Source, source), copy)).run(
                list(self.tables)
            )
        return [json.loads(line) for line in out.getvalue().splitlines()]

    def one(self, rows: dict[int, Rows]) -> dict[str, Any]:
        """Compares a copy with these rows. Returns the one difference that is to be found."""
        self.keep({1: ROWS, 2: EQUAL_ROWS, **rows})
        found = self.compare()
        self.assertFalse(self.is_equal)
        self.assertEqual(len(found), 1, found)
        return found[0]


class Finds(Case):
    def test_nothing(self) -> None:
        self.assertEqual(self.compare(), [])
        self.assertTrue(self.is_equal)
        self.assertEqual((self.said, self.server.asked), ([], []))

    def test_how_far_it_is(self) -> None:
        with mock.patch("pgsub_feed.log.WRITTEN", -1.0):
            self.compare()
        rows, whole = len(ROWS) + len(EQUAL_ROWS), "comparing with the server public.whole"
        self.assertEqual(self.said[0], f"reading the copy: 0 of {rows - 1} rows, 0 a second")
        self.assertRegex(self.said[-1], f"^{whole}: {len(ROWS)} of {rows} rows, [0-9]+ a")

    def keyed(self, *changed: Sequence[Cell]) -> dict[str, Any]:
        """What is found where the copy has these in the place of row 7."""
        return self.one({1: [*ROWS[:7], *changed, *ROWS[8:]]})

    def test_a_cell(self) -> None:
        found = self.keyed(["7", "other"])
        server, copy = {"id": "7", "name": "name 7"}, {"id": "7", "name": "other"}
        self.assertEqual(
            found, {"table": "public.keyed", "key": {"id": "7"}, "server": server, "copy": copy}
        )
        [(oid, chunks)] = self.server.asked
        self.assertEqual((oid, len(chunks)), (1, 1))

    def test_null_and_blanks(self) -> None:
        for value in (None, "", "name 7 ", " name 7", "Name 7"):
            self.assertEqual(self.keyed(["7", value])["copy"], {"id": "7", "name": value})

    def test_a_row_that_is_missing(self) -> None:
        self.assertIsNone(self.keyed()["copy"])

    def test_a_row_too_many(self) -> None:
        found = self.keyed(ROWS[7], ["x", "y"])
        self.assertEqual((found["server"], found["copy"]), (None, {"id": "x", "name": "y"}))

    def test_swapped_cells(self) -> None:
        self.server.tables[2].append(["p", "q"])
        self.keep({1: ROWS, 2: [*EQUAL_ROWS, ["q", "p"]]})
        found = self.compare()
        self.assertEqual(
            [(it["row"], it["more_on_server"], it["more_in_copy"]) for it in found],
            [
                ({"a": "p", "b": "q"}, 1, 0),
                ({"a": "q", "b": "p"}, 0, 1),
            ],
        )

    def test_a_changed_key(self) -> None:
        self.keep({1: [*ROWS[:7], ["700", "name 7"], *ROWS[8:]], 2: EQUAL_ROWS})
        self.assertEqual(
            {it["key"]["id"]: it["copy"] is None for it in self.compare()},
            {"7": True, "700": False},
        )

    def test_a_copy_too_many_of_a_row(self) -> None:
        found = self.one({2: [*EQUAL_ROWS, ["x", None]]})
        self.assertEqual(
            found,
            {
                "table": "public.whole",
                "row": {"a": "x", "b": None},
                "more_on_server": 0,
                "more_in_copy": 1,
            },
        )
        found = self.one({2: EQUAL_ROWS[1:]})
        self.assertEqual((found["more_on_server"], found["more_in_copy"]), (1, 0))

    def test_what_copy_escapes(self) -> None:
        found = self.one({2: EQUAL_ROWS[:-1]})
        self.assertEqual(found["row"], {"a": "tab\t\\N", "b": "new\nline"})

    def test_a_row_in_another_table(self) -> None:
        self.keep({1: ROWS[1:], 2: [*EQUAL_ROWS, ROWS[0]]})
        self.assertEqual([it["table"] for it in self.compare()], ["public.keyed", "public.whole"])

    def test_a_table_that_is_empty_here(self) -> None:
        self.keep({2: EQUAL_ROWS})
        self.options = dataclasses.replace(self.options, show=5)
        self.assertEqual([it["copy"] for it in self.compare()], [None] * 5)
        self.assertIn(
            "warning: public.keyed: 600 rows on the server, 0 in the copy; 4 of 4 chunks differ",
            self.said,
        )
        self.assertIn("public.keyed: 600 keys in 4 chunks differ", self.said)

    def test_a_table_that_is_empty_there(self) -> None:
        self.server.tables[1] = []
        self.options = dataclasses.replace(self.options, show=1)
        found = self.compare()
        self.assertEqual([it["server"] for it in found], [None])
        self.assertEqual(len(self.server.asked[0][1]), 1)

    def test_no_more_than_may_be_shown(self) -> None:
        self.keep({})
        self.options = dataclasses.replace(self.options, show=0)
        self.assertEqual((self.compare(), self.is_equal, self.server.asked), ([], False, []))

    def test_other_columns(self) -> None:
        self.store.base.execute("DELETE FROM rel WHERE oid = 2")
        self.store.table(2, "whole", ((1, "a", 25, -1),), letter="f")
        self.keep({1: ROWS})
        found = self.compare()
        self.assertEqual(
            found, [{"table": "public.whole", "columns": {"server": ["a", "b"], "copy": ["a"]}}]
        )
        self.assertFalse(self.is_equal)

    def test_a_table_of_which_nothing_ever_came(self) -> None:
        self.store.base.execute("DELETE FROM rel WHERE oid = 2")
        self.keep({1: ROWS})
        self.server.tables[2] = []
        self.assertEqual((self.compare(), self.is_equal), ([], True))

    def test_long_values(self) -> None:
        long = "x" * 5000
        self.server.tables[1][7] = ["7", long + "a"]
        found = self.keyed(["7", long + "b"])
        self.assertLess(len(found["server"]["name"]), 400)
        self.assertIn("(5001 bytes, SHA-256 ", found["server"]["name"])
        self.assertNotEqual(found["server"]["name"], found["copy"]["name"])

    def test_control_characters(self) -> None:
        """What is in a row can't do anything to a terminal."""
        out = io.StringIO()
        with contextlib.redirect_stdout(out):
            Verifier(self.options.show, mock.Mock()).tell({"row": {"a": "\x1b[2J\x9b\u202e"}})
        self.assertTrue(out.getvalue().rstrip("\n").isprintable())


class Reads(Case):
    def test_which_tables_are_left_out(self) -> None:
        self.store.table(9, "gone")
        self.store.row(9, "1", "x")
        with contextlib.closing(Copy(self.path, self.path, 0x130, never)) as copy:
            self.assertEqual([it.oid for it in copy.left(self.tables)], [9])

    def test_a_copy_above_the_lsn(self) -> None:
        with self.assertRaisesRegex(Unfit, "the copy is at 0/130, and this server's slot at 0/12F"):
            Copy(self.path, self.path, 0x12F, never)

    def ends(self, error: BaseException, expected: type[Exception]) -> None:
        with mock.patch.object(verify, "verify", side_effect=error), self.assertRaises(expected):
            verify.run(self.options, never)

    def test_how_it_ends(self) -> None:
        self.ends(Stopped(), Passing)
        self.ends(NotText(), Unfit)
        self.ends(Malformed(), FileError)
        self.ends(sqlite3.DatabaseError(), FileError)
        words = ["verify", "--store", self.path]
        for result, status in (
            (0, 0),
            (1, 1),
            (NoSlot("x"), 8),
            (Passing("x"), 7),
            (Unfit("x"), 5),
        ):
            effect = result if isinstance(result, Exception) else [result]
            with mock.patch.object(verify, "verify", side_effect=effect), logged():
                self.assertEqual(cli.main(words), status)

    def test_a_malformed_row(self) -> None:
        self.store.base.execute("UPDATE held SET body = x'0002' WHERE rowid = 5")
        with self.assertRaises(Malformed):
            self.compare()

    def finds(self, *several: tuple[list[Table], dict[int, str]]) -> Any:
        """In the place of comparisons, those that find this of tables, and leave those out."""
        results = iter(several)

        def compare(_: object, choose: Any, found: Compared, check: Any) -> None:
            self.compared.append(
                [
                    it.oid
                    for it in choose(
                        SimpleNamespace(tables=self.tables, chosen=lambda _: self.tables)
                    )
                ]
            )
            different, found.left = next(results)
            found.different += different

        self.compared: list[list[int]] = []
        return compare

    def test_what_differs_is_repaired_where_that_is_asked_for(self) -> None:
        """What can't be by rows is copied anew."""
        cases: Sequence[tuple[list[Table], bool, list[Table], int, Any]] = (
            ([], False, [], 0, None),
            ([], True, [], 0, None),
            ([WHOLE], False, [], 1, None),
            ([WHOLE], True, [], 0, None),
            ([WHOLE, KEYED], True, [WHOLE], 7, {WHOLE.oid: WHOLE.text()}),
        )
        for different, repair, left, status, asked in cases:
            self.options = dataclasses.replace(self.options, repair=repair)
            with mock.patch.multiple(
                verify,
                compare=self.finds((different, {})),
                repair=lambda *_, it=left: it,
            ), mock.patch.object(add_module, "add", return_value=7) as add:
                self.assertEqual(verify.run(self.options, never), status)
            self.assertEqual(add.call_args and add.call_args.args[2], asked)

    def test_what_others_had_truncated_is_compared_once_more(self) -> None:
        """The others are compared all the same. What is left in the end isn't equal."""
        left = {2: "public.whole was truncated meanwhile"}
        with mock.patch.object(verify, "compare", self.finds(([], left), ([], {}))), logged():
            self.assertEqual(verify.run(self.options, never), 0)
        self.assertEqual(self.compared, [[1, 2], [2]])
        with mock.patch.object(verify, "compare", self.finds(([], left), ([], left))), logged():
            with self.assertRaisesRegex(
                Passing, "^not compared: public.whole was truncated meanwhile: compare later"
            ):
                verify.run(self.options, never)
        with mock.patch.object(
            verify, "compare", self.finds(([KEYED], left), ([], left))
        ), logged() as told:
            self.assertEqual(verify.run(self.options, never), 1)
        self.assertEqual(told[-1], "warning: not compared: public.whole was truncated meanwhile")

    def test_what_the_follower_does_not_pass_on(self) -> None:
        self.options = dataclasses.replace(self.options, repair=True)
        repair = mock.Mock(side_effect=Unrepaired("too much"))
        with mock.patch.multiple(
            verify, compare=self.finds(([WHOLE], {})), repair=repair
        ), logged() as told:
            self.assertEqual(verify.run(self.options, never), 1)
        self.assertEqual(told, ["error: too much"])

    def test_which_tables_differ(self) -> None:
        """Those that were compared and aren't equal, and those that couldn't be."""
        source = cast(
            Source,
            SimpleNamespace(
                plain=connection_to(self.server), encoding="UTF8", tables=list(self.tables)
            ),
        )
        for columns, equal, different in (
            (True, True, []),
            (True, False, [KEYED, WHOLE]),
            (False, True, [KEYED, WHOLE]),
        ):
            with contextlib.closing(Copy(self.path, self.path, 0x130, never)) as copy:
                verifier = Verifier(self.options.show, Sides(source, copy))
                with mock.patch.multiple(
                    verifier, has_columns=lambda _, it=columns: it, is_equal=lambda *_, it=equal: it
                ):
                    self.assertEqual(verifier.run(list(self.tables)), not different)
                self.assertEqual(verifier.different, different)

    def test_what_is_being_added_is_not_compared(self) -> None:
        known = Known(FOLLOWING, adding={2: 0})
        self.assertEqual(settled([KEYED], known), [KEYED])
        with self.assertRaisesRegex(Passing, "being added just now, or refused: public.whole"):
            settled([KEYED, WHOLE], known)
        with self.assertRaisesRegex(Passing, "keyed"):
            settled([KEYED], known, {1})

    def test_nobody_follows(self) -> None:
        with self.assertRaisesRegex(Passing, "a follower has to run"):
            verify.run(self.options, never)
