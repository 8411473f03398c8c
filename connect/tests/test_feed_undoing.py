"""The SQL that takes commits back: the rows that it restores, and what it doesn't take back."""

from __future__ import annotations

import re
import sqlite3
import tracemalloc
from collections.abc import Sequence
from unittest import mock

from feed_text import About, Column, Definition, Line, lsn_text

from pgsub_feed.errors import PASSING, UNFIT
from pgsub_feed.interruption import never
from pgsub_feed.reader.commits import XID
from pgsub_feed.reader.following import Chosen
from pgsub_feed.reader.segments import Reader
from pgsub_feed.undo import net, restore_sql
from pgsub_feed.undo.transaction import undo

from .feeds import ID, NAME, STOCK, delete, insert, table, truncate, update
from .test_feed_printing import PrintingCase
from .vectors import logged

BAG = table(3, "bag", letter="f")
WIDER = table(columns=[ID, NAME, Column("more", 23)])
# a row of `pgsub_rows`, without its number
ROW = re.compile(r"^(?:INSERT .* VALUES\n)?  \((\d+), (\d+), '([^']*)', (.*)\)[,;]$", re.M)


class Undoing(PrintingCase):
    def setUp(self) -> None:
        super().setUp()
        self.feed.commit(0x100, [])

    def undo(self, *commits: Sequence[Line], status: int = 0) -> str:
        """The SQL that takes these back, the first of which ends at 0/200."""
        for lines in commits:
            self.feed.commit(self.feed.at + 0x100, lines)
        return self.print("--undo", "0/100", lsn_text(self.feed.at), status=status)

    def undone(self, *commits: Sequence[Line]) -> list[tuple[str, str]]:
        """The rows that it restores: what is told of each, and the row before and after."""
        return [(told, rows) for _, _, told, rows in ROW.findall(self.undo(*commits))]

    def check_refused(self, text: str, *commits: Sequence[Line]) -> None:
        with logged() as told:
            self.assertEqual(self.undo(*commits, status=UNFIT), "")
        self.assertRegex(told[-1], text)


class Restored(Undoing):
    def test_each_change(self) -> None:
        found = self.undone(
            [insert("1", None), update(["2", "o'x"], ["2", "b\\"]), delete("3", "")]
        )
        self.assertEqual(
            found,
            [
                ("0/200:0, public.stock", "NULL, ARRAY['1', NULL]"),
                ("0/200:1, public.stock", r"ARRAY['2', 'o''x'], ARRAY['2', E'b\\']"),
                ("0/200:2, public.stock", "ARRAY['3', ''], NULL"),
            ],
        )

    def test_tables(self) -> None:
        two = table(4, 'o"d', [Column("m", 16384, -1, True), ID], schema="s'x")
        text = self.undo([insert("1", "a"), insert("sad", "1", of=two), insert("1", "a", of=BAG)])
        for line in (
            """(1, 'public.stock', '"public"."stock"', ARRAY['id', 'name'], ARRAY[1], ARRAY[1])""",
            # (of a type of users' the rows aren't looked up by an index)
            """(2, 's''x.o"d', '"s''x"."o""d"', ARRAY['m', 'id'], ARRAY[1, 2], ARRAY[2])""",
            """(3, 'public.bag', '"public"."bag"', ARRAY['id', 'name'], '{}', '{}')""",
        ):
            self.assertIn(f"INSERT INTO pgsub_tables VALUES {line};\n", text)

    def test_a_row_is_restored_once(self) -> None:
        first = [insert("1", "a"), update(["1", "a"], ["1", "b"]), update(["2", "a"], ["2", "b"])]
        second = [update(["2", "b"], ["2", "c"]), delete("1", "b"), update(["3", "a"], ["3", "b"])]
        third = [update(["3", "b"], ["3", "a"]), delete("4", "a"), insert("4", "a")]
        self.assertEqual(
            self.undone(first, second, third),
            [("0/300:0, public.stock", "ARRAY['2', 'a'], ARRAY['2', 'c']")],
        )

    def test_rows_that_change_their_keys(self) -> None:
        swap = [
            update([a, x], [b, x])
            for a, b, x in (("1", "9", "a"), ("2", "1", "b"), ("9", "2", "a"))
        ]
        moved = [update(["5", "a"], ["6", "a"]), update(["6", "a"], ["7", "b"])]
        again = [delete("8", "a"), insert("8", "b")]
        self.assertEqual(
            [rows for _, rows in self.undone(swap, moved, again)],
            [
                "ARRAY['1', 'a'], ARRAY['1', 'b']",
                "ARRAY['2', 'b'], ARRAY['2', 'a']",
                "ARRAY['5', 'a'], ARRAY['7', 'b']",
                "ARRAY['8', 'a'], ARRAY['8', 'b']",
            ],
        )

    def test_equal_rows_without_a_key(self) -> None:
        lines = [
            insert("9", "", of=BAG),
            insert("1", "a", of=BAG),
            insert("1", "a", of=BAG),
            delete("1", "a", of=BAG),
            update(["2", None], ["1", "a"], of=BAG),
            delete("9", None, of=BAG),
        ]
        self.assertEqual(
            [rows for _, rows in self.undone(lines)],
            [
                "NULL, ARRAY['9', '']",
                "NULL, ARRAY['1', 'a']",
                "ARRAY['2', NULL], ARRAY['1', 'a']",
                "ARRAY['9', NULL], NULL",
            ],
        )

    def test_a_key_that_is_none_all_along(self) -> None:
        full = Definition(1, "public", "stock", "f", STOCK.columns)
        text = self.undo([delete("1", "a")], [insert("1", "b", of=full), insert("1", "b", of=full)])
        self.assertEqual(len(ROW.findall(text)), 3)
        self.assertIn("ARRAY['id', 'name'], '{}', '{}')", text)

    def test_characters_that_others_may_change(self) -> None:
        for cell, constant in (
            ("a\r\nb", r"E'a\x0d\x0ab'"),
            ("\t\\t'", r"E'\x09\\t'''"),
            ("\x7fE", r"E'\x7fE'"),
            ("E ä", "'E ä'"),
            ("\x9b1m", r"E'\u009b1m'"),
        ):
            self.feed.commit(self.feed.at + 0x100, [delete("1", cell)])
            text = self.print("--undo", lsn_text(self.feed.at - 0x100), lsn_text(self.feed.at))
            self.assertIn(f"ARRAY['1', {constant}], NULL);", text)

    def test_many_rows(self) -> None:
        """One command has some of them, however large they are."""
        text = self.undo([insert(str(it), "a" * 1000) for it in range(500)])
        self.assertEqual(text.count("INSERT INTO pgsub_rows"), 3)
        self.assertEqual([int(n) for n, *_ in ROW.findall(text)], list(range(1, 501)))
        self.assertEqual([it for it in text.splitlines() if it.endswith(";;")], [])

    def test_no_rows(self) -> None:
        text = self.undo([insert("1", "a"), delete("1", "a")])
        self.assertNotIn("INSERT INTO pgsub_rows", text)
        self.assertNotIn("INSERT INTO pgsub_tables", text)

    def test_tables_without_columns(self) -> None:
        self.assertEqual(self.undone([delete(of=table(5, "none", [], "f"))])[0][1], "'{}', NULL")


class Large(Undoing):
    """More rows than memory has room for."""

    def peak(self, end: int) -> int:
        """How much memory it takes to print what takes the commits up to there back."""
        reader, printed = Reader(str(self.path), 0x100), list[int]()
        self.addCleanup(reader.close)
        tracemalloc.start()
        with mock.patch.object(net, "CACHE", 64):
            undo(reader, end, Chosen(()), never, lambda text: printed.append(len(text)))
        _, found = tracemalloc.get_traced_memory()
        tracemalloc.stop()
        self.assertGreater(sum(printed), 500 * (end - 0x100))
        return found

    def test_rows_are_in_a_file(self) -> None:
        """Whatever was made of them: four times as many take as much memory."""
        for at in range(0x100, 0x100 + 4000, 50):
            rows = [f"{it}" for it in range(at, at + 25)]
            lines = [insert(it, it * 200) for it in rows]
            lines += [update([it, it * 200], [it, it * 300]) for it in rows]
            self.feed.commit(at + 50, lines)
        few, many = self.peak(0x100 + 1000), self.peak(0x100 + 4000)
        self.assertLess(many, 1.5 * few)

    def test_a_disk_that_is_full(self) -> None:
        """Which may have room later."""
        error = sqlite3.OperationalError("database or disk is full")
        self.feed.commit(0x200, [insert("1", "a")])
        with logged() as told, mock.patch.object(net.Net, "take", side_effect=error):
            self.assertEqual(self.print("--undo", "0/100", "0/200", status=PASSING), "")
        self.assertRegex(told[-1], "the temporary file for rows, .* TMPDIR says: .* is full")


class Script(Undoing):
    def test_one_transaction(self) -> None:
        text = self.undo([insert("1", "$pgsub$")])
        self.assertTrue(text.startswith("-- Takes back the commits after 0/100 up to 0/200: psql"))
        begin, end = "\nBEGIN ISOLATION LEVEL READ COMMITTED;\n", "\nCOMMIT;\n"
        self.assertEqual((text.count(begin), text.count(end)), (1, 1))
        self.assertTrue(text.endswith(end))

    def test_values_of_rows_are_in_no_block(self) -> None:
        text = self.undo([insert("1", "$pgsub$; whoops")])
        blocks = re.findall(r"DO \$pgsub\$.*?\$pgsub\$;", text, re.S)
        self.assertEqual((len(blocks), "whoops" in text), (10, True))
        self.assertNotIn("whoops", "".join(blocks))

    def test_what_a_user_may_have_is_named_by_its_schema(self) -> None:
        """While rows are changed the session's own search path is in force."""
        found = re.search(r"restored text.*?EXECUTE command", restore_sql.CHANGE, re.S)
        assert found
        commands = "".join(re.findall(r"'((?:[^']|'')*)'", found[0]))
        self.assertNotRegex(commands, r"(?<!\.)\b(?:count|pgsub_(?!catalog))\w*\b(?<!\$)\(")
        self.assertNotRegex(commands, r"(?<![.\w])pgsub_")
        self.assertNotRegex(commands, r"f\.\w+ = |x\.\w+ = f")


class Refused(Undoing):
    def test_truncations(self) -> None:
        text = r"0/300 truncates public.stock \(1\), .*: take back only those after 0/300, "
        text += "and then those up to 0/200$"
        self.check_refused(text, [insert("1", "a")], [truncate()], [insert("2", "a")])

    def test_a_truncation_alone(self) -> None:
        self.check_refused(
            r"0/200 truncates .*: leave its table out, by --table for the others$", [truncate()]
        )

    def test_rows_that_the_connector_has_copied(self) -> None:
        """They were at the server all along."""
        self.feed.commit(0x200, [insert("1", "a")])
        self.feed.commit(0x300, [insert("1", "a", of=BAG)], About(0x2FF, XID, 0))
        (self.path / "confirmed").write_text("0/300")
        self.check_refused(
            r"0/300: rows of public.bag \(3\) were copied here.*: take back only those up to 0/200$"
        )
        self.assertEqual(
            len(ROW.findall(self.print("--undo", "0/100", "0/300", "--table", "stock"))), 1
        )

    def test_altered_tables(self) -> None:
        text = r"0/300: public.stock \(1\) was altered since the commits before: "
        text += "take back only those after 0/200$"
        self.check_refused(text, [insert("1", "a")], [insert("1", "a", "2", of=WIDER)])

    def test_lsns(self) -> None:
        self.feed.commit(0x200, [])
        self.feed.confirm(0x300)
        for begin, text in (
            ("0/200", "no commit ends up to 0/300 after 0/200"),
            ("0/150", "no commit ends at 0/150: take back from 0/100 or 0/200 on$"),
        ):
            with logged() as told:
                self.print("--undo", begin, "0/300", status=UNFIT)
            self.assertRegex(told[0], text)

    def test_commits_that_are_still_to_come(self) -> None:
        """What these do, up to the LSN, would stay."""
        self.feed.commit(0x200, [insert("1", "a")])
        for confirmed in (0, 0x100, 0x280):
            self.feed.confirm(confirmed)
            with self.subTest(confirmed), logged() as told:
                self.assertEqual(self.print("--undo", "0/100", "0/300", status=PASSING), "")
                text = f"the feed has reached {lsn_text(max(0x200, confirmed))}, and 0/300 not yet$"
                self.assertRegex(told[0], text)
        self.assertEqual(len(ROW.findall(self.print("--undo", "0/100", "0/200"))), 1)
        self.feed.confirm(0x300)
        self.assertEqual(len(ROW.findall(self.print("--undo", "0/100", "0/300"))), 1)
        self.feed.confirm(0x200)
        self.feed.commit(0x400, [insert("2", "a")])
        self.assertEqual(len(ROW.findall(self.print("--undo", "0/100", "0/300"))), 1)

    def test_binary_values(self) -> None:
        self.check_refused(
            "0/200: .*binary format.*: follow without --binary", [insert(b"\0\0\0\1", "a")]
        )

    def test_a_change_that_found_no_row(self) -> None:
        with logged() as told:
            self.assertEqual(
                len(self.undone([Line(STOCK, "x", ["7", None], None, "K"), insert("1", "a")])), 1
            )
        self.assertRegex(told[0], r"0/200:0: a change of public.stock \(1\) isn't taken back")
