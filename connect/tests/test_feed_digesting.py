"""Digests of tables that follow a feed: they are those of the rows, whatever becomes of these."""

from __future__ import annotations

import contextlib
import hashlib
import sqlite3
from typing import Any

from feed_text import Column, Definition, Line

from pgsub_connect.commands import tables
from pgsub_feed.errors import FileError
from pgsub_feed.interruption import never
from pgsub_feed.reader.segments import Reader
from pgsub_feed.tables.applier import Applier
from pgsub_feed.tables.digests import Digest, read_digests
from pgsub_feed.tables.file import Rows

from .feeds import ID, NAME, delete, insert, table, truncate, update
from .test_feed_tables import TablesCase
from .vectors import logged


def digest_of(*rows: list[str | None]) -> Digest:
    """That of rows, by their texts."""
    count = first = second = 0
    for row in rows:
        text = b"".join(
            b"n" if it is None else b"%d:%b" % (len(it.encode()), it.encode()) for it in row
        )
        words = hashlib.sha256(text).digest()
        count += 1
        first += int.from_bytes(words[:4], "big", signed=True)
        second += int.from_bytes(words[4:8], "big", signed=True)
    return Digest(count, first, second)


class DigestsCase(TablesCase):
    def setUp(self) -> None:
        super().setUp()
        self.take(insert("1", "a"))
        self.run_it(digests=True)

    def digests(self) -> dict[int, Digest]:
        with contextlib.closing(sqlite3.connect(self.into)) as base:
            return read_digests(base)

    def keep(self, **more: Any) -> dict[int, Digest]:
        """Takes what is there. Returns the digests."""
        with logged():
            tables.run(self.options(**more), never)
        return self.digests()

    def has(self, *rows: list[str | None], oid: int = 1) -> None:
        self.assertEqual(self.digests()[oid], digest_of(*rows))

    def taken(self, *lines: Line, **more: Any) -> None:
        """One more commit. (What keeps digests needn't be told again.)"""
        self.take(*lines)
        self.run_it(**more)


class Changes(DigestsCase):
    def test_each_kind(self) -> None:
        self.has(["1", "a"])
        self.taken(insert("2", None), insert("3", ""), insert("-4", "é\t"))
        self.has(["1", "a"], ["2", None], ["3", ""], ["-4", "é\t"])
        self.taken(
            update(["1", "a"], ["1", "b"]), update(["3", ""], ["5", "7:x"]), delete("2", None)
        )
        self.has(["1", "b"], ["5", "7:x"], ["-4", "é\t"])
        self.taken(Line(table(), "x", ["9", None], None, "K"))
        self.has(["1", "b"], ["5", "7:x"], ["-4", "é\t"])
        self.taken(truncate(), insert("6", "c"))
        self.has(["6", "c"])
        self.assertEqual(self.rows("PRAGMA user_version"), [(4,)])

    def test_equal_rows(self) -> None:
        whole = table(2, "whole", letter="f")
        self.taken(*[insert("1", "x", of=whole)] * 3)
        self.has(["1", "x"], ["1", "x"], ["1", "x"], oid=2)
        self.taken(delete("1", "x", of=whole), update(["1", "x"], ["1", None], of=whole))
        self.has(["1", "x"], ["1", None], oid=2)

    def test_values_of_every_kind(self) -> None:
        types = (16, 17, 21, 20, 700, 701, 701, 1700, 25)
        every = table(3, "every", [Column(f"c{at}", it) for at, it in enumerate(types)], "f")
        text: list[str | None] = [
            "t",
            "\\x00ff",
            "-5",
            "9007199254740993",
            "3.3950328e+07",
            "9.999999999999999e+22",
            "NaN",
            "1.50",
            "ü",
        ]
        self.taken(insert(*text, of=every), insert(*[None] * 9, of=every))
        self.has(text, [None] * 9, oid=3)
        # (and so it is by the rows)
        self.altered(every, [*every.columns, Column("more", 25)], [[*text, None], [None] * 10])

    def altered(self, of: Definition, columns: list[Column], rows: list[list[str | None]]) -> None:
        self.taken(
            Line(table(of.oid, of.table, columns, of.letter), "x", ["9"] * len(columns), None, "K")
        )
        self.has(*rows, oid=of.oid)

    def test_binary_values(self) -> None:
        every = table(
            3, "every", [Column("a", 23), Column("b", 17), Column("c", 25), Column("d", 701)], "f"
        )
        self.taken(insert(b"\0\0\0\7", b"\0\1", "é".encode(), b"\x3f\xf8" + bytes(6), of=every))
        self.has(["7", "\\x0001", "é", "1.5"], oid=3)

    def test_more_than_is_taken_at_once(self) -> None:
        self.taken(*(insert(str(it), "x") for it in range(10, 2500)))
        rows: list[list[str | None]] = [[str(it), "x"] for it in range(10, 2500)]
        self.has(["1", "a"], *rows)

    def test_back(self) -> None:
        self.taken(insert("2", "b"), update(["1", "a"], ["1", "z"]))
        self.taken(delete("2", "b"))
        with logged():
            self.run_it(at=0x100)
        self.has(["1", "a"])
        self.run_it()
        self.has(["1", "z"])


class Shapes(DigestsCase):
    def shaped(self, *columns: Column, letter: str = "d", of: str = "stock", oid: int = 1) -> None:
        self.taken(Line(table(oid, of, columns, letter), "x", ["9"] * len(columns), None, "K"))

    def test_columns(self) -> None:
        self.shaped(ID, NAME, Column("more", 16))
        self.has(["1", "a", None])
        self.shaped(NAME, ID)
        self.has(["a", "1"])
        self.shaped(ID)
        self.has(["1"])

    def test_a_type_whose_values_are_printed_otherwise(self) -> None:
        self.shaped(Column("id", 16, -1, True), NAME)
        self.has(["t", "a"])

    def test_a_key_that_is_none(self) -> None:
        """A table that is made anew keeps its digest."""
        self.taken(insert("2", "b"), insert(None, "c", of=table(letter="d")))
        self.has(["1", "a"], ["2", "b"], [None, "c"])

    def test_another_name(self) -> None:
        self.shaped(ID, NAME, of="renamed")
        self.has(["1", "a"])
        self.taken(update(["1", "a"], ["1", "b"], of=table(name="renamed")))
        self.has(["1", "b"])
        # (the name is another table's now)
        self.taken(insert("5", "x", of=table(2, "renamed")))
        self.has(["1", "b"])
        self.has(["5", "x"], oid=2)

    def test_a_table_that_goes(self) -> None:
        into = self.into
        self.into = into + ".chosen"
        self.assertEqual(self.keep(table=["stock"], digests=True), {1: digest_of(["1", "a"])})
        self.take(Line(table(name="other"), "x", ["9", None], None, "K"))
        self.assertEqual(self.keep(table=["stock"]), {})


class Files(DigestsCase):
    def test_what_is_rolled_back(self) -> None:
        self.take(insert("2", "b"))
        path = max(self.path.glob("[0-9A-F]" * 16))
        whole = path.read_bytes()
        path.write_bytes(whole[:-4] + b"xx}\n")
        with self.assertRaises(FileError):
            self.run_it()
        self.has(["1", "a"])
        path.write_bytes(whole)
        self.run_it()
        self.has(["1", "a"], ["2", "b"])

    def test_what_is_rolled_back_in_one_run(self) -> None:
        self.take(insert("2", "b"), delete("1", "a"))
        rows = Rows(self.into)
        for is_kept in (False, True):
            with contextlib.closing(Reader(str(self.path), rows.at)) as reader:
                commit = reader.next()
                assert commit and rows.digests
                rows.begin()
                Applier(rows, never).apply(commit, reader.parts(commit))
                self.assertEqual(rows.digests.known, {1: digest_of(["2", "b"])})
                rows.settle(commit.end) if is_kept else rows.roll_back()
                self.assertEqual(
                    rows.digests.known, {1: digest_of(["2", "b"] if is_kept else ["1", "a"])}
                )
        rows.close(True)
        self.has(["2", "b"])

    def test_later(self) -> None:
        """A file that is there gets them once they are asked for."""
        self.into += ".later"
        self.assertEqual(self.keep(), {})
        self.assertEqual(self.keep(digests=True), {1: digest_of(["1", "a"])})

    def test_an_older_program_does_not_go_on(self) -> None:
        with contextlib.closing(sqlite3.connect(self.into)) as base:
            base.execute("PRAGMA user_version = 5")
        with self.assertRaisesRegex(FileError, "another version"):
            self.run_it()
