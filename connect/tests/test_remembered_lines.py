"""What Relation messages said since the file of tables was replaced: lines that follow the first.
"""

from __future__ import annotations

import dataclasses
import json
import os
import stat
import tempfile
import unittest
from collections.abc import Callable
from unittest import mock

from pgsub_connect.drift import remembered_lines as module
from pgsub_connect.drift.remembered import Remembered
from pgsub_connect.drift.remembered_lines import KEPT
from pgsub_feed.errors import FileError, Passing
from pgsub_feed.files import replace_file
from pgsub_feed.relation import Relation

from .vectors import ID, NAME, Described, a_catalog, a_shape, a_table

MORE = (0, "more", 23, -1)


class Case(unittest.TestCase):
    """A store whose tables t (1), u (2) and v (3) were copied at 100."""

    def setUp(self) -> None:
        folder = tempfile.TemporaryDirectory()
        self.addCleanup(folder.cleanup)
        self.store = folder.name + "/copy.db"
        self.path = self.store + ".tables"
        self.remembered = Remembered(self.store)
        tables = (a_table(oid, name) for oid, name in ((1, "t"), (2, "u"), (3, "v")))
        self.remembered.begin_copy(a_catalog(*tables), 100)
        self.remembered.save()

    def note(self, oid: int, name: str, lsn: int, *columns: Described) -> None:
        shape = a_shape([ID, NAME, *columns], "d", [0] * (2 + len(columns)))
        relation = Relation(oid, "public", name, shape)
        self.remembered.note(relation, lsn, self.remembered.last_sent(oid))

    def lines(self) -> list[bytes]:
        with open(self.path, "rb") as file:
            return file.read().split(b"\n")[:-1]

    def state(self, it: Remembered) -> dict[str, object]:
        written = KEPT.written(it.kept())
        return json.loads(json.dumps(written))  # type: ignore[no-any-return]


class Lines(Case):
    def test_each_put_adds_one(self) -> None:
        """What is read is what was noted: shapes, names, findings, and what was there before."""
        before = self.lines()
        noted: list[list[tuple[int, str, int, tuple[Described, ...]]]] = [
            [(1, "t", 200, (MORE,))],
            [(2, "renamed", 210, ()), (4, "u", 220, ())],
            [(1, "t", 230, (MORE, MORE))],
            [(3, "v", 240, (MORE,))],
        ]
        for put, some in enumerate(noted):
            for oid, name, lsn, columns in some:
                self.note(oid, name, lsn, *columns)
            self.assertTrue(self.remembered.unsaved.is_urgent)
            self.remembered.put()
            self.assertFalse(self.remembered.unsaved.is_urgent)
            self.assertEqual((len(self.lines()), self.lines()[:1]), (put + 2, before))
            again = Remembered(self.store)
            self.assertEqual(self.state(again), self.state(self.remembered))
            self.assertEqual((again.unsaved.is_urgent, again.found.take_news()), (False, []))
        self.assertEqual(sorted(again.found), ["names", "values"])
        self.remembered.save()
        self.assertEqual(
            (len(self.lines()), self.state(Remembered(self.store))), (1, self.state(again))
        )

    def test_the_disk_has_it_before_it_returns(self) -> None:
        self.note(1, "t", 200, MORE)
        calls: list[int] = []
        fsync = os.fsync

        def synced(number: int) -> None:
            self.assertTrue(stat.S_ISREG(os.fstat(number).st_mode))
            calls.append(os.fstat(number).st_size)
            fsync(number)

        with mock.patch("os.fsync", synced):
            self.remembered.put()
        self.assertEqual(calls, [os.path.getsize(self.path)])

    def test_anything_else_replaces_the_file(self) -> None:
        """A look, what is accepted, publications that were made, rows that came anew."""
        assert self.remembered.catalog
        later = dataclasses.replace(self.remembered.catalog, lsn=150)
        relation = Relation(1, "public", "t", a_shape([ID, NAME, MORE], "d", [0, 0, 0]))
        changes: list[Callable[[], object]] = [
            lambda: self.remembered.look(later),
            lambda: self.remembered.found.accept(["all"]),
            lambda: self.remembered.note_made({"pgsub": 7}),
            lambda: self.remembered.replaced(relation, 300),
            lambda: self.remembered.never_copied(3),
        ]
        for at, change in enumerate(changes):
            self.note(2, "u", 210 + 10 * at, *[MORE] * (at % 2 + 1))
            self.remembered.put()
            change()
            self.note(1, "t", 400 + 10 * at, *[MORE] * (at % 2 + 1))
            self.remembered.put()
            self.assertEqual(len(self.lines()), 1, at)
            self.assertEqual(self.state(Remembered(self.store)), self.state(self.remembered))

    def test_a_torn_line_was_never_confirmed(self) -> None:
        """Wherever it ends: what stands before is read, and the next one replaces the file."""
        self.note(1, "t", 200, MORE)
        self.remembered.put()
        before = self.state(self.remembered)
        self.note(2, "u", 210, MORE)
        self.remembered.put()
        after = self.state(self.remembered)
        with open(self.path, "rb") as file:
            whole = file.read()
        start = whole.rindex(b"\n", 0, -1) + 1
        for length in range(start, len(whole)):
            for tail in (b"", bytes(len(whole) - length), bytes(len(whole) - length - 1) + b"\n"):
                with open(self.path, "wb") as file:
                    file.write(whole[:length] + tail)
                is_whole = whole[:length] + tail == whole
                again = Remembered(self.store)
                self.assertEqual(self.state(again), after if is_whole else before, (length, tail))
        self.remembered = again
        self.note(3, "v", 220, MORE)
        self.remembered.put()
        self.assertEqual(len(self.lines()), 1)

    def test_a_bad_line_before_another_one(self) -> None:
        self.note(1, "t", 200, MORE)
        self.remembered.put()
        with open(self.path, "rb") as file:
            first, good, _ = file.read().split(b"\n")
        for bad in (b"", b"\0", b"7", b"{}", b"[7]", b"[[]]", b'[["0/1",1,"s","t","d",5]]'):
            with open(self.path, "wb") as file:
                file.write(b"\n".join((first, bad, good, b"")))
            reject = self.assertRaisesRegex(FileError, "not a file of tables of this program")
            with self.subTest(bad), reject:
                Remembered(self.store)

    def test_a_file_that_is_another_one(self) -> None:
        """One that was removed, replaced or written by somebody else is replaced, and a link isn't
        followed."""
        for harm in ("remove", "replace", "write"):
            self.note(1, "t", len(harm) * 1000, *[MORE] * len(harm))
            self.remembered.put()
            if harm == "write":
                with open(self.path, "ab") as file:
                    file.write(b"x")
            else:
                os.unlink(self.path)
            if harm == "replace":
                with open(self.path, "wb") as file:
                    file.write(b"of somebody else")
            self.note(2, "u", len(harm) * 1000, *[MORE] * len(harm))
            self.remembered.put()
            self.assertEqual(self.state(Remembered(self.store)), self.state(self.remembered))

    def test_a_full_disk(self) -> None:
        """It stays urgent, and what was written of it is replaced."""
        self.note(1, "t", 200, MORE)
        full = mock.patch("os.fsync", side_effect=OSError(28, "No space left on device"))
        with full, self.assertRaisesRegex(Passing, "No space"):
            self.remembered.put()
        self.assertTrue(self.remembered.unsaved.is_urgent)
        self.remembered.put()
        self.assertEqual(len(self.lines()), 1)
        self.assertEqual(self.state(Remembered(self.store)), self.state(self.remembered))


class Costs(Case):
    def test_first_changes_of_many_tables(self) -> None:
        """What is written grows with the tables, and not with their square."""
        written = []
        for count in (500, 2000):
            tables = (a_table(oid, f"t{oid}") for oid in range(1, count + 1))
            self.remembered.begin(a_catalog(*tables))
            self.remembered.save()
            append, total = module.append, 0

            def replaced(path: str, content: bytes, mode: int = 0o600) -> int:
                nonlocal total
                total += len(content)
                return replace_file(path, content, mode)

            def appended(path: str, content: bytes, inode: int, length: int) -> bool:
                nonlocal total
                total += len(content)
                return append(path, content, inode, length)

            one = mock.patch.object(module, "replace_file", replaced)
            other = mock.patch.object(module, "append", appended)
            with one, other, mock.patch("os.fsync"):
                for oid in range(1, count + 1):
                    self.note(oid, f"t{oid}", 200 + oid)
                    self.remembered.put()
            self.assertEqual(len(Remembered(self.store).sent), count)
            written.append(total)
        self.assertLess(written[1], 8 * written[0])


if __name__ == "__main__":
    unittest.main()
