"""How many rows of each table an interrupted copy has stored, and whether a store is complete."""

from __future__ import annotations

import os

from pgsub_connect.copy.messages import text_frames
from pgsub_connect.store.checkpoint import Checkpoint
from pgsub_connect.store.checkpoint_lines import COPIED, COPYING, FOLLOWING, NEW, SLOT
from pgsub_connect.store.at_rest import MOST_PARTS, is_being_copied, is_whole
from pgsub_connect.copy.interrupted import counted_rows
from pgsub_connect.store.file import opened
from pgsub_feed.interruption import never

from .fake_server import Quiet
from .row_filter import Relation, Store, spelled


class Case(Quiet):
    def setUp(self) -> None:
        super().setUp()
        self.store = self.make_folder() + "/copy.db"


class Counts(Case):
    def make(self, position: int) -> None:
        """Two tables, of which one has no key, and two equal rows."""
        store = Store(self.store)
        raw = b"d\0\x01\x01id\0\0\0\0\x19\xff\xff\xff\xff"
        for oid, letter, values in ((1, "d", "abc"), (2, "f", "xxy")):
            table = Relation(oid, "public", f"t{oid}", letter, [(1, "id")], raw)
            head = oid.to_bytes(4, "big") + b"N"
            rows = [head + spelled([("t", it.encode())]) for it in values]
            store.take([(table, "I", row) for row in rows], position)
        store.base.close()

    def test_copies_count(self) -> None:
        self.make(2)
        with opened(self.store) as store:
            self.assertEqual(store.execute("SELECT count(*) FROM held").fetchone(), (5,))
        self.assertEqual(counted_rows(self.store, never), {1: 3, 2: 3})

    def test_a_file_without_tables(self) -> None:
        open(self.store, "w").close()
        self.assertEqual(counted_rows(self.store, never)[1], 0)


class Whole(Case):
    def test_by_the_checkpoint(self) -> None:
        """No store is complete before its copy is."""
        checkpoint = Checkpoint(self.store)
        self.addCleanup(os.close, checkpoint.file)
        self.assertFalse(is_whole(self.store))
        open(self.store, "w").close()
        for phase in (NEW, COPYING, SLOT, COPIED, FOLLOWING):
            checkpoint.write(True, phase=phase)
            self.assertEqual(is_whole(self.store), phase not in (COPYING, SLOT), phase)
            self.assertEqual(is_being_copied(self.store), phase in (COPYING, SLOT), phase)

    def test_one_of_another_account(self) -> None:
        """Its checkpoint can't be read: then the position tells."""
        os.mkdir(self.store + ".connector")
        for position, whole in ((1, False), (MOST_PARTS, False), (MOST_PARTS + 1, True)):
            Counts.make(self, position)  # type: ignore[arg-type]
            self.assertEqual(is_whole(self.store), whole)
            os.unlink(self.store)


class Texts(Case):
    def test_a_row_of_any_length(self) -> None:
        """A payload isn't longer than what is accepted, and no byte is lost."""
        lines = [b"a" * 10 + b"\n", b"b" * 3000 + b"\n", b"\n"]
        for most in (2, 3, 12, 1000, 3013, 3014, 3015, 1 << 20):
            text, whole = b"".join(text_frames(lines, most)), b""
            while text:
                size = int.from_bytes(text[1:5], "big") - 4
                self.assertEqual((text[:1], text[5:6]), (b"d", b"t"))
                self.assertLessEqual(size, most)
                whole, text = whole + text[6 : 5 + size], text[5 + size :]
            self.assertEqual(whole, b"".join(lines))
