"""The first rows of a feed whose initial copy went on after it was interrupted: from its store."""

from __future__ import annotations

import os
import signal
from types import SimpleNamespace
from typing import Any
from unittest import mock

from pgsub_connect.drift.remembered import Remembered
from pgsub_connect.follow.feed import FeedSettings, Feeding
from pgsub_connect.follow.first_rows import BaseRows
from pgsub_connect.server.session import Subscription
from pgsub_connect.status.progress import Progress
from pgsub_connect.store import base_files
from pgsub_connect.store.base_files import written_from_store
from pgsub_connect.store.row_frames import BaseWanted
from pgsub_connect.store.checkpoint_lines import COPIED, FOLLOWING
from pgsub_connect.stream.common import Common, Tolerance
from pgsub_feed.errors import Stopped
from pgsub_feed.interruption import Check, never
from pgsub_feed.reader.base import BaseFiles

from .stores import Store
from .test_copying import POINT, STOCK
from .test_first_rows import EMPTY, KINDS, NOTHING, Case

STORED = (1, "id", 23, -1), (0, "n", 23, -1)
ALL_OF_KINDS = tuple(
    (1, name, oid, -1) for name, oid in (("t", 25), ("b", 17), ("f", 701), ("d", 1082))
)


class StoreCase(Case):
    """A store with rows, and the folder of its feed."""

    def setUp(self) -> None:
        super().setUp()
        os.mkdir(self.feed)
        self.it = Store(self.store, POINT)
        self.addCleanup(self.it.close)
        self.it.table(STOCK.oid, "stock", STORED)
        self.it.row(STOCK.oid, "1", "5")
        self.it.row(STOCK.oid, "-2", None)
        self.expected: dict[int, list[Any]] = {
            STOCK.oid: [["1", "5"], ["-2", None]],
            KINDS.oid: [],
            NOTHING.oid: [],
            EMPTY.oid: [],
        }

    def found(self) -> dict[int, list[Any]]:
        files = BaseFiles(self.feed)
        self.assertEqual(files.source.text(), "slot pgsub of database shop, system 7")
        self.assertEqual(files.lsn, POINT)
        rows: dict[int, list[Any]] = {}
        for it in files.sections():
            rows.setdefault(it.relation.oid, []).extend(it.rows)
        return rows

    def there(self) -> list[str]:
        return sorted(set(os.listdir(self.folder)) - {"copy.db.tables", "copy.db.feed"})


class Written(StoreCase):
    """What the process does."""

    def write(self, check: Check = never) -> int:
        self.it.close()
        source = "7", "shop", "pgsub"
        return written_from_store(BaseWanted(self.feed, self.store, 0o640, 1, *source), check)

    def test_rows(self) -> None:
        """Each as often as it is there, of tables that never had one too."""
        self.it.table(KINDS.oid, "kinds", ALL_OF_KINDS, letter="f", schema="app")
        self.it.row(KINDS.oid, "a", b"\0\xff", "NaN", None, key=None, copies=3)
        self.assertEqual(self.write(), 0)
        self.expected[KINDS.oid] = [["a", b"\0\xff", "NaN", None]] * 3
        self.assertEqual(self.found(), self.expected)
        self.assertEqual(self.said[-1], f"{self.feed} has 5 rows from before its first commit")
        self.assertEqual(self.there(), ["copy.db"])

    def test_a_table_whose_name_another_one_has(self) -> None:
        self.it.table(7, "stock", STORED)
        self.it.row(7, "1", "1")
        self.assertEqual(self.write(), 0)
        self.assertEqual(self.found(), self.expected)

    def test_rows_in_the_log(self) -> None:
        """That a program has left which was killed."""
        kept = self.folder + "/kept"
        self.it.base.execute("PRAGMA journal_mode = WAL")
        self.it.row(STOCK.oid, "3", "7")
        os.link(self.store + "-wal", kept)
        with open(self.store, "rb") as file:
            was = file.read()
        self.it.close()
        os.rename(kept, self.store + "-wal")
        with open(self.store, "wb") as file:
            file.write(was)
        self.assertEqual(self.write(), 0)
        self.expected[STOCK.oid].append(["3", "7"])
        self.assertEqual(self.found(), self.expected)
        self.assertEqual(self.there(), ["copy.db", "copy.db-wal"])

    def test_faults(self) -> None:
        """They are told, and leave nothing."""
        self.it.base.execute("INSERT INTO held VALUES (9, x'', x'0000', 1)")
        self.assertEqual((self.write(), os.listdir(self.feed)), (7, []))
        self.assertIn("gets no first rows: a row isn't one of its table", self.said[-1])
        with open(self.store, "wb") as file:
            file.write(b"x" * 8192)
        self.assertEqual((self.write(), os.listdir(self.feed)), (7, []))
        self.assertIn("gets no first rows: ", self.said[-1])

    def test_the_end_is_asked_for(self) -> None:
        def check() -> None:
            raise Stopped

        self.assertEqual((self.write(check), os.listdir(self.feed)), (7, []))


class BesideCase(StoreCase):
    """A follower that has copied."""

    def setUp(self) -> None:
        super().setUp()
        lock = os.open(self.store + ".lock", os.O_RDWR | os.O_CREAT)
        self.addCleanup(os.close, lock)
        os.unlink(self.store + ".lock")
        known = SimpleNamespace(
            system="7", database="shop", slot="pgsub", position=POINT, phase=COPIED
        )
        self.checkpoint: Any = SimpleNamespace(file=lock, known=known, note_tables=mock.Mock())
        self.rows_beside = BaseRows(self.feed, self.store, 0o600, self.checkpoint)
        self.addCleanup(self.rows_beside.abandon)


class Beside(BesideCase):
    """What starts it."""

    def test_a_copy_that_went_on(self) -> None:
        self.it.close()
        self.rows_beside.end()
        self.rows_beside.complete(True, never)
        self.assertEqual(self.found(), self.expected)
        self.assertEqual(self.said, [f"{self.feed}: its first rows are read from {self.store}"])
        self.rows_beside.abandon()
        self.assertEqual(os.listdir(self.feed), ["base"])

    def test_a_process_that_was_killed_within_a_whole_copy(self) -> None:
        self.it.close()
        self.rows_beside.begin(POINT)
        self.rows_beside.take(STOCK, [b"1\t5\n"])
        child = self.rows_beside.child
        assert child
        child.kill()
        child.wait()
        self.rows_beside.end()
        self.rows_beside.complete(True, never)
        self.assertEqual(self.found(), self.expected)

    def test_one_that_is_there(self) -> None:
        """It stays."""
        self.rows_beside.begin(POINT)
        self.rows_beside.take(STOCK, [b"1\t6\n"])
        self.rows_beside.end()
        self.rows_beside.complete(True, never)
        self.assertEqual(self.found()[STOCK.oid], [["1", "6"]])

    def test_a_store_that_was_followed(self) -> None:
        self.rows_beside.complete(False, never)
        self.assertEqual(
            self.said,
            [
                f"warning: {self.feed} has no first rows: its readers begin with an export, by --base"
            ],
        )
        self.assertEqual(os.listdir(self.feed), [])

    def test_where_it_cant_be_made(self) -> None:
        """It follows all the same, and tells what readers are to do."""
        self.it.close()
        with open(self.store, "wb") as file:
            file.write(b"x" * 8192)
        self.rows_beside.complete(True, never)
        self.assertIn("has no first rows: its readers begin with an export", self.said[-1])
        self.assertEqual(os.listdir(self.feed), [])

    def test_the_end_is_asked_for(self) -> None:
        """Nothing is left of it."""
        self.it.close()
        tries = list[None]()

        def check() -> None:
            tries.append(None)
            assert self.rows_beside.child
            if len(tries) == 1:
                self.rows_beside.child.send_signal(signal.SIGSTOP)
            if len(tries) > 3:
                raise Stopped

        with self.assertRaises(Stopped):
            self.rows_beside.complete(True, check)
        self.rows_beside.abandon()
        self.assertEqual((os.listdir(self.feed), self.rows_beside.child), ([], None))

    def test_a_follower_that_is_killed(self) -> None:
        """Then it ends by itself, and leaves nothing."""
        self.it.close()
        self.rows_beside.call = "base_files.run_from_store"
        self.rows_beside.begin(POINT)
        child = self.rows_beside.child
        assert child and child.stdin
        child.send_signal(signal.SIGSTOP)
        child.stdin.close()
        child.send_signal(signal.SIGCONT)
        self.assertEqual((child.wait(60), os.listdir(self.feed)), (7, []))


class Followed(BesideCase):
    """When a follower has it made."""

    def feeding(self) -> Feeding:
        remembered = Remembered(self.store)
        told = Subscription(), Tolerance(), self.checkpoint, Progress(), remembered
        found = Feeding(FeedSettings(self.store, self.feed, has_base=True), Common(*told))
        self.addCleanup(found.finish)
        return found

    def begin(self, feeding: Feeding) -> None:
        self.it.close()
        feeding.begin(mock.Mock(), mock.Mock(), never, mock.Mock())

    def test_before_the_feed_begins(self) -> None:
        """That it is to have them is known from when rows were copied until then."""
        feeding = self.feeding()
        feeding.rows_beside().note()
        self.assertTrue(Remembered(self.store).has_base)
        feeding.rows_beside().end()
        self.begin(feeding)
        self.assertEqual(self.found(), self.expected)
        self.assertEqual(
            (Remembered(self.store).feed, Remembered(self.store).has_base), (self.feed, False)
        )

    def test_later(self) -> None:
        """A store that was followed has rows that the first ones aren't."""
        self.checkpoint.known.phase = FOLLOWING
        self.begin(self.feeding())
        self.assertEqual(os.listdir(self.feed), ["types"])


del Case
