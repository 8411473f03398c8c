"""`--skip LSN`."""

from __future__ import annotations

import tempfile
import unittest

from pgsub_connect.drift.remembered import Remembered
from pgsub_connect.server.session import Subscription
from pgsub_connect.status.progress import Progress
from pgsub_connect.store.checkpoint import Checkpoint, read_known
from pgsub_connect.stream.common import Common, Tolerance
from pgsub_connect.stream.transactions import Skipping

from . import vectors
from .vectors import (
    a_catalog,
    a_table,
    begin,
    commit,
    delete,
    insert,
    keepalive,
    logged,
    relation,
    update,
)

LSN = 0x1_0000_0210
TEXT = "1/210"


class Case(unittest.TestCase):
    def setUp(self) -> None:
        folder = tempfile.TemporaryDirectory()
        self.addCleanup(folder.cleanup)
        self.checkpoint = Checkpoint(folder.name + "/copy.db")
        self.progress = Progress()
        self.remembered = Remembered(folder.name + "/copy.db")
        self.remembered.begin_copy(a_catalog(a_table(1, "t"), a_table(2, "u")), 100)

    def skipping(self, lsn: int = LSN, at: int = 0x1_0000_0000) -> Skipping:
        known = self.checkpoint, self.progress, self.remembered
        skipping = Skipping(lsn, Common(Subscription(), Tolerance(), *known))
        skipping.begin_session(at)
        return skipping

    def passed(self, skipping: Skipping, *payloads: bytes) -> list[int]:
        """The places of the payloads that are passed on."""
        return [place for place, payload in enumerate(payloads) if skipping.passes(payload)]


class Skips(Case):
    def test_the_changes_of_the_commit(self) -> None:
        skipping = self.skipping()
        before = (
            begin(LSN - 16, 76),
            relation(1, "t"),
            insert(1),
            commit(LSN - 16, LSN - 8),
            keepalive(LSN - 1),
        )
        self.assertEqual(self.passed(skipping, *before), [0, 1, 2, 3, 4])
        self.assertEqual(self.checkpoint.known.skipped, "")
        origin = vectors.data(b"O" + bytes(8) + b"origin\0")
        commit_of_it = (
            begin(LSN, 77),
            origin,
            relation(2, "u"),
            vectors.a_type(9),
            insert(1),
            update(1),
            delete(2),
            keepalive(LSN + 99),
            vectors.truncate(1, 2),
            vectors.message(),
            commit(LSN, LSN + 8),
        )
        with logged() as said:
            self.assertEqual(self.passed(skipping, *commit_of_it), [0, 1, 2, 3, 7, 10])
        self.assertIn(
            f"skipped: transaction 77, final LSN {TEXT}, 3 changes of public.t (1), 2 changes of public.u (2)",
            said[0],
        )
        self.assertFalse(skipping.is_pending)
        self.assertEqual(
            (
                self.checkpoint.known.skipped,
                read_known(self.checkpoint.path).skipped,
                self.progress.findings.skipped,
            ),
            (TEXT, TEXT, TEXT),
        )
        after = (begin(LSN + 16, 78), insert(1), commit(LSN + 16, LSN + 24), keepalive(LSN + 99))
        self.assertEqual(self.passed(skipping, *after), [0, 1, 2, 3])

    def test_again_until_the_store_has_it(self) -> None:
        skipping = self.skipping()
        pair = (begin(LSN, 77), insert(1), commit(LSN, LSN + 8))
        with logged():
            self.assertEqual(self.passed(skipping, *pair), [0, 2])
            for at in (LSN - 16, LSN):
                skipping.begin_session(at)
                self.assertEqual(self.passed(skipping, *pair), [0, 2])
        with logged() as said:
            skipping.begin_session(LSN + 8)
        self.assertEqual((said, skipping.is_pending), ([], False))
        self.assertEqual(self.passed(skipping, *pair), [0, 1, 2])

    def test_a_session_that_ends_in_it(self) -> None:
        skipping = self.skipping()
        self.assertEqual(self.passed(skipping, begin(LSN, 77), insert(1)), [0])
        skipping.begin_session(LSN - 16)
        self.assertEqual(
            self.passed(skipping, begin(LSN - 16, 76), insert(1), commit(LSN - 16, LSN - 8)),
            [0, 1, 2],
        )
        self.assertEqual(self.checkpoint.known.skipped, "")


class SkipsNothing(Case):
    def test_without_it(self) -> None:
        with logged() as said:
            self.assertFalse(self.skipping(0).is_pending)
        self.assertEqual(said, [])

    def test_the_store_has_it(self) -> None:
        with logged() as said:
            skipping = self.skipping(at=LSN + 8)
            skipping.begin_session(LSN + 8)
        self.assertFalse(skipping.is_pending)
        self.assertEqual(len(said), 1)
        self.assertIn(f"--skip {TEXT}: the store is at 1/218, so nothing is skipped", said[0])

    def test_it_was_skipped_by_an_earlier_run(self) -> None:
        self.checkpoint.write(True, skipped=TEXT)
        with logged() as said:
            self.skipping(at=LSN + 8)
        self.assertEqual((said, self.progress.findings.skipped), ([], TEXT))

    def test_there_is_no_such_commit(self) -> None:
        for past in (
            (begin(LSN + 1, 78), insert(1), commit(LSN + 1, LSN + 8)),
            (keepalive(LSN + 1),),
        ):
            skipping = self.skipping()
            with logged() as said:
                everything = (
                    begin(LSN - 1, 77),
                    insert(1),
                    keepalive(LSN + 1),
                    commit(LSN - 1, LSN),
                    keepalive(LSN),
                    *past,
                )
                self.assertEqual(self.passed(skipping, *everything), list(range(len(everything))))
            self.assertEqual(len(said), 1)
            self.assertIn(
                f"--skip {TEXT}: the server is at 1/211, and there was no such commit: nothing is skipped",
                said[0],
            )
            self.assertEqual((skipping.is_pending, self.checkpoint.known.skipped), (False, ""))


if __name__ == "__main__":
    unittest.main()
