"""What is tried beside a run of `rt ci`: when it begins, how much at once, and over which
libraries."""

import os
import sys
import tempfile
import threading
import time
import types
import unittest
from pathlib import Path

from beside import Beside, Proofs, links, moved

WAIT = 60


class Runs(unittest.TestCase):
    def setUp(self) -> None:
        self.said: list[str] = []
        self.proofs = Proofs(self.said.append)

    def run_printing(self, *lines: str, status: int = 0) -> None:
        self.proofs.run(
            sys.executable, "-c", f"import sys\nfor it in {lines!r}: print(it)\nsys.exit({status})"
        )

    def test_what_it_prints_is_passed_on_and_counted(self) -> None:
        self.run_printing("rt: pglsn proved", "5 passed, 0 failed")
        self.assertEqual(self.said, ["rt: pglsn proved", "5 passed, 0 failed"])
        self.assertEqual((self.proofs.passed, self.proofs.failed), (5, 0))

    def test_crates_are_proved_by_this_run_or_an_earlier_one(self) -> None:
        self.run_printing(
            "rt: pglsn proved",
            "rt: pgtuple is kept: an earlier run",
            "rt: pgrel NOT PROVED",
            "rt: pgspool: its tests are proved",
            "2 passed, 1 failed",
        )
        self.assertTrue(self.proofs.have_proved(["pglsn", "pgtuple"]))
        self.assertFalse(self.proofs.have_proved(["pglsn", "pgrel"]))
        self.assertFalse(self.proofs.have_proved(["pgspool"]))
        self.assertEqual(self.proofs.failed, 1)

    def test_one_that_ends_badly_has_failed_whatever_it_printed(self) -> None:
        self.run_printing("3 passed, 0 failed", status=2)
        self.assertEqual(self.proofs.failed, 1)

    def test_one_without_counts_has_failed(self) -> None:
        self.run_printing("rt: killed")
        self.assertEqual((self.proofs.passed, self.proofs.failed), (0, 1))

    def test_one_that_cannot_be_started_has_failed_and_lets_go_who_waits(self) -> None:
        with self.assertRaises(OSError):
            self.proofs.run("/no/such/command")
        self.assertFalse(self.proofs.have_proved(["pglsn"]))
        self.assertEqual(self.proofs.failed, 1)

    def test_a_crate_that_waits_begins_once_all_below_are_proved(self) -> None:
        begun = threading.Event()

        def begin() -> None:
            if self.proofs.have_proved(["pglsn", "pgtuple"]):
                begun.set()

        waiting = threading.Thread(target=begin)
        waiting.start()
        self.proofs.note("rt: pglsn proved")
        self.assertFalse(begun.wait(0.05))
        self.proofs.note("rt: pgtuple proved")
        self.assertTrue(begun.wait(WAIT))
        waiting.join(WAIT)


class Turns(unittest.TestCase):
    def test_fewer_run_beside_proofs_than_after_them(self) -> None:
        proofs = Proofs(lambda line: None)
        beside = Beside(proofs, most=1, most_alone=2)
        second = threading.Event()

        def take() -> None:
            with beside.turn():
                second.set()

        with beside.turn():
            waiting = threading.Thread(target=take)
            waiting.start()
            self.assertFalse(second.wait(0.05))
            proofs.end("1 passed, 0 failed", 0)
            self.assertTrue(second.wait(WAIT))
        waiting.join(WAIT)
        self.assertEqual(beside.running, 0)

    def test_what_takes_longest_comes_first(self) -> None:
        beside = Beside(Proofs(lambda line: None), most=1, most_alone=1)
        taken = list[int]()

        def take(weight: int) -> None:
            with beside.turn(weight):
                taken.append(weight)

        threads = [threading.Thread(target=take, args=(it,)) for it in (2, 9, 5, 5)]
        with beside.turn():
            for it in threads:
                it.start()
            until = time.monotonic() + WAIT
            while len(beside.waiting) < len(threads) and time.monotonic() < until:
                time.sleep(0.001)
        for it in threads:
            it.join(WAIT)
        self.assertEqual(taken, [9, 5, 5, 2])
        self.assertEqual((beside.running, beside.waiting), (0, []))


class Libraries(unittest.TestCase):
    def setUp(self) -> None:
        self.top = self.enterContext(tempfile.TemporaryDirectory())
        self.low = types.SimpleNamespace(name="pglsn", folder=f"{self.top}/crates/pglsn")
        self.began = Proofs(lambda line: None).began
        self.made = Path(self.low.folder, "out/rlib/pglsn.rlib")
        self.made.mkdir(parents=True)
        (self.made / "format").write_text("1")
        os.utime(self.made, (self.began + 1, self.began + 1))

    def test_a_check_is_over_links_that_outlast_the_run(self) -> None:
        folders = links([self.low], f"{self.top}/room", self.began)
        words = moved(
            [
                "--extern",
                f"pglsn={self.made}",
                "-L",
                f"dependency={self.made.parent}",
                "src/lib.rt",
            ],
            folders,
        )
        room = f"{self.top}/room/pglsn"
        self.assertEqual(
            words,
            ["--extern", f"pglsn={room}/pglsn.rlib", "-L", f"dependency={room}", "src/lib.rt"],
        )
        (self.made / "format").unlink()
        self.assertEqual(Path(room, "pglsn.rlib/format").read_text(), "1")

    def test_one_from_before_the_run_came_back_at_its_end(self) -> None:
        os.utime(self.made, (self.began - 1, self.began - 1))
        with self.assertRaisesRegex(SystemExit, "pglsn"):
            links([self.low], f"{self.top}/room", self.began)


if __name__ == "__main__":
    unittest.main()
