"""What is counted of the unit tests, those of the tools and those of the connector."""

import contextlib
import io
import os
import tempfile
import unittest
import unittest.mock
from pathlib import Path

from tested import results_of

SAMPLE = """
import pytest
import unittest


class Sample(unittest.TestCase):
    def test_well(self):
        pass

    def test_left_out(self):
        self.skipTest("psycopg is needed")

    def test_wrong(self):
        self.fail("wrong")

    @unittest.expectedFailure
    def test_well_against_all_hope(self):
        pass


def test_alone(tmp_path):
    assert tmp_path.is_dir()
"""


# Fails where it runs first, or is told to fail after so many runs.
SEEN = """
import os
import pathlib

import pytest


class TestSeen:
    @pytest.mark.parametrize("word", ["a", "b"])
    def test_again(self, word):
        runs = pathlib.Path(os.environ["RUNS"], word)
        count = int(runs.read_text()) if runs.exists() else 0
        runs.write_text(str(count + 1))
        assert str(count) not in os.environ["WRONG"].split(",")
"""


class Counted(unittest.TestCase):
    def results(self, words: str, text: str = SAMPLE, jobs: int = 1) -> tuple[int, list[str]]:
        with tempfile.TemporaryDirectory() as room:
            Path(room, "test_sample.py").write_text(text)
            return results_of(Path(room), ".", Path(room), jobs, ("-k", words))

    def test_one_that_passes(self) -> None:
        self.assertEqual(self.results("test_well and not hope"), (1, []))

    def test_one_without_a_class(self) -> None:
        self.assertEqual(self.results("alone"), (1, []))

    def test_one_that_is_wrong(self) -> None:
        for word, text in (
            ("left_out", "psycopg is needed"),
            ("wrong", "AssertionError: wrong"),
            ("hope", "success"),
        ):
            with self.subTest(word):
                passed, wrong = self.results(f"alone or {word}")
                self.assertEqual((passed, len(wrong)), (1, 1))
                self.assertIn(text, wrong[0])

    def test_several_at_once(self) -> None:
        passed, wrong = self.results("not hope", jobs=2)
        self.assertEqual((passed, len(wrong)), (2, 2))

    def test_what_cannot_be_read(self) -> None:
        passed, wrong = self.results("", "import nowhere_to_be_found\n")
        self.assertEqual(passed, 0)
        self.assertIn("nowhere_to_be_found", "".join(wrong))

    def again(self, *runs: int) -> tuple[int, list[str], str]:
        """What is counted of two tests of which these runs fail, and what is told."""
        wrong, told = ",".join(map(str, runs)), io.StringIO()
        with tempfile.TemporaryDirectory() as room, unittest.mock.patch.dict(
            os.environ, RUNS=room, WRONG=wrong
        ), unittest.mock.patch("tested.AGAIN", 2), contextlib.redirect_stdout(told):
            passed, failed = self.results("again", SEEN)
        return passed, failed, told.getvalue()

    def test_one_that_fails_by_chance_is_wrong_and_told(self) -> None:
        passed, wrong, told = self.again(0)
        self.assertEqual((passed, len(wrong)), (0, 2))
        self.assertEqual(told.count("UNSTEADY test_sample.TestSeen.test_again["), 2)

    def test_one_that_fails_now_and_then_is_wrong(self) -> None:
        for run in (1, 2):
            with self.subTest(run):
                passed, wrong, told = self.again(0, run)
                self.assertEqual((passed, len(wrong), told), (0, 2, ""))
        self.assertEqual(self.again(), (2, [], ""))

    def test_many_that_fail_are_not_looked_at_again(self) -> None:
        with unittest.mock.patch("tested.FEW", 1):
            passed, wrong, told = self.again(0)
        self.assertEqual((passed, len(wrong), told), (0, 2, ""))

    def test_none(self) -> None:
        passed, wrong = self.results("nothing_is_called_so")
        self.assertEqual((passed, bool(wrong)), (0, True))


if __name__ == "__main__":
    unittest.main()
