"""How far a build is, and how long it is going to take."""

import io
import os
import unittest
from contextlib import redirect_stderr
from pathlib import Path
from tempfile import TemporaryDirectory
from unittest import mock

import building
from building import Building, below, costs_of, lines_read, minutes
from built import TOP

CRATES = """\
# wire
low: std
mid: low core
other: low
pgsub backend=rattle: mid
"""
COSTS = "".join(
    f"| `{name}` | {cost} | 0 |\n"
    for name, cost in (("low", 100), ("mid", 300), ("pgsub", 600), ("other", 9))
)


class Case(unittest.TestCase):
    def test_what_a_program_stands_on(self) -> None:
        self.assertEqual(
            below(CRATES), {"low": {"low"}, "mid": {"mid", "low"}, "pgsub": {"pgsub", "mid", "low"}}
        )

    def test_this_repository(self) -> None:
        text = (TOP / "crates.txt").read_text()
        found = below(text)
        self.assertIn("pgstore", found)
        self.assertNotIn("tests_parts", found)
        costs = costs_of((TOP / "bench/results/gate.md").read_text(), found)
        self.assertGreater(costs["pgstore"], costs["pglsn"])

    def test_a_crate_that_was_not_measured(self) -> None:
        self.assertEqual(costs_of(COSTS, ["low", "new"]), {"low": 100.0, "new": 300.0})
        self.assertEqual(costs_of("", ["low"]), {"low": 1.0})

    def test_time_left(self) -> None:
        """What is left costs what was done did, crate by crate."""
        build = Building(CRATES, COSTS, 1000.0)
        self.assertEqual(build.note("fn low::f: proved", 1010.0), "")
        self.assertEqual(
            build.waiting(1060.0),
            "1 functions of low are proved, 0 of 3 crates, time left isn't known yet",
        )
        self.assertEqual(
            build.note("crate low: modules loaded=0 checked=80", 1100.0),
            "low is proved, 1 of 3 crates, about 15 min left",
        )
        self.assertEqual(build.waiting(1160.0), "proving, 1 of 3 crates, about 24 min left")
        self.assertEqual(build.note("crate std: modules loaded=0", 1200.0), "")
        self.assertEqual(
            build.note("crate mid: modules", 1400.0),
            "mid is proved, 2 of 3 crates, about 10 min left",
        )
        self.assertEqual(
            build.note("crate pgsub: modules", 2000.0),
            "pgsub is proved, 3 of 3 crates, compiling it takes some minutes more",
        )
        self.assertEqual(
            build.waiting(2060.0), "all is proved, compiling it takes some minutes more"
        )

    def test_what_was_kept_is_done(self) -> None:
        """rt says nothing of crates that it has. They are done once one above them is."""
        build = Building(CRATES, COSTS, 0.0)
        self.assertEqual(
            build.note("crate mid: modules", 300.0),
            "mid is proved, 2 of 3 crates, about 10 min left",
        )

    def test_what_a_crate_stands_on_is_there_before_it(self) -> None:
        build = Building(CRATES, COSTS, 0.0)
        self.assertEqual(build.note("rt: chose --jobs 1 for pgsub", 1.0), "")
        for line, told in (("", "0"), ("so far: 7 of 53 functions checked; the", "7 of 53")):
            build.note(line, 2.0)
            self.assertEqual(
                build.waiting(61.0),
                f"{told} functions of pgsub are proved, 2 of 3 crates,"
                " about 10 min of a processor left, as it was measured",
            )

    def test_minutes(self) -> None:
        self.assertEqual(
            [minutes(it) for it in (59, 60, 3599)],
            ["less than a minute", "about 1 min", "about 60 min"],
        )

    def test_reading(self) -> None:
        inside, outside = os.pipe()
        os.write(outside, b"crate lo")
        log = io.BytesIO()
        found = lines_read(inside, log)
        with mock.patch.object(building, "SILENCE", 0.01):
            self.assertEqual((next(found), next(found)), ([], []))
        os.write(outside, b"w: a\nb\nc")
        os.close(outside)
        self.assertEqual(list(found), [["crate low: a", "b"]])
        self.assertEqual(log.getvalue(), b"crate low: a\nb\nc")
        os.close(inside)

    def test_all_of_it(self) -> None:
        with TemporaryDirectory() as room:
            top, (inside, outside) = Path(room), os.pipe()
            (top / "crates.txt").write_text(CRATES)
            os.write(outside, b"crate low: a\n")
            os.close(outside)
            said = io.StringIO()
            with redirect_stderr(said), mock.patch.object(
                building, "lines_read", lambda _, log: lines_read(inside, log)
            ):
                building.main(top, top / "log")
            os.close(inside)
            self.assertEqual((top / "log").read_text(), "crate low: a\n")
        self.assertIn("pgsub: low is proved, 1 of 3 crates", said.getvalue())


if __name__ == "__main__":
    unittest.main()
