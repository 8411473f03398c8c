"""What a program imports is looked up in the roots of crates, and what it is built over in
crates.txt."""

import tempfile
import unittest
from pathlib import Path

from bench_imports import exports_of, wrong_builds, wrong_imports
from built import TOP

ROOT = """
pub mod laws;
pub use store::Store;
pub use put::{
    ROWS_AT_ONCE, add_row,
};
pub fn read() {}
mod hidden;
"""


class Imports(unittest.TestCase):
    def test_names_of_a_root(self) -> None:
        self.assertEqual(exports_of(ROOT), {"laws", "Store", "ROWS_AT_ONCE", "add_row", "read"})

    def test_wrong_ones_are_told(self) -> None:
        with tempfile.TemporaryDirectory() as room:
            source = Path(room, "low/src")
            source.mkdir(parents=True)
            (source / "lib.rt").write_text(ROOT)
            program = "use low::{Store, Gone,\n    read};\nuse low::hidden;\nuse std::io;\nghost use Rattle.low.specs.A.{B};\n"
            program += "// low::told\nfn f() { low::read(low::add()) }\n"
            self.assertEqual(
                wrong_imports(Path(room), program),
                ["low has no Gone", "low has no hidden", "low has no add"],
            )


CRATES = """\
# low: bytes
low: thiserror
middle: low bytes
high staticlib: middle

# tests
tests_low: low
"""


class Builds(unittest.TestCase):
    def wrong(self, listed: str, program: str = "use high::{Store};\nuse std::io;\n") -> list[str]:
        return wrong_builds(CRATES, f"#!/bin/sh\nbuild it {listed}\n", program)

    def test_all_that_is_needed(self) -> None:
        self.assertEqual(self.wrong("low middle high"), [])
        self.assertEqual(self.wrong("low middle high sqlite", "use sqlite::Store;\n"), [])

    def test_what_is_missing(self) -> None:
        self.assertEqual(self.wrong("middle high"), ["its list lacks low, which others stand on"])
        self.assertEqual(
            self.wrong("low", "use low::A;\nuse sqlite::Store;\n"),
            ["its list lacks sqlite, which the program imports"],
        )
        self.assertEqual(len(self.wrong("high")), 2)

    def test_those_of_the_repository(self) -> None:
        programs = sorted(TOP.glob("bench/*/main.rattle"))
        self.assertTrue(programs)
        for program in programs:
            script = (program.parent / "run.sh").read_text()
            self.assertIn("\nbuild ", script)
            self.assertEqual(
                wrong_builds((TOP / "crates.txt").read_text(), script, program.read_text()),
                [],
                program,
            )


if __name__ == "__main__":
    unittest.main()
