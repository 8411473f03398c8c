"""How tools/gate moves the mutants out of the way of the proofs, and back. What proves them is a
script in its place."""

import os
import shutil
import subprocess
import tempfile
import unittest
from pathlib import Path

TOP = Path(__file__).resolve().parents[2]
# It notes where the mutants are.
MUTANTS = """#!/bin/sh
find crates -type f | sort > seen
echo "3 passed, 0 failed"
"""


class Moves(unittest.TestCase):
    def setUp(self) -> None:
        room = tempfile.TemporaryDirectory()
        self.addCleanup(room.cleanup)
        self.top = Path(room.name)
        (self.top / "tools").mkdir()
        shutil.copy(TOP / "tools/gate", self.top / "tools")
        (self.top / "tools/mutants").write_text(MUTANTS)
        (self.top / "tools/mutants").chmod(0o755)
        self.write("pgone/mutants/slow.edit")
        self.write("pgone/must-fail/first.edit")

    def write(self, path: str, text: str = "text") -> None:
        file = self.top / "crates" / path
        file.parent.mkdir(parents=True, exist_ok=True)
        file.write_text(text)

    def files(self) -> list[str]:
        return sorted(
            str(it.relative_to(self.top / "crates"))
            for it in (self.top / "crates").rglob("*")
            if it.is_file()
        )

    def prove(self) -> tuple[int, str, list[str]]:
        """Runs the proofs; the exit status, the last line, and where the mutants were while they
        ran, if they did."""
        seen = self.top / "seen"
        seen.unlink(missing_ok=True)
        environment = {**os.environ, "RT_JOBS": "1"}
        ran = subprocess.run(
            [self.top / "tools/gate", "--proofs"], capture_output=True, text=True, env=environment
        )
        found = seen.read_text().split() if seen.exists() else []
        return (
            ran.returncode,
            ran.stdout.splitlines()[-1],
            [it.removeprefix("crates/") for it in found],
        )

    def test_they_stand_elsewhere_while_it_proves(self) -> None:
        before = self.files()
        self.assertEqual(
            self.prove(),
            (
                0,
                "3 passed, 0 failed",
                ["pgone/mutants/must-fail/first.edit", "pgone/mutants/slow.edit"],
            ),
        )
        self.assertEqual(self.files(), before)

    def test_what_failed_is_told_once_more_at_the_end(self) -> None:
        several = "".join(f"echo row {it} is right\n" for it in range(500))
        (self.top / "tools/mutants").write_text(
            f"#!/bin/sh\necho commands FAILED\n{several}echo 3 passed, 1 failed\nexit 1\n"
        )
        environment = {**os.environ, "RT_JOBS": "2"}
        ran = subprocess.run(
            [self.top / "tools/gate", "--proofs"], capture_output=True, text=True, env=environment
        )
        self.assertEqual(
            ran.stdout.splitlines()[-3:],
            [
                "gate: tools/mutants --gate --prove --jobs 2 failed: 3 passed, 1 failed",
                "commands FAILED",
                "3 passed, 1 failed",
            ],
        )

    def test_what_a_killed_gate_left_joins_what_is_there(self) -> None:
        self.write("pgone/mutants/must-fail/first.edit")
        self.write("pgone/mutants/must-fail/second.edit")
        seen = [
            f"pgone/mutants/{it}"
            for it in ("must-fail/first.edit", "must-fail/second.edit", "slow.edit")
        ]
        self.assertEqual(self.prove(), (0, "3 passed, 0 failed", seen))
        self.assertEqual(
            self.files(),
            [
                "pgone/must-fail/first.edit",
                "pgone/must-fail/second.edit",
                "pgone/mutants/slow.edit",
            ],
        )

    def test_nothing_is_proved_where_two_files_of_a_name_differ(self) -> None:
        self.write("pgone/mutants/must-fail/first.edit", "other text")
        self.write("pgtwo/must-fail/third.edit")
        self.write("pgtwo/mutants/slow.edit")
        before = self.files()
        self.assertEqual(self.prove(), (1, "0 passed, 1 failed", []))
        self.assertEqual(self.files(), before)
        self.assertEqual((self.top / "crates/pgone/must-fail/first.edit").read_text(), "text")
        self.assertEqual(
            (self.top / "crates/pgone/mutants/must-fail/first.edit").read_text(), "other text"
        )

    def test_a_folder_that_cannot_be_moved_counts(self) -> None:
        self.write("pgtwo/must-fail/third.edit")
        self.write("pgtwo/mutants/must-fail", "a file of this name")
        self.assertEqual(self.prove(), (1, "0 passed, 1 failed", []))
