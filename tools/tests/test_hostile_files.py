"""What another account puts in root's way has no effect."""

from __future__ import annotations

import os
import subprocess
import unittest
from pathlib import Path

SCRIPT = Path(__file__).resolve().parents[1] / "hostile/files.py"


class Files(unittest.TestCase):
    def test_it_has_no_effect(self) -> None:
        done = subprocess.run(
            [SCRIPT, "--tries", "2"],
            stdin=subprocess.DEVNULL,
            capture_output=True,
            text=True,
            timeout=100,
        )
        passed = 4 if os.geteuid() == 0 else 0
        self.assertEqual(
            (done.returncode, done.stdout.splitlines()[-1:]),
            (0, [f"{passed} passed, 0 failed"]),
            done,
        )
