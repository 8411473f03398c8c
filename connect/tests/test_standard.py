"""Standard input, output and error that were closed by whoever has started a process."""

from __future__ import annotations

import subprocess
import sys
import unittest
from pathlib import Path

TOP = Path(__file__).parents[1]
# What it ends with is seen by which files stand in the three places.
WORDS = "import os, sys; from pgsub_feed.standard import open_closed; open_closed(); print('x', file=sys.stderr)"
WORDS += "; sys.exit(sum(os.fstat(it).st_rdev == os.stat(os.devnull).st_rdev for it in range(3)))"


class Closed(unittest.TestCase):
    def end(self, closed: str, *words: str) -> int:
        """The status with which a command ends that has these closed."""
        line = ["sh", "-c", f'exec "$@" {closed}', "sh", *words]
        done = subprocess.run(line, cwd=TOP, stdin=subprocess.PIPE, capture_output=True)
        return done.returncode

    def test_each_is_the_null_device(self) -> None:
        for closed, count in (("", 0), ("2>&-", 1), ("<&- 2>&-", 2), ("<&- >&- 2>&-", 3)):
            self.assertEqual(self.end(closed, sys.executable, "-c", WORDS), count)

    def test_commands_end_as_else(self) -> None:
        """An error that nobody can be told has its own status."""
        for closed in ("2>&-", "<&- >&- 2>&-"):
            words = ["pgsub-connect", "names", "--store", "/nonexistent/copy.db"]
            self.assertEqual(self.end(closed, sys.executable, *words), 3)
            words = ["pgsub-feed", "--feed", "/nonexistent/feed"]
            self.assertEqual(self.end(closed, sys.executable, *words), 3)


if __name__ == "__main__":
    unittest.main()
