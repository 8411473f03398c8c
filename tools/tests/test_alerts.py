"""The rules of Prometheus that the package has, by Debian's promtool."""

import re
import shutil
import subprocess
import tempfile
import unittest
from pathlib import Path

from built import TOP

RULES = TOP / "connect/alerts.yml"
TRIED = Path(__file__).resolve().parent / "alerts.yml"
METRIC = re.compile(r"\bpgsub_\w+")
# each makes another rule of one
CHANGES = (
    ("> 300", "> 301"),
    ("connecting|waiting to connect again", "connecting"),
    ("unreserved|lost", "unreserved"),
    ("3600) < 0", "7200) < 0"),
    ('pgsub_found{kind!="unwatched"} == 1', 'pgsub_found{kind!="unwatched"} == 0'),
    ('pgsub_found{kind!="unwatched"}', "pgsub_found"),
    ('pgsub_found{kind="unwatched"}', 'pgsub_found{kind="rule"}'),
    ("[15m]) > 2", "[15m]) > 0"),
    ("> 100e6", "> 99e6"),
    ("for: 15m", "for: 10m"),
    ("tables_failed == 1", "tables_failed == 0"),
    ("spool_failed == 1", "spool_failed == 0"),
    ("tables_aside > 0", "tables_aside > 2"),
    ("sink_failed == 1", "sink_failed == 0"),
    ("> 60", "> 700"),
)


def promtool(*words: str | Path) -> subprocess.CompletedProcess[str]:
    return subprocess.run(["promtool", *words], capture_output=True, text=True)


class Case(unittest.TestCase):
    def test_rules(self) -> None:
        checked = promtool("check", "rules", RULES)
        self.assertEqual(checked.returncode, 0, checked.stderr)
        self.assertIn("11 rules found", checked.stdout)
        tried = promtool("test", "rules", TRIED)
        self.assertEqual(tried.returncode, 0, tried.stdout + tried.stderr)

    def test_other_rules_fail(self) -> None:
        """What tries the rules tells them from others."""
        text = RULES.read_text()
        for old, new in CHANGES:
            with self.subTest(new), tempfile.TemporaryDirectory() as room:
                folder = Path(room, "tools/tests")
                folder.mkdir(parents=True)
                shutil.copy(TRIED, folder)
                self.assertEqual(text.count(old), 1, old)
                Path(room, "connect").mkdir()
                Path(room, "connect/alerts.yml").write_text(text.replace(old, new))
                self.assertEqual(promtool("test", "rules", folder / TRIED.name).returncode, 1)

    def test_their_metrics_are_written(self) -> None:
        sources = "".join(it.read_text() for it in (TOP / "connect/pgsub_connect").rglob("*.py"))
        named = set(METRIC.findall("\n".join(re.findall(r"expr: (.*)", RULES.read_text()))))
        self.assertEqual(len(named), 12)
        self.assertEqual({it for it in named if f'"{it}"' not in sources}, set())


if __name__ == "__main__":
    unittest.main()
