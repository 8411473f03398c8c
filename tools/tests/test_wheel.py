"""The wheel of the package that reads feeds: it has each module, and stands alone."""

import subprocess
import tempfile
import unittest
import zipfile
from pathlib import Path

from packages.wheel import make_wheel

TOP = Path(__file__).resolve().parents[2]
PACKAGE = TOP / "connect/pgsub_feed"


class Case(unittest.TestCase):
    def setUp(self) -> None:
        room = tempfile.TemporaryDirectory()
        self.addCleanup(room.cleanup)
        self.room = Path(room.name)

    def make(self, name: str) -> Path:
        folder = self.room / name
        folder.mkdir()
        return make_wheel(PACKAGE, "1.2.3+4.gabc", 1764000000, folder, folder)

    def test_all_of_it(self) -> None:
        made = self.make("made")
        self.assertEqual(made.name, "pgsub_feed-1.2.3+4.gabc-py3-none-any.whl")
        with zipfile.ZipFile(made) as file:
            names = {it for it in file.namelist() if it.startswith("pgsub_feed/")}
            file.extractall(self.room / "there")
        wanted = {
            str(it.relative_to(PACKAGE.parent))
            for it in PACKAGE.rglob("*")
            if it.suffix == ".py" or it.name == "py.typed"
        }
        self.assertEqual(names, wanted)
        code = "import pgsub_feed, pgsub_feed.command; print(pgsub_feed.version.version())"
        words = ["/usr/bin/python3", "-S", "-c", code]
        ran = subprocess.run(
            words, cwd=self.room / "there", capture_output=True, text=True, check=True
        )
        self.assertTrue(ran.stdout.endswith(" 1.2.3+4.gabc\n"), ran.stdout)

    def test_the_same_again(self) -> None:
        one, other = self.make("one"), self.make("other")
        self.assertEqual(one.read_bytes(), other.read_bytes())


if __name__ == "__main__":
    unittest.main()
