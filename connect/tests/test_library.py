"""How psycopg is imported: late, its parts alone, and all of it for whoever wants that."""

from __future__ import annotations

import subprocess
import sys
import tempfile
import unittest
from pathlib import Path

CONNECT = Path(__file__).resolve().parents[1]
LIBRARY = "from pgsub_connect.server import library\n"


class Library(unittest.TestCase):
    def run_code(self, code: str, *paths: str) -> str:
        """What is printed by code, with modules of these folders before others."""
        head = f"import sys; sys.path[:0] = {[*paths, str(CONNECT)]!r}; "
        words = [sys.executable, "-c", head + LIBRARY + code]
        return subprocess.run(words, capture_output=True, text=True, check=True).stdout

    def test_its_parts_are_imported_alone(self) -> None:
        """Once something of them is used, and nothing of what psycopg itself imports."""
        looks = "print('psycopg.pq' in sys.modules, 'psycopg.cursor' in sys.modules); "
        code = f"{looks} library.pq.version(); library.conninfo.make_conninfo; {looks}"
        self.assertEqual(self.run_code(code), "False False\nTrue False\n")

    def test_whoever_imports_it_later_has_all_of_it(self) -> None:
        """With the same errors."""
        code = (
            "error = library.errors.OperationalError; import psycopg; "
            "print(psycopg.OperationalError is error, psycopg.pq.PGconn is library.pq.PGconn, "
            "callable(psycopg.connect))"
        )
        self.assertEqual(self.run_code(code), "True True True\n")
        code = "import psycopg; print(library.pq.PGconn is psycopg.pq.PGconn)"
        self.assertEqual(self.run_code(code), "True\n")

    def test_a_version_that_needs_more_of_it(self) -> None:
        """It is imported as any package is."""
        with tempfile.TemporaryDirectory() as folder:
            (package := Path(folder, "psycopg")).mkdir()
            (package / "__init__.py").write_text("needed = 7\n", encoding="ascii")
            (package / "pq.py").write_text("from . import needed\n", encoding="ascii")
            self.assertEqual(self.run_code("print(library.pq.needed)", folder), "7\n")

    def test_it_isnt_there(self) -> None:
        code = (
            "library.find_spec = lambda _: None\n"
            "try:\n library.pq.version\nexcept ModuleNotFoundError as error: print(error.name)"
        )
        self.assertEqual(self.run_code(code), "psycopg\n")


if __name__ == "__main__":
    unittest.main()
