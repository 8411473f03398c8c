"""What `bench/run` keeps of a measurement, and where."""

import os
import shutil
import subprocess
import tempfile
import unittest
from pathlib import Path

from built import TOP

MEASURE = "#!/bin/sh\n#   --program PATH  the program\necho '| Rows |'\n"
GIT = {f"GIT_{who}_{what}": "a@b" for who in ("AUTHOR", "COMMITTER") for what in ("NAME", "EMAIL")}


class Running(unittest.TestCase):
    def setUp(self) -> None:
        room = tempfile.TemporaryDirectory()
        self.addCleanup(room.cleanup)
        self.top, self.other = Path(room.name, "checkout"), Path(room.name, "other")
        self.make(self.top)
        (self.top / "bench/growth").mkdir(parents=True)
        shutil.copy(TOP / "bench/run", self.top / "bench/run")
        self.put(self.top / "bench/growth/run.sh", MEASURE)
        self.commit(self.top)

    def make(self, top: Path) -> None:
        """Makes a checkout with a program that is newer than its sources."""
        self.put(top / "crates/low/lib.rt", "")
        self.put(top / "crates.txt", "low:\n")
        shutil.copy(TOP / "pgsub", top / "pgsub")
        self.put(top / ".gitignore", "out\n")
        self.put(top / "crates/pgsub/out/pgsub", "#!/bin/sh\n")
        self.commit(top)

    def put(self, file: Path, text: str) -> None:
        file.parent.mkdir(parents=True, exist_ok=True)
        file.write_text(text)
        file.chmod(0o755)

    def git(self, top: Path, *words: str) -> str:
        ran = subprocess.run(
            ["git", "-C", top, *words],
            capture_output=True,
            text=True,
            check=True,
            env={**os.environ, **GIT},
        )
        return ran.stdout.strip()

    def commit(self, top: Path) -> None:
        if not (top / ".git").exists():
            self.git(top, "init", "-q")
        self.git(top, "add", "-A")
        self.git(top, "commit", "-q", "-m", f"what is in {top.name}")

    def head(self, top: Path) -> str:
        return self.git(top, "rev-parse", "--short", "HEAD")

    def kept(self, *words: str) -> dict[str, str]:
        """Measures, and returns which files are kept then."""
        results = self.top / "bench/results"
        shutil.rmtree(results, ignore_errors=True)
        command = [str(self.top / "bench/run"), "growth", *words]
        subprocess.run(
            command,
            stdout=subprocess.DEVNULL,
            stderr=subprocess.DEVNULL,
            check=True,
            env={**os.environ, "RT": "echo"},
        )
        return {it.name: it.read_text() for it in results.iterdir()}

    def commit_line(self, *words: str) -> str:
        (text,) = self.kept(*words).values()
        return text.splitlines()[2]

    def test_a_part_has_a_file_of_its_own(self) -> None:
        cases: list[tuple[list[str], str]] = [
            ([], "growth.md"),
            (["--turns", "5"], "growth.md"),
            (["--folder", "/srv/disk", "--port=54"], "growth.md"),
            (["--only", "1 a transaction"], "growth-only-1-a-transaction.md"),
            (["--quick", "--turns", "5"], "growth-quick.md"),
            (["/srv/session.raw"], "growth-session-raw.md"),
        ]
        for words, name in cases:
            self.assertEqual([*self.kept(*words)], [name])

    def test_the_command_is_told_without_paths_of_the_machine(self) -> None:
        for words, told in (
            (["--program", "/bin/true", "--turns", "5"], " --turns 5"),
            (["--program=/bin/true", "--folder=/srv"], ""),
            (["/srv/session.raw", "--folder", "/srv"], " session.raw"),
            (["--only", "1 a transaction"], " --only '1 a transaction'"),
        ):
            (text,) = self.kept(*words).values()
            self.assertEqual(text.splitlines()[0], f"# `bench/run growth{told}`")
            self.assertNotIn("/srv", text)
            self.assertNotIn(str(self.top), text)

    def test_the_commit_is_that_of_the_program(self) -> None:
        self.make(self.other)
        own, other = self.head(self.top), self.head(self.other)
        self.assertIn(f"commit {own}, ", self.commit_line())
        self.assertNotIn(
            "program", self.commit_line("--program", str(self.top / "crates/pgsub/out/pgsub"))
        )
        self.assertIn(
            f"commit {own}, program built of {other}, ",
            self.commit_line("--program", str(self.other / "crates/pgsub/out/pgsub")),
        )
        self.assertIn(
            f"commit {own}, program of another build, ", self.commit_line("--program", "/bin/true")
        )
        self.put(self.top / "crates/low/lib.rt", "fn f() {}\n")
        os.utime(self.top / "crates/low/lib.rt", (1 << 32, 1 << 32))
        self.assertIn(f"commit {own} with changes, program of another build, ", self.commit_line())

    def test_where_there_is_no_program(self) -> None:
        self.put(self.top / "bench/growth/run.sh", "#!/bin/sh\necho 5\n")
        self.commit(self.top)
        (self.top / "crates/pgsub/out/pgsub").unlink()
        self.assertNotIn("program", self.commit_line())


if __name__ == "__main__":
    unittest.main()
