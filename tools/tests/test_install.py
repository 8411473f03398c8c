"""What ./install puts where. The program is a script in its place, so nothing is built."""

import fcntl
import os
import shutil
import subprocess
import tempfile
import unittest
from pathlib import Path

from documents import checks

TOP = Path(__file__).resolve().parents[2]
PROGRAM = """#!/bin/sh
[ "$1" = --version ] && { echo "pgsub 0.1.0"; echo "commit $(printf %040d 5), the kit"; exit; }
[ "$1" = --help ] && { printf 'Copies\\n\\nCommands:\\n  dump  Print it\\n\\nOptions:\\n  -h, --help  Print help\\n'; exit; }
printf 'Print it\\n\\nOptions:\\n      --store <FILE>  The store\\n  -h, --help  Print help\\n'
"""


class Case(unittest.TestCase):
    room: Path
    root: Path

    @classmethod
    def setUpClass(cls) -> None:
        room = tempfile.TemporaryDirectory()
        cls.addClassCleanup(room.cleanup)
        cls.room = Path(room.name)
        (cls.room / "program").write_text(PROGRAM)
        (cls.room / "program").chmod(0o755)
        cls.root = cls.room / "root/opt/here"
        cls.install()

    @classmethod
    def install(cls, *more: str | Path) -> None:
        words = [
            "/opt/here",
            "--destdir",
            str(cls.room / "root"),
            "--program",
            str(cls.room / "program"),
            "--version",
            "1.2+3",
            *map(str, more),
        ]
        subprocess.run(
            [str(TOP / "install"), *words], check=True, capture_output=True, cwd=cls.room
        )

    @classmethod
    def make_pages(cls) -> Path:
        """A folder with what tools/manuals makes, but for what is in it."""
        pages = cls.room / "pages"
        for name in (
            "pgsub.1",
            "pgsub-dump.1",
            "pgsub-connect-follow.1",
            "pgsub-feed.1",
            "bash/pgsub",
            "zsh/_pgsub",
        ):
            (pages / name).parent.mkdir(parents=True, exist_ok=True)
            (pages / name).write_text("page")
        return pages

    def run_it(self, *words: str) -> subprocess.CompletedProcess[str]:
        # (it keeps nothing compiled beside what is installed)
        environment = {**os.environ, "PYTHONDONTWRITEBYTECODE": "1"}
        return subprocess.run(
            [self.root / "bin/pgsub-connect", *words],
            capture_output=True,
            text=True,
            cwd=self.room,
            env=environment,
        )

    def files(self) -> set[str]:
        return {str(it.relative_to(self.root)) for it in self.root.rglob("*") if not it.is_dir()}

    def test_all_of_it(self) -> None:
        found = self.files()
        pages = {it for it in found if it.startswith("share/man/man1/")}
        self.assertLessEqual(
            {
                f"share/man/man1/{it}.1.gz"
                for it in ("pgsub", "pgsub-dump", "pgsub-connect-follow", "pgsub-feed")
            },
            pages,
        )
        found -= pages
        packages = [TOP / "connect" / name for name in ("pgsub_connect", "pgsub_feed")]
        copied = {
            f"lib/pgsub/{it.relative_to(TOP / 'connect')}"
            for package in packages
            for it in package.rglob("*")
            if it.name == "py.typed" or it.suffix == ".py"
        }
        copied |= {
            f"share/doc/pgsub/{it.relative_to(TOP)}"
            for folder in ("docs", "examples")
            for it in (TOP / folder).rglob("*")
            if it.is_file()
        }
        self.assertTrue(copied <= found)
        self.assertEqual(
            found - copied,
            {
                "bin/pgsub",
                "bin/pgsub-connect",
                "bin/pgsub-feed",
                "lib/pgsub/pgsub",
                "lib/pgsub/pgsub-run",
                "lib/pgsub/pgsub-connect",
                "lib/pgsub/BUILD",
                "lib/pgsub/pgsub-feed",
                "lib/pgsub/pgsub_feed/BUILD",
                "lib/systemd/system/pgsub@.service",
                "lib/systemd/system/pgsub-account@.service",
                "lib/systemd/system/pgsub-sink@.service",
                "share/doc/pgsub/alerts.yml",
                "share/doc/pgsub/README.md",
                "share/doc/pgsub/CHANGELOG.md",
                "share/doc/pgsub/SECURITY.md",
                "share/doc/pgsub/KITS",
                "share/doc/pgsub/first.pgx",
                "share/doc/pgsub/LICENSE",
                "share/doc/pgsub/LICENSE-MIT",
                "share/doc/pgsub/LICENSE-APACHE",
                *(
                    f"share/bash-completion/completions/{it}"
                    for it in ("pgsub", "pgsub-connect", "pgsub-feed")
                ),
                *(
                    f"share/zsh/vendor-completions/_{it}"
                    for it in ("pgsub", "pgsub-connect", "pgsub-feed")
                ),
            },
        )
        self.assertIn(
            "ExecStart=/opt/here/bin/pgsub-connect follow",
            (self.root / "lib/systemd/system/pgsub@.service").read_text(),
        )
        build = dict(
            it.split(" ", 1) for it in (self.root / "lib/pgsub/BUILD").read_text().splitlines()
        )
        self.assertEqual(set(build), {"version", "commit", "kit", "program"})
        self.assertEqual(build["version"], "1.2+3")
        self.assertEqual(build["kit"], "the kit")
        self.assertIn("1.2+3", self.run_it("--version").stdout)

    def test_the_program_by_its_name(self) -> None:
        """What it doesn't say of a store is told before it runs."""
        self.install("--pages", self.make_pages())
        store = self.room / "copy.db"
        store.touch()
        words = [str(self.root / "bin/pgsub"), "dump", "--store", str(store)]
        with store.open("r+") as file:
            fcntl.lockf(file, fcntl.LOCK_EX)
            ran = subprocess.run(words, capture_output=True, text=True, check=True)
        self.assertEqual(ran.stdout, subprocess.check_output([self.room / "program"], text=True))
        self.assertIn(f"another process has {store} open", ran.stderr)

    def test_a_program_that_says_no_kit(self) -> None:
        program = self.room / "silent"
        program.write_text(PROGRAM.replace("commit", "of"))
        program.chmod(0o755)
        words = [
            "/opt/here",
            "--destdir",
            "silent-root",
            "--program",
            str(program),
            "--version",
            "1.2+3",
            "--pages",
            str(self.make_pages()),
        ]
        subprocess.run(
            [str(TOP / "install"), *words], check=True, capture_output=True, cwd=self.room
        )
        kits = [it for it in (TOP / "KITS").read_text().splitlines() if not it.startswith("#")]
        self.assertIn(
            f"\nkit {';'.join(kits)}\n",
            (self.room / "silent-root/opt/here/lib/pgsub/BUILD").read_text(),
        )

    def test_where_python_finds_it(self) -> None:
        """The package that reads feeds; the connector has it by a link."""
        folder = self.root / "lib/python3/dist-packages"
        self.addCleanup(self.install)
        self.addCleanup(shutil.rmtree, folder.parent)
        self.install("--python", "/opt/here/lib/python3/dist-packages")
        code = "from pgsub_feed import version; print(version.__file__, version.OWN['version'])"
        words = ["/usr/bin/python3", "-S", "-c", code]
        found = subprocess.run(
            words, env={"PYTHONPATH": str(folder)}, capture_output=True, text=True, check=True
        ).stdout
        self.assertEqual(found, f"{folder}/pgsub_feed/version.py 1.2+3\n")
        self.assertEqual(
            os.readlink(self.root / "lib/pgsub/pgsub_feed"), "../python3/dist-packages/pgsub_feed"
        )
        self.assertIn("1.2+3", self.run_it("--version").stdout)

    def test_links_of_the_documents(self) -> None:
        tree = checks.Tree(self.root / "share/doc/pgsub")
        self.assertIn("docs/OPERATING.md", tree.documents())
        self.assertEqual(
            [it for file in tree.documents() for it in checks.check_links(tree, file)], []
        )

    def test_again(self) -> None:
        """Modules that are gone go, a program that runs goes on, and the connector runs no other
        build's."""
        (self.root / "lib/pgsub/pgsub_connect/old.py").write_text("")
        before = os.stat(self.root / "lib/pgsub/pgsub").st_ino
        (self.root / "share/man/man1/pgsub-old.1.gz").write_text("")
        self.install("--pages", self.make_pages())
        self.assertFalse(
            {"lib/pgsub/pgsub_connect/old.py", "share/man/man1/pgsub-old.1.gz"} & self.files()
        )
        self.assertNotEqual(os.stat(self.root / "lib/pgsub/pgsub").st_ino, before)
        (self.root / "lib/pgsub/pgsub").write_text(
            "#!/bin/sh\necho pgsub: wire 1 UnknownFrame 7 >&2; exit 1\n"
        )
        words = (
            "follow",
            "--store",
            str(self.room / "copy.db"),
            "--dsn",
            "host=/nowhere",
            "--no-copy",
        )
        told = self.run_it(*words)
        self.assertEqual(told.returncode, 1, told.stderr)
        self.assertIn("UnknownFrame", told.stderr)
        build = self.root / "lib/pgsub/BUILD"
        self.addCleanup(build.write_text, build.read_text())
        build.write_text("version 1.2+4\n")
        told = self.run_it(*words)
        self.assertEqual(told.returncode, 7, told.stderr)
        self.assertIn("install both from one package", told.stderr)

    def test_usage(self) -> None:
        for words in (("--destdir",), ("--odd", "1"), ("/a", "/b")):
            self.assertEqual(
                subprocess.run([TOP / "install", *words], capture_output=True).returncode, 2, words
            )
        self.assertEqual(
            subprocess.run([TOP / "install", "relative"], capture_output=True).returncode, 2
        )
        self.assertEqual(
            subprocess.run(
                [TOP / "install", "/opt/here", "--program", "/nowhere"], capture_output=True
            ).returncode,
            1,
        )


if __name__ == "__main__":
    unittest.main()
