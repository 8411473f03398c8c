"""What a package says of itself."""

import gzip
import re
import shutil
import subprocess
import tempfile
import unittest
from pathlib import Path
from unittest import mock

import packages
from built import TOP
from packages import (
    SCRIPTS,
    SOURCES,
    Build,
    Failed,
    kit_of,
    least_libc,
    lines_of,
    run,
    write_documents,
)
from packages.trial import check_same

KIT = [it for it in (TOP / "KITS").read_text().splitlines() if not it.startswith("#")][0]


class Case(unittest.TestCase):
    def setUp(self) -> None:
        room = tempfile.TemporaryDirectory()
        self.addCleanup(room.cleanup)
        self.room = Path(room.name)
        self.program = self.room / "pgsub"

    def test_the_oldest_libc(self) -> None:
        for content, version in (
            (b"", "2.17"),
            (b"\0GLIBC_2.2.5\0GLIBC_2.34\0GLIBC_2.4\0", "2.34"),
        ):
            self.program.write_bytes(content)
            self.assertEqual(least_libc(self.program), version)

    def test_versions_rise(self) -> None:
        self.program.write_bytes(b"")
        with mock.patch.object(packages, "kit_of", return_value=KIT):
            build = Build.of_checkout(self.program)
        self.assertEqual(build.kit, KIT)
        self.assertRegex(build.version, r"^0\.1\.0\+\d{14}\.g[0-9a-f]+$")
        pairs = (
            (build.version, build.later().version),
            ("0.1.0+20261125000000.gfff", "0.1.0+20261126000000.g000"),
        )
        for first, second in pairs:
            subprocess.run(["dpkg", "--compare-versions", first, "lt", second], check=True)

    def test_the_version_of_the_program_is_that_of_the_connector(self) -> None:
        connector, program = (TOP / "connect/pgsub_feed/version.py").read_text(), (
            TOP / "crates/pgcommand/src/commands.rt"
        ).read_text()
        version = re.findall(r'^VERSION = "(.+)"$', connector, re.M)
        self.assertEqual(len(version), 1)
        self.assertEqual(re.findall(r'VERSION: &str = "(.+)";', program), version)

    def kit_said(self, said: str) -> str:
        """The kit of a program that says this."""
        shutil.copy("/bin/true", self.program)
        told = {
            str(self.program): said,
            "git": run("git", "-C", TOP, "log", "-1", "--format=%H", "--", *SOURCES),
        }
        with mock.patch.object(packages, "run", lambda *words: told[str(words[0])]):
            return kit_of(self.program)

    def test_a_program_says_what_it_was_built_of(self) -> None:
        commit = run("git", "-C", TOP, "log", "-1", "--format=%H", "--", *SOURCES)
        self.assertEqual(self.kit_said(f"pgsub 0.1.0\ncommit {commit}, {KIT}"), KIT)
        for said, why in (
            ("pgsub 0.1.0", "is of the commit unknown"),
            (f"commit unknown, {KIT}", "is of the commit unknown"),
            (f"commit {'0' * 40}, {KIT}", "of the commit 0{40}, and the sources of"),
            (f"commit {commit}, another kit", "KITS doesn't name"),
        ):
            with self.subTest(said), self.assertRaisesRegex(Failed, why):
                self.kit_said(said)

    def test_a_script_is_no_program(self) -> None:
        self.program.write_text("#!/bin/sh\n")
        self.program.chmod(0o755)
        with self.assertRaisesRegex(Failed, "is no program"):
            kit_of(self.program)

    def test_what_debian_asks_for(self) -> None:
        self.program.write_bytes(b"\0GLIBC_2.34\0")
        build = Build(self.program, "1.2", 0, KIT)
        self.assertEqual(
            build.needs, {"python3": "3.10", "python3-psycopg": "3.1", "libc6": "2.34"}
        )
        write_documents(build, self.room)
        changes = gzip.decompress((self.room / "changelog.gz").read_bytes()).decode()
        self.assertTrue(changes.startswith("pgsub (1.2) unstable;"))
        self.assertIn("Thu, 01 Jan 1970 00:00:00 +0000", changes)
        self.assertIn("Linked into /usr/lib/pgsub/pgsub", (self.room / "copyright").read_text())

    def test_what_sinks_need_is_suggested(self) -> None:
        """Each library that is imported once it is needed is of a package that is named."""
        told = " ".join(re.findall(r"Suggests: (.*)", packages.CONTROL))
        texts = (it.read_text() for it in (TOP / "connect/pgsub_feed").rglob("*.py"))
        found = {it for text in texts for it in re.findall(r'import_module\("(\w+)', text)}
        self.assertEqual(found, {"redis", "confluent_kafka"})
        for it in found:
            self.assertIn(f"python3-{it.replace('_', '-')}", told.split(", "))

    def test_packages_made_in_the_checkout_are_no_change_of_it(self) -> None:
        for name, status in (
            ("pgsub_0.1.0+1.gabc_amd64.deb", 0),
            ("pgsub-0.1.0+1.gabc-x86_64.tar.gz", 0),
            ("SHA256SUMS", 0),
            ("pgsub", 1),
        ):
            with self.subTest(name):
                self.assertEqual(
                    subprocess.run(["git", "-C", TOP, "check-ignore", "-q", name]).returncode,
                    status,
                )

    def test_scripts_are_of_the_shell(self) -> None:
        for script in SCRIPTS.iterdir():
            subprocess.run(["sh", "-n", script], check=True)

    def test_sums(self) -> None:
        for name in ("a", "b"):
            folder = self.room / name
            folder.mkdir()
            (folder / "file").write_text("x")
            (folder / "SHA256SUMS").write_text(lines_of([folder / "file"]))
        check_same(self.room / "a", self.room / "b")
        (self.room / "a/file").write_text("y")
        with self.assertRaisesRegex(Failed, "hasn't the sum"):
            check_same(self.room / "a", self.room / "b")
        (self.room / "a/SHA256SUMS").write_text("")
        with self.assertRaisesRegex(Failed, "differ"):
            check_same(self.room / "a", self.room / "b")

    def test_a_command_that_fails(self) -> None:
        with self.assertRaisesRegex(Failed, "false: status 1"):
            run("false")


if __name__ == "__main__":
    unittest.main()
