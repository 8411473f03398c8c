"""What a release has beside the packages, and how it is signed and checked."""

import json
import os
import re
import subprocess
import tarfile
import tempfile
import unittest
from pathlib import Path
from unittest import mock

from built import TOP
from packages import Failed, lines_of, releasing, version_of_sources
from packages.linked import Crate
from packages.releasing import STEPS, check_checkout, make_source, make_statement
from packages.sbom import Release, document


class Case(unittest.TestCase):
    def setUp(self) -> None:
        room = tempfile.TemporaryDirectory()
        self.addCleanup(room.cleanup)
        self.room = Path(room.name)

    def sbom(self, time: int = 0) -> str:
        (self.room / "LICENSE").write_text((TOP / "LICENSE-MIT").read_text())
        (self.room / "README.md").write_text("Of the Rust crate `one` 1.2.3.")
        release = Release(
            "0.1", "c" * 40, "a-kit", time, {"pgsub_0.1_amd64.deb": "5" * 64}, {"libc6": ">= 2.34"}
        )
        return document(release, [Crate("one_two", self.room), Crate("none", self.room / "none")])

    def test_what_it_is_made_of(self) -> None:
        found = json.loads(self.sbom(1_000_000_000))
        self.assertEqual(
            (found["spdxVersion"], found["creationInfo"]["created"]),
            ("SPDX-2.3", "2001-09-09T01:46:40Z"),
        )
        named = {it["name"]: it for it in found["packages"]}
        self.assertEqual(set(named), {"pgsub", "rattle", "one_two", "none", "libc6"})
        self.assertEqual(
            (named["one_two"]["licenseDeclared"], named["none"]["licenseDeclared"]),
            ("MIT", "NOASSERTION"),
        )
        self.assertEqual(named["one_two"]["comment"], "A port of the Rust crate one 1.2.3.")
        self.assertIn("Raspmyrtle developers", named["one_two"]["copyrightText"])
        self.assertEqual(named["libc6"]["versionInfo"], ">= 2.34")
        self.assertEqual(
            found["files"][0]["checksums"], [{"algorithm": "SHA256", "checksumValue": "5" * 64}]
        )

    def test_its_names(self) -> None:
        """Each part has a name of its own, of SPDX's form, and is related to the whole."""
        found = json.loads(self.sbom())
        names = [it["SPDXID"] for it in (*found["packages"], *found["files"])]
        self.assertEqual(len(names), len(set(names)))
        for it in names:
            self.assertRegex(it, r"^SPDXRef-[A-Za-z0-9.-]+$")
        related = {
            (it["relationshipType"], it["relatedSpdxElement"]) for it in found["relationships"]
        }
        root = "SPDXRef-release-pgsub"
        self.assertEqual(
            related,
            {
                ("DESCRIBES", root),
                ("BUILD_TOOL_OF", root),
                ("STATIC_LINK", "SPDXRef-kit-one-two"),
                ("STATIC_LINK", "SPDXRef-kit-none"),
                ("DEPENDS_ON", "SPDXRef-debian-libc6"),
                ("CONTAINS", "SPDXRef-file-pgsub-0.1-amd64.deb"),
            },
        )

    def test_the_same_again(self) -> None:
        self.assertEqual(self.sbom(), self.sbom())

    def test_the_source(self) -> None:
        first = make_source("0.1", self.room)
        before = first.read_bytes()
        with tarfile.open(first) as tar:
            self.assertLessEqual({"pgsub-0.1/README.md", "pgsub-0.1/pgsub"}, set(tar.getnames()))
        self.assertEqual(make_source("0.1", self.room).read_bytes(), before)

    def test_the_statement(self) -> None:
        self.assertIn("<html", make_statement("0.1", self.room).read_text()[:200])

    def test_what_is_no_release(self) -> None:
        version = version_of_sources()
        with mock.patch.object(
            releasing, "run", return_value=" M README.md"
        ), self.assertRaisesRegex(Failed, "has changes"):
            check_checkout(version)
        with mock.patch.object(releasing, "run", return_value=""):
            with self.assertRaisesRegex(
                Failed, f"has the version {re.escape(version)}, and not 9.9"
            ):
                check_checkout("9.9")
            for heading, is_right in (
                (f"{version} (2026-12-01)", True),
                (f"{version} (unreleased)", False),
                ("9.9 (2026-12-01)", False),
            ):
                with self.subTest(heading), mock.patch.object(releasing, "TOP", self.room):
                    (self.room / "CHANGELOG.md").write_text(f"# Changelog\n\n## {heading}\n")
                    (self.room / "crates/pgcommand/src").mkdir(parents=True, exist_ok=True)
                    (self.room / "crates/pgcommand/src/commands.rt").write_text(
                        f'pub const VERSION: &str = "{version}";\n'
                    )
                    if is_right:
                        check_checkout(version)
                    else:
                        with self.assertRaisesRegex(Failed, "no heading"):
                            check_checkout(version)

    def test_signing_and_checking(self) -> None:
        """The printed commands sign the sums and check them. A changed file doesn't pass."""
        (self.room / "one").write_text("x")
        (self.room / "SHA256SUMS").write_text(lines_of([self.room / "one"]))
        keys = self.room / "keys"
        keys.mkdir(mode=0o700)
        environment = {**os.environ, "GNUPGHOME": str(keys)}
        key = [
            "gpg",
            "--batch",
            "--quiet",
            "--passphrase",
            "",
            "--quick-generate-key",
            "someone <a@b.c>",
            "ed25519",
            "sign",
        ]
        subprocess.run(key, env=environment, check=True, capture_output=True)
        self.addCleanup(
            lambda: subprocess.run(["gpgconf", "--kill", "all"], env=environment, check=False)
        )
        steps = re.findall(r"^  \$ (.*)$", STEPS.format(out=self.room, version="0.1"), re.M)
        commands = [it for it in steps if not it.startswith("git")]
        self.assertEqual(len(commands), 4)
        subprocess.run(
            ["sh", "-ec", "\n".join(commands)], env=environment, check=True, capture_output=True
        )
        for name in ("one", "SHA256SUMS"):
            (self.room / name).write_text("y")
            checks = "\n".join([commands[0], *commands[2:]])
            self.assertNotEqual(
                subprocess.run(
                    ["sh", "-ec", checks], env=environment, capture_output=True
                ).returncode,
                0,
            )


if __name__ == "__main__":
    unittest.main()
