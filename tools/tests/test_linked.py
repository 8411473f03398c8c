"""What the program is linked of, its licences, and how they are told."""

import tempfile
import unittest
from pathlib import Path

from built import TOP
from packages.linked import (
    Crate,
    Unlicensed,
    copyright_text,
    kit_folder,
    licence_of,
    linked,
    names_linked,
)

MIT = (TOP / "LICENSE-MIT").read_text()
APACHE = (TOP / "LICENSE-APACHE").read_text()
CRATES = "low: bytes\npgsub: low clap\nother: hex\n"


class Case(unittest.TestCase):
    def setUp(self) -> None:
        room = tempfile.TemporaryDirectory()
        self.addCleanup(room.cleanup)
        self.room = Path(room.name)

    def crate(self, **files: str) -> Crate:
        for name, text in files.items():
            (self.room / name.replace("_", "-").replace("-md", ".md")).write_text(text)
        return Crate("one", self.room)

    def test_names(self) -> None:
        """What the repository's crates name below the program, and what the kit's name in turn."""
        for name, used in (
            ("core", ""),
            ("std", "core"),
            ("bytes", "std inner"),
            ("inner", "core"),
            ("clap", "std"),
            ("hex", "std"),
        ):
            (self.room / f"{name}.rlib").mkdir()
            (self.room / f"{name}.rlib/format").write_text(
                "".join(f"dep {it}\n" for it in used.split())
            )
        self.assertEqual(names_linked(CRATES, self.room), ["bytes", "clap", "core", "inner", "std"])

    def test_licences(self) -> None:
        self.assertEqual([licence_of(it) for it in (MIT, APACHE)], ["MIT", "Apache-2.0"])
        with self.assertRaises(Unlicensed):
            licence_of("All rights reserved")

    def test_one_of_two(self) -> None:
        found = self.crate(
            LICENSE_MIT=MIT,
            LICENSE_APACHE=APACHE,
            README_md="After the Rust crate `one-two` 1.2.3.",
        )
        self.assertEqual((found.licence, found.ported), ("MIT OR Apache-2.0", ("one-two", "1.2.3")))
        self.assertEqual(found.holders, ["2026 The Raspmyrtle developers"])

    def test_both(self) -> None:
        self.assertEqual(self.crate(LICENSE=APACHE, LICENSE_PART=MIT).licence, "MIT AND Apache-2.0")

    def test_none(self) -> None:
        found = self.crate()
        self.assertEqual((found.licence, found.ported, found.holders), ("NOASSERTION", None, []))

    def test_other_terms(self) -> None:
        """Terms that differ aren't told as if they were the same."""
        crate = self.crate(LICENSE=MIT.replace("WITHOUT WARRANTY", "WITH A WARRANTY"))
        with self.assertRaises(Unlicensed):
            copyright_text([crate], MIT)

    def test_all_that_is_linked(self) -> None:
        """Each crate of the kit is told, with each of its holders."""
        kit = kit_folder()
        assert kit
        crates = linked(kit)
        text = copyright_text(crates, MIT)
        self.assertLessEqual({"std", "clap", "sqlite", "thiserror"}, {it.name for it in crates})
        for it in crates:
            self.assertIn(f"\nFiles: kit/{it.name}/*\n" if it.files else it.name, text)
            for holder in it.holders:
                self.assertIn(holder, text)
        self.assertEqual(text.count("\nLicense: MIT\n Permission is hereby granted"), 1)


if __name__ == "__main__":
    unittest.main()
