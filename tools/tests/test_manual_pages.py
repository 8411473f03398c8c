"""Manual pages have all that --help has."""

import os
import tempfile
import unittest
from pathlib import Path

import manual_pages
from manual_pages import Help, Unreadable, helps_of, make, page_of, subcommands

CLAP = """Keeps copies

Usage: pgsub <COMMAND>

Commands:
  show    Print it
  apply   Apply it
  help    Print this message

Options:
  -h, --help     Print help
  -V, --version  Print version
"""
SHOW = """Print it

Usage: pgsub show [OPTIONS] <FILE>

Arguments:
  <FILE>  The recording

Options:
      --proto <N>
          Version, 1 or 2 [default: 2]
          .and so on
  -h, --help           Print help
"""
ARGPARSE = """usage: pgsub-connect [-h] COMMAND ...

Carries. It says \\ and 'so'.

Commands:
  every day
    follow    follow into a store
  to repair
    names     tell names

options:
  -h, --help  show this help message and exit
  --max-frame BYTES     the longest message that is accepted (default: what may be
                        buffered, at most 1 GiB)

exit status: 0 ended as asked; see
docs for --dsn.
"""


class Page(unittest.TestCase):
    def test_lists(self) -> None:
        text = page_of("pgsub", Help([], CLAP), "keeps", ["pgsub-show"], "2026-11-25", "0.1")
        self.assertIn('.TH PGSUB 1 "2026-11-25" "0.1"\n.SH NAME\npgsub \\- keeps\n', text)
        self.assertIn(".TP\n\\fBshow\\fR\nPrint it\n", text)
        text = page_of(
            "pgsub-show",
            Help(["show"], SHOW),
            "Print it",
            ["pgsub", "pgsub-feed"],
            "2026-11-25",
            "0.1",
        )
        self.assertIn(
            ".TP\n\\fB\\-\\-proto <N>\\fR\nVersion, 1 or 2 [default: 2]\n\\&.and so on\n.TP\n", text
        )
        self.assertIn(".TP\n\\fB\\-h, \\-\\-help\\fR\nPrint help\n", text)
        self.assertIn(".SH NAME\npgsub\\-show \\- Print it\n", text)
        self.assertTrue(
            text.endswith(".SH SEE ALSO\n\\fBpgsub\\fR(1), \\fBpgsub\\-feed\\fR(1)\n"), text[-99:]
        )

    def test_argparse(self) -> None:
        text = page_of("pgsub-connect", Help([], ARGPARSE), "", [], "2026-11-25", "0.1")
        told = (
            "the longest message that is accepted (default: what may be\nbuffered, at most 1 GiB)\n"
        )
        self.assertIn(f"\\fB\\-\\-max\\-frame BYTES\\fR\n{told}", text)
        self.assertIn("Carries. It says \\e and 'so'.\n", text)
        self.assertIn(".nf\nexit status: 0 ended as asked; see\ndocs for \\-\\-dsn.\n.fi\n", text)

    def test_an_option_that_is_lost(self) -> None:
        lost = manual_pages.roff_of
        manual_pages.roff_of = lambda text: [it for it in lost(text) if "proto" not in it]
        self.addCleanup(setattr, manual_pages, "roff_of", lost)
        with self.assertRaisesRegex(Unreadable, "pgsub-show: not in the page: --proto"):
            page_of("pgsub-show", Help(["show"], SHOW), "", [], "", "")

    def test_subcommands(self) -> None:
        self.assertEqual(subcommands(CLAP), ["show", "apply"])
        self.assertEqual(subcommands(ARGPARSE), ["follow", "names"])


class Commands(unittest.TestCase):
    def test_each_is_asked(self) -> None:
        with tempfile.TemporaryDirectory() as room:
            command = Path(room, "pgsub")
            for name, text in (
                ("first", CLAP),
                ("show", SHOW),
                ("apply", SHOW.replace("--proto", "--raw")),
            ):
                Path(room, name).write_text(text)
            command.write_text(
                f'#!/bin/sh\n[ "$1" = --help ] && cat {room}/first || cat {room}/$1\n'
            )
            os.chmod(command, 0o755)
            made = make(helps_of(command), "pgsub", "2026-11-25", "0.1")
            self.assertEqual(list(made), ["pgsub", "pgsub-show", "pgsub-apply"])
            self.assertIn("\\-\\-raw", made["pgsub-apply"])
            self.assertIn("pgsub\\-apply \\- Apply it\n", made["pgsub-apply"])
            others = ", ".join(
                rf"\fB{it}\fR(1)"
                for it in ("pgsub", r"pgsub\-show", r"pgsub\-connect", r"pgsub\-feed")
            )
            self.assertTrue(made["pgsub-apply"].endswith(f".SH SEE ALSO\n{others}\n"))
            command.write_text("#!/bin/sh\necho no >&2; exit 3\n")
            with self.assertRaisesRegex(Unreadable, "status 3: no"):
                helps_of(command)
            with self.assertRaisesRegex(Unreadable, "No such file"):
                helps_of(Path(room, "gone"))


if __name__ == "__main__":
    unittest.main()
