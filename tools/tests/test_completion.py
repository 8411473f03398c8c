"""Completion for shells has all commands and options of a help."""

import subprocess
import tempfile
import unittest
from pathlib import Path

from completion import Option, bash_of, options_of, zsh_of
from manual_pages import Help

TOP = """usage: pgsub-connect [-h] COMMAND ...

Carries [all] of it.

Commands:
  every day
    follow    follow into a store: "it's"
  to repair
    names     tell names

options:
  -h, --help  show this help message and exit
"""
FOLLOW = """usage: pgsub-connect follow [-h] [--store FILE] [--keyless {refuse,inserts}]

options:
  -h, --help            show this help message and exit
  --store FILE          keep the copies here
  --keyless {refuse,inserts}
                        tables [without] a key
  --until LSN|now       stop

  pgsub-connect follow --store copy.db     is an example
"""
CLAP = """Print it

Options:
      --proto <N>  Version, 1 or 2 [default: 2]
  -V, --version    Print version
"""
HELPS = {"": Help([], TOP), "follow": Help(["follow"], FOLLOW), "names": Help(["names"], TOP)}
NAME = "pgsub-connect"


class Case(unittest.TestCase):
    def setUp(self) -> None:
        room = tempfile.TemporaryDirectory()
        self.addCleanup(room.cleanup)
        self.script = Path(room.name, "script")

    def test_options(self) -> None:
        help = Option(("-h", "--help"), "", "show this help message and exit")
        found = options_of(FOLLOW)
        self.assertEqual(
            found,
            [
                help,
                Option(("--store",), "FILE", "keep the copies here"),
                Option(("--keyless",), "{refuse,inserts}", "tables [without] a key"),
                Option(("--until",), "LSN|now", "stop"),
            ],
        )
        self.assertEqual([it.is_file for it in found], [False, True, False, False])
        self.assertEqual([it.choices for it in found], [[], [], ["refuse", "inserts"], []])
        self.assertEqual(
            options_of(CLAP),
            [
                Option(("--proto",), "N", "Version, 1 or 2 [default: 2]"),
                Option(("-V", "--version"), "", "Print version"),
            ],
        )

    def bash(self, *words: str) -> list[str]:
        """What bash offers for the last of the words."""
        self.script.write_text(bash_of(NAME, HELPS))
        text = """
            . "$1"; shift
            COMP_WORDS=("$@"); COMP_CWORD=$(($# - 1))
            _pgsub_connect
            printf '%s\\n' "${COMPREPLY[@]}"; complete -p
        """
        ran = subprocess.run(
            ["bash", "-c", text, "bash", self.script, NAME, *words],
            capture_output=True,
            text=True,
            check=True,
        )
        *found, last = ran.stdout.splitlines()
        self.assertEqual(last, f"complete -o default -F _pgsub_connect {NAME}")
        return [it for it in found if it]

    def test_bash(self) -> None:
        for words, offered in (
            (("",), ["follow", "names", "-h", "--help"]),
            (("fo",), ["follow"]),
            (("follow", "--k"), ["--keyless"]),
            (("follow", "--"), ["--help", "--store", "--keyless", "--until"]),
            (("follow", "--keyless", "in"), ["inserts"]),
            (("follow", "--store", ""), []),
            (("follow", "--until", ""), []),
            (("follow", ""), []),
            (("names", "--s"), []),
            (("follow", "--store", "x", "--u"), ["--until"]),
        ):
            with self.subTest(words):
                self.assertEqual(self.bash(*words), offered)

    def zsh(self, command: str) -> list[str]:
        """What zsh is told to offer, where a command was chosen or none was."""
        self.script.write_text(zsh_of(NAME, HELPS))
        text = """
            _arguments() {
                if [[ $1 == -C ]]; then state=$STATE; line=($COMMAND); else print -rl -- "$@"; fi
            }
            _describe() { print -rl -- "$1" "${commands[@]}" }
            source $1
        """
        environment = {
            "PATH": "/usr/bin:/bin",
            "STATE": "rest" if command else "command",
            "COMMAND": command,
        }
        ran = subprocess.run(
            ["zsh", "-f", "-c", text, "zsh", self.script],
            env=environment,
            capture_output=True,
            text=True,
            check=True,
        )
        self.assertEqual(ran.stderr, "")
        return ran.stdout.splitlines()

    def test_zsh(self) -> None:
        self.assertEqual(
            self.zsh(""), ["command", 'follow:follow into a store\\: "it\'s"', "names:tell names"]
        )
        self.assertEqual(
            self.zsh("follow"),
            [
                "*-h[show this help message and exit]",
                "*--help[show this help message and exit]",
                "*--store[keep the copies here]:FILE:_files",
                "*--keyless[tables \\[without\\] a key]:{refuse,inserts}:(refuse inserts)",
                "*--until[stop]:LSN|now: ",
                "*:file:_files",
            ],
        )

    def test_a_command_without_commands(self) -> None:
        helps = {"": Help([], CLAP)}
        self.script.write_text(bash_of("pgsub-feed", helps))
        subprocess.run(["bash", "-n", self.script], check=True)
        self.assertIn('words="--proto -V --version"', self.script.read_text())
        self.script.write_text(zsh_of("pgsub-feed", helps))
        subprocess.run(["zsh", "-n", self.script], check=True)
        self.assertIn("'*--proto[Version, 1 or 2 \\[default\\: 2\\]]:N: '", self.script.read_text())


if __name__ == "__main__":
    unittest.main()
