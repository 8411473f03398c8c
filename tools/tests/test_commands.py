"""Tables of command lines: how they are read, what the files of a case hold, and what differs."""

import contextlib
import io
import tempfile
import unittest
from pathlib import Path

from built import TOP

from .scripts import loaded

commands = loaded("commands")

# prints its first word, or its name for NAME, and the file of the second one, makes that of the
# third one, or with + or - before it writes to it or removes it, and ends with 3 where it can't
# write
PROGRAM = """#!/usr/bin/env python3
import os, sys
from pathlib import Path
first = Path(sys.argv[0]).name if sys.argv[1] == "NAME" else sys.argv[1]
left = first.encode() + b"".join(Path(it).read_bytes() for it in sys.argv[2:3])
for it in sys.argv[3:]:
    if it[0] == "-":
        Path(it[1:]).unlink()
    elif it[0] == "+":
        Path(it[1:]).write_text("more")
    else:
        Path(it).touch()
try:
    while left:
        left = left[os.write(1, left):]
except OSError:
    os.write(2, b"cannot write")
    os._exit(3)
"""
BEGIN = "42 0000000000000100 0000000000000000 0000000a"
FRAME = f"6400000032{'77':0<50}{BEGIN.replace(' ', '')}"


class Case(unittest.TestCase):
    def setUp(self) -> None:
        room = tempfile.TemporaryDirectory()
        self.addCleanup(room.cleanup)
        self.folder = Path(room.name)
        self.program = self.folder / "built"
        self.program.write_text(PROGRAM)
        self.program.chmod(0o755)

    def run_it(self, *words: str, **tables: str) -> tuple[int, list[str], str]:
        """The status, the lines on standard output, and standard error."""
        for name, table in tables.items():
            (self.folder / f"{name}.toml").write_text(table)
        out, err = io.StringIO(), io.StringIO()
        with contextlib.redirect_stdout(out), contextlib.redirect_stderr(err):
            try:
                status = commands.main([str(self.folder), "--program", str(self.program), *words])
            except SystemExit as ended:
                status = ended.code
        return status, out.getvalue().splitlines(), err.getvalue()

    def fails(self, told: str, table: str) -> None:
        """A table has one case, and this is told of it."""
        self.assertEqual(
            self.run_it(one=f"[[case]]\n{table}"),
            (1, [f"FAILED one: {told}", "0 passed, 1 failed"], ""),
        )

    def is_malformed(self, told: str, table: str) -> None:
        status, out, err = self.run_it(one=table)
        self.assertEqual((status, out), (2, []))
        self.assertIn(told, err)


class Differences(Case):
    def test_what_is_expected(self) -> None:
        table = 'command = "pgsub a in"\nfiles.in = "b\\n"\nstdout = "ab\\n"'
        self.assertEqual(self.run_it(one=f"[[case]]\n{table}"), (0, ["1 passed, 0 failed"], ""))
        self.assertEqual(self.run_it("--only", "two"), (1, ["0 passed, 0 failed"], ""))

    def test_the_program_is_called_pgsub(self) -> None:
        self.assertEqual(
            self.run_it(one='[[case]]\ncommand = "pgsub NAME"\nstdout = "pgsub"')[0], 0
        )

    def test_each_output_and_the_status(self) -> None:
        table = 'shows = "a word"\ncommand = ["pgsub", "a b"]'
        self.fails("a word: stdout is b'a b', expected b'a'", f'{table}\nstdout = "a"')
        self.fails("a word: stdout is b'a b', expected b''", table)
        self.fails("a word: stderr is b'', expected b'c'", f'{table}\nstdout = "a b"\nstderr = "c"')
        self.fails("a word: status is 0, expected 1", f'{table}\nstdout = "a b"\nstatus = 1')
        self.fails("a word: stdout is b'a b', without 'b a'", f'{table}\nstdout_has = [" ", "b a"]')

    def test_a_file_that_is_made(self) -> None:
        self.fails(
            "pgsub a in made: the file made was made",
            'command = "pgsub a in made"\nfiles.in = []\nstdout = "a"',
        )

    def test_its_files_stay_as_they_are(self) -> None:
        self.fails(
            "pgsub a in +in: the file in was changed",
            'command = "pgsub a in +in"\nfiles.in = []\nstdout = "a"',
        )
        self.fails(
            "pgsub a in -in: the file in was removed",
            'command = "pgsub a in -in"\nfiles.in = []\nstdout = "a"',
        )

    def test_commands_that_print_the_same(self) -> None:
        table = '[default]\nstdout = "a"\n[[case]]\nshows = "two"\ncommands = ["pgsub a", "pgsub b"]\n[[case]]\ncommand = "pgsub a"'
        told = ["FAILED one: two: pgsub b: stdout is b'b', expected b'a'", "2 passed, 1 failed"]
        self.assertEqual(self.run_it(one=table), (1, told, ""))

    def test_outputs_that_fail(self) -> None:
        self.run_it(
            one="""
[default]
command = "pgsub word"
stderr = "cannot write"
status = 3
[[case]]
shows = "none"
stdout_room = 0
[[case]]
shows = "some"
stdout_room = 3
stdout = "wor"
[[case]]
shows = "all"
stdout_room = 4
stdout = "word"
stderr = ""
status = 0
[[case]]
shows = "standard error, too"
stdout_room = 3
stdout = "wor"
stderr_room = 6
stderr = "cannot"
"""
        )
        self.assertEqual(self.run_it(), (0, ["4 passed, 0 failed"], ""))


class Files(unittest.TestCase):
    def holds(self, value: object, expected: str, **messages: object) -> None:
        self.assertEqual(commands.content_of(value, messages, "here").whole(), expected.encode())

    def test_a_message_is_framed(self) -> None:
        self.holds([BEGIN, "=--", "="], f"{FRAME}\n--\n\n")
        self.holds(
            {"chunks": ["45", "=--"]}, "64\n00\n00\n00\n1e\n77\n" + "00\n" * 24 + "45\n\n--\n"
        )
        self.assertEqual(
            commands.content_of({"bytes": [BEGIN, "=ff"]}, {}, "here").whole(),
            bytes.fromhex(FRAME) + b"\xff",
        )

    def test_bytes_without_a_message_are_cut_too(self) -> None:
        self.holds({"chunks": ["=6300000004", "=--", "=6"]}, "63\n00\n00\n00\n04\n--\n6\n")

    def test_lists_of_lines_are_run_once_more_in_bytes(self) -> None:
        table = {
            "default": {"command": "pgsub A F", "also_in_bytes": True},
            "case": [{"files": {"F": ["=6301"]}}, {"files": {"F": "6"}}],
        }
        found = [(it.title, it.files["F"].whole()) for it in commands.cases_in(table, {}, "t")]
        self.assertEqual(
            found,
            [
                ("t: pgsub A F", b"6301\n"),
                ("t: pgsub A F, in bytes", b"63\n01\n"),
                ("t: pgsub A F", b"6"),
            ],
        )

    def test_names_stand_for_their_lines(self) -> None:
        self.holds(
            ["PAIR", "BEGIN"],
            f"{FRAME}\n6300000004\n{FRAME}\n",
            PAIR=["BEGIN", "=6300000004"],
            BEGIN=BEGIN,
        )
        self.assertEqual(
            len(commands.content_of({"bytes": ["BEGIN"]}, {"BEGIN": BEGIN}, "here").whole()), 51
        )

    def test_text_is_as_it_is(self) -> None:
        self.holds("6", "6")
        self.holds({"text": "ab", "times": 3, "first": 5}, "ababa")


class Tables(Case):
    def test_what_is_malformed(self) -> None:
        for told, table in (
            ("one, case 1: there is no key `stdin`", '[[case]]\ncommand = "pgsub"\nstdin = ""'),
            ("one.toml: there is no key `cases`", '[[cases]]\ncommand = "pgsub"'),
            (
                "one, case 1, in: there is no key `line`",
                '[[case]]\ncommand = "pgsub"\nfiles.in = { line = [] }',
            ),
            ("`stdout_has` can't be 'a'", '[[case]]\ncommand = "pgsub"\nstdout_has = "a"'),
            (
                "it has `stdout` and `stdout_has`",
                '[[case]]\ncommand = "pgsub"\nstdout = ""\nstdout_has = ["a"]',
            ),
            ("it needs one of `command`, `commands`", '[[case]]\nshows = "a"'),
            ("the first word of a command is `pgsub`", '[[case]]\ncommand = "show"'),
            ("`BEGIN` is no message", '[[case]]\ncommand = "pgsub"\nfiles.in = ["BEGIN"]'),
            ("one: pgsub: there are two cases of this title", '[[case]]\ncommand = "pgsub"\n' * 2),
            ("one.toml: ", "[[case]"),
        ):
            with self.subTest(told):
                self.is_malformed(told, table)

    def test_messages_hold_for_all_files(self) -> None:
        case = '[[case]]\ncommand = "pgsub a in"\nfiles.in = ["A"]\nstdout = "ab\\n"'
        self.assertEqual(
            self.run_it(one=case, two='[messages]\nA = "=b"'), (0, ["1 passed, 0 failed"], "")
        )
        self.is_malformed("two.toml: there is another message A", '[messages]\nA = "=c"')

    def test_those_of_the_folder(self) -> None:
        self.assertTrue(commands.cases_of(TOP / "tools/command_cases"))


if __name__ == "__main__":
    unittest.main()
