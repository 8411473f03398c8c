"""Walkthroughs are read and run as they are printed."""

import os
import tempfile
import unittest
from pathlib import Path

from documents.walkthroughs import (
    Command,
    Malformed,
    are_printed,
    blocks_of,
    is_printed,
    likened,
    run_kind,
)

TEXT = """# Title

```
no commands
```

<!--run:program-->
```
$ echo one
one
$ printf 'a\\nb\\n'; echo c >&2
a
b
c
```

Then:

<!-- run: server, stays -->
```
$ cat \\
> file
..
last
```
"""


def walked(text: str, kind: str) -> list[list[str]]:
    with tempfile.TemporaryDirectory() as room:
        folder = Path(room, "folder")
        folder.mkdir()
        return [wrong for _, wrong in run_kind(text, kind, folder, dict(os.environ), pause=0.1)]


def block(mark: str, *lines: str) -> str:
    return "\n".join((f"<!--run:{mark}-->", "```", *lines, "```", ""))


class Reading(unittest.TestCase):
    def test_blocks_have_their_commands(self) -> None:
        first, second = blocks_of(TEXT)
        self.assertEqual((first.kind, first.words, first.line), ("program", frozenset(), 9))
        self.assertEqual(first.commands[0], Command("echo one", ("one",), 9))
        self.assertEqual(first.commands[1].expected, ("a", "b", "c"))
        self.assertEqual((second.kind, second.words), ("server", {"stays"}))
        self.assertEqual(second.commands, (Command("cat \\\nfile", ("..", "last"), 21),))

    def test_commands_need_a_mark(self) -> None:
        for text in (
            "```\n$ ls\n```\n",
            "<!--run:nothing-->\n```\n$ ls\n```\n",
            "<!--run:server,goes-->\n```\n$ ls\n```\n",
            block("program", "text", "$ ls"),
        ):
            with self.subTest(text=text), self.assertRaises(Malformed):
                blocks_of(text)


class Comparing(unittest.TestCase):
    def test_lines_are_compared(self) -> None:
        rows: tuple[tuple[tuple[str, ...], list[str], bool, bool], ...] = (
            ((), [], True, True),
            ((), ["a"], True, False),
            (("a",), ["a"], True, True),
            (("a",), ["a", "b"], True, False),
            (("a",), ["a", "b"], False, True),
            (("a", "b"), ["a"], False, False),
            (("..", "b"), ["x", "y", "b"], True, True),
            (("a", ".."), ["a"], True, True),
            (("a", "..", "c"), ["a", "b"], True, False),
        )
        for expected, printed, is_whole, answer in rows:
            with self.subTest(expected=expected, printed=printed):
                self.assertEqual(is_printed(expected, printed, is_whole), answer)

    def test_lines_of_a_process_beside_may_come_at_any_time(self) -> None:
        follows, tables = "info: following slot pgsub", "info: tables: rows.db follows"
        for printed, answer in (
            ([follows, tables], True),
            ([tables, follows], True),
            (["info: tables: it begins", follows, tables], True),
            ([follows], False),
            ([tables], False),
            ([tables, "info: copying", follows], False),
        ):
            with self.subTest(printed=printed):
                self.assertEqual(are_printed((follows, tables), printed, True), answer)

    def test_lsns_and_times_vary_with_a_server(self) -> None:
        self.assertEqual(likened("2026-11-25T09:00:00Z at 0/25504038", True), "TIME at LSN")
        self.assertEqual(likened("position 0/130", False), "position 0/130")


class Walking(unittest.TestCase):
    def test_what_is_printed_is_compared(self) -> None:
        self.assertEqual(walked(TEXT, "program"), [[]])
        (wrong,) = walked(block("program", "$ echo one", "two"), "program")
        self.assertIn("printed\n    one", wrong[0])

    def test_blocks_share_a_folder(self) -> None:
        text = (
            block("program", "$ echo one > file")
            + block("hand", "$ rm file")
            + block("program", "$ cat file", "one")
        )
        self.assertEqual(walked(text, "program"), [[], []])

    def test_a_command_stays_until_it_is_stopped(self) -> None:
        text = (
            block(
                "server,stays",
                "$ trap 'echo over > end; exit' INT; echo at 0/1; while :; do sleep 0.05; done",
                "at 0/ABC",
            )
            + block("server", "$ test -e end || echo on", "on")
            + block("server,stopped", "$ cat end", "over")
        )
        self.assertEqual(walked(text, "server"), [[], [], []])

    def test_a_command_that_ends_too_early_is_told(self) -> None:
        (wrong,) = walked(block("server,stays", "$ echo one", "two"), "server")
        self.assertIn("one", wrong[0])


if __name__ == "__main__":
    unittest.main()
