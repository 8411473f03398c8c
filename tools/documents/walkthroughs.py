"""The walkthroughs of a document: commands as a reader types them, with what they print.

A fenced block that has a line `$ COMMAND` belongs to a walkthrough. A comment in the line before it
says what it is run with:

    <!--run:program-->         the built program, in a folder with the examples of the repository
    <!--run:server-->          a PostgreSQL server, which the variables of libpq name, the program and the connector
    <!--run:server,stays-->    its last command goes on, and later blocks are run beside it
    <!--run:server,stopped-->  what goes on is stopped before it, as by Ctrl-C
    <!--run:package-->         an installed package
    <!--run:redis-->           Redis at its usual port, in the folder of the one with a server
    <!--run:hand-->            nothing: a person has to look

The blocks of one kind are run from top to bottom in one folder. A command is a line `$ ..` with the
lines after it that begin with `> `, and what it prints are the lines up to the next command, on
standard output and standard error in the order in which they come. A line `..` stands for any
lines. Where there is a server, an LSN may be another one, and so may a time.
"""

import os
import re
import signal
import subprocess
import tempfile
import time
from collections.abc import Iterable, Mapping, Sequence
from dataclasses import dataclass
from pathlib import Path

KINDS = ("program", "server", "package", "redis", "hand")
MARK = re.compile(r"^<!--\s*run:\s*([a-z]+)((?:\s*,\s*[a-z]+)*)\s*-->$")
WORDS = {"stays", "stopped"}
FENCE = re.compile(r"^```")
LSN = re.compile(r"\b[0-9A-F]{1,8}/[0-9A-F]{1,8}\b")
TIME = re.compile(r"\b\d{4}-\d\d-\d\d[T ]\d\d:\d\d:\d\d(?:\.\d+)?Z?")
ANY = ".."
BESIDE = re.compile(r"\b(?:info|warning|error): (?:tables|sink \S+): ")
# how long a command may take, and what a reader takes from one block to the next while something
# goes on
SECONDS = 120.0
PAUSE = 3.0


class Malformed(Exception):
    """A block of commands that isn't told how to run."""


@dataclass(frozen=True)
class Command:
    """A command with what it prints; the number of its line."""

    text: str
    expected: tuple[str, ...]
    line: int


@dataclass(frozen=True)
class Block:
    """A block of commands: what it is run with, and whether its last command stays or what stays is
    stopped first."""

    kind: str
    words: frozenset[str]
    commands: tuple[Command, ...]
    line: int


def fenced(text: str) -> Iterable[tuple[int, str, list[str]]]:
    """Gives each fenced block: the number of its first line inside, the last line of text before
    its fence, and its lines."""
    before, first = "", 0
    inside: list[str] | None = None
    for number, line in enumerate(text.splitlines(), 1):
        if FENCE.match(line):
            if inside is None:
                inside, first = [], number + 1
            else:
                yield first, before, inside
                before, inside = "", None
        elif inside is not None:
            inside.append(line)
        elif line.strip():
            before = line.strip()


def commands_in(first: int, lines: Sequence[str]) -> tuple[Command, ...]:
    commands: list[tuple[list[str], list[str], int]] = []
    for number, line in enumerate(lines, first):
        if line.startswith("$ "):
            commands.append(([line[2:]], [], number))
        elif not commands:
            raise Malformed(f"line {number}: text before the first command")
        elif line.startswith("> ") and not commands[-1][1]:
            commands[-1][0].append(line[2:])
        else:
            commands[-1][1].append(line)
    return tuple(
        Command("\n".join(text), tuple(expected), number) for text, expected, number in commands
    )


def blocks_of(text: str) -> list[Block]:
    """Returns the blocks of commands of a document. Malformed tells of one that has no mark, or a
    wrong one."""
    blocks = []
    for first, before, lines in fenced(text):
        if not any(line.startswith("$ ") for line in lines):
            continue
        mark = MARK.match(before)
        if not mark:
            raise Malformed(
                f"line {first}: commands without a comment <!--run:KIND--> in the line before"
            )
        words = frozenset(it.strip() for it in mark[2].split(",") if it.strip())
        if mark[1] not in KINDS or words - WORDS:
            raise Malformed(f"line {first}: there is no such mark: {before}")
        blocks.append(Block(mark[1], words, commands_in(first, lines), first))
    return blocks


def likened(line: str, varies: bool) -> str:
    """A line as it is compared."""
    return TIME.sub("TIME", LSN.sub("LSN", line)) if varies else line


def is_printed(expected: Sequence[str], printed: Sequence[str], is_whole: bool) -> bool:
    """Whether these lines are what was expected, or, where more may come, begin with it."""
    if not expected:
        return not printed or not is_whole
    if expected[0] == ANY:
        return any(
            is_printed(expected[1:], printed[at:], is_whole) for at in range(len(printed) + 1)
        )
    return (
        bool(printed)
        and printed[0] == expected[0]
        and is_printed(expected[1:], printed[1:], is_whole)
    )


def are_printed(expected: Sequence[str], printed: Sequence[str], is_whole: bool) -> bool:
    """The same, where a follower passes on what a process beside it says: which of the two is first
    isn't told by anything."""
    mine, theirs = ([it for it in expected if bool(BESIDE.search(it)) == is_of] for is_of in (0, 1))
    own, others = ([it for it in printed if bool(BESIDE.search(it)) == is_of] for is_of in (0, 1))
    apart = [it for line in theirs for it in (ANY, line)]
    return is_printed(mine, own, is_whole) and is_printed(apart, others, False)


def hear_interrupts() -> None:
    """Has a command hear Ctrl-C, which it wouldn't where this was started in the background of a
    script."""
    signal.signal(signal.SIGINT, signal.SIG_DFL)


class Running:
    """A command that runs in a folder, with all that it prints in a file."""

    def __init__(self, command: Command, folder: Path, environment: Mapping[str, str]) -> None:
        self.command = command
        descriptor, name = tempfile.mkstemp(prefix="printed-", dir=folder.parent)
        self.out = Path(name)
        with open(descriptor, "wb") as out:
            self.process = subprocess.Popen(
                ["bash", "-c", command.text],
                cwd=folder,
                env=dict(environment),
                stdin=subprocess.DEVNULL,
                stdout=out,
                stderr=subprocess.STDOUT,
                start_new_session=True,
                preexec_fn=hear_interrupts,
            )

    def printed(self) -> list[str]:
        return self.out.read_text(encoding="utf-8", errors="replace").splitlines()

    def wait(self, seconds: float) -> bool:
        try:
            self.process.wait(seconds)
        except subprocess.TimeoutExpired:
            return False
        return True

    def stop(self) -> bool:
        """Stops it as Ctrl-C does. Returns whether it ended by that."""
        if self.process.poll() is None:
            os.killpg(self.process.pid, signal.SIGINT)
        if self.wait(SECONDS):
            return True
        os.killpg(self.process.pid, signal.SIGKILL)
        self.process.wait()
        return False

    def difference(self, varies: bool, is_whole: bool) -> str | None:
        expected = [likened(it, varies) for it in self.command.expected]
        printed = [likened(it, varies) for it in self.printed()]
        if are_printed(expected, printed, is_whole):
            return None
        told = "\n".join(f"    {it}" for it in self.printed())
        return f"line {self.command.line}: `{self.command.text}` printed\n{told}"


class Walk:
    """Runs blocks in one folder, one after the other."""

    def __init__(
        self, folder: Path, environment: Mapping[str, str], varies: bool, pause: float = PAUSE
    ) -> None:
        self.folder, self.environment, self.varies, self.pause = folder, environment, varies, pause
        self.going: list[Running] = []

    def run_to_end(self, command: Command) -> str | None:
        running = Running(command, self.folder, self.environment)
        if not running.wait(SECONDS):
            running.stop()
            return f"line {command.line}: `{command.text}` didn't end in {SECONDS:.0f} seconds"
        return running.difference(self.varies, True)

    def run_on(self, command: Command) -> str | None:
        """Starts a command that stays, and waits until it has printed what is expected."""
        running = Running(command, self.folder, self.environment)
        self.going.append(running)
        until = time.monotonic() + SECONDS
        while time.monotonic() < until:
            if running.difference(self.varies, False) is None:
                return None
            if running.wait(0.1):
                return (
                    running.difference(self.varies, True)
                    or f"line {command.line}: `{command.text}` ended"
                )
        return running.difference(self.varies, False)

    def stop_going(self) -> list[str]:
        stopped = [(it.command, it.stop()) for it in self.going]
        self.going = []
        return [
            f"line {command.line}: `{command.text}` didn't end by Ctrl-C"
            for command, ended in stopped
            if not ended
        ]

    def run_block(self, block: Block) -> list[str]:
        if self.going:
            time.sleep(self.pause)
        found = self.stop_going() if "stopped" in block.words else []
        last = block.commands[-1] if "stays" in block.words else None
        told = [self.run_on(it) if it is last else self.run_to_end(it) for it in block.commands]
        return found + [it for it in told if it]


def run_kind(
    text: str, kind: str, folder: Path, environment: Mapping[str, str], pause: float = PAUSE
) -> list[tuple[Block, list[str]]]:
    """Runs the blocks of one kind in a folder, and keeps what they print in files beside it.
    Returns each with what differs."""
    walk = Walk(folder, environment, kind in ("server", "package"), pause)
    try:
        return [(block, walk.run_block(block)) for block in blocks_of(text) if block.kind == kind]
    finally:
        walk.stop_going()
