"""The examples: definitions computed by the prover on worked cases, each with the definitions that
its statement names."""

from __future__ import annotations

import re
from dataclasses import dataclass
from pathlib import Path

from .definitions import TOKEN, Module, Name, Statement, named_by, names_of, note_import

# the files of proofs that hold worked cases
FILES = re.compile(r"(?:Rows|Samples|Live\w*|Life\w+)$")
HEAD = re.compile(r"^(?:pub )?([^\s:=]+) : ")


@dataclass
class Example:
    """A worked case: what is stated of it, without the proof."""

    module: str
    name: str
    comment: list[str]
    lines: list[str]

    def text(self) -> str:
        return "\n".join([*self.comment, *self.lines])

    def tokens(self) -> set[str]:
        return {
            name for line in self.lines for token in TOKEN.findall(line) for name in names_of(token)
        }


@dataclass
class Cases:
    """A file of examples."""

    module: Module
    name: str
    examples: list[Example]


def read(path: Path, name: str) -> Cases:
    """Reads a file of examples. A statement goes up to the first line of its proof."""
    module, examples, comment = Module(path), list[Example](), list[str]()
    current: Example | None = None
    for line in path.read_text(encoding="utf-8").splitlines():
        if line.startswith("use "):
            note_import(module, line)
            module.head, comment = module.head or comment, []
        elif line.startswith("--"):
            comment, current = [*comment, line], None
        elif head := HEAD.match(line):
            current = Example(name, head[1], comment, [line])
            examples.append(current)
            comment = []
        elif current and line[:1].isspace() and line.strip():
            current.lines.append(line)
        else:
            current = None
            comment = [] if line else [it for it in comment if not it.startswith("-- ----")]
    return Cases(module, name, examples)


def all_cases(crates: Path) -> list[Cases]:
    found = []
    for path in sorted(crates.glob("*/proofs/*.antt")):
        if FILES.search(path.stem):
            crate = path.relative_to(crates).parts[0]
            found.append(read(path, f"{crate}.proofs.{path.stem}"))
    return found


def named_in(statement: Statement, cases: Cases, example: Example) -> set[Name]:
    """The definitions of the repository that an example's statement names."""
    found = set()
    for token in example.tokens():
        for name in named_by(cases.module, cases.name, token):
            if home := statement.home_of(name):
                found.add(home)
    return found
