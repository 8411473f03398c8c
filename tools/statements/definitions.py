"""The definitions of the crates, and those that a clause stands on: each after those that it names.

Names are resolved by the imports of each file, so a name that is imported and hidden by a local one
counts too.
"""

from __future__ import annotations

import re
from collections.abc import Iterable, Iterator
from dataclasses import dataclass, field
from pathlib import Path

USE = re.compile(r"^(?:\s*ghost )?use Rattle\.([\w.]+?)(?:\.\{(.*)\}| as (\S+?))?;?$")
TOKEN = re.compile(r"[^\s(){}\[\],;]+")
# a field to which a record gives a value
GIVEN = re.compile(r"(?:^\s+|[{;]\s*)([^\s=;{}]+) = ")
HEAD = re.compile(r"^(?:(?:abbrev|unfoldable|opaque|pub|record|data|unsafe|mutual) )*([^\s:]+)")
KEYWORD = re.compile(r"^(?:abbrev|unfoldable|opaque|pub|record|data|mutual) ")
PART = re.compile(r"^  (?:pub )?([^\s:]+) :")

# where a definition is: its module, and its name there
Name = tuple[str, str]


@dataclass
class Definition:
    """A definition with its equations, its comment, and the names in it."""

    module: str
    name: str
    lines: list[str] = field(default_factory=list)
    comment: list[str] = field(default_factory=list)
    # the heads of the nameless modules around it, whose parameters are its own
    heads: list[str] = field(default_factory=list)

    def text(self) -> str:
        return "\n".join([*self.comment, *self.heads, *self.lines]).rstrip()

    def tokens(self) -> set[str]:
        return {
            name
            for line in (*self.heads, *self.lines)
            for token in TOKEN.findall(line)
            for name in names_of(token)
        }

    def given(self) -> set[str]:
        return {name for line in self.lines for name in GIVEN.findall(line)}


def names_of(token: str) -> tuple[str, ...]:
    """What a word may name: itself, what is before its first dot, an operator."""
    return token, token.partition(".")[0], f"◌{token}◌"


@dataclass
class Module:
    """A file of definitions: what it imports and what it defines."""

    path: Path
    # the comment with which the file begins
    head: list[str] = field(default_factory=list)
    imports: dict[str, Name] = field(default_factory=dict)
    aliases: dict[str, str] = field(default_factory=dict)
    definitions: dict[str, Definition] = field(default_factory=dict)
    # constructors, and the fields of records, by the definition that they are of
    constructors: dict[str, str] = field(default_factory=dict)
    fields: dict[str, str] = field(default_factory=dict)


def note_import(module: Module, line: str) -> None:
    """Notes the names that a line imports."""
    found = USE.match(line)
    if not found:
        return
    source, names, alias = found.groups()
    if alias:
        module.aliases[alias] = source
        return
    for part in (names or "").split(", "):
        name, _, local = part.partition(" as ")
        module.imports[(local or name).strip()] = (source, name.strip())


class Nesting:
    """The nameless modules around a line, the outermost first."""

    def __init__(self) -> None:
        self.heads: list[list[str]] = []
        self.is_open = False

    def inner(self, line: str) -> str | None:
        """The line as its module has it, None where it is part of a module's head."""
        if self.is_open:
            self.heads[-1].append(line)
            self.is_open = not line.endswith("where")
            return None
        deep = min((len(line) - len(line.lstrip())) // 2, len(self.heads))
        if not line.lstrip().startswith("--") and line:
            del self.heads[deep:]
        line = line[2 * deep :]
        if line.startswith("module "):
            self.heads.append([line])
            self.is_open = not line.endswith("where")
            return None
        return line

    def lines(self) -> list[str]:
        return [line for head in self.heads for line in head]


class Reader:
    """Reads a file of definitions. A definition goes up to the next line that begins one."""

    def __init__(self, path: Path, name: str) -> None:
        self.name, self.module, self.nesting = name, Module(path), Nesting()
        self.current: Definition | None = None
        self.comment: list[str] = []

    def read(self) -> Module:
        text = self.module.path.read_text(encoding="utf-8")
        for whole in text.splitlines():
            line = self.nesting.inner(whole.rstrip())
            if line is None:
                self.current = None
            else:
                self.take(line)
        return self.module

    def take(self, line: str) -> None:
        module = self.module
        if line.startswith("use "):
            note_import(module, line)
            module.head, self.comment = module.head or self.comment, []
        elif line.startswith("--"):
            self.comment.append(line)
        elif line and not line[0].isspace() and (head := HEAD.match(line)):
            self.begin(line, head[1])
        elif self.current:
            self.current.lines.append(line)
            if part := PART.match(line):
                is_record = " record " in f" {self.current.lines[0]}"
                parts = module.fields if is_record else module.constructors
                parts.setdefault(part[1], self.current.name)

    def begin(self, line: str, name: str) -> None:
        module = self.module
        if KEYWORD.match(line) and name not in module.definitions:
            self.current = Definition(self.name, name, [], self.comment, self.nesting.lines())
            module.definitions[name] = self.current
        if self.current:
            self.current.lines.append(line)
        self.comment = []


class Statement:
    """The definitions on which clauses stand, of the crates in a folder."""

    def __init__(self, crates: Path) -> None:
        self.crates = crates
        self.modules: dict[str, Module | None] = {}
        self.found: list[Definition] = []
        self.seen: set[Name] = set()
        self.declared: set[str] = set()

    def module(self, name: str) -> Module | None:
        """The module of this name, None where it isn't one of this repository's."""
        if name not in self.modules:
            crate, _, rest = name.partition(".specs.")
            path = self.crates / crate / "specs" / (rest.replace(".", "/") + ".antt")
            if ".declared." in name + "." and (self.crates / crate).is_dir():
                self.declared.add(f"{crate}::{rest.rpartition('.')[2]}")
            self.modules[name] = Reader(path, name).read() if rest and path.is_file() else None
        return self.modules[name]

    def visit(self, source: str, name: str) -> None:
        """Adds a definition after all those that it names."""
        module = self.module(source)
        if module is None or (source, name) in self.seen:
            return
        name = name if name in module.definitions else module.constructors.get(name, name)
        if name not in module.definitions or (source, name) in self.seen:
            return
        self.seen.add((source, name))
        definition = module.definitions[name]
        self.visit_all(module, source, definition.tokens())
        # (the field's name alone may be that of a parameter)
        for name in sorted(definition.given() & module.fields.keys()):
            self.visit(source, module.fields[name])
        self.found.append(definition)

    def visit_all(self, module: Module, source: str, tokens: Iterable[str]) -> None:
        """Visits what the words of a text in this module name."""
        for token in sorted(tokens):
            for name in named_by(module, source, token):
                self.visit(*name)

    def home_of(self, name: Name) -> Name | None:
        """Where a name is defined, None where that isn't in this repository's definitions."""
        source, local = name
        module = self.module(source)
        if module is None:
            return None
        local = local if local in module.definitions else module.constructors.get(local, local)
        return (source, local) if local in module.definitions else None


def named_by(module: Module, source: str, token: str) -> Iterator[Name]:
    """What a word of a text in this module may name, with where it is looked for."""
    if token in module.definitions or token in module.constructors:
        yield source, token
    elif token in module.imports:
        yield module.imports[token]
    head, _, rest = token.partition(".")
    if head in module.aliases and rest:
        yield module.aliases[head], rest
