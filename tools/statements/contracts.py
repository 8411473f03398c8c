"""The contracts of functions, and the types, as the sources declare them."""

from __future__ import annotations

import re
from collections.abc import Iterator
from dataclasses import dataclass
from functools import cached_property
from pathlib import Path

from .definitions import Definition, Module, Statement, note_import

# a clause, which may make records
BRACES = r"\{(?:[^{}]|\{(?:[^{}]|\{[^{}]*\})*\})*\}"
CLAUSE = re.compile(rf"^ *(ensures|requires) (?:(\w+) )?({BRACES})", re.M)
FUNCTION = re.compile(r"^ *(pub )?(?:const )?fn (\w+)", re.M)
# what begins an impl or a trait, and which type it is of
OWNER = re.compile(
    r"^(?:pub(?:\(crate\))? )?(?:impl(?:<[^{;]*?>)?|trait)\s+(?:[\w:<>, ]+\s+for )?(?:\w+::)*(\w+)",
    re.M,
)
BODY = re.compile(r"^ *\{|;$|\{$", re.M)


@dataclass(frozen=True)
class Clause:
    """A clause of a function's contract."""

    crate: str
    # the type whose method it is, or nothing
    owner: str
    function: str
    name: str
    text: str
    path: Path

    def title(self) -> str:
        owner = f"{self.owner}::" if self.owner else ""
        return f"{self.crate}::{owner}{self.function}.{self.name or 'ensures'}"


class Missing(Exception):
    """A clause that isn't there."""


def contract_at(text: str, start: int) -> str:
    """A function's head and clauses, up to its body."""
    at = start
    while True:
        body, clause = BODY.search(text, at), CLAUSE.search(text, at)
        if clause and (not body or clause.start() < body.start()):
            at = clause.end()
        else:
            return text[start : body.start() if body else len(text)]


def clauses_in(crate: str, path: Path) -> Iterator[Clause]:
    """The clauses of a source's functions, in their order."""
    text = path.read_text(encoding="utf-8")
    owners = [(it.start(), it[1]) for it in OWNER.finditer(text)]
    for function in FUNCTION.finditer(text):
        is_method = function[0].startswith(" ")
        owner = next((it for at, it in reversed(owners) if at < function.start()), "")
        for it in CLAUSE.finditer(contract_at(text, function.start())):
            if it[1] == "ensures":
                yield Clause(
                    crate, owner if is_method else "", function[2], it[2] or "", it[3], path
                )


@dataclass
class Contracts:
    """The contracts of all crates in a folder."""

    crates: Path

    @cached_property
    def all(self) -> dict[str, list[Clause]]:
        """The clauses by the name of their function."""
        found: dict[str, list[Clause]] = {}
        for path in sorted(self.crates.glob("*/src/**/*.rt")):
            for it in clauses_in(path.relative_to(self.crates).parts[0], path):
                found.setdefault(it.function, []).append(it)
        return found

    def of(self, function: str, crate: str = "", owner: str = "") -> list[Clause]:
        """The clauses of the functions of this name, in a crate or of a type where one is given."""
        found = self.all.get(function, [])
        return [it for it in found if crate in ("", it.crate) and owner in ("", it.owner)]

    def named(self, title: str) -> Clause:
        """The clause of this name: CRATE::FUNCTION.CLAUSE or CRATE::TYPE::FUNCTION.CLAUSE."""
        place, _, wanted = title.partition(".")
        crate, _, rest = place.partition("::")
        owner, _, function = rest.rpartition("::")
        for it in self.of(function, crate, owner):
            if it.name == wanted or (wanted == "ensures" and not it.name):
                return it
        raise Missing(f"there is no clause {title}")


def imports_of(path: Path) -> Module:
    """What a source imports of definitions."""
    module = Module(path)
    for line in path.read_text(encoding="utf-8").splitlines():
        note_import(module, line)
    return module


def begin(statement: Statement, clause: Clause) -> None:
    """Visits the definitions that a clause names."""
    tokens = Definition("", "", clause.text[1:-1].splitlines()).tokens()
    statement.visit_all(imports_of(clause.path), "", tokens)


def declaration_of(crates: Path, crate: str, name: str) -> str | None:
    """A type as its source declares it, with its documentation, None where there is none of that
    name."""
    head = re.compile(
        rf"(?:^(?:///|#\[)[^\n]*\n)*^pub (?:struct|enum) {re.escape(name)}\b.*?(?:^\}}|;$)",
        re.M | re.S,
    )
    for path in sorted((crates / crate / "src").rglob("*.rt")):
        if found := head.search(path.read_text(encoding="utf-8")):
            return found[0]
    return None
