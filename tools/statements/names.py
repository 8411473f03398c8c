"""The statement as one module of definitions, which passes on each name that it stands on."""

from __future__ import annotations

from collections.abc import Iterable, Iterator, Sequence

from .definitions import Definition, Statement

WIDTH = 100


def head_of(titles: Sequence[str]) -> Iterator[str]:
    yield "-- The whole statement, for somebody who checks the claim: each name on which these clauses stand,"
    yield "-- with the module that says what it means. Modules come in reading order."
    yield "--"
    yield from (f"--   {it}" for it in titles)
    yield "--"
    yield "-- `tools/statement --names` prints this file, and `--text` the definitions themselves."


def uses(source: str, names: Sequence[str], mark: str = "") -> Iterator[str]:
    """The lines that pass on these names of a module, each as long as a line may be."""
    begin = f"{mark}pub use Rattle.{source}.{{"
    line = ""
    for name in names:
        more = f"{line}, {name}" if line else begin + name
        if line and len(more) >= WIDTH:
            yield line + "}"
            more = begin + name
        line = more
    yield line + "}"


def is_unfoldable(it: Definition) -> bool:
    return it.lines[0].startswith("unfoldable ")


def lines_of(found: Iterable[Definition]) -> Iterator[str]:
    modules: dict[str, list[Definition]] = {}
    for it in found:
        modules.setdefault(it.module, []).append(it)
    taken = set[str]()
    for source, its in modules.items():
        named: dict[str, list[str]] = {"": [], "unfoldable ": []}
        for it in its:
            crate = source.partition(".")[0]
            name = f"{it.name} as {it.name}_of_{crate}" if it.name in taken else it.name
            taken.add(it.name)
            named["unfoldable " * is_unfoldable(it)].append(name)
        for mark, names in named.items():
            if names:
                yield from uses(source, names, mark)


def module_of(statement: Statement, titles: Sequence[str]) -> str:
    """The module that passes on what the statement has."""
    return "\n".join([*head_of(titles), *lines_of(statement.found)]) + "\n"
