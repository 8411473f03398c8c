"""What the two packages may import, and how long their modules and functions are."""

from __future__ import annotations

import ast
import unittest
from collections.abc import Iterator
from pathlib import Path

CONNECT = Path(__file__).resolve().parent.parent
# Each imports from itself and from those before it. (The version is of the package itself.)
LAYERS = (
    "pgsub_feed",
    "pgsub_connect",
    "pgsub_connect.errors",
    "pgsub_connect.version",
    "pgsub_connect.judged",
    "pgsub_connect.embedded",
    "pgsub_connect.server",
    "pgsub_connect.preconditions",
    "pgsub_connect.drift",
    "pgsub_connect.status",
    "pgsub_connect.store",
    "pgsub_connect.stream",
    "pgsub_connect.record",
    "pgsub_connect.copy",
    "pgsub_connect.add",
    "pgsub_connect.verify",
    "pgsub_connect.follow",
    "pgsub_connect.commands",
    "pgsub_connect.cli",
    "pgsub_connect.__main__",
)
MOST_OF_MODULE, MOST_OF_FUNCTION = 400, 40
# Attributes of objects of libraries, which are set so.
OF_LIBRARIES = ("argtypes", "restype", "filename", "text_factory", "nonblocking", "notice_handler")
FUNCTIONS = (ast.FunctionDef, ast.AsyncFunctionDef)


class Module:
    """A module: its name, its lines, and what it imports, also for its types alone."""

    def __init__(self, path: Path) -> None:
        parts = path.relative_to(CONNECT).with_suffix("").parts
        self.is_package = parts[-1] == "__init__"
        self.name = ".".join(parts[:-1] if self.is_package else parts)
        text = path.read_text(encoding="utf-8")
        self.lines = text.count("\n")
        self.tree = ast.parse(text)

    def layer(self) -> str:
        return max((it for it in LAYERS if is_within(self.name, it)), key=len, default="")

    def imports(self, names: set[str]) -> set[str]:
        """The modules of these names that it imports."""
        return {it for it in self.targets(names) if it in names and it != self.name}

    def targets(self, names: set[str]) -> Iterator[str]:
        own = self.name.split(".") if self.is_package else self.name.split(".")[:-1]
        for node in ast.walk(self.tree):
            if isinstance(node, ast.Import):
                yield from (it.name for it in node.names)
            elif isinstance(node, ast.ImportFrom):
                base = own[: len(own) - node.level + 1] if node.level else []
                where = ".".join([*base, *([node.module] if node.module else [])])
                for it in node.names:
                    inner = f"{where}.{it.name}"
                    yield inner if inner in names else where

    def long_functions(self) -> Iterator[str]:
        for node in ast.walk(self.tree):
            if isinstance(node, FUNCTIONS):
                first = min([node.lineno, *(it.lineno for it in node.decorator_list)])
                lines = (node.end_lineno or first) - first + 1
                if lines > MOST_OF_FUNCTION:
                    yield node.name

    def foreign_assignments(self) -> Iterator[str]:
        """The attributes that it sets of other objects than a method's own, or one that the
        function itself has made."""
        for function in ast.walk(self.tree):
            if isinstance(function, FUNCTIONS):
                made = {"self", "cls", *made_in(function)}
                for node in ast.walk(function):
                    if (
                        isinstance(node, ast.Attribute)
                        and not isinstance(node.ctx, ast.Load)
                        and node.attr not in OF_LIBRARIES
                        and not (isinstance(node.value, ast.Name) and node.value.id in made)
                    ):
                        yield ast.unparse(node)


def made_in(function: ast.AST) -> Iterator[str]:
    """The names to which a function gives what it has called for."""
    for node in ast.walk(function):
        if isinstance(node, ast.Assign):
            for target in node.targets:
                is_pair = isinstance(target, ast.Tuple) and isinstance(node.value, ast.Tuple)
                pairs = zip(target.elts, node.value.elts) if is_pair else [(target, node.value)]  # type: ignore[attr-defined]
                for name, value in pairs:
                    if isinstance(name, ast.Name) and isinstance(value, ast.Call):
                        yield name.id


def is_within(name: str, layer: str) -> bool:
    """Whether a module is of a layer. (The package itself is one without what is in it.)"""
    return name == layer or layer != "pgsub_connect" and name.startswith(layer + ".")


def modules() -> dict[str, Module]:
    found = [
        Module(path)
        for package in ("pgsub_feed", "pgsub_connect")
        for path in sorted((CONNECT / package).rglob("*.py"))
    ]
    return {it.name: it for it in found}


def cycles(edges: dict[str, set[str]]) -> list[set[str]]:
    """The sets of modules of which each imports each other one, by way of others maybe."""

    def reached(start: str) -> set[str]:
        found, new = set[str](), [start]
        while new:
            for it in edges[new.pop()] - found:
                found.add(it)
                new.append(it)
        return found

    reach = {name: reached(name) for name in edges}
    rings = {
        frozenset(other for other in reach[name] if name in reach[other])
        for name in edges
        if name in reach[name]
    }
    return [set(it) for it in rings]


def found_wrong() -> set[str]:
    """All that isn't as it is to be, a line each."""
    every = modules()
    names, wrong = set(every), set[str]()
    edges = {name: it.imports(names) for name, it in every.items()}
    for name, it in every.items():
        if not it.layer():
            wrong.add(f"{name} is in no layer")
            continue
        at = LAYERS.index(it.layer())
        wrong |= {
            f"{name} imports {other}"
            for other in edges[name]
            if every[other].layer() and LAYERS.index(every[other].layer()) > at
        }
        if it.lines > MOST_OF_MODULE:
            wrong.add(f"{name} is long")
        wrong |= {f"{name}.{function} is long" for function in it.long_functions()}
        wrong |= {f"{name} sets {attribute}" for attribute in it.foreign_assignments()}
    for ring in cycles(edges):
        wrong.add("a cycle: " + ", ".join(sorted(ring)))
    return wrong


class Layers(unittest.TestCase):
    def test_nothing_is_wrong(self) -> None:
        self.assertEqual(sorted(found_wrong()), [])

    def test_cycles(self) -> None:
        edges = {"a": {"b"}, "b": {"c"}, "c": {"a"}, "d": {"a"}, "e": set[str]()}
        self.assertEqual(cycles(edges), [{"a", "b", "c"}])

    def test_what_is_imported_for_types_alone(self) -> None:
        it = Module(CONNECT / "pgsub_connect" / "stream" / "missed_rows.py")
        names = {"pgsub_connect.stream.filter_end", "pgsub_connect.store.checkpoint"}
        self.assertEqual(it.imports({*names, "pgsub_connect"}), names)


if __name__ == "__main__":
    unittest.main()
