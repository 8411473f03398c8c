"""What the programs of bench/ import, by text: each name has to be in the root of its crate, which
the gate doesn't build them over.

Their scripts build them over crates that they list: with each one all that it stands on.
"""

import re
from collections.abc import Iterable
from pathlib import Path

USE = re.compile(r"^use (\w+)::(\{[^}]*\}|\w+);", re.M)
INLINE = re.compile(r"\b(\w+)::(\w+)")
EXPORT = re.compile(r"^pub use [\w:]+::(?:\{([^}]*)\}|(\w+));", re.M)
BUILD = re.compile(r"^build \w+ (.+)$", re.M)
USES = re.compile(r"^(\w+)(?: \w+)?: ?(.*)$", re.M)
# what each program has without a line in crates.txt
ALWAYS = {"std", "core", "alloc"}
OWN = re.compile(r"^pub (?:const )?(?:fn|struct|enum|trait|type|const|mod) (\w+)", re.M)


def names_in(listed: str) -> list[str]:
    return re.findall(r"\w+", listed)


def exports_of(root: str) -> set[str]:
    """The names that the text of a crate's root offers."""
    found = set(OWN.findall(root))
    for several, one in EXPORT.findall(root):
        found.update(names_in(several or one))
    return found


def wrong_imports(crates: Path, program: str) -> list[str]:
    """What a program's text names of the repository's crates and isn't there."""
    wrong = []
    plain = USE.sub(
        "",
        "\n".join(it for it in program.splitlines() if not it.lstrip().startswith(("//", "ghost"))),
    )
    for crate, listed in USE.findall(program) + INLINE.findall(plain):
        root = crates / crate / "src/lib.rt"
        if root.is_file():
            exported = exports_of(root.read_text(encoding="utf-8"))
            wrong += [f"{crate} has no {it}" for it in names_in(listed) if it not in exported]
    return wrong


def closure_of(names: Iterable[str], libraries: dict[str, list[str]]) -> list[str]:
    """These crates and all crates of the repository that they stand on."""
    found, left = list[str](), list(names)
    while left:
        name = left.pop()
        if name in libraries and name not in found:
            found.append(name)
            left += libraries[name]
    return sorted(found)


def wrong_builds(crates: str, script: str, program: str) -> list[str]:
    """What a script's list lacks, of the crates of crates.txt and of what its program imports."""
    libraries = {name: words.split() for name, words in USES.findall(crates)}
    wrong = []
    for listed in (it.split() for it in BUILD.findall(script)):
        wrong += [
            f"its list lacks {it}, which others stand on"
            for it in closure_of(listed, libraries)
            if it not in listed
        ]
        imported = {crate for crate, _ in USE.findall(program)} - ALWAYS
        wrong += [
            f"its list lacks {it}, which the program imports"
            for it in sorted(imported)
            if it not in listed
        ]
    return wrong
