"""What the program is linked of: the crates of the toolchain's kit, with their licences."""

import os
import re
import shutil
from collections.abc import Iterable
from dataclasses import dataclass
from functools import cached_property
from pathlib import Path
from textwrap import fill

from building import below
from built import TOP

USED = re.compile(r"^dep (\w+)$", re.M)
# what a crate of the kit is a port of, as the head of its README has it
PORTED = re.compile(r"crates? `([\w-]+)` (\d[\w.]*\d)")
HEAD = 900
HOLDER = re.compile(r"^\s*copyright (?:\(c\)|©|(?=\d))\s*(.*\S)\s*$", re.I | re.M)
# this repository's own
OWN = "MIT OR Apache-2.0"
EITHER = {"LICENSE-APACHE", "LICENSE-MIT"}
# what each program has, whatever its crates name
ALWAYS = ("core", "std")


class Unlicensed(Exception):
    """A text that is none of the licences that are known here."""


def kit_folder() -> Path | None:
    """The folder of the toolchain's kit; None where there is no toolchain."""
    rt = shutil.which(os.environ.get("RT") or "rt")
    return Path(os.path.realpath(rt)).parent.parent if rt else None


def licence_of(text: str) -> str:
    """The name that SPDX has for the licence of a text."""
    words = " ".join(text.split())
    if (
        "Permission is hereby granted, free of charge, to any person obtaining a copy of this "
        "software" in words
    ):
        return "MIT"
    if "Apache License Version 2.0, January 2004" in words:
        return "Apache-2.0"
    if "UNICODE LICENSE V3" in words:
        return "Unicode-3.0"
    raise Unlicensed(words[:60])


def mit_terms(text: str) -> str:
    """The terms of an MIT licence, without what is before them: the holders."""
    return text[text.index("Permission is hereby granted") :].strip()


@dataclass(frozen=True)
class Crate:
    """A crate of the kit, with its folder."""

    name: str
    folder: Path

    @cached_property
    def files(self) -> dict[str, str]:
        """The texts of its licences, by the names of their files. Many crates have none."""
        return {
            it.name: it.read_text(encoding="utf-8") for it in sorted(self.folder.glob("LICENSE*"))
        }

    @property
    def texts(self) -> dict[str, str]:
        """The same by the name that SPDX has for each licence."""
        return {licence_of(it): it for it in self.files.values()}

    @property
    def licence(self) -> str:
        """By which licences it may be used: by either, or by all where one is of a part."""
        named = {licence_of(text): name for name, text in self.files.items()}
        word = " OR " if set(named.values()) <= EITHER else " AND "
        return word.join(sorted(named, reverse=True)) or "NOASSERTION"

    @property
    def holders(self) -> list[str]:
        """Who the licences say it belongs to."""
        found = {
            " ".join(it.split()) for text in self.files.values() for it in HOLDER.findall(text)
        }
        return sorted(it for it in found if "[yyyy]" not in it)

    @cached_property
    def ported(self) -> tuple[str, str] | None:
        """The Rust crate of which it is a port, with the version."""
        readme = self.folder / "README.md"
        found = (
            PORTED.search(readme.read_text(encoding="utf-8")[:HEAD]) if readme.exists() else None
        )
        return (found[1], found[2]) if found else None


def names_linked(crates: str, rlibs: Path) -> list[str]:
    """The crates of the kit that the program stands on, by this repository's list and the kit's."""
    own = below(crates)
    lines = [line.partition(":") for line in crates.splitlines() if line.partition("#")[0].strip()]
    names = [
        *ALWAYS,
        *(
            it
            for head, _, used in lines
            if head.split()[0] in own
            for it in used.split()
            if it not in own
        ),
    ]
    found: list[str] = []
    while names:
        name = names.pop()
        if name not in found:
            found.append(name)
            names += USED.findall((rlibs / f"{name}.rlib/format").read_text(encoding="utf-8"))
    return sorted(found)


def linked(kit: Path) -> list[Crate]:
    """The crates of this kit that the program is linked of."""
    names = names_linked((TOP / "crates.txt").read_text(encoding="utf-8"), kit / "rlibs")
    return [Crate(it, kit / "rattle" / it) for it in names]


def paragraph(text: str) -> str:
    """A text as the continued lines of a field of Debian's form."""
    return "\n".join(f" {line}" if line.strip() else " ." for line in text.splitlines())


def stanza(files: str, holders: Iterable[str], licence: str, comment: str = "") -> str:
    """A paragraph on files in Debian's form."""
    whose = "\n           ".join(holders) or "its authors, whom the licence doesn't name"
    told = licence.replace(" OR ", " or ").replace(" AND ", " and ")
    return "\n".join(
        [
            f"Files: {files}",
            f"Copyright: {whose}",
            f"License: {told}",
            *([f"Comment: {comment}"] if comment else []),
        ]
    )


def copyright_text(crates: list[Crate], own: str) -> str:
    """The file `copyright` of the package, in Debian's form: its own licence, and the crates'.

    `own` is the text of the MIT licence of this repository.
    """
    others = " ".join(it.name for it in crates if not it.texts)
    head = [
        "Format: https://www.debian.org/doc/packaging-manuals/copyright-format/1.0/",
        "Upstream-Name: pgsub",
        "Comment: These crates of the kit have no notice of their own:",
        paragraph(fill(others, 78)),
    ]
    parts = ["\n".join(head), stanza("*", HOLDER.findall(own), OWN)]
    for it in crates:
        if it.texts:
            origin = f", after the crate {it.ported[0]} {it.ported[1]}" if it.ported else ""
            told = f"Linked into /usr/lib/pgsub/pgsub{origin}."
            parts.append(stanza(f"kit/{it.name}/*", it.holders, it.licence, told))
    terms = {
        mit_terms(text) for it in crates for name, text in it.texts.items() if name == "MIT"
    } | {mit_terms(own)}
    if len({" ".join(it.split()) for it in terms}) != 1:
        raise Unlicensed("the terms of MIT differ")
    parts.append(f"License: MIT\n{paragraph(mit_terms(own))}")
    parts.append(
        "License: Apache-2.0\n On Debian its text is in /usr/share/common-licenses/Apache-2.0."
    )
    return "\n\n".join(parts) + "\n"
