"""The sections of PostgreSQL's documentation that each module of definitions states, as
docs/PROTOCOL.md names them."""

from __future__ import annotations

import re
from dataclasses import dataclass

LINK = re.compile(r"\[([^\]]+)\]\((https?://[^)\s]+)\)")
LISTED = re.compile(r"^- ([\w ]+): (.*https?://.*)$")
STATED = re.compile(r"^\*([^*]+)\*$")


@dataclass(frozen=True)
class Section:
    """A section of the documentation: its title and its address."""

    title: str
    url: str


def sections_of(protocol: str) -> dict[str, list[Section]]:
    """The sections by module, as CRATE.specs.MODULE."""
    listed: dict[str, list[Section]] = {}
    found: dict[str, list[Section]] = {}
    for line in protocol.splitlines():
        if entry := LISTED.match(line):
            listed[entry[1]] = [Section(*it) for it in LINK.findall(entry[2])]
        elif stated := STATED.match(line):
            named = re.findall(r"`(\w+)/([\w/]+)`", stated[1])
            prose = re.sub(r"`[^`]*`", "", stated[1])
            sections = [it for name, its in listed.items() if name in prose for it in its]
            for crate, module in named:
                known = found.setdefault(f"{crate}.specs.{module.replace('/', '.')}", [])
                known += [it for it in sections if it not in known]
    return found
