"""What the documents say is proved, each sentence with the clauses that it names.

A sentence names a clause in a code span: `follow`'s clause `safe` as "clause `safe` of
`pgsub_core::follow`", a law by its name. Where a function is named once, the clauses that follow it
are its own. An item that names a function and none of its clauses names the whole contract.
The lines of a quotation or a list stand for the sentence before them that ends with a colon, unless
they name clauses themselves. What is open or only tested names none.
"""

from __future__ import annotations

import re
from collections.abc import Iterator
from dataclasses import dataclass
from pathlib import Path

from documents import texts

from .contracts import Clause, Contracts

# the documents' sections that say what is proved, and the crate that each is of
SECTIONS = (
    ("docs/PROOFS.md", "The theorem", "pgsub_core"),
    ("docs/PROOFS.md", "What a crash leaves", "pgsub_core"),
    ("docs/PROOFS.md", "Following a live server", "pgfollow"),
    ("docs/PROOFS.md", "A run over files", "pgruns"),
    ("docs/PROOFS.md", "What each crate promises", ""),
    ("docs/PROOFS.md", "A feed", "pgfeed"),
)
CRATE_ITEM = re.compile(r"^- `(\w+)`")
SENTENCE = re.compile(r"(?<=[.:;])\s+(?=[A-Z`|>])")


@dataclass(frozen=True)
class Sentence:
    """A sentence of a document, and the clauses that it names or stands under."""

    text: str
    clauses: tuple[Clause, ...]
    # a quotation, an item of a list, or prose
    kind: str = ""


class Reader:
    """Reads a section: which functions are spoken of, and what the lines below a colon stand
    for."""

    def __init__(self, contracts: Contracts, crate: str = "") -> None:
        self.contracts = contracts
        self.crate = crate
        # the clauses of the functions that were named, the latest sentence's first
        self.spoken: list[list[Clause]] = []
        self.inherited: tuple[Clause, ...] = ()

    def functions_in(self, spans: list[str]) -> list[Clause]:
        """The clauses of all functions that these code spans name."""
        return [clause for span in spans for clause in self.function(span.removesuffix("()"))]

    def function(self, span: str) -> list[Clause]:
        """The clauses of a function: `crate::name`, `Type::name` or a name alone."""
        if not re.fullmatch(r"\w+(?:::\w+)*", span):
            return []
        *places, name = span.split("::")
        owner = next((it for it in places if it[0].isupper()), "")
        crate = next((it for it in places if it[0].islower()), "")
        for home in [crate] if crate else [self.crate, ""]:
            if found := self.contracts.of(name, home, owner):
                return (
                    found if crate or owner or home or len({it.crate for it in found}) == 1 else []
                )
        return []

    def named_in(self, text: str, kind: str) -> list[Clause]:
        """The clauses that a sentence names."""
        # (the first cell of a row names commands)
        spans = texts.spans_of(text if kind != "row" else text.split("|", 2)[2])
        functions = self.functions_in(spans)
        if functions:
            self.spoken.insert(0, functions)
        found = [it for span in spans for it in self.clauses_named(span)]
        found += [it for it in functions if is_law(text, it.function)]
        if kind == "item":
            partly = {(it.crate, it.owner, it.function) for it in found}
            found += [it for it in functions if (it.crate, it.owner, it.function) not in partly]
        return list(dict.fromkeys(found))

    def clauses_named(self, name: str) -> list[Clause]:
        """The clauses of this name, of the functions that were named last and have one."""
        for functions in self.spoken:
            if found := [it for it in functions if it.name == name]:
                return found
        return []

    def sentence(self, text: str, kind: str) -> Sentence:
        if crate := CRATE_ITEM.match(text):
            self.crate = crate[1]
        named = tuple(self.named_in(text, kind))
        if not kind:
            self.inherited = named
        return Sentence(text, named or self.inherited, kind)


def is_open(text: str) -> bool:
    """Whether a sentence says what isn't claimed."""
    return text.startswith(("Open:", "Only tested:"))


def unclaimed_in(top: Path, contracts: Contracts) -> list[str]:
    """The sentences that should name a clause and name none, a line for each."""
    return [
        f"{file}, {heading}: names no clause: {it.text}"
        for file, heading, crate in SECTIONS
        for it in sentences_in(top, file, heading, contracts, crate)
        if not it.clauses and not is_open(it.text)
    ]


def is_law(text: str, name: str) -> bool:
    return bool(re.search(rf"\blaws?\b[^.;]*`{re.escape(name)}`", text))


def blocks_of(section: str) -> Iterator[tuple[str, str]]:
    """The paragraphs, quoted lines, items and rows of a section, each with its kind."""
    for line in texts.lines_of(section):
        text = line.text.strip()
        if line.is_code or line.text.startswith("    "):
            yield line.text.rstrip(), "code"
        elif text.startswith(">"):
            yield text[1:].strip(), "quote"
        elif text.startswith(("- ", "* ")) or re.match(r"\d+\. ", text):
            yield text, "item"
        elif text.startswith("|"):
            # (the head of a table, and the line below it, say nothing)
            yield from [(text, "row")] if "`" in text else []
        elif text:
            yield text, ""


def sentences_in(
    top: Path, file: str, heading: str, contracts: Contracts, crate: str
) -> list[Sentence]:
    """Those of a document's section, none where it isn't there."""
    path = top / file
    text = path.read_text(encoding="utf-8") if path.is_file() else ""
    return sentences_of(texts.section_of(text, heading), contracts, crate)


def sentences_of(section: str, contracts: Contracts, crate: str = "") -> list[Sentence]:
    """The sentences of a section, in their order. A function that is named alone is this crate's,
    if it has one of that name."""
    reader, found = Reader(contracts, crate), list[Sentence]()
    for text, kind in blocks_of(section):
        parts = SENTENCE.split(text) if not kind else [text]
        found += [reader.sentence(part, kind) for part in parts if part]
    return found
