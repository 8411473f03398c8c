"""The statement as one page of HTML, self-contained and without a script: for somebody who checks
what is claimed."""

from __future__ import annotations

import html
import re
import textwrap
from collections.abc import Callable, Sequence
from pathlib import Path

from documents.texts import SPAN

from .contracts import Clause, Contracts, begin, declaration_of, imports_of
from .definitions import TOKEN, Definition, Module, Name, Statement, named_by, names_of
from .examples import Cases, all_cases, named_in
from .sections import sections_of
from .sentences import SECTIONS, is_open, sentences_in

STYLE = (Path(__file__).parent / "page.css").read_text(encoding="utf-8")
NOTATION = (
    ("A → B", "from each A a B: where A holds, B does; as a type, a function"),
    ("A × B, (x : A) × B", "both; there is an x for which B"),
    ("A ⊎ B", "one or the other"),
    ("a ≡ b, a ≢ b", "equal, not equal"),
    ("∥ A ∥₁", "there is an A, and which one isn't said"),
    ("λ x. e", "the function that gives e for x"),
    ("x ∷ xs, a ++ b, []", "a list's first element and the others; two lists joined; no elements"),
    (
        "Ok, Err, Some, None",
        "as in Rust; OnOk, OnErr, IfErr say what holds of a result that is one",
    ),
    (
        "x.old, x.new, x.now",
        "in a clause: what an argument is before the call, after it, as it is given",
    ),
    ("⊤, ⊥, Unit", "what always holds, and what never does"),
)
LINK = re.compile(r"\[([^\]]+)\]\(([^)\s]+)\)")

Resolve = Callable[[str], str | None]


def anchor(kind: str, *parts: str) -> str:
    """The identifier of a place in the page."""
    return "-".join(
        [kind, *(re.sub(r"[^\w.:]", lambda it: f"_{ord(it[0]):x}", part) for part in parts)]
    )


def code(text: str, resolve: Resolve) -> str:
    """A text of definitions, in which each name that is known is a link."""
    shown, at = [], 0
    for line in text.splitlines(keepends=True):
        is_comment = line.lstrip().startswith("--")
        shown.append("<i>" * is_comment)
        at = 0
        for token in [] if is_comment else TOKEN.finditer(line):
            goal = resolve(token[0])
            shown.append(html.escape(line[at : token.start()]))
            word = html.escape(token[0])
            shown.append(f'<a href="#{goal}">{word}</a>' if goal else word)
            at = token.end()
        shown += [html.escape(line[at:]), "</i>" * is_comment]
    return f"<pre>{''.join(shown).rstrip()}</pre>"


def prose(text: str) -> str:
    """A sentence of a document, with its code spans. A link is its words."""
    text, shown, at = LINK.sub(r"\1", text), [], 0
    for span in SPAN.finditer(text):
        shown += [html.escape(text[at : span.start()]), f"<code>{html.escape(span[2])}</code>"]
        at = span.end()
    shown.append(html.escape(text[at:]))
    return re.sub(r"\*\*?([^*<>]+)\*\*?", r"<em>\1</em>", "".join(shown))


class Page:
    """The page of some clauses."""

    def __init__(self, top: Path, titles: Sequence[str]) -> None:
        self.top, self.titles = top, titles
        self.crates = top / "crates"
        self.contracts = Contracts(self.crates)
        self.statement = Statement(self.crates)
        self.sentences = {
            (file, heading, crate): sentences_in(top, file, heading, self.contracts, crate)
            for file, heading, crate in SECTIONS
        }
        for title in titles:
            begin(self.statement, self.contracts.named(title))
        for clause in self.clauses():
            begin(self.statement, clause)
        self.known = {(it.module, it.name) for it in self.statement.found}
        # the types that are declared in Rust, and the words of the standard library, in the order
        # in which they come
        self.types: dict[tuple[str, str], None] = {}
        self.words: dict[Name, None] = {}

    def clauses(self) -> list[Clause]:
        """The clauses that the documents name, each once."""
        return list(
            dict.fromkeys(
                it for found in self.sentences.values() for one in found for it in one.clauses
            )
        )

    def resolver(self, module: Module, source: str) -> Resolve:
        """What a word of a text in this module leads to."""

        def goal(token: str) -> str | None:
            for word in names_of(token):
                for name in named_by(module, source, word):
                    if found := self.goal_of(name):
                        return found
            return None

        return goal

    def goal_of(self, name: Name) -> str | None:
        home = self.statement.home_of(name)
        if home:
            return anchor("d", *home) if home in self.known else None
        source, local = name
        crate, dot, rest = source.partition(".specs.declared.")
        if dot:
            path = [it for it in rest.split(".") if it != "TheVariants"]
            self.types[crate, path[-1]] = None
            return anchor("t", crate, path[-1])
        if source.startswith(("std.", "sqlite")):
            self.words[name] = None
            return anchor("w", source, local)
        return None

    def clause(self, clause: Clause) -> str:
        text = textwrap.dedent(" " * 400 + clause.text[1:-1].strip()).strip()
        text = re.sub(r"\n\s+", "\n  ", text)
        head = f'<p class="name">{html.escape(clause.title())}</p>'
        return head + code(text, self.resolver(imports_of(clause.path), ""))

    def claims(self) -> str:
        """Each sentence of the documents beside its clauses. Clauses that the sentence before has
        too aren't written again."""
        shown, before = list[str](), tuple[Clause, ...]()
        for (file, heading, _), sentences in self.sentences.items():
            shown.append(f"<h3>{html.escape(heading)} <small>{file}</small></h3>")
            for it in sentences:
                says = (
                    prose(it.text.removeprefix("- "))
                    if it.kind != "code"
                    else f"<pre>{html.escape(it.text)}</pre>"
                )
                if it.clauses and it.clauses == before:
                    names = '<p class="name">as above</p>'
                else:
                    names = (
                        "".join(map(self.clause, it.clauses))
                        or f'<p class="none">{"not claimed" if is_open(it.text) else "names no clause"}</p>'
                    )
                shown.append(
                    f'<div class="claim"><div class="says {it.kind}">{says}</div><div>{names}</div></div>'
                )
                before = it.clauses
        return "\n".join(shown)

    def definitions(self) -> str:
        """The definitions in reading order, under the heads of their modules."""
        sections = sections_of((self.top / "docs/PROTOCOL.md").read_text(encoding="utf-8"))
        shown, last, headed = [], "", set[str]()
        for it in self.statement.found:
            module = self.statement.modules[it.module]
            if it.module != last and module:
                shown.append(f"<h3>{html.escape(it.module)}</h3>")
                if it.module not in headed:
                    links = [
                        f'<a href="{html.escape(one.url)}">{html.escape(one.title)}</a>'
                        for one in sections.get(it.module, [])
                    ]
                    shown.append(f"<p>{prose(comment_of(module.head))}</p>")
                    shown.append(
                        f"<p>PostgreSQL documentation: {', '.join(links)}</p>" if links else ""
                    )
                last = it.module
                headed.add(last)
            if module:
                shown.append(self.definition(it, module))
        return "\n".join(shown)

    def definition(self, it: Definition, module: Module) -> str:
        cases = self.cases().get((it.module, it.name), [])
        links = ", ".join(
            f'<a href="#{anchor("e", *case)}">{html.escape(case[1])}</a>' for case in cases
        )
        held = (
            f"<details><summary>{len(cases)} examples</summary><p>{links}</p></details>"
            if cases
            else ""
        )
        return f'<section id="{anchor("d", it.module, it.name)}">{code(it.text(), self.resolver(module, it.module))}{held}</section>'

    def all_cases(self) -> list[Cases]:
        if not hasattr(self, "_cases"):
            self._cases = all_cases(self.crates)
        return self._cases

    def cases(self) -> dict[Name, list[Name]]:
        """The examples of each definition."""
        if not hasattr(self, "_by_definition"):
            self._by_definition: dict[Name, list[Name]] = {}
            for cases in self.all_cases():
                for example in cases.examples:
                    for name in sorted(named_in(self.statement, cases, example) & self.known):
                        self._by_definition.setdefault(name, []).append((cases.name, example.name))
        return self._by_definition

    def examples(self) -> str:
        """The worked cases that name a definition of the page."""
        used = {case for found in self.cases().values() for case in found}
        shown = []
        for cases in self.all_cases():
            own = [it for it in cases.examples if (cases.name, it.name) in used]
            if own:
                shown.append(
                    f"<h3>{html.escape(cases.name)}</h3><p>{prose(comment_of(cases.module.head))}</p>"
                )
            for it in own:
                text = code(it.text(), self.resolver(cases.module, cases.name))
                shown.append(f'<section id="{anchor("e", cases.name, it.name)}">{text}</section>')
        return "\n".join(shown)

    def declared(self) -> str:
        """The types that the sources declare, and from which the prover derives those of the
        definitions."""
        shown = []
        for crate, name in sorted(self.types):
            text = declaration_of(self.crates, crate, name)
            shown.append(
                f'<section id="{anchor("t", crate, name)}"><p class="name">{crate}::{name}</p>'
            )
            shown.append(f"<pre>{html.escape(text)}</pre></section>" if text else "</section>")
        return "\n".join(shown)

    def library(self) -> str:
        """The words of the standard library and the SQL library, each with its module."""
        rows = [
            f'<li id="{anchor("w", *it)}"><code>{html.escape(it[1])}</code> <small>{html.escape(it[0])}</small></li>'
            for it in sorted(self.words)
        ]
        return f'<ul class="words">{"".join(rows)}</ul>'

    def counts(self) -> str:
        rows = []
        for title in self.titles:
            own = Statement(self.crates)
            begin(own, self.contracts.named(title))
            lines = sum(1 for it in own.found for line in it.lines if line.strip())
            rows.append(
                f"<li><code>{html.escape(title)}</code> stands on {len(own.found)} definitions in {lines} lines</li>"
            )
        return f"<ul>{''.join(rows)}</ul>"

    def whole(self) -> str:
        kits = (self.top / "KITS").read_text(encoding="utf-8").splitlines()
        kit = ", ".join(it for it in kits if it and not it.startswith("#"))
        notation = "".join(
            f"<dt><code>{html.escape(sign)}</code></dt><dd>{html.escape(said)}</dd>"
            for sign, said in NOTATION
        )
        # (types and words are gathered while the others are written)
        claims, definitions, examples = self.claims(), self.definitions(), self.examples()
        parts = (
            ("claims", "What is claimed, and by which clause", claims),
            ("notation", "How to read it", f"<dl>{notation}</dl>"),
            ("definitions", "The definitions, each after those that it names", definitions),
            ("types", "Types that the sources declare", self.declared()),
            ("library", "Words of the libraries", self.library()),
            ("examples", "The examples that hold the definitions to their meaning", examples),
        )
        links = " · ".join(
            f'<a href="#{name}">{html.escape(title)}</a>' for name, title, _ in parts
        )
        body = "\n".join(
            f'<h2 id="{name}">{html.escape(title)}</h2>\n{text}' for name, title, text in parts
        )
        return (
            '<!doctype html>\n<html lang="en"><head><meta charset="utf-8"><meta name="viewport" content="width=device-width">'
            f"<title>Raspmyrtle: the statement</title><style>{STYLE}</style></head><body>\n"
            "<h1>Raspmyrtle: the statement</h1>\n"
            "<p>What is proved of this subscriber of PostgreSQL's logical replication, for somebody who checks the claim and not the proofs. "
            f"The prover accepts each clause below for its function; it is that of {html.escape(kit)}.</p>\n"
            f"{self.counts()}<nav>{links}</nav>\n{body}\n</body></html>\n"
        )


def comment_of(lines: Sequence[str]) -> str:
    return " ".join(it.removeprefix("--").strip() for it in lines)


def page_of(top: Path, titles: Sequence[str]) -> str:
    """The page of these clauses, and of all that the documents name."""
    return Page(top, titles).whole()
