"""The functions of a crate's files, by the layout of `rt fmt` and by the names that a check prints,
and copies that leave their bodies out."""

import re
from collections.abc import Callable, Collection, Mapping
from pathlib import Path
from typing import NamedTuple

FUNCTION = re.compile(
    r"^( *)(?:pub(?:\([^)]*\))? +)?(?:(?:const|unsafe|extern \"C\") +)*fn +(\w+)", re.M
)
BLOCK = re.compile(r"^( *)(?:pub +)?(?:unsafe +)?(impl|trait)\b([^{]*)", re.M)
TYPE = re.compile(
    r"^ *(?:pub(?:\([^)]*\))? +)?(?:unsafe +)?(?:struct|enum|union|trait|type) +(\w+)", re.M
)
# Where the head of a function ends: before its clauses, a body of some lines, one of none, or at
# the end of a trait's method without one.
HEAD_END = re.compile(r"^ *(?:ghost|requires|ensures)\b|\{$|\{\}$|;$", re.M)
CLAUSE = re.compile(r"^ *(?:ghost|requires|(ensures)\*?(?: (\w+))?)\b", re.M)


class Function(NamedTuple):
    """A function with a body: its offsets, its name, and of a method its type and the trait of its
    impl, or nothing."""

    start: int
    end: int
    name: str
    owner: str
    trait: str


def owner_of(kind: str, head: str) -> tuple[str, str]:
    """Returns what a check prints of the type of an impl, and of its trait, or of a trait alone;
    the head is what stands behind the keyword.

    A method of `impl<T> Held<T>` is printed as `Held::name`, one of `impl<T> Held<Inner<T>>` as
    `Held+Inner+T::name`, one of `impl<T> Store for Held<Inner<T>>` as `HeldInnerStore::name`, and
    one of `impl<T> Store for T` as `AnyStore::name`."""
    head = re.sub(r"\s+where\s.*", "", head.replace("->", ""), flags=re.S)
    if kind == "trait":
        return re.findall(r"\w+", head)[0], ""
    own = end_of_brackets(head)
    # (a parameter's bounds stand behind its name)
    parameters = set(
        re.findall(
            r"(?:^|,)\s*(?:const )?(\w+)", without_brackets(head[1 : own - 1]) if own else ""
        )
    )
    trait, _, held = head[own:].rpartition(" for ")
    words = words_of(held)
    if trait:
        camel = [
            "".join(it[0].upper() + it[1:] for it in some if it not in parameters)
            for some in (words, words_of(trait))
        ]
        return camel[0] or "Any", camel[1]
    arguments = words[1:]
    is_of_all = parameters.issuperset(arguments) and len(set(arguments)) == len(arguments)
    return words[0] if is_of_all else "+".join(words), ""


def end_of_brackets(text: str) -> int:
    """Returns the offset behind the angle brackets that a text begins with, or 0."""
    depth = 0
    for it in re.finditer(r"[<>]", text):
        depth += 1 if it[0] == "<" else -1
        if depth == 0:
            return it.end() if text.startswith("<") else 0
    return 0


def without_brackets(text: str) -> str:
    """Returns a text without what stands in angle brackets or parentheses."""
    shorter = re.sub(r"<[^<>]*>|\([^()]*\)", "", text)
    return text if shorter == text else without_brackets(shorter)


def words_of(type_: str) -> list[str]:
    """Returns the words that a check prints of a type: its names, without paths and lifetimes."""
    words = re.findall(r"&|(?<!')\b\w+\b(?!::)", type_)
    return ["ref" if it == "&" else it for it in words if it != "mut"]


def functions(text: str) -> list[Function]:
    """Returns each function with a body, by the layout of rt fmt."""

    def end_of(it: re.Match[str]) -> int:
        end = re.compile(rf"^{it[1]}}}", re.M).search(text, it.end())
        return end.end() if end else len(text)

    blocks = [(it.start(), end_of(it), *owner_of(it[2], it[3])) for it in BLOCK.finditer(text)]
    found = []
    for it in FUNCTION.finditer(text):
        around = [(owner, trait) for start, end, owner, trait in blocks if start < it.start() < end]
        found.append(Function(it.start(), end_of(it), it[2], *(around[-1] if around else ("", ""))))
    return found


def function_at(text: str, offset: int) -> Function | None:
    around = [it for it in functions(text) if it.start <= offset < it.end]
    return around[-1] if around else None


def module_of(path: str) -> str:
    return re.sub(r"(?:^|/)(?:lib|main|mod)$", "", path[len("src/") : -len(".rt")]).replace(
        "/", "::"
    )


def calls_in(texts: Collection[str]) -> dict[str, set[str]]:
    """Returns, for each function name in these texts, the names of functions in its body. A call
    that this misses costs a second run, and no more."""
    calls: dict[str, set[str]] = {}
    for text in texts:
        for it in functions(text):
            body = re.sub(r"//[^\n]*", "", text[it.start : it.end])
            body = body[max(body.find("\n{"), 0) :]
            words = re.findall(r"\b(\w+)(?:::<[^()]*>)?\(|::(\w+)\b|[(,] ?(\w+)(?=[,)])", body)
            calls.setdefault(it.name, set()).update(
                word for group in words for word in group if word
            )
    return {name: (words & calls.keys()) - {name} for name, words in calls.items()}


def callees(calls: Mapping[str, set[str]]) -> dict[str, set[str]]:
    """Returns all names that each of these leads to."""
    found = {name: set(to) for name, to in calls.items()}
    grows = True
    while grows:
        grows = False
        for name, to in found.items():
            more = set[str]().union(*(found[it] for it in to)) - to - {name}
            grows = grows or bool(more)
            to |= more
    return found


def body_at(text: str, start: int) -> int | None:
    """Returns the offset of the brace before the body of the function that starts here, or nothing
    where it has no body of some lines."""
    end = HEAD_END.search(text, start)
    if end and end[0][-1:] not in "{};":
        # (a line of a clause may end in a brace or a semicolon, too)
        indent = len(text) - start - len(text[start:].lstrip(" "))
        following = FUNCTION.search(text, end.end())
        end = re.compile(rf"^ {{{indent}}}\{{$", re.M).search(
            text, end.end(), following.start() if following else len(text)
        )
    return end.end() - 1 if end and end[0].endswith("{") else None


def clauses_at(text: str, offset: int) -> set[str]:
    """Returns the names of the clauses that say what the function at this offset ensures."""
    function = function_at(text, offset)
    body = body_at(text, function.start) if function else None
    return (
        {it[2] or "" for it in CLAUSE.finditer(text, function.start, body) if it[1]}
        if function and body
        else set()
    )


def with_clauses(head: str, wanted: Collection[str]) -> str:
    """Returns the head of a function with only these of the clauses that say what it ensures."""
    text = head.rstrip()
    starts = [*CLAUSE.finditer(text)]
    ends = [*(it.start() for it in starts[1:]), len(text)]
    for it, end in reversed([*zip(starts, ends)]):
        if it[1] and it[2] not in wanted:
            text = text[: it.start()] + text[end:]
    return text.rstrip() + head[len(head.rstrip()) :]


class Bodies:
    """The functions with a body of a crate's files, as texts by path, each with the name that a
    check prints."""

    def __init__(self, crate: str, texts: Mapping[str, str]) -> None:
        self.crate, self.texts = crate, texts
        self.modules = {
            it[1]: module_of(path) for path, text in texts.items() for it in TYPE.finditer(text)
        }

    def name_of(self, path: str, function: Function) -> str:
        # (an impl of a trait, and one for some arguments of a type alone, has its own module)
        module = (
            module_of(path) if function.trait else self.modules.get(function.owner, module_of(path))
        )
        return "::".join(
            it for it in (self.crate, module, function.owner + function.trait, function.name) if it
        )

    def only_with(self, clauses_of: Callable[[str], Collection[str]]) -> dict[str, str]:
        """Returns the texts where, of a function with this name, only these clauses say what it
        ensures; all, where none are given."""
        texts = {}
        for path, text in self.texts.items():
            for it in reversed(functions(text)):
                wanted, body = clauses_of(self.name_of(path, it)), body_at(text, it.start)
                if wanted and body:
                    text = (
                        text[: it.start] + with_clauses(text[it.start : body], wanted) + text[body:]
                    )
            texts[path] = text
        return texts

    def emptied(self, is_kept: Callable[[str], bool]) -> tuple[dict[str, str], list[str]]:
        """Returns the texts with bodies that say nothing, but for the kept functions, and the names
        of the others."""
        texts, names = {}, []
        for path, text in self.texts.items():
            for it in reversed(functions(text)):
                name = self.name_of(path, it)
                body = None if is_kept(name) else body_at(text, it.start)
                if body:
                    text = f"{text[:body]}{{ unreachable!() }}{text[it.end :]}"
                    names.append(name)
            texts[path] = text
        return texts, names


def leave_open(proofs: Path, name: str) -> None:
    """Leaves the proof of a function open in this folder of proofs: with --allow-holes its contract
    counts as met."""
    crate, *path, function = name.split("::")
    folder = Path(proofs, *path, function)
    folder.mkdir(parents=True, exist_ok=True)
    for file in ("Answers.antt", "Invariants.antt"):
        (folder / file).unlink(missing_ok=True)
    module = ".".join(["Rattle", crate, "proofs", *path, function])
    (folder / "Proof.antt").write_text(
        f"use {module}.Statement as stated\npub {function}_spec : {{M : Type 1}} → stated.statement M\n{function}_spec = ?\n",
        encoding="utf-8",
    )
