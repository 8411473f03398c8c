"""Checks of the documents by their texts. Each returns what is wrong, a line for each."""

import os
import re
import subprocess
from collections.abc import Iterator, Sequence
from dataclasses import dataclass
from fnmatch import fnmatch
from functools import cache, cached_property
from pathlib import Path

from . import texts

# How many words each document may have, and all of docs/ together.
SHARES = {
    "README.md": 800,
    "docs/ARCHITECTURE.md": 1735,
    "docs/PROOFS.md": 3300,
    "docs/PROTOCOL.md": 3040,
    "docs/OPERATING.md": 3315,
    "docs/DECISIONS.md": 1415,
    "docs/PERFORMANCE.md": 1000,
    "docs/CONTRIBUTING.md": 1295,
    "docs/FEED.md": 1200,
    "docs/FORMATS.md": 1200,
}
WHOLE = 17500
# folders that no commit has, or that have no document's paths
SKIPPED = {
    ".git",
    "out",
    "__pycache__",
    ".pytest_cache",
    ".mypy_cache",
    ".hypothesis",
    "differences",
}
# a name with one of these at its end is a file of the tree, wherever it lies
KINDS = (
    ".md",
    ".rt",
    ".antt",
    ".py",
    ".svg",
    ".txt",
    ".edit",
    ".toml",
    ".service",
    ".rattle",
    ".sh",
)
GROUP = re.compile(r"^- \*\*(\w+)\*\*")
PATH = re.compile(r"(?<![\w/.:~$-])\.?[\w.*{}-]+(?:/[\w.*{}-]+)*/?")
URL = re.compile(r"\b[a-z]+://[^\s)>`]+")
# each of these words stands for any name
PLACEHOLDER = re.compile(
    r"(?<![A-Z_])(?:NAME|CRATE|MODULE|FUNCTION|KIND|M|F|WHAT|WHAT_IT_DOES)(?![A-Z_])"
)
PARTS = ("src", "specs", "proofs", "must-fail", "mutants")
OPTION = re.compile(r"(?<![\w-])--[a-z][a-z0-9-]*")
LONG = re.compile(r"\.long\(\s*\"([a-z0-9-]+)\"")
# An option of the connector is called as its field is.
FIELD = re.compile(
    r"^    (\w+):[^=\n]*= (?:\w+\.)?(?:option|flag|file|repeated|\w+_option|longest)\(", re.M
)
# The schemes of what sinks write to, in the connector.
SCHEMES = re.compile(r"^SCHEMES = \{(.*?)^\}", re.M | re.S)
SCHEME = re.compile(r'"([a-z+]+)"[,)]')
# what PROOFS says of the definitions behind the statement is said of these clauses
THEOREM = "pgsub_core::follow.safe"
# what README says of itself first, and which of its lines on trust say what of which files
FIRST = ("PostgreSQL", "SQLite", "Redis", "NATS", "verif", "`pgsub-connect`", "`pgsub`")
TRUST = {
    "**Proved**": ("`pgsub`", "`copy.db`", "feed"),
    "**Assumed**": ("the server", "the disk", "the toolchain"),
    "**Only tested**": ("`pgsub-connect`", "`rows.db`", "sinks"),
}
CLAUSES = (
    THEOREM,
    "pgsub_core::follow.followed",
    "pgsub_core::follow.crash",
    "pgsub_core::follow.tally",
    "pgsub_core::follow.fed",
    "pgsub_core::converge.agree",
    "pgsub_core::converge.converges",
    "pgsub_core::left_is_start.start",
    "pgfollow::follow_live.followed",
    "pgrecovery::crashes_lose_nothing_confirmed.followed",
    "pgrecovery::one_life_holds_one_history.life",
    "pgrecovery::entries_are_transactions.told",
    "pgruns::follow.ran",
    "pgruns::follow.unopened",
    "pgruns::follow.unfed",
    "pgruns::apply.ran",
    "pgruns::apply.unopened",
    "pgruns::apply.unfed",
    "pgruns::dump.ran",
    "pgruns::dump.unopened",
)
# commands whose options aren't ours
FOREIGN = (
    "rt",
    "psql",
    "git",
    "apt",
    "apt-get",
    "systemctl",
    "createdb",
    "journalctl",
    "pip",
    "sqlite3",
    "docker",
    "mypy",
    "python3",
    "sudo",
)


@dataclass(frozen=True, eq=False)
class Tree:
    """The files of a repository, as they were when each was looked for first."""

    top: Path

    @cached_property
    def files(self) -> list[str]:
        found = []
        for folder, folders, names in os.walk(self.top):
            folders[:] = sorted(it for it in folders if it not in SKIPPED)
            found += [os.path.relpath(os.path.join(folder, it), self.top) for it in sorted(names)]
        return found

    @cached_property
    def paths(self) -> set[str]:
        """All files, and the folders that have one."""
        found = set(self.files)
        for file in self.files:
            found.update(str(it) for it in Path(file).parents)
        return found - {"."}

    @cached_property
    def tops(self) -> set[str]:
        return {it.split("/")[0] for it in self.paths}

    @cached_property
    def names(self) -> set[str]:
        return {Path(it).name for it in self.paths}

    @cached_property
    def crates(self) -> set[str]:
        return {
            it.split("/")[1] for it in self.files if it.startswith("crates/") and it.count("/") > 1
        }

    def has(self, pattern: str) -> bool:
        pattern = pattern.rstrip("/")
        return pattern in self.paths or (
            "*" in pattern and any(fnmatch(it, pattern) for it in self.paths)
        )

    def documents(self) -> list[str]:
        """The texts that are checked."""
        return [
            it for it in self.files if it.endswith(".md") and not it.startswith("bench/results/")
        ]

    def text(self, file: str) -> str:
        return (self.top / file).read_text(encoding="utf-8")


def check_words(tree: Tree) -> tuple[list[str], list[str]]:
    """Returns what is wrong, and a line for each document."""
    wrong, told, whole = [], [], 0
    for file, share in SHARES.items():
        count = texts.words_of((tree.top / file).read_bytes())
        whole += count if file.startswith("docs/") else 0
        told.append(f"{file}: {count} of {share} words")
        if count > share:
            wrong.append(f"{file}: {count} words, and its share is {share}")
    for file in tree.documents():
        if file.startswith("docs/") and file not in SHARES:
            wrong.append(f"{file}: it has no share of the words")
    told.append(f"docs/: {whole} of {WHOLE} words")
    if whole > WHOLE:
        wrong.append(f"docs/: {whole} words, and at most {WHOLE} are allowed")
    return wrong, told


def is_elsewhere(target: str) -> bool:
    return bool(re.match(r"[a-z][a-z0-9+.-]*:", target))


def wrong_link(tree: Tree, file: str, target: str) -> str | None:
    path, _, anchor = target.partition("#")
    goal = file if not path else os.path.normpath(os.path.join(os.path.dirname(file), path))
    if goal not in tree.paths:
        return f"there is no {goal}"
    if anchor and anchor not in texts.anchors_of(tree.text(goal)):
        return f"{goal} has no heading #{anchor}"
    return None


def check_links(tree: Tree, file: str) -> list[str]:
    wrong = []
    for line in texts.lines_of(tree.text(file)):
        for target in [] if line.is_code else texts.links_of(line.text):
            why = None if is_elsewhere(target) else wrong_link(tree, file, target)
            if why:
                wrong.append(f"{file}:{line.number}: link {target}: {why}")
    return wrong


def patterns_of(tree: Tree, token: str) -> list[str] | None:
    """The paths of which one has to be there, None where the token names no path."""
    token = token.removeprefix("./").rstrip(".")
    if not token or token.startswith("-") or "/out/" in f"{token}/":
        return None
    pattern = PLACEHOLDER.sub("*", token)
    first, _, rest = pattern.partition("/")
    if rest and token.split("/")[0] in tree.tops:
        return [pattern]
    if rest and first in tree.crates:
        return [f"crates/{pattern}{end}" for end in ("", ".antt", ".rt")] + [
            f"crates/{first}/specs/{rest}.antt"
        ]
    if rest and first in PARTS:
        return [f"crates/*/{pattern}"]
    if not rest and token.endswith(KINDS) and "*" not in token and not token.startswith("."):
        return [pattern, f"*/{pattern}"]
    return None


def check_paths(tree: Tree, file: str) -> list[str]:
    wrong = []
    for line in texts.lines_of(tree.text(file)):
        for found in PATH.finditer(URL.sub("", line.text)):
            patterns = patterns_of(tree, found[0])
            if patterns and not any(tree.has(it) for it in patterns):
                wrong.append(f"{file}:{line.number}: there is no {found[0]}")
    return wrong


def sources_of(tree: Tree, command: str) -> list[str] | None:
    """The files that tell a command's options, None where the command isn't the repository's."""
    name = Path(command).name
    if name == "pgsub":
        return [it for it in tree.files if it.startswith("crates/pgcommand/src/") or it == "pgsub"]
    if name in ("pgsub-connect", "pgsub-feed"):
        return [
            it
            for it in tree.files
            if it.startswith(("connect/pgsub_connect/", "connect/pgsub_feed/"))
            or Path(it).name == name
        ]
    if command.startswith("bench/"):
        return [it for it in tree.files if it.startswith("bench/") and not it.endswith(".md")]
    if name == "install" and "install" in tree.files:
        return ["install"]
    if not command.startswith("tools/") or command not in tree.files:
        return None
    modules = re.findall(r"^\s*(?:from|import) (\w+)", tree.text(command), re.M)
    return [
        command,
        *(
            it
            for it in tree.files
            for module in modules
            if it == f"tools/{module}.py" or it.startswith(f"tools/{module}/")
        ),
    ]


def options_in(tree: Tree, files: list[str]) -> set[str]:
    found = {"--help"}
    for file in files:
        text = tree.text(file)
        found.update(OPTION.findall(text), (f"--{it}" for it in LONG.findall(text)))
        found.update("--" + it.replace("_", "-") for it in FIELD.findall(text))
    if any(it.startswith("crates/pgcommand/") for it in files):
        found.add("--version")
    return found


def commands_in(line: texts.Line) -> Iterator[tuple[str, str]]:
    """Gives each text of a line that may have options, with the command that it begins with."""
    if line.is_code:
        words = line.text.removeprefix("$ ").split()
        yield (words[0] if words else ""), line.text
        return
    for span in texts.spans_of(line.text):
        yield span.split()[0], span
    yield "", texts.SPAN.sub(" ", line.text)


@cache
def options_of(tree: Tree, command: str) -> set[str]:
    """The options of a command; those of all commands where it isn't the repository's."""
    sources = sources_of(tree, command)
    return all_options(tree) if sources is None else options_in(tree, sources)


@cache
def all_options(tree: Tree) -> set[str]:
    ours = ("tools/", "bench/", "connect/", "crates/pgcommand/src/")
    readable = ("", ".py", ".sh", ".rt", ".toml", ".service")
    return options_in(
        tree,
        [
            it
            for it in tree.files
            if (it.startswith(ours) or it in ("pgsub", "install")) and Path(it).suffix in readable
        ],
    )


def check_options(tree: Tree, file: str) -> list[str]:
    wrong = []
    for line in texts.lines_of(tree.text(file)):
        for command, text in commands_in(line):
            if command not in FOREIGN:
                wrong += [
                    f"{file}:{line.number}: {command or 'nothing'} has an option {it}"
                    for it in OPTION.findall(text)
                    if it not in options_of(tree, command.removeprefix("./"))
                ]
    return wrong


def statement_of(tree: Tree, clauses: Sequence[str]) -> str:
    """What tools/statement prints of these clauses."""
    words = [it for clause in clauses for it in ("--clause", clause)]
    return subprocess.run(
        [tree.top / "tools/statement", *words], capture_output=True, text=True, check=True
    ).stdout


def is_module(tree: Tree, name: str) -> bool:
    """Whether a name is that of a module of definitions, as CRATE/MODULE."""
    crate, _, module = name.partition("/")
    return f"crates/{crate}/specs/{module}.antt" in tree.files


def check_statement(tree: Tree) -> list[str]:
    """PROOFS lists just the modules of the definitions that its clauses stand on, and says how many
    the theorem itself has."""
    told = texts.section_of(tree.text("docs/PROOFS.md"), "Reading the statement")
    try:
        all_of_them, theorem = statement_of(tree, CLAUSES), statement_of(tree, [THEOREM])
    except subprocess.CalledProcessError as error:
        return [str(error.stderr).strip()]
    modules = [
        it.replace(".specs.", "/").replace(".", "/")
        for it in re.findall(r"^(\w+\.specs\.[\w.]+): \d", all_of_them, re.M)
    ]
    named = {span for line in texts.lines_of(told) for span in texts.spans_of(line.text)}
    wrong = [f"docs/PROOFS.md doesn't name {it}" for it in modules if it not in named]
    more = sorted(it for it in named.difference(modules) if is_module(tree, it))
    wrong += [f"docs/PROOFS.md names {it}, on which none of its clauses stands" for it in more]
    count = re.search(r"^(\d+) definitions, (\d+) lines", theorem, re.M)
    if not count or f"{count[1]} definitions in {count[2]} lines" not in told:
        wrong.append(
            f"docs/PROOFS.md doesn't say that the theorem stands on {count[0] if count else 'nothing'}"
        )
    return wrong


def check_claims(tree: Tree) -> list[str]:
    """Each sentence that says what is proved names its clause, and the module that passes on the
    statement is complete."""
    words = [str(tree.top / "tools/statement"), "--check"]
    ran = subprocess.run(words, capture_output=True, text=True, check=False)
    return (ran.stdout + ran.stderr).splitlines()


def groups_of(crates: str) -> dict[str, list[str]]:
    """The crates of each group in crates.txt, where a comment `# NAME: ..` begins one."""
    groups: dict[str, list[str]] = {}
    for line in crates.splitlines():
        name, colon, _ = line.partition(":")
        if colon and name.startswith("# "):
            groups[name[2:]] = []
        elif colon and groups:
            # (a word may follow that says what is made of it)
            groups[[*groups][-1]].append(name.split()[0])
    return groups


def check_groups(tree: Tree) -> list[str]:
    """ARCHITECTURE's list repeats the groups of crates.txt, in their order; `tests_..` stands for
    the crates of tests."""
    file, told = "docs/ARCHITECTURE.md", {}
    groups = groups_of(tree.text("crates.txt"))
    known = {crate for crates in groups.values() for crate in crates}
    for line in texts.lines_of(tree.text(file)):
        found = GROUP.match(line.text)
        if found and found[1].lower() in groups:
            told[found[1].lower()] = [it for it in texts.spans_of(line.text) if it in known]
    grouped = {
        name: [it for it in crates if not it.startswith("tests_")]
        for name, crates in groups.items()
    }
    wrong = [
        f"{file}: the group {name} has {told.get(name)}, and in crates.txt {crates}"
        for name, crates in grouped.items()
        if told.get(name) != crates
    ]
    return wrong or (
        []
        if [*told] == [*groups]
        else [f"{file}: the groups come in another order than in crates.txt"]
    )


def check_copies(tree: Tree) -> list[str]:
    """The recording at the top is the one that rt runs the program on, which may be no link."""
    copy = "crates/pgsub/data/first.pgx"
    if (
        copy in tree.files
        and (tree.top / copy).read_bytes() == (tree.top / "first.pgx").read_bytes()
    ):
        return []
    return [f"{copy}: it differs from first.pgx"]


def check_told(tree: Tree) -> list[str]:
    """The documents have each command of the connector, and FEED each scheme of a sink's URL."""
    whole = "".join(tree.text(it) for it in tree.documents() if it in SHARES)
    names = (re.fullmatch(r"connect/pgsub_connect/commands/(\w+)\.py", it) for it in tree.files)
    commands = sorted(it[1] for it in names if it and not it[1].startswith("_"))
    wrong = [
        f"no document has pgsub-connect {it}"
        for it in commands
        if not re.search(rf"pgsub-connect {it}\b|`{it}`", whole)
    ]
    found = SCHEMES.search(tree.text("connect/pgsub_feed/sinks/urls.py"))
    schemes = SCHEME.findall(found[1]) if found else []
    told = tree.text("docs/FEED.md")
    wrong += [f"docs/FEED.md hasn't {it}://" for it in schemes if f"{it}://" not in told]
    return wrong if commands and schemes else ["there are no commands, or no schemes"]


def check_first_screen(tree: Tree) -> list[str]:
    """README's first paragraph says what it is for and names the programs; below, it says of which
    files anything is proved or tested, and by which logic."""
    text = tree.text("README.md")
    first = text.split("\n\n")[1]
    wrong = [f"README.md: its first paragraph hasn't {it}" for it in FIRST if it not in first]
    trust = texts.section_of(text, "Can I trust it?")
    for begin, words in TRUST.items():
        line = next((it for it in trust.splitlines() if it.startswith(begin)), "")
        wrong += [f"README.md: what is {begin} hasn't {it}" for it in words if it not in line]
    if "type theory" not in trust:
        wrong.append("README.md doesn't name the logic")
    return wrong
