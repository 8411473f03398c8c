"""Manual pages from what commands print for --help."""

import os
import re
import subprocess
from collections.abc import Iterable
from concurrent.futures import ThreadPoolExecutor
from dataclasses import dataclass
from pathlib import Path

OPTION = re.compile(r"(?<![\w-])--[a-z][a-z0-9-]*")
# an item of a list: what it is, and what it does, which may begin in the next line
ITEM = re.compile(r"^ {2,6}(-{1,2}\S.*?|[a-z<[{A-Z]\S*(?: \S+)*?)(?: {2,}(.*))?$")
MORE = re.compile(r"^ {8,}(\S.*)$")
# a command that a help lists
COMMAND = re.compile(r"^ {2,4}([a-z][a-z-]*)(?: {2,}(\S.*)|$)")
HEADING = re.compile(r"^([A-Za-z][\w ]*):$")
ABOUT = {
    "pgsub": "applies logical replication of PostgreSQL to a store, proved",
    "pgsub-connect": "follows a PostgreSQL server into a store of pgsub",
    "pgsub-feed": "prints the commits of a feed of pgsub",
}


class Unreadable(Exception):
    """A help that can't be made into a page."""


@dataclass
class Help:
    """What a command prints for --help."""

    words: list[str]
    text: str


def escaped(text: str) -> str:
    """A text for roff, on one line."""
    return re.sub(r"^([.'])", r"\\&\1", text.replace("\\", r"\e").replace("-", r"\-"))


def ask(command: Path, words: list[str]) -> Help:
    environment = {**os.environ, "COLUMNS": "100", "PYTHONDONTWRITEBYTECODE": "1"}
    try:
        ran = subprocess.run(
            [command, *words, "--help"],
            capture_output=True,
            text=True,
            env=environment,
            stdin=subprocess.DEVNULL,
        )
    except OSError as error:
        raise Unreadable(f"{command}: {error.strerror}") from None
    if ran.returncode or not ran.stdout.strip():
        raise Unreadable(
            f"{command} {' '.join(words)} --help: status {ran.returncode}: {ran.stderr.strip()}"
        )
    return Help(words, ran.stdout)


def subcommands(text: str) -> list[str]:
    """The commands that a help lists below `Commands:`, in groups maybe, in their order."""
    found, inside = [], False
    for line in text.splitlines():
        if line == "Commands:":
            inside = True
        elif inside and (item := COMMAND.match(line)):
            found.append(item[1])
        elif inside and line.strip() and not line.startswith("  "):
            inside = False
    return [it for it in found if it != "help"]


def roff_of(text: str) -> list[str]:
    """A help as lines of roff: lists as paragraphs with a tag, anything else as it is printed."""
    lines, plain = list[str](), list[str]()

    def flush() -> None:
        while plain and not plain[-1].strip():
            plain.pop()
        if plain:
            lines.extend([".PP", ".nf", *(escaped(it) for it in plain), ".fi"])
        plain.clear()

    inside = False
    for line in text.splitlines():
        heading, item, more = HEADING.match(line), ITEM.match(line), MORE.match(line)
        if heading:
            flush()
            inside = True
            lines += [".PP", rf"\fB{escaped(heading[1])}\fR"]
        elif inside and more and not line.lstrip().startswith("-"):
            lines.append(escaped(more[1]))
        elif inside and item:
            lines += [".TP", rf"\fB{escaped(item[1])}\fR", *([escaped(item[2])] if item[2] else [])]
        elif line.strip() or plain:
            inside = inside and not line.strip()
            plain.append(line)
    flush()
    return lines


def abouts_of(text: str, commands: Iterable[str]) -> dict[str, str]:
    """What a help says of each command, in its first line."""
    found = {item[1]: item[2] or "" for item in map(COMMAND.match, text.splitlines()) if item}
    return {it: found.get(it, "") for it in commands}


def page_of(
    title: str, help: Help, about: str, others: Iterable[str], date: str, version: str
) -> str:
    """A manual page, which names others. Raises Unreadable where an option of the help isn't in
    it."""
    lines = [
        f'.TH {title.upper()} 1 "{date}" "{version}"',
        ".SH NAME",
        rf"{escaped(title)} \- {escaped(about)}",
    ]
    lines += [
        ".SH DESCRIPTION",
        *roff_of(help.text),
        ".SH SEE ALSO",
        ", ".join(rf"\fB{escaped(it)}\fR(1)" for it in others),
    ]
    text = "\n".join(lines) + "\n"
    plain = text.replace(r"\-", "-").replace(r"\fB", "")
    if missing := set(OPTION.findall(help.text)) - set(OPTION.findall(plain)):
        raise Unreadable(f"{title}: not in the page: {', '.join(sorted(missing))}")
    return text


def helps_of(command: Path) -> dict[str, Help]:
    """What a command prints for --help: its own by the word "", and that of each of its
    commands."""
    first = ask(command, [])
    names = subcommands(first.text)
    with ThreadPoolExecutor() as pool:
        return {"": first, **dict(zip(names, pool.map(lambda it: ask(command, [it]), names)))}


def make(helps: dict[str, Help], name: str, date: str, version: str) -> dict[str, str]:
    """The pages of a command, and of each of its commands, by their names."""
    abouts = {"": ABOUT[name], **abouts_of(helps[""].text, [it for it in helps if it])}
    titles = {word: f"{name}-{word}" if word else name for word in helps}
    made = {}
    for word, it in helps.items():
        others = [
            *(title for other, title in titles.items() if other != word),
            *(other for other in ABOUT if other != name),
        ]
        made[titles[word]] = page_of(titles[word], it, abouts[word], others, date, version)
    return made
