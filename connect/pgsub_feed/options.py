"""Options of a command line, each declared where its value is, as a field of a dataclass; what
reads their words, and the form of the help.

    begin: int | None = option("commits after this one", type=lsn, word="--from")
    follow: bool = flag("go on with the commits that come")

(What only the help needs is imported for it: a start takes as long as what it imports.)

An option is called as its field is, unless `word` says another name; one without dashes is known by
its place. `value` is how the help calls the value.
"""

import argparse
import dataclasses
import re
import sys
from collections.abc import Callable, Iterable, Sequence
from typing import Any

from . import log
from .texts import is_plain_name, parse_lsn
from .version import version

KEY = "option"


@dataclasses.dataclass(frozen=True)
class Declared:
    """What the option of a field is for, how it and its value are called, "" where as is usual,
    and what argparse is told besides."""

    about: str
    value: str
    word: str
    more: dict[str, Any]

    def add(self, add: Callable[..., object], name: str, default: Any) -> None:
        """Adds it to a parser, or a group of one, for the field with this name."""
        told: dict[str, Any] = {"help": self.about, **self.more}
        word, values = self.word or f"--{name.replace('_', '-')}", self.value.split()
        if not word.startswith("-"):
            add(name, metavar=word, **told)
            return
        if "type" in told and "choices" not in told:
            values = values or [VALUES.get(told["type"], "N")]
        if values:
            told.setdefault("metavar", values[0] if len(values) == 1 else tuple(values))
        if len(values) > 1:
            told.setdefault("nargs", len(values))
        if default is False:
            told.setdefault("action", "store_true")
        elif default == ():
            told.setdefault("action", "append")
            default = []
        add(word, dest=name, **{"default": default, **told})


def option(about: str, default: Any = None, /, value: str = "", word: str = "", **more: Any) -> Any:
    """A field with an option. `more` is for argparse; one with () may be repeated."""
    return dataclasses.field(default=default, metadata={KEY: Declared(about, value, word, more)})


def flag(about: str) -> Any:
    """One without a value."""
    return option(about, False)


def file(about: str, default: str | None = None, /, **more: Any) -> Any:
    """One that names a file."""
    return option(about, default, value="FILE", **more)


def repeated(about: str, default: str) -> Any:
    """One that may be given again and again, by default as is said."""
    return option(f"{about}, may be repeated (default: {default})", ())


def add_fields(
    add: Callable[..., object], kind: Any, group: Any = None, without: Sequence[Any] = ()
) -> None:
    """Adds the options of a dataclass. `group`: those of the fields that it has from this class
    alone; `without`: none of fields that it has from these."""
    names = {it.name for it in dataclasses.fields(group or kind)}
    names -= {it.name for other in without for it in dataclasses.fields(other)}
    for field in dataclasses.fields(kind):
        if field.name in names and KEY in field.metadata:
            field.metadata[KEY].add(add, field.name, field.default)


SECONDS = {"s": 1.0, "min": 60.0, "h": 3600.0, "d": 86400.0}
BYTES = {"B": 1, "kB": 1 << 10, "MB": 1 << 20, "GB": 1 << 30, "TB": 1 << 40}
TIME = re.compile(rf"(\d+(?:\.\d+)?)({'|'.join(SECONDS)})?")
SIZE = re.compile(rf"(\d+)({'|'.join(BYTES)})?")


class TellVersion(argparse.Action):
    """`--version`."""

    def __call__(self, *_: object) -> None:
        print(version())
        raise SystemExit(0)


def add_version(parser: argparse.ArgumentParser) -> None:
    about = "show the version, and the commit of a checkout"
    parser.add_argument(
        "--version", action=TellVersion, nargs=0, default=argparse.SUPPRESS, help=about
    )


def no(text: str, what: str) -> argparse.ArgumentTypeError:
    """The error of a word that isn't what it is to be."""
    return argparse.ArgumentTypeError(f"{text!r} is no {what}")


def lsn(text: str) -> int:
    try:
        return parse_lsn(text)
    except ValueError as error:
        raise argparse.ArgumentTypeError(str(error)) from None


def duration(text: str) -> float:
    found = TIME.fullmatch(text)
    if not found:
        raise no(text, "time, as 30s or 5min")
    return float(found[1]) * SECONDS[found[2] or "s"]


def size(text: str) -> int:
    found = SIZE.fullmatch(text)
    if not found or not int(found[1]):
        raise no(text, "size, as 500MB or 10GB")
    return int(found[1]) * BYTES[found[2] or "B"]


def plain_name(text: str) -> str:
    if not is_plain_name(text):
        raise no(text, "name for a file")
    return text


# How what these read is called in a help; a number is N.
VALUES: dict[object, str] = {lsn: "LSN", duration: "TIME", size: "SIZE", plain_name: "NAME"}
# The options that come first, in this order.
COMMON = (
    *("--store", "--dsn", "--create", "--table", "--all-tables", "--tables", "--feed", "--into"),
    *("--repair", "--status-file", "--watch", "--until", "--once", "--record", "--yes"),
)
# How many columns a help has at most.
WIDEST = 100
# How the paragraph on exit statuses begins, and one of these: a number, or several, and a text.
ENDS = "exit status"
STATUS = re.compile(r"(\d(?: to \d)?) (.*)")


def paragraph(text: str, width: int) -> str:
    """A paragraph so wide, where no line is indented; each exit status gets a line."""
    if any(it.startswith(" ") for it in text.splitlines()):
        return text.strip("\n")
    words, what = text.split(), f"{ENDS}: "
    if not text.startswith(what):
        return wrapped(" ".join(words), width, "", "")
    items = re.split(r"; (?=\d)", " ".join(words).removeprefix(what))
    pairs = [STATUS.fullmatch(it) for it in items]
    room = max(len(it[1]) for it in pairs if it)
    lines = [wrapped(it[2], width, f"  {it[1]:{room}}  ", " " * (room + 4)) for it in pairs if it]
    return "\n".join([f"{ENDS}:", *lines])


def wrapped(text: str, width: int, first: str, more: str) -> str:
    import textwrap

    return textwrap.fill(
        text,
        width,
        initial_indent=first,
        subsequent_indent=more,
        break_long_words=False,
        break_on_hyphens=False,
    )


def meant(word: str, names: Iterable[str]) -> str:
    """Which name was meant by a word, as a question; "" where none is like it."""
    import difflib

    close = difflib.get_close_matches(word, list(names), 1)
    return f": did you mean {close[0]}?" if close else ""


class Formatter(argparse.RawDescriptionHelpFormatter):
    """One whose headings are bold on a terminal, and whose paragraphs are as wide."""

    def __init__(self, prog: str) -> None:
        import shutil

        super().__init__(prog, width=min(shutil.get_terminal_size().columns, WIDEST) - 2)

    def _fill_text(self, text: str, width: int, indent: str) -> str:
        return "\n\n".join(paragraph(it, width) for it in text.rstrip().split("\n\n"))

    def start_section(self, heading: str | None) -> None:
        super().start_section(heading and log.coloured(heading, "bold", sys.stdout))


class Parser(argparse.ArgumentParser):
    """What reads a command's options."""

    def __init__(self, program: str, about: str, more: str | None) -> None:
        super().__init__(
            program, description=about, epilog=more, formatter_class=Formatter, allow_abbrev=False
        )

    def names(self) -> list[str]:
        """Those of all options."""
        return list(self._option_string_actions)

    def put_common_first(self) -> None:
        """Has the help begin with the common options of a parser that has others too, and the usage
        tell what is needed alone."""
        words, needed = list[str](), list[str]()
        for it in self._actions:
            metavar = str(it.metavar or it.dest.upper())
            if not it.option_strings:
                words.append(f"[{metavar}]" if it.nargs == "?" else metavar)
            elif it.required:
                needed.append(f"{it.option_strings[0]} {metavar}")
        self.usage = " ".join(["%(prog)s", "[OPTIONS]", *words, *needed])
        common = [it for name in COMMON for it in self._actions if name in it.option_strings]
        # (there is --help in each)
        if len(common) + 1 < len(self._actions):
            for group in self._action_groups:
                group._group_actions[:] = [it for it in group._group_actions if it not in common]
            self.add_argument_group("common options")._group_actions.extend(common)
            # (behind what is given without an option's name)
            self._action_groups.insert(1, self._action_groups.pop())

    def check(self, words: Sequence[str], others: Iterable[str] = ()) -> None:
        """Rejects an option that there isn't. (A part of a name is none, since it might be that of
        another one in a later version.) `others`: names that may have been meant, too."""
        names = self.names()
        for word in words:
            name = word.partition("=")[0]
            if word == "--":
                break
            if word.startswith("--") and name not in names and " " not in name:
                self.error(f"unrecognized arguments: {name}{meant(name, (*names, *others))}")
