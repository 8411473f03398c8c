"""Which subcommand a command line asks for."""

import dataclasses
import importlib
import sys
from collections.abc import Callable, Sequence
from typing import Any, Protocol, cast

from pgsub_feed import log
from pgsub_feed.interruption import Check
from pgsub_feed.options import Parser, add_fields, add_version, meant
from pgsub_feed.program import check_signals, guarded
from pgsub_feed.standard import open_closed

from .commands.arguments.words import ENDS

ABOUT = """\
Keeps exact copies of a PostgreSQL server's tables while they change: carries the changes to `pgsub follow`, which stores them.

To copy a table, also for SQLite, and to follow it; how that is; and to go on:

  $ pgsub-connect follow --dsn dbname=shop --create --table stock --store copy.db --tables rows.db
  $ pgsub-connect status
  $ pgsub-connect follow --dsn dbname=shop --store copy.db
"""
MORE = """\
It logs in by libpq, with its environment (PGHOST, PGPASSWORD, ..), ~/.pgpass, services and TLS. A connection that is lost is made
again after 1, 2, 4 .. 60 seconds, and `pgsub` is started again where it was killed. SIGTERM and SIGINT (Ctrl-C) end a command.

The server needs wal_level = logical. The role needs the attribute REPLICATION, the right to read the published tables, and
for --create the right to create a publication (of all tables: to be a superuser). `pgsub-connect check` tells what is missing. A slot keeps
the server's log until its changes are stored, or `pgsub-connect drop` drops it. docs/OPERATING.md has more.

"""
# The subcommands, each a module of `commands` with this name, by what they are for.
GROUPS = {
    "every day": ("follow", "status", "check", "drop"),
    "to repair": ("verify", "refresh", "add", "names"),
    "for readers": ("tables", "sink", "wait", "export", "snapshot"),
    "for developers": ("record",),
}
COMMANDS = tuple(name for names in GROUPS.values() for name in names)
HELP = "help"
# The commands of `pgsub`, each with what does that beside a follower, which alone has the store open.
OF_PROGRAM = dict.fromkeys(("apply", "show", "same", "resume", "lsn", "dump"), "")
OF_PROGRAM |= {
    "dump": ". While a follower has the store open, `pgsub-connect export` copies the rows, `snapshot` the store"
}


class Command(Protocol):
    """A module of `commands`. It may have `add_options` too, where its options are more than the
    fields of `Options`; `check_options`, which rejects those that don't go together, and gives what
    they mean; and `settled`, the options with what they leave out, of files beside the store."""

    ABOUT: str
    ENDS: str | None
    Options: Callable[..., Any]

    def run(self, options: Any, check: Check) -> int:
        """Does it; the exit status. `check` raises once a signal has asked for the end."""


def command_of(name: str) -> Command:
    return cast(Command, importlib.import_module(f".commands.{name}", __package__))


def parser_of(name: str) -> Parser:
    """What reads the options of a subcommand."""
    command = command_of(name)
    parser = Parser(f"{log.PROGRAM} {name}", command.ABOUT, command.ENDS)
    if add := getattr(command, "add_options", None):
        add(parser)
    else:
        add_fields(parser.add_argument, command.Options)
    parser.put_common_first()
    return parser


def overview() -> Parser:
    """What tells which subcommands there are."""
    parser = Parser(log.PROGRAM, f"{ABOUT}\n{list_of_commands()}", MORE + ENDS)
    parser.usage = "%(prog)s [-h] [--version] COMMAND ..."
    add_version(parser)
    return parser


def list_of_commands() -> str:
    """The subcommands, and what each is for."""
    lines = ["Commands:"]
    for what, names in GROUPS.items():
        abouts = ((name, command_of(name).ABOUT.partition("\n")[0]) for name in names)
        lines += [f"  {what}", *(f"    {name:10}{about}" for name, about in abouts)]
    return "\n".join([*lines, "", f"`{log.PROGRAM} help COMMAND` has the options of each."])


def known(word: str) -> str:
    """A subcommand's name, where a word is one."""
    if word in OF_PROGRAM:
        overview().error(f"{word} is a command of `pgsub`: pgsub {word}{OF_PROGRAM[word]}")
    if word not in COMMANDS:
        like = meant(word, (*COMMANDS, HELP))
        text = f"there is no command {word}{like}\nThe commands are {', '.join(COMMANDS)}"
        overview().error(text)
    return word


def named(words: Sequence[str]) -> tuple[str, Sequence[str]]:
    """The subcommand and its words; without one `follow` where a store is named, else `record`."""
    if words and words[0] in COMMANDS:
        return words[0], words[1:]
    if words and words[0] == HELP:
        parser = parser_of(known(words[1])) if len(words) > 1 else overview()
        parser.parse_args(["--help"])
    if not words:
        overview().error(f"a command is needed: {', '.join(COMMANDS)}")
    if words[0] in ("-h", "--help", "--version"):
        overview().parse_args(words)
    if not words[0].startswith("-"):
        return known(words[0]), words[1:]
    has_store = any(word == "--store" or word.startswith("--store=") for word in words)
    return "follow" if has_store else "record", words


def arguments(words: Sequence[str]) -> tuple[str, Any]:
    """The subcommand that a command line names, and its options."""
    is_named = bool(words) and words[0] in COMMANDS
    name, words = named(words)
    command, parser = command_of(name), parser_of(name)
    parser.check(words, () if is_named else parser_of("follow").names())
    found = parser.parse_args(words)
    fields = {it.name for it in dataclasses.fields(cast(Any, command.Options))}
    values = {name: it for name, it in vars(found).items() if name in fields}
    values |= {name: tuple(it) for name, it in values.items() if isinstance(it, list)}
    options = command.Options(**values)
    check = getattr(command, "check_options", None)
    return name, check(parser, options) if check else options


def main(words: Sequence[str]) -> int:
    name, options = arguments(words)
    return guarded(lambda: ran(command_of(name), options))


def ran(command: Command, options: Any) -> int:
    settled = getattr(command, "settled", None)
    return command.run(settled(options) if settled else options, check_signals())


def run() -> None:
    open_closed()
    sys.exit(main(sys.argv[1:]))
