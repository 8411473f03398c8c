"""`pgsub-connect check`: each precondition on the server, and whether a store that is there is
sound, told without changing anything."""

import argparse
import dataclasses
import json
import sys

from pgsub_feed.interruption import Check
from pgsub_feed.log import escaped
from pgsub_feed.options import add_fields, flag

from ..drift.remembered import Remembered
from ..judged import ERROR
from ..preconditions import Purpose, results
from ..server.preflight import all_facts
from ..server.transport import OWN
from ..store.at_rest import is_whole
from ..store.full_check import judge_rows
from ..store.spool_folder import judge_spool
from .arguments.feed import messages_option
from .arguments.server import (
    CopyOptions,
    StoreOptions,
    add_copying,
    check_publishing,
    has_begun,
    settled_store,
)
from .arguments.session import program, program_option
from .arguments.words import each, store_option

ABOUT = "tell what following needs of the server, and change nothing"
ENDS = """\
exit status: 0 nothing is missing, whatever is warned of; 4 something is missing, or the server rejected a command for good; 2 usage error; 3 a
file can't be used; 5 TLS was in use before, and is gone; 6 a bug; 7 the server can't be reached for now
"""


@dataclasses.dataclass(frozen=True)
class Options(StoreOptions, CopyOptions):
    """What the server is to be used for."""

    store: str = store_option(
        "where it is there, what following into it needs, and whether all its rows are sound; else what a new one needs",
        False,
    )
    pgsub: str = program_option()
    messages: int = messages_option(
        "what following with --messages needs, too (default: as the store has had it)"
    )
    json: bool = flag("print a JSON array")

    def purpose(self) -> Purpose:
        has_store, copies = bool(self.store and is_whole(self.store)), not self.no_copy
        is_told = self.messages or has_begun(self.store) and Remembered(self.store).messages
        more = copies, self.failover, self.all_tables, bool(is_told)
        # (where nothing is said of a start without a store, it is one with --create)
        return Purpose(self.slot, self.keyless, has_store, bool(self.create) or copies, *more)


def add_options(parser: argparse.ArgumentParser) -> None:
    add_fields(parser.add_argument, Options, without=(CopyOptions,))
    add_copying(parser)


def check_options(parser: argparse.ArgumentParser, options: Options) -> Options:
    """Rejects options that don't go together."""
    check_publishing(parser, options)
    return options


def settled(options: Options) -> Options:
    return settled_store(options, options.keyless, each("--table", options.table))


def run(options: Options, check: Check) -> int:
    # (that of TLS is among them)
    OWN.keep_quiet()
    facts = all_facts(options.subscription(), options.wanted(options.publication), check)
    found = results(facts, options.purpose())
    if options.store and is_whole(options.store):
        found.append(judge_rows(options.pgsub or program(), options.store, check))
    if options.store and (result := judge_spool(options.store)):
        found.append(result)
    if options.json:
        json.dump([dataclasses.asdict(it) for it in found], sys.stdout, indent=1)
        sys.stdout.write("\n")
    else:
        for it in found:
            text = "\n  ".join(map(escaped, it.text.split("\n")))
            sys.stdout.write(f"{it.level} {it.name}: {text}\n")
    sys.stdout.flush()
    return 4 if any(it.level == ERROR for it in found) else 0
