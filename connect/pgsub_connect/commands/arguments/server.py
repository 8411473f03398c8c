"""Options on the server, the slot and the store that follows it, and what they leave out; and on
the publication, the slot and the copy that --create makes."""

import argparse
import dataclasses
import re
from collections.abc import Iterable, Sequence
from typing import TypeVar

from pgsub_feed import log
from pgsub_feed.errors import Unfit
from pgsub_feed.options import add_fields, file, flag, option, repeated
from pgsub_feed.ownership import readable_by, readable_text

from ...drift.remembered import summary_of
from ...server import transport
from ...server.login import parameters
from ...server.publication_setup import Wanted, check_lengths, inserts_of
from ...server.session import Subscription
from ...store.at_rest import is_whole
from ...store.checkpoint import read_known
from ...store.checkpoint_lines import COPYING, INTERRUPTED, Known
from .words import check_needs, check_texts, each, mode_option, seconds, use_mode, within


@dataclasses.dataclass(frozen=True)
class ServerOptions:
    """Where the server is, and what of it is followed."""

    dsn: str = option("connection string or URI of libpq (default: its environment)", "")
    dsn_file: str | None = file(
        "a file whose first line is the connection string, for one with a password"
    )
    slot: str = option(
        "replication slot (default: the one that the store follows, else pgsub)",
        "pgsub",
        default="",
    )
    publication: Sequence[str] = repeated(
        "publication", "those that the store has followed, else pgsub"
    )
    proto: int = option(
        "protocol version (default: 2, and 1 where the server has no other)",
        2,
        type=int,
        choices=(1, 2),
    )
    heartbeat: float = option(
        "seconds between statuses (default: 10, and at most a third of wal_sender_timeout)",
        10.0,
        type=seconds,
    )
    mode: int = mode_option("mode of the files that are made")

    def subscription(self) -> Subscription:
        return Subscription(self.dsn, self.slot, list(self.publication))


Settled = TypeVar("Settled", bound=ServerOptions)
# A connection string that is right and has no password: psycopg isn't asked, for which a start waits.
PLAIN = re.compile(r"\s*(?:(?:host|hostaddr|port|dbname|user|service|sslmode)=[^\s'\\]+\s*)*")


def settled_server(
    options: Settled, store: str = "", keyless: str = "refuse", told: Iterable[tuple[str, str]] = ()
) -> Settled:
    """The options with the connection string of a file, and the slot and publications of a store
    where none is named; files get their mode. `told`: what else the server or the program is
    told."""
    dsn, readable = options.dsn, ""
    if options.dsn_file:
        with open(options.dsn_file, encoding="utf-8", errors="surrogateescape") as file:
            dsn, readable = file.readline().strip(), readable_by(file.fileno())
    check_texts([("--slot", options.slot), *each("--publication", options.publication), *told], dsn)
    check_lengths(options.slot, options.publication, keyless)
    warn_of_password(options, dsn, readable)
    remembered = summary_of(store).publications if has_begun(store) else []
    names = followed_again(options.publication, keyless, remembered) or remembered or ["pgsub"]
    slot = slot_of(store, options.slot)
    use_mode(options.mode)
    return dataclasses.replace(options, dsn=dsn, slot=slot, publication=names)


def has_begun(store: str) -> bool:
    """Whether a store is there, or its copy was interrupted and goes on."""
    if not store:
        return False
    return is_whole(store) or read_known(store + ".connector").phase in INTERRUPTED


def slot_of(store: str, given: str) -> str:
    """The slot that a store follows, or is to follow. Raises where another one is given."""
    known = read_known(store + ".connector") if store else Known()
    # (an interrupted copy has no slot before that phase is over)
    if given and known.slot not in ("", given) and known.phase != COPYING:
        raise Unfit(
            f"{store} follows the slot {known.slot}, and not {given}: leave --slot out. To follow {given}, name another store;"
            f" `pgsub-connect drop --store {store}` ends this one"
        )
    return given or known.slot or "pgsub"


def warn_of_password(options: ServerOptions, dsn: str, readable: str) -> None:
    if PLAIN.fullmatch(dsn) or not {"password", "sslpassword"} & parameters(dsn).keys():
        return
    if not options.dsn_file:
        log.warning(
            "the password on the command line can be read by every account: use ~/.pgpass, PGPASSWORD or --dsn-file"
        )
    elif readable:
        log.warning(readable_text(options.dsn_file, readable))


def followed_again(
    publications: Sequence[str], keyless: str, remembered: Sequence[str]
) -> list[str]:
    """The named publications, each with that of its Inserts alone which the store follows."""
    names = list(publications)
    if keyless == "inserts":
        pairs = ((it, inserts_of(it)) for it in publications)
        names = [it for one, two in pairs for it in ((one, two) if two in remembered else (one,))]
    return list(dict.fromkeys(names))


PLAINTEXT = "plaintext"


@dataclasses.dataclass(frozen=True)
class StoreOptions(ServerOptions):
    """The store, its server, and what may be accepted of that."""

    store: str = ""
    accept: Sequence[str] = option(
        "connect without TLS although it was in use before", (), choices=(PLAINTEXT,)
    )


Stored = TypeVar("Stored", bound=StoreOptions)


def settled_store(
    options: Stored, keyless: str = "refuse", told: Iterable[tuple[str, str]] = ()
) -> Stored:
    """The options with what they leave out, once it is known whether TLS was in use."""
    options = settled_server(options, options.store, keyless, told)
    if options.store:
        transport.OWN.begin(read_known(options.store + ".connector").encrypted, options.accept)
    return options


@dataclasses.dataclass(frozen=True)
class PublishingOptions:
    """What is published where nothing is yet."""

    create: str | None = None
    table: Sequence[str] = repeated("with --create: a table to publish", "those that are there")
    all_tables: bool = flag("with --create: publish all tables, also those that are made later")
    keyless: str = option(
        "what becomes of tables without a usable replica identity (default: refuse; inserts: only their Inserts are published, by a publication NAME_inserts)",
        "refuse",
        choices=("refuse", "leave-out", "inserts"),
    )
    failover: bool = flag("with --create: a slot that is synchronized to standbys (PostgreSQL 17)")

    def wanted(self, publications: Sequence[str]) -> Wanted:
        tables = list(self.table)
        return Wanted(list(publications), tables, self.all_tables, self.keyless, not self.create)


@dataclasses.dataclass(frozen=True)
class CopyOptions(PublishingOptions):
    """How the first rows are copied."""

    no_copy: bool = flag("begin a new store where the slot is, without the rows from before")
    jobs: int = option(
        "read N tables at a time, of large ones one (default: 2)", 2, type=within(1, 64)
    )


def add_copying(parser: argparse.ArgumentParser) -> None:
    """Options on what --create makes."""
    add = parser.add_argument_group("the initial copy").add_argument
    add(
        "--create",
        action="store_const",
        const="permanent",
        help="where the store isn't there yet, publication and slot are made, and the rows that are there copied",
    )
    add_fields(add, CopyOptions)


def check_publishing(parser: argparse.ArgumentParser, options: PublishingOptions) -> None:
    """Rejects options that don't go together."""
    if options.table and options.all_tables:
        parser.error("--table and --all-tables exclude each other")
    if options.all_tables and options.keyless != "refuse":
        text = "of a publication for all tables no table can be left out: --keyless needs a list"
        parser.error(text)


def check_creates(parser: argparse.ArgumentParser, options: PublishingOptions) -> None:
    """Rejects options on what is made where nothing is."""
    check_needs(parser, options, *((it, "create") for it in ("table", "all_tables", "failover")))
