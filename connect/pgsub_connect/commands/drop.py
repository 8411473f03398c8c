"""`pgsub-connect drop`: takes away a follower: its slot, its publications and its files."""

import contextlib
import dataclasses
import os
import select
import shlex
import sqlite3
import sys
import time
from collections.abc import Callable, Iterable
from typing import Any

from pgsub_feed import log
from pgsub_feed.errors import FileError, Passing, Unfit, told_of
from pgsub_feed.files import OF_FILE, meant, own_files, remove
from pgsub_feed.interruption import Check, never
from pgsub_feed.json_texts import Unreadable, object_of, whole_of
from pgsub_feed.options import flag, option
from pgsub_feed.tables.schema import read_position
from pgsub_feed.tables.sqlite_files import is_tables
from pgsub_feed.texts import literal

from ..drift.remembered_lines import read_lines
from ..errors import understood
from ..follow.retention import remove_feed
from ..server.connection import Connection
from ..server.libpq import TICK
from ..server.publications import drop_publication, oid_of, other_slots
from ..server.publication_setup import inserts_of
from ..server.session import Subscription, check_followed, of_slot, other_slot
from ..status.files import STATUS
from ..store.checkpoint import locked, read_known
from ..store.file import is_store
from ..store.placing import OF_STORE
from ..store.spool_folder import SUFFIX as SPOOL, remove_spool
from .arguments.server import StoreOptions, settled_store
from .arguments.words import store_option

ABOUT = "drop slot, publications and files"
ENDS = """\
exit status: 0 dropped, but for what somebody said no to; 2 usage error; 3 a file can't be used; 4 the server rejected a command for good; 5
it isn't the server or slot that the store follows, or nobody is there to ask; 6 a bug; 7 something is in the way only for now, such as a
follower that runs
"""

# Beside which names processes make files: copies asked of a follower, exports for a sink.
ASKED = (".export", ".base")
# Beside a store of these at least one is there.
KNOWN_BY = (".connector", ".tables")
# How long a slot that was just left by its connection is waited for.
PATIENCE = 5.0


@dataclasses.dataclass(frozen=True)
class Options(StoreOptions):
    """Whose slot, publications and files go."""

    store: str = store_option("the store whose slot, publications and files go")
    slot: str = option("replication slot (default: the one that the store follows)", "")
    all: bool = flag("the feed and the tables that follow it go, too")
    yes: bool = flag("don't ask; what somebody else may have made or may use stays")


def read_remembered(path: str) -> dict[str, Any]:
    """What is remembered beside the store, for names alone; nothing where it can't be read."""
    with contextlib.suppress(OSError, Unreadable):
        return read_lines(path)[0]
    return {}


def made_publications(remembered: dict[str, Any]) -> dict[str, int]:
    """The publications that the connector made, with their OIDs."""
    with contextlib.suppress(Unreadable):
        return {name: whole_of(oid) for name, oid in object_of(remembered.get("made")).items()}
    return {}


def files_beside(path: str, suffixes: Iterable[str]) -> list[str]:
    """The files that processes have made for themselves beside these names."""
    folder, there = os.path.dirname(path), list[str]()
    patterns = [own_files(path + it) for it in suffixes]
    with contextlib.suppress(FileNotFoundError):
        there = sorted(os.listdir(folder or "."))
    own = (name for name in there if any(it.fullmatch(name) for it in patterns))
    return [os.path.join(folder, name) for name in own]


def files_of(store: str) -> list[str]:
    """The files of a store that are there, the checkpoint last."""
    # (the program has its own ones beside what a link leads to)
    linked = (*OF_FILE[1:], "") if os.path.islink(store) else ()
    files = [*files_beside(store, ASKED), *(meant(store) + it for it in linked)]
    files += [store + it for it in (STATUS, *OF_STORE)]
    return [it for it in files if os.path.lexists(it)]


Ask = Callable[[str], bool]


def ask_terminal(question: str, check: Check = never, command: str = "drop") -> bool:
    """Asks on the terminal. Nobody there is a no. What `check` raises meanwhile ends it."""
    if not sys.stdin.isatty():
        text = f"{command} asks on the terminal, and there is none"
        raise Unfit(f"{text}: say --yes to {command} without asking")
    sys.stderr.write(f"{log.escaped(question)} [y/N] ")
    sys.stderr.flush()
    while not select.select([sys.stdin], [], [], TICK)[0]:
        check()
    return sys.stdin.readline().strip().lower() in ("y", "yes")


def noted_database(remembered: dict[str, Any]) -> tuple[int, str] | None:
    """The OID and the name of the database that is followed, None where they weren't noted."""
    found = remembered.get("database")
    if isinstance(found, list) and len(found) == 2 and isinstance(found[0], int):
        return found[0], str(found[1])
    return None


class Dropper:
    """Drops what belongs to one store."""

    def __init__(self, options: Options, ask: Ask, check: Check = never) -> None:
        self.options, self.ask, self.check = options, ask, check
        self.store = options.store
        self.known = read_known(self.store + ".connector")
        self.remembered = read_remembered(self.store + ".tables")
        self.slot = self.known.slot or options.slot

    def run(self) -> None:
        """Slot first, which fills the server's disk; files last, which say what else there is."""
        self.check_store()
        with locked(self.store + ".connector"):
            subscription = Subscription(self.options.dsn, self.slot)
            with subscription.connected("drop", self.check) as connection:
                self.check_server(connection)
                done = self.drop_slot(connection)
                self.drop_publications(connection)
            if done:
                self.drop_files()

    def check_store(self) -> None:
        """Rejects a name that no store has, and a file of something else: the slot would be that of
        another store. A spoiled store is known by what is beside it."""
        if not files_of(self.store):
            raise FileError(f"{self.store}: there is no store, nor anything beside it")
        is_known = any(os.path.lexists(self.store + it) for it in KNOWN_BY)
        if not (is_known or is_store(self.store)):
            text = f"{self.store}: it isn't a store of pgsub, and no checkpoint of one is beside it"
            raise FileError(text)
        if not (self.known.slot or self.options.slot):
            text = f"{self.store}: no checkpoint beside it names the slot, which may be that of another store"
            raise Unfit(f"{text}: name it by --slot, or remove a mere copy by hand")

    def check_server(self, connection: Connection) -> None:
        """Rejects a server that isn't the one that the store follows."""
        known, noted = self.known, noted_database(self.remembered)
        try:
            check_followed(connection, known.system, known.database, noted)
        except Unfit as error:
            slot = f"SELECT pg_drop_replication_slot({literal(self.slot)})"
            files = " ".join(map(shlex.quote, files_of(self.store)))
            text = "Name its server by --dsn; or, if that is gone for good, as after pg_upgrade, see that"
            where = f"its slot is gone here too ({slot}), and remove its files: rm -r {files}"
            raise Unfit(f"{error}. {text} {where}") from None

    @understood("a slot")
    def drop_slot(self, connection: Connection) -> bool:
        """Drops the slot. Returns whether it is gone."""
        is_ours = "s.plugin = 'pgoutput' AND s.database = pg_catalog.current_database()"
        query = of_slot(f"s.active, {is_ours}", self.slot)
        rows = connection.rows(query)
        if not rows:
            log.info(f"the server has no slot {self.slot}")
            return True
        until = time.monotonic() + PATIENCE
        while rows and rows[0][0] == "t" and time.monotonic() < until:
            self.check()
            time.sleep(0.2)
            rows = connection.rows(query)
        slot, version = f"the slot {self.slot}", connection.parameter("server_version")
        if rows and rows[0][0] == "t":
            raise Passing(f"{slot} is active: end the connector that follows it first")
        if rows and rows[0][1] != "t":
            raise other_slot(connection, self.slot)
        if not self.ask(f"drop {slot} of {version}, with all that it hasn't sent?"):
            log.info("the slot stays, and so do the files")
            return False
        connection.rows(f"SELECT pg_catalog.pg_drop_replication_slot({literal(self.slot)})")
        log.info(f"dropped the slot {self.slot}")
        return True

    def candidates(self, connection: Connection) -> list[tuple[str, bool]]:
        """The publications to ask for, and whether it is known that the connector made them."""
        made = made_publications(self.remembered)
        catalog = self.remembered.get("catalog")
        known = catalog.get("names") if isinstance(catalog, dict) else None
        followed = [str(it) for it in known] if isinstance(known, list) else []
        names = list(dict.fromkeys([*made, *self.options.publication, *followed]))
        names += [inserts_of(name) for name in list(names) if inserts_of(name) not in names]
        oids = {name: oid_of(connection, name) for name in names}
        return [(name, made.get(name) == oid) for name, oid in oids.items() if oid]

    def drop_publications(self, connection: Connection) -> None:
        """Asks for each publication, and for those of others on the terminal alone."""
        others = other_slots(connection, self.slot)
        more = f"; other slots may use it: {', '.join(others)}" if others else ""
        for name, is_ours in self.candidates(connection):
            it, whose = f"the publication {name}", ", which somebody else may have made"
            if self.options.yes and not is_ours:
                log.info(f"{it} stays: it isn't known to be made by this connector{more}")
            elif self.options.yes and others:
                log.info(f"{it} stays{more}")
            elif self.ask(f"drop {it}{'' if is_ours else whose}{more}?"):
                drop_publication(connection, name)

    def drop_files(self) -> None:
        read = self.files_read()
        files = (read if self.options.all else []) + files_of(self.store)
        if not files or not self.ask(f"remove {', '.join(files)}?"):
            return
        for path in files:
            with told_of(path):
                self.remove(path)
        gone = [it for it in files if not os.path.lexists(it)]
        log.info(f"removed {', '.join(gone)}")
        if read := [it for it in read if it not in gone]:
            log.info(
                f"what others may read stays: {', '.join(read)}. Once nobody does, and before another copy begins there:"
                f" rm -r {' '.join(map(shlex.quote, read))}"
            )

    def remove(self, path: str) -> None:
        """Removes a file, or of a folder what is ours."""
        if path == self.store + SPOOL:
            remove_spool(path)
        elif os.path.isdir(path):
            remove_feed(path)
        else:
            remove(path)

    def files_read(self) -> list[str]:
        """The feed and the tables of the store that are there, which others may read."""
        feed = os.path.abspath(self.remembered.get("feed") or f"{self.store}.feed")
        found, tables = [feed] if os.path.isdir(feed) else [], self.known.tables
        # (nothing else that has the name by now)
        with contextlib.suppress(OSError, sqlite3.Error, TypeError, ValueError):
            if tables and is_tables(tables) and read_position(tables)[1] == feed:
                found += [it for it in (tables + it for it in OF_FILE) if os.path.lexists(it)]
                found += files_beside(tables, ("", ".base"))
        return found


def settled(options: Options) -> Options:
    # (the slot has no default here)
    return dataclasses.replace(settled_store(options), slot=options.slot)


def run(options: Options, check: Check) -> int:
    Dropper(options, lambda it: options.yes or ask_terminal(it, check), check).run()
    return 0
