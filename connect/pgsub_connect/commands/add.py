"""`pgsub-connect add`: has the follower of a store copy tables anew beside what it follows, as the
module `add.adder` says.

What is wanted is noted in `STORE.tables`: by the follower, which is asked for it by its socket, or
here, where none runs. The follower goes on with it whatever becomes of who asked.
"""

import contextlib
import dataclasses
import os
import stat
import time
from collections.abc import Sequence

from pgsub_feed import log
from pgsub_feed.errors import Passing, Stopped
from pgsub_feed.interruption import Check
from pgsub_feed.options import option
from pgsub_feed.texts import counted

from ..copy.source import chosen
from ..drift.remembered import Remembered
from ..errors import ServerError
from ..server.publication_setup import names_of
from ..server.publications import published_tables
from ..server.session import Subscription, check_followed
from ..store.at_rest import check_there, follower_of, is_followed
from ..store.checkpoint import locked, read_known
from .arguments.server import StoreOptions, settled_store
from .arguments.words import ADDED, each, store_option

ABOUT = "copy tables anew beside what is followed: new ones, or any whose rows are wrong"
ENDS = ADDED

DONE, REFUSED = 0, 1
# How long a follower, which may be opening its store, may take until it answers, in seconds.
PATIENCE = 120.0
# How often it is looked whether tables are there, in seconds.
WAIT = 0.3


@dataclasses.dataclass(frozen=True)
class Options(StoreOptions):
    """Which tables are added, to which store."""

    store: str = store_option("the store; its follower adds them, or does so at its next start")
    table: Sequence[str] = option(
        "a published table, may be repeated; what the copy has of it is replaced", (), required=True
    )


def settled(options: Options) -> Options:
    return settled_store(options, told=each("--table", options.table))


def run(options: Options, check: Check) -> int:
    check_there(options.store)
    known, noted = read_known(options.store + ".connector"), Remembered(options.store).database
    subscription = Subscription(options.dsn, known.slot or options.slot)
    with subscription.connected("tables", check) as connection:
        check_followed(connection, known.system, known.database, noted)
        published = published_tables(connection, options.publication)
    tables = {it.oid: it.text() for it in chosen(published, list(options.table))}
    return add(options.store, options.mode, tables, {}, check)


def add(store: str, mode: int, adds: dict[int, str], removes: dict[int, str], check: Check) -> int:
    """Has tables added, and the rows of others removed, and waits for it; the exit status."""
    tables = {**adds, **removes}
    parts = (("adds", adds), ("removes the rows of", removes))
    names = " and ".join(f"{what} {names_of(list(it.values()))}" for what, it in parts if it)
    while True:
        if is_followed(store):
            if ask(store, check, add=list(adds), remove=list(removes)):
                break
        elif noted(store, mode, list(adds), list(removes)):
            log.info(f"{store} isn't followed now: the next start {names}")
            return DONE
    log.info(f"its follower {names}")
    try:
        return wait(store, tables, check)
    except Stopped:
        log.info("the follower goes on with it")
        return DONE


def ask(store: str, check: Check, **oids: list[int]) -> bool:
    """Asks the follower. Returns false where it has ended meanwhile."""
    asking = follower_of(store, check)
    if asking is None:
        return False
    with contextlib.closing(asking):
        asking.say(ask="add", **oids)
        answer = asking.answer(PATIENCE)
    if answer and "error" in answer:
        raise ServerError(f"{store}: its follower adds none: {answer['error']}", "42")
    return answer is not None


def noted(store: str, mode: int, adds: list[int], removes: list[int]) -> bool:
    """Notes what is wanted where nobody follows. Returns false where somebody does by now."""
    try:
        with locked(store + ".connector"):
            # (the follower may have been told another mode)
            with contextlib.suppress(FileNotFoundError):
                mode = stat.S_IMODE(os.stat(store + ".tables").st_mode)
            Remembered(store, mode).want(adds, removes)
    except Passing:
        return False
    return True


def wait(store: str, tables: dict[int, str], check: Check) -> int:
    """Waits until tables are there, or are refused; the exit status."""
    left, status = dict(tables), DONE
    while left:
        wanted = Remembered(store).wanted
        for oid, name in list(left.items()):
            if oid not in wanted:
                log.info(f"{name} is done")
            elif wanted[oid]:
                log.error(wanted[oid])
                status = REFUSED
            else:
                continue
            del left[oid]
        if left and not is_followed(store):
            text = f"{store} isn't followed any more: the next start adds {names_of(list(left.values()))}"
            raise Passing(text)
        check()
        time.sleep(WAIT)
    log.info(f"{counted(len(tables), 'table')}: {'done' if status == DONE else 'not all are done'}")
    return status
