"""Makes publications, so that no application is harmed by it, and takes them back where no copy
came of it.

From the moment that a table is published for Updates and Deletes, the server rejects these where
the table has no replica identity. So each table is looked at in the transaction that makes the
publication, which ends without effect where one is found.
"""

import dataclasses
from collections.abc import Callable, Mapping, Sequence
from contextlib import closing
from functools import partial
from types import MappingProxyType

from pgsub_feed import log
from pgsub_feed.errors import Unfit, UsageError
from pgsub_feed.interruption import Check, limited
from pgsub_feed.texts import counted, identifier, literal

from ..errors import ServerError
from . import publications
from .connection import Connection
from .replica_identity import keyless_tables, publishable_tables, rejected_tables
from .session import Subscription
from .waits import Waiting, lock_text

REFUSED, NO_TABLE, NO_RIGHT = "55000", "42P01", "42501"
INSERTS = "insert, truncate"
# How many tables are named at most.
NAMED = 20
# After how many seconds it is given up to drop a publication.
LIMIT = 10.0


@dataclasses.dataclass
class Wanted:
    """What is to be published. `keeps`: what an earlier run has made for it stays as it is."""

    publications: list[str]
    tables: list[str] = dataclasses.field(default_factory=list)
    all_tables: bool = False
    keyless: str = "refuse"
    keeps: bool = False


def names_of(names: list[str]) -> str:
    """Some names, and how many more there are."""
    left = len(names) - NAMED
    return ", ".join(names[:NAMED]) + (f" and {left} more" if left > 0 else "")


def refusal(text: str) -> ServerError:
    return ServerError(text, REFUSED)


# What looks at publications that aren't there for others yet, and what notes their OIDs then.
Look = Callable[[Connection, list[str]], None]
Note = Callable[[dict[str, int]], None]


class Maker:
    """Makes what is missing of publications, and knows what it made.

    `left`: those that earlier runs have made, with their OIDs. `note` is told the OIDs before a
    publication is there for others, and before that `look` looks at them.
    """

    def __init__(
        self,
        subscription: Subscription,
        wanted: Wanted,
        check: Check,
        left: Mapping[str, int] = MappingProxyType({}),
        note: Note = lambda made: None,
        look: Look = lambda connection, names: None,
    ) -> None:
        self.subscription, self.wanted, self.check = subscription, wanted, check
        self.left, self.note, self.look = dict(left), note, look
        # the publications that are there afterwards, and those that were made: each with its OID
        self.publications = list(wanted.publications)
        self.made: dict[str, int] = {}
        self.begun: dict[str, int] = {}
        self.said: list[str] = []
        self.is_standby = False

    def make(self) -> None:
        """Makes each publication that isn't there, all of them or none. Where `check` raises
        meanwhile, `take_back` undoes it."""
        before = self.made
        self.publications, self.said, self.begun = list(self.wanted.publications), [], {}
        self.connection = connection = self.subscription.connect(self.check, "publication")
        with closing(connection):
            locks = partial(lock_text, "the publication", connection.pid())
            connection.set_check(Waiting(self.subscription, self.check, locks).check)
            self.path = connection.value("SELECT pg_catalog.current_setting('search_path')") or ""
            self.is_standby = connection.value("SELECT pg_catalog.pg_is_in_recovery()") == "t"
            # (whatever default_transaction_read_only says; a commit might wait for the follower)
            connection.run(
                f"BEGIN{'' if self.is_standby else ' READ WRITE'}; SET LOCAL synchronous_commit = local;"
                " SET LOCAL search_path = ''; SET LOCAL statement_timeout = 0; SET LOCAL lock_timeout = 0"
            )
            self.drop_left(connection)
            for name in self.wanted.publications:
                self.see_to(name, before)
            self.look(connection, self.publications)
            self.note(self.begun)
            # (from here on they may be there, whatever becomes of the answer)
            self.made = self.begun
            connection.run("COMMIT")
        for text in self.said:
            log.warning(text)
        for name in [it for it in self.made if it not in before]:
            log.info(f"made the publication {name}")

    def drop_left(self, connection: Connection) -> None:
        """Drops what a run that was killed has left, so that it is made as it is wanted now; not
        what somebody else may use by now."""
        names = [it for name in self.wanted.publications for it in (name, inserts_of(name))]
        known, made = self.left, self.made
        names = [it for it in names if it in known and made.get(it) != known[it]]
        left = [it for it in names if known[it] == publications.oid_of(connection, it)]
        is_kept, slot = self.wanted.keeps or self.is_standby, self.subscription.slot
        if left and not is_kept and not publications.other_slots(connection, slot):
            connection.run(f"DROP PUBLICATION {', '.join(map(identifier, left))}")
            log.info(f"an earlier run has left the publication {names_of(left)}: it is made anew")

    def see_to(self, name: str, before: dict[str, int]) -> None:
        """Makes a publication, unless it is there: by an attempt before, or by somebody else."""
        oid, second = publications.oid_of(self.connection, name), inserts_of(name)
        if not oid and self.wanted.keeps:
            raise refusal(f"there is no publication {name} any more: make it, or say --create")
        if not oid:
            self.make_one(name)
        elif before.get(name) == oid:
            ours = {it: before[it] for it in (name, second) if it in before}
            self.begun |= ours
            if second in ours:
                self.publications.insert(self.publications.index(name) + 1, second)
        else:
            self.compare(name)

    def create(self, name: str, tables: str, more: str = "") -> None:
        """Runs CREATE PUBLICATION with the role's own search path, for its user's names."""
        connection = self.connection
        connection.rows(f"SELECT pg_catalog.set_config('search_path', {literal(self.path)}, true)")
        try:
            connection.run(f"CREATE PUBLICATION {identifier(name)} FOR {tables}{more}")
        except ServerError as error:
            raise self.understood(error) from None
        connection.run("SET LOCAL search_path = ''")

    def understood(self, error: ServerError) -> ServerError:
        """An error of it, with what to do about a name that is no table's, or a right that the role
        lacks. The transaction is over."""
        if error.sqlstate == NO_TABLE and self.wanted.tables:
            self.connection.run("ROLLBACK")
            texts = [publications.meant_table(self.connection, it) for it in self.wanted.tables]
            return ServerError(f"{error}{next(filter(None, texts), '')}", NO_TABLE)
        if error.sqlstate == NO_RIGHT:
            text = f"{error}: `pgsub-connect check` with these options tells which rights the role lacks"
            return ServerError(text, NO_RIGHT)
        return error

    def make_one(self, name: str) -> None:
        connection, wanted = self.connection, self.wanted
        if self.is_standby:
            text = f"the server is a standby, and has no publication {name}: make it at the primary"
            raise refusal(text)
        if wanted.all_tables:
            self.create(name, "ALL TABLES")
        elif wanted.tables:
            self.create(name, f"TABLE {', '.join(wanted.tables)}")
        elif tables := publishable_tables(connection):
            self.create(name, f"TABLE {', '.join(f'ONLY {it}' for it in tables)}")
        else:
            raise refusal(
                "there are no tables that can be published: make some, or say --all-tables for those that come later"
            )
        self.begun[name] = publications.oid_of(connection, name)
        keyless = self.keyless_in(name)
        if keyless and wanted.keyless != "refuse" and not wanted.all_tables:
            keyless = self.move_keyless(name, keyless)
        if keyless:
            raise refusal(keyless_text(list(keyless.values()), wanted.all_tables))

    def move_keyless(self, name: str, keyless: dict[int, str]) -> dict[int, str]:
        """Takes the tables without an identity out of the publication, into one of their own where
        wanted. Returns those that stay."""
        connection = self.connection
        listed = publications.listed_above(connection, name, list(keyless))
        if not listed:
            return keyless
        count = len(publications.content_of(connection, name))
        names = names_of([it.text for it in listed])
        self.drop_tables(name, listed)
        if self.wanted.keyless == "inserts":
            second = inserts_of(name)
            tables = ", ".join(f"ONLY {it.whole}" for it in listed)
            self.create(second, f"TABLE {tables}", f" WITH (publish = {literal(INSERTS)})")
            self.begun[second] = publications.oid_of(connection, second)
            self.publications.insert(self.publications.index(name) + 1, second)
            self.said.append(
                f"without a replica identity, so published for Inserts and TRUNCATE alone: {names}"
            )
        elif count == len(listed):
            raise refusal(
                f"no table is left to be published: {keyless_text(list(keyless.values()), False)}"
            )
        else:
            self.said.append(f"without a replica identity, so left out: {names}")
        return self.keyless_in(name)

    def keyless_in(self, name: str) -> dict[int, str]:
        """The tables of a publication without a usable identity, those among them whose Deletes the
        server rejects already."""
        connection = self.connection
        return {**rejected_tables(connection, name), **keyless_tables(connection, name)}

    def drop_tables(self, name: str, listed: list[publications.Listed]) -> None:
        names = ", ".join(it.name for it in listed)
        self.connection.run(f"ALTER PUBLICATION {identifier(name)} DROP TABLE {names}")

    def compare(self, name: str) -> None:
        """Rejects a publication that is there and isn't what is wanted."""
        self.note_left_out(name)
        connection, wanted = self.connection, self.wanted
        there, second = publications.content_of(connection, name), inserts_of(name)
        is_wanted = wanted.keyless == "inserts" and second not in self.publications
        if is_wanted and publications.has_publication(connection, second):
            self.publications.insert(self.publications.index(name) + 1, second)
            there |= publications.content_of(connection, second)
        if wanted.all_tables and "all tables" not in there:
            text = f"the publication {name} is there, and isn't one for all tables: drop it, or leave --all-tables out"
            raise refusal(text)
        if not wanted.tables:
            return
        if self.is_standby:
            text = f"the server is a standby, where --table can't be compared with the publication {name}: leave --table out"
            raise refusal(text)
        asked, keyless = self.content_asked(name)
        if wanted.keyless == "leave-out":
            asked = {it for it in asked if it not in keyless}
        if asked != there:
            more = [f"lacks {names_of(sorted(asked - there))}"] if asked - there else []
            more += [f"has {names_of(sorted(there - asked))} too"] if there - asked else []
            raise refusal(
                f"the publication {name} is there, and isn't that of --table: it {' and '.join(more)}."
                " Alter it, name another one, or leave --table out"
            )

    def note_left_out(self, name: str) -> None:
        """Says what a publication that is there leaves out, and which tables it harms."""
        connection = self.connection
        left_out = publications.kinds_left_out(connection, name)
        if left_out and not name.endswith(inserts_of("")):
            self.said.append(f"the publication {name} leaves out: {', '.join(left_out)}")
        has_all = not {"update", "delete"} <= set(left_out)
        if has_all and (harmed := keyless_tables(connection, name)):
            text = "published without a replica identity, so the server rejects Updates and Deletes"
            self.said.append(f"{text}: {names_of(list(harmed.values()))}")

    def content_asked(self, name: str) -> tuple[set[str], set[str]]:
        """What a publication of --table would list, and what of that has no replica identity. It is
        made for that, and undone."""
        # (a start takes as long as what it imports)
        import secrets

        connection, trial = self.connection, f"{cut(name)}_trial_{secrets.token_hex(4)}"
        connection.run("SAVEPOINT trial")
        try:
            self.create(trial, f"TABLE {', '.join(self.wanted.tables)}")
        except ServerError as error:
            text = f"the publication {name} is there, and --table can't be compared with it: {error}. Leave --table out"
            raise ServerError(text, error.sqlstate and REFUSED) from None
        asked, left_out = publications.content_of(connection, trial), set[str]()
        keyless = self.keyless_in(trial)
        if keyless and (listed := publications.listed_above(connection, trial, list(keyless))):
            self.drop_tables(trial, listed)
            left_out = asked - publications.content_of(connection, trial)
        connection.run("ROLLBACK TO SAVEPOINT trial")
        return asked, left_out

    def take_back(self) -> list[str]:
        """Drops what was made, if it is there: an interrupted transaction may have had no effect.
        Returns the names of what is gone."""
        made, self.made = self.made, {}
        if not made:
            return []
        log.info(f"dropping {', '.join(made)} again, which may take {LIMIT:.0f} seconds")
        check = limited(LIMIT, ServerError("no answer"))
        try:
            connection = self.subscription.connect(check, "publication", quiet=True)
            with closing(connection):
                publications.drop_publications(connection, made)
        except (ServerError, Unfit) as error:
            log.warning(
                f"made and not dropped again, {error}: {', '.join(f'DROP PUBLICATION {identifier(it)}' for it in made)}"
            )
            return []
        return list(made)

    def keep(self) -> dict[str, int]:
        """What was made stays."""
        made, self.made = self.made, {}
        return made


def cut(name: str) -> str:
    """So much of a name that another one, which begins with it, is none that the server cuts."""
    return name.encode()[:40].decode(errors="ignore")


def inserts_of(name: str) -> str:
    """The publication for the tables of another one that have no identity."""
    return f"{name}_inserts"


def keyless_text(names: list[str], all_tables: bool) -> str:
    """What is wrong with tables that have no usable replica identity, and what to do."""
    ways = " Or say --keyless leave-out, or --keyless inserts to publish their Inserts alone."
    return (
        f"{counted(len(names), 'table')} without a usable replica identity: {names_of(names)}. Once published, the server would reject"
        " their Updates and Deletes, in every application. Give each a primary key, or ALTER TABLE .. REPLICA IDENTITY"
        f" USING INDEX or FULL.{'' if all_tables else ways}"
    )


# In bytes: NAMEDATALEN, with which servers are built, less the zero byte.
LONGEST_NAME = 63


def check_lengths(slot: str, publications: Sequence[str], keyless: str) -> None:
    """Rejects names that the server would cut or reject, before anything is asked of it."""
    names = [("--slot", slot), *(("--publication", it) for it in publications)]
    if keyless == "inserts":
        made = publications or ["pgsub"]
        names += [
            ("the name that --keyless inserts makes of --publication", inserts_of(it))
            for it in made
        ]
    for option, name in names:
        # (what isn't UTF-8 is rejected for that)
        if (length := len(name.encode(errors="surrogateescape"))) > LONGEST_NAME:
            raise UsageError(
                f"{option} {name}: it has {length} bytes, and a name has at most {LONGEST_NAME}:"
                " give a shorter one"
            )
