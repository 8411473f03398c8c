"""What a server says of all that following it needs, and how that differs from what a store
follows. Nothing is changed there."""

import contextlib
import dataclasses
from contextlib import closing
from typing import NamedTuple

from pgsub_feed import log
from pgsub_feed.interruption import Check
from pgsub_feed.texts import literal

from ..errors import ServerError, understood
from .connection import Connection
from .publication_setup import REFUSED, Wanted, names_of
from .publications import NAME, has_publication, kinds_left_out, meant_table
from .replica_identity import keyless_of, keyless_tables, members, publishable, tree_of
from .session import Subscription, settle
from .slot import Slot, read_slot
from .transport import Protection
from .waits import prepared_texts

SETTINGS = (
    *("wal_level", "max_replication_slots", "max_wal_senders", "max_slot_wal_keep_size"),
    *("idle_replication_slot_timeout", "wal_sender_timeout", "max_locks_per_transaction"),
    *("max_connections", "max_prepared_transactions", "server_encoding"),
)
# The role of Amazon RDS whose members may replicate without the attribute.
RDS = "rds_replication"


class Role(NamedTuple):
    """The role that is logged in."""

    name: str = ""
    is_superuser: bool = False
    replicates: bool = False
    creates: bool = False


class TableFacts(NamedTuple):
    """A table that is published, or would be."""

    name: str
    reads: bool = True
    reads_columns: bool = True
    reaches_schema: bool = True
    hides_rows: bool = False
    owns: bool = True


@dataclasses.dataclass
class PublicationFacts:
    """A publication, which is there or would be made."""

    name: str
    is_there: bool = True
    leaves_out: list[str] = dataclasses.field(default_factory=list)
    mixed: list[str] = dataclasses.field(default_factory=list)
    keyless: list[str] = dataclasses.field(default_factory=list)


@dataclasses.dataclass
class Facts:
    """All that is asked for."""

    version: int = 150000
    settings: dict[str, str] = dataclasses.field(default_factory=dict)
    is_standby: bool = False
    database: str = ""
    protection: Protection = Protection()
    slots: int = 0
    senders: int = 0
    role: Role = Role()
    slot: Slot | None = None
    publications: list[PublicationFacts] = dataclasses.field(default_factory=list)
    tables: list[TableFacts] = dataclasses.field(default_factory=list)
    unknown: list[str] = dataclasses.field(default_factory=list)
    relations: int = 0
    prepared: list[str] = dataclasses.field(default_factory=list)
    replication_error: str = ""
    # whether one for replication was let in, and a provider's role whose members are
    has_replicated: bool = False
    replicators: str = ""


@understood("its settings")
def server_facts(connection: Connection, slot: str) -> Facts:
    """What concerns the server, the role and the slot."""
    names = ", ".join(literal(name) for name in SETTINGS)
    settings = connection.rows(
        f"SELECT s.name, s.setting FROM pg_catalog.pg_settings s WHERE s.name IN ({names})"
    )
    standby, database, slots, senders = connection.rows(
        "SELECT pg_catalog.pg_is_in_recovery(), pg_catalog.current_database(),"
        " (SELECT pg_catalog.count(*) FROM pg_catalog.pg_replication_slots),"
        " (SELECT pg_catalog.count(*) FROM pg_catalog.pg_stat_replication)"
    )[0]
    said = {name or "": value or "" for name, value in settings}
    counts, protection = (int(slots or 0), int(senders or 0)), connection.protection
    more = standby == "t", database or "", protection, *counts
    role, known = role_facts(connection), read_slot(connection, slot)
    return Facts(connection.version(), said, *more, role, known)


@understood("the role")
def role_facts(connection: Connection) -> Role:
    name, superuser, replicates, creates = connection.rows(
        "SELECT r.rolname, r.rolsuper, r.rolreplication,"
        " pg_catalog.has_database_privilege(pg_catalog.current_database(), 'CREATE')"
        " FROM pg_catalog.pg_roles r WHERE r.rolname = CURRENT_USER"
    )[0]
    is_superuser = superuser == "t"
    return Role(name or "", is_superuser, is_superuser or replicates == "t", creates == "t")


@understood("the publications")
def with_publications(connection: Connection, facts: Facts, wanted: Wanted) -> Facts:
    """Facts with what concerns the publications, and the tables that they have or would have."""
    found, nameless, sources = list[PublicationFacts](), list[str](), list[str]()
    for name in wanted.publications:
        if has_publication(connection, name):
            found.append(publication_there(connection, name))
            sources.append(members(name))
        else:
            source, unknown = source_wanted(connection, wanted)
            nameless += [f"{it}{meant_table(connection, it)}" for it in unknown]
            keyless = keyless_of(connection, source) if source else {}
            found.append(PublicationFacts(name, is_there=False, keyless=list(keyless.values())))
            sources += [source] if source else []
    source = " UNION ".join(sources) or "SELECT 0::pg_catalog.oid AS relid WHERE false"
    trees = f"SELECT DISTINCT t.part FROM {tree_of(connection, source)} t"
    # (a table, its indexes and what it keeps out of line are locked while it is read)
    count = connection.value(
        f"SELECT pg_catalog.count(*) + (SELECT pg_catalog.count(*) FROM pg_catalog.pg_index i WHERE i.indrelid IN ({trees}))"
        f" FROM ({trees}) p"
    )
    more = {"tables": tables_facts(connection, source), "relations": int(count or 0)}
    return dataclasses.replace(facts, publications=found, unknown=nameless, **more)


def publication_there(connection: Connection, name: str) -> PublicationFacts:
    """A publication that is there: the kinds of changes that it leaves out, and tables without an
    identity for those that it has."""
    left_out, mixed = kinds_left_out(connection, name), mixed_roots(connection, name)
    keyless = {} if {"update", "delete"} <= set(left_out) else keyless_tables(connection, name)
    return PublicationFacts(name, True, left_out, mixed, list(keyless.values()))


def mixed_roots(connection: Connection, name: str) -> list[str]:
    """Partitioned tables, sent as such, with a partition whose identity is of another kind."""
    if connection.version() < 130000:
        return []
    rows = connection.rows(
        "SELECT DISTINCT n.nspname || '.' || c.relname"
        f" FROM pg_catalog.pg_get_publication_tables({literal(name)}) p JOIN pg_catalog.pg_class c ON c.oid = p.relid"
        " JOIN pg_catalog.pg_namespace n ON n.oid = c.relnamespace,"
        " LATERAL pg_catalog.pg_partition_tree(c.oid) t JOIN pg_catalog.pg_class l ON l.oid = t.relid"
        " WHERE c.relkind = 'p' AND l.relkind = 'r' AND l.relpersistence = 'p' AND l.relreplident <> c.relreplident ORDER BY 1"
    )
    return [row[0] or "" for row in rows]


def source_wanted(connection: Connection, wanted: Wanted) -> tuple[str, list[str]]:
    """A query for the tables of a new publication, and the names that are none of tables."""
    if wanted.all_tables:
        return (
            "SELECT c.oid AS relid FROM pg_catalog.pg_class c JOIN pg_catalog.pg_namespace n ON n.oid = c.relnamespace"
            " WHERE c.relkind = 'r' AND c.relpersistence = 'p' AND c.oid >= 16384"
            " AND n.nspname NOT IN ('pg_catalog', 'pg_toast', 'information_schema')"
        ), []
    if not wanted.tables:
        return publishable(connection.version()), []
    oids, unknown = [], []
    for text in wanted.tables:
        # (more than a name stands there: columns, a filter)
        found, oid = NAME.match(text), None
        with contextlib.suppress(ServerError):
            named = f"pg_catalog.to_regclass({literal(found[1] if found else '')})"
            oid = connection.value(f"SELECT {named}::pg_catalog.oid") if found else None
        if oid is None:
            unknown.append(text)
        else:
            oids.append(oid)
    return " UNION ".join(f"SELECT {oid}::pg_catalog.oid AS relid" for oid in oids), unknown


@understood("tables")
def tables_facts(connection: Connection, source: str) -> list[TableFacts]:
    rows = connection.rows(
        "SELECT n.nspname || '.' || c.relname, pg_catalog.has_table_privilege(c.oid, 'SELECT'),"
        " pg_catalog.has_any_column_privilege(c.oid, 'SELECT'), pg_catalog.has_schema_privilege(n.oid, 'USAGE'),"
        " pg_catalog.row_security_active(c.oid), pg_catalog.pg_has_role(c.relowner, 'USAGE')"
        f" FROM (SELECT DISTINCT s.relid FROM ({source}) s) d JOIN pg_catalog.pg_class c ON c.oid = d.relid"
        " JOIN pg_catalog.pg_namespace n ON n.oid = c.relnamespace ORDER BY 1"
    )
    return [TableFacts(row[0] or "", *(it == "t" for it in row[1:])) for row in rows]


def all_facts(subscription: Subscription, wanted: Wanted, check: Check) -> Facts:
    """Everything, by a plain connection, and whether one for replication can be made."""
    with closing(subscription.connect(check, "check")) as connection:
        facts = server_facts(connection, subscription.slot)
        facts = with_publications(connection, facts, wanted)
        prepared = prepared_texts(connection)
        rds = f"SELECT r.rolname FROM pg_catalog.pg_roles r WHERE r.rolname = '{RDS}'"
        provided = "" if facts.role.replicates else connection.value(rds) or ""
    why = ""
    try:
        subscription.connect(check, "check", replication=True).close()
    except ServerError as error:
        why = str(error)
    more = {"replication_error": why, "has_replicated": not why}
    return dataclasses.replace(facts, prepared=prepared, replicators=provided, **more)


def require_published(subscription: Subscription, wanted: Wanted, check: Check) -> None:
    """Ends a start with a store that follows no publication with what --table or --all-tables asks
    for.

    Tables that joined a publication since, and ones that are gone, are told alone: the same words
    have started the follower before, and are those of its next start, where nobody may be there to
    alter them.

    Which columns and rows they have of a table isn't compared here: what changes of these is found
    at each connection.
    """
    names = ", ".join(map(literal, wanted.publications))
    with closing(subscription.connect(check, "check")) as connection:
        # (names of tables are looked up as the role does it)
        compare = different_tables if wanted.tables else not_whole
        wrong, others = compare(connection, wanted, names)
    if wrong:
        wrong = "; ".join(filter(None, (wrong, others)))
        text = "--table" if wanted.tables else "--all-tables"
        raise ServerError(
            f"{text} isn't what the store follows: {wrong}. Alter the publication, or leave {text} out",
            REFUSED,
        )
    if others:
        log.warning(f"--table isn't what is published, and what is published is followed: {others}")


def not_whole(connection: Connection, wanted: Wanted, names: str) -> tuple[str, str]:
    """What is wrong where none of the publications is for all tables."""
    query = (
        f"SELECT FROM pg_catalog.pg_publication p WHERE p.pubname IN ({names}) AND p.puballtables"
    )
    return "" if connection.rows(query) else f"no publication for all tables ({names})", ""


def different_tables(connection: Connection, wanted: Wanted, names: str) -> tuple[str, str]:
    """What --table alone has; and what the publications alone list, or isn't there at all."""
    source, unknown = source_wanted(connection, wanted)
    settle(connection)
    asked = tables_of(connection, source) if source else {}
    there = tables_of(
        connection,
        "SELECT r.prrelid AS relid FROM pg_catalog.pg_publication_rel r JOIN pg_catalog.pg_publication p ON p.oid = r.prpubid"
        f" WHERE p.pubname IN ({names})",
    )
    missing = {oid: name for oid, name in asked.items() if oid not in there}
    if missing and wanted.keyless == "leave-out":
        left_out = keyless_of(connection, source)
        missing = {oid: name for oid, name in missing.items() if oid not in left_out}
    more = {oid: name for oid, name in there.items() if oid not in asked}
    others = [f"no such table: {names_of(unknown)}"] if unknown else []
    others += [f"published too: {names_of(sorted(more.values()))}"] if more else []
    wrong = f"not published: {names_of(sorted(missing.values()))}" if missing else ""
    return wrong, "; ".join(others)


@understood("tables")
def tables_of(connection: Connection, source: str) -> dict[int, str]:
    """The tables of a query with a column `relid`: OID and name."""
    rows = connection.rows(
        f"SELECT DISTINCT c.oid, n.nspname || '.' || c.relname FROM ({source}) s JOIN pg_catalog.pg_class c ON c.oid = s.relid"
        " JOIN pg_catalog.pg_namespace n ON n.oid = c.relnamespace"
    )
    return {int(oid or 0): name or "" for oid, name in rows}
