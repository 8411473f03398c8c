"""What a server is to be used for, and all its preconditions, by what it says of itself: its
version and settings, how it is reached, the role, the slot and the publications; and those that end
a start before anything is made there."""

import dataclasses
from collections.abc import Callable, Iterator

from pgsub_feed.errors import UsageError
from pgsub_feed.texts import counted, literal

from .errors import ServerError
from .judged import ERROR, Result, error, ok, warning
from .server.connection import Connection
from .server.preflight import Facts, role_facts, server_facts, tables_facts
from .server.publication_setup import REFUSED, inserts_of, keyless_text, names_of
from .server.replica_identity import members
from .server.transport import CURE

# what a version of the server has first
OLDEST, COPIES, STREAMS = 100000, 120000, 140000
FILTERS, STANDBYS, FAILOVER = 150000, 160000, 170000


@dataclasses.dataclass
class Purpose:
    """What the server is to be used for."""

    slot: str = "pgsub"
    keyless: str = "refuse"
    # whether a store is there, so that only its slot is needed
    has_store: bool = False
    # whether publication and slot are made where they aren't there
    makes: bool = True
    copies: bool = True
    failover: bool = False
    all_tables: bool = False
    messages: bool = False


Judged = Iterator[Result]


def number(facts: Facts, name: str) -> int:
    text = facts.settings.get(name, "")
    return int(text) if text.lstrip("-").isdigit() else -1


def version_text(version: int) -> str:
    return f"{version // 10000}.{version % 10000}"


# A walsender that has to answer more often than this may be given up by the server for a pause.
SHORTEST_TIMEOUT = 5000
# What servers before a version lack.
LACKING = {
    130000: "no partitioned tables in publications",
    STREAMS: "large transactions come whole, by protocol version 1",
    FILTERS: "no row filters and column lists",
}


def judge_version(facts: Facts, purpose: Purpose) -> Judged:
    version = facts.version
    text = f"PostgreSQL {version_text(version)}"
    lacks = [what for since, what in LACKING.items() if version < since]
    if version < OLDEST:
        yield error("version", f"{text}: logical replication needs 10")
    elif version < COPIES and purpose.copies and not purpose.has_store:
        yield error("version", f"{text}: the initial copy needs 12; --no-copy begins without rows")
    else:
        yield ok("version", "; ".join([text, *lacks]))
    if purpose.failover:
        if version < FAILOVER:
            yield error("failover", f"{text}: slots with --failover need 17")
        else:
            yield ok("failover", "slots can be handed on to standbys")
    if purpose.messages and version < STREAMS:
        yield error("messages", f"{text}: --messages needs 14")
    elif purpose.messages:
        yield ok("messages", "logical messages are sent, and large transactions come whole")


def judge_wal_level(facts: Facts, purpose: Purpose) -> Judged:
    level = facts.settings.get("wal_level", "")
    why = f"{level}: it has to be logical, which needs a restart of the server"
    yield ok("wal_level", level) if level == "logical" else error("wal_level", why)


def judge_room(facts: Facts, setting: str, used: int, needed: int) -> Result:
    """Whether as much of what a setting limits is left as is needed."""
    most, name = number(facts, setting), setting.removeprefix("max_")
    free = max(most - used, 0)
    text = f"{free} of {setting} = {most} free"
    return error(name, f"{text}, {needed} needed") if free < needed else ok(name, text)


def judge_senders(facts: Facts, purpose: Purpose) -> Judged:
    has_one = facts.slot is not None and facts.slot.is_active
    yield judge_room(facts, "max_wal_senders", facts.senders, 0 if has_one else 1)
    if facts.replication_error:
        yield error("replication_connection", facts.replication_error)


def judge_sender_timeout(facts: Facts, purpose: Purpose) -> Judged:
    milliseconds = number(facts, "wal_sender_timeout")
    if milliseconds <= 0:
        text = "no limit: a connector that hangs is never given up, and may keep the server's checkpoints waiting; 1min is the default"
        yield warning("wal_sender_timeout", text)
    elif milliseconds < SHORTEST_TIMEOUT:
        yield warning("wal_sender_timeout", f"{milliseconds} ms: any pause may end a session")
    else:
        yield ok("wal_sender_timeout", f"{milliseconds} ms")


def judge_connection(facts: Facts, purpose: Purpose) -> Judged:
    """What is verified of the server, and whether others can read along."""
    it, text = facts.protection, facts.protection.text()
    yield ok("tls", text) if it.is_safe() else warning("tls", f"{text}; {CURE}")


def judge_standby(facts: Facts, purpose: Purpose) -> Judged:
    if not facts.is_standby:
        yield ok("standby", "not a standby")
    elif facts.version < STANDBYS:
        text = f"PostgreSQL {version_text(facts.version)}"
        yield error("standby", f"{text} can't be followed at a standby, which needs 16")
    else:
        text = "a standby: a copy waits until the primary logs its running transactions"
        yield warning("standby", text)


def judge_prepared(facts: Facts, purpose: Purpose) -> Judged:
    if facts.prepared and not purpose.has_store:
        text = f"a copy waits for the end of {names_of(facts.prepared)}"
        yield warning("prepared_transactions", text)
    else:
        yield ok("prepared_transactions", "none in the way")


def judge_encoding(facts: Facts, purpose: Purpose) -> Judged:
    encoding = facts.settings.get("server_encoding", "")
    text = f"{encoding}: text that isn't UTF-8 ends the copy, or the following"
    is_any = encoding == "SQL_ASCII"
    yield warning("encoding", text) if is_any else ok("encoding", encoding)


def judge_role(facts: Facts, purpose: Purpose) -> Judged:
    """By the server's word: some let in members of a role, as RDS those of rds_replication."""
    role = facts.role
    if role.replicates or facts.has_replicated:
        why = "" if role.replicates else ", since the server has let it"
        yield ok("role", f"{role.name} may replicate{why}")
    else:
        granted = f", or GRANT {facts.replicators} TO {role.name}" if facts.replicators else ""
        cure = f"ALTER ROLE {role.name} REPLICATION{granted}"
        yield error("role", f"{role.name} lacks REPLICATION: {cure}")


def judge_reading(facts: Facts, purpose: Purpose) -> Judged:
    """Whether the role can read the rows for a copy."""
    if purpose.has_store or not purpose.copies:
        return
    tables, role = facts.tables, facts.role.name
    closed = [table.name for table in tables if not table.reaches_schema]
    partly = [table.name for table in tables if not table.reads and table.reads_columns]
    denied = [table.name for table in tables if not table.reads and not table.reads_columns]
    hidden = [table.name for table in tables if table.hides_rows]
    if closed:
        yield error("select", f"{role} lacks USAGE on the schemas of: {names_of(closed)}")
    if denied:
        yield error("select", f"{role} lacks SELECT on: {names_of(denied)}")
    if partly:
        text = "may read some columns alone; the copy locks a table while it reads, which needs SELECT on all of it"
        yield error("select", f"{role} {text}: {names_of(partly)}")
    if hidden:
        text = f"policies hide rows from {role}, which BYPASSRLS ends: {names_of(hidden)}"
        yield error("row_security", text)
    if not closed + denied + partly + hidden:
        yield ok("select", f"{role} can read {counted(len(tables), 'table')}")


def judge_slots(facts: Facts, purpose: Purpose) -> Judged:
    needed = 0 if facts.slot else 2 if purpose.copies else 1
    yield judge_room(facts, "max_replication_slots", facts.slots, needed)


def judge_slot(facts: Facts, purpose: Purpose) -> Judged:
    slot, name = facts.slot, purpose.slot
    if slot is None:
        if purpose.has_store:
            yield error("slot", f"{name} isn't there, and the store follows it: copy anew")
        elif not purpose.makes:
            yield error("slot", f"{name} isn't there, and --no-copy without --create makes none")
        else:
            yield ok("slot", f"{name} isn't there, and can be made")
    elif slot.plugin != "pgoutput":
        yield error("slot", f"{name} is not one of pgoutput: name another one by --slot")
    elif not slot.is_here:
        text = f"{name} is of another database than {facts.database}"
        yield error("slot", f"{text}: name that one by --dsn, or another slot by --slot")
    elif slot.is_two_phase:
        yield error("slot", f"{name} is one for two-phase commits, which aren't followed")
    elif slot.wal_status == "lost" or slot.why_invalid:
        why = f" ({slot.why_invalid})" if slot.why_invalid else ""
        yield error("slot", f"{name} is lost{why}: drop it and copy anew")
    elif not purpose.has_store and purpose.copies:
        drop = f"SELECT pg_drop_replication_slot({literal(name)})"
        cure = f"name another one by --slot; or, if nobody follows it, {drop}"
        yield error("slot", f"{name} is there already, and no store: {cure}")
    else:
        text = f"{name}{', active' if slot.is_active else ''}"
        yield judge_size(slot.wal_status, slot.safe_wal_size, text)
        if purpose.failover and not slot.is_failover:
            yield warning("failover", f"{name} isn't handed on to standbys")


def judge_size(status: str, safe: int | None, text: str) -> Result:
    left = "" if safe is None else f", {safe} bytes of log before it is lost"
    if status == "unreserved":
        return warning("slot", f"{text}: about to be lost (wal_status unreserved)")
    return ok("slot", f"{text}{f' (wal_status {status}{left})' if status else ''}")


def judge_keeping(facts: Facts, purpose: Purpose) -> Judged:
    """How long the server keeps what a follower that is off hasn't got yet."""
    if "max_slot_wal_keep_size" in facts.settings:
        size = number(facts, name := "max_slot_wal_keep_size")
        text = "no limit: the log of a follower that is off is kept until the disk is full"
        lost = f"a slot that keeps more than {size} MB of log is lost"
        yield warning(name, text) if size < 0 else ok(name, lost)
    if "idle_replication_slot_timeout" in facts.settings:
        idle = number(facts, name := "idle_replication_slot_timeout")
        lost = f"the slot of a follower that is off for {idle} s is lost"
        yield warning(name, lost) if idle > 0 else ok(name, "no limit")


def judge_making(facts: Facts, purpose: Purpose) -> Judged:
    """Whether the publications that aren't there can be made."""
    missing = [it.name for it in facts.publications if not it.is_there]
    if not missing:
        return
    names, role, why = missing, facts.role, ""
    foreign = [table.name for table in facts.tables if not table.owns]
    if purpose.has_store:
        why = ", and the store follows it"
    elif not purpose.makes:
        why = ", and --no-copy without --create makes none"
    elif facts.is_standby:
        why = ", and can't be made at a standby"
    elif purpose.all_tables and not role.is_superuser:
        why = f"; one for all tables is made by a superuser, which {role.name} isn't"
    elif not role.creates:
        why = f", and {role.name} lacks CREATE on the database {facts.database}"
    elif foreign and not role.is_superuser:
        names, why = foreign, f", and {role.name} doesn't own all tables that are to be in it"
    text = why or f", and can be made with {counted(len(facts.tables), 'table')}"
    yield (error if why else ok)("publication", f"not there{text}: {names_of(names)}")


def judge_publications(facts: Facts, purpose: Purpose) -> Judged:
    yield from judge_making(facts, purpose)
    for name in facts.unknown:
        yield error("publication", f"no table, or none that {facts.role.name} can see: {name}")
    for publication in facts.publications:
        if not publication.is_there:
            continue
        if publication.leaves_out and not publication.name.endswith(inserts_of("")):
            kinds = ", ".join(publication.leaves_out)
            yield warning("publication", f"{publication.name} leaves out: {kinds}")
        else:
            yield ok("publication", f"{publication.name} is there")
    if not facts.tables and not facts.unknown:
        yield warning("publication", "no table is published")


def judge_identities(facts: Facts, purpose: Purpose) -> Judged:
    keyless = [name for it in facts.publications if it.is_there for name in it.keyless]
    to_come = [name for it in facts.publications if not it.is_there for name in it.keyless]
    mixed = [name for it in facts.publications for name in it.mixed]
    if keyless:
        text = "published without a replica identity, so the server rejects Updates and Deletes"
        yield error("identity", f"{text}: {names_of(keyless)}")
    if to_come and (purpose.keyless == "refuse" or purpose.all_tables):
        yield error("identity", keyless_text(to_come, purpose.all_tables))
    elif to_come:
        text = "without a replica identity, so not published or for Inserts alone"
        yield warning("identity", f"{text}: {names_of(to_come)}")
    if mixed:
        text = "partitions with another replica identity than the table above them"
        yield warning("identity", f"{text}: {names_of(mixed)}")
    if not keyless and not to_come and not mixed:
        yield ok("identity", f"{counted(len(facts.tables), 'table')} with a replica identity")


def judge_locks(facts: Facts, purpose: Purpose) -> Judged:
    """The table of locks has room for so many a transaction, and all of these share it."""
    each = number(facts, "max_locks_per_transaction")
    room = each * sum(number(facts, it) for it in ("max_connections", "max_prepared_transactions"))
    text = f"a copy holds {facts.relations} locks, the server has room for about {room}"
    if purpose.has_store or facts.relations * 2 <= room:
        yield ok("locks", text)
    else:
        text += ": raise max_locks_per_transaction, which needs a restart of the server"
        yield (error if facts.relations > room else warning)("locks", text)


# SQL's word for a right that is missing
DENIED = "42501"
# Which of the results end a copy before anything is made.
# (Whether the role may replicate, the server has said by letting in the connection by which a copy
# begins.)
REQUIRED = ("version", "wal_level", "replication_slots", "standby", "encoding")
JUDGES: tuple[Callable[[Facts, Purpose], Judged], ...] = (
    *(judge_version, judge_wal_level, judge_slots, judge_senders),
    *(judge_role, judge_publications, judge_identities, judge_reading),
    *(judge_slot, judge_keeping, judge_sender_timeout),
    *(judge_connection, judge_standby, judge_prepared, judge_locks),
    judge_encoding,
)


def results(facts: Facts, purpose: Purpose) -> list[Result]:
    """All preconditions."""
    return [result for judge in JUDGES for result in judge(facts, purpose)]


def require_messages(version: int) -> None:
    """Ends a start where the server sends no messages."""
    if version < STREAMS:
        text = f"--messages needs PostgreSQL 14, and this is {version_text(version)}"
        raise UsageError(
            f"{text}: leave it out, or say --without-messages where it was said before"
        )


def require(
    connection: Connection, name: str, copies: bool, failover: bool, messages: bool = False
) -> None:
    """Ends a start where the server can't do, before anything is made there."""
    facts = server_facts(connection, name)
    if messages:
        require_messages(facts.version)
    if failover and facts.version < FAILOVER:
        text = f"--failover needs PostgreSQL 17, and this is {version_text(facts.version)}"
        raise UsageError(text)
    for result in results(facts, Purpose(name, copies=copies, failover=failover)):
        if result.level == ERROR and result.name in REQUIRED:
            raise ServerError(f"{result.name}: {result.text}", REFUSED)


def require_reading(connection: Connection, publications: list[str]) -> None:
    """Ends a copy whose rows the role can't read."""
    facts = Facts(
        role=role_facts(connection),
        tables=tables_facts(connection, " UNION ".join(map(members, publications))),
    )
    texts = [it.text for it in judge_reading(facts, Purpose()) if it.level == ERROR]
    if texts:
        raise ServerError("; ".join(texts), DENIED)
