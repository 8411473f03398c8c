"""What is followed at a server, what is asked of it, and the settings of each session."""

import contextlib
import dataclasses
import re
from collections.abc import Iterable, Iterator

from pgsub_feed import log
from pgsub_feed.errors import Unfit
from pgsub_feed.interruption import Check
from pgsub_feed.texts import PRINTING, identifier, literal, lsn_text, parse_lsn
from pgsub_feed.texts import replication_literal

from ..errors import IN_USE, ServerError, understood
from .connection import QUICK, Connection


@dataclasses.dataclass
class Subscription:
    """The connection string, the slot, and the publications.

    The names of the publications are known for good once those that lack are made, or those of an
    interrupted copy are found.
    """

    dsn: str = ""
    slot: str = "pgsub"
    publications: list[str] = dataclasses.field(default_factory=list)

    def note_publications(self, names: Iterable[str]) -> None:
        """Notes the publications that were made or found."""
        self.publications = list(names)

    def connect(
        self, check: Check, purpose: str = "", *, replication: bool = False, quiet: bool = False
    ) -> Connection:
        """A connection. Its name there is the slot's, and says what for."""
        name = f"{self.slot} {purpose}" if purpose else self.slot
        return Connection(self.dsn, replication=replication, name=name, quiet=quiet, check=check)

    @contextlib.contextmanager
    def connected(
        self, purpose: str, check: Check, replication: bool = False
    ) -> Iterator[Connection]:
        """Another one, settled."""
        connection = self.connect(check, purpose, replication=replication)
        with contextlib.closing(connection):
            settle(connection)
            yield connection

    def start_command(self, at: int, proto: int, more: Iterable[str]) -> str:
        """What begins to replicate from an LSN on. `more`: what is asked for besides."""
        names = ", ".join(map(identifier, self.publications))
        words = [f"proto_version '{proto}'", f"publication_names {replication_literal(names)}"]
        how = f"{lsn_text(at)} ({', '.join([*words, *more])})"
        return f"START_REPLICATION SLOT {identifier(self.slot)} LOGICAL {how}"


LIMITS = "statement_timeout", "lock_timeout", "idle_in_transaction_session_timeout"
SETTINGS = {**PRINTING, **dict.fromkeys(LIMITS, "0")}
# Settings that came later, by the version that has them first.
LATER = {"idle_session_timeout": 140000, "transaction_timeout": 170000}
# The first version of the server that has version 2 of the protocol, and with it streaming, binary
# values and messages; and the first that aborts transactions in version 1 too.
STREAMS, ABORTS_IN_VERSION_1 = 140000, 180000
# The LSN from which a slot `s` sends.
POSITION = "s.confirmed_flush_lsn - '0/0'::pg_catalog.pg_lsn"
# A word of synchronous_standby_names, in double quotes or not.
STANDBY = re.compile(r'"((?:[^"]|"")+)"|([^\s,()"]+)')
IN_MILLISECONDS = {"ms": 1, "s": 1000, "min": 60_000, "h": 3_600_000, "d": 86_400_000}


@dataclasses.dataclass
class Server:
    """What IDENTIFY_SYSTEM says, and whether the server is a standby."""

    system: str
    timeline: int
    log_end: int
    database: str
    is_standby: bool
    # when it was started, in microseconds since 1970; 0 where it doesn't say
    started: int = 0
    # of the database, whose name may change; 0 where it doesn't say
    database_oid: int = 0


def settle(connection: Connection) -> None:
    """Gives a connection the settings on which the text of values depends."""
    later = {name: "0" for name, since in LATER.items() if connection.version() >= since}
    calls = (
        f"pg_catalog.set_config({literal(name)}, {literal(value)}, false)"
        for name, value in {**SETTINGS, **later}.items()
    )
    connection.rows(f"SELECT {', '.join(calls)}", QUICK)


def settle_for_slot(connection: Connection) -> None:
    """Gives a connection what it needs to make a slot of pgoutput.

    PostgreSQL 18 (seen with 18.6) crashes where it decodes more of a transaction that was rolled
    back than it keeps in memory, while it makes a slot: that aborts the transaction in pgoutput,
    which has no cache of relations then. All sessions of the server end by that.
    """
    if connection.version() >= ABORTS_IN_VERSION_1:
        connection.run("SET logical_decoding_work_mem = '1GB'", limit=QUICK)


def unsettle_for_slot(connection: Connection) -> None:
    """Goes back to the server's own setting, for a session that follows on the connection. An
    exported snapshot is gone by that."""
    if connection.version() >= ABORTS_IN_VERSION_1:
        connection.run("RESET logical_decoding_work_mem", limit=QUICK)


@understood("itself")
def identify(connection: Connection) -> Server:
    """Asks a replication connection whose it is."""
    system, timeline, log_end, database = (
        it or "" for it in connection.rows("IDENTIFY_SYSTEM", QUICK)[0]
    )
    standby = connection.value("SELECT pg_catalog.pg_is_in_recovery()", QUICK) == "t"
    more = postmaster_start(connection), database_oid(connection)
    return Server(system, int(timeline), parse_lsn(log_end), database, standby, *more)


def database_oid(connection: Connection) -> int:
    """The OID of the connection's database, which stays when that is renamed."""
    here = "d.datname = pg_catalog.current_database()"
    query = f"SELECT d.oid FROM pg_catalog.pg_database d WHERE {here}"
    return int(connection.value(query, QUICK) or 0)


def is_same_database(name: str, noted: tuple[int, str] | None, here: str, oid: int) -> bool:
    """Whether the database here has the name of a checkpoint, or the OID where that was noted."""
    return noted[0] == oid if noted and noted[0] and oid else name == here


@understood("itself")
def check_followed(
    connection: Connection, system: str, database: str, noted: tuple[int, str] | None
) -> None:
    """Rejects a server or database that isn't the one of a checkpoint, which may name none yet.
    `noted`: the database's OID and name beside the store. (No replication connection is needed.)"""
    if not system:
        return
    here, name = connection.rows(
        "SELECT s.system_identifier, pg_catalog.current_database() FROM pg_catalog.pg_control_system() s",
        QUICK,
    )[0]
    oid = database_oid(connection)
    if here != system or not is_same_database(database, noted, name or "", oid):
        ours = f"the database {database} of the server {system}"
        raise Unfit(f"the store follows {ours}, and this is {name} of {here}")


def tell_version_1() -> None:
    """Tells that version 1 is taken in the place of version 2, which was asked for."""
    log.info("the server has version 1 of the protocol alone: large transactions come whole")


@understood("its timelines")
def left_at(connection: Connection, timeline: int, before: int) -> int | None:
    """The LSN at which the server's timeline left another one; None where it never did."""
    history = connection.rows(f"TIMELINE_HISTORY {timeline}", QUICK)[0][1] or ""
    for line in history.splitlines():
        words = line.split("\t")
        if len(words) > 1 and words[0].strip() == str(before):
            return parse_lsn(words[1].strip())
    return None


def of_slot(columns: str, slot: str) -> str:
    """A query for what the server says of a slot."""
    slots = "pg_catalog.pg_replication_slots"
    return f"SELECT {columns} FROM {slots} s WHERE s.slot_name = {literal(slot)}"


@understood("a slot")
def slot_position(connection: Connection, slot: str) -> int | None:
    """The LSN from which the slot sends; None where there is no such slot."""
    two_phase = "s.two_phase" if connection.version() >= STREAMS else "false"
    columns = f"s.plugin, s.database = pg_catalog.current_database(), {two_phase}, {POSITION}"
    rows = connection.rows(of_slot(columns, slot), QUICK)
    if not rows:
        return None
    plugin, is_ours, is_two_phase, position = rows[0]
    if plugin != "pgoutput" or is_ours != "t":
        raise other_slot(connection, slot)
    if is_two_phase == "t":
        text = f"the slot {slot} is one for two-phase commits, which aren't followed: make it without two_phase"
        raise Unfit(text)
    if position is None:
        raise ServerError(f"the slot {slot} is still being made", IN_USE)
    return int(position)


def other_slot(connection: Connection, slot: str) -> Unfit:
    """What is wrong with a slot of another plugin or database, and what to name."""
    query = of_slot("s.plugin, s.database, pg_catalog.current_database()", slot)
    plugin, database, here = connection.rows(query)[0]
    if plugin != "pgoutput":
        kind = f"of the plugin {plugin}" if plugin else "a physical one"
        text = f"the slot {slot} is {kind}, and not one of pgoutput: name another one by --slot"
        return Unfit(text)
    return Unfit(
        f"the slot {slot} is of the database {database}, and this is {here}: name that one by --dsn, or another slot by --slot"
    )


def is_lost(connection: Connection, slot: str) -> bool:
    """Whether the server has removed log that the slot needs, so that it can't be read."""
    query = of_slot("s.wal_status", slot)
    return connection.version() >= 130000 and connection.value(query, QUICK) == "lost"


@understood("wal_sender_timeout")
def sender_timeout(connection: Connection) -> float | None:
    """After how many seconds of silence the server gives a session up; None for never."""
    text = connection.value("SHOW wal_sender_timeout", QUICK) or "0"
    digits = text.rstrip("abcdefghijklmnopqrstuvwxyz")
    milliseconds = int(digits) * IN_MILLISECONDS.get(text[len(digits) :], 1)
    return milliseconds / 1000 if milliseconds else None


def waits_for(standbys: str, name: str) -> bool:
    """Whether commits at a server may wait for the standby with this name, where these are its
    synchronous_standby_names."""
    names = {
        (quoted.replace('""', '"') or plain).lower() for quoted, plain in STANDBY.findall(standbys)
    }
    return not names.isdisjoint({"*", name.lower()})


# Where the log ends, or is replayed to, how far the disk has it, and how long its files are.
END = (
    "CASE WHEN pg_catalog.pg_is_in_recovery() THEN pg_catalog.pg_last_wal_replay_lsn()"
    " ELSE pg_catalog.pg_current_wal_insert_lsn() END,"
    " CASE WHEN pg_catalog.pg_is_in_recovery() THEN pg_catalog.pg_last_wal_replay_lsn()"
    " ELSE pg_catalog.pg_current_wal_flush_lsn() END,"
    " pg_catalog.pg_size_bytes(pg_catalog.current_setting('wal_segment_size'))"
)
PAGE, SHORT_HEAD, LONG_HEAD = 8192, 24, 40


def exact_end(end: int, flushed: int, segment: int) -> int:
    """Where the log ends. At the end of a page the server tells the place behind the next page's
    head, which nothing ever reaches."""
    head = LONG_HEAD if segment and flushed % segment == 0 else SHORT_HEAD
    return flushed if flushed % PAGE == 0 and end == flushed + head else end


@understood("the end of its log")
def log_end(connection: Connection) -> int:
    """Where the server's log ends now; of a standby, how far it is replayed."""
    end, flushed, segment = connection.rows(f"SELECT {END}", QUICK)[0]
    return exact_end(parse_lsn(end or "0/0"), parse_lsn(flushed or "0/0"), int(segment or 0))


@understood("its start")
def postmaster_start(connection: Connection) -> int:
    """When the server was started, in microseconds since 1970. A server that runs on loses nothing,
    whatever becomes of its timeline."""
    text = connection.value(
        "SELECT (pg_catalog.date_part('epoch', pg_catalog.pg_postmaster_start_time()) * 1000000)::pg_catalog.int8",
        QUICK,
    )
    return int(text) if text else 0
