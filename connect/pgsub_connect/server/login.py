"""Connecting to the first host and address that is there, as libpq has them, judged by how it is
protected: the settings of a DSN, its hosts and their addresses."""

from __future__ import annotations

import contextlib
import errno
import ipaddress
import os
import re
import time

from pgsub_feed.interruption import Check, looked_up, undone_by
from pgsub_feed.texts import said_text

from ..errors import LOGIN, ServerError, Unconnected
from . import transport
from .calls import libpq
from .library import conninfo, errors as of_psycopg, pq

# After how many seconds a host is given up, at most.
CONNECT_LIMIT = 10.0
# The first libpq that can be told to connect to a primary, or what writes by default, alone.
PRIMARY = 140000
# The limits that a DSN can give for a host: libpq has none below two seconds, and 0 for none.
LEAST_LIMIT, MOST_LIMIT = 2.0, 3600.0
# What a DSN goes before. A lost peer is noticed within about a minute.
DEFAULTS = {"keepalives_idle": "30", "keepalives_interval": "10", "keepalives_count": "3"}
DEFAULTS |= {"tcp_user_timeout": "60000"}


def parameters(dsn: str) -> dict[str, str]:
    """What a connection string or URI says. A database's name alone is one too, as libpq has it."""
    if dsn and "=" not in dsn and not dsn.startswith(("postgresql://", "postgres://")):
        return {"dbname": dsn}
    try:
        return {name: str(it) for name, it in conninfo.conninfo_to_dict(dsn).items()}
    except of_psycopg.ProgrammingError as error:
        text = f"the connection string is not one of libpq's{mistyped(str(error))}"
        raise ServerError(text, "22023") from None


def mistyped(said: str) -> str:
    """Which parameter isn't one, as libpq has said, where it is like another one: what else libpq
    says may have a part of a password in it."""
    # (a start takes as long as what it imports)
    import difflib

    names = [it.keyword.decode() for it in pq.Conninfo.get_defaults()]
    for word in re.findall('"([^"]*)"', said):
        if close := difflib.get_close_matches(word, names, 1):
            return f": {word} is no parameter: did you mean {close[0]}?"
    return ""


def hosts_of(settings: dict[str, str]) -> list[dict[str, str]]:
    """The settings of one attempt for each host, in libpq's order."""
    hosts, addresses, ports = (
        (settings.get(name) or os.environ.get(variable) or "").split(",")
        for name, variable in (("host", "PGHOST"), ("hostaddr", "PGHOSTADDR"), ("port", "PGPORT"))
    )
    count = max(len(hosts), len(addresses))
    if count == 1 or settings.get("target_session_attrs") == "prefer-standby":
        return [settings]
    if len(ports) not in (1, count) or {len(hosts), len(addresses)} - {1, count}:
        raise ServerError("the connection string has other numbers of hosts and ports", "22023")
    # A restarted primary is waited for, rather than one of its standbys followed.
    primary = "primary" if pq.version() >= PRIMARY else "read-write"
    wanted = {"target_session_attrs": os.environ.get("PGTARGETSESSIONATTRS", primary)}
    lists = {"host": hosts, "hostaddr": addresses, "port": ports}
    return [
        {**wanted, **settings, **{name: its[at % len(its)] for name, its in lists.items()}}
        for at in range(count)
    ]


def connect_limit(said: str) -> float:
    """After how many seconds a host is given up, by a DSN's or libpq's `connect_timeout`."""
    text = said or os.environ.get("PGCONNECT_TIMEOUT", "")
    try:
        number = float(text) if text else CONNECT_LIMIT
    except ValueError:
        raise ServerError("connect_timeout is no number", "22023") from None
    return min(max(number, LEAST_LIMIT), MOST_LIMIT) if number > 0 else MOST_LIMIT


def is_resolved(settings: dict[str, str]) -> bool:
    """Whether no name has to be looked up for these settings, or libpq has to do it since it
    chooses among several hosts itself."""
    host = settings.get("host") or os.environ.get("PGHOST", "")
    if settings.get("hostaddr") or os.environ.get("PGHOSTADDR"):
        return True
    if not host or host.startswith(("/", "@")) or "," in host:
        return True
    with contextlib.suppress(ValueError):
        ipaddress.ip_address(host)
        return True
    return bool(settings.get("service") or os.environ.get("PGSERVICE"))


def addresses_of(settings: dict[str, str], check: Check) -> list[dict[str, str]]:
    """The settings with each address of their host."""
    if is_resolved(settings):
        return [settings]
    host = settings.get("host") or os.environ["PGHOST"]
    try:
        answers = looked_up(host, None, CONNECT_LIMIT, check)
    except OSError as error:
        is_late = error.errno == errno.ETIMEDOUT
        why = f"no answer within {CONNECT_LIMIT:.0f} seconds" if is_late else error.strerror
        raise Unconnected(f"the host {host} can't be looked up: {why}") from None
    found = dict.fromkeys(str(answer[4][0]) for answer in answers)
    return [{**settings, "hostaddr": address} for address in found]


def where(settings: dict[str, str]) -> str:
    host = settings.get("host") or settings.get("hostaddr") or os.environ.get("PGHOST")
    port = f":{settings['port']}" if settings.get("port") else ""
    return f"{host or 'the server'}{port}"


# What a verbose error adds: a code, and a last line with a place in its source.
CODE, PLACE_IN_SOURCE = re.compile(r":  ([0-9A-Z]{5}): "), re.compile(r"\n[^\n]*\.c:\d+$", re.M)
# PGRES_POLLING_OK and PGRES_POLLING_FAILED.
DONE = (3, 0)


# A connection, and how it is protected.
Connected = tuple["pq.abc.PGconn", transport.Protection]


def connect(settings: dict[str, str], check: Check) -> Connected:
    """Connects to the first host that can be reached. The error is that of all of them."""
    limit, errors = connect_limit(settings.pop("connect_timeout", "")), []
    for attempt in hosts_of(settings):
        try:
            return connect_to_host(attempt, limit, check)
        except ServerError as error:
            errors.append(error)
    raise together(errors)


def connect_to_host(settings: dict[str, str], limit: float, check: Check) -> Connected:
    """Connects to a host's first address that answers. What lasts is the host's own answer."""
    errors = []
    for resolved in addresses_of(settings, check):
        try:
            return connect_to(resolved, limit, check)
        except ServerError as error:
            if error.is_lasting():
                raise
            errors.append(error)
    raise together(errors)


def connect_to(settings: dict[str, str], limit: float, check: Check) -> Connected:
    """Connects to one address. How it is protected is settled before, and judged after."""
    settings = transport.OWN.guarded(settings)
    raw = pq.PGconn.connect_start(
        conninfo.make_conninfo(**{name: it for name, it in settings.items() if it}).encode()
    )
    libpq.set_verbosity(raw, libpq.VERBOSE)
    until = time.monotonic() + limit
    with undone_by(raw.finish):
        while raw.status != pq.ConnStatus.BAD and (polled := raw.connect_poll()) not in DONE:
            check()
            if time.monotonic() > until:
                raise Unconnected(f"{where(settings)}: no answer within {limit:.0f} seconds")
            reads = polled == pq.PollingStatus.READING
            libpq.ready(raw.socket, reads=reads, writes=not reads)
        if raw.status != pq.ConnStatus.OK:
            raise transport.OWN.explained(connection_error(raw, where(settings)))
        protection = transport.protection_of(raw, libpq.is_by_gssapi(raw) or False)
        transport.OWN.judge(protection)
        libpq.set_verbosity(raw, libpq.DEFAULT)
        raw.nonblocking = 1
    return raw, protection


def together(errors: list[ServerError]) -> ServerError:
    """The error of several attempts to connect. It lasts where each of them does."""
    if len(errors) == 1:
        return errors[0]
    return Unconnected(
        "\n".join(dict.fromkeys(map(str, errors))),
        LOGIN if all(it.is_lasting() for it in errors) else "",
    )


def connection_error(raw: pq.abc.PGconn, host: str) -> Unconnected:
    """The error of a failed connection. A verbose one alone has the SQLSTATE."""
    said = said_text(raw.error_message)
    found = CODE.search(said)
    text = CODE.sub(":  ", PLACE_IN_SOURCE.sub("", said)) or f"{host}: can't connect"
    # (it is the same with TLS and without)
    text = "\n".join(dict.fromkeys(text.split("\n")))
    return Unconnected(text, found[1] if found else "28P01" if raw.needs_password else "")
