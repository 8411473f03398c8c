"""How far a connection can be trusted: whether others on the way can read it, and what the server
has proved.

All connections of a process are to one server, so one `Trust` judges each of them, before a
password is sent where that is possible. Once a connection was encrypted, none that isn't follows
without a word: not in this process, and by the checkpoint not in a later one.
"""

from __future__ import annotations

import contextlib
import dataclasses
import functools
import ipaddress
import os
import threading
from collections.abc import Iterable, Iterator

from pgsub_feed import log
from pgsub_feed.errors import Unfit

from ..errors import ServerError, Unconnected
from .library import pq

# What a connection goes by.
SOCKET, PLAIN, TLS, GSSAPI = "socket", "plain", "tls", "gssapi"
# What a server has proved: an authority has certified it, its name, that it knows the password.
AUTHORITY, NAME, BINDING = "authority", "name", "channel binding"
# The sslmodes that may end in plain text, and those that look at the certificate.
OPEN, VERIFIES = ("disable", "allow", "prefer"), ("verify-ca", "verify-full")
# The sslmode of a connection of which nobody has said one.
UNSAID = "?"
# What libpq says of a server without TLS, and the SQLSTATE of that here, which lasts.
LACKS_TLS, REFUSED = "does not support SSL", "28000"
CURE = (
    "sslmode=verify-full checks the server's name,"
    " channel_binding=require that it knows the password"
)
# (what libpq reads of the environment is altered for a moment, by one thread at a time)
ALTERING = threading.Lock()


@dataclasses.dataclass(frozen=True)
class Protection:
    """How a connection is protected. `near`: it doesn't leave this machine."""

    way: str = SOCKET
    verified: tuple[str, ...] = ()
    near: bool = True

    def is_encrypted(self) -> bool:
        return self.way in (TLS, GSSAPI)

    def is_safe(self) -> bool:
        """Whether nobody on the way can read it, or be its other end."""
        return self.near or NAME in self.verified or BINDING in self.verified

    def text(self) -> str:
        if self.way == SOCKET or self.way == PLAIN and self.near:
            return "not in use, to a server on this machine"
        if self.way == PLAIN and not self.near:
            return "not in use: passwords, rows and their changes can be read on the way"
        kind = "in use" if self.way == TLS else "GSSAPI encryption in its place"
        verified = ", ".join(self.verified) or "nothing, so anybody may be the server"
        return f"{kind}, verified: {verified}"

    def warning(self) -> str:
        """What is to be warned of, "" for nothing."""
        if self.is_safe():
            return ""
        if self.way == PLAIN:
            return f"the connection isn't encrypted: {CURE}"
        why = "nothing of the server is verified, so it may be anybody's"
        if AUTHORITY in self.verified:
            why = "the server's name isn't verified, its certificate's authority alone"
        return f"the connection is encrypted, but {why}: {CURE}"


class Trust:
    """What is known of the connections of a process, and of earlier ones of the store."""

    def __init__(self) -> None:
        # whether one was encrypted, of any run since a plain one was accepted
        self.was_encrypted = False
        self.is_quiet = False
        self.last: Protection | None = None

    def keep_quiet(self) -> None:
        """Tells of no connection from now on, since the caller does so itself."""
        self.is_quiet = True

    def begin(self, was_encrypted: bool, accept: Iterable[str]) -> None:
        """Begins with what a checkpoint remembers, unless it is said that plain text may follow."""
        self.was_encrypted = was_encrypted and "plaintext" not in accept

    def guarded(self, settings: dict[str, str]) -> dict[str, str]:
        """The settings with the sslmode that they need. Raises where TLS was in use, and isn't."""
        meant = defaults_of(settings.get("service", ""))
        meant |= {name: it for name, it in settings.items() if it}
        if is_socket(meant):
            return settings
        said = mode = meant.get("sslmode", "") or UNSAID
        if mode == UNSAID and meant.get("sslrootcert") == "system":
            # (libpq takes verify-full then, and no less)
            return settings
        if mode == UNSAID:
            mode = "prefer" if is_near(meant) else "require"
        if self.was_encrypted and mode in OPEN and meant.get("gssencmode") != "require":
            if mode == "disable":
                raise lost(f"sslmode={mode} asks for plain text")
            mode = "require"
        return settings if mode == said else {**settings, "sslmode": mode}

    def explained(self, error: ServerError) -> ServerError | Unfit:
        """The error of a connection that wasn't made, where what is missing is TLS."""
        if LACKS_TLS not in str(error):
            return error
        if self.was_encrypted:
            return lost(str(error))
        text = (
            "sslmode=prefer or sslmode=disable in the connection string lets everything go in plain"
            " text, passwords too"
        )
        return Unconnected(f"{error}\n{text}", REFUSED)

    def judge(self, protection: Protection) -> None:
        """Notes how a new connection is protected. Raises where it is plain text after TLS."""
        if protection.is_encrypted():
            self.was_encrypted = True
        elif self.was_encrypted and protection.way != SOCKET:
            raise lost("this connection isn't encrypted")
        if protection != self.last and not self.is_quiet:
            tell(protection)
        self.last = protection

    def shown(self) -> dict[str, object]:
        """The fields of the status file."""
        if self.last is None:
            return {}
        return {"encryption": self.last.way, "verified": list(self.last.verified)}


# The one of this process.
OWN = Trust()


def lost(why: str) -> Unfit:
    return Unfit(
        f"{why}, and the connections were encrypted before: somebody on the way may have done that,"
        " so no password was sent. Where it is meant, name sslmode=disable or sslmode=prefer in the"
        " connection string, and say --accept plaintext"
    )


def tell(protection: Protection) -> None:
    """Tells what is new of a connection."""
    if text := protection.warning():
        log.warning(text)
    elif protection.is_encrypted():
        log.info(f"TLS is {protection.text()}")


def defaults_of(service: str) -> dict[str, str]:
    """What libpq fills in from environment and service; `?` for an sslmode nobody has said."""
    service = service or os.environ.get("PGSERVICE", "")
    mode = os.environ.get("PGSSLMODE", "") or UNSAID
    if not service:
        return {**filled_in(), "sslmode": mode}
    with ALTERING:
        return dict(defaults_by_service(service, os.environ.get("PGSERVICEFILE", ""), mode))


@functools.cache
def defaults_by_service(service: str, _: str, mode: str) -> tuple[tuple[str, str], ...]:
    """The same of a service. An sslmode that it lacks is that of the environment."""
    with environment(PGSERVICE=service, PGSSLMODE=mode):
        return tuple(filled_in().items())


def filled_in() -> dict[str, str]:
    found = pq.Conninfo.get_defaults()
    return {it.keyword.decode(): it.val.decode(errors="replace") for it in found if it.val}


@contextlib.contextmanager
def environment(**values: str) -> Iterator[None]:
    before = {name: os.environ.get(name) for name in values}
    os.environ.update(values)
    try:
        yield
    finally:
        for name, value in before.items():
            if value is None:
                del os.environ[name]
            else:
                os.environ[name] = value


def hosts_in(meant: dict[str, str]) -> list[tuple[str, str]]:
    """Each host of a connection with its address, "" where one of them isn't said."""
    hosts, addresses = (meant.get(name, "").split(",") for name in ("host", "hostaddr"))
    count = max(len(hosts), len(addresses))
    return [
        (hosts[min(it, len(hosts) - 1)], addresses[min(it, len(addresses) - 1)])
        for it in range(count)
    ]


def is_socket(meant: dict[str, str]) -> bool:
    """Whether a connection goes to sockets of this machine alone, where libpq asks for no TLS."""
    hosts = hosts_in(meant)
    return all(not address and (not it or it.startswith(("/", "@"))) for it, address in hosts)


def is_near(meant: dict[str, str]) -> bool:
    """Whether it stays on this machine."""
    return all(stays_here(host, address) for host, address in hosts_in(meant))


def stays_here(host: str, address: str) -> bool:
    with contextlib.suppress(ValueError):
        return ipaddress.ip_address(address or host).is_loopback
    return not address and (not host or host.startswith(("/", "@")) or host == "localhost")


def protection_of(raw: pq.abc.PGconn, by_gssapi: bool) -> Protection:
    """How an open connection is protected."""
    host, address = raw.host.decode(errors="replace"), raw.hostaddr.decode(errors="replace")
    near = stays_here(host, address)
    if not raw.ssl_in_use and host.startswith(("/", "@")):
        return Protection(SOCKET)
    if not raw.ssl_in_use:
        # (who has its ticket is the server that Kerberos knows by this name)
        return Protection(GSSAPI, (NAME,), near) if by_gssapi else Protection(PLAIN, (), near)
    used = {it.keyword.decode(): (it.val or b"").decode(errors="replace") for it in raw.info}
    mode = used.get("sslmode")
    is_certified = mode in VERIFIES or has_authority(used.get("sslrootcert", ""))
    verified = [AUTHORITY] if is_certified else []
    verified += [NAME] if mode == "verify-full" else []
    verified += [BINDING] if used.get("channel_binding") == "require" else []
    return Protection(TLS, tuple(verified), near)


def has_authority(path: str) -> bool:
    """Whether libpq has certificates of authorities, and so verifies in every sslmode."""
    return os.path.exists(path or os.path.expanduser("~/.postgresql/root.crt"))
