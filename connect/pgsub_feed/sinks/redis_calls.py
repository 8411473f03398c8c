"""Commands of Redis and what it says to them, by Debian's python3-redis; and where sentinels say
that the master of a service is.

The LSN lies in the same Redis as the rows. So what a replica lacks that was promoted is written
again, as what a Redis has lost that was begun again.
"""

import contextlib
import importlib
import ssl
import urllib.parse
from collections.abc import Callable, Iterable, Iterator, Sequence
from typing import Any, Protocol, Union

from .. import log
from ..errors import EngineError, FileError, Passing, Stopped, UsageError
from ..interruption import Check, interruptible, looked_up, never, undone_by
from ..texts import shortened
from .connecting import GRACE, Peer, is_loopback

Command = Sequence[Union[bytes, str, int]]
# Errors that may pass: it loads, runs a script, is full, or another one is the primary.
PASSES = (
    *("LOADING", "BUSY", "OOM", "MISCONF", "READONLY", "MASTERDOWN", "CLUSTERDOWN", "TRYAGAIN"),
    *("NOREPLICAS", "NOGOODSLAVE"),
)
# What TLS says where the host rejects the certificate of a sink, or wants one.
OF_CERTIFICATE = ("CERTIFICATE", "UNKNOWN_CA")
# How a connection ends by the other side: by these, or as the library says it.
CUT, CLOSED = (ConnectionResetError, BrokenPipeError, ssl.SSLEOFError), "closed by server"
# How long to wait for a connection, and for what it says, in seconds.
CONNECT, LONGEST = 10.0, 300.0
# What each word of a command takes beside its bytes, here and there.
AROUND = 64
# From how many bytes on Redis may end a connection because of them.
MUCH = 1 << 29


class Said(Exception):
    """An error that Redis has said."""

    def __init__(self, text: str) -> None:
        super().__init__(shortened(text))


def raised(said: Said, where: str) -> Exception:
    """What an error is for the sink."""
    return (Passing if str(said).startswith(PASSES) else EngineError)(f"{where}: {said}")


@contextlib.contextmanager
def understood(where: str) -> Iterator[None]:
    """Rejects what Redis has said that isn't the command's, or what is kept by others."""
    try:
        yield
    except (ValueError, TypeError, KeyError, IndexError, AttributeError, RecursionError) as error:
        text = f"{type(error).__name__}: {shortened(str(error))}"
        better = "is it a Redis, whose `pgsub:` keys nothing else writes?"
        raise EngineError(f"{where}: it said what a sink can't read ({text}): {better}") from None


def causes(error: Union[BaseException, None]) -> Iterator[BaseException]:
    """An error, and those that it came of."""
    while error:
        yield error
        error = error.__cause__ or error.__context__


def is_of_certificate(error: BaseException) -> bool:
    """Whether it came of a certificate: of the host's, which isn't right, or of the sink's own, which
    the host rejects, lacks or can't be read. Another try ends in the same way."""
    found = [it for it in causes(error) if isinstance(it, ssl.SSLError)]
    return any(
        isinstance(it, ssl.SSLCertVerificationError)
        or getattr(it, "library", "") in ("X509", "PEM")
        or any(word in (getattr(it, "reason", "") or "") for word in OF_CERTIFICATE)
        for it in found
    )


def packed_command(command: Command) -> bytes:
    """A command as it is sent. (The library takes longer than all else of a change.)"""
    words = [it if isinstance(it, bytes) else str(it).encode() for it in command]
    return b"".join([b"*%d\r\n" % len(words), *(b"$%d\r\n%b\r\n" % (len(it), it) for it in words)])


def size_of(words: Iterable[str | bytes]) -> int:
    """How many bytes words take at most."""
    # (a sign of a text that isn't of ASCII has up to four)
    return sum(
        AROUND + (len(it) if isinstance(it, bytes) or it.isascii() else 4 * len(it)) for it in words
    )


class Calls(Peer, Protocol):
    """A connection. What Redis says is bytes, a number, None or a list of these; an error is a Said
    that is returned.

    A signal ends a wait where nothing comes in time: then the connection is lost.
    """

    where: str
    is_lost: bool

    def run(self, commands: Sequence[Command]) -> list[Any]:
        """Sends commands, and returns what each got."""


def asked(calls: Calls, commands: Sequence[Command]) -> list[Any]:
    """What commands got, of which none may fail."""
    said = calls.run(commands)
    for it in said:
        if isinstance(it, Said):
            raise raised(it, calls.where)
    return said


class Connection(Calls):
    """A connection to a real one. It isn't made again, since what was watched is forgotten."""

    def __init__(self, url: str, check: Check = never) -> None:
        self.check, self.is_lost, self.is_encrypted = check, False, url.startswith("rediss:")
        self.has_answered = False
        try:
            self.redis: Any = importlib.import_module("redis")
        except ModuleNotFoundError:
            raise FileError("python3-redis is needed: apt-get install python3-redis") from None
        try:
            more: dict[str, Any] = {"socket_connect_timeout": CONNECT, "socket_keepalive": True}
            if url.startswith("unix:"):
                # (a socket of a file takes neither)
                more = {}
            if self.is_encrypted and "ssl_cert_reqs" not in url:
                # (what the URL says itself goes before this)
                more["ssl_check_hostname"] = True
            pool = self.redis.ConnectionPool.from_url(url, socket_timeout=LONGEST, **more)
            self.connection = pool.make_connection()
        except (ValueError, TypeError) as error:
            raise UsageError(f"the URL of Redis: {error}") from None
        named = self.connection.__dict__
        self.where = f"Redis at {named.get('host') or named.get('path')}{':' + str(named['port']) if named.get('port') else ''}"
        if host := named.get("host"):
            self.look_up(url, str(host), int(named["port"]))
        self.guarded(0, self.connection.connect, 0.0)

    def look_up(self, url: str, host: str, port: int) -> None:
        """Looks at where it is."""
        has_password = urllib.parse.urlsplit(url).password and url.startswith("redis:")
        if has_password and not is_loopback(host):
            log.warning(f"{self.where}: the password goes there in plain text: use rediss://")
        try:
            # (the library's own look can't be ended)
            looked_up(host, port, CONNECT, self.check)
        except OSError as error:
            raise Passing(f"{self.where}: {error}") from None

    def guarded(self, size: int, call: Callable[[], Any], grace: float) -> Any:
        """Calls. What is wrong with the connection passes, unless it is the login."""
        errors = self.redis.exceptions
        try:
            with interruptible(self.check, grace):
                return call()
        except Stopped:
            self.is_lost = True
            raise
        except errors.AuthenticationError as error:
            raise EngineError(f"{self.where}: {shortened(str(error))}") from None
        except errors.ResponseError as error:
            raise raised(Said(self.text(error)), self.where) from None
        except (errors.InvalidResponse, ValueError) as error:
            text = f"{self.where}: it said what isn't Redis' protocol: {str(error)[:200]}"
            raise EngineError(text) from None
        except RecursionError:
            raise EngineError(f"{self.where}: it said what isn't Redis' protocol") from None
        except (errors.RedisError, OSError) as error:
            if is_of_certificate(error):
                raise EngineError(f"{self.where}: {shortened(str(error))}") from None
            is_missing = any(isinstance(it, FileNotFoundError) for it in causes(error))
            if self.is_encrypted and is_missing:
                raise FileError(
                    f"{self.where}: a file that its URL names by ssl_ca_certs, ssl_certfile or ssl_keyfile isn't there"
                ) from None
            told = shortened(str(error)) or type(error).__name__
            raise Passing(f"{self.where}: {told}{self.hint(size, error)}") from None

    def hint(self, size: int, error: BaseException) -> str:
        """What it may be that the other side has ended a connection for, after so many bytes."""
        if size > MUCH:
            return (
                f" (of {size >> 20} MB that were sent: client-query-buffer-limit may be below that)"
            )
        is_cut = CLOSED in str(error) or any(isinstance(it, CUT) for it in causes(error))
        if self.is_encrypted and is_cut and not self.has_answered:
            # (it may be gone before it is read that it rejects the certificate)
            return " (before it said anything: it may want another certificate, by ssl_certfile and ssl_keyfile)"
        return ""

    def text(self, error: Exception) -> str:
        """An error as Redis has said it: the library takes known codes away."""
        codes = {
            "BusyLoadingError": "LOADING",
            "ReadOnlyError": "READONLY",
            "NoScriptError": "NOSCRIPT",
            "ExecAbortError": "EXECABORT",
            "NoPermissionError": "NOPERM",
            "OutOfMemoryError": "OOM",
        }
        code = codes.get(type(error).__name__, "")
        return str(error) if str(error).startswith(code) else f"{code} {error}"

    def run(self, commands: Sequence[Command]) -> list[Any]:
        if self.is_lost:
            # (the library would connect again, and what was watched is forgotten)
            raise Passing(f"{self.where}: the connection is lost")
        packed = b"".join(map(packed_command, commands))

        def call() -> list[Any]:
            self.connection.send_packed_command([packed])
            return [self.said() for _ in commands]

        found: list[Any] = self.guarded(len(packed), call, GRACE)
        self.has_answered = True
        return found

    def said(self) -> Any:
        try:
            return self.whole(self.connection.read_response())
        except self.redis.exceptions.ResponseError as error:
            return Said(self.text(error))

    def whole(self, said: Any) -> Any:
        if isinstance(said, list):
            return [self.whole(it) for it in said]
        return Said(self.text(said)) if isinstance(said, Exception) else said

    def close(self) -> None:
        self.connection.disconnect()


SCHEME, PORT = "redis+sentinel://", 26379


def connected(url: str, check: Check) -> Calls:
    """A connection to the Redis of a URL, which may be `redis+sentinel://[LOGIN@]HOST,HOST:PORT/SERVICE/NUMBER`
    with the login of the master."""
    if not url.startswith(SCHEME):
        return Connection(url, check)
    login, sign, place = url.removeprefix(SCHEME).rpartition("@")
    hosts, _, rest = place.partition("/")
    service, _, number = rest.partition("/")
    sentinels = [it if ":" in it.rpartition("]")[2] else f"{it}:{PORT}" for it in hosts.split(",")]
    if not service or not all(hosts.split(",")):
        text = "the URL of Redis: it is no URL as redis+sentinel://localhost:26379/service/0"
        raise UsageError(text)
    where = master_of(sentinels, service, check)
    master = Connection(f"redis://{login}{sign}{where}/{number}", check)
    with undone_by(master.close):
        check_master(master)
    return master


def master_of(sentinels: Sequence[str], service: str, check: Check) -> str:
    """Where the first of these that knows it says that it is."""
    wrong = []
    for it in sentinels:
        try:
            with contextlib.closing(Connection(f"redis://{it}", check)) as sentinel:
                (said,) = asked(sentinel, [("SENTINEL", "GET-MASTER-ADDR-BY-NAME", service)])
                with understood(sentinel.where):
                    if said is not None:
                        host, port = (it.decode() for it in said)
                        return f"[{host}]:{int(port)}" if ":" in host else f"{host}:{int(port)}"
            wrong.append(f"{sentinel.where}: a sentinel knows no master {service}")
        except Passing as error:
            wrong.append(str(error))
    raise Passing("; ".join(wrong))


def check_master(redis: Calls) -> None:
    """Rejects one that isn't the master any more, or not yet."""
    (said,) = redis.run([("ROLE",)])
    with understood(redis.where):
        if not isinstance(said, Said) and said[0] != b"master":
            raise Passing(f"{redis.where}: it isn't the master that the sentinels take it for")
