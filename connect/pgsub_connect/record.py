"""A recording (`.pgx`): the bytes of sessions in hexadecimal, a frame per line; and one session
that is recorded without a filter."""

import dataclasses
import os
import select
import stat
import struct
import time
from collections.abc import Callable, Sequence
from functools import partial

from pgsub_feed import log
from pgsub_feed.errors import FileError, UsageError
from pgsub_feed.interruption import undone_by
from pgsub_feed.program import Worker
from pgsub_feed.texts import counted, identifier, lsn_text

from .server import session
from .server.connection import COPY_BOTH, Connection
from .stream.messages import COPY_DONE, HEADERS, clock

LONGEST = 64 << 20
# How each recording of this program begins.
BEGUN = f"# recorded by {log.PROGRAM} at "
HEAD = BEGUN.encode()


@dataclasses.dataclass(frozen=True)
class Session:
    """What a recording says of a session. `asks_for`: the options of the protocol."""

    server_version: str
    subscription: session.Subscription
    proto: int
    asks_for: Sequence[str]
    start: int


class Recording:
    """A file to which sessions are added, as long as it doesn't get longer than allowed."""

    def __init__(
        self, path: str, append: bool, limit: int, mode: int = 0o600, overwrites: bool = False
    ) -> None:
        # (the file is open as long as the program runs)
        self.out = open(
            opened(path, append, mode, overwrites), "a" if append else "w", encoding="ascii"
        )  # noqa: SIM115
        self.path = path
        self.written = self.out.tell() if self.out.seekable() else 0
        self.limit = limit
        self.full = False

    def write_line(self, line: str) -> None:
        if self.written + len(line) + 1 > self.limit and not self.full:
            text = f"{self.limit} bytes are not to be passed (--bytes)"
            log.warning(f"the recording ends here: {text}")
            self.full = True
        if not self.full:
            self.out.write(line + "\n")
            self.written += len(line) + 1

    def write_payload(self, payload: bytes) -> None:
        self.write_line(HEADERS[len(payload)].hex() + payload.hex())

    def begin_session(self, session: Session) -> None:
        if self.written:
            self.write_line("--")
        it, version = session.subscription, session.server_version
        self.write_line(f"{BEGUN}{time.strftime('%Y-%m-%d %H:%M:%S UTC', time.gmtime())}")
        self.write_line(
            f"# PostgreSQL {version}, slot {it.slot}, publication {', '.join(it.publications)}"
        )
        asked = "".join(f", {it}" for it in (*session.asks_for, f"from {lsn_text(session.start)}"))
        self.write_line(f"# protocol version {session.proto}{asked}")

    def flush(self) -> None:
        self.out.flush()

    def close(self) -> None:
        self.out.close()


def opened(path: str, append: bool, mode: int, overwrites: bool) -> int:
    """Opens a file for a recording; a FileError says that it has something else, which stays unless
    it is to be written over. A pipe or a terminal has nothing."""
    is_file = not os.path.exists(path) or os.path.isfile(path)
    how = (os.O_RDWR if is_file else os.O_WRONLY) | (os.O_APPEND if append else 0)
    file = os.open(path, how | os.O_CREAT | os.O_CLOEXEC, mode)
    with undone_by(lambda: os.close(file)):
        if stat.S_ISREG(os.fstat(file).st_mode):
            head = os.pread(file, len(HEAD), 0) if is_file else b""
            if head not in (b"", HEAD) and not overwrites:
                text = f"{path} is there and isn't a recording of {log.PROGRAM}"
                raise FileError(f"{text}: name another file, or say --overwrite to `record`")
            if not append:
                os.ftruncate(file, 0)
    return file


class Aside(Recording):
    """A recording beside a follower: where it can't be written, it alone ends."""

    has_failed = False

    def write_line(self, line: str) -> None:
        self.attempt(partial(super().write_line, line))

    def flush(self) -> None:
        self.attempt(super().flush)

    def attempt(self, write: Callable[[], None]) -> None:
        if not self.has_failed:
            try:
                write()
            except OSError as error:
                log.warning(f"{self.path}: {error.strerror}: the recording ends here")
                self.has_failed = True


@dataclasses.dataclass(frozen=True)
class RecordSettings:
    """What a session asks for, and where it begins and ends. `asks_for`: options of the protocol
    that PostgreSQL 14 has first; `confirm`: up to which LSN the server may forget its log."""

    proto: int = 2
    asks_for: Sequence[str] = ()
    start: int = 0
    until: int | str | None = None
    seconds: float | None = None
    transactions: int | None = None
    confirm: int = 0
    heartbeat: float = 10.0
    is_temporary: bool = False


@dataclasses.dataclass
class Progress:
    """What was recorded so far."""

    payloads: int = 0
    commits: int = 0
    # the end of the server's log, as it told last, and the end of the last commit
    server_end: int = 0
    commit_end: int = 0
    # the greatest LSN up to which all that was committed has come
    reached: int = 0
    asks: bool = False

    def note(self, payload: bytes) -> None:
        """Notes a payload: XLogData (`w`) or a keepalive (`k`), also one that is too short."""
        self.payloads += 1
        if payload[:1] == b"k":
            end = int.from_bytes(payload[1:9], "big")
            self.server_end, self.reached = max(self.server_end, end), max(self.reached, end)
            self.asks = self.asks or payload[17:18] == b"\1"
        elif payload[:1] == b"w":
            self.server_end = max(self.server_end, int.from_bytes(payload[9:17], "big"))
            if payload[25:26] in (b"C", b"c"):
                at = 35 if payload[25:26] == b"C" else 39
                self.commit_end = int.from_bytes(payload[at : at + 8], "big")
                self.reached = max(self.reached, self.commit_end)
                self.commits += 1

    def note_status(self) -> None:
        """Notes that the server has a status: it waits for none."""
        self.asks = False


class Recorder(Worker):
    """Records one session without a filter, and keeps the server content meanwhile."""

    def __init__(
        self, subscription: session.Subscription, settings: RecordSettings, recording: Recording
    ) -> None:
        self.subscription, self.settings, self.recording = subscription, settings, recording
        self.proto = settings.proto
        self.until = settings.until if isinstance(settings.until, int) else None
        self.progress = Progress()
        self.last_status = 0.0
        self.connection: Connection | None = None

    def connect(self) -> Connection:
        """Connects, and looks for what the server's version hasn't got."""
        connection = self.subscription.connect(self.check_stop, replication=True)
        self.connection = connection
        session.settle(connection)
        if connection.version() < session.STREAMS:
            version = connection.parameter("server_version")
            for it in self.settings.asks_for:
                raise UsageError(f"--{it} needs PostgreSQL 14, and this is {version}")
            if self.proto == 2:
                session.tell_version_1()
                self.proto = 1
        return connection

    def close(self) -> None:
        if self.connection:
            self.connection.close()
        self.connection = None
        self.recording.close()

    def run(self) -> None:
        """Records a session on the connection."""
        settings, connection = self.settings, self.connection
        assert connection
        try:
            if settings.is_temporary:
                session.settle_for_slot(connection)
                slot = identifier(self.subscription.slot)
                how = "TEMPORARY LOGICAL pgoutput NOEXPORT_SNAPSHOT"
                connection.run(f"CREATE_REPLICATION_SLOT {slot} {how}")
                session.unsettle_for_slot(connection)
                log.info("recording from now on: make changes now")
            if settings.until == "now":
                self.until = session.log_end(connection)
            options = [f"{it} 'true'" for it in settings.asks_for]
            command = self.subscription.start_command(settings.start, self.proto, options)
            connection.run(command, wanted=COPY_BOTH)
            asked = self.subscription, self.proto, settings.asks_for, settings.start
            self.recording.begin_session(Session(connection.parameter("server_version"), *asked))
            self.record(connection)
            if settings.confirm:
                self.send_status(connection)
            connection.end_copy()
        finally:
            self.recording.flush()
            done = self.progress
            said = f"{counted(done.payloads, 'frame')}, {counted(done.commits, 'commit')}"
            log.info(f"{said}, the last up to {lsn_text(done.commit_end)}")

    def send_status(self, connection: Connection) -> None:
        """Tells the server that it is heard. Only what is flushed lets it forget its log."""
        confirmed = min(self.settings.confirm, self.progress.commit_end)
        received = max(self.progress.server_end, confirmed)
        connection.send(struct.pack(">cQQQqB", b"r", received, confirmed, confirmed, clock(), 0))
        self.last_status = time.monotonic()
        self.progress.note_status()

    def is_enough(self) -> bool:
        settings, progress = self.settings, self.progress
        if self.stop_asked or self.recording.full:
            return True
        if settings.transactions is not None and progress.commits >= settings.transactions:
            return True
        return self.until is not None and progress.reached >= self.until

    def take_ready(self, connection: Connection) -> bool:
        """Records what has come. Returns false once the session is over or enough is recorded."""
        while not self.is_enough():
            payload = connection.next_payload()
            if payload is None:
                self.recording.write_line(COPY_DONE.hex())
                return False
            if not payload:
                return True
            self.recording.write_payload(payload)
            self.progress.note(payload)
            if self.progress.asks:
                self.send_status(connection)
        return False

    def record(self, connection: Connection) -> None:
        socket, seconds = connection.socket(), self.settings.seconds
        self.last_status = time.monotonic()
        deadline = float("inf") if seconds is None else self.last_status + seconds
        while self.take_ready(connection):
            now = time.monotonic()
            if now >= deadline:
                return
            wait = self.settings.heartbeat - (now - self.last_status)
            if wait <= 0:
                self.send_status(connection)
                self.recording.flush()
            select.select([socket], [], [], min(max(min(wait, deadline - now), 0.01), 0.5))
            connection.consume()
