"""The filter `pgsub follow` as a child: frames go to its input, statuses come from its output."""

import contextlib
import errno
import os
import select
import signal
import subprocess
from collections.abc import Iterator, Sequence

from pgsub_feed.errors import Passing
from pgsub_feed.interruption import Check, never, undone_by

from .. import version
from ..errors import FilterFault
from ..store.repeats_file import RepeatsFile
from ..store.spool_folder import SpoolFolder
from .awake import Awake, Numbers, Served
from .filter_end import ROOMLESS, FilterEnded
from .filter_input import PIECE, ROOM, FilterInput
from .left_file import LeftFile
from .messages import COPY_DONE, HEADERS, STATUS, STATUS_HEAD, flushed, without_received
from .room import room_text
from .watch_lines import FilterSaid

# How long an opening store is waited for until it is looked for the end, in seconds.
LOOK = 0.5
# What has it read tables before its first session, and what has it watch its server's sessions.
LOAD, WATCH = "--load", "--watch"
# What has it compare commits that come again with those that came before.
REPEATS = "--repeats"
# The file in which changes of open transactions go on, and how many bytes of them stay in memory.
SPOOL, SPOOL_MEMORY = "--spool", "--spool-memory"
# How many bytes of changes it buffers at most.
MAX_BUFFERED = "--max-buffered"
# What has it start without reading the rows of a store that the one before it left.
TRUST = "--trust-store"
# What a filter needs of the environment: not the passwords of a server.
KEPT = ("PATH", "LANG", "LC_ALL", "LC_MESSAGES", "TMPDIR", "TZ", "HOME")


class Filter:
    """A running filter, or one that is to be started."""

    child: subprocess.Popen[bytes]

    def __init__(
        self,
        words: list[str],
        kept_open: Sequence[int],
        proto: int = 2,
        mode: int = 0o600,
        left: LeftFile | None = None,
        spool: SpoolFolder | None = None,
    ) -> None:
        self.words, self.proto, self.kept_open, self.mode = words, proto, kept_open, mode
        self.runs = self.in_session = False
        self.input, self.said = FilterInput(), FilterSaid()
        # where it is to note commits, and whether the one that runs does
        self.repeats: RepeatsFile | None = None
        self.compares = False
        # where changes go on that its memory doesn't hold, None where all stay there
        self.spool = spool
        # by which one trusts what the one before it left; and whether the one that runs does
        self.left, self.trusts = left, False
        # the last status, and the beginning of the next one
        self.status = self.partial = b""
        # whether the last one that had opened its store has said it of all that it stored
        self.has_told_all = False

    def is_running(self) -> bool:
        return self.runs

    def pid(self) -> int:
        """Its process."""
        return self.child.pid

    def use(self, proto: int) -> None:
        """The next one reads this version of the protocol."""
        self.proto = proto

    def add_words(self, words: Sequence[str]) -> None:
        self.words += words

    def told(self) -> list[str]:
        """All that is told to each."""
        if not self.spool:
            return self.words
        return [*self.words, SPOOL, self.spool.path, SPOOL_MEMORY, str(self.spool.in_memory)]

    def is_to_stop(self) -> bool:
        """Whether it is to end where its server breaks a rule."""
        return WATCH in self.words and self.words[self.words.index(WATCH) + 1] == "stop"

    def note_repeats(self, file: RepeatsFile | None) -> None:
        """The next one compares commits that come again with what this file has of them."""
        self.repeats = file

    @contextlib.contextmanager
    def noting_none(self) -> Iterator[None]:
        """Filters that begin meanwhile note no commits: what a copy gives them is no session."""
        file, self.repeats = self.repeats, None
        try:
            yield
        finally:
            self.repeats = file

    def compares_by(self) -> RepeatsFile | None:
        """What the one that runs compares commits with, None where it doesn't."""
        return self.repeats if self.compares else None

    def launch(self, *more: str) -> None:
        """Starts the filter, once with more words. Its first status comes once it has opened its
        store, and has read what is to come before its first session."""
        version.check_program(self.words[0])
        words = self.watching(LOAD in more)
        if self.spool:
            self.spool.begin()
        self.trusts = self.left is not None and self.left.begin()
        if self.trusts:
            words = [*words, TRUST]
        try:
            # (a session of its own: an interrupt at the terminal is for the connector)
            self.child = subprocess.Popen(
                [*words, "--proto", str(self.proto), *more],
                stdin=subprocess.PIPE,
                stdout=subprocess.PIPE,
                stderr=subprocess.PIPE,
                start_new_session=True,
                pass_fds=self.kept_open,
                umask=0o777 & ~self.mode,
                env={name: value for name, value in os.environ.items() if name in KEPT},
            )
        except OSError as error:
            if error.errno in (errno.EAGAIN, errno.ENOMEM):
                raise Passing(f"{self.words[0]} can't be started now: {error.strerror}") from None
            raise FilterFault(f"{self.words[0]}: {error.strerror}") from None
        assert self.child.stdout
        self.input, self.said = FilterInput(self.child.stdin), FilterSaid(self.child.stderr)
        self.up = self.child.stdout.fileno()
        os.set_blocking(self.up, False)
        self.status, self.partial, self.in_session = b"", b"", False
        self.runs = True

    def watching(self, loads: bool) -> list[str]:
        """Its words, with the file that it compares commits with: not where it reads a load first,
        which it would take for a session."""
        self.compares = self.repeats is not None and not loads
        if self.repeats and self.compares:
            self.repeats.prepare()
            return [*self.told(), REPEATS, self.repeats.path]
        return self.told()

    def start(self, check: Check = never) -> int:
        """Starts the filter, unless it is started, waits for its first status, and returns the LSN
        up to which its store confirms.

        What `check` raises meanwhile ends the filter: one that opens its store has nothing to lose.
        """
        if not self.runs:
            self.launch()
        with undone_by(self.kill):
            while not self.status:
                check()
                self.serve(LOOK)
        return flushed(self.status)

    def opening(self) -> tuple[int, int]:
        """How many bytes the one that opens its store has read, and how many the store has. An
        OSError says that the system doesn't tell."""
        with open(f"/proc/{self.pid()}/io", encoding="ascii") as file:
            read = int(file.readline().split()[1])
        return read, os.path.getsize(self.words[self.words.index("--store") + 1])

    def is_opening(self) -> bool:
        """Whether one runs that is still opening its store."""
        return self.runs and not self.status

    def has_opened(self) -> bool:
        """Whether its first status has come."""
        return bool(self.status)

    def confirmed(self) -> int:
        return flushed(self.status)

    def push_load(self, piece: bytes | memoryview) -> None:
        """Gives the filter bytes that come before its first session."""
        self.input.push(piece)

    def push(self, piece: bytes) -> None:
        """Gives the filter bytes of the session, at once as far as the pipe takes them. A frame may
        come in several pieces, one right after the other."""
        self.in_session = True
        self.input.push(piece)

    def push_payloads(self, payloads: list[bytes]) -> None:
        """Gives the filter CopyData with these payloads, of which the last alone may be long."""
        if not payloads:
            return
        parts = [b""] * (2 * len(payloads))
        parts[::2] = map(HEADERS.__getitem__, map(len, payloads))
        parts[1::2] = payloads
        long = parts.pop() if len(payloads[-1]) >= PIECE else b""
        self.push(b"".join(parts))
        if long:
            self.push(long)

    def end_session(self) -> None:
        """Puts CopyDone in the place of a connection that is gone."""
        if self.runs and self.input.takes and self.in_session:
            self.push(COPY_DONE)
            self.in_session = False
            self.status = without_received(self.status)

    def room(self) -> int:
        """How many bytes may be pushed before others are to be written, but for a last frame."""
        return ROOM - self.input.waiting

    def has_room(self) -> bool:
        return self.input.waiting < ROOM

    def finish(self) -> None:
        """Ends the filter's input."""
        self.input.finish()

    def serve(
        self, timeout: float, reads: Numbers = (), writes: Numbers = (), awake: Awake | None = None
    ) -> Served:
        """Waits until something is ready, asleep or awake at first, moves bytes both ways, and
        returns what of `reads` and `writes` is ready and the filter's new statuses. What it said
        before these is read then, too."""
        takes = [self.input.number] if self.input.waits() else []
        tells = [self.up, self.said.number] if self.said.speaks else [self.up]
        if awake:
            readable, writable = awake.select([*tells, *reads], [*takes, *writes], timeout)
        else:
            readable, writable, _ = select.select([*tells, *reads], [*takes, *writes], [], timeout)
        if self.input.takes and self.input.number in writable:
            self.input.write()
        statuses = self.read_statuses() if self.up in readable else []
        if self.said.number in readable or statuses and self.said.has_said():
            self.said.read()
        return readable, writable, statuses

    def read_statuses(self) -> list[bytes]:
        try:
            piece = os.read(self.up, PIECE)
        except BlockingIOError:
            return []
        if not piece:
            raise self.ended()
        if self.partial:
            piece = self.partial + piece
        statuses, at = [], 0
        while at + STATUS <= len(piece):
            if not piece.startswith(STATUS_HEAD, at):
                self.kill()
                raise FilterFault("the filter wrote what isn't a status")
            self.status = piece[at + 5 : at + STATUS]
            statuses.append(self.status)
            at += STATUS
        self.partial = piece[at:]
        return statuses

    def ended(self) -> FilterEnded:
        """Waits for the end, and makes the exception that says how it ended."""
        self.finish()
        status = self.child.wait()
        while self.said.has_said():
            self.said.read()
        room = room_text(self.told()) if status in ROOMLESS else ""
        ended = FilterEnded(status, self.said.reason(status), room)
        self.close(ended)
        return ended

    def kill(self) -> None:
        if self.runs:
            self.child.send_signal(signal.SIGKILL)
            self.child.wait()
            self.close(None)

    def close(self, ended: FilterEnded | None) -> None:
        """`ended`: what it said as it ended, None of one that is killed here."""
        is_of_spool = ended is not None and ended.is_of_spool()
        if self.status:
            self.has_told_all = ended is not None and ended.has_told_all()
        if self.left:
            self.left.end(self.child.returncode, self.has_opened(), is_of_spool)
        if self.spool:
            self.spool.end()
        for it in (self.child.stdin, self.child.stdout, self.child.stderr):
            if it:
                it.close()
        self.runs = False
