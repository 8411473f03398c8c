"""Sessions that send commits again, in lives of a program with one store and one file of noted
commits: of random histories, and of a server that was set back to an earlier commit."""

import random
import zlib
from collections.abc import Callable, Iterator, Sequence
from dataclasses import dataclass, field
from importlib import import_module
from typing import Any, NamedTuple

from .comparing import Compared
from .frames import COPY_DONE
from .past import Commit

history: Any = import_module("histories_model.history")
stream: Any = import_module("histories_model.stream")

MOST_LSN = 2**64 - 1
# a session, as its whole frames
Session = list[bytes]


class Life(NamedTuple):
    """What came of one: the exit status, the lines on commits, and what the store holds then."""

    status: int
    lines: list[str]
    store: str


# the statuses of a life whose input ended
ENDED = (0, 16)
# how a life is: by a word of `--watch`, or by `tell`, and a crash takes what it has noted
TELL, STOP, LOST = "tell", "stop", "lost"
# lives by their bytes, the version and how each is -> what came of each
Live = Callable[[Sequence[bytes], int, Sequence[str]], list[Life]]


@dataclass
class Repeated:
    """Lives of a program, each by its sessions. `is_well`: they are of one history."""

    version: int
    lives: list[list[Session]]
    is_well: bool = True
    # the front of a frame at which the last session is cut off
    tail: bytes = b""
    # how each life is
    words: list[str] = field(default_factory=list)

    def contents(self) -> list[bytes]:
        """The bytes of each life."""
        whole = [*map(content_of, self.lives)]
        return [*whole[:-1], whole[-1] + self.tail]


@dataclass
class Model:
    """What is to be told. `noted`: what the file holds. `position`: that of the store."""

    noted: list[Commit] = field(default_factory=list)
    position: int = 0

    def note(self, commit: Commit | None) -> None:
        if commit is None:
            self.noted.clear()
        else:
            self.noted.append(commit)

    def lines(self, life: Sequence[Session], word: str = TELL) -> list[str]:
        """The lines of a life."""
        before = [*self.noted]
        lines = self.told(life)
        self.noted = before if word == LOST else self.noted
        return lines

    def told(self, life: Sequence[Session]) -> list[str]:
        compared = Compared(self.noted, self.note, self.position)
        lines = [compared.said()]
        for at, session in enumerate(life):
            if at:
                compared.begin_session()
            lines += (told for it in session if (told := taken(compared, it)))
        self.position = compared.position
        return [f"pgsub: repeats: {it}" for it in (*lines, compared.counted())]


def taken(compared: Compared, frame: bytes) -> str | None:
    if frame[:1] != b"d" or frame[5:6] != b"w":
        return None
    return compared.take(frame[30:31], frame[31:])


def whole_frames(content: bytes) -> Session:
    """The frames of a session's bytes that are whole."""
    frames, at = [], 0
    while at + 5 <= len(content):
        length = 1 + int.from_bytes(content[at + 1 : at + 5], "big")
        if at + length > len(content):
            break
        frames.append(content[at : at + length])
        at += length
    return frames


def content_of(life: Sequence[Session]) -> bytes:
    """The bytes of a life: each session ends with CopyDone, but the last."""
    return COPY_DONE.join(b"".join(it) for it in life)


class Maker(history.Maker):  # type: ignore[misc]
    """Makes histories of which the store rejects nothing."""

    bad_share = 0.0


class Sent(stream.Session):  # type: ignore[misc]
    """A session that tells the same time of a commit each time."""

    def time_of(self, index: int) -> int:
        transaction = self.history[index]
        said = f"{transaction.lsn} {transaction.end} {transaction.xid} {len(transaction.changes)}"
        return zlib.crc32(said.encode()) - (1 << 31)


def rng_front(rng: random.Random, length: int) -> int:
    """How many of so many elements are kept: mostly all but a few."""
    return max(0, length - rng.choice((0, 1, 1, 2, 3, length)))


class Server:
    """Sends sessions of a history, none of which leaves out what the subscriber lacks."""

    def __init__(self, rng: random.Random, maker: Maker, version: int) -> None:
        self.rng, self.maker, self.version = rng, maker, version
        self.transactions: list[Any] = maker.history()
        # all that ends up to here has come
        self.reached = 0

    def session(self, start: int | None = None) -> Session:
        """The frames of the next session, cut off behind any of them."""
        rng = self.rng
        ends = [0, *(it.end for it in self.transactions if it.end <= self.reached)]
        start = rng.choice(ends[-4:] + ends[:1]) if start is None else start
        sent = Sent(rng, self.maker.values, self.transactions, start, self.version, self.maker.oids)
        frames = sent.make(rng.randint(-1, len(self.transactions)))
        whole = len(frames) if rng.random() < 0.5 else rng.randint(0, len(frames))
        for _, effect in frames[:whole]:
            if effect and effect[0] == "commit":
                self.reached = max(self.reached, self.transactions[effect[1]].end)
        return [frame for frame, _ in frames[:whole]]

    def set_back(self) -> None:
        """The server loses its last commits, and has others then, some of which begin and end where
        those did."""
        rng, lost = self.rng, self.transactions[rng_front(self.rng, len(self.transactions)) :]
        kept = self.transactions[: len(self.transactions) - len(lost)]
        lsn = kept[-1].end if kept else 0
        for at in range(rng.randint(1, 6)):
            if at < len(lost) and lost[at].lsn >= lsn and rng.random() < 0.6:
                lsn, end = lost[at].lsn, rng.choice((lost[at].end, lost[at].end, lost[at].end + 8))
            else:
                end = lsn + rng.choice((1, 48, 1000))
            if end > MOST_LSN:
                break
            kept.append(self.maker.transaction(lsn, end, False))
            lsn = end
        self.transactions = kept


def repeated(name: str) -> Repeated:
    """The lives of this name. A name that begins with `b` is of a server that is set back."""
    rng = random.Random(name)
    maker = Maker(rng)
    version = rng.choice((1, 2, 2, 2))
    server = Server(rng, maker, version)
    made = Repeated(version, [], not name.startswith("b"))
    number = rng.choice((1, 2, 2, 3, 4))
    for at in range(number):
        made.lives.append([])
        made.words.append(rng.choice((TELL, TELL, LOST)))
        for _ in range(rng.choice((1, 2, 3, 5))):
            if made.lives[0] and not made.is_well and rng.random() < 0.4:
                server.set_back()
            made.lives[at].append(server.session())
    last = b"".join(made.lives[-1][-1])
    if last and rng.random() < 0.5:
        content = last[: rng.randint(0, len(last))]
        made.lives[-1][-1] = frames = whole_frames(content)
        made.tail = content[len(b"".join(frames)) :]
    return made


def difference(made: Repeated, live: Live) -> str | None:
    """What is other than the model says of lives."""
    model = Model()
    lives = live(made.contents(), made.version, made.words)
    for number, (life, sessions, word) in enumerate(zip(lives, made.lives, made.words), 1):
        wanted = model.lines(sessions, word)
        lines = life.lines
        if life.status not in ENDED and not made.is_well:
            # (a commit of the other history may fit no row, which ends the life)
            lines, wanted = lines[:-1], wanted[: len(lines) - 1]
        if lines != wanted:
            return f"life {number}: {lines} | {wanted}"
        if life.status not in ENDED:
            return f"life {number}: status {life.status}" if made.is_well else None
        if made.is_well and len(wanted) != 2:
            return f"life {number}: the model tells of {wanted}"
    return None


def names(seed: str, count: int) -> Iterator[str]:
    """The names of so many histories, each second one of a server that was set back."""
    for number in range(count):
        yield f"{'rb'[number % 2]}-{seed}-{number}"
