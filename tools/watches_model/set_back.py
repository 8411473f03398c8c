"""Servers that were set back, written by hand: by a commit, by a hundred, and by one whose end is
the same; each is told at the commit that shows it, and `stop` takes nothing of that. And lives of
one history of which nothing may be told, whatever a crash has lost of what was noted."""

from collections.abc import Callable, Iterator, Sequence
from itertools import chain
from typing import NamedTuple

from .frames import T, abort, block, delete, insert, keepalive, message, next_block, pair, relation
from .frames import start, stream_commit, truncate, update
from .repeating import LOST, STOP, TELL, Life, Live, content_of

# The status of a program that was to stop.
STOPPED = 17

# How many commits a server has at first, where they begin, and how far from one to the next.
COMMITS, FIRST, STEP = 120, 0x1000, 0x100
Frames = list[bytes]


class Made(NamedTuple):
    """A commit: its LSNs, its xid, and the changes that survive, as frames outside blocks."""

    lsn: int
    end: int
    xid: int
    changes: tuple[bytes, ...]

    def whole(self) -> Frames:
        return pair(self.lsn, relation(), *self.changes, end=self.end, xid=self.xid)

    def streamed(self) -> Frames:
        """In two blocks, between which a subtransaction is rolled back."""
        inner = [with_xid(it, self.xid) for it in self.changes]
        gone = [insert(xid=self.xid + 1), delete(xid=self.xid + 1)]
        return [
            *block(self.xid, relation(xid=self.xid), *inner[:1], *gone),
            abort(self.xid, self.xid + 1),
            *next_block(self.xid, *inner[1:]),
            stream_commit(self.xid, self.lsn, self.end),
        ]

    def bare(self) -> Frames:
        """With messages that are no changes."""
        inner = [message(), *chain.from_iterable((it, keepalive(1)) for it in self.changes)]
        return pair(self.lsn, relation(), *inner, relation(), end=self.end, xid=self.xid)


def with_xid(frame: bytes, xid: int) -> bytes:
    """An item as it is in a block of this transaction."""
    makers = (insert, update, delete)
    return next((it(xid=xid) for it in makers if it() == frame), truncate(T, xid=xid))


def made(number: int, size: int = 0x30, changes: Sequence[bytes] = (), xids: int = 0) -> Made:
    """The commit with this number."""
    lsn = FIRST + number * STEP
    changes = tuple(changes) or (insert(), update(), delete())
    return Made(lsn, lsn + size, 1000 + 2 * number + xids, changes)


HISTORY = [made(it) for it in range(COMMITS)]


class Kind(NamedTuple):
    """How far a server was set back, and what it has then. `told`: what shows it, at the first of
    that."""

    shows: str
    kept: int
    others: list[Made]
    told: str

    def is_above(self) -> bool:
        """Whether that ends above all that came: then it is only told behind a commit that came."""
        return self.others[0].end > HISTORY[-1].end

    def front(self, count: int) -> list[Made]:
        """The last of the commits that the server has kept."""
        return HISTORY[self.kept - max(count, self.is_above()) : self.kept]


def text(lsn: int) -> str:
    return f"{lsn >> 32:X}/{lsn & 0xFFFFFFFF:X}"


LAST, FAR = COMMITS - 1, COMMITS - 100
END, AFTER = text(HISTORY[LAST].end), made(COMMITS + 10)
BETWEEN = "wasn't between those that came before"
ANOTHER = f"the commit that ends at {END} came before with another"
KINDS = (
    Kind(
        "by a commit",
        LAST,
        [made(LAST, 0x20)],
        f"the commit that ends at {text(HISTORY[LAST].lsn + 0x20)} {BETWEEN}",
    ),
    Kind(
        "by a commit, in whose place is a longer one",
        LAST,
        [made(LAST, 0x38)],
        f"a commit's LSN {text(HISTORY[LAST].lsn)} is below the end {END} of one that came before",
    ),
    Kind(
        "by a hundred",
        FAR,
        [made(it, 0x31) for it in range(FAR, COMMITS)],
        f"the commit that ends at {text(HISTORY[FAR].end + 1)} {BETWEEN}",
    ),
    Kind(
        "by a hundred, in whose place are none",
        FAR,
        [made(COMMITS + 5)],
        f"the commit that ends at {END} came before and is left out",
    ),
    Kind(
        "by one with the same end and other changes",
        LAST,
        [made(LAST, changes=[insert(), update(), insert()])],
        f"{ANOTHER} list of changes",
    ),
    Kind(
        "by one with the same end and another xid", LAST, [made(LAST, xids=500)], f"{ANOTHER} xid"
    ),
    Kind(
        "by one with the same end that truncates",
        LAST,
        [made(LAST, changes=[truncate(T)])],
        f"{ANOTHER} list of changes",
    ),
    Kind(
        "by one with the same end and another LSN",
        LAST,
        [HISTORY[LAST]._replace(lsn=HISTORY[LAST].lsn + 8)],
        f"{ANOTHER} LSN",
    ),
)


class SetBack(NamedTuple):
    """Sessions of lives before the server was set back, and of the one after. In the last session
    of that the frame with this number shows it, when the store is at `end`."""

    shows: str
    told: str
    before: list[list[Frames]]
    last: list[Frames]
    bad: int
    end: int = HISTORY[-1].end


Write = Callable[[Made], Frames]


def frames_of(commits: Sequence[Made], write: Write) -> Frames:
    return [frame for it in commits for frame in write(it)]


def shown(kind: Kind, count: int, write: Write = Made.whole) -> tuple[Frames, int]:
    """The session that shows it, behind so many commits that came, and the number of the frame."""
    front = frames_of(kind.front(count), write)
    bad = len(front) + len(write(kind.others[0])) - 1
    return front + frames_of([*kind.others, AFTER], write), bad


def set_back(kind: Kind) -> Iterator[SetBack]:
    """Ten streams of a kind."""

    def stream(
        shows: str, before: list[list[Frames]], earlier: list[Frames], session: tuple[Frames, int]
    ) -> SetBack:
        return SetBack(
            f"{kind.shows}, {shows}", kind.told, before, [*earlier, session[0]], session[1]
        )

    whole, streamed = frames_of(HISTORY, Made.whole), frames_of(HISTORY, Made.streamed)
    cut = [start(7), insert(xid=7)]
    repeats = frames_of(HISTORY[kind.kept - 5 : kind.kept], Made.whole)
    yield stream("first, over a reconnection", [], [whole], shown(kind, 0))
    yield stream("in the middle", [], [whole], shown(kind, 3))
    yield stream("after a cut", [], [[*whole, *cut]], shown(kind, 0))
    yield stream("after a session of repeats", [], [whole, repeats], shown(kind, 0))
    yield stream("first in the next life", [[whole]], [], shown(kind, 0))
    yield stream("in the middle of the next life", [[whole]], [], shown(kind, 3))
    yield stream("after a cut in the next life", [[whole]], [[*repeats, *cut]], shown(kind, 0))
    yield stream("streamed before", [[streamed]], [], shown(kind, 3))
    yield stream("streamed then", [[whole], [repeats]], [], shown(kind, 3, Made.streamed))
    yield stream("beside other messages", [[whole]], [], shown(kind, 20, Made.bare))
    if not kind.is_above():
        yield from set_back_behind(kind)


# What comes behind the history, until the server is set back behind its end.
NEWER = [made(it) for it in range(COMMITS, COMMITS + 3)]


def set_back_behind(kind: Kind) -> Iterator[SetBack]:
    """Streams of a kind in which it was set back behind where a life began that had new commits."""
    whole, newer = frames_of(HISTORY, Made.whole), frames_of(NEWER, Made.whole)
    lives: dict[str, tuple[list[list[Frames]], list[Frames]]] = {
        "while a life follows": ([[whole]], [newer]),
        "while a life follows what came in two": ([[whole], [newer[: len(newer) // 3]]], [newer]),
        "while no life follows": ([[whole], [newer]], []),
        "while no life follows, before one without commits": ([[whole], [newer], [[]]], []),
    }
    for shows, (before, earlier) in lives.items():
        for count in (0, 3):
            frames, bad = shown(kind, count)
            told = f"{kind.shows}, {shows}, behind {count}"
            yield SetBack(told, kind.told, before, [*earlier, frames], bad, NEWER[-1].end)


STREAMS = tuple(it for kind in KINDS for it in set_back(kind))


class Well(NamedTuple):
    """Lives of one history, of which nothing is told. `words`: how each life is."""

    shows: str
    lives: list[list[Frames]]
    words: list[str]


def sent(*numbers: int) -> Frames:
    return frames_of([HISTORY[it] for it in numbers], Made.whole)


# a commit in the place of the second one that changes nothing
NOTHING = made(1, changes=[truncate()]).whole()
LOSES = [TELL, LOST, TELL, TELL, TELL]
WELL = (
    Well(
        "sessions start in what a crash has lost",
        [[sent(0)], [sent(0, 1, 2, 3)], [sent(2), sent(4), sent(0, 1, 2, 3, 4)]],
        LOSES[:3],
    ),
    Well(
        "lives start in what a crash has lost",
        [[sent(0)], [sent(0, 1, 2, 3)], [sent(2)], [sent(4)], [sent(0, 1, 2, 3, 4)]],
        LOSES,
    ),
    Well(
        "a session starts where a crash has left something",
        [[sent(0)], [sent(1, 2)], [sent(1), sent(3), sent(1, 2, 3)]],
        LOSES[:3],
    ),
    Well(
        "a crash has lost all",
        [[], [sent(0, 1, 2)], [sent(1), sent(3), sent(0, 1, 2, 3)]],
        LOSES[:3],
    ),
    Well(
        "what changes nothing is left out",
        [[sent(0) + NOTHING + sent(2), sent(0, 2)], [sent(0) + NOTHING], [sent(0, 2, 3)]],
        [TELL, TELL, TELL],
    ),
)


def position(store: str) -> str:
    """The position of a store by its dump."""
    return store.splitlines()[-1].removeprefix("position ") if store else "none"


def contradictions(life: Life) -> list[str]:
    """The lines of a life but for those that count commits, at its beginning and at its end."""
    return life.lines[1:-1]


def alarm(well: Well, live: Live) -> str | None:
    """What is told of lives of one history."""
    for number, life in enumerate(live([*map(content_of, well.lives)], 2, well.words), 1):
        if life.status or contradictions(life):
            return f"life {number}: status {life.status}, {life.lines}"
    return None


def difference(stream: SetBack, live: Live) -> str | None:
    """What is other than is expected of a stream."""
    told = [f"pgsub: repeats: {stream.told}"]
    before = [*map(content_of, stream.before)]
    earlier = stream.last[:-1]

    def last(frames: Frames, *words: str) -> list[Life]:
        content = content_of([*earlier, frames])
        contents = [*before, *[content] * len(words)]
        return live(contents, 2, [*[TELL] * len(before), *words])[len(before) :]

    whole, bad = stream.last[-1], stream.bad
    (front,), (shows,) = last(whole[:bad], TELL), last(whole[: bad + 1], TELL)
    if contradictions(front) or contradictions(shows) != told:
        return f"at another frame: {front.lines}, {shows.lines}"
    (life,) = last(whole, TELL)
    if contradictions(life) != told or position(life.store) != text(AFTER.end):
        return f"tell: {life.lines}, {position(life.store)}"
    stopped, again = last(whole, STOP, TELL)
    if (stopped.status, position(stopped.store)) != (STOPPED, text(stream.end)):
        return f"stop: status {stopped.status}, {position(stopped.store)}"
    if contradictions(stopped) != told or contradictions(again) != told:
        return f"stop: {stopped.lines}, and then {again.lines}"
    return None
