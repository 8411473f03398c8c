"""Planted bugs: programs that compare commits that come again and do one thing wrong. They are the
model with a bug, in place of the program."""

from __future__ import annotations

from collections.abc import Iterator, Sequence
from copy import deepcopy
from itertools import chain

from . import repeating, set_back
from .comparing import Compared, Transaction, number
from .frames import COPY_DONE
from .past import Commit, lsn_text
from .repeating import LOST, STOP, Life, taken, whole_frames


def end_of(frame: bytes) -> int:
    """Where the commit of a frame ends, 0 where it has none."""
    at = {b"C": 9, b"c": 13}.get(frame[30:31], 0) if frame[5:6] == b"w" else 0
    return number(frame, 31 + at, 8) if at else 0


class Program:
    """no bug"""

    def __init__(self, compared: type[Compared] = Compared) -> None:
        self.compared = compared
        self.told = (compared.__doc__ if compared is not Compared else self.__doc__) or ""

    def live(self, contents: Sequence[bytes], version: int, words: Sequence[str]) -> list[Life]:
        """What comes of lives."""
        noted, lives, self.position = list[Commit](), list[Life](), 0
        for content, word in zip(contents, words):
            before = [*noted]
            lives.append(self.life(noted, whole_frames(content), word))
            noted[:] = before if word == LOST else noted
        return lives

    def life(self, noted: list[Commit], frames: Sequence[bytes], word: str) -> Life:
        def note(commit: Commit | None) -> None:
            noted.append(commit) if commit else noted.clear()

        compared = self.compared(noted, note, self.position)
        status, lines = 0, [compared.said()]
        for frame in frames:
            before = [*noted]
            if frame == COPY_DONE:
                compared.begin_session()
            elif told := taken(compared, frame):
                lines.append(told)
                if word == STOP:
                    status, noted[:] = 17, before
                    break
            self.position = max(self.position, end_of(frame))
        lines = [f"pgsub: repeats: {it}" for it in (*lines, compared.counted())]
        return Life(status, lines, f"position {lsn_text(self.position)}")


class TakesBelowForEqual(Compared):
    """a commit at or below the newest one is taken for one that came"""

    def hear(self, commit: Commit) -> str | None:
        return super().hear(commit) if commit.end > self.past.newest else None


class ForgetsAtReconnection(Compared):
    """what came before a reconnection is forgotten"""

    def begin_session(self) -> None:
        super().begin_session()
        self.past.forget()


class ForgetsAtStart(Compared):
    """what came in a life before is forgotten"""

    has_heard = False

    def commit(self, made: Transaction, end: int, lsn: int, xid: int, time: int) -> str | None:
        if not self.has_heard:
            self.past.forget()
        self.has_heard = True
        return super().commit(made, end, lsn, xid, time)


class ForgetsWhatIsWhole(Compared):
    """the first new commit of a life forgets those before, also where all of these are noted"""

    has_heard = False

    def commit(self, made: Transaction, end: int, lsn: int, xid: int, time: int) -> str | None:
        self.is_whole, self.has_heard = self.has_heard, True
        return super().commit(made, end, lsn, xid, time)


class ForgetsAtEachSession(Compared):
    """a session's first new commit forgets those before, also where all of these are noted"""

    def begin_session(self) -> None:
        super().begin_session()
        self.is_whole = False


class JudgesTheFirstSession(Compared):
    """commits that aren't noted are missing in a life's first session alone"""

    has_begun = False

    def begin_session(self) -> None:
        super().begin_session()
        self.is_whole, self.has_begun = self.is_whole or self.has_begun, True


class ForgetsTheOrder(Compared):
    """what comes behind a commit of which nothing is known comes first"""

    def hear(self, commit: Commit) -> str | None:
        unknown = self.past.unknown
        told = super().hear(commit)
        if self.past.unknown > unknown:
            self.past.last = None
        return told


class CountsEmptyTruncates(Compared):
    """a Truncate of no table is a change"""

    def change(self, letter: bytes, body: bytes) -> None:
        at = 4 if self.block else 0
        if letter == b"T" and not number(body, at, 4):
            body = body[:at] + b"\0\0\0\1" + body[at + 4 :]
        super().change(letter, body)


class ComparesLsnsAlone(Compared):
    """commits with the same LSNs are the same"""

    def hear(self, commit: Commit) -> str | None:
        digest = int(commit.digest[0] > 0), 0
        return super().hear(commit._replace(xid=9, time=0, digest=digest))


class CountsChangesAlone(Compared):
    """commits of as many changes are the same"""

    def hear(self, commit: Commit) -> str | None:
        return super().hear(commit._replace(digest=(commit.digest[0], 0)))


class KeepsRolledBack(Compared):
    """a subtransaction that is rolled back counts"""

    def abort(self, xid: int, subxid: int) -> None:
        if xid == subxid:
            super().abort(xid, subxid)


class ComparesXids(Compared):
    """in a block a change is another one, by its xid"""

    def change(self, letter: bytes, body: bytes) -> None:
        if self.block:
            body = body[:4] + body
        super().change(letter, body)


class CountsMessages(Compared):
    """a logical message is a change"""

    def take(self, letter: bytes, body: bytes) -> str | None:
        if letter == b"M" and (self.block or self.begun[0]):
            self.change(letter, body)
        return super().take(letter, body)


class CountsRelations(Compared):
    """a Relation message is a change"""

    def take(self, letter: bytes, body: bytes) -> str | None:
        if letter == b"R":
            self.change(letter, body)
        return super().take(letter, body)


class TrustsItsEnd(Compared):
    """a file that has lost its end is taken for all that came"""

    def commit(self, made: Transaction, end: int, lsn: int, xid: int, time: int) -> str | None:
        self.is_whole = True
        return super().commit(made, end, lsn, xid, time)


class TellsTwice(Compared):
    """after a contradiction the commits before are still noted"""

    def hear(self, commit: Commit) -> str | None:
        self.past, past = deepcopy(self.past), self.past
        told = super().hear(commit)
        self.past = past if told else self.past
        return told


class GoesOnOverSessions(Compared):
    """a session has to go on from where the last one ended"""

    def begin_session(self) -> None:
        last = self.past.last
        super().begin_session()
        self.past.last = last


class NotesNothingAgain(Compared):
    """commits are noted until one comes again"""

    def hear(self, commit: Commit) -> str | None:
        if self.equal and commit.end > self.past.newest:
            return None
        return super().hear(commit)


class PassesWhatIsLeftOut(Compared):
    """a commit that is left out isn't missed"""

    def hear(self, commit: Commit) -> str | None:
        self.past.last = None
        return super().hear(commit)


class PassesWhatIsNew(Compared):
    """a commit may come between those that came"""

    def hear(self, commit: Commit) -> str | None:
        past = self.past
        if commit.end not in past.noted and commit.end <= past.newest:
            past.unknown += 1
            return None
        return super().hear(commit)


class StopsBehind(Program):
    """nothing is handed on behind the commit, which is"""

    def life(self, noted: list[Commit], frames: Sequence[bytes], word: str) -> Life:
        before = [*noted]
        life = super().life(noted, frames, "tell")
        if word != STOP or len(life.lines) == 2:
            return life
        noted[:] = before
        return life._replace(status=17)


class ForgetsWhereItStops(Program):
    """where it stops, the commit is noted"""

    def life(self, noted: list[Commit], frames: Sequence[bytes], word: str) -> Life:
        life = super().life(noted, frames, word)
        if life.status == 17:
            noted.clear()
        return life


COMPARED = (
    TakesBelowForEqual,
    ForgetsAtReconnection,
    ForgetsAtStart,
    ForgetsWhatIsWhole,
    ForgetsAtEachSession,
    JudgesTheFirstSession,
    ForgetsTheOrder,
    CountsEmptyTruncates,
    ComparesLsnsAlone,
    CountsChangesAlone,
    KeepsRolledBack,
    ComparesXids,
    CountsMessages,
    CountsRelations,
    TrustsItsEnd,
    TellsTwice,
    GoesOnOverSessions,
    NotesNothingAgain,
    PassesWhatIsLeftOut,
    PassesWhatIsNew,
)
BUGS = (*map(Program, COMPARED), StopsBehind(), ForgetsWhereItStops())


def found_by(program: Program, made: Sequence[repeating.Repeated]) -> str:
    """What finds a bug first: a history, or else lives or a stream written by hand."""
    for number, it in enumerate(made):
        if repeating.difference(it, program.live):
            return f"history {number}"
    lives = (it.shows for it in set_back.WELL if set_back.alarm(it, program.live))
    streams = (it.shows for it in set_back.STREAMS if set_back.difference(it, program.live))
    return next(chain(lives, streams), "")


def findings(seed: str, count: int) -> Iterator[tuple[str, bool]]:
    """What finds each bug, and whether something does; and that nothing differs without one."""
    made = [repeating.repeated(it) for it in repeating.names(seed, count)]
    for bug in BUGS:
        told = found_by(bug, made)
        yield f"{bug.told}: {told or 'nothing finds it'}", bool(told)
    told = found_by(Program(), made)
    yield f"no bug in comparing: {told or 'nothing differs'}", not told
