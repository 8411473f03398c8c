"""Streams that break a rule, written by hand: the rule, the frame and the words are those that
docs/PROTOCOL.md gives."""

from collections.abc import Iterator
from typing import NamedTuple

from .frames import COPY_DONE, begin, insert, pair, relation

WHOLE = "the end of the bytes"
# Transactions of another table, below and above the others; and one that is cut off.
BELOW, ABOVE = (
    pair(lsn, relation(16400), insert(16400), end=lsn + 8, xid=5) for lsn in (0x40, 0x10000)
)
CUT_OFF = [begin(0x60, 6), relation()[:20]]


class Marked(NamedTuple):
    """A frame that a stream's words are about."""

    frame: bytes
    is_cause: bool


Part = bytes | Marked


class Stream(NamedTuple):
    """A recording of which one frame breaks a rule: that which is marked as bad. In the words
    `{cause}` is the offset of the frame that is marked as the cause."""

    rule: str
    shows: str
    told: str
    sessions: tuple[list[Part], ...]
    version: int = 2


def bad(frame: bytes) -> Marked:
    return Marked(frame, False)


def cause(frame: bytes) -> Marked:
    return Marked(frame, True)


def bytes_of(part: Part) -> bytes:
    return part.frame if isinstance(part, Marked) else part


def content_of(session: list[Part]) -> bytes:
    return b"".join(map(bytes_of, session))


def offset_of(session: list[Part], is_cause: bool) -> int | None:
    """Where the frame with this mark begins."""
    at = 0
    for part in session:
        if isinstance(part, Marked) and part.is_cause == is_cause:
            return at
        at += len(bytes_of(part))
    return None


def placed(stream: Stream) -> Iterator[Stream]:
    """A stream as it is, in the middle of a session, after one that was cut off, and over a
    reconnection."""
    yield stream
    first, shows = stream.sessions, stream.shows
    middle = [it if offset_of(it, False) is None else [*BELOW, *it, *ABOVE] for it in first]
    yield stream._replace(shows=f"{shows}, in the middle", sessions=tuple(middle))
    cut: list[Part] = [*BELOW, *CUT_OFF]
    yield stream._replace(shows=f"{shows}, after a cut", sessions=(cut, *first))
    ended: list[Part] = [*BELOW, COPY_DONE]
    yield stream._replace(shows=f"{shows}, over a reconnection", sessions=(ended, *first))


def wrong_lines(lines: list[str], stream: Stream, session: list[Part]) -> Iterator[str]:
    """What is other than is expected in the lines of a session."""
    at = offset_of(session, False)
    told = WHOLE if at is None else stream.told.format(cause=offset_of(session, True))
    broken = [it for it in lines if " broken at " in it]
    wanted = [] if at is None else [f"{stream.rule} broken at {at}"]
    if broken != wanted:
        yield f"{broken}, not {wanted}"
    if lines[-1:] != [f"ends with {told}"]:
        yield f"{lines[-1:]}, not {told}"
    yield from (it for it in lines if " not watched from " in it)


def stream_differences(stream: Stream, status: int, sessions: list[list[str]]) -> list[str]:
    """What is other than is expected of a stream."""
    found = [] if status == 4 else [f"status {status}, not 4"]
    if len(sessions) != len(stream.sessions):
        return [*found, f"{len(sessions)} sessions, not {len(stream.sessions)}"]
    for lines, session in zip(sessions, stream.sessions):
        found += wrong_lines(lines, stream, session)
    return found
