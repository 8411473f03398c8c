"""Sessions on one pipe, as `pgsub follow` gets them, and the lines that `--watch` tells of them."""

import random
import struct
from collections.abc import Callable, Iterator, Sequence
from dataclasses import dataclass
from typing import NamedTuple

from .edits import edited
from .frames import COPY_DONE, copy_data
from .judging import Verdict, judged
from .streams import Stream, content_of

# what comes, the version, and further words -> what came of it
Follow = Callable[..., "Followed"]

# A load of no table, which ends at a point of a server.
LOAD = copy_data(b"p" + struct.pack(">Q", 0x1000000))


class Followed(NamedTuple):
    """The exit status, the lines of the watch, and what the store holds then."""

    status: int
    lines: list[str]
    store: str


@dataclass
class Pipe:
    """Sessions one after the other, each ended by CopyDone but the last."""

    version: int
    sessions: list[bytes]

    def content(self) -> bytes:
        return b"".join(self.sessions)

    def verdicts(self) -> list[Verdict]:
        return [judged(it, self.version) for it in self.sessions]


def frames_end(content: bytes) -> int | None:
    """Where the whole frames of a session end, or None where they can't be told apart."""
    at = 0
    while at + 5 <= len(content):
        length = int.from_bytes(content[at + 1 : at + 5], "big")
        if content[at] not in b"dc" or not 4 <= length <= 2**31 - 1:
            return None
        if content[at : at + 1] == b"c":
            return at + 5 if length == 4 else None
        if at + 1 + length > len(content):
            break
        at += 1 + length
    return None if content[at : at + 1] not in (b"", b"d", b"c") else at


def ended(content: bytes) -> bytes | None:
    """The session with CopyDone behind its whole frames, or None where it can't have one."""
    at = frames_end(content)
    if at is None:
        return None
    return content[:at] if content[:at].endswith(COPY_DONE) else content[:at] + COPY_DONE


def piped(version: int, contents: Sequence[bytes]) -> Pipe:
    """These sessions, up to the first one that can't be ended."""
    pipe = Pipe(version, [])
    for content in contents:
        whole = ended(content)
        pipe.sessions.append(content if whole is None else whole)
        if whole is None:
            break
    return pipe


def of_stream(stream: Stream) -> Pipe:
    """The sessions of a stream that is written by hand, twice: a watch goes on after the first."""
    contents = [content_of(it) for it in stream.sessions]
    return piped(stream.version, contents + contents)


def of_history(rng: random.Random, version: int, sent: Sequence[Sequence[bytes]]) -> Iterator[Pipe]:
    """The sessions of a delivery, and the same with one of them edited by each kind of edit."""
    whole = [b"".join(it) for it in sent]
    yield piped(version, whole)
    number = rng.randrange(len(sent))
    for _, new in edited(rng, list(sent[number])):
        yield piped(version, [*whole[:number], b"".join(new), *whole[number + 1 :]])


def lines_of(verdict: Verdict) -> list[str]:
    """The lines that may be told of a session, or none."""
    if verdict.at is None:
        return []
    found = []
    for it in verdict.endings:
        how = f"{it.rule} broken at" if it.rule else "not watched from"
        on = "" if it.rule else " on"
        found.append(f"pgsub: watch: {how} {verdict.at}{on}: {it.told}")
    return found


def lines_differ(lines: Sequence[str], verdicts: Sequence[Verdict], least: int) -> str | None:
    """What is wrong with the lines of sessions, at least `least` of which have to be told of."""
    wanted = [it for it in map(lines_of, verdicts) if it]
    if len(lines) > len(wanted) or len(lines) < min(least, len(wanted)):
        return f"{len(lines)} lines, not {len(wanted)}: {lines}"
    wrong = [f"{line} | {one[0]}" for line, one in zip(lines, wanted) if line not in one]
    return "; ".join(wrong)


def told_difference(pipe: Pipe, follow: Follow) -> str | None:
    """What `--watch tell` changes of a run, and what is wrong with its lines."""
    plain = follow(pipe.content(), pipe.version, None)
    told = follow(pipe.content(), pipe.version, "tell")
    if plain._replace(lines=[]) != told._replace(lines=[]):
        return f"tell: status {told.status}, not {plain.status}, or another store"
    least = len(pipe.sessions) if plain.status in (0, 16) else 0
    return lines_differ(told.lines, pipe.verdicts(), least)


def stopped_difference(pipe: Pipe, follow: Follow) -> str | None:
    """What is wrong with a run that is to stop before the first frame that breaks a rule."""
    verdicts = pipe.verdicts()
    broken = next((at for at, it in enumerate(verdicts) if it.is_broken()), None)
    if broken is None:
        plain = follow(pipe.content(), pipe.version, None)
        stop = follow(pipe.content(), pipe.version, "stop")
        same = plain._replace(lines=[]) == stop._replace(lines=[])
        return None if same else f"stop: status {stop.status}, not {plain.status}, or another store"
    at = verdicts[broken].at or 0
    front = b"".join(pipe.sessions[:broken]) + pipe.sessions[broken][:at]
    before = follow(front, pipe.version, None)
    stop = follow(pipe.content(), pipe.version, "stop")
    if stop.store != before.store:
        return "stop: another store than before the frame"
    status = 17 if before.status in (0, 16) else before.status
    if stop.status != status:
        return f"stop: status {stop.status}, not {status}"
    return lines_differ(stop.lines, verdicts[: broken + 1], broken + 1 if status == 17 else 0)


def loaded_difference(pipe: Pipe, follow: Follow) -> str | None:
    """What is wrong where the sessions come behind a load, of which nothing may be told."""
    verdicts, content = pipe.verdicts(), LOAD + pipe.content()
    plain = follow(content, pipe.version, None, "--load")
    told = follow(content, pipe.version, "tell", "--load")
    if plain._replace(lines=[]) != told._replace(lines=[]):
        return f"load, tell: status {told.status}, not {plain.status}, or another store"
    runs = plain.status in (0, 16)
    if differ := lines_differ(told.lines, verdicts, len(verdicts) if runs else 0):
        return f"load, tell: {differ}"
    stop = follow(content, pipe.version, "stop", "--load")
    broken = next((at for at, it in enumerate(verdicts, 1) if it.is_broken()), len(verdicts))
    is_broken = verdicts[broken - 1].is_broken()
    if runs and stop.status != (17 if is_broken else plain.status):
        return f"load, stop: status {stop.status}"
    differ = lines_differ(stop.lines, verdicts[:broken], broken if stop.status == 17 else 0)
    return f"load, stop: {differ}" if differ else None


def difference(pipe: Pipe, follow: Follow) -> str | None:
    return (
        told_difference(pipe, follow)
        or stopped_difference(pipe, follow)
        or loaded_difference(pipe, follow)
    )
