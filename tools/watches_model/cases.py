"""Recordings: random sessions of a well-formed server, cut anywhere, and each with one edit; and the
streams that are written by hand."""

import random
from collections import Counter
from collections.abc import Callable, Iterable, Iterator, Sequence
from dataclasses import dataclass, field
from importlib import import_module
from typing import Any

from . import by_bytes, by_items, by_keepalives, by_order
from .edits import edited
from .judging import RULES, WHOLE, Verdict, judged
from .live import Pipe, of_history
from .printed import session_difference, sessions_of, status_of
from .streams import content_of, placed, stream_differences

history: Any = import_module("histories_model.history")
stream: Any = import_module("histories_model.stream")

# (contents of sessions, version of the protocol) -> (exit status, what is printed)
Watch = Callable[[Sequence[bytes], int], tuple[int, str]]
BY_HAND = (
    *by_order.STREAMS,
    *by_items.UNNESTED,
    *by_items.UNDESCRIBED,
    *by_keepalives.STREAMS,
    *by_bytes.FRAMES,
    *by_bytes.TEXTS,
    *by_bytes.MESSAGES,
)
STREAMS = tuple(it for stream in BY_HAND for it in placed(stream))
# a session of more bytes is neither cut off nor edited; what is cut off has so many bytes together
LONG, CUT_BYTES = 40000, 100000
CUTS = 30
# a session of more bytes isn't cut off at each
LONG_FOR_EACH = 1500


@dataclass
class Found:
    """How many sessions are as the model says, and what is wrong with the others; and how many of
    those that were edited break each rule, or none."""

    passed: int = 0
    wrong: list[str] = field(default_factory=list)
    edited: Counter[str] = field(default_factory=Counter)

    def add(self, other: "Found") -> None:
        self.passed += other.passed
        self.wrong += other.wrong
        self.edited += other.edited

    def note(self, what: str, told: str | None) -> None:
        if told:
            self.wrong.append(f"{what}: {told}")
        else:
            self.passed += 1


@dataclass
class Case:
    """Sessions, each by what it is, with what the model finds of it. None: a cut of one that breaks
    no rule."""

    version: int
    sessions: list[tuple[str, bytes, Verdict | None]] = field(default_factory=list)

    def contents(self) -> list[bytes]:
        return [content for _, content, _ in self.sessions]


def cut_places(rng: random.Random, frames: list[bytes]) -> list[int]:
    """Where a session is cut off: behind each frame or some, and inside frames."""
    ends = [0]
    for frame in frames:
        ends.append(ends[-1] + len(frame))
    length = ends.pop()
    places = ends if len(ends) <= CUTS else rng.sample(ends, CUTS)
    return sorted({*places, *(rng.randint(0, length) for _ in range(CUTS // 3))})


def cuts(content: bytes, places: Iterable[int], most: int = CUT_BYTES) -> Iterator[bytes]:
    """Beginnings of a session, which have so many bytes together."""
    for at in places:
        most -= at
        if most < 0:
            return
        yield content[:at]


def delivered(rng: random.Random) -> tuple[int, list[list[bytes]]]:
    """A random history's version of the protocol, and the frames of its sessions."""
    maker = history.Maker(rng)
    transactions = maker.history()
    version = rng.choice((1, 2, 2, 2))
    delivery = stream.Delivery(rng, maker.values, transactions, maker.oids, version)
    return version, [[frame for frame, _ in sent] for sent in delivery.frames]


def pipes(name: str) -> list[Pipe]:
    """The sessions of a random history on one pipe, and with one of them edited in each way."""
    rng = random.Random(name)
    version, sent = delivered(rng)
    return list(of_history(rng, version, sent))


def made(name: str) -> Case:
    """The case of this name: sessions of a random history. A name that begins with `c` cuts them
    off at each byte, and edits nothing."""
    rng = random.Random(name)
    version, sent = delivered(rng)
    case = Case(version)
    for frames in sent:
        content = b"".join(frames)
        case.sessions.append(("whole", content, judged(content, case.version)))
        if name.startswith("c"):
            each = range(min(len(content), LONG_FOR_EACH))
            case.sessions += (("cut", it, None) for it in cuts(content, each, LONG_FOR_EACH**2))
        elif len(content) <= LONG:
            add_edited(rng, case, frames)
    return case


def add_edited(rng: random.Random, case: Case, frames: list[bytes]) -> None:
    """Cuts a session off in some places, and edits it."""
    parts = cuts(b"".join(frames), cut_places(rng, frames))
    case.sessions += (("cut", it, None) for it in parts)
    for kind, new in edited(rng, frames):
        content = b"".join(new)
        case.sessions.append((kind, content, judged(content, case.version)))


def cut_difference(lines: list[str]) -> str | None:
    """What is wrong with the lines for a session that was cut off and breaks no rule."""
    wrong = [it for it in lines if " broken at " in it or " not watched from " in it]
    wrong += [] if lines[-1] == f"ends with {WHOLE}" else lines[-1:]
    return "; ".join(wrong)


def compared(case: Case, watch: Watch) -> Found:
    """Compares what is printed of a case with what the model finds."""
    found = Found()
    status, text = watch(case.contents(), case.version)
    sessions = sessions_of(text)
    if len(sessions) != len(case.sessions):
        return Found(wrong=[f"{len(sessions)} sessions, not {len(case.sessions)}"])
    for number, (lines, (kind, _, verdict)) in enumerate(zip(sessions, case.sessions), 1):
        what = f"session {number}, {kind}"
        if verdict is None:
            found.note(what, cut_difference(lines))
            continue
        if kind == "whole":
            # (the model, too, has to find that it breaks no rule)
            found.note(what, cut_difference(lines) or session_difference(lines, verdict))
        else:
            found.note(what, session_difference(lines, verdict))
            found.edited[verdict.endings[0].rule or "no rule"] += 1
    wanted = status_of([it for _, _, it in case.sessions if it])
    found.note("exit status", "" if status == wanted else f"{status}, not {wanted}")
    return found


def planted(watch: Watch) -> Found:
    """Compares what is printed of the streams that are written by hand with what is expected."""
    found = Found()
    for it in STREAMS:
        status, text = watch([content_of(session) for session in it.sessions], it.version)
        told = stream_differences(it, status, sessions_of(text))
        found.note(f"{it.rule}, {it.shows}", "; ".join(told))
    return found


def unbroken(found: Found) -> list[str]:
    """The rules that no edit broke, so that little was tried."""
    return [f"no edit breaks {rule}" for rule in RULES if not found.edited[rule]]
