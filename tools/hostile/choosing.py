"""Which lies are told where: in the gate each once in some mode, by hand each in the place of each
answer."""

from __future__ import annotations

from collections.abc import Iterator
from typing import NamedTuple

from .lies import ANSWERS, CIRCLES, COPIES, STREAMS, Lie
from .modes import MODES, Mode

# How many places a lie that takes seconds is told in, of all.
PLACES = 4
# The modes that copy rows or stream.
COPYING, STREAMING, LOOKING = (
    ("create", "adding", "verify", "repair"),
    ("record", "follow", "create"),
    ("create", "follow", "refresh"),
)


class Told(NamedTuple):
    """A lie, in a mode, from the answer with this index on."""

    mode: Mode
    lie: Lie
    first: int

    def name(self) -> str:
        return f"{self.mode.name}: {self.lie.name} from answer {self.first} on"


def in_gate(counts: dict[str, int]) -> Iterator[Told]:
    """Each lie in the place of one answer of one mode, another one for each. `counts`: how many
    answers a mode gets."""
    for number, lie in enumerate(ANSWERS):
        mode = MODES[number % len(MODES)]
        yield Told(mode, lie, number * 7 % counts[mode.name])
    for lies, names in ((CIRCLES, LOOKING), (COPIES, COPYING), (STREAMS, STREAMING)):
        for number, lie in enumerate(lies):
            yield Told(next(it for it in MODES if it.name == names[number % 2]), lie, 0)


def everywhere(counts: dict[str, int]) -> Iterator[Told]:
    """Each lie in each mode: in the place of each answer, of those that are soon over, and else of
    some."""
    for mode in MODES:
        for lie in ANSWERS:
            count = counts[mode.name]
            step = max(1, count // PLACES) if lie.endless or lie.frame else 1
            yield from (Told(mode, lie, it) for it in range(0, count, step))
        for lies, names in ((CIRCLES, LOOKING), (COPIES, COPYING), (STREAMS, STREAMING)):
            yield from (Told(mode, lie, 0) for lie in lies if mode.name in names)
