"""What all parts of a follower have, handed over as one, and the findings taken as they are."""

from collections.abc import Iterable
from typing import Any, NamedTuple

from ..drift.findings import RULE, UNWATCHED
from ..drift.remembered import Remembered
from ..server import transport
from ..server.session import Server, Subscription
from ..status.progress import Progress
from ..store.checkpoint import Checkpoint


class Tolerance:
    """What was said to be accepted. It is of a start: what is found later isn't what was meant."""

    def __init__(self, kinds: Iterable[str] = (), is_strict: bool = False) -> None:
        self.kinds, self.is_strict = frozenset(kinds), is_strict
        # whether nothing is stored that breaks a rule: what was accepted may still have to come
        self.stops = is_strict and not self.accepts(RULE)
        self.has_used_gap = False

    def accepts(self, kind: str) -> bool:
        """Whether what may be wrong in this way is taken as it is."""
        kinds = {"gap", "slot"} if kind in ("gap", "slot") else {kind}
        return bool(kinds & self.kinds) or "all" in self.kinds

    def ends_at(self, kind: str) -> bool:
        """Whether the run ends where something of this kind was found."""
        if kind == "slot" and self.has_used_gap:
            return False
        return self.is_strict and kind != UNWATCHED and (kind != RULE or self.stops)

    def use_gap(self) -> None:
        """A gap was taken as it is: another one isn't."""
        self.kinds -= {"gap", "slot", "all"}
        self.has_used_gap = True

    def end(self) -> None:
        """Nothing is accepted from now on."""
        self.kinds = frozenset()


def note_server(checkpoint: Checkpoint, server: Server, slot: str, **more: Any) -> None:
    """Notes durably whose changes a store has, and how they come."""
    told = {"system": server.system, "timeline": server.timeline, "database": server.database}
    checkpoint.write(True, **told, slot=slot, encrypted=transport.OWN.was_encrypted, **more)


class Common(NamedTuple):
    """What is followed, what is known and remembered of it, and what is told."""

    subscription: Subscription
    tolerance: Tolerance
    checkpoint: Checkpoint
    progress: Progress
    remembered: Remembered
