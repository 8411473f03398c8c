"""What a case is."""

from __future__ import annotations

import dataclasses
from collections.abc import Callable

from ..place import Place

NEWEST = 99


@dataclasses.dataclass(frozen=True)
class Case:
    """A name, what is done, and the major versions of the server that have what it is about."""

    name: str
    run: Callable[[Place], None]
    since: int = 13
    until: int = NEWEST
    # whether it needs the rights of root
    root: bool = False
    # whether what the connector gets isn't what the server sends
    breaks_rules: bool = False

    def about(self) -> str:
        return " ".join((self.run.__doc__ or "").split())

    def needs(self) -> str:
        """What it needs."""
        servers = (
            f"{self.since} and later" if self.until == NEWEST else f"{self.since} to {self.until}"
        )
        return f"{servers}, as root" if self.root else servers

    def can_run(self, version: int, is_root: bool) -> bool:
        return self.since <= version <= self.until and (is_root or not self.root)
