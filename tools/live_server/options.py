"""What a run is to do."""

from __future__ import annotations

import dataclasses
from pathlib import Path

from .installed import Installation


@dataclasses.dataclass
class Options:
    """The words of the command line, and what was found by them."""

    program: Path
    connect: Path
    installed: Installation
    # where files are made
    folder: Path
    seed: str = "1"
    proto: int | None = None
    kills: int = 20
    workers: int = 4
    # seconds between a worker's transactions, on average
    pause: float = 0.05
    before: bool = False
    rows: int = 200_000
    keep: bool = False
    # whether a feed is kept, and tables that follow it
    feed: bool = False

    def versions(self) -> tuple[int, ...]:
        """The versions of the protocol that are tried."""
        return (self.proto,) if self.proto else (1, 2)

    def words(self, dsn: str, store: Path, *more: str) -> list[str]:
        """The words that follow into a store."""
        return [
            str(self.connect),
            "--dsn",
            dsn,
            "--store",
            str(store),
            "--pgsub",
            str(self.program),
            *more,
        ]
