"""What a process has taken of a processor."""

from __future__ import annotations

from pathlib import Path


def processor_seconds(pid: int | str) -> float:
    """The seconds of all threads that a process has."""
    threads = Path(f"/proc/{pid}/task").glob("*/schedstat")
    return sum(int(it.read_text(encoding="ascii").split()[0]) for it in threads) / 1e9
