"""How long followers take for what waits in their slots, and what of the processors."""

from __future__ import annotations

import statistics
import time
from dataclasses import dataclass

from following import Follower, Servers
from processor import processor_seconds


@dataclass
class Run:
    """Seconds from a follower's start until it streamed, until it had applied all, until all was on
    its disk, and of a processor by process between the first and the second."""

    streams: float
    applied: float
    durable: float
    processor: dict[str, float]


def processors(pids: dict[str, int]) -> dict[str, float]:
    return {part: processor_seconds(pid) for part, pid in pids.items()}


def measured(servers: Servers, follower: Follower, end: str) -> Run:
    """Lets a follower take what is in its slot. What its processes took before they streamed counts
    in the seconds alone."""
    servers.rest()
    began = time.monotonic()
    follower.start()
    pids = {**follower.processes(), "walsender": servers.sender(follower.slot) or 0}
    before = processors(pids)
    streams = time.monotonic() - began
    servers.wait_for(follower, "replay_lsn", end)
    applied = time.monotonic() - began
    after = processors(pids)
    servers.wait_for(follower, "flush_lsn", end)
    durable = time.monotonic() - began
    follower.stop()
    servers.compare(follower)
    return Run(streams, applied, durable, {part: after[part] - before[part] for part in pids})


def ratios(runs: list[Run], others: list[Run]) -> str:
    """How many times the rate of another follower's one has, turn by turn: what else the machine
    does differs less within a turn."""
    found = [other.applied / it.applied for it, other in zip(runs, others)]
    return f"{statistics.median(found):.2f}: {', '.join(f'{it:.2f}' for it in found)}"


def processor_text(runs: list[Run], *parts: str) -> str:
    """The seconds of a processor that these processes took, the median."""
    found = [sum(it.processor.get(part, 0) for part in parts) for it in runs]
    return f"{statistics.median(found):.2f}" if any(found) else ""


def busiest(runs: list[Run]) -> str:
    """The process that had a processor for the largest part of the time in which it streamed, and
    that part, the median."""
    parts = {
        part: statistics.median(it.processor[part] / (it.applied - it.streams) for it in runs)
        for part in runs[0].processor
    }
    part = max(parts, key=lambda it: parts[it])
    return f"{part}, {parts[part]:.0%}"
