"""How much memory the processes of a follower take at most, and a control group that bounds it."""

from __future__ import annotations

import contextlib
import os
import threading
import time
from collections.abc import Callable, Sequence
from pathlib import Path

from .follower import filters_of, tables_of

GROUPS = Path("/sys/fs/cgroup")
# How many seconds there are between two looks at the processes.
STEP = 0.02


def peak_of(pid: int) -> int:
    """How many kilobytes of memory a process had at most; 0 of one that has ended."""
    with contextlib.suppress(FileNotFoundError, ProcessLookupError):
        for line in Path(f"/proc/{pid}/status").read_text(encoding="utf-8").splitlines():
            if line.startswith("VmHWM:"):
                return int(line.split()[1])
    return 0


def forget_peak(pid: int) -> None:
    """Has the system tell the most from now on."""
    with contextlib.suppress(OSError):
        Path(f"/proc/{pid}/clear_refs").write_text("5", encoding="ascii")


class Peaks(threading.Thread):
    """Looks at a connector, its filter, what keeps its tables, and the file of open transactions,
    again and again."""

    def __init__(self, connector: Callable[[], int], spool: Path) -> None:
        super().__init__(daemon=True)
        self.connector, self.spool, self.ended = connector, spool, threading.Event()
        self.most = {"connector": 0, "filter": 0, "tables": 0}
        # how many bytes the file had
        self.spooled = 0

    def processes(self) -> dict[str, list[int]]:
        pid = self.connector()
        return {"connector": [pid], "filter": filters_of(pid), "tables": tables_of(pid)}

    def run(self) -> None:
        while not self.ended.wait(STEP):
            for part, pids in self.processes().items():
                self.most[part] = max(self.most[part], *map(peak_of, pids), 0)
            with contextlib.suppress(FileNotFoundError):
                self.spooled = max(self.spooled, self.spool.stat().st_size)

    def begin(self) -> None:
        """Forgets what they took before."""
        for pids in self.processes().values():
            for pid in pids:
                forget_peak(pid)
        self.most, self.spooled = dict.fromkeys(self.most, 0), 0

    def end(self) -> None:
        self.ended.set()
        self.join(10)

    def together(self) -> int:
        """How many megabytes they took at most, if all at one moment."""
        return sum(self.most.values()) >> 10

    def text(self) -> str:
        taken = [f"{part} {most >> 10}" for part, most in self.most.items() if most]
        file = f", {self.spooled >> 20} MB in a file" if self.spooled else ""
        return f"{', '.join(taken)} MB{file}"


class Group:
    """A control group of version 2. What a follower starts is in it, too."""

    def __init__(self, name: str, megabytes: int, top: Path = GROUPS) -> None:
        self.folder, self.killed = top / name, 0
        self.folder.mkdir()
        (self.folder / "memory.max").write_text(f"{megabytes << 20}", encoding="ascii")
        swap = self.folder / "memory.swap.max"
        if swap.exists():
            swap.write_text("0", encoding="ascii")

    @staticmethod
    def can_be_made(top: Path = GROUPS) -> bool:
        """Whether groups may be made there that bound memory."""
        with contextlib.suppress(OSError):
            given = (top / "cgroup.subtree_control").read_text(encoding="ascii").split()
            return "memory" in given and os.access(top, os.W_OK)
        return False

    def words(self, words: Sequence[str]) -> list[str]:
        """The words that run a command in it, as the same process."""
        enters = 'echo $$ > "$0/cgroup.procs" && exec "$@"'
        return ["sh", "-c", enters, str(self.folder), *words]

    def ended(self) -> int:
        """How many of its processes were killed since the last time, since they were above it."""
        lines = (self.folder / "memory.events").read_text(encoding="ascii").splitlines()
        killed = int(dict(it.split() for it in lines).get("oom_kill", "0"))
        new, self.killed = killed - self.killed, killed
        return new

    def remove(self) -> None:
        """Removes it once what runs there has ended."""
        for _ in range(100):
            with contextlib.suppress(OSError):
                return self.folder.rmdir()
            time.sleep(0.1)
