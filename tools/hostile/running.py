"""Runs the connector against one lie, under a limit on its memory, and looks at how it ends."""

from __future__ import annotations

import os
import re
import resource
import signal
import subprocess
import tempfile
import time
from pathlib import Path

from live_server.follower import filters_of
from live_server.patience import Patience

from .errors import Failed
from .lies import MEGABYTE, NONE, Lie
from .modes import Mode, Stage

# What the connector may take of the memory beside a frame, how often libpq and the connector have
# one, and what a process may take before it is refused more: then it fails by itself.
MOST, FRAMES, REFUSED = 200 * MEGABYTE, 4, 700 * MEGABYTE
# How long the log may be, and which statuses are documented.
LONGEST, STATUSES = MEGABYTE, (0, 1, 2, 3, 4, 5, 7, 8, 9)
# For how many seconds a lie goes on before the connector is asked to end, within how many it has
# to, and how long it may take to meet one.
GOES_ON, HEARS, MEETS = 1.5, 2.0, 30.0
# What it says where it drops what it has made at the server before it ends, and for how many
# seconds more it may then take.
DROPS, DROPPING = b"again, which may take 10 seconds", 20.0
STEP = 0.02


def limited() -> None:
    """What the process may take, its children too."""
    resource.setrlimit(resource.RLIMIT_DATA, (REFUSED, REFUSED))
    resource.setrlimit(resource.RLIMIT_CORE, (0, 0))


def memory_of(pid: int) -> int:
    """The most memory that a process had, in bytes."""
    try:
        found = re.search(
            r"VmHWM:\s+(\d+) kB", Path(f"/proc/{pid}/status").read_text(encoding="ascii")
        )
    except OSError:
        return 0
    return int(found[1]) * 1024 if found else 0


class Run:
    """One run of the connector, to its end."""

    def __init__(self, stage: Stage, mode: Mode, lie: Lie, first: int) -> None:
        self.stage, self.mode, self.lie, self.first = stage, mode, lie, first
        self.memory, self.waited = 0, 0.0
        self.log = stage.folder / "said"

    def run(self) -> str:
        """Returns how it went."""
        mode, stage = self.mode, self.stage
        mode.before(stage)
        stage.liar.begin(self.lie, self.first)
        with open(self.log, "wb") as out:
            child = subprocess.Popen(
                mode.words(stage),
                stdin=subprocess.DEVNULL,
                stdout=out,
                stderr=out,
                preexec_fn=limited,
            )
        try:
            was_asked = self.is_to_be_asked(child)
            if was_asked:
                self.end(child)
        finally:
            self.kill(child)
        return self.judged(child.returncode, was_asked)

    def is_to_be_asked(self, child: subprocess.Popen[bytes]) -> bool:
        """Waits until it has ended, or met the lie and gone on for long enough. Returns whether it
        has to be asked to end."""
        began = time.monotonic()
        while child.poll() is None:
            self.memory = max(self.memory, memory_of(child.pid))
            told = self.stage.liar.told
            if told is not None and time.monotonic() - told > GOES_ON:
                return True
            if time.monotonic() - began > MEETS * Patience.factor:
                raise Failed(f"it goes on without having met the lie: {self.said()}")
            time.sleep(STEP)
        return False

    def end(self, child: subprocess.Popen[bytes]) -> None:
        """Asks for the end, which has to be heard."""
        asked, limit, drops = time.monotonic(), HEARS * Patience.factor, False
        child.send_signal(signal.SIGTERM)
        while child.poll() is None:
            self.memory = max(self.memory, memory_of(child.pid))
            self.waited = time.monotonic() - asked
            if self.waited > limit and not drops and DROPS in self.log.read_bytes():
                limit, drops = limit + DROPPING, True
            elif self.waited > limit:
                raise Failed(f"it hears no SIGTERM in {limit:.1f} seconds: {self.said()}")
            time.sleep(STEP)

    def kill(self, child: subprocess.Popen[bytes]) -> None:
        if child.poll() is None:
            for pid in filters_of(child.pid):
                os.kill(pid, signal.SIGKILL)
            child.kill()
            child.wait()

    def said(self) -> str:
        return self.log.read_bytes()[-3000:].decode(errors="replace")

    def judged(self, status: int, was_asked: bool) -> str:
        # (where it was about to end by itself, a signal ends it at once)
        ended = status in (-signal.SIGTERM, 128 + signal.SIGTERM)
        most, length = MOST + FRAMES * self.lie.frame, self.log.stat().st_size
        wrong = [
            f"status {status}" if status not in STATUSES and not (was_asked and ended) else "",
            "a traceback" if b"Traceback" in self.log.read_bytes() else "",
            f"{self.memory / MEGABYTE:.0f} MB of memory" if self.memory > most else "",
            f"a log of {length} bytes" if length > LONGEST else "",
            f"status {status} by honest answers" if self.lie is NONE and status else "",
            "nothing was said" if status in STATUSES[2:] and not length else "",
        ]
        if any(wrong):
            raise Failed(f"{', '.join(filter(None, wrong))}: {self.said()}")
        how = f"{self.waited:.1f} s after SIGTERM" if was_asked else "by itself"
        met = "" if self.stage.liar.told is not None else ", met no lie"
        return f"status {status} {how}, {self.memory / MEGABYTE:.0f} MB{met}"


def run(stage: Stage, mode: Mode, lie: Lie, first: int) -> str:
    """Runs in a folder of its own, and leaves nothing."""
    with tempfile.TemporaryDirectory(prefix="run-", dir=stage.folder.parent) as folder:
        stage.folder = Path(folder)
        try:
            return Run(stage, mode, lie, first).run()
        finally:
            stage.clean()
