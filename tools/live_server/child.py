"""A connector that a case has started."""

from __future__ import annotations

import os
import subprocess
import time
from collections.abc import Callable, Mapping, Sequence
from pathlib import Path
from signal import SIGKILL, SIGTERM

from .errors import Failed
from .follower import filters_of, wait_until
from .patience import Patience


class Child:
    """The process. What it says goes to a file, so that it never waits for a reader."""

    def __init__(
        self, words: Sequence[str], log: Path, environment: Mapping[str, str] = {}
    ) -> None:
        self.log, self.began = log, log.stat().st_size if log.exists() else 0
        with open(log, "ab") as out:
            self.process = subprocess.Popen(
                words,
                stdin=subprocess.DEVNULL,
                stdout=out,
                stderr=out,
                env={**os.environ, **environment},
            )

    def said(self) -> str:
        with open(self.log, "rb") as file:
            file.seek(self.began)
            return file.read().decode(errors="replace")

    def is_running(self) -> bool:
        return self.process.poll() is None

    def check(self) -> None:
        """Fails where it has ended."""
        if not self.is_running():
            raise Failed(f"it ended with status {self.process.returncode}: {self.said()}")

    def wait_for(self, text: str, seconds: float = 60) -> None:
        """Waits until it has said something."""
        try:
            wait_until(
                lambda: text in self.said(), f"saying {text!r}", seconds, self.check_or(text)
            )
        except Failed as error:
            raise Failed(f"{error}; it said {self.said()}") from None

    def check_or(self, text: str) -> Callable[[], None]:
        """Fails where it has ended without saying something."""
        return lambda: None if text in self.said() else self.check()

    def filters(self) -> list[int]:
        """The processes of its filters."""
        return filters_of(self.process.pid)

    def signal(self, number: int) -> None:
        self.process.send_signal(number)

    def end(self, seconds: float = 60) -> int:
        """Waits for the end, and returns the status."""
        seconds *= Patience.factor
        try:
            return self.process.wait(seconds)
        except subprocess.TimeoutExpired:
            self.kill()
            raise Failed(f"it didn't end within {seconds:.0f} seconds: {self.said()}") from None

    def stop(self, number: int = SIGTERM, within: float = 60, status: int = 0) -> str:
        """Asks for the end, which has to come well, with this status. Returns what it said."""
        began = time.monotonic()
        self.signal(number)
        ended = self.end()
        if ended != status:
            raise Failed(
                f"it ended with status {ended} in place of {status} after signal {number}: {self.said()}"
            )
        if (took := time.monotonic() - began) > within * Patience.factor:
            raise Failed(f"it ended {took:.1f} seconds after the signal")
        return self.said()

    def kill(self) -> None:
        if self.is_running():
            for pid in self.filters():
                os.kill(pid, SIGKILL)
            self.process.kill()
            self.process.wait()
