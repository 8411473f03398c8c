"""What tries an installed package on a machine: how commands are run there, what is counted, and a
follower of a new user."""

import json
import os
import signal
import subprocess
import time
from collections.abc import Callable
from pathlib import Path

USER = "newcomer"
SERVER = Path("/tmp/server")
ENVIRONMENT = {**os.environ, "PGHOST": str(SERVER), "DEBIAN_FRONTEND": "noninteractive"}
SECONDS = 120.0


class Wrong(Exception):
    """Something isn't as it should be."""


class Counts:
    passed = failed = 0

    def note(self, what: str, wrong: list[str]) -> None:
        self.passed += not wrong
        self.failed += bool(wrong)
        print("FAILED" if wrong else "ok", what, *wrong, sep="\n  " if wrong else " ", flush=True)

    def tried(self, what: str, call: Callable[[], None]) -> None:
        try:
            call()
            self.note(what, [])
        except (Wrong, OSError, ValueError, subprocess.SubprocessError) as wrong:
            self.note(what, [f"{type(wrong).__name__}: {wrong}"])


def run(*words: str, user: str = "root", **more: str) -> str:
    """Runs a command as a user, and returns what it prints."""
    before = [] if user == "root" else ["runuser", "-u", user, "--"]
    ran = subprocess.run(
        [*before, *words], capture_output=True, text=True, env={**ENVIRONMENT, **more}, cwd="/tmp"
    )
    if ran.returncode:
        raise Wrong(
            f"{' '.join(words)}: status {ran.returncode}: {ran.stdout[-2000:]} {ran.stderr[-2000:]}"
        )
    return ran.stdout.strip()


class Following:
    """A follower of README's shop, started by the new user, with the tables that follow."""

    def __init__(self, folder: Path, *more: str) -> None:
        self.folder = folder
        self.log = folder / "follower.log"
        words = ["runuser", "-u", USER, "--", "pgsub-connect", "follow", "--dsn", "dbname=shop"]
        words += ["--store", "copy.db", "--tables", "rows.db", "--status-file", "status.json"]
        with open(self.log, "a") as log:
            self.process = subprocess.Popen(
                [*words, *more],
                cwd=folder,
                env={**ENVIRONMENT, "HOME": f"/home/{USER}"},
                stderr=log,
            )

    def said(self) -> str:
        """The end of its log."""
        return self.log.read_text()[-2000:]

    def wait_for(self, state: str) -> dict[str, object]:
        until = time.monotonic() + SECONDS
        while time.monotonic() < until and self.process.poll() is None:
            try:
                found: dict[str, object] = json.loads((self.folder / "status.json").read_text())
            except (OSError, ValueError):
                found = {}
            if found.get("state") == state:
                return found
            time.sleep(0.2)
        raise Wrong(f"the follower isn't {state}: {self.said()}")

    def stop(self) -> None:
        pids = run("pgrep", "-u", USER, "-f", "pgsub-connect follow").split()
        for it in pids:
            os.kill(int(it), signal.SIGTERM)
        if self.process.wait(SECONDS):
            raise Wrong(f"the follower ended with status {self.process.returncode}: {self.said()}")
