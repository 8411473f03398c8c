"""Runs checks one after the other, and counts them."""

from __future__ import annotations

import time
import traceback
from collections.abc import Callable

import psycopg

from .errors import Failed, Unusable


class Checks:
    """What passed and what failed."""

    def __init__(self) -> None:
        self.passed = self.failed = 0

    def run(self, name: str, call: Callable[[], str | None]) -> bool:
        """Runs a check, which may return what else there is to say of it. Returns whether it
        passed."""
        began = time.monotonic()
        try:
            said = call()
        except (Failed, Unusable, psycopg.Error) as error:
            return self.fail(name, str(error).strip())
        except Exception:  # noqa: BLE001
            return self.fail(name, traceback.format_exc())
        self.passed += 1
        print(
            f"ok {name}{f': {said}' if said else ''} ({time.monotonic() - began:.1f} s)", flush=True
        )
        return True

    def fail(self, name: str, why: str) -> bool:
        self.failed += 1
        print(f"FAILED {name}: {why}", flush=True)
        return False

    def tell(self) -> int:
        """Prints the last line; the exit status."""
        print(f"{self.passed} passed, {self.failed} failed", flush=True)
        return int(self.failed > 0 or not self.passed)
