"""Processes beside a follower, as tests start them."""

from __future__ import annotations

import sys
import unittest
from typing import TypeVar

from pgsub_connect.follow.process_beside import ProcessBeside

Started = TypeVar("Started", bound=ProcessBeside)


def started(test: unittest.TestCase, it: Started, code: str = "") -> Started:
    """Starts it without its store, or this code in its place, until the test ends."""
    at = it.words.index("--store")
    it.words = [*it.words[:at], *it.words[at + 2 :]]
    if code:
        it.words = [sys.executable, "-S", "-c", code]
    test.addCleanup(it.finish)
    it.start()
    return it
