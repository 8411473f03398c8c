"""Calls that end after some time, whenever the alarm comes."""

from __future__ import annotations

import signal
import time
import unittest
from unittest import mock

from pgsub_feed.errors import Stopped
from pgsub_feed.interruption import at_most

LEFT = (0.0, 0.0)


class AtMost(unittest.TestCase):
    def setUp(self) -> None:
        self.addCleanup(signal.setitimer, signal.ITIMER_REAL, 0)
        self.before = signal.getsignal(signal.SIGALRM)

    def check_left(self) -> None:
        """No alarm is to come, and whoever had set one before gets it."""
        self.assertEqual(signal.getitimer(signal.ITIMER_REAL), LEFT)
        self.assertEqual(signal.getsignal(signal.SIGALRM), self.before)

    def test_in_time(self) -> None:
        with at_most(60):
            self.assertGreater(signal.getitimer(signal.ITIMER_REAL)[0], 0)
        self.check_left()

    def test_too_late(self) -> None:
        with self.assertRaises(Stopped), at_most(0.01):
            time.sleep(60)
        self.check_left()

    def test_while_it_is_set(self) -> None:
        """On a machine that stands still just then."""
        self.goes_off_in(lambda seconds: seconds > 0, 0.01)

    def test_while_it_is_taken_back(self) -> None:
        self.goes_off_in(lambda seconds: seconds == 0, 60)

    def goes_off_in(self, is_there: object, seconds: float) -> None:
        real = signal.setitimer

        def slowly(which: int, seconds: float, again: float = 0.0) -> None:
            real(which, seconds, again)
            if callable(is_there) and is_there(seconds):
                signal.raise_signal(signal.SIGALRM)

        with self.assertRaises(Stopped), mock.patch("signal.setitimer", slowly), at_most(seconds):
            pass
        self.check_left()


if __name__ == "__main__":
    unittest.main()
