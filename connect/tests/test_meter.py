"""How far long work is: drawn on a terminal, and written elsewhere."""

from __future__ import annotations

import contextlib
import io
import os
import pty
import subprocess
import sys
import unittest
from unittest import mock

from pgsub_connect.stream.filter import Filter
from pgsub_feed import log
from pgsub_feed.log import Meter, progress_text
from pgsub_feed.texts import duration_text

from .fake_server import Quiet

CONNECT = os.path.dirname(os.path.dirname(os.path.abspath(__file__)))
# Draws a line twice, says a line of the log, and ends in the midst of more.
WORK = """
from unittest import mock
from pgsub_feed import log, program
def work():
    clock = [0.0]
    with mock.patch("time.monotonic", lambda: clock[0]):
        it = log.Meter("copying")
        for done in (0, 500, 1000, 1500):
            it.note(done, 2000, "public.t" + "\\x1b[31m")
            clock[0] += 0.15
            if done == 1000:
                log.warning("a text")
    return 0
program.guarded(work)
"""


def drawn(**environment: str) -> str:
    """What a terminal gets of that work."""
    ours, its = pty.openpty()
    with contextlib.ExitStack() as stack:
        stack.callback(os.close, ours)
        kept = {"PATH": os.environ["PATH"], "PYTHONPATH": CONNECT, "TERM": "xterm"}
        subprocess.run(
            [sys.executable, "-c", WORK], stderr=its, check=True, env={**kept, **environment}
        )
        os.close(its)
        said = os.read(ours, 1 << 16).decode()
    return said


class Drawn(unittest.TestCase):
    def test_on_a_terminal(self) -> None:
        """One line is drawn again, gives way to a line of the log, and is gone at the end."""
        said = drawn()
        first, second = (
            f"\r\x1b[Kcopying public.t\\x1b[31m: {it}"
            for it in (
                "1000 of 2000 rows, 3333 a second, 0 s left",
                "1500 of 2000 rows, 3333 a second, 0 s left",
            )
        )
        self.assertTrue(said.startswith(f"{first}\r\x1b[K"), said)
        self.assertIn("pgsub-connect: \x1b[33mwarning\x1b[0m: a text\r\n", said)
        self.assertEqual(said.count("\n"), 1)
        self.assertNotIn(second, said)
        self.assertTrue(said.endswith("a text\r\n"), said)

    def test_without_colours(self) -> None:
        said = drawn(NO_COLOR="1")
        self.assertIn("1000 of 2000 rows", said)
        self.assertIn("pgsub-connect: warning: a text\r\n", said)

    def test_on_a_terminal_that_cant_draw(self) -> None:
        said = drawn(TERM="dumb")
        self.assertNotIn("\x1b", said)
        self.assertNotIn("rows", said)


class Written(Quiet):
    def test_a_line_each_half_minute(self) -> None:
        clock, meter = [100.0], Meter("exporting")
        with mock.patch("time.monotonic", lambda: clock[0]):
            for done in range(0, 6200, 100):
                meter.note(done, 12000)
                clock[0] += 1
        self.assertEqual(
            self.said,
            [
                "exporting: 3000 of 12000 rows, 100 a second, 1 min 30 s left",
                "exporting: 6000 of 12000 rows, 100 a second, 1 min 0 s left",
            ],
        )

    def test_work_that_begins_anew(self) -> None:
        clock, meter = [100.0], Meter("copying")
        with mock.patch("time.monotonic", lambda: clock[0]):
            for seconds, done in ((0, 0), (20, 5000), (10, 10), (29, 20), (1, 310)):
                clock[0] += seconds
                meter.note(done)
        self.assertEqual(self.said, ["copying: 310 rows, 10 a second"])

    def test_not_on_a_terminal(self) -> None:
        with contextlib.redirect_stderr(io.StringIO()):
            self.assertFalse(log.is_terminal())
            self.assertEqual(log.coloured("x", "error"), "x")


class Texts(unittest.TestCase):
    def test_durations(self) -> None:
        for seconds, text in (
            (-1.0, "0 s"),
            (59.4, "59 s"),
            (59.6, "1 min 0 s"),
            (95, "1 min 35 s"),
            (3600, "1 h 0 min"),
            (7500, "2 h 5 min"),
        ):
            self.assertEqual(duration_text(seconds), text)

    def test_a_total_that_was_an_estimate(self) -> None:
        self.assertEqual(progress_text(5, 4, 2.0), "5 rows, 2 a second")
        self.assertEqual(progress_text(1, 4, 0.0), "1 of 4 rows, 0 a second")


class Opening(unittest.TestCase):
    def test_how_far_it_is(self) -> None:
        """What a program has read that opens its store."""
        child = Filter(["/bin/sh", "-c", "exec cat /dev/zero", "--store", __file__], ())
        with mock.patch("pgsub_connect.version.check_program"):
            child.launch()
        self.addCleanup(child.kill)
        os.set_blocking(child.up, True)
        for _ in range(64):
            os.read(child.up, 1 << 16)
        read, size = child.opening()
        self.assertGreater(read, 64)
        self.assertEqual(size, os.path.getsize(__file__))


if __name__ == "__main__":
    unittest.main()
