"""What the tools that run cases return: success only where cases were run, and all of them."""

import contextlib
import io
import os
import signal
import tempfile
import time
import unittest
from collections.abc import Callable, Iterator
from typing import Any
from unittest import mock

from .scripts import loaded

histories, sweeps = loaded("histories"), loaded("sweeps")

Cases = Iterator[tuple[str, Callable[[Any], None]]]


def passes(runner: Any) -> None:
    pass


def ends_the_tool(runner: Any) -> None:
    time.sleep(0.5)
    os.kill(os.getppid(), signal.SIGTERM)
    time.sleep(60)


def finished(*_: Any) -> Cases:
    yield "first", passes
    yield "second", passes


def stopped(*_: Any) -> Cases:
    yield "first", passes
    yield "second", ends_the_tool


class Status(unittest.TestCase):
    def run_it(
        self, tool: Any, *words: str, made: Callable[..., Cases] = finished
    ) -> tuple[int, str]:
        """A tool's exit status and output, over these cases."""
        self.addCleanup(signal.signal, signal.SIGTERM, signal.getsignal(signal.SIGTERM))
        with (
            tempfile.TemporaryDirectory() as folder,
            mock.patch.object(tool, "made_cases", made),
            contextlib.redirect_stdout(io.StringIO()) as out,
        ):
            status: int = tool.main(["--program", "/bin/true", "--keep", folder, *words])
        return status, out.getvalue()

    def test_cases_that_were_run(self) -> None:
        for tool in (histories, sweeps):
            status, out = self.run_it(tool)
            self.assertEqual(status, 0)
            self.assertRegex(out, "^2 cases, 0 differ, [0-9]+ s")

    def test_an_interrupt(self) -> None:
        for tool in (histories, sweeps):
            status, out = self.run_it(tool, made=stopped)
            self.assertEqual(status, 1)
            self.assertRegex(out, "^[01] cases, 0 differ, interrupted after [0-9]+ s")

    def test_no_case(self) -> None:
        self.assertEqual(self.run_it(histories, made=lambda *_: iter(()))[0], 1)
        self.assertEqual(self.run_it(histories, "--stop-after", "0")[0], 1)
