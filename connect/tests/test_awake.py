"""Waiting awake for what comes within a moment."""

from __future__ import annotations

import contextlib
import os
import select
import threading
import time
import unittest
from pathlib import Path
from unittest import mock

from pgsub_connect.stream import awake
from pgsub_connect.stream.awake import RARELY, Awake, processors

from .fake_server import Quiet


class Select:
    """Stands for `select.select`: tells what is ready at its nth call, and notes the times for
    which it is waited."""

    def __init__(self, *ready: bool) -> None:
        self.ready, self.times = list(ready), list[float]()

    def __call__(
        self, reads: list[int], writes: list[int], other: tuple[()], timeout: float
    ) -> tuple[list[int], list[int], list[int]]:
        self.times.append(timeout)
        return (reads if not self.ready or self.ready.pop(0) else []), [], []


class Waits(Quiet):
    def setUp(self) -> None:
        super().setUp()
        self.now = 0.0
        with contextlib.ExitStack() as patched:
            patched.enter_context(mock.patch.object(time, "monotonic", side_effect=self.tick))
            patched.enter_context(mock.patch.object(awake, "MOMENT", 5.0))
            self.addCleanup(patched.pop_all().close)

    def tick(self) -> float:
        """A clock by which there are four looks in a moment."""
        self.now += 1
        return self.now

    def wait(self, it: Awake, *ready: bool) -> list[float]:
        """The times for which it waits where only the nth look finds something."""
        fake = Select(*ready)
        with mock.patch.object(select, "select", fake):
            self.assertEqual(it.select([3], [], 50.0), ([3], []))
        return fake.times

    def test_what_comes_at_once(self) -> None:
        it = Awake()
        self.assertEqual(self.wait(it), [0])
        self.assertEqual(self.wait(it, False, False, True), [0, 0, 0])

    def test_what_comes_later_is_slept_for(self) -> None:
        times = self.wait(Awake(), *[False] * 4)
        self.assertEqual((set(times[:-1]), times[-1]), ({0}, 50.0))

    def test_it_is_tried_less_often_where_it_is_of_no_use(self) -> None:
        it, slept = Awake(), list[int]()
        for _ in range(14):
            self.assertGreater(len(self.wait(it, *[False] * 4)), 1)
            count = 0
            while it.left:
                self.assertEqual(self.wait(it), [50.0])
                count += 1
            slept.append(count)
        self.assertEqual(slept[:4], [1, 3, 7, 15])
        self.assertEqual(slept[-4:], [RARELY] * 4)

    def test_one_that_was_of_use_is_tried_again_at_once(self) -> None:
        it = Awake()
        self.wait(it, *[False] * 4)
        self.wait(it)
        self.assertEqual(self.wait(it, False, True), [0, 0])
        self.assertEqual(self.wait(it), [0])

    def test_a_look_is_no_wait(self) -> None:
        """It tells nothing of how soon something comes."""
        it = Awake()
        for left in (0, 1):
            fake = Select(False)
            with mock.patch.object(select, "select", fake):
                self.assertEqual(it.select([3], [], 0.0), ([], []))
            self.assertEqual((fake.times, it.left), ([0.0], left))
            it.left = it.sleeps = 1


class Pipes(Quiet):
    def test_a_pipe(self) -> None:
        """It hears what another thread writes, and sleeps where nobody does."""
        reads, writes = os.pipe()
        self.addCleanup(os.close, reads)
        self.addCleanup(os.close, writes)
        it, began = Awake(), time.thread_time()
        self.assertEqual(it.select([reads], [], 0.3), ([], []))
        self.assertEqual(it.select([reads], [writes], 0.3), ([], [writes]))
        self.assertLess(time.thread_time() - began, 0.1)
        thread = threading.Thread(target=os.write, args=(writes, b"x"))
        thread.start()
        self.assertEqual(it.select([reads], [], 60.0), ([reads], []))
        thread.join()


class Processors(Quiet):
    def processors(self, path: str, **quotas: str) -> float:
        folder = Path(self.make_folder())
        (folder / "group").write_text(f"1:name=systemd:/other\n0::{path}\n", encoding="utf-8")
        for name, quota in quotas.items():
            place = folder / name.replace("__", "/").strip("_")
            place.mkdir(parents=True, exist_ok=True)
            (place / "cpu.max").write_text(f"{quota}\n", encoding="utf-8")
        with mock.patch.multiple(awake, GROUPS=folder, GROUP=folder / "group"), mock.patch.object(
            os, "sched_getaffinity", return_value=set(range(8))
        ):
            return processors()

    def test_without_a_limit(self) -> None:
        self.assertEqual(self.processors("/"), 8.0)
        self.assertEqual(self.processors("/a/b", a="max 100000"), 8.0)

    def test_the_least_of_all_groups(self) -> None:
        self.assertEqual(self.processors("/a/b", a="150000 100000", a__b="max 100000"), 1.5)
        self.assertEqual(self.processors("/a/b", a="400000 100000", a__b="50000 100000"), 0.5)
        self.assertEqual(self.processors("/", _="300000 100000"), 3.0)

    def test_what_cant_be_read(self) -> None:
        self.assertEqual(self.processors("/a", a="much"), 8.0)
        with mock.patch.object(awake, "GROUP", Path(self.make_folder()) / "none"):
            self.assertEqual(processors(), float(len(os.sched_getaffinity(0))))


if __name__ == "__main__":
    unittest.main()
