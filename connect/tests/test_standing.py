"""A filter that stands still: the session is ended, and begun anew once the filter goes on."""

from __future__ import annotations

import os
import signal
import subprocess
import sys
import time
import unittest
import unittest.mock
from pathlib import Path

from pgsub_connect.errors import ServerError
from pgsub_connect.follow import upkeep
from pgsub_connect.follow.follower import Follower
from pgsub_connect.follow.upkeep import Standing, activity

from .test_following import Case
from .vectors import begin, commit, insert

# More than the pipe to a filter and the buffers of a socket have room for.
LARGE = [insert(1) + bytes(1 << 15)] * 200


def stop(pid: int) -> None:
    """Stops a process, and waits until it stands."""
    os.kill(pid, signal.SIGSTOP)
    while Path(f"/proc/{pid}/stat").read_bytes().rpartition(b")")[2].split()[0] != b"T":
        time.sleep(0.001)


class Stopped(Case):
    def stopped(self, limit: float) -> Follower:
        """A follower whose filter is stopped as soon as a session has begun, while much comes: it
        may stand still for so many seconds. (The server has its time, on a busy machine too.)"""
        follower = self.follower(silence=600.0)
        self.limit = limit
        self.server.to_send += [begin(0x100, 7), *LARGE, commit(0x100, 0x108)]
        connect, check = follower.session.connect, follower.standing.check

        def connected() -> object:
            connection = connect()
            if follower.progress.server.sessions == 1:
                stop(follower.life.filter.pid())
            return connection

        self.patch(follower.session, "connect", connected)
        self.patch(
            follower.standing, "check", lambda _, *words, **more: check(self.limit, *words, **more)
        )
        self.addCleanup(self.go_on, follower)
        return follower

    def go_on(self, follower: Follower) -> None:
        if follower.life.filter.is_running():
            os.kill(follower.life.filter.pid(), signal.SIGCONT)

    def then_goes_on(self, follower: Follower, held: bool) -> bool:
        """Lets the filter go on where the test has seen all, so that the follower can end."""
        if held:
            self.go_on(follower)
        return held

    def ended(self) -> list[str]:
        return [it for it in self.said if "has stood still for" in it]

    def test_the_session_is_ended_and_begun_anew_once_it_goes_on(self) -> None:
        follower = self.stopped(0.6)
        waited: list[int] = []

        def holds() -> bool:
            if self.ended() and not waited:
                # (several delays between sessions pass)
                time.sleep(0.3)
                waited.append(follower.progress.server.sessions)
                self.assertIsNone(follower.session.connection)
                self.server.to_send[:] = [begin(0x100, 7), *LARGE, commit(0x100, 0x108)]
                self.limit = 600.0
                self.go_on(follower)
            return self.confirmed() == 0x108

        self.run_until(follower, holds)
        self.assertEqual(waited, [1])
        self.assertEqual(follower.progress.server.sessions, 2)
        text = r"has stood still for \d+ seconds?: the session is ended"
        pid = follower.life.filter.pid()
        self.assertRegex(self.ended()[0], rf"the filter \(process {pid}\) {text}")

    def test_sooner_where_the_slot_is_about_to_be_lost(self) -> None:
        self.patch(upkeep, "ENDANGERED", 0.2)
        follower = self.stopped(600.0)
        began, slot = list[float](), follower.progress.slot

        def holds() -> bool:
            if slot.is_unread:
                # (it is told again and again, as the filter may stand still later than it was
                # noted first)
                began.append(time.monotonic())
                slot.note("unreserved", None)
            return self.then_goes_on(follower, bool(self.ended()))

        self.patch(upkeep, "NOTED", 0.05)
        self.run_until(follower, holds)
        self.assertIn("and the slot is about to be lost", self.ended()[0])
        self.assertLess(time.monotonic() - began[0], 60.0)

    def test_what_was_told_of_the_slot_before_isnt_why(self) -> None:
        self.patch(upkeep, "ENDANGERED", 0.1)
        follower = self.stopped(1.0)
        slot = follower.progress.slot
        slot.note("unreserved", None)
        began = time.monotonic()
        self.run_until(follower, lambda: self.then_goes_on(follower, bool(self.ended())))
        self.assertGreater(time.monotonic() - began, 1.0)

    def test_one_that_gets_on_is_kept(self) -> None:
        """Something of what the system says of it moves, though it takes nothing."""
        count = iter(range(1 << 20))
        self.patch(upkeep, "activity", lambda _: (next(count),))
        follower = self.stopped(0.3)
        until = list[float]()

        def holds() -> bool:
            if self.server.sessions and not until:
                until.append(time.monotonic() + 2.0)
            return self.then_goes_on(follower, bool(until) and time.monotonic() > until[0])

        self.run_until(follower, holds)
        self.assertEqual((self.ended(), follower.progress.server.sessions), ([], 1))

    def test_the_end_is_waited_for_without_a_session(self) -> None:
        follower = self.stopped(0.4)

        def holds() -> bool:
            return follower.progress.slot.is_unread or bool(self.ended())

        self.patch(upkeep, "NOTED", 0.05)
        disconnect, gone = follower.session.disconnect, list[bool]()

        def note() -> None:
            disconnect()
            gone.append(follower.life.filter.is_running())
            self.go_on(follower)

        self.patch(follower.session, "disconnect", note)
        self.run_until(follower, holds)
        self.assertTrue(gone[-1])
        self.assertFalse(follower.life.filter.is_running())


class Held(Case):
    def test_a_held_stream_ends_the_session_where_the_slot_is_about_to_be_lost(self) -> None:
        follower = self.follower()
        follower.life.start()
        follower.progress.slot.wal_status = "unreserved"
        now = [100.0]
        self.patch(upkeep, "time", unittest.mock.Mock(monotonic=lambda: now[0]))
        follower.standing.check(60.0, is_held=True)
        now[0] = follower.progress.slot.told = 101.0
        follower.standing.check(60.0, is_held=True)
        self.assertTrue(follower.progress.slot.is_unread)
        now[0] = 102.5
        follower.standing.check(60.0, is_held=False)
        follower.standing.check(60.0, is_held=True)
        now[0] = follower.progress.slot.told = 104.6
        with self.assertRaisesRegex(ServerError, "since the stream is held"):
            follower.standing.check(60.0, is_held=True)


class Activity(unittest.TestCase):
    def test_of_a_process(self) -> None:
        child = subprocess.Popen([sys.executable, "-c", "while True: pass"])
        try:
            before, until = activity(child.pid), time.monotonic() + 60
            while activity(child.pid) == before and time.monotonic() < until:
                time.sleep(0.01)
            self.assertNotEqual(activity(child.pid), before)
            stop(child.pid)
            before = activity(child.pid)
            time.sleep(0.2)
            self.assertEqual(activity(child.pid), before)
            self.assertEqual(len(before), 3)
        finally:
            child.kill()
            child.wait()

    def test_of_none(self) -> None:
        self.assertEqual(activity(1 << 30), ())


class Lasts(Case):
    def test_until_the_filter_is_gone(self) -> None:
        follower = self.follower()
        follower.life.start()
        it = Standing(follower.life.filter, follower.progress)
        stop(follower.life.filter.pid())
        it.found, it.is_left = it.look(), True
        self.assertTrue(it.lasts())
        follower.life.filter.kill()
        self.assertFalse(it.lasts())
        self.assertFalse(it.is_left)


del Case
