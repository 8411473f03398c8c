"""What a follower holds back while a copy of the store is due, and up to where it goes on for one
at an LSN."""

from __future__ import annotations

import collections
import contextlib
import os
import time
import unittest
from collections.abc import Callable
from unittest import mock

from pgsub_connect.errors import ServerError
from pgsub_connect.follow import snapshots
from pgsub_connect.follow.requests import Requests as Asked
from pgsub_connect.follow.settings import Ending
from pgsub_connect.status.progress import Progress
from pgsub_connect.stream.hold import Hold, count_below
from pgsub_connect.stream.statuses import Confirming
from pgsub_feed import files
from pgsub_feed.errors import Stopped
from pgsub_feed.interruption import never

from .asking import Asker, asking, snapshots_of
from .stores import StoreCase
from .vectors import (
    begin,
    commit,
    insert,
    keepalive,
    logged,
    start,
    stop,
    stream_abort,
    stream_commit,
)


class Holds(unittest.TestCase):
    def setUp(self) -> None:
        self.filter, self.snapshots, self.noting = mock.Mock(), mock.Mock(), mock.Mock()
        self.progress = Progress()
        self.ending = Ending(self.progress, None)
        upkeep = mock.Mock(filter=self.filter, serve_server=self.ending.check_stop)
        upkeep.life.progress, upkeep.life.feeding = self.progress, None
        upkeep.ending, misses = self.ending, mock.Mock(progress=self.progress)
        upkeep.confirming = Confirming(self.filter, self.noting, misses)
        upkeep.confirming.position = 0x100
        self.noting.ends = collections.deque([0x108, 0x120])
        self.noting.confirm.side_effect = self.confirm
        self.snapshots.hold, self.snapshots.requests.waiting = Hold(), []
        self.filter.input.waiting = 0
        self.filter.confirmed.return_value = 0x100
        repairing = mock.Mock(snapshots=self.snapshots, hold=self.snapshots.hold)
        adder = mock.Mock()
        adder.place.stops.return_value = False
        self.requests = Asked(adder, repairing, upkeep)

    def confirm(self, confirmed: int, position: int) -> int:
        while self.noting.ends and self.noting.ends[0] <= confirmed:
            position = self.noting.ends.popleft()
        return position

    def holds(self) -> bool:
        return self.requests.holds_for_copy()

    def taken(self) -> list[int]:
        return [it.args[0] for it in self.snapshots.take.call_args_list]

    def test_until_each_commit_is_stored(self) -> None:
        for confirmed in (0x100, 0x108, 0x11F):
            self.filter.confirmed.return_value = confirmed
            self.assertTrue(self.holds())
        self.assertEqual(self.taken(), [])
        self.filter.confirmed.return_value = 0x120
        self.assertFalse(self.holds())
        self.assertEqual(self.taken(), [0x120])

    def test_until_the_filter_has_all(self) -> None:
        """What waits for the pipe may have the end of a commit."""
        self.noting.ends.clear()
        self.filter.input.waiting = 1
        self.assertTrue(self.holds())
        self.filter.input.waiting = 0
        self.assertFalse(self.holds())
        self.assertEqual(self.taken(), [0x100])

    def test_not_where_none_is_due(self) -> None:
        self.snapshots.is_due.return_value = False
        self.assertFalse(self.holds())
        self.snapshots.is_due.return_value = True
        self.ending.ask_to_stop()
        self.assertFalse(self.holds())
        self.assertEqual(self.taken(), [])

    def test_until_an_lsn_is_told(self) -> None:
        self.snapshots.is_due.return_value = False
        hold = self.snapshots.hold
        hold.begin("copy", 10.0)
        self.assertTrue(self.holds())
        hold.go(0x200)
        self.assertFalse(self.holds())
        hold.is_there = True
        self.assertTrue(self.holds())
        hold.end()
        self.assertFalse(self.holds())

    def test_without_a_filter(self) -> None:
        """Nobody writes the store then."""
        self.filter.is_running.return_value = False
        self.assertFalse(self.holds())
        self.assertEqual(self.taken(), [0x100])

    def test_the_end_is_asked_for_while_it_is_copied(self) -> None:
        """Then the session ends as at any other time."""

        def take(_: int, tick: Callable[[], None]) -> None:
            tick()
            self.ending.ask_to_stop()
            tick()
            self.fail("the signal isn't heard")

        self.noting.ends.clear()
        self.snapshots.take.side_effect = take
        self.progress.state = "following"
        self.assertFalse(self.holds())
        self.assertEqual(self.progress.state, "following")


class Below(unittest.TestCase):
    """A commit is below the point 0x200 where its record, from its final LSN to its end LSN, ends
    there or before."""

    def count(self, *payloads: bytes, is_inside: bool = False) -> int:
        return count_below(payloads, 0x200, is_inside)

    def test_pairs(self) -> None:
        below = [begin(0x1F0, 7), insert(1), commit(0x1F0, 0x200)]
        for lsn in (0x200, 0x201, 0x300):
            self.assertEqual(self.count(*below, begin(lsn, 8), insert(1), commit(lsn, lsn + 8)), 3)
        self.assertEqual(self.count(*below, begin(0x1FF, 8)), 4)

    def test_stream_commits(self) -> None:
        block = [start(7, True), insert(1, 7), stop(), start(8, True), stop(), stream_abort(8, 8)]
        self.assertEqual(self.count(*block, stream_commit(7, 0x1F0, 0x200), *block), 13)
        self.assertEqual(self.count(*block, stream_commit(7, 0x200, 0x208)), 6)
        self.assertEqual(self.count(*block, stream_commit(7, 0x1F0, 0x201)), 6)

    def test_keepalives(self) -> None:
        self.assertEqual(self.count(keepalive(0x1FF), keepalive(0x200), keepalive(0x201)), 1)
        self.assertEqual(
            self.count(
                insert(1), keepalive(0x200), commit(0x1F0, 0x1F8), keepalive(0x200), is_inside=True
            ),
            3,
        )
        self.assertEqual(self.count(begin(0x1F0, 7), keepalive(0x200), insert(1)), 3)

    def test_what_is_kept(self) -> None:
        hold, payloads = Hold(), [keepalive(0x100), begin(0x208, 7), insert(1)]
        self.assertEqual(hold.passing(payloads, False), payloads)
        hold.begin("copy", 10.0)
        self.assertEqual((hold.stops(), hold.is_going()), (True, False))
        hold.go(0x200)
        self.assertEqual((hold.stops(), hold.is_going()), (False, True))
        self.assertEqual(hold.passing(payloads[:1], False), payloads[:1])
        self.assertEqual(hold.passing(payloads, False), payloads[:1])
        self.assertEqual((hold.stops(), hold.is_going(), hold.kept), (True, False, payloads[1:]))
        hold.end()
        self.assertEqual((hold.stops(), hold.take_kept(), hold.kept), (False, payloads[1:], []))

    def test_a_session_that_ends(self) -> None:
        """The next one sends it again, with what the filter has lost."""
        hold = Hold()
        hold.begin("copy", 10.0)
        hold.go(0x200)
        hold.passing([begin(0x208, 7)], False)
        hold.end_session()
        self.assertEqual((hold.kept, hold.is_going(), hold.into), ([], True, "copy"))


class Requests(StoreCase):
    """What is said to the follower, and what becomes of the hold."""

    def setUp(self) -> None:
        super().setUp()
        self.copy = self.folder + "/copy"
        self.snapshots = snapshots_of(self, self.path)

    def asked(self, **more: object) -> contextlib.AbstractContextManager[Asker]:
        """As while somebody asks who is alive."""
        return asking(self.path, **{"ask": "hold", "into": self.copy, "seconds": 10.0, **more})

    def left(self) -> set[str]:
        return set(os.listdir(self.folder)) - {"copy.db", "copy.db.sock"}

    def test_the_whole_of_it(self) -> None:
        hold = self.snapshots.hold
        with self.asked() as asker:
            self.assertFalse(self.snapshots.is_due(0x130))
            self.assertEqual(asker.heard(), [{"held": "0/130"}])
            self.assertTrue(hold.stops())
            asker.say(point="0/140")
            self.assertFalse(self.snapshots.is_due(0x130))
            self.assertEqual((hold.point, hold.stops()), (0x140, False))
            hold.passing([keepalive(0x140)], False)
            self.assertTrue(self.snapshots.is_due(0x130))
            with logged() as told:
                self.snapshots.take(0x130, never)
                self.snapshots.wait()
            self.assertFalse(hold.stops())
            self.assertEqual(told, [f"{self.copy}: the rows at 0/130"])
            self.assertEqual((asker.heard(), asker.is_over), ([{"copied": "0/130"}], True))
            self.assertTrue(os.path.exists(self.copy))
            self.assertEqual(hold.take_kept(), [keepalive(0x140)])

    def test_who_asked_is_gone(self) -> None:
        for point in ("", "0/140"):
            with self.asked() as asker:
                self.snapshots.is_due(0x130)
                if point:
                    asker.say(point=point)
                    self.snapshots.is_due(0x130)
            with logged() as told:
                self.assertFalse(self.snapshots.is_due(0x130))
            self.assertEqual((self.snapshots.hold.into, self.snapshots.client), (None, None))
            self.assertIn("is gone: following goes on", told[0])

    def copy_it(self, asker: Asker) -> None:
        """Takes the copy that was asked for."""
        self.snapshots.is_due(0x130)
        asker.say(point="0/140")
        self.snapshots.is_due(0x130)
        self.snapshots.hold.passing([keepalive(0x140)], False)
        self.snapshots.take(0x130, never)

    def test_who_asked_is_gone_while_the_file_is_made(self) -> None:
        """Nothing of it stays."""
        for is_killed in (False, True):
            with logged(), self.asked() as asker:

                def fold(_: str, asker: Asker = asker, is_killed: bool = is_killed) -> None:
                    if not is_killed:
                        asker.say(ends=True)
                    asker.close()

                with mock.patch.object(snapshots, "fold", fold):
                    self.copy_it(asker)
                    self.snapshots.wait()
                self.assertEqual(self.left(), set())
                self.snapshots.is_due(0x130)
                self.assertFalse(self.snapshots.hold.is_held)

    def cut(self, error: Exception, **more: object) -> list[dict[str, object]]:
        """Begins a copy that was asked for, in which an error comes. What is answered then."""
        asked = self.asked(**more) if more else asking(self.path, ask="copy", into=self.copy)
        with asked as asker, mock.patch.object(files, "CHUNK", 4096):
            if more:
                self.assertFalse(self.snapshots.is_due(0x130))
                self.assertIn("held", asker.heard()[0])
                asker.say(point="0/140")
                self.assertFalse(self.snapshots.is_due(0x130))
                self.snapshots.hold.passing([keepalive(0x140)], False)
            self.assertTrue(self.snapshots.is_due(0x130))
            with self.assertRaises(type(error)), logged():
                self.snapshots.take(0x130, mock.Mock(side_effect=[None, error]))
            self.assertIsNone(self.snapshots.finishing)
            self.assertEqual(self.left(), set())
            heard = asker.heard()
            self.assertEqual(self.snapshots.wanted, None if heard else self.copy)
        with logged():
            self.snapshots.is_due(0x130)
        self.assertFalse(self.snapshots.hold.is_held)
        return heard

    def test_the_end_while_it_is_copied(self) -> None:
        """Whoever asked is told, and nothing of the copy stays."""
        cases: tuple[dict[str, object], ...] = ({}, {"seconds": 10.0}, {"repair": True})
        for more in cases:
            [said] = self.cut(Stopped(), **more)
            self.assertEqual(said["error"], "the follower is about to end")

    def test_a_session_that_is_lost_while_it_is_copied(self) -> None:
        """Nothing of it stays, and it is copied again later: the request isn't answered. But one at
        an LSN is over."""
        self.assertEqual(self.cut(ServerError("lost")), [])
        [said] = self.cut(ServerError("lost"), seconds=10.0)
        self.assertEqual(said["error"], "the session ended while it was copied")

    def test_one_that_nobody_waits_for(self) -> None:
        """Where the session is lost it is taken anew, also one for which there was a signal."""
        self.snapshots.path = self.copy
        self.snapshots.ask()
        for error, again in ((ServerError("lost"), True), (Stopped(), False)):
            self.assertTrue(self.snapshots.is_due(0x130))
            with mock.patch.object(files, "CHUNK", 4096), self.assertRaises(type(error)), logged():
                self.snapshots.take(0x130, mock.Mock(side_effect=[None, error]))
            self.assertEqual(self.left(), set())
            self.assertEqual(self.snapshots.is_due(0x130), again)

    def test_who_asked_was_gone_before(self) -> None:
        for ask in ("hold", "copy", "add"):
            with self.asked(ask=ask):
                pass
            self.assertFalse(self.snapshots.is_due(0x130))
            self.assertEqual((self.snapshots.hold.into, self.snapshots.wanted), (None, None))

    def test_who_asked_for_a_copy_is_gone_before_it_is_made(self) -> None:
        with asking(self.path, ask="copy", into=self.copy):
            self.assertTrue(self.snapshots.is_due(0x130))
        self.assertFalse(self.snapshots.is_due(0x130))
        self.assertIsNone(self.snapshots.client)

    def test_a_request_that_is_taken_back(self) -> None:
        with self.asked() as asker, logged() as told:
            self.snapshots.is_due(0x130)
            asker.say(ends=True)
            self.snapshots.is_due(0x130)
        self.assertEqual((self.snapshots.hold.stops(), told), (False, []))

    def test_no_lsn_in_time(self) -> None:
        with self.asked(seconds=0.01) as asker:
            self.snapshots.is_due(0x130)
            time.sleep(0.02)
            self.snapshots.is_due(0x130)
            self.assertIn("wasn't told in time", asker.heard()[-1]["error"])
            self.assertFalse(self.snapshots.hold.stops())
            self.assertFalse(self.snapshots.is_due(0x130))

    def test_for_how_long(self) -> None:
        for wrong in (0, -1, "x", None, 1e9, True, [1]):
            with self.asked(seconds=wrong) as asker:
                self.snapshots.is_due(0x130)
                self.assertIsNone(self.snapshots.hold.into)
                self.assertIn("610 seconds at most", asker.error())

    def test_a_line_that_comes_in_parts(self) -> None:
        with self.asked() as asker:
            for part in (b"", b'{"poi', b'nt": ', b'"0/140"}'):
                asker.send(part)
                self.snapshots.is_due(0x130)
                self.assertTrue(self.snapshots.hold.stops())
            asker.send(b"\n")
            self.snapshots.is_due(0x130)
            self.assertEqual(self.snapshots.hold.point, 0x140)

    def test_what_is_no_lsn(self) -> None:
        for wrong in ("x", "", 5, None, [], "0/123456789"):
            with self.asked() as asker:
                self.snapshots.is_due(0x130)
                asker.heard()
                asker.say(point=wrong)
                self.snapshots.is_due(0x130)
                self.assertIn("can't be read", asker.error())
                self.assertFalse(self.snapshots.hold.is_held)

    def test_one_after_the_other(self) -> None:
        """What is asked while the stream is held is taken up afterwards."""
        with self.asked() as first, asking(self.path, ask="copy", into=self.copy) as second:
            self.assertFalse(self.snapshots.is_due(0x130))
            first.say(ends=True)
            self.assertFalse(self.snapshots.is_due(0x130))
            self.assertTrue(self.snapshots.is_due(0x130))
            self.assertEqual(second.heard(), [])

    def test_while_another_copy_is_made(self) -> None:
        self.snapshots.finishing = mock.Mock(has_ended=False)
        with self.asked() as asker:
            self.snapshots.is_due(0x130)
            self.assertFalse(self.snapshots.hold.stops())
            self.snapshots.finishing = None
            self.snapshots.is_due(0x130)
            self.assertTrue(self.snapshots.hold.stops())
            asker.say(point="0/140")
            self.snapshots.is_due(0x130)
            self.snapshots.hold.is_there = True
            self.snapshots.finishing = mock.Mock(has_ended=False)
            self.assertFalse(self.snapshots.is_due(0x130))
            self.assertTrue(self.snapshots.hold.stops())


if __name__ == "__main__":
    unittest.main()
