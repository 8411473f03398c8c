"""A follower for which commits wait: the stream goes on while a slot is made."""

from __future__ import annotations

import contextlib
import os
import signal
import time
import unittest
from unittest import mock

from pgsub_connect.add import requests, turn
from pgsub_connect.errors import Delayed, NoSlot, ServerError, Unrepaired
from pgsub_connect.follow import schedule
from pgsub_connect.follow.session_start import Comparing
from pgsub_connect.server import session
from pgsub_connect.server.session import Subscription
from pgsub_connect.status.progress import Progress
from pgsub_connect.store.repeats_file import RepeatsFile
from pgsub_connect.stream import gate
from pgsub_connect.stream.gate import Gating, is_shared, too_large_to_copy
from pgsub_connect.stream.hold import Hold
from pgsub_connect.stream.messages import flushed
from pgsub_connect.stream.place import Place
from pgsub_connect.verify import store as verify_store
from pgsub_connect.verify.comparison import Compared
from pgsub_connect.verify.store import Request
from pgsub_feed.errors import Passing, Stopped
from pgsub_feed.interruption import Check, never
from pgsub_feed.texts import lsn_text

from .adding_case import OTHER, Case as AddingCase, Run, T
from .asking import Asker, asking, snapshots_of
from .fake_server import FakeServer, Quiet, Row
from .small_world import RUNNING, WorldSource, insert, table, wait_for
from .stores import StoreCase
from .test_repairing import Repairs as RepairsCase
from .vectors import begin, commit, insert as change, keepalive, logged


class Gates(unittest.TestCase):
    """What passes while the point isn't known."""

    def test_up_to_the_gate(self) -> None:
        hold, payloads = Hold(), [begin(0x100, 7), change(1), commit(0x100, 0x108)]
        payloads += [begin(0x200, 8), change(1), commit(0x200, 0x208)]
        hold.begin("copy", 10.0, maker=4711)
        self.assertEqual((hold.is_gated(), hold.stops(), hold.limit()), (True, True, None))
        hold.open_to(0x180)
        self.assertEqual((hold.stops(), hold.is_there, hold.is_due()), (False, False, False))
        self.assertEqual(hold.passing(payloads, False), payloads[:3])
        self.assertEqual((hold.stops(), hold.is_there, hold.is_due()), (True, False, False))
        hold.open_to(0x280)
        self.assertFalse(hold.stops())
        self.assertEqual(hold.passing(hold.take_kept(), False), payloads[3:])
        hold.passing([begin(0x300, 9)], False)
        hold.go(0x2F0)
        self.assertEqual((hold.is_gated(), hold.stops()), (False, False))
        self.assertEqual(hold.passing(hold.take_kept(), False), [])
        self.assertEqual((hold.stops(), hold.is_due()), (True, True))

    def test_a_commit_that_begins_at_the_gate_is_kept(self) -> None:
        hold = Hold()
        hold.begin("copy", 10.0, maker=4711)
        hold.open_to(0x200)
        self.assertEqual(hold.passing([begin(0x200, 7)], False), [])
        self.assertEqual(hold.passing([keepalive(0x200)], False), [])

    def test_a_session_that_ends_is_held_again(self) -> None:
        hold = Hold()
        hold.begin("copy", 10.0, maker=4711)
        hold.open_to(0x200)
        hold.passing([begin(0x300, 7)], False)
        hold.end_session()
        self.assertEqual((hold.kept, hold.stops()), ([], False))
        hold.end()
        self.assertEqual((hold.is_gated(), hold.stops(), hold.limit()), (False, False, None))


class Looks(Quiet):
    def setUp(self) -> None:
        super().setUp()
        self.server = FakeServer()
        self.ends: list[Row | ServerError] = []
        self.server.answer("pg_locks", self.answer)
        patch = mock.patch.object(session, "Connection", self.server.connect)
        patch.start()
        self.addCleanup(patch.stop)
        self.now = [100.0]
        patch = mock.patch.object(gate, "time", mock.Mock(monotonic=lambda: self.now[0]))
        patch.start()
        self.addCleanup(patch.stop)
        self.hold, self.progress, self.gone = Hold(), Progress(), list[str]()
        self.gating = Gating(Subscription(), self.progress, self.hold, never, self.gone.append)
        self.progress.server.is_waited_for = True
        self.addCleanup(self.gating.end_session)

    def answer(self, _: str) -> list[Row]:
        it = self.ends.pop(0)
        if isinstance(it, ServerError):
            raise it
        return [it]

    def gates(self, *ends: Row | ServerError) -> list[int | None]:
        """The gate after each look."""
        self.ends = list(ends)
        found = []
        for _ in ends:
            self.now[0] += 1.0
            self.gating.since = None
            self.gating.step()
            found.append(self.hold.gate)
        return found

    def test_it_moves_to_the_end_before_the_last_look(self) -> None:
        """What is in the log between two looks may be behind the point."""
        self.hold.begin("copy", 10.0, maker=4711)
        found = self.gates(
            ["0/100", "t"], ["0/200", "t"], ["0/300", "f"], ["0/400", "t"], ["0/400", "t"]
        )
        self.assertEqual(found, [None, 0x100, 0x100, 0x300, 0x400])
        self.assertIn("l.pid = 4711", self.server.told("pg_locks")[0])
        self.hold.go(0x500)
        self.gating.step()
        self.assertEqual(self.server.open, [])

    def test_a_server_that_cant_be_asked(self) -> None:
        self.hold.begin("copy", 10.0, maker=4711)
        found = self.gates(["0/100", "t"], ServerError("lost"), ["0/300", "t"], ["0/400", "t"])
        self.assertEqual(found, [None, None, None, 0x300])

    def test_it_isnt_asked_where_nothing_waits(self) -> None:
        self.hold.begin("copy", 10.0)
        self.gating.step()
        self.assertEqual(self.server.commands, [])

    def test_commits_dont_wait_for_long(self) -> None:
        self.hold.begin("copy", 10.0)
        for seconds, gone in ((0.0, 0), (1.4, 0), (0.2, 1)):
            self.now[0] += seconds
            self.gating.step()
            self.assertEqual(len(self.gone), gone)
        self.assertIn("take the follower out of synchronous_standby_names", self.gone[0])

    def test_changes_that_are_on_their_way(self) -> None:
        """They end the hold themselves."""
        self.hold.begin("copy", 10.0, keeps=True)
        self.hold.is_sent = True
        for _ in range(5):
            self.now[0] += 1.0
            self.gating.step()
        self.assertEqual(self.gone, [])

    def test_where_none_waits_it_is_held(self) -> None:
        self.progress.server.is_waited_for = False
        self.hold.begin("copy", 10.0)
        for _ in range(5):
            self.now[0] += 1.0
            self.gating.step()
        self.assertEqual(self.gone, [])


class Requests(StoreCase):
    """What becomes of a request while commits wait."""

    def setUp(self) -> None:
        super().setUp()
        self.copy = self.folder + "/copy"
        self.snapshots = snapshots_of(self, self.path)
        self.snapshots.delays_commits = lambda standbys: True

    def asked(self, **more: object) -> contextlib.AbstractContextManager[Asker]:
        return asking(self.path, **{"ask": "hold", "into": self.copy, "seconds": 10.0, **more})

    def test_the_process_that_makes_the_slot(self) -> None:
        with self.asked(maker=4711):
            self.snapshots.is_due(0x130)
            hold = self.snapshots.hold
            self.assertEqual((hold.maker, hold.is_gated()), (4711, True))

    def test_none_where_no_commit_waits(self) -> None:
        self.snapshots.delays_commits = lambda standbys: standbys == "pgsub"
        with self.asked(maker=4711):
            self.snapshots.is_due(0x130)
            hold = self.snapshots.hold
            self.assertEqual((hold.maker, hold.is_gated()), (0, False))

    def test_what_whoever_asks_has_read(self) -> None:
        """It may be newer than what the follower knows."""
        progress = Progress()
        progress.server.name = "pgsub"
        self.snapshots.delays_commits = progress.server.note_standbys
        with self.asked(maker=4711, standbys="ANY 1 (other, pgsub)"):
            self.snapshots.is_due(0x130)
            self.assertEqual(
                (self.snapshots.hold.maker, progress.server.is_waited_for), (4711, True)
            )

    def test_who_asks_is_of_an_older_version(self) -> None:
        cases: tuple[dict[str, object], ...] = ({}, {"maker": "x"}, {"maker": 0})
        for more in cases:
            with self.asked(**more) as asker:
                self.snapshots.is_due(0x130)
                self.assertIn("of an older version", asker.error())
                self.assertFalse(self.snapshots.hold.is_held)

    def test_a_store_that_takes_long_to_copy(self) -> None:
        self.patch("pgsub_connect.stream.gate.COPIED", 1)
        self.patch("pgsub_connect.stream.gate.is_shared", lambda _: False)
        with self.asked(maker=4711) as asker:
            self.snapshots.is_due(0x130)
            self.assertIn("take the follower out of synchronous_standby_names", asker.error())
            self.assertFalse(self.snapshots.hold.is_held)

    def test_a_file_system_that_shares_blocks(self) -> None:
        self.patch("pgsub_connect.stream.gate.COPIED", 1)
        self.patch("pgsub_connect.stream.gate.is_shared", lambda _: True)
        self.assertEqual(too_large_to_copy(self.path), "")
        self.assertIsInstance(is_shared(self.path), bool)
        self.assertFalse(is_shared("/proc/self/stat"))

    def test_changes_come_too_late(self) -> None:
        """The stream was let go while whoever asks wrote that they are there."""
        with self.asked(repair=True, maker=4711) as asker:
            self.snapshots.is_due(0x130)
            asker.heard()
            self.snapshots.reject("it took too long", delays=True)
            self.snapshots.hold.end()
            with contextlib.suppress(BrokenPipeError):
                asker.say(tables=[1])
            self.snapshots.is_due(0x130)
            self.assertEqual(asker.error(), "it took too long")
            self.assertIsNone(self.snapshots.hold.tables)

    def test_a_point_that_was_passed(self) -> None:
        with self.asked(maker=4711) as asker:
            self.snapshots.is_due(0x130)
            asker.heard()
            self.snapshots.hold.open_to(0x200)
            asker.say(point="0/200")
            self.snapshots.is_due(0x130)
            self.assertIn("its slot is at 0/200, and the stream at 0/200", asker.error())
            self.assertFalse(self.snapshots.hold.is_held)


class Synchronous(AddingCase):
    """Tables are added while commits wait."""

    def setUp(self) -> None:
        super().setUp()
        self.waits = True
        self.world.record = RUNNING
        self.brain.answer("synchronous_standby_names", [["*"]])
        self.brain.answer("pg_locks", lambda _: [[lsn_text(self.world.end), self.waiting()]])
        self.followed()

    def waiting(self) -> str:
        return "t" if self.waits else "f"

    def is_confirmed(self, end: int) -> bool:
        return any(flushed(it) >= end for _, it in list(self.server.statuses))

    def commits(self) -> bool:
        """Commits, and waits until that is confirmed."""
        self.change()
        end = self.world.commits[-1][0]
        return wait_for(lambda: self.is_confirmed(end))

    def test_commits_are_confirmed_while_the_slot_is_made(self) -> None:
        confirmed: list[bool] = []

        def hook(name: str) -> None:
            if name == "make_slot":
                confirmed.extend(self.commits() for _ in range(5))
                # (its record is written now)
                self.waits = False

        WorldSource.hook = staticmethod(hook)
        self.spoil()
        self.want(T)
        self.goes_on()
        self.assertEqual(confirmed, [True] * 5)

    def test_commits_are_confirmed_while_rows_are_read(self) -> None:
        confirmed: list[bool] = []

        def hook(name: str) -> None:
            if name in ("see", "COPY", "block"):
                confirmed.append(self.commits())

        WorldSource.hook = staticmethod(hook)
        self.spoil()
        self.want(T)
        self.goes_on()
        self.assertEqual(confirmed, [True] * len(confirmed))
        self.assertGreater(len(confirmed), 2)

    def test_what_is_stored_as_a_session_begins_is_confirmed(self) -> None:
        """A commit that the session before has passed on, and that nothing comes behind."""
        run = Run(self)
        self.assertTrue(run.until(lambda: run.progress.state == "following"))
        begin_anew = Comparing.begin_anew

        def stores(it: Comparing, file: RepeatsFile, is_whole: bool) -> None:
            os.kill(run.filter.pid(), signal.SIGCONT)
            begin_anew(it, file, is_whole)

        self.patch(Comparing, "begin_anew", stores)
        os.kill(run.filter.pid(), signal.SIGSTOP)
        self.world.commit(insert(OTHER, (7779, "late")))
        end = self.world.commits[-1][0]
        self.assertTrue(run.until(lambda: bool(run.follower.noting.ends)))
        WorldSource.hook = staticmethod(mock.Mock(side_effect=NoSlot("late")))
        run.calls.append(lambda: run.remembered.want([T]))
        self.assertTrue(wait_for(lambda: self.is_confirmed(end), 10), self.said)
        run.end()

    def test_keepalives_pass_while_rows_are_read(self) -> None:
        """They confirm commits that change nothing that is published."""
        passed = list[bool]()
        self.spoil()
        self.want(T)
        run = list[Run]()

        def hook(name: str) -> None:
            if name == "COPY":
                wait_for(lambda: bool(run))
                place = run[0].follower.adder.place
                self.world.end += RUNNING
                end = self.world.end
                payloads = [keepalive(end)]
                passed.append(wait_for(lambda: not (place.holds or place.keeps)))
                passed.append(place.passing(payloads, False) == (payloads, []))

        WorldSource.hook = staticmethod(hook)
        run.append(Run(self))
        self.assertTrue(
            run[0].until(lambda: not run[0].remembered.wanted), (self.said, run[0].raised)
        )
        run[0].end()
        self.assertEqual(passed, [True, True])

    def test_rows_that_take_too_long(self) -> None:
        """The table is refused, and another session begins at once."""
        self.patch(turn, "LONGEST_WAIT", 0.0)
        self.patch(schedule, "FIRST_DELAY", 60.0)
        self.want(T)

        def hook(name: str) -> None:
            if name == "make_slot":
                self.waits = False

        WorldSource.hook = staticmethod(hook)
        run = Run(self)
        wanted = run.remembered.wanted
        self.assertTrue(run.until(lambda: bool(wanted.get(T))), (self.said, run.raised))
        self.assertIn("commits at the server have waited", run.remembered.wanted[T])
        self.world.commit(insert(OTHER, (7778, "behind")))
        self.assertTrue(run.until(lambda: self.is_stored(run)), (self.said, run.raised))
        run.end()

    def test_a_large_table_is_rejected_before_anything_is_held(self) -> None:
        self.patch(requests, "TABLE", 10)
        run = Run(self)
        self.assertTrue(run.until(lambda: run.progress.state == "following"))
        answer = run.ask(add=[T])
        text = "commits at the server would wait for the follower as long as these are copied: take"
        self.assertIn(text, answer or "")
        self.assertEqual(run.remembered.wanted, {})
        run.end()

    def test_a_large_table_that_is_to_come_waits(self) -> None:
        """Until no commit waits any more."""
        self.patch(requests, "TABLE", 10)
        self.spoil()
        self.want(T)
        told: list[bool] = []

        def hook(name: str) -> None:
            if any("it is added later" in it for it in self.said) and not told:
                told.append(True)
                self.patch(requests, "TABLE", 1 << 20)
            if name == "make_slot":
                self.waits = False

        WorldSource.hook = staticmethod(hook)
        self.goes_on()
        self.assertEqual(told, [True])


class Repeated(unittest.TestCase):
    def test_statuses_come_more_often_where_commits_wait(self) -> None:
        settings, confirming = mock.Mock(silence=60.0, heartbeat=10.0), mock.Mock()
        confirming.last_sent = time.monotonic() - 1.0
        times = schedule.Schedule(settings, confirming, Hold(), Place())
        for waits in (False, True):
            confirming.progress.server.is_waited_for = waits
            times.keep_alive(0.0)
            self.assertEqual((times.is_status_due(), confirming.repeat.called), (waits, waits))


class Tries(unittest.TestCase):
    """A repair for which commits have to wait is tried some times."""

    def tries(self, *results: object) -> tuple[object, int]:
        tried = mock.Mock(side_effect=results)
        quick = mock.patch.object(verify_store, "PAUSE", 0.0)
        with mock.patch.object(verify_store, "repair_once", tried), quick, logged():
            try:
                return (
                    verify_store.repair(
                        verify_store.StoreComparison(Subscription(), "s"), Compared(), never
                    ),
                    tried.call_count,
                )
            except Passing as error:
                return error, tried.call_count

    def test_how_often(self) -> None:
        waited, other = Delayed("waited"), Passing("other")
        self.assertEqual(self.tries([]), ([], 1))
        self.assertEqual(self.tries(waited, []), ([], 2))
        self.assertEqual(self.tries(waited, waited, waited), (waited, 3))
        self.assertEqual(self.tries(other), (other, 1))


class Sizes(unittest.TestCase):
    """What would be compared while commits wait."""

    def check(self, standbys: str, size: int, dsn: str = "dbname=shop") -> None:
        server = FakeServer()
        server.answer("size", [["16385", str(size)]])
        source = mock.Mock(plain=server.connect(""), standbys=lambda: standbys)
        verify_store.check_sizes(Subscription(dsn), source, [table(T, "t")])

    def test_small_ones(self) -> None:
        self.check("pgsub", 1000)

    def test_large_ones(self) -> None:
        for standbys, dsn in (("pgsub", "dbname=shop"), ("mine", "application_name=mine")):
            with self.assertRaisesRegex(Unrepaired, "public.t: 99999999 bytes would be compared"):
                self.check(standbys, 99999999, dsn)

    def test_where_no_commit_waits(self) -> None:
        for standbys, dsn in (("", ""), ("other", ""), ("pgsub", "application_name=mine")):
            self.check(standbys, 99999999, dsn)


class Repairs(RepairsCase):
    """Rows are repaired while commits wait."""

    def setUp(self) -> None:
        super().setUp()
        self.brain.answer("synchronous_standby_names", [["*"]])
        self.brain.answer("pg_locks", lambda _: [[lsn_text(self.world.end), "t"]])

    def test_it_is_given_up_where_commits_wait_for_too_long(self) -> None:
        self.patch(gate, "MOST", 600.0)
        run = self.running()
        with contextlib.closing(Request(self.store, 60.0, never, repairs=True)) as request:
            request.hold(4711)
            point, _ = self.world.slot()
            request.tell(point)
            request.copied()
            self.patch(gate, "MOST", 0.3)
            self.assertTrue(wait_for(lambda: not run.snapshots.hold.is_held))
            with self.assertRaisesRegex(Delayed, "have waited"):
                request.pass_on([T])
        self.change()
        self.assertTrue(run.until(lambda: self.is_stored(run)))
        run.end()
        self.assertTrue(os.path.exists(self.store))


del AddingCase, RepairsCase
