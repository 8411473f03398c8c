"""A follower between a small server and a filter that stores nothing but its position."""

from __future__ import annotations

import contextlib
import errno
import os
import socket
import threading
import time
import unittest
from collections.abc import Callable, Iterator, Sequence
from types import SimpleNamespace
from typing import Any
from unittest import mock

from pgsub_connect.drift.findings import About
from pgsub_connect.drift.remembered import Remembered
from pgsub_connect.errors import FilterFault, ServerError, Unconnected
from pgsub_connect.follow import (
    drift_watch,
    filter_life,
    follower as follower_module,
    schedule,
    session as session_module,
    upkeep,
)
from pgsub_connect.follow.follower import Follower
from pgsub_connect.follow.snapshots import Snapshots
from pgsub_connect.server import connection as connection_module, libpq, login, session, transport
from pgsub_connect.server.connection import Connection
from pgsub_connect.server.session import Server
from pgsub_connect.server.transport import Protection
from pgsub_connect.status.progress import Progress
from pgsub_connect.store.checkpoint import Checkpoint, read_known
from pgsub_connect.store.checkpoint_lines import FOLLOWING
from pgsub_connect.stream import statuses
from pgsub_connect.stream.awake import Awake
from pgsub_connect.stream.filter import Filter
from pgsub_connect.stream.filter_end import FilterEnded
from pgsub_connect.stream.messages import flushed
from pgsub_feed import interruption
from pgsub_feed.errors import Passing, Unfit
from pgsub_feed.texts import lsn_text, parse_lsn

from .asking import asking, snapshots_of
from .fake_server import FakeServer, Quiet, Row
from .followed import followed
from .small_server import READY, SmallServer, error
from .vectors import a_catalog, a_table, begin, commit, insert, keepalive

# The modules whose waits are short here.
FOLLOW = (filter_life, follower_module, schedule, session_module, upkeep)
FAKE = os.path.join(os.path.dirname(os.path.abspath(__file__)), "fake_filter.py")


class Case(Quiet):
    """`brain` answers as a primary of which the store has all."""

    def setUp(self) -> None:
        super().setUp()
        self.folder = self.make_folder()
        self.store = self.folder + "/copy.db"
        self.brain = FakeServer()
        self.identity: Row = ["77", "1", "0/1000000", "shop"]
        self.standby, self.started = "f", "1000"
        self.slots: list[Row] = [["pgoutput", "t", "f", "0"]]
        answers: Sequence[tuple[str, Callable[[str], list[Row]]]] = (
            ("IDENTIFY_SYSTEM", lambda _: [self.identity]),
            ("pg_is_in_recovery", lambda _: [[self.standby]]),
            ("pg_postmaster_start_time", lambda _: [[self.started]]),
            ("s.confirmed_flush_lsn", lambda _: self.slots),
            ("SHOW wal_sender_timeout", lambda _: [["1min"]]),
            ("TIMELINE_HISTORY", lambda _: [["x", "1\t0/500\treason"]]),
            ("set_config", lambda _: [[""]]),
            ("pg_current_wal_insert_lsn", lambda _: [["0/800", "0/800", "16777216"]]),
        )
        for part, call in answers:
            self.brain.answer(part, call)
        self.server = SmallServer(self.folder, self.brain)
        self.addCleanup(self.server.close)
        for where, name, by in (
            (libpq, "TICK", 0.02),
            *((where, "STEP", 0.02) for where in FOLLOW),
            (statuses, "QUIET", 0.3),
            (filter_life, "SLEEP", 0.02),
            (follower_module, "SLEEP", 0.02),
            (schedule, "FIRST_DELAY", 0.02),
        ):
            self.patch(where, name, by)
        self.patch(drift_watch.Watch, "compare", lambda *_: True)

    def patch(self, where: object, name: str, by: object) -> None:
        patch = mock.patch.object(where, name, by)
        patch.start()
        self.addCleanup(patch.stop)

    def follower(self, **options: Any) -> Follower:
        self.checkpoint = Checkpoint(self.store)
        self.addCleanup(os.close, self.checkpoint.file)
        if not os.path.exists(self.store):
            with open(self.store, "w", encoding="ascii") as file:
                file.write("0")
        child = Filter(
            ["/usr/bin/python3", "-S", "-E", FAKE, "follow", "--store", self.store],
            (self.checkpoint.file,),
        )
        self.addCleanup(child.kill)
        self.progress, remembered = Progress(), Remembered(self.store)
        if remembered.catalog is None:
            remembered.begin_copy(a_catalog(a_table(1, "t")), 100)
        known = self.checkpoint, self.progress, remembered
        told = followed(known, self.store, self.server.dsn(), **options)
        return Follower(*told, child, None, snapshots_of(self, self.store))

    def run_until(
        self, follower: Follower, holds: Callable[[], bool], seconds: float = 60.0
    ) -> None:
        """Follows in a thread until something holds, and then asks for the end."""
        raised: list[BaseException] = []

        def run() -> None:
            try:
                follower.run()
            except BaseException as error:
                raised.append(error)

        thread = threading.Thread(target=run)
        thread.start()
        until = time.monotonic() + seconds
        while not holds() and thread.is_alive() and time.monotonic() < until:
            time.sleep(0.005)
        held = holds()
        follower.ending.stop_asked = True
        thread.join(seconds)
        self.assertFalse(thread.is_alive())
        if raised:
            raise raised[0]
        self.assertTrue(held, self.said)

    def set_clock(self, clock: list[float]) -> None:
        """Has a follower's time be what the list says."""
        clocked = interruption, follower_module, schedule, session_module, upkeep, statuses
        for where in clocked:
            self.patch(where, "time", mock.Mock(monotonic=lambda: clock[0], sleep=time.sleep))

    def confirmed(self) -> int:
        return flushed(self.server.statuses[-1][1]) if self.server.statuses else 0


class Sessions(Case):
    def test_commits_are_confirmed_once_they_are_stored(self) -> None:
        self.server.to_send = [begin(0x100, 7), insert(1), commit(0x100, 0x108)]
        self.run_until(self.follower(), lambda: self.confirmed() == 0x108)
        self.assertEqual(
            (
                self.progress.stream.commits,
                self.progress.stream.confirmed,
                self.progress.stream.position,
            ),
            (1, 0x108, 0x108),
        )
        with open(self.store, encoding="ascii") as file:
            self.assertEqual(file.read(), str(0x108))
        self.assertEqual(read_known(self.checkpoint.path).position, 0x108)

    def opened_at_logins(self, trusts: bool) -> list[bool]:
        """Whether the filter had opened its store as the server was asked, each time."""
        opened, connect, follower = list[bool](), session.Subscription.connect, self.follower()
        child = follower.life.filter
        child.left = mock.Mock(begin=mock.Mock(return_value=trusts))

        def noting(*words: Any, **more: Any) -> Connection:
            opened.append(child.has_opened())
            return connect(*words, **more)

        with mock.patch.object(session.Subscription, "connect", noting):
            self.run_until(follower, lambda: self.server.sessions > 0)
        return opened

    def test_the_server_is_asked_while_a_filter_opens_its_store(self) -> None:
        opened = self.opened_at_logins(True)
        self.assertEqual((opened[0], opened[-1]), (False, True))

    def test_a_filter_that_reads_all_rows_is_waited_for_first(self) -> None:
        """A connection would be idle for as long."""
        self.assertEqual(set(self.opened_at_logins(False)), {True})

    def test_keepalives_cost_no_sync_each(self) -> None:
        synced = mock.Mock(wraps=os.fdatasync)
        self.patch(os, "fdatasync", synced)
        follower = self.follower()
        self.server.to_send = [keepalive(0x1000 + it) for it in range(2000)]
        began = time.monotonic()
        self.run_until(follower, lambda: self.confirmed() == 0x1000 + 1999)
        # (one each time that what waits is passed on, and a few at the beginning and the end)
        self.assertLess(synced.call_count, 6 + (time.monotonic() - began) / statuses.QUIET)
        self.assertGreaterEqual(read_known(self.checkpoint.path).confirmed, 0x1000 + 1999)

    def test_a_keepalive_that_asks_is_answered_at_once(self) -> None:
        self.patch(statuses, "QUIET", 30.0)
        follower = self.follower()
        follower.confirming.last_moved = time.monotonic()
        self.server.to_send = [keepalive(0x1000, asks=True)]
        self.run_until(follower, lambda: self.confirmed() == 0x1000)

    def test_a_keepalive_for_which_commits_wait_is_passed_on_at_once(self) -> None:
        """As soon as the syncs take a small part of the time."""
        self.patch(statuses, "QUIET", 30.0)
        self.brain.answer("SHOW synchronous_standby_names", [["*"]])
        follower = self.follower()
        follower.confirming.last_moved = time.monotonic()
        self.server.to_send = [keepalive(0x1000)]
        self.run_until(follower, lambda: self.confirmed() == 0x1000)
        follower.confirming.noted_in = 2.0
        self.assertEqual(follower.confirming.quiet(), 2.0 * statuses.PART)
        self.progress.server.is_waited_for = False
        self.assertEqual(follower.confirming.quiet(), 30.0)

    def test_it_waits_awake_where_commits_wait_for_it(self) -> None:
        """For the next commit, and for what the filter says of the last one."""
        with mock.patch.object(schedule, "processors", return_value=2.0):
            follower = self.follower()
        waits = set[tuple[bool, str | None]]()
        serve = follower.life.filter.serve

        def note(
            timeout: float,
            reads: Sequence[int] = (),
            writes: Sequence[int] = (),
            awake: Awake | None = None,
        ) -> object:
            if self.progress.state == "following":
                waits.add(
                    (
                        bool(follower.noting.ends),
                        {
                            follower.session.schedule.for_statuses: "status",
                            follower.session.schedule.for_commits: "commit",
                        }.get(awake),
                    )
                )
            return serve(timeout, reads, writes, awake)

        self.patch(follower.life.filter, "serve", note)
        for standbys, kinds in (("", {None}), ("*", {"status", "commit"})):
            waits.clear()
            self.brain.answer("SHOW synchronous_standby_names", [[standbys]])
            follower.ending.stop_asked, end = False, self.confirmed() + 0x100
            self.server.to_send = [begin(end - 8, 7), insert(1), commit(end - 8, end)]
            self.run_until(follower, lambda: self.confirmed() == end)
            self.assertEqual({kind for _, kind in waits}, kinds)
        self.assertEqual(waits, {(True, "status"), (False, "commit")})

    def test_it_sleeps_where_the_filter_needs_the_processor(self) -> None:
        with mock.patch.object(schedule, "processors", return_value=1.5):
            follower = self.follower()
        self.progress.server.is_waited_for = True
        self.assertIsNone(follower.session.schedule.awake())
        follower.noting.ends.append(0x100)
        self.assertIsNone(follower.session.schedule.awake())

    def test_the_catalog_is_read_on_another_connection(self) -> None:
        """A session's process would decode older changes by what it has in its caches."""
        follower, seen = self.follower(), list[bool]()

        def compare(_: object, connection: object, position: int) -> bool:
            seen.append(connection is follower.session.connection)
            return True

        self.patch(drift_watch.Watch, "compare", compare)
        self.run_until(follower, lambda: self.server.sessions == 1)
        self.assertEqual(seen, [False])

    def test_a_status_that_waited_at_the_end_of_a_session_is_noted(self) -> None:
        """The next session repeats it, so it has to be on the disk before."""
        self.patch(statuses, "QUIET", 30.0)
        follower = self.follower()
        follower.confirming.last_moved = time.monotonic()
        ends = iter([True])
        self.patch(
            follower.adder,
            "wants_session",
            lambda: follower.confirming.held is not None and next(ends, False),
        )

        def holds() -> bool:
            # (a session's first status passes on what waits)
            if len(self.server.statuses) == 1:
                self.server.to_send = [keepalive(0x1000)]
            return self.server.sessions == 2 and self.confirmed() == 0x1000

        self.run_until(follower, holds)
        self.assertEqual(read_known(self.checkpoint.path).confirmed, 0x1000)

    def test_until(self) -> None:
        for until, end in ((0x104, 0x108), ("now", 0x800)):
            self.server.to_send = [
                begin(0x100, 7),
                insert(1),
                commit(0x100, 0x108),
                keepalive(0x800),
            ]
            follower = self.follower(until=until)
            self.run_until(follower, lambda follower=follower, end=end: follower.life.filter.status != b"" and follower.life.filter.confirmed() >= end)  # type: ignore[misc]
            self.assertTrue(follower.ending.stop_asked)
            self.patch(Checkpoint, "lock", lambda *_: None)

    def test_silence(self) -> None:
        """A server is asked for an answer at half of the limit, and given up at the limit."""
        self.server.answers_asking = False
        follower, said = (
            self.follower(silence=0.4),
            "warning: the server said nothing for 0 seconds",
        )
        # (on a busy machine the beginning of a session may take longer)
        follower.start.was_connected = True
        self.run_until(
            follower, lambda: said in self.said and self.server.sessions >= 2 and self.asks() > 0
        )

    def test_a_publication_that_the_server_passes_over(self) -> None:
        """From 18 on it leaves out the changes of one that wasn't there yet at their place in the
        log, and tells that by a warning."""
        text = 'skipped loading publication "late"'
        self.server.notices = error(text, "55000", b"N", "LoadPublications") + error(
            "careful", "01000", b"N"
        )
        self.server.to_send = [begin(0x100, 7), insert(1), commit(0x100, 0x108)]
        follower = self.follower()
        follower.subscription.note_publications(["pgsub", "late"])
        found = f"the server leaves out changes from before a publication was made: {text}"
        self.run_until(follower, lambda: self.confirmed() == 0x108)
        self.assertIn(f"warning: found: publication at 0/0: {found}", self.said)
        self.assertEqual(
            follower.watch.remembered.found["publication"].texts,
            {found: About(publication="late", is_missing=True)},
        )
        self.assertEqual(list(read_known(self.checkpoint.path).found), ["publication"])
        self.checkpoint.write(True, found={})
        follower = self.follower_again(strict=True)
        with self.assertRaisesRegex(Unfit, "leaves out changes"):
            self.run_until(follower, lambda: False)

    def follower_again(self, **options: Any) -> Follower:
        self.patch(Checkpoint, "lock", lambda *_: None)
        return self.follower(**options)

    def asks(self) -> int:
        """How often the server was asked for an answer."""
        return sum(body[-1:] == b"\x01" for _, body in self.server.statuses)

    def test_a_quiet_server_that_answers(self) -> None:
        """It isn't given up, however long it says nothing of itself.

        (By a clock that goes on here, so that a busy machine does no harm.)
        """
        clock = [100.0]
        self.set_clock(clock)

        def holds() -> bool:
            clock[0] += 0.01 if self.progress.state == "following" else 0.0
            return clock[0] > 101.0 and self.asks() >= 3

        self.run_until(self.follower(silence=0.5), holds)
        self.assertEqual(self.server.sessions, 1)

    def test_a_copy_that_takes_longer_than_the_silence(self) -> None:
        """The server isn't heard meanwhile, so that is none of its silence."""
        clock, taken = [100.0], list[float]()
        self.set_clock(clock)

        def take(snapshots: Snapshots, position: int, tick: Callable[[], None]) -> None:
            snapshots.asked = False
            clock[0] += 100.0
            taken.append(clock[0])

        self.patch(Snapshots, "take", take)
        self.server.answers_asking = False
        follower = self.follower(silence=50.0)
        follower.snapshots.path = self.folder + "/copied"
        follower.snapshots.asked = True
        # (passes of the session behind the copy)
        passes = iter(range(10))
        shows = follower.noting.show
        self.patch(follower.noting, "show", lambda: (shows(), next(passes, 0) if taken else 0))
        self.run_until(follower, lambda: bool(taken) and next(passes, None) is None)
        self.assertEqual(
            (self.server.sessions, [it for it in self.said if "said nothing" in it]), (1, [])
        )

    def test_a_server_that_hangs_while_a_table_is_added(self) -> None:
        """Nothing of the session is read meanwhile, so it is asked on another connection."""
        self.patch(login, "LEAST_LIMIT", 0.05)
        follower = self.follower(silence=30.0)
        follower.confirming.last_sent, now, self.progress.server.started = (
            time.monotonic(),
            time.monotonic(),
            1000,
        )
        for heard, lets_in, refusal, fails in (
            (now, False, b"", False),
            (now - 40.0, True, b"", False),
            (now - 40.0, False, b"", True),
            (now - 40.0, True, error("no", "53300"), False),
        ):
            follower.session.schedule.heard, self.server.lets_in, self.server.refusal = (
                heard,
                lets_in,
                refusal,
            )
            # (who answers has its time on a busy machine)
            self.patch(login, "CONNECT_LIMIT", 0.05 if fails else 60.0)
            if fails:
                with self.assertRaisesRegex(
                    ServerError, "the server said nothing for 30 seconds"
                ) as raised:
                    follower.requests.upkeep.attend()
                self.assertFalse(raised.exception.is_lasting())
            else:
                follower.requests.upkeep.attend()
                self.assertLess(time.monotonic() - follower.session.schedule.heard, 20.0)
        for started, silent in ((1000, "pg_postmaster_start_time"), (999, "")):
            # (a server that was started since isn't the one that is waited for)
            self.patch(login, "CONNECT_LIMIT", 60.0)
            self.patch(session, "QUICK", 0.05 if silent else 60.0)
            (
                self.server.refusal,
                self.server.silent,
                follower.session.schedule.heard,
                self.progress.server.started,
            ) = (b"", silent, now - 40.0, started)
            with self.assertRaisesRegex(ServerError, "said nothing"):
                follower.requests.upkeep.attend()

    def test_start_replication_that_isnt_answered(self) -> None:
        self.server.silent = "START_REPLICATION"
        follower = self.follower(silence=0.2)
        follower.start.was_connected = True
        self.run_until(follower, lambda: any("didn't answer" in it for it in self.said))

    def test_a_filter_that_ends_badly_when_it_is_to_end(self) -> None:
        """What may pass is told, and what won't is raised."""
        follower = self.follower()
        for end in (follower.life.finish, follower.session.end):
            for status, said in (
                (0, []),
                (13, ["warning: the filter ended with status 13: pgsub: store 8 Refused"]),
            ):
                self.said.clear()
                ended = FilterEnded(status, "pgsub: store 8 Refused" if status else "")
                with mock.patch.multiple(
                    follower.life.filter,
                    create=True,
                    runs=True,
                    takes=False,
                    serve=mock.Mock(side_effect=ended),
                ):
                    end()
                self.assertEqual(self.said, said)
            with mock.patch.multiple(
                follower.life.filter,
                create=True,
                runs=True,
                takes=False,
                serve=mock.Mock(side_effect=FilterEnded(1, "x")),
            ):
                with self.assertRaises(FilterEnded):
                    end()

    def test_a_signal_is_heard_at_once(self) -> None:
        """The server doesn't answer, and would have its time for that."""
        self.server.silent = "IDENTIFY_SYSTEM"
        follower, connecting = self.follower(), list[float]()

        def holds() -> bool:
            if self.progress.state == "connecting":
                connecting.append(time.monotonic())
            return bool(connecting)

        self.run_until(follower, holds)
        follower.life.finish()
        self.assertLess(time.monotonic() - connecting[0], connection_module.QUICK / 2)


class LastLook(unittest.TestCase):
    def test_a_server_that_hangs_is_not_waited_for(self) -> None:
        """Not once the end was asked for."""
        told: list[bool] = []

        def look_again(check: Callable[[], None], _: int) -> bool:
            with contextlib.suppress(ServerError):
                for _ in range(1000):
                    check()
                    time.sleep(0.001)
                return True
            return False

        relations = SimpleNamespace(wants_look=True, note_look=told.append)
        it: Any = SimpleNamespace(
            noting=SimpleNamespace(relation_log=relations),
            life=SimpleNamespace(watch=SimpleNamespace(look_again=look_again)),
            progress=mock.Mock(),
            confirming=SimpleNamespace(position=0),
        )
        with mock.patch.object(session_module, "LAST", 0.02):
            session_module.Session.look_last(it)
        self.assertEqual(told, [True])


class Meets(Case):
    """A copy at an LSN that somebody tells: none of the commits above it, and all of those
    below."""

    def setUp(self) -> None:
        super().setUp()
        self.patch(schedule, "ASK", 0.05)
        self.taken: list[int] = []
        self.patch(Snapshots, "take", self.take)

    def take(self, position: int, tick: Callable[[], None]) -> None:
        """In the place of Snapshots.take: notes what the store has."""
        with open(self.store, encoding="ascii") as file:
            self.taken.append(int(file.read()))
        self.assertEqual(self.taken[-1], position)
        self.running.snapshots.hold.end()
        self.running.snapshots.end(copied=lsn_text(position))

    def meet(self, then: Sequence[bytes], point: int, expected: int) -> None:
        """Passes a commit on, and has the copy taken at a point that comes with these payloads. The
        last of them ends at 0x208."""
        self.running = self.follower()
        self.server.to_send = [begin(0x100, 7), insert(1), commit(0x100, 0x108)]
        closing = contextlib.ExitStack()
        steps = self.steps(closing, then, point, expected)
        with closing:
            self.run_until(self.running, lambda: next(steps))

    def steps(
        self, closing: contextlib.ExitStack, then: Sequence[bytes], point: int, expected: int
    ) -> Iterator[bool]:
        while self.confirmed() != 0x108:
            yield False
        asked = {"ask": "hold", "into": self.folder + "/into", "seconds": 600.0}
        asker = closing.enter_context(asking(self.store, **asked))
        while asker.heard() != [{"held": "0/108"}]:
            yield False
        self.server.to_send += then
        self.running.session.schedule.heartbeat, before = 0.02, len(self.server.statuses)
        while len(self.server.statuses) < before + 3:
            # (statuses go on meanwhile)
            yield False
        self.assertEqual((self.confirmed(), self.taken), (0x108, []))
        asker.say(point=lsn_text(point))
        while self.taken != [expected] or self.confirmed() != 0x208:
            yield False
        while True:
            yield True

    def test_between_commits(self) -> None:
        pairs = [
            it
            for lsn in (0x110, 0x120, 0x200)
            for it in (begin(lsn, 7), insert(1), commit(lsn, lsn + 8))
        ]
        self.meet(pairs, 0x130, 0x128)

    def test_a_commit_that_ends_there(self) -> None:
        self.meet(
            [
                begin(0x110, 7),
                insert(1),
                commit(0x110, 0x118),
                begin(0x200, 8),
                commit(0x200, 0x208),
            ],
            0x118,
            0x118,
        )

    def test_a_quiet_server(self) -> None:
        """It is asked how far it is."""
        self.meet([keepalive(0x150), keepalive(0x208)], 0x150, 0x108)


class Fits(Case):
    """What is found where a session begins."""

    def connect(self, follower: Follower) -> None:
        """Connects once, where the filter's store has nothing yet."""
        self.addCleanup(follower.session.disconnect)
        follower.life.filter.status = b"r" + bytes(33)
        follower.session.connect()

    def check(self, *, timeline: int, started: int, position: int, now: Server) -> None:
        """Checks the timeline of a server, where the last session had this one and the store is
        there."""
        follower = self.follower()
        self.checkpoint.write(False, timeline=timeline, started=started, position=position)
        connection = connection_module.Connection(self.server.dsn())
        self.addCleanup(connection.close)
        follower.start.fitting.check_timeline(connection, now, position)

    def server_now(self, timeline: int, started: int = 2000, standby: bool = False) -> Server:
        return Server("77", timeline, 0x1000000, "shop", standby, started)

    def test_timelines(self) -> None:
        """The second one left the first at 0/500."""
        for timeline, position, fits in ((1, 0x900, True), (2, 0x500, True), (2, 0x501, False)):
            with self.subTest(timeline=timeline, position=position):
                self.patch(Checkpoint, "lock", lambda *_: None)
                if fits:
                    self.check(
                        timeline=1, started=1000, position=position, now=self.server_now(timeline)
                    )
                else:
                    with self.assertRaisesRegex(Unfit, "changes that the server hasn't"):
                        self.check(
                            timeline=1,
                            started=1000,
                            position=position,
                            now=self.server_now(timeline),
                        )
                    self.assertIn("history", read_known(self.checkpoint.path).found)

    def test_an_older_timeline(self) -> None:
        with self.assertRaises(Unfit):
            self.check(timeline=3, started=1000, position=5, now=self.server_now(2))

    def test_a_standby_that_was_promoted_while_it_was_followed(self) -> None:
        """It has all that it ever sent, also what it sent on its new timeline."""
        self.check(timeline=1, started=1000, position=0x900, now=self.server_now(2, started=1000))
        self.assertEqual(read_known(self.checkpoint.path).found, {})
        self.assertIn("promoted while it was followed", self.said[-1])

    def test_the_timeline_is_noted_at_each_session(self) -> None:
        self.identity[1] = "4"
        self.connect(self.follower())
        known = read_known(self.checkpoint.path)
        self.assertEqual((known.timeline, known.started, known.system), (4, 1000, "77"))

    def test_a_history_is_accepted_once(self) -> None:
        """Another history that comes in the same run is another one."""
        self.identity[1] = "2"
        follower = self.follower(accept=["history"])
        self.checkpoint.write(False, phase="following", timeline=1, started=1, position=0x900)
        follower.confirming.position = 0x900
        self.connect(follower)
        self.assertEqual(read_known(self.checkpoint.path).timeline, 2)
        text = "the server's commits from 0/500 to 0/900 are missing, and the store has others"
        self.assertEqual(
            (
                read_known(self.checkpoint.path).found,
                list(follower.watch.remembered.found["history"].texts),
            ),
            ({"history": "0/900"}, [text]),
        )
        again = "verify --repair, then --accept history again"
        self.assertIn(f"warning: found: history at 0/900: {text}: {again}", self.said)
        follower.session.disconnect()
        self.identity[1], self.started = "3", "3000"
        self.brain.answer("TIMELINE_HISTORY", [["x", "1\t0/500\treason\n2\t0/600\treason"]])
        with self.assertRaisesRegex(Unfit, "changes that the server hasn't"):
            self.connect(follower)
        self.assertIn("history", read_known(self.checkpoint.path).found)

    def test_a_gap_that_is_accepted_is_found(self) -> None:
        """Until it is accepted once more: a strict run goes on meanwhile, and so does the next
        session."""
        text = "changes before 0/900 that the store lacks may be missing"
        for kinds, strict in ((["gap"], False), (["slot"], True), (["all"], True)):
            with self.subTest(kinds=kinds, strict=strict):
                follower = self.follower_alone(accept=kinds, strict=strict)
                self.checkpoint.write(False, phase="following", position=0x500, confirmed=0x500)
                fitting = follower.start.fitting
                fitting.check_start(0x900, 0x500, interruption.never)
                follower.watch.show()
                self.assertEqual(read_known(self.checkpoint.path).found, {"slot": "0/900"})
                self.assertEqual(self.progress.findings.found, {"slot": text})
                self.checkpoint.write(False, phase="following")
                with self.assertRaisesRegex(Unfit, "somebody else moved the slot"):
                    fitting.check_start(0xA00, 0x500, interruption.never)
                self.follower_alone(accept=kinds, strict=strict).watch.begin()
                self.assertEqual(read_known(self.checkpoint.path).found, {})

    def test_a_history_that_is_accepted_confirms_nothing_more(self) -> None:
        """What a keepalive has confirmed above the position is of the other history: the new one's
        commits there are to come."""
        self.identity[1] = "2"
        for position, left, strict in (
            (0x900, "0/500", False),
            (0x500, "0/500", False),
            (0x900, "0/500", True),
            (0x900, "0/900", True),
        ):
            with self.subTest(position=position, left=left, strict=strict):
                self.brain.answer("TIMELINE_HISTORY", [["x", f"1\t{left}\treason"]])
                follower = self.follower_alone(accept=["history"], strict=strict)
                self.checkpoint.write(
                    False,
                    phase="following",
                    timeline=1,
                    started=1,
                    confirmed=0xA00,
                    position=position,
                    found={},
                )
                follower.confirming.position, follower.life.filter.status = position, b"r" + 4 * (
                    0xA00
                ).to_bytes(8, "big")
                self.addCleanup(follower.session.disconnect)
                found = position > parse_lsn(left)
                with self.assertRaisesRegex(
                    Unfit if found and strict else ServerError,
                    "are missing" if found and strict else "started anew",
                ):
                    follower.session.connect()
                known = read_known(self.checkpoint.path)
                self.assertEqual(
                    (known.timeline, known.confirmed, "history" in known.found),
                    (2, position, found),
                )

    def test_each_session_is_judged(self) -> None:
        """What is warned of is told once, until it is another thing. The checkpoint keeps that TLS
        was in use, and so does the process."""
        follower, own = self.follower_alone(), transport.Trust()
        plain, unverified = Protection("plain", (), False), Protection("tls", (), False)
        for protection, warnings, kept in (
            (plain, 1, False),
            (plain, 1, False),
            (unverified, 2, True),
            (unverified, 2, True),
        ):
            with mock.patch.object(
                transport, "protection_of", return_value=protection
            ), mock.patch.object(transport, "OWN", own):
                self.connect(follower)
                follower.session.disconnect()
            self.assertEqual(sum("warning: the connection is" in it for it in self.said), warnings)
            self.assertIs(read_known(self.checkpoint.path).encrypted, kept)
        with mock.patch.object(transport, "protection_of", return_value=plain), mock.patch.object(
            transport, "OWN", own
        ):
            with self.assertRaisesRegex(
                Unfit,
                "isn't encrypted, and the connections were encrypted before.*--accept plaintext",
            ):
                self.connect(follower)

    def test_a_session_that_is_lost_within_a_look(self) -> None:
        """A status that is due meanwhile meets it first; another session begins."""
        peers, looked, copy = list[socket.socket](), list[int](), self.server.copy
        follower = self.follower()

        def copied(peer: socket.socket) -> None:
            peers.append(peer)
            copy(peer)

        def look(*_: object) -> bool:
            if peers and not looked:
                looked.append(self.server.sessions)
                peers[0].shutdown(socket.SHUT_RDWR)
                with self.assertRaises(ServerError):
                    while True:
                        follower.confirming.repeat()
                connection = follower.session.connection
                assert connection
                connection.end_copy()
                connection.drain(5.0)
            return True

        self.patch(self.server, "copy", copied)
        self.patch(drift_watch, "AT_LEAST", 0.0)
        self.patch(drift_watch.Watch, "look_again", look)
        self.run_until(follower, lambda: self.server.sessions == 2)
        self.assertEqual(looked, [1])

    def test_a_promotion_ends_the_session(self) -> None:
        follower = self.follower()
        self.run_until(follower, lambda: self.promoted() and self.server.sessions >= 2)
        self.assertIn(
            "warning: the standby was promoted: a session with the new primary is begun", self.said
        )

    def promoted(self) -> bool:
        if self.server.sessions == 1 and self.progress.state == "following":
            self.progress.server.was_promoted = True
        return True

    def test_the_slot_is_looked_at_again_once_it_is_ours(self) -> None:
        looks: list[list[Row]] = [[["pgoutput", "t", "f", "700"]], [["pgoutput", "t", "f", "0"]]]
        self.brain.answer("s.confirmed_flush_lsn", lambda _: looks.pop())
        with self.assertRaisesRegex(Unfit, "somebody else moved the slot"):
            self.connect(self.follower())
        self.assertIn("slot", read_known(self.checkpoint.path).found)
        self.assertEqual(self.server.statuses, [])

    def test_slots(self) -> None:
        cases: Sequence[tuple[list[Row], str, type[Exception], str]] = (
            ([], "f", Unfit, "the server has no slot .*: --create makes it"),
            ([], "t", ServerError, "a standby without the slot"),
            ([["pgoutput", "t", "t", "0"]], "f", Unfit, "two-phase"),
            (
                [["test_decoding", "t", "f", "0"]],
                "f",
                Unfit,
                "of the plugin test_decoding, and not",
            ),
            ([["pgoutput", "f", "f", "0"]], "f", Unfit, "is of the database other, and this is"),
            ([["pgoutput", "t", "f", None]], "f", ServerError, "still being made"),
        )
        for slots, standby, error, text in cases:
            with self.subTest(text):
                self.patch(Checkpoint, "lock", lambda *_: None)
                self.slots, self.standby = slots, standby
                told = ([*it[:1], "other", "shop"] for it in slots)
                self.brain.answer("SELECT s.plugin, s.database, pg_catalog.curr", list(told))
                with self.assertRaisesRegex(Exception, text) as raised:
                    self.connect(self.follower())
                self.assertIs(type(raised.exception), error)
                if isinstance(raised.exception, ServerError):
                    self.assertFalse(raised.exception.is_lasting())
        self.assertEqual(self.brain.told("START_REPLICATION"), [])

    def test_a_slot_that_was_dropped(self) -> None:
        """What to do is told."""
        self.slots = []
        self.brain.answer("SELECT s.plugin, s.database, pg_catalog.curr", [])
        follower, cure = self.follower(), f"`pgsub-connect drop --store {self.store}`, then a start"
        self.checkpoint.write(False, phase=FOLLOWING)
        with self.assertRaisesRegex(
            Unfit, f"has no slot .*: it was dropped, or never was .*promoted.*{cure} with --create"
        ):
            self.connect(follower)

    def test_a_standby_that_cant_be_followed_yet(self) -> None:
        """Its slot is one that it keeps for its promotion, or it can't decode; but a slot that is
        lost stays so."""
        for sqlstate, status, lasts in (
            ("55000", "reserved", False),
            ("0A000", "reserved", False),
            ("55000", "lost", True),
        ):
            with self.subTest(sqlstate=sqlstate, status=status):
                self.brain.answer("s.wal_status", [[status]])
                follower, server = self.follower_alone(), self.server_now(1, standby=True)
                connection = mock.Mock()
                connection.version.return_value, connection.value.return_value = 170000, status
                connection.run.side_effect = ServerError("no", sqlstate)
                with self.assertRaises(ServerError) as raised:
                    follower.start.start_replication(connection, server, 0)
                self.assertEqual(raised.exception.is_lasting(), lasts)
                with self.assertRaises(ServerError) as raised:
                    follower.start.start_replication(connection, self.server_now(1), 0)
                self.assertTrue(raised.exception.is_lasting())

    def follower_alone(self, **options: Any) -> Follower:
        self.patch(Checkpoint, "lock", lambda *_: None)
        follower = self.follower(**options)
        follower.life.filter.status = b"r" + bytes(33)
        return follower

    def test_another_server(self) -> None:
        for change, error, text in (
            ({"system": "78"}, Unfit, "and not slot pgsub of shop of 77"),
            ({"system": "78"}, Unfit, "store. If pg_upgrade made this server of that one, copy"),
            ({"system": "78", "slot": "other"}, Unfit, "or another store$"),
            ({"database": "other"}, Unfit, "database other"),
            ({"slot": "other"}, Unfit, "follows slot other"),
        ):
            with self.subTest(text):
                follower = self.follower_alone()
                self.checkpoint.write(
                    False, **{"system": "77", "database": "shop", "slot": "pgsub", **change}
                )
                with self.assertRaisesRegex(error, text):
                    follower.start.fitting.check_server(self.server_now(1), 0, 0)

    def test_a_publication_that_isnt_there(self) -> None:
        """A store that begins where its slot is isn't begun without it."""
        self.patch(Checkpoint, "lock", lambda *_: None)
        with self.assertRaisesRegex(ServerError, "no publication pgsub: make it .*") as raised:
            self.connect(self.follower(no_copy=True))
        self.assertTrue(raised.exception.is_lasting())
        self.assertEqual(read_known(self.checkpoint.path).phase, "new")
        self.brain.answer("FROM pg_catalog.pg_publication WHERE pubname", [[]])
        self.connect(self.follower(no_copy=True))
        self.assertEqual(read_known(self.checkpoint.path).phase, "following")

        """It is known by its OID, where that was noted, and another one by that, too."""
        self.patch(Checkpoint, "lock", lambda *_: None)
        self.brain.answer("FROM pg_catalog.pg_database", [["16384"]])
        self.connect(self.follower())
        self.assertEqual(
            (Remembered(self.store).database, read_known(self.checkpoint.path).database),
            (None, "shop"),
        )
        self.identity[3] = "store"
        follower = self.follower()
        follower.watch.remembered.note_database(16384, "shop")
        self.connect(follower)
        self.assertIn("warning: the database shop was renamed: it is store now", self.said)
        self.assertEqual(
            (follower.watch.remembered.database, read_known(self.checkpoint.path).database),
            ((16384, "store"), "store"),
        )
        follower.watch.remembered.save()
        self.assertEqual(Remembered(self.store).database, (16384, "store"))
        self.brain.answer("FROM pg_catalog.pg_database", [["16385"]])
        with self.assertRaisesRegex(Unfit, "database store, and this is a later one: name"):
            self.connect(follower)

    def test_the_name_in_a_feed_stays(self) -> None:
        self.patch(Checkpoint, "lock", lambda *_: None)
        self.brain.answer("FROM pg_catalog.pg_database", [["16384"]])
        self.connect(self.follower())
        self.identity[3] = "store"
        follower = self.follower()
        follower.watch.remembered.feed = "/feed"
        follower.watch.remembered.note_database(16384, "shop")
        self.connect(follower)
        self.assertEqual(read_known(self.checkpoint.path).database, "shop")

    def test_a_database_that_was_renamed_before_its_oid_was_noted(self) -> None:
        follower = self.follower_alone()
        self.checkpoint.write(False, system="77", database="shop", slot="pgsub")
        with self.assertRaisesRegex(Unfit, "database shop, and this is store: name that one"):
            follower.start.fitting.check_server(
                Server("77", 1, 0x1000000, "store", False, 1000, 16384), 0, 0
            )

    def test_a_slot_that_is_lost(self) -> None:
        """The server's text, why, and what to do."""
        self.server.version = "18.1"
        for reason, why in (
            ("idle_timeout", "idle_replication_slot_timeout"),
            ("wal_removed", "max_slot_wal_keep_size"),
            (None, "has removed log"),
        ):
            self.patch(Checkpoint, "lock", lambda *_: None)
            self.brain.answer("s.wal_status", [["lost"]])
            self.brain.answer("s.invalidation_reason", [[reason]])
            self.patch(
                self.server,
                "copy",
                lambda peer: peer.sendall(
                    error('can no longer access replication slot "pgsub"', "55000") + READY
                ),
            )
            with self.assertRaisesRegex(
                ServerError,
                f"can no longer access(.|\n)*{why}.*pgsub-connect drop.*--create copies anew",
            ) as raised:
                self.connect(self.follower())
            self.assertTrue(raised.exception.is_lasting())

    def test_a_log_that_ends_before_the_store(self) -> None:
        """That is kept: once the log is beyond the store, nothing else may show it."""
        follower = self.follower_alone()
        with self.assertRaisesRegex(Unfit, "it lost changes.*Copy anew.*--accept history"):
            follower.start.fitting.check_server(self.server_now(1), 0x2000000, 0x500)
        (told,) = follower.watch.texts_of("history")
        self.assertRegex(told, "^the server's log ends at 0/1000000, before .*0/2000000: it lost")
        self.assertEqual(read_known(self.checkpoint.path).found, {"history": "0/500"})
        self.assertEqual(self.progress.findings.found, {"history": told})
        with self.assertRaisesRegex(ServerError, "a standby whose log ends") as raised:
            self.follower_alone().start.fitting.check_server(
                self.server_now(1, standby=True), 0x2000000, 0
            )
        self.assertFalse(raised.exception.is_lasting())

    def test_a_new_primary_behind_what_a_keepalive_confirmed(self) -> None:
        """The old one has written what isn't published behind the LSN at which the new one left it:
        the copy has nothing of that."""
        self.brain.answer("TIMELINE_HISTORY", [["x", "1\t0/900\treason"]])
        self.identity[1] = "2"
        follower = self.follower()
        self.checkpoint.write(
            False, phase="following", timeline=1, started=1, confirmed=0x2000000, position=0x500
        )
        follower.confirming.position, follower.life.filter.status = 0x500, b"r" + 4 * (
            0x2000000
        ).to_bytes(8, "big")
        self.addCleanup(follower.session.disconnect)
        with self.assertRaisesRegex(
            ServerError, "the filter is started anew on the server's new timeline"
        ) as raised:
            follower.session.connect()
        self.assertFalse(raised.exception.is_lasting())
        self.assertEqual(
            (read_known(self.checkpoint.path).confirmed, read_known(self.checkpoint.path).timeline),
            (0x900, 2),
        )
        follower.session.disconnect()
        follower.life.filter.status = b"r" + 4 * (0x500).to_bytes(8, "big")
        follower.session.connect()
        self.assertIn(
            'START_REPLICATION SLOT "pgsub" LOGICAL 0/500', self.brain.told("START_REPLICATION")[0]
        )

    def test_protocols(self) -> None:
        for version, asked, proto, streams in (
            (130000, 2, 1, False),
            (130000, 1, 1, False),
            (150000, 2, 2, True),
            (150000, 1, 1, False),
            (180000, 1, 2, False),
            (180000, 2, 2, True),
        ):
            follower = self.follower_alone()
            follower.life.form.proto, follower.life.form.streams, follower.life.filter.proto = (
                asked,
                asked == 2,
                asked,
            )
            with mock.patch.object(follower.life, "start"):
                follower.life.use_proto(follower.life.form.choose(version))
            self.assertEqual(
                (follower.life.form.proto, follower.life.form.streams),
                (proto, streams),
                (version, asked),
            )
            self.assertGreaterEqual(follower.life.filter.proto, proto)


class Errors(Case):
    def note(self, error: ServerError, was_connected: bool = True) -> None:
        self.patch(Checkpoint, "lock", lambda *_: None)
        follower = self.follower()
        follower.start.was_connected = was_connected
        follower.note_error(error)

    def test_passing_ones(self) -> None:
        for sqlstate in ("", "57P01", "57P03", "08006", "53300", "55006", "40001", "XX000"):
            self.note(ServerError("x", sqlstate))
        for sqlstate in ("57P03", "53300"):
            self.note(ServerError("x", sqlstate), was_connected=False)

    def test_a_server_that_was_never_there(self) -> None:
        with self.assertRaises(Passing):
            self.note(ServerError("no route"), was_connected=False)

    def test_lasting_ones(self) -> None:
        for sqlstate in ("3D000", "42704", "42501", "55000", "0A000", "22023"):
            with self.assertRaises(ServerError):
                self.note(ServerError("x", sqlstate))

    def test_errors_of_connecting(self) -> None:
        """A password that was just changed, or LDAP that is away, ends a start, and not a follower
        that was let in before."""
        for error in (
            ServerError("x", "28000"),
            Unconnected("x", "28P01"),
            Unconnected("x", "28000"),
            Unconnected("x", "55000"),
            Unconnected("x", "3D000"),
        ):
            self.note(error)
            self.assertEqual(self.said, ["warning: x"])
            self.said.clear()
            with self.assertRaises(ServerError):
                self.note(error, was_connected=False)

    def test_a_value_that_cant_be_sent(self) -> None:
        """It is tried some times at one LSN, and given up with its cure."""
        self.patch(Checkpoint, "lock", lambda *_: None)
        follower, wrong = self.follower(), ServerError(
            'invalid byte sequence for encoding "UTF8": 0xff', "22021"
        )
        follower.start.was_connected = True
        for position in (0x100, 0x100, 0x100, 0x100, 0x108, 0x108, 0x108, 0x108):
            follower.confirming.position = position
            follower.note_error(wrong)
        follower.note_error(ServerError("terminating connection", "57P01"))
        with self.assertRaisesRegex(
            ServerError,
            "0xff\nthe server can't send a change behind 0/108, in 5 attempts.*copies anew",
        ) as raised:
            follower.note_error(wrong)
        self.assertTrue(raised.exception.is_lasting())

    def test_what_cant_be_streamed_comes_whole(self) -> None:
        self.patch(Checkpoint, "lock", lambda *_: None)
        follower = self.follower()
        follower.note_error(ServerError("could not map filenode", "XX000"))
        self.assertFalse(follower.life.form.streams)


class Children(Case):
    def test_no_secrets(self) -> None:
        with mock.patch.dict(
            os.environ, {"PGPASSWORD": "secret", "PGHOST": "h", "LANG": "C"}
        ), mock.patch(
            "subprocess.Popen", side_effect=OSError(errno.ENOENT, "No such file")
        ) as started, self.assertRaises(
            FilterFault
        ):
            Filter(["pgsub"], ()).launch()
        environment = started.call_args.kwargs["env"]
        self.assertEqual([it for it in environment if it.startswith("PG")], [])
        self.assertEqual(environment["LANG"], "C")

    def test_no_process_to_be_had(self) -> None:
        for number in (errno.EAGAIN, errno.ENOMEM):
            with mock.patch(
                "subprocess.Popen", side_effect=OSError(number, "x")
            ), self.assertRaises(Passing):
                Filter(["pgsub"], ()).launch()


if __name__ == "__main__":
    unittest.main()
