"""Engines that go away and come back while a sink writes to them: they are waited for, and each
commit is written once."""

from __future__ import annotations

import unittest
from collections.abc import Callable, Sequence
from typing import Any
from unittest import mock

from pgsub_connect.commands import sink
from pgsub_connect.commands.sink import Options
from pgsub_feed.errors import Damaged, EngineError, FileError, Passing, Stopped, Unfit
from pgsub_feed.interruption import Check, never
from pgsub_feed.reader.polling import Poll
from pgsub_feed.sinks.following import Outages
from pgsub_feed.sinks.redis_calls import Command, Said
from pgsub_feed.sinks.redis_engine import Writer
from pgsub_feed.tables import first_rows

from .fake_redis import FakeCalls, FakeRedis
from .feeds import insert, update
from .sinks import RedisCase, stock
from .test_sink_nats import NatsCase
from .vectors import logged

REFUSED = "Redis at h: Connection refused"


class Failing(FakeCalls):
    """A connection that is lost at some of its calls, before them or after they had their
    effect."""

    def __init__(self, case: Case) -> None:
        super().__init__(case.server)
        self.case = case

    def run(self, commands: Sequence[Command]) -> list[Any]:
        before, after = self.case.lost.pop(0) if self.case.lost else (False, False)
        if before:
            raise Passing("Redis at h: Connection closed by server")
        found = super().run(commands)
        if after:
            raise Passing("Redis at h: timed out")
        return found


class Case(RedisCase):
    """`refused` connections aren't made, and of the others calls are `lost`. `meanwhile` is called
    at each try to connect."""

    def setUp(self) -> None:
        super().setUp()
        self.refused, self.tries, self.delays = 0, 0, list[float]()
        self.lost: list[tuple[bool, bool]] = []
        self.meanwhile: Callable[[], None] = lambda: None
        for where, name, by in (
            ("pgsub_feed.sinks.redis_calls.Connection", "", self.connect),
            ("pgsub_feed.sinks.following.Outages.wait", "", self.wait),
        ):
            patched = mock.patch(where + name, by)
            patched.start()
            self.addCleanup(patched.stop)

    def connect(self, *_: object) -> FakeCalls:
        self.tries += 1
        self.meanwhile()
        if self.tries <= self.refused:
            raise Passing(REFUSED)
        return Failing(self)

    def wait(self, check: Check) -> None:
        check()

    def follow(self, check: Check = never, **more: Any) -> list[str]:
        """Follows up to the commit before the last, and returns what is told."""
        with logged() as told:
            words: dict[str, Any] = {"url": self.url, "until": self.at - 0x100, **more}
            sink.run(Options(feed=str(self.path), **words), check)
        return told


class Waited(Case):
    def test_a_feed_that_isnt_there_is_told_wherever_the_engine_is(self) -> None:
        """Its follower may be started later: another start may do, unless it can't be a feed."""
        with self.assertRaisesRegex(Passing, "there is no feed .*/nofeed: start .* --feed"):
            sink.run(Options(url=self.url, feed=f"{self.path}/nofeed"), never)
        with self.assertRaisesRegex(FileError, "Not a directory"):
            sink.run(Options(url=self.url, feed=str(self.feed.path)), never)
        self.assertEqual(self.tries, 0)
        self.feed.path.write_text("no feed" * 500)
        with mock.patch("pgsub_feed.reader.polling.PATIENCE", 0.0):
            with self.assertRaises(Damaged) as found:
                self.follow()
        self.assertEqual(found.exception.exit_status(), 3)

    def test_a_feed_that_begins_later(self) -> None:
        """That it is waited for is told."""
        self.take(insert("1", "a"))
        self.take()
        rest, rests, later = Poll.rest, list[int](), self.path.rename(self.folder / "later")
        self.path.mkdir()

        def rested(poll: Poll) -> None:
            rests.append(1)
            if len(rests) == 3:
                self.path.rmdir()
                later.rename(self.path)
            rest(poll)

        with mock.patch.object(Poll, "rest", rested), mock.patch.object(first_rows, "UNTOLD", -1.0):
            told = self.follow()
        text = f"{self.path} has no segment yet, as before a follower's first copy is done: it is waited for"
        self.assertEqual((told[0], len(told)), (text, 3), told)
        self.assertEqual(self.server.rows(), stock(("1", "a")))

    def test_it_isnt_there_at_first(self) -> None:
        self.take(insert("1", "a"))
        self.take()
        self.refused = 5
        told = self.follow()
        self.assertEqual((self.tries, len(told)), (6, 3), told)
        self.assertEqual(
            told[0],
            f"warning: {REFUSED}: it is waited for, and tried again at least every 60 seconds",
        )
        self.assertRegex(told[1], "is written from 0/0 on")
        self.assertEqual(self.server.rows(), stock(("1", "a")))

    def test_it_is_lost_at_any_call(self) -> None:
        """Before the call, or once it had its effect: the rows are the feed's, and a stream has
        each change once."""
        for number in range(1, 9):
            self.take(insert(str(number), "a"), *([update(["1", "a"], ["1", "a"])] * (number > 1)))
        self.take()
        self.patch_often()
        for form in ("hashes", "streams"):
            self.server = FakeRedis()
            self.follow(form=form)
            whole, calls = self.server.data, 40
            for at in range(calls):
                for lost in ((True, False), (False, True)):
                    self.server, self.tries = FakeRedis(), 0
                    self.lost = [(False, False)] * at + [lost]
                    told = self.follow(form=form)
                    self.server.data.pop(b"pgsub:sink")
                    kept = {key: it for key, it in whole.items() if key != b"pgsub:sink"}
                    self.assertEqual(self.server.data, kept, (form, at, lost, told))
                    self.assertEqual(
                        (self.tries, bool(self.lost)), (2, False) if len(told) > 2 else (1, True)
                    )

    def patch_often(self) -> None:
        """Each commit is a MULTI of its own."""
        patched = mock.patch("pgsub_feed.sinks.redis_form.MOST", 1)
        patched.start()
        self.addCleanup(patched.stop)

    def test_one_that_ends_by_itself_doesnt_wait(self) -> None:
        self.take(insert("1", "a"))
        self.refused = 1
        with self.assertRaisesRegex(Passing, "refused"):
            self.run_it()
        self.assertEqual(self.tries, 1)

    def test_what_no_wait_cures_ends_it(self) -> None:
        self.take(insert("1", "a"))
        self.take()
        self.server.fails = lambda: Said("NOPERM this user has no permissions")
        with self.assertRaisesRegex(EngineError, "NOPERM"):
            self.follow()
        self.assertEqual(self.tries, 1)

    def test_a_signal_ends_the_wait(self) -> None:
        """The end is as it was asked for, unless an LSN was to be reached."""
        self.take(insert("1", "a"))
        self.refused, ended = 9, [False, False, False, True]

        def check() -> None:
            if ended.pop(0):
                ended.insert(0, True)
                raise Stopped

        for until, raised in ((None, Stopped), (0x100, Passing)):
            ended[:], self.tries = [False, False, False, True], 0
            with self.assertRaises(raised), logged():
                self.follow(check, until=until)
            self.assertLess(self.tries, 4)

    def test_full_is_told_once(self) -> None:
        self.take(insert("1", "a"))
        self.take()
        failures = [Said("OOM command not allowed when used memory > 'maxmemory'.")] * 4
        self.server.fails = lambda: failures.pop() if failures else None
        told = self.follow()
        self.assertEqual(
            [("OOM" in it, "is written from" in it) for it in told],
            [(True, False), (False, True), (False, False)],
        )
        self.assertEqual((self.tries, self.server.rows()), (5, stock(("1", "a"))))


class OfNats(NatsCase):
    def test_it_ends_the_connection_after_each_message(self) -> None:
        """Each message is there once, in order."""
        for number in range(6):
            self.take(*(insert(f"{number}{it}", "a") for it in range(number)))
        self.run_it()
        whole = self.server.ids()
        self.take()
        self.server.stream, self.server.last, self.server.accepts = None, 0, 1
        self.server.known.clear()

        def wait(outages: Outages, check: Check) -> None:
            self.server.accepts = 1

        with mock.patch("pgsub_feed.sinks.following.Outages.wait", wait), logged():
            options = Options(feed=str(self.path), url=self.url, until=self.at - 0x100)
            sink.run(options, never)
        self.assertEqual(self.server.ids(), whole)


class Writers(Case):
    """The sink that was started last writes, whoever connects again."""

    def other_begins(self, later: float) -> None:
        """Another sink takes the place of this one, which loses its connection."""

        def begin() -> None:
            if self.tries == 2:
                with mock.patch("time.time", return_value=1e9 + later):
                    self.server.do([b"SET", b"pgsub:sink", Writer().text])

        self.meanwhile = begin
        self.lost = [(False, False)] * 6 + [(True, False)]

    def test_a_later_one_is_left_alone(self) -> None:
        self.take(insert("1", "a"))
        self.take()
        self.other_begins(later=1.0)
        with mock.patch("pgsub_feed.sinks.redis_engine.time.time", return_value=1e9):
            with self.assertRaisesRegex(Unfit, "another sink has begun to write there"):
                self.follow()
        self.assertEqual(float(self.server.data[b"pgsub:sink"].split()[3]), 1e9 + 1)

    def test_an_earlier_one_is_that_of_an_older_copy(self) -> None:
        self.take(insert("1", "a"))
        self.take()
        self.other_begins(later=-1.0)
        with mock.patch("pgsub_feed.sinks.redis_engine.time.time", return_value=1e9):
            self.follow()
        self.assertEqual((self.tries, self.server.rows()), (2, stock(("1", "a"))))

    def test_one_that_is_started_takes_over(self) -> None:
        writer = Writer()
        self.assertFalse(writer.is_before(b"host 1 ab 9999999999.0"))
        writer.begin()
        self.assertTrue(writer.is_before(b"host 1 ab 9999999999.0"))
        for text in (None, b"", b"host 1 ab", b"host 1 ab x", b"host 1 ab 1000.0"):
            self.assertFalse(writer.is_before(text), text)


class Delays(unittest.TestCase):
    def setUp(self) -> None:
        self.now = 1000.0
        clock = mock.patch("time.monotonic", lambda: self.now)
        clock.start()
        self.addCleanup(clock.stop)
        self.outages = Outages()

    def after(self, at: int, lasted: float) -> tuple[float, int]:
        """The delay after it was there for so long and up to an LSN, and how many lines told of
        that."""
        self.outages.begin()
        self.now += lasted
        with logged() as told:
            self.outages.note(Passing("gone"), at)
        return self.outages.delay, len(told)

    def test_they_grow(self) -> None:
        found = [self.after(0, 0.0) for _ in range(8)]
        self.assertEqual([it for it, _ in found], [1, 2, 4, 8, 16, 32, 60, 60])
        self.assertEqual(sum(told for _, told in found), 1)

    def test_they_begin_anew_once_it_was_there(self) -> None:
        for at, lasted, expected in (
            (0x100, 1.0, (1, 1)),
            (0x100, 1.0, (2, 0)),
            (0, 1.0, (4, 0)),
            (0x200, 1.0, (1, 1)),
            (0, 100.0, (2, 0)),
            (0x200, 59.0, (4, 0)),
            (0x200, 61.0, (1, 1)),
        ):
            self.assertEqual(self.after(at, lasted), expected, (at, lasted))

    def test_a_wait_looks_whether_to_end(self) -> None:
        self.outages.delay = 5.0
        looks = 0

        def check() -> None:
            nonlocal looks
            looks += 1

        def sleep(seconds: float) -> None:
            self.now += seconds

        with mock.patch("time.sleep", sleep):
            self.outages.wait(check)
        self.assertGreaterEqual(looks, 45)


if __name__ == "__main__":
    unittest.main()
