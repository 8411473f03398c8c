"""Sinks beside a follower: how they are started, what is shown of them, and that they begin again."""

from __future__ import annotations

import unittest
from unittest import mock

from pgsub_connect.commands.arguments.feed import settled_feed
from pgsub_connect.errors import Unread
from pgsub_connect.follow import process_beside
from pgsub_connect.follow.feed import FeedSettings, Feeding
from pgsub_connect.follow.process_beside import Sink, SinkSettings
from pgsub_connect.status.files import status_fields
from pgsub_connect.status.progress import Progress
from pgsub_connect.stream.common import Common
from pgsub_feed.sinks.following import WAITS

from .beside import started
from .fake_nats import FakeNats
from .feeds import insert
from .settled import options_of
from .sinks import SinkCase
from .small_world import wait_for
from .vectors import logged


class Started(unittest.TestCase):
    def test_no_word_has_the_password(self) -> None:
        settings = SinkSettings("rediss://me:secret@h:7/2", "f", "s", 0o640)
        sink = Sink(settings, Progress())
        self.assertNotIn("secret", " ".join(sink.words) + sink.name + sink.head)
        other = SinkSettings("unix:///s?password=secret&db=3", "f", "s")
        self.assertEqual(other.where(), "unix:///s?db=3")
        self.assertEqual(sink.environment, {"PGSUB_SINK": "rediss://me:secret@h:7/2"})
        with mock.patch.dict("os.environ", sink.environment):
            options = options_of(sink.words[3:])
        self.assertEqual(
            (options.feed, options.store, options.mode, options.while_input, options.once),
            ("f", "s", 0o640, True, False),
        )
        self.assertEqual(options.reader, "sink-rediss-h%3A7%2F2")

    def test_each_has_a_reader_of_its_own(self) -> None:
        urls = (
            "redis://h/1",
            "redis://h/2",
            "redis://h:1",
            "redis://h-1",
            "unix:///run/redis.sock?db=3",
            "nats://h",
            "tls://h:4222",
        )
        names = {SinkSettings(it, "f", "s").reader() for it in urls}
        self.assertEqual(len(names), len(urls), names)
        self.assertIn("sink-unix-%2Frun%2Fredis.sock%3Fdb%3D3", names)

    def test_options(self) -> None:
        words = ["follow", "--store", "s", "--sink", "redis://h/1", "--sink", "nats://h"]
        options = settled_feed(options_of([*words, "--sink", "redis://h/1"]), "s")
        self.assertEqual(options.feed, "s.feed")
        settings = options.feed_settings("s", 0o600)
        self.assertEqual([it.url for it in settings.sinks], ["redis://h/1", "nats://h"])


class Runs(SinkCase):
    def setUp(self) -> None:
        super().setUp()
        self.said: list[str] = []
        for where, name, by in (
            (process_beside, "FIRST_DELAY", 0.05),
            ("pgsub_feed.log", "line", lambda level, text: self.said.append(f"{level}: {text}")),
        ):
            patch = (
                mock.patch(f"{where}.{name}", by)
                if isinstance(where, str)
                else mock.patch.object(where, name, by)
            )
            patch.start()
            self.addCleanup(patch.stop)
        self.server, self.progress = FakeNats(), Progress()
        self.addCleanup(self.server.close)
        self.url = f"nats://127.0.0.1:{self.server.port}"

    def sink(self, code: str = "") -> Sink:
        """One that begins with the feed, or runs this in its place."""
        settings = SinkSettings(self.url, str(self.path), str(self.folder / "copy.db"))
        return started(self, Sink(settings, self.progress), code)

    def shown(self) -> object:
        found = status_fields(self.progress, 0.0, 0.0)["sinks"]
        assert isinstance(found, dict)
        return found[self.url]

    def has(self, *ids: str) -> bool:
        return wait_for(lambda: self.server.ids()[-len(ids) :] == list(ids))

    def test_it_follows_and_begins_again_and_ends(self) -> None:
        self.take(insert("1", "a"))
        sink = self.sink()
        self.assertTrue(self.has("0/100:0", "0/100:commit"), self.said)
        self.assertTrue(wait_for(lambda: self.shown() is None), self.said)
        self.take(insert("2", "b"))
        sink.tell()
        self.assertTrue(self.has("0/200:0", "0/200:commit"), self.said)
        assert sink.child
        sink.child.kill()
        self.assertTrue(wait_for(lambda: any("started again" in it for it in self.said)))
        self.take(insert("3", "c"))
        self.assertTrue(self.has("0/300:0", "0/300:commit"), self.said)
        sink.finish()
        self.assertEqual((sink.child.returncode, self.server.ids().count("0/200:0")), (0, 1))
        self.assertIn(f"info: sink {self.url}: all up to 0/300 is written", self.said)

    def test_an_engine_that_is_away_is_shown(self) -> None:
        self.take(insert("1", "a"))
        self.server.accepts = 0
        sink = self.sink()
        self.assertTrue(wait_for(lambda: WAITS in str(self.shown())), self.said)
        self.assertTrue(sink.is_alive())
        self.server.accepts = None
        self.assertTrue(self.has("0/100:0", "0/100:commit"), self.said)
        self.assertTrue(wait_for(lambda: self.shown() is None), self.said)

    def test_it_tells_what_is_written(self) -> None:
        """That is asked of another one too, after a kill."""
        self.take(insert("1", "a"))
        self.server.accepts = 0
        sink = self.sink()
        self.assertFalse(sink.has(0x100))
        self.assertTrue(wait_for(lambda: WAITS in str(self.shown())), self.said)
        self.assertFalse(sink.has(0x100))
        self.server.accepts = None
        self.assertTrue(wait_for(lambda: sink.has(0x100)), self.said)
        self.assertEqual(self.server.ids()[-1], "0/100:commit")
        self.assertFalse(sink.has(0x200))
        assert sink.child
        sink.child.kill()
        self.take(insert("2", "b"))
        self.assertTrue(wait_for(lambda: sink.has(0x200)), self.said)
        self.assertEqual((self.server.ids()[-1], sink.lasting), ("0/200:commit", 0))

    def test_one_that_has_ended_is_waited_for_no_more(self) -> None:
        sink = self.sink("raise SystemExit(4)")
        sink.join(60)
        self.assertEqual((sink.has(0x500), sink.lasting), (True, 4))

    def test_what_no_wait_cures_ends_it(self) -> None:
        sink = self.sink(
            "import sys; print('t pgsub-connect: error: wrong', file=sys.stderr); sys.exit(4)"
        )
        sink.join(60)
        with mock.patch("pgsub_feed.log.PROGRAM", "pgsub-connect"):
            self.assertFalse(sink.is_alive())
        self.assertRegex(str(self.shown()), "^ended: ")

    def test_it_ends_with_a_follower_that_is_killed(self) -> None:
        sink = self.sink()
        self.assertTrue(wait_for(lambda: any("is written from" in it for it in self.said)))
        sink.ended.set()
        assert sink.child and sink.child.stdin
        sink.child.stdin.close()
        self.assertTrue(wait_for(lambda: sink.child is not None and sink.child.poll() is not None))
        self.assertEqual(sink.child.returncode, 0)


class Awaited(SinkCase):
    """A follower that ends by itself."""

    def setUp(self) -> None:
        super().setUp()
        known = Common(*(mock.MagicMock() for _ in Common._fields))
        settings = FeedSettings(str(self.folder / "copy.db"), str(self.path))
        self.feeding = Feeding(settings, known)
        self.tables, self.sink = (mock.Mock(lasting=0, **{"has.return_value": False}) for _ in "ab")
        self.tables.name, self.sink.name = "rows.db", "redis://h"
        self.feeding.beside, self.feeding.sinks = self.tables, [self.sink]

    def test_tables_and_sinks_are_waited_for(self) -> None:
        self.assertFalse(self.feeding.is_read(0x100))
        self.tables.has.return_value = True
        self.assertFalse(self.feeding.is_read(0x200))
        self.sink.has.return_value = True
        self.assertTrue(self.feeding.is_read(0x200))
        asked = [*self.tables.has.call_args_list, *self.sink.has.call_args_list]
        self.assertEqual(asked, [mock.call(0x100)] * 6)
        self.feeding.check_read()

    def test_what_is_waited_for_is_told_once(self) -> None:
        with logged() as told, mock.patch("pgsub_connect.follow.feed.UNTOLD", -1.0):
            for _ in range(3):
                self.feeding.is_read(0x100)
        text = "the store has all up to 0/100, and rows.db, redis://h not yet: that is waited for"
        self.assertEqual(told, [text])

    def test_the_end_tells_who_lacks_something(self) -> None:
        self.sink.lasting = 4
        self.feeding.check_read()
        self.feeding.is_read(0x100)
        with self.assertRaisesRegex(Unread, "^redis://h follows no more, as told above$") as found:
            self.feeding.check_read()
        self.assertEqual(found.exception.exit_status(), 4)


if __name__ == "__main__":
    unittest.main()
