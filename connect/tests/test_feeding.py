"""The feed of a follower: what the filter is told of it, what is confirmed, who reads it, and when
it is refused."""

from __future__ import annotations

import contextlib
import dataclasses
import os
import re
import sqlite3
import stat
import subprocess
import sys
import time
from collections.abc import Callable
from pathlib import Path
from typing import Any
from unittest import mock

from feed_text import Column, lsn_text

from pgsub_connect.commands.arguments.feed import settled_feed
from pgsub_connect.drift.remembered import Remembered
from pgsub_connect.follow import drift_watch, feed as feed_module, feed_keeper, process_beside
from pgsub_connect.follow.feed import FeedSettings, Feeding
from pgsub_connect.follow.feed_keeper import Keeper
from pgsub_connect.follow.feed_keeper import TypesFile
from pgsub_connect.follow.follower import Follower
from pgsub_connect.follow.process_beside import Beside, TablesSettings
from pgsub_connect.follow.retention import Limits
from pgsub_connect.server.session import Subscription
from pgsub_connect.status.files import status_fields
from pgsub_connect.status.metrics import metrics_text
from pgsub_connect.status.progress import Progress
from pgsub_connect.store.checkpoint_lines import COPYING, SLOT, Known
from pgsub_connect.stream.common import Common, Tolerance
from pgsub_connect.stream.filter_end import FilterEnded
from pgsub_connect.stream.statuses import Reached
from pgsub_feed.errors import FileError, Unfit, UsageError
from pgsub_feed.files import replace_file
from pgsub_feed.known_tables import read_keys
from pgsub_feed.reader.commits import Head
from pgsub_feed.reader.folder import CONFIRMED, read_confirmed, segments
from pgsub_feed.reader.folder import Noted, make_folder
from pgsub_feed.reader.segments import Reader
from pgsub_feed.tables.first_rows import prepare

from .fake_server import Quiet
from .feeds import ID, FeedCase, insert, table, truncate
from .settled import options_of
from .test_following import Case
from .vectors import begin, commit, insert as inserted, keepalive, relation

# What a child's code has before it begins.
QUICK = (
    "from pgsub_feed.reader import folder, polling; "
    "folder.OFTEN = 0.05; polling.PATIENCE = 0.2; polling.LEAST = polling.MOST = 0.05; "
)


def wait_until(holds: Callable[[], object], seconds: float = 60.0) -> bool:
    until = time.monotonic() + seconds
    while not holds() and time.monotonic() < until:
        time.sleep(0.01)
    return bool(holds())


class Followed(Case):
    """A follower that keeps a feed."""

    def setUp(self) -> None:
        super().setUp()
        self.feed = self.store + ".feed"
        self.patch(feed_keeper, "QUIET", 0.02)
        self.patch(feed_keeper, "BUSY", 0.02)

    def fed(
        self, feed: str | None = None, settings: dict[str, Any] | None = None, **options: Any
    ) -> Follower:
        """A follower whose feed is checked, and that is about to run."""
        follower = self.follower(**options)
        follower.life.feeding = it = self.feeding_of(follower, feed, **(settings or {}))
        it.check()
        self.addCleanup(it.finish)
        wake = follower.snapshots.requests.wake
        it.begin(follower.life.filter, follower.confirming.stored, follower.ending.check_stop, wake)
        return follower

    def feeding_of(self, follower: Follower, feed: str | None = None, **settings: Any) -> Feeding:
        return Feeding(
            FeedSettings(self.store, self.feed if feed is None else feed, **settings),
            Common(
                follower.subscription,
                follower.start.tolerance,
                self.checkpoint,
                self.progress,
                follower.watch.remembered,
            ),
        )

    def follower(self, **options: Any) -> Follower:
        # (what is remembered lasts from run to run)
        if os.path.exists(self.store + ".tables"):
            remembered = Remembered(self.store)
            with mock.patch.object(Remembered, "begin_copy", lambda *_: None):
                follower = super().follower(**options)
            self.assertEqual(follower.watch.remembered.feed, remembered.feed)
            return follower
        follower = super().follower(**options)
        follower.watch.remembered.save()
        return follower

    def ends(self) -> list[int]:
        reader, found = Reader(self.feed, None), []
        while it := reader.next():
            found.append(it.end)
        reader.close()
        return found

    def segments(self) -> dict[str, bytes]:
        """What the segments have."""
        return {name: Path(self.feed, name).read_bytes() for _, name in segments(self.feed)}

    def test_all_that_is_confirmed_is_told(self) -> None:
        self.server.to_send = [begin(0x100, 7), inserted(1), commit(0x100, 0x108), keepalive(0x400)]
        follower = self.fed()
        self.run_until(
            follower,
            lambda: os.path.exists(f"{self.feed}/{CONFIRMED}")
            and read_confirmed(self.feed) == 0x400,
        )
        self.assertEqual(self.ends(), [0x108])
        assert follower.life.feeding
        follower.life.feeding.finish()
        self.assertEqual((self.progress.feed.readers, self.progress.feed.bytes), ({}, 1024 + 256))

    def test_keys_are_told_once_they_were_looked_at(self) -> None:
        """Also at the end, where a look is due."""
        looks, full = list[int](), relation(1, "t", identity="f")
        self.patch(drift_watch, "LOOK", 600.0)

        def compare(watch: drift_watch.Watch, *_: object) -> bool:
            looks.append(self.keys())
            watch.next_look = float("inf")
            return True

        self.patch(drift_watch.Watch, "compare", compare)
        self.server.to_send = [begin(0x100, 7), full, inserted(1), commit(0x100, 0x108)]
        follower = self.fed()
        self.run_until(follower, lambda: read_confirmed(self.feed) == 0x108)
        assert follower.life.feeding
        # (nothing was told before either look; the keeper may tell at once after the last one)
        self.assertEqual(looks, [0, 0])
        follower.life.feeding.finish()
        self.assertEqual(self.keys(), 0x108)

    def keys(self) -> int:
        return read_keys(self.feed) or 0
        self.assertEqual(Remembered(self.store).feed, self.feed)
        self.assertEqual(oct(stat.S_IMODE(os.stat(self.feed).st_mode)), "0o700")

    def test_what_the_end_confirms_is_told(self) -> None:
        self.patch(feed_keeper, "QUIET", 30.0)
        self.server.to_send = [begin(0x100, 7), inserted(1), commit(0x100, 0x108)]
        follower = self.fed()
        self.run_until(follower, lambda: self.confirmed() == 0x108)
        assert follower.life.feeding
        follower.life.feeding.finish()
        self.assertEqual(read_confirmed(self.feed), 0x108)

    def let_go(self, has: mock.Mock) -> bool:
        """Has the tables have all, once it was asked for some times; whether the follower ends
        then."""
        has.return_value = has.call_count > 3
        return self.progress.state == "stopping"

    def test_the_end_waits_for_the_tables(self) -> None:
        self.server.to_send = [begin(0x100, 7), inserted(1), commit(0x100, 0x108), keepalive(0x400)]
        follower, has = self.fed(until=0x108), mock.Mock(return_value=False)
        assert follower.life.feeding
        follower.life.feeding.beside = mock.Mock(has=has)
        self.run_until(follower, lambda: self.let_go(has))
        self.assertEqual({it.args for it in has.call_args_list}, {(0x108,)})

    def test_whose_feed_it_is(self) -> None:
        words = [
            "--feed",
            self.feed,
            "--feed-system",
            "77",
            "--feed-database",
            "shop",
            "--feed-slot",
            "pgsub",
        ]
        follower = self.fed(settings={"segment_bytes": 5000, "segment_seconds": 60})
        self.assertEqual(
            follower.life.filter.words[-12:],
            [*words, "--feed-segment-bytes", "5000", "--feed-segment-seconds", "60"],
        )
        self.assertEqual(Remembered(self.store).messages, 0)
        # (of a store that was followed, the checkpoint knows it)
        self.server.to_send = [keepalive(0x400)]
        self.run_until(follower, lambda: self.confirmed() == 0x400)
        os.close(os.dup(self.checkpoint.file))
        self.brain.answer("IDENTIFY_SYSTEM", [["88", "1", "0/1000000", "other"]])
        known = self.feeding_of(follower)
        self.assertEqual(known.source(lambda: None), ("77", "shop", "pgsub"))

    def follow_once(self, end: int = 0x108) -> None:
        """Follows up to a commit with this end."""
        self.server.to_send = [begin(end - 8, 7), inserted(1), commit(end - 8, end)]
        follower = self.fed()
        self.run_until(follower, lambda: self.confirmed() == end)
        assert follower.life.feeding
        follower.life.feeding.finish()
        self.unlock()

    def unlock(self) -> None:
        """Lets another follower begin."""
        nothing = os.open(os.devnull, os.O_RDONLY)
        # (the number stays taken until the test ends, which closes it)
        os.dup2(nothing, self.checkpoint.file, inheritable=False)
        os.close(nothing)

    def test_following_without_it(self) -> None:
        self.follow_once()
        with self.assertRaisesRegex(
            Unfit, f"the feed {self.feed} has all commits .* --feed {self.feed}, or --without-feed"
        ):
            self.fed(feed="")
        self.unlock()
        with self.assertRaisesRegex(Unfit, "/other has none of its commits"):
            self.fed(feed=self.folder + "/other")
        self.unlock()
        self.assertFalse(os.path.exists(self.folder + "/other"))
        follower = self.fed(feed="", settings={"is_left": True})
        self.assertIn(
            f"warning: the feed {self.feed} ends here: whoever reads it begins anew, from an export and another feed",
            self.said,
        )
        self.server.to_send = [begin(0x200, 8), inserted(1), commit(0x200, 0x208)]
        self.run_until(follower, lambda: self.confirmed() == 0x208)
        self.assertEqual(Remembered(self.store).feed, "")
        self.unlock()
        follower = self.fed()
        with self.assertRaises(FilterEnded) as ended:
            self.run_until(follower, lambda: False)
        self.assertEqual(
            (ended.exception.status, ended.exception.said), (3, feed_module.NOT_A_FEED)
        )
        self.assertTrue(
            any("Name an empty folder by --feed, with --without-feed" in it for it in self.said),
            self.said,
        )
        self.unlock()
        follower = self.fed(feed=self.folder + "/other", settings={"is_left": True})
        self.server.to_send = [begin(0x300, 9), inserted(1), commit(0x300, 0x308)]
        self.run_until(follower, lambda: self.confirmed() == 0x308)
        self.feed = self.folder + "/other"
        self.assertEqual(self.ends(), [0x308])

    def test_messages(self) -> None:
        follower = self.fed(settings={"messages": 5000})
        self.assertEqual(follower.life.filter.words[-2:], ["--messages", "5000"])
        self.assertEqual(Remembered(self.store).messages, 5000)
        # one that has too many ends it, and tells of which commit; another try would be the same
        self.server.to_send = [begin(0x100, 7), inserted(1), commit(0x100, 0x108)]
        lines = "pgsub: feed 4 MessagesTooLong\npgsub: store 8 Refused"
        Path(self.store + ".says").write_text(f"rejects {0x108} 13 {lines}")
        with self.assertRaises(FilterEnded) as ended:
            self.run_until(follower, lambda: False)
        self.assertEqual((ended.exception.status, ended.exception.exit_status()), (13, 1))
        for told in (
            "a transaction has more than 5000 bytes of messages: give --messages more",
            "rejected: transaction 7, final LSN 0/100, .*: --skip 0/100 passes over it",
        ):
            self.assertTrue(any(re.search(told, it) for it in self.said), (told, self.said))

    def test_a_feed_of_an_earlier_version(self) -> None:
        self.follow_once()
        (path,) = (Path(self.feed) / name for _, name in segments(self.feed))
        text = path.read_bytes().replace(b'{"feed":4,', b'{"feed":3,')
        path.write_bytes(text)
        with self.assertRaises(FilterEnded) as ended:
            self.run_until(self.fed(), lambda: False)
        self.assertEqual(ended.exception.status, 3)
        told = "a feed of format 3, which an earlier version writes"
        self.assertTrue(any(told in it and "--without-feed" in it for it in self.said), self.said)
        self.assertEqual(path.read_bytes(), text)

    def test_an_older_store(self) -> None:
        """Its feed isn't cut, whether the store's file says its position or, since there is a log,
        a filter alone."""
        self.follow_once()
        before = self.ends()
        with open(self.store, "w", encoding="ascii") as file:
            file.write(str(0x50))
        with mock.patch.object(feed_module, "position_in", lambda _: 0x50), self.assertRaisesRegex(
            Unfit, "0/50, and was at 0/108 before"
        ):
            self.fed()
        self.unlock()
        Path(self.store + "-wal").write_text("x")
        with self.assertRaisesRegex(
            Unfit, "the store is at 0/50, and was at 0/108 before.*would lose the commits between"
        ):
            self.fed()
        self.unlock()
        self.assertEqual(self.ends(), before)
        self.fed(accept=["gap"])
        self.unlock()
        with open(self.store, "w", encoding="ascii") as file:
            file.write(str(0x108))
        follower = self.fed()
        # (what a killed filter had stored isn't taken for counted)
        self.assertFalse(follower.life.filter.has_told_all or follower.life.filter.is_running())

    def test_an_older_store_of_which_the_checkpoint_knows_nothing_more(self) -> None:
        """Since that isn't there, or was put back with it: the feed itself tells that it has
        commits that were confirmed."""
        self.follow_once()
        checkpoint = Path(self.store + ".connector").read_bytes()
        self.follow_once(0x208)
        before = self.segments()
        self.patch(feed_module, "position_in", lambda path: int(Path(path).read_text()))
        Path(self.store).write_text(str(0x108))
        for put_back in (None, checkpoint):
            os.unlink(self.store + ".connector")
            if put_back:
                Path(self.store + ".connector").write_bytes(put_back)
            text = "the store is at 0/108, and the feed .*copy.db.feed has the commit up to 0/208, which was confirmed"
            with self.assertRaisesRegex(Unfit, text):
                self.fed()
            self.unlock()
            self.assertEqual(self.segments(), before)
            self.fed(accept=["gap"])
            self.unlock()

    def test_what_a_right_store_may_lack(self) -> None:
        """A commit that isn't confirmed, as where its filter was killed; and what a keepalive alone
        has confirmed."""
        self.follow_once()
        self.follow_once(0x208)
        self.patch(feed_module, "position_in", lambda path: int(Path(path).read_text()))
        for position, confirmed in ((0x108, 0x207), (0x108, 0x108), (0x208, 0x400)):
            Path(self.store).write_text(str(position))
            os.unlink(self.store + ".connector")
            replace_file(f"{self.feed}/{CONFIRMED}", f"{lsn_text(confirmed)}\n".encode())
            self.fed()
            self.unlock()

    def test_a_commit_above_the_store_that_cant_be_read(self) -> None:
        """As a power cut may leave one that isn't confirmed. A segment that begins above the store
        tells that there were others."""
        self.follow_once()
        self.follow_once(0x208)
        self.patch(feed_module, "position_in", lambda path: int(Path(path).read_text()))
        Path(self.store).write_text(str(0x108))
        os.unlink(self.store + ".connector")
        path = Path(f"{self.feed}/{0x108:016X}")
        path.write_bytes(path.read_bytes()[:-256] + 256 * b"x")
        self.fed()
        self.unlock()
        os.unlink(self.store + ".connector")
        Path(f"{self.feed}/{0x208:016X}").write_bytes(b"")
        with self.assertRaisesRegex(Unfit, "has the commit up to 0/208, which was confirmed"):
            self.fed()

    def test_a_store_that_is_busy_is_waited_for(self) -> None:
        """Unseen it would be opened with its feed later. None is of no use."""
        self.patch(feed_module, "AGAIN", 0)
        for ends, position in (
            ((FilterEnded(12, "busy"), FilterEnded(-9, ""), 0x50), 0x50),
            ((FilterEnded(3, "none"),), None),
        ):
            other = mock.Mock(
                start=mock.Mock(side_effect=ends), serve=mock.Mock(side_effect=FilterEnded(0, ""))
            )
            with mock.patch.object(feed_module, "Filter", lambda *_, other=other: other):
                self.assertEqual(feed_module.opened_at(mock.Mock(), lambda: None), position)
            self.assertEqual(
                (other.start.call_count, other.kill.call_count), (len(ends), len(ends))
            )
        self.assertEqual(
            self.said[0],
            "warning: the filter ended with status 12: busy: the store is tried again in 0 seconds",
        )
        self.assertEqual(len(self.said), 2)

    def test_a_feed_that_was_moved(self) -> None:
        self.follow_once()
        moved = self.folder + "/moved"
        os.rename(self.feed, moved)
        follower = self.fed(feed=moved)
        self.server.to_send = [begin(0x200, 8), inserted(1), commit(0x200, 0x208)]
        self.run_until(follower, lambda: self.confirmed() == 0x208)
        self.feed = moved
        self.assertEqual((self.ends(), Remembered(self.store).feed), ([0x108, 0x208], moved))


class Refused(Quiet):
    """What a start refuses before anything is made."""

    def feeding(self, tables: str = "") -> Feeding:
        feed = self.store + ".feed"
        return Feeding(
            FeedSettings(
                self.store,
                feed,
                tables=TablesSettings(tables, feed, self.store) if tables else None,
            ),
            Common(Subscription(), Tolerance(), mock.Mock(), Progress(), Remembered(self.store)),
        )

    def setUp(self) -> None:
        super().setUp()
        self.folder = self.make_folder()
        self.store = self.folder + "/copy.db"

    def test_what_a_copy_is_to_have_is_noted_once_the_next_start_goes_on_with_it(self) -> None:
        feeding = self.feeding(self.folder + "/rows.db")
        self.assertEqual(Remembered(self.store).feed, "")
        feeding.rows_beside().note()
        self.assertEqual(Remembered(self.store).feed, self.store + ".feed")
        feeding.checkpoint.note_tables.assert_called_once_with(self.folder + "/rows.db")  # type: ignore[attr-defined]
        feeding = self.feeding()
        feeding.make_folder()
        feeding.rows_beside().begin(5)
        self.assertEqual(self.said, [])

    def test_types_that_a_first_start_left(self) -> None:
        """It ended before its slot was there for good."""
        feeding = self.feeding()
        feeding.make_folder()
        feeding.types.begin()
        self.feeding().check()
        self.assertEqual(os.listdir(self.store + ".feed"), [])

    def test_a_new_store_and_an_old_feed(self) -> None:
        os.makedirs(self.store + ".feed/readers")
        with self.assertRaisesRegex(
            Unfit,
            "begins anew, and an older copy has left: .*copy.db.feed. .*, rm -r .*copy.db.feed;",
        ):
            self.feeding().check()
        os.rmdir(self.store + ".feed/readers")
        self.feeding().check()

    def test_a_folder_that_is_no_feed(self) -> None:
        """Nobody is told to remove it."""
        os.makedirs(self.store + ".feed/readers")
        Path(self.store + ".feed/types.new").touch()
        Path(self.store + ".feed/diary.txt").touch()
        with self.assertRaisesRegex(Unfit, "copy.db.feed: it has other files, as diary.txt: name"):
            self.feeding().check()

    def test_a_feed_of_another_follower(self) -> None:
        """It may be at work there."""
        os.makedirs(self.store + ".feed/readers")
        for slot, text in (
            ("other", "copy.db.feed has the feed of slot other of database shop, system 7: name"),
            ("pgsub", "an older copy has left: .*copy.db.feed. "),
        ):
            head = Head(0x100, "7", "shop", slot)
            with mock.patch.object(
                feed_module, "read_source", lambda _: head
            ), self.assertRaisesRegex(Unfit, text):
                self.feeding().check()

    def test_tables_of_another_follower(self) -> None:
        rows, other = self.folder + "/rows.db", self.folder + "/other.db.feed"
        with contextlib.closing(sqlite3.connect(rows)) as db:
            prepare(db, other, (), False)
        with self.assertRaisesRegex(Unfit, f"rows.db follows the feed {other}: name another file"):
            self.feeding(tables=rows).check()
        os.unlink(rows)
        with contextlib.closing(sqlite3.connect(rows)) as db:
            prepare(db, self.store + ".feed", (), False)
        with self.assertRaisesRegex(Unfit, "an older copy has left: .*/rows.db"):
            self.feeding(tables=rows).check()

    def test_what_an_interrupted_copy_has_left_is_its_own(self) -> None:
        """First rows, or an empty segment of one that was almost complete. That one can't begin
        anew."""
        feeding = self.feeding()
        feeding.checkpoint.known = Known(phase=SLOT)
        feeding.remembered.note_feed(feeding.folder)
        os.makedirs(self.store + ".feed/base")
        feeding.check()
        feeding.rows_beside().prepare()
        Path(self.store + ".feed", f"{0x1000028:016x}").touch()
        feeding.check()
        with self.assertRaisesRegex(Unfit, "an older copy has left: .*copy.db.feed. "):
            feeding.rows_beside().prepare()
        feeding.checkpoint.known = Known(phase=COPYING)
        with self.assertRaisesRegex(Unfit, "an older copy has left: .*copy.db.feed. "):
            feeding.check()

    def test_what_a_filter_that_loads_is_told(self) -> None:
        feeding = self.feeding()
        feeding.checkpoint.known = Known(system="7", database="shop", slot="pgsub")
        wanted = ["--feed", self.store + ".feed", "--feed-system", "7"]
        wanted += ["--feed-database", "shop", "--feed-slot", "pgsub"]
        self.assertEqual(feeding.rows_beside().filter_words(), wanted)
        told = Subscription(), Tolerance(), mock.Mock(), Progress(), Remembered(self.store)
        without = Feeding(FeedSettings(self.store), Common(*told))
        self.assertEqual(without.rows_beside().filter_words(), ())

    def test_a_folder_that_cant_be_made(self) -> None:
        Path(self.store + ".feed").write_text("")
        with self.assertRaisesRegex(FileError, "--feed .*copy.db.feed: File exists"):
            self.feeding().check()

    def test_tables_of_an_older_copy(self) -> None:
        rows = self.folder + "/rows.db"
        Path(rows).write_text("x")
        with self.assertRaisesRegex(
            FileError, "rows.db is there and has no tables that follow a feed"
        ):
            self.feeding(tables=rows).check()
        with mock.patch.object(process_beside, "is_tables", lambda _: True), self.assertRaisesRegex(
            Unfit, "an older copy has left: .*/rows.db"
        ):
            self.feeding(tables=rows).check()
        self.assertFalse(os.path.exists(self.store + ".feed"))
        os.makedirs(self.store + ".feed/readers")
        with mock.patch.object(process_beside, "is_tables", lambda _: True), self.assertRaisesRegex(
            Unfit, "rm -r .*/copy.db.feed .*/rows.db;"
        ):
            self.feeding(tables=rows).check()

    def test_a_folder_for_whoever_may_read_its_files(self) -> None:
        before = os.umask(0o177)
        self.addCleanup(os.umask, before)
        for mode, made in ((0o600, 0o700), (0o640, 0o750), (0o644, 0o755), (0o660, 0o770)):
            make_folder(f"{self.folder}/{mode:o}", mode)
            self.assertEqual(stat.S_IMODE(os.stat(f"{self.folder}/{mode:o}").st_mode), made)

    def test_words(self) -> None:
        options = options_of(
            "follow --store s --tables rows.db --feed-max-bytes 10GB --feed-max-age 7d".split()
        )
        self.assertEqual(
            (settled_feed(options, "s").feed, options.feed_max_bytes, options.feed_max_age),
            ("s.feed", 10 << 30, 7 * 86400.0),
        )
        for words, text in (
            ("--init f", "--init needs --tables"),
            ("--digests --feed f", "--digests needs --tables"),
            ("--feed-max-bytes 5", "--feed-max-bytes needs --feed"),
            ("--feed-segment-seconds 5", "--feed-segment-seconds needs --feed"),
            ("--feed-max-age 5d", "--feed-max-age needs --feed"),
        ):
            with self.assertRaisesRegex(UsageError, f"^{text}$"):
                settled_feed(options_of(f"follow --store s {words}".split()), "s")
        self.assertEqual(
            options_of("follow --store s --feed f --feed-max-bytes 500".split()).feed_max_bytes, 500
        )
        self.assertEqual(options_of("follow --store s".split()).feed, "")


class Kept(FeedCase):
    """The thread that looks after a feed: what it shows, and what it removes."""

    def setUp(self) -> None:
        super().setUp()
        self.said: list[str] = []
        patched = mock.patch(
            "pgsub_feed.log.line", lambda level, text: self.said.append(f"{level}: {text}")
        )
        patched.start()
        self.addCleanup(patched.stop)
        for end in range(0x100, 0x600, 0x100):
            self.feed.commit(end, [insert("1", "x")])
            self.feed.end()
        self.feed.commit(0x600, [])
        self.progress = Progress()
        self.progress.stream.position = 0x600

    def keeper(self, confirmed: int = 0x600, **settings: Any) -> Keeper:
        limits, reached = Limits(**settings), Reached(confirmed, 0x600)
        types = TypesFile(str(self.path), 0o600, Remembered(str(self.folder / "copy.db")))
        return Keeper(limits, self.progress, lambda: reached, types)

    def read(self, name: str, lsn: int) -> None:
        Noted(str(self.path), name, str(self.folder / "rows.db"), 0o600).note(lsn, is_last=True)

    def test_readers_and_size(self) -> None:
        self.read("index", 0x250)
        self.keeper().tend(100.0)
        shown = status_fields(self.progress, 0.0, 0.0)
        reader = {"lsn": "0/250", "lag_bytes": 0x3B0, "still_seconds": 0}
        self.assertEqual(shown["readers"], {"index": reader})
        self.assertEqual(
            [base for base, _ in segments(str(self.path))], [0x200, 0x300, 0x400, 0x500]
        )
        self.keeper().tend(100.0)
        self.assertEqual(
            self.progress.feed.bytes,
            sum(it.stat().st_size for it in self.path.iterdir() if len(it.name) == 16),
        )
        text = metrics_text(self.progress, 0.0, {"slot": "s"})
        self.assertIn('pgsub_reader_lag_bytes{slot="s",reader="index"} 944\n', text)
        self.assertIn(f'pgsub_feed_bytes{{slot="s"}} {self.progress.feed.bytes}\n', text)
        self.assertIn('pgsub_tables_failed{slot="s"} 0\n', text)

    def test_a_reader_that_loses_segments_is_named(self) -> None:
        self.read("slow", 0x100)
        self.keeper(most_bytes=4000).tend(100.0)
        self.assertEqual([base for base, _ in segments(str(self.path))][-1], 0x500)
        self.assertIn(
            "warning: the reader slow hadn't read all of that, and has to begin anew: the feed may have 4000 bytes",
            self.said,
        )

    def test_confirmed_is_written_so_often(self) -> None:
        keeper = self.keeper(confirmed=0x600)
        with mock.patch.object(feed_keeper, "replace_file", wraps=replace_file) as written:
            keeper.tend(100.0)
            keeper.tend(100.3)
            self.assertEqual(written.call_count, 1)
            keeper.reached = lambda: Reached(0x700, 0x700)
            keeper.tend(100.6)
            self.assertEqual(read_confirmed(str(self.path)), 0x600)
            keeper.tend(101.1)
            self.assertEqual(read_confirmed(str(self.path)), 0x700)
            # (by a keepalive alone)
            keeper.reached = lambda: Reached(0x800, 0x700)
            keeper.tend(101.4)
            self.assertEqual(read_confirmed(str(self.path)), 0x800)
            # a server that was promoted: less is confirmed than was
            keeper.reached = lambda: Reached(0x700, 0x700)
            keeper.tend(103.0)
            self.assertEqual(read_confirmed(str(self.path)), 0x700)

    def test_up_to_where_keys_are_known(self) -> None:
        """Once in a run; where tables have others than messages tell, each time; and anew where less
        is confirmed, as after a failover."""
        keeper, folder, found = self.keeper(), str(self.path), list[int | None]()
        self.assertIsNone(read_keys(folder))
        keeper.start()
        self.assertTrue(wait_until(lambda: read_keys(folder) == 0))
        keeper.finish()
        keeper = self.keeper()
        steps = [(0x600, 0, False), (0x700, 0x700, False), (0x800, 0x800, False)]
        steps += [(0x900, 0, True), (0xA00, 0xA00, True), (0xB00, 0xB00, True)]
        steps += [(0xA80, 0, True), (0xA80, 0xA80, True)]
        for now, (confirmed, keys, others) in enumerate(steps):
            reached = Reached(confirmed, confirmed, keys, others)
            keeper.reached = lambda: reached  # noqa: B023
            keeper.tend(100.0 + now)
            found.append(read_keys(folder))
        self.assertEqual(found, [0, 0x700, 0x700, 0x700, 0xA00, 0xB00, 0, 0xA80])

    def test_a_disk_that_is_full_is_told_once(self) -> None:
        keeper = self.keeper()
        with mock.patch("os.replace", side_effect=OSError(28, "No space left on device")):
            keeper.tend(100.0)
            keeper.tend(200.0)
        self.assertEqual(
            self.said,
            [
                f"warning: the feed can't be looked after: {self.path}/confirmed: No space left on device"
            ],
        )

    def test_a_disk_that_is_full_loses_old_segments(self) -> None:
        self.read("index", 0x250)
        keeper = self.keeper()
        with mock.patch("os.replace", side_effect=OSError(28, "No space left on device")):
            keeper.tend(100.0)
            # (between two tries nothing fails)
            keeper.tend(100.3)
            # (by a keepalive alone)
            keeper.reached = lambda: Reached(0x700, 0x600)
            keeper.tend(101.3)
        self.assertEqual(
            [base for base, _ in segments(str(self.path))], [0x200, 0x300, 0x400, 0x500]
        )
        self.assertEqual(self.progress.feed.readers, {"index": 0x250})
        told = [
            f"warning: the feed can't be looked after: {self.path}/confirmed: No space left on device"
        ]
        self.assertEqual([it for it in self.said if it.startswith("warning")], told)
        keeper.tend(103.0)
        self.assertEqual((read_confirmed(str(self.path)), keeper.causes), (0x700, {}))

    def test_what_is_no_reader_is_passed_over(self) -> None:
        self.read("index", 0x250)
        (self.path / "readers/old").mkdir()
        (self.path / "readers/.nfs0001").write_text("")
        self.keeper().tend(100.0)
        self.assertEqual(
            [base for base, _ in segments(str(self.path))], [0x200, 0x300, 0x400, 0x500]
        )
        self.assertEqual(
            (self.progress.feed.readers, [it for it in self.said if it.startswith("warning")]),
            ({"index": 0x250}, []),
        )

    def test_a_reader_that_cant_be_read_keeps_all_and_hinders_nothing_else(self) -> None:
        self.read("index", 0x250)
        (self.path / "readers/other").write_text("x")
        keeper = self.keeper()
        keeper.tend(100.0)
        keeper.tend(100.3)
        keeper.tend(120.0)
        self.assertEqual(
            (len(segments(str(self.path))), read_confirmed(str(self.path))), (6, 0x600)
        )
        self.assertEqual(
            self.said,
            [
                f"warning: the feed can't be looked after: {self.path}/readers/other: 'x' is not an LSN, as 16/B374D848"
            ],
        )


class Tables(FeedCase):
    """Tables that are kept by a process beside the follower."""

    def setUp(self) -> None:
        super().setUp()
        self.said: list[str] = []
        delay = mock.patch.object(process_beside, "FIRST_DELAY", 0.02)
        delay.start()
        self.addCleanup(delay.stop)
        patch = mock.patch(
            "pgsub_feed.log.line", lambda level, text: self.said.append(f"{level}: {text}")
        )
        patch.start()
        self.addCleanup(patch.stop)
        self.into, self.progress = str(self.folder / "rows.db"), Progress()
        self.settings = TablesSettings(self.into, str(self.path), str(self.folder / "copy.db"))

    def kept(self, code: str | None = None) -> Beside:
        """One that runs this in the place of `pgsub-connect tables`; by default that itself, from
        the beginning of the feed, which notes at once how far it is, and bears for a short time
        what is wrong."""
        it = Beside(self.settings, self.progress)
        if code is not None:
            it.words = [sys.executable, "-S", "-c", code]
        else:
            at = it.words.index("--store")
            it.words = [*it.words[:at], *it.words[at + 2 :]]
            at = it.words.index("-c") + 1
            begins = "from pgsub_connect.cli"
            self.assertIn(begins, it.words[at])
            it.words[at] = it.words[at].replace(begins, QUICK + begins)
        self.addCleanup(it.finish)
        it.start()
        return it

    def test_they_follow_and_end_with_it(self) -> None:
        self.feed.commit(0x100, [insert("1", "x")])
        kept = self.kept()
        self.assertTrue(wait_until(lambda: kept.has(0x100)), self.said)
        self.assertFalse(kept.has(0x101))
        assert kept.child
        kept.child.kill()
        self.feed.commit(0x200, [insert("2", "y")])
        self.assertTrue(wait_until(lambda: kept.has(0x200)), self.said)
        self.assertTrue(
            any("ended with status -9: it is started again" in it for it in self.said), self.said
        )
        kept.finish()
        self.assertEqual(kept.child.returncode, 0)
        self.assertFalse(os.path.exists(self.into + "-wal"))
        self.assertEqual(self.progress.feed.tables_error, "")
        self.assertTrue(
            any(
                it.startswith("info: tables: ") and it.endswith(f"from {lsn_text(0x100)}")
                for it in self.said
            ),
            self.said,
        )

    def test_a_table_that_is_set_aside_is_shown_until_its_rows_come(self) -> None:
        self.feed.commit(0x100, [insert("1", "x")])
        numbers = table(columns=[ID, Column("name", 23)])
        kept = self.kept()
        self.assertTrue(wait_until(lambda: kept.has(0x100)), self.said)
        self.feed.commit(0x200, [insert("2", "5", of=numbers)])
        self.assertTrue(wait_until(lambda: bool(self.progress.feed.tables_aside)), self.said)
        self.assertTrue(wait_until(lambda: kept.has(0x200)), self.said)
        self.assertRegex(
            self.progress.feed.tables_aside["public.stock"],
            "^since 0/200: the column name has a value that isn't one of its type",
        )
        self.assertEqual(
            status_fields(self.progress, 0.0, 0.0)["tables_aside"], self.progress.feed.tables_aside
        )
        self.progress.feed.bytes = 0
        self.assertIn(
            'pgsub_tables_aside{slot="s"} 1\n', metrics_text(self.progress, 0.0, {"slot": "s"})
        )
        self.assertEqual(self.progress.feed.tables_error, "")
        self.feed.commit(0x300, [truncate(numbers), insert("2", "5", of=numbers)])
        self.assertTrue(wait_until(lambda: not self.progress.feed.tables_aside), self.said)
        self.assertNotIn("tables_aside", status_fields(self.progress, 0.0, 0.0))

    def test_before_they_are_made_they_have_nothing(self) -> None:
        """What a new reader needs is kept under its name: that isn't what it has."""
        kept = Beside(self.settings, self.progress)
        Noted(str(self.path), "tables", None, 0o600).note(0x300, is_last=True)
        with mock.patch.object(kept, "is_alive", lambda: True):
            self.assertFalse(kept.has(0x300))
            Path(self.into).write_text("")
            self.assertTrue(kept.has(0x300))

    def test_they_end_where_the_follower_is_killed(self) -> None:
        kept = self.kept()
        self.assertTrue(
            wait_until(
                lambda: os.path.exists(self.into) and any("from 0/0" in it for it in self.said)
            ),
            self.said,
        )
        kept.ended.set()
        assert kept.child and kept.child.stdin
        kept.child.stdin.close()
        self.assertTrue(wait_until(lambda: kept.child and kept.child.poll() is not None))
        self.assertEqual(kept.child.returncode, 0)

    def test_a_fault_is_told(self) -> None:
        self.feed.commit(0x100, [insert("1", "x")])
        self.feed.path.write_bytes(b"x" * 2000)
        kept = self.kept()
        kept.join(60)
        self.assertIn("reading 1 NotAFeed", self.progress.feed.tables_error)
        self.assertEqual(
            status_fields(self.progress, 0.0, 0.0)["tables_error"], self.progress.feed.tables_error
        )
        self.assertTrue(
            any(
                it.startswith(f"error: {self.into} follows no more, status 3: ") for it in self.said
            ),
            self.said,
        )
        self.assertTrue(kept.has(0x500))

    def test_what_passes_is_tried_again(self) -> None:
        tried = self.folder / "tried"
        self.kept(f"open({str(tried)!r}, 'a').write('x'); raise SystemExit(7)")
        self.assertTrue(wait_until(lambda: tried.exists() and len(tried.read_text()) >= 3))
        self.assertEqual(self.progress.feed.tables_error, "")

    def test_a_fork_that_fails_is_tried_again(self) -> None:
        self.feed.commit(0x100, [insert("1", "x")])
        popen, failed = subprocess.Popen, list[BlockingIOError]()

        def start(*words: Any, **more: Any) -> Any:
            if not failed:
                failed.append(BlockingIOError(11, "Resource temporarily unavailable"))
                raise failed[0]
            return popen(*words, **more)

        with mock.patch("subprocess.Popen", start):
            kept = self.kept()
            self.assertTrue(
                wait_until(lambda: os.path.exists(kept.reader) and kept.has(0x100)), self.said
            )
        self.assertTrue(kept.is_alive())
        self.assertIn(
            f"warning: {self.into}: what follows can't be started now: Resource temporarily unavailable",
            self.said,
        )

    def test_how_it_is_started(self) -> None:
        settings = dataclasses.replace(self.settings, init="my.sql", mode=0o640)
        options = options_of(Beside(settings, self.progress).words[3:])
        self.assertEqual((options.feed, options.into), (str(self.path), self.into))
        self.assertEqual(options.store, self.settings.store)
        self.assertEqual(
            (options.reader, options.mode, options.while_input, options.once),
            ("tables", 0o640, True, False),
        )
        self.assertEqual(options.init, "my.sql")

    def test_modules_where_it_is_started_are_none_of_its_own(self) -> None:
        """Whoever may write there would have their code run."""
        for name in ("json", "argparse", "psycopg", "pgsub_connect"):
            (self.folder / f"{name}.py").write_text(
                f"raise SystemExit('the {name} of somebody else')"
            )
        environment = {
            name: value for name, value in os.environ.items() if not name.startswith("PYTHON")
        }
        done = subprocess.run(
            [*Beside(self.settings, self.progress).words[:3], "tables"],
            cwd=self.folder,
            env=environment,
            capture_output=True,
            check=False,
            timeout=300,
        )
        self.assertIn("the following arguments are required: --feed, --into", done.stderr.decode())
