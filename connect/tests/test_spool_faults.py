"""What a follower does where the file of open transactions fails, and what is shown of that file."""

from __future__ import annotations

import os
import shutil
from collections.abc import Callable
from errno import ENOSPC
from functools import partial
from pathlib import Path
from typing import Any
from unittest import mock

from pgsub_connect.follow import filter_life, spool_faults
from pgsub_connect.status.files import status_fields
from pgsub_connect.status.health import cures_of, faults, line_of
from pgsub_connect.status.metrics import metrics_text
from pgsub_connect.status.progress import Progress
from pgsub_connect.store.spool_folder import SpoolFolder
from pgsub_connect.stream.filter_end import NO_ROOM, NOT_READ, NOT_WRITTEN, OF_SPOOL, FilterEnded

from . import adding_case, test_passing
from .adding_case import FIRST, T
from .small_world import WorldSource, insert
from .vectors import logged

REFUSED = 13


class Faults(test_passing.Case):
    """What a follower does about them."""

    def setUp(self) -> None:
        super().setUp()
        self.life, self.progress = self.follower.life, self.follower.progress
        self.child.spool = SpoolFolder(self.store)
        self.child.spool.begin()
        self.progress.spool.note_path(self.child.spool.path)
        self.path = self.store + ".spool/transactions"

    def fault(self, said: str = NO_ROOM) -> list[str]:
        with logged() as lines:
            self.life.note_end(FilterEnded(REFUSED, said))
        return lines

    def shown(self) -> dict[str, Any]:
        return status_fields(self.progress, 0.0, 1e9)

    def test_what_is_told(self) -> None:
        for said, cure in (
            (NO_ROOM, f"there is no room for {self.path}: make room on that disk"),
            (NOT_WRITTEN, f"{self.path} can't be written: mend that disk"),
            (NOT_READ, f"{self.path} can't be read, or isn't what was written: check that disk"),
        ):
            self.progress.stream.note_confirmed(0x500, 0x500)
            told, again = self.fault(said)
            self.assertIn(f"warning: {cure}", told)
            self.assertIn(f"status 13: {said}: it is started again", again)
            self.assertIn(f"{said}: {cure}", self.progress.last_error or "")
            shown = self.shown()
            self.assertIn(f"{said}: {cure}", shown["spool_error"])
            (fault,) = faults(shown, 0.0, 30.0, ())
            self.assertIn("can't be kept on the disk", fault.text)
            self.assertIn(cure, "\n".join(cures_of(shown, [fault])))
            self.assertIn("pgsub_spool_failed{} 1\n", metrics_text(self.progress, 1e9, {}))
            self.progress.lost.clear()
            self.progress.stream.note_confirmed(0x600, 0x600)

    def test_until_it_is_got_over(self) -> None:
        """Once the copy has what the server had sent."""
        self.progress.stream.note_sent((0x900).to_bytes(8, "big"))
        self.fault()
        for confirmed, is_shown in ((0x500, True), (0x8FF, True), (0x900, False)):
            self.progress.stream.note_confirmed(confirmed, confirmed)
            self.assertEqual("spool_error" in self.shown(), is_shown)
            told = metrics_text(self.progress, 1e9, {})
            self.assertEqual("pgsub_spool_failed{} 1\n" in told, is_shown)

    def test_its_size_is_shown(self) -> None:
        """Where there is any; metrics always have it."""
        Path(self.path).write_bytes(bytes(5000))
        shown = self.shown()
        self.assertEqual(shown["spool_bytes"], 5000)
        self.assertIn("5000 bytes of open transactions on the disk", line_of(shown, 0.0, []))
        self.assertIn("pgsub_spool_bytes{} 5000\n", metrics_text(self.progress, 1e9, {}))
        for empty in (partial(os.truncate, self.path, 0), partial(os.unlink, self.path)):
            empty()
            self.assertNotIn("spool_bytes", self.shown())
            self.assertNotIn("on the disk", line_of(self.shown(), 0.0, []))
            told = metrics_text(self.progress, 1e9, {})
            self.assertIn("pgsub_spool_bytes{} 0\n", told)
            self.assertIn("pgsub_spool_failed{} 0\n", told)
        without = Progress()
        self.assertNotIn("spool_bytes", status_fields(without, 0.0, 1e9))
        self.assertNotIn("pgsub_spool", metrics_text(without, 1e9, {}))

    def test_transactions_come_whole_where_there_is_no_room_again(self) -> None:
        """And not where it was got over before."""
        self.progress.stream.note_confirmed(0x500, 0x500)
        for _ in range(2):
            self.fault()
            self.assertTrue(self.life.form.streams)
            self.progress.stream.note_confirmed(0x600, 0x600)
        self.fault(NOT_READ)
        self.assertTrue(self.life.form.streams)
        self.fault()
        self.assertFalse(self.life.form.streams)

    def test_more_room_is_waited_for(self) -> None:
        """A minute at most, and until the next filter begins."""
        spool = self.child.spool
        assert spool
        spool.had, room, now = 10 << 20, 5 << 20, 1000.0
        with mock.patch.object(SpoolFolder, "room", lambda _: room), mock.patch(
            "time.monotonic", lambda: now
        ):
            for said, later, room, lacks in (
                (NO_ROOM, 0.0, 5 << 20, True),
                (NO_ROOM, 59.0, 11 << 20, True),
                (NO_ROOM, 0.0, 12 << 20, False),
                (NO_ROOM, 60.0, 5 << 20, False),
                (NOT_READ, 0.0, 5 << 20, False),
                (NOT_WRITTEN, 0.0, 5 << 20, False),
            ):
                now = 1000.0
                self.fault(said)
                now += later
                self.assertEqual(self.life.spool.lacks_room(), lacks, (said, later, room))
            now = 1000.0
            self.fault()
            self.life.begin(0x100)
            self.assertFalse(self.life.spool.lacks_room())

    def test_a_folder_that_is_gone(self) -> None:
        self.fault()
        os.rmdir(self.store + ".spool")
        self.assertFalse(self.life.spool.lacks_room())


class Follows(adding_case.Case):
    """A follower whose filter's file fails begins a session anew, and loses nothing."""

    def test_each_fault(self) -> None:
        self.followed()
        self.patch(spool_faults, "LONGEST", 0.2)
        for said in OF_SPOOL:
            self.said.clear()
            Path(self.store + ".fault").write_text(said, "ascii")
            sessions = self.server.sessions
            run = adding_case.Run(self)
            self.assertTrue(run.until(lambda: run.progress.state == "following"))  # noqa: B023
            self.world.commit(insert(T, (1000 + len(self.world.commits), said)))
            self.change()
            self.assertTrue(run.until(lambda: self.is_stored(run)))  # noqa: B023
            run.end()
            self.assertIsNone(run.raised)
            self.assertEqual((run.progress.restarts, self.server.sessions), (1, sessions + 2))
            self.compare()
            self.assertFalse(any("found" in it for it in self.said), self.said)
            self.assertEqual(run.remembered.found, {})
            self.assertEqual(os.listdir(self.store + ".spool"), [])

    def test_no_room_for_rows_that_are_added(self) -> None:
        """They are read again in the next session."""
        self.followed()
        self.spoil()
        self.want(T)
        self.patch(spool_faults, "LONGEST", 0.2)
        left = [NO_ROOM]

        def hook(name: str) -> None:
            if name == "block" and left:
                Path(self.store + ".fault").write_text(left.pop(), "ascii")

        self.addCleanup(setattr, WorldSource, "hook", WorldSource.hook)
        WorldSource.hook = staticmethod(hook)
        run = self.goes_on(max_buffered=None)
        self.assertEqual((run.progress.restarts, run.remembered.found), (1, {}))
        self.assertIn("make room on that disk", "\n".join(self.said))

    def test_one_that_cant_be_made_at_first(self) -> None:
        self.followed()
        begins, begin = list[int](), SpoolFolder.begin

        def begin_without(spool: SpoolFolder) -> None:
            begin(spool)
            begins.append(1)
            if len(begins) == 1:
                os.rmdir(spool.folder)

        self.patch(SpoolFolder, "begin", begin_without)
        self.change()
        run = adding_case.Run(self)
        self.assertTrue(run.until(lambda: self.is_stored(run)))
        run.end()
        self.assertEqual((run.raised, len(begins), run.progress.restarts), (None, 2, 1))
        self.assertTrue(any(f"{NOT_WRITTEN}: it is started again" in it for it in self.said))
        self.compare()

    def full(self, count: int) -> Callable[[SpoolFolder], None]:
        """What `begin` is where there is no folder, and so often no room for it."""
        begin, full = SpoolFolder.begin, mock.Mock(side_effect=OSError(ENOSPC, "No space left"))
        fails = [full] * count
        shutil.rmtree(self.store + ".spool", ignore_errors=True)

        def begins(spool: SpoolFolder) -> None:
            with mock.patch("os.mkdir", fails.pop() if fails else os.mkdir):
                begin(spool)

        return begins

    def test_no_room_for_its_folder(self) -> None:
        """A start waits for that."""
        self.followed()
        self.patch(SpoolFolder, "begin", self.full(3))
        self.patch(filter_life, "OPENED_AFTER", (0.01,))
        self.change()
        run = adding_case.Run(self)
        self.assertTrue(run.until(lambda: self.is_stored(run)), self.said)
        run.end()
        self.assertEqual((run.raised, run.progress.restarts), (None, 0))
        told = f"{self.store}.spool: No space left: it is tried again in"
        self.assertEqual(sum(told in it for it in self.said), 3, self.said)
        self.assertIn("No space left", run.progress.last_error or "")
        self.compare()

    def test_it_ends_while_its_folder_has_no_room(self) -> None:
        self.followed()
        self.patch(SpoolFolder, "begin", self.full(1 << 20))
        run = adding_case.Run(self)
        self.assertTrue(run.until(lambda: any("No space left" in it for it in self.said)))
        run.end()
        self.assertEqual((run.raised, run.thread.is_alive()), (None, False))

    def test_it_waits_for_room(self) -> None:
        self.followed()
        Path(self.store + ".fault").write_text(NO_ROOM, "ascii")
        self.world.commit(insert(T, (1000, "x")))
        looks = list[int]()

        def room(_: SpoolFolder) -> int:
            looks.append(1)
            return 0 if len(looks) < 5 else 1 << 62

        self.patch(SpoolFolder, "room", room)
        run = adding_case.Run(self)
        self.assertTrue(run.until(lambda: self.is_stored(run) and run.progress.restarts > 0))
        run.end()
        self.assertEqual((run.raised, len(looks)), (None, 5))
        self.assertGreater(len(self.world.commits), FIRST)
        self.compare()

    def test_it_ends_while_it_waits(self) -> None:
        self.followed()
        Path(self.store + ".fault").write_text(NO_ROOM, "ascii")
        self.world.commit(insert(T, (1000, "x")))
        self.patch(SpoolFolder, "room", lambda _: 0)
        run = adding_case.Run(self)
        self.assertTrue(run.until(lambda: run.progress.state == "waiting to connect again"))
        run.end()
        self.assertEqual((run.raised, run.thread.is_alive()), (None, False))
