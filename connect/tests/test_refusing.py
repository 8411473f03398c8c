"""What is in the way where a table is added, for a while and for good."""

from __future__ import annotations

import re
import unittest
from pathlib import Path

from pgsub_connect.add import requests, retries, turn
from pgsub_connect.drift.findings import About
from pgsub_connect.drift.remembered import Remembered
from pgsub_connect.errors import NoSlot, ServerError, Unconnected
from pgsub_connect.follow.spool_faults import SpoolFaults
from pgsub_connect.follow.upkeep import Upkeep
from pgsub_connect.store.checkpoint import read_known
from pgsub_connect.stream import filter as stream_filter
from pgsub_connect.stream.filter_end import FilterEnded
from pgsub_feed.errors import Passing, Unfit
from pgsub_feed.interruption import Check

from .adding_case import OTHER, THIRD, Case, Run, T
from .small_world import WorldSource, insert


class InTheWay(Case):
    """What is in the way for a while, and what for good."""

    def setUp(self) -> None:
        super().setUp()
        self.followed()
        self.spoil()

    def fails(self, moment: str, *errors: Exception) -> None:
        """Raises these at a moment, one at each time."""
        left = list(errors)

        def hook(name: str) -> None:
            if name == moment:
                self.change()
                if left:
                    raise left.pop(0)

        WorldSource.hook = staticmethod(hook)

    def test_for_a_while(self) -> None:
        for moment, errors in (
            (
                "Source",
                (
                    ServerError("lost"),
                    Unfit("another server"),
                    Unconnected("another password", "28P01"),
                ),
            ),
            ("make_slot", (NoSlot("late"), ServerError("lost", "08006"))),
            ("see", (Passing("changed: nothing was compared"),)),
            ("COPY", (ServerError("gone", "42P01"), ServerError("lost"))),
            ("block", (ServerError("ended", "57P01"),)),
        ):
            with self.subTest(moment):
                self.said.clear()
                self.want(T)
                self.change()
                self.fails(moment, *errors)
                self.goes_on()
                self.assertEqual(
                    sum("it is added later" in it for it in self.said), len(errors), self.said
                )

    def test_following_goes_on_without_a_slot(self) -> None:
        self.want(T)
        self.patch(retries, "LONGEST_DELAY", 0.02)
        self.fails("make_slot", *[NoSlot("late")] * 10000)
        run = Run(self)
        self.assertTrue(
            run.until(lambda: len([it for it in self.said if "made no slot" in it]) > 3), self.said
        )
        self.assertTrue(
            run.until(lambda: "made no slot" in run.progress.findings.adding["public.t (16385)"]),
            run.progress.findings.adding,
        )
        self.world.commit(insert(THIRD, (1, "x")))
        end = self.world.end
        self.assertTrue(run.until(lambda: run.filter.confirmed() >= end))
        self.assertEqual(read_known(run.checkpoint.path).adding, {T: 0})
        self.fails("none")
        self.assertTrue(run.until(lambda: not run.remembered.wanted), self.said)
        self.assertTrue(run.until(lambda: self.is_stored(run)))
        run.end()
        self.compare()

    def test_a_slot_behind_the_stream(self) -> None:
        """As of a standby: its LSN is taken by no commit, and the table isn't said to be there."""
        points = [0x10, self.world.end]
        real = WorldSource.make_slot

        def make_slot(source: WorldSource, seconds: float, check: Check) -> tuple[int, str]:
            found = real(source, seconds, check)
            return (points.pop(0), found[1]) if points else found

        self.patch(WorldSource, "make_slot", make_slot)
        self.want(T)
        self.goes_on()
        self.assertEqual(sum("is it of a standby behind?" in it for it in self.said), 2, self.said)

    def refused(self, text: str, **options: object) -> Run:
        """Follows until the table is refused, and others are followed on."""
        run = Run(self, **options)
        self.assertTrue(
            run.until(lambda: any(run.remembered.wanted.values())), (self.said, run.raised)
        )
        self.assertIn(text, run.remembered.wanted[T])
        self.change()
        self.assertTrue(run.until(lambda: self.is_stored(run)), (self.said, run.raised))
        self.assertIn("can't be added", run.progress.findings.found["publication"])
        run.end()
        self.assertEqual(read_known(self.store + ".connector").found.keys(), {"publication"})
        self.assertEqual(WorldSource.open, 0)
        return run

    def test_for_good(self) -> None:
        """A table that can't be read is refused, and the next start tries it again; what was found
        of it goes then."""
        for moment, errors in (
            ("see", [ServerError("permission denied", "42501")]),
            ("COPY", [ServerError("bad bytes", "22021")] * retries.ATTEMPTS),
        ):
            self.want(T)
            self.patch(retries, "LONGEST_DELAY", 0.02)
            self.fails(moment, *errors)
            self.refused(str(errors[0]))
            self.fails("none")
            self.goes_on()

    def test_a_table_above_what_may_be_buffered(self) -> None:
        self.want(T)
        self.refused("--max-buffered", max_buffered=500)
        self.want(T)
        self.refused("--max-frame", max_frame=40)
        self.goes_on()

    def test_a_table_of_any_size(self) -> None:
        """The connector has a block of it at a time."""
        rows = [insert(T, (5000 + it, "x" * 100)) for it in range(2000)]
        self.world.commit(*rows)
        waiting, push = list[int](), Upkeep.push

        def noted(upkeep: Upkeep, frames: bytes) -> None:
            push(upkeep, frames)
            waiting.append(upkeep.filter.input.waiting)

        self.patch(Upkeep, "push", noted)
        self.patch(stream_filter, "ROOM", 8 << 10)
        self.want(T)
        run = self.goes_on(max_buffered=None)
        self.assertEqual((run.progress.restarts, run.remembered.found), (0, {}))
        self.assertGreater(len(waiting), 200)
        self.assertLess(max(waiting), 8 << 10)

    def test_a_table_that_its_disk_has_no_room_for(self) -> None:
        """It is tried again, in case others had the room. What it would need is told then, by the
        status, too; the others are followed on, and the next start tries it again."""
        self.world.commit(*(insert(T, (5000 + it, "x" * 100)) for it in range(2000)))
        self.patch(turn, "estimated_rows", lambda *_: 2 * 2025)
        self.patch(turn, "BLOCK", 1 << 12)
        self.patch(SpoolFaults, "lacks_room", lambda _: False)
        self.want(T)
        disk = Path(self.store + ".room")
        run, ended = Run(self), list[int]()
        note_end = run.follower.adder.note_end

        def noted(end: FilterEnded) -> bool:
            ended.append(run.follower.adder.sent.count if run.follower.adder.sent else 0)
            return note_end(end)

        setattr(run.follower.adder, "note_end", noted)
        disk.write_text("100000", encoding="ascii")
        self.assertTrue(
            run.until(lambda: any(run.remembered.wanted.values())), (self.said, run.raised)
        )
        self.assertEqual((len(ended), run.progress.restarts), (2, 2))
        why = run.remembered.wanted[T]
        found = re.search(
            r"its rows need about (\d+) bytes in (\S+), whose disk has had \d+ bytes", why
        )
        assert found
        self.assertEqual(found[2], self.store + ".spool/transactions")
        # (as many as the server's statistics have, of which not all had come)
        self.assertGreater(int(found[1]), 2 * 2000 * 100)
        self.assertIn("(spool 4 NoRoom)", why)
        findings = run.progress.findings
        # (it is told at the next look at the progress)
        self.assertTrue(
            run.until(lambda: findings.adding["public.t (16385)"] == why), findings.adding
        )
        self.change()
        self.assertTrue(run.until(lambda: self.is_stored(run)), (self.said, run.raised))
        run.end()
        disk.unlink()
        self.goes_on()

    def test_any_size_may_be_asked_for(self) -> None:
        self.patch(requests, "sizes_of", lambda *_: {T: 1 << 50})
        for most, told in ((1 << 40, "--max-buffered"), (None, "")):
            run = Run(self, max_buffered=most)
            self.assertTrue(run.until(lambda: run.progress.state == "following"))  # noqa: B023
            self.assertIn(told, run.ask(add=[T]) or "")
            self.assertEqual(bool(run.remembered.wanted), most is None)
            run.end()
        self.goes_on()

    def test_the_others_are_added(self) -> None:
        self.want(T, OTHER)
        self.fails("see", ServerError("permission denied", "42501"))
        run = Run(self)
        self.assertTrue(
            run.until(lambda: list(run.remembered.wanted) == [T]), (self.said, run.raised)
        )
        self.assertIn("permission denied", run.remembered.wanted[T])
        run.end()

    def test_a_filter_that_dies_with_the_rows(self) -> None:
        self.want(T)
        run = Run(self)
        with open(self.store + ".dies", "w", encoding="ascii") as file:
            file.write("0")
        self.change()
        self.assertTrue(run.until(lambda: run.progress.restarts > 0), self.said)
        run.end()
        self.goes_on()

    def test_strict(self) -> None:
        """What is found of a table that is being added ends nothing, unless that is refused."""
        text = "table public.t (16385) joined: the rows that it had before are missing"
        remembered = Remembered(self.store)
        remembered.found.find("publication", 1, text, About((T,), is_missing=True))
        remembered.save()
        self.want(T)
        run = self.goes_on(strict=True)
        self.assertEqual((run.checkpoint.known.found, Remembered(self.store).found), ({}, {}))
        self.want(T)
        self.fails("see", ServerError("permission denied", "42501"))
        run = Run(self, strict=True)
        self.assertFalse(run.until(lambda: False))
        self.assertIsInstance(run.raised, Unfit)


if __name__ == "__main__":
    unittest.main()
