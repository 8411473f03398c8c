"""Tables that are added to a running copy: what the store has in the end, and what is noted,
wherever it is cut."""

from __future__ import annotations

import contextlib
import dataclasses
import unittest
from unittest import mock

from pgsub_connect.add import replacement
from pgsub_connect.add.adder import Adder
from pgsub_connect.add.replacement import Rows
from pgsub_connect.copy import row_order
from pgsub_connect.drift.findings import About
from pgsub_connect.drift.remembered import Remembered
from pgsub_connect.errors import NoSlot, ServerError
from pgsub_connect.store.checkpoint import Checkpoint
from pgsub_feed.errors import Passing, Stopped
from pgsub_feed.relation import Shape

from .adding_case import OTHER, THIRD, Case, Run, T
from .row_filter import Store
from .small_world import RUNNING, WorldSource, insert


class Added(Case):
    def test_rows_that_are_wrong_are_replaced(self) -> None:
        self.followed()
        self.spoil()
        self.want(T)
        self.change()
        with mock.patch("pgsub_feed.log.WRITTEN", -1.0):
            run = self.goes_on()
        self.assertEqual(run.progress.findings.adding, {})
        self.assertIn("public.t: 27 rows as of", " ".join(self.said))
        self.assertIn("reading public.t: 10 rows, 0 a second", self.said)
        self.assertIn("adding public.t: 10 of 27 rows, 0 a second", self.said)
        self.assertIn("opening the store: 0 of 0 MB, 0 a second", self.said)

    def test_rows_in_the_order_of_the_key(self) -> None:
        """Unless there are few. (Commits that wait for the follower don't wait for a sort.)"""
        self.patch(WorldSource, "copied", copied := list[str]())
        self.followed()
        self.world.record = RUNNING
        for least, waited_for, is_sorted in (
            (1, "", True),
            (1 << 20, "", False),
            (1, "*", True),
        ):
            with self.subTest(least=least, waited_for=waited_for):
                self.patch(row_order, "LEAST", least)
                self.patch(WorldSource, "waited_for", waited_for)
                self.spoil()
                self.want(T)
                self.change()
                self.goes_on()
                self.assertEqual("ORDER BY" in copied[-1], is_sorted, copied)

    def test_a_request_while_it_runs(self) -> None:
        """The session begins anew with whole transactions, and at the end anew without."""
        self.followed()
        self.spoil()
        run = Run(self)
        self.assertTrue(run.until(lambda: run.progress.state == "following"))
        self.assertIsNone(run.ask(add=[T, OTHER]))
        self.change()
        self.assertTrue(
            run.until(lambda: self.server.sessions >= 4 and not run.remembered.wanted),
            (self.said, run.raised),
        )
        self.change()
        self.assertTrue(run.until(lambda: self.is_stored(run)))
        run.end()
        self.compare()
        streams = ["streaming" in words for _, words in self.server.started[-3:]]
        self.assertEqual(streams, [True, False, True])

    def test_tables_that_the_initial_copy_has_left_for_later(self) -> None:
        """All of them are left out from the first session on, since their rows are a part at most;
        none needs a session of its own."""
        self.patch(replacement, "MOST", 1)
        self.followed()
        self.spoil()
        Remembered(self.store).want_later([T, OTHER, THIRD])
        self.change()

        def no_slot(name: str) -> None:
            if name == "make_slot":
                raise NoSlot("late")

        WorldSource.hook = staticmethod(no_slot)
        run = Run(self)
        self.assertTrue(
            run.until(lambda: any("made no slot" in it for it in self.said)),
            (self.said, run.raised),
        )
        self.assertEqual(
            (run.follower.adder.leaving.points, run.checkpoint.known.adding),
            (dict.fromkeys((T, OTHER, THIRD), 0), {}),
        )
        run.end()
        WorldSource.hook = staticmethod(lambda name: None)
        self.goes_on()
        self.assertEqual((Remembered(self.store).partial, self.server.sessions), (set(), 4))

    def test_several_tables_have_their_own_lsn(self) -> None:
        self.followed()
        self.spoil()
        self.want(THIRD, T, OTHER)
        points = []
        real = Adder.finish

        def finish(adder: Adder, oid: int, point: int) -> None:
            points.append((oid, point))
            self.change()
            real(adder, oid, point)

        self.patch(Adder, "finish", finish)
        self.goes_on()
        self.assertEqual([oid for oid, _ in points], [THIRD, T, OTHER])
        self.assertEqual(sorted(point for _, point in points), [point for _, point in points])

    def test_commits_come_at_each_moment(self) -> None:
        """Beside the slot, its snapshot, and the rows; before P and behind it."""
        self.followed()
        self.spoil()
        for moment in ("Source", "make_slot", "see", "COPY", "block"):
            self.want(T)
            WorldSource.hook = staticmethod(
                lambda name, moment=moment: self.change() if name == moment else None
            )
            self.goes_on()

    def test_a_table_that_is_not_published(self) -> None:
        self.followed()
        del self.world.tables[THIRD]
        self.want(THIRD)
        self.goes_on()
        self.assertIn("isn't published any more", " ".join(self.said))

    def test_rows_of_a_table_that_left(self) -> None:
        """They go as one transaction, and nothing is wrong any more."""
        self.followed()
        remembered = Remembered(self.store)
        remembered.left.add(OTHER)
        remembered.found.find(
            "publication", 1, "its rows stay", About((OTHER,), gone="public.other")
        )
        remembered.save()
        del self.world.tables[OTHER]
        run = Run(self)
        self.assertTrue(run.until(lambda: run.progress.state == "following"))
        self.assertIsNone(run.ask(add=[T], remove=[OTHER]))
        self.world.commit(insert(T, (500, "x")))
        self.assertTrue(
            run.until(lambda: not run.remembered.wanted and self.is_stored(run)),
            (self.said, run.raised),
        )
        run.end()
        remembered, rows = Remembered(self.store), self.world.rows_of(T)
        self.assertEqual(
            (remembered.found, remembered.unwanted, OTHER in remembered.sent), ({}, set(), False)
        )
        with contextlib.closing(Store(self.store).base):
            self.assertEqual(Store(self.store).rows(), rows)

    def test_requests_that_are_rejected(self) -> None:
        self.followed()
        self.server.slot_at = self.world.end
        run = Run(self, max_buffered=10)
        self.assertTrue(run.until(lambda: run.progress.state == "following"))
        for asked, text in (
            ("x", "malformed"),
            (["1"], "malformed"),
            ([5], "table 5 isn't published"),
            ([T], "--max-buffered"),
        ):
            self.assertIn(text, run.ask(add=asked) or "")
        for oid in (T, 5):
            self.assertIn(
                f"table {oid} is published, or isn't known", run.ask(add=[], remove=[oid]) or ""
            )
        self.patch(Checkpoint, "has_room_for", lambda *_: False)
        self.assertIn("no room", run.ask(add=[THIRD]) or "")
        for error, text in (
            (ServerError("denied", "42501"), "denied"),
            (Passing("not yet"), "not yet"),
            (Stopped(), "about to end"),
        ):
            WorldSource.hook = staticmethod(mock.Mock(side_effect=error))
            self.assertIn(text, run.ask(add=[THIRD]) or "")
        self.assertEqual((run.remembered.wanted, WorldSource.open), ({}, 0))

    def test_a_request_while_the_server_is_away(self) -> None:
        """It is taken, and what is in the way shows later."""
        self.followed()
        run = Run(self)
        self.assertTrue(run.until(lambda: run.progress.state == "following"))
        WorldSource.hook = staticmethod(mock.Mock(side_effect=ServerError("lost")))
        self.assertIsNone(run.ask(add=[THIRD]))
        self.assertEqual(run.remembered.wanted, {THIRD: ""})


class Altered(Case):
    """A table that is altered between a session's last change of it and P, and altered back behind
    P, which the server doesn't tell in the same session: as a partitioned table whose rows are sent
    under its own name, and that is altered without its partitions.
    """

    def setUp(self) -> None:
        super().setUp()
        self.followed()
        self.spoil()
        self.waits, self.points = True, list[tuple[int, int]]()
        real = Adder.finish

        def finish(adder: Adder, oid: int, point: int) -> None:
            self.points.append((oid, point))
            real(adder, oid, point)

        self.patch(Adder, "finish", finish)

    def alter(self, is_full: bool) -> None:
        """Alters the table for who reads it. A session has described it as it was before, and
        doesn't tell."""
        it = self.world.known[T]
        columns = tuple(column._replace(key=True) for column in it.columns)
        self.world.tables[T] = dataclasses.replace(it, shape=Shape("f", columns)) if is_full else it

    def described(self, **options: object) -> Run:
        """Begins to add tables, and lets their changes come, which are left out."""
        began_waiting = True

        def hook(name: str) -> None:
            nonlocal began_waiting
            if name == "Source":
                began_waiting = self.waits
            # (what was read of a table before the wait ended may be from before it was altered)
            if name == "make_slot" and began_waiting:
                raise NoSlot("late")
            if name == "COPY" and self.world.tables[T].identity == "f":
                self.alter(False)
                self.change()

        WorldSource.hook = staticmethod(hook)
        run = Run(self, **options)
        self.assertTrue(run.until(lambda: run.progress.state == "following"))
        self.assertIsNone(run.ask(add=[T, OTHER]))
        self.assertTrue(run.until(lambda: run.follower.adder.leaving.points.keys() == {T, OTHER}))
        self.change()
        self.assertTrue(run.until(lambda: self.is_stored(run)), (self.said, run.raised))
        return run

    def ends(self, run: Run) -> list[tuple[int, str]]:
        """Ends once all is added and stored. Returns the sessions that began since tables are left
        out."""
        self.change()
        self.assertTrue(
            run.until(lambda: not run.remembered.wanted and self.is_stored(run)),
            (self.said, run.raised),
        )
        run.end()
        self.assertIsNone(run.raised)
        self.compare()
        return self.server.started[2:]

    def test_a_session_ends_with_the_rows(self) -> None:
        """Nothing behind P is passed on before: another one begins at P."""
        run = self.described(proto=1)
        self.alter(True)
        self.waits = False
        self.assertTrue(run.until(lambda: len(self.points) == 2), (self.said, run.raised))
        sessions = self.ends(run)
        self.assertEqual(
            (len(sessions), sessions[1][0], [oid for oid, _ in self.points]),
            (2, self.points[0][1], [T, OTHER]),
        )

    def test_a_session_goes_on_with_the_same_definition(self) -> None:
        run = self.described(proto=1)
        self.waits = False
        self.assertTrue(run.until(lambda: len(self.points) == 2), (self.said, run.raised))
        self.assertEqual(len(self.ends(run)), 1)

    def test_the_filter_is_lost_before_the_rows_are_stored(self) -> None:
        """They are read again, in a session that hasn't described the table."""
        run = self.described()
        self.alter(True)
        lost = list[int]()

        def closing(rows: Rows) -> bytes:
            if not lost:
                lost.append(rows.point)
                with open(self.store + ".dies", "w", encoding="utf-8") as file:
                    file.write(str(rows.point))
            return real(rows)

        real = Rows.closing
        self.patch(Rows, "closing", closing)
        self.waits = False
        self.assertTrue(run.until(lambda: len(self.points) == 2), (self.said, run.raised))
        self.ends(run)
        self.assertGreater(self.points[0][1], lost[0])

    def test_the_end_is_asked_for_before(self) -> None:
        """The next start begins a session of its own."""
        run = self.described()
        self.alter(True)

        def wants_session(adder: Adder) -> bool:
            # (its rows are stored then, which isn't so as soon as it ends the session)
            wanted = real(adder)
            if wanted and adder.ends_session:
                run.follower.ending.stop_asked = True
            return wanted

        real = Adder.wants_session
        self.patch(Adder, "wants_session", wants_session)
        self.waits = False
        run.thread.join(60)
        self.assertEqual(
            (run.raised, run.snapshots.hold.is_held, [oid for oid, _ in self.points]),
            (None, False, [T]),
        )
        self.goes_on()


if __name__ == "__main__":
    unittest.main()
