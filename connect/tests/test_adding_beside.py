"""Tables that are added while the stream goes on: their rows come later, with their changes since."""

from __future__ import annotations

import errno
import struct
import threading
import unittest
from collections.abc import Callable
from unittest import mock

from pgsub_connect.add import adder, kept_changes, turn
from pgsub_connect.add.adder import Adder
from pgsub_connect.add.kept_changes import KeptChanges
from pgsub_connect.add.turn import RowsSender
from pgsub_connect.add.waiting_frames import WaitingFrames
from pgsub_connect.errors import ServerError

from .adding_case import OTHER, THIRD, Case, Run, T
from .small_world import RUNNING, WorldSource, delete, insert, wait_for
from .vectors import data


def truncate(*oids: int) -> bytes:
    return data(b"T" + struct.pack(f">IB{len(oids)}I", len(oids), 0, *oids))


class Beside(Case):
    """Nothing is held, not for a moment."""

    def setUp(self) -> None:
        super().setUp()
        self.patch(adder, "HELD", -1.0)
        self.world.record = RUNNING
        self.followed()
        self.spoil()

    def at(self, moment: str, does: Callable[[], object]) -> None:
        """Does something at a moment of a table's reading."""

        def hook(name: str) -> None:
            if name == moment:
                does()

        WorldSource.hook = staticmethod(hook)

    def running(self, moment: str, does: Callable[[Run], object], **options: object) -> Run:
        """Begins a run that does something at a moment of a table's reading."""
        runs = list[Run]()

        def at() -> None:
            wait_for(lambda: bool(runs))
            does(runs[0])

        self.at(moment, at)
        runs.append(Run(self, **options))
        return runs[0]

    def committed(self, run: Run, does: Callable[[], object]) -> bool:
        """Commits something, and waits until that is confirmed."""
        does()
        end = self.world.commits[-1][0]
        return run.until(lambda: run.filter.confirmed() >= end)

    def test_commits_come_at_each_moment(self) -> None:
        for moment in ("Source", "make_slot", "see", "COPY", "block"):
            with self.subTest(moment):
                self.want(T)
                self.at(moment, self.change)
                self.goes_on()

    def test_others_are_stored_meanwhile(self) -> None:
        """What is committed while the rows are read, of the table and of others, is confirmed."""
        self.want(T)
        stored = list[bool]()

        run = self.running("block", lambda it: stored.append(self.committed(it, self.change)))
        self.assertTrue(run.until(lambda: not run.remembered.wanted), (self.said, run.raised))
        run.end()
        self.assertEqual(stored, [True] * len(stored))
        self.assertGreater(len(stored), 2)
        self.at("none", self.change)
        self.goes_on()

    def test_a_stream_behind_the_slot(self) -> None:
        """What the snapshot has comes after the rows are read."""
        self.want(T)

        def stall() -> None:
            self.world.stalls = True
            self.change()

        self.at("make_slot", stall)
        run = Run(self)
        self.assertTrue(run.until(lambda: run.follower.adder.phase == adder.SEEKING), self.said)
        self.world.stalls = False
        self.change()
        self.assertTrue(run.until(lambda: not run.remembered.wanted), (self.said, run.raised))
        run.end()
        self.at("none", self.change)
        self.goes_on()

    def test_truncations(self) -> None:
        """Of the table alone, and of several."""
        for oids in ((T,), (T, OTHER), (OTHER, THIRD, T)):
            with self.subTest(oids):
                self.spoil()
                self.want(T)

                def truncates(oids: tuple[int, ...] = oids) -> None:
                    goes = (insert(it, (9000, "goes")) for it in (T, OTHER, THIRD))
                    self.world.commit(*goes, truncate(*oids), insert(T, (9001, f"after {oids}")))

                run = self.running("COPY", lambda it: self.committed(it, truncates))  # noqa: B023
                self.assertTrue(
                    run.until(lambda: not run.remembered.wanted), (self.said, run.raised)
                )
                run.end()
                self.at("none", self.change)
                self.goes_on()
                rest = {it: [(str(9000), "goes")] for it in (OTHER, THIRD) if it not in oids}
                self.world.commit(*(delete(it, 9000) for it in rest))

    def test_a_quiet_server(self) -> None:
        """The rows come once it has written anything; a transaction that comes first does, too."""
        self.world.record = 0
        self.want(T)
        run = self.running("block", lambda it: self.committed(it, self.change))
        waits = "waits for its place in the stream"
        self.assertTrue(
            run.until(lambda: waits in run.progress.findings.adding.values()),
            (self.said, run.raised, run.progress.findings.adding),
        )
        # (the record of a commit begins where the one before it ended)
        self.change()
        self.assertTrue(run.until(lambda: self.is_stored(run)))
        self.assertEqual(run.remembered.wanted, {T: ""})
        self.world.end += RUNNING
        self.world.commit(insert(OTHER, (7000, "later")))
        self.assertTrue(run.until(lambda: not run.remembered.wanted), (self.said, run.raised))
        run.end()
        self.at("none", self.change)
        self.world.record = RUNNING
        self.goes_on()

    def test_an_altered_table_is_read_again(self) -> None:
        """Its changes have another definition than the rows."""
        has_others = KeptChanges.has_others
        found = list[bool]()

        def once(kept: KeptChanges, relation: bytes) -> bool:
            found.append(not found or has_others(kept, relation))
            return found[-1]

        self.patch(KeptChanges, "has_others", once)
        self.want(T)
        self.goes_on()
        self.assertEqual(found, [True, False])
        self.assertIn("it was altered while its rows were read", " ".join(self.said))

    def test_a_disk_that_is_full(self) -> None:
        """On which rows wait: the table is refused at the second time, and others go on."""
        real, room = WaitingFrames.append, [0]

        def append(frames: WaitingFrames, block: bytes) -> None:
            if frames.size() >= room[0]:
                raise OSError(errno.ENOSPC, "No space left on device")
            real(frames, block)

        self.patch(WaitingFrames, "append", append)
        self.want(T)
        run = Run(self)
        self.assertTrue(
            run.until(lambda: any(run.remembered.wanted.values())), (self.said, run.raised)
        )
        self.assertEqual(sum("No space left" in it for it in self.said), 1, self.said)
        self.assertIn("its rows need about", run.remembered.wanted[T])
        self.assertEqual(run.progress.restarts, 0)
        self.change()
        self.assertTrue(run.until(lambda: self.is_stored(run)))
        run.end()
        room[0] = 1 << 30
        self.goes_on()

    def test_a_disk_that_is_full_of_changes(self) -> None:
        """What is kept has no room: it is tried again."""
        self.patch(kept_changes, "BLOCK", 1)
        full, real = list[int](), WaitingFrames.append

        def append(frames: WaitingFrames, block: bytes) -> None:
            if frames is run.follower.adder.kept.frames and not full:  # type: ignore[union-attr]
                full.append(1)
                raise OSError(errno.ENOSPC, "No space left on device")
            real(frames, block)

        self.patch(WaitingFrames, "append", append)
        self.want(T)
        run = self.running("COPY", lambda it: self.committed(it, self.change))
        self.assertTrue(run.until(lambda: not run.remembered.wanted), (self.said, run.raised))
        run.end()
        self.assertIsNone(run.raised)
        self.assertEqual(sum("No space left" in it for it in self.said), 1, self.said)
        self.at("none", self.change)
        self.goes_on()

    def test_a_disk_that_fails(self) -> None:
        """Before the rows are passed on, and within them: another session begins then."""
        self.patch(turn, "BLOCK", 1)
        for where, name, sessions in ((WaitingFrames, "append", 1), (WaitingFrames, "blocks", 2)):
            with self.subTest(name):
                self.said.clear()
                failed, real = list[int](), getattr(where, name)

                def fails(
                    *words: object, real: object = real, failed: list[int] = failed
                ) -> object:
                    failed.append(1)
                    if len(failed) == 1:
                        raise OSError(errno.EIO, "Input/output error")
                    assert callable(real)
                    return real(*words)

                before = self.server.sessions
                self.want(T)
                with mock.patch.object(where, name, fails):
                    self.goes_on()
                text = " ".join(self.said)
                self.assertIn("Input/output error: it is added later", text)
                # (one is of whole transactions, and one behind it isn't)
                self.assertEqual(self.server.sessions - before, sessions + 1)

    def test_what_is_kept_counts_as_what_may_be_buffered(self) -> None:
        self.want(T)
        row = insert(T, (9100, "x" * 3000))
        run = self.running(
            "COPY",
            lambda it: self.committed(it, lambda: self.world.commit(row)),
            max_buffered=3300,
        )
        self.assertTrue(
            run.until(lambda: any(run.remembered.wanted.values())), (self.said, run.raised)
        )
        self.assertIn("--max-buffered", run.remembered.wanted[T])
        run.end()
        self.at("none", self.change)
        self.goes_on()

    def test_a_reader_that_breaks_off(self) -> None:
        """It isn't taken for a table that isn't published any more."""
        self.patch(threading, "excepthook", lambda *_: None)
        self.want(T)
        broken = list[int]()

        def breaks() -> None:
            broken.append(1)
            if len(broken) == 1:
                raise ZeroDivisionError

        self.at("see", breaks)
        self.goes_on()
        self.assertIn("its rows weren't read: it is added later", " ".join(self.said))

    def test_the_session_is_lost_while_rows_are_read(self) -> None:
        """What was read goes, and they are read again."""
        self.want(T)
        lost, real = list[int](), Adder.end_session

        def lose(run: Run) -> None:
            if not lost:
                lost.append(1)
                run.calls.append(mock.Mock(side_effect=ServerError("lost")))
                run.until(lambda: len(lost) > 1)

        def ended(it: Adder) -> None:
            lost.append(1)
            real(it)

        self.patch(Adder, "end_session", ended)
        run = self.running("COPY", lose)
        self.assertTrue(run.until(lambda: not run.remembered.wanted), (self.said, run.raised))
        run.end()
        self.goes_on()

    def test_a_repair_has_to_wait(self) -> None:
        """The laws of a repair speak of no table that is added in the same session."""
        self.want(T)
        answers = list[str]()

        def read(run: Run) -> None:
            asked = {"ask": "hold", "into": self.store + ".copy", "seconds": 5.0, "repair": True}
            run.calls.append(lambda: answers.append(run.snapshots.obstacle_to_hold(asked)))
            run.until(lambda: bool(answers))

        run = self.running("COPY", read)
        self.assertTrue(run.until(lambda: not run.remembered.wanted), (self.said, run.raised))
        self.assertIn("repair rows once it is there", answers[0])
        run.end()
        self.at("none", self.change)
        self.goes_on()

    def test_the_messages_that_are_passed_on(self) -> None:
        """Each of them is noted once: the rows, the changes since, and no other."""
        self.want(T)
        run = self.running("COPY", lambda it: self.committed(it, self.change))
        passed, real = list[bytes](), RowsSender.push

        def push(sender: RowsSender, frames: bytes, payloads: list[bytes]) -> None:
            passed.extend(it[25:30] for it in payloads)
            real(sender, frames, payloads)

        self.patch(RowsSender, "push", push)
        self.assertTrue(run.until(lambda: not run.remembered.wanted), (self.said, run.raised))
        run.end()
        own = struct.pack(">I", T)
        letters = [it[:1] for it in passed if it[1:5] == own or it[:1] in b"BCT"]
        # (the Truncate's table stands behind its number)
        self.assertEqual(b"".join(letters), b"BRT" + b"IUIDI" + b"C")


if __name__ == "__main__":
    unittest.main()
