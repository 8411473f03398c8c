"""Commits that a server sends again: that one that was set back is found, whatever ends the
connector or the filter meanwhile, and that no other one is, whatever is left out of the stream."""

from __future__ import annotations

import os
import shutil
import signal
import time
from pathlib import Path
from typing import Any
from unittest import mock

from pgsub_connect.commands.drop import files_of
from pgsub_connect.drift.findings import REPEAT, UNWATCHED
from pgsub_connect.drift.remembered import Remembered
from pgsub_connect.errors import NoSlot, ServerError
from pgsub_connect.server.session import Subscription
from pgsub_connect.store.checkpoint import Checkpoint, read_known
from pgsub_connect.store.repeats_file import RepeatsFile
from pgsub_connect.stream.filter import LOAD, Filter
from pgsub_feed.errors import FileError
from pgsub_feed.texts import lsn_text

from .adding_case import FIRST, OTHER, Case, Run, T
from .fake_server import Quiet, Row
from .row_filter import Store, Subscriber
from .small_world import WorldSource, insert


class File(Quiet):
    """Whether what is noted is of what comes."""

    def setUp(self) -> None:
        super().setUp()
        self.store = self.make_folder() + "/copy.db"
        self.checkpoint = Checkpoint(self.store)
        self.addCleanup(os.close, self.checkpoint.file)
        self.followed = Subscription(publications=["b", "a"])
        self.file = RepeatsFile(self.store, self.checkpoint, self.followed)

    def is_kept(self) -> bool:
        """Whether the file is there where a filter begins."""
        Path(self.file.path).touch()
        self.file.prepare()
        return os.path.exists(self.file.path)

    def test_nothing_is_known_of_it(self) -> None:
        self.assertEqual((self.file.since(), self.is_kept()), (0, False))
        self.file.prepare()

    def test_it_is_of_these_publications(self) -> None:
        """In whatever order they are named."""
        self.file.begin_at(0x108)
        for names, since in ((["a", "b"], 0x108), (["a"], 0), (["a", "b", "c"], 0), (["ab"], 0)):
            self.followed.note_publications(names)
            self.assertEqual((self.file.since(), self.is_kept()), (since, since > 0), names)

    def test_it_is_with_messages_or_without(self) -> None:
        """A commit that has nothing else comes with them alone."""
        others = Subscription(publications=["", "a", "b"])
        with_messages = RepeatsFile(self.store, self.checkpoint, self.followed, True)
        for one, other in ((self.file, with_messages), (with_messages, self.file)):
            one.begin_at(0x108)
            self.assertEqual((one.since(), other.since()), (0x108, 0))
        with_messages.begin_at(0x108)
        self.assertEqual(RepeatsFile(self.store, self.checkpoint, others).since(), 0)

    def test_a_store_at_the_beginning(self) -> None:
        self.file.begin_at(0)
        self.assertEqual((self.file.since(), self.is_kept()), (1, True))

    def test_it_outlasts_the_process(self) -> None:
        self.file.begin_at(0x108)
        self.assertEqual(read_known(self.checkpoint.path).repeats, 0x108)
        self.checkpoint.forget_repeats()
        self.assertEqual(read_known(self.checkpoint.path).repeats, 0)

    def test_another_store(self) -> None:
        self.file.begin_at(0x108)
        for forgets in (self.checkpoint.begin_anew, self.checkpoint.forget_server):
            forgets()
            self.assertEqual(self.file.since(), 0)

    def test_one_that_cant_go(self) -> None:
        os.mkdir(self.file.path)
        with self.assertRaisesRegex(FileError, "copy.db.repeats: "):
            self.file.prepare()

    def test_it_goes_with_the_store(self) -> None:
        for suffix in ("", ".repeats"):
            Path(self.store + suffix).touch()
        self.assertIn(self.store + ".repeats", files_of(self.store))
        self.assertTrue(files_of(self.store)[-1].endswith(".connector"))

    def test_not_with_a_load(self) -> None:
        """It would be compared as a session."""
        child = Filter(["/bin/cat", "follow"], ())
        child.note_repeats(self.file)
        self.assertEqual(child.watching(True), child.words)
        self.assertIsNone(child.compares_by())
        self.assertEqual(child.watching(False)[-2:], ["--repeats", self.file.path])
        self.assertIs(child.compares_by(), self.file)
        self.assertEqual(LOAD, "--load")


class Repeats(Case):
    """A world whose slot stays at its beginning: it sends again all that it is asked for."""

    def repeats(self) -> list[str]:
        found = Remembered(self.store).found.get(REPEAT)
        return list(found.texts) if found else []

    def set_back(self, count: int, xids: int = 0) -> None:
        """Takes the last commits back."""
        world = self.world
        with world.lock:
            del world.commits[-count:]
            world.end, world.xid = world.commits[-1][0], world.xid - xids
            world.made, world.taken = Subscriber(Store(":memory:")), 0

    def goes_on_to_the_end(self, **options: Any) -> Run:
        """Follows until one more commit is stored, and ends."""
        self.next += 1
        self.world.commit(insert(OTHER, (self.next + 7000, "last")))
        run = Run(self, **options)
        self.assertTrue(run.until(lambda: self.is_stored(run)), (self.said, run.raised))
        run.end()
        self.assertIsNone(run.raised)
        return run

    def noted(self) -> int:
        """How many commits are noted."""
        return len(Path(self.store + ".repeats").read_bytes().splitlines())

    def counted(self) -> list[str]:
        """How many were equal, of each filter."""
        return [it.split()[3] for it in self.said if it.endswith("forgotten")]


class Compared(Repeats):
    def setUp(self) -> None:
        super().setUp()
        self.followed()

    def test_no_other_ones(self) -> None:
        """All come again, and are the same; and so are those behind them at the next start."""
        self.assertEqual(self.noted(), FIRST)
        for equal in (FIRST, FIRST + 4):
            self.change()
            self.goes_on_to_the_end()
            self.assertEqual((self.counted()[-1], self.repeats()), (str(equal), []))
        self.assertEqual([it for it, _ in self.server.started], [0, 1, 1])

    def check_set_back(self, back: int, xids: int, what: str) -> None:
        """A server that was set back by some commits, and as many xids."""
        self.set_back(back, xids)
        self.world.commit(insert(T, (5000, "other")))
        end = self.world.end
        for number in range(back):
            self.world.commit(insert(T, (5001 + number, "other")))
        self.goes_on_to_the_end()
        told = f"the commit that ends at {lsn_text(end)} came before with another {what}"
        self.assertEqual(self.repeats(), [told])
        self.assertIn(f"filter: pgsub: repeats: {told}", self.said)
        # (from there on those are compared that the server has now)
        self.goes_on_to_the_end()
        self.assertEqual(self.repeats(), [told])
        self.goes_on_to_the_end(accept=[REPEAT])
        self.assertEqual(self.repeats(), [])

    def test_a_server_that_was_set_back_by_a_commit(self) -> None:
        self.check_set_back(1, 0, "xid")

    def test_by_one_with_the_same_xid(self) -> None:
        self.check_set_back(1, 1, "list of changes")

    def test_by_all_but_one(self) -> None:
        self.check_set_back(FIRST - 1, 0, "xid")

    def test_commits_of_which_there_were_none(self) -> None:
        """They end where none did."""
        self.set_back(1)
        self.world.end += 8
        self.world.commit(insert(T, (5000, "other")))
        self.goes_on_to_the_end()
        (told,) = self.repeats()
        self.assertRegex(told, "^a commit's LSN .* is below the end .* of one that came before$")

    def test_what_is_accepted_is_what_the_server_has(self) -> None:
        """It is compared from then on, from where the store is."""
        self.set_back(1)
        self.world.commit(insert(T, (5000, "other")))
        self.goes_on_to_the_end()
        before = self.world.end
        self.goes_on_to_the_end(accept=[REPEAT])
        self.assertEqual(read_known(self.store + ".connector").repeats, before)
        self.change()
        self.goes_on_to_the_end()
        self.assertEqual(self.server.started[-1][0], before)
        self.assertEqual((self.repeats(), self.noted()), ([], 5))

    def test_a_session_that_is_lost(self) -> None:
        """The filter goes on, and compares what the next one sends."""
        run = Run(self)
        self.assertTrue(run.until(lambda: run.progress.state == "following"))
        self.set_back(2)
        for number in range(4):
            self.world.commit(insert(OTHER, (5000 + number, "other")))
        sessions = self.server.sessions
        run.calls.append(mock.Mock(side_effect=ServerError("lost")))
        self.assertTrue(run.until(lambda: self.server.sessions > sessions))
        self.world.commit(insert(OTHER, (6000, "last")))
        self.assertTrue(run.until(lambda: self.is_stored(run)))
        run.end()
        (told,) = self.repeats()
        self.assertIn("came before with another", told)

    def test_a_filter_that_is_killed(self) -> None:
        """What it has noted and not stored comes again, and is the same."""
        self.change()
        Path(self.store + ".dies").write_text(str(self.world.commits[FIRST][0]), encoding="ascii")
        self.goes_on_to_the_end()
        self.assertEqual((self.repeats(), self.noted()), ([], FIRST + 4))
        self.assertEqual(self.counted()[-1:], [str(FIRST + 1)])

    def test_what_a_crash_has_lost(self) -> None:
        """The store has commits that aren't noted: none of them comes again as one that wasn't there
        before, and all are compared from then on."""
        path = Path(self.store + ".repeats")
        for content in (path.read_bytes(), b""):
            self.change()
            self.goes_on_to_the_end()
            path.write_bytes(content)
            for _ in range(2):
                self.goes_on_to_the_end()
                self.assertEqual((self.server.started[-1][0], self.repeats()), (1, []))
                self.assertEqual(self.noted(), len(self.world.commits))
        self.check_set_back(2, 0, "xid")

    def test_a_session_that_starts_in_what_a_crash_has_lost(self) -> None:
        """Those before its first commit come again, and aren't missed there."""
        path = Path(self.store + ".repeats")
        content = path.read_bytes()
        self.change()
        between = self.world.commits[FIRST][0]
        self.goes_on_to_the_end()
        path.write_bytes(content)
        for since in (between, 1):
            checkpoint = Checkpoint(self.store)
            checkpoint.write(True, repeats=since)
            os.close(checkpoint.file)
            self.goes_on_to_the_end()
            self.assertEqual((self.server.started[-1][0], self.repeats()), (since, []))

    def test_other_publications(self) -> None:
        """What is noted isn't theirs."""
        end = self.world.end
        with mock.patch.object(RepeatsFile, "checksum", lambda _: 7):
            self.goes_on_to_the_end()
        self.assertEqual(read_known(self.store + ".connector").repeats, end)
        self.assertEqual((self.server.started[-1][0], self.repeats()), (end, []))

    def test_another_timeline(self) -> None:
        """What is noted above where it began may be another one's."""
        end = self.world.end
        timeline: list[Row] = [["77", "2", lsn_text(end + 0x1000), "shop"]]
        self.brain.answer("IDENTIFY_SYSTEM", lambda _: timeline)
        self.brain.answer("TIMELINE_HISTORY", lambda _: [["x", f"1\t{lsn_text(end)}\treason"]])
        self.brain.answer("pg_postmaster_start_time", lambda _: [["2000"]])
        self.goes_on_to_the_end()
        self.assertEqual(read_known(self.store + ".connector").repeats, end)
        self.assertEqual((self.server.started[-1][0], self.repeats()), (end, []))


class Unusable(Repeats):
    """A file in which commits can't be noted."""

    def setUp(self) -> None:
        super().setUp()
        self.followed()
        self.path = Path(self.store + ".repeats")

    def found(self) -> list[str]:
        found = Remembered(self.store).found.get(UNWATCHED)
        return list(found.texts) if found else []

    def test_it_is_made_anew(self) -> None:
        """Where something else is in it."""
        self.path.write_text("x", encoding="ascii")
        end = self.world.end
        self.goes_on_to_the_end()
        self.assertEqual((self.found(), self.noted()), ([], 1))
        self.assertEqual(self.server.started[-1][0], end)

    def test_none_are_noted(self) -> None:
        """Where there can't be one, and that is told."""
        end = self.world.end

        def prepare(file: RepeatsFile) -> None:
            shutil.rmtree(file.path) if self.path.is_dir() else self.path.unlink(missing_ok=True)
            self.path.mkdir()

        with mock.patch.object(RepeatsFile, "prepare", prepare):
            run = self.goes_on_to_the_end()
        (told,) = self.found()
        self.assertRegex(told, "^commits that come again: .*can't use .*copy.db.repeats: ")
        self.assertEqual((self.server.started[-1][0], run.progress.restarts), (end, 0))
        self.path.rmdir()
        self.goes_on_to_the_end(accept=[UNWATCHED])
        self.assertEqual((self.found(), self.noted()), ([], 1))

    def test_a_full_disk_is_waited_for(self) -> None:
        """Where that is why."""
        tries = list[RepeatsFile]()

        def prepare(file: RepeatsFile) -> None:
            self.path.rmdir() if tries else self.path.unlink()
            tries.append(file)
            if len(tries) < 3:
                self.path.mkdir()

        life = "pgsub_connect.follow.filter_life"
        with mock.patch.object(RepeatsFile, "prepare", prepare), mock.patch(
            f"{life}.is_full", lambda _: True
        ), mock.patch(f"{life}.OPENED_AFTER", (0, 0, 0)):
            run = self.goes_on_to_the_end()
        self.assertEqual((self.found(), len(tries), run.progress.restarts), ([], 3, 2))


class LeftOut(Repeats):
    """While changes are left out."""

    def setUp(self) -> None:
        super().setUp()
        self.followed()

    def test_from_where_sessions_ask(self) -> None:
        """From where the store is, as long as a table is added; and from there on afterwards."""
        end = self.world.end
        self.want(T)
        self.goes_on()
        asked = [it for it, _ in self.server.started]
        self.assertEqual(asked[1], end)
        self.assertEqual(asked[-1], read_known(self.store + ".connector").repeats)
        self.assertGreater(asked[-1], end)
        self.change()
        self.goes_on_to_the_end()
        self.assertEqual((self.server.started[-1][0], self.repeats()), (asked[-1], []))

    def test_what_the_filter_has_still_to_store(self) -> None:
        """A commit was passed on whole. Where it came again with a table's changes left out, it
        would be another one."""
        run = Run(self)
        self.assertTrue(run.until(lambda: run.progress.state == "following"))
        run.filter.child.send_signal(signal.SIGSTOP)
        self.change()
        self.assertTrue(run.until(lambda: len(run.follower.noting.ends) > 2))
        self.assertIsNone(run.ask(add=[T]))
        self.assertTrue(run.until(lambda: run.checkpoint.known.adding != {}))
        time.sleep(0.1)
        self.assertEqual(len(self.server.started), 2)
        run.filter.child.send_signal(signal.SIGCONT)
        self.assertTrue(run.until(lambda: not run.checkpoint.known.adding and self.is_stored(run)))
        run.end()
        self.goes_on_to_the_end()
        self.assertEqual(self.repeats(), [])

    def test_never_above_the_store(self) -> None:
        """Whatever the checkpoint says."""
        for more in (-8, 0, 8):
            end = self.world.end
            checkpoint = Checkpoint(self.store)
            checkpoint.write(True, repeats=end + more)
            os.close(checkpoint.file)
            self.goes_on_to_the_end()
            self.assertEqual(self.server.started[-1][0], min(end + more, end))

    def test_what_was_noted_and_not_stored(self) -> None:
        """A killed filter has noted a commit whole that comes with a table's changes left out, so
        another one begins, which knows of none."""
        self.change()
        Path(self.store + ".dies").write_text(str(self.world.commits[FIRST][0]), encoding="ascii")
        run = Run(self)
        wants = mock.Mock(side_effect=lambda *_: self.want(T))
        with mock.patch.object(run.follower, "wait", wants):
            self.assertTrue(run.until(lambda: wants.called))
            run.end()
        self.goes_on()
        self.assertEqual(self.repeats(), [])

    def test_what_was_left_out_comes_whole(self) -> None:
        """The table isn't added in the end."""
        self.want(T)
        run = Run(self)
        self.assertTrue(run.until(lambda: run.checkpoint.known.adding != {}))
        self.change()
        self.assertTrue(run.until(lambda: self.is_stored(run)))
        run.end()
        self.goes_on()
        self.goes_on_to_the_end()
        self.assertEqual(self.repeats(), [])

    def test_a_table_that_isnt_added_in_the_end(self) -> None:
        """What was noted without its changes doesn't come again with them."""

        def hook(name: str) -> None:
            if name == "make_slot":
                raise NoSlot("no slot")

        setattr(WorldSource, "hook", staticmethod(hook))
        self.want(T)
        run = Run(self)
        self.assertTrue(run.until(lambda: run.checkpoint.known.adding != {}))
        self.assertTrue(run.until(lambda: run.progress.state == "following"))
        self.change()
        self.assertTrue(run.until(lambda: self.is_stored(run)))
        published = self.world.tables.pop(T)
        self.assertTrue(run.until(lambda: not run.checkpoint.known.adding))
        run.end()
        self.world.tables[T] = published
        self.goes_on_to_the_end()
        self.assertEqual(self.repeats(), [])

    def test_a_filter_that_is_killed_while_changes_are_left_out(self) -> None:
        self.want(T)
        self.change()
        Path(self.store + ".dies").write_text(str(self.world.commits[FIRST][0]), encoding="ascii")
        self.goes_on()
        self.goes_on_to_the_end()
        self.assertEqual(self.repeats(), [])

    def test_a_commit_that_is_skipped(self) -> None:
        self.change()
        end = self.world.commits[FIRST][0]
        skipped = int.from_bytes(self.world.commits[FIRST][1][0][26:34], "big")
        self.goes_on_to_the_end(skip=skipped)
        self.assertEqual(read_known(self.store + ".connector").skipped, lsn_text(skipped))
        self.goes_on_to_the_end()
        self.assertGreaterEqual(self.server.started[-1][0], end)
        self.assertEqual(self.repeats(), [])
