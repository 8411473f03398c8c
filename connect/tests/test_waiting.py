"""Who is told: those who wait for an LSN, the tables beside a follower, and nobody at rest."""

from __future__ import annotations

import contextlib
import itertools
import os
import select
import subprocess
import sys
import threading
import time
import unittest
from collections.abc import Callable, Iterator
from pathlib import Path
from typing import Any
from unittest import mock

from pgsub_connect.cli import main
from pgsub_connect.commands import wait
from pgsub_connect.follow.process_beside import Beside, TablesSettings
from pgsub_connect.follow.request_socket import RequestSocket
from pgsub_connect.follow.requests import Waits
from pgsub_connect.status.progress import Progress
from pgsub_connect.store.checkpoint import Checkpoint
from pgsub_connect.store.socket_file import Asking
from pgsub_connect.stream.statuses import Reached
from pgsub_feed.errors import Stopped
from pgsub_feed.interruption import never
from pgsub_feed.reader import polling
from pgsub_feed.reader.polling import Parent
from pgsub_feed.tables.schema import read_position

from .asking import Asker, asking
from .beside import started
from .fake_server import Quiet
from .feeds import FeedCase, insert
from .small_world import wait_for
from .vectors import logged


class Answered(Quiet):
    """What those are answered that wait."""

    def setUp(self) -> None:
        super().setUp()
        folder = self.make_folder()
        self.store, self.tables = folder + "/copy.db", folder + "/rows.db"
        for path in (self.store, self.tables):
            open(path, "w").close()
        self.requests = RequestSocket(self.store)
        self.addCleanup(self.requests.close)
        self.reached = Reached(0x100, 0x100)
        self.beside = mock.Mock(at=0, is_of=lambda path: path == self.tables)
        feeding = mock.Mock(beside=self.beside)
        self.waits = Waits(self.requests, lambda: self.reached, feeding)

    def tend(self) -> None:
        self.requests.tend()
        self.waits.tend()

    def waiting(self, lsn: object) -> contextlib.AbstractContextManager[Asker]:
        return asking(self.store, ask="wait", lsn=lsn, tables=self.tables)

    def asked(self) -> list[int]:
        """At which LSNs the tables are to tell theirs."""
        return [it.args[0] for it in self.beside.ask.call_args_list]

    def test_what_is_there(self) -> None:
        self.beside.at = 0x100
        for lsn in ("0/0", "0/80", "0/100"):
            with self.waiting(lsn) as asker:
                self.tend()
                self.assertEqual((asker.heard(), asker.is_over), ([{"reached": "0/100"}], True))
        self.assertEqual(self.asked(), [])

    def test_what_comes(self) -> None:
        """The tables are asked once the store has it, for the last commit that it has then."""
        self.beside.at = 0x100
        with self.waiting("0/250") as asker:
            self.tend()
            self.reached = Reached(0x200, 0x200)
            self.tend()
            self.assertEqual(self.asked(), [])
            self.reached = Reached(0x260, 0x220)
            self.tend()
            self.assertEqual((self.asked(), asker.heard()), ([0x220], []))
            self.reached = Reached(0x400, 0x400)
            self.beside.at = 0x220
            self.tend()
            self.assertEqual(asker.heard(), [{"reached": "0/220"}])
        self.tend()
        self.assertEqual((self.waits.lsns, self.waits.ends), ({}, {}))

    def test_a_commit_beyond_it(self) -> None:
        """No more than that LSN is waited for."""
        self.reached = Reached(0x400, 0x400)
        with self.waiting("0/250") as asker:
            self.tend()
            self.assertEqual(self.asked(), [0x250])
            self.beside.at = 0x300
            self.tend()
            self.assertEqual(asker.heard(), [{"reached": "0/300"}])

    def test_other_tables(self) -> None:
        """Nobody here knows how far these are."""
        for path in (self.store, "/none", None, 5, ["x"]):
            with asking(self.store, ask="wait", lsn="0/1", tables=path) as asker:
                self.tend()
                self.assertEqual(
                    asker.heard(),
                    [{"error": "the follower keeps no such tables", "other": True}],
                )
        self.waits.feeding = None
        with self.waiting("0/1") as asker:
            self.tend()
            self.assertIn("keeps no such tables", asker.error())

    def test_what_is_no_lsn(self) -> None:
        for lsn in ("x", 5, None, "", "0/1/2"):
            with self.waiting(lsn) as asker:
                self.tend()
                self.assertIn("can't be read", asker.error())

    def test_who_gives_up(self) -> None:
        for _ in range(50):
            with self.waiting("0/500"):
                self.tend()
            self.tend()
        self.assertEqual((self.waits.lsns, self.requests.waiting), ({}, []))

    def test_which_tables(self) -> None:
        beside = Beside(TablesSettings(self.tables, "f", self.store), Progress())
        os.symlink(self.tables, self.tables + ".link")
        for path, wanted in (
            (self.tables, True),
            (self.tables + ".link", True),
            (self.store, False),
            (self.tables + ".none", False),
            ("a\0b", False),
            (5, False),
        ):
            self.assertEqual(beside.is_of(path), wanted, path)


# They look for what they weren't told of after minutes.
SLEEPY = "from pgsub_feed.reader import polling; polling.LEAST = polling.MOST = 600.0; "


class Told(FeedCase):
    """Tables beside a follower, which sleep until they are told."""

    def setUp(self) -> None:
        super().setUp()
        self.said: list[str] = []
        patch = mock.patch("pgsub_feed.log.line", lambda level, text: self.said.append(text))
        patch.start()
        self.addCleanup(patch.stop)
        self.store, self.into = str(self.folder / "copy.db"), str(self.folder / "rows.db")
        self.settings = TablesSettings(self.into, str(self.path), self.store)
        self.woken = 0

    def wake(self) -> None:
        self.woken += 1

    def kept(self, code: str = "") -> Beside:
        return started(self, Beside(self.settings, Progress(), self.wake), code)

    def following(self, begins: str = "") -> Beside:
        """One that sleeps by now. It runs this before."""
        self.feed.commit(0x100, [insert("1", "x")])
        kept = Beside(self.settings, Progress(), self.wake)
        code = kept.words.index("-c") + 1
        kept.words[code] = begins + kept.words[code]
        started(self, kept)
        self.assertTrue(wait_for(lambda: any("from 0/" in it for it in self.said)), self.said)
        kept.ask(0x100)
        # (it has told that it was started, and that)
        self.assertTrue(wait_for(lambda: self.woken >= 2 and kept.at == 0x100))
        time.sleep(0.1)
        return kept

    def test_a_commit_is_seen_at_once(self) -> None:
        """Without being told they would see it minutes later. On a busy machine some are seen
        later, and on any one of them at once where nothing else is waited for."""
        kept, took, ends = self.following(SLEEPY), list[float](), time.monotonic() + 60
        for number in itertools.count(2):
            time.sleep(0.02)
            end = 0x100 * number
            self.feed.commit(end, [insert(str(number), "x")])
            began = time.monotonic()
            kept.tell()
            while read_position(self.into)[0] < end:
                self.assertLess(time.monotonic(), began + 60)
                time.sleep(0.0005)
            took.append(time.monotonic() - began)
            if len(took) > 9 and min(took) < 0.05 or time.monotonic() > ends:
                break
        self.assertLess(min(took), 0.05, took)

    def test_they_tell_what_is_asked_and_no_more(self) -> None:
        kept = self.following()
        before = self.woken
        self.feed.commit(0x200, [insert("2", "x")])
        kept.tell()
        self.assertTrue(wait_for(lambda: read_position(self.into)[0] == 0x200))
        time.sleep(0.1)
        self.assertEqual((self.woken, kept.at), (before, 0x100))
        for lsn in (0x300, 0x250, 0x300):
            kept.ask(lsn)
        self.feed.commit(0x280, [insert("3", "x")])
        kept.tell()
        self.assertTrue(wait_for(lambda: kept.at == 0x280 and self.woken > before))
        self.feed.commit(0x300, [insert("4", "x")])
        kept.tell()
        self.assertTrue(wait_for(lambda: kept.at == 0x300 and self.woken > before + 1))
        self.assertEqual(self.woken, before + 2)

    def test_others_that_are_started_are_asked_again(self) -> None:
        kept = self.following()
        kept.ask(0x200)
        before = self.woken
        assert kept.child
        with mock.patch("pgsub_connect.follow.process_beside.FIRST_DELAY", 0.01):
            kept.child.kill()
            self.assertTrue(wait_for(lambda: self.woken > before))
        self.assertEqual(kept.asked, set())
        kept.ask(0x100)
        self.assertEqual(kept.asked, {0x100})

    def test_others_that_are_started_meanwhile_are_asked_too(self) -> None:
        """As soon as nobody has the lock they may be there in the place of those that were."""
        kept, lock = self.kept("import time; time.sleep(600)"), mock.MagicMock()
        self.assertTrue(wait_for(lambda: kept.child is not None))
        lock.__exit__.side_effect = lambda *_: setattr(kept, "asked", set())
        with mock.patch.object(kept, "lock", lock):
            kept.ask(0x100)
        self.assertEqual(kept.asked, set())

    def test_a_pipe_that_is_full(self) -> None:
        """Nobody waits for who doesn't read it."""
        kept = self.kept("import time; time.sleep(60)")
        self.assertTrue(wait_for(lambda: kept.child is not None))
        while kept.tell():
            pass
        kept.ask(0x100)
        self.assertEqual(kept.asked, set())

    def test_where_nothing_runs(self) -> None:
        it = Beside(self.settings, Progress(), self.wake)
        self.assertFalse(it.tell())

    def test_what_isnt_an_lsn(self) -> None:
        kept = self.kept("print('x\\n0/5\\n\\xff', flush=True); import time; time.sleep(60)")
        self.assertTrue(wait_for(lambda: kept.at == 5))

    def test_at_rest(self) -> None:
        """They wake once a second, and then less."""
        kept, until = self.following(), time.monotonic() + 60
        assert kept.child
        before, found = -1, switches(kept.child.pid)
        while found != before:
            # (on a busy machine it takes longer until it sleeps)
            self.assertLess(time.monotonic(), until)
            time.sleep(0.5)
            before, found = found, switches(kept.child.pid)
        time.sleep(3)
        self.assertLess(switches(kept.child.pid) - found, 6)


def switches(pid: int) -> int:
    """How often a process has woken."""
    found = 0
    for task in Path(f"/proc/{pid}/task").iterdir():
        for line in (task / "status").read_text().splitlines():
            if line.startswith("voluntary_ctxt_switches"):
                found += int(line.split()[1])
    return found


class Input(unittest.TestCase):
    """What a follower tells by standard input."""

    def setUp(self) -> None:
        self.input, self.output = os.pipe()
        self.said, self.answers = os.pipe()
        for file in (self.input, self.said):
            self.addCleanup(os.close, file)
        reads, writes, ready = os.read, os.write, select.select
        for name, by in (
            ("os.read", lambda file, size: reads(self.input if file == 0 else file, size)),
            ("os.write", lambda file, what: writes(self.answers if file == 1 else file, what)),
            ("select.select", self.select),
        ):
            patch = mock.patch(name, by)
            patch.start()
            self.addCleanup(patch.stop)
        self.ready, self.has_slept = ready, False
        self.parent = Parent(never)
        self.addCleanup(os.close, self.answers)

    def select(self, reads: object, writes: list[int], other: list[int], seconds: float) -> Any:
        """On the follower's words. Notes whether these were waited for in vain."""
        found = self.ready([self.input], writes, other, seconds)
        self.has_slept |= seconds > 0 and not found[0]
        return found

    def tell(self, what: bytes) -> None:
        os.write(self.output, what)

    def slept(self) -> bool:
        self.has_slept = False
        with mock.patch.object(self.parent, "pause", 0.05):
            self.parent.wait()
        return self.has_slept

    def test_what_was_told_before_it_is_waited_for(self) -> None:
        """Also where something else has read it meanwhile."""
        self.parent.wait()
        for checks in (False, True):
            self.tell(b"\n")
            if checks:
                self.parent.check()
            self.assertFalse(self.slept())
            while self.parent.has_told:
                self.parent.wait()
            self.assertTrue(self.slept())
        os.close(self.output)

    def test_its_end(self) -> None:
        os.close(self.output)
        self.assertRaises(Stopped, self.parent.check)
        self.parent.has_told = False
        self.assertRaises(Stopped, self.parent.wait)

    def test_lsns_that_are_asked_for(self) -> None:
        for part in (b"0/1", b"00\n\n0/200\n0/30"):
            self.tell(part)
            self.parent.check()
        self.assertEqual(self.parent.asked, [0x100, 0x200])
        self.parent.tell(0xFF)
        self.parent.tell(0x180)
        self.assertEqual((os.read(self.said, 99), self.parent.asked), (b"0/180\n", [0x200]))
        self.tell(b"0\n")
        self.parent.check()
        self.parent.tell(0x400)
        self.assertEqual((os.read(self.said, 99), self.parent.asked), (b"0/400\n", []))
        os.close(self.output)

    def test_it_sleeps_longer_and_longer(self) -> None:
        pauses = []
        with mock.patch.object(polling, "LEAST", 0.01), mock.patch.object(polling, "MOST", 0.04):
            self.parent.pause = polling.LEAST
            for _ in range(5):
                self.parent.wait()
                pauses.append(self.parent.pause)
            self.tell(b"\n")
            self.parent.wait()
            self.assertEqual(self.parent.pause, polling.LEAST)
        self.assertEqual(pauses, [0.01, 0.02, 0.04, 0.04, 0.04])
        os.close(self.output)


class Waited(FeedCase):
    """The command."""

    def setUp(self) -> None:
        super().setUp()
        self.store, self.into = str(self.folder / "copy.db"), str(self.folder / "rows.db")
        self.feed.commit(0x100, [insert("1", "x")])
        self.path.rename(self.store + ".feed")
        with logged():
            self.assertEqual(
                main(["tables", "--feed", self.store + ".feed", "--into", self.into, "--once"]), 0
            )
        for path in (self.store, self.store + ".connector"):
            open(path, "w").close()

    def wait(self, lsn: str, *more: str) -> int:
        with logged() as self.told:
            return main(["wait", lsn, "--tables", self.into, *more])

    @contextlib.contextmanager
    def followed(self, answer: dict[str, object] | None) -> Iterator[list[object]]:
        """As while a follower runs that answers so; or ends the connection."""
        requests, asked = RequestSocket(self.store), list[object]()
        real = Asking.answer

        def answered(asking: Asking, seconds: float, *more: object) -> object:
            for _ in range(3):
                requests.tend()
            for client in requests.those_waiting():
                asked.append(client.asked)
                if answer is None:
                    client.close()
                else:
                    client.end(**answer)
            return real(asking, seconds)

        with mock.patch.object(Asking, "answer", answered), contextlib.closing(requests):
            yield asked

    def test_told_by_the_follower(self) -> None:
        with self.followed({"reached": "0/200"}) as asked:
            self.assertEqual(self.wait("0/200"), 0)
            self.assertEqual(asked, [{"ask": "wait", "lsn": "0/200", "tables": self.into}])
            self.assertEqual((self.wait("0/100"), len(asked)), (0, 1))

    @contextlib.contextmanager
    def by_clock(self, *steps: tuple[float, Callable[[], object]]) -> Iterator[None]:
        """Time goes on where it is slept, whatever the machine does else; each of these is called
        at its time, in seconds."""
        now, left = [0.0], list(steps)

        def sleep(seconds: float) -> None:
            now[0] += seconds
            while left and now[0] >= left[0][0]:
                left.pop(0)[1]()

        with mock.patch.object(wait, "time", mock.Mock(monotonic=lambda: now[0], sleep=sleep)):
            yield

    def test_a_follower_of_other_tables(self) -> None:
        """File and feed are looked at."""
        answers: tuple[dict[str, object] | None, ...] = (
            {"error": "no such tables"},
            {"error": 5},
            {},
            None,
        )
        for answer in answers:
            with self.followed(answer) as asked, self.by_clock():
                self.assertEqual(self.wait("0/200", "--within", "0.3"), 7)
                self.assertGreater(len(asked), 0)
            self.assertIn("wasn't reached in 0.3 seconds", self.told[-1])

    def test_a_follower_that_says_nothing(self) -> None:
        with contextlib.closing(RequestSocket(self.store)):
            began = time.monotonic()
            self.assertEqual(self.wait("0/200", "--within", "0.1"), 7)
            self.assertLess(time.monotonic() - began, 30)
        self.assertIn("wasn't reached in 0.1 seconds", self.told[-1])

    def test_without_a_follower(self) -> None:
        RequestSocket(self.store).close()
        self.assertEqual(self.wait("0/200", "--within", "0.1"), 7)
        self.assertEqual(self.wait("0/100"), 0)

    def test_a_file_that_is_to_come(self) -> None:
        os.rename(self.into, self.into + ".later")
        with mock.patch.object(wait, "STARTING", 0.0):
            self.assertEqual((self.wait("0/100"), "there is no file" in self.told[-1]), (3, True))
        checkpoint = Checkpoint(self.store)
        checkpoint.note_tables(self.into)
        os.close(checkpoint.file)
        self.assertEqual(self.wait("0/100", "--within", "0.1"), 7)
        self.assertIn(f"{self.into} isn't there yet: `pgsub-connect status`", self.told[-1])
        threading.Timer(0.2, os.rename, (self.into + ".later", self.into)).start()
        self.assertEqual(self.wait("0/100"), 0)

    def test_a_follower_that_begins(self) -> None:
        """It may be started at the same time, hasn't noted its tables yet, and may have its store
        elsewhere; where it keeps others, the file isn't to come."""
        os.rename(self.into, self.into + ".later")
        os.unlink(self.store + ".connector")
        made = list[Checkpoint]()
        steps: tuple[tuple[float, Callable[[], object]], ...] = (
            (0.4, lambda: made.append(Checkpoint(self.store))),
            (0.8, lambda: made[0].note_tables(self.into)),
            (1.2, lambda: os.rename(self.into + ".later", self.into)),
        )
        with self.by_clock(*steps), mock.patch.object(wait, "STARTING", 0.6):
            self.assertEqual(self.wait("0/100"), 0, self.told)
            os.rename(self.into, self.into + ".later")
            made[0].note_tables(self.into + ".other")
            self.assertEqual(self.wait("0/100"), 3, self.told)
            self.assertIn("no follower of a store in its folder makes it", self.told[-1])
            (self.folder / "elsewhere").mkdir()
            other = str(self.folder / "elsewhere" / "rows.db")
            made[0].note_tables(other)
            words = ("--feed", self.store + ".feed", "--within", "0.9")
            with logged() as self.told:
                self.assertEqual(main(["wait", "0/100", "--tables", other, *words]), 7)
            self.assertIn("isn't there yet", self.told[-1])
        os.close(made[0].file)

    def test_what_it_imports(self) -> None:
        """Who waits after each commit pays for its start: without psycopg, and without what gives
        commits to a program."""
        look = "import sys, pgsub_connect.commands.wait; print(*sys.modules)"
        words = [sys.executable, "-c", look]
        done = subprocess.run(
            words, capture_output=True, text=True, check=True, cwd=Path(__file__).parents[1]
        )
        imported = set(done.stdout.split())
        self.assertIn("pgsub_connect.commands.wait", imported)
        self.assertEqual({it for it in imported if it.startswith("psycopg")}, set())
        self.assertNotIn("pgsub_feed.changes", imported)
        self.assertNotIn("subprocess", imported)

    def test_a_signal(self) -> None:
        code = (
            "from pgsub_connect.store import socket_file; socket_file.STEP = 60.0; "
            "from pgsub_connect.cli import run; run()"
        )
        with contextlib.closing(RequestSocket(self.store)) as requests:
            child = subprocess.Popen(
                [sys.executable, "-c", code, "wait", "0/200", "--tables", self.into],
                stderr=subprocess.PIPE,
                cwd=Path(__file__).parents[1],
            )

            def is_asked() -> bool:
                requests.tend()
                return bool(requests.waiting)

            self.assertTrue(wait_for(is_asked))
            began = time.monotonic()
            child.terminate()
            said = child.communicate(timeout=120)[1].decode()
        self.assertEqual(child.returncode, 7, said)
        self.assertIn("ended before", said)
        self.assertLess(time.monotonic() - began, 30)


if __name__ == "__main__":
    unittest.main()
