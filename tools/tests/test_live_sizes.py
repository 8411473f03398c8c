"""How much memory processes take, and the digests by which large copies are compared."""

from __future__ import annotations

import os
import subprocess
import sys
import tempfile
import time
import unittest
from pathlib import Path

try:
    from live_server import installed
    from live_server.cluster import Cluster
    from live_server.digests import Digest, compare, digests_of
    from live_server.errors import Failed
    from live_server.follower import wait_until
    from live_server.peaks import STEP, Group, Peaks as Followed, forget_peak, peak_of
    from live_server.sizes import Size
except ModuleNotFoundError:
    raise unittest.SkipTest("psycopg is needed") from None

# Takes 50 MB and gives them back, at each line that it reads.
TAKES = "import sys\nfor _ in sys.stdin:\n    bytearray(b'x' * (50 << 20))\n    print(flush=True)\n"
MOST = 40 << 10


class Peaks(unittest.TestCase):
    def test_told_from_now_on(self) -> None:
        words = [sys.executable, "-c", TAKES]
        with subprocess.Popen(words, stdin=subprocess.PIPE, stdout=subprocess.PIPE) as child:
            assert child.stdin and child.stdout
            for _ in range(2):
                child.stdin.write(b"\n")
                child.stdin.flush()
                child.stdout.readline()
                self.assertGreater(peak_of(child.pid), MOST)
                forget_peak(child.pid)
                self.assertLess(peak_of(child.pid), MOST)
            child.stdin.close()
            child.wait()
            self.assertEqual(peak_of(child.pid), 0)

    def test_the_most_that_a_file_had(self) -> None:
        """It grows, and goes; what it had before isn't told from now on."""
        with tempfile.TemporaryDirectory() as folder:
            file = Path(folder, "transactions")
            peaks = Followed(os.getpid, file)
            peaks.start()
            self.addCleanup(peaks.end)
            file.write_bytes(bytes(3 << 20))
            # (it may be looked at while it is written)
            wait_until(lambda: peaks.spooled == 3 << 20, "looking at it")
            file.unlink()
            time.sleep(5 * STEP)
            self.assertEqual((peaks.spooled, "3 MB in a file" in peaks.text()), (3 << 20, True))
            peaks.begin()
            time.sleep(5 * STEP)
            self.assertEqual((peaks.spooled, "in a file" in peaks.text()), (0, False))

    def test_all_that_follow(self) -> None:
        peaks = Followed(os.getpid, Path("/nonexistent"))
        peaks.most = {"connector": 10 << 10, "filter": 20 << 10, "tables": 30 << 10}
        self.assertEqual(peaks.together(), 60)


class Groups(unittest.TestCase):
    """The files are those of a folder here."""

    def setUp(self) -> None:
        folder = tempfile.TemporaryDirectory()
        self.addCleanup(folder.cleanup)
        self.top = Path(folder.name)

    def test_where_none_can_be_made(self) -> None:
        self.assertFalse(Group.can_be_made(self.top))
        (self.top / "cgroup.subtree_control").write_text("cpu pids\n")
        self.assertFalse(Group.can_be_made(self.top))

    def test_what_runs_in_it(self) -> None:
        (self.top / "cgroup.subtree_control").write_text("cpu memory pids\n")
        self.assertTrue(Group.can_be_made(self.top))
        group = Group("group", 512, self.top)
        self.assertEqual((group.folder / "memory.max").read_text(), str(512 << 20))
        words = group.words([sys.executable, "-c", "import os; print(os.getpid())"])
        said = subprocess.run(words, capture_output=True, text=True, check=True).stdout
        self.assertEqual((group.folder / "cgroup.procs").read_text(), said)

    def test_what_it_has_ended(self) -> None:
        """Since it was asked last."""
        group = Group("group", 512, self.top)
        for killed, ended in ((0, 0), (2, 2), (2, 0), (3, 1)):
            text = f"low 0\nhigh 0\nmax 9\noom 4\noom_kill {killed}\noom_group_kill 0\n"
            (group.folder / "memory.events").write_text(text)
            self.assertEqual(group.ended(), ended)


class Sizes(unittest.TestCase):
    def test_a_row_is_a_part_of_the_memory(self) -> None:
        for of, memory, wide in (
            (1, 0, 100_000_000),
            (100, 0, 10_000_000),
            (10, 512, 16 << 20),
            (100, 512, 10_000_000),
        ):
            self.assertEqual(Size(of, memory).wide, wide)


class Digests(unittest.TestCase):
    def digest(self, *rows: tuple[str | None, ...]) -> Digest:
        found = Digest()
        for row in rows:
            found.add(row)
        return found

    def test_any_order(self) -> None:
        a, b = ("1", "x"), ("2", None)
        self.assertEqual(self.digest(a, b), self.digest(b, a))
        twice = self.digest(a)
        twice.add(b, 2)
        self.assertEqual(self.digest(b, a, b), twice)

    def test_others(self) -> None:
        found = self.digest(("1", None), ("2", "x"))
        others: tuple[list[tuple[str | None, ...]], ...] = (
            [("1", None)],
            [("1", None), ("2", "y")],
            [("1", "None"), ("2", "x")],
            [("1", "x"), ("2", None)],
            [("1", None), ("2", "x"), ("2", "x")],
        )
        for rows in others:
            with self.assertRaises(Failed):
                compare({"t": found}, {"t": self.digest(*rows)}, "a copy")
        self.assertEqual(compare({"t": found, "u": Digest()}, {"t": found}, "a copy"), 2)

    def test_those_of_a_server_are_of_what_it_sends(self) -> None:
        folder = tempfile.TemporaryDirectory()
        self.addCleanup(folder.cleanup)
        # the server's account goes through it
        Path(folder.name).chmod(0o711)
        server = Cluster(installed.find(None, None, "postgres"), Path(folder.name))
        self.addCleanup(server.remove)
        server.start()
        server.run(
            "CREATE TABLE kinds (id int, filler char(5), flag bool, number float8, day date, word text)",
            "INSERT INTO kinds VALUES (1, 'a', true, 0.1, '2026-11-30', ''), (2, NULL, false, 1e20, NULL, 'x')",
            "CREATE TABLE none (id int)",
            database="postgres",
        )
        found = digests_of(server, ("kinds", "none"), "postgres")
        with server.connect("postgres") as session:
            rows = list(session.copied("SELECT * FROM kinds"))
        self.assertEqual(rows[0], ("1", "a    ", "t", "0.1", "2026-11-30", ""))
        self.assertEqual(found, {"kinds": self.digest(*rows), "none": Digest()})
