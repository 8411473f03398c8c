"""The files that a follower replaces, the metrics, and what is asked beside the session."""

from __future__ import annotations

import contextlib
import json
import os
import re
import subprocess
import unittest
from unittest import mock

from pgsub_connect.errors import ServerError
from pgsub_connect.follow import server_watch
from pgsub_connect.follow.server_watch import Asker, SlotWarning
from pgsub_connect.server import session
from pgsub_connect.server.session import Subscription
from pgsub_connect.status import files
from pgsub_connect.status.files import Replaced, ReportSettings, Reporter, program_version
from pgsub_connect.status.metrics import metrics_text
from pgsub_connect.status.progress import STATES, Progress
from pgsub_connect.status.state import Counted

from .fake_server import FakeServer, Quiet
from .small_world import wait_for


class Files(Quiet):
    def setUp(self) -> None:
        super().setUp()
        self.folder = self.make_folder()
        self.path = self.folder + "/status"

    def test_mode_and_content(self) -> None:
        before = os.umask(0o077)
        self.addCleanup(os.umask, before)
        for mode in (0o600, 0o644):
            Replaced(self.path, mode).write("x\n")
            self.assertEqual(os.stat(self.path).st_mode & 0o777, mode)
        self.assertEqual((os.listdir(self.folder), self.said), (["status"], []))

    def test_a_link_isnt_followed(self) -> None:
        os.symlink(self.folder + "/other", self.path + ".pgsub-new")
        Replaced(self.path, 0o600).write("x\n")
        self.assertEqual(sorted(os.listdir(self.folder)), ["status"])

    def test_what_others_have_beside_it(self) -> None:
        with open(self.path + ".new", "w", encoding="utf-8") as file:
            file.write("mine")
        Replaced(self.path, 0o600).write("x\n")
        self.assertEqual(sorted(os.listdir(self.folder)), ["status", "status.new"])

    def test_a_cause_is_told_once(self) -> None:
        file = Replaced(self.folder + "/none/status", 0o600)
        for _ in range(3):
            file.write("x\n")
        self.assertEqual(
            self.said, [f"warning: {file.path} can't be written: No such file or directory"]
        )
        os.mkdir(self.folder + "/none")
        os.mkdir(file.path)
        for _ in range(3):
            file.write("x\n")
        self.assertEqual(len(self.said), 2)
        self.assertIn("Is a directory", self.said[1])
        self.assertEqual(os.listdir(self.folder + "/none"), ["status"])

    def test_a_cause_that_comes_and_goes_is_told_once_a_minute(self) -> None:
        file, clock = Replaced(self.path, 0o600), [1000.0]
        with mock.patch("time.monotonic", lambda: clock[0]):
            for now, works in (
                (0, False),
                (1, True),
                (2, False),
                (3, True),
                (70, True),
                (71, False),
            ):
                clock[0] = 1000.0 + now
                with mock.patch.object(
                    files,
                    "replace",
                    side_effect=None if works else OSError(28, "No space left on device"),
                ):
                    file.write("x\n")
                self.assertEqual(len(self.said), 2 if now == 71 else 1, now)

    def test_reporter(self) -> None:
        progress = Progress()
        reporter = Reporter(
            ReportSettings(
                store=self.path + ".db",
                status_file=self.path,
                metrics_file=self.path + ".prom",
                mode=0o640,
            ),
            progress,
        )
        reporter.start()
        progress.state = "stopped"
        reporter.finish()
        with open(self.path, encoding="utf-8") as file:
            self.assertEqual(json.load(file)["state"], "stopped")
        with open(self.path + ".prom", encoding="utf-8") as file:
            self.assertIn(
                f'pgsub_state{{slot="pgsub",store="{self.path}.db",state="stopped"}} 1\n',
                file.read(),
            )

    def test_a_new_state_shows_at_once(self) -> None:
        progress = Progress()
        store = self.path + ".db"
        settings = ReportSettings(store=store, status_file=self.path, is_asked_for=False)
        reporter = Reporter(settings, progress)
        self.addCleanup(reporter.finish)
        with mock.patch.object(reporter, "interval", 600.0):
            reporter.start()
            for state in ("copying", "following", "stopping"):
                progress.enter(state)
                self.assertTrue(wait_for(lambda: self.state() == state))  # noqa: B023

    def state(self) -> str | None:
        with contextlib.suppress(FileNotFoundError), open(self.path, encoding="utf-8") as file:
            return str(json.load(file)["state"])
        return None

    def test_a_path_that_is_no_utf_8(self) -> None:
        """Prometheus reads nothing else, and whoever reads the status file sees it replaced each
        second."""
        reporter = Reporter(
            ReportSettings(
                store=os.fsdecode(b"copy\xff.db"),
                status_file=self.path,
                metrics_file=self.path + ".prom",
            ),
            Progress(),
        )
        reporter.write()
        self.assertEqual(sorted(os.listdir(self.folder)), ["status", "status.prom"])
        with open(self.path + ".prom", encoding="utf-8") as file:
            self.assertIn(f'store="{os.getcwd()}/copy?.db"', file.read())

    def test_stores_of_one_name_are_told_apart(self) -> None:
        """A collector that reads two files with one sample rejects both."""
        samples, metrics = list[set[str]](), self.path + ".prom"
        for folder in ("/one", "/two"):
            with mock.patch("os.getcwd", lambda folder=folder: folder):
                Reporter(ReportSettings(store="copy.db", metrics_file=metrics), Progress()).write()
            with open(metrics, encoding="utf-8") as file:
                lines = [it for it in file if not it.startswith("#")]
            samples.append({it.rpartition(" ")[0] for it in lines})
        self.assertEqual(samples[0] & samples[1], set())

    def test_the_heartbeat_is_that_of_the_main_loop(self) -> None:
        progress = Progress()
        progress.heartbeat = 1e9
        Reporter(ReportSettings(store="copy.db", status_file=self.path), progress).write()
        with open(self.path, encoding="utf-8") as file:
            shown = json.load(file)
        self.assertEqual(shown["heartbeat"], "2001-09-09T01:46:40Z")
        self.assertNotEqual(shown["updated"], shown["heartbeat"])

    def test_program_version(self) -> None:
        self.assertEqual((program_version(self.path), program_version("/bin/false")), ("", ""))
        self.assertTrue(program_version("/bin/ls").startswith("ls "))


class Metrics(unittest.TestCase):
    LINE = re.compile(
        r'([a-z_]+)\{([a-z_]+="(?:[^"\\\n]|\\[\\"n])*"(?:,[a-z_]+="(?:[^"\\\n]|\\[\\"n])*")*)\} (-?\d+(?:\.\d+)?)'
    )

    def text(self, store: str = "copy.db") -> str:
        progress = Progress()
        progress.state, progress.program = "following", 'pgsub "0.1"'
        progress.stream.note_confirmed(0x10, 0x8)
        progress.stream.lag.note_answer(1e9, 1e9, None, 0x20)
        progress.slot.wal_status, progress.slot.safe_wal_size = "extended", 77
        progress.findings.found = {"values": "x"}
        progress.feed.note({"redis": 5}, 100)
        progress.stream.changes = 5
        progress.findings.counted = Counted(1, 20, 3, 7, 16385, (5, 12))
        return metrics_text(progress, 1e9 + 2, {"slot": "pgsub", "store": store})

    def test_each_sample_is_described_once(self) -> None:
        described: dict[str, str] = {}
        last = ""
        for line in self.text().splitlines():
            if found := re.fullmatch(r"# HELP ([a-z_]+) \S.*", line):
                self.assertNotIn(found[1], described)
                last = found[1]
            elif found := re.fullmatch(r"# TYPE ([a-z_]+) (counter|gauge)", line):
                self.assertEqual(found[1], last)
                described[last] = found[2]
                self.assertEqual(found[2] == "counter", last.endswith("_total"), last)
            else:
                sample = self.LINE.fullmatch(line)
                assert sample, line
                self.assertEqual(sample[1], last)
                self.assertIn(last, described)
        self.assertIn("pgsub_lag_bytes", described)

    def test_values(self) -> None:
        text, labels = self.text(), 'slot="pgsub",store="copy.db"'
        for sample in (
            f"pgsub_lag_bytes{{{labels}}} 16",
            f"pgsub_confirmed_lsn{{{labels}}} 16",
            f"pgsub_changes_total{{{labels}}} 5",
            f"pgsub_missing_total{{{labels}}} 3",
            f"pgsub_counted_lsn{{{labels}}} 20",
            f"pgsub_not_counted_bytes{{{labels}}} 7",
            f'pgsub_found{{{labels},kind="missing"}} 0',
            f'pgsub_slot_wal_status{{{labels},status="extended"}} 1',
            f'pgsub_slot_wal_status{{{labels},status="lost"}} 0',
            f"pgsub_slot_safe_wal_bytes{{{labels}}} 77",
            f'pgsub_found{{{labels},kind="values"}} 1',
            f'pgsub_found{{{labels},kind="names"}} 0',
            f'pgsub_state{{{labels},state="following"}} 1',
        ):
            self.assertIn(f"\n{sample}\n", text)
        self.assertEqual(text.count("pgsub_state{"), len(STATES))
        self.assertIn('program="pgsub \\"0.1\\""', text)
        self.assertNotIn("pgsub_last_commit", text)
        self.assertTrue(text.endswith("\n"))

    def test_sinks(self) -> None:
        progress = Progress()
        self.assertNotIn("pgsub_sink_failed", metrics_text(progress, 0.0, {}))
        for where, wrong in (("a", "begins"), ("b", ""), ("c", "ended: no such user")):
            progress.feed.note_sink(where, wrong)
        text = metrics_text(progress, 0.0, {"slot": "s"})
        for where, failed in (("a", 0), ("b", 0), ("c", 1)):
            self.assertIn(f'\npgsub_sink_failed{{slot="s",sink="{where}"}} {failed}\n', text)

    def test_by_promtool(self) -> None:
        """Debian's own tool has nothing to say against them."""
        for text, status in ((self.text('a\\b"c\nd'), 0), (self.text() + "x{} 1 2 3\n", 1)):
            ran = subprocess.run(
                ["promtool", "check", "metrics"], input=text, capture_output=True, text=True
            )
            self.assertEqual((ran.returncode, bool(ran.stderr)), (status, bool(status)), ran.stderr)

    def test_labels_are_escaped(self) -> None:
        self.assertIn('store="a\\\\b\\"c\\nd"', self.text('a\\b"c\nd'))


class Warns(Quiet):
    def test_once_for_each_state(self) -> None:
        warning = SlotWarning("pgsub")
        for status, safe, lines in (
            ("reserved", 1000, 0),
            ("extended", 100, 0),
            ("extended", 99, 1),
            ("extended", 98, 1),
            ("extended", 150, 1),
            ("extended", 200, 2),
            ("extended", 99, 3),
            ("unreserved", None, 4),
            ("unreserved", None, 4),
            ("lost", None, 5),
            ("lost", None, 5),
        ):
            warning.note(status, safe, 1000)
            self.assertEqual(len(self.said), lines, (status, safe))
        for line, part in zip(
            self.said,
            ("after 99 bytes", "safe again", "after 99 bytes", "next checkpoint", "copy anew"),
            strict=True,
        ):
            self.assertIn(part, line)

    def test_without_a_limit(self) -> None:
        warning = SlotWarning("pgsub")
        for safe in (None, 5):
            warning.note("extended", safe, -1)
        self.assertEqual(self.said, [])


class Asks(Quiet):
    def setUp(self) -> None:
        super().setUp()
        self.server = FakeServer()
        patch = mock.patch.object(session, "Connection", self.server.connect)
        patch.start()
        self.addCleanup(patch.stop)
        self.server.answer("pg_postmaster_start_time", [["7"]])
        self.server.answer("pg_size_bytes(pg_catalog.current_setting('max_slot", [["1000"]])
        self.standby, self.row = "f", [
            "0/30",
            "0/30",
            "16777216",
            "5.5",
            "",
            "pgsub",
            "extended",
            "50",
        ]
        self.server.answer("pg_replication_slots", lambda _: [[self.standby, *self.row]])
        self.progress = Progress()
        self.progress.server.sessions = 1
        self.asker = Asker(Subscription(), True, self.progress)

    def test_end_and_slot(self) -> None:
        self.asker.ask()
        self.asker.ask()
        self.assertEqual(
            (
                self.progress.stream.lag.end,
                self.progress.slot.wal_status,
                self.progress.slot.safe_wal_size,
            ),
            (0x30, "extended", 50),
        )
        self.assertEqual((self.server.opened, len(self.said)), (1, 1))
        self.assertLess(self.progress.stream.lag.skew, -1e9)

    def test_a_server_without_these_columns(self) -> None:
        self.server.server_version = 120000
        self.row[6:] = [None, None]  # type: ignore[list-item]
        self.asker.ask()
        self.assertEqual(
            (self.progress.slot.wal_status, self.progress.slot.safe_wal_size), ("", None)
        )
        self.assertEqual(self.server.told("wal_status"), [])

    def test_whether_commits_wait(self) -> None:
        self.progress.server.name = "pgsub"
        for standbys, waits in (("FIRST 1 (other, pgsub)", True), ("other", False)):
            self.row[4] = standbys
            self.asker.ask()
            self.assertIs(self.progress.server.is_waited_for, waits)

    def test_a_lost_connection_is_made_again(self) -> None:
        self.asker.ask()
        with mock.patch.object(self.asker, "note", side_effect=ServerError("gone")):
            self.asker.ask()
        self.asker.ask()
        self.assertEqual((self.server.opened, self.server.closed), (2, 1))

    def test_a_standby_that_was_promoted(self) -> None:
        for standby, started, was_standby, promoted in (
            ("t", 7, True, False),
            ("f", 8, True, False),
            ("f", 7, False, False),
            ("f", 7, True, True),
        ):
            self.standby, self.progress.server.started, self.progress.server.is_standby = (
                standby,
                started,
                was_standby,
            )
            self.asker.ask()
            self.assertIs(self.progress.server.was_promoted, promoted)

    def test_the_thread_ends(self) -> None:
        with mock.patch.object(server_watch, "SHOWN", 0.001):
            asker = Asker(Subscription(), True, self.progress)
        asker.start()
        while not self.progress.stream.lag.end:
            pass
        asker.finish()
        self.assertFalse(asker.is_alive())
        self.assertEqual(self.server.opened, self.server.closed)


class Standbys(unittest.TestCase):
    def test_names(self) -> None:
        for standbys, waits in (
            ("", False),
            ("pgsub", True),
            ("PgSub", True),
            ("pgsub2", False),
            ("*", True),
            ("FIRST 2 (a, pgsub)", True),
            ("ANY 1 (a,b)", False),
            ('"pgsub"', True),
            ('a, "say ""pgsub"""', False),
            ('"pgsub, a"', False),
        ):
            self.assertIs(session.waits_for(standbys, "pgsub"), waits, standbys)
        self.assertTrue(session.waits_for('a, "say ""so"""', 'say "so"'))


class Ends(unittest.TestCase):
    def test_a_page_that_is_full(self) -> None:
        for end, flushed, exact in (
            (0x2000018, 0x2000018, 0x2000018),
            (0x2002018, 0x2002000, 0x2002000),
            (0x2002020, 0x2002000, 0x2002020),
            (0x2000028, 0x2000000, 0x2000000),
            (0x2000018, 0x2000000, 0x2000018),
            (0x2002028, 0x2002000, 0x2002028),
            (0x2002018, 0x2001FF8, 0x2002018),
        ):
            self.assertEqual(session.exact_end(end, flushed, 1 << 24), exact, hex(end))


if __name__ == "__main__":
    unittest.main()
