"""`pgsub-connect status`."""

from __future__ import annotations

import contextlib
import io
import json
import os
import pty
import signal
import sys
import tempfile
import threading
import time
import unittest
from unittest import mock

from pgsub_connect import cli
from pgsub_connect.commands import status as command
from pgsub_connect.status.files import STATUS, ReportSettings, Reporter, status_fields, time_text
from pgsub_connect.status.progress import Progress
from pgsub_feed.errors import Stopped
from pgsub_feed.version import VERSION

COMMAND = os.path.join(os.path.dirname(os.path.dirname(__file__)), "pgsub-connect")


class Probes(unittest.TestCase):
    def setUp(self) -> None:
        folder = tempfile.TemporaryDirectory()
        self.addCleanup(folder.cleanup)
        self.path = folder.name + "/status"
        self.progress = Progress()
        self.progress.state = "following"
        self.progress.stream.note_confirmed(0x500, 0x500)
        self.status: dict[str, object] = {"lag_bytes": 5000, "lag_seconds": 12.5}

    def probe(self, *words: str, status: object = None) -> tuple[int, str]:
        fields = status_fields(self.progress, 0.0, time.time(), "/s/copy.db")
        with open(self.path, "w", encoding="utf-8") as file:
            json.dump({**fields, **self.status} if status is None else status, file)
        return self.run_it("--status-file", self.path, *words)

    def run_it(self, *words: str) -> tuple[int, str]:
        with contextlib.redirect_stdout(io.StringIO()) as out:
            code = cli.main(["status", *words])
        return code, out.getvalue()

    def test_fine(self) -> None:
        code, text = self.probe("--max-lag", "60s", "--max-lag", "10MB")
        self.assertEqual(code, 0)
        self.assertRegex(
            text,
            r"^ok \(following, 5000 bytes and 12.5 s behind, at 0/500, heartbeat \d+ s ago\)\n$",
        )

    def test_lag(self) -> None:
        for limit, code in (
            ("12s", 1),
            ("13s", 0),
            ("0.2min", 1),
            ("1h", 0),
            ("4999B", 1),
            ("5000B", 0),
            ("4kB", 1),
            ("5kB", 0),
            ("1MB", 0),
            ("12.5s", 0),
        ):
            found, text = self.probe("--max-lag", limit)
            self.assertEqual(
                (found, f"more than {limit} behind" in text), (code, bool(code)), limit
            )

    def test_a_lag_that_isnt_known(self) -> None:
        del self.status["lag_seconds"]
        self.assertEqual(self.probe("--max-lag", "1h")[0], 1)
        self.assertEqual(self.probe("--max-lag", "1MB")[0], 0)
        self.assertEqual(self.probe()[0], 0)

    def test_no_sign_of_life(self) -> None:
        now = time.time()
        self.status["heartbeat"] = time_text(now - 31)
        for words, code in (
            ((), 1),
            (("--max-age", "1min"), 0),
            (("--max-age", "40"), 0),
            (("--max-age", "30s"), 1),
        ):
            with mock.patch("time.time", lambda: now):
                found, text = self.probe(*words)
            self.assertEqual((found, "no sign of life for 3" in text), (code, bool(code)), words)

    def test_states(self) -> None:
        self.status["last_error"] = "a\x1b[2J\nb"
        for state, code in (
            ("copying", 0),
            ("waiting to connect again", 0),
            ("stopped", 1),
            ("failed", 1),
        ):
            self.status["state"] = state
            found, text = self.probe()
            self.assertEqual(found, code, state)
            self.assertEqual("last error: a\\x1b[2J b" in text, state != "copying")

    def test_no_session(self) -> None:
        """It waits for a server that doesn't let it in any more, say, while its slot keeps the log."""
        now, self.progress.last_error = time.time(), "FATAL:  password authentication failed"
        for state, at, told in (
            ("connecting", now - 90, ""),
            ("opening the store", now - 80, ""),
            ("connecting", now, ""),
            ("waiting to connect again", now + 30, ""),
            ("connecting", now + 61, "no session with the server for 61 s (connecting, "),
            ("following", now + 62, ""),
            ("waiting to connect again", now + 63, ""),
            ("stopped", now + 200, "the follower has ended ("),
        ):
            with mock.patch("time.time", lambda at=at: at):
                self.progress.beat()
                self.progress.enter(state)
                code, text = self.probe()
            self.assertEqual((code, text.startswith(told or "ok (")), (int(bool(told)), True), text)
            self.assertEqual("  mend what its last error says; then it" in text, "session" in told)

    def fails(self, *told: str) -> None:
        """The probe fails, and tells these."""
        code, text = self.probe()
        self.assertEqual(code, 1)
        for it in told:
            self.assertIn(it, text)

    def test_what_was_found(self) -> None:
        self.progress.findings.note({"values": "t.x has old values", "history": "y"})
        self.fails(
            "the copy may be wrong: history, values (following, ",
            "\n  values: t.x has old values: `pgsub-connect add --store /s/copy.db --dsn .. --table T`, or",
            "\n  history: y: `pgsub-connect verify --repair --store /s/copy.db --dsn ..`, once it was started with --accept history; then start it so again\n",
        )

    def test_a_gap_that_was_accepted(self) -> None:
        text = "changes before 0/900 that the store lacks may be missing"
        self.progress.findings.note({"slot": text})
        cure = "`pgsub-connect verify --repair --store /s/copy.db --dsn ..`, once it was started"
        self.fails(f"\n  {text}: {cure} with --accept slot; then start it so again\n")

    def test_one_finding_says_its_kind_once(self) -> None:
        self.progress.findings.note({"publication": "table s.u (7) joined"})
        self.fails(
            "the copy may be wrong: publication (following, ",
            "\n  table s.u (7) joined: `pgsub-connect refresh --store /s/copy.db --dsn ..`\n",
        )
        self.progress.findings.note_adding({"s.u": "waits"})
        self.fails("\n  table s.u (7) joined: its rows are being copied: wait for that\n")

    def test_an_altered_table_that_comes_anew(self) -> None:
        """Nobody is told to do what is being done, unless another table was altered, too."""
        text = "column a of public.t (16426) was added: rows that were there have nulls in it"
        other = text.replace("public.t (16426)", "public.t2 (16427)")
        self.progress.findings.note_adding({"public.t (16426)": "5001 rows, 10040 a second"})
        self.progress.findings.note({"values": f"{text}; {text}"})
        self.fails(f"\n  {text}; {text}: its rows are being copied: wait for that\n")
        for more in (other, "and 3 more"):
            self.progress.findings.note({"values": f"{text}; {more}"})
            self.fails(f"{more}: `pgsub-connect add --store /s/copy.db --dsn .. --table T`, or")

    def test_a_follower_that_ended_says_how_it_goes_on(self) -> None:
        again = "`pgsub-connect follow --store /s/copy.db`, with its --dsn, goes on\n"
        self.status["state"] = "stopped"
        self.fails("the follower has ended (", f"\n  {again}")
        self.status["state"] = "failed"
        self.fails("the follower has failed (", f"\n  mend what its last error says; then {again}")

    def test_tables_that_are_set_aside(self) -> None:
        self.progress.feed.note_tables_aside(
            {"public.t": "since 0/500: why", "s.u": "since 0/400: why"}
        )
        self.fails(
            "set aside in the tables, `pgsub-connect add` them: public.t, s.u",
            "\n  `pgsub-connect add --store /s/copy.db --dsn .. --table public.t --table s.u`\n",
            "\n  public.t: since 0/500: why\n",
        )

    def test_tables_that_arent_there_yet(self) -> None:
        self.progress.feed.note_tables(os.path.dirname(self.path))
        self.assertEqual(self.probe()[0], 0)
        self.progress.feed.note_tables(self.path + ".rows")
        told = (
            "\n  wait until its first rows are copied, as the log tells; if it was removed, start"
        )
        self.fails(f"{self.path}.rows isn't there (", told)
        self.progress.feed.note_tables_error("t: its key is gone")
        self.fails("the tables don't follow any more", "\n  t: its key is gone; then start")

    def test_readers_that_stand_still(self) -> None:
        feed, now = self.progress.feed, time.time()
        for moves, lsns, told in (
            (0, (0x400, 0x500), ()),
            (61, (0x400, 0x500), ("redis has ended or hangs, 256 bytes behind for 61 s", "start")),
            (30, (0x410, 0x500), ()),
            (61, (0x500, 0x500), ()),
        ):
            now += moves
            with mock.patch("time.time", lambda now=now: now):
                self.progress.beat()
                feed.note(dict(zip(("redis", "tables"), lsns)), 7)
                if told:
                    self.fails(*told)
                else:
                    self.assertEqual(self.probe()[0], 0, lsns)

    def test_sinks_beside_the_follower(self) -> None:
        for wrong, code in (("begins", 0), ("", 0), ("ended: no such user", 1)):
            self.progress.feed.note_sink("redis://h/1", wrong)
            self.assertEqual(self.probe()[0], code, wrong)
        self.fails("the sink redis://h/1 doesn't write", "\n  ended: no such user; its log")
        self.progress.findings.note({"names": "y"})
        self.fails(
            "the copy may be wrong: names; the sink redis://h/1 doesn't write (following",
            "\n  the copy may be wrong: names: y: `pgsub-connect names --store /s/copy.db`",
            "\n  the sink redis://h/1 doesn't write: ended: no such user; its log",
        )

    def test_a_filter_that_is_lost_again_and_again(self) -> None:
        now = time.time()
        for at, code in ((now, 0), (now + 5, 0), (now + 10, 1), (now + 606, 0)):
            with mock.patch("time.time", lambda at=at: at):
                self.progress.beat()
                if code or at <= now + 5:
                    self.progress.note_restart("the filter has ended: the disk is full")
                self.assertEqual(self.probe()[0], code)
                if code:
                    self.fails(
                        "`pgsub` has ended 3 times in ten minutes (following, ",
                        "\n  mend that: the filter has ended: the disk is full\n",
                    )

    def test_another_version_is_installed(self) -> None:
        self.assertNotIn("installed", self.probe()[1])
        with mock.patch("pgsub_connect.status.health.VERSION", "0.2.0"):
            code, text = self.probe()
        self.assertEqual(code, 0)
        self.assertIn(f"  it runs version {VERSION}, and 0.2.0 is installed: start it again", text)

    def test_a_lost_slot(self) -> None:
        for status, code in (("extended", 0), ("unreserved", 0), ("lost", 1)):
            self.status["wal_status"] = status
            self.assertEqual(self.probe()[0], code)
        self.status["state"] = "failed"
        self.fails(
            "the slot is lost (failed, ",
            "\n  `pgsub-connect drop --store /s/copy.db --dsn ..`, and",
        )
        self.assertNotIn("goes on", self.probe()[1])

    def test_a_full_disk(self) -> None:
        """On which the status file of a follower that fails isn't replaced any more."""
        said = status_fields(self.progress, 0.0, time.time() - 8.0, "/s/copy.db") | self.status
        for left, age, state, code in (
            (0, 8, "copying", 1),
            (1 << 20, 8, "copying", 0),
            (0, 2, "copying", 0),
        ):
            said |= {"heartbeat": time_text(time.time() - age), "state": state}
            with mock.patch("pgsub_connect.commands.status.room_of", return_value=left):
                found, text = self.probe(status=said)
            self.assertEqual(found, code, text)
            self.assertEqual(f"the disk of {self.path} is full (copying, " in text, code == 1)
            self.assertEqual("  make room there: " in text, code == 1)

    def test_no_such_file(self) -> None:
        self.assertEqual(
            self.run_it("--status-file", self.path),
            (3, f"{self.path}: No such file or directory\n"),
        )
        for it in (
            [],
            "x",
            {},
            {"state": "following"},
            {"state": 5, "heartbeat": 7},
            {"state": "following", "heartbeat": "x"},
        ):
            self.assertEqual(self.probe(status=it), (3, f"{self.path}: not a status file\n"), it)

    def test_a_path_that_is_no_utf_8(self) -> None:
        with contextlib.redirect_stdout(io.TextIOWrapper(io.BytesIO(), encoding="utf-8")) as out:
            self.assertEqual(cli.main(["status", "--status-file", os.fsdecode(b"/none\xff")]), 3)
            out.seek(0)
            self.assertEqual(out.read(), "/none\\udcff: No such file or directory\n")

    def test_which_file(self) -> None:
        """That of a store, of a store in this folder, or of the service, wherever it leads to."""
        folder = os.path.dirname(self.path)
        store = folder + "/copy.db"
        for status_file in (store + STATUS, folder + "/elsewhere"):
            settings = ReportSettings(store, status_file=status_file)
            reporter = Reporter(settings, self.progress)
            reporter.start()
            reporter.finish()
            self.assertEqual(self.run_it("--store", store)[0], 0)
        os.symlink("/nowhere", folder + "/other.db.status")
        open(folder + "/copy.db.connector", "w").close()
        with contextlib.chdir(folder):
            self.assertEqual(self.run_it()[0], 0)
            open("other.db.connector", "w").close()
            code, text = self.run_it()
        self.assertEqual(code, 3)
        self.assertRegex(
            text, r"^copy\.db\.status:\nok \(.*\)\nother\.db\.status:\nother.* No such"
        )
        with contextlib.chdir("/"), mock.patch.object(command, "SERVICE", folder + "/else*"):
            self.assertEqual(self.run_it()[0], 0)
        with contextlib.chdir("/"), mock.patch.object(command, "SERVICE", folder + "/none*"):
            with contextlib.redirect_stderr(io.StringIO()) as said:
                self.assertEqual(self.run_it(), (2, ""))
            self.assertIn("name one by --store", said.getvalue())

    def test_a_service_that_ended(self) -> None:
        """It is told of, also where others are well, until its store is dropped."""
        folder = os.path.dirname(self.path)
        for name, state in (("one", "following"), ("two", "failed")):
            self.progress.state = state
            path = f"{folder}/{name}.json"
            with open(path, "w", encoding="utf-8") as file:
                json.dump(status_fields(self.progress, 0.0, time.time(), f"{folder}/{name}"), file)
            os.symlink(path, f"{folder}/{name}{STATUS}")
        with mock.patch.object(command, "SERVICE", folder + "/*.json"):
            code, text = self.run_it()
            self.assertEqual((code, "the follower has failed" in text), (1, True), text)
            os.unlink(f"{folder}/two{STATUS}")
            code, text = self.run_it()
            self.assertEqual((code, text.startswith("ok (following")), (0, True), text)

    def watched(self, *keys: bytes, **environment: str) -> str:
        """What `--watch` shows on a terminal until these keys are pressed."""
        self.progress.copy.begin_part("public.t")
        self.progress.copy.begin()
        self.progress.copy.note_total(1000, 2)
        self.progress.copy.note_part(250, False)
        self.progress.feed.note({"redis": 0x400}, 7)
        self.status["changes_per_second"] = 25.0
        self.probe()
        child, terminal = pty.fork()
        if not child:
            os.environ.update({"TERM": "xterm", **environment})
            # (a busy machine may take longer to start it than a sign of life is fresh)
            words = ["status", "--watch", "--status-file", self.path, "--max-age", "1h"]
            os.execv(sys.executable, [sys.executable, COMMAND, *words])
        said, late = b"", threading.Timer(60, os.kill, (child, signal.SIGKILL))
        late.start()
        self.addCleanup(late.cancel)
        with open(terminal, "rb+", buffering=0) as it, contextlib.suppress(OSError):
            while b"q ends this" not in said:
                said += it.read(1 << 16)
            for key in keys:
                it.write(key)
            while more := it.read(1 << 16):
                said += more
        self.assertEqual(os.waitstatus_to_exitcode(os.waitpid(child, 0)[1]), 0)
        return said.decode()

    def test_a_screen(self) -> None:
        for key in (b"q", b"\x03"):
            said = self.watched(b"x", key)
            self.assertTrue(said.startswith("\x1b[H\x1b[2J\x1b[32mok (following, 5000 bytes"), said)
            for line in (
                f"  copying    [{'#' * 10}{' ' * 30}] 25 %",
                "  copying    public.t: 250 of 1000 rows, 25 a second, 30 s left",
                "  rate       25 changes and copied rows a second",
                "  position   0/500 (5000 bytes and 12.5 s behind)",
                "  reader     redis: 256 bytes behind, at 0/400",
            ):
                self.assertIn(line, said.splitlines())
        self.assertNotIn("\x1b[32m", self.watched(b"q", NO_COLOR="1"))

    def test_watched_without_a_terminal(self) -> None:
        """A line each half minute, here sooner."""
        self.probe()
        out, looks = io.StringIO(), iter(range(3))

        def check() -> None:
            if next(looks, None) is None:
                raise Stopped

        with mock.patch.object(command, "WRITTEN", 0.02), contextlib.redirect_stdout(out):
            self.assertEqual(command.watch(command.Options(status_file=self.path), check), 0)
        self.assertRegex(out.getvalue(), r"^(ok \(following, [^\x1b]*\)\n){2,}$")

    def test_usage(self) -> None:
        for words in (
            "--status-file x --store y",
            "--status-file x --max-lag 60",
            "--status-file x --max-lag -1s",
            "--status-file x --max-lag 1sB",
            "--status-file x --max-age soon",
        ):
            with contextlib.redirect_stderr(io.StringIO()), self.assertRaises(SystemExit) as ended:
                cli.main(["status", *words.split()])
            self.assertEqual(ended.exception.code, 2)


if __name__ == "__main__":
    unittest.main()
