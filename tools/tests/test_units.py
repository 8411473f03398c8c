"""The units of systemd: their rating, what they leave to a follower, the account that they make."""

import errno
import os
import re
import shlex
import shutil
import subprocess
import tempfile
import unittest
from pathlib import Path

from built import TOP
from confinement import allowed_by, settings_of

UNITS = ("pgsub@.service", "pgsub-account@.service", "pgsub-sink@.service")
RATED = re.compile(r"Overall exposure level for \S+: ([\d.]+)")
# what a follower may not do, each with the error that it gets
DENIED = {
    "os.chown('/', -1, -1)": errno.EPERM,
    "os.nice(0)": errno.EPERM,
    "os.setuid(os.getuid())": errno.EPERM,
    "socket.socket(socket.AF_NETLINK, socket.SOCK_RAW)": errno.EAFNOSUPPORT,
    "mmap.mmap(-1, 4096, prot=mmap.PROT_READ | mmap.PROT_WRITE | mmap.PROT_EXEC)": errno.EPERM,
}
ALLOWED = (
    "socket.socket(socket.AF_INET)",
    "socket.socket(socket.AF_UNIX)",
    "mmap.mmap(-1, 4096)",
    "os.fsync(os.open('file', os.O_CREAT))",
    "subprocess.run(['true'], check=True)",
    "ctypes.CFUNCTYPE(None)(print)",
)
TRY = """
import ctypes, mmap, os, socket, subprocess, sys
try:
    eval(sys.argv[1])
except OSError as wrong:
    sys.exit(wrong.errno)
"""


class Case(unittest.TestCase):
    def setUp(self) -> None:
        room = tempfile.TemporaryDirectory()
        self.addCleanup(room.cleanup)
        self.room = Path(room.name)
        for it in UNITS:
            text = (TOP / "connect" / it).read_text()
            (self.room / it).write_text(text.replace("@BIN@/pgsub-connect", "/bin/true"))

    def test_they_can_be_read(self) -> None:
        words = ["systemd-analyze", "verify", "--man=no", *(f"{self.room}/{it}" for it in UNITS)]
        ran = subprocess.run(words, capture_output=True, text=True)
        self.assertEqual((ran.returncode, ran.stderr), (0, ""))

    def test_rating(self) -> None:
        for unit in (UNITS[0], UNITS[2]):
            words = [
                "systemd-analyze",
                "security",
                "--offline=true",
                "--no-pager",
                f"{self.room}/{unit}",
            ]
            found = RATED.search(
                subprocess.run(words, capture_output=True, text=True, check=True).stdout
            )
            assert found
            self.assertLess(float(found[1]), 2.0, unit)

    def test_what_keeps_a_follower_running(self) -> None:
        settings = settings_of((TOP / "connect" / UNITS[0]).read_text())
        wanted = {
            "UMask": "0077",
            "RestartForceExitStatus": "7",
            "Restart": "on-abnormal",
            "OOMPolicy": "continue",
            "RuntimeDirectoryPreserve": "yes",
            "SuccessExitStatus": "9",
            "User": "pgsub-%i",
        }
        self.assertEqual(
            {it: settings[it] for it in wanted}, {name: [value] for name, value in wanted.items()}
        )

    def test_a_sink_runs_as_its_follower_does(self) -> None:
        """Its account, its folder and no more rights; its words are those of the command."""
        follower, sink = (
            settings_of((TOP / "connect" / it).read_text()) for it in (UNITS[0], UNITS[2])
        )
        own = {"ExecStart", "EnvironmentFile", "Type", "TimeoutStopSec"}
        own |= {"Description", "Documentation", "After"}
        self.assertEqual(
            {name: it for name, it in sink.items() if name not in own},
            {name: it for name, it in follower.items() if name in sink and name not in own},
        )
        # (what says how a follower is watched, and where its status file is)
        others = {"NotifyAccess", "TimeoutStartSec", "WatchdogSec", "SuccessExitStatus", "KillMode"}
        others |= {it for it in follower if it.startswith("RuntimeDirectory")} | {"OOMPolicy"}
        self.assertEqual(follower.keys() - sink.keys(), others)
        self.assertEqual(sink["EnvironmentFile"], ["/etc/pgsub/%i.sink.conf"])
        _, *words = shlex.split(sink["ExecStart"][0].replace("%i", "shop"))
        ran = subprocess.run(
            [TOP / "connect/pgsub-connect", *words[:-1], "--once"],
            capture_output=True,
            text=True,
            env={**os.environ, "PGSUB_SINK": "unix:///no/socket"},
        )
        # (a follower that is started later makes it: this is started again then)
        restarts = [str(ran.returncode)]
        self.assertEqual((words[-1], sink["RestartForceExitStatus"]), ("$OPTIONS", restarts))
        self.assertIn("there is no feed /var/lib/pgsub/shop/copy.db.feed", ran.stderr)

    def test_a_sink_of_a_folder_that_is_no_feed_stays_ended(self) -> None:
        """One that isn't there yet is looked for every ten seconds."""
        sink = settings_of((TOP / "connect" / UNITS[2]).read_text())
        self.assertEqual((sink["Restart"], sink["RestartSec"]), (["on-abnormal"], ["10"]))
        (self.room / "file").write_text("")
        words = ["sink", "redis://127.0.0.1:1", "--feed", f"{self.room}/file"]
        ran = subprocess.run(
            [TOP / "connect/pgsub-connect", *words], capture_output=True, text=True, timeout=60
        )
        self.assertEqual(ran.returncode, 3, ran.stderr)
        self.assertNotIn("3", sink["RestartForceExitStatus"])

    def test_a_filter_of_calls(self) -> None:
        """Lines allow one after the other, and take away."""
        found = allowed_by(["@file-system mount", "~@chown unlink"])
        self.assertLessEqual({"openat", "mount", "exit_group"}, found)
        self.assertFalse({"chown", "unlink", "reboot"} & found)

    def confined(self, text: str) -> int:
        words = [f"{TOP}/tools/confined", "--command", "/usr/bin/python3", "-c", TRY, text]
        return subprocess.run(words, cwd=self.room).returncode

    def test_what_a_follower_may_not_do(self) -> None:
        for text, error in DENIED.items():
            with self.subTest(text):
                self.assertEqual(self.confined(text), error)

    def test_what_it_may_do(self) -> None:
        for text in ALLOWED:
            with self.subTest(text):
                self.assertEqual(self.confined(text), 0)

    def test_the_connector_runs(self) -> None:
        ran = subprocess.run([TOP / "tools/confined", "--version"], capture_output=True, text=True)
        self.assertEqual(ran.returncode, 0)
        self.assertIn("pgsub-connect", ran.stdout)

    def test_the_account_of_a_follower(self) -> None:
        """The unit makes one that can't log in, and its group, and finds it there the next time."""
        (command,) = settings_of((TOP / "connect" / UNITS[1]).read_text())["ExecStart"]
        program, *words = shlex.split(command.replace("%i", "shop"))
        (self.room / "etc").mkdir()
        for _ in range(2):
            subprocess.run(
                [program, f"--root={self.room}", *words], check=True, capture_output=True
            )
        (line,) = (self.room / "etc/passwd").read_text().splitlines()
        name, _, number, group, _, home, shell = line.split(":")
        self.assertEqual(
            (name, home, shell), ("pgsub-shop", "/var/lib/pgsub/shop", "/usr/sbin/nologin")
        )
        self.assertTrue((self.room / "etc/group").read_text().startswith(f"pgsub-shop:x:{group}:"))
        self.assertNotEqual(number, "0")

    def test_tools_are_there(self) -> None:
        for it in ("systemd-analyze", "systemd-sysusers"):
            self.assertTrue(shutil.which(it), f"{it}: apt-get install systemd")


if __name__ == "__main__":
    unittest.main()
