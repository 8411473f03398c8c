"""The full check of a store, by a program in the place of `pgsub`."""

from __future__ import annotations

import fcntl
import os
import time
from pathlib import Path

from pgsub_connect.judged import ERROR, OK, WARNING
from pgsub_connect.store.full_check import judge_rows
from pgsub_feed.errors import FileError, Stopped
from pgsub_feed.interruption import never

from .fake_server import Quiet


class Checking(Quiet):
    def setUp(self) -> None:
        super().setUp()
        folder = self.make_folder()
        self.store, self.program = folder + "/copy.db", folder + "/pgsub"
        Path(self.store).write_bytes(b"rows")
        self.says('echo "$@" > "$3.words"; echo rows')

    def says(self, script: str) -> None:
        Path(self.program).write_text(f"#!/bin/sh\n{script}\n", "utf-8")
        os.chmod(self.program, 0o755)

    def test_a_sound_store(self) -> None:
        found = judge_rows(self.program, self.store, never)
        self.assertEqual((found.level, found.name), (OK, "store"))
        said = Path(self.store + ".words").read_text("utf-8")
        self.assertEqual(said, f"dump --store {self.store}\n")

    def test_one_that_is_none(self) -> None:
        self.says('echo first >&2; echo "pgsub: store 8 NotAStore" >&2; exit 3')
        found = judge_rows(self.program, self.store, never)
        self.assertEqual(found.level, ERROR)
        self.assertTrue(found.text.endswith(": pgsub: store 8 NotAStore"), found.text)

    def test_a_program_that_says_nothing(self) -> None:
        self.says("exit 9")
        self.assertIn(": status 9", judge_rows(self.program, self.store, never).text)

    def test_one_that_is_followed(self) -> None:
        with open(self.store + ".connector", "w", encoding="ascii") as file:
            fcntl.flock(file, fcntl.LOCK_EX)
            found = judge_rows(self.program, self.store, never)
        self.assertEqual(found.level, WARNING)
        self.assertFalse(os.path.exists(self.store + ".words"))

    def test_no_program(self) -> None:
        with self.assertRaisesRegex(FileError, "No such file"):
            judge_rows(self.program + "2", self.store, never)

    def test_it_is_interrupted(self) -> None:
        self.says(f"echo $$ > {self.store}.pid; exec sleep 60")
        pid = Path(self.store + ".pid")

        def check() -> None:
            if pid.exists() and pid.read_text("ascii"):
                raise Stopped

        began = time.monotonic()
        with self.assertRaises(Stopped):
            judge_rows(self.program, self.store, check)
        self.assertLess(time.monotonic() - began, 30)
        self.assertFalse(os.path.exists("/proc/" + pid.read_text("ascii").strip()))
