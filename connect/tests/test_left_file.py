"""Whether the next filter may trust the store: only where it is as its own filter left it."""

from __future__ import annotations

import os
import shutil
import signal
from pathlib import Path

from pgsub_connect.stream.left_file import LeftFile, print_of
from pgsub_connect.stream.filter import LOAD, TRUST, Filter
from pgsub_connect.stream.filter_end import BREACH, BROKEN, MISSED, REFUSED, FilterEnded

from .fake_server import Quiet
from .test_filtering import FAKE

# Where a header of SQLite has its change counter.
COUNTER = 24


class Case(Quiet):
    def setUp(self) -> None:
        super().setUp()
        self.store = self.make_folder() + "/copy.db"
        Path(self.store).write_bytes(b"SQLite format 3\0" + bytes(1008))
        self.note = Path(self.store + ".left")

    def left(self, every: int = 30) -> LeftFile:
        """That of a connector that begins."""
        return LeftFile(self.store, every)

    def close(self, status: int = 0) -> None:
        """A filter of an earlier connector has ended by itself."""
        it = self.left()
        it.begin()
        it.end(status, True)


class WhetherItIsTrusted(Case):
    def test_as_its_filter_left_it(self) -> None:
        self.assertFalse(self.left().begin())
        for status in (0, MISSED, BREACH):
            self.close(status)
            self.assertTrue(self.left().begin())

    def test_what_was_noted_is_of_one_start(self) -> None:
        self.close()
        self.assertTrue(self.left().begin())
        self.assertFalse(self.note.exists())
        self.assertFalse(self.left().begin())

    def test_after_a_filter_whose_store_failed(self) -> None:
        for status in (REFUSED, BROKEN, 3, 14, 12):
            self.close()
            it = self.left()
            it.begin()
            it.end(status, True)
            self.assertFalse(it.begin())
            self.assertFalse(self.note.exists())

    def test_after_one_that_had_not_opened_it(self) -> None:
        it = self.left()
        it.begin()
        it.end(0, False)
        self.assertFalse(it.begin())

    def test_a_killed_one_is_of_use_to_who_saw_it_die(self) -> None:
        for number in (signal.SIGKILL, signal.SIGTERM):
            it = self.left()
            it.begin()
            it.end(-number, True)
            self.assertFalse(self.note.exists())
            self.assertFalse(self.left().begin())
            self.assertTrue(it.begin())

    def test_not_one_that_died_of_a_fault(self) -> None:
        for number in (signal.SIGSEGV, signal.SIGBUS, signal.SIGABRT):
            it = self.left()
            it.begin()
            it.end(-number, True)
            self.assertFalse(it.begin())

    def test_each_nth_start_reads_all_rows(self) -> None:
        found = []
        for _ in range(7):
            it = self.left(3)
            found.append(it.begin())
            it.end(0, True)
        self.assertEqual(found, [False, True, True, False, True, True, False])
        it = self.left(1)
        self.assertFalse(it.begin())

    def test_the_same_within_one_connector(self) -> None:
        it, found = self.left(3), []
        for _ in range(5):
            found.append(it.begin())
            it.end(-signal.SIGKILL, True)
        self.assertEqual(found, [False, True, True, False, True])


class WhatItMayMeet(Case):
    """Files that aren't as they were left: all rows are read."""

    def setUp(self) -> None:
        super().setUp()
        self.close()
        self.times = os.stat(self.store)

    def is_doubted(self) -> None:
        self.assertFalse(self.left().begin())

    def write(self, at: int, piece: bytes) -> None:
        with open(self.store, "r+b") as file:
            file.seek(at)
            file.write(piece)

    def test_a_flipped_page(self) -> None:
        self.write(600, b"\x01")
        self.is_doubted()

    def test_one_whose_time_was_put_back(self) -> None:
        self.write(600, b"\x01")
        os.utime(self.store, ns=(self.times.st_atime_ns, self.times.st_mtime_ns))
        self.is_doubted()

    def test_a_file_put_back(self) -> None:
        shutil.copy2(self.store, self.store + ".old")
        os.replace(self.store + ".old", self.store)
        self.is_doubted()

    def test_another_change_counter(self) -> None:
        before = print_of(self.store)
        self.write(COUNTER, b"\0\0\0\x07")
        self.assertEqual(print_of(self.store)[5:], [7])
        self.assertNotEqual(print_of(self.store), before)
        self.is_doubted()

    def test_a_longer_file(self) -> None:
        self.write(1024, bytes(1024))
        self.is_doubted()

    def test_a_log_of_another_filter(self) -> None:
        Path(self.store + "-wal").write_bytes(b"7\x7f\x06\x82")
        self.is_doubted()

    def test_another_log(self) -> None:
        log = Path(self.store + "-wal")
        log.write_bytes(b"old")
        self.close()
        log.write_bytes(b"new")
        self.is_doubted()

    def test_no_file(self) -> None:
        os.unlink(self.store)
        self.is_doubted()

    def test_no_file_at_either_time(self) -> None:
        os.unlink(self.store)
        self.close()
        self.is_doubted()

    def test_a_note_of_another_store(self) -> None:
        other = self.store + "2"
        shutil.copy2(self.store, other)
        shutil.copy2(self.note, other + ".left")
        self.assertFalse(LeftFile(other, 30).begin())

    def test_a_note_that_is_none(self) -> None:
        whole = self.note.read_bytes()
        for spoiled in (
            b"",
            b"{}",
            b"[]",
            whole[:-9],
            whole.replace(b'"version":1', b'"version":2'),
            whole.replace(b'"starts":0', b'"starts":-1'),
            whole.replace(b'"starts":0', b'"starts":29'),
        ):
            self.note.write_bytes(spoiled)
            self.is_doubted()
        self.note.write_bytes(whole)
        self.assertTrue(self.left().begin())


class AFilter(Case):
    def setUp(self) -> None:
        super().setUp()
        os.unlink(self.store)

    def filter(self) -> Filter:
        words = ["/usr/bin/python3", "-S", "-E", FAKE, "follow", "--store", self.store]
        it = Filter(words, (), left=self.left())
        self.addCleanup(it.kill)
        return it

    def is_told(self, it: Filter) -> bool:
        self.assertEqual(it.trusts, TRUST in it.child.args)  # type: ignore[operator]
        return it.trusts

    def end(self, it: Filter) -> None:
        it.finish()
        with self.assertRaises(FilterEnded):
            while True:
                it.serve(1)

    def test_is_told_what_it_may_trust(self) -> None:
        Path(self.store).write_text("1", "ascii")
        it = self.filter()
        it.start()
        self.assertFalse(self.is_told(it))
        self.end(it)
        it.start()
        self.assertTrue(self.is_told(it))
        it.kill()
        it.start()
        self.assertTrue(self.is_told(it))
        self.end(it)
        Path(self.store).write_text("2", "ascii")
        it.start()
        self.assertFalse(self.is_told(it))

    def test_of_another_connector(self) -> None:
        Path(self.store).write_text("1", "ascii")
        it = self.filter()
        it.start()
        self.end(it)
        it = self.filter()
        it.start()
        self.assertTrue(self.is_told(it))
        it.kill()
        it = self.filter()
        it.start()
        self.assertFalse(self.is_told(it))

    def test_that_loads_trusts_nothing(self) -> None:
        it = self.filter()
        it.launch(LOAD)
        self.assertFalse(self.is_told(it))
