"""The filter as a child: what it is given, what of its bytes is a status, and how it ends."""

from __future__ import annotations

import os
import select
import subprocess
import time
import tracemalloc
import unittest
from pathlib import Path
from unittest import mock

from pgsub_connect.copy.messages import load_frame, point_frame, table_frame
from pgsub_connect.errors import FilterFault
from pgsub_connect.stream import filter as filter_module
from pgsub_connect.stream.filter import LOAD, Filter
from pgsub_connect.stream.filter_end import BROKEN, MISSED, FilterEnded, Missing, missing_of
from pgsub_connect.stream.filter_input import PIECE, ROOM
from pgsub_connect.stream.messages import (
    COPY_DONE,
    HEADERS,
    STATUS_HEAD,
    asking,
    flushed,
    without_received,
)
from pgsub_connect.stream.room import is_full, rooms
from pgsub_feed.errors import Stopped

from .fake_server import Quiet
from .test_copying import STOCK
from .vectors import begin, commit, delete, insert, keepalive

FAKE = os.path.join(os.path.dirname(os.path.abspath(__file__)), "fake_filter.py")


def framed(*payloads: bytes) -> bytes:
    return b"".join(HEADERS[len(it)] + it for it in payloads)


class Case(Quiet):
    def setUp(self) -> None:
        super().setUp()
        self.store = self.make_folder() + "/copy.db"

    def says(self, text: str) -> None:
        with open(self.store + ".says", "w", encoding="ascii") as file:
            file.write(text)

    def filter(self, *words: str) -> Filter:
        found = Filter(
            [*(words or ("/usr/bin/python3", "-S", "-E", FAKE, "follow")), "--store", self.store],
            (),
        )
        self.addCleanup(found.kill)
        return found

    def shell(self, script: str) -> Filter:
        return self.filter("/bin/sh", "-c", script, "sh")

    def end(self, child: Filter) -> FilterEnded:
        """Serves it until it ends."""
        until = time.monotonic() + 60
        while time.monotonic() < until:
            try:
                child.serve(0.1)
            except FilterEnded as ended:
                self.assertFalse(child.is_running())
                return ended
        raise AssertionError("it goes on")


class Statuses(Case):
    def test_commits(self) -> None:
        child = self.filter()
        self.assertEqual(child.start(), 0)
        child.push_payloads([begin(0x100, 7), insert(1), commit(0x100, 0x108)])
        while not child.serve(1.0)[2]:
            pass
        self.assertEqual(child.confirmed(), 0x108)
        child.finish()
        self.assertEqual((self.end(child).status, self.filter().start()), (0, 0x108))

    def test_in_parts(self) -> None:
        status = "d\\0\\0\\0\\046r" + "\\0" * 15 + "\\007" + "\\0" * 17
        child = self.shell(
            f"printf '{status[:14]}'; read it; printf '{status[14:]}{status}'; cat > /dev/null"
        )
        parts = list[int]()

        def go_on() -> None:
            if child.partial and not parts:
                parts.append(len(child.partial))
                child.push(b"x\n")

        self.assertEqual((child.start(go_on), parts), (7, [7]))

    def test_what_isnt_one(self) -> None:
        for script in (
            "printf '%050d' 5",
            "printf 'd\\0\\0\\0\\047r%040d' 5",
            "printf 'd\\0\\0\\0\\046k%040d' 5",
        ):
            child = self.shell(f"{script}; cat > /dev/null")
            with self.assertRaisesRegex(FilterFault, "isn't a status"):
                child.start()
            self.assertFalse(child.is_running())

    def test_fields(self) -> None:
        status = STATUS_HEAD[5:] + b"".join(it.to_bytes(8, "big") for it in (9, 5, 5, 1)) + b"\0"
        self.assertEqual(flushed(status), 5)
        self.assertEqual(without_received(status)[1:9], (5).to_bytes(8, "big"))
        self.assertEqual(
            (without_received(status)[9:], asking(status)), (status[9:], status[:-1] + b"\1")
        )


class Ends(Case):
    def test_each_status(self) -> None:
        for status, rejected in (
            (1, True),
            (2, True),
            (3, True),
            (10, True),
            (11, True),
            (12, False),
            (13, False),
            (14, False),
            (15, False),
            (16, False),
        ):
            child = self.shell(f"echo 'pgsub: why {status}' >&2; exit {status}")
            with self.assertRaises(FilterEnded) as raised:
                child.start()
            ended = raised.exception
            self.assertEqual(
                (ended.status, ended.said, ended.is_rejection()),
                (status, f"pgsub: why {status}", rejected),
            )

    def test_a_store_that_another_program_has_open(self) -> None:
        """What to do is told beside the words of the program."""
        for status in (12, 13):
            with self.assertRaises(FilterEnded) as raised:
                self.shell(f"echo 'pgsub: store 8 Refused' >&2; exit {status}").start()
            busy = "(another program may have the store open, as `pgsub dump`: let that end"
            self.assertEqual(busy in str(raised.exception), status == 12)
            self.assertEqual(raised.exception.said, "pgsub: store 8 Refused")

    def test_a_disk_with_little_room(self) -> None:
        """What of a feed that can't be written the program doesn't say."""
        disks = [("/x/copy.db", 1 << 30), ("/x/copy.db.feed", 5)]
        told = r"13: pgsub: store 8 Refused \(the disk of /x/copy.db.feed has 5 bytes left\)$"
        for status, text in ((13, told), (12, "has 5 bytes left"), (1, "8 Refused$")):
            with mock.patch("pgsub_connect.stream.room.rooms", return_value=disks):
                with self.assertRaisesRegex(FilterEnded, text):
                    self.shell(f"echo 'pgsub: store 8 Refused' >&2; exit {status}").start()
        words = ["pgsub", "follow", "--store", "/proc/self/copy.db", "--feed", "/nowhere/feed"]
        self.assertEqual(list(rooms(words)), [("/proc/self/copy.db", 0)])
        self.assertTrue(is_full(words))
        self.assertEqual((list(rooms(["pgsub"])), is_full(["pgsub"])), ([], False))

    def test_a_cause_before_its_fault(self) -> None:
        """It is passed on, and the fault stays what was said last."""
        child = self.shell(
            "echo 'pgsub: the disk is full' >&2; echo 'pgsub: store 8 Refused' >&2; exit 13"
        )
        with self.assertRaises(FilterEnded) as raised:
            child.start()
        ended = raised.exception
        self.assertEqual(
            (ended.status, ended.said, ended.is_rejection()), (13, "pgsub: store 8 Refused", False)
        )
        self.assertEqual(
            self.said, ["filter: pgsub: the disk is full", "filter: pgsub: store 8 Refused"]
        )

    def test_by_a_signal(self) -> None:
        with self.assertRaises(FilterEnded) as raised:
            self.shell("kill -9 $$").start()
        self.assertEqual((raised.exception.status, raised.exception.is_rejection()), (-9, False))
        self.assertIn("signal 9", str(raised.exception))

    def test_a_rejection_in_the_midst(self) -> None:
        self.says("status 1 pgsub: store 1 Clash")
        child = self.filter()
        child.start()
        child.push_payloads([begin(0x100, 7)] * 100)
        ended = self.end(child)
        self.assertTrue(ended.is_of_commit())
        self.assertIn("filter: pgsub: store 1 Clash", self.said)

    def test_a_signal_while_it_opens(self) -> None:
        self.says("slow 600")
        calls: list[int] = []

        def check() -> None:
            calls.append(1)
            if len(calls) > 1:
                raise Stopped

        child, began = self.filter(), time.monotonic()
        with mock.patch.object(filter_module, "LOOK", 0.02), self.assertRaises(Stopped):
            child.start(check)
        self.assertLess(time.monotonic() - began, 60.0)
        self.assertFalse(child.is_running())

    def test_no_program(self) -> None:
        with self.assertRaisesRegex(FilterFault, "No such file"):
            self.filter("/nonexistent/pgsub").start()


class Loads(Case):
    """A filter that reads tables before its first session, and stays."""

    POINT = 0x1000028

    def loaded(self, *words: str) -> Filter:
        child = self.filter()
        child.add_words(words)
        child.launch(LOAD)
        self.addCleanup(child.kill)
        for it in (table_frame(STOCK), load_frame(b"t", b"1\t5\n"), load_frame(b"e")):
            child.push_load(it)
        return child

    def test_it_confirms_nothing_before_its_end_and_follows_then(self) -> None:
        child = self.loaded()
        until = time.monotonic() + 60
        while not os.path.exists(self.store) or Path(self.store).read_text() != "1":
            child.serve(0.05)
            self.assertLess(time.monotonic(), until)
        self.assertFalse(child.has_opened())
        child.push_load(point_frame(self.POINT))
        while not child.has_opened():
            child.serve(0.05)
        self.assertEqual((child.confirmed(), child.in_session), (self.POINT, False))
        child.push(framed(begin(self.POINT, 7), insert(1), commit(self.POINT, self.POINT + 8)))
        while child.confirmed() != self.POINT + 8:
            child.serve(0.05)

    def test_a_cut(self) -> None:
        child = self.loaded()
        child.finish()
        ended = self.end(child)
        self.assertEqual((ended.status, ended.said), (BROKEN, "pgsub: load 9 CutInput"))
        self.assertFalse(ended.is_rejection())

    def test_a_watch_is_of_the_first_one(self) -> None:
        """It begins with the first session, behind the load."""
        for stops in (True, False):
            watch = ["--watch", "stop" if stops else "tell"]
            with mock.patch("subprocess.Popen", side_effect=subprocess.Popen) as run:
                child = self.loaded(*watch)
            self.assertEqual(run.call_args[0][0][-5:], [*watch, "--proto", "2", LOAD])
            self.assertEqual(child.is_to_stop(), stops)
            child.kill()


class Misses(Case):
    """What a filter says of changes that found no row."""

    STATUS = "d\\0\\0\\0\\046r" + "\\0" * 15 + "\\007" + "\\0" * 17
    LINE = "pgsub: rows not found: 3, first in relation 16385 at 0/1A2B3C8"

    def test_lines(self) -> None:
        self.assertEqual(missing_of(self.LINE), Missing(3, 0x1A2B3C8, 16385))
        most = "pgsub: rows not found: 18446744073709551615, first in relation 4294967295 at FFFFFFFF/FFFFFFFF"
        self.assertEqual(missing_of(most), Missing((1 << 64) - 1, (1 << 64) - 1, (1 << 32) - 1))
        for line in (
            "",
            f" {self.LINE}",
            f"{self.LINE} ",
            f"{self.LINE}\n",
            self.LINE[:-9],
            self.LINE.replace("3,", "-3,"),
            self.LINE.replace("3,", ","),
            self.LINE.replace("0/1A2B3C8", "1A2B3C8"),
            self.LINE.replace("16385", "t"),
            "pgsub: store 1 Clash",
        ):
            self.assertIsNone(missing_of(line), line)

    def statuses(self, child: Filter) -> list[bytes]:
        """The next statuses that it has."""
        until = time.monotonic() + 60
        while time.monotonic() < until:
            if statuses := child.serve(0.1)[2]:
                return statuses
        raise AssertionError("no status comes")

    def test_a_line_is_there_with_its_status(self) -> None:
        """Also where only the status had come when it was looked what has."""
        child = self.filter()
        child.start()
        child.push_payloads([begin(0x100, 7), delete(3), delete(4), commit(0x100, 0x108)])
        child.input.write()
        # (what it says comes before its status)
        self.assertTrue(select.select([child.up], [], [], 60.0)[0])
        with mock.patch("select.select", lambda *_: ([child.up], [], [])):
            self.assertEqual(len(child.serve(1.0)[2]), 1)
        self.assertEqual(child.said.missing, Missing(2, 0x108, 3))
        child.push_payloads(
            [
                begin(0x110, 7),
                insert(3),
                commit(0x110, 0x118),
                begin(0x120, 7),
                delete(9),
                commit(0x120, 0x128),
            ]
        )
        while child.confirmed() < 0x128:
            self.statuses(child)
        self.assertEqual(child.said.missing, Missing(3, 0x108, 3))
        child.finish()
        ended = self.end(child)
        self.assertEqual(
            (ended.status, ended.said, ended.is_rejection(), self.said), (MISSED, "", False, [])
        )

    def test_a_line_in_two_parts(self) -> None:
        """Each of which is read by itself."""
        child = self.shell(
            f"printf '{self.STATUS}'; printf 'pgsub: rows not fou' >&2; read it; printf 'nd: {self.LINE[23:]}\\nmore' >&2;"
            f" printf '{self.STATUS}'; read it; printf '!\\n' >&2; cat > /dev/null"
        )
        child.start()
        while not child.said.line:
            child.serve(0.01)
        self.assertEqual((child.said.line, child.said.missing), (b"pgsub: rows not fou", Missing()))
        child.push(b"x\n")
        self.statuses(child)
        self.assertEqual(
            (child.said.missing, child.said.line, self.said),
            (Missing(3, 0x1A2B3C8, 16385), b"more", []),
        )
        child.push(b"x\n")
        while child.said.line:
            child.serve(0.01)
        self.assertEqual(self.said, ["filter: more!"])

    def test_more_than_a_pipe_has(self) -> None:
        """Lines before it are taken, too."""
        child = self.shell(
            f"printf '{self.STATUS}'; i=0; while [ $i -lt 4000 ]; do echo 'a line that says nothing of rows'; i=$((i+1)); done >&2;"
            f" echo '{self.LINE}' >&2; printf '{self.STATUS}'; cat > /dev/null"
        )
        child.start()
        if not child.said.missing.total:
            self.statuses(child)
        self.assertEqual((child.said.missing.total, len(self.said)), (3, 4000))

    def test_each_filter_counts_anew(self) -> None:
        child = self.filter()
        child.start()
        child.push_payloads([begin(0x100, 7), delete(3), commit(0x100, 0x108)])
        self.statuses(child)
        child.finish()
        self.end(child)
        self.assertEqual(child.said.missing.total, 1)
        child.start()
        self.assertEqual((child.said.missing, child.confirmed()), (Missing(), 0x108))

    def test_what_it_said_before_it_was_killed(self) -> None:
        """Also a line without its end isn't one."""
        for line, missing in (
            (f"{self.LINE}\\n", Missing(3, 0x1A2B3C8, 16385)),
            (self.LINE, Missing()),
        ):
            child = self.shell(f"printf '{self.STATUS}'; read it; printf '{line}' >&2; kill -9 $$")
            child.start()
            child.push(b"x\n")
            self.assertEqual(
                (self.end(child).status, child.said.missing, self.said), (-9, missing, [])
            )


class Given(Case):
    def test_room(self) -> None:
        child = self.shell("printf 'd\\0\\0\\0\\046r%033d' 0; exec sleep 60")
        child.start()
        piece = keepalive(1)
        while child.has_room():
            child.push_payloads([piece] * 1000)
            child.serve(0)
        self.assertGreaterEqual(child.input.waiting, ROOM)
        self.assertEqual(child.room(), ROOM - child.input.waiting)

    def test_a_long_message_is_not_copied(self) -> None:
        """What the pipe doesn't take at once waits as it is, and goes once it is written."""
        child = self.shell("exec sleep 60")
        child.launch()
        payload = insert(1) + bytes(20 << 20)
        tracemalloc.start()
        self.addCleanup(tracemalloc.stop)
        child.push_payloads([insert(1), payload])
        self.assertGreater(child.input.waiting, len(payload) - (1 << 20))
        child.push_payloads([insert(1)] * 10)
        self.assertLess(tracemalloc.get_traced_memory()[1], 1 << 20)
        given = framed(insert(1), payload, *[insert(1)] * 10)
        self.assertTrue(given.endswith(b"".join(child.input.pending)))

    def test_to_one_that_takes_no_more(self) -> None:
        """Its end tells why."""
        told = self.store + ".told"
        child = self.shell(
            "printf 'd\\0\\0\\0\\046r%033d' 0; exec <&-;"
            f" until [ -e {told} ]; do sleep 0.01; done; exit 1"
        )
        child.start()
        until = time.monotonic() + 60
        while child.input.takes and time.monotonic() < until:
            child.push_payloads([keepalive(1)] * 10)
        child.push_payloads([keepalive(1)] * 10)
        child.input.write()
        Path(told).touch()
        self.assertEqual(self.end(child).status, 1)

    def test_bytes(self) -> None:
        long = bytes(range(256)) * (PIECE // 256 + 3)
        lots: list[list[bytes]] = [
            [keepalive(5), insert(1), long],
            [],
            [long],
            [insert(1)] * 3,
            [b"x" * 5000],
        ]
        child = self.shell(f"printf 'd\\0\\0\\0\\046r%033d' 0; cat > {self.store}.got")
        child.start()
        for payloads in lots:
            child.push_payloads(payloads)
        child.end_session()
        child.end_session()
        until = time.monotonic() + 60
        while child.input.waiting and time.monotonic() < until:
            child.serve(0.1)
        child.finish()
        self.end(child)
        with open(self.store + ".got", "rb") as file:
            self.assertEqual(
                file.read(), framed(*(it for payloads in lots for it in payloads)) + COPY_DONE
            )

    def test_headers(self) -> None:
        for length in (0, 1, 4095, 4096, 70000, 1 << 30):
            self.assertEqual(HEADERS[length], b"d" + (length + 4).to_bytes(4, "big"))
        self.assertNotIn(70000, HEADERS)


if __name__ == "__main__":
    unittest.main()
