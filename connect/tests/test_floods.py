"""Servers that keep sending, and what they send of great length."""

from __future__ import annotations

import ctypes
import os
import socket
import time
import unittest
from collections.abc import Callable
from unittest import mock

from server_messages import described, row

from pgsub_connect.errors import ServerError, WrongAnswer
from pgsub_connect.server import libpq, libpq as rows_module, notices
from pgsub_connect.server.connection import Connection
from pgsub_feed.errors import Stopped

from . import small_server
from .small_server import SmallServer, answered, error, message
from .test_postgres import Case, StopsLater


class Flooding(SmallServer):
    """Answers by what is there: sends it once, then something again and again as long as somebody
    listens, each time after a pause."""

    once = again = b""
    rest = 0.0

    def answer(self, peer: socket.socket, query: str) -> None:
        peer.sendall(self.once)
        while self.again:
            peer.sendall(self.again)
            self.wait_for(seconds=self.rest)
        peer.sendall(small_server.READY)


class Floods(Case):
    """Servers that keep sending."""

    floods = 0

    def flood(self, once: bytes, again: bytes = b"", rest: float = 0.0) -> Connection:
        self.floods += 1
        server = Flooding(self.folder, self.brain, port=5500 + self.floods)
        self.addCleanup(server.close)
        server.once, server.again, server.rest = once, again, rest
        return self.connect(server.dsn())

    def test_a_row_now_and_then(self) -> None:
        """The limit holds, and the end is heard."""
        began = time.monotonic()
        with self.assertRaisesRegex(ServerError, "in time"):
            self.flood(described(1), row(b"1"), 0.02).rows("SELECT", 0.3)
        connection = self.flood(described(1), row(b"1"), 0.005)
        connection.check = StopsLater(20)
        with self.assertRaises(Stopped):
            connection.rows("SELECT")
        self.assertLess(time.monotonic() - began, 60)

    def test_rows_without_end(self) -> None:
        calls: tuple[Callable[[Connection], object], ...] = (
            lambda it: it.rows("SELECT"),
            lambda it: it.run("SET x"),
            lambda it: it.many_rows("SELECT"),
        )
        for call in calls:
            with mock.patch.object(rows_module, "MOST", 1 << 18), self.assertRaisesRegex(
                WrongAnswer, "is longer than"
            ):
                call(self.flood(described(1), row(b"x" * 100) * 100))

    def test_lines_without_end(self) -> None:
        """Of a query whose rows come as a COPY's lines: the memory and the limit hold."""
        begun, line = message(b"H", bytes(3)), message(b"d", b"x" * 100 + b"\n")
        with mock.patch.object(rows_module, "MOST", 1 << 18), self.assertRaisesRegex(
            WrongAnswer, "is longer than"
        ):
            self.flood(begun, line * 100).many_rows("SELECT")
        with self.assertRaisesRegex(ServerError, "in time"):
            self.flood(begun, line, 0.02).many_rows("SELECT", 0.3)

    def test_results_without_end(self) -> None:
        with self.assertRaisesRegex(ServerError, "in time"):
            self.flood(b"", message(b"C", b"SET\0") * 100).run("SET x", limit=0.3)

    def test_notices_without_end(self) -> None:
        """Some of a minute are logged, and the others counted."""
        notice = error("careful" * 1000, "01000", b"N") * 10
        with mock.patch.object(notices, "OWN", notices.Budget()), self.assertRaisesRegex(
            ServerError, "in time"
        ):
            connection = self.flood(b"", notice)
            try:
                connection.rows("SELECT", 0.3)
            finally:
                connection.close()
        told = [it for it in self.said if it.startswith("server: ")]
        self.assertLess(len("".join(told)), 2 * notices.ROOM)
        self.assertTrue("(7009 bytes)" in told[0])
        self.assertEqual(
            self.said[len(told)],
            "warning: the server sends many notices: no others are logged for a minute",
        )
        self.assertRegex(
            self.said[len(told) + 1], r"^warning: \d+ notices of the server weren't logged$"
        )
        self.assertEqual(len(self.said), len(told) + 2)

    def test_what_pgoutput_leaves_out_without_end(self) -> None:
        """It is kept once, and up to a number; that there is more is kept, too."""
        left_out = list[str]()
        heard = notices.Notices(left_out)
        for it in range(3 * notices.MOST_LEFT_OUT):
            heard.leave_out(f"{it // 2}")
        self.assertEqual(
            (len(left_out), left_out[-2:]),
            (notices.MOST_LEFT_OUT + 1, [f"{notices.MOST_LEFT_OUT - 1}", notices.OTHERS]),
        )

    def test_long_texts(self) -> None:
        with self.assertRaises(ServerError) as raised:
            self.flood(error("x" * 5_000_000, "42P01")).rows("SELECT")
        self.assertTrue(len(str(raised.exception)) < 2100)
        self.assertTrue("(5000009 bytes)" in str(raised.exception))
        self.assertEqual(raised.exception.sqlstate, "42P01")
        with self.assertRaises(ServerError) as raised:
            self.connect(self.start(5434, refusal=error("x" * 20000, "28P01")).dsn())
        self.assertTrue(len(str(raised.exception)) < 2100)

    def test_texts_that_arent_utf_8(self) -> None:
        body = answered([["1"]]).replace(row(b"1"), row(b"caf\xe9"))
        with self.assertRaisesRegex(WrongAnswer, r"isn't UTF-8: caf\\xe9: rename") as raised:
            self.flood(body).rows("SELECT")
        self.assertTrue(raised.exception.is_lasting())
        with self.assertRaises(ServerError) as other:
            self.flood(error("x", "\xe9\xe9")).rows("SELECT")
        self.assertIn("x", str(other.exception))

    def test_a_slow_line_has_more_time(self) -> None:
        """By what has come: a large catalog isn't cut where the line is slow."""
        rows = rows_module.Rows()
        values = [b"x" * rows_module.SLOWEST] * 2
        with mock.patch.object(rows_module, "values_of", return_value=values):
            rows.add(mock.Mock(nfields=2))
        self.assertEqual(rows.seconds(), 2.0)

    def test_texts_that_come_again_are_kept_once(self) -> None:
        rows = rows_module.Rows()
        for it in range(3 * rows_module.KEPT):
            values = [b"16384", b"%d" % it, None]
            with mock.patch.object(rows_module, "values_of", return_value=values):
                rows.add(mock.Mock(nfields=3))
        self.assertIs(rows.rows[0][0], rows.rows[1][0])
        self.assertEqual(rows.rows[-1], ["16384", str(3 * rows_module.KEPT - 1), None])
        self.assertLess(
            rows.taken,
            3 * rows_module.KEPT * (rows_module.ROW + 3 * rows_module.VALUE + 2 * rows_module.TEXT),
        )


class Moved(unittest.TestCase):
    def test_bytes(self) -> None:
        """Whatever the length and the place are. What is around them stays."""
        for length in (
            1,
            libpq.PAGE,
            libpq.MOVED - 1,
            libpq.MOVED,
            3 * libpq.MOVED + 4097,
        ):
            for before in (0, 5, libpq.PAGE):
                content = os.urandom(length)
                memory = ctypes.create_string_buffer(b"x" * before + content + b"y" * 5000)
                self.assertTrue(libpq.moved(ctypes.addressof(memory) + before, length) == content)
                self.assertEqual(
                    (memory.raw[:before], memory.raw[before + length :]),
                    (b"x" * before, b"y" * 5000 + b"\0"),
                )


if __name__ == "__main__":
    unittest.main()
