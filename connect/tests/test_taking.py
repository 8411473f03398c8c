"""How messages are taken of libpq: by one call each, by three, and by psycopg, all the same."""

from __future__ import annotations

import contextlib
import mmap
import os
import resource
import socket
import sys
import tempfile
import threading
import time
import unittest
from collections.abc import Iterator
from pathlib import Path
from typing import cast
from unittest import mock

from pgsub_connect.errors import ServerError
from pgsub_connect.server import libpq, transport
from pgsub_connect.server.connection import COPY_BOTH, LOT, Connection
from pgsub_connect.server.libpq import MOVED, PAGE, Landing, Quick, Quickest, Slow, landing
from pgsub_connect.server.libpq import wire_of

from . import small_server
from .fake_server import FakeServer
from .small_server import SmallServer, error, make_certificate, message
from .test_postgres import LATE, Case

# What is missing of libpq in each of the ways.
WAYS: dict[type[Slow], tuple[str, ...]] = {
    Quickest: (),
    Quick: ("GET_LINE",),
    Slow: ("GET_COPY_DATA",),
}
# How many bytes come in a test of much, of messages that are so long.
MUCH, SHORT = 100 * 1200, 100
# What libpq says of a server that is gone, without TLS and with that.
LOST = "closed the connection|EOF detected|closed unexpectedly"


@contextlib.contextmanager
def by(way: type[Slow]) -> Iterator[None]:
    """Connections that are made meanwhile take messages so."""
    with contextlib.ExitStack() as patches:
        for name in WAYS[way]:
            patches.enter_context(mock.patch.object(libpq, name, None))
        yield


def copied(*payloads: bytes) -> bytes:
    return b"".join(message(b"d", it) for it in payloads)


def numbered(count: int, length: int = SHORT) -> list[bytes]:
    return [b"%d" % it + b"x" * (length - len(b"%d" % it)) for it in range(count)]


class Sender(SmallServer):
    """`sent`: a session has sent what comes at its beginning."""

    def __init__(self, folder: str, brain: FakeServer, *, by_tcp: bool = False) -> None:
        self.sent = threading.Event()
        super().__init__(folder, brain, by_tcp=by_tcp)

    def send_all(self, peer: socket.socket, copies: threading.Event) -> None:
        self.sent.set()
        super().send_all(peer, copies)


class Taking(Case):
    server: Sender

    def setUp(self) -> None:
        super().setUp()
        patch = mock.patch.object(transport, "OWN", transport.Trust())
        patch.start()
        self.addCleanup(patch.stop)

    def start(
        self, port: int = 5432, *, standby: bool = False, refusal: bytes = b""
    ) -> SmallServer:
        server = Sender(self.folder, self.brain)
        self.addCleanup(server.close)
        return server

    def session(self, way: type[Slow], body: bytes) -> Connection:
        """One to which the server has sent these bytes."""
        self.server.notices = body
        self.server.sent.clear()
        with by(way):
            connection = self.connect()
        self.assertIs(type(connection.wire), way)
        connection.run("START_REPLICATION", COPY_BOTH, LATE)
        return connection

    def session_with_all(self, way: type[Slow], body: bytes) -> Connection:
        """One that has read them, as far as it reads at a time."""
        connection = self.session(way, body)
        self.assertTrue(self.server.sent.wait(LATE))
        connection.consume()
        return connection

    def all_of(
        self, connection: Connection, count: int, long: int = 1 << 16
    ) -> tuple[list[bytes], ServerError | None]:
        """What is taken until so many payloads have come, or an error."""
        found, until = list[bytes](), time.monotonic() + LATE
        try:
            while len(found) < count and time.monotonic() < until:
                lot, more = connection.payloads(1 << 20, long)
                found += lot
                if more is None:
                    break
                if not more:
                    connection.consume()
        except ServerError as fault:
            return found, fault
        return found, None

    def test_each_length(self) -> None:
        """Also where a lot ends, and where a long message ends it."""
        lengths = [1, 5, 8, SHORT, PAGE, (1 << 16) - 1, 1 << 16, 1, MOVED - 1, MOVED, 2]
        lengths += [3 * MOVED + 4097, 7, 7]
        sent = [os.urandom(it) for it in lengths]
        for way in WAYS:
            for long in (1 << 16, 4 * MOVED):
                connection = self.session(way, copied(*sent))
                self.assertEqual(self.all_of(connection, len(sent), long), (sent, None))
                connection.close()

    def test_as_much_as_there_is_room(self) -> None:
        """To the byte. What is left comes next, and what is left of the room is told."""
        for way in WAYS:
            sent = copied(b"abc", b"de", b"f" * 9, b"gh", b"i")
            take = self.session_with_all(way, sent).wire.take
            self.assertEqual(take(0, 9), ([], 1, 0))
            self.assertEqual(take(5, 9), ([b"abc", b"de"], 2, 0))
            self.assertEqual(take(5, 9), ([b"f" * 9], 9, 0))
            self.assertEqual(take(2, 9), ([b"gh"], 2, 0))
            self.assertEqual(take(9, 9), ([b"i"], 0, 8))

    def test_what_is_none_of_it(self) -> None:
        """Notices, settings and messages without bytes hide nothing that comes behind them."""
        notice = error("careful", "01000", b"N")
        setting = message(b"S", b"TimeZone\0UTC\0")
        between = notice + copied(b"") + setting + copied(b"", b"") + notice
        body = copied(b"one") + between + copied(b"two", b"", b"three") + between + copied(b"four")
        for way in WAYS:
            self.said.clear()
            connection = self.session(way, body)
            self.assertEqual(
                self.all_of(connection, 4), ([b"one", b"two", b"three", b"four"], None)
            )
            heard = [it for it in self.said if it.startswith("server: ")]
            self.assertEqual(heard, ["server: ERROR:  careful"] * 4)

    def test_messages_behind_one_without_bytes_wait_for_nothing(self) -> None:
        for way in WAYS:
            connection = self.session_with_all(way, copied(b"", b"one", b"", b"", b"two"))
            self.assertEqual(connection.payloads(1 << 20, 1 << 16), ([b"one", b"two"], False))

    def test_the_end(self) -> None:
        """By the server, and after that was asked for."""
        done = message(b"c", b"") + message(b"C", b"COPY 0\0") + small_server.READY
        for way in WAYS:
            connection = self.session(way, copied(b"one", b"two") + done)
            self.assertEqual(self.all_of(connection, 3), ([b"one", b"two"], None))
            connection = self.session(way, copied(b"one"))
            connection.end_copy()
            self.assertEqual(self.all_of(connection, 2), ([b"one"], None))

    def test_an_error(self) -> None:
        body = copied(*numbered(300)) + error("terminating", "57P01")
        for way in WAYS:
            found, fault = self.all_of(self.session(way, body), 301)
            assert fault
            self.assertEqual((found, fault.sqlstate), (numbered(300), "57P01"))

    def test_what_is_no_message(self) -> None:
        """libpq gives the connection up, and all ways say the same of it."""
        for body in (copied(b"one") + b"d\0\0\0\3", copied(b"one") + b"d\xff\xff\xff\xff"):
            said = set[tuple[str, str]]()
            for way in WAYS:
                found, fault = self.all_of(self.session(way, body), 2)
                assert fault
                self.assertEqual(found, [b"one"])
                said.add((str(fault), fault.sqlstate))
            [(text, sqlstate)] = said
            self.assertIn("lost synchronization", text)

    def test_the_connection_is_lost(self) -> None:
        """What has come before is taken first, whoever finds that: once more is read for a lot."""
        for way in WAYS:
            sent = numbered(300)
            connection = self.session_with_all(way, copied(*sent))
            self.server.close()
            lot, more = connection.payloads(1 << 20, 1 << 16)
            self.assertEqual((lot, more), (sent, False))
            # (libpq has closed the socket, for which nothing may wait any more)
            self.assertRegex(str(connection.broken), LOST)
            with self.assertRaisesRegex(ServerError, LOST):
                connection.payloads(1 << 20, 1 << 16)
            with self.assertRaisesRegex(ServerError, LOST):
                connection.send(b"status")
            self.server = cast(Sender, self.start())

    def test_a_lot_is_what_several_reads_give(self) -> None:
        """libpq reads 16 kB at a time at first. A lot has an end, whatever has come."""
        for way in WAYS:
            connection = self.session_with_all(way, copied(*numbered(MUCH // SHORT)))
            lot, _ = connection.payloads(1 << 20, 1 << 16)
            self.assertGreater(len(lot) * SHORT, LOT // 2)
            self.assertLess(len(lot) * SHORT, LOT + LOT // 2)
            found, fault = self.all_of(connection, MUCH // SHORT - len(lot))
            self.assertEqual((lot + found, fault), (numbered(MUCH // SHORT), None))

    def test_little_is_read_once(self) -> None:
        """Since there is nothing more mostly."""
        for way in WAYS:
            connection = self.session_with_all(way, copied(b"one", b"two"))
            with mock.patch.object(connection.wire, "consume") as read:
                found = connection.payloads(1 << 20, 1 << 16)
            self.assertEqual((found, read.call_count), (([b"one", b"two"], False), 0))

    def test_rows_of_a_copy(self) -> None:
        body = message(b"H", bytes(3)) + copied(*numbered(1000))
        body += message(b"c", b"") + message(b"C", b"COPY 1000\0")
        for way in WAYS:
            with mock.patch("tests.small_server.answered", return_value=body), by(way):
                blocks = list(self.connect().copied_blocks("COPY", 2000))
            self.assertEqual([it for block in blocks for it in block], numbered(1000))
            self.assertTrue(all(len(it) == 20 for it in blocks))

    def test_many_rows(self) -> None:
        """Those of a query, which come as a COPY's lines: nulls, and what is escaped."""
        lines = [b"1\ta b\t\\N\n", b"2\t\\\\N\\t\\n\xc3\xa9\t\n", b"1\t\\N\ta b\n"]
        body = message(b"H", bytes(3)) + copied(*lines)
        body += message(b"c", b"") + message(b"C", b"COPY 3\0")
        for way in WAYS:
            with mock.patch("tests.small_server.answered", return_value=body), by(way):
                rows = self.connect().many_rows("SELECT")
            self.assertEqual(
                rows, [["1", "a b", None], ["2", "\\N\t\n\xe9", ""], ["1", None, "a b"]]
            )
        with mock.patch("tests.small_server.answered", return_value=error("no", "42P01")):
            with self.assertRaises(ServerError) as raised:
                self.connect().many_rows("SELECT")
        self.assertEqual(raised.exception.sqlstate, "42P01")


class Encrypted(Taking):
    """All of that over TLS."""

    def start(
        self, port: int = 5432, *, standby: bool = False, refusal: bytes = b""
    ) -> SmallServer:
        server = Sender(self.folder, self.brain, by_tcp=True)
        self.addCleanup(server.close)
        server.certificate = make_certificate(self.folder + "/certificate")
        return server

    def session(self, way: type[Slow], body: bytes) -> Connection:
        connection = super().session(way, body)
        self.assertTrue(connection.raw.ssl_in_use)
        return connection


class Places(unittest.TestCase):
    """Room for any message."""

    def test_memory(self) -> None:
        """A long message's goes back to the system, which gives zeros then. That of others is kept
        for the next one."""
        place = Landing()
        for length in (1, PAGE, MOVED - 1, MOVED, 3 * MOVED + 4097, libpq.ROOM):
            length = min(length, 8 * MOVED)
            content = os.urandom(length)
            place.memory[:length] = content
            self.assertTrue(place.taken(length) == content)
            kept = place.memory[: length // PAGE * PAGE]
            self.assertTrue(kept == (bytes(len(kept)) if length >= MOVED else content[: len(kept)]))

    def test_nothing_of_it_is_memory_before(self) -> None:
        before = memory_of_this()
        places = [Landing() for _ in range(20)]
        self.assertLess(memory_of_this() - before, 1 << 20)
        self.assertEqual(len(places[-1].memory), libpq.ROOM)
        self.assertGreaterEqual(libpq.ROOM, libpq.LONGEST_MESSAGE)
        # (the length of a message is an Int32, of which it counts itself)
        self.assertGreater(libpq.LONGEST_MESSAGE, (1 << 31) - 1 - 4)

    def test_where_addresses_are_few(self) -> None:
        """Messages are taken by three calls then."""
        unlimited = resource.RLIM_INFINITY, resource.RLIM_INFINITY
        with mock.patch.object(resource, "getrlimit", return_value=unlimited):
            self.assertIsNotNone(landing())
            with mock.patch.object(sys, "maxsize", (1 << 31) - 1):
                self.assertIsNone(landing())
            with mock.patch.object(mmap, "mmap", side_effect=OSError(12, "no memory")):
                self.assertIsNone(landing())
        for it in (resource.RLIMIT_AS, resource.RLIMIT_DATA):
            limits = {it: (8 << 30, 8 << 30)}
            with mock.patch.object(
                resource, "getrlimit", lambda kind, limits=limits: limits.get(kind, unlimited)
            ):
                self.assertIsNone(landing())

    def test_where_each_address_is_memory(self) -> None:
        """That is 2 in vm.overcommit_memory; what can't be read says nothing."""
        with tempfile.TemporaryDirectory() as folder:
            path = Path(folder) / "overcommit_memory"
            for said, is_there in (("0\n", True), ("1\n", True), ("2\n", False), (None, False)):
                if said is None:
                    path.unlink()
                else:
                    path.write_text(said, encoding="ascii")
                with mock.patch.object(libpq, "OVERCOMMIT", path):
                    self.assertEqual(landing() is not None, is_there, said)

    def test_what_is_used(self) -> None:
        """By what libpq and the system have."""
        raw = mock.Mock(pgconn_ptr=77)
        self.assertIs(type(wire_of(raw)), Quickest)
        with mock.patch.object(libpq, "landing", return_value=None):
            self.assertIs(type(wire_of(raw)), Quick)
        for way in WAYS:
            with by(way):
                self.assertIs(type(wire_of(raw)), way)
        self.assertIs(type(wire_of(mock.Mock(pgconn_ptr=None))), Slow)


def memory_of_this() -> int:
    """How many bytes of memory this process has."""
    pages = Path("/proc/self/statm").read_text(encoding="ascii").split()[1]
    return int(pages) * PAGE


if __name__ == "__main__":
    unittest.main()
