"""Connections by libpq to a small server: limits, signals, several hosts, copies."""

from __future__ import annotations

import contextlib
import os
import socket
import threading
import time
import unittest
from unittest import mock

from psycopg import pq

from pgsub_connect.errors import ServerError, Unconnected
from pgsub_connect.server import libpq, login
from pgsub_connect.server.login import addresses_of, connect_limit, hosts_of, parameters
from pgsub_connect.server.connection import COPY_BOTH, NO_DSN, Connection
from pgsub_connect.server.libpq import LIBPQ
from pgsub_feed.errors import Stopped
from pgsub_feed.interruption import never

from . import small_server
from .fake_server import FakeServer, Quiet
from .small_server import SmallServer, error, message

# libpq's environment is nothing to these tests.
OTHERS = {name: value for name, value in os.environ.items() if not name.startswith("PG")}
# What takes longer, in seconds, waits for nothing that comes: no machine is so busy.
LATE = 30.0


class StopsLater:
    """A check that asks for the end after some calls."""

    def __init__(self, calls: int) -> None:
        self.left = calls

    def __call__(self) -> None:
        self.left -= 1
        if self.left < 0:
            raise Stopped


class Case(Quiet):
    def setUp(self) -> None:
        super().setUp()
        self.folder = self.make_folder()
        self.brain = FakeServer()
        self.server = self.start()
        short = mock.patch.object(libpq, "TICK", 0.02)
        short.start()
        self.addCleanup(short.stop)
        others = mock.patch.dict(os.environ, OTHERS, clear=True)
        others.start()
        self.addCleanup(others.stop)

    def start(
        self, port: int = 5432, *, standby: bool = False, refusal: bytes = b""
    ) -> SmallServer:
        server = SmallServer(self.folder, self.brain, port=port, standby=standby, refusal=refusal)
        self.addCleanup(server.close)
        return server

    def connect(self, dsn: str = "", check: object = never, limit: float = 10.0) -> Connection:
        with mock.patch.object(login, "CONNECT_LIMIT", limit):
            connection = Connection(dsn or self.server.dsn(), check=check)  # type: ignore[arg-type]
        self.addCleanup(connection.close)
        return connection


class Queries(Case):
    def test_values(self) -> None:
        self.brain.answer("SELECT", [["a", None, "\u00e4"], ["", "b", "c"]])
        connection = self.connect()
        self.assertEqual(connection.rows("SELECT"), [["a", None, "\u00e4"], ["", "b", "c"]])
        self.assertEqual(
            (connection.value("SELECT"), connection.value("OTHER"), connection.version()),
            ("a", None, 150018),
        )

    def test_error(self) -> None:
        self.brain.answer("SELECT", ServerError("denied", "42501"))
        connection = self.connect()
        with self.assertRaisesRegex(ServerError, "denied") as raised:
            connection.rows("SELECT")
        self.assertEqual(
            (raised.exception.sqlstate, raised.exception.is_lasting()), ("42501", True)
        )
        self.brain.answer("SELECT", [["1"]])
        self.assertEqual(connection.value("SELECT"), "1")

    def test_silence_has_a_limit(self) -> None:
        self.server.silent = "SELECT"
        connection, began = self.connect(), time.monotonic()
        with self.assertRaisesRegex(ServerError, "didn't answer") as raised:
            connection.rows("SELECT", 0.1)
        self.assertLess(time.monotonic() - began, LATE)
        self.assertFalse(raised.exception.is_lasting())

    def test_start_replication_that_isnt_answered(self) -> None:
        self.server.silent = "START_REPLICATION"
        with self.assertRaisesRegex(ServerError, "didn't answer"):
            self.connect().run("START_REPLICATION", COPY_BOTH, 0.1)

    def test_the_end_is_asked_for(self) -> None:
        """The server is told too, so that it doesn't go on."""
        self.server.silent = "SELECT"
        connection = self.connect()
        connection.check = StopsLater(2)
        with self.assertRaises(Stopped):
            connection.rows("SELECT")
        until = time.monotonic() + LATE
        while not self.server.canceled and time.monotonic() < until:
            time.sleep(0.01)
        self.assertEqual(self.server.canceled, 1)


class Connects(Case):
    def test_a_server_that_doesnt_answer(self) -> None:
        self.server.lets_in = False
        with mock.patch.object(login, "CONNECT_LIMIT", 2.0), self.assertRaises(Stopped):
            self.connect(check=StopsLater(3))
        with self.assertRaisesRegex(ServerError, "no answer within"):
            login.connect_to(parameters(self.server.dsn()), 0.1, never)

    def test_refused(self) -> None:
        for port, sqlstate, lasts in (
            (5433, "28P01", True),
            (5434, "57P03", False),
            (5435, "3D000", True),
            (5436, "53300", False),
        ):
            server = self.start(port, refusal=error("no", sqlstate))
            with self.assertRaises(ServerError) as raised:
                self.connect(server.dsn())
            self.assertEqual(
                (raised.exception.sqlstate, raised.exception.is_lasting()), (sqlstate, lasts)
            )
        with self.assertRaises(ServerError) as raised:
            self.connect(f"host={self.folder} port=5444 user=u")
        self.assertEqual((raised.exception.sqlstate, raised.exception.is_lasting()), ("", False))

    def test_without_a_connection_string(self) -> None:
        """A command of a log or a status typed as printed lacks it: the error says so."""
        where = {"PGHOST": self.folder, "PGPORT": "5444"}
        with mock.patch.dict(os.environ, where), self.assertRaises(Unconnected) as raised:
            Connection("")
        text = str(raised.exception)
        self.assertIn(f'"{self.folder}/.s.PGSQL.5444"', text)
        self.assertTrue(text.endswith(f"\n{NO_DSN}"), text)
        with self.assertRaises(Unconnected) as raised:
            self.connect(f"host={self.folder} port=5444 user=u")
        self.assertNotIn(NO_DSN, str(raised.exception))

    def test_a_lasting_error_of_one_address_of_a_host(self) -> None:
        """It is the host's: no other address is tried, and none that can't be reached takes its
        SQLSTATE away."""
        self.start(5433, refusal=error("password authentication failed", "28P01"))
        settings = parameters(self.server.dsn())

        def at(*ports: int) -> object:
            return mock.patch.object(
                login,
                "addresses_of",
                lambda *_: [{**settings, "port": str(it)} for it in ports],
            )

        for ports, sqlstate in (
            ((5444, 5433, 5432), "28P01"),
            ((5433, 5444), "28P01"),
            ((5444, 5445), ""),
        ):
            with at(*ports), self.assertRaises(ServerError) as raised:  # type: ignore[attr-defined]
                self.connect()
            self.assertEqual(
                (raised.exception.sqlstate, type(raised.exception)), (sqlstate, Unconnected)
            )
        with at(5444, 5432):  # type: ignore[attr-defined]
            self.assertEqual(self.connect().raw.port, b"5432")
        # (another host may let in whom this one doesn't)
        self.assertEqual(self.connect(self.hosts(5433, 5432)).raw.port, b"5432")
        with self.assertRaises(ServerError) as raised:
            self.connect(self.hosts(5433, 5433))
        self.assertEqual((raised.exception.sqlstate, type(raised.exception)), ("28", Unconnected))

    def hosts(self, *ports: int) -> str:
        return f"host={','.join([self.folder] * len(ports))} port={','.join(map(str, ports))} dbname=shop user=u"

    def test_several_hosts_find_the_primary(self) -> None:
        self.start(5433, standby=True)
        self.assertEqual(self.connect(self.hosts(5433, 5444, 5432)).raw.port, b"5432")

    def test_a_primary_whose_transactions_are_read_only(self) -> None:
        if pq.version() >= 140000:
            self.server.read_only = "on"
            self.start(5433, standby=True)
            self.assertEqual(self.connect(self.hosts(5433, 5432)).raw.port, b"5432")

    def test_the_verbosity_is_left_to_a_libpq_that_comes_with_psycopg(self) -> None:
        """The system's one, of another version, would write into what isn't its own."""
        raw = mock.Mock(pgconn_ptr=77)
        for kind, calls in (("python", 1), ("c", 1), ("binary", 0)):
            with mock.patch.object(pq, "__impl__", kind), mock.patch("ctypes.CDLL") as library:
                libpq.set_verbosity(raw, 2)
            self.assertEqual(library.return_value.PQsetErrorVerbosity.call_count, calls, kind)

    def test_standbys_alone_are_waited_for(self) -> None:
        """As where the primary restarts: another try may find it."""
        self.start(5433, standby=True)
        with self.assertRaises(ServerError) as raised:
            self.connect(self.hosts(5433, 5444))
        self.assertFalse(raised.exception.is_lasting())
        self.assertEqual(len(str(raised.exception).split("\n")) > 1, True)

    def test_what_the_user_said_goes_before(self) -> None:
        self.start(5433, standby=True)
        self.assertEqual(
            self.connect(self.hosts(5433, 5432) + " target_session_attrs=any").raw.port, b"5433"
        )
        # (libpq 14 knows a primary from a standby, also one whose transactions are read-only)
        for version, primary in ((140000, "primary"), (130011, "read-write")):
            with mock.patch("psycopg.pq.version", return_value=version):
                self.assertEqual(
                    [it["target_session_attrs"] for it in hosts_of(parameters("host=a,b"))],
                    [primary] * 2,
                )
        for dsn, wanted in (
            ("host=a,b target_session_attrs=standby", "standby"),
            ("host=a,b target_session_attrs=any", "any"),
        ):
            self.assertEqual(
                [it["target_session_attrs"] for it in hosts_of(parameters(dsn))], [wanted] * 2
            )
        self.assertEqual(hosts_of(parameters("host=a")), [{"host": "a"}])

    def test_several_hosts_of_which_libpq_chooses(self) -> None:
        """Of a list no name is looked up here: libpq tries one host after the other, and may begin
        anew."""
        dsn = "host=localhost,nowhere.invalid port=5444,5445 target_session_attrs=prefer-standby"
        settings = parameters(dsn)
        self.assertEqual(
            (hosts_of(settings), addresses_of(settings, never)),
            ([settings], [settings]),
        )

    def test_names_are_looked_up(self) -> None:
        """Each address is tried, and keeps the name: for TLS, and for ~/.pgpass. A signal is heard
        meanwhile."""
        settings, ended = parameters("host=db.example port=5444"), threading.Event()
        self.addCleanup(ended.set)
        found = [(0, 0, 0, "", (address, 0)) for address in ("::1", "127.0.0.1", "::1")]
        with mock.patch("socket.getaddrinfo", return_value=found):
            attempts = addresses_of(settings, never)
        self.assertEqual(
            [(it["host"], it["hostaddr"]) for it in attempts],
            [("db.example", "::1"), ("db.example", "127.0.0.1")],
        )
        for text in (
            "host=127.0.0.1",
            "host=::1",
            "host=/tmp",
            "hostaddr=10.0.0.1 host=db.example",
            "service=shop",
            "",
        ):
            self.assertEqual(addresses_of(parameters(text), never), [parameters(text)])
        with mock.patch(
            "socket.getaddrinfo", side_effect=socket.gaierror(-2, "Name or service not known")
        ):
            with self.assertRaisesRegex(
                ServerError, "db.example can't be looked up: Name or service"
            ) as raised:
                addresses_of(settings, never)
        self.assertFalse(raised.exception.is_lasting())
        began = time.monotonic()
        with mock.patch(
            "socket.getaddrinfo", side_effect=lambda *_, **__: [][: ended.wait(10 * LATE)]
        ):
            with self.assertRaises(Stopped):
                addresses_of(settings, StopsLater(3))
            with mock.patch.object(login, "CONNECT_LIMIT", 0.1), self.assertRaisesRegex(
                ServerError, "no answer within"
            ):
                addresses_of(settings, never)
        self.assertLess(time.monotonic() - began, LATE)

    def test_limits_of_connecting(self) -> None:
        """As libpq has them: two seconds at least, 0 for none, and the environment's where the DSN
        says nothing."""
        for said, variable, limit in (
            ("", None, 10.0),
            ("5", None, 5.0),
            ("1", None, 2.0),
            ("0", None, 3600.0),
            ("-1", "5", 3600.0),
            ("", "7", 7.0),
            ("3", "7", 3.0),
        ):
            with self.subTest(said=said, variable=variable), mock.patch.dict(
                os.environ, {} if variable is None else {"PGCONNECT_TIMEOUT": variable}
            ):
                self.assertEqual(connect_limit(said), limit)
        with self.assertRaises(ServerError) as raised:
            self.connect(f"{self.server.dsn()} connect_timeout=soon")
        self.assertTrue(raised.exception.is_lasting())

    def test_strings(self) -> None:
        self.assertEqual(parameters("shop"), {"dbname": "shop"})
        self.assertEqual(parameters("postgresql://u:secret@h/shop")["password"], "secret")
        with self.assertRaises(ServerError) as raised:
            parameters("host=a password='secret")
        self.assertNotIn("secret", str(raised.exception))
        self.assertTrue(raised.exception.is_lasting())

    def test_notices_are_told(self) -> None:
        self.brain.answer("SELECT", [["1"]])
        connection = self.connect()
        with mock.patch.object(self.server.brain, "rows_for", return_value=[]), mock.patch(
            "tests.small_server.answered",
            return_value=error("careful", "01000", b"N") + message(b"C", b"SET\0"),
        ):
            connection.run("SET x")
        self.assertEqual(self.said, ["server: ERROR:  careful"])


class Copies(Case):
    def test_both_ways(self) -> None:
        self.server.to_send = [b"one", b"two" * 50000]
        connection = self.connect()
        connection.run("START_REPLICATION", COPY_BOTH, LATE)
        payloads: list[bytes] = []
        until = time.monotonic() + LATE
        while len(payloads) < 2 and time.monotonic() < until:
            if payload := connection.next_payload():
                payloads.append(payload)
            else:
                connection.consume()
        self.assertEqual(payloads, [b"one", b"two" * 50000])
        connection.send(b"status\0")
        while not self.server.statuses and time.monotonic() < until:
            time.sleep(0.01)
        self.assertEqual(self.server.statuses[0][1], b"status\0")
        connection.end_copy()
        while (payload := connection.next_payload()) == b"" and time.monotonic() < until:
            connection.consume()
        self.assertIsNone(payload)

    def test_the_end_of_one_whose_server_is_gone(self) -> None:
        """libpq closes the socket then, where it tells the server of the end: its number may be
        another file's by the time that it is waited for."""
        peers, copy = list[socket.socket](), self.server.copy

        def copied(peer: socket.socket) -> None:
            peers.append(peer)
            copy(peer)

        with mock.patch.object(self.server, "copy", copied):
            connection = self.connect()
            connection.run("START_REPLICATION", COPY_BOTH, LATE)
            peers[0].shutdown(socket.SHUT_RDWR)
            until = time.monotonic() + LATE
            while time.monotonic() < until and not connection.broken:
                connection.end_copy()
                connection.drain(0.01)
        self.assertIsNotNone(connection.broken)
        with self.assertRaises(ServerError):
            connection.wait()

    def test_lots(self) -> None:
        """By both ways to take them: up to the room, to the first long one, what is there, and then
        the end."""
        sent = [b"%d" % it for it in range(100)] + [b"x" * 1000] + [b"y"] * 3
        for quick in (True, False):
            server = self.start(5433 + quick)
            server.to_send = list(sent)
            lots, more, until = list[list[bytes]](), True, time.monotonic() + LATE
            with mock.patch.object(
                libpq,
                "GET_COPY_DATA",
                libpq.GET_COPY_DATA if quick else None,
            ):
                connection = self.connect(server.dsn())
                connection.run("START_REPLICATION", COPY_BOTH, LATE)
                while sum(map(len, lots)) < len(sent) and time.monotonic() < until:
                    found, more = connection.payloads(50, 1000)  # type: ignore[assignment]
                    lots += [found] if found else []
                    if not more:
                        connection.consume()
                connection.end_copy()
                while more is not None and time.monotonic() < until:
                    connection.consume()
                    found, more = connection.payloads(50, 1000)  # type: ignore[assignment]
            self.assertEqual([it for lot in lots for it in lot], sent)
            self.assertTrue(all(len(it) < 1000 for lot in lots for it in lot[:-1]))
            self.assertIsNone(more)

    def test_what_came_before_the_session_broke(self) -> None:
        body = (
            small_server.COPY_BOTH
            + message(b"d", b"one")
            + message(b"d", b"two")
            + error("terminating", "57P01")
        )
        for quick in (True, False):
            with mock.patch.object(small_server, "COPY_BOTH", body), mock.patch.object(
                libpq,
                "GET_COPY_DATA",
                libpq.GET_COPY_DATA if quick else None,
            ):
                connection, found, until = self.connect(), list[bytes](), time.monotonic() + LATE
                connection.run("START_REPLICATION", COPY_BOTH, LATE)
                with self.assertRaisesRegex(ServerError, "terminating") as raised:
                    while time.monotonic() < until:
                        found += connection.payloads(1 << 20, 1 << 16)[0]
                        connection.consume()
                self.assertEqual((found, raised.exception.sqlstate), ([b"one", b"two"], "57P01"))

    def test_why_the_stream_broke_is_said_to_whoever_sends_first(self) -> None:
        """Its SQLSTATE tells whether another try makes sense."""
        body = (
            small_server.COPY_BOTH
            + message(b"d", b"one")
            + error('publication "pgsub" does not exist', "42704")
        )
        for call in ("send", "flush"):
            with mock.patch.object(small_server, "COPY_BOTH", body):
                connection, found, until = self.connect(), list[bytes](), time.monotonic() + LATE
                connection.run("START_REPLICATION", COPY_BOTH, LATE)
                while not found and time.monotonic() < until:
                    connection.consume()
                    found += connection.payloads(1 << 20, 1 << 16)[0]
                while not connection.broken and time.monotonic() < until:
                    connection.consume()
                    with contextlib.suppress(ServerError):
                        connection.payloads(1 << 20, 1 << 16)
                with self.assertRaisesRegex(ServerError, "does not exist") as raised:
                    for _ in range(3):
                        connection.send(b"status")
                said = raised.exception
                self.assertEqual(
                    (found, said.sqlstate, said.is_lasting()), ([b"one"], "42704", True)
                )

    def test_rows(self) -> None:
        copied = b"".join(message(b"d", b"%d\tx\n" % it) for it in range(100))
        body = message(b"H", bytes(3)) + copied + message(b"c", b"") + message(b"C", b"COPY 100\0")
        with mock.patch("tests.small_server.answered", return_value=body):
            blocks = list(self.connect().copied_blocks("COPY", 200))
        self.assertEqual(
            b"".join(b"".join(it) for it in blocks), b"".join(b"%d\tx\n" % it for it in range(100))
        )
        self.assertGreater(len(blocks), 1)

    def test_an_error_in_the_midst(self) -> None:
        body = message(b"H", bytes(3)) + message(b"d", b"1\tx\n") + error("bad bytes", "22021")
        with mock.patch("tests.small_server.answered", return_value=body), self.assertRaisesRegex(
            ServerError, "bad bytes"
        ) as raised:
            list(self.connect().copied_blocks("COPY", 200))
        self.assertEqual(raised.exception.sqlstate, "22021")

    def test_the_server_ends_a_session(self) -> None:
        connection = self.connect()
        connection.run("START_REPLICATION", COPY_BOTH, LATE)
        self.server.close()
        with self.assertRaises(ServerError) as raised:
            while connection.next_payload() == b"":
                connection.consume()
        self.assertFalse(raised.exception.is_lasting())


class Wrapped(unittest.TestCase):
    def test_each(self) -> None:
        """Where it can't be told it may be."""
        connection = Connection.__new__(Connection)
        call = mock.Mock()
        for tls, host, gss, wrapped in (
            (True, b"db.example", 0, True),
            (False, b"db.example", 0, False),
            (False, b"db.example", 1, True),
            (False, b"db.example", None, True),
            (False, b"/run/postgresql", None, False),
            (False, b"@socket", None, False),
            (True, b"", None, True),
            (False, b"", 0, False),
        ):
            connection.raw = mock.Mock(ssl_in_use=tls, host=host, pgconn_ptr=77)
            call.return_value = gss
            with mock.patch.object(libpq, "GSS_IN_USE", None if gss is None else call):
                self.assertIs(connection.is_wrapped(), wrapped, (tls, host, gss))

    def test_of_a_connection(self) -> None:
        """libpq has the call."""
        self.assertTrue(LIBPQ is None or libpq.GSS_IN_USE is not None)


if __name__ == "__main__":
    unittest.main()
