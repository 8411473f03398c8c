"""A signal is heard at once, whatever is waited for.

These are real processes of the connector, and peers that say nothing more. On a machine with
nothing else to do each ends within two seconds, or seven where an engine has commits that it may
still answer for; here it may take longer, since many tests run at once. Without being heard it
would end by another status after its own limit, or never.
"""

from __future__ import annotations

import contextlib
import fcntl
import functools
import os
import re
import signal
import socket
import socketserver
import subprocess
import sys
import termios
import threading
import time
import unittest
from collections.abc import Callable
from pathlib import Path
from typing import Any

from pgsub_connect.follow.request_socket import RequestSocket
from pgsub_feed.sinks.redis_calls import Said

from .fake_redis import FakeCalls, FakeRedis
from .feeds import FeedCase, insert
from .sinks import stock
from .stores import StoreCase

CONNECT = Path(__file__).resolve().parents[1] / "pgsub-connect"
# How long it may take until a process is where it waits, and how long it may go on once it is told
# to end, in seconds.
PATIENCE, HEARD = 60.0, 60.0


class Case(unittest.TestCase):
    def begin(self, *words: str) -> subprocess.Popen[bytes]:
        child = subprocess.Popen(
            [sys.executable, str(CONNECT), *words], stderr=subprocess.PIPE, stdin=subprocess.DEVNULL
        )
        assert child.stderr
        self.addCleanup(child.stderr.close)
        self.addCleanup(child.wait)
        self.addCleanup(child.kill)
        return child

    def ends(
        self,
        child: subprocess.Popen[bytes],
        is_there: Callable[[], bool],
        then: Callable[[], None] = lambda: None,
    ) -> tuple[int, str]:
        """Asks it to end once it is where it waits. Returns its status and what it has said.
        `then`: what is done once it was asked."""
        until = time.monotonic() + PATIENCE
        while not is_there():
            self.assertIsNone(child.poll())
            self.assertLess(time.monotonic(), until)
            time.sleep(0.02)
        time.sleep(0.3)
        began = time.monotonic()
        child.send_signal(signal.SIGTERM)
        then()
        _, said = child.communicate(timeout=2 * HEARD)
        self.assertLess(time.monotonic() - began, HEARD, said)
        return child.returncode, said.decode()


class Hanging:
    """A server that says something of its own to some of what it is told, and then nothing."""

    def __init__(self, hello: bytes, answers: dict[bytes, bytes]) -> None:
        self.listening = socket.create_server(("127.0.0.1", 0))
        self.port = self.listening.getsockname()[1]
        self.hello, self.answers = hello, answers
        self.heard = bytearray()
        self.connections: list[socket.socket] = []
        threading.Thread(target=self.serve, daemon=True).start()

    def serve(self) -> None:
        with contextlib.suppress(OSError):
            while True:
                connection, _ = self.listening.accept()
                self.connections.append(connection)
                connection.sendall(self.hello)
                while piece := connection.recv(1 << 16):
                    self.heard += piece
                    for words, answer in self.answers.items():
                        if words in piece:
                            connection.sendall(answer)

    def close(self) -> None:
        for it in (*self.connections, self.listening):
            with contextlib.suppress(OSError):
                it.shutdown(socket.SHUT_RDWR)
            it.close()


def packed(said: Any) -> bytes:
    """How Redis says something."""
    if isinstance(said, list):
        return b"*%d\r\n" % len(said) + b"".join(map(packed, said))
    if isinstance(said, Said):
        return b"-ERR %b\r\n" % str(said).encode()
    if said is None:
        return b"$-1\r\n"
    return b":%d\r\n" % said if isinstance(said, int) else b"$%d\r\n%b\r\n" % (len(said), said)


class Answering(socketserver.ThreadingTCPServer):
    """A Redis in memory that connections are made to."""

    daemon_threads = True

    def __init__(self) -> None:
        super().__init__(("127.0.0.1", 0), Speaking)
        self.redis, self.port = FakeRedis(), self.server_address[1]
        threading.Thread(target=self.serve_forever, daemon=True).start()

    def close(self) -> None:
        self.shutdown()
        self.server_close()


class Speaking(socketserver.StreamRequestHandler):
    """One of these connections."""

    server: Answering

    def handle(self) -> None:
        calls = FakeCalls(self.server.redis)
        with contextlib.suppress(OSError):
            while line := self.rfile.readline():
                words = []
                for _ in range(int(line[1:])):
                    size = int(self.rfile.readline()[1:])
                    words.append(self.rfile.read(size + 2)[:-2])
                self.wfile.write(packed(calls.one(words)))


def unread(connection: socket.socket) -> int:
    """How many bytes wait to be read."""
    return int.from_bytes(fcntl.ioctl(connection, termios.FIONREAD, bytes(4)), sys.byteorder)


def no_longer_grows(connection: socket.socket) -> bool:
    """Whether bytes wait to be read, and no more come."""
    before = unread(connection)
    time.sleep(0.5)
    return 0 < before == unread(connection)


class Sinks(FeedCase, Case):
    def hanging(self, hello: bytes, answers: dict[bytes, bytes]) -> Hanging:
        server = Hanging(hello, answers)
        self.addCleanup(server.close)
        self.feed.commit(0x100, [insert("1", "a")])
        return server

    def sink(self, url: str) -> subprocess.Popen[bytes]:
        return self.begin("sink", url, "--feed", str(self.path))

    def test_nats_that_never_begins(self) -> None:
        server = self.hanging(b"", {})
        status, _ = self.ends(
            self.sink(f"nats://127.0.0.1:{server.port}"), lambda: bool(server.connections)
        )
        self.assertEqual(status, 0)

    def test_nats_that_doesnt_answer(self) -> None:
        server = self.hanging(b"INFO {}\r\n", {b"PING": b"PONG\r\n"})
        status, _ = self.ends(
            self.sink(f"nats://127.0.0.1:{server.port}"), lambda: b"STREAM.INFO" in server.heard
        )
        self.assertEqual(status, 0)

    def test_nats_that_takes_no_message(self) -> None:
        """What it has is completed by the next run."""
        info = b'{"config":{"subjects":["pgsub.>"]},"state":{"messages":0,"last_seq":0}}'
        server = self.hanging(b"INFO {}\r\n", {b"PING": b"PONG\r\n"})
        child = self.sink(f"nats://127.0.0.1:{server.port}")
        # (all of the line, which may come in parts)
        asked = self.wait_for(server, rb"STREAM\.INFO\.pgsub (\S+) .*\r\n")
        inbox = asked[1]
        server.connections[0].sendall(b"MSG %b 1 %d\r\n%b\r\n" % (inbox, len(info), info))
        status, _ = self.ends(child, lambda: b"pgsub.commit" in server.heard)
        self.assertEqual(status, 0)

    def wait_for(self, server: Hanging, pattern: bytes) -> re.Match[bytes]:
        until = time.monotonic() + PATIENCE
        while not (found := re.search(pattern, bytes(server.heard))):
            self.assertLess(time.monotonic(), until)
            time.sleep(0.02)
        return found

    def test_nats_that_reads_nothing(self) -> None:
        """What waits fills all buffers."""
        self.feed.commit(0x200, [insert(str(it), "x" * 10000) for it in range(3000)])
        listening = socket.create_server(("127.0.0.1", 0))
        self.addCleanup(listening.close)
        child = self.sink(f"nats://127.0.0.1:{listening.getsockname()[1]}")
        connection, _ = listening.accept()
        self.addCleanup(connection.close)
        connection.sendall(b"INFO {}\r\nPONG\r\n")
        file, info = (
            connection.makefile("rb"),
            b'{"config":{"subjects":["pgsub.>"]},"state":{"messages":0,"last_seq":0}}',
        )
        self.addCleanup(file.close)
        while not (line := file.readline()).startswith(b"PUB $JS.API.STREAM.INFO"):
            pass
        connection.sendall(b"MSG %b 1 %d\r\n%b\r\n" % (line.split()[2], len(info), info))
        while not (line := file.readline()).startswith(b"HPUB pgsub.commit "):
            pass
        said = b'{"stream":"pgsub","seq":1}'
        connection.sendall(b"MSG %b 1 %d\r\n%b\r\n" % (line.split()[2], len(said), said))
        status, said_last = self.ends(child, lambda: no_longer_grows(connection))
        self.assertEqual(status, 7, said_last)
        self.assertIn("the engine doesn't answer", said_last)

    def test_redis_that_doesnt_answer(self) -> None:
        server = self.hanging(b"", {})
        status, _ = self.ends(
            self.sink(f"redis://127.0.0.1:{server.port}"), lambda: b"INFO" in server.heard
        )
        self.assertEqual(status, 0)

    def ends_in_exec(self, seconds: float | None) -> tuple[int, str, FakeRedis]:
        """A sink that is asked to end while Redis is at a commit, which takes so many seconds more,
        or for ever: its status, what it has said, and what Redis has."""
        self.feed.commit(0x100, [insert("1", "a")])
        server, is_asked, goes_on = Answering(), threading.Event(), threading.Event()
        self.addCleanup(server.close)
        self.addCleanup(goes_on.set)
        child = self.sink(f"redis://127.0.0.1:{server.port}")
        until = time.monotonic() + PATIENCE
        while server.redis.at() != "0/100":
            self.assertLess(time.monotonic(), until)
            time.sleep(0.02)

        def take_long() -> None:
            is_asked.set()
            goes_on.wait()

        def let_go() -> None:
            if seconds is not None:
                time.sleep(seconds)
                goes_on.set()

        server.redis.before_exec = take_long
        self.feed.commit(0x200, [insert("2", "b")])
        return (*self.ends(child, is_asked.is_set, let_go), server.redis)

    def test_redis_that_has_a_commit_soon(self) -> None:
        status, said, redis = self.ends_in_exec(0.5)
        self.assertEqual((status, redis.at()), (0, "0/200"), said)
        self.assertEqual(redis.rows(), stock(("1", "a"), ("2", "b")))
        self.assertIn("all up to 0/200 is written", said)

    def test_redis_that_never_has_a_commit(self) -> None:
        status, said, _ = self.ends_in_exec(None)
        self.assertEqual(status, 7, said)
        self.assertIn("the engine doesn't answer", said)

    def test_redis_that_takes_no_connection(self) -> None:
        listening = socket.create_server(("127.0.0.1", 0), backlog=0)
        self.addCleanup(listening.close)
        self.feed.commit(0x100, [insert("1", "a")])
        for _ in range(3):
            filling = socket.socket()
            filling.setblocking(False)
            filling.connect_ex(listening.getsockname())
            self.addCleanup(filling.close)
        port = listening.getsockname()[1]
        for scheme in ("redis", "nats"):
            child = self.sink(f"{scheme}://127.0.0.1:{port}")
            status, _ = self.ends(child, functools.partial(is_connecting, child.pid))
            self.assertEqual(status, 0)


def is_connecting(pid: int) -> bool:
    """Whether a process has a socket."""
    with contextlib.suppress(OSError):
        return any(
            os.readlink(f"/proc/{pid}/fd/{it}").startswith("socket:")
            for it in os.listdir(f"/proc/{pid}/fd")
        )
    return False


class Exports(StoreCase, Case):
    def export(self) -> subprocess.Popen[bytes]:
        return self.begin("export", "--store", self.path, "--into", self.into)

    def setUp(self) -> None:
        super().setUp()
        self.store.table(1, "t", letter="f")

    def test_a_row_with_many_copies(self) -> None:
        self.store.row(1, "1", "x" * 1000, key=None, copies=10**12)
        self.store.close()
        child = self.export()
        new = f"{self.into}.pgsub-{child.pid}"
        status, said = self.ends(child, lambda: os.path.exists(new))
        self.assertEqual((status, os.path.exists(new)), (7, False), said)
        self.assertIn("ended before", said)

    def test_a_follower_that_says_nothing(self) -> None:
        """A signal is heard at once."""
        self.store.close()
        requests = RequestSocket(self.path)
        self.addCleanup(requests.close)
        with open(self.path + ".connector", "w") as file:
            fcntl.flock(file, fcntl.LOCK_EX)
            child = self.export()

            def is_asked() -> bool:
                requests.tend()
                return requests.first() is not None

            status, said = self.ends(child, is_asked)
        self.assertEqual(status, 7, said)
        self.assertEqual([it for it in os.listdir(self.folder) if "export" in it], [], said)


if __name__ == "__main__":
    unittest.main()
