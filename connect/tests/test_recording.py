"""Recordings without a store: what is written, when it is enough, and what the server is told."""

from __future__ import annotations

import itertools
import os
import time
import unittest
from typing import Any
from unittest import mock

from pgsub_connect.commands import record
from pgsub_connect.record import RecordSettings, Recorder
from pgsub_connect.record import Recording
from pgsub_connect.server import transport
from pgsub_connect.server.connection import Connection
from pgsub_connect.server.session import Subscription
from pgsub_connect.stream.messages import COPY_DONE, flushed
from pgsub_feed.errors import FileError, UsageError
from pgsub_feed.interruption import never

from .fake_server import FakeServer, Quiet
from .settled import options_of
from .small_server import SmallServer
from .test_passing import framed
from .vectors import begin, commit, insert, keepalive

PAIR = [begin(0x100, 7), insert(1), commit(0x100, 0x108)]
NEXT = [begin(0x200, 8), insert(1), commit(0x200, 0x208)]


class Files(Quiet):
    """What a recording may be written over."""

    def setUp(self) -> None:
        super().setUp()
        self.path = self.make_folder() + "/r.pgx"

    def write(self, content: bytes) -> None:
        with open(self.path, "wb") as file:
            file.write(content)

    def after(self, content: bytes, append: bool, overwrites: bool = False) -> bytes:
        """What a file has once a line was written to it."""
        self.write(content)
        recording = Recording(self.path, append, 1 << 20, overwrites=overwrites)
        recording.write_line("42")
        recording.close()
        with open(self.path, "rb") as file:
            return file.read()

    def test_another_file_stays(self) -> None:
        for content in (
            b"root:x:0:0\n",
            b"#",
            b"# recorded by somebody else at noon\n",
            b"\0" * 100,
            b"42\n",
        ):
            for append in (False, True):
                with self.assertRaisesRegex(
                    FileError,
                    "isn't a recording of pgsub-connect: name another file, or say --overwrite",
                ):
                    self.after(content, append)
                with open(self.path, "rb") as file:
                    self.assertEqual(file.read(), content)
                self.assertEqual(
                    self.after(content, append, True), (content if append else b"") + b"42\n"
                )

    def test_a_recording_or_nothing(self) -> None:
        for content in (b"", b"# recorded by pgsub-connect at 2026-11-28 13:00:00 UTC\n"):
            self.assertEqual(self.after(content, False), b"42\n")
            self.assertEqual(self.after(content, True), content + b"42\n")

    def test_what_keeps_nothing(self) -> None:
        recording = Recording("/dev/null", False, 1 << 20)
        recording.write_line("42")
        recording.close()
        os.mkfifo(self.path)
        reader = os.open(self.path, os.O_RDONLY | os.O_NONBLOCK)
        self.addCleanup(os.close, reader)
        recording = Recording(self.path, False, 1 << 20)
        recording.write_line("42")
        recording.close()
        self.assertEqual(os.read(reader, 100), b"42\n")


class Case(Quiet):
    def setUp(self) -> None:
        super().setUp()
        self.folder = self.make_folder()
        self.path = self.folder + "/r.pgx"
        self.brain = FakeServer()
        self.brain.answer("set_config", [[""]])
        self.brain.answer("pg_current_wal_insert_lsn", [["0/800", "0/800", "16777216"]])
        self.ports = itertools.count(5432)
        self.server = self.start()

    def start(self, *payloads: bytes, version: str = "15.18") -> SmallServer:
        """A server for one session, which sends these."""
        server = SmallServer(self.folder, self.brain, port=next(self.ports))
        self.addCleanup(server.close)
        server.to_send, server.version = list(payloads), version
        return server

    def record(self, *, append: bool = False, size: int = 1 << 20, **options: Any) -> Recorder:
        # (so that no fault makes it wait without end)
        subscription = Subscription(self.server.dsn(), publications=["pgsub"])
        options.setdefault("seconds", 60.0)
        recorder = Recorder(
            subscription, RecordSettings(**options), Recording(self.path, append, size)
        )
        try:
            recorder.connect()
            recorder.run()
        finally:
            recorder.close()
        return recorder

    def statuses(self, count: int) -> list[int]:
        """What the server was told to be flushed, once it was told so often."""
        until = time.monotonic() + 60
        while len(self.server.statuses) < count and time.monotonic() < until:
            time.sleep(0.01)
        return [flushed(body) for _, body in self.server.statuses]

    def lines(self) -> list[str]:
        with open(self.path, encoding="ascii") as file:
            return file.read().splitlines()

    def frames(self) -> bytes:
        return b"".join(bytes.fromhex(it) for it in self.lines() if it[:1] not in "#-")

    def started(self) -> str:
        return self.brain.told("START_REPLICATION")[-1]


class Sessions(Case):
    def test_up_to_an_lsn(self) -> None:
        """Whole frames, and what comes after the LSN isn't looked at. Nothing is confirmed."""
        self.server.to_send = [*PAIR, keepalive(0x180, asks=True), *NEXT]
        self.record(until=0x208)
        self.assertEqual(self.frames(), framed(*PAIR, keepalive(0x180, asks=True), *NEXT))
        self.assertEqual(self.statuses(1), [0])
        self.assertIn("protocol version 2, from 0/0", self.lines()[2])
        self.assertEqual(self.said[-1], "7 frames, 2 commits, the last up to 0/208")

    def test_up_to_now(self) -> None:
        """A keepalive tells that all is there, where nothing more was committed."""
        self.server.to_send = [*PAIR, keepalive(0x800)]
        self.record(until="now")
        self.assertEqual(self.frames(), framed(*PAIR, keepalive(0x800)))

    def test_so_many_commits(self) -> None:
        self.server.to_send = [*PAIR, *NEXT]
        self.record(transactions=1)
        self.assertEqual(self.frames(), framed(*PAIR))

    def test_so_many_seconds(self) -> None:
        self.record(seconds=0.05)
        self.assertEqual(self.frames(), b"")

    def test_no_more_than_is_allowed(self) -> None:
        self.server.to_send = [*PAIR, *NEXT]
        self.record(size=400)
        self.assertLess(os.stat(self.path).st_size, 401)
        self.assertTrue(framed(*PAIR, *NEXT).startswith(self.frames()))
        self.assertIn(
            "warning: the recording ends here: 400 bytes are not to be passed (--bytes)", self.said
        )

    def test_the_server_ends_it(self) -> None:
        with mock.patch.object(Connection, "next_payload", side_effect=[PAIR[0], None]):
            self.record()
        self.assertEqual(self.frames(), framed(PAIR[0]) + COPY_DONE)

    def test_appended(self) -> None:
        for append in (False, True):
            self.server = self.start(*PAIR, keepalive(0x800))
            self.record(append=append, until="now")
        self.assertEqual(self.lines().count("--"), 1)
        self.assertEqual(self.frames(), 2 * framed(*PAIR, keepalive(0x800)))

    def test_confirmed_at_the_end(self) -> None:
        """Not above the last commit that was recorded."""
        for confirm, told in ((0x104, 0x104), (0x500, 0x108)):
            self.server = self.start(*PAIR)
            self.record(transactions=1, confirm=confirm)
            self.assertEqual(self.statuses(1), [told])


class Versions(Case):
    def test_of_the_protocol(self) -> None:
        for version, asked, taken in (
            ("13.9", 2, 1),
            ("13.9", 1, 1),
            ("15.18", 2, 2),
            ("15.18", 1, 1),
        ):
            self.server.version = version
            self.record(proto=asked, seconds=0.01)
            self.assertIn(f"proto_version '{taken}'", self.started())
            self.assertIn(f"# protocol version {taken}", self.lines()[2])
            self.assertEqual(
                any("version 1 of the protocol alone" in it for it in self.said), asked != taken
            )
            self.said.clear()

    def test_what_a_server_hasnt_got_is_told_before_anything_is_made(self) -> None:
        self.server.version = "13.9"
        for name in ("streaming", "binary", "messages"):
            words = ["record", "--dsn", self.server.dsn(), "--create", "--record", self.path]
            options = options_of([*words, f"--{name}"])
            with mock.patch.object(record, "create_slot") as made, mock.patch.object(
                record, "stop_by_signals"
            ):
                with self.assertRaisesRegex(
                    UsageError, f"--{name} needs PostgreSQL 14, and this is 13.9"
                ):
                    record.run(options, never)
            made.assert_not_called()
        self.assertEqual(self.brain.told("START_REPLICATION"), [])

    def test_a_slot_that_stays_is_told_with_its_end(self) -> None:
        """The server keeps its log for it; one that was there before may be somebody else's."""
        words = ["record", "--dsn", self.server.dsn(), "--create", "--record", self.path]
        options = options_of([*words, "--seconds", "0.01", "--slot", "rec"])
        for is_made in (True, False):
            self.said.clear()
            with mock.patch.object(record, "create_slot", return_value=is_made), mock.patch.object(
                record, "stop_by_signals"
            ):
                self.assertEqual(record.run(options, never), 0)
            told = [it for it in self.said if "pg_drop_replication_slot('rec')" in it]
            self.assertEqual(len(told), int(is_made), self.said)

    def test_short_payloads_are_recorded(self) -> None:
        """What a server sends is kept, whatever it is."""
        self.server.to_send = [b"w", b"k", b"wx" * 12, b"w" + bytes(24) + b"C", b"?", *PAIR]
        self.record(transactions=2)
        with open(self.path, encoding="ascii") as file:
            self.assertEqual(len([it for it in file if not it.startswith("#")]), 8)

    def test_plain_text_is_warned_of(self) -> None:
        plain = transport.Protection("plain", (), False)
        with mock.patch.object(transport, "protection_of", return_value=plain), mock.patch.object(
            transport, "OWN", transport.Trust()
        ):
            self.record(seconds=0.01)
        self.assertIn("warning: the connection isn't encrypted", self.said[0])


if __name__ == "__main__":
    unittest.main()
