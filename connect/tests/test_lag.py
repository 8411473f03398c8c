"""How far the copy is behind, and what is shown of it."""

from __future__ import annotations

import json
import unittest
from unittest import mock

from pgsub_connect.drift.remembered import Remembered
from pgsub_connect.status.files import status_fields
from pgsub_connect.status.progress import STATES, Progress
from pgsub_connect.status.state import Lag
from pgsub_connect.stream.messages import EPOCH
from pgsub_connect.stream.stream_log import Noting

from . import vectors


class Behind(unittest.TestCase):
    def setUp(self) -> None:
        self.lag = Lag()

    def test_nothing_is_known(self) -> None:
        self.assertEqual((self.lag.seconds(1000.0), self.lag.bytes(0)), (None, None))

    def test_all_is_there(self) -> None:
        self.lag.confirmed = 500
        self.lag.note_answer(100.0, 100.1, None, 500)
        self.assertEqual((self.lag.seconds(101.0), self.lag.bytes(400)), (0.0, 0))

    def test_an_old_answer_says_little(self) -> None:
        """A server that can't be asked may have more."""
        self.lag.confirmed = 500
        self.lag.note_answer(100.0, 100.1, None, 500)
        self.assertEqual(self.lag.seconds(105.0), 0.0)
        self.assertEqual(self.lag.seconds(130.0), 30.0)

    def test_the_server_has_more(self) -> None:
        self.lag.confirmed = 500
        self.lag.note_answer(100.0, 100.1, None, 400)
        self.lag.note_answer(102.0, 102.1, None, 600)
        self.lag.note_answer(104.0, 104.1, None, 700)
        self.assertEqual((self.lag.seconds(105.0), self.lag.bytes(0)), (5.0, 200))
        self.lag.confirmed = 600
        self.assertEqual((self.lag.seconds(105.0), self.lag.bytes(800)), (3.0, 200))
        self.lag.confirmed = 700
        self.assertEqual((self.lag.seconds(105.0), self.lag.bytes(0)), (0.0, 0))

    def test_the_last_commit_tells_too(self) -> None:
        self.lag.note_answer(100.0, 100.2, 160.1, 600)
        self.lag.last_commit = 163.0
        self.assertAlmostEqual(self.lag.seconds(105.0) or 0.0, 2.0)

    def test_a_commit_that_waits_tells_its_age(self) -> None:
        """Whatever else is known, and by the server's clock, which is ten seconds ahead."""
        self.lag.confirmed = 500
        self.lag.note_answer(100.0, 100.0, 110.0, 500)
        self.lag.waits_since = 113.0
        self.assertAlmostEqual(self.lag.seconds(105.0) or 0.0, 2.0)

    def test_what_nobody_looks_at_doesnt_grow(self) -> None:
        """Without a status file nobody asks how far it is behind."""
        for now in range(1, 101):
            self.lag.confirmed = now
            self.lag.note_answer(float(now), float(now), None, now)
        self.assertEqual((len(self.lag.asked), self.lag.seconds(101.0)), (1, 0.0))
        with mock.patch("pgsub_connect.status.state.MOST", 3):
            self.lag = Lag()
        for now in range(1, 101):
            self.lag.note_answer(float(now), float(now), None, now)
        self.assertEqual((len(self.lag.asked), self.lag.seconds(101.0)), (3, None))
        self.lag.confirmed = 99
        self.assertEqual(self.lag.seconds(101.0), 2.0)

    def test_clocks_never_make_it_negative(self) -> None:
        self.lag.waits_since = 2000.0
        self.assertEqual(self.lag.seconds(1000.0), 0.0)
        self.lag.waits_since, self.lag.last_commit = None, 2000.0
        self.assertEqual(self.lag.seconds(1000.0), 0.0)


def at(payload: bytes, offset: int, seconds: float) -> bytes:
    """A Begin or Stream Commit with this time."""
    return (
        payload[:offset]
        + int((seconds - EPOCH) * 1000000).to_bytes(8, "big")
        + payload[offset + 8 :]
    )


class Commits(unittest.TestCase):
    def setUp(self) -> None:
        self.progress = Progress()
        self.noting = Noting(self.progress.stream, Remembered("/nonexistent/copy.db"))

    def note(self, *payloads: bytes) -> None:
        self.noting.note_all(payloads)
        self.noting.show()

    def waits_since(self) -> float | None:
        return self.progress.stream.lag.waits_since

    def test_times(self) -> None:
        self.note(at(vectors.begin(500, 7), 34, 1e9), vectors.insert(1))
        self.assertEqual(self.waits_since(), 1e9)
        self.note(
            vectors.commit(500, 508),
            at(vectors.begin(510, 8), 34, 1e9 + 5),
            vectors.commit(510, 518),
        )
        self.assertEqual(self.waits_since(), 1e9)
        self.noting.confirm(508, 0)
        self.assertEqual((self.progress.stream.lag.last_commit, self.waits_since()), (1e9, 1e9 + 5))
        self.noting.confirm(600, 0)
        self.assertEqual(
            (self.progress.stream.lag.last_commit, self.waits_since()), (1e9 + 5, None)
        )

    def test_streamed(self) -> None:
        self.note(vectors.start(7, True), vectors.insert(1, 7), vectors.stop())
        self.assertIsNone(self.waits_since())
        self.note(at(vectors.stream_commit(7, 600, 608), 47, 1e9 + 7.25))
        self.assertEqual(self.waits_since(), 1e9 + 7.25)

    def test_the_last_message(self) -> None:
        self.note()
        self.assertIsNone(self.progress.stream.last_message)
        self.note(vectors.keepalive(5))
        self.assertIsNotNone(self.progress.stream.last_message)

    def test_counts_never_go_back(self) -> None:
        """They are counters, of which a monitor takes any step back for a restart."""
        self.note(vectors.begin(500, 7), vectors.insert(1), vectors.insert(1))
        self.noting.begin_session()
        self.noting.show()
        self.assertEqual(self.progress.stream.changes, 2)
        self.note(vectors.begin(500, 7), vectors.insert(1), vectors.commit(500, 508))
        self.assertEqual((self.progress.stream.changes, self.progress.stream.commits), (3, 1))


class Shown(unittest.TestCase):
    def test_all_of_it(self) -> None:
        progress = Progress()
        progress.state, progress.heartbeat, progress.program = "following", 1e9, "pgsub 0.1.0"
        progress.stream.note_confirmed(0x1_0000_0010, 0x1_0000_0008)
        progress.note_login(150018, 2)
        progress.stream.lag.note_answer(1e9, 1e9, None, 0x1_0000_0020)
        progress.stream.lag.last_commit, progress.stream.last_message = 1e9 - 3, 1e9 - 1
        progress.slot.wal_status, progress.slot.safe_wal_size = "reserved", 77
        progress.stream.sent_to = (0x1_0000_0018).to_bytes(8, "big")
        progress.findings.found, progress.findings.skipped = {"values": "x"}, "0/7"
        shown = json.loads(json.dumps(status_fields(progress, 2.5, 1e9 + 2)))
        for name, value in {
            "state": "following",
            "heartbeat": "2001-09-09T01:46:40Z",
            "updated": "2001-09-09T01:46:42Z",
            "position": "1/8",
            "confirmed": "1/10",
            "server_end": "1/20",
            "lag_bytes": 16,
            "lag_seconds": 5.0,
            "last_message": "2001-09-09T01:46:39Z",
            "last_commit": "2001-09-09T01:46:37Z",
            "wal_status": "reserved",
            "safe_wal_size": 77,
            "changes_per_second": 2.5,
            "found": {"values": "x"},
            "skipped": "0/7",
            "server_version": 150018,
            "timeline": 2,
            "program_version": "pgsub 0.1.0",
        }.items():
            self.assertEqual(shown[name], value, name)
        self.assertIn("connector_version", shown)

    def test_what_isnt_known_is_left_out(self) -> None:
        shown = status_fields(Progress(), 0.0, 1e9)
        for name in (
            "server_end",
            "lag_bytes",
            "lag_seconds",
            "wal_status",
            "safe_wal_size",
            "last_commit",
            "found",
        ):
            self.assertNotIn(name, shown)
        self.assertIn(shown["state"], STATES)


if __name__ == "__main__":
    unittest.main()
