"""Two sinks of one feed that write to Kafka, which tells neither of the other one."""

from __future__ import annotations

import errno
import os
import stat
import subprocess
import sys
import unittest
from pathlib import Path
from unittest import mock

from pgsub_connect.commands import sink
from pgsub_connect.commands.sink import Options
from pgsub_connect.follow.retention import read_readers, remove_feed
from pgsub_feed.errors import Passing
from pgsub_feed.interruption import Check, never
from pgsub_feed.sinks.following import Outages

from . import test_sink_kafka
from .feeds import insert
from .vectors import logged

CONNECT = Path(__file__).resolve().parent.parent
# Has the lock until it is killed.
CODE = """
import sys
from pgsub_feed.sinks.engine import Alone
it = Alone(sys.argv[1], 0o600)
it.take("kafka", "cluster pgsub.position", "Kafka")
print(flush=True)
sys.stdin.read()
"""


class OneOfTwo(test_sink_kafka.KafkaCase):
    """A feed has one sink at a time for a topic.prefix of a cluster, on one host."""

    def setUp(self) -> None:
        super().setUp()
        self.take(insert("1", "a"))

    def locks(self) -> list[Path]:
        return sorted((self.path / "readers").glob(".*"))

    def another(self) -> subprocess.Popen[bytes]:
        """A process that has the lock of a sink that ran."""
        self.run_it()
        found = subprocess.Popen(
            [sys.executable, "-c", CODE, str(self.path)],
            stdin=subprocess.PIPE,
            stdout=subprocess.PIPE,
            cwd=CONNECT,
        )
        self.addCleanup(found.communicate)
        assert found.stdout
        self.assertEqual(found.stdout.readline(), b"\n")
        return found

    def test_the_second_one_writes_nothing(self) -> None:
        other = self.another()
        self.take(insert("2", "b"))
        before = {name: self.server.said(name) for name in self.server.topics}
        wrong = f"Kafka at h:9092: another sink of this feed writes there, process {other.pid}$"
        self.fails(Passing, wrong)
        self.fails(Passing, "Kafka at alias:9092: another sink", url="kafka://alias")
        self.assertEqual(before, {name: self.server.said(name) for name in self.server.topics})

    def test_others_are_free(self) -> None:
        self.another()
        self.run_it(debezium=["topic.prefix=other"])
        self.server.id = "other"
        self.run_it()
        self.server.id = None
        self.run_it()
        self.assertEqual(len(self.locks()), 4)

    def test_it_goes_on_where_one_that_was_killed_has_ended(self) -> None:
        """One that follows waits for that."""
        other = self.another()
        self.take(insert("2", "b"))
        self.take()
        waits = list[float]()

        def wait(outages: Outages, _: Check) -> None:
            waits.append(outages.delay)
            if len(waits) == 3:
                other.kill()
                other.wait()

        with mock.patch.object(Outages, "wait", wait), logged() as told:
            options = Options(feed=str(self.path), url=self.url, until=self.at - 0x100)
            sink.run(options, never)
        self.assertEqual(waits, [1, 2, 4])
        self.assertRegex(told[0], "^warning: .* another sink of this feed writes there, process")
        self.assertEqual([it[2] for it in self.told()], [(0x100, 0, 0), (0x200, 0, 0)])

    def test_what_another_one_wrote_before_it_ended_is_seen(self) -> None:
        """A sink that connected before it has what is there once it writes."""
        engine = self.engine()
        self.run_it()
        source = {it: self.position()[it] for it in ("system", "database", "slot")}
        self.assertTrue(engine.open(mock.Mock(chosen=(), about=lambda: {**source, "tables": []})))
        self.assertEqual(engine.at, 0x100)

    def test_a_feed_where_it_may_not_write(self) -> None:
        wrong = PermissionError(errno.EACCES, "Permission denied")
        with mock.patch("pgsub_feed.sinks.engine.make_folder", side_effect=wrong):
            (told,) = self.run_it()
        self.assertRegex(
            told, "^warning: Kafka at h:9092: no lock keeps another sink of this feed from it: .*"
        )
        self.assertEqual(self.position()["lsn"], "0/100")
        full = OSError(errno.ENOSPC, "No space left on device")
        with mock.patch("pgsub_feed.sinks.engine.make_folder", side_effect=full):
            self.fails(OSError, "No space left")

    def test_it_is_no_reader(self) -> None:
        self.run_it()
        self.assertEqual(len(self.locks()), 1)
        self.assertEqual(stat.S_IMODE(self.locks()[0].stat().st_mode), 0o600)
        self.assertEqual(read_readers(str(self.path)), {})
        remove_feed(str(self.path))
        self.assertFalse(self.path.exists())

    def test_what_root_makes_is_for_the_account_of_the_feed(self) -> None:
        if os.geteuid():
            self.skipTest("it needs root")
        os.chown(self.path, 65534, 65534)
        self.run_it()
        for it in (self.locks()[0], self.path / "readers"):
            self.assertEqual(it.stat().st_uid, 65534)


if __name__ == "__main__":
    unittest.main()
