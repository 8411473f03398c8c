"""How a comparison brings server and copy to one LSN, and how that ends where it can't."""

from __future__ import annotations

import contextlib
import fcntl
import os
import threading
import unittest
from collections.abc import Iterator, Sequence
from unittest import mock

from pgsub_connect.copy.source import Source
from pgsub_connect.copy.tries import CHANGED
from pgsub_connect.copy.source import ALTERED, LOCKED, MOVED
from pgsub_connect.errors import NoSlot, ServerError
from pgsub_connect.follow.request_socket import RequestSocket
from pgsub_connect.follow.snapshots import Snapshots
from pgsub_connect.server.catalog import Table
from pgsub_connect.server.session import Subscription
from pgsub_connect.store import at_rest
from pgsub_connect.store.checkpoint_lines import FOLLOWING, Known
from pgsub_connect.store.file import position_in
from pgsub_connect.verify import store
from pgsub_connect.verify.store import Request, meet
from pgsub_feed.errors import Passing, Stopped, Unfit
from pgsub_feed.interruption import Check, never
from pgsub_feed.relation import Shape

from .fake_server import FakeServer, Quiet, Row
from .stores import StoreCase
from .vectors import keepalive, logged

KNOWN = Known(FOLLOWING, "77", "shop", "pgsub", 1)


class Asks(StoreCase):
    def setUp(self) -> None:
        super().setUp()
        for name in ("store.at_rest.LOOK", "copy.source.LOOK", "store.socket_file.STEP"):
            self.patch(f"pgsub_connect.{name}", 0.005)
        self.ended = threading.Event()
        self.request = Request(self.path, 60.0, never)
        self.addCleanup(self.request.close)

    @contextlib.contextmanager
    def followed(self) -> Iterator[Snapshots]:
        """As while a follower runs that has nothing to pass on."""
        snapshots = Snapshots(self.path, requests := RequestSocket(self.path), None, 0.0)

        def follow() -> None:
            while not self.ended.is_set():
                requests.rest(0.02)
                if snapshots.is_due(0x130):
                    snapshots.take(0x130, never)
                elif snapshots.hold.is_going():
                    snapshots.hold.passing([keepalive(0x200)], False)
            snapshots.wait()
            requests.close()

        thread = threading.Thread(target=follow)
        with open(self.path + ".connector", "w") as file, logged():
            fcntl.flock(file, fcntl.LOCK_EX)
            thread.start()
            try:
                yield snapshots
            finally:
                self.ended.set()
                thread.join()

    def left(self) -> set[str]:
        return set(os.listdir(self.folder))

    def test_the_whole_of_it(self) -> None:
        with self.followed() as snapshots:
            self.request.hold()
            self.assertTrue(snapshots.hold.stops())
            self.request.tell(0x200)
            path = self.request.copied()
            self.assertEqual(position_in(path), 0x130)
            self.assertFalse(snapshots.hold.stops())
            self.request.close()
        self.assertEqual(self.left(), {"copy.db", "copy.db.connector"})

    def test_it_is_given_up(self) -> None:
        """What was asked for goes, and so does the hold."""
        for told in (False, True):
            with self.followed() as snapshots:
                self.request.hold()
                if told:
                    self.request.tell(0x300)
                self.request.close()
                until = threading.Event()
                for _ in range(12000):
                    if not snapshots.hold.into or until.wait(0.005):
                        break
                self.assertIsNone(snapshots.hold.into)
            self.ended.clear()
        self.assertEqual(self.left(), {"copy.db", "copy.db.connector"})

    def test_nobody_follows(self) -> None:
        open(self.path + ".connector", "w").close()
        with self.assertRaisesRegex(Passing, "a follower has to run"):
            self.request.hold()
        self.request.close()
        self.assertEqual(self.left(), {"copy.db", "copy.db.connector"})

    def ask(
        self,
        text: str,
        answers: Sequence[dict[str, object]] = (),
        check: Check = never,
        ends: bool = False,
    ) -> None:
        """Asks a follower that gives these answers, one for each line, and then ends, or not; and
        expects an error."""
        request, requests, over = (
            Request(self.path, 60.0, check),
            RequestSocket(self.path),
            threading.Event(),
        )

        def follow() -> None:
            left = list(answers)
            while not over.is_set():
                requests.rest(0.01)
                requests.tend()
                if (client := requests.first()) and left:
                    client.answer(**left.pop(0))
                if client and ends and not left:
                    self.lock.close()
                    client.close()

        thread = threading.Thread(target=follow)
        with open(self.path + ".connector", "w") as self.lock:
            fcntl.flock(self.lock, fcntl.LOCK_EX)
            thread.start()
            with contextlib.closing(request), self.assertRaisesRegex(Exception, text):
                request.hold()
                request.tell(0x200)
                request.copied()
            over.set()
            thread.join()
        requests.close()
        self.assertEqual(self.left(), {"copy.db", "copy.db.connector"})

    def test_a_follower_that_doesnt_answer(self) -> None:
        with mock.patch.object(store, "PATIENCE", 0.02):
            self.ask("hasn't answered in 0 seconds")

    def test_a_follower_that_ends(self) -> None:
        self.ask("a follower has to run", ends=True)

    def test_a_follower_that_ends_later(self) -> None:
        self.ask("a follower has to run", [{"held": "0/130"}], ends=True)

    def test_a_follower_of_an_older_version(self) -> None:
        with mock.patch.object(at_rest, "STARTING", 0.02), open(
            self.path + ".connector", "w"
        ) as lock:
            fcntl.flock(lock, fcntl.LOCK_EX)
            with self.assertRaisesRegex(Passing, "is its follower of an older version"):
                self.request.hold()

    def test_a_follower_that_cant(self) -> None:
        self.ask("can't hold the stream: no", [{"error": "no"}])

    def test_a_follower_that_cant_later(self) -> None:
        self.ask("couldn't copy it: no", [{"held": "0/130"}, {"error": "no"}])

    def test_a_copy_that_isnt_there(self) -> None:
        self.ask("the copy isn't there", [{"held": "0/130"}, {"copied": "0/130"}])

    def test_ended_by_a_signal(self) -> None:
        self.ask("^$", check=mock.Mock(side_effect=Stopped))


class Servers(Quiet):
    def setUp(self) -> None:
        super().setUp()
        self.server = FakeServer()
        self.identity: Row = ["77", "1", "0/1000", "shop"]
        self.table = Table(1, "public", "t", "r", Shape("d", ()))
        self.server.answer("IDENTIFY_SYSTEM", lambda _: [self.identity])
        self.server.answer("pg_is_in_recovery", [["f"]])
        self.server.answer("CREATE_REPLICATION_SLOT", [["x", "0/200", "snap", "pgoutput"]])
        self.tables = [self.table]
        self.replace("pgsub_connect.copy.source.LOOK", 0.001)
        self.replace("pgsub_connect.server.session.Connection", self.server.connect)
        self.replace("pgsub_connect.copy.source.published_tables", lambda *_: list(self.tables))
        self.replace("pgsub_connect.copy.tables.are_so_named", lambda *_: True)

    def replace(self, name: str, by: object) -> None:
        patch = mock.patch(name, by)
        patch.start()
        self.addCleanup(patch.stop)

    def source(self, known: Known = KNOWN) -> Source:
        source = Source(Subscription(publications=["pgsub"]), "s", known, never, "verify")
        self.addCleanup(source.close)
        return source

    def test_the_order(self) -> None:
        """The stream is held before the slot is made, and goes on before any lock is waited for."""
        source, request = self.source(), mock.Mock()
        request.hold = lambda maker, standbys: self.server.commands.append("hold")
        request.tell = lambda point: self.server.commands.append(f"tell {point:x}")
        self.assertEqual(meet(request, source, 1.0), 0x200)
        steps = (
            "row_security",
            "hold",
            "TEMPORARY LOGICAL pgoutput EXPORT_SNAPSHOT",
            "tell 200",
            "SNAPSHOT 'snap'",
            "ACCESS SHARE MODE",
        )
        places = [self.server.index(it) for it in steps]
        self.assertEqual(places, sorted(places))

    def test_a_server_that_crashes_where_a_slot_is_made(self) -> None:
        """It is kept from that by what it may hold in memory."""
        for version, expected in (
            (150018, []),
            (180006, ["SET logical_decoding_work_mem = '1GB'"]),
        ):
            self.server.server_version = version
            self.source().make_slot(1.0)
            self.assertEqual(self.server.told("logical_decoding_work_mem"), expected)

    def test_another_server(self) -> None:
        for identity in (
            ["78", "1", "0/1", "shop"],
            ["77", "1", "0/1", "other"],
            ["77", "2", "0/1", "shop"],
        ):
            self.identity = list(identity)
            with self.assertRaisesRegex(
                Unfit, "the store follows the server 77, database shop, timeline 1, and this is"
            ):
                self.source()
        self.assertEqual(self.server.open, [])

    def test_a_store_that_isnt_followed_yet(self) -> None:
        with self.assertRaises(Passing):
            self.source(Known())

    def test_a_timeline_that_isnt_known(self) -> None:
        self.source(Known(FOLLOWING, "77", "shop", "pgsub", 0))

    def test_no_slot_in_time(self) -> None:
        source = self.source()

        def never_made(_: str) -> list[Row]:
            while True:
                source.replication.check()

        self.server.answer("CREATE_REPLICATION_SLOT", never_made)
        with self.assertRaisesRegex(NoSlot, "the server made no slot in 0.05 seconds"):
            source.make_slot(0.05)
        self.assertTrue(any("the slot waits for" in it for it in self.said))
        self.server.answer(
            "CREATE_REPLICATION_SLOT",
            ServerError("canceling statement due to lock timeout", "55P03"),
        )
        with self.assertRaises(NoSlot):
            source.make_slot(2.0)
        self.assertIn("SET lock_timeout = 2000", self.server.commands)
        self.server.answer(
            "CREATE_REPLICATION_SLOT", ServerError("all replication slots are in use", "53400")
        )
        with self.assertRaisesRegex(ServerError, "all replication slots"):
            source.make_slot(2.0)

    def test_tables_that_change_meanwhile(self) -> None:
        source = self.source()
        self.tables = []
        with self.assertRaisesRegex(Passing, CHANGED):
            source.see("snap")
        self.tables = [self.table]
        self.server.answer("LOCK TABLE", ServerError("gone", "42P01"))
        with self.assertRaisesRegex(Passing, CHANGED):
            source.see("snap")

    def test_tables_that_others_have_locked(self) -> None:
        """No lock is waited for while others are held."""
        source, tries = self.source(), iter((1, 1, 0))

        def locks(_: str) -> list[Row]:
            if next(tries):
                raise ServerError("could not obtain lock", "55P03")
            return []

        self.server.answer("LOCK TABLE", locks)
        source.see("snap")
        commands = [
            it.split()[0]
            for it in self.server.commands
            if it.startswith(("SAVEPOINT", "LOCK", "ROLLBACK"))
        ]
        self.assertEqual(commands, ["SAVEPOINT", "LOCK", "ROLLBACK", "LOCK", "ROLLBACK", "LOCK"])
        self.assertTrue(all(it.endswith("NOWAIT") for it in self.server.told("LOCK TABLE")))
        self.server.answer("LOCK TABLE", ServerError("could not obtain lock", "55P03"))
        source.patience = 0.01
        with self.assertRaisesRegex(Passing, "locked by others"):
            source.see("snap")

    def two(self) -> Source:
        """A source of two tables, the second of which is in two partitions."""
        self.tables = [self.table, Table(2, "public", "u", "p", Shape("d", ()))]
        return self.source()

    def test_which_file_a_table_is_in_when_the_slot_is_made(self) -> None:
        """What was truncated before the snapshot was taken is as the snapshot has it."""
        source = self.two()
        source.see("snap", leaves=True)
        [told] = self.server.told("pg_relation_filenode")
        self.assertLess(self.server.index("NOWAIT"), self.server.commands.index(told))
        self.assertRegex(told, "c.relfilenode <> COALESCE")
        self.assertEqual(([it.oid for it in source.tables], source.left), ([1, 2], {}))

    def test_what_is_truncated_meanwhile_is_left_out(self) -> None:
        source = self.two()
        self.server.answer("pg_relation_filenode", [["2"]])
        source.see("snap", leaves=True)
        self.assertEqual(([it.oid for it in source.tables], source.left), ([1], {2: MOVED}))
        with self.assertRaisesRegex(Passing, CHANGED):
            self.source().see("snap")

    def test_what_is_altered_meanwhile_is_left_out(self) -> None:
        source = self.two()
        self.tables = [
            self.table,
            Table(2, "public", "u", "p", Shape("f", ())),
            Table(3, "public", "new", "r", Shape("d", ())),
        ]
        source.see("snap", leaves=True)
        self.assertEqual(([it.oid for it in source.tables], source.left), ([1], {2: ALTERED}))

    def test_what_is_renamed_behind_the_snapshot_is_left_out(self) -> None:
        source = self.two()
        self.replace(
            "pgsub_connect.copy.tables.are_so_named",
            lambda _, tables: 2 not in [it.oid for it in tables],
        )
        source.see("snap", leaves=True)
        self.assertEqual(([it.oid for it in source.tables], source.left), ([1], {2: ALTERED}))

    def test_what_is_dropped_meanwhile_is_left_out(self) -> None:
        source = self.two()

        def locks(command: str) -> list[Row]:
            if '"u"' in command:
                raise ServerError('relation "u" does not exist', "42P01")
            return []

        self.server.answer("LOCK TABLE", locks)
        self.server.answer("to_regclass", [["1"]])
        source.see("snap", leaves=True)
        self.assertEqual(([it.oid for it in source.tables], source.left), ([1], {2: ALTERED}))

    def test_what_others_have_locked_for_long_is_left_out(self) -> None:
        source = self.two()

        def locks(command: str) -> list[Row]:
            if '"u"' in command:
                raise ServerError("could not obtain lock", "55P03")
            return []

        self.server.answer("LOCK TABLE", locks)
        source.patience = 0.01
        source.see("snap", leaves=True)
        self.assertEqual(([it.oid for it in source.tables], source.left), ([1], {2: LOCKED}))
        self.assertTrue(all(it.endswith("NOWAIT") for it in self.server.told("LOCK TABLE")))

    def test_rights(self) -> None:
        source = self.source()
        self.server.answer("LOCK TABLE", ServerError("permission denied", "42501"))
        with self.assertRaisesRegex(ServerError, "needs SELECT on all of it"):
            source.see("snap")

    def test_which_tables(self) -> None:
        other = Table(2, "Odd schema", "t", "r", Shape("d", ()))
        self.tables = [self.table, other]
        source = self.source()
        self.assertEqual(source.chosen([]), [self.table, other])
        self.assertEqual(source.chosen(["t", "public.t"]), [self.table])
        for name in ("Odd schema.t", '"Odd schema".t', '"Odd schema"."t"'):
            self.assertEqual(source.chosen([name]), [other])
        with self.assertRaisesRegex(Unfit, "no published table x"):
            source.chosen(["t", "x"])


if __name__ == "__main__":
    unittest.main()
