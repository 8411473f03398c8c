"""The initial copy: what the filter gets and the server is told, what ends it, and when it begins
anew."""

from __future__ import annotations

import collections
import contextlib
import dataclasses
import os
import sqlite3
import time
import unittest
from functools import partial
from collections.abc import Callable, Sequence
from typing import Any, cast
from unittest import mock

from pgsub_connect.copy import copier as copier_module, copy_slot
from pgsub_connect.copy import interrupted, slots, table_reader, tables as tables_module
from pgsub_connect.copy.copier import Copier, CopySettings
from pgsub_connect.copy.messages import (
    begin,
    commit,
    frame,
    load_frame,
    point_frame,
    table_frame,
)
from pgsub_connect.copy.rows_beside import RowsBeside, Several
from pgsub_connect.copy.sender import Sender
from pgsub_connect.copy.slots import create_slot
from pgsub_connect.copy.tables import altered_tables
from pgsub_connect.copy.tries import CHANGED, Tries
from pgsub_connect.drift.remembered import Remembered
from pgsub_connect.errors import ServerError
from pgsub_connect.server import publication_setup, session, waits as waits_module
from pgsub_connect.server.catalog import Catalog, Partition, Table
from pgsub_connect.server.publication_setup import Maker, Wanted
from pgsub_connect.server.session import Subscription
from pgsub_connect.status.progress import Progress
from pgsub_connect.store import checkpoint_lines
from pgsub_connect.store.checkpoint import Checkpoint
from pgsub_connect.store.checkpoint_lines import COPIED, SLOT
from pgsub_connect.stream.common import Common, Tolerance
from pgsub_connect.stream.filter import Filter
from pgsub_connect.stream.filter_end import FilterEnded
from pgsub_connect.stream.memory_limit import BufferLimits
from pgsub_feed import log
from pgsub_feed.errors import Passing, Stopped, Unfit, UsageError
from pgsub_feed.files import meant
from pgsub_feed.relation import Column, Shape

from .fake_server import FakeServer, Quiet, Row
from .vectors import PGSUB, a_catalog, a_table

POINT = 0x1000028
STOCK = Table(
    16385,
    "public",
    "stock",
    "r",
    Shape("d", (Column("id", 23, -1, True, 1), Column("n", 23, -1, False, 2))),
)


class FakeFilter:
    """A filter that confirms the end of a load, or of the last transaction, and keeps what it was
    sent."""

    def __init__(self, path: str) -> None:
        self.path, self.sent, self.loaded = path, b"", b""
        self.words: tuple[str, ...] = ()
        self.stops = False
        self.ended = self.runs = False
        self.readable: list[int] = []
        self.fails: list[Exception] = []

    def launch(self, *more: str) -> None:
        with open(self.path, "ab"):
            self.ended, self.runs = False, True
        self.words, self.loaded, self.sent = more, b"", b""
        if self.fails:
            raise self.fails.pop(0)

    def start(self, check: Callable[[], None]) -> int:
        check()
        self.launch()
        return 0

    def has_opened(self) -> bool:
        return bool(self.point())

    def point(self) -> int:
        """Where the load has ended."""
        last = self.loaded[-14:]
        return int.from_bytes(last[6:], "big") if last[:6] == b"d\0\0\0\x0dp" else 0

    def is_to_stop(self) -> bool:
        return self.stops

    def confirmed(self) -> int:
        return self.point() or int.from_bytes(self.sent[-16:-8], "big")

    def push(self, piece: bytes) -> None:
        self.sent += piece

    def push_load(self, piece: bytes | memoryview) -> None:
        self.loaded += piece

    def has_room(self) -> bool:
        return True

    def finish(self) -> None:
        self.ended = True

    def serve(
        self, timeout: float, reads: Sequence[int] = ()
    ) -> tuple[list[int], list[int], list[bytes]]:
        if self.ended:
            is_cut = "--load" in self.words and not self.point()
            raise FilterEnded(15 if is_cut else 0, "")
        return self.readable, [], []

    def kill(self) -> None:
        self.runs = False


class Copying(Quiet):
    """A copier of a fake server to a fake filter."""

    def setUp(self) -> None:
        super().setUp()
        self.folder = self.make_folder()
        self.store = os.path.join(self.folder, "copy.db")
        self.server = server = FakeServer()
        self.slots: list[Row] = []
        for part, rows in (
            ("IDENTIFY_SYSTEM", [["77", "1", "0/1000000", "shop"]]),
            ("pg_is_in_recovery", [["f"]]),
            ("pg_settings", [["wal_level", "logical"], ["max_replication_slots", "10"]]),
            ("pg_roles", [["f", "f", "t", "t"]]),
            ("SELECT p.pubname FROM", [["pgsub"]]),
            ("CREATE_REPLICATION_SLOT", [["s", "0/1000028", "snap'1", "pgoutput"]]),
            ("pg_relation_filenode", [["16385", "1"]]),
            ("sum(l.reltuples)", [["3"]]),
        ):
            server.answer(part, cast(list[Row], rows))
        made = 'CREATE PUBLICATION "pgsub"'
        server.answer(
            "SELECT p.oid FROM pg_catalog.pg_publication p",
            lambda _: [["777"]] if server.told(made) else [],
        )
        server.answer(
            "SELECT pg_catalog.pg_is_in_recovery(), pg_catalog.current_database()",
            [["f", "shop", "0", "0"]],
        )
        self.names: list[Row] = [["16385", "public", "stock"]]
        self.columns: list[Row] = [
            ["16385", "1", "id", "23", "-1"],
            ["16385", "2", "n", "23", "-1"],
            ["16385", "3", "x", "25", "-1"],
        ]
        server.answer(
            "SELECT c.oid, n.nspname, c.relname FROM pg_catalog.pg_class c JOIN", self.names
        )
        server.answer("FROM pg_catalog.pg_attribute a WHERE a.attrelid IN", self.columns)
        server.answer("s.confirmed_flush_lsn - '0/0'", lambda _: self.slots)
        server.answer("SELECT s.confirmed_flush_lsn", lambda _: [[it[3]] for it in self.slots])
        server.answer("pg_copy_logical_replication_slot", self.slot_copied)
        server.answer('DROP_REPLICATION_SLOT "pgsub"', self.slot_dropped)
        server.answer("pg_drop_replication_slot", self.slot_dropped)
        server.lines = [b"1\t5\n", b"2\t\\N\n"]
        self.tables = [STOCK]
        self.patch(session, "Connection", server.connect)
        self.patch(table_reader, "LOOK", 0.001)
        self.patch(tables_module, "published_tables", lambda *_: list(self.tables))
        self.patch(publication_setup, "publishable_tables", lambda _: ['"public"."stock"'])
        self.patch(copier_module, "rest", lambda seconds, _: self.slept.append(seconds))
        self.slept: list[float] = []
        self.beside = RowsBeside()
        for module in (tables_module, slots):
            self.patch(
                module,
                "read_catalog",
                lambda _, names: Catalog(tuple(names), 0, 0, {}, {}, {}, {}),
            )

    def made(self) -> dict[str, int]:
        """The publications that are remembered as made, in the file."""
        return Remembered(self.store).made

    def patch(self, where: object, name: str, by: object) -> None:
        patch = mock.patch.object(where, name, by)
        patch.start()
        self.addCleanup(patch.stop)

    def slot_copied(self, _: str) -> list[Row]:
        self.slots = [["pgoutput", "t", "f", str(POINT)]]
        return [["pgsub", "0/1000028"]]

    def slot_dropped(self, _: str) -> list[Row]:
        self.slots = []
        return []

    def later(self) -> dict[int, str]:
        """The tables that are to be added by themselves; each was found to be missing."""
        remembered = Remembered(self.store)
        self.assertEqual(
            len(remembered.found["publication"].texts if remembered.wanted else []),
            len(remembered.wanted),
        )
        return remembered.wanted

    def copier(self, max_buffered: int | None = None, **settings: Any) -> Copier:
        self.checkpoint = Checkpoint(self.store)
        self.addCleanup(os.close, self.checkpoint.file)
        self.filter = FakeFilter(meant(self.store))
        self.progress = Progress()
        self.remembered = Remembered(self.store)
        limits = BufferLimits(max_buffered, 1 << 24)
        copied = CopySettings(self.store, Wanted(["pgsub"]), limits, **settings)
        told = self.checkpoint, self.progress, self.remembered
        common = Common(Subscription(publications=["pgsub"]), Tolerance(), *told)
        return Copier(copied, common, cast(Filter, self.filter), self.beside)


class Locks(Copying):
    """From 16 on a server locks the tables to say what is published of them, and any does to
    publish them."""

    def check_at(self, part: str) -> list[str]:
        """Lets a command take long, and returns what is told of it."""

        def wait(_: str) -> list[Row]:
            with mock.patch("time.monotonic", return_value=time.monotonic() + waits_module.FIRST):
                for connection in list(self.server.open):
                    connection.check()
            return []

        self.server.answer("pg_blocking_pids(4711)", [["8", "app", "shop", "12"]])
        self.server.answer(part, wait)
        self.copier().run()
        return [it for it in self.said if "waits for" in it]

    def test_of_a_publication(self) -> None:
        self.assertEqual(
            self.check_at("CREATE PUBLICATION"),
            ["the publication waits for the locks of process 8 (app, database shop) for 12 s"],
        )

    def test_of_rows(self) -> None:
        """A table that is locked by others is tried again; the server isn't let wait."""
        left = [ServerError("could not obtain lock", "55P03")] * 3

        def lock(command: str) -> list[Row]:
            self.assertTrue(command.endswith("NOWAIT"))
            if left:
                raise left.pop()
            return []

        self.server.answer("LOCK TABLE", lock)
        self.copier().run()
        self.assertEqual(
            (
                self.said.count("public.stock is locked by others: it is read later"),
                self.progress.copy.rows,
            ),
            (1, 2),
        )
        self.assertEqual(
            (len(self.server.told("LOCK TABLE")), len(self.server.told("ROLLBACK")), self.later()),
            (4, 3, {}),
        )


def text_frame(*lines: bytes) -> bytes:
    return load_frame(b"t", b"".join(lines))


END = load_frame(b"e")


class Sent(Copying):
    def test_a_load(self) -> None:
        self.copier().run()
        self.assertEqual(
            self.filter.loaded.hex(" "),
            b"".join(
                (table_frame(STOCK), text_frame(*self.server.lines), END, point_frame(POINT))
            ).hex(" "),
        )
        self.assertEqual((self.filter.words, self.filter.sent), (("--load",), b""))
        self.assertEqual(
            (self.progress.copy.rows, self.progress.copy.total_rows, self.progress.copy.table),
            (2, 3, None),
        )
        self.assertEqual(self.checkpoint.known.phase, COPIED)
        self.assertEqual(self.checkpoint.known.position, POINT)
        self.assertTrue(os.path.exists(self.store))
        self.assertEqual(self.server.opened, self.server.closed)
        # (the filter that has loaded the rows follows)
        self.assertTrue(self.filter.runs)

    def test_parts(self) -> None:
        """A part ends with the block that fills it."""
        self.patch(table_reader, "PART", 15)
        self.patch(table_reader, "BLOCK", 1)
        self.server.lines = [b"%d\t0\n" % number for number in range(5)]
        sent = list[tuple[bool, int, bool]]()
        real = Sender.send_part

        def send_part(sender: Sender, part: table_reader.Part) -> None:
            sent.append((part.is_first, part.rows, part.is_last))
            real(sender, part)

        self.patch(Sender, "send_part", send_part)
        self.copier().run()
        self.assertEqual(sent, [(True, 4, False), (False, 1, True)])
        wanted = [table_frame(STOCK), *map(text_frame, self.server.lines), END, point_frame(POINT)]
        self.assertEqual(self.filter.loaded.hex(" "), b"".join(wanted).hex(" "))

    def test_what_takes_the_rows_beside_says_what_the_filter_is_told(self) -> None:
        self.beside = Several((), lambda: None, lambda: ("--feed", "f"))
        self.copier().run()
        self.assertEqual(self.filter.words, ("--load", "--feed", "f"))

    def test_a_filter_that_is_to_stop_by_what_it_watches_is_started_again(self) -> None:
        """It watches from its start, and a load is no session."""
        copier = self.copier()
        self.filter.stops = True
        copier.run()
        self.assertEqual((self.filter.ended, self.checkpoint.known.phase), (True, COPIED))

    def test_a_base_that_failed_is_made_from_the_store(self) -> None:
        """So the load ends before its point, and what follows it begins later."""
        self.patch(RowsBeside, "is_ready", lambda *_: False)
        self.copier().run()
        self.assertEqual(
            (self.filter.words, self.filter.sent.hex(" ")),
            ((), (frame(1, begin(1)) + frame(1, commit(1, POINT))).hex(" ")),
        )
        self.assertEqual((self.checkpoint.known.phase, self.filter.ended), (COPIED, True))

    def test_how_far_it_is(self) -> None:
        self.patch(log, "WRITTEN", -1.0)
        self.copier().run()
        self.assertIn("copying public.stock: 2 of 3 rows, 0 a second", self.said)

    def test_an_empty_table(self) -> None:
        self.server.lines = []
        self.copier().run()
        self.assertEqual(self.filter.loaded, table_frame(STOCK) + END + point_frame(POINT))

    def test_no_table(self) -> None:
        self.tables = []
        self.copier().run()
        self.assertEqual(self.filter.loaded, point_frame(POINT))
        self.assertEqual(self.server.told("LOCK TABLE"), [])

    def test_mode(self) -> None:
        os.umask(os.umask(0o022))
        self.copier(mode=0o640).run()
        self.assertEqual(os.stat(self.store).st_mode & 0o777, 0o640)


class Linked(Copying):
    """A link has the store's name."""

    def setUp(self) -> None:
        super().setUp()
        self.far = os.path.join(self.folder, "far")
        os.mkdir(self.far)
        os.symlink("far/shop.db", self.store)
        real = FakeFilter.launch

        def launch(fake: FakeFilter, *more: str) -> None:
            with open(fake.path + "-wal", "ab"):
                real(fake, *more)

        self.patch(FakeFilter, "launch", launch)

    def test_the_file_is_where_it_leads(self) -> None:
        """So is the program's log; the connector has its own ones beside the link."""
        self.copier().run()
        self.assertEqual(
            (os.readlink(self.store), sorted(os.listdir(self.far))),
            ("far/shop.db", ["shop.db", "shop.db-wal"]),
        )
        self.assertEqual(
            sorted(os.listdir(self.folder)),
            ["copy.db", "copy.db.connector", "copy.db.tables", "far"],
        )

    def test_the_log_of_a_store_that_is_gone(self) -> None:
        with open(self.far + "/shop.db-wal", "wb"):
            pass
        with self.assertRaisesRegex(Unfit, "far/shop.db-wal is the log of a store that is gone"):
            self.copier().run()

    def test_rows_that_come_by_another_name_stay(self) -> None:
        """As where the file's own name is a store, too, or another link's."""
        path = meant(self.store)
        with contextlib.closing(sqlite3.connect(path)) as base:
            base.execute("BEGIN EXCLUSIVE")
            with self.assertRaisesRegex(Passing, "far/shop.db: another program has it open"):
                self.copier().run()
        self.assertEqual((os.path.exists(path), self.server.commands), (True, []))


class Order(Copying):
    def test_checks_publication_slots_locks_rows(self) -> None:
        self.copier().run()
        parts = [
            "pg_settings",
            "CREATE PUBLICATION",
            "COMMIT",
            "CREATE_REPLICATION_SLOT",
            "BEGIN ISOLATION LEVEL REPEATABLE READ READ ONLY",
            "SET TRANSACTION SNAPSHOT 'snap''1'",
            "pg_export_snapshot",
            "pg_copy_logical_replication_slot",
            "DROP_REPLICATION_SLOT",
            "LOCK TABLE",
            "COPY (SELECT",
        ]
        order = [self.server.index(part) for part in parts]
        self.assertEqual(order, sorted(order))
        self.assertEqual(self.made(), {"pgsub": 777})
        self.assertEqual(
            self.server.told("DROP"),
            ['DROP_REPLICATION_SLOT "' + self.server.told("CREATE_REPL")[0].split('"')[1] + '"'],
        )

    def test_a_table_that_is_altered_beside_the_slot_is_added_by_itself(self) -> None:
        other = Table(
            16385,
            "public",
            "stock",
            "r",
            Shape("d", (*STOCK.columns, Column("more", 23, -1, False, 3))),
        )
        for after in ([other], [STOCK, Table(16390, "public", "new", "r", Shape("d", ()))]):
            left = [[STOCK], after, after]
            self.setUp()
            self.patch(tables_module, "published_tables", lambda *_, left=left: left.pop(0))
            self.copier().run()
            self.assertEqual(list(self.later()), [after[-1].oid])
            self.assertEqual(self.progress.copy.rows, 2 if len(after) > 1 else 0)

    def test_altered_tables(self) -> None:
        one, two = a_table(1, "one"), a_table(2, "two", kind="p")
        leaf = Partition(3, 2, "two_1", True)
        before = a_catalog(one, two, partitions=[Partition(2, 0, "two", False), leaf])
        cases: list[tuple[Sequence[Table], list[Partition], list[int]]] = [
            ((one, two), [leaf], []),
            ((a_table(1, "other"), two), [leaf], [1]),
            ((one,), [leaf], []),
            ((one, two, a_table(9, "new")), [leaf], []),
            ((one, two), [], [2]),
            ((one, two), [leaf, Partition(4, 2, "two_2", True)], [2]),
            ((one, two), [Partition(3, 2, "two_1", True, node=5)], [2]),
        ]
        for tables, partitions, wanted in cases:
            after = a_catalog(*tables, partitions=[Partition(2, 0, "two", False), *partitions])
            self.assertEqual(altered_tables(before, after), wanted)

    def test_what_is_gone_before_the_first_row_is_added_by_itself(self) -> None:
        for sqlstate in ("42P01", "42703", "42704"):
            with self.subTest(sqlstate):
                self.setUp()
                self.server.answer("LOCK TABLE", ServerError("gone", sqlstate))
                self.copier().run()
                self.assertEqual(self.later(), {16385: ""})
                self.assertEqual(
                    (self.server.told("COPY ("), self.checkpoint.known.phase), ([], COPIED)
                )

    def test_what_is_gone_in_the_midst_of_rows_is_lasting(self) -> None:
        self.server.answer("COPY (", ServerError("gone", "42P01"))
        with self.assertRaisesRegex(ServerError, "gone"):
            self.copier().run()

    def test_names_are_compared_under_the_lock(self) -> None:
        """As where tables changed their names between the snapshot and the lock. It takes no lock
        to see that."""
        self.names[0] = ["16385", "public", "stock_old"]
        self.copier().run()
        self.assertEqual((self.later(), self.server.told("COPY (")), ({16385: ""}, []))
        self.assertLess(
            self.server.index("LOCK TABLE"),
            self.server.index("SELECT c.oid, n.nspname, c.relname FROM"),
        )

    def test_columns_are_compared_under_the_lock(self) -> None:
        """As where two columns changed their names."""
        self.columns[:2] = [["16385", "2", "id", "23", "-1"], ["16385", "1", "n", "23", "-1"]]
        self.copier().run()
        self.assertEqual((self.later(), self.server.told("COPY (")), ({16385: ""}, []))

    def test_files_are_compared_under_the_lock(self) -> None:
        """As where a table was truncated: an older snapshot finds it empty."""
        files = iter(range(1, 1000))
        self.server.answer("pg_relation_filenode", lambda _: [["16385", str(next(files))]])
        self.copier().run()
        self.assertEqual((self.later(), self.server.told("COPY (")), ({16385: ""}, []))

    def test_a_table_that_goes_meanwhile_is_forgotten(self) -> None:
        """Nothing of it was stored, so nothing is wrong."""
        self.patch(tables_module, "read_catalog", lambda *_: a_catalog(a_table(16385, "stock")))

        def lock(_: str) -> list[Row]:
            self.tables = []
            raise ServerError("gone", "42P01")

        self.server.answer("LOCK TABLE", lock)
        self.copier().run()
        remembered = Remembered(self.store)
        self.assertEqual(
            (
                self.later(),
                remembered.found,
                remembered.sent,
                remembered.catalog and remembered.catalog.tables,
            ),
            ({}, {}, {}, {}),
        )
        self.assertEqual(remembered.look(a_catalog()), [])
        self.assertEqual(remembered.found, {})

    def test_a_table_that_is_published_beside_the_slot_is_named(self) -> None:
        """What is told of it says its name."""
        self.patch(tables_module, "read_catalog", lambda *_: a_catalog(a_table(16385, "stock")))
        both = [STOCK, dataclasses.replace(STOCK, oid=16395, name="more")]
        looks = iter([[STOCK], both, both])
        self.patch(tables_module, "published_tables", lambda *_: next(looks))
        self.copier().run()
        remembered = Remembered(self.store)
        text = (
            "table public.more (16395) isn't copied yet: it was published while the slot was made"
        )
        self.assertEqual((self.later(), remembered.found_of(16395)), ({16395: ""}, [text]))

    def test_a_table_that_others_keep_locked_is_added_by_itself(self) -> None:
        self.patch(table_reader, "PATIENCE", 0.02)
        self.server.answer("LOCK TABLE", ServerError("could not obtain lock", "55P03"))
        self.copier().run()
        self.assertEqual((self.later(), self.server.told("COPY (")), ({16385: ""}, []))

    def test_failover(self) -> None:
        self.server.server_version = 170000
        self.copier(failover=True).run()
        self.assertEqual(
            self.server.told("ALTER_REPLICATION_SLOT"),
            ['ALTER_REPLICATION_SLOT "pgsub" (FAILOVER true)'],
        )
        self.assertLess(
            self.server.index("pg_copy_logical"), self.server.index("ALTER_REPLICATION_SLOT")
        )

    def test_failover_that_is_set_already(self) -> None:
        self.server.server_version = 170000
        self.server.answer("SELECT s.failover", [["t"]])
        self.copier(failover=True).run()
        self.assertEqual(self.server.told("ALTER_REPLICATION_SLOT"), [])

    def test_failover_before_17_makes_nothing(self) -> None:
        with self.assertRaises(UsageError):
            self.copier(failover=True).run()
        self.assertEqual(
            self.server.told("CREATE PUBLICATION") + self.server.told("CREATE_REPLICATION_SLOT"), []
        )

    def test_nothing_is_made_without_the_right_to_read(self) -> None:
        self.server.answer("has_any_column_privilege", [["public.stock", "f", "t", "t", "f", "t"]])
        with self.assertRaisesRegex(ServerError, "needs SELECT on all of it: public.stock"):
            self.copier().run()
        self.assertEqual(
            self.server.told("COMMIT") + self.server.told("CREATE_REPLICATION_SLOT"), []
        )

    def test_nothing_is_made_without_wal_level(self) -> None:
        self.server.answer(
            "pg_settings", [["wal_level", "replica"], ["max_replication_slots", "10"]]
        )
        with self.assertRaisesRegex(ServerError, "wal_level"):
            self.copier().run()
        self.assertEqual(
            self.server.told("CREATE PUBLICATION") + self.server.told("CREATE_REPLICATION_SLOT"), []
        )


class Ends(Copying):
    """What ends the copy, and what becomes of the publication that was made for it."""

    def failing(
        self, error: Exception, kind: type[Exception], part: str = "COPY (", attempts: int = 1
    ) -> Exception:
        def fail(_: str) -> list[Row]:
            raise error

        return self.failing_by(fail, kind, part, attempts)

    def failing_by(
        self, fail: Callable[[str], list[Row]], kind: type[Exception], part: str, attempts: int = 1
    ) -> Exception:
        self.server.answer(part, fail)
        with self.assertRaises(kind) as raised:
            self.copier().run()
        self.assertEqual(len(self.server.told(part)), attempts)
        self.assertEqual(len(self.server.told('DROP PUBLICATION "pgsub"')), 1)
        self.assertEqual(self.server.opened, self.server.closed)
        return raised.exception

    def test_lasting(self) -> None:
        self.failing(ServerError("denied", "42501"), ServerError)

    def test_five_attempts_of_one_cause(self) -> None:
        error = self.failing(ServerError("bad bytes", "22021"), ServerError, attempts=5)
        self.assertTrue(cast(ServerError, error).is_lasting())
        self.assertEqual(self.slept, [1.0, 2.0, 4.0, 8.0])

    def test_locks(self) -> None:
        self.assertIn(
            "max_locks_per_transaction",
            str(
                self.failing(ServerError("out of shared memory", "53200"), ServerError, attempts=5)
            ),
        )

    def test_ten_attempts_of_a_passing_cause(self) -> None:
        for sqlstate in ("", "57P01", "53300"):
            with self.subTest(sqlstate):
                self.setUp()
                self.failing(ServerError("lost", sqlstate), Passing, attempts=10)

    def test_publications_that_change_at_each_attempt(self) -> None:
        numbers = iter(range(1000))
        self.patch(
            tables_module,
            "read_catalog",
            lambda *_: a_catalog(publication=dataclasses.replace(PGSUB, oid=next(numbers))),
        )
        with self.assertRaisesRegex(Passing, f"{CHANGED}; 20 attempts to copy"):
            self.copier().run()
        self.assertEqual((len(self.slept), set(self.slept)), (19, {1.0}))
        self.assertEqual(
            (self.server.told("COPY ("), len(self.server.told('DROP PUBLICATION "pgsub"'))), ([], 1)
        )

    def test_signal(self) -> None:
        self.failing(Stopped(), Stopped)

    def test_signal_while_the_slot_waits(self) -> None:
        self.failing(Stopped(), Stopped, "CREATE_REPLICATION_SLOT")

    def test_a_bug(self) -> None:
        self.failing(ZeroDivisionError(), ZeroDivisionError)

    def test_a_server_that_was_never_there(self) -> None:
        def connect(*_: object, **__: object) -> object:
            raise ServerError("no route")

        self.patch(session, "Connection", connect)
        with self.assertRaises(Passing):
            self.copier().run()

    def test_a_slot_that_may_be_there(self) -> None:
        """It is looked for, and dropped; but not one that was moved since."""
        for at, dropped in ((POINT, 1), (POINT + 8, 0), (0, 0)):

            def fail(_: str, at: int = at) -> list[Row]:
                self.slots = [["pgoutput", "t", "f", str(at)]] if at else []
                raise Stopped

            with self.subTest(at=at):
                self.setUp()
                self.failing_by(fail, Stopped, "pg_copy_logical_replication_slot")
                self.assertEqual(len(self.server.told("pg_drop_replication_slot")), dropped)

    def test_a_slot_that_is_rejected(self) -> None:
        """The slot isn't there, so the publication isn't needed."""
        self.failing(
            ServerError("all replication slots are in use", "53400"),
            ServerError,
            "pg_copy_logical_replication_slot",
            attempts=5,
        )

    def test_a_snapshot_that_is_gone(self) -> None:
        self.failing(
            ServerError("invalid snapshot identifier", "22023"),
            Passing,
            "SET TRANSACTION SNAPSHOT",
            attempts=10,
        )

    def test_a_filter_that_rejects(self) -> None:
        copier = self.copier()
        self.filter.fails = [FilterEnded(1, "order 1 X")]
        with self.assertRaises(FilterEnded):
            copier.run()
        self.assertEqual(len(self.server.told('DROP PUBLICATION "pgsub"')), 1)

    def test_a_filter_that_was_killed(self) -> None:
        copier = self.copier()
        self.filter.fails = [FilterEnded(-9, "")] * 3
        copier.run()
        self.assertEqual(self.slept, [1.0, 2.0, 4.0])

    def test_a_filter_that_was_killed_at_each_attempt(self) -> None:
        copier = self.copier()
        self.filter.fails = [FilterEnded(-9, "")] * 10
        with self.assertRaises(Passing):
            copier.run()

    def test_the_replication_connection_is_lost(self) -> None:
        copier = self.copier()
        self.patch(FakeFilter, "serve", lambda _, timeout, reads=(): (list(reads), [], []))
        with self.assertRaises(Passing):
            copier.run()
        self.assertEqual(len(self.server.told("pg_export_snapshot")), 10)
        self.assertEqual(self.progress.copy.rows, 0)

    def test_a_slot_that_is_lost_while_rows_come(self) -> None:
        """Nothing can follow on the copy, so it ends at once, and the next start copies anew."""
        self.patch(copy_slot, "LOOK", 0.0)
        self.server.answer(
            "SELECT s.wal_status",
            lambda _: [["lost" if self.server.told("COPY (") else "reserved"]],
        )
        self.server.answer("COPY (", [])
        with self.assertRaisesRegex(
            ServerError, "the slot pgsub is lost: .*max_slot_wal_keep_size"
        ) as raised:
            self.copier().run()
        self.assertTrue(raised.exception.is_lasting())
        self.assertEqual((self.slots, self.checkpoint.known.phase), ([], checkpoint_lines.COPYING))
        self.assertEqual(
            (len(self.server.told('DROP PUBLICATION "pgsub"')), self.server.opened),
            (1, self.server.closed),
        )

    def test_a_slot_is_kept_from_being_idle(self) -> None:
        """From 18 on a server may end it because of that."""
        for version, told in ((170000, False), (180000, True)):
            with self.subTest(version):
                self.setUp()
                self.server.server_version = version
                self.patch(copy_slot, "LOOK", 0.0)
                self.server.answer("SELECT s.wal_status", [["reserved"]])
                self.server.answer(
                    "ALTER_REPLICATION_SLOT", ServerError("it is active for PID 7", "55006")
                )
                self.copier().run()
                self.assertEqual(
                    set(self.server.told("ALTER_REPL")),
                    {'ALTER_REPLICATION_SLOT "pgsub" (FAILOVER false)'} if told else set(),
                )

    def test_a_slot_is_looked_at_while_a_filter_stores_the_last_rows(self) -> None:
        self.server.server_version = 180000
        self.patch(copy_slot, "LOOK", 0.0)
        self.server.answer("SELECT s.wal_status", [["reserved"]])
        looks, real = list[int](), FakeFilter.has_opened

        def slow(fake: FakeFilter) -> bool:
            looks.append(len(self.server.told("ALTER_REPL")))
            return len(looks) > 3 and real(fake)

        self.patch(FakeFilter, "has_opened", slow)
        self.copier().run()
        self.assertEqual([it - looks[0] for it in looks], [0, 1, 2, 3])

    def test_how_often_depends_on_when_it_is_ended(self) -> None:
        for said, often, warned in (
            (None, copy_slot.LOOK, False),
            ("0", copy_slot.LOOK, False),
            ("86400", copy_slot.LOOK, False),
            ("30", 10.0, False),
            ("3", 1.0, True),
        ):
            with self.subTest(said):
                self.setUp()
                self.server.server_version = 170000 if said is None else 180000
                self.server.answer("idle_replication_slot_timeout')::", [[said]])
                copier = self.copier()
                copier.run()
                self.assertEqual(copier.slot.look_each, often)
                self.assertEqual(
                    any("any pause may lose the slot" in it for it in self.said), warned
                )

    def test_a_slot_is_looked_at_now_and_then(self) -> None:
        self.server.answer("SELECT s.wal_status", [["reserved"]])
        self.copier().run()
        self.assertEqual(self.server.told("SELECT s.wal_status"), [])
        self.setUp()
        self.patch(copy_slot, "LOOK", 0.0)
        self.server.answer("SELECT s.wal_status", [["extended"]])
        self.copier().run()
        self.assertLess(
            self.server.index("pg_copy_logical_replication_slot"),
            self.server.index("SELECT s.wal_status"),
        )
        self.assertEqual(self.checkpoint.known.phase, COPIED)

    def test_the_next_start_goes_on_once_that_is_told(self) -> None:
        """Also one after a kill just behind the slot."""
        told = list[tuple[str, int]]()

        def note() -> None:
            made = self.server.told("pg_copy_logical_replication_slot")
            told.append((self.checkpoint.known.phase, len(made)))

        self.beside = Several((RowsBeside(),), note)
        self.copier().run()
        self.assertEqual(told, [(checkpoint_lines.COPYING, 0)])
        self.assertEqual(len(self.server.told("pg_copy_logical_replication_slot")), 1)

    def test_a_slot_that_is_there(self) -> None:
        self.slots = [["pgoutput", "t", "f", "5"]]
        with self.assertRaisesRegex(Unfit, "the slot pgsub is there already"):
            self.copier().run()
        self.assertEqual(
            self.server.told("CREATE PUBLICATION") + self.server.told("CREATE_REPLICATION_SLOT"), []
        )

    def test_the_log_of_a_store_that_is_gone(self) -> None:
        with open(self.store + "-wal", "wb"):
            pass
        with self.assertRaisesRegex(Unfit, "is the log of a store that is gone"):
            self.copier().run()

    def test_a_copy_that_was_complete(self) -> None:
        """Cut off before the slot was made one that standbys get."""
        copier = self.copier(failover=True)
        self.slots = [["pgoutput", "t", "f", str(POINT)]]
        self.checkpoint.write(
            True, phase=COPIED, system="77", slot="pgsub", confirmed=POINT, position=POINT
        )
        self.patch(FakeFilter, "start", lambda *_: POINT)
        with open(self.store, "wb"):
            pass
        self.remembered.begin(Catalog(("pgsub", "pgsub_inserts"), 0, 0, {}, {}, {}, {}))
        copier.run()
        self.assertTrue(os.path.exists(self.store))
        self.assertEqual(len(self.server.told("ALTER_REPLICATION_SLOT")), 1)
        self.assertEqual(copier.subscription.publications, ["pgsub", "pgsub_inserts"])


OTHER = Table(
    16390,
    "public",
    "other",
    "r",
    Shape("d", (Column("id", 23, -1, True, 1), Column("n", 23, -1, False, 2))),
)


class Kept(Copying):
    """Two tables, of which one is stored whole when the copy is cut."""

    def setUp(self) -> None:
        super().setUp()
        self.tables = [STOCK, OTHER]
        self.position = 0
        self.names.append(["16390", "public", "other"])
        self.columns += [["16390", "1", "id", "23", "-1"], ["16390", "2", "n", "23", "-1"]]
        self.server.answer("pg_relation_filenode", [["16385", "1"], ["16390", "2"]])
        # how many rows of each table the store has
        self.stored = collections.Counter({STOCK.oid: 2, OTHER.oid: 1})
        self.patch(interrupted, "counted_rows", lambda *_: self.stored)
        real = FakeFilter.start

        def start(fake: FakeFilter, check: Callable[[], None]) -> int:
            real(fake, check)
            return self.position

        self.patch(FakeFilter, "start", start)

    def breaks(self, error: BaseException) -> None:
        """Makes the COPY of a table fail, once the parts before it were taken, for the first
        time."""
        left: list[BaseException] = [error]

        def copied(_: str) -> list[Row]:
            if left:
                until = time.monotonic() + 60
                while not Remembered(self.store).copied and time.monotonic() < until:
                    time.sleep(0.001)
                raise left.pop()
            return []

        self.server.answer('FROM ONLY "public"."other"', copied)

    def cut(self) -> None:
        """Is ended within the second table."""
        self.breaks(Stopped())
        with self.assertRaises(Stopped):
            self.copier(jobs=1).run()
        self.assertEqual(
            (self.checkpoint.known.phase, Remembered(self.store).copied),
            (SLOT, {16385: 2}),
        )
        self.assertEqual((self.server.told("DROP PUB"), len(self.slots)), ([], 1))
        os.close(self.checkpoint.file)
        self.patch(os, "close", lambda number: None)
        self.server.commands.clear()

    def test_tables_that_are_whole_follow_and_others_are_added(self) -> None:
        self.cut()
        self.position = 2
        self.copier().run()
        self.assertEqual(self.filter.sent, frame(2, begin(2)) + frame(2, commit(2, POINT)))
        self.assertEqual((self.later(), self.checkpoint.known.phase), ({16390: ""}, COPIED))
        self.assertEqual(
            (self.server.told("COPY ("), self.server.told("CREATE"), self.made()),
            ([], [], {"pgsub": 777}),
        )
        self.assertTrue(os.path.exists(self.store))
        self.assertEqual(Remembered(self.store).copied, {})

    def test_a_table_that_was_published_meanwhile(self) -> None:
        """What is told of it says its name, and goes once the table is added."""
        self.patch(
            tables_module,
            "read_catalog",
            lambda *_: a_catalog(a_table(16385, "stock"), a_table(16390, "other")),
        )
        self.cut()
        self.position = 2
        self.tables.append(dataclasses.replace(OTHER, oid=16395, name="more"))
        self.copier().run()
        remembered = Remembered(self.store)
        self.assertEqual(remembered.wanted, {16390: "", 16395: ""})
        self.assertEqual(
            remembered.found_of(16395),
            ["table public.more (16395) isn't copied yet: its copy was interrupted"],
        )
        for oid in (16390, 16395):
            self.assertEqual(len(remembered.found_of(oid)), 1)
            remembered.added(oid, remembered.found_of(oid))
        self.assertEqual(remembered.found, {})

    def test_a_table_that_leaves_while_the_slot_is_made(self) -> None:
        """It isn't copied, and not remembered."""
        self.patch(
            tables_module,
            "read_catalog",
            lambda *_: a_catalog(a_table(16385, "stock"), a_table(16390, "other")),
        )
        looks = iter([[STOCK, OTHER], [STOCK]])
        self.patch(tables_module, "published_tables", lambda *_: next(looks, [STOCK]))
        self.copier().run()
        remembered = Remembered(self.store)
        self.assertEqual(remembered.catalog and list(remembered.catalog.tables), [16385])
        self.assertEqual(
            (list(remembered.sent), self.progress.copy.tables, len(self.server.told("COPY ("))),
            ([16385], 1, 1),
        )
        self.assertIn(
            "public.other was dropped, or left the publication, while the slot was made",
            " ".join(self.said),
        )

    def test_so_it_is_within_one_run(self) -> None:
        self.breaks(ServerError("lost", "57P01"))
        self.position = 2
        self.copier(jobs=1).run()
        self.assertTrue(self.filter.sent.endswith(frame(2, begin(2)) + frame(2, commit(2, POINT))))
        self.assertIn("warning: lost: the copy goes on", self.said)
        self.assertEqual(self.later(), {16390: ""})

    def test_it_begins_anew_where_nothing_is_stored_whole(self) -> None:
        self.cut()
        self.position, self.stored[STOCK.oid] = 1, 1

        def dropped(_: str) -> list[Row]:
            self.position = 0
            return self.slot_dropped(_)

        self.server.answer('DROP_REPLICATION_SLOT "pgsub"', dropped)
        self.copier(jobs=1).run()
        self.assertEqual(
            (self.progress.copy.rows, self.progress.copy.tables, self.later()), (4, 2, {})
        )
        self.assertEqual(len(self.server.told("pg_copy_logical_replication_slot")), 1)

    def is_begun_anew(self, size: int, most: int | None = 1000) -> bool:
        """Whether the copy begins anew where the other table has so many bytes, and so many may be
        buffered."""
        self.cut()
        self.position = 2
        self.server.answer("pg_table_size", [["16390", str(size)]])
        with mock.patch.object(Copier, "copy_anew") as fresh:
            self.copier(max_buffered=most).run()
        self.assertEqual(len(self.slots), 0 if fresh.called else 1)
        return bool(fresh.called)

    def test_it_begins_anew_where_a_table_is_too_large_to_be_added(self) -> None:
        self.assertTrue(self.is_begun_anew(501))

    def test_it_goes_on_where_a_table_can_be_added(self) -> None:
        self.assertFalse(self.is_begun_anew(500))

    def test_it_goes_on_with_a_table_of_any_size(self) -> None:
        self.assertFalse(self.is_begun_anew(1 << 50, None))
        self.assertEqual(self.later(), {16390: ""})

    def test_all_rows_are_stored_and_it_is_not_noted(self) -> None:
        self.cut()
        self.position = POINT
        self.copier().run()
        self.assertEqual((self.filter.sent, self.checkpoint.known.phase), (b"", COPIED))

    def test_it_begins_anew_where_the_slot_is_lost(self) -> None:
        self.cut()
        self.position = 2
        self.server.answer(
            "SELECT s.wal_status", lambda _: [["lost" if self.slots else "reserved"]]
        )
        with mock.patch.object(Copier, "copy_anew") as fresh:
            self.copier().run()
        self.assertEqual((fresh.called, self.slots), (True, []))

    def test_a_slot_that_was_moved_is_left_alone(self) -> None:
        self.cut()
        self.slots = [["pgoutput", "t", "f", str(POINT + 8)]]
        with self.assertRaisesRegex(Unfit, "is there already"):
            self.copier().run()
        self.assertEqual((self.server.told("DROP"), len(self.slots)), ([], 1))

    def test_what_lasts_leaves_no_slot(self) -> None:
        self.breaks(ServerError("denied", "42501"))
        with self.assertRaisesRegex(ServerError, "denied"):
            self.copier(jobs=1).run()
        self.assertEqual((self.slots, len(self.server.told('DROP PUBLICATION "pgsub"'))), ([], 1))

    def test_several_connections(self) -> None:
        """One table after the other, however they are read."""
        for small in (0, 1 << 20):
            with self.subTest(small):
                self.setUp()
                self.patch(table_reader, "SMALL", small)
                self.server.answer("pg_table_size", [["16390", "700"], ["16385", "700"]])
                self.check_several()

    def check_several(self) -> None:
        self.patch(table_reader, "PART", 300)
        self.patch(table_reader, "BLOCK", 1)
        self.server.lines = [b"%d\t%d\n" % (it, it * it) for it in range(200)]
        self.copier(jobs=2).run()
        self.assertGreater(self.server.opened, 4)
        text = b"".join(map(text_frame, self.server.lines))
        one, two = (table_frame(it) + text + END for it in (STOCK, OTHER))
        self.assertIn(
            self.filter.loaded, [one + two + point_frame(POINT), two + one + point_frame(POINT)]
        )
        self.assertEqual((self.progress.copy.tables, self.server.opened), (2, self.server.closed))

    def test_a_file_of_another_copy(self) -> None:
        """Somebody has put it there: it isn't taken for what was interrupted, nor removed."""
        self.cut()
        self.check_other()

    def test_a_file_of_another_copy_without_a_slot(self) -> None:
        self.cut()
        self.slots = []
        self.check_other()

    def check_other(self) -> None:
        self.position = POINT + 8
        self.patch(interrupted, "position_in", lambda _: POINT + 8)
        with self.assertRaisesRegex(Unfit, "is at 0/1000030, and no part of the copy"):
            self.copier().run()
        self.assertTrue(os.path.exists(self.store))

    def test_one_that_is_complete_and_has_lost_its_slot_goes(self) -> None:
        self.cut()
        self.slots = []
        self.patch(interrupted, "position_in", lambda _: POINT)
        self.copier().run()
        self.assertEqual((self.progress.copy.rows, self.checkpoint.known.phase), (4, COPIED))


class Left(Copying):
    """A publication that a run has left which was killed."""

    def killed(self, **options: Any) -> None:
        """Is killed while it copies."""
        copier = self.copier(**options)
        self.server.answer("COPY (", ServerError("", "42000"))
        self.patch(copier, "give_up", lambda _: None)
        with self.assertRaises(ServerError):
            copier.run()
        os.close(self.checkpoint.file)
        self.patch(os, "close", lambda number: None)
        self.server.answers.pop(0)
        self.server.commands.clear()
        self.server.answer("SELECT p.oid FROM pg_catalog.pg_publication p", lambda _: self.oids())

    def oids(self) -> list[Row]:
        """That of the publication now."""
        if self.server.told("CREATE PUBLICATION"):
            return [["778"]]
        return [] if self.server.told("DROP PUBLICATION") else [["777"]]

    def test_its_oid_is_on_the_disk_before_it_is_there(self) -> None:
        made: list[dict[str, int]] = []

        def commit(_: str) -> list[Row]:
            made.append(self.made())
            raise Stopped

        self.server.answer("COMMIT", commit)
        with self.assertRaises(Stopped):
            self.copier().run()
        self.assertEqual(made[0], {"pgsub": 777})

    def test_it_is_made_anew(self) -> None:
        self.killed()
        self.assertEqual(self.made(), {"pgsub": 777})
        self.copier().run()
        self.assertLess(
            self.server.index('DROP PUBLICATION "pgsub"'),
            self.server.index('CREATE PUBLICATION "pgsub"'),
        )
        self.assertEqual(self.made(), {"pgsub": 778})

    def test_it_goes_where_no_copy_comes_of_it(self) -> None:
        self.killed()
        self.server.answer("COPY (", ServerError("denied", "42501"))
        self.server.answer("SELECT p.pubname FROM", lambda it: [["pgsub"]] if "= 778" in it else [])
        with self.assertRaises(ServerError):
            self.copier().run()
        self.assertEqual(len(self.server.told('DROP PUBLICATION "pgsub"')), 2)

    def test_what_somebody_else_has_made_since_stays(self) -> None:
        self.killed()
        self.server.answer("SELECT p.oid FROM pg_catalog.pg_publication p", [["999"]])
        self.copier().run()
        self.assertEqual(
            self.server.told("DROP PUBLICATION") + self.server.told("CREATE PUBLICATION"), []
        )

    def test_what_somebody_else_may_use_stays(self) -> None:
        self.killed()
        self.server.answer("SELECT s.slot_name FROM", [["other"]])
        self.copier().run()
        self.assertEqual(
            self.server.told("DROP PUBLICATION") + self.server.told("CREATE PUBLICATION"), []
        )


class Counting(unittest.TestCase):
    def test_causes_are_counted_apart(self) -> None:
        tries = Tries()
        for _ in range(4):
            tries.note("22021", ServerError("a", "22021"))
            tries.note("XX001", ServerError("b", "XX001"))
        for _ in range(9):
            tries.note("", ServerError("c"))
        with self.assertRaises(ServerError):
            tries.note("XX001", ServerError("b", "XX001"))
        with self.assertRaises(Passing):
            tries.note("", ServerError("c"))


class Slots(Copying):
    """A slot without rows."""

    def make(self, remembered: Remembered | None = None) -> None:
        told = Subscription(publications=["pgsub"]), Wanted(["pgsub"]), lambda: None
        maker = Maker(*told)
        if remembered:
            maker = Maker(*told, remembered.made, remembered.keep_made)
        create_slot(maker, False, remembered)

    def test_what_is_published_is_remembered(self) -> None:
        remembered = Remembered(self.store)
        self.make(remembered)
        again = Remembered(self.store)
        self.assertEqual((again.made, again.publications()), ({"pgsub": 777}, ["pgsub"]))

    def test_a_slot_goes_where_nothing_comes_of_it(self) -> None:
        self.patch(slots, "read_catalog", mock.Mock(side_effect=Stopped))
        with self.assertRaises(Stopped):
            self.make(Remembered(self.store))
        self.assertEqual(self.server.told("DROP_REPL"), ['DROP_REPLICATION_SLOT "pgsub"'])
        self.assertEqual(len(self.server.told('DROP PUBLICATION "pgsub"')), 1)

    def test_made(self) -> None:
        self.make()
        self.assertLess(
            self.server.index("CREATE PUBLICATION"), self.server.index("CREATE_REPLICATION_SLOT")
        )
        self.assertIn(
            'CREATE_REPLICATION_SLOT "pgsub" LOGICAL pgoutput NOEXPORT_SNAPSHOT',
            self.server.commands,
        )

    def test_rejected(self) -> None:
        self.server.answer(
            "CREATE_REPLICATION_SLOT", ServerError("all replication slots are in use", "53400")
        )
        with self.assertRaises(ServerError):
            self.make()
        self.assertEqual(len(self.server.told('DROP PUBLICATION "pgsub"')), 1)

    def test_a_slot_that_is_older_than_its_publication(self) -> None:
        self.slots = [["pgoutput", "t", "f", "5"]]
        with self.assertRaisesRegex(Unfit, "older than the publication pgsub"):
            self.make()
        self.assertEqual(
            self.server.told("CREATE PUBLICATION") + self.server.told("CREATE_REPLICATION_SLOT"), []
        )

    def test_both_are_there(self) -> None:
        self.slots = [["pgoutput", "t", "f", "5"]]
        self.server.answer("SELECT FROM pg_catalog.pg_publication", [[]])
        self.server.answer("SELECT p.oid FROM pg_catalog.pg_publication p", [["777"]])
        self.make()
        self.assertEqual(
            self.server.told("CREATE PUBLICATION") + self.server.told("CREATE_REPLICATION_SLOT"), []
        )


class Waiting(Quiet):
    """What a slot waits for."""

    def setUp(self) -> None:
        super().setUp()
        self.server = FakeServer()
        self.server.answer("pg_stat_activity", [["5", "app", "shop", "70"], ["6", "x", "y", None]])
        self.server.answer("pg_prepared_xacts", [["gid'1", "app", "other", "700"]])
        patch = mock.patch.object(session, "Connection", self.server.connect)
        patch.start()
        self.addCleanup(patch.stop)

    def test_it_is_told_after_ten_seconds_and_each_minute(self) -> None:
        clock = [100.0]
        with mock.patch("time.monotonic", lambda: clock[0]):
            waits = waits_module.Waiting(Subscription(), lambda: None)
            for now, lines in ((109.9, 0), (110.0, 1), (169.0, 1), (170.1, 2), (200.0, 2)):
                clock[0] = now
                waits.check()
                self.assertEqual(len(self.said), lines, now)
        self.assertEqual(
            self.said[0],
            "the slot waits for the transaction of process 5 (app, database shop) for 70 s; the transaction of process 6"
            " (x, database y); the prepared transaction gid'1 (app, database other) for 700 s",
        )
        self.assertEqual(self.server.opened, self.server.closed)

    def test_locks(self) -> None:
        self.server.answer("pg_blocking_pids(4711)", [["8", "app", "shop", "12"]])
        with mock.patch.object(waits_module, "FIRST", 0):
            waits_module.Waiting(
                Subscription(), lambda: None, partial(waits_module.lock_text, "the copy", 4711)
            ).check()
        self.assertEqual(
            self.said, ["the copy waits for the locks of process 8 (app, database shop) for 12 s"]
        )

    def test_what_takes_long_without_a_lock(self) -> None:
        self.server.answer("pg_blocking_pids(4711)", [])
        with mock.patch.object(waits_module, "FIRST", 0):
            waits_module.Waiting(
                Subscription(), lambda: None, partial(waits_module.lock_text, "the copy", 4711)
            ).check()
        self.assertEqual((self.said, self.server.opened, self.server.closed), ([], 1, 1))

    def test_a_standby(self) -> None:
        self.server.answer("pg_is_in_recovery", [["t"]])
        with mock.patch.object(waits_module, "FIRST", 0):
            waits_module.Waiting(Subscription(), lambda: None).check()
        self.assertIn("pg_log_standby_snapshot()", self.said[0])

    def test_a_signal_is_heard(self) -> None:
        def stop() -> None:
            raise Stopped

        with self.assertRaises(Stopped):
            waits_module.Waiting(Subscription(), stop).check()


if __name__ == "__main__":
    unittest.main()
