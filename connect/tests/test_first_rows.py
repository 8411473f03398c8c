"""Tables of SQLite that are made of the rows of an initial copy while they are read."""

from __future__ import annotations

import contextlib
import dataclasses
import io
import os
import signal
import sqlite3
import stat
import threading
import time
from pathlib import Path
from typing import Any
from unittest import mock

from pgsub_connect.copy import table_reader, tables as tables_module
from pgsub_connect.copy.copier import Copier
from pgsub_connect.copy.rows_beside import RowsBeside
from pgsub_connect.drift.remembered import Remembered
from pgsub_connect.errors import ServerError
from pgsub_connect.follow import first_rows
from pgsub_connect.follow.first_rows import FirstRows
from pgsub_connect.follow.process_beside import Beside, TablesSettings
from pgsub_connect.server.catalog import Table
from pgsub_connect.status.progress import Progress
from pgsub_connect.store import copied_rows
from pgsub_connect.store.checkpoint_lines import COPIED
from pgsub_connect.store.copied_rows import filled
from pgsub_connect.store.row_frames import DONE, TablesWanted, rows_frame
from pgsub_feed.errors import Stopped
from pgsub_feed.interruption import never
from pgsub_feed.relation import Column, Shape
from pgsub_feed.tables.file import Rows
from pgsub_feed.tables.schema import read_position
from pgsub_feed.tables.values import BOTH

from .fake_server import Quiet
from .test_copying import POINT, STOCK, Copying, Kept
from .vectors import a_catalog

KINDS = Table(
    16400,
    "app",
    "kinds",
    "r",
    Shape(
        "f",
        tuple(
            Column(name, oid, -1, True, at)
            for at, (name, oid) in enumerate((("t", 25), ("b", 17), ("f", 701), ("d", 1082)), 1)
        ),
    ),
)
NOTHING = Table(16401, "public", "nothing", "r", Shape("f", ()))
EMPTY = Table(16402, "public", "empty", "r", STOCK.shape)


def named(table: Table) -> str:
    return table.name if table.namespace == "public" else f"{table.namespace}.{table.name}"


class Case(Quiet):
    def setUp(self) -> None:
        super().setUp()
        self.folder = self.make_folder()
        self.store, self.rows = self.folder + "/copy.db", self.folder + "/rows.db"
        self.feed = self.store + ".feed"
        self.remember(STOCK, KINDS, NOTHING, EMPTY)

    def remember(self, *tables: Table) -> None:
        remembered = Remembered(self.store)
        remembered.begin_copy(a_catalog(*tables), POINT)
        remembered.save()

    def read(self, table: Table) -> list[Any]:
        with contextlib.closing(sqlite3.connect(self.rows)) as db:
            return db.execute(f'SELECT * FROM "{named(table)}" ORDER BY 1').fetchall()

    def left(self) -> list[str]:
        return sorted(set(os.listdir(self.folder)) - {"copy.db.tables"})


def frames(table: Table, *lines: bytes) -> bytes:
    return rows_frame(table.oid, len(table.columns), list(lines))


class Filled(Case):
    """What the process does."""

    def fill(self, source: bytes, **more: Any) -> int:
        wanted = TablesWanted(self.rows, self.store, self.feed, BOTH, 0o640, POINT)
        return filled(wanted._replace(**more), io.BytesIO(source), never)

    def test_rows(self) -> None:
        """They are as those of an export, and the file follows the feed."""
        sent = (
            frames(STOCK, b"1\t5\n", b"2\t\\N\n")
            + frames(
                KINDS, "\\tü\\\\\t\\\\x00ff\tNaN\t2026-01-02\n".encode(), b"\\N\t\\N\t-0\t\\N\n"
            )
            + frames(NOTHING, b"\n", b"\n")
            + frames(STOCK, b"-3\t0\n")
        )
        self.assertEqual(self.fill(sent + DONE), 0)
        self.assertEqual(self.read(STOCK), [(-3, 0), (1, 5), (2, None)])
        self.assertEqual(
            self.read(KINDS), [(None, None, -0.0, None), ("\tü\\", b"\0\xff", "NaN", "2026-01-02")]
        )
        self.assertEqual((self.read(NOTHING), self.read(EMPTY)), ([(None,), (None,)], []))
        self.assertEqual(read_position(self.rows), (POINT, self.feed))
        self.assertEqual(stat.S_IMODE(os.stat(self.rows).st_mode), 0o640)
        rows = Rows(self.rows)
        self.assertEqual((rows.at, sorted(rows.kept)), (POINT, [16385, 16400, 16401, 16402]))
        rows.close(True)

    def test_cut(self) -> None:
        """Wherever the rows end before all have come, nothing is left."""
        sent = frames(STOCK, b"1\t5\n", b"2\t\\N\n") + DONE
        for at in range(len(sent)):
            self.assertEqual(self.fill(sent[:at]), 7)
            self.assertEqual(self.left(), [])

    def test_faults(self) -> None:
        """They are told, and leave nothing."""
        for sent, text in (
            (frames(STOCK, b"x\t5\n") + DONE, "has a value that isn't one of its type, 'x'"),
            (
                frames(dataclasses.replace(STOCK, oid=1), b"1\t5\n") + DONE,
                "a row isn't one of its table",
            ),
        ):
            with self.subTest(text):
                self.assertEqual(self.fill(sent), 7)
                self.assertRegex(
                    self.said[-1], f"^warning: {self.rows} can't be made while rows .*{text}"
                )
                self.assertEqual(self.left(), [])
        self.assertEqual(self.fill(DONE, into=self.folder + "/nowhere/rows.db"), 7)

    def test_equal_keys(self) -> None:
        self.assertEqual(self.fill(frames(STOCK, b"1\t5\n", b"1\t6\n") + DONE), 0)
        self.assertEqual(self.read(STOCK), [(1, 5), (1, 6)])


class Process(Case):
    """What starts it, and feeds it."""

    def setUp(self) -> None:
        super().setUp()
        self.lock = os.open(self.store + ".lock", os.O_RDWR | os.O_CREAT)
        self.addCleanup(os.close, self.lock)
        os.unlink(self.store + ".lock")
        self.it = FirstRows(TablesSettings(self.rows, self.feed, self.store), self.lock)
        self.addCleanup(self.it.abandon)

    def begin(self) -> None:
        self.it.begin(POINT)
        self.it.take(STOCK, [b"1\t5\n"])

    def test_to_the_end(self) -> None:
        self.begin()
        self.assertEqual(self.left()[1:], [])
        self.it.take(STOCK, [b"2\t6\n"])
        self.it.end()
        self.it.wait()
        self.assertEqual(self.read(STOCK), [(1, 5), (2, 6)])
        self.assertIn(f"tables: {self.rows} was made with the copy", self.said)
        self.it.abandon()
        self.assertEqual(self.left(), ["rows.db"])

    def test_what_follows_may_alter_tables(self) -> None:
        """The rows are as of the copy, and so are their columns."""
        self.it.begin(POINT)
        self.it.is_ready(never)
        wider = dataclasses.replace(
            STOCK.shape, columns=(*STOCK.shape.columns, Column("x", 23, -1, False))
        )
        self.remember(dataclasses.replace(STOCK, shape=wider))
        self.it.take(STOCK, [b"1\t5\n"])
        self.it.end()
        self.it.wait()
        self.assertEqual(self.read(STOCK), [(1, 5)])

    def test_an_end_that_is_asked_for_waits_for_what_has_come(self) -> None:
        self.begin()
        self.it.end()
        self.it.abandon()
        self.assertEqual(self.left(), ["rows.db"])

    def test_abandoned(self) -> None:
        """At any time: it leaves nothing, and whoever waits for it goes on."""
        self.it.abandon()
        for is_stopped in (False, True):
            self.begin()
            assert self.it.child
            if is_stopped:
                os.kill(self.it.child.pid, signal.SIGSTOP)
            block = [b"%d\t0\n" % it for it in range(100000)]
            writing = threading.Thread(target=self.write, args=(block,))
            writing.start()
            time.sleep(0.3)
            self.it.abandon()
            writing.join(60)
            self.assertFalse(writing.is_alive())
            self.assertEqual(self.left(), [])

    def write(self, block: list[bytes]) -> None:
        for _ in range(20):
            self.it.take(STOCK, block)

    def test_killed(self) -> None:
        """The copy goes on without it, and the tables are made from the store."""
        self.begin()
        assert self.it.child
        until = time.monotonic() + 60
        while not self.left() and time.monotonic() < until:
            time.sleep(0.01)
        self.assertEqual(self.left(), [f"rows.db.pgsub-{self.it.child.pid}"])
        self.it.child.kill()
        self.it.child.wait()
        for _ in range(5):
            self.it.take(STOCK, [b"%d\t0\n" % it for it in range(100000)])
        self.it.end()
        self.it.wait()
        self.assertIn(f"tables: {self.rows} is made from the store", self.said)
        self.it.abandon()
        self.assertEqual(self.left(), [])

    def test_a_follower_that_is_killed(self) -> None:
        """Then the process ends by itself, and has the checkpoint locked until then."""
        self.begin()
        child = self.it.child
        assert child and child.stdin
        # (it may close others meanwhile)
        files = [os.path.realpath(it) for it in Path(f"/proc/{child.pid}/fd").iterdir()]
        self.assertIn(os.path.realpath(f"/proc/self/fd/{self.lock}"), files)
        child.stdin.close()
        self.assertEqual((child.wait(60), self.left()), (7, []))

    def test_no_process_to_be_had(self) -> None:
        with mock.patch("subprocess.Popen", side_effect=BlockingIOError(11, "unavailable")):
            self.begin()
        self.it.end()
        self.it.wait()
        self.assertIn("can't be made while rows are copied: unavailable", self.said[-1])

    def test_what_follows_waits_for_it(self) -> None:
        begun, ended = threading.Event(), threading.Event()

        def wait() -> None:
            begun.set()
            ended.wait(60)

        settings = TablesSettings(self.rows, self.feed, self.store)
        beside = Beside(settings, Progress(), wait=wait)
        with mock.patch.object(Beside, "run_once", return_value=2) as run:
            beside.start()
            begun.wait(60)
            self.assertFalse(run.called)
            ended.set()
            beside.join(60)
            self.assertTrue(run.called)


class Noting(RowsBeside):
    """Notes what it is told."""

    def __init__(self) -> None:
        self.told: list[object] = []

    def begin(self, point: int) -> None:
        self.told.append(point)

    def take(self, table: Table, lines: list[bytes]) -> None:
        self.told.append((table.oid, lines))

    def end(self) -> None:
        self.told.append("end")

    def abandon(self) -> None:
        self.told.append("abandon")


class Told(Copying):
    """What the copier tells it."""

    def setUp(self) -> None:
        super().setUp()
        self.beside = self.noting = Noting()

    def test_all_rows(self) -> None:
        self.copier().run()
        self.assertEqual(self.noting.told, [POINT, (STOCK.oid, self.server.lines), "end"])

    def test_the_end_comes_once_the_store_is_complete(self) -> None:
        phases: list[str] = []
        self.patch(Noting, "end", lambda _: phases.append(self.checkpoint.known.phase))
        self.copier().run()
        self.assertEqual(phases, [COPIED])

    def test_what_ends_the_copy(self) -> None:
        """It is told before the readers are waited for."""
        self.server.answer("COPY (", ServerError("denied", "42501"))
        with self.assertRaises(ServerError):
            self.copier().run()
        self.assertEqual(self.noting.told, [POINT, "abandon", "abandon"])

    def test_begun_anew(self) -> None:
        left = [ServerError("gone", "57P01")]
        self.server.answer("COPY (", lambda _: self.fails(left))
        self.copier().run()
        self.assertEqual(
            [it for it in self.noting.told if not isinstance(it, tuple)],
            [POINT, "abandon", POINT, "end"],
        )

    def fails(self, left: list[ServerError]) -> list[Any]:
        if left:
            raise left.pop()
        return []

    def test_a_table_that_is_gone_by_then(self) -> None:
        """What was made for it isn't in the file."""
        self.patch(tables_module.CopiedTables, "forget_gone", lambda *_: [16390])
        self.copier().run()
        self.assertIn("abandon", self.noting.told)


class GoesOn(Kept):
    """A copy that goes on with what was stored whole."""

    def setUp(self) -> None:
        super().setUp()
        self.beside = self.noting = Noting()

    def test_tables_are_made_from_the_store_then(self) -> None:
        self.cut()
        self.position = 2
        self.noting.told.clear()
        self.copier().run()
        self.assertEqual(self.noting.told, ["end"])


del Copying, Kept
