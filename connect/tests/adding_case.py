"""A follower of a server in small, which adds tables, and a comparison of what its store has in the
end."""

from __future__ import annotations

import collections
import contextlib
import os
import py_compile
import threading
import time
from collections.abc import Callable, Sequence
from pathlib import Path
from typing import Any
from unittest import mock

from pgsub_connect.add import requests, retries
from pgsub_connect.drift.findings import REPEAT, UNWATCHED
from pgsub_connect.drift.remembered import Remembered
from pgsub_connect.follow import drift_watch, filter_life, follower, schedule, session, upkeep
from pgsub_connect.follow.follower import Follower
from pgsub_connect.follow.request_socket import RequestSocket
from pgsub_connect.follow.snapshots import Snapshots
from pgsub_connect.server import libpq
from pgsub_connect.server.session import Subscription
from pgsub_connect.status.progress import Progress
from pgsub_connect.store.checkpoint import Checkpoint, read_known
from pgsub_connect.store.repeats_file import RepeatsFile
from pgsub_connect.store.spool_folder import SpoolFolder
from pgsub_connect.stream import statuses
from pgsub_connect.stream.filter import Filter
from pgsub_feed.texts import lsn_text

from .fake_server import FakeServer, Quiet, Row
from .followed import followed
from .row_filter import Store
from .small_world import (
    World,
    WorldServer,
    WorldSource,
    catalog_table,
    delete,
    insert,
    table,
    update,
)
from .vectors import a_catalog

T, OTHER, THIRD = 16385, 16390, 16395
# How many commits a world begins with.
FIRST = 25


def compiled(path: str) -> str:
    """A script, compiled where that can be kept: at each start of Python it would be again."""
    try:
        return py_compile.compile(path, doraise=True) or path
    except OSError:
        return path


FILTER = compiled(os.path.join(os.path.dirname(os.path.abspath(__file__)), "row_filter.py"))


class Begun:
    """What a run over a world as it begins leaves, which is the same for all tests: the session,
    and the files of the store."""

    sessions: list[tuple[int, str]] = []
    files: dict[str, bytes] = {}

    @classmethod
    def keep(cls, case: Case) -> None:
        cls.sessions = list(case.server.started)
        cls.files = {it.name: it.read_bytes() for it in Path(case.folder).iterdir() if it.is_file()}

    @classmethod
    def put(cls, case: Case) -> None:
        case.server.started += cls.sessions
        case.server.sessions = len(cls.sessions)
        for name, content in cls.files.items():
            file = os.open(f"{case.folder}/{name}", os.O_WRONLY | os.O_CREAT | os.O_EXCL, 0o600)
            with open(file, "wb") as out:
                out.write(content)


class Run:
    """One run of a follower, in a thread."""

    def __init__(self, case: Case, **options: Any) -> None:
        self.raised: BaseException | None = None
        self.checkpoint = Checkpoint(case.store)
        words = ["/usr/bin/python3", "-S", "-E", FILTER, "follow", "--store", case.store]
        sizes: dict[str, Any] = {"max_buffered": 1 << 26, "max_frame": 1 << 24, **options}
        most, spool = sizes["max_buffered"], SpoolFolder(case.store)
        words += [] if most is None else ["--max-buffered", str(most)]
        self.filter = Filter(words, (self.checkpoint.file,), spool=spool)
        subscription = Subscription(publications=["pgsub"])
        self.filter.note_repeats(RepeatsFile(case.store, self.checkpoint, subscription))
        self.progress, self.remembered = Progress(), Remembered(case.store)
        if self.remembered.catalog is None:
            self.remembered.begin_copy(
                a_catalog(*map(catalog_table, case.world.tables.values())), 0
            )
            self.remembered.save()
        self.requests = RequestSocket(case.store)
        self.snapshots = Snapshots(case.store, self.requests, None, 0.0)
        known = self.checkpoint, self.progress, self.remembered
        told = followed(known, case.store, case.server.dsn(), heartbeat=0.2, **sizes)
        self.follower = Follower(*told, self.filter, None, self.snapshots)
        # what the follower's thread calls between payloads
        self.calls: collections.deque[Callable[[], None]] = collections.deque()
        real = self.follower.adder.step

        def step() -> None:
            while self.calls:
                self.calls.popleft()()
            real()

        setattr(self.follower.adder, "step", step)
        self.thread = threading.Thread(target=self.run)
        self.thread.start()
        case.addCleanup(self.end)

    def run(self) -> None:
        try:
            self.follower.run()
        except BaseException as error:
            self.raised = error
        finally:
            self.filter.kill()
            self.requests.close()
            os.close(self.checkpoint.file)

    def ask(self, **asked: object) -> str | None:
        """Has the follower take a request. Returns its answer."""
        answers: list[str | None] = []
        self.calls.append(lambda: answers.append(self.follower.adder.take(asked)))
        assert self.until(lambda: bool(answers))
        return answers[0]

    def end(self) -> None:
        self.follower.ending.stop_asked = True
        self.thread.join(60)

    def until(self, holds: Callable[[], bool], seconds: float = 60.0) -> bool:
        """Waits until something holds. Returns false where the run has ended before."""
        until = time.monotonic() + seconds
        while not holds():
            if not self.thread.is_alive() or time.monotonic() > until:
                return holds()
            time.sleep(0.003)
        return True


class Case(Quiet):
    """A world with three tables, and a store that follows it."""

    def setUp(self) -> None:
        super().setUp()
        self.folder = self.make_folder()
        self.store = self.folder + "/copy.db"
        self.world = World(table(T, "t"), table(OTHER, "other"), table(THIRD, "third"))
        self.brain = FakeServer()
        answers: Sequence[tuple[str, Callable[[str], list[Row]]]] = (
            ("IDENTIFY_SYSTEM", lambda _: [["77", "1", lsn_text(self.world.end), "shop"]]),
            ("pg_is_in_recovery", lambda _: [["f"]]),
            ("pg_postmaster_start_time", lambda _: [["1000"]]),
            ("s.confirmed_flush_lsn", lambda _: [["pgoutput", "t", "f", "0"]]),
            ("SHOW wal_sender_timeout", lambda _: [["1min"]]),
            ("set_config", lambda _: [[""]]),
        )
        for part, rows in answers:
            self.brain.answer(part, rows)
        self.server = WorldServer(self.folder, self.brain, self.world)
        self.addCleanup(self.server.close)
        for where, name, by in (
            (libpq, "TICK", 0.02),
            *((it, "STEP", 0.02) for it in (filter_life, follower, schedule, session, upkeep)),
            (filter_life, "SLEEP", 0.02),
            (follower, "SLEEP", 0.02),
            (schedule, "ASK", 0.02),
            (statuses, "QUIET", 0.05),
            (schedule, "FIRST_DELAY", 0.01),
            (retries, "FIRST_DELAY", 0.02),
            (requests, "Source", WorldSource),
            (drift_watch.Watch, "compare", lambda *_: True),
            (drift_watch.Watch, "look_again", lambda *_: True),
        ):
            self.patch(where, name, by)
        WorldSource.world = self.world
        WorldSource.open = 0
        self.addCleanup(setattr, WorldSource, "hook", staticmethod(lambda name: None))
        self.next = 100
        for key in range(FIRST):
            self.world.commit(insert(T, (key, "a")), insert(OTHER, (key, "b")))

    def patch(self, where: object, name: str, by: object) -> None:
        patch = mock.patch.object(where, name, by)
        patch.start()
        self.addCleanup(patch.stop)

    def change(self) -> None:
        """Changes of all kinds, in one commit and in several."""
        self.next += 1
        it, world = self.next, self.world
        world.commit(
            insert(T, (it, "new")),
            insert(OTHER, (it, "new")),
            update(T, (it - 1, "changed")),
            delete(OTHER, it - 2),
        )
        world.commit(insert(T, (it + 1000, "t alone")))
        world.commit(
            delete(T, it % 25), insert(T, (it % 25, f"{it}")), update(OTHER, (it % 25, f"{it}"))
        )

    def spoil(self) -> None:
        """Makes the rows of a table wrong in the copy, which nobody follows."""
        with contextlib.closing(Store(self.store).base) as base:
            base.execute(
                "UPDATE held SET body = (SELECT body FROM held WHERE oid = ? LIMIT 1) WHERE oid = ?",
                (OTHER, T),
            )
            base.execute(
                "DELETE FROM held WHERE rowid IN (SELECT rowid FROM held WHERE oid = ? LIMIT 5)",
                (T,),
            )

    def is_stored(self, run: Run) -> bool:
        """Whether the copy has all that the world has."""
        return (
            run.filter.is_running()
            and run.filter.status != b""
            and run.filter.confirmed() >= self.world.commits[-1][0]
        )

    def followed(self) -> None:
        """Follows until all is stored, and ends."""
        is_first = not self.server.started and len(self.world.commits) == FIRST
        if is_first and Begun.files:
            Begun.put(self)
            return
        run = Run(self)
        self.assertTrue(run.until(lambda: self.is_stored(run)), (self.said, run.raised))
        run.end()
        self.assertIsNone(run.raised)
        if is_first:
            Begun.keep(self)

    def want(self, *oids: int) -> None:
        Remembered(self.store).want(oids)

    def goes_on(self, **options: Any) -> Run:
        """Follows until all is added and stored, ends, and compares."""
        run = Run(self, **options)
        changed = False

        def is_done() -> bool:
            nonlocal changed
            if not run.checkpoint.known.adding and not run.remembered.wanted and not changed:
                changed = True
                self.change()
            # (a session that has left out changes is followed by one that leaves out none)
            return changed and self.is_stored(run) and not run.follower.life.form.is_whole

        self.assertTrue(
            run.until(is_done), (self.said, run.raised, run.checkpoint.known, run.remembered.wanted)
        )
        run.end()
        self.assertIsNone(run.raised)
        self.compare()
        return run

    def compare(self) -> None:
        with contextlib.closing(Store(self.store).base):
            store = Store(self.store)
            self.assertEqual(store.rows(), self.world.rows())
        self.assertEqual(
            (
                WorldSource.open,
                read_known(self.store + ".connector").adding,
                Remembered(self.store).wanted,
            ),
            (0, {}, {}),
        )
        # (no commit is taken for another one, whatever was left out of it meanwhile)
        self.assertEqual({REPEAT, UNWATCHED} & set(Remembered(self.store).found), set())
