"""What `refresh` and `add` tell, ask, and have done."""

from __future__ import annotations

import contextlib
import dataclasses
import fcntl
import io
import json
import os
import threading
import unittest
from collections.abc import Iterator
from typing import Any
from unittest import mock

from pgsub_connect.commands import add, refresh as refresh_module
from pgsub_connect.commands.refresh import CHANGED, EXTRA, MISSING, OTHER, Told, compared
from pgsub_connect.drift.findings import NOTHING, About
from pgsub_connect.drift.remembered import Remembered
from pgsub_connect.errors import ServerError
from pgsub_connect.follow.request_socket import RequestSocket
from pgsub_connect.follow.snapshots import Snapshots
from pgsub_connect.server import session
from pgsub_connect.server.catalog import Catalog, Part, Partition
from pgsub_connect.store import at_rest, socket_file
from pgsub_connect.store.checkpoint import Checkpoint
from pgsub_feed.errors import FileError, Passing, Stopped, Unfit
from pgsub_feed.interruption import Check, never

from .fake_server import FakeServer, Quiet
from .settled import options_of
from .small_world import table
from .vectors import ID, NAME, PGSUB, a_catalog, a_shape, a_table

ONE, TWO, THREE = a_table(1, "one"), a_table(2, "two"), a_table(3, "three")


class Compared(unittest.TestCase):
    def told(
        self, before: Catalog, now: Catalog, *found: tuple[str, str, About]
    ) -> list[tuple[str, int, int]]:
        """What is told of which table, and in how many words, of two readings and what was found
        before."""
        remembered = Remembered("/nonexistent/s")
        remembered.begin_copy(before, 100)
        for kind, text, about in found:
            remembered.found.find(kind, 50, text, about)
        return [(it.what, it.oid, len(it.why)) for it in compared(remembered, now)]

    def test_all(self) -> None:
        both, one = a_catalog(ONE, TWO), a_catalog(ONE)
        wide = a_table(1, "one", a_shape((ID, NAME, (0, "more", 23, -1))))
        other = a_table(1, "one", a_shape(((1, "id", 20, -1), NAME)))
        filtered = a_table(2, "two", part=Part("id > 5", None, False))
        joined = ("publication", "it joined", About((2,), is_missing=True))
        refused = (
            "publication",
            "its rows are missing, and public.two (2) can't be read",
            About((1,)),
        )
        anew = ("publication", "it was made anew", About(publication="pgsub", is_missing=True))
        gone = ("publication", "publication pgsub2 is gone", About(publication="pgsub2"))
        enum = ("values", "a became b", About(type_oid=25))
        for before, now, found, wanted in (
            (one, one, (), []),
            (one, both, (), [(MISSING, 2, 1)]),
            (both, both, (joined,), [(MISSING, 2, 1)]),
            (both, a_catalog(wide, TWO, lsn=200), (), [(CHANGED, 1, 1)]),
            (
                both,
                a_catalog(other, filtered, lsn=200),
                (joined,),
                [(CHANGED, 1, 1), (MISSING, 2, 2)],
            ),
            (both, one, (), [(EXTRA, 2, 1)]),
            (both, one, (joined,), [(OTHER, 0, 1), (EXTRA, 2, 1)]),
            (both, both, (anew,), [(MISSING, 1, 1), (MISSING, 2, 1)]),
            (both, both, (enum,), [(CHANGED, 1, 1), (CHANGED, 2, 1)]),
            (both, both, (refused,), [(CHANGED, 1, 1)]),
            (both, both, (gone,), [(OTHER, 0, 1)]),
            (both, both, (("history", "lost", NOTHING), ("names", "x", NOTHING)), []),
            (both, both, (("values", "of what is gone", NOTHING),), [(OTHER, 0, 1)]),
        ):
            self.assertEqual(self.told(before, now, *found), wanted, found)

    def test_a_table_that_was_renamed_since(self) -> None:
        now = a_catalog(a_table(1, "uno"), a_table(2, "one"), lsn=200)
        text = (
            "values",
            f"column c of {ONE.text()} was added or renamed: rows that were there have nulls in it",
            About((1,)),
        )
        self.assertEqual(self.told(a_catalog(ONE, TWO), now, text), [(CHANGED, 1, 1)])

    def test_a_table_that_left_after_it_was_renamed(self) -> None:
        """Its rows can go, whatever names it had, and whichever table has them now."""
        remembered = Remembered("/nonexistent/s")
        remembered.begin_copy(a_catalog(ONE, TWO), 100)
        remembered.look(a_catalog(ONE, a_table(2, "b (1)"), lsn=200))
        remembered.look(a_catalog(ONE, lsn=300))
        told = compared(remembered, a_catalog(a_table(1, "b (1)"), lsn=400))
        self.assertEqual([(it.what, it.oid, it.table) for it in told], [(EXTRA, 2, "public.b (1)")])

    def test_a_partition_that_is_sent_under_its_root(self) -> None:
        """Its rows by its own name can go."""
        remembered = Remembered("/nonexistent/s")
        part, root = a_table(2, "part"), a_table(9, "root", kind="p")
        partitions = [Partition(2, 9, "public.part", True), Partition(9, 0, "public.root", False)]
        remembered.begin_copy(a_catalog(ONE, part, partitions=partitions), 100)
        told = compared(remembered, a_catalog(ONE, root, partitions=partitions, lsn=200))
        self.assertIn((EXTRA, 2, "public.part"), [(it.what, it.oid, it.table) for it in told])

    def test_lines(self) -> None:
        self.assertEqual(
            json.loads(Told(MISSING, 2, "public.two", ["why"]).line()),
            {"is": MISSING, "table": "public.two", "oid": 2, "why": ["why"]},
        )
        self.assertEqual(
            json.loads(Told(OTHER, 0, "", ["why"]).line()), {"is": OTHER, "why": ["why"]}
        )


class Case(Quiet):
    """A store's files, of which nobody follows into; and a follower in a thread, where one is
    wanted."""

    def setUp(self) -> None:
        super().setUp()
        self.store = self.make_folder() + "/copy.db"
        for path in (self.store, self.store + ".connector"):
            open(path, "w").close()
        self.remembered = Remembered(self.store)
        self.remembered.begin_copy(a_catalog(ONE, TWO), 100)
        self.remembered.save()
        self.server = FakeServer()
        self.now = a_catalog(ONE, TWO, THREE)
        for where, what, by in (
            (session, "Connection", self.server.connect),
            (add, "WAIT", 0.005),
            (refresh_module, "read_catalog", lambda *_: self.now),
            (at_rest, "LOOK", 0.005),
            (socket_file, "STEP", 0.005),
            (
                add,
                "published_tables",
                lambda *_: [table(it.oid, it.name) for it in self.now.tables.values()],
            ),
        ):
            patch = mock.patch.object(where, what, by)
            patch.start()
            self.addCleanup(patch.stop)

    def options(self, *names: str) -> add.Options:
        return add.Options(store=self.store, publication=["pgsub"], table=names)

    def refreshed(self, yes: bool = True) -> refresh_module.Options:
        return refresh_module.Options(store=self.store, publication=["pgsub"], yes=yes)

    def refresh(
        self, status: int, yes: bool = True, answer: bool = False, check: Check = never
    ) -> list[dict[str, object]]:
        with contextlib.redirect_stdout(io.StringIO()) as out, mock.patch.object(
            refresh_module, "ask_terminal", lambda *_: answer
        ):
            self.assertEqual(refresh_module.run(self.refreshed(yes), check), status)
        return [json.loads(it) for it in out.getvalue().splitlines()]

    def wanted(self) -> dict[int, str]:
        return Remembered(self.store).wanted

    @contextlib.contextmanager
    def followed(self, answer: str | None = None, why: str | None = "") -> Iterator[list[object]]:
        """As while a follower runs that answers requests so, and adds tables, or refuses them where
        there is a `why`."""
        requests, ended, asked = RequestSocket(self.store), threading.Event(), list[object]()
        followed = Snapshots(self.store, requests, None, 0.0)

        def adds(words: dict[str, Any]) -> str | None:
            asked.append(words["add"] + [-oid for oid in words["remove"]])
            remembered = Remembered(self.store)
            if answer is None:
                remembered.want(words["add"], words["remove"])
                if why is not None:
                    for oid in list(remembered.wanted):
                        remembered.refuse(oid, why) if why else remembered.added(oid)
            return answer

        def follow() -> None:
            followed.adds = adds
            while not ended.is_set():
                requests.rest(0.01)
                followed.is_due(0x130)
            requests.close()

        thread = threading.Thread(target=follow)
        with open(self.store + ".connector", "w") as file:
            fcntl.flock(file, fcntl.LOCK_EX)
            thread.start()
            try:
                yield asked
            finally:
                ended.set()
                thread.join()


class OfAnotherServer(Case):
    """A mistyped --dsn: what is there says nothing of the store."""

    def setUp(self) -> None:
        super().setUp()
        checkpoint = Checkpoint(self.store)
        checkpoint.write(True, phase="following", system="77", database="shop", slot="s1")
        os.close(checkpoint.file)
        self.remembered.note_database(5, "shop")
        self.remembered.save()

    def answer(self, system: str, database: str, oid: str) -> None:
        self.server.answer("pg_control_system", [[system, database]])
        self.server.answer("SELECT d.oid FROM pg_catalog.pg_database", [[oid]])

    def test_it_is_rejected(self) -> None:
        self.now = a_catalog(THREE)
        for system, database, oid in (("78", "shop", "5"), ("77", "test", "6")):
            self.answer(system, database, oid)
            told = f"the database shop of the server 77, and this is {database} of {system}"
            with self.assertRaisesRegex(Unfit, told):
                self.refresh(0)
            with self.assertRaisesRegex(Unfit, told):
                add.run(self.options("three"), never)
        self.assertEqual(self.wanted(), {})

    def test_a_renamed_database_is_the_same(self) -> None:
        self.answer("77", "market", "5")
        self.refresh(0)
        self.assertEqual(self.wanted(), {3: ""})
        self.assertEqual(add.run(self.options("one"), never), 0)


class Adds(Case):
    def test_by_the_follower(self) -> None:
        with self.followed() as asked:
            self.assertEqual(add.run(self.options("one", "public.two", "one"), never), 0)
        self.assertEqual((asked, self.wanted()), ([[1, 2]], {}))
        self.assertEqual(
            sorted(os.listdir(os.path.dirname(self.store))),
            ["copy.db", "copy.db.connector", "copy.db.tables"],
        )

    def test_by_the_next_start(self) -> None:
        self.assertEqual(add.run(self.options("two"), never), 0)
        self.assertEqual(self.wanted(), {2: ""})
        self.assertIn("the next start adds public.two", self.said[-1])

    def test_refused(self) -> None:
        with self.followed(why="public.one can't be read"):
            self.assertEqual(add.run(self.options("one"), never), 1)
        self.assertIn("error: public.one can't be read", self.said)
        with self.followed("it is too large"), self.assertRaisesRegex(
            ServerError, "adds none: it is too large"
        ) as raised:
            add.run(self.options("one"), never)
        self.assertTrue(raised.exception.is_lasting())
        self.assertFalse(os.path.exists(self.store + ".sock"))

    def test_a_table_that_is_not_published(self) -> None:
        with self.assertRaisesRegex(Unfit, "no published table four"):
            add.run(self.options("four"), never)

    def test_an_end_while_it_waits(self) -> None:
        """The follower goes on with it, or the next start does."""
        is_taken = False

        def check() -> None:
            # (the call that sees it taken may still be of asking)
            nonlocal is_taken
            if is_taken:
                raise Stopped
            is_taken = bool(self.wanted())

        with self.followed(why=None):
            self.assertEqual(add.run(self.options("one"), check), 0)
        self.assertIn("goes on with it", self.said[-1])
        self.assertEqual(self.wanted(), {1: ""})
        with self.assertRaisesRegex(Passing, "the next start adds public.one"):
            add.wait(self.store, {1: "public.one"}, never)

    def test_words(self) -> None:
        options = options_of("add --store s --table one --table two".split())
        self.assertEqual(options.table, ("one", "two"))
        options = options_of("refresh --store s --yes --publication p".split())
        self.assertEqual((options.yes, options.publication), (True, ("p",)))
        for words in ("add --store s", "add --table t", "refresh", "refresh --store s --table t"):
            with contextlib.redirect_stderr(io.StringIO()), self.assertRaises(SystemExit):
                options_of(words.split())


class Mended(Case):
    """What was found of several tables, once one after the other is copied anew."""

    def test_what_is_of_several_tables_is_mended_table_by_table(self) -> None:
        remembered = self.remembered
        now = a_catalog(ONE, TWO)
        remembered.begin_copy(now, 100)
        for kind, about in (
            ("publication", About(publication="pgsub")),
            ("values", About(type_oid=25)),
        ):
            remembered.found.find(kind, 50, f"it is of several {kind}", about)
        for oid, left, kinds in ((1, [2], []), (2, [], ["publication", "values"])):
            self.assertEqual(remembered.added(oid, remembered.found_of(oid)), kinds)
            self.assertEqual([it.oid for it in compared(remembered, now)], left)
            remembered.restore(remembered.kept())
        self.assertEqual((remembered.found, remembered.found.mended), ({}, {}))

    def test_what_is_found_again_is_to_be_mended_again(self) -> None:
        remembered = self.remembered
        remembered.begin_copy(a_catalog(ONE, TWO), 100)
        text, about = "it was dropped and made anew", About(publication="pgsub")
        remembered.found.find("publication", 50, text, about)
        remembered.added(1, remembered.found_of(1))
        remembered.found.find("publication", 60, text, about)
        self.assertEqual(remembered.added(2, remembered.found_of(2)), [])
        self.assertEqual([it.oid for it in compared(remembered, a_catalog(ONE, TWO))], [1])

    def test_what_a_publication_lacks_stays_found(self) -> None:
        """Nothing is copied again and again because of it."""
        remembered = self.remembered
        lacks = a_catalog(
            ONE,
            publication=dataclasses.replace(PGSUB, actions=("insert", "delete", "truncate")),
            lsn=200,
        )
        remembered.begin_copy(a_catalog(ONE), 100)
        self.assertEqual([it.what for it in compared(remembered, lacks)], [CHANGED])
        self.assertEqual(remembered.added(1, remembered.found_of(1)), [])
        self.assertEqual(compared(remembered, lacks), [])
        again = a_catalog(ONE, lsn=300)
        self.assertEqual([it.what for it in compared(remembered, again)], [CHANGED])
        self.assertEqual(remembered.added(1, remembered.found_of(1)), ["publication"])

    def test_what_is_sent_of_a_table_no_more_stays_found(self) -> None:
        """Where it has left one publication, and another one has its Inserts alone."""
        remembered, part = self.remembered, Part(None, None, False)
        few = dataclasses.replace(PGSUB, oid=901, actions=("insert", "delete", "truncate"))

        def now(lsn: int, *names: str) -> Catalog:
            table = dataclasses.replace(ONE, parts=dict.fromkeys(names, part))
            return dataclasses.replace(
                a_catalog(table, lsn=lsn, names=["pgsub", "few"]),
                publications={"pgsub": PGSUB, "few": few},
            )

        remembered.begin_copy(now(100, "pgsub", "few"), 100)
        self.assertEqual([it.what for it in compared(remembered, now(200, "few"))], [CHANGED])
        self.assertEqual(remembered.added(1, remembered.found_of(1)), [])
        self.assertEqual(compared(remembered, now(200, "few")), [])
        self.assertEqual(
            [it.what for it in compared(remembered, now(300, "pgsub", "few"))], [CHANGED]
        )
        self.assertEqual(remembered.added(1, remembered.found_of(1)), ["publication"])


class Refreshes(Case):
    def test_nothing_to_do(self) -> None:
        self.now = a_catalog(ONE, TWO)
        self.assertEqual(self.refresh(0, yes=False), [])

    def test_after_asking(self) -> None:
        lines = self.refresh(1, yes=False)
        self.assertEqual([(it["is"], it["table"]) for it in lines], [("missing", "public.three")])
        self.assertEqual(self.wanted(), {})
        self.refresh(0, yes=False, answer=True)
        self.assertEqual(self.wanted(), {3: ""})

    def test_without_asking(self) -> None:
        with self.followed() as asked:
            self.refresh(0)
        self.assertEqual(asked, [[3]])

    def test_what_is_being_added(self) -> None:
        self.remembered.want([3])
        self.assertEqual(len(self.refresh(0)), 1)
        self.assertIn("is under way already", self.said[0])

    def test_rows_of_tables_that_left(self) -> None:
        self.now = a_catalog(ONE, THREE, lsn=200)
        with self.followed() as asked:
            lines = self.refresh(0)
        self.assertEqual(([it["is"] for it in lines], asked), (["missing", "extra"], [[3, -2]]))
        remembered = Remembered(self.store)
        self.assertEqual(
            (remembered.unwanted, remembered.wanted, sorted(remembered.sent)), (set(), {}, [1])
        )

    def test_what_only_a_start_accepts(self) -> None:
        """`status` names this command as the cure of all that was found of publications."""
        more = ("what isn't mended here stays found until the follower is started with", "--accept")
        self.now = a_catalog(ONE, TWO)
        self.refresh(0)
        self.assertFalse(any(more[0] in it for it in self.said), self.said)
        # (a table that was there for two looks, and of which nothing came)
        before = self.remembered.catalog
        assert before
        before.tables[3] = THREE
        self.remembered.save()
        self.now = a_catalog(ONE, TWO, lsn=200)
        self.assertEqual([it["is"] for it in self.refresh(0)], ["extra"])
        self.assertIn(f"{' '.join(more)} publication", self.said)
        self.assertIn("there is nothing to do", self.said[-1])
        self.remembered.found.find("values", 50, "a became b", About(type_oid=9))
        self.remembered.save()
        self.assertEqual([it["is"] for it in self.refresh(0)], ["extra", "other"])
        self.assertIn(f"{' '.join(more)} publication --accept values", self.said)

    def test_the_file_stays(self) -> None:
        """What is found here is found by the follower too, and noted by it alone."""
        with open(self.store + ".tables", encoding="utf-8") as file:
            before = file.read()
        self.refresh(1, yes=False)
        with open(self.store + ".tables", encoding="utf-8") as file:
            self.assertEqual(file.read(), before)

    def test_nothing_is_remembered(self) -> None:
        os.unlink(self.store + ".tables")
        with self.assertRaisesRegex(FileError, "no such file yet"):
            self.refresh(0)

    def test_it_needs_a_terminal(self) -> None:
        with contextlib.redirect_stdout(io.StringIO()), mock.patch(
            "sys.stdin.isatty", lambda: False
        ), self.assertRaisesRegex(Unfit, "refresh asks on"):
            refresh_module.run(self.refreshed(False), never)


if __name__ == "__main__":
    unittest.main()
