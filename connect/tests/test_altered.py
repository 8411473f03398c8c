"""Tables that were altered by commands that the stream doesn't have: which of them are copied anew
unasked, and what is told of the others."""

from __future__ import annotations

import dataclasses
import unittest
from collections.abc import Callable
from unittest import mock

from pgsub_connect.drift.remembered import Remembered
from pgsub_connect.errors import ServerError
from pgsub_connect.follow import altered
from pgsub_connect.follow.drift_watch import Watch
from pgsub_connect.server.catalog import Catalog, Part, Table
from pgsub_connect.server.session import Subscription
from pgsub_connect.status.progress import Progress
from pgsub_connect.store.checkpoint import Checkpoint
from pgsub_connect.stream.common import Common, Tolerance
from pgsub_feed.errors import Unfit
from pgsub_feed.interruption import never
from pgsub_feed.relation import Relation, Shape

from .fake_server import FakeServer, Quiet, connection_to
from .settled import options_of
from .vectors import ID, NAME, Described, a_catalog, a_shape, a_table

MORE: Described = (0, "more", 23, -1)
MOOD: Described = (0, "mood", 999, -1)
LABELS = {"name": "mood", "701": "sad", "702": "ok"}
T, U = a_table(1, "t"), a_table(2, "u")
WIDER = a_shape([ID, NAME, MORE])
MOST = 1000


def with_shape(it: Table, shape: Shape) -> Table:
    return dataclasses.replace(it, shape=shape)


class Case(Quiet):
    def setUp(self) -> None:
        super().setUp()
        self.store = self.make_folder() + "/copy.db"
        self.checkpoint = Checkpoint(self.store)
        self.server, self.lsn = FakeServer(), 100
        self.server.answer("pg_table_size", [["1", "400"], ["2", "500"], ["3", "1001"]])
        self.server.answer("SELECT n.nspname, c.relname", [["public", "t"]])
        # which columns have a value for rows that were there, and whether a row that was has one
        self.server.answer("a.atthasmissing", [["more", "741", "f"]])
        self.server.answer("SELECT EXISTS", [["f"]])
        self.begin(a_catalog(T, U))

    def begin(self, catalog: Catalog) -> None:
        self.checkpoint.accept(["values"])
        self.remembered = Remembered(self.store)
        self.remembered.begin_copy(catalog, self.lsn)
        self.remembered.save()
        self.run_anew()

    def run_anew(self, most: int | None = MOST, strict: bool = False) -> None:
        self.progress, self.remembered = Progress(), Remembered(self.store)
        common = Common(
            Subscription(publications=["pgsub"]),
            Tolerance((), strict),
            self.checkpoint,
            self.progress,
            self.remembered,
        )
        self.watch = Watch(common, most, self.store)
        self.watch.begin()

    def look(self, now: Catalog) -> None:
        self.lsn += 100
        now = dataclasses.replace(now, lsn=self.lsn)
        with mock.patch("pgsub_connect.follow.drift_watch.read_catalog", return_value=now):
            self.watch.compare(connection_to(self.server), 0)

    def told(self, text: str) -> int:
        """How many lines have a text."""
        return sum(text in it for it in self.said)

    def is_wanted(self, *oids: int) -> None:
        self.assertEqual(Remembered(self.store).wanted, dict.fromkeys(oids, ""), self.said)

    def stays(self, why: str, now: Catalog) -> None:
        """A table stays found, which is told once."""
        for _ in range(3):
            self.look(now)
            self.is_wanted()
        self.assertEqual((self.told(why), list(self.checkpoint.findings())), (1, ["values"]))
        self.assertEqual(self.told(f"refresh --store {self.store}"), 1, self.said)

    def is_added(self, oid: int, but: str = "") -> None:
        """The follower has the rows of a table; what was found of it goes, but for some."""
        texts = [it for it in self.remembered.found_of(oid) if not but or but not in it]
        self.checkpoint.accept(self.remembered.added(oid, texts))


class Renewed(Case):
    def test_whatever_changed_the_rows(self) -> None:
        renamed = a_shape([ID, (0, "title", 25, -1)])
        typed = a_shape([ID, (0, "name", 1043, 14)])
        swapped = a_shape([ID, NAME], numbers=[1, 7])
        for shape in (renamed, typed, swapped, a_shape(identity="f")):
            self.begin(a_catalog(T, U))
            self.look(a_catalog(with_shape(T, shape), U))
            self.is_wanted(1)
        self.assertEqual(self.told("1 table altered, copied anew beside what is"), 4)

    def test_several_in_one_turn(self) -> None:
        self.server.answer("a.atthasmissing", [["more", "741", "t"]])
        self.look(a_catalog(with_shape(T, WIDER), with_shape(U, WIDER)))
        self.is_wanted(1, 2)
        self.assertEqual(self.told("2 tables altered, copied anew"), 1)
        self.assertEqual(self.told("public.t, public.u"), 1)

    def test_found_while_nobody_followed(self) -> None:
        """So it is of what an earlier run has found, and told alone."""
        self.run_anew(most=None)
        shape = a_shape([ID, (0, "title", 25, -1)])
        self.look(a_catalog(with_shape(T, shape), U))
        self.is_wanted()
        self.run_anew()
        self.look(a_catalog(with_shape(T, shape), U))
        self.is_wanted(1)

    def test_labels(self) -> None:
        """One that was renamed, of all tables that have the type; not one that was added."""
        tables = [with_shape(it, a_shape([ID, MOOD])) for it in (T, U)]
        plain = a_table(3, "v")
        self.begin(a_catalog(*tables, plain, types={999: LABELS}))
        more = {**LABELS, "703": "fine"}
        self.look(a_catalog(*tables, plain, types={999: more}))
        self.is_wanted()
        self.assertEqual(self.checkpoint.findings(), {})
        self.look(a_catalog(*tables, plain, types={999: {**more, "701": "blue"}}))
        self.is_wanted(1, 2)
        self.is_added(1)
        self.assertEqual(list(self.checkpoint.findings()), ["values"])
        self.is_added(2)
        self.assertEqual(self.checkpoint.findings(), {})

    def test_labels_within_other_types(self) -> None:
        """Of an array, a domain over it, and a composite type."""
        types = {999: LABELS, 998: {"@999": ""}, 997: {"@998": ""}}
        types[996] = {"name": "pair", "#1": "23 -1", "#2": "998 -1"}
        columns = {1: 998, 2: 997, 4: 996, 5: 1007}
        shapes = {at: a_shape([ID, (0, "it", oid, -1)]) for at, oid in columns.items()}
        tables = [a_table(at, f"t{at}", it) for at, it in shapes.items()]
        self.begin(a_catalog(*tables, types=types))
        more = {**LABELS, "703": "fine"}
        self.look(a_catalog(*tables, types={**types, 999: more}))
        self.is_wanted()
        self.assertEqual(self.checkpoint.findings(), {})
        self.look(a_catalog(*tables, types={**types, 999: {**more, "701": "blue"}}))
        self.is_wanted(1, 2, 4)
        for oid in (1, 2, 4):
            self.is_added(oid)
        self.assertEqual(self.checkpoint.findings(), {})

    def test_by_a_message(self) -> None:
        """The message tells it, and the look that follows decides."""
        self.remembered.note(Relation(1, "public", "t", a_shape([ID, NAME, MORE])), 150, -1)
        with mock.patch.object(self.watch, "look_again", return_value=True) as again:
            self.watch.tend(False, never, 100)
        self.assertEqual((self.told("found: values"), self.remembered.wanted), (1, {}))
        again.assert_called_once()
        self.server.answer("SELECT EXISTS", [["t"]])
        self.look(a_catalog(with_shape(T, WIDER), U))
        self.is_wanted(1)
        self.assertFalse(self.watch.altered.is_due())

    def test_dropped_meanwhile(self) -> None:
        self.remembered.note(Relation(1, "public", "t", a_shape([ID, NAME, MORE])), 150, -1)
        self.look(a_catalog(U))
        self.is_wanted()
        self.assertEqual(set(self.checkpoint.findings()), {"values", "publication"})


class Nulls(Case):
    """Columns that were added without a default are null where rows were there."""

    def added(self, is_right: bool, it: Table = T) -> None:
        self.begin(a_catalog(it, U))
        self.look(a_catalog(with_shape(it, WIDER), U))
        self.is_wanted(*([] if is_right else [1]))
        self.assertEqual(list(self.checkpoint.findings()), [] if is_right else ["values"])

    def test_nothing_is_wrong(self) -> None:
        self.added(True)
        self.assertEqual(self.told("public.t (1) was altered, and its rows are right as"), 1)
        (query,) = self.server.told("SELECT EXISTS")
        self.assertIn('r."more" IS NOT NULL AND (pg_catalog.age(r.xmin) < 0 OR', query)
        self.assertIn("LEAST(pg_catalog.age('741'::pg_catalog.xid))", query)
        self.look(a_catalog(with_shape(T, WIDER), U))
        self.assertEqual((self.told("right as they are"), self.checkpoint.findings()), (1, {}))

    def test_a_default(self) -> None:
        self.server.answer("a.atthasmissing", [["more", "741", "t"]])
        self.added(False)

    def test_a_row_that_was_there_has_a_value(self) -> None:
        self.server.answer("SELECT EXISTS", [["t"]])
        self.added(False)

    def test_rows_cant_be_asked(self) -> None:
        for sqlstate in ("42501", "57014"):
            self.server.answer("SELECT EXISTS", ServerError("no", sqlstate))
            self.added(False)

    def test_a_column_list(self) -> None:
        self.added(False, dataclasses.replace(T, parts={"pgsub": Part(None, (1, 2, 3), False)}))
        self.assertEqual(self.server.told("SELECT EXISTS"), [])

    def test_a_partitioned_table(self) -> None:
        self.added(False, a_table(1, "t", kind="p"))

    def test_one_of_several(self) -> None:
        """All of them are asked."""
        self.server.answer("a.atthasmissing", [["more", "741", "f"], ["last", "742", "f"]])
        self.server.answer('r."last" IS NOT NULL', [["t"]])
        self.look(a_catalog(with_shape(T, a_shape([ID, NAME, MORE, (0, "last", 25, -1)])), U))
        self.is_wanted(1)

    def test_a_renamed_column_is_no_added_one(self) -> None:
        """Without numbers it may be where another one went."""
        for numbers, is_right in (([1, 3], True), ([1, 2], False)):
            self.begin(a_catalog(T, U))
            shape = a_shape([ID, MORE], numbers=numbers)
            self.look(a_catalog(with_shape(T, shape), U))
            self.is_wanted(*([] if is_right else [1]))
        self.begin(a_catalog(T, U))
        self.remembered.note(
            Relation(1, "public", "t", a_shape([ID, MORE], numbers=[0, 0])), 150, -1
        )
        self.look(a_catalog(with_shape(T, a_shape([ID, MORE], numbers=[1, 3])), U))
        self.is_wanted(1)

    def test_something_else_was_altered_too(self) -> None:
        shape = a_shape([ID, (0, "name", 1043, 14), MORE])
        self.look(a_catalog(with_shape(T, shape), U))
        self.is_wanted(1)

    def test_many_texts(self) -> None:
        """Of which not all are kept."""
        with mock.patch.object(altered, "MOST", 1):
            self.added(False)


class Told(Case):
    """What stays as it is."""

    NOW = a_catalog(with_shape(T, a_shape([ID, (0, "title", 25, -1)])), U)

    def test_above_the_limit(self) -> None:
        self.run_anew(most=399)
        self.stays("it has 400 bytes, above --on-alter-max-bytes 399", self.NOW)
        self.run_anew(most=400)
        self.look(self.NOW)
        self.is_wanted(1)

    def test_commits_wait_for_the_follower(self) -> None:
        self.progress.server.note_name("pgsub", "")
        self.server.answer("SHOW synchronous_standby_names", [["FIRST 1 (pgsub)"]])
        self.stays("commits at the server wait for the follower", self.NOW)
        self.server.answer("SHOW synchronous_standby_names", [[""]])
        self.progress.server.note_name("pgsub", "")
        self.look(self.NOW)
        self.is_wanted(1)

    def test_told_alone(self) -> None:
        self.run_anew(most=None)
        for _ in range(2):
            self.look(self.NOW)
        self.is_wanted()
        self.assertEqual((self.told("found: values"), self.told("anew")), (1, 0))
        self.assertEqual(self.server.told("pg_table_size"), [])

    def test_a_lock_is_in_the_way(self) -> None:
        self.server.answer("pg_table_size", ServerError("lock timeout", "55P03"))
        self.look(self.NOW)
        self.is_wanted()
        self.assertFalse(self.watch.altered.is_due())
        with mock.patch("time.monotonic", return_value=self.watch.altered.due):
            self.assertTrue(self.watch.altered.is_due())
        self.server.answer("pg_table_size", [])
        self.look(self.NOW)
        self.is_wanted(1)

    def test_a_strict_run_ends_where_something_stays(self) -> None:
        self.run_anew(strict=True)
        self.remembered.note(Relation(1, "public", "t", a_shape([ID, MORE])), 150, -1)
        with mock.patch.object(self.watch, "look_again", return_value=True):
            self.watch.tend(False, never, 100)
        self.look(self.NOW)
        self.is_wanted(1)
        self.begin(a_catalog(T, U))
        self.run_anew(most=399, strict=True)
        with self.assertRaisesRegex(Unfit, "column title of public.t"):
            self.look(self.NOW)


class Again(Case):
    """It doesn't go on for ever."""

    def setUp(self) -> None:
        super().setUp()
        clock = mock.patch("time.monotonic", lambda: self.now)
        clock.start()
        self.addCleanup(clock.stop)

    now = 5000.0

    def altered(self, at: int) -> Catalog:
        return a_catalog(with_shape(T, a_shape([ID, (0, f"name{at}", 25, -1)])), U)

    def times(self, altered: Callable[[int], Catalog], seconds: int) -> list[float]:
        """When a table is copied anew that is looked at each second, and is altered again each
        time meanwhile."""
        began, found = self.now, list[float]()
        for at in range(seconds):
            self.now = began + at
            self.look(altered(at))
            if self.remembered.wanted.get(1) == "":
                found.append(self.now - began)
                self.is_added(1, but="name")
        return found

    def test_it_waits_longer_each_time(self) -> None:
        self.assertEqual(self.times(self.altered, 100), [0.0, 10.0, 30.0, 70.0])
        self.now += 2000
        self.assertEqual(self.times(self.altered, 11), [0.0, 10.0])

    def test_a_look_comes_in_time(self) -> None:
        self.look(self.altered(1))
        self.assertEqual(self.watch.altered.due, self.now + altered.LATER)
        self.is_added(1, but="name")
        self.now += 5
        self.look(self.altered(2))
        self.is_wanted()
        self.assertEqual(self.watch.altered.due, self.now + 5)
        self.now += 5
        with mock.patch.object(self.watch, "look_again", return_value=True) as again:
            self.watch.tend(False, never, 0)
        again.assert_called_once()

    def test_what_was_rejected(self) -> None:
        """It is tried again where something new is found of it, and by the next run."""
        self.look(self.altered(1))
        self.remembered.refuse(1, "no room")
        for _ in range(3):
            self.now += 1000
            self.look(self.altered(1))
            self.assertEqual(self.remembered.wanted, {1: "no room"})
        self.look(self.altered(2))
        self.is_wanted(1)
        self.remembered.refuse(1, "no room")
        self.run_anew()
        self.remembered.want(self.remembered.wanted)
        self.look(self.altered(2))
        self.remembered.refuse(1, "no room")
        self.now += 1000
        self.look(self.altered(2))
        self.assertEqual(self.remembered.wanted, {1: "no room"})


class Words(unittest.TestCase):
    def test_sizes(self) -> None:
        for words, most in (
            ("", 100 << 20),
            ("--on-alter refresh --on-alter-max-bytes 3GB", 3 << 30),
            ("--on-alter tell", None),
        ):
            options = options_of(["follow", "--store", "s", *words.split()])
            self.assertEqual(options.follow_settings().on_alter, most, words)


if __name__ == "__main__":
    unittest.main()
