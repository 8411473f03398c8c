"""The file of tables, and what is found by it."""

from __future__ import annotations

import contextlib
import dataclasses
import io
import json
import operator
import os
import stat
import tempfile
import unittest
from pathlib import Path
from unittest import mock

from pgsub_connect.commands import names
from pgsub_connect.drift.findings import MOST, NOTHING, About, Found
from pgsub_connect.drift.remembered import Remembered, Summary, summary_of
from pgsub_connect.server.catalog import Part, Partition
from pgsub_feed.errors import FileError, Passing
from pgsub_feed.interruption import never
from pgsub_feed.relation import Relation

from .vectors import ID, NAME, PGSUB, a_catalog, a_shape, a_table

# Of what is kept, what is a whole number.
NUMBERS = ("format", "messages")
MORE = (0, "more", 23, -1)
T, U = a_table(1, "t"), a_table(2, "u")
WIDER = a_shape([ID, NAME, MORE])


class Case(unittest.TestCase):
    def setUp(self) -> None:
        folder = tempfile.TemporaryDirectory()
        self.addCleanup(folder.cleanup)
        self.store = folder.name + "/copy.db"
        self.remembered = Remembered(self.store)

    def again(self) -> Remembered:
        self.remembered.save()
        self.remembered = Remembered(self.store)
        return self.remembered

    def note(
        self,
        oid: int,
        name: str,
        lsn: int,
        columns: list[tuple[int, str, int, int]] | None = None,
        identity: str = "d",
    ) -> None:
        shape = a_shape(columns or [ID, NAME], identity, [0] * len(columns or [ID, NAME]))
        self.remembered.note(
            Relation(oid, "public", name, shape), lsn, self.remembered.last_sent(oid)
        )

    def found(self, kind: str) -> list[str]:
        return list(self.remembered.found[kind].texts) if kind in self.remembered.found else []

    def names(self) -> dict[str, tuple[int | None, list[int]]]:
        return {
            f"{schema}.{name}": (it.oid, it.before)
            for (schema, name), it in self.remembered.names.items()
        }


class File(Case):
    def test_as_it_was(self) -> None:
        shape, part = a_shape([(1, "\u20ac", 4_000_000_001, -1)], "i"), Part(
            "(a > 'x')", (1, 3), True, ("16401", "16388/741")
        )
        odd = a_table(4_000_000_000, 'we"ird \u00e4\n', shape, schema="s.x", part=part)
        tree = (
            Partition(10, 0, "public.root", False),
            Partition(11, 10, "public.p", True, node=77, since="741"),
        )
        types = {5: {"name": "mood", "6": "sad"}}
        publication = dataclasses.replace(PGSUB, owner=10, since="742")
        first = a_catalog(
            T,
            odd,
            lsn=1 << 40,
            highest=7,
            publication=publication,
            partitions=tree,
            types=types,
            names=["pgsub", "other"],
        )
        self.remembered.begin_copy(first, 1 << 41)
        self.remembered.look(
            dataclasses.replace(
                first, tables={T.oid: dataclasses.replace(T, shape=WIDER)}, lsn=1 << 42
            )
        )
        self.note(3, "t", 1 << 43)
        self.remembered.note_made({"pgsub": 900})
        before = self.remembered
        after = self.again()
        fields = ("catalog", "made", "sent", "names", "names.held", "found", "found.told", "left")
        for field in fields:
            value = operator.attrgetter(field)
            self.assertEqual(value(after), value(before), field)
        kept = after.catalog and after.catalog.publications["pgsub"]
        self.assertEqual(kept and (kept.owner, kept.since), (10, "742"))
        self.assertEqual(after.publications(), ["pgsub", "other"])
        self.assertFalse(after.unsaved.is_urgent or after.unsaved.is_changed)

    def test_what_a_start_needs_of_it_first(self) -> None:
        """Is the same as where all of it is read, also where that says what is wrong."""
        self.remembered.feed, self.remembered.messages = "/feed", 7
        self.remembered.has_base = True
        self.remembered.begin(a_catalog(T, U))
        self.remembered.save()
        whole = Remembered(self.store)
        told = Summary(whole.publications(), "/feed", True, 7)
        with mock.patch.object(Remembered, "__init__", side_effect=AssertionError):
            self.assertEqual(summary_of(self.store), told)
        with open(self.remembered.path, "a", encoding="ascii") as file:
            file.write("torn")
        self.assertEqual(summary_of(self.store), told)
        for text, what in (("{}", "not a file of tables"), ('{"format":9}', "another version")):
            Path(self.remembered.path).write_text(text + "\n", encoding="ascii")
            with self.assertRaisesRegex(FileError, what):
                summary_of(self.store)
        os.unlink(self.remembered.path)
        self.assertEqual(summary_of(self.store), Summary([], "", False, 0))

    def test_who_has_written_it_is_kept(self) -> None:
        """A publication, a table or a partition that another transaction has put there was gone in
        between."""
        part, publication = Part(None, None, False, ("16401",)), dataclasses.replace(
            PGSUB, owner=10, since="742"
        )
        root, leaf = a_table(10, "root", kind="p", part=part), Partition(
            11, 10, "public.p", True, since="741"
        )
        now = a_catalog(
            root, publication=publication, partitions=[Partition(10, 0, "public.root", False), leaf]
        )
        for later in (
            dataclasses.replace(
                now,
                lsn=300,
                tables={
                    10: dataclasses.replace(root, parts={"pgsub": part._replace(since=("16402",))})
                },
            ),
            dataclasses.replace(
                now,
                lsn=300,
                partitions={**now.partitions, 11: dataclasses.replace(leaf, since="743")},
            ),
            dataclasses.replace(
                now, lsn=300, publications={"pgsub": dataclasses.replace(publication, since="743")}
            ),
        ):
            self.remembered.begin_copy(now, 100)
            self.again().look(later)
            self.assertEqual(len(self.found("publication")), 1)

    def test_what_is_in_no_log(self) -> None:
        """It is kept, with the places of long values and what ran: the next look compares them."""
        table = dataclasses.replace(a_table(1, "t"), toast=7)
        tree = (
            Partition(10, 0, "public.root", False),
            Partition(11, 10, "public.p", True, logged=False, toast=8),
        )
        now = dataclasses.replace(
            a_catalog(table, dataclasses.replace(U, logged=False), partitions=tree), running=1 << 40
        )
        self.remembered.begin_copy(now, 100)
        self.assertEqual(self.again().catalog, now)
        assert self.remembered.catalog
        self.assertEqual(self.remembered.catalog.running, 1 << 40)

    def test_primary_keys(self) -> None:
        """They are kept, and a new one is urgent."""
        table = dataclasses.replace(a_table(1, "t"), primary=("name", "id"))
        self.remembered.begin_copy(a_catalog(table), 100)
        self.remembered.save()
        again = Remembered(self.store)
        assert again.catalog
        self.assertEqual(again.catalog.tables[1].primary, ("name", "id"))
        self.assertEqual(again.look(a_catalog(dataclasses.replace(table, primary=()))), [])
        self.assertEqual((again.unsaved.is_urgent, again.found), (True, {}))
        with open(self.store + ".tables", encoding="utf-8") as file:
            said = json.load(file)
        wrong: tuple[object, ...] = (None, "id", [5], [None])
        for primary in wrong:
            said["catalog"]["tables"]["1"]["primary"] = primary
            with open(self.store + ".tables", "w", encoding="utf-8") as file:
                file.write(json.dumps(said) + "\n")
            with self.assertRaisesRegex(FileError, "not a file of tables"):
                Remembered(self.store)

    def test_mode(self) -> None:
        self.remembered.begin(a_catalog(T))
        before = os.umask(0)
        try:
            with open(self.store + ".tables.new", "w", encoding="ascii") as left:
                left.write("of an earlier run")
            self.remembered.save()
        finally:
            os.umask(before)
        self.assertEqual(stat.S_IMODE(os.stat(self.store + ".tables").st_mode), 0o600)
        self.assertEqual(os.listdir(os.path.dirname(self.store)), ["copy.db.tables"])

    def test_the_disk_has_it_before_the_name(self) -> None:
        self.remembered.begin(a_catalog(T))
        calls: list[str] = []
        fsync, replace = os.fsync, os.replace

        def synced(number: int) -> None:
            calls.append("folder" if stat.S_ISDIR(os.fstat(number).st_mode) else "file")
            fsync(number)

        def replaced(before: str, after: str) -> None:
            calls.append("name")
            replace(before, after)

        with mock.patch("os.fsync", synced), mock.patch("os.replace", replaced):
            self.remembered.save()
        self.assertEqual(calls, ["file", "name", "folder"])

    def test_torn_or_foreign(self) -> None:
        self.remembered.begin_copy(a_catalog(T, U), 100)
        self.remembered.save()
        with open(self.store + ".tables", "rb") as file:
            whole = file.read()
        said = json.loads(whole)
        pieces = [whole[:length] for length in range(0, len(whole) - 1, 7)]
        others = [
            b"null",
            b"[]",
            b"{}",
            b"17",
            b'"text"',
            b"\xff\xfe",
            b'{"format": 2}',
            *(json.dumps({**said, name: 5}).encode() for name in said if name not in NUMBERS),
            json.dumps({**said, "messages": -1}).encode(),
        ]
        for content in (*pieces, *others):
            with open(self.store + ".tables", "wb") as file:
                file.write(content)
            with self.subTest(content[:40]), self.assertRaisesRegex(
                FileError, "copy.db.tables: not a file of tables"
            ):
                Remembered(self.store)

    def test_of_another_version(self) -> None:
        with open(self.store + ".tables", "w", encoding="ascii") as file:
            file.write('{"format": 3}')
        with self.assertRaisesRegex(FileError, "another version"):
            Remembered(self.store)

    def test_cant_be_read(self) -> None:
        os.mkdir(self.store + ".tables")
        with self.assertRaises(FileError):
            Remembered(self.store)

    def test_a_full_disk_leaves_the_old_one(self) -> None:
        self.remembered.begin(a_catalog(T))
        self.remembered.save()
        self.remembered.begin(a_catalog(T, U))
        with mock.patch(
            "os.fsync", side_effect=OSError(28, "No space left on device")
        ), self.assertRaisesRegex(Passing, "No space"):
            self.remembered.save()
        self.assertTrue(self.remembered.unsaved.is_urgent)
        self.assertEqual(os.listdir(os.path.dirname(self.store)), ["copy.db.tables"])
        old = Remembered(self.store).catalog
        self.assertEqual(old and list(old.tables), [1])

    def test_removed(self) -> None:
        self.remembered.begin(a_catalog(T))
        self.remembered.save()
        self.remembered.remove()
        self.remembered.save()
        self.assertEqual(
            (os.listdir(os.path.dirname(self.store)), self.remembered.publications()), ([], [])
        )


class Looks(Case):
    def test_found_once(self) -> None:
        self.remembered.begin_copy(a_catalog(T), 100)
        self.assertEqual(self.remembered.look(a_catalog(T, U, lsn=200)), [])
        self.assertEqual(len(self.found("publication")), 1)
        self.assertEqual(
            self.remembered.found.take_news(),
            ["publication at 0/C8: " + self.found("publication")[0]],
        )
        self.again().look(a_catalog(T, U, lsn=300))
        self.assertEqual(self.remembered.found.take_news(), [])
        self.assertEqual(
            (len(self.found("publication")), self.remembered.found["publication"].lsn), (1, 200)
        )

    def test_nothing_new_is_not_urgent(self) -> None:
        root = Partition(10, 0, "public.root", False)
        self.remembered.begin_copy(a_catalog(T, partitions=[root]), 100)
        made = dataclasses.replace(root, made=True)
        self.again().look(
            a_catalog(a_table(1, "t", fresh=True), lsn=200, highest=5000, partitions=[made])
        )
        self.assertFalse(self.remembered.unsaved.is_urgent)

    def test_harmless(self) -> None:
        whole = dataclasses.replace(PGSUB, whole=True)
        self.remembered.begin_copy(a_catalog(publication=whole), 100)
        new = a_table(1001, "n", part=Part(None, None, True), fresh=True)
        self.assertEqual(len(self.remembered.look(a_catalog(new, publication=whole, lsn=200))), 1)
        self.assertEqual(self.remembered.found, {})

    def test_accepted(self) -> None:
        self.remembered.begin_copy(a_catalog(T), 100)
        self.remembered.look(a_catalog(dataclasses.replace(T, shape=WIDER), U, lsn=200))
        self.assertEqual(sorted(self.remembered.found), ["publication", "values"])
        self.remembered.found.accept(["names", "values"])
        self.assertEqual(sorted(self.again().found), ["publication"])
        self.remembered.found.accept(["all"])
        self.assertEqual(self.remembered.found, {})

    def test_a_table_that_came_and_went(self) -> None:
        self.remembered.begin_copy(a_catalog(T), 100)
        self.note(5, "staging", 150)
        for lsn in (200, 300):
            self.again().look(a_catalog(T, lsn=lsn))
            self.assertEqual(len(self.found("publication")), 1)
            self.assertIn("public.staging (5) was dropped", self.found("publication")[0])
            self.remembered.found.take_news()
        self.remembered.found.accept(["all"])
        self.again().look(a_catalog(T, lsn=400))
        self.assertEqual(self.remembered.found, {})

    def test_of_tables_whose_rows_were_removed_nothing_is_left(self) -> None:
        """As of staging tables that come and go, where a publication has all tables."""
        self.remembered.begin_copy(a_catalog(T), 100)
        for oid in range(10, 20):
            self.note(oid, "staging", 1000 * oid)
            self.again().look(a_catalog(T, lsn=1000 * oid + 1))
            self.remembered.want([], [oid])
            self.remembered.added(oid, self.remembered.found_of(oid))
        again = self.again()
        self.assertEqual(
            (again.left, list(again.sent), again.wanted, again.unwanted, again.found),
            (set(), [1], {}, set(), {}),
        )
        self.assertEqual(
            (self.names(), again.names.held), ({"public.t": (1, [])}, {1: ("public", "t")})
        )
        # (one whose rows stay is told)
        for oid in (30, 31):
            self.note(oid, "staging", 1000 * oid)
            again.look(a_catalog(T, lsn=1000 * oid + 1))
        again.want([], [31])
        again.added(31)
        self.assertEqual(
            (len(self.found("names")), self.names()["public.staging"]), (1, (None, [30]))
        )

    def test_many_tables(self) -> None:
        """Each of them is told and can be mended, and then nothing is left."""
        tables = [a_table(20000 + it, f"t {it}.x") for it in range(MOST + 7)]
        self.remembered.begin_copy(a_catalog(), 100)
        self.remembered.look(a_catalog(*tables, lsn=200))
        found = self.again().found["publication"]
        self.assertEqual((len(found.texts), found.more), (MOST + 7, 0))
        for it in tables:
            self.assertEqual(len(self.remembered.found_of(it.oid)), 1)
            self.remembered.added(it.oid, self.remembered.found_of(it.oid))
        self.assertEqual(self.again().found, {})

    def test_many_texts(self) -> None:
        """Those of one table are no more than fit, and of those of no table it is counted how many
        aren't there."""
        t, u = About((16385,)), About((16386,))
        found = Found(1, {})
        for it in range(MOST):
            found.add(f"column c{it} of public.t was added", t)
        for text, about in (
            ("column d of public.t was added", t),
            ("type mood: a became b", About(type_oid=17000)),
            ("column d of public.u was added", u),
        ):
            found.add(text, about)
        self.assertEqual(
            (list(found.texts)[MOST:], found.more), (["column d of public.u was added"], 1)
        )
        found.drop([text for text, about in found.texts.items() if about == t])
        found.add("column e of public.t was added", t)
        self.assertEqual((len(found.texts), found.more, found.tables), (2, 1, {16385, 16386}))

    def test_what_they_are_about_is_kept(self) -> None:
        """Whatever the texts say: an OID in one is no more than a word."""
        about = About((1,), "p (2)", 3, "update", True, "public.t (2)")
        self.remembered.begin_copy(a_catalog(T, U), 100)
        for text, it in (
            ("all", about),
            ("public.u (2) can't be read", About((1,))),
            ("type x (25): a became b", NOTHING),
        ):
            self.remembered.found.find("publication", 150, text, it)
        again = self.again()
        self.assertEqual(
            list(again.found["publication"].texts.values()), [about, About((1,)), NOTHING]
        )
        self.assertEqual(
            (again.found_of(1), again.found_of(2)), (["all", "public.u (2) can't be read"], [])
        )


class LooksAndMessages(Case):
    """The same command shows in a look at the server and in a Relation message, and the one that
    comes first is told."""

    def test_look_first(self) -> None:
        self.remembered.begin_copy(a_catalog(T), 100)
        self.remembered.look(a_catalog(dataclasses.replace(T, shape=WIDER), lsn=300))
        self.again().found.accept(["values"])
        self.note(1, "t", 200)
        self.note(1, "t", 250, [ID, NAME, MORE])
        self.assertEqual(self.remembered.found, {})

    def test_message_first(self) -> None:
        self.remembered.begin_copy(a_catalog(T), 100)
        self.note(1, "t", 200, [ID, NAME, MORE])
        self.assertEqual(len(self.found("values")), 1)
        self.again().found.accept(["values"])
        self.remembered.look(a_catalog(dataclasses.replace(T, shape=WIDER), lsn=300))
        self.assertEqual(self.remembered.found, {})

    def test_values_computed_anew(self) -> None:
        """ALTER TABLE .. TYPE .. USING shows in a look alone where the type is the same, and else
        is told by the message."""
        before = dataclasses.replace(T, node=1, altered="700")
        self.remembered.begin_copy(a_catalog(before), 100)
        self.again().look(a_catalog(dataclasses.replace(T, node=2, altered="700 800"), lsn=200))
        self.assertIn("was written anew", self.found("values")[0])
        self.remembered.begin_copy(a_catalog(before), 100)
        self.note(1, "t", 200, [ID, (0, "name", 1043, 24)])
        self.again().found.accept(["values"])
        shape = a_shape([ID, (0, "name", 1043, 24)])
        self.remembered.look(
            a_catalog(dataclasses.replace(T, shape=shape, node=2, altered="700 800"), lsn=300)
        )
        self.assertEqual(self.remembered.found, {})
        self.remembered.look(
            a_catalog(dataclasses.replace(T, shape=shape, node=3, altered="700 900"), lsn=400)
        )
        self.assertEqual(len(self.found("values")), 1)

    def test_there_and_back_between_two_looks(self) -> None:
        self.remembered.begin_copy(a_catalog(T), 100)
        self.remembered.look(a_catalog(T, lsn=300))
        self.note(1, "t", 200, [ID, (0, "title", 25, -1)])
        self.note(1, "t", 250)
        self.assertEqual([it.split(" ")[1] for it in self.found("values")], ["title", "name"])

    def test_again_after_it_was_accepted(self) -> None:
        self.remembered.begin_copy(a_catalog(T), 100)
        self.remembered.look(a_catalog(dataclasses.replace(T, shape=WIDER), lsn=300))
        self.remembered.found.accept(["all"])
        for lsn, columns in ((400, [ID, NAME, MORE]), (410, [ID, NAME]), (420, [ID, NAME, MORE])):
            self.note(1, "t", lsn, columns)
        self.assertEqual(self.remembered.found["values"].lsn, 420)

    def test_of_a_store_that_was_not_copied(self) -> None:
        self.remembered.begin(a_catalog(T, lsn=300))
        self.note(1, "t", 200, [ID])
        self.assertEqual(self.remembered.found, {})
        self.note(1, "t", 250)
        self.assertEqual(self.remembered.found["values"].lsn, 250)

    def test_after_the_look_of_a_store_that_was_not_copied(self) -> None:
        self.remembered.begin(a_catalog(T, lsn=300))
        self.note(1, "t", 400, [ID, NAME, MORE])
        self.assertEqual(self.remembered.found["values"].lsn, 400)

    def test_told_until_they_are_in_the_store(self) -> None:
        self.remembered.begin_copy(a_catalog(T), 100)
        self.remembered.look(a_catalog(T, U, lsn=300))
        self.remembered.found.forget_told(299)
        self.assertEqual(len(self.remembered.found.told), 1)
        self.remembered.found.forget_told(300)
        self.assertEqual(self.remembered.found.told, {})


class Names(Case):
    def setUp(self) -> None:
        super().setUp()
        self.remembered.begin_copy(a_catalog(T, U), 100)

    def test_dropped_and_made_anew(self) -> None:
        self.note(3, "t", 200)
        self.again().look(a_catalog(U, a_table(3, "t"), lsn=300))
        self.assertEqual(len(self.found("names")), 1)
        self.assertEqual(self.names(), {"public.t": (3, [1]), "public.u": (2, [])})
        self.assertEqual(self.remembered.text_of(1), "public.t (1)")

    def test_seen_by_a_look_first(self) -> None:
        self.remembered.look(a_catalog(U, a_table(3, "t"), lsn=300))
        self.remembered.found.accept(["all"])
        self.note(3, "t", 200)
        self.assertEqual(self.found("names"), [])
        self.assertEqual(self.names()["public.t"], (3, [1]))

    def test_gone_between_two_looks(self) -> None:
        self.remembered.look(a_catalog(U, a_table(4, "t"), lsn=300))
        self.remembered.found.accept(["all"])
        self.note(3, "t", 200)
        self.assertEqual(len(self.found("names")), 1)
        self.assertEqual(self.names()["public.t"], (4, [1, 3]))

    def test_an_older_name_is_no_news(self) -> None:
        self.remembered.look(a_catalog(a_table(1, "t_old"), U, lsn=300))
        self.note(1, "t", 200)
        self.assertEqual((self.remembered.found, self.names()["public.t"]), ({}, (None, [1])))

    def test_renamed(self) -> None:
        self.note(1, "t2", 200)
        self.assertEqual(self.remembered.found, {})
        self.assertEqual(
            self.names(), {"public.t": (None, [1]), "public.t2": (1, []), "public.u": (2, [])}
        )
        self.note(1, "t", 210)
        self.assertEqual((self.remembered.found, self.names()["public.t"]), ({}, (1, [])))

    def test_swapped(self) -> None:
        self.remembered.look(a_catalog(a_table(1, "u"), a_table(2, "t"), lsn=300))
        self.assertEqual(len(self.found("names")), 2)
        self.assertEqual(self.again().names[("public", "t")].oid, 2)
        self.assertEqual(self.names(), {"public.t": (2, [1]), "public.u": (1, [2])})

    def test_swapped_in_the_stream(self) -> None:
        self.note(2, "t", 200)
        self.note(1, "t_old", 210)
        self.assertEqual(len(self.found("names")), 1)
        self.assertEqual(
            self.names(), {"public.t": (2, [1]), "public.u": (None, [2]), "public.t_old": (1, [])}
        )

    def test_printed(self) -> None:
        self.note(3, "t", 0x1_0000_0200)
        self.again()
        out = io.StringIO()
        with contextlib.redirect_stdout(out):
            names.run(names.Options(self.store), never)
        self.assertEqual(
            [json.loads(line) for line in out.getvalue().splitlines()],
            [
                {"schema": "public", "table": "t", "oid": 3, "since": "1/200", "before": [1]},
                {"schema": "public", "table": "u", "oid": 2, "since": "0/64", "before": []},
            ],
        )

    def test_nothing_to_print(self) -> None:
        with self.assertRaisesRegex(FileError, "^there is no store .*x$"):
            names.run(names.Options(self.store + "x"), never)
        with open(self.store + "x", "w"), self.assertRaisesRegex(FileError, "no such file yet"):
            names.run(names.Options(self.store + "x"), never)


if __name__ == "__main__":
    unittest.main()
