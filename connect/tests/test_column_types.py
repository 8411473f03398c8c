"""What a feed says of its tables' types: as the follower writes it, and as readers get it."""

from __future__ import annotations

import dataclasses
import decimal
import json
from collections.abc import Sequence
from pathlib import Path
from typing import Any
from unittest import mock

from connect_schemas import checked
from feed_text import Column as Written
from feed_text import Definition, Writer

import pgsub_feed
from pgsub_connect.drift.remembered import Remembered
from pgsub_connect.follow.feed_keeper import Keeper
from pgsub_connect.follow.feed_keeper import TypesBeside, TypesFile
from pgsub_connect.follow.retention import Limits, remove_feed
from pgsub_connect.server.catalog import Table
from pgsub_connect.server.column_types import type_of
from pgsub_connect.status.progress import Progress
from pgsub_connect.stream.statuses import Reached
from pgsub_connect.stream.stream_log import Noting
from pgsub_feed import BaseType, ColumnType, TableTypes
from pgsub_feed.column_types import FeedTypes, KnownTypes
from pgsub_feed.errors import Stopped
from pgsub_feed.json_texts import Unreadable
from pgsub_feed.reader.commits import Commit as Passed
from pgsub_feed.relation import Column, Relation, Shape

from .bases import make_base
from .feeds import FeedCase, delete, insert, table
from .test_debezium import MessagesCase
from .test_piping import PipeCase
from .vectors import a_catalog, a_table, begin, commit, logged, relation, update

MOOD, MOODS, PRICE, FROM_10_2 = 16390, 16391, 16400, ((10 << 16) | 2) + 4
ID = ("id", 23, ColumnType("integer", True))
ENUM = ("mood", MOOD, ColumnType("public.mood", False, ("sad", "ok")))
ENUMS = ("moods", MOODS, ColumnType("public.mood[]", False, ("sad", "ok")))
DOMAIN = ("price", PRICE, ColumnType("public.price", True, (), BaseType("numeric(10,2)", 1700, FROM_10_2)))  # fmt: skip
MORE = ("mood", MOOD, ColumnType("public.mood", False, ("sad", "so-so", "ok")))
Typed = tuple[str, int, ColumnType]
# The table of a line, from when on and until when it is so.
Since = tuple[int, str, str | None]
ALL: tuple[Typed, ...] = (ID, ENUM, ENUMS, DOMAIN)


def of_catalog(
    columns: Sequence[Typed] = ALL, primary: tuple[str, ...] = ("id",), oid: int = 1
) -> Table:
    """A table as the catalog has it."""
    shape = Shape("d", tuple(Column(name, kind, -1, False) for name, kind, _ in columns))
    types = tuple(zip(shape.columns, (it for _, _, it in columns)))
    return dataclasses.replace(a_table(oid, "stock", shape), primary=primary, types=types)


def defined(columns: Sequence[Typed] = ALL, letter: str = "d") -> Definition:
    """The same as a feed defines it."""
    key = letter == "d"
    return table(
        columns=[Written(name, kind, -1, key and name == "id") for name, kind, _ in columns],
        letter=letter,
    )


def types_of(columns: Sequence[Typed] = ALL, primary: tuple[str, ...] = ("id",)) -> TableTypes:
    return TableTypes({name: it for name, _, it in columns}, primary)


class TypesCase(FeedCase):
    """A feed, and the store beside it, whose follower looks at the catalog."""

    begun = 0x100

    def setUp(self) -> None:
        super().setUp()
        self.remembered = Remembered(str(self.folder / "copy.db"))
        self.file = TypesFile(str(self.path), 0o640, self.remembered)
        if self.begun:
            self.feed.commit(self.begun)

    def look(self, *tables: Table, lsn: int = 0x150) -> None:
        found = a_catalog(*tables, lsn=lsn)
        if self.remembered.catalog is None:
            self.remembered.begin(found)
        else:
            self.remembered.look(found)
        self.file.write()

    def make_first_rows(self) -> None:
        self.look(of_catalog(), lsn=0x40)
        rows = [(defined(), ("1", "ok", "{}", "9.50"))]
        make_base(self.path, 0x40, [defined()], rows)
        (self.path / f"{0:016X}").unlink()
        self.feed = Writer(self.path, 0x40)
        self.feed.commit(0x200)

    def written(self) -> list[dict[str, Any]]:
        return [json.loads(it) for it in (self.path / "types").read_text().splitlines()]

    def since(self) -> list[Since]:
        """Of which table each line is, from when on and until when."""
        return [(it["table"], it["from"], it.get("until")) for it in self.written()[1:]]


class Files(TypesCase):
    """The file as the follower writes it."""

    def test_a_line_says_all_of_a_table(self) -> None:
        self.look(of_catalog())
        self.assertEqual((self.path / "types").stat().st_mode & 0o777, 0o640)
        price = {"name": "price", "oid": PRICE, "modifier": -1, "type": "public.price"}
        mood = {"name": "mood", "oid": MOOD, "modifier": -1, "type": "public.mood"}
        head, told = self.written()
        self.assertEqual(head, {"types": 1, "lsn": "0/150"})
        self.assertEqual((told["table"], told["from"], told["primary"]), (1, "0/150", ["id"]))
        first = {"name": "id", "oid": 23, "modifier": -1, "type": "integer", "not_null": True}
        self.assertEqual(told["columns"][0], first)
        self.assertEqual(told["columns"][1], mood | {"not_null": False, "labels": ["sad", "ok"]})
        base = {"base": ["numeric(10,2)", 1700, FROM_10_2]}
        self.assertEqual(told["columns"][3], price | {"not_null": True} | base)

    def test_a_look_adds_what_is_new(self) -> None:
        self.look(of_catalog())
        self.look(of_catalog(), lsn=0x200)
        self.assertEqual(self.since(), [(1, "0/150", None)])
        self.assertEqual(self.written()[0]["lsn"], "0/200")
        self.look(of_catalog([ID, MORE]), of_catalog(oid=2), lsn=0x300)
        expected: list[Since] = [(1, "0/150", None), (1, "0/300", None), (2, "0/300", None)]
        self.assertEqual(self.since(), expected)
        self.look(of_catalog(oid=2), lsn=0x400)
        expected[1] = (1, "0/300", "0/400")
        self.assertEqual(self.since(), expected)
        self.look(of_catalog([ID, MORE]), of_catalog(oid=2), lsn=0x500)
        self.assertEqual(self.since(), [(1, "0/150", None), (1, "0/300", None), expected[2]])
        self.look(of_catalog([ID, MORE], ()), of_catalog(oid=2), lsn=0x600)
        self.assertEqual([it[1] for it in self.since()], ["0/150", "0/300", "0/600", "0/300"])

    def test_a_line_goes_with_the_segments_that_needed_it(self) -> None:
        self.look(of_catalog(), of_catalog(oid=2))
        self.feed.commit(0x200)
        self.look(of_catalog([ID]), lsn=0x250)
        self.feed.end()
        self.feed.commit(0x300)
        self.look(of_catalog([ID]), lsn=0x350)
        self.assertEqual(len(self.since()), 3)
        (self.path / f"{0:016X}").unlink()
        self.assertEqual([it.name for it in self.path.glob("0*")], [f"{0x200:016X}"])
        self.look(of_catalog([ID]), lsn=0x360)
        self.assertEqual(len(self.since()), 3)
        self.feed.end()
        self.feed.commit(0x400)
        (self.path / f"{0x200:016X}").unlink()
        self.look(of_catalog([ID]), lsn=0x450)
        self.assertEqual(self.since(), [(1, "0/250", None)])

    def test_a_next_run_goes_on_once_it_has_looked(self) -> None:
        """What a store remembers has no types: until the look the file stays."""
        self.look(of_catalog())
        self.remembered.save()
        self.remembered = Remembered(str(self.folder / "copy.db"))
        self.file = TypesFile(str(self.path), 0o640, self.remembered)
        self.assertFalse(self.file.is_due())
        self.file.begin()
        self.assertEqual(self.since(), [(1, "0/150", None)])
        self.look(of_catalog([ID]), lsn=0x200)
        self.assertEqual(self.since(), [(1, "0/150", None), (1, "0/200", None)])

    def test_what_is_no_such_file_is_written_anew(self) -> None:
        for text in (b"", b"\xff\n", b'{"types":1}\n[]\n', b'{"types":1}\n{"table":1}\n'):
            (self.path / "types").write_bytes(text)
            file = TypesFile(str(self.path), 0o600, self.remembered)
            self.remembered.begin(a_catalog(of_catalog(), lsn=0x150))
            file.begin()
            self.assertEqual(self.since(), [(1, "0/150", None)])

    def test_it_is_there_before_first_rows_are(self) -> None:
        self.remembered.begin_copy(a_catalog(of_catalog(), lsn=0x99), 0x40)
        TypesBeside(self.file).begin(0x40)
        self.assertEqual(self.since(), [(1, "0/40", None)])
        remove_feed(str(self.path))
        self.assertFalse(self.path.exists())

    def test_without_a_look_readers_wait(self) -> None:
        self.file.begin()
        self.assertEqual(self.written(), [{"types": 1, "lsn": "0/0"}])

    def test_a_full_disk_is_told_once_and_tried_again(self) -> None:
        self.remembered.begin(a_catalog(of_catalog()))
        keeper = Keeper(Limits(), Progress(), lambda: Reached(0, 0), self.file)
        with logged() as lines:
            with mock.patch("pgsub_feed.files.os.replace", side_effect=OSError(28, "full")):
                keeper.tend(0.0)
                keeper.tend(0.1)
            self.assertFalse((self.path / "types").exists())
            keeper.tend(0.2)
        self.assertEqual(self.since(), [(1, "0/64", None)])
        self.assertEqual(len([it for it in lines if "types: full" in it]), 1)


class Answers(TypesCase):
    """What readers know by it."""

    def at(self, lsn: int, columns: Sequence[Typed] = ALL) -> TableTypes | None:
        known = KnownTypes()
        known.take((self.path / "types").read_bytes())
        shape = Shape("d", tuple(Column(name, kind, -1, False) for name, kind, _ in columns))
        found = Relation(1, "public", "stock", shape)
        return known.of(found, Passed(lsn, 0, 0, 0))

    def test_what_was_known_last_at_an_lsn(self) -> None:
        self.look(of_catalog(), lsn=0x200)
        self.look(of_catalog(primary=()), lsn=0x300)
        self.assertEqual(self.at(0x200), types_of())
        self.assertEqual(self.at(0x2FF), types_of())
        self.assertEqual(self.at(0x300), types_of(primary=()))
        # before the first look what that has found
        self.assertEqual(self.at(0x100), types_of())

    def test_a_definition_gets_what_has_its_columns(self) -> None:
        """However late the look at them was."""
        self.look(of_catalog([ID]), lsn=0x200)
        self.look(of_catalog(), lsn=0x300)
        self.assertEqual(self.at(0x250), types_of())
        self.assertEqual(self.at(0x400, [ID]), types_of([ID]))
        self.assertEqual(self.at(0x400, [ID, ENUM]), types_of())
        self.assertIsNone(self.at(0x400, [*ALL, ("gone", 25, ColumnType("text"))]))
        self.assertIsNone(self.at(0x400, [("id", 20, ColumnType("bigint"))]))

    def test_what_is_no_such_text(self) -> None:
        for text in (
            b'{"types":2,"lsn":"0/0"}',
            b'{"types":1,"lsn":"0/0"}\n{"table":1,"from":"0/1","primary":[],"columns":[{}]}',
            b'{"types":1,"lsn":0}',
            b"[]",
        ):
            with self.assertRaises((Unreadable, KeyError)):
                KnownTypes().take(text)


class Reading(TypesCase):
    """The library."""

    def read(self, **more: Any) -> list[pgsub_feed.Commit]:
        return list(pgsub_feed.read(self.path, **more))

    def test_the_table_of_a_change_has_them(self) -> None:
        self.look(of_catalog())
        row = ("1", "ok", "{sad,NULL}", "9.50")
        self.feed.commit(0x200, [insert(*row, of=defined())])
        found = self.read()[-1]
        change = found.changes[0]
        assert isinstance(change, pgsub_feed.Insert)
        self.assertEqual(change.table.types, types_of())
        self.assertEqual(found.tables[0].types, types_of())
        python = change.after.python()
        self.assertEqual(python["price"], decimal.Decimal("9.50"))
        self.assertEqual(python["mood"], "ok")

    def test_each_commit_has_those_of_its_time(self) -> None:
        self.look(of_catalog([ID]))
        self.look(of_catalog([ID], ()), lsn=0x250)
        self.look(of_catalog([ID]), lsn=0x450)
        for end in (0x200, 0x300, 0x400, 0x500, 0x600):
            self.feed.commit(end, [insert("1", of=defined([ID]))])
        found = [it.changes[0].table.types for it in self.read()[1:]]
        first, other = types_of([ID]), types_of([ID], ())
        self.assertEqual(found, [first, other, other, first, first])
        # (what is the same is made once)
        self.assertIs(found[1], found[2])

    def test_first_rows_have_them(self) -> None:
        self.make_first_rows()
        changes = self.read(after=0)[0].changes
        self.assertEqual([it.table.types for it in changes], [types_of(), types_of()])

    def test_a_feed_without_the_file(self) -> None:
        self.feed.commit(0x200, [insert("1", of=defined([ID]))])
        with mock.patch("time.sleep", side_effect=AssertionError):
            self.assertIsNone(self.read()[-1].changes[0].table.types)

    def test_a_look_is_waited_for(self) -> None:
        self.file.begin()
        self.feed.commit(0x200, [insert("1", of=defined([ID]))])

        def look(_: float) -> None:
            self.look(of_catalog([ID]), lsn=0x300)

        with mock.patch("pgsub_feed.column_types.time.sleep", look):
            self.assertEqual(self.read()[-1].changes[0].table.types, types_of([ID]))

    def test_a_dropped_column_is_looked_at(self) -> None:
        """What was known of more columns may be old."""
        self.look(of_catalog([ID, ENUM]))
        self.feed.commit(0x200, [insert("1", of=defined([ID]))])

        def look(_: float) -> None:
            self.look(of_catalog([ID], primary=()), lsn=0x300)

        with mock.patch("pgsub_feed.column_types.time.sleep", look):
            self.assertEqual(self.read()[-1].changes[0].table.types, types_of([ID], ()))

    def test_a_look_that_never_comes_is_waited_for_once(self) -> None:
        self.file.begin()
        now, slept = [0.0], list[float]()

        def sleep(seconds: float) -> None:
            slept.append(seconds)
            now[0] += 1.0

        for end in (0x200, 0x300):
            self.feed.commit(end, [insert("1", of=defined([ID]))])
        with mock.patch("pgsub_feed.column_types.time.sleep", sleep), mock.patch(
            "pgsub_feed.column_types.time.monotonic", lambda: now[0]
        ):
            self.assertIsNone(self.read()[-1].changes[0].table.types)
        self.assertEqual(len(slept), 21)

    def test_who_waits_may_be_stopped(self) -> None:
        self.file.begin()
        self.feed.commit(0x200, [insert("1", of=defined([ID]))])

        def stop() -> None:
            raise Stopped

        types = FeedTypes(str(self.path), stop)
        shape = Shape("d", (Column("id", 23, -1, False),))
        commit = Passed(0x200, 0x100, 0, 1)
        with self.assertRaises(Stopped):
            types.of(Relation(1, "public", "stock", shape), commit)

    def test_a_spoiled_file_is_told_once(self) -> None:
        (self.path / "types").write_text("no\n")
        for end in (0x200, 0x300):
            self.feed.commit(end, [insert("1", of=defined([ID]))])
        with logged() as lines:
            self.assertIsNone(self.read()[-1].changes[0].table.types)
        self.assertEqual(len(lines), 1)
        self.assertRegex(lines[0], "types: not a file of types: .*: types and keys are those of")


class Elsewhere(PipeCase, TypesCase):
    """A reader on another host."""

    def test_the_table_of_a_change_has_them(self) -> None:
        self.look(of_catalog([ID]))
        self.feed.commit(0x200, [insert("1", of=defined([ID]))])
        self.feed.commit(0x300, [insert("2", of=defined([ID])), delete("2", of=defined([ID]))])
        found = [it.table.types for commit in self.read() for it in commit.changes]
        self.assertEqual(found, [types_of([ID])] * 3)

    def test_first_rows_have_them(self) -> None:
        self.make_first_rows()
        changes = self.read(after=0)[0].changes
        self.assertEqual([it.table.types for it in changes], [types_of(), types_of()])

    def test_what_is_new_comes_before_its_commit(self) -> None:
        self.look(of_catalog([ID]))
        self.feed.commit(0x200, [insert("1", of=defined([ID]))])
        commits = pgsub_feed.read(self.url, 0x100, follow=True)
        self.assertEqual(next(commits).changes[0].table.types, types_of([ID]))
        self.look(of_catalog(), lsn=0x250)
        self.feed.commit(0x300, [insert("1", "ok", "{}", "1.00", of=defined())])
        self.assertEqual(next(commits).changes[0].table.types, types_of())

    def test_what_is_no_such_text(self) -> None:
        self.look(of_catalog([ID]))
        with mock.patch.object(KnownTypes, "take", side_effect=Unreadable("so")), self.assertRaises(
            pgsub_feed.Damaged
        ) as raised:
            self.feed.commit(0x200, [insert("1", of=defined([ID]))])
            self.read()
        self.assertIn("this says nothing of types: so", str(raised.exception))


class Debezium(MessagesCase, TypesCase):
    """Messages of Debezium's form."""

    begun = 0

    def payloads(self, *words: str) -> list[Any]:
        return [checked(it) for it in self.lines("--schemas", *words)]

    def fields(self, line: str, part: str = "after") -> dict[str, Any]:
        schema = json.loads(line)["schema"]
        fields = (
            schema["fields"]
            if part == "key"
            else next(it["fields"] for it in schema["fields"] if it["field"] == part)
        )
        return {it["field"]: it for it in fields}

    def test_labels_bases_and_nulls(self) -> None:
        self.look(of_catalog())
        row = ("1", "ok", "{sad,NULL}", "1.28")
        self.feed.commit(0x200, [insert(*row, of=defined())])
        line = self.lines("--schemas")[0]
        fields = self.fields(line)
        optional = {name: it["optional"] for name, it in fields.items()}
        self.assertEqual(optional, {"id": False, "mood": True, "moods": True, "price": False})
        enum = {"name": "io.debezium.data.Enum", "parameters": {"allowed": "sad,ok"}}
        self.assertEqual(fields["mood"] | enum, fields["mood"])
        self.assertEqual(fields["moods"]["items"] | enum, fields["moods"]["items"])
        self.assertEqual(fields["price"]["name"], "org.apache.kafka.connect.data.Decimal")
        self.assertEqual(fields["price"]["parameters"]["scale"], "2")
        after = checked(line)["after"]
        self.assertEqual(after, {"id": 1, "mood": "ok", "moods": ["sad", None], "price": "AIA="})

    def test_a_null_where_there_should_be_none(self) -> None:
        """As in a row from before the column: it is optional from there on."""
        self.look(of_catalog())
        for end, row in ((0x200, ("1", "ok", "{}", None)), (0x300, ("2", "ok", "{}", "1.28"))):
            self.feed.commit(end, [insert(*row, of=defined())])
        lines = self.lines("--schemas")
        self.assertEqual([checked(it)["after"]["price"] for it in lines], [None, "AIA="])
        self.assertEqual([self.fields(it)["price"]["optional"] for it in lines], [True, True])

    def test_a_label_that_was_added(self) -> None:
        self.look(of_catalog([ID, ENUM]))
        self.feed.commit(0x200, [insert("1", "ok", of=defined([ID, ENUM]))])
        self.look(of_catalog([ID, MORE]), lsn=0x250)
        self.feed.commit(0x300, [insert("2", "so-so", of=defined([ID, ENUM]))])
        found = [self.fields(it)["mood"]["parameters"]["allowed"] for it in self.lines("--schemas")]
        self.assertEqual(found, ["sad,ok", "sad,so-so,ok"])

    def test_a_primary_key_that_is_no_identity(self) -> None:
        self.look(of_catalog([ID, ENUM]))
        self.feed.commit(0x200, [insert("1", "ok", of=defined([ID, ENUM], "f"))])
        key = self.lines("--keys")[0].split("\t")[0]
        self.assertEqual(json.loads(key), {"id": 1})


class Looks(TypesCase):
    """When the server is looked at."""

    def wants_look(self, *columns: tuple[int, str, int, int]) -> bool:
        noting = Noting(Progress().stream, self.remembered)
        told = (begin(500, 77), relation(1, "stock", columns), update(1), commit(500, 510))
        noting.note_all(told)
        return noting.relation_log.wants_look

    def test_other_columns_than_at_the_last_look(self) -> None:
        self.look(of_catalog([ID]), lsn=0x64)
        self.remembered.note_feed(str(self.path))
        self.assertFalse(self.wants_look((1, "id", 23, -1)))
        self.assertTrue(self.wants_look((1, "id", 20, -1)))
        self.assertTrue(self.wants_look((1, "id", 23, -1), (0, "more", 25, -1)))

    def test_without_a_feed(self) -> None:
        self.look(of_catalog([ID]), lsn=0x64)
        self.assertFalse(self.wants_look((1, "id", 20, -1)))


class Catalogs(TypesCase):
    def test_rows_of_the_catalog(self) -> None:
        labels = {MOOD: ["sad", "ok"]}
        for row, expected in (
            (["1", "1", "integer", "t", None, None, None, None], ID[2]),
            (["1", "2", "public.mood", "f", str(MOOD), None, None, None], ENUM[2]),
            (
                ["1", "3", "public.price", "t", None, "numeric(10,2)", "1700", str(FROM_10_2)],
                DOMAIN[2],
            ),
            (["1", "4", "public.none", "f", "77", None, None, None], ColumnType("public.none")),
        ):
            self.assertEqual(type_of(row, labels), expected)
