"""What is published: queries, several publications, identities, and how a publication is made or
rejected."""

from __future__ import annotations

import dataclasses
import re
import unittest
from unittest import mock

from pgsub_connect.errors import ServerError
from pgsub_connect.server import publication_setup, session
from pgsub_connect.server.catalog import Leaves, Part, Table
from pgsub_connect.server.catalog_reader import read_parts
from pgsub_connect.server.publication_setup import Maker, Wanted, names_of
from pgsub_connect.server.publications import published_tables, united, with_cure
from pgsub_connect.server.replica_identity import identity, publishable_tables
from pgsub_connect.server.session import Subscription
from pgsub_feed.errors import Stopped
from pgsub_feed.relation import Column, Shape

from .fake_server import FakeServer, Quiet, Row, connection_to

KEY, OTHER = Column("id", 23, -1, True), Column('Q"x', 25, -1, False)


def table(
    oid: int = 16385,
    row_filter: str | None = None,
    kind: str = "r",
    columns: tuple[Column, ...] = (KEY, OTHER),
    publication: str = "pgsub",
    leaves: Leaves | None = None,
) -> Table:
    parts = {publication: Part(row_filter, None, False)}
    return Table(oid, "public", 'st"k', kind, Shape("d", columns), parts, leaves=leaves)


class Query(unittest.TestCase):
    def test_rows_of_a_table_are_its_own(self) -> None:
        self.assertEqual(
            table().query(), 'COPY (SELECT "id", "Q""x" FROM ONLY "public"."st""k") TO STDOUT'
        )

    def test_rows_of_a_partitioned_table_are_those_of_its_partitions(self) -> None:
        self.assertEqual(
            table(kind="p").query(), 'COPY (SELECT "id", "Q""x" FROM "public"."st""k") TO STDOUT'
        )

    def test_filter(self) -> None:
        query = 'COPY (SELECT "id", "Q""x" FROM ONLY "public"."st""k" WHERE (id > 3)) TO STDOUT'
        self.assertEqual(table(row_filter="(id > 3)").query(), query)

    def test_no_columns(self) -> None:
        self.assertEqual(
            table(columns=()).query(), 'COPY (SELECT  FROM ONLY "public"."st""k") TO STDOUT'
        )


class Cure(unittest.TestCase):
    def test_of_different_column_lists(self) -> None:
        """Where the server ended a session by them, what goes on is told; another error stays as it
        is."""
        error = ServerError("cannot use different column lists", "0A000")
        cured = with_cure(error, ["few", "more"])
        self.assertIn("--publication few --until now", str(cured))
        self.assertTrue(str(cured).startswith(str(error)) and cured.is_lasting())
        other = ServerError("other", "42501")
        self.assertIs(with_cure(error, ["few"]), error)
        self.assertIs(with_cure(other, ["few", "more"]), other)

    def test_of_a_publication_that_is_gone(self) -> None:
        error = ServerError('publication "pgsub" does not exist', "42704")
        cured = with_cure(error, ["pgsub"])
        self.assertRegex(str(cured), "is too late: `pgsub-connect drop`, then .* --create")
        self.assertTrue(str(cured).startswith(str(error)) and cured.is_lasting())
        other = ServerError('type "colour" does not exist', "42704")
        self.assertIs(with_cure(other, ["pgsub"]), other)


class Unlogged(unittest.TestCase):
    """Rows of partitions whose changes are in no log aren't read."""

    def test_unlogged_ones_are_left_out(self) -> None:
        leaves = Leaves(['"public"."p1"'], [7, 8], [])
        some = table(kind="p", row_filter="a OR b", leaves=leaves)
        self.assertEqual(
            some.source(), 'FROM "public"."st""k" WHERE (a OR b) AND tableoid NOT IN (7, 8)'
        )
        some = table(kind="p", leaves=leaves)
        self.assertEqual(some.source(), 'FROM "public"."st""k" WHERE tableoid NOT IN (7, 8)')

    def test_foreign_ones_are_not_touched(self) -> None:
        leaves = Leaves(['"public"."p1"', '"x"."p2"'], [7], [9])
        some = table(kind="p", row_filter="(id > 3)", leaves=leaves)
        each = (
            'SELECT "id", "Q""x" FROM ONLY "public"."p1" WHERE (id > 3)',
            'SELECT "id", "Q""x" FROM ONLY "x"."p2" WHERE (id > 3)',
        )
        self.assertEqual(some.source(), f"FROM ({' UNION ALL '.join(each)}) AS logged")
        some = dataclasses.replace(some, leaves=Leaves([], [], [9]))
        self.assertEqual(
            some.source(),
            'FROM (SELECT "id", "Q""x" FROM ONLY "public"."st""k" WHERE (id > 3)) AS logged',
            "it has no rows itself",
        )

    def test_which_they_are(self) -> None:
        server = FakeServer()
        server.answer(
            "pg_get_publication_tables",
            [row(5, "root", "p"), row(6, "other", "p"), row(7, "plain"), row(8, "last", "p")],
        )
        server.answer(
            "RECURSIVE",
            [
                ["5", "11", "public", "p1", "r", "p"],
                ["5", "12", "public", "p2", "r", "u"],
                ["5", "13", "public", "p3", "f", "p"],
                ["6", "14", "public", "p4", "r", "p"],
                ["8", "15", "public", "p5", "r", "u"],
            ],
        )
        found = published_tables(connection_to(server), ["a"])
        self.assertEqual(
            [it.leaves for it in found],
            [Leaves(['"public"."p1"'], [12], [13]), None, None, Leaves([], [15], [])],
        )
        self.assertIn("IN (5, 6, 8)", server.told("RECURSIVE")[0])


class United(unittest.TestCase):
    """A table of several publications."""

    def test_filters_are_joined_by_or(self) -> None:
        tables = [
            table(row_filter="(id > 3)"),
            table(row_filter="(id < 0)", publication="b"),
            table(row_filter="(id > 3)", publication="c"),
        ]
        self.assertEqual(united(tables).row_filter, "((id > 3)) OR ((id < 0))")

    def test_one_filter_stays_as_it_is(self) -> None:
        tables = [table(row_filter="(id > 3)", publication=it) for it in "ab"]
        self.assertEqual(united(tables).row_filter, "(id > 3)")

    def test_no_filter_wins(self) -> None:
        tables = [table(row_filter="(id > 3)"), table(publication="b")]
        self.assertIsNone(united(tables).row_filter)

    def test_other_columns_are_rejected(self) -> None:
        with self.assertRaisesRegex(
            ServerError, "different column lists for table public.st"
        ) as raised:
            united([table(), table(columns=(KEY,))])
        self.assertTrue(raised.exception.is_lasting())


def row(
    oid: int,
    name: str,
    kind: str = "r",
    row_filter: str | None = None,
    listed: str | None = None,
    publication: str = "a",
) -> list[str | None]:
    """A row of what is published. (The server lists what is sent, and what was asked for.)"""
    named = [publication, str(oid), "public", name, kind, "d"]
    return [*named, row_filter, None, listed, "f", "t", "t", "1", "7", "t", "0"]


ATTRIBUTES = (
    ("id", "23", "-1", "1", "f", "t"),
    ("v", "25", "-1", "2", "f", "f"),
    ("g", "25", "-1", "3", "t", "f"),
    ("w", "25", "-1", "4", "f", "f"),
)


def attributes(command: str) -> list[Row]:
    """The columns of each table that a query asks for."""
    found = re.search(r"attrelid IN \(([^)]*)\)", command)
    assert found
    return [[oid, *it] for oid in found[1].split(", ") for it in ATTRIBUTES]


class Cut(unittest.TestCase):
    def test_names_that_are_made_of_others_are_whole(self) -> None:
        """Letters of several bytes too: the server would cut within them."""
        for name in ("p" * 63, "\u0416" * 31, "p\U0001f600" * 12):
            part = publication_setup.cut(name)
            self.assertTrue(name.startswith(part))
            self.assertIn(len(part.encode()), range(37, 41))


class Published(unittest.TestCase):
    def setUp(self) -> None:
        self.server = FakeServer()
        self.server.answer("FROM pg_catalog.pg_attribute", attributes)

    def publish(self, *rows: Row) -> None:
        self.server.answer("pg_get_publication_tables", list(rows))

    def test_union_by_oid(self) -> None:
        of_b = [row(5, "y", row_filter="(v)", publication="b"), row(7, "z", publication="b")]
        self.publish(row(9, "x"), row(5, "y"), *of_b)
        found = published_tables(connection_to(self.server), ["a", "b"])
        self.assertEqual(
            [(it.oid, it.row_filter) for it in found], [(5, None), (7, None), (9, None)]
        )

    def test_partitions_that_are_sent_as_their_root(self) -> None:
        self.publish(row(5, "p1"), row(4, "p", kind="p", publication="b"))
        self.server.answer("pg_partition_ancestors", [["5", "4"], ["5", "3"]])
        self.assertEqual(
            [it.oid for it in published_tables(connection_to(self.server), ["a", "b"])], [4]
        )

    def test_a_list_of_all_columns_is_none(self) -> None:
        self.publish(row(5, "t"), row(5, "t", listed="1,2,4", publication="b"))
        self.assertEqual(
            len(published_tables(connection_to(self.server), ["a", "b"])[0].columns), 3
        )

    def test_lists_before_15(self) -> None:
        server = FakeServer(130010)
        published_tables(connection_to(server), ["a"])
        self.assertNotIn("g.attrs", server.commands[0])
        self.assertNotIn("g.qual", server.commands[0])

    def columns(self, version: int, listed: str | None) -> tuple[list[str], str]:
        server = FakeServer(version)
        server.answer("FROM pg_catalog.pg_attribute", attributes)
        server.answer(
            "pg_get_publication_tables", [row(5, "t", listed=listed), row(6, "u", listed="2")]
        )
        tables = read_parts(connection_to(server), ["a"])
        self.assertEqual([it.name for it in tables[1].columns], ["v"])
        self.assertEqual(len(server.commands), 2)
        return [it.name for it in tables[0].columns], server.commands[-1]

    def test_generated_columns(self) -> None:
        """From 18 on what the server says is exact."""
        for version, listed, wanted in (
            (150018, None, ["id", "v", "w"]),
            (150018, "1,3", ["id"]),
            (180006, "1,3", ["id", "g"]),
            (180006, None, ["id", "v", "w"]),
        ):
            self.assertEqual(self.columns(version, listed)[0], wanted, (version, listed))
        self.assertNotIn("attgenerated", self.columns(110000, None)[1])

    def test_one_query_reads_the_columns_of_all(self) -> None:
        self.publish(row(9, "x"), row(5, "y"), row(7, "z"))
        self.assertEqual(
            [len(it.columns) for it in published_tables(connection_to(self.server), ["a"])],
            [3, 3, 3],
        )
        self.assertEqual(len(self.server.told("WHERE a.attrelid IN")), 1)

    def test_tables_that_may_be_listed(self) -> None:
        for version, roots in ((150018, True), (120000, False)):
            server = FakeServer(version)
            server.answer("pg_class", [["Odd s", 'T"x']])
            self.assertEqual(publishable_tables(connection_to(server)), ['"Odd s"."T""x"'])
            self.assertEqual("NOT c.relispartition" in server.commands[0], roots)


class Making(Quiet):
    """What the server is told."""

    def setUp(self) -> None:
        super().setUp()
        self.server = server = FakeServer()
        server.answer("current_setting('search_path')", [['"$user", public']])
        server.answer("pg_is_in_recovery", [["f"]])
        self.theirs: tuple[str, ...] = ()
        server.answer("SELECT p.oid FROM pg_catalog.pg_publication p", self.oid)
        server.answer("c.relkind IN ('r', 'p') AND NOT", [["public", "stock"], ["public", "audit"]])
        patch = mock.patch.object(session, "Connection", server.connect)
        patch.start()
        self.addCleanup(patch.stop)

    def keyless(self, *lists: list[list[str | None]]) -> None:
        """What the queries for tables without an identity give, one after the other."""
        left = list(lists)
        self.server.answer(
            "AND NOT (c.relkind = 'r' AND c.relreplident = 'f'",
            lambda _: left.pop(0) if left else [],
        )

    def oid(self, command: str) -> list[Row]:
        """The OID of a publication that is there, or that was made."""
        name = command.rpartition("= '")[2].rstrip("'")
        return (
            [["777"]] if name in self.theirs or any(f'"{name}"' in it for it in self.made()) else []
        )

    def there(self, *names: str) -> None:
        self.theirs = names
        self.server.answer(
            "SELECT FROM pg_catalog.pg_publication",
            lambda it: [[]] if any(f"'{name}'" in it for name in names) else [],
        )

    def maker(self, **wanted: object) -> Maker:
        return Maker(Subscription(), Wanted(["pgsub"], **wanted), lambda: None)  # type: ignore[arg-type]

    def made(self) -> list[str]:
        return self.server.told("CREATE PUBLICATION")

    def test_a_list_of_what_is_there(self) -> None:
        maker = self.maker()
        maker.make()
        self.assertEqual(
            self.made(),
            ['CREATE PUBLICATION "pgsub" FOR TABLE ONLY "public"."stock", ONLY "public"."audit"'],
        )
        self.assertEqual(self.server.commands[-1], "COMMIT")
        self.assertEqual((maker.made, maker.publications), ({"pgsub": 777}, ["pgsub"]))

    def test_all_that_is_done_is_one_transaction(self) -> None:
        self.maker().make()
        self.assertLess(self.server.index("BEGIN"), self.server.index("CREATE"))
        # (whatever default_transaction_read_only says)
        self.assertEqual(
            len(self.server.told("BEGIN READ WRITE; SET LOCAL synchronous_commit = local")), 1
        )
        self.assertLess(self.server.index("CREATE"), self.server.index("AND NOT (c.relkind"))
        self.assertLess(self.server.index("AND NOT (c.relkind"), self.server.index("COMMIT"))

    def test_tables_are_found_by_the_search_path_of_the_role(self) -> None:
        self.maker(tables=["stock", "ONLY x (a, b)"]).make()
        self.assertEqual(self.made(), ['CREATE PUBLICATION "pgsub" FOR TABLE stock, ONLY x (a, b)'])
        before = self.server.commands[self.server.index("CREATE") - 1]
        self.assertIn("set_config('search_path', '\"$user\", public', true)", before)
        self.assertEqual(
            self.server.commands[self.server.index("CREATE") + 1], "SET LOCAL search_path = ''"
        )

    def test_what_an_earlier_run_has_made(self) -> None:
        """It is made anew, as it is wanted now; or stays, where nothing is said of it."""
        for keeps in (False, True):
            self.theirs = ("pgsub",)
            maker = self.maker(keeps=keeps)
            maker.left = {"pgsub": 777}
            maker.make()
            self.assertEqual(bool(self.server.told("DROP PUBLICATION")), not keeps)
            self.server.commands.clear()
        self.theirs = ()
        self.refused(self.maker(keeps=True), "no publication pgsub any more: make it, or")

    def test_a_name_that_is_no_tables(self) -> None:
        """Which one may be meant is told; of others the error alone."""
        known: list[Row] = [["public", "stock"], ["sales", "orders"], ["sales", "Old Stock"]]
        self.server.answer("AND c.oid >= 16384 ORDER BY", known)
        self.server.answer("CREATE PUBLICATION", ServerError("no such relation", "42P01"))
        for name, told in (
            ("stokc", r"^no such relation: did you mean stock\?$"),
            ("orders", r"did you mean sales\.orders\?$"),
            ("sales.orderz (id)", r"did you mean sales\.orders\?$"),
            ('ONLY "Old Stock"', r"did you mean sales\.Old Stock\?$"),
            ("quite_another", r"^no such relation$"),
        ):
            self.refused(self.maker(tables=["public.stock", name]), told)
        self.server.answer("CREATE PUBLICATION", ServerError("permission denied", "42501"))
        self.refused(self.maker(), "permission denied: `pgsub-connect check` .* which rights")

    def test_all_tables_only_where_asked_for(self) -> None:
        self.maker(all_tables=True).make()
        self.assertEqual(self.made(), ['CREATE PUBLICATION "pgsub" FOR ALL TABLES'])

    def test_no_tables(self) -> None:
        self.server.answer("c.relkind IN ('r', 'p') AND NOT", [])
        self.refused(self.maker(), "no tables that can be published")

    def refused(self, maker: Maker, text: str) -> None:
        with self.assertRaisesRegex(ServerError, text) as raised:
            maker.make()
        self.assertTrue(raised.exception.is_lasting())
        self.assertEqual(self.server.told("COMMIT"), [])
        self.assertEqual(maker.made, {})
        self.assertEqual(self.server.opened, self.server.closed)
        # (as the server forgets it)
        self.server.commands.clear()

    def test_keyless_tables_are_refused(self) -> None:
        wanteds: list[dict[str, object]] = [
            {},
            {"tables": ["audit"]},
            {"all_tables": True},
            {"all_tables": True, "keyless": "leave-out"},
        ]
        for wanted in wanteds:
            self.keyless([["5", "public", "audit"]])
            self.refused(
                self.maker(**wanted), "1 table without a usable replica identity: public.audit"
            )

    def test_what_the_server_rejects(self) -> None:
        """As where a column list leaves out the key."""
        text = 'ERROR:  cannot delete from table "stock"\nDETAIL:  Column list used by the publication does not cover the replica identity.'
        self.server.answer(
            "WHERE c.relkind = 'r' ORDER BY 2, 3", [["5", "public", "stock"], ["6", "public", "x"]]
        )
        for sqlstate in ("42P10", "55000"):
            self.server.answer(
                'EXPLAIN DELETE FROM ONLY "public"."stock"', ServerError(text, sqlstate)
            )
            self.refused(
                self.maker(),
                r"public\.stock \(Column list used by the publication does not cover the replica identity\)\.",
            )
        self.server.answer(
            'EXPLAIN DELETE FROM ONLY "public"."stock"', ServerError("denied", "42501")
        )
        self.maker().make()

    def test_what_says_nothing_of_a_table_ends_it(self) -> None:
        self.server.answer("WHERE c.relkind = 'r' ORDER BY 2, 3", [["5", "public", "stock"]])
        for sqlstate in ("", "40P01", "55P03", "57P01"):
            self.server.answer("EXPLAIN DELETE", ServerError("no", sqlstate))
            with self.assertRaises(ServerError) as raised:
                self.maker().make()
            self.assertEqual(
                (raised.exception.sqlstate, self.server.told("COMMIT")), (sqlstate, [])
            )
            self.server.commands.clear()

    def test_generated_columns_of_an_identity(self) -> None:
        self.assertNotIn("attgenerated", identity(170000))
        self.assertEqual(identity(180000).count("NOT IN ('')"), 2)
        self.assertEqual(identity(180000, True).count("NOT IN ('', 's')"), 2)

    def listed(self) -> None:
        self.server.answer(
            "SELECT DISTINCT r.prrelid", [["5", "public", "audit", "a, b", "(a > 1)"]]
        )
        self.server.answer(
            "SELECT n.nspname || '.' || c.relname", [["public.audit"], ["public.stock"]]
        )

    def test_keyless_tables_are_left_out(self) -> None:
        self.keyless([["5", "public", "audit"]], [])
        self.listed()
        maker = self.maker(keyless="leave-out")
        maker.make()
        self.assertEqual(
            self.server.told("ALTER PUBLICATION"),
            ['ALTER PUBLICATION "pgsub" DROP TABLE "public"."audit"'],
        )
        self.assertEqual((len(self.made()), maker.publications), (1, ["pgsub"]))

    def test_keyless_tables_get_a_publication_of_their_own(self) -> None:
        self.keyless([["5", "public", "audit"]], [])
        self.listed()
        maker = self.maker(keyless="inserts")
        maker.make()
        self.assertEqual(
            self.made()[1],
            'CREATE PUBLICATION "pgsub_inserts" FOR TABLE ONLY "public"."audit" (a, b) WHERE ((a > 1))'
            " WITH (publish = 'insert, truncate')",
        )
        self.assertEqual(maker.publications, ["pgsub", "pgsub_inserts"])
        self.assertEqual(maker.keep(), {"pgsub": 777, "pgsub_inserts": 777})

    def test_nothing_left_to_publish(self) -> None:
        self.keyless([["5", "public", "audit"]])
        self.listed()
        self.server.answer("SELECT n.nspname || '.' || c.relname", [["public.audit"]])
        self.refused(self.maker(keyless="leave-out"), "no table is left")

    def test_a_schema_can_not_leave_out_a_table(self) -> None:
        self.keyless([["5", "s", "audit"]])
        self.refused(self.maker(tables=["TABLES IN SCHEMA s"], keyless="leave-out"), "s.audit")

    def test_a_standby_makes_none(self) -> None:
        self.server.answer("pg_is_in_recovery", [["t"]])
        self.refused(self.maker(), "make it at the primary")
        self.there("pgsub")
        self.refused(self.maker(tables=["a"]), "leave --table out")
        self.assertEqual(self.made(), [])
        self.maker().make()

    def contents(self, there: list[str], asked: list[str]) -> None:
        """What the publication lists, and what one of --table would."""
        left = [there, asked]
        self.server.answer(
            "SELECT n.nspname || '.' || c.relname", lambda _: [[it] for it in left.pop(0)]
        )

    def test_a_publication_that_is_there_stays(self) -> None:
        self.there("pgsub")
        self.contents(["public.stock"], ["public.stock"])
        maker = self.maker(tables=["stock"])
        maker.make()
        self.assertEqual(maker.made, {})
        self.assertEqual(len(self.server.told("ROLLBACK TO SAVEPOINT")), 1)

    def test_a_publication_that_differs(self) -> None:
        self.there("pgsub")
        self.contents(["public.a", "public.x"], ["public.a", "public.b"])
        self.refused(self.maker(tables=["a", "b"]), r"it lacks public\.b and has public\.x too")

    def test_a_publication_for_some_tables_is_not_one_for_all(self) -> None:
        self.there("pgsub")
        self.contents(["public.a"], [])
        self.refused(self.maker(all_tables=True), "isn't one for all tables")

    def test_a_role_that_may_not_compare(self) -> None:
        self.there("pgsub")
        self.contents(["public.a"], [])
        self.server.answer("CREATE PUBLICATION", ServerError("must be owner of table a", "42501"))
        self.refused(
            self.maker(tables=["a"]),
            "--table can't be compared with it: must be owner.* Leave --table out",
        )

    def test_a_stop_before_the_end_leaves_nothing(self) -> None:
        def stop(_: str) -> list[list[str | None]]:
            raise Stopped

        self.server.answer("CREATE PUBLICATION", stop)
        maker = self.maker()
        with self.assertRaises(Stopped):
            maker.make()
        maker.take_back()
        self.assertEqual(self.server.told("DROP") + self.server.told("COMMIT"), [])

    def test_a_stop_at_the_end_is_undone(self) -> None:
        def stop(_: str) -> list[list[str | None]]:
            raise Stopped

        self.server.answer("COMMIT", stop)
        maker = self.maker()
        with self.assertRaises(Stopped):
            maker.make()
        self.server.answer("COMMIT", [])
        self.server.answer("SELECT p.pubname", [["pgsub"]])
        maker.take_back()
        self.assertEqual(len(self.server.told('DROP PUBLICATION "pgsub"')), 1)

    def test_another_attempt_finds_what_was_made(self) -> None:
        self.keyless([["5", "public", "audit"]], [])
        self.listed()
        maker = self.maker(keyless="inserts")
        maker.make()
        maker.make()
        self.assertEqual((len(self.made()), len(self.said)), (2, 3))
        self.assertEqual(maker.publications, ["pgsub", "pgsub_inserts"])
        self.assertEqual(maker.made, {"pgsub": 777, "pgsub_inserts": 777})

    def test_another_attempt_makes_what_had_no_effect(self) -> None:
        maker = self.maker()
        maker.made = {"pgsub": 776}
        maker.make()
        self.assertEqual((len(self.made()), maker.made), (1, {"pgsub": 777}))

    def test_a_look_can_end_it(self) -> None:
        def look(connection: object, names: list[str]) -> None:
            raise ServerError(f"denied {names}", "42501")

        maker = Maker(Subscription(), Wanted(["pgsub"]), lambda: None, look=look)
        self.refused(maker, r"denied \['pgsub'\]")

    def test_keyless_tables_of_a_publication_that_is_there_are_told(self) -> None:
        self.there("pgsub")
        self.server.answer(
            "SELECT p.pubinsert, p.pubupdate, p.pubdelete, p.pubtruncate FROM",
            [["t", "t", "f", "t"]],
        )
        self.keyless([["5", "public", "audit"]])
        self.maker().make()
        self.assertEqual(self.said[0], "warning: the publication pgsub leaves out: delete")
        self.assertIn("rejects Updates and Deletes: public.audit", self.said[1])

    def test_a_publication_of_inserts_harms_no_table(self) -> None:
        self.there("pgsub_inserts")
        self.server.answer("SELECT p.pubinsert, p.pubupdate", [["t", "f", "f", "t"]])
        self.keyless([["5", "public", "audit"]])
        Maker(Subscription(), Wanted(["pgsub_inserts"]), lambda: None).make()
        self.assertEqual(self.said, [])

    def test_what_somebody_else_made_since_stays(self) -> None:
        maker = self.maker()
        maker.make()
        self.server.answer("SELECT p.oid FROM pg_catalog.pg_publication p", [["778"]])
        maker.take_back()
        self.assertIn("SELECT p.oid", self.server.commands[-1])
        self.assertEqual(self.server.told("DROP"), [])


class Names(unittest.TestCase):
    def test_some_names(self) -> None:
        self.assertEqual(names_of(["a", "b"]), "a, b")
        self.assertTrue(names_of([f"t{it}" for it in range(25)]).endswith("t19 and 5 more"))


if __name__ == "__main__":
    unittest.main()
