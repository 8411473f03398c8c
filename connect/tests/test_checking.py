"""What `check` says of a server, from facts as a server gives them."""

from __future__ import annotations

import contextlib
import dataclasses
import io
import json
import os
import tempfile
import unittest
from pathlib import Path
from typing import Any
from unittest import mock

from pgsub_connect.commands import check
from pgsub_connect.errors import ServerError
from pgsub_connect.preconditions import require, results
from pgsub_connect.judged import ERROR, OK, WARNING, Result
from pgsub_connect.preconditions import Purpose
from pgsub_connect.server import preflight, session
from pgsub_connect.server.preflight import (
    Facts,
    PublicationFacts,
    Role,
    TableFacts,
    server_facts,
    source_wanted,
)
from pgsub_connect.server.publication_setup import Wanted
from pgsub_connect.server.session import Subscription
from pgsub_connect.server.slot import Slot, read_slot
from pgsub_connect.server.transport import Protection
from pgsub_feed.errors import UsageError
from pgsub_feed.interruption import never

from .fake_server import FakeServer, connection_to
from .settled import options_of

SETTINGS = {
    "wal_level": "logical",
    "max_replication_slots": "10",
    "max_wal_senders": "10",
    "max_slot_wal_keep_size": "1000",
    "wal_sender_timeout": "60000",
    "max_locks_per_transaction": "64",
    "max_connections": "100",
    "max_prepared_transactions": "0",
    "server_encoding": "UTF8",
}


def well() -> Facts:
    """A server that lacks nothing."""
    return Facts(
        version=150018,
        settings=dict(SETTINGS),
        database="shop",
        role=Role("f", False, True, True),
        publications=[PublicationFacts("pgsub")],
        tables=[TableFacts("public.stock")],
        relations=2,
    )


def changed(**fields: object) -> Facts:
    return dataclasses.replace(well(), **fields)


def with_setting(**settings: str) -> Facts:
    return changed(settings={**SETTINGS, **settings})


class Judging(unittest.TestCase):
    def found(self, facts_: Facts, purpose: Purpose, name: str) -> list[Result]:
        return [it for it in results(facts_, purpose) if it.name == name]

    def expect(self, level: str, name: str, part: str, facts_: Facts, **purpose: object) -> None:
        found = self.found(facts_, Purpose(**purpose), name)  # type: ignore[arg-type]
        self.assertTrue(
            any(it.level == level and part in it.text for it in found), (level, name, part, found)
        )

    def test_nothing_missing(self) -> None:
        self.assertEqual([it for it in results(well(), Purpose()) if it.level != OK], [])

    def test_versions(self) -> None:
        self.expect(ERROR, "version", "9.6: logical replication needs 10", changed(version=90006))
        self.expect(ERROR, "version", "the initial copy needs 12", changed(version=110022))
        self.expect(OK, "version", "11.22", changed(version=110022), copies=False)
        self.expect(OK, "version", "large transactions come whole", changed(version=130023))
        self.expect(OK, "version", "PostgreSQL 18.6", changed(version=180006))

    def test_failover(self) -> None:
        self.expect(ERROR, "failover", "need 17", well(), failover=True)
        self.expect(OK, "failover", "", changed(version=170000), failover=True)
        self.expect(
            WARNING,
            "failover",
            "isn't handed on",
            changed(version=170000, slot=Slot()),
            failover=True,
            has_store=True,
        )

    def test_messages(self) -> None:
        old = changed(version=130022)
        self.expect(ERROR, "messages", "PostgreSQL 13.22: --messages needs 14", old, messages=True)
        self.expect(OK, "messages", "large transactions come whole", well(), messages=True)
        self.assertEqual(self.found(old, Purpose(), "messages"), [])

    def test_server(self) -> None:
        self.expect(
            ERROR, "wal_level", "replica: it has to be logical", with_setting(wal_level="replica")
        )
        self.expect(
            ERROR,
            "replication_slots",
            "1 of max_replication_slots = 10 free, 2 needed",
            changed(slots=9),
        )
        self.expect(OK, "replication_slots", "1 of", changed(slots=9), copies=False)
        self.expect(OK, "replication_slots", "0 of", changed(slots=10, slot=Slot()), has_store=True)
        self.expect(ERROR, "wal_senders", "0 of max_wal_senders = 10 free", changed(senders=10))
        self.expect(
            OK,
            "wal_senders",
            "0 of",
            changed(senders=10, slot=Slot(is_active=True)),
            has_store=True,
        )
        self.expect(
            ERROR,
            "replication_connection",
            "no pg_hba.conf entry",
            changed(replication_error="no pg_hba.conf entry"),
        )
        self.expect(
            WARNING, "max_slot_wal_keep_size", "no limit", with_setting(max_slot_wal_keep_size="-1")
        )
        self.expect(
            WARNING,
            "idle_replication_slot_timeout",
            "off for 3600 s",
            with_setting(idle_replication_slot_timeout="3600"),
        )
        self.expect(
            OK,
            "idle_replication_slot_timeout",
            "no limit",
            with_setting(idle_replication_slot_timeout="0"),
        )
        self.expect(
            WARNING, "wal_sender_timeout", "1000 ms", with_setting(wal_sender_timeout="1000")
        )
        self.expect(WARNING, "wal_sender_timeout", "no limit", with_setting(wal_sender_timeout="0"))
        self.expect(WARNING, "encoding", "SQL_ASCII", with_setting(server_encoding="SQL_ASCII"))
        self.expect(ERROR, "standby", "needs 16", changed(is_standby=True))
        self.expect(WARNING, "standby", "a copy waits", changed(is_standby=True, version=170000))
        self.expect(
            WARNING,
            "prepared_transactions",
            "the prepared transaction x",
            changed(prepared=["the prepared transaction x"]),
        )
        self.expect(OK, "prepared_transactions", "", changed(prepared=["x"]), has_store=True)

    def test_locks(self) -> None:
        for relations, level in ((3200, OK), (3300, WARNING), (6400, WARNING), (6500, ERROR)):
            self.expect(
                level,
                "locks",
                f"{relations} locks, the server has room for about 6400",
                changed(relations=relations),
            )
        self.expect(OK, "locks", "", changed(relations=6500), has_store=True)

    def test_tls(self) -> None:
        self.expect(OK, "tls", "this machine", well())
        for protection, level, text in (
            (
                Protection("plain", (), False),
                WARNING,
                "can be read on the way; sslmode=verify-full",
            ),
            (Protection("plain"), OK, "not in use, to a server on this machine"),
            (
                Protection("tls", (), False),
                WARNING,
                "verified: nothing, so anybody may be the server; sslmode",
            ),
            (
                Protection("tls", ("authority",), False),
                WARNING,
                "in use, verified: authority; sslmode=verify-full checks",
            ),
            (
                Protection("tls", ("authority", "name"), False),
                OK,
                "in use, verified: authority, name",
            ),
            (
                Protection("tls", ("channel binding",), False),
                OK,
                "in use, verified: channel binding",
            ),
        ):
            self.expect(level, "tls", text, changed(protection=protection))

    def test_role(self) -> None:
        self.expect(ERROR, "role", "ALTER ROLE f REPLICATION", changed(role=Role("f")))
        self.expect(
            ERROR,
            "role",
            "or GRANT rds_replication TO f",
            changed(role=Role("f"), replicators="rds_replication"),
        )
        self.expect(
            OK, "role", "since the server has let it", changed(role=Role("f"), has_replicated=True)
        )

    def test_making(self) -> None:
        missing = [PublicationFacts("pgsub", is_there=False)]
        self.expect(
            OK, "publication", "can be made with 1 table: pgsub", changed(publications=missing)
        )
        self.expect(
            ERROR,
            "publication",
            "the store follows it",
            changed(publications=missing),
            has_store=True,
        )
        self.expect(
            ERROR, "publication", "at a standby", changed(publications=missing, is_standby=True)
        )
        self.expect(
            ERROR,
            "publication",
            "made by a superuser",
            changed(publications=missing),
            all_tables=True,
        )
        self.expect(
            ERROR,
            "publication",
            "CREATE on the database shop",
            changed(publications=missing, role=Role("f", False, True)),
        )
        foreign = [TableFacts("public.stock", owns=False)]
        self.expect(
            ERROR,
            "publication",
            "doesn't own all tables that are to be in it: public.stock",
            changed(publications=missing, tables=foreign),
        )
        self.expect(
            OK,
            "publication",
            "",
            changed(publications=missing, tables=foreign, role=Role("p", True, True, True)),
        )
        self.expect(
            ERROR,
            "publication",
            "--no-copy without --create makes none",
            changed(publications=missing),
            makes=False,
            copies=False,
        )

    def test_publications(self) -> None:
        self.expect(
            ERROR,
            "publication",
            "no table, or none that f can see: nosuch",
            changed(unknown=["nosuch"]),
        )
        self.expect(
            WARNING,
            "publication",
            "pgsub leaves out: update",
            changed(publications=[PublicationFacts("pgsub", leaves_out=["update"])]),
        )
        self.expect(
            OK,
            "publication",
            "",
            changed(publications=[PublicationFacts("pgsub_inserts", leaves_out=["update"])]),
        )
        self.expect(WARNING, "publication", "no table", changed(tables=[]))

    def test_identities(self) -> None:
        self.expect(OK, "identity", "1 table", well())
        self.expect(
            ERROR,
            "identity",
            "public.audit",
            changed(publications=[PublicationFacts("p", keyless=["public.audit"])]),
        )
        to_come = changed(
            publications=[PublicationFacts("p", is_there=False, keyless=["public.audit"])]
        )
        self.expect(ERROR, "identity", "--keyless leave-out", to_come)
        self.expect(WARNING, "identity", "not published or for Inserts", to_come, keyless="inserts")
        self.expect(
            WARNING,
            "identity",
            "public.p",
            changed(publications=[PublicationFacts("p", mixed=["public.p"])]),
        )

    def test_reading(self) -> None:
        for table, part in (
            (TableFacts("t", reads=False, reads_columns=False), "lacks SELECT on: t"),
            (TableFacts("t", reads=False), "needs SELECT on all of it: t"),
            (TableFacts("t", reaches_schema=False), "lacks USAGE on the schemas of: t"),
        ):
            self.expect(ERROR, "select", part, changed(tables=[table]))
            self.assertEqual(
                self.found(changed(tables=[table]), Purpose(has_store=True), "select"), []
            )
        self.expect(
            ERROR, "row_security", "BYPASSRLS", changed(tables=[TableFacts("t", hides_rows=True)])
        )

    def test_slot(self) -> None:
        def slot(**fields: object) -> Facts:
            return changed(slot=Slot(**fields))  # type: ignore[arg-type]

        self.expect(OK, "slot", "can be made", well())
        self.expect(ERROR, "slot", "isn't there, and the store follows it", well(), has_store=True)
        self.expect(ERROR, "slot", "is there already, and no store: name another", slot())
        self.expect(OK, "slot", "pgsub", slot(), copies=False)
        self.expect(OK, "slot", "pgsub", slot(), makes=False, copies=False)
        self.expect(
            ERROR,
            "slot",
            "--no-copy without --create makes none",
            well(),
            makes=False,
            copies=False,
        )
        self.expect(
            ERROR, "slot", "is not one of pgoutput", slot(plugin="test_decoding"), has_store=True
        )
        self.expect(
            ERROR,
            "slot",
            "is of another database than shop: name that one by --dsn",
            slot(is_here=False),
            has_store=True,
        )
        self.expect(ERROR, "slot", "two-phase", slot(is_two_phase=True), has_store=True)
        self.expect(ERROR, "slot", "lost", slot(wal_status="lost"), has_store=True)
        self.expect(ERROR, "slot", "idle_timeout", slot(why_invalid="idle_timeout"), has_store=True)
        self.expect(
            WARNING, "slot", "about to be lost", slot(wal_status="unreserved"), has_store=True
        )
        self.expect(
            OK,
            "slot",
            "7 bytes of log before it is lost",
            slot(wal_status="extended", safe_wal_size=7),
            has_store=True,
        )


class Asking(unittest.TestCase):
    """What is asked of which version."""

    def server(self, version: int) -> FakeServer:
        server = FakeServer(version)
        server.answer("pg_settings", [["wal_level", "replica"]])
        server.answer("pg_is_in_recovery", [["f", "shop", "3", "2"]])
        server.answer("pg_roles", [["f", "f", "t", "f"]])
        return server

    def test_server(self) -> None:
        found = server_facts(connection_to(self.server(150018)), "pgsub")
        self.assertEqual(
            (found.slots, found.senders, found.database, found.is_standby, found.slot),
            (3, 2, "shop", False, None),
        )
        self.assertEqual(
            (found.role, found.settings), (Role("f", False, True, False), {"wal_level": "replica"})
        )

    def test_columns_of_slots(self) -> None:
        for version, columns in (
            (120000, "s.active, NULL, NULL, NULL, NULL, NULL"),
            (130000, "s.active, NULL, s.wal_status, s.safe_wal_size, NULL, NULL"),
            (150000, "s.active, s.two_phase, s.wal_status, s.safe_wal_size, NULL, NULL"),
            (
                180000,
                "s.active, s.two_phase, s.wal_status, s.safe_wal_size, s.failover, s.invalidation_reason",
            ),
        ):
            server = FakeServer(version)
            server.answer(
                "pg_replication_slots", [["pgoutput", "t", "t", "f", "reserved", "9", "t", None]]
            )
            self.assertEqual(
                read_slot(connection_to(server), "s"),
                Slot("pgoutput", True, True, False, "reserved", 9, True, ""),
            )
            self.assertIn(columns, server.commands[0])

    def test_names_in_what_create_publication_takes(self) -> None:
        server = FakeServer()
        server.answer(
            "to_regclass", lambda command: [["5"]] if "nosuch" not in command else [[None]]
        )
        wanted = Wanted(
            ["p"], ["stock", 'ONLY "Odd s"."T""x" (a, b) WHERE (a > 1)', "nosuch", "(", "s.t *"]
        )
        source, unknown = source_wanted(connection_to(server), wanted)
        self.assertEqual(unknown, ["nosuch", "("])
        self.assertIn('to_regclass(\'"Odd s"."T""x"\')', server.commands[1])
        self.assertIn("to_regclass('s.t')", server.commands[3])
        self.assertEqual(source.count("SELECT 5::pg_catalog.oid AS relid"), 3)

    def test_what_a_copy_requires(self) -> None:
        with self.assertRaisesRegex(ServerError, "wal_level: replica") as raised:
            require(connection_to(self.server(150018)), "pgsub", True, False)
        self.assertTrue(raised.exception.is_lasting())
        with self.assertRaisesRegex(
            UsageError, "--failover needs PostgreSQL 17, and this is 15.18"
        ):
            require(connection_to(self.server(150018)), "pgsub", True, True)
        with self.assertRaisesRegex(
            UsageError, "^--messages needs PostgreSQL 14, and this is 13.9: leave it out, or say"
        ):
            require(connection_to(self.server(130009)), "pgsub", True, False, True)


class Printing(unittest.TestCase):
    def printed(self, found: Facts, **options: Any) -> tuple[int, str]:
        out = io.StringIO()
        with mock.patch.object(check, "all_facts", lambda *_: found), contextlib.redirect_stdout(
            out
        ):
            status = check.run(check.Options(publication=["pgsub"], **options), never)
        return status, out.getvalue()

    def test_lines(self) -> None:
        status, text = self.printed(well())
        self.assertEqual((status, text.splitlines()[1]), (0, "ok wal_level: logical"))
        status, text = self.printed(with_setting(wal_level="minimal"))
        self.assertEqual(status, 4)
        self.assertIn("error wal_level: minimal: ", text)

    def test_a_text_of_several_lines(self) -> None:
        """As what a server says of a role that may not replicate; no terminal takes commands."""
        said = [Result("error", "role", "permission denied\nDETAIL:  Only roles\x1b[2J")]
        with mock.patch.object(check, "results", lambda *_: said):
            self.assertEqual(
                self.printed(well()),
                (4, "error role: permission denied\n  DETAIL:  Only roles\\x1b[2J\n"),
            )

    def test_what_open_transactions_have_on_the_disk(self) -> None:
        with tempfile.TemporaryDirectory() as folder:
            store = folder + "/copy.db"
            self.assertNotIn("spool", self.printed(well(), store=store)[1])
            os.mkdir(store + ".spool")
            Path(store + ".spool/transactions").write_bytes(bytes(70))
            status, text = self.printed(well(), store=store)
            said = f"ok spool: 70 bytes of open transactions are in {store}.spool"
            self.assertEqual((status, text.splitlines()[-1]), (0, said))
            os.rename(store + ".spool", store + ".other")
            os.symlink("copy.db.other", store + ".spool")
            status, text = self.printed(well(), store=store)
            self.assertEqual((status, "error spool: " in text), (4, True))

    def test_json(self) -> None:
        status, text = self.printed(well(), json=True)
        self.assertEqual(
            (status, json.loads(text)[1]),
            (0, {"level": "ok", "name": "wal_level", "text": "logical"}),
        )

    def test_what_a_start_makes(self) -> None:
        for words, makes in (
            ("--create --table t", True),
            ("--table t", True),
            ("--create --no-copy", True),
            ("--no-copy", False),
        ):
            purpose = options_of(["check", *words.split()]).purpose()
            self.assertEqual(
                (purpose.makes, purpose.copies), (makes, "--no-copy" not in words), words
            )

    def test_warnings_are_no_error(self) -> None:
        self.assertEqual(self.printed(with_setting(max_slot_wal_keep_size="-1"))[0], 0)


class Members(unittest.TestCase):
    """A role that may replicate as a member of its provider's role, without the attribute."""

    def setUp(self) -> None:
        self.server = Asking().server(150018)
        self.server.answer(
            "pg_settings",
            [["wal_level", "logical"], ["max_replication_slots", "10"], ["max_wal_senders", "10"]],
        )
        self.server.answer("pg_roles", [["f", "f", "f", "f"]])
        self.server.answer("'rds_replication'", [["rds_replication"]])

    def test_the_server_is_asked_by_trying(self) -> None:
        with mock.patch.object(session, "Connection", self.server.connect):
            found = preflight.all_facts(Subscription(), Wanted(["pgsub"]), lambda: None)
        self.assertEqual((found.has_replicated, found.replicators), (True, "rds_replication"))
        self.assertEqual([it.level for it in results(found, Purpose()) if it.name == "role"], [OK])

    def test_a_copy_begins_where_the_server_lets_it(self) -> None:
        require(connection_to(self.server), "pgsub", True, False)


class Connecting(unittest.TestCase):
    def test_the_connection_for_replication_is_tried(self) -> None:
        server = Asking().server(150018)

        def connect(dsn: str, *, replication: bool = False, **_: object) -> object:
            if replication:
                raise ServerError("no pg_hba.conf entry for replication connection")
            return server.connect(dsn)

        with mock.patch.object(session, "Connection", connect):
            found = preflight.all_facts(Subscription(), Wanted(["pgsub"]), lambda: None)
        self.assertIn("pg_hba.conf", found.replication_error)
        self.assertEqual(server.opened, server.closed)


if __name__ == "__main__":
    unittest.main()
