"""How connections are protected: what is asked of libpq, what is told, and that TLS isn't lost
without a word."""

from __future__ import annotations

import os
import unittest
from unittest import mock

from pgsub_connect.errors import ServerError, Unconnected
from pgsub_connect.server import libpq, transport
from pgsub_connect.server.login import parameters
from pgsub_connect.server.connection import Connection
from pgsub_connect.server.transport import Protection, Trust
from pgsub_feed.errors import Unfit

from .fake_server import FakeServer, Quiet
from .small_server import SmallServer, make_certificate

OTHERS = {name: value for name, value in os.environ.items() if not name.startswith("PG")}
SERVICES = """\
[plain]
host=db.example
sslmode=prefer
[away]
host=db.example
[near]
host=localhost
"""


class Case(Quiet):
    def setUp(self) -> None:
        super().setUp()
        self.folder = self.make_folder()
        # (its ~/.postgresql may have certificates)
        self.patch(mock.patch.dict(os.environ, {**OTHERS, "HOME": self.folder}, clear=True))
        self.own = Trust()
        self.patch(mock.patch.object(transport, "OWN", self.own))
        self.patch(mock.patch.object(libpq, "TICK", 0.02))

    def patch(self, patch: object) -> None:
        patch.start()  # type: ignore[attr-defined]
        self.addCleanup(patch.stop)  # type: ignore[attr-defined]


class Settings(Case):
    def mode(self, dsn: str, **environment: str) -> str:
        """The sslmode of a connection, "" where libpq is left to itself."""
        with mock.patch.dict(os.environ, environment):
            return self.own.guarded(parameters(dsn)).get("sslmode", "")

    def test_what_nobody_has_said(self) -> None:
        """Away from this machine it is `require`."""
        for dsn, mode in (
            ("", ""),
            ("host=/run/postgresql", ""),
            ("host=@socket", ""),
            ("dbname=shop", ""),
            ("host=localhost", "prefer"),
            ("host=127.0.0.1", "prefer"),
            ("host=::1", "prefer"),
            ("hostaddr=127.0.0.9 host=db.example", "prefer"),
            ("host=db.example", "require"),
            ("host=localhost hostaddr=10.0.0.1", "require"),
            ("hostaddr=10.0.0.1", "require"),
            ("host=localhost,db.example", "require"),
            ("host=/run/a,localhost", "prefer"),
            ("postgresql://u@db.example/shop", "require"),
            ("host=db.example sslrootcert=system", ""),
        ):
            with self.subTest(dsn=dsn):
                self.assertEqual(self.mode(dsn), mode)
        self.assertEqual(self.mode("", PGHOST="db.example"), "require")
        self.assertEqual(self.mode("host=localhost", PGHOSTADDR="10.0.0.1"), "require")

    def test_what_is_said_counts(self) -> None:
        for mode in ("disable", "allow", "prefer", "require", "verify-ca", "verify-full"):
            self.assertEqual(self.mode(f"host=db.example sslmode={mode}"), mode)
            self.assertEqual(self.mode(f"postgresql://db.example/shop?sslmode={mode}"), mode)
            self.assertEqual(self.mode("host=db.example", PGSSLMODE=mode), "")
        self.assertEqual(self.mode("host=db.example", PGSSLMODE=""), "require")

    def test_services(self) -> None:
        path = self.folder + "/services"
        with open(path, "w", encoding="ascii") as file:
            file.write(SERVICES)
        for name, mode in (("plain", ""), ("away", "require"), ("near", "prefer")):
            self.assertEqual(self.mode(f"service={name}", PGSERVICEFILE=path), mode)
            self.assertEqual(self.mode("dbname=shop", PGSERVICEFILE=path, PGSERVICE=name), mode)
        self.assertEqual(self.mode("service=away", PGSERVICEFILE=path, PGSSLMODE="prefer"), "")
        self.assertNotIn("PGSSLMODE", os.environ)

    def test_after_tls(self) -> None:
        """What may end in plain text becomes `require`, and what asks for it is rejected. A socket
        is none of the network."""
        self.own.begin(True, [])
        for dsn, mode in (
            ("host=/run/postgresql", ""),
            ("host=db.example", "require"),
            ("host=db.example sslmode=prefer", "require"),
            ("host=db.example sslmode=allow", "require"),
            ("host=127.0.0.1", "require"),
            ("host=db.example sslmode=verify-full", "verify-full"),
            ("host=db.example sslmode=disable gssencmode=require", "disable"),
        ):
            self.assertEqual(self.mode(dsn), mode, dsn)
        self.assertEqual(self.mode("host=db.example", PGSSLMODE="prefer"), "require")
        with self.assertRaisesRegex(
            Unfit, "sslmode=disable asks for plain text.*--accept plaintext"
        ):
            self.mode("host=db.example sslmode=disable")
        self.own.begin(True, ["all"])
        self.assertEqual(self.mode("host=db.example sslmode=prefer"), "require")
        self.own.begin(True, ["plaintext"])
        self.assertEqual(self.mode("host=db.example sslmode=disable"), "disable")


class Connects(Case):
    """To a server with TLS, at first."""

    def setUp(self) -> None:
        super().setUp()
        self.brain = FakeServer()
        self.server = SmallServer(self.folder, self.brain, by_tcp=True)
        self.addCleanup(self.server.close)
        self.server.certificate, self.server.asks = (
            make_certificate(self.folder + "/certificate"),
            True,
        )

    def connect(self, more: str = "") -> Connection:
        connection = Connection(f"{self.server.dsn()} password=geheim {more}")
        self.addCleanup(connection.close)
        return connection

    def test_tls_is_taken_away(self) -> None:
        """No password goes out, in whichever of the later connections."""
        self.assertEqual(self.connect("sslmode=prefer").protection, Protection("tls"))
        self.server.certificate = ""
        for more in ("sslmode=prefer", "sslmode=allow", "", "sslmode=disable"):
            with self.assertRaisesRegex(Unfit, "--accept plaintext"):
                self.connect(more)
        self.assertEqual(self.server.passwords, [("geheim", False)])
        self.own.begin(self.own.was_encrypted, ["plaintext"])
        self.assertEqual(self.connect("sslmode=prefer").protection, Protection("plain"))
        self.assertEqual(self.server.passwords[1:], [("geheim", True)])

    def test_a_server_without_tls(self) -> None:
        """Away from this machine that is an error of its own, which tells how plain text is
        named."""
        self.server.certificate = ""
        with mock.patch.object(transport, "stays_here", return_value=False):
            with self.assertRaisesRegex(
                Unconnected, "sslmode=prefer or sslmode=disable in the connection string"
            ) as raised:
                self.connect()
            self.assertEqual((self.server.passwords, raised.exception.is_lasting()), ([], True))
            self.assertEqual(
                self.connect("sslmode=prefer").protection, Protection("plain", (), False)
            )
        self.assertEqual(self.said, [f"warning: the connection isn't encrypted: {transport.CURE}"])

    def test_what_is_verified(self) -> None:
        authority = self.server.certificate + ".crt"
        for more, verified in (
            ("", ()),
            (f"sslmode=require sslrootcert={authority}", ("authority",)),
            (f"sslmode=verify-ca sslrootcert={authority}", ("authority",)),
            (f"sslmode=verify-full sslrootcert={authority}", ("authority", "name")),
        ):
            self.assertEqual(self.connect(more).protection, Protection("tls", verified))
        os.makedirs(self.folder + "/.postgresql")
        os.link(authority, self.folder + "/.postgresql/root.crt")
        self.assertEqual(self.connect().protection, Protection("tls", ("authority",)))
        self.server.certificate = make_certificate(self.folder + "/other", "127.0.0.2")
        with self.assertRaisesRegex(ServerError, "certificate verify failed"):
            self.connect()
        # (it has proved nothing to whom it asks for the password itself)
        with self.assertRaisesRegex(ServerError, "channel binding"):
            self.connect(f"channel_binding=require sslrootcert={self.folder}/none")
        self.assertEqual(len(self.server.passwords), 5)

    def test_each_connection_is_told_where_it_is_new(self) -> None:
        with mock.patch.object(transport, "stays_here", return_value=False):
            for _ in range(2):
                self.connect()
            for _ in range(2):
                self.connect(f"sslmode=verify-full sslrootcert={self.server.certificate}.crt")
            self.connect()
            self.own.keep_quiet()
            self.connect(f"sslmode=verify-ca sslrootcert={self.server.certificate}.crt")
        unverified = (
            "warning: the connection is encrypted, but nothing of the server is verified, so it may"
            " be anybody's:"
        )
        self.assertEqual(
            [it.partition(" sslmode")[0] for it in self.said],
            [unverified, "TLS is in use, verified: authority, name", unverified],
        )
        self.assertEqual(self.own.shown(), {"encryption": "tls", "verified": ["authority"]})


class Tells(unittest.TestCase):
    def test_warnings(self) -> None:
        for protection, part in (
            (Protection("plain", (), False), "isn't encrypted"),
            (Protection("tls", (), False), "nothing of the server is verified"),
            (Protection("tls", ("authority",), False), "the server's name isn't verified"),
            (Protection("tls", ("channel binding",), False), ""),
            (Protection("tls", ("authority", "name"), False), ""),
            (Protection("gssapi", ("name",), False), ""),
            (Protection("plain"), ""),
            (Protection(), ""),
        ):
            self.assertIn(part, protection.warning())
            self.assertEqual(bool(part), bool(protection.warning()))

    def test_gssapi(self) -> None:
        raw = mock.Mock(host=b"db.example", hostaddr=b"10.0.0.1", ssl_in_use=False)
        self.assertEqual(transport.protection_of(raw, True), Protection("gssapi", ("name",), False))
        self.assertEqual(transport.protection_of(raw, False), Protection("plain", (), False))

    def test_nothing_is_shown_before_a_connection(self) -> None:
        self.assertEqual(Trust().shown(), {})


if __name__ == "__main__":
    unittest.main()
