"""Messages of JetStream: what they say, where a sink goes on, and what a server may say."""

from __future__ import annotations

import contextlib
import json
import re
import socket
import unittest
import weakref
from typing import Any
from unittest import mock

from feed_text import Line

from pgsub_connect.store.export import ExportSettings, export_store
from pgsub_feed.errors import EngineError, FileError, Passing, Stopped, TooLarge, Unfit, UsageError
from pgsub_feed.formats.keys import subject
from pgsub_feed.interruption import never
from pgsub_feed.reader.commits import Commit
from pgsub_feed.sinks.connecting import is_loopback
from pgsub_feed.sinks.engine import whole
from pgsub_feed.sinks.nats_engine import each_server
from pgsub_feed.sinks.nats_messages import FIRST, read_id
from pgsub_feed.sinks.nats_wire import Wire, header_bytes, read_headers
from pgsub_feed.tables.values import ALL_TEXT

from .fake_nats import FakeNats
from .feeds import STOCK, delete, insert, table, truncate, update
from .sinks import SinkCase
from .stores import Store

# The number of a base in an id.
NUMBERED = re.compile("base:([0-9a-f]{8}):")


class NatsCase(SinkCase):
    def setUp(self) -> None:
        super().setUp()
        self.server = FakeNats()
        self.addCleanup(self.server.close)
        self.url = f"nats://127.0.0.1:{self.server.port}"

    def said(self) -> list[tuple[str, str, Any]]:
        """The messages: their subjects, ids and what they say."""
        return [(it.subject, it.id, json.loads(it.data)) for it in self.server.stream or []]

    def ids(self) -> list[str]:
        """Their ids, without the numbers of bases, of which there may be one."""
        found = self.server.ids()
        self.assertLessEqual(len({it[1] for it in map(NUMBERED.search, found) if it}), 1, found)
        return [NUMBERED.sub("base:", it) for it in found]

    def goes_on_after_each(self, whole: list[str]) -> None:
        """The server accepts each number of messages, and then the others: each is there once."""
        for accepted in range(len(whole)):
            self.server.stream, self.server.last, self.server.accepts = None, 0, accepted
            self.fails(Passing, "the connection is lost|has ended the connection")
            self.assertEqual(self.server.ids(), whole[:accepted])
            self.server.accepts = None
            self.run_it()
            self.assertEqual(self.server.ids(), whole)


class Messages(NatsCase):
    def test_each(self) -> None:
        bag = table(2, "a.b *", letter="f", schema="S p")
        self.take(insert("1", "a"), update(["1", "a"], ["2", b"\1"]), insert("1", None, of=bag))
        self.take(truncate(), Line(STOCK, "x", ["7", None], None, "K"))
        self.run_it()
        about = {"system": "7", "database": "shop", "slot": "pgsub", "tables": []}
        none = {"lsn": None, "xid": None, "ts_us": None}
        stock = {"schema": "public", "table": "stock", "oid": 1}
        self.assertEqual(
            self.said(),
            [
                (
                    "pgsub.commit",
                    "0/0:commit",
                    {"end": "0/0", "prev": "0/0", "changes": 0, "rows": 0, **none, **about},
                ),
                (
                    "pgsub.public.stock",
                    "0/100:0",
                    {"end": "0/100", "n": 0, "op": "c", **stock, "after": {"id": "1", "name": "a"}},
                ),
                (
                    "pgsub.public.stock",
                    "0/100:1",
                    {
                        "end": "0/100",
                        "n": 1,
                        "op": "u",
                        **stock,
                        "before": {"id": "1", "name": "a"},
                        "after": {"id": "2", "name": {"hex": "01"}},
                    },
                ),
                (
                    "pgsub.S%20p.a%2Eb%20%2A",
                    "0/100:2",
                    {
                        "end": "0/100",
                        "n": 2,
                        "op": "c",
                        "schema": "S p",
                        "table": "a.b *",
                        "oid": 2,
                        "after": {"id": "1", "name": None},
                    },
                ),
                (
                    "pgsub.commit",
                    "0/100:commit",
                    {"end": "0/100", "prev": "0/0", "changes": 3, **none, **about},
                ),
                ("pgsub.public.stock", "0/200:0", {"end": "0/200", "n": 0, "op": "t", **stock}),
                (
                    "pgsub.public.stock",
                    "0/200:1",
                    {"end": "0/200", "n": 1, "op": "x", **stock, "sent": "d", "old": {"id": "7"}},
                ),
                (
                    "pgsub.commit",
                    "0/200:commit",
                    {"end": "0/200", "prev": "0/100", "changes": 2, **none, **about},
                ),
            ],
        )
        self.assertEqual(
            (self.server.config["name"], self.server.config["subjects"]), ("pgsub", ["pgsub.>"])
        )

    def test_chosen(self) -> None:
        self.take(insert("1", "a"), insert("1", "b", of=table(2, "other")), insert("2", "c"))
        self.run_it(table=["other"], stream="mine")
        self.assertEqual(
            [it[:2] for it in self.said()],
            [
                ("mine.commit", "0/0:commit"),
                ("mine.public.other", "0/100:1"),
                ("mine.commit", "0/100:commit"),
            ],
        )
        self.fails(Unfit, "what is kept there is of .* and this would be of", stream="mine")

    def test_several_servers(self) -> None:
        self.assertEqual(each_server("tls://u:p@one,two:1"), ["tls://u:p@one", "tls://u:p@two:1"])
        self.take(insert("1", "a"))
        with socket.socket() as free:
            free.bind(("127.0.0.1", 0))
            none = free.getsockname()[1]
        self.url = f"nats://127.0.0.1:{none},127.0.0.1:{self.server.port}"
        self.run_it(replicas=3)
        self.assertEqual(self.server.config["num_replicas"], 3)
        self.assertEqual(self.ids(), ["0/0:commit", "0/100:0", "0/100:commit"])
        self.fails(
            Passing, "NATS at 127.0.0.1:.*refused", url=f"nats://127.0.0.1:{none},127.0.0.1:{none}"
        )

    def test_subjects(self) -> None:
        self.assertEqual(subject("s", "", "tä>%"), "s.pg_catalog.t%C3%A4%3E%25")
        self.assertEqual(
            [read_id(it) for it in ("0/1F:commit", "0/1F:base:3", "0/1F:base:0123abcd:3")],
            [(31, None), (31, FIRST), (31, FIRST)],
        )
        self.assertEqual(
            [read_id(it) for it in ("0/1F:m12", "0/1F:12")], [(31, (False, 12)), (31, (True, 12))]
        )
        self.assertEqual(
            [read_id(it) for it in ("", "0/1F", "x:1", "0/1F:x", "0/1F:m", "123456789/0:1")],
            [None] * 6,
        )


class GoesOn(NatsCase):
    def test_after_each_message(self) -> None:
        for number in range(4):
            self.take(*(insert(f"{number}{it}", "a") for it in range(number)))
        self.run_it()
        whole = self.server.ids()
        self.assertEqual(len(whole), 5 + 6)
        self.goes_on_after_each(whole)

    def test_again_and_again(self) -> None:
        for number in range(20):
            self.take(*(insert(f"{number}{it}", "a") for it in range(number % 5)))
        for _ in range(200):
            self.server.accepts = 1
            with contextlib.suppress(Passing):
                self.run_it()
                break
        expected = ["0/0:commit"]
        for number in range(20):
            end = f"0/{0x100 * (number + 1):X}"
            expected += [f"{end}:{it}" for it in range(number % 5)] + [f"{end}:commit"]
        self.assertEqual(self.server.ids(), expected)

    def test_large_commits_are_read_twice(self) -> None:
        self.take(*(insert(str(it), "a") for it in range(50)))
        with mock.patch("pgsub_feed.sinks.engine.ROOM", 100), mock.patch(
            "pgsub_feed.sinks.jetstream.MOST", 7
        ):
            self.run_it()
        self.assertEqual(len(self.server.ids()), 52)
        self.take(insert("1", "a"), insert("2", "x" * 2000), insert("3", "c"))
        with mock.patch("pgsub_feed.sinks.engine.ROOM", 100):
            self.fails(TooLarge, "0/200:1: a change of public.stock")
        self.assertEqual(len(self.server.ids()), 52)

    def test_of_many_changes_not_all_are_kept(self) -> None:
        """However short they are."""
        held, most = set[int](), 0

        def made(it: int) -> object:
            nonlocal most
            found = type("Made", (), {})()
            held.add(it)
            weakref.finalize(found, held.discard, it)
            most = max(most, len(held))
            return found

        for count, few in ((9999, False), (10001, True)):
            most = 0
            commit = Commit(0x200, 0x100, 1000, count)
            for _ in whole(commit, lambda: map(made, range(count)), never):
                pass
            self.assertEqual(most < 10, few)

    def test_a_change_that_is_too_large(self) -> None:
        self.take(insert("1", "a"))
        self.take(insert("2", "b"), insert("3", "c" * 1000))
        self.fails(
            TooLarge,
            r"0/200:1: a change of public.stock \(1\) makes a message of \d+ bytes, and NATS .* takes 1000: raise its max_payload",
        )
        self.assertEqual(self.server.ids(), ["0/0:commit", "0/100:0", "0/100:commit"])
        self.server.info["max_payload"] = 2000
        self.run_it()
        self.assertEqual(self.server.ids()[3:], ["0/200:0", "0/200:1", "0/200:commit"])

    def test_another_commit_follows(self) -> None:
        self.take(insert("1", "a"), insert("2", "b"))
        self.server.accepts = 2
        self.fails(Passing, "connection")
        self.server.accepts = None
        self.feed.path.unlink()
        self.feed.at = 0
        self.feed.begin()
        self.feed.commit(0x180, [insert("1", "a")])
        self.fails(
            Unfit,
            "it has a part of a commit that ends at 0/100, and the feed's next one ends at 0/180",
        )

    def test_another_commit_ends_at_the_same_lsn(self) -> None:
        """As where the filter was killed before the store had it, and a table is added by now: its
        changes are left out then, so others have their numbers."""
        other = table(2, "other")
        changes = [insert("1", "a"), insert("1", "b", of=other), insert("2", "c", of=other)]
        for accepts, left in ((3, changes[1:]), (3, changes[:1]), (2, changes[1:2])):
            self.server.stream, self.server.last = None, 0
            for at, lines in enumerate((changes, left)):
                self.feed.path.unlink()
                self.feed.at = 0
                self.feed.begin()
                self.feed.commit(0x100, lines)
                self.server.accepts = None if at else accepts
                kind, text = (Unfit, "the feed's has other changes") if at else (Passing, "conn")
                self.fails(kind, text)
            self.assertEqual(len(self.server.ids()), accepts)

    def test_messages_of_others(self) -> None:
        self.run_it_with(
            "its last one, 1, isn't of a sink: take another one$",
            lambda: self.server.add("pgsub.x", b"NATS/1.0\r\n\r\n", b"{}"),
        )
        self.run_it_with(
            "its last one is gone: take another one, or remove it to begin anew$",
            lambda: setattr(self.server, "last", 7),
        )
        self.run_it_with(
            "the last message of the commit before is gone",
            lambda: self.server.add("pgsub.x", header_bytes({"Nats-Msg-Id": "0/100:0"}), b"{}"),
        )
        self.server.stream, self.server.last, self.server.config = [], 0, {"subjects": ["other"]}
        self.fails(Unfit, "its subjects aren't pgsub.>")

    def run_it_with(self, text: str, call: Any) -> None:
        self.server.stream, self.server.last, self.server.config = [], 0, {"subjects": ["pgsub.>"]}
        call()
        self.fails(Unfit, text)

    def test_somebody_else_publishes(self) -> None:
        self.take(insert("1", "a"))
        self.run_it()
        self.take(insert("2", "a"))
        self.server.before = lambda: self.server.add("pgsub.x", b"", b"{}")
        self.fails(Passing, "wrong last sequence: 4")

    def export(self) -> str:
        """A base of two rows."""
        store = Store(str(self.folder / "copy.db"), 0x100)
        self.addCleanup(store.close)
        store.table(1, "stock")
        store.row(1, "1", "a")
        store.row(1, "2", None)
        path = str(self.folder / "export.db")
        export_store(ExportSettings(store=store.path, into=path, form=ALL_TEXT), never)
        return path

    def test_a_part_of_a_base_that_another_sink_publishes(self) -> None:
        """It stays, whether there is something to begin with or not: that sink goes on, whatever
        goes meanwhile."""
        base = self.export()
        self.take()
        self.server.accepts = 1
        self.fails(Passing, "connection", base=base)
        self.server.accepts = None
        self.fails(FileError, "it is no export", base=base + "-none")
        self.assertEqual(self.ids(), ["0/100:base:0"])

        now = [0.0]

        def publish(seconds: float) -> None:
            now[0] += seconds
            if self.server.last == 1:
                self.server.add(
                    "pgsub.public.stock",
                    header_bytes({"Nats-Msg-Id": self.server.ids()[0][:-1] + "1"}),
                    b"{}",
                )

        clock = mock.Mock(monotonic=lambda: now[0], sleep=publish)
        with mock.patch("pgsub_feed.interruption.time", clock):
            self.fails(Passing, "another sink publishes the rows of a base there", base=base)
        self.assertEqual(self.ids(), ["0/100:base:0", "0/100:base:1"])

    @mock.patch("pgsub_feed.sinks.nats_engine.STILL", 0.0)
    def test_a_base(self) -> None:
        path = self.export()
        self.take()
        self.take(delete("1", "a"))
        expected = ["0/100:base:0", "0/100:base:1", "0/100:commit", "0/200:0", "0/200:commit"]
        for accepted in range(6):
            self.server.stream, self.server.last, self.server.accepts = None, 0, accepted
            with contextlib.suppress(Passing):
                self.run_it(base=path)
            self.server.accepts = None
            self.run_it(base=path)
            self.assertEqual(self.ids(), expected)
        self.assertEqual(
            (self.said()[1][2], self.said()[2][2]["rows"]),
            (
                {
                    "end": "0/100",
                    "n": 1,
                    "op": "r",
                    "schema": "public",
                    "table": "stock",
                    "oid": 1,
                    "after": {"id": "2", "name": None},
                },
                2,
            ),
        )

    @mock.patch("pgsub_feed.sinks.nats_engine.STILL", 0.0)
    def test_a_base_that_is_begun_again_and_again(self) -> None:
        """By the same file and at once, so that the stream knows the ids of the messages that went.
        Each request and message may be the last that the server takes."""
        path = self.export()
        self.take()
        self.take(delete("1", "a"))
        expected = ["0/100:base:0", "0/100:base:1", "0/100:commit", "0/200:0", "0/200:commit"]
        for lost in range(16):
            self.server.stream, self.server.last, self.server.accepts = None, 0, 1
            self.fails(Passing, "connection", base=path)
            self.server.accepts = None
            for calls in (lost, lost, lost + 1):
                with self.ends_at(calls), contextlib.suppress(Passing):
                    self.run_it(base=path)
            self.run_it(base=path)
            self.assertEqual(self.ids(), expected, lost)

    @mock.patch("pgsub_feed.sinks.nats_engine.STILL", 0.0)
    def test_a_base_without_rows_after_a_part_of_one(self) -> None:
        """What is left of that goes, too, whenever the connection ends."""
        path = self.export()
        self.take()
        for lost in range(12):
            self.server.stream, self.server.last, self.server.accepts = None, 0, 1
            self.fails(Passing, "connection", base=path)
            self.server.accepts = None
            with self.ends_at(lost), contextlib.suppress(Passing):
                self.run_it(base=path, table=["none"])
            self.run_it(base=path, table=["none"])
            self.assertEqual(self.ids(), ["0/100:commit"], lost)

    def ends_at(self, count: int) -> contextlib.AbstractContextManager[object]:
        """The connection ends after so many requests and messages."""
        left, said = iter(range(count)), self.server.said

        def lost(*words: Any) -> bytes:
            if next(left, None) is None:
                raise EOFError
            return said(*words)

        return mock.patch.object(self.server, "said", lost)

    def test_a_reader_is_noted(self) -> None:
        self.take(insert("1", "a"))
        self.run_it(reader="nats")
        self.assertEqual((self.path / "readers/nats").read_text(), "0/0\n")
        with mock.patch("pgsub_feed.sinks.nats_engine.SYNCED", -1.0):
            self.take()
            self.run_it(reader="nats")
        self.assertEqual((self.path / "readers/nats").read_text(), "0/200\n")


class Says(NatsCase):
    """What a server may say."""

    def test_errors(self) -> None:
        self.take(insert("1", "a"))
        for error, kind in (
            (
                {
                    "code": 503,
                    "err_code": 10008,
                    "description": "JetStream system temporarily unavailable",
                },
                Passing,
            ),
            ({"code": 400, "err_code": 10077, "description": "maximum bytes exceeded"}, Passing),
            (
                {
                    "code": 400,
                    "err_code": 10054,
                    "description": "message size exceeds maximum allowed",
                },
                TooLarge,
            ),
            ({"code": 400, "err_code": 1, "description": "something else"}, EngineError),
        ):
            self.server.stream, self.server.last, self.server.error = None, 0, error
            self.fails(kind, re.escape(str(error["description"])))

    def test_no_jetstream(self) -> None:
        said = {
            "error": {
                "code": 503,
                "err_code": 10039,
                "description": "JetStream not enabled for account",
            }
        }
        with mock.patch.object(self.server, "ask", lambda *_: said):
            self.fails(EngineError, "JetStream not enabled")

    def test_login(self) -> None:
        self.url = self.url.replace("nats://", "nats://u%40:p%3A@")
        self.run_it()
        self.assertEqual(
            (self.server.connected["user"], self.server.connected["pass"]), ("u@", "p:")
        )
        self.url = self.url.replace("u%40:p%3A@", "token@")
        self.server.stream, self.server.last = None, 0
        self.run_it()
        self.assertEqual(self.server.connected["auth_token"], "token")
        self.server.pong = b"-ERR 'Authorization Violation'\r\n"
        self.fails(EngineError, "Authorization Violation")
        self.server.pong = b"-ERR 'maximum connections exceeded'\r\n"
        self.fails(Passing, "maximum connections exceeded")

    def test_a_password_in_plain_text(self) -> None:
        """It is told before it goes to another machine."""
        self.assertNotIn("plain text", "".join(self.run_it(url=self.url.replace("://", "://u:p@"))))
        with mock.patch("pgsub_feed.sinks.nats_wire.is_loopback", lambda _: False):
            self.assertNotIn("plain text", "".join(self.run_it()))
            for login in ("u:p@", "token@"):
                self.assertIn(
                    "the password goes there in plain text: use tls://",
                    "".join(self.run_it(url=self.url.replace("://", "://" + login))),
                )
        for host, is_own in (
            ("127.0.0.1", True),
            ("127.1.2.3", True),
            ("::1", True),
            ("fe80::1%lo", False),
            ("localhost", True),
            ("a.localhost", True),
            ("10.0.0.1", False),
            ("localhost.example", False),
            ("h", False),
        ):
            self.assertEqual(is_loopback(host), is_own, host)

    def test_what_isnt_the_protocol(self) -> None:
        for said in (b"HTTP/1.0 200 OK\r\n", b"INFO {\r\n", b"INFO 5\r\n", b"x" * (1 << 21)):
            self.server.hello = said
            self.fails(EngineError, "isn't NATS' protocol")
        self.server.hello = b""
        for said in (
            b"MSG a\r\n",
            b"MSG a 1 x\r\n",
            b"MSG a 1 2\r\nabcd",
            b"HMSG a 1 2 2\r\nab\r\n",
            b"FOO\r\n",
        ):
            self.server.pong = said
            self.fails(EngineError, "isn't NATS' protocol")

    def test_nobody_is_there(self) -> None:
        self.server.close()
        self.fails(Passing, "NATS at 127.0.0.1:\\d+: ")
        self.fails(UsageError, "the URL of NATS", url="nats://h:x")

    def test_headers(self) -> None:
        self.assertEqual(
            read_headers(header_bytes({"A": "b: c", "D": ""})), ("", {"A": "b: c", "D": ""})
        )
        self.assertEqual(read_headers(b"NATS/1.0 503 No Responders\r\n\r\n"), ("503", {}))
        self.assertRaises(ValueError, read_headers, b"HTTP/1.0\r\n")


class OfAConnection(unittest.TestCase):
    """The protocol, over a pair of sockets."""

    def setUp(self) -> None:
        ours, self.theirs = socket.socketpair()
        self.addCleanup(self.theirs.close)
        self.theirs.sendall(b'info {"max_payload":5}\r\nPONG\r\n')
        ours.setblocking(False)
        with mock.patch("pgsub_feed.sinks.nats_wire.connected", lambda *_: ours):
            self.wire = Wire("nats://h")
        self.addCleanup(self.wire.close)
        self.theirs.recv(1 << 16)

    def test_a_ping_is_answered(self) -> None:
        self.theirs.sendall(b"PING\r\nINFO {}\r\n+OK\r\nMSG a.b 1 reply 3\r\nx\r\n\r\n")
        message = self.wire.receive(1)
        assert message
        self.assertEqual((message.subject, message.data), ("a.b", b"x\r\n"))
        self.assertEqual(self.theirs.recv(100), b"PONG\r\n")
        self.assertIsNone(self.wire.receive(0))

    def test_in_pieces(self) -> None:
        text = b"HMSG a 1 12 15\r\nNATS/1.0\r\n\r\nabc\r\n"
        for at in range(1, len(text)):
            self.theirs.sendall(text[:at])
            first = self.wire.receive(0) if at < text.index(b"\n") else None
            self.assertIsNone(first)
            self.theirs.sendall(text[at:])
            message = self.wire.receive(1)
            assert message
            self.assertEqual((message.data, message.status), (b"abc", ""))

    def test_asked_to_end_in_the_midst_of_one(self) -> None:
        """It is read once more, whole."""
        asked = [False, True]

        def check() -> None:
            if asked and asked.pop(0):
                raise Stopped

        self.theirs.sendall(b"MSG a 1 reply 3\r\nab")
        self.wire.check = check
        with self.assertRaises(Stopped):
            self.wire.receive(1)
        self.theirs.sendall(b"c\r\n")
        message = self.wire.receive(1)
        assert message
        self.assertEqual((message.subject, message.data), ("a", b"abc"))

    def test_an_error_that_ends_it(self) -> None:
        self.theirs.sendall(b"-ERR 'Maximum Payload Violation'\r\n")
        self.theirs.close()
        with self.assertRaisesRegex(EngineError, "Maximum Payload Violation"):
            for _ in range(20):
                self.wire.put(b"x" * 100)
                self.wire.flush()

    def test_published(self) -> None:
        self.wire.publish("a", "r", b"", b"xy")
        self.wire.publish("a", "r", b"NATS/1.0\r\n\r\n", b"xy")
        self.wire.flush()
        self.assertEqual(
            self.theirs.recv(1000), b"PUB a r 2\r\nxy\r\nHPUB a r 12 14\r\nNATS/1.0\r\n\r\nxy\r\n"
        )
