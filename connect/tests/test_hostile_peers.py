"""Whatever a NATS server or a Redis says, or what is kept there: an error tells so."""

from __future__ import annotations

import contextlib
import json
from unittest import mock

from pgsub_feed.errors import EngineError, Passing, TooLarge, Unfit
from pgsub_feed.sinks.relations import Relations

from .fake_nats import FakeNats
from .feeds import insert
from .hostile import TEXTS, altered
from .sinks import RedisCase, SinkCase


class OfNats(SinkCase):
    """What a NATS server says."""

    def setUp(self) -> None:
        super().setUp()
        self.server = FakeNats()
        self.addCleanup(self.server.close)
        self.url = f"nats://127.0.0.1:{self.server.port}"
        self.take(insert("1", "a"))

    def run_or_fail(self, text: object) -> None:
        """Another kind of error is a bug."""
        with contextlib.suppress(EngineError, Passing, Unfit, TooLarge):
            self.run_it()
        del text

    def test_the_first_line(self) -> None:
        for text in (
            *TEXTS[:-1],
            *(it.encode() for it in altered({"max_payload": 1000, "tls_required": False})),
        ):
            self.server.hello = b"INFO " + text + b"\r\n"
            if b'"tls_required": false' in text or b"tls" not in text:
                self.run_or_fail(text)

    def test_answers(self) -> None:
        right = {
            "config": {"subjects": ["pgsub.>"], "max_msg_size": -1},
            "state": {"messages": 1, "first_seq": 1, "last_seq": 1},
            "message": {
                "seq": 1,
                "subject": "pgsub.commit",
                "hdrs": "TkFUUy8xLjANCg0K",
                "data": "e30=",
            },
            "error": {"code": 1, "err_code": 2, "description": "x"},
        }
        texts = [*TEXTS[:-1]]
        for said in (right, {name: it for name, it in right.items() if name != "error"}):
            texts += [it.encode() for it in altered(said)]
        for text in texts:
            with mock.patch.object(self.server, "said", lambda *_, text=text: text):
                self.run_or_fail(text)

    def test_a_size_that_no_message_has(self) -> None:
        for size in (b"99999999999", b"-5", b"9" * 100):
            self.server.pong = b"MSG a 1 " + size + b"\r\n"
            self.fails(EngineError, "isn't NATS' protocol")

    def test_a_long_text_is_cut(self) -> None:
        self.server.pong = b"-ERR 'Authorization " + b"x" * 100000 + b"'\r\n"
        with self.assertRaises(EngineError) as raised:
            self.run_it()
        self.assertLess(len(str(raised.exception)), 2200)
        self.server.pong, self.server.error = b"PONG\r\n", {
            "code": 400,
            "err_code": 1,
            "description": "x" * 100000,
        }
        with self.assertRaises(EngineError) as raised:
            self.run_it()
        self.assertLess(len(str(raised.exception)), 2200)


class OfRedis(RedisCase):
    """What a Redis says, or what is kept there."""

    def test_keys(self) -> None:
        self.take(insert("1", "a"))
        self.run_it()
        about, tables = (
            json.loads(self.server.data[it]) for it in (b"pgsub:feed", b"pgsub:tables")
        )
        kept = dict(self.server.data)
        for key, texts in (
            (b"pgsub:lsn", (b"x", b"", b"\xff", b"1/2/3")),
            (b"pgsub:feed", (*TEXTS[:-1], *(it.encode() for it in altered(about)))),
            (b"pgsub:tables", (*TEXTS[:-1], *(it.encode() for it in altered(tables)))),
        ):
            for text in texts:
                self.server.data = {**kept, key: text}
                with contextlib.suppress(EngineError, Passing, Unfit):
                    self.run_it()

    def test_names_that_were_left(self) -> None:
        self.take(insert("1", "a"))
        for text in TEXTS[:-1]:
            self.server.data = {b"pgsub:loading": text}
            with contextlib.suppress(EngineError, Passing, Unfit):
                self.run_it()

    def test_a_long_text_is_cut(self) -> None:
        self.take(insert("1", "a"))
        self.run_it()
        self.server.data[b"pgsub:feed"] = json.dumps({"x": "y" * 100000}).encode()
        with self.assertRaises(Unfit) as raised:
            self.run_it()
        self.assertLess(len(str(raised.exception)), 2500)

    def test_what_is_kept_of_tables(self) -> None:
        relations = Relations((), True, mock.Mock())
        self.assertRaises(
            (ValueError, KeyError, TypeError), relations.load, '{"kept":[[5,{}]],"left":[]}'
        )
