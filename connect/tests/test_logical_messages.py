"""Logical messages in a feed: how they are read, printed, given to sinks, and passed over by what
keeps rows."""

from __future__ import annotations

import base64
import contextlib
import json
import sqlite3
from pathlib import Path
from typing import Any

from feed_text import About, Line, Message, message_line, summed

import pgsub_feed
from pgsub_connect.cli import main as connect_main
from pgsub_feed.errors import Damaged, Passing, TooLarge, Unfit
from pgsub_feed.reader.commits import TableLine
from pgsub_feed.reader.segments import Reader

from .feeds import STOCK, FeedCase, delete, insert, truncate
from .fake_redis import Stream
from .sinks import RedisCase, stock
from .test_debezium import ABOUT, MADE, SOURCE, MessagesCase
from .test_feed_printing import PrintingCase
from .test_piping import PipeCase
from .test_sink_kafka import KafkaCase
from .test_sink_nats import NatsCase

TEXT = 'é\n\x1f"\\𝄞'
ORDER = Message(0x25504000, "order", b'{"id":7}')
# what is no text of UTF-8, and what has U+0000
MANY = [ORDER, Message(0x25504010, "", b"\xff\xfe"), Message(0x25504020, "ä b", TEXT.encode())]
MANY += [Message(0x25504030, "order", b"a\0b"), Message(0x25504040, "order", b"")]
READ = [("order", '{"id":7}'), ("", b"\xff\xfe"), ("ä b", TEXT), ("order", b"a\0b"), ("order", "")]


class Reads(FeedCase):
    def commits(self, **more: Any) -> list[pgsub_feed.Commit]:
        return list(pgsub_feed.read(self.path, **more))

    def test_each(self) -> None:
        self.feed.commit(0x100, [insert("1", "a")], messages=MANY)
        self.feed.commit(0x200, [insert("2", "b")])
        self.feed.commit(0x300, messages=[ORDER])
        first, second, third = self.commits()
        self.assertEqual([(it.prefix, it.content) for it in first.messages], READ)
        self.assertEqual(
            [(it.lsn, it.n) for it in first.messages], [(it.lsn, n) for n, it in enumerate(MANY)]
        )
        self.assertEqual([it.bytes() for it in first.messages], [it.content for it in MANY])
        self.assertEqual([len(it.changes) for it in (first, second, third)], [1, 1, 0])
        self.assertEqual((second.messages, third.tables), ((), ()))
        self.assertEqual(third.messages, (pgsub_feed.Message(ORDER.lsn, "order", '{"id":7}', 0),))

    def test_tables_are_chosen_alone(self) -> None:
        self.feed.commit(0x100, [insert("1", "a")], messages=[ORDER])
        (found,) = self.commits(tables=["other"])
        self.assertEqual((len(found.messages), found.changes), (1, ()))

    def test_large_ones(self) -> None:
        many = [Message(it, "large", b"x" * it) for it in ((1 << 20) - 70, 3 << 20, 1)]
        self.feed.commit(0x100, [insert("1", "a")], messages=many)
        (found,) = self.commits()
        self.assertEqual([it.bytes() for it in found.messages], [it.content for it in many])
        self.assertEqual(len(found.changes), 1)

    def test_they_come_first(self) -> None:
        self.feed.commit(0x100, [insert("1", "a")], messages=MANY[:1])
        with contextlib.closing(Reader(str(self.path), 0)) as reader:
            commit = reader.next()
            assert commit
            self.assertEqual(commit.changes, 1)
            message, described, _ = reader.parts(commit)
            self.assertIsInstance(message, pgsub_feed.Message)
            self.assertIsInstance(described, TableLine)
            ((at, _),) = reader.definitions(commit)
        self.assertEqual(at, 1280 + len(message_line(ORDER)))

    def test_unknown_fields(self) -> None:
        self.feed.commit(0x100, messages=[ORDER])
        text = self.feed.path.read_bytes()
        body = text[1280:].replace(b'"prefix"', b'"more":1,"prefix"')
        line = text[1024:1280].replace(b'"bytes":%d' % len(text[1280:]), b'"bytes":%d' % len(body))
        self.feed.path.write_bytes(text[:1024] + summed(line + body))
        self.assertEqual(self.commits()[0].messages[0].content, '{"id":7}')


class Damage(FeedCase):
    def raised(self, text: bytes) -> tuple[int, int]:
        self.feed.path.write_bytes(text[:1024] + summed(text[1024:]))
        with self.assertRaises(Damaged) as raised:
            list(pgsub_feed.read(self.path))
        return raised.exception.number, raised.exception.offset

    def test_lines(self) -> None:
        self.feed.commit(0x100, [insert("1", "a")], messages=MANY[:2])
        text = self.feed.path.read_bytes()
        first, second = (text.index(message_line(it)) for it in MANY[:2])
        for old, new, at in (
            (b'"op":"m"', b'"op":"n"', first),
            (b'"lsn":"0/25504000"', b'"lsn":0', first),
            (b'"lsn":"0/25504000"', b'"len":"0/25504000"', first),
            (b'"prefix":"order"', b'"prefix":["rde"]', first),
            (b'"{\\"id\\":7}"', b"null", first),
            (b'{"hex":"fffe"}', b'{"hex":"fffx"}', second),
            (b'{"hex":"fffe"}', b'{"box":"fffe"}', second),
            (b'{"hex":"fffe"}', b'{"unchanged":true}', second),
        ):
            with self.subTest(old=old, new=new):
                self.assertIn(old, text)
                found = self.raised(replaced(text, old, new))
                self.assertEqual(found, (5, at))

    def test_one_behind_a_definition(self) -> None:
        self.feed.commit(0x100, [insert("1", "a")], messages=[ORDER])
        text, line = self.feed.path.read_bytes(), message_line(ORDER)
        moved = text.replace(line, b"") + line
        moved = moved.replace(b'"at":%d' % (1280 + len(line)), b'"at":1280')
        self.assertEqual(self.raised(moved), (5, len(text) - len(line)))

    def test_they_arent_counted_as_changes(self) -> None:
        self.feed.commit(0x100, [insert("1", "a")], messages=[ORDER])
        text = self.feed.path.read_bytes()
        self.assertIn(b'"changes":1,', text)
        self.assertEqual(self.raised(text.replace(b'"changes":1,', b'"changes":2,'))[0], 6)

    def test_a_checksum(self) -> None:
        self.feed.commit(0x100, messages=[ORDER])
        text = self.feed.path.read_bytes()
        self.feed.path.write_bytes(text.replace(b'{\\"id\\":7}', b'{\\"id\\":8}'))
        with self.assertRaisesRegex(Damaged, "reading 9 Checksum"):
            list(pgsub_feed.read(self.path))


def replaced(text: bytes, old: bytes, new: bytes) -> bytes:
    """The text of one commit with other words in a line, and as many bytes as it then has."""
    found = text.replace(old, new, 1)
    was, now = len(text) - 1280, len(found) - 1280
    return found.replace(b'"bytes":%d,' % was, b'"bytes":%d,' % now)


class Printed(PrintingCase):
    def setUp(self) -> None:
        super().setUp()
        self.feed.commit(0x25504168, [insert("1", "a")], ABOUT, MANY)

    def test_objects(self) -> None:
        *messages, change = map(json.loads, self.print().splitlines())
        about = {"xid": 742, "ts_us": 1769508000123456, "op": "m"}
        contents = ['{"id":7}', {"hex": "fffe"}, TEXT, {"hex": "610062"}, ""]
        self.assertEqual(
            messages,
            [
                {
                    "id": f"0/25504168:m{n}",
                    **about,
                    "lsn": f"0/255040{n}0",
                    "prefix": it.prefix,
                    "content": content,
                }
                for n, (it, content) in enumerate(zip(MANY, contents))
            ],
        )
        self.assertEqual((change["id"], change["op"]), ("0/25504168:0", "c"))

    def test_lines(self) -> None:
        _, *lines = self.print("--format", "lines").splitlines(keepends=True)
        self.assertEqual("".join(lines).encode(), self.feed.path.read_bytes()[1024:])

    def test_with_chosen_tables(self) -> None:
        found = [json.loads(it)["op"] for it in self.print("--table", "other").splitlines()]
        self.assertEqual(found, ["m"] * len(MANY))

    def test_bulk(self) -> None:
        about, row = map(json.loads, self.print("--format", "bulk").splitlines())
        self.assertEqual((about["index"]["_id"], row), ("1", {"id": 1, "name": "a"}))

    def test_undone(self) -> None:
        text = self.print("--undo", "0/0", "0/25504168")
        self.assertIn("'0/25504168:0, public.stock'", text)
        self.assertNotIn("order", text)


class AsDebezium(MessagesCase):
    def test_each(self) -> None:
        self.feed.commit(0x25504168, [insert("1", "a")], ABOUT, MANY)
        pairs = self.pairs()
        contents = ["eyJpZCI6N30=", "//4=", base64.b64encode(TEXT.encode()).decode(), "YQBi", ""]
        for n, ((key, value), it, content) in enumerate(zip(pairs, MANY, contents), 1):
            self.assertEqual(key, {"prefix": it.prefix})
            self.assertEqual(
                value,
                {
                    "op": "m",
                    **MADE,
                    "source": {**SOURCE, "schema": "", "table": ""},
                    "transaction": {
                        "id": "742:626016512",
                        "total_order": n,
                        "data_collection_order": n,
                    },
                    "message": {"transactional": True, "prefix": it.prefix, "content": content},
                },
            )
        order = pairs[-1][1]["transaction"]
        self.assertEqual((order["total_order"], order["data_collection_order"]), (6, 1))

    def test_schemas(self) -> None:
        self.feed.commit(0x25504168, [], ABOUT, MANY[:2])
        for mode, kind, content in (
            ("bytes", "bytes", "//4="),
            ("base64", "string", "//4="),
            ("base64-url-safe", "string", "__4="),
            ("hex", "string", "fffe"),
        ):
            words = ("--keys", "--schemas", "--debezium", f"binary.handling.mode={mode}")
            key, value = map(json.loads, self.lines(*words)[1].split("\t"))
            name = "io.debezium.connector.postgresql.Message"
            self.assertEqual(
                (key["schema"]["name"], value["schema"]["name"]), (f"{name}Key", f"{name}Value")
            )
            message = value["schema"]["fields"][-1]
            self.assertEqual((message["name"], message["field"]), (name, "message"))
            fields = [(it["field"], it["type"], it["optional"]) for it in message["fields"]]
            told = [("transactional", "boolean", True), ("prefix", "string", True)]
            self.assertEqual(fields, [*told, ("content", kind, True)])
            self.assertEqual(value["payload"]["message"]["content"], content)
            self.assertEqual(self.payloads(*words[2:])[1]["message"]["content"], content)

    def test_transactions(self) -> None:
        """They are events of it, of a collection of their own."""
        self.feed.commit(0x25504168, [insert("1", "a")], ABOUT, MANY[:2])
        (_, begin), *_, (_, end) = self.pairs("--debezium", "provide.transaction.metadata=true")
        self.assertEqual((begin["status"], end["event_count"]), ("BEGIN", 3))
        counts = [("message", 2), ("public.stock", 1)]
        self.assertEqual(
            end["data_collections"],
            [{"data_collection": name, "event_count": it} for name, it in counts],
        )

    def test_without_xid(self) -> None:
        self.feed.commit(0x200, messages=[ORDER])
        self.assertIsNone(self.payloads()[0]["transaction"])


class InKafka(KafkaCase):
    def test_each(self) -> None:
        self.take(insert("1", "a"), messages=MANY[:2])
        self.take(messages=[ORDER])
        self.run_it()
        found = sorted(self.server.said("pgsub.message"), key=lambda it: it.numbers())
        self.assertEqual(
            [it.numbers() for it in found], [(0x100, 0, 0), (0x100, 1, 0), (0x200, 0, 0)]
        )
        prefixes = [json.loads(it.key or b"") for it in found]
        self.assertEqual(prefixes, [{"prefix": it} for it in ("order", "", "order")])
        values = [json.loads(it.value or b"") for it in found]
        self.assertEqual(
            [it["message"]["content"] for it in values], ["eyJpZCI6N30=", "//4=", "eyJpZCI6N30="]
        )
        self.assertEqual([it[2] for it in self.told()], [(0x100, 0, 0)])
        self.assertEqual(self.position()["lsn"], "0/200")

    def test_a_prefix_has_one_partition(self) -> None:
        for it in range(9):
            self.take(messages=[Message(it, prefix, b"x") for prefix in ("a", "b", "c", "d")])
        self.run_it()
        for partition in self.server.topics["pgsub.message"]:
            numbers = [it.numbers() for it in partition]
            self.assertEqual(numbers, sorted(numbers))
        keys = [{it.key for it in part} for part in self.server.topics["pgsub.message"]]
        self.assertEqual(sum(map(len, keys)), 4)

    def test_one_that_is_too_large(self) -> None:
        self.take(insert("1", "a"))
        self.take(insert("2", "a"), messages=[ORDER, Message(1, "big", b"x" * (1 << 20))])
        self.fails(TooLarge, r"0/200:1: a change of the topic pgsub.message makes a message of")
        self.assertEqual(self.position()["lsn"], "0/100")
        self.assertNotIn("pgsub.message", self.server.topics)


class InNats(NatsCase):
    def test_each(self) -> None:
        self.take(insert("1", "a"), messages=MANY[:2])
        self.take(messages=[ORDER])
        self.run_it(table=["other"])
        about: dict[str, Any] = {"end": "0/100", "op": "m"}
        order = {"prefix": "order", "content": '{"id":7}'}
        _, first, second, _, third, _ = self.said()
        self.assertEqual(
            first,
            ("pgsub.message", "0/100:m0", {**about, "n": 0, "lsn": "0/25504000", **order}),
        )
        told = {"n": 1, "lsn": "0/25504010", "prefix": "", "content": {"hex": "fffe"}}
        self.assertEqual(second, ("pgsub.message", "0/100:m1", {**about, **told}))
        self.assertEqual(third[:2], ("pgsub.message", "0/200:m0"))

    def test_each_once_after_each_message(self) -> None:
        for number in range(3):
            some = [Message(it, "p", b"%d" % it) for it in range(number)]
            self.take(*(insert(f"{number}{it}", "a") for it in range(2)), messages=some)
        self.run_it()
        whole = self.server.ids()
        self.assertEqual(whole[4:8], ["0/200:m0", "0/200:0", "0/200:1", "0/200:commit"])
        self.goes_on_after_each(whole)

    def test_another_message_has_the_number_of_one_that_is_there(self) -> None:
        self.take(messages=[ORDER, Message(2, "order", b"2")])
        self.server.accepts = 2
        self.fails(Passing, "connection")
        self.server.accepts = None
        self.feed.path.unlink()
        self.feed.at = 0
        self.feed.begin()
        self.feed.commit(0x100, messages=[Message(2, "order", b"2")])
        self.fails(Unfit, "the feed's has other changes")

    def test_one_that_is_too_large(self) -> None:
        self.take(messages=[ORDER, Message(1, "big", b"x" * 1000)])
        self.fails(
            TooLarge, r"0/100:m1: the message 1, 'big', makes a message of \d+ bytes, and NATS"
        )
        self.assertEqual(self.server.ids(), ["0/0:commit"])


class InRedis(RedisCase):
    def test_a_stream(self) -> None:
        self.take(insert("1", "a"), messages=MANY[:3])
        self.take(messages=[ORDER])
        self.run_it(form="streams", table=["other"])
        found = self.server.data[b"pgsub:message"]
        self.assertEqual(list(found), [(0x100, 0), (0x100, 1), (0x100, 2), (0x200, 0)])
        binary = {b"op": b"m", b"lsn": b"0/25504010", b"prefix": b"", b"content": b"\xff\xfe"}
        self.assertEqual(found[0x100, 1], binary)
        self.assertEqual(found[0x100, 2][b"content"], TEXT.encode())
        self.assertEqual(self.server.at(), "0/200")

    def test_each_once(self) -> None:
        """Where something else has written the stream nothing is added."""
        self.take(messages=[ORDER])
        self.server.data[b"pgsub:message"] = Stream()
        self.server.do([b"XADD", b"pgsub:message", b"256-0", b"a", b"b"])
        self.fails(Unfit, "something else has written the stream pgsub:message", form="streams")
        self.assertEqual(self.server.at(), "0/0")

    def test_what_is_forgotten(self) -> None:
        """As by a commit that can't be read: its messages aren't added either."""
        self.take(messages=[ORDER])
        self.run_it(form="streams")
        self.take(insert("1", "a"), messages=MANY)
        text = self.feed.path.read_bytes()
        self.feed.path.write_bytes(text[:1024] + summed_last(text, b'"changes":1', b'"changes":3'))
        self.fails(Damaged, "reading 6 Counts", form="streams")
        self.assertEqual(list(self.server.data[b"pgsub:message"]), [(0x100, 0)])

    def test_hashes(self) -> None:
        self.take(insert("1", "a"), messages=MANY)
        self.run_it()
        self.assertEqual(self.server.rows(), stock(("1", "a")))
        self.assertNotIn(b"pgsub:message", self.server.data)


def summed_last(text: bytes, old: bytes, new: bytes) -> bytes:
    """All commits of a segment, the last with other words."""
    at = text.rindex(b'{"end":')
    return text[1024:at] + summed(text[at:].replace(old, new))


class InTables(FeedCase):
    def tables(self, *words: str) -> list[tuple[Any, ...]]:
        path = str(self.folder / "rows.db")
        done = connect_main(["tables", "--feed", str(self.path), "--into", path, *words])
        self.assertEqual(done, 0)
        with contextlib.closing(sqlite3.connect(path)) as db:
            names = db.execute("SELECT name FROM sqlite_schema WHERE type = 'table'").fetchall()
            self.assertFalse([it for it, in names if "message" in it])
            return db.execute("SELECT * FROM stock ORDER BY id").fetchall()

    def test_they_are_passed_over(self) -> None:
        self.feed.commit(0x100, [insert("1", "a")], messages=MANY)
        self.feed.commit(0x200, messages=MANY)
        self.feed.commit(0x300, [insert("2", "b"), delete("1", "a")], messages=MANY)
        self.assertEqual(self.tables("--once"), [(2, "b")])
        # (and back)
        self.assertEqual(self.tables("--at", "0/200"), [(1, "a")])
        self.assertEqual(self.tables("--at", "0/300"), [(2, "b")])

    def test_the_independent_reader(self) -> None:
        from feed_replay import replay

        self.feed.commit(0x100, [insert("1", "a"), truncate()], About(0xF0, 7, 0), MANY)
        state = replay(Path(self.path))
        self.assertEqual((state.at, state.changes, +state.rows[1]), (0x100, 2, {}))
        self.assertEqual(
            [tuple(it) for it in state.messages],
            [(0x100, 0xF0, 7, it.lsn, it.prefix, it.content) for it in MANY],
        )


class Piped(PipeCase):
    def test_they_come(self) -> None:
        self.feed.commit(0x100, [insert("1", "a"), Line(STOCK, "t")], messages=MANY)
        self.feed.commit(0x200, messages=MANY[:1])
        here, there = list(pgsub_feed.read(self.path, 0)), self.read(0)
        self.assertEqual([it.messages for it in there], [it.messages for it in here])
        self.assertEqual([len(it.messages) for it in there], [len(MANY), 1])
        self.assertEqual([it.changes for it in there], [it.changes for it in here])
