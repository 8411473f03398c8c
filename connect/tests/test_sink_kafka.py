"""Messages of Kafka: where they go, where a sink goes on, and what a cluster may say."""

from __future__ import annotations

import contextlib
import gc
import json
import unittest
from types import SimpleNamespace
from typing import Any
from unittest import mock

from pgsub_connect.follow.process_beside import SinkSettings
from pgsub_connect.store.export import ExportSettings, export_store
from pgsub_feed.column_types import KnownTypes
from pgsub_feed.errors import EngineError, FileError, Passing, Stopped, TooLarge, Unfit, UsageError
from pgsub_feed.interruption import Check, never
from pgsub_feed.sinks.engine import Alone
from pgsub_feed.sinks.kafka_client import parts_of
from pgsub_feed.sinks.kafka_engine import ATTEMPT, Kafka, connect
from pgsub_feed.tables.values import ALL_TEXT

from .fake_kafka import Error, FakeKafka, Message
from .feeds import delete, insert, table, truncate, update
from .sinks import SinkCase
from .stores import Store

STOCK = "pgsub.public.stock"


class KafkaCase(SinkCase):
    url = "kafka://h"

    def setUp(self) -> None:
        super().setUp()
        self.server = FakeKafka()
        for name, value in (
            ("importlib", SimpleNamespace(import_module=self.server.import_module)),
            ("CONNECT", 0.05),
            ("LONGEST", 0.05),
            ("TICK", 0.001),
        ):
            patched = mock.patch(f"pgsub_feed.sinks.kafka_client.{name}", value)
            patched.start()
            self.addCleanup(patched.stop)

    def told(self, topic: str = STOCK) -> list[tuple[Any, Any, tuple[int, int, int]]]:
        """Of each message the key, op and rows, and its numbers, in the order of these."""
        found = [
            (it.key and json.loads(it.key), ops(it), it.numbers()) for it in self.server.said(topic)
        ]
        return sorted(found, key=lambda it: it[2])

    def engine(self, check: Check = never) -> Kafka:
        """The engine by itself."""
        alone = Alone(str(self.path), 0o600)
        self.addCleanup(alone.close)
        return connect(self.url, None, (), False, None, KnownTypes(), check, alone)

    def position(self) -> Any:
        return json.loads(self.server.said("pgsub.position")[-1].value or b"")

    def export(self, at: int = 0x100, *rows: str) -> str:
        """A base of some rows."""
        path = str(self.folder / f"{at}{rows}.db")
        store = Store(path, at)
        self.addCleanup(store.close)
        store.table(1, "stock")
        for it in rows or ("1", "2"):
            store.row(1, it, "a")
        export_store(ExportSettings(store=path, into=path + ".base", form=ALL_TEXT), never)
        return path + ".base"


def ops(it: Message) -> Any:
    value = it.value and json.loads(it.value)
    return value and (value["op"], value["before"], value["after"])


class Messages(KafkaCase):
    def test_each(self) -> None:
        a, b = {"id": 1, "name": "a"}, {"id": 2, "name": "b"}
        self.take(insert("1", "a"), update(["1", "a"], ["2", "b"]))
        self.take(delete("2", "b"), insert("1", "x", of=table(2, "bag", letter="f")))
        self.assertEqual(self.run_it(), [])
        one, two = {"id": 1}, {"id": 2}
        self.assertEqual(
            self.told(),
            [
                (one, ("c", None, a), (0x100, 0, 0)),
                (one, ("d", a, None), (0x100, 1, 0)),
                (one, None, (0x100, 1, 1)),
                (two, ("c", None, b), (0x100, 1, 2)),
                (two, ("d", b, None), (0x200, 0, 0)),
                (two, None, (0x200, 0, 1)),
            ],
        )
        bag = self.server.topics["pgsub.public.bag"]
        self.assertEqual([len(it) for it in bag], [1, 0, 0])
        about = {"system": "7", "database": "shop", "slot": "pgsub", "tables": []}
        self.assertEqual(self.position(), {"lsn": "0/200", **about, "attempt": None})

    def test_truncate_goes_to_each_partition(self) -> None:
        self.take(insert("1", "a"), truncate())
        self.run_it()
        truncated = [
            [it for it in partition if it.key is None] for partition in self.server.topics[STOCK]
        ]
        self.assertEqual([len(it) for it in truncated], [1, 1, 1])
        self.assertEqual({it[0].numbers() for it in truncated}, {(0x100, 1, 0)})

    def test_a_topic_that_gets_more_partitions(self) -> None:
        """A later TRUNCATE is for rows of these, too."""
        self.take(insert("1", "a"))
        self.run_it()
        engine = self.engine()
        for count in (3, 4):
            self.assertEqual(engine.cluster.partitions(STOCK), count)
            self.server.topics[STOCK].append([])

    def test_schemas_and_properties(self) -> None:
        self.take(insert("1", "a"))
        self.url = "kafka://h?schemas=true&topic.prefix=shop&tombstones.on.delete=false"
        self.run_it()
        found = self.server.said("shop.public.stock")[0]
        self.assertEqual(json.loads(found.key or b"")["payload"], {"id": 1})
        self.url = "kafka://h"
        self.run_it(schemas=True, debezium=["topic.prefix=other"])
        self.assertEqual(
            self.server.said("other.public.stock")[0].value is not None,
            json.loads(found.value or b"")["payload"]["op"] == "c",
        )

    def test_chosen(self) -> None:
        self.take(insert("1", "a"), insert("1", "b", of=table(2, "other")))
        self.run_it(table=["other"])
        self.assertEqual(sorted(self.server.topics), ["pgsub.position", "pgsub.public.other"])
        self.fails(
            Unfit, "what is kept there is of .*, and this would be of .*: take another topic.prefix"
        )

    def test_base(self) -> None:
        self.take(insert("9", "z"))
        self.take(insert("3", "c"))
        self.run_it(base=self.export())
        self.assertEqual(
            [(key, said[0], numbers) for key, said, numbers in self.told()],
            [
                ({"id": 1}, "r", (0x100, 0, 0)),
                ({"id": 2}, "r", (0x100, 1, 0)),
                ({"id": 3}, "c", (0x200, 0, 0)),
            ],
        )
        value = json.loads(self.server.said(STOCK)[0].value or b"")
        self.assertEqual((value["source"]["snapshot"], value["source"]["lsn"]), ("true", 0x100))


class GoesOn(KafkaCase):
    def after_each(self, base: str | None = None) -> dict[tuple[str, int], list[Message]]:
        """Ends a sink after each message, and has another one go on."""
        self.run_it(base=base)
        whole, count = self.server.taken(), sum(map(len, map(self.server.said, self.server.topics)))
        for accepted in range(1, count):
            self.server.topics.clear()
            self.server.accepts = accepted
            self.fails(Passing, "doesn't say in 0 seconds|_transport", base=base)
            self.server.accepts = None
            self.run_it(base=base)
            found = self.server.taken()
            yielded = {where: [it[2:4] for it in said] for where, said in found.items()}
            self.same(yielded, {where: [it[2:4] for it in said] for where, said in whole.items()})
        return whole

    def same(self, ours: Any, theirs: Any) -> None:
        self.assertEqual(
            {it: self.without_times(said) for it, said in ours.items()},
            {it: self.without_times(said) for it, said in theirs.items()},
        )

    def without_times(self, said: list[tuple[bytes | None, bytes | None]]) -> list[Any]:
        return [(key, value and json.loads(value)["after"]) for key, value in said]

    def test_after_each_message(self) -> None:
        for number in range(4):
            self.take(*(insert(f"{number}{it}", "a") for it in range(number)), truncate())
        self.after_each()

    def test_a_base_that_is_begun_again(self) -> None:
        """Who takes the messages whose numbers rise has the rows of the second base alone."""
        self.take()
        self.server.topic("pgsub.position", 1)
        self.server.accepts = 2
        self.fails(Passing, "", base=self.export(0x100, "1", "2"))
        self.assertEqual((self.position()["lsn"], self.position()["attempt"]), ("0/100", 0))
        self.server.accepts = None
        self.fails(
            Unfit,
            "of 0/100 were begun there, and this one is of 0/80: take a later one",
            base=self.export(0x80, "1"),
        )
        self.run_it(base=self.export(0x100, "2", "3"))
        again = [it for it in self.told() if it[2][1] >= ATTEMPT]
        self.assertEqual(
            [(key, said[0]) for key, said, _ in again],
            [(None, "t")] * 3 + [({"id": 2}, "r"), ({"id": 3}, "r")],
        )
        self.assertEqual((self.position()["lsn"], self.position()["attempt"]), ("0/100", None))

    def test_the_position_is_not_a_sink_s(self) -> None:
        self.server.topic("pgsub.position", 1)[0].append(Message("", 0, None, b"{}", []))
        self.fails(Unfit, "topic pgsub.position: its last message isn't a sink's: take another")
        self.server.topics["pgsub.position"][0].clear()
        self.server.removed = 3
        self.fails(Unfit, "its last message is gone: take another topic.prefix to begin anew")

    def test_a_cluster_that_makes_no_topics(self) -> None:
        self.take(truncate())
        self.server.makes_topics = False
        self.fails(
            EngineError, "there is no topic pgsub.public.stock, and the brokers don't make it"
        )

    def test_without_the_right_to_make_topics(self) -> None:
        self.take(insert("1", "a"))
        self.server.has_admin = False
        self.run_it()
        self.assertEqual(self.position()["lsn"], "0/100")

    def test_more_than_waits(self) -> None:
        self.server.room = 3
        self.take(*(insert(str(it), "a") for it in range(20)))
        with mock.patch("pgsub_feed.sinks.engine.ROOM", 10):
            self.run_it()
        self.assertEqual(len(self.server.said(STOCK)), 20)

    def test_the_position_is_written_again(self) -> None:
        self.take(insert("1", "a"))
        self.run_it()
        engine = self.engine()
        with contextlib.closing(engine), mock.patch("pgsub_feed.sinks.kafka_engine.OFTEN", -1):
            engine.open(
                mock.Mock(
                    head=mock.Mock(),
                    chosen=(),
                    about=lambda: {
                        it: self.position()[it] for it in ("system", "database", "slot", "tables")
                    },
                )
            )
            engine.look()
            self.assertEqual((engine.safe(), engine.finish(60)), (0x100, True))
        self.assertEqual(len(self.server.said("pgsub.position")), 4)

    def test_a_machine_that_stands_still(self) -> None:
        """What is there by then is seen."""
        self.take(insert("1", "a"))
        self.run_it()
        cluster, now, listed = self.engine().cluster, [0.0], self.server.listed
        cluster.look_for_topics()

        def passes() -> float:
            now[0] += 100.0
            return now[0]

        def makes(*names: str) -> SimpleNamespace:
            found = listed(*names)
            self.server.makes_topics = True
            now[0] += 100.0
            return found

        with mock.patch("pgsub_feed.sinks.kafka_client.time", mock.Mock(monotonic=passes)):
            self.assertIsNotNone(cluster.last("pgsub.position"))
        self.server.makes_topics = False
        clock = mock.Mock(monotonic=lambda: now[0])
        with mock.patch("pgsub_feed.sinks.kafka_client.time", clock), mock.patch.object(
            self.server, "listed", makes
        ):
            self.assertEqual(cluster.partitions("late"), 3)

    def test_the_end_comes_first(self) -> None:
        self.take(insert("1", "a"))
        engine = self.engine()
        engine.about, engine.end = {}, 0x100
        self.server.accepts = 0
        engine.cluster.send("t", None, b"x", partition=0)
        with mock.patch("pgsub_feed.sinks.kafka_client.LONGEST", 60.0):
            self.assertFalse(engine.finish(0.001))


class Says(KafkaCase):
    def test_a_message_that_is_too_large(self) -> None:
        self.take(insert("1", "a"))
        self.take(insert("2", "b"), insert("3", "c" * 2000))
        path = self.folder / "config"
        path.write_text("message.max.bytes = 2000\n\n# a comment\n")
        self.fails(
            TooLarge,
            "0/200:1: a change of the topic pgsub.public.stock makes a message of .*message.max.bytes is 2000: raise it",
            kafka_config=str(path),
        )
        self.assertEqual([it[2] for it in self.told()], [(0x100, 0, 0)])
        self.server.rejects = Error("MSG_SIZE_TOO_LARGE")
        self.fails(
            TooLarge,
            "topic pgsub.public.stock: msg_size_too_large: raise max.message.bytes of the topic",
            debezium=["topic.prefix=pgsub"],
        )

    def test_errors(self) -> None:
        self.take(insert("1", "a"))
        for name, kind in (
            ("TOPIC_AUTHORIZATION_FAILED", EngineError),
            ("NOT_ENOUGH_REPLICAS", Passing),
        ):
            self.server.rejects = Error(name)
            self.fails(kind, f"Kafka at h:9092: {name.lower()}")
        self.server.rejects, self.server.tells = None, Error("_AUTHENTICATION")
        self.fails(EngineError, "_authentication")
        self.server.tells = Error("_FATAL", True)
        self.fails(Passing, "_fatal")
        self.server.tells, self.server.accepts = Error("_RESOLVE"), 0
        self.fails(Passing, "Kafka at h:9092: _resolve: _transport")

    def test_it_ends_by_a_signal(self) -> None:
        def check() -> None:
            raise Stopped

        with self.assertRaises(Stopped):
            self.engine(check)

    def test_configuration(self) -> None:
        self.take(insert("1", "a"))
        path = self.folder / "config"
        for text, wrong in (
            ("acks=1", "acks is what the sink decides itself"),
            ("bootstrap.servers=x", "bootstrap.servers is what the sink decides itself"),
            ("ssl", "line 1 is no name=value"),
            ("no.such=1", "No such configuration property"),
        ):
            path.write_text(text)
            self.fails(UsageError, wrong, kafka_config=str(path))
        path.write_bytes(b"\xff")
        self.fails(UsageError, "it isn't UTF-8", kafka_config=str(path))
        path.write_text("security.protocol=SASL_SSL\nsasl.password=a=b")
        path.chmod(0o600)
        self.url = f"kafka://one,two:1,[::1]?config={path}"
        self.assertEqual(self.run_it(), [])
        config = self.server.configs[-1]
        self.assertEqual(
            [
                config[it]
                for it in ("bootstrap.servers", "sasl.password", "acks", "enable.idempotence")
            ],
            ["one:9092,two:1,[::1]:9092", "a=b", "all", True],
        )
        path.chmod(0o644)
        self.assertRegex(self.run_it()[0], "config has a password, and every account may read it")

    def test_room_for_the_largest_message(self) -> None:
        """(librdkafka never takes one that is larger than all that may wait.)"""
        self.take(insert("1", "a"))
        path = self.folder / "config"
        for size in (2000, 1 << 20, 200000000):
            path.write_text(f"message.max.bytes={size}")
            self.run_it(kafka_config=str(path))
            room = self.server.configs[-1]["queue.buffering.max.kbytes"]
            self.assertGreaterEqual(room << 10, max(size, 64 << 20))

    def test_no_producer_is_left(self) -> None:
        """Each has threads and connections, which a sink that waits for its cluster would collect."""
        self.take(insert("1", "a"))
        gc.disable()
        self.addCleanup(gc.enable)
        self.run_it()
        self.assertEqual(len(self.server.producers), 0)
        self.server.accepts = 0
        self.fails(Passing, "_transport")
        self.assertEqual(len(self.server.producers), 0)

    def test_urls(self) -> None:
        for url in ("kafka://", "kafka://h/topic", "kafka://user:word@h"):
            with self.assertRaises(UsageError):
                parts_of(url)
        self.url = "kafka://h?sasl.password=secret"
        self.fails(UsageError, "^sasl.password: known properties are")
        self.url = "kafka://h"
        self.fails(UsageError, "--as is for Redis", form="streams")
        self.fails(
            UsageError,
            "--kafka-config, --debezium and --schemas are for Kafka",
            url="redis://h",
            schemas=True,
        )
        where = SinkSettings("kafka://h?topic.prefix=x&config=y", "feed", "store").where()
        self.assertEqual(where, "kafka://h?topic.prefix=x")

    def test_without_the_library(self) -> None:
        self.take()
        none = SimpleNamespace(import_module=mock.Mock(side_effect=ModuleNotFoundError))
        wrong = mock.patch("pgsub_feed.sinks.kafka_client.importlib", none)
        with wrong:
            self.fails(FileError, "apt-get install python3-confluent-kafka")


if __name__ == "__main__":
    unittest.main()
