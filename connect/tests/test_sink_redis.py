"""Hashes and streams of Redis: rows, keys, names, shapes, where they begin and go on, and what else
writes there."""

from __future__ import annotations

import contextlib
import copy
import importlib
import json
import os
import random
import signal
import sqlite3
import ssl
import time
import unittest
from collections import Counter
from collections.abc import Iterator
from pathlib import Path
from typing import Any
from unittest import mock

from feed_load import Load
from feed_replay import Replay, commits, lsn_of, replay
from feed_text import About, Column, Line, Writer, summed

from pgsub_connect.commands import sink as sink_module
from pgsub_connect.commands.sink import Options
from pgsub_connect.follow.retention import Limits, retire
from pgsub_connect.store.export import ExportSettings, export_store
from pgsub_feed.errors import (
    Damaged,
    EngineError,
    Failure,
    FileError,
    Passing,
    Stopped,
    Unfit,
    UsageError,
)
from pgsub_feed.interruption import never
from pgsub_feed.reader.commits import Commit
from pgsub_feed.reader.following import Following
from pgsub_feed.reader.polling import Poll
from pgsub_feed.reader.folder import Noted
from pgsub_feed.sinks.engine import Trail
from pgsub_feed.sinks.first_rows import Base
from pgsub_feed.sinks.redis_calls import Connection, Said, packed_command, raised
from pgsub_feed.sinks.redis_disk import Disk
from pgsub_feed.sinks.redis_engine import Redis
from pgsub_feed.tables.sqlite_files import opened
from pgsub_feed.tables.values import ALL_TEXT, BOTH

from .fake_redis import FakeCalls, Stream
from .feeds import ID, NAME, STOCK, delete, insert, table, truncate, update
from .settled import options_of
from .sinks import RedisCase, stock
from .stores import Store
from .vectors import logged


class Changes(RedisCase):
    def test_of_a_key(self) -> None:
        self.assertEqual(
            self.after(insert("1", "a"), insert("2", None)), stock(("1", "a"), ("2", None))
        )
        self.assertEqual(self.server.at(), "0/100")
        self.assertEqual(
            self.after(update(["1", "a"], ["1", None]), delete("2", None), insert("3", "é")),
            stock(("1", None), ("3", "é")),
        )
        self.assertEqual(self.after(update(["1", None], ["7", "c"])), stock(("3", "é"), ("7", "c")))
        self.assertEqual(
            self.after(Line(STOCK, "x", ["9", None], None, "K")), stock(("3", "é"), ("7", "c"))
        )
        self.assertEqual(self.after(truncate(), insert("5", "x")), stock(("5", "x")))
        self.assertEqual(self.server.at(), "0/500")

    def test_keys_that_wander(self) -> None:
        self.after(insert("1", "a"), insert("2", "b"))
        lines = [
            update(["1", "a"], ["9", "a"]),
            update(["2", "b"], ["1", "b"]),
            update(["9", "a"], ["2", "a"]),
        ]
        self.assertEqual(self.after(*lines), stock(("1", "b"), ("2", "a")))

    def test_many_commits_at_once(self) -> None:
        for number in range(50):
            self.take(insert(str(number), "a"), *([delete(str(number - 1), "a")] if number else []))
        with mock.patch("pgsub_feed.reader.following.LONGEST", 100.0):
            self.run_it()
        self.assertEqual((self.server.rows(), self.server.at()), (stock(("49", "a")), "0/3200"))
        # (one begins, and one has all)
        self.assertEqual(self.server.transactions, 3)

    def test_names(self) -> None:
        plain, dots, other = (
            table(1, "b", schema="a"),
            table(2, "a.b"),
            table(3, "pgsub", [Column("k", 25, -1, True)]),
        )
        two = table(4, "t:%", [Column("k", 25, -1, True), Column("l", 25, -1, True)], schema="")
        self.take(insert("1", "x", of=plain), insert("1", "y", of=dots), insert("lsn", of=other))
        found = self.after(
            insert("a:b", "c", of=two), insert("a", "b:c%", of=two), insert("", b"\0\xff", of=two)
        )
        self.assertEqual(
            set(found),
            {
                "a.b:1",
                "a%2Eb:1",
                "%70gsub:lsn",
                "pg_catalog.t%3A%25:a%3Ab:c",
                "pg_catalog.t%3A%25:a:b%3Ac%25",
                "pg_catalog.t%3A%25::%x00ff",
            },
        )
        self.assertEqual(
            self.server.data[b"pg_catalog.t%3A%25::%x00ff"], {b"k": b"", b"l": b"\0\xff"}
        )

    def test_a_key_that_is_one_of_redis(self) -> None:
        odd = table(1, "a*[b]?\\", [Column("k", 25, -1, True)])
        self.after(
            insert("1", of=odd),
            insert("2", of=odd),
            insert("1", of=table(2, "ab", [Column("k", 25, -1, True)])),
        )
        self.assertEqual(
            set(self.after(truncate(of=odd), insert("3", of=odd))), {"ab:1", "a*[b]?\\:3"}
        )

    def test_without_a_key(self) -> None:
        bag = table(2, "bag", letter="f")
        self.take(insert("1", "a"), insert("1", "a", of=bag))
        told = self.run_it()
        self.assertRegex(
            told[0], r"public.bag \(2\) has no key, so its rows can't be hashes and are left out"
        )
        self.assertEqual(self.server.rows(), stock(("1", "a")))
        self.take(insert("2", "b", of=table(2, "bag")))
        self.assertRegex(
            self.run_it()[0], r"public.bag \(2\): the table was left out before.* add "
        )
        self.assertEqual((self.server.rows(), self.server.at()), (stock(("1", "a")), "0/200"))
        self.take(truncate(of=table(2, "bag")), insert("3", "c", of=table(2, "bag")))
        self.assertEqual(self.run_it(), [])
        self.take(insert("4", "d", of=table(2, "bag")))
        self.assertEqual(self.run_it(), [])
        self.assertEqual(set(self.server.rows()), {"stock:1", "bag:3", "bag:4"})

    def test_a_key_is_lost(self) -> None:
        self.after(insert("1", "a"))
        self.take(update(["1", "a"], ["1", "b"], of=table(letter="f")))
        self.assertRegex(self.run_it()[0], "has no key")
        self.assertEqual(self.server.rows(), {})

    def test_chosen(self) -> None:
        self.take(
            insert("1", "a"),
            insert("1", "x", of=table(2, "other")),
            insert("1", "y", of=table(3, "other", schema="s")),
        )
        self.run_it(table=["other"])
        self.assertEqual(set(self.server.rows()), {"other:1"})
        self.fails(Unfit, "what is kept there is of .* and this would be of .*", table=["stock"])
        self.take(insert("2", "a", of=table(2, "renamed")))
        self.run_it(table=["other"])
        self.assertEqual(set(self.server.rows()), set())
        self.take(insert("3", "a", of=table(2, "other")))
        self.assertRegex(self.run_it(table=["other"])[0], "was left out before")
        self.assertEqual(set(self.server.rows()), set())
        self.take(truncate(of=table(2, "other")), insert("4", "a", of=table(2, "other")))
        self.run_it(table=["other"])
        self.assertEqual(set(self.server.rows()), {"other:4"})

    def test_a_commit_that_cant_be_read(self) -> None:
        self.take(insert("1", "a"))
        self.take(insert("2", "b"), insert("3", "c", of=table(columns=[ID, Column("other", 25)])))
        text = self.feed.path.read_bytes()
        before, end, last = text.rpartition(b'{"end":')
        self.feed.path.write_bytes(
            before + summed((end + last).replace(b'["3","c"]', b'["3"]    '))
        )
        self.fails(FileError, "reading 8 Width")
        self.assertEqual((self.server.rows(), self.server.at()), ({}, "0/0"))
        self.feed.path.write_bytes(text)
        self.run_it()
        self.assertEqual(
            self.server.rows(),
            {"stock:1": {"id": "1"}, "stock:2": {"id": "2"}, "stock:3": {"id": "3", "other": "c"}},
        )

    def test_a_commit_that_is_another_one_later(self) -> None:
        self.take(insert("1", "a"))
        start = self.feed.path.read_bytes()
        self.take(insert("2", "b"), insert("3", "c"))
        before, end, last = self.feed.path.read_bytes().rpartition(b'{"end":')
        damaged = (end + last).replace(b'["3","c"]', b'["3"]    ')
        self.feed.path.write_bytes(before + summed(damaged))
        bear, borne = Poll.bear, list[int]()

        def replaced(poll: Poll, damaged: Damaged, at: int) -> None:
            """Once a part of it was taken, and the rest can't be read."""
            borne.append(at)
            bear(poll, damaged, at)
            self.feed.path.write_bytes(start)
            self.feed.at = self.at = 0x100
            self.take(insert("4", "d"))

        until = time.monotonic() + 60.0

        def check() -> None:
            if borne and self.server.at() == "0/200" or time.monotonic() > until:
                raise Stopped

        # (a line or so is read at once)
        chunk = mock.patch("pgsub_feed.reader.segment.CHUNK", 64)
        with logged(), chunk, mock.patch.object(Poll, "bear", replaced):
            sink_module.run(Options(feed=str(self.path), url="redis://h"), check)
        self.assertEqual(borne, [0x200])
        self.assertEqual(
            (self.server.rows(), self.server.at()), (stock(("1", "a"), ("4", "d")), "0/200")
        )


class Shapes(RedisCase):
    def setUp(self) -> None:
        super().setUp()
        self.after(insert("1", "a"), insert("2", "b"))

    def altered(self, *columns: Column, row: Any = None) -> dict[str, dict[str, str]]:
        of = table(columns=columns)
        return self.after(
            insert(*row, of=of) if row else Line(of, "x", ["9"] * len(columns), None, "K")
        )

    def test_columns(self) -> None:
        more = {"id": "3", "name": "c", "more": "t"}
        self.assertEqual(
            self.altered(ID, NAME, Column("more", 16), row=["3", "c", "t"]),
            {**stock(("1", "a"), ("2", "b")), "stock:3": more},
        )
        self.assertEqual(self.altered(ID), {f"stock:{it}": {"id": str(it)} for it in (1, 2, 3)})
        self.assertEqual(
            self.altered(ID, Column("more", 16)),
            {f"stock:{it}": {"id": str(it)} for it in (1, 2, 3)},
        )

    def test_another_key(self) -> None:
        keyed = (Column("id", 23), Column("name", 25, -1, True))
        self.assertEqual(
            self.altered(*keyed),
            {"stock:a": {"id": "1", "name": "a"}, "stock:b": {"id": "2", "name": "b"}},
        )
        self.assertEqual(
            self.altered(ID, Column("name", 25, -1, True), row=["3", "c"])["stock:3:c"],
            {"id": "3", "name": "c"},
        )
        self.take(
            Line(
                table(columns=[Column("id", 23), Column("new", 23, -1, True)]),
                "x",
                ["1", "2"],
                None,
                "K",
            )
        )
        self.fails(Unfit, "two rows have one key, stock:%null")

    def test_a_key_that_is_null(self) -> None:
        self.after(delete("2", "b"))
        keyed = (Column("new", 23, -1, True), Column("id", 23))
        self.assertEqual(self.altered(*keyed), {"stock:%null": {"id": "1"}})
        self.assertEqual(self.altered(keyed[0]), {"stock:%null": {"": ""}})
        self.assertEqual(self.altered(keyed[0], Column("id", 25)), {"stock:%null": {"": ""}})
        self.assertEqual(
            self.after(update([None], ["4"], of=table(columns=keyed[:1]))),
            {"stock:4": {"new": "4"}},
        )

    def test_within_one_commit(self) -> None:
        less, more = table(columns=[ID]), table(columns=[ID, NAME, Column("more", 25)])
        lines = [
            update(["1", "a"], ["1", "z"]),
            insert("3", "c"),
            update(["3"], ["4"], of=less),
            insert("5", of=less),
            insert("6", "n", "m", of=more),
            update(["1", None, None], ["1", None, "m"], of=more),
        ]
        self.assertEqual(
            self.after(*lines),
            {
                "stock:1": {"id": "1", "more": "m"},
                "stock:2": {"id": "2"},
                "stock:4": {"id": "4"},
                "stock:5": {"id": "5"},
                "stock:6": {"id": "6", "name": "n", "more": "m"},
            },
        )

    def test_another_name(self) -> None:
        self.assertEqual(
            self.after(insert("3", "c", of=table(name="renamed", schema="s"))),
            {
                "s.renamed:1": {"id": "1", "name": "a"},
                "s.renamed:2": {"id": "2", "name": "b"},
                "s.renamed:3": {"id": "3", "name": "c"},
            },
        )
        self.assertEqual(set(self.after(truncate(of=table(name="renamed", schema="s")))), set())

    def test_made_anew(self) -> None:
        found = self.after(insert("1", "new", of=table(2)))
        self.assertEqual({it for it in found if not it.startswith("pgsub:")}, {"stock:1"})
        self.assertEqual(found["pgsub:old:1:1"], {"id": "1", "name": "a"})
        # (the older one comes back under its old name, and the newer one has another)
        found = self.after(update(["1", "a"], ["1", "x"]), insert("2", "new", of=table(2, "new")))
        self.assertEqual(
            found,
            {
                **stock(("1", "x"), ("2", "b")),
                "new:1": {"id": "1", "name": "new"},
                "new:2": {"id": "2", "name": "new"},
            },
        )

    def test_names_are_swapped_in_one_commit(self) -> None:
        other = table(2, "other")
        self.after(insert("1", "o", of=other), insert("7", "p", of=other))
        found = self.after(
            insert("3", "c", of=table(1, "other")),
            delete("1", "o", of=table(2, "stock")),
            delete("2", "b", of=table(1, "other")),
        )
        self.assertEqual(
            found,
            {
                "other:1": {"id": "1", "name": "a"},
                "other:3": {"id": "3", "name": "c"},
                "stock:7": {"id": "7", "name": "p"},
            },
        )

    def test_a_name_that_another_table_has_in_between(self) -> None:
        """Within a commit that tells the table once, since it is described as before."""
        found = self.after(
            insert("3", "c"),
            insert("8", "x", of=table(2)),
            insert("4", "d"),
            delete("1", "a"),
            insert("9", "y", of=table(2, "other")),
            delete("4", "d"),
        )
        others = {f"other:{id}": {"id": id, "name": name} for id, name in (("8", "x"), ("9", "y"))}
        self.assertEqual(found, {**stock(("2", "b"), ("3", "c")), **others})

    def test_truncated_between(self) -> None:
        found = self.after(
            insert("3", "c"),
            truncate(),
            insert("2", "n"),
            insert("8", "x", of=table(name="renamed")),
        )
        self.assertEqual(
            found, {"renamed:2": {"id": "2", "name": "n"}, "renamed:8": {"id": "8", "name": "x"}}
        )


class Others(RedisCase):
    """What else writes there."""

    def setUp(self) -> None:
        super().setUp()
        self.after(insert("1", "a"))
        self.take(insert("2", "b"))

    def test_another_sink_begins(self) -> None:
        def begin() -> None:
            self.server.before_exec = lambda: None
            self.run_it()

        self.server.before_exec = begin
        self.fails(Unfit, "another sink has begun to write there, .*, so this one ends")
        self.assertEqual(
            (self.server.rows(), self.server.at()), (stock(("1", "a"), ("2", "b")), "0/200")
        )

    def test_a_sink_that_doesnt_fit_ends_none(self) -> None:
        before = self.server.data[b"pgsub:sink"]
        self.fails(Unfit, "take another database", form="streams")
        self.assertEqual(self.server.data[b"pgsub:sink"], before)

    def test_a_sink_that_is_rejected_for_settings_ends_none(self) -> None:
        before = self.server.data[b"pgsub:sink"]
        self.server.syncs[1] = b"no"
        self.fails(EngineError, "appendfsync is no", reader="redis")
        self.assertEqual(self.server.data[b"pgsub:sink"], before)

    def test_a_sink_whose_feed_lacks_commits_ends_none(self) -> None:
        """As one that was begun anew does, once and once more."""
        before = self.server.data[b"pgsub:sink"]
        for it in self.path.iterdir():
            it.unlink()
        for base in (0x200, 0x180):
            Writer(self.path, base).commit(base + 0x20)
            self.fails(Unfit, "0/100")
            self.assertEqual(self.server.data[b"pgsub:sink"], before)

    def test_the_lsn_is_written(self) -> None:
        self.server.before_exec = lambda: self.server.do([b"SET", b"pgsub:lsn", b"0/50"]) and None
        self.fails(Unfit, "pgsub:lsn is 0/50 in place of 0/100")
        self.assertEqual(self.server.rows(), stock(("1", "a")))

    def test_keys_are_removed(self) -> None:
        self.server.before_exec = lambda: self.server.do([b"UNLINK", *self.server.data]) and None
        self.fails(Unfit, "something else has removed keys of the sink, pgsub:sink among them")
        self.server.before_exec = lambda: None
        self.assertEqual(self.after(), stock(("1", "a"), ("2", "b")))

    def test_it_looks_while_there_is_nothing(self) -> None:
        self.run_it()
        calls, times = [FakeCalls(self.server) for _ in range(2)], iter(range(0, 1000, 100))

        def check() -> None:
            if next(times) == 300:
                self.server.do([b"SET", b"pgsub:sink", b"other"])

        options = Options(feed=str(self.path), url="redis://h")
        with mock.patch(
            "pgsub_feed.sinks.redis_calls.Connection", lambda *_: calls.pop()
        ), mock.patch("time.sleep"):
            with mock.patch("pgsub_feed.sinks.redis_engine.OFTEN", 0.0), self.assertRaisesRegex(
                Unfit, "another sink has begun .* other"
            ):
                sink_module.run(options, check)

    def test_rows_are_something_else_by_now(self) -> None:
        self.server.do([b"SET", b"stock:2", b"text"])
        self.server.do([b"UNLINK", b"stock:1"])
        self.assertEqual(
            self.after(insert("3", "c", of=table(name="new"))),
            {"new:2": {"id": "2", "name": "b"}, "new:3": {"id": "3", "name": "c"}},
        )

    def test_errors(self) -> None:
        for said, kind in (
            ("OOM command not allowed when used memory > 'maxmemory'.", Passing),
            ("MISCONF Redis is configured", Passing),
            ("EXECABORT Transaction discarded because of previous errors.", EngineError),
            ("NOPERM no permissions", EngineError),
        ):
            self.server.fails = lambda said=said: Said(said)  # type: ignore[misc]
            self.fails(kind, said[:12])
            self.assertEqual((self.server.rows(), self.server.at()), (stock(("1", "a")), "0/100"))

    def test_an_error_within(self) -> None:
        self.take(Line(table(columns=[ID]), "x", ["9"], None, "K"))
        with mock.patch.object(type(self.server), "do_hdel", lambda *_: Said("WRONGTYPE of a key")):
            self.fails(EngineError, "altered by something else, begin anew: WRONGTYPE")
        self.assertEqual(self.server.at(), None)
        self.fails(Unfit, "there are keys that begin with stock: already")

    def test_keys_with_the_name_of_a_later_table(self) -> None:
        """They aren't overwritten, nor removed with its rows."""
        cart, theirs = table(7, "cart"), {b"cart:1": {b"x": b"y"}, b"cart:9": {b"x": b"z"}}
        self.server.data.update(theirs)
        feed = self.feed.path.read_bytes(), self.feed.size, dict(self.feed.told)
        for lines in (
            [insert("1", "b", of=cart), truncate(cart)],
            [insert("2", "b", of=table(name="cart"))],
        ):
            self.take(*lines)
            text = r"keys that begin with cart: already, as those of public.cart \(\d\) would: take"
            for _ in range(2):
                self.fails(Unfit, text)
            self.assertEqual({key: self.server.data[key] for key in theirs}, theirs)
            self.assertEqual(self.server.at(), "0/100")
            self.feed.path.write_bytes(feed[0])
            self.feed.size, self.feed.told = feed[1], dict(feed[2])
            self.feed.at = self.at = 0x200
        for key in theirs:
            del self.server.data[key]
        self.take(insert("1", "b", of=cart))
        self.run_it()
        self.assertEqual(self.server.rows()["cart:1"], {"id": "1", "name": "b"})

    def test_what_is_known_of_tables_is_removed(self) -> None:
        del self.server.data[b"pgsub:tables"]
        self.fails(Unfit, "something else has removed pgsub:tables")

    def test_it_isnt_known_at_once_what_the_disk_has(self) -> None:
        (self.path / "readers").mkdir()
        (self.path / "readers/redis").write_text("0/50\n")
        with mock.patch("pgsub_feed.sinks.redis_disk.LATE", 1000.0):
            self.run_it(reader="redis")
        self.assertEqual((self.path / "readers/redis").read_text(), "0/50\n")

    def test_a_signal_within_a_commit(self) -> None:
        self.take(insert("3", "c"), truncate(), insert("4", "d"))
        states: list[Any] = [
            (stock(("1", "a")), "0/100"),
            (stock(("1", "a"), ("2", "b")), "0/200"),
            (stock(("4", "d")), "0/300"),
        ]
        before, found = dict(self.server.data), list[Any]()
        for most in range(1, 12):
            self.server.data, count = dict(before), iter(range(most))

            def check(count: Iterator[int] = count) -> None:
                if next(count, None) is None:
                    raise Stopped

            with contextlib.suppress(Passing, Stopped), logged():
                sink_module.run(Options(feed=str(self.path), url="redis://h", once=True), check)
            found.append(states.index((self.server.rows(), self.server.at())))
        # (of commits that wait together all are left, or none)
        self.assertEqual(set(found), {0, 1, 2})


class Begins(RedisCase):
    base = 0x130

    def setUp(self) -> None:
        super().setUp()
        self.store = Store(str(self.folder / "copy.db"))
        self.addCleanup(self.store.close)
        self.store.table(1, "stock")
        self.store.row(1, "1", "a")
        self.store.row(1, "2", None)
        self.store.table(2, "bag", letter="f")
        self.store.row(2, "1", "x", key=None, copies=2)
        self.take(update(["1", "a"], ["1", "b"]), delete("1", "x", of=table(2, "bag", letter="f")))

    def export(self, text: bool = True) -> str:
        path = str(self.folder / "export.db")
        export_store(
            ExportSettings(store=self.store.path, into=path, form=ALL_TEXT if text else BOTH), never
        )
        return path

    def test_needs_a_base(self) -> None:
        self.fails(Unfit, "the feed begins at 0/130, and there may be rows from before")
        self.assertEqual(self.server.at(), None)

    def test_with_an_export(self) -> None:
        told = self.run_it(base=self.export())
        self.assertRegex(told[0], "public.bag .* has no key")
        self.assertEqual(
            (self.server.rows(), self.server.at()), (stock(("1", "b"), ("2", None)), "0/230")
        )
        self.take(insert("3", "c"))
        self.run_it()
        self.assertEqual(self.server.rows(), stock(("1", "b"), ("2", None), ("3", "c")))

    def test_with_a_store(self) -> None:
        self.run_it(store=self.store.path, table=["stock"])
        self.assertEqual(self.server.rows(), stock(("1", "b"), ("2", None)))
        self.assertEqual([it for it in os.listdir(self.folder) if ".base" in it], [])

    def test_what_it_needs_stays_while_it_begins(self) -> None:
        """Another reader keeps up meanwhile."""
        readers = self.path / "readers"
        self.fails(FileError, "there is no store", reader="redis", store=self.store.path + ".none")
        self.assertEqual(os.listdir(readers), [])
        self.feed.end()
        self.take()

        def go_on(engine: Redis, base: Base) -> None:
            begin(engine, base)
            Noted(str(self.path), "quick", None, 0o600).note(self.at, is_last=True)
            retire(str(self.path), Limits(), self.at, 0.0)

        begin = Redis.begin
        with mock.patch.object(Redis, "begin", go_on):
            self.run_it(reader="redis", store=self.store.path, table=["stock"])
        self.assertEqual(
            (self.server.rows(), self.server.at()), (stock(("1", "b"), ("2", None)), "0/330")
        )
        self.assertEqual((readers / "redis").read_text(), "0/130\n")

    def test_exports_that_dont_do(self) -> None:
        self.fails(FileError, "make it by `pgsub-connect export --text`", base=self.export(False))
        self.fails(FileError, "it is no export", base=self.store.path)
        with contextlib.closing(sqlite3.connect(base := self.export())) as db:
            db.execute("PRAGMA user_version = 0")
        self.fails(FileError, "an earlier version has made it, .*: make it anew", base=base)

    def test_names_that_are_equal_but_for_case(self) -> None:
        self.store.table(3, "odd", [(1, "A", 25, -1), (0, "a", 1700, -1)])
        self.store.row(3, "x", "1.50")
        self.run_it(base=self.export())
        self.assertEqual(self.server.rows()["odd:x"], {"A": "x", "a": "1.50"})

    def test_another_sink_begins_meanwhile(self) -> None:
        """It is ended by one that has something to begin with, and as long as it hasn't begun
        itself."""
        base, told = self.export(), list[str]()

        def fail() -> None:
            self.server.before_exec = lambda: None
            before = self.server.data[b"pgsub:sink"]
            self.fails(FileError, "it is no export", base=self.store.path)
            self.assertEqual(self.server.data[b"pgsub:sink"], before)

        self.server.before_exec = fail
        self.run_it(base=base)
        self.assertEqual(
            (self.server.rows(), self.server.at()), (stock(("1", "b"), ("2", None)), "0/230")
        )
        self.server.data.clear()

        def exported(*_: Any) -> Any:
            # (as long as an export takes, say)
            with mock.patch("pgsub_feed.sinks.first_rows.opened", opened):
                told.extend(self.run_it(base=base))
            return opened(base)

        with mock.patch("pgsub_feed.sinks.first_rows.opened", exported):
            self.fails(Unfit, "pgsub:lsn is 0/230 in place of none", base=base)
        self.take(insert("3", "c"))
        self.run_it()
        self.assertEqual(
            (self.server.rows(), len(told)), (stock(("1", "b"), ("2", None), ("3", "c")), 1)
        )

    def test_cut_off(self) -> None:
        base = self.export()
        for after in range(1, 5):
            self.server.data.clear()
            self.server.data[b"other:5"] = {b"x": b"y"}
            done = self.server.transactions + after

            def fail(done: int = done) -> Said | None:
                return Said("LOADING") if self.server.transactions >= done else None

            with mock.patch("pgsub_feed.sinks.redis_form.MOST", 1):
                self.server.fails = fail
                self.fails(Passing, "LOADING", base=base)
                self.server.fails = lambda: None
                self.assertIn(self.server.at(), (None, "0/130"))
                self.run_it(base=base)
            self.assertEqual(
                (self.server.rows(), self.server.at()),
                ({**stock(("1", "b"), ("2", None)), "other:5": {"x": "y"}}, "0/230"),
            )

    def test_keys_that_are_there(self) -> None:
        self.server.data[b"stock:7"] = {b"id": b"7"}
        self.fails(
            Unfit,
            r"there are keys that begin with stock: already, as those of public.stock \(1\)",
            base=self.export(),
        )

    def test_streams(self) -> None:
        self.run_it(base=self.export(), form="streams")
        row = {"op": "r", "oid": "2", "after": '{"id":"1","name":"x"}'}
        last = {"op": "d", "oid": "2", "before": '{"id":"1","name":"x"}'}
        self.assertEqual(
            self.server.entries("bag"), [((0x130, 0), row), ((0x130, 1), row), ((0x230, 1), last)]
        )


class StreamsOfTables(RedisCase):
    def run_it(self, **more: Any) -> list[str]:
        return super().run_it(form="streams", **more)

    def test_entries(self) -> None:
        self.take(insert("1", "a"), update(["1", "a"], ["2", b"\1"]), truncate())
        self.take(
            insert("1", None, of=table(2, "bag", letter="f", schema="s")),
            Line(STOCK, "x", ["7", None], None, "K"),
        )
        self.run_it()
        self.assertEqual(
            self.server.entries("stock"),
            [
                ((0x100, 0), {"op": "c", "oid": "1", "after": '{"id":"1","name":"a"}'}),
                (
                    (0x100, 1),
                    {
                        "op": "u",
                        "oid": "1",
                        "before": '{"id":"1","name":"a"}',
                        "after": '{"id":"2","name":{"hex":"01"}}',
                    },
                ),
                ((0x100, 2), {"op": "t", "oid": "1"}),
                ((0x200, 1), {"op": "x", "oid": "1", "sent": '"d"', "old": '{"id":"7"}'}),
            ],
        )
        self.assertEqual(
            self.server.entries("s.bag"),
            [((0x200, 0), {"op": "c", "oid": "2", "after": '{"id":"1","name":null}'})],
        )
        self.assertEqual(self.server.at(), "0/200")

    def test_something_else_is_there(self) -> None:
        self.take(insert("1", "a"))
        self.server.do([b"SET", b"stock", b"text"])
        self.fails(Unfit, "the key stock is there already, and isn't a stream")
        self.server.data[b"stock"] = Stream()
        self.server.do([b"XADD", b"stock", b"256-0", b"a", b"b"])
        self.fails(Unfit, "something else has written the stream stock: 256-0 isn't above 256-0")
        self.assertEqual((self.server.at(), len(self.server.entries("stock"))), ("0/0", 1))
        del self.server.data[b"stock"]
        self.run_it()
        self.assertEqual([at for at, _ in self.server.entries("stock")], [(0x100, 0)])

    def test_it_is_trimmed_meanwhile(self) -> None:
        self.take(insert("1", "a"))
        self.run_it()
        self.take(insert("2", "a"))
        times = iter(range(100))

        def trim() -> None:
            if next(times) < 3:
                self.server.data[b"stock"].clear()
                self.server.touch(b"stock")

        self.server.before_exec = trim
        self.run_it()
        self.assertEqual([at for at, _ in self.server.entries("stock")], [(0x200, 0)])
        self.take(insert("3", "a"))
        self.server.before_exec = lambda: self.server.touch(b"stock")
        self.fails(Passing, "altered again and again")


class Ends(RedisCase):
    def test_until(self) -> None:
        for number in range(1, 4):
            self.take(insert(str(number), "a"))
        self.run_it(once=False, until=0x200)
        self.assertEqual(self.server.at(), "0/200")
        self.fails(Passing, "the feed has reached 0/300, and 0/400 not yet", until=0x400)
        self.feed.confirm(0x400)
        self.run_it(until=0x400)

    def test_what_is_confirmed_behind_the_last_look(self) -> None:
        """Then that isn't the last one: what the feed has up to the LSN may have come since."""
        self.take(insert("1", "a"))
        self.feed.commit(0x200, [insert("2", "b")], About(0x1FF, 2, 0))
        look, settle = Poll.next, Following.settle

        def look_before(poll: Poll) -> Commit | None:
            commit = look(poll)
            if commit is None:
                self.feed.confirm(0x200)
            return commit

        def settle_before(following: Following) -> None:
            settle(following)
            self.feed.confirm(0x200)

        with mock.patch.object(Following, "settle", settle_before):
            self.fails(Passing, "the feed has reached 0/100, and 0/200 not yet", until=0x200)
        self.feed.confirm(0x100)
        with mock.patch.object(Poll, "next", look_before):
            self.run_it(until=0x200)
        self.assertEqual(
            (self.server.rows(), self.server.at()), (stock(("1", "a"), ("2", "b")), "0/200")
        )

    def test_a_reader_is_noted(self) -> None:
        self.take(insert("1", "a"))
        with mock.patch("pgsub_feed.sinks.redis_disk.LATE", 1000.0):
            self.run_it(reader="redis")
        # (that it is on the disk isn't sure yet)
        self.assertEqual((self.path / "readers/redis").read_text(), "0/0\n")
        with mock.patch("pgsub_feed.sinks.redis_disk.LATE", -10.0):
            self.run_it(reader="redis")
        self.assertEqual((self.path / "readers/redis").read_text(), "0/100\n")

    def test_a_reader_that_gets_a_name_later(self) -> None:
        """Redis has all that was written, and its disk may have none of it yet."""
        self.take(insert("1", "a"))
        self.feed.end()
        self.take(insert("2", "b"))
        self.run_it()
        with mock.patch("pgsub_feed.sinks.redis_disk.LATE", 1000.0):
            self.run_it(reader="redis")
        self.assertEqual((self.path / "readers/redis").read_text(), "0/0\n")
        with mock.patch("pgsub_feed.sinks.redis_disk.LATE", -10.0):
            self.run_it(reader="redis")
        self.assertEqual((self.path / "readers/redis").read_text(), "0/200\n")

    def test_a_log_that_isnt_synced_is_rejected(self) -> None:
        """What counts as on the disk may not be there, and segments would go."""
        self.take(insert("1", "a"))
        self.server.syncs[1] = b"no"
        with mock.patch("pgsub_feed.sinks.redis_disk.LATE", -10.0):
            self.fails(
                EngineError,
                "appendfsync is no, so it is never known what its disk has",
                reader="redis",
            )
        self.assertEqual((self.server.rows(), (self.path / "readers").exists()), ({}, False))
        for syncs, text in (
            ("no no", "appendfsync is no, .*: say appendfsync everysec, or no --reader"),
            (
                "everysec yes",
                "no-appendfsync-on-rewrite is yes, .*: say no-appendfsync-on-rewrite no, or no --reader",
            ),
            (
                "no yes",
                "appendfsync is no and no-app.* is yes, .*: say appendfsync everysec and no-appendfsync-on-rewrite no, or",
            ),
        ):
            self.server.syncs[1::2] = [it.encode() for it in syncs.split()]
            self.fails(EngineError, text, reader="redis")
        self.run_it()
        self.server.info = b"aof_enabled:0\r\n"
        self.run_it(reader="redis")
        (
            self.server.info,
            self.server.syncs,
        ) = b"aof_enabled:1\r\naof_last_write_status:ok\r\n", Said("NOPERM no permissions")
        self.assertRegex(
            self.run_it(reader="redis")[0], "doesn't tell whether it syncs its log .NOPERM"
        )

    def test_a_cluster(self) -> None:
        self.take(insert("1", "a"))
        self.server.info = b"# Server\r\nredis_mode:cluster\r\n"
        self.fails(EngineError, "it is of a Redis Cluster, in which a MULTI can't have the rows")
        self.assertEqual(self.server.data, {})

    def test_urls(self) -> None:
        several: tuple[tuple[dict[str, Any], str], ...] = (
            ({"stream": "s"}, "--stream and --replicas are for NATS"),
            ({"replicas": 3}, "--stream and --replicas are for NATS"),
            ({"url": "nats://h", "form": "streams"}, "--as is for Redis"),
        )
        for words, text in several:
            self.take()
            self.fails(UsageError, text, **words)
        path = self.folder / "url"
        path.write_text("redis://:secret@h\n")
        for mode, told in ((0o644, "every account"), (0o640, "its group"), (0o600, "")):
            path.chmod(mode)
            self.assertEqual(
                self.run_it(url="", url_file=str(path)),
                [f"warning: {path} has a password, and {told} may read it: chmod 600"]
                if told
                else [],
            )
        path.write_text("redis://h\n")
        path.chmod(0o644)
        self.assertEqual(self.run_it(url="", url_file=str(path)), [])
        path.write_text("http://h\n")
        self.fails(UsageError, "its first line is no URL", url="", url_file=str(path))

    def test_the_url_in_the_environment(self) -> None:
        self.take(insert("1", "a"))
        words = ["sink", "--feed", str(self.path), "--once"]
        with mock.patch.dict(os.environ, {"PGSUB_SINK": "redis://:secret@h"}):
            self.assertEqual((options_of(words).url, self.run_it(url="")), ("", []))
        self.assertEqual(options_of([*words, "--url-file", "u"]).url_file, "u")
        self.assertEqual(self.server.rows(), stock(("1", "a")))
        with mock.patch.dict(os.environ, {"PGSUB_SINK": "http://h"}):
            self.fails(UsageError, "PGSUB_SINK is no URL", url="")
        self.assertRegex(self.run_it(url="redis://:secret@h")[0], "can be read by every account")

    def test_no_library(self) -> None:
        with mock.patch(
            "importlib.import_module", side_effect=ModuleNotFoundError
        ), self.assertRaisesRegex(FileError, "apt-get install python3-redis"):
            Connection("redis://h")


class OnTheDisk(unittest.TestCase):
    def test_trail(self) -> None:
        trail = Trail()
        for at, now in ((10, 1.0), (11, 1.05), (12, 1.2), (13, 9.0)):
            trail.note(at, now)
        self.assertEqual(
            [trail.pass_to(it) for it in (1.0, 1.09, 1.2, 5.0, 9.05, 9.2)],
            [None, None, 11, 12, 12, 13],
        )

    def test_marks_are_few(self) -> None:
        trail = Trail()
        for at in range(60000):
            trail.note(at, float(at))
        self.assertEqual(
            [trail.pass_to(it) for it in (9000.0, 10001.0, 59000.0)], [None, 10000, 58999]
        )

    def moment(self, info: str, save: bytes = b"3600 1", now: float = 1010.0) -> float:
        server = mock.Mock(wraps=None)
        server.run.return_value = [
            info.replace(" ", "\r\n").encode(),
            [b"1000", b"0"],
            [b"save", save],
            [b"appendfsync", b"everysec"],
        ]
        return Disk(server).moment(now) - now

    def test_moments(self) -> None:
        self.assertEqual(self.moment("aof_enabled:1 aof_last_write_status:ok"), -3)
        self.assertEqual(self.moment("aof_enabled:1 aof_last_write_status:err"), -1010)
        # (its clock is ten seconds before this one's)
        self.assertEqual(
            self.moment("aof_enabled:0 rdb_last_save_time:900 rdb_last_bgsave_time_sec:20"),
            900 - 20 - 2 - 1000,
        )
        self.assertEqual(
            self.moment("aof_enabled:0 rdb_last_save_time:900 rdb_last_bgsave_time_sec:-1"),
            900 - 2 - 1000,
        )
        self.assertGreater(self.moment("aof_enabled:0", b""), 0)

    def test_a_log_that_isnt_synced_any_more(self) -> None:
        info, syncs = b"aof_enabled:1\r\naof_last_write_status:ok", [b"appendfsync", b"no"]
        server = mock.Mock(where="Redis")
        server.run.side_effect = lambda _: [info, [b"1000", b"0"], [b"save", b""], syncs]
        disk, told = Disk(server), list[str]()
        with mock.patch("pgsub_feed.log.warning", told.append):
            self.assertEqual([disk.moment(1000.0), disk.moment(1001.0)], [0.0, 0.0])
            self.assertEqual(
                told,
                [
                    "Redis: appendfsync is no, so it isn't known any more what its disk has: the reader's LSN stays"
                ],
            )
            syncs[1] = b"everysec"
            # (what was written until then is synced a second later)
            self.assertEqual([disk.moment(1002.0), disk.moment(1005.0)], [0.0, 1002.0])
            syncs[:] = [b"no-appendfsync-on-rewrite", b"yes"]
            self.assertEqual((disk.moment(1006.0), len(told)), (0.0, 2))

    def test_not_asked_too_often(self) -> None:
        calls = mock.Mock()
        calls.run.return_value = [b"aof_enabled:0", [b"1", b"0"], [b"save", b""], []]
        disk = Disk(calls)
        for at in range(10):
            disk.note(at)
            disk.safe()
        self.assertEqual(calls.run.call_count, 1)


class PlainText(unittest.TestCase):
    """A password that goes to another machine is told of before."""

    def told(self, url: str, is_own: bool = False) -> str:
        with logged() as told, mock.patch("redis.ConnectionPool") as pool, mock.patch(
            "pgsub_feed.sinks.redis_calls.looked_up", return_value=[]
        ), mock.patch("pgsub_feed.sinks.redis_calls.is_loopback", lambda _: is_own):
            pool.from_url.return_value.make_connection.return_value = mock.Mock(host="h", port=6379)
            Connection(url)
        return "".join(told)

    def test_each(self) -> None:
        self.assertIn(
            "Redis at h:6379: the password goes there in plain text: use rediss://",
            self.told("redis://:secret@h"),
        )
        for url, is_own in (
            ("redis://:secret@h", True),
            ("rediss://:secret@h", False),
            ("redis://h", False),
            ("unix://:secret@/s", False),
        ):
            self.assertEqual(self.told(url, is_own), "")


class Certificates(unittest.TestCase):
    def raised_by(self, error: OSError, url: str) -> str:
        """How a connection ends of which the library tells this error."""
        return type(self.failure_by(error, url)).__name__

    def failure_by(self, error: OSError, url: str) -> Failure:
        redis: Any = importlib.import_module("redis")

        def connect() -> None:
            try:
                raise error
            except OSError:
                raise redis.exceptions.ConnectionError("Error 1 connecting to h:6379") from None

        with mock.patch("redis.ConnectionPool") as pool, mock.patch(
            "pgsub_feed.sinks.redis_calls.looked_up", return_value=[]
        ), self.assertRaises(Failure) as found:
            made = mock.Mock(host="h", port=6379, connect=connect)
            pool.from_url.return_value.make_connection.return_value = made
            Connection(url)
        self.assertIn("Redis at h:6379: ", str(found.exception))
        return found.exception

    def test_a_wrong_one_isnt_waited_for(self) -> None:
        """Nor one that the host rejects, or a file that isn't there."""
        reasons = (
            ("SSL", "TLSV13_ALERT_CERTIFICATE_REQUIRED", "EngineError"),
            ("SSL", "SSLV3_ALERT_BAD_CERTIFICATE", "EngineError"),
            ("SSL", "TLSV1_ALERT_UNKNOWN_CA", "EngineError"),
            ("X509", "KEY_VALUES_MISMATCH", "EngineError"),
            ("SSL", "UNEXPECTED_EOF_WHILE_READING", "Passing"),
        )
        errors: list[tuple[OSError, str]] = [
            (ssl.SSLCertVerificationError("certificate verify failed"), "EngineError"),
            (ConnectionRefusedError("refused"), "Passing"),
            (FileNotFoundError(2, "No such file or directory"), "FileError"),
        ]
        for library, reason, kind in reasons:
            error = ssl.SSLError(1, f"[{library}: {reason}]")
            error.library, error.reason = library, reason
            errors.append((error, kind))
        for it, kind in errors:
            with self.subTest(str(it)):
                self.assertEqual(self.raised_by(it, "rediss://h"), kind)
        self.assertEqual(
            self.raised_by(FileNotFoundError(2, "No such file"), "unix:///s"), "Passing"
        )

    def test_one_that_is_only_cut_off_for_it(self) -> None:
        """What it says of a certificate may be lost with the connection."""
        for error, url, is_told in (
            (ConnectionResetError(104, "reset"), "rediss://h", True),
            (BrokenPipeError(32, "pipe"), "rediss://h", True),
            (ssl.SSLEOFError(8, "EOF occurred in violation of protocol"), "rediss://h", True),
            (ConnectionRefusedError(111, "refused"), "rediss://h", False),
            (ConnectionResetError(104, "reset"), "redis://h", False),
        ):
            with self.subTest(error=error, url=url):
                found = self.failure_by(error, url)
                self.assertIsInstance(found, Passing)
                self.assertEqual("it may want another certificate" in str(found), is_told)

    def test_the_name_of_the_host_is_looked_at(self) -> None:
        """Unless the URL says otherwise."""
        for more, checks in (("", True), ("?ssl_check_hostname=False", False)):
            with mock.patch.object(Connection, "look_up"), mock.patch.object(Connection, "guarded"):
                made = Connection(f"rediss://h/1{more}").connection
            self.assertEqual(made.check_hostname, checks)
        with mock.patch.object(Connection, "look_up"), mock.patch.object(Connection, "guarded"):
            made = Connection("rediss://h/1?ssl_cert_reqs=none").connection
        self.assertFalse(made.check_hostname)


class Interrupted(unittest.TestCase):
    """Calls of a connection once the end was asked for."""

    def setUp(self) -> None:
        self.checks = self.raise_nothing
        with mock.patch("redis.ConnectionPool") as pool:
            self.library = pool.from_url.return_value.make_connection.return_value
            self.library.path = self.library.port = self.library.host = None
            self.calls = Connection("unix:///s", lambda: self.checks())
        self.library.read_response.return_value = b"OK"

    def raise_nothing(self) -> None:
        pass

    def stop(self) -> None:
        raise Stopped

    def test_it_was_asked_for_before(self) -> None:
        """What is called still has its time, and the connection is as good as it was."""
        self.checks = self.stop
        self.assertEqual(self.calls.run([("PING",)]), [b"OK"])
        self.assertEqual((self.calls.is_lost, signal.getitimer(signal.ITIMER_REAL)[0]), (False, 0))

    def test_nothing_comes_in_time(self) -> None:
        self.checks = self.stop
        self.library.read_response.side_effect = lambda: time.sleep(60)
        with mock.patch("pgsub_feed.sinks.redis_calls.GRACE", 0.05), self.assertRaises(Stopped):
            self.calls.run([("PING",)])
        self.assertTrue(self.calls.is_lost)

    def test_the_end_is_passed_over_at_first(self) -> None:
        real, wanted = signal.setitimer, list[tuple[float, float]]()

        def arm(which: int, seconds: float, again: float = 0.0) -> None:
            wanted.append((seconds, again))
            if not seconds:
                real(which, seconds)

        class Slow:
            """It is removed when the end comes, however long it took to get there."""

            def __del__(self) -> None:
                real(signal.ITIMER_REAL, *wanted[-1])
                time.sleep(60)

        def read() -> None:
            Slow()
            time.sleep(60)

        self.checks = self.stop
        self.library.read_response.side_effect = read
        grace = mock.patch("pgsub_feed.sinks.redis_calls.GRACE", 0.05)
        again, timer = (
            mock.patch("pgsub_feed.interruption.AGAIN", 0.05),
            mock.patch("signal.setitimer", arm),
        )
        with grace, again, timer, mock.patch("sys.unraisablehook") as passed_over:
            with self.assertRaises(Stopped):
                self.calls.run([("PING",)])
        self.assertTrue(passed_over.called)
        self.assertEqual(signal.getitimer(signal.ITIMER_REAL), (0, 0))


class Errors(unittest.TestCase):
    def test_packed(self) -> None:
        self.assertEqual(
            packed_command(("SET", "é", b"\r\n", 12)),
            b"*4\r\n$3\r\nSET\r\n$2\r\n\xc3\xa9\r\n$2\r\n\r\n\r\n$2\r\n12\r\n",
        )

    def test_kinds(self) -> None:
        self.assertIsInstance(
            raised(Said("LOADING Redis is loading the dataset in memory"), "Redis"), Passing
        )
        self.assertIsInstance(raised(Said("WRONGPASS invalid"), "Redis"), EngineError)


def hashes_of(state: Replay) -> dict[str, dict[str, str]]:
    """The hashes of a replayed feed, of the tables by the names that they were described with
    last."""
    found = {}
    for oid, rows in state.rows.items():
        definition = state.definitions[oid]
        if definition["key"] is None:
            continue
        names = [name for name, _, _ in definition["columns"]]
        for row in +Counter(rows):
            cells = dict(zip(names, row))
            key = ":".join(
                str(cells[it]).replace("%", "%25").replace(":", "%3A")
                if cells[it] is not None
                else "%null"
                for it in definition["key"]
            )
            found[f"{oid} {key}"] = {name: str(it) for name, it in cells.items() if it is not None}
    return found


def with_part(folder: Path, state: Replay, done: int) -> Replay:
    """The rows once so many changes of the next commit are there."""
    (path,) = (it for it in folder.iterdir() if len(it.name) == 16)
    body = next(body for commit, body in commits(path) if lsn_of(commit["end"]) > state.at)
    state, held = copy.deepcopy(state), dict[int, Any]()
    for it in map(json.loads, body.splitlines()):
        if it["op"] == "table":
            held[it["oid"]] = it
        elif done:
            done -= 1
            if it["oid"] in held:
                state.describe(held.pop(it["oid"]))
            state.change(it)
    return state


class AnyTime(RedisCase):
    """Whatever the changes are, and wherever it is cut off."""

    def test_killed_anywhere(self) -> None:
        for seed in range(12):
            with self.subTest(seed=seed):
                self.server.data.clear()
                self.feed.path.unlink()
                self.feed.at = self.at = 0
                self.feed.begin()
                self.state = Replay()
                self.go(random.Random(seed))

    def go(self, rng: random.Random) -> None:
        load = Load(rng)
        for _ in range(25):
            self.take(*load.lines(25))
            if rng.random() < 0.5:
                self.try_it(rng)
        self.server.before_exec, self.server.fails = lambda: None, lambda: None
        self.run_it()
        self.compare()

    def try_it(self, rng: random.Random) -> None:
        """Runs it, and cuts it off before or after one of its MULTIs."""
        left = rng.randrange(6)

        def fails() -> Said | None:
            nonlocal left
            left -= 1
            return Said("LOADING") if left == 0 else None

        self.server.fails = fails
        with mock.patch("pgsub_feed.sinks.redis_form.MOST", rng.choice((1, 30, 1000))):
            try:
                self.run_it()
            except Passing:
                pass
        self.compare()

    def compare(self) -> None:
        if self.server.at() is None:
            return
        high, low = (self.server.at() or "").split("/")
        # (it goes on from where the last comparison was)
        until = (int(high, 16) << 32) + int(low, 16)
        state = self.state = replay(self.path, self.state, until=until)
        self.assertEqual(f"{state.at >> 32:X}/{state.at & 0xFFFFFFFF:X}", self.server.at())
        if b"pgsub:removed" in self.server.data:
            # (rows of a table may be there that are about to go)
            return
        if part := self.server.data.get(b"pgsub:part"):
            state = with_part(self.path, state, json.loads(part)["done"])
        noted = json.loads(self.server.data.get(b"pgsub:tables", b'{"kept":[]}'))["kept"]
        ours = {}
        for name, it, _ in noted:
            begin, oid = name + ":", it["oid"]
            ours.update(
                {
                    f"{oid} {key[len(begin):]}": row
                    for key, row in self.server.rows().items()
                    if key.startswith(begin)
                }
            )
        self.assertEqual((ours, len(ours)), (hashes_of(state), len(self.server.rows())))
        for name, it, _ in noted:
            plain = state.definitions[it["oid"]]["table"].replace(":", "%3A").replace(".", "%2E")
            self.assertIn(name, (plain, f"pgsub:old:{it['oid']}"))
