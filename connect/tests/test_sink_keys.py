"""Primary keys of tables whose replica identity is another, in hashes of Redis and in lines of a
bulk request."""

from __future__ import annotations

import json
import os
from pathlib import Path
from typing import Any
from unittest import mock

from feed_text import About, Column, Line, Writer

from pgsub_connect.drift.remembered import Remembered
from pgsub_connect.follow.feed_keeper import Keeper
from pgsub_connect.follow.feed_keeper import TypesFile
from pgsub_connect.follow.retention import Limits
from pgsub_connect.status.progress import Progress
from pgsub_connect.stream.statuses import Reached
from pgsub_feed.command import main
from pgsub_feed.known_tables import KnownTables
from pgsub_feed.reader.commits import XID

from .feeds import delete, insert, table, truncate, update
from .sinks import RedisCase, stock
from .stores import Store
from .test_feed_keys import COLUMNS, FULL, ID, MORE, NAME, change, gone, look, put, wider
from .vectors import logged

ANEW = "Its rows come anew by: pgsub-connect add --store .*copy --table public.stock"
BROKEN = f"public.stock .1.: rows have null in the key id, or equal values, .* {ANEW}"
CODED = table(columns=[ID, Column("name", 25, -1, True)], letter="i")


class KeysCase(RedisCase):
    """A feed beside a store, whose follower has seen the primary key."""

    primary = ("id",)

    def setUp(self) -> None:
        super().setUp()
        self.store = str(self.folder / "copy")
        Path(self.store + ".connector").touch()
        self.look(*self.primary)
        patched = mock.patch("pgsub_feed.column_types.PATIENCE", 0.3)
        patched.start()
        self.addCleanup(patched.stop)

    def look(self, *primary: str, oid: int = 1, letter: str = "f") -> None:
        look(self.store, self.at, *primary, oid=oid, letter=letter)

    def rows(self, *lines: Line, told: str = "") -> dict[str, dict[str, str]]:
        """The rows after one more commit, of which this is told."""
        self.take(*lines)
        said = "".join(self.run_it())
        self.assertRegex(said, told) if told else self.assertEqual(said, "")
        return self.server.rows()


class Hashes(KeysCase):
    def test_changes(self) -> None:
        """Also in one commit, and of a row that gets another key."""
        rows = [put("1", "a"), put("2", None), change(["1", "a"], ["9", "b"])]
        self.assertEqual(self.rows(*rows), stock(("9", "b"), ("2", None)))
        rows = [change(["9", "b"], ["1", "b"]), gone("2", None), put("2", ""), put("9", "c")]
        self.assertEqual(self.rows(*rows), stock(("1", "b"), ("2", ""), ("9", "c")))
        self.assertEqual(self.rows(truncate(FULL), put("9", "d")), stock(("9", "d")))

    def test_keys_that_wander(self) -> None:
        self.rows(put("1", "a"), put("2", "b"))
        rows = [
            change(["1", "a"], ["9", "a"]),
            change(["2", "b"], ["1", "b"]),
            change(["9", "a"], ["2", "a"]),
        ]
        self.assertEqual(self.rows(*rows), stock(("1", "b"), ("2", "a")))

    def test_of_two_columns(self) -> None:
        """In the order of the table's."""
        self.look("name", "id")
        self.assertEqual({*self.rows(put("1", "a"), put("1", "b"))}, {"stock:1:a", "stock:1:b"})

    def test_of_an_index(self) -> None:
        """The index is the identity, and another key the primary one."""
        self.look("id", letter="i")
        self.assertEqual(self.rows(insert("1", "a", of=CODED)), stock(("1", "a")))
        self.assertEqual(self.rows(update(["1", "a"], ["1", "b"], of=CODED)), stock(("1", "b")))
        self.assertEqual(self.rows(delete("1", "b", of=CODED)), {})

    def test_of_an_index_alone(self) -> None:
        """The server has no primary key, or none any more: the identity tells the key, as it does
        of rows of an export."""
        self.look("id", letter="i")
        self.rows(insert("1", "a", of=CODED), insert("2", "b", of=CODED))
        self.look(letter="i")
        found = {"stock:a": {"id": "1", "name": "a"}, "stock:c": {"id": "1", "name": "c"}}
        changes = insert("1", "c", of=CODED), delete("2", "b", of=CODED)
        self.assertEqual(self.rows(*changes), found)
        self.server.data.clear()
        store = Store(self.store, 0x500)
        self.addCleanup(store.close)
        store.table(1, "stock", [(0, "id", 23, -1), (1, "name", 25, -1)], letter="i")
        store.row(1, "1", "a", key=1)
        self.feed.path.unlink()
        self.feed, self.at = Writer(self.path, 0x500), 0x500
        self.run_it(store=self.store)
        self.assertEqual(self.rows(insert("1", "c", of=CODED)), found)

    def test_without_a_store(self) -> None:
        """The table is left out, and what is there keeps the key that it has."""
        self.rows(put("1", "a"))
        os.unlink(self.store + ".connector")
        of = table(2, "other", letter="f")
        rows = self.rows(
            put("2", "b"), insert("1", "x", of=of), told="public.other .* has no key.* --store"
        )
        self.assertEqual(rows, stock(("1", "a"), ("2", "b")))

    def test_a_table_that_the_store_doesnt_know_yet(self) -> None:
        """It is waited for, as long as there was no look at the server since, once."""
        self.look("id", oid=9)
        self.take(put("1", "a"))
        waited = []

        def sleep(_: float) -> None:
            waited.append(1)
            self.look("id")

        with mock.patch("pgsub_feed.column_types.time.sleep", sleep):
            self.assertEqual((self.run_it(), self.server.rows()), ([], stock(("1", "a"))))
        self.assertEqual(len(waited), 1)
        self.look("id", oid=9)
        of, more = table(2, "other", letter="f"), table(3, "more", letter="f")
        clock = mock.Mock(monotonic=lambda: 0.02 * len(waited), sleep=lambda _: waited.append(1))
        with mock.patch("pgsub_feed.column_types.time", clock):
            self.rows(insert("1", "x", of=of), insert("1", "x", of=more), told="public.other")
            count = len(waited)
            known = KnownTables(self.store)
            known.wait(2, self.at, lambda: None)
            self.assertGreater(len(waited), count + 10)
            count = len(waited)
            known.wait(3, self.at + 1, lambda: None)
            self.look("id", oid=9)
            known.wait(2, self.at, lambda: None)
        self.assertEqual(len(waited), count)


class Doubts(KeysCase):
    """The key doesn't hold: the catalog is newer or older than the stream."""

    def test_equal_values(self) -> None:
        """In one commit, and of a row that is there. A TRUNCATE brings the table again."""
        self.assertEqual(self.rows(put("1", "a"), put("1", "b"), told=BROKEN), {})
        self.assertEqual(self.rows(gone("1", "a"), told="was left out before"), {})
        self.assertEqual(self.rows(truncate(FULL), put("1", "a")), stock(("1", "a")))
        self.assertEqual(self.rows(put("2", "a"), put("1", "b"), told=BROKEN), {})
        self.assertEqual(self.rows(truncate(FULL), put("3", "a")), stock(("3", "a")))
        self.assertEqual(self.rows(change(["3", "a"], [None, "a"]), told="null in the key"), {})

    def test_others_go_on(self) -> None:
        other = table(2, "other")
        self.rows(put("1", "a"), put("2", "b"), insert("1", "x", of=other))
        rows = self.rows(put("1", "c"), insert("2", "x", of=other), told=BROKEN)
        self.assertEqual(set(rows), {"other:1", "other:2"})

    def test_within_commits_that_are_written_at_once(self) -> None:
        """What is before a TRUNCATE is no matter any more."""
        self.rows(put("1", "a"))
        self.take(put("1", "b"))
        self.take(put("2", "b"), put("2", "b"))
        self.take(truncate(FULL), put("2", "b"))
        self.assertEqual(self.rows(put("1", "c")), stock(("1", "c"), ("2", "b")))
        self.take(gone("1", "c"))
        self.assertEqual(self.rows(put("1", "d")), stock(("1", "d"), ("2", "b")))
        self.take(put("3", "d"))
        self.assertEqual(self.rows(put("3", "e"), told=BROKEN), {})

    def test_repairs(self) -> None:
        """What the copy had of a row that is repaired may never have been here."""
        self.rows(put("1", "a"), put("2", "b"))
        self.repair(put("1", "a"), change(["2", "x"], ["2", "c"]))
        self.assertEqual((self.run_it(), self.server.rows()), ([], stock(("1", "a"), ("2", "c"))))
        self.repair(truncate(FULL), put("1", "a"), put("1", "b"))
        self.assertRegex(self.run_it()[0], BROKEN)

    def repair(self, *lines: Line) -> None:
        self.at += 0x100
        self.feed.commit(self.at, lines, About(self.at, XID, 0))
        self.feed.confirm(self.at)

    def test_a_base(self) -> None:
        """Rows of an export have a key, by whatever."""
        store = Store(self.store, 0x500)
        self.addCleanup(store.close)
        store.table(1, "stock", COLUMNS, letter="f")
        for row in (("1", "a"), ("2", "b")):
            store.row(1, *row, key=None)
        self.feed.path.unlink()
        self.feed, self.at = Writer(self.path, 0x500), 0x500
        self.run_it(store=self.store)
        self.assertEqual(self.server.rows(), stock(("1", "a"), ("2", "b")))
        os.unlink(self.store + ".tables")
        self.assertEqual(self.rows(gone("1", "a")), stock(("2", "b")))
        self.assertEqual(self.rows(put("2", "c"), told="equal values"), {})


class Server(KeysCase):
    """The server has another key while the sink runs."""

    def test_dropped(self) -> None:
        """Each row keeps it as long as it has one of its own."""
        self.rows(put("1", "a"))
        self.look()
        told = "there is no primary key on the server any more: id stays the key"
        self.assertEqual(self.rows(put("2", "a"), told=told), stock(("1", "a"), ("2", "a")))
        self.take(put("2", "b"))
        self.assertRegex("".join(self.run_it()), BROKEN)
        self.assertEqual(self.server.rows(), {})

    def test_added(self) -> None:
        """The table was left out, and comes by a TRUNCATE."""
        self.look()
        self.assertEqual(self.rows(put("1", "a"), told="has no key"), {})
        self.look("id")
        self.assertEqual(self.rows(put("2", "a"), told=f"was left out before.* {ANEW}"), {})
        rows = self.rows(truncate(FULL), put("1", "a"), put("2", "a"))
        self.assertEqual(rows, stock(("1", "a"), ("2", "a")))

    def test_other_columns(self) -> None:
        self.rows(put("1", "a"), put("2", "b"))
        self.look("name")
        found = {"stock:a": {"id": "1", "name": "a"}, "stock:c": {"id": "2", "name": "c"}}
        self.assertEqual(self.rows(change(["2", "b"], ["2", "c"])), found)
        self.look("id")
        self.assertEqual(self.rows(put("3", "c")), stock(("1", "a"), ("2", "c"), ("3", "c")))
        self.look("name")
        told = "rows have null in the key name, or equal values"
        self.assertEqual(self.rows(put("4", "d"), told=told), {})

    def test_a_column_that_the_stream_lacks(self) -> None:
        """The catalog is newer: the key stays until the stream has the column."""
        self.rows(put("1", "a"))
        self.look("more")
        told = "the stream doesn't have more of the primary key .*: id stays the key"
        self.assertEqual(self.rows(put("2", "b"), told=told), stock(("1", "a"), ("2", "b")))
        self.take(gone("1", "a"), gone("2", "b"), insert("1", "a", "x", of=wider()))
        self.run_it()
        self.assertEqual(self.server.rows(), {"stock:x": {"id": "1", "name": "a", "more": "x"}})

    def test_one_that_is_new_and_lacks_a_column(self) -> None:
        self.look("more")
        told = "the stream doesn't have more of the primary key .*has no key"
        self.assertEqual(self.rows(put("1", "a"), told=told), {})

    def test_another_identity(self) -> None:
        """The rows stay, whatever tells the key."""
        keyed = table(columns=[Column("id", 23, -1, True), NAME])
        self.assertEqual(self.rows(insert("1", "a", of=keyed)), stock(("1", "a")))
        self.assertEqual(self.rows(put("2", "b")), stock(("1", "a"), ("2", "b")))
        rows = self.rows(update(["2", "b"], ["3", "b"], of=keyed))
        self.assertEqual(rows, stock(("1", "a"), ("3", "b")))


class BulkLines(KeysCase):
    def bulk(self, *lines: Line, told: str = "", status: int = 0) -> list[Any]:
        """What is printed of one more commit."""
        self.take(*lines)
        return self.printed("--from", f"0/{self.at - 0x100:X}", told=told, status=status)

    def printed(self, *words: str, told: str = "", status: int = 0) -> list[Any]:
        printed: list[bytes] = []
        with logged() as said, mock.patch("pgsub_feed.command.put", printed.append):
            words = ("--feed", str(self.path), "--format", "bulk", *words)
            self.assertEqual(main(list(words)), status)
        self.assertRegex("".join(said), told) if told else self.assertEqual(said, [])
        return [json.loads(line) for text in printed for line in text.splitlines()]

    def about(self, id: str) -> dict[str, Any]:
        return {"_index": "stock", "_id": id, "version": self.at, "version_type": "external"}

    def test_changes(self) -> None:
        found = self.bulk(put("1", "a"), change(["2", "b"], ["3", "b"]), gone("4", None))
        expected: list[Any] = [{"index": self.about("1")}, {"id": 1, "name": "a"}]
        expected += [{"delete": self.about("2")}, {"index": self.about("3")}]
        self.assertEqual(found, [*expected, {"id": 3, "name": "b"}, {"delete": self.about("4")}])

    def test_of_an_index(self) -> None:
        self.look("id", letter="i")
        self.assertEqual(self.bulk(delete("1", "a", of=CODED)), [{"delete": self.about("1")}])

    def test_truncated(self) -> None:
        told = "delete all documents of the index stock, and go on with --from 0/0 --truncated"
        self.assertEqual(self.bulk(truncate(FULL), put("1", "a"), told=told, status=5), [])
        found = self.printed("--truncated", f"0/{self.at:X}")
        self.assertEqual(found, [{"index": self.about("1")}, {"id": 1, "name": "a"}])

    def test_a_store_that_is_named(self) -> None:
        os.rename(self.store + ".tables", str(self.folder / "other.tables"))
        os.unlink(self.store + ".connector")
        told = "0/100: public.stock .* has no key, .* name it by --store"
        self.assertEqual(self.bulk(gone("1", "a"), told=told), [])
        found = self.printed("--store", str(self.folder / "other"))
        self.assertEqual(found, [{"delete": self.about("1")}])

    def test_a_column_that_the_stream_lacks(self) -> None:
        self.look("more")
        told = "has no key, .*: the stream doesn't have more of the primary key"
        self.assertEqual(self.bulk(gone("1", "a"), told=told), [])

    def test_equal_values_and_null(self) -> None:
        for rows in ([put("1", "a"), put("1", "b")], [put(None, "a")], [gone(None, "a")]):
            told = f"rows have null in the key, or equal values, .*left out from here on. {ANEW}"
            other = delete("7", "x", of=table(2, "other"))
            (found,) = self.bulk(put("5", "x"), *rows, put("6", "x"), other, told=told)
            self.assertEqual(found, {"delete": {**self.about("7"), "_index": "other"}})

    def test_its_rows_come_anew(self) -> None:
        """After a TRUNCATE, as that of a table which is added, for which the index is made anew."""
        begin = f"0/{self.at:X}"
        self.take(put("5", "x"), put("1", "a"), put("1", "b"))
        self.take(put("6", "x"))
        self.take(truncate(FULL), put("1", "a"))
        expected: list[Any] = [{"index": self.about("1")}, {"id": 1, "name": "a"}]
        self.take(put("2", "b"))
        expected += [{"index": self.about("2")}, {"id": 2, "name": "b"}]
        told = f"rows have null in the key, or equal values, .*left out from here on. {ANEW}"
        self.assertEqual(
            self.printed("--from", begin, "--on-truncate", "true", told=told), expected
        )

    def test_another_key_meanwhile(self) -> None:
        """Dropped, added, or of other columns: the table is left out, until it is begun anew."""
        ways: list[tuple[tuple[str, ...], tuple[str, ...]]]
        ways = [(("id",), ()), (("id",), ("name",)), ((), ("id",)), (("id",), ("more",))]
        for was, now in ways:
            with self.subTest(was=was, now=now):
                self.check_another(was, now)

    def test_a_key_that_is_dropped_just_now(self) -> None:
        """Nothing is printed by it: the table is left out once it is known."""
        self.look("id")
        self.known_up_to(self.at)
        self.take(put("1", "a"), gone("1", "a"))
        self.take(put("2", "a"))
        begin, first = self.at - 0x200, self.at - 0x100
        self.known_up_to(first)

        def looked(_: float) -> None:
            """(The keys of the second commit are waited for.)"""
            self.look()
            self.known_up_to(self.at)

        told = (
            f"it has the key none, and had id, .* may be wrong, and the table is left out.* {ANEW}"
        )
        with mock.patch("pgsub_feed.column_types.time.sleep", looked):
            found = self.printed("--from", f"0/{begin:X}", told=told)
        self.assertEqual([it["delete"]["version"] for it in found], [first])

    def test_a_key_that_stays_unknown(self) -> None:
        """That is told, and a later start goes on: no line of the commit is printed."""
        self.known_up_to(self.at)
        told = f"the primary keys aren't known that tables have at 0/{self.at + 0x100:X}: the follower of .*copy "
        self.assertEqual(self.bulk(put("1", "a"), told=told, status=7), [])
        self.assertEqual(
            self.bulk(insert("1", "a", of=table(2, "other")))[1], {"id": 1, "name": "a"}
        )
        self.known_up_to(self.at)
        begin = f"0/{self.at - 0x200:X}"
        self.assertEqual(self.printed("--from", begin)[1], {"id": 1, "name": "a"})

    def known_up_to(self, lsn: int) -> None:
        """As the follower tells it."""
        types = TypesFile(str(self.path), 0o600, Remembered(self.store))
        keeper = Keeper(Limits(), Progress(), lambda: Reached(0, 0), types)
        keeper.tell_keys(Reached(lsn, lsn, lsn, True))

    def check_another(self, was: tuple[str, ...], now: tuple[str, ...]) -> None:
        self.look(*was)
        begin = self.at
        self.take(put("1", "a"))
        self.take(gone("1", "a"))
        self.take(put("1", "a"))
        texts: list[bytes] = []

        def put_text(text: bytes) -> None:
            texts.append(text)

        looks = iter((None, now, None))
        real = KnownTables.wait

        def wait(known: KnownTables, oid: int, lsn: int, check: Any) -> None:
            if (primary := next(looks)) is not None:
                self.look(*primary)
            real(known, oid, lsn, check)

        with logged() as said, mock.patch("pgsub_feed.command.put", put_text), mock.patch(
            "pgsub_feed.known_tables.KnownTables.wait", wait
        ):
            words = ["--feed", str(self.path), "--format", "bulk", "--from", f"0/{begin:X}"]
            self.assertEqual(main(words), 0)
        key = [it if it != ("more",) else () for it in (was, now)]
        text = "it has the key {1}, and had {0}, .* may be wrong, and the table is left out"
        texts_of = [", ".join(it) or "none" for it in key]
        self.assertRegex("".join(said), text.format(*texts_of) + f".* {ANEW}")
        self.assertEqual(len(texts), 2 if was else 0)
