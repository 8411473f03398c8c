"""Commits that are longer than what one MULTI of Redis gets: each part once, wherever a sink ends."""

from __future__ import annotations

import copy
import json
import random
from typing import Any
from unittest import mock

from feed_load import Load
from feed_text import Column, Line, Message, summed

from pgsub_connect.commands import sink as sink_module
from pgsub_connect.commands.sink import Options
from pgsub_feed.errors import Damaged, EngineError, Passing, Stopped, Unfit
from pgsub_feed.sinks import redis_form
from pgsub_feed.sinks.redis_calls import Said, packed_command, size_of
from pgsub_feed.sinks.redis_steps import read_mark

from .feeds import STOCK, delete, insert, table, truncate, update
from .sinks import RedisCase, stock
from .test_feed_keys import FULL, gone, put
from .test_sink_keys import BROKEN, KeysCase
from .vectors import logged

OTHER = table(2, "other")
MOST = 10


def bounded(case: RedisCase, most: int = MOST, room: int = redis_form.ROOM, lot: int = 4) -> None:
    """Has one MULTI get less."""
    named = {"redis_form.MOST": most, "redis_form.ROOM": room, "redis_hashes.LOT": lot}
    for name, value in named.items():
        patched = mock.patch(f"pgsub_feed.sinks.{name}", value)
        patched.start()
        case.addCleanup(patched.stop)


class StepsCase(RedisCase):
    """One MULTI gets ten commands."""

    def setUp(self) -> None:
        super().setUp()
        bounded(self)

    def cut_at(self, number: int, **more: Any) -> bool:
        """Runs it until the MULTI of this number, which has no effect; whether there is one."""
        count = 0

        def fails() -> Said | None:
            nonlocal count
            count += 1
            return Said("LOADING") if count == number else None

        self.server.fails = fails
        try:
            self.run_it(**more)
            return False
        except Passing:
            return True
        finally:
            self.server.fails = lambda: None

    def data(self) -> dict[bytes, Any]:
        """All that is there, but for who has written it."""
        return {key: it for key, it in self.server.data.items() if key != b"pgsub:sink"}

    def anywhere(self, **more: Any) -> int:
        """Ends it at each of its MULTIs, and once more amid what follows: it leads to the same. How
        many there are."""
        before = copy.deepcopy(self.server.data)
        self.run_it(**more)
        whole, count = copy.deepcopy(self.data()), 0
        self.assertNotIn(b"pgsub:part", whole)
        while True:
            self.server.data = copy.deepcopy(before)
            count += 1
            if not self.cut_at(count, **more):
                return count - 1
            self.cut_at(2, **more)
            self.run_it(**more)
            self.assertEqual(self.data(), whole, count)


def many(count: int, first: int = 0, of: Any = STOCK) -> list[Line]:
    return [insert(str(it), "a", of=of) for it in range(first, first + count)]


class Bounds(StepsCase):
    def parts(self) -> list[tuple[str | None, int | None]]:
        """The LSN and how much there is of the next commit, after each MULTI."""
        found = list[tuple[str | None, int | None]]()

        def note() -> None:
            part = self.server.data.get(b"pgsub:part")
            found.append((self.server.at(), json.loads(part)["done"] if part else None))

        self.server.before_exec = note
        self.run_it()
        self.server.before_exec = lambda: None
        note()
        return found

    def test_the_last_one_has_the_lsn(self) -> None:
        self.after(insert("x", "a"))
        self.take(*many(35))
        states = [("0/100", it) for it in (None, 10, 20, 30)]
        self.assertEqual(self.parts(), [*states, ("0/200", None)])
        self.assertEqual(len(self.server.rows()), 36)
        # (and one that unlinks, the mark, the LSN and the tables)
        self.assertLessEqual(self.server.largest, MOST + 4)

    def test_at_most_so_many_are_one(self) -> None:
        self.after(insert("x", "a"))
        for first in range(3):
            self.take(*many(MOST, 10 * first))
        self.assertEqual(self.parts(), [(f"0/{at}00", None) for at in range(1, 5)])

    def test_of_bytes(self) -> None:
        """Also of signs that have several each."""
        bounded(self, 1000, 20000)
        self.after(insert("x", "a"))
        for sign in "aé\U0001f600":
            row = ("1", sign * 1000)
            self.assertGreaterEqual(size_of(row), len(packed_command(row)))
            self.take(*(insert(str(it), sign * 1000) for it in range(100)))
        parts = self.parts()
        self.assertGreater(len(parts), 15)
        self.assertEqual({at for at, _ in parts}, {f"0/{at}00" for at in range(1, 5)})

    def test_commits_that_wait_have_a_mark_behind_them(self) -> None:
        """A long one comes with those before it, which are few."""
        self.after(insert("x", "a"))
        self.take(*many(3))
        self.take(*many(12, 3))
        self.assertEqual(
            self.parts(), [("0/100", None), ("0/200", None), ("0/200", 10), ("0/300", None)]
        )

    def test_a_row_that_is_altered_again_and_again(self) -> None:
        self.take(insert("1", "a"), *[update(["1", "a"], ["1", "a"])] * 1000)
        self.run_it()
        self.assertEqual(self.server.transactions, 3)


class Ended(StepsCase):
    """At any MULTI, and gone on with."""

    def test_hashes(self) -> None:
        self.after(*many(20), *many(30, of=OTHER))
        self.take(
            *(update([str(it), "a"], [str(it + 100), "b"]) for it in range(20)),
            *(delete(str(it + 100), "b") for it in range(0, 20, 2)),
            *many(10),
            truncate(OTHER),
            insert("3", "c", of=OTHER),
            *(update([str(it), "a"], [str(it), "d"]) for it in range(10)),
        )
        self.assertGreater(self.anywhere(), 10)
        rows = {str(it): "d" for it in range(10)} | {str(it): "b" for it in range(101, 120, 2)}
        other = {"other:3": {"id": "3", "name": "c"}}
        self.assertEqual(self.server.rows(), {**stock(*rows.items()), **other})

    def test_streams(self) -> None:
        """No entry is there twice."""
        messages = [Message(it, "p", b"%d" % it) for it in range(25)]
        self.take(*many(20), truncate(), *many(20, of=OTHER), messages=messages)
        self.take(*many(3))
        self.assertGreater(self.anywhere(form="streams"), 6)
        for name, count in (("stock", 24), ("other", 20), ("pgsub:message", 25)):
            self.assertEqual(len(self.server.entries(name)), count)

    def test_names_and_shapes(self) -> None:
        """Tables get each other's names amid it, and a key that rows from before can't tell."""
        self.after(*many(15), *many(15, of=OTHER))
        one, two = table(1, "other"), table(2, "stock")
        keyed = table(1, "other", [Column("name", 25, -1, True)])
        self.take(
            *many(5, 20),
            *many(5, 30, of=OTHER),
            *many(5, 40, of=one),
            *many(5, 50, of=two),
            *(delete(str(it), "a", of=one) for it in range(15)),
            *(delete(str(it), "a", of=one) for it in (*range(20, 25), *range(40, 45))),
            insert("z", of=keyed),
            *(insert(f"k{it}", of=keyed) for it in range(30)),
        )
        self.assertGreater(self.anywhere(), 6)
        rows = self.server.rows()
        self.assertEqual(rows["other:z"], {"name": "z"})
        self.assertEqual(sum(it.startswith("other:") for it in rows), 31)
        self.assertEqual(sum(it.startswith("stock:") for it in rows), 25)

    def test_at_random(self) -> None:
        for seed in range(6):
            with self.subTest(seed=seed):
                self.server.data.clear()
                self.feed.path.unlink()
                self.feed.at = self.at = 0
                self.feed.begin()
                load = Load(random.Random(seed))
                for most in (20, 150):
                    self.take(*load.lines(most))
                    self.anywhere()

    def test_by_a_signal(self) -> None:
        self.take(*many(9))
        self.run_it()
        self.take(*many(25, 10))
        before = copy.deepcopy(self.server.data)
        for most in range(1, 30):
            self.server.data, left = copy.deepcopy(before), most

            def check() -> None:
                nonlocal left
                left -= 1
                if left < 0:
                    raise Stopped

            with mock.patch("pgsub_feed.sinks.redis_steps.OFTEN", 3), logged():
                try:
                    sink_module.run(Options(feed=str(self.path), url="redis://h", once=True), check)
                except (Passing, Stopped):
                    pass
            part = self.server.data.get(b"pgsub:part")
            done = read_mark(part).done if part else 25 if self.server.at() == "0/200" else 0
            self.assertEqual(len(self.server.rows()), 9 + done)
            self.run_it()
            self.assertEqual((len(self.server.rows()), self.server.at()), (34, "0/200"))


class Emptied(StepsCase):
    """A TRUNCATE of a table with more rows than one MULTI removes."""

    def setUp(self) -> None:
        super().setUp()
        self.after(*many(60), *many(3, of=OTHER))
        self.server.largest = 0

    def left(self) -> set[str]:
        return set(self.server.rows())

    def test_rows_behind_it(self) -> None:
        """It may be the one change of a commit, or amid others."""
        self.take(insert("x", "a"), truncate(), insert("1", "b"), delete("1", "a", of=OTHER))
        self.take(insert("2", "b"))
        self.assertGreater(self.anywhere(), 10)
        self.assertEqual(self.left(), {"stock:1", "stock:2", "other:0", "other:2"})
        self.assertLessEqual(self.server.largest, 2 * MOST)

    def test_rows_go_before_the_lsn_is_there(self) -> None:
        self.take(truncate())
        found = list[tuple[str | None, int]]()
        self.server.before_exec = lambda: found.append((self.server.at(), len(self.left())))
        self.run_it()
        self.assertEqual(found[-1], ("0/100", 3))
        self.assertGreater(len(found), 10)

    def test_a_few_go_with_the_commit(self) -> None:
        self.take(insert("x", "a", of=OTHER), truncate(of=OTHER), insert("1", "b", of=OTHER))
        before = self.server.transactions
        self.run_it()
        self.assertEqual(self.server.transactions - before, 1)

    def test_under_a_name_that_another_table_had(self) -> None:
        """Rows that were moved away under it stay."""
        self.take(
            insert("x", "a", of=table(1, "older")),
            *many(30, 100, of=table(3)),
            truncate(table(3)),
            insert("y", "a", of=table(3)),
        )
        self.anywhere()
        names = [it.partition(":")[0] for it in self.left()]
        self.assertEqual([names.count(it) for it in ("older", "stock", "other")], [61, 1, 3])

    def test_tables_that_are_left_out(self) -> None:
        """By their names, or as they have no key any more."""
        self.take(insert("x", "a", of=table(letter="f")), *many(12, 50, of=OTHER))
        with logged():
            self.assertGreater(self.anywhere(), 10)
        self.assertEqual({it.partition(":")[0] for it in self.left()}, {"other"})

    def test_what_was_left_of_a_base(self) -> None:
        names = json.dumps(["stock"]).encode()
        for key in (b"pgsub:loading", b"pgsub:removed"):
            self.server.data[key] = names
        del self.server.data[b"pgsub:lsn"]
        self.server.data[b"pgsub:part"] = b"{}"
        for it in ("other:0", "other:1", "other:2"):
            del self.server.data[it.encode()]
        self.run_it()
        self.assertEqual(len(self.left()), 63)
        self.assertFalse({b"pgsub:loading", b"pgsub:removed", b"pgsub:part"} & {*self.server.data})
        self.assertLessEqual(self.server.largest, 2 * MOST)


class Keyed(KeysCase, StepsCase):
    """Tables whose key is known by the store alone."""

    def setUp(self) -> None:
        super().setUp()
        bounded(self)

    def test_a_row_that_was_written_already(self) -> None:
        """It isn't another one with its key."""
        self.take(*(put(str(it), "a") for it in range(25)), gone("3", "a"), put("3", "b"))
        self.assertGreater(self.anywhere(), 3)
        self.assertEqual(len(self.server.rows()), 25)

    def test_two_rows_with_one_key(self) -> None:
        """In different parts: the table goes."""
        self.take(*(put(str(it), "a") for it in range(25)), put("3", "b"))
        self.assertRegex(self.run_it()[0], BROKEN)
        self.assertEqual(self.server.rows(), {})
        self.take(put("4", "c"), truncate(FULL), put("5", "d"))
        self.run_it()
        self.assertEqual(set(self.server.rows()), {"stock:5"})

    def test_it_goes_wherever_a_sink_ends(self) -> None:
        rows = [put(str(it), "a") for it in range(45)]
        self.take(*rows, put("3", "b"), *(put(f"x{it}", "a") for it in range(20)))
        self.anywhere()
        self.assertEqual(self.server.rows(), {})


class Replaced(StepsCase):
    """What the feed has in the place of a commit of which a part is there."""

    def setUp(self) -> None:
        super().setUp()
        self.take(insert("x", "a"))
        self.run_it()
        self.text = self.feed.path.read_bytes()
        self.told, self.size = copy.copy(self.feed.told), self.feed.size

    def begun(self, *lines: Line) -> None:
        self.take(*lines)
        self.assertTrue(self.cut_at(3))
        self.assertIn(b"pgsub:part", self.server.data)

    def instead(self, *lines: Line, at: int = 0x200) -> None:
        self.feed.path.write_bytes(self.text)
        self.feed.told, self.feed.size, self.feed.at = copy.copy(self.told), self.size, 0x100
        self.at = at - 0x100
        self.take(*lines)

    def test_another_one(self) -> None:
        self.begun(*many(35))
        before = copy.deepcopy(self.data())
        for lines, at, text in (
            (many(35), 0x280, "ends at 0/200, and in the feed the next one ends at 0/280"),
            (many(34), 0x200, "the next one ends at 0/200"),
            (many(35, 1), 0x200, "that has other changes"),
        ):
            self.instead(*lines, at=at)
            self.fails(Unfit, f"{text}: remove pgsub:lsn and the rows to begin anew")
            self.assertEqual(self.data(), before)
        self.server.data.clear()
        self.run_it()
        self.assertEqual((len(self.server.rows()), self.server.at()), (36, "0/200"))

    def test_the_same_elsewhere_in_a_segment(self) -> None:
        """As one that comes again after a crash: its definitions may stand elsewhere."""
        self.begun(*many(35))
        self.feed.path.write_bytes(self.text)
        self.feed.told, self.feed.size, self.feed.at = {}, self.size, 0x100
        self.at = 0x100
        self.take(*many(35))
        self.run_it()
        self.assertEqual((len(self.server.rows()), self.server.at()), (36, "0/200"))

    def test_one_that_cant_be_read(self) -> None:
        """Nothing of it is written, though only its last line is wrong."""
        self.take(*many(34), insert("wrong", "b"))
        text = self.feed.path.read_bytes()
        before, end, last = text.rpartition(b'{"end":')
        damaged = summed((end + last).replace(b'["wrong","b"]', b'["wrong"]    '))
        self.feed.path.write_bytes(before + damaged)
        self.fails(Damaged, "reading 8 Width")
        self.assertEqual((self.server.rows(), self.server.at()), (stock(("x", "a")), "0/100"))
        self.feed.path.write_bytes(text)
        self.run_it()
        self.assertEqual(len(self.server.rows()), 36)

    def test_it_is_cut_amid_it(self) -> None:
        """That passes, since what is there is gone on with."""
        self.take(*many(35))
        text = self.feed.path.read_bytes()

        def cut() -> None:
            if b"pgsub:part" in self.server.data:
                self.feed.path.write_bytes(text[:-300])

        self.server.before_exec = cut
        with mock.patch.multiple("pgsub_feed.reader.segment", AHEAD=64, CHUNK=64):
            self.fails(Passing, "the feed was altered while a commit was written")
        self.server.before_exec = lambda: None
        self.feed.path.write_bytes(text)
        self.run_it()
        self.assertEqual(len(self.server.rows()), 36)

    def test_a_mark_that_is_none(self) -> None:
        for text in (b"", b"{}", b"7", b'{"end":"0/200","changes":-1,"done":3,"last":4}'):
            self.server.data[b"pgsub:part"] = text
            self.fails(EngineError, "is it a Redis, whose `pgsub:` keys nothing else writes")
