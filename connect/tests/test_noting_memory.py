"""How much memory is kept of payloads that are passed on, for each kind of message, and how long it
takes to note them."""

from __future__ import annotations

import itertools
import struct
import tempfile
import time
import tracemalloc
import unittest
from collections.abc import Iterable, Iterator

from pgsub_connect.drift.remembered import Remembered
from pgsub_connect.status.state import StreamCounters
from pgsub_connect.stream.messages import relation_of
from pgsub_connect.stream.stream_log import Noting

from . import vectors
from .vectors import a_catalog, a_table, begin, commit, data, insert, relation

MB = 1 << 20
# How many bytes of messages are noted, of short ones and of others; and what may be kept of
# messages of which nothing is: some constants.
SHORT, SIZE, LITTLE = MB, 10 * MB, 64 * 1024
# The bytes of payloads that come at a time.
LOT = MB


def lots(payloads: Iterable[bytes], size: int) -> Iterator[list[bytes]]:
    """As many payloads as have so many bytes, some at a time."""
    lot, length = list[bytes](), 0
    for payload in payloads:
        lot.append(payload)
        length += len(payload)
        size -= len(payload)
        if length >= LOT or size <= 0:
            yield lot
            lot, length = [], 0
        if size <= 0:
            return
    if lot:
        yield lot


class Case(unittest.TestCase):
    def setUp(self) -> None:
        folder = tempfile.TemporaryDirectory()
        self.addCleanup(folder.cleanup)
        self.remembered = Remembered(folder.name + "/copy.db")
        self.remembered.begin_copy(
            a_catalog(*(a_table(oid, f"t{oid}") for oid in range(1, 9))), 100
        )
        self.noting = Noting(StreamCounters(), self.remembered)

    def note(self, payloads: Iterable[bytes], size: int = SHORT) -> int:
        """Notes payloads of so many bytes. Returns how many bytes of memory are kept of them."""
        return self.traced(payloads, size)[0]

    def traced(self, payloads: Iterable[bytes], size: int) -> tuple[int, int]:
        """So it does, and returns how many there were at most, too."""
        tracemalloc.start()
        try:
            for lot in lots(payloads, size):
                self.noting.note_all(lot)
                self.noting.show()
                del lot
            return tracemalloc.get_traced_memory()
        finally:
            tracemalloc.stop()


class Pairs(Case):
    def setUp(self) -> None:
        super().setUp()
        self.noting.note_all([begin(500, 77), *(relation(oid, f"t{oid}") for oid in range(1, 9))])

    def test_of_changes_nothing_is_kept(self) -> None:
        for payload in (
            insert(1),
            vectors.update(2),
            vectors.delete(3),
            data(b"I" + bytes(3) + b"\1N" + bytes(5000)),
        ):
            self.assertLess(self.note(itertools.repeat(payload)), LITTLE)

    def test_of_a_large_change_nothing_is_kept(self) -> None:
        for letter in (b"I", b"U", b"D", b"M", b"Y", b"O", b"B", b"x"):
            long = [data(letter + bytes([0, 0, 0, at]) + bytes(5 * MB)) for at in (1, 2, 3)]
            self.assertLess(self.note(long, SIZE), LITTLE, letter)

    def test_of_what_changes_nothing_nothing_is_kept(self) -> None:
        for payload in (
            vectors.message(),
            vectors.a_type(9),
            vectors.keepalive(500),
            data(b"O" + bytes(8) + b"name\0"),
            data(b"x"),
        ):
            self.assertLess(self.note(itertools.repeat(payload)), LITTLE)

    def test_a_truncate_of_tables_that_are_known(self) -> None:
        oids = struct.pack(">8I", *range(1, 9)) * (SIZE // 32)
        self.assertLess(
            self.traced([data(b"T" + struct.pack(">IB", len(oids) // 4, 0) + oids)], SIZE)[1],
            4 * LITTLE,
        )
        self.assertEqual(sum(self.noting.counts.values()), SIZE // 4)

    def test_a_truncate_of_tables_that_are_not(self) -> None:
        """No memory at all goes by their number, neither in one message nor in many, nor while one
        is noted."""
        count = SHORT // 16
        oids = struct.pack(f">{count}I", *range(1000, 1000 + count))
        self.assertLess(
            self.traced([data(b"T" + struct.pack(">IB", count, 0) + oids)], SHORT)[1], 4 * LITTLE
        )
        self.noting.note_all([commit(500, 508), begin(510, 78)])
        few = (data(b"T" + struct.pack(">IBI", 1, 0, oid)) for oid in itertools.count(1000))
        self.assertLess(self.note(few), LITTLE)
        self.assertIn("TRUNCATEs of tables that aren't known", self.text_of_rejected())

    def text_of_rejected(self) -> str:
        self.noting.note_all([commit(510, 518)])
        return self.noting.rejected_text(508)

    def test_relations_that_come_again(self) -> None:
        """Of each it is kept that it came: a hundred bytes."""
        self.noting.note_all([insert(1), commit(500, 508), begin(510, 78)])
        payload = relation(1, "t1")
        self.assertLess(self.note(itertools.repeat(payload)), 100 * SHORT // len(payload))

    def test_relations_of_other_tables(self) -> None:
        """Of each its bytes are kept, and a hundred and fifty more, until the commit that may have
        changed the table."""
        payloads = (relation(oid, "t") for oid in itertools.count(1000))
        length = len(relation(1000, "t"))
        self.assertLess(self.note(payloads), (150 + length) * SHORT // length)

    def test_changes_of_many_tables(self) -> None:
        """A table that a transaction changes costs two hundred bytes, however often."""
        payloads = [insert(oid) for oid in range(1000, 11000)]
        self.assertLess(self.note(itertools.cycle(payloads)), 200 * len(payloads))

    def test_commits_without_changes(self) -> None:
        """They are forgotten once the store has them, and a store is one megabyte of the stream
        behind at most."""
        each = begin(500, 7), commit(500, 508)
        kept = self.note(itertools.cycle(each))
        self.assertLess(kept, 4 * MB)
        self.noting.confirm(508, 0)
        self.assertEqual((len(self.noting.ends), len(self.noting.passed)), (0, 0))

    def test_a_long_begin(self) -> None:
        self.assertLess(
            self.note([data(b"B" + bytes(5 * MB)), data(b"C" + bytes(5 * MB))], SIZE), LITTLE
        )


class Blocks(Case):
    def test_transactions_of_which_nothing_is_buffered(self) -> None:
        empty = (
            (vectors.start(xid, True), vectors.message(xid), vectors.stop())
            for xid in itertools.count(1)
        )
        self.assertLess(self.note(itertools.chain.from_iterable(empty)), LITTLE)
        self.assertEqual(self.noting.open, {})

    def test_open_transactions(self) -> None:
        """Each costs six hundred bytes beside what it describes, and the filter has at least one
        item of it."""
        payloads = (
            (vectors.start(xid, True), insert(1, xid), vectors.stop()) for xid in itertools.count(1)
        )
        kept = self.note(itertools.chain.from_iterable(payloads))
        self.assertLess(kept, 600 * len(self.noting.open))

    def test_changes_of_many_subtransactions(self) -> None:
        self.noting.note_all([vectors.start(7, True)])
        payloads = (insert(1, xid) for xid in itertools.count(8))
        count = SHORT // len(insert(1, 8))
        self.assertLess(self.note(payloads), 200 * count)
        self.noting.note_all([vectors.stop()])
        self.assertEqual(len(self.noting.open[7].counts), 1)

    def test_truncates(self) -> None:
        count = SHORT // 16
        oids = struct.pack(f">{count}I", *range(1000, 1000 + count))
        self.noting.note_all([vectors.start(7, True)])
        self.assertLess(
            self.traced([data(b"T" + struct.pack(">IIB", 8, count, 0) + oids)], SHORT)[1],
            4 * LITTLE,
        )
        self.noting.note_all([vectors.stop()])
        self.assertEqual(sum(self.noting.open[7].counts.values()), count)


class Times(Case):
    def test_a_relation_with_many_columns(self) -> None:
        """Twenty times as many columns take about twenty times as long, and not four hundred
        times."""
        few, many = (
            vectors.relation_body(
                5, "t", "d", [(0, f"column{it:060}", 25, -1) for it in range(count)]
            )
            for count in (3000, 60000)
        )
        self.assertIsNotNone(relation_of(few))
        times = []
        for body in (few, many):
            began = time.thread_time()
            found = relation_of(body)
            times.append(time.thread_time() - began)
        self.assertEqual(found and len(found.shape.columns), 60000)
        self.assertLess(times[1], 100 * times[0])

    def test_subtransactions_that_are_rolled_back(self) -> None:
        """Each drops its own: 20,000 of them beside 20,000 Relation messages of another one take
        seconds, and not minutes."""
        self.noting.note_all(
            [
                vectors.start(7, True),
                *(relation(oid, "t", xid=7) for oid in range(1000, 21000)),
                vectors.stop(),
            ]
        )
        began = time.thread_time()
        for xid in range(8, 20008):
            self.noting.note_all(
                [
                    vectors.start(7, False),
                    relation(1, "t1", xid=xid),
                    vectors.stop(),
                    vectors.stream_abort(7, xid),
                ]
            )
        self.assertLess(time.thread_time() - began, 10)
        self.assertEqual(len(self.noting.open[7].relations.bodies), 20000)


if __name__ == "__main__":
    unittest.main()
