"""The transaction that replaces a table's rows, and what is left out of the stream before it."""

from __future__ import annotations

import glob
import os
import struct
import unittest
from collections.abc import Iterator

from pgsub_connect.add.replacement import Leaving, Rows, payload_of
from pgsub_connect.errors import ServerError
from pgsub_connect.server.catalog import Table
from pgsub_connect.server.copied_text import NULL
from pgsub_connect.stream.messages import final_lsn
from pgsub_feed.reader.commits import XID
from pgsub_feed.relation import Column, Shape

from .row_filter import Fault, Store, Subscriber, number, read_tuple, spelled
from .vectors import (
    a_type,
    begin,
    commit,
    delete,
    insert,
    keepalive,
    message,
    relation,
    start,
    stop,
    stream_abort,
    truncate,
    update,
)

EXAMPLES = os.path.join(os.path.dirname(os.path.abspath(__file__)), "..", "..", "examples")
# More recordings, where a developer has them.
MORE = os.environ.get("RECORDINGS", "")
POINT = 0x200
T, OTHER = 1, 2


def passed(payloads: list[bytes], points: dict[int, int]) -> list[bytes]:
    leaving = Leaving()
    leaving.set(points)
    return leaving.passing(payloads)


def pair(lsn: int, *inner: bytes) -> list[bytes]:
    return [begin(lsn, 7), *inner, commit(lsn, lsn + 8)]


class Left(unittest.TestCase):
    """What is left out in a transaction below P, and at or above it."""

    CHANGES = (insert(T), update(T), delete(T), truncate(T))
    OTHERS = (
        insert(OTHER),
        update(OTHER),
        delete(OTHER),
        truncate(OTHER),
        relation(T, "t"),
        a_type(T),
        message(),
        stream_abort(7, 7),
    )

    def test_changes_of_the_table(self) -> None:
        for lsn, point, stays in (
            (0x1F8, POINT, False),
            (POINT, POINT, True),
            (0x208, POINT, True),
            (0x1F8, 0, False),
            (0x208, 0, False),
            (1 << 63, 0, False),
        ):
            for change in self.CHANGES:
                found = passed(pair(lsn, change), {T: point})
                self.assertEqual(
                    found, pair(lsn, change) if stays else pair(lsn), (hex(lsn), hex(point), change)
                )

    def test_all_else(self) -> None:
        for lsn in (0x1F8, POINT):
            self.assertEqual(passed(pair(lsn, *self.OTHERS), {T: POINT}), pair(lsn, *self.OTHERS))

    def test_truncations_of_several(self) -> None:
        for oids, left in (
            ((T, OTHER), (OTHER,)),
            ((OTHER, T), (OTHER,)),
            ((OTHER, T, 3), (OTHER, 3)),
            ((OTHER, 3), (OTHER, 3)),
            ((T, T), ()),
        ):
            wanted = [truncate(*left)] if left else []
            self.assertEqual(
                passed(pair(0x100, truncate(*oids)), {T: POINT}), pair(0x100, *wanted), oids
            )
            self.assertEqual(
                passed(pair(POINT, truncate(*oids)), {T: POINT}), pair(POINT, truncate(*oids)), oids
            )

    def test_the_options_of_a_truncation_stay(self) -> None:
        before = truncate(T, OTHER)
        payload = before[:30] + b"\x03" + before[31:]
        wanted = truncate(OTHER)
        self.assertEqual(
            passed(pair(0x100, payload), {T: 0})[1], wanted[:30] + b"\x03" + wanted[31:]
        )

    def test_several_tables(self) -> None:
        """Each has its own P."""
        inner = [insert(T), insert(OTHER), insert(3)]
        self.assertEqual(
            passed(pair(0x100, *inner), {T: 0x80, OTHER: 0}), pair(0x100, insert(T), insert(3))
        )
        self.assertEqual(passed(pair(0x100, *inner), {}), pair(0x100, *inner))

    def test_how_tables_were_described(self) -> None:
        """The last message of a table counts, in one session alone."""
        leaving, first, last = Leaving(), relation(T, "t")[25:], relation(T, "was")[25:]
        leaving.set({T: POINT})
        found = []
        for names in ((), ("t",), ("was",), ("t", "was"), ("was", "t")):
            leaving.begin_session()
            leaving.passing(
                pair(0x100, *(relation(T, it) for it in names), relation(OTHER, "other"))
            )
            found.append(
                (leaving.has_described_otherwise(first), leaving.has_described_otherwise(last))
            )
        self.assertEqual(
            found, [(False, False), (False, True), (True, False), (True, False), (False, True)]
        )

    def test_one_transaction_after_the_other(self) -> None:
        payloads = [
            *pair(0x100, insert(T)),
            keepalive(0x1F8),
            *pair(0x1F0, insert(T), insert(OTHER)),
            *pair(0x200, insert(T)),
        ]
        wanted = [
            *pair(0x100),
            keepalive(0x1F8),
            *pair(0x1F0, insert(OTHER)),
            *pair(0x200, insert(T)),
        ]
        self.assertEqual(passed(payloads, {T: POINT}), wanted)
        for cut in range(len(payloads)):
            leaving = Leaving()
            leaving.set({T: POINT})
            self.assertEqual(
                leaving.passing(payloads[:cut]) + leaving.passing(payloads[cut:]), wanted
            )

    def test_keepalives(self) -> None:
        """One within a transaction below P would say of the rows' transaction that it was sent."""
        for lsn, end, stays in (
            (0x100, 0x1FF, True),
            (0x100, POINT, False),
            (0x100, 0x300, False),
            (POINT, 0x300, True),
        ):
            wanted = pair(lsn, keepalive(end)) if stays else pair(lsn)
            self.assertEqual(
                passed(pair(lsn, keepalive(end)), {T: POINT}), wanted, (hex(lsn), hex(end))
            )
        self.assertEqual(passed([keepalive(0x300)], {T: POINT}), [keepalive(0x300)])
        self.assertEqual(
            passed(pair(0x100, keepalive(0x300)), {T: 0}), pair(0x100, keepalive(0x300))
        )

    def test_a_session_that_streams_is_given_up(self) -> None:
        with self.assertRaises(ServerError):
            passed([start(7, True)], {T: POINT})
        self.assertEqual(
            passed([start(7, True), insert(T, 7), stop()], {}),
            [start(7, True), insert(T, 7), stop()],
        )

    def test_a_session_begins_outside(self) -> None:
        leaving = Leaving()
        leaving.set({T: POINT})
        leaving.passing([begin(0x100, 7)])
        leaving.begin_session()
        self.assertEqual(leaving.passing([keepalive(0x300)]), [keepalive(0x300)])


STOCK = Table(
    T,
    "public",
    "stock",
    "r",
    Shape("d", (Column("id", 23, -1, True, 1), Column("note", 25, -1, False, 2))),
)


def rows_of(lines: list[bytes], table: Table = STOCK, point: int = POINT) -> list[bytes]:
    """The payloads of the rows' transaction."""
    rows = Rows(table, point, 99)
    stream = b"".join([*rows.opening(), rows.rows(lines) if lines else b"", rows.closing()])
    return list(split(stream))


def split(stream: bytes) -> Iterator[bytes]:
    at = 0
    while at < len(stream):
        size = number(stream, at + 1, 4) + 1
        yield payload_of(stream[at : at + size])
        at += size


class Made(unittest.TestCase):
    def test_bytes(self) -> None:
        """Byte for byte, as the protocol has it."""
        lsn = struct.pack(">Q", POINT - 1)
        head = b"w" + lsn + lsn + bytes(8)
        described = b"public\0stock\0d\0\x02\x01id\0\0\0\0\x17\xff\xff\xff\xff\0note\0\0\0\0\x19\xff\xff\xff\xff"
        self.assertEqual(
            rows_of([b"1\ta\\tb\n", b"2\t\\N\n"]),
            [
                head + b"B" + lsn + struct.pack(">qI", 99, XID),
                head + b"R\0\0\0\x01" + described,
                head + b"T\0\0\0\x01\0\0\0\0\x01",
                head + b"I\0\0\0\x01N\0\x02t\0\0\0\x011t\0\0\0\x03a\tb",
                head + b"I\0\0\0\x01N\0\x02t\0\0\0\x012n",
                head + b"C\0" + lsn + struct.pack(">Qq", POINT, 99),
            ],
        )

    def test_lsns(self) -> None:
        """Records begin at multiples of eight, so no commit begins at P - 1, and each has at least
        24 bytes."""
        payloads = rows_of([])
        lsn, end = final_lsn(payloads[0]), number(payloads[-1], 35, 8)
        self.assertEqual((lsn % 8, end), (7, POINT))
        self.assertLess(POINT - 24, lsn)
        self.assertLess(lsn, end)

    def test_what_the_filter_buffers(self) -> None:
        rows = Rows(STOCK, POINT, 0)
        items = [*rows.opening()[1:], rows.rows([b"1\ta\\tb\n", b"2\t\\N\n"])]
        payloads = list(split(b"".join(items)))
        self.assertEqual(rows.cost, sum(8 + len(it) - 25 for it in payloads))
        self.assertGreaterEqual(rows.longest, max(map(len, payloads[2:])))
        self.assertEqual(rows.count, 2)


class Model:
    """What becomes of a stream in a store in memory."""

    def __init__(self) -> None:
        self.subscriber = Subscriber(Store(":memory:"))

    def take(self, payloads: list[bytes]) -> None:
        for payload in payloads:
            self.subscriber.take(payload)

    def rows(self) -> object:
        return self.subscriber.store.rows()


def sessions_of(path: str) -> Iterator[list[bytes]]:
    """The payloads of each session of a recording, as far as it has whole frames of CopyData."""
    with open(path, encoding="utf-8", errors="replace") as file:
        for text in file.read().split("--\n"):
            try:
                data = bytes.fromhex("".join(it for it in text.splitlines() if it and it[0] != "#"))
            except ValueError:
                return
            payloads, at = list[bytes](), 0
            while data[at : at + 1] == b"d" and at + number(data, at + 1, 4) < len(data):
                payloads.append(data[at + 5 : at + 1 + number(data, at + 1, 4)])
                at += 1 + number(data, at + 1, 4)
            yield payloads


def is_whole(payloads: list[bytes]) -> bool:
    """Whether a session has whole transactions with values as text, and can be applied."""
    letters = {chr(it[25]) for it in payloads if len(it) > 25}
    if not payloads or letters & set("SEc") or "B" not in letters:
        return False
    model = Model()
    try:
        model.take(payloads)
    except (Fault, AssertionError, ValueError, IndexError, struct.error, UnicodeDecodeError):
        return False
    bodies = model.subscriber.store.base.execute("SELECT body FROM held")
    return all(letter != "b" for (body,) in bodies for letter, _ in read_tuple(body, 0)[0])


def transactions_of(payloads: list[bytes]) -> Iterator[tuple[int, list[bytes]]]:
    """Each transaction with its final LSN, and each payload between them with 0."""
    inside: list[bytes] = []
    for payload in payloads:
        letter = payload[25:26]
        if letter == b"B":
            inside = [payload]
        elif inside:
            inside.append(payload)
            if letter == b"C":
                yield final_lsn(inside[0]), inside
                inside = []
        else:
            yield 0, [payload]


def is_of(payload: bytes, oid: int) -> bool:
    """Whether this is a change of that table alone."""
    letter = payload[25:26]
    return (
        letter in (b"I", b"U", b"D")
        and number(payload, 26, 4) == oid
        or letter == b"T"
        and payload[31:] == oid.to_bytes(4, "big")
    )


class Recorded(unittest.TestCase):
    """Sessions that real servers have sent: each table of theirs is replaced at several places."""

    def test_all(self) -> None:
        paths = sorted(glob.glob(EXAMPLES + "/*/in.pgx") + glob.glob(MORE + "/*.pgx"))
        tried = 0
        for path in paths:
            for payloads in sessions_of(path):
                if len(payloads) < 5000 and is_whole(payloads):
                    with self.subTest(path):
                        tried += self.replace(payloads)
        self.assertGreater(tried, 20)

    def replace(self, payloads: list[bytes]) -> int:
        """Replaces each table at some commits. Returns how often."""
        oids = {number(it, 26, 4) for it in payloads if it[25:26] == b"I"}
        lsns, end = list[int](), 0
        for lsn, several in transactions_of(payloads):
            # (at P ends a record of running transactions)
            lsns += [lsn] if lsn >= end + 24 else []
            end = number(several[-1], 35, 8) if lsn else end
        chosen = sorted({lsns[0], lsns[len(lsns) // 2], lsns[-1]})
        for oid in oids:
            for lsn in chosen:
                self.replace_at(payloads, oid, lsn)
        return len(oids) * len(chosen)

    def replace_at(self, payloads: list[bytes], oid: int, point: int) -> None:
        """The rows at the end are those without a replacement, and what is left out is what it
        should be."""
        whole, before = Model(), Model()
        whole.take(payloads)
        expected, first, rest = list[bytes](), list[bytes](), list[bytes]()
        for lsn, several in transactions_of(payloads):
            if not rest and lsn < point:
                before.take(several)
                first += several
                expected += [it for it in several if not is_of(it, oid)]
            else:
                rest += several
        left = passed(first + rest, {oid: point})
        if not any(it[25:26] == b"T" for it in first):
            self.assertEqual(left, expected + rest)
        store = before.subscriber.store
        replaced = Model()
        replaced.take(left[: len(left) - len(rest)])
        self.assertNotIn(oid, replaced.subscriber.store.rows())
        if relation := store.described.get(oid):
            numbers = struct.iter_unpack(
                ">Ii", b"".join(relation.raw[at : at + 8] for at in ends_of(relation.raw))
            )
            columns = [
                Column(name, kind, more, key == 1)
                for (key, name), (kind, more) in zip(relation.columns, numbers)
            ]
            table = Table(
                oid, relation.namespace, relation.name, "r", Shape(relation.letter, tuple(columns))
            )
            lines = [
                line_of(it)
                for it in store.base.execute("SELECT body, copies FROM held WHERE oid = ?", (oid,))
                for _ in range(it[1])
            ]
            replaced.take(rows_of(lines, table, point))
            self.assertEqual(replaced.rows(), before.rows())
        replaced.take(left[len(left) - len(rest) :])
        self.assertEqual(replaced.rows(), whole.rows())


def ends_of(raw: bytes) -> Iterator[int]:
    """Where the type of each column stands."""
    at = 2
    while at < len(raw):
        at = raw.index(b"\0", at + 1) + 1
        yield at
        at += 8


def line_of(row: tuple[bytes, int]) -> bytes:
    """A row of a store as COPY's text format has it."""
    cells = read_tuple(row[0], 0)[0]
    texts = [NULL if letter == "n" else escaped(value) for letter, value in cells]
    assert spelled(cells) == row[0]
    return b"\t".join(texts) + b"\n"


def escaped(value: bytes) -> bytes:
    for character, escape in ((b"\\", b"\\\\"), (b"\t", b"\\t"), (b"\n", b"\\n"), (b"\r", b"\\r")):
        value = value.replace(character, escape)
    return value


if __name__ == "__main__":
    unittest.main()
