"""What is found in the file of a store: what a wrong writer leaves, and nothing in what is
right."""

import contextlib
import random
import sqlite3
import tempfile
import unittest
from pathlib import Path

from stores import sound
from stores.contents import Contents, Relation, Row, differences, read
from stores.text import PAGE_SIZES, Plan, Writer

from . import stored
from .stored import KEYED, LOG, STOCK, cell, full_row, keyed_row

# what a writer of trees may do wrong, to the rows and the entries of the index, and what is told of
# it
WRONG_TREES = (
    (
        "an entry is forgotten",
        ["DELETE FROM entries WHERE number = 40"],
        "row 40 missing from index",
    ),
    (
        "a row without its entry",
        ["INSERT INTO held VALUES (16384, x'00017400000003393939', x'', 1)"],
        "row 101 missing from index",
    ),
    ("an entry is left", ["DELETE FROM held WHERE rowid = 40"], "wrong # of entries in index"),
    (
        "an entry without a row",
        ["INSERT INTO entries VALUES (16384, x'0001', 7000)"],
        "wrong # of entries in index",
    ),
    (
        "two entries of a row",
        ["INSERT INTO entries VALUES (16384, x'0001', 40)"],
        "wrong # of entries in index",
    ),
    (
        "an entry twice under two numbers",
        ["INSERT INTO entries SELECT oid, ident, 7000 FROM entries WHERE number = 40"],
        "wrong # of entries",
    ),
    (
        "a row twice",
        ["INSERT INTO held SELECT * FROM held WHERE rowid = 40"],
        "row 101 missing from index",
    ),
    (
        "a row and its entry twice",
        [
            "INSERT INTO held SELECT * FROM held WHERE rowid = 40",
            "INSERT INTO entries SELECT oid, ident, 101 FROM held WHERE rowid = 40",
        ],
        "non-unique entry in index",
    ),
    (
        "an Update leaves its old entry",
        [
            "UPDATE held SET ident = x'00017400000003393939' WHERE rowid = 40",
            "INSERT INTO entries VALUES (16384, x'00017400000003393939', 40)",
        ],
        "wrong # of entries in index",
    ),
    (
        "an Update forgets its entry",
        ["UPDATE held SET ident = x'00017400000003393939' WHERE rowid = 40"],
        "row 40 missing from index",
    ),
    (
        "two entries name each other's rows",
        ["UPDATE entries SET number = 81 - number WHERE number IN (40, 41)"],
        "row 40 missing from index",
    ),
    (
        "an entry under another relation",
        ["UPDATE entries SET oid = 16386 WHERE number = 40"],
        "row 40 missing from index",
    ),
    (
        "a row under the right key in another relation",
        [
            "UPDATE held SET oid = 16386 WHERE rowid = 40",
            "UPDATE entries SET oid = 16386 WHERE number = 40",
        ],
        "row 40, 16386 .*: 2 cells of 1 columns",
    ),
)

# what SQL can do to a store, and what is told of it
WRONG_ROWS = (
    ("DELETE FROM rel WHERE oid = 16384", "its relation has no definition"),
    ("UPDATE held SET copies = 0 WHERE rowid = 40", "row 40, .*: 0 copies"),
    ("UPDATE held SET copies = -1 WHERE rowid = 90", "row 90, .*: -1 copies"),
    ("UPDATE held SET copies = 2147483648 WHERE rowid = 90", "row 90, .*: 2147483648 copies"),
    ("UPDATE held SET copies = 2 WHERE rowid = 40", "row 40, .*: 2 copies"),
    (
        "UPDATE held SET ident = x'00017400000003393939' WHERE rowid = 40",
        "the identity of its body is 000174",
    ),
    ("UPDATE held SET body = CAST(body || x'00' AS BLOB) WHERE rowid = 40", "1 bytes too many"),
    ("UPDATE held SET body = x'0001740000000130' WHERE rowid = 40", "1 cells of 2 columns"),
    ("UPDATE held SET body = x'000274000000013075' WHERE rowid = 40", "a cell of the kind b'u'"),
    ("UPDATE held SET body = x'00027400000001306200000009' WHERE rowid = 40", "no 9 bytes at 13"),
    ("UPDATE held SET body = x'000274000000013074ffffffff' WHERE rowid = 40", "no -1 bytes at 13"),
    (
        "UPDATE held SET body = x'00027400000001307400000001ff' WHERE rowid = 40",
        "a text that isn't UTF-8",
    ),
    ("UPDATE rel SET letter = 120 WHERE oid = 16384", "relation 16384: replica identity 120"),
    ("UPDATE rel SET letter = 356 WHERE oid = 16384", "relation 16384: replica identity 356"),
    (
        "UPDATE rel SET oid = 4294967296 WHERE oid = 16384",
        "relation 4294967296: its OID is no Int32",
    ),
    ("UPDATE rel SET name = name || char(0) WHERE oid = 16384", "a name with a zero byte"),
    (
        "UPDATE rel SET cols = CAST(cols || x'00' AS BLOB) WHERE oid = 16384",
        "relation 16384: 1 bytes too many",
    ),
    (
        "UPDATE rel SET cols = substr(cols, 1, 4) WHERE oid = 16384",
        "relation 16384: no zero byte from 3 on",
    ),
    ("UPDATE rel SET cols = x'0641' WHERE oid = 16384", "relation 16384: 1601 columns"),
    ("UPDATE rel SET cols = x'000102' WHERE oid = 16384", "relation 16384: key flag 2"),
    ("UPDATE pos SET lsn = x'01020304050607'", r"pos has the identifiers and lengths \[\(0, 7\)\]"),
    ("DELETE FROM pos", r"pos has the identifiers and lengths \[\]"),
    ("CREATE TABLE more (x)", "there is a table more"),
    ("CREATE INDEX by_body ON held (body)", "there is a index by_body"),
    ("DROP TABLE pos", "there is no table pos as a store's"),
)


class Case(unittest.TestCase):
    """A store with pages of 512 bytes and 100 rows, of which numbers 1 to 80 are keyed ones."""

    def setUp(self) -> None:
        room = tempfile.TemporaryDirectory()
        self.addCleanup(room.cleanup)
        self.room = Path(room.name)
        self.path = self.room / "copy.db"
        self.held = Contents({STOCK: KEYED, LOG: stored.FULL}, {}, 0x130)
        self.held.rows.update(keyed_row(number, b"a name of some length") for number in range(80))
        self.held.rows.update(full_row(b"%d" % number, 2) for number in range(20))
        Writer(self.path, random.Random(1)).make(512)
        with stored.opened(self.path) as base:
            base.executemany(
                "INSERT INTO rel VALUES (?, ?, ?, ?, ?)",
                [(oid, *vars(it).values()) for oid, it in self.held.relations.items()],
            )
            base.executemany(
                "INSERT INTO held VALUES (?, ?, ?, ?)",
                [(*key, *vars(row).values()) for key, row in self.held.rows.items()],
            )
            base.execute("UPDATE pos SET lsn = x'0000000000000130'")

    def change(self, text: str) -> None:
        with stored.opened(self.path) as base:
            base.execute(text)

    def check_told(self, told: str, path: Path | None = None) -> None:
        self.assertRegex("\n".join(sound.findings(path or self.path)) or "nothing", told)

    def test_a_store_is_sound(self) -> None:
        self.assertEqual(sound.findings(self.path, self.held), [])
        with stored.trees(self.path):
            pass
        self.assertEqual(sound.findings(self.path, self.held), [])

    def test_wrong_trees(self) -> None:
        whole = self.path.read_bytes()
        for what, statements, told in WRONG_TREES:
            with self.subTest(what):
                self.path.write_bytes(whole)
                with stored.trees(self.path) as base:
                    for text in statements:
                        self.assertGreater(base.execute(text).rowcount, 0)
                self.check_told(told)

    def test_wrong_rows(self) -> None:
        whole = self.path.read_bytes()
        for text, told in WRONG_ROWS:
            with self.subTest(text):
                self.path.write_bytes(whole)
                self.change(text)
                self.check_told(told)

    def test_wrong_pages(self) -> None:
        whole = self.path.read_bytes()
        leaves = [
            at for at in range(512, len(whole), 512) if whole[at] == 0x0D and whole[at + 4] > 1
        ]
        for at in leaves:
            swapped = bytearray(whole)
            swapped[at + 8 : at + 12] = whole[at + 10 : at + 12] + whole[at + 8 : at + 10]
            self.path.write_bytes(swapped)
            self.check_told("Rowid .* out of order")
        self.assertGreater(len(leaves), 3)
        count = len(whole) // 512
        self.path.write_bytes(whole[:28] + (count + 1).to_bytes(4, "big") + whole[32:] + bytes(512))
        self.check_told(f"Page {count + 1} is never used")
        self.path.write_bytes(whole[:-512])
        self.check_told("SQLite: database disk image is malformed")

    def test_no_store(self) -> None:
        self.check_told("there is no file", self.room / "other.db")
        text = self.room / "text"
        text.write_text("no database")
        self.check_told("SQLite: file is not a database", text)
        self.assertEqual((sound.is_database(text), sound.is_database(self.path)), (False, True))
        bare = self.room / "bare.db"
        with stored.opened(bare) as base:
            base.execute("PRAGMA journal_mode = WAL")
        self.check_told("there is no table held as a store's", bare)
        for path, is_bare in ((bare, True), (self.path, False)):
            with sound.at_rest(path) as base:
                self.assertEqual(sound.is_bare(base), is_bare)

    def test_what_an_interrupted_run_leaves(self) -> None:
        bare = self.room / "bare.db"
        with stored.opened(bare) as base:
            base.execute("PRAGMA journal_mode = WAL")
        for path in (self.room / "other.db", bare, self.path):
            self.assertEqual(sound.findings_with_log(path), [])
        self.change("DELETE FROM rel")
        self.assertEqual(len(sound.findings_with_log(self.path)), 10)

    def test_what_differs(self) -> None:
        for oid, relation in ((LOG, KEYED), (7, KEYED)):
            self.held.relations[oid] = relation
        self.held.rows.update([keyed_row(3, b"another"), keyed_row(99, b"")])
        self.held.position += 1
        told = [it.partition(" is ")[0] for it in sound.findings(self.path, self.held)]
        keys = [f"the row {STOCK} {keyed_row(number, b'')[0][1].hex()}" for number in (3, 99)]
        self.assertEqual(told, ["the position", "relation 7", "relation 16386", *keys])

    def test_at_most_ten_are_told(self) -> None:
        self.change("UPDATE held SET copies = 0")
        self.assertEqual(len(sound.findings(self.path)), 10)


class WriterCase(unittest.TestCase):
    def setUp(self) -> None:
        room = tempfile.TemporaryDirectory()
        self.addCleanup(room.cleanup)
        self.path = Path(room.name, "copy.db")

    def test_each_write_makes_what_is_wanted(self) -> None:
        for size in PAGE_SIZES:
            rng, held = random.Random(size), Contents()
            writer = Writer(self.path, rng)
            self.path.unlink(missing_ok=True)
            writer.make(size)
            for turn in range(6):
                wanted = stored.random_contents(rng, 60)
                writer.write(held, wanted)
                if turn % 3 == 2:
                    writer.vacuum()
                self.assertEqual(sound.findings(self.path, wanted), [])
                self.assertEqual(self.pragma("page_size"), size)
                held = wanted

    def pragma(self, word: str) -> object:
        with sound.at_rest(self.path) as base:
            (found,) = base.execute(f"PRAGMA {word}").fetchone()
        return found

    def test_pages_of_another_size(self) -> None:
        writer, wanted = Writer(self.path, random.Random(2)), stored.random_contents(
            random.Random(2), 60
        )
        writer.make(512)
        writer.write(Contents(), wanted)
        for size in PAGE_SIZES:
            writer.vacuum(size)
            self.assertEqual(
                (sound.findings(self.path, wanted), self.pragma("page_size")), ([], size)
            )
            # (a write-ahead log, for those who read and for those who write)
            self.assertEqual(self.path.read_bytes()[18:20], b"\2\2")

    def test_a_log_is_left(self) -> None:
        rng = random.Random(3)
        writer, first, second = (
            Writer(self.path, rng),
            stored.random_contents(rng, 20),
            stored.random_contents(rng, 20),
        )
        writer.make(1024)
        writer.write(Contents(), first)
        writer.write_log(first, second)
        self.assertEqual(sound.findings(self.path, first), [])
        for _ in range(2):
            with sound.copied(self.path) as base:
                self.assertEqual(sound.findings_of(base, second), [])
        writer.write(second, first)
        self.assertEqual(sound.findings(self.path, first), [])

    def test_each_statement_is_used(self) -> None:
        texts: set[str] = set()
        for seed in range(20):
            rng = random.Random(seed)
            before, after = stored.random_contents(rng, 20), stored.random_contents(rng, 20)
            if seed % 2:
                after.rows = {key: row for key, row in after.rows.items() if key[0] == LOG}
            texts.update(text for text, _ in Plan(rng, before, after).statements())
        self.assertEqual(len(texts), 9)


class ContentsCase(unittest.TestCase):
    def test_equal_ones_do_not_differ(self) -> None:
        held = stored.random_contents(random.Random(6), 20)
        self.assertEqual(
            differences(held, Contents(dict(held.relations), dict(held.rows), held.position)), []
        )

    def test_long_values_are_shortened(self) -> None:
        row = Row(b"\0\1" + cell(bytes(1000)), 1)
        (told,) = differences(Contents(rows={(1, b"\0" * 1000): row}), Contents())
        self.assertLess(len(told), 700)
        self.assertIn("copies=1", told)

    def test_a_store_is_read(self) -> None:
        with tempfile.TemporaryDirectory() as folder:
            path = Path(folder, "copy.db")
            Writer(path, random.Random(7)).make(1024)
            with contextlib.closing(sqlite3.connect(path)) as base:
                base.execute("INSERT INTO rel VALUES (7, '', 't', 102, x'0000')")
                self.assertEqual(read(base), Contents({7: Relation("", "t", 102, b"\0\0")}))


if __name__ == "__main__":
    unittest.main()
