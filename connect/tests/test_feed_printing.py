"""What `pgsub-feed` prints: an example of each operation in each format."""

from __future__ import annotations

import contextlib
import io
import json
import sys
from collections.abc import Sequence
from typing import Any
from unittest import mock

from feed_text import UNSENT, About, Column, Line

from pgsub_feed.command import main
from pgsub_feed.errors import UNFIT, USAGE
from pgsub_feed.formats.keys import index_text

from .feeds import ID, STOCK, FeedCase, delete, insert, table, truncate, update
from .vectors import logged

MANY = table(
    2,
    "many",
    [
        ID,
        Column("b", 16),
        Column("y", 17),
        Column("f", 701),
        Column("n", 1700),
        Column("t", 1184),
        Column("x", 99999),
    ],
    schema="s",
)
BEFORE = ["1", "t", "\\x00ff", "1.5", "1.50", "2026-11-26 10:00:00+00", "{1}"]
AFTER = ["2", "f", None, "NaN", None, None, "é"]
# the commit that ends at 0/25504168
ABOUT = About(0x25504100, 742, 822823200123456)
# As they are stored in a file, by what is printed for each operation.
OBJECTS = {
    "c": '{"id":"0/25504168:0","xid":742,"ts_us":1769508000123456,"op":"c","schema":"public","table":"stock","before":null,'
    '"after":{"id":1,"name":"a\\n\\"é"}}',
    "u": '{"id":"0/25504168:1","xid":742,"ts_us":1769508000123456,"op":"u","schema":"s","table":"many","before":{"id":1,"b":true,'
    '"y":"\\\\x00ff","f":1.5,"n":"1.50","t":"2026-11-26 10:00:00+00","x":"{1}"},"after":{"id":2,"b":false,"y":null,"f":"NaN","n":null,'
    '"t":null,"x":"é"}}',
    "d": '{"id":"0/25504168:2","xid":742,"ts_us":1769508000123456,"op":"d","schema":"public","table":"stock","before":{"id":1,'
    '"name":null},"after":null}',
    "t": '{"id":"0/25504168:3","xid":742,"ts_us":1769508000123456,"op":"t","schema":"public","table":"stock","before":null,"after":null}',
    "x": '{"id":"0/25504168:4","xid":742,"ts_us":1769508000123456,"op":"x","schema":"public","table":"stock","sent":"u",'
    '"old":{"id":7},"new":{"id":8}}',
}


class Terminal(io.TextIOWrapper):
    def isatty(self) -> bool:
        return True


class PrintingCase(FeedCase):
    def print(self, *words: str, status: int = 0, terminal: bool = False) -> str:
        out = io.BytesIO()
        text = Terminal(out) if terminal else io.TextIOWrapper(out)
        with mock.patch.object(sys, "stdout", text), mock.patch(
            "pgsub_feed.program.stop_by_signals"
        ):
            self.assertEqual(main(["--feed", str(self.path), *words]), status)
        text.flush()
        return out.getvalue().decode()


class Formats(PrintingCase):
    def setUp(self) -> None:
        super().setUp()
        self.feed.commit(0x100, [insert("9", "before")])
        missed = Line(STOCK, "x", ["7", None], ["8", UNSENT], "K")
        self.feed.commit(
            0x25504168,
            [
                insert("1", 'a\n"é'),
                update(BEFORE, AFTER, of=MANY),
                delete("1", None),
                truncate(),
                missed,
            ],
            ABOUT,
        )

    def test_objects(self) -> None:
        self.assertEqual(self.print("--from", "0/100").splitlines(), list(OBJECTS.values()))

    def test_lines(self) -> None:
        self.feed.end()
        self.feed.commit(0x25504200, [insert("1", "b")])
        text = b"".join(it.read_bytes()[1024:] for it in sorted(self.path.iterdir()))
        closing = next(line for line in text.splitlines() if b'"last"' in line)
        printed = self.print("--format", "lines").splitlines(keepends=True)
        told = [it for it in printed if it.startswith('{"at":')]
        self.assertEqual(
            "".join(it for it in printed if it not in told),
            text.replace(closing + b"\n", b"").decode(),
        )
        # (who reads them hasn't the segment; the second one has the same at the same offset)
        first, _, _ = text.partition(closing)
        tables = [it for it in first.splitlines(keepends=True) if it.startswith(b'{"op":"table"')]
        self.assertEqual(
            [(int(at[6:]), "{" + line) for at, _, line in (it.partition(",") for it in told)],
            [(1024 + first.index(it), it.decode()) for it in tables],
        )
        self.assertEqual(printed[0], told[0])

    def test_chosen(self) -> None:
        ops = [json.loads(line)["op"] for line in self.print("--table", "stock").splitlines()]
        self.assertEqual(ops, ["c", "c", "d", "t", "x"])
        self.assertEqual(
            [json.loads(line)["table"] for line in self.print("--table", "s.many").splitlines()],
            ["many"],
        )
        self.assertEqual(len(self.print("--to", "0/100").splitlines()), 1)

    def test_chosen_by_quoted_names(self) -> None:
        odd = table(3, 'Mixed "Case.t%', schema="s2")
        self.feed.commit(0x25504200, [insert("1", "a", of=odd)])
        for name in ('s2."Mixed ""Case.t%"', '"s2"."Mixed ""Case.t%"', 's2.Mixed "Case.t%'):
            with self.subTest(name):
                found = self.print("--from", "0/25504168", "--table", name).splitlines()
                self.assertEqual([json.loads(line)["table"] for line in found], [odd.table])
        self.assertEqual(len(self.print("--to", "0/100", "--table", '"stock"').splitlines()), 1)

    def test_names_that_no_table_has(self) -> None:
        several: list[list[str]] = [[], ["--format", "debezium"], ["--to", "0/100"]]
        for words in several:
            with logged() as told:
                self.print("--from", "0/0", "--table", "stock", "--table", "Stock", *words)
            self.assertRegex(
                told[-1], "warning: --table Stock: no commit has changed such a table so far"
            )
        with logged() as told:
            self.assertEqual(
                self.print("--undo", "0/0", "0/100", "--table", "stoc", status=UNFIT), ""
            )
        self.assertRegex(told[0], "--table stoc: no commit after 0/0 up to 0/100 has such a table")

    def test_control_characters(self) -> None:
        """What JSON leaves as it is, and terminals take for commands."""
        self.feed.commit(0x25504200, [insert("1", "\x1b[1m\x7f\x80\x9b1m\x9f\xa0")])
        for form in ("objects", "debezium", "bulk"):
            text = self.print("--from", "0/25504168", "--format", form)
            self.assertIn(r'"\u001b[1m\u007f\u0080\u009b1m\u009f' + "\xa0", text)
            self.assertEqual(
                json.loads(text.splitlines()[-1])["name" if form == "bulk" else "after"],
                (
                    "\x1b[1m\x7f\x80\x9b1m\x9f\xa0"
                    if form == "bulk"
                    else {"id": 1, "name": "\x1b[1m\x7f\x80\x9b1m\x9f\xa0"}
                ),
            )

    def test_control_characters_of_lines(self) -> None:
        """The feed's own lines are as they are, but on a terminal."""
        self.feed.commit(0x25504200, [insert("1", "\x9b1m\x7f")])
        words = ("--from", "0/25504168", "--format", "lines")
        plain = self.print(*words)
        self.assertIn('"\x9b1m\x7f"', plain)
        self.assertEqual(
            self.print(*words, terminal=True),
            plain.replace("\x9b", r"\u009b").replace("\x7f", r"\u007f"),
        )

    def test_an_lsn_that_no_commit_ends_at(self) -> None:
        with logged():
            self.assertEqual(self.print("--from", "0/101", status=UNFIT), "")

    def test_words(self) -> None:
        for words in (
            ["--undo", "0/0", "0/1", "--follow"],
            ["--undo", "0/0", "0/1", "--from", "0/0"],
            ["--format", "lines", "--table", "t"],
            ["--from", "x"],
            ["--truncated", "0/5"],
            ["--format", "objects", "--truncated", "0/5"],
        ):
            with self.assertRaises(SystemExit) as ended, contextlib.redirect_stderr(io.StringIO()):
                self.print(*words)
            self.assertEqual(ended.exception.code, USAGE)

    def test_values_of_another_type(self) -> None:
        self.feed.commit(
            0x25504200, [delete("one", "b"), insert(b"\0\0\0\1", "x"), insert(b"\0", "x")]
        )
        found = [json.loads(it) for it in self.print("--from", "0/25504168").splitlines()]
        self.assertEqual(found[0]["before"], {"id": "one", "name": "b"})
        self.assertEqual([it["after"]["id"] for it in found[1:]], [1, "\\x00"])


class BulkLines(PrintingCase):
    def bulk(self, *lines: Line, words: Sequence[str] = (), status: int = 0) -> list[Any]:
        """What is printed of one more commit, at 0/200."""
        self.feed.commit(0x100)
        self.feed.commit(0x200, lines)
        return [
            json.loads(it)
            for it in self.print(
                "--from", "0/100", "--format", "bulk", *words, status=status
            ).splitlines()
        ]

    def about(self, id: str, index: str = "stock") -> dict[str, Any]:
        return {"_index": index, "_id": id, "version": 0x200, "version_type": "external"}

    def test_each(self) -> None:
        found = self.bulk(
            insert("1", 'a"'),
            update(["2", "a"], ["3", None]),
            delete("4", "x"),
            update(BEFORE, ["1", *AFTER[1:]], of=MANY),
        )
        self.assertEqual(
            found,
            [
                {"index": self.about("1")},
                {"id": 1, "name": 'a"'},
                {"delete": self.about("2")},
                {"index": self.about("3")},
                {"id": 3, "name": None},
                {"delete": self.about("4")},
                {"index": self.about("1", "s.many")},
                {"id": 1, "b": False, "y": None, "f": "NaN", "n": None, "t": None, "x": "é"},
            ],
        )

    def test_what_a_commit_leaves(self) -> None:
        found = self.bulk(
            insert("1", "a"),
            update(["1", "a"], ["1", "b"]),
            insert("2", "c"),
            delete("2", "c"),
            update(["5", "x"], ["6", "x"]),
            update(["6", "x"], ["5", "y"]),
            delete("7", "z"),
            insert("7", "w"),
        )
        self.assertEqual(
            found,
            [
                {"index": self.about("1")},
                {"id": 1, "name": "b"},
                {"delete": self.about("2")},
                {"delete": self.about("6")},
                {"index": self.about("5")},
                {"id": 5, "name": "y"},
                {"index": self.about("7")},
                {"id": 7, "name": "w"},
            ],
        )

    def test_names(self) -> None:
        two = table(4, "_Ab.c*", [Column("k", 25, -1, True), Column("l", 25, -1, True)], schema="")
        self.assertEqual(
            self.bulk(delete("a:b", "%", of=two)),
            [{"delete": self.about("a%3Ab:%25", "pg_catalog._%41b%2ec%2a")}],
        )
        self.assertEqual(index_text("public", "_Ab"), "%5f%41b")
        with logged() as told:
            self.feed.commit(
                0x300, [insert("x" * 513, of=table(columns=[Column("k", 25, -1, True)]))]
            )
            self.assertEqual(self.print("--from", "0/200", "--format", "bulk", status=UNFIT), "")
        self.assertRegex(told[0], "0/300: public.stock .* has a key of more than 512 bytes")

    def test_what_has_no_documents(self) -> None:
        bag = table(3, "bag", letter="f")
        with logged() as told:
            self.assertEqual(
                self.bulk(
                    insert("1", "a", of=bag),
                    insert("1", "a", of=bag),
                    Line(STOCK, "x", ["7", None], None, "K"),
                ),
                [],
            )
        self.assertRegex(
            told[0], r"public.bag \(3\) has no key, so its rows are no documents and are left out"
        )
        self.assertRegex(told[1], "a change that found no row is left out")
        self.assertEqual(len(told), 2)

    def test_truncated(self) -> None:
        with logged() as told:
            self.assertEqual(
                self.bulk(insert("1", "a"), truncate(), insert("2", "b"), status=UNFIT), []
            )
        self.assertRegex(
            told[0],
            "delete all documents of the index stock, and go on with --from 0/100 --truncated 0/200",
        )
        found = self.print(
            "--from", "0/100", "--format", "bulk", "--truncated", "0/200"
        ).splitlines()
        self.assertEqual(
            [json.loads(it) for it in found], [{"index": self.about("2")}, {"id": 2, "name": "b"}]
        )

    def test_versions(self) -> None:
        self.feed.commit(1 << 63, [insert("1", "a")])
        with logged() as told:
            self.print("--format", "bulk", status=UNFIT)
        self.assertRegex(told[0], "80000000/0: the LSN is above the greatest version")
