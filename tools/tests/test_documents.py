"""Documents are compared with a tree."""

import tempfile
import unittest
from pathlib import Path

from documents import checks, texts

TREE = {
    "README.md": "See [the map](docs/MAP.md#the-parts) and `crates/low/src/lib.rt`.\n",
    "docs/MAP.md": "# Map\n\n## The *parts*\n",
    "crates/low/src/lib.rt": "",
    "crates/low/specs/Texts.antt": "",
    "crates/pgcommand/src/commands.rt": '.long("proto")',
    "tools/look": "import looking\n",
    "tools/looking.py": 'add("--deep")',
}


class Made(unittest.TestCase):
    def setUp(self) -> None:
        room = tempfile.TemporaryDirectory()
        self.addCleanup(room.cleanup)
        self.top = Path(room.name)
        for name, text in TREE.items():
            self.write(name, text)

    def write(self, name: str, text: str) -> None:
        file = self.top / name
        file.parent.mkdir(parents=True, exist_ok=True)
        file.write_text(text)

    def wrong(self, check: str, text: str) -> list[str]:
        self.write("docs/PAGE.md", text)
        found = getattr(checks, check)(checks.Tree(self.top), "docs/PAGE.md")
        return [it.partition(": ")[2] for it in found]


class Links(Made):
    def test_links_that_are_there(self) -> None:
        self.assertEqual(
            self.wrong(
                "check_links",
                "[a](MAP.md) [b](../README.md) [c](#page) [d](https://x.y/z) `[e](no)`\n\n# Page\n",
            ),
            [],
        )

    def test_links_that_are_not(self) -> None:
        self.assertEqual(
            self.wrong("check_links", "[a](NO.md)"), ["link NO.md: there is no docs/NO.md"]
        )
        self.assertEqual(
            self.wrong("check_links", "[a](MAP.md#no)"),
            ["link MAP.md#no: docs/MAP.md has no heading #no"],
        )
        self.assertEqual(
            self.wrong("check_links", '<img src="no.svg">'),
            ["link no.svg: there is no docs/no.svg"],
        )


class Paths(Made):
    def test_paths_that_are_there(self) -> None:
        text = "`crates/low/src/lib.rt` docs/MAP.md `low/Texts` `low/src/` `crates/NAME/src/*.rt` `lib.rt` specs/Texts.antt README.md."
        self.assertEqual(self.wrong("check_paths", text), [])

    def test_what_is_no_path(self) -> None:
        self.assertEqual(
            self.wrong(
                "check_paths",
                "0/130 and/or `copy.db` https://a.b/docs/no.md 16/B374D848 `crates/low/out/x`\n\n```\n$ cp copy.db rows.db\n```",
            ),
            [],
        )

    def test_paths_that_are_not(self) -> None:
        for path in (
            "crates/low/src/no.rt",
            "docs/NO.md",
            "low/No",
            "no.rt",
            "specs/No.antt",
            "tools/no",
        ):
            with self.subTest(path=path):
                self.assertEqual(
                    self.wrong("check_paths", f"see `{path}`"), [f"there is no {path}"]
                )
                self.assertEqual(
                    self.wrong("check_paths", f"```\n$ ./look {path}\n```"), [f"there is no {path}"]
                )


class Options(Made):
    def test_options_that_are_there(self) -> None:
        self.assertEqual(
            self.wrong(
                "check_options",
                "`pgsub apply --proto 1` `tools/look --deep` with `--deep`\n\n```\n$ ./pgsub show --proto 1 f\n```\n`rt ci --anew`",
            ),
            [],
        )

    def test_options_that_are_not(self) -> None:
        self.assertEqual(
            self.wrong("check_options", "`pgsub apply --deep x`"), ["pgsub has an option --deep"]
        )
        self.assertEqual(
            self.wrong("check_options", "`tools/look --proto`"),
            ["tools/look has an option --proto"],
        )
        self.assertEqual(
            self.wrong("check_options", "the option `--none`"), ["--none has an option --none"]
        )


class Files(Made):
    def test_what_other_programs_leave(self) -> None:
        self.write(".pytest_cache/README.md", "[a](NO.md)")
        self.write("connect/tests/.hypothesis/README.md", "[a](NO.md)")
        self.write(".ci/README.md", "")
        self.assertEqual(
            sorted(checks.Tree(self.top).documents()), [".ci/README.md", "README.md", "docs/MAP.md"]
        )


class Groups(Made):
    def groups_wrong(self, text: str) -> list[str]:
        self.write(
            "crates.txt",
            "# The crates.\n\n# wire: bytes\nlow: std\nhigh staticlib: low\n\n# tests: of others\ntests_low: low\ntrial: low\n",
        )
        self.write("docs/ARCHITECTURE.md", text)
        return checks.check_groups(checks.Tree(self.top))

    def test_the_same(self) -> None:
        self.assertEqual(
            self.groups_wrong(
                "- **Wire**: `low` (bytes), `high` (the trait `Reader`).\n- **Tests**: `tests_..` and `trial`.\n"
            ),
            [],
        )

    def test_others(self) -> None:
        tests = "- **Tests**: `trial`.\n"
        for first in (
            "- **Wire**: `low`.\n",
            "- **Wire**: `high`, `low`.\n",
            "",
            "- **Wire**: `low`, `high`, `trial`.\n",
        ):
            self.assertEqual(len(self.groups_wrong(first + tests)), 1, first)
        self.assertEqual(len(self.groups_wrong(tests + "- **Wire**: `low`, `high`.\n")), 1)


class Told(Made):
    """Each command of the connector, and each scheme of a sink."""

    def told_wrong(self, readme: str, feed: str) -> list[str]:
        for name in ("__init__", "follow", "wait"):
            self.write(f"connect/pgsub_connect/commands/{name}.py", "")
        schemes = 'SCHEMES = {\n    **dict.fromkeys(("redis", "rediss"), "redis"),\n    "kafka": "kafka",\n}\n'
        self.write("connect/pgsub_feed/sinks/urls.py", schemes)
        self.write("README.md", readme)
        self.write("docs/FEED.md", feed)
        return checks.check_told(checks.Tree(self.top))

    def test_all(self) -> None:
        schemes = "redis://, rediss://, kafka://"
        self.assertEqual(self.told_wrong("`pgsub-connect follow`", f"`wait`; {schemes}"), [])

    def test_some(self) -> None:
        found = self.told_wrong("pgsub-connect following", "`wait`, rediss://, kafka://h")
        expected = ["no document has pgsub-connect follow", "docs/FEED.md hasn't redis://"]
        self.assertEqual(sorted(set(found)), sorted(expected))


class FirstScreen(Made):
    """What README says of itself first, and of its files."""

    TEXT = """# Name

Copies PostgreSQL tables to SQLite, Redis and NATS, and verifies them.
By `pgsub-connect`, and `pgsub`, which is proved.

## Can I trust it?

**Proved** of `pgsub`, so of `copy.db` and the feed:

**Assumed**: the server and the disk are right; the toolchain too.
**Only tested**: `pgsub-connect`, `rows.db` and sinks. It is type theory.
"""

    def first_wrong(self, old: str, new: str) -> list[str]:
        self.write("README.md", self.TEXT.replace(old, new))
        return checks.check_first_screen(checks.Tree(self.top))

    def test_all(self) -> None:
        self.assertEqual(self.first_wrong("", ""), [])

    def test_what_is_left_out(self) -> None:
        for old, told in (
            ("SQLite, ", "its first paragraph hasn't SQLite"),
            ("By `pgsub-connect`", "its first paragraph hasn't `pgsub-connect`"),
            ("`copy.db` and ", "what is **Proved** hasn't `copy.db`"),
            ("`rows.db` and ", "what is **Only tested** hasn't `rows.db`"),
            ("type theory", "the logic"),
        ):
            (found,) = self.first_wrong(old, "")
            self.assertIn(told, found)


# prints that a statement has one module
STATEMENT = """#!/bin/sh
echo "low.specs.Texts: 1 definitions, 2 lines"
echo "1 definitions, 2 lines, 1 modules"
"""


class Statement(Made):
    def statement_wrong(self, text: str, elsewhere: str = "") -> list[str]:
        self.write("tools/statement", STATEMENT)
        (self.top / "tools/statement").chmod(0o755)
        self.write("crates/low/specs/Parts/Old.antt", "")
        self.write(
            "docs/PROOFS.md", f"## Reading the statement\n\n{text}\n\n## Open\n\n{elsewhere}\n"
        )
        return checks.check_statement(checks.Tree(self.top))

    def test_the_same(self) -> None:
        text = "1 definitions in 2 lines, `low/Texts` (`low/proofs/Old.antt`, and/or `low/src`)."
        self.assertEqual(self.statement_wrong(text, "`low/Parts/Old`"), [])

    def test_others(self) -> None:
        count = "1 definitions in 2 lines"
        self.assertEqual(
            self.statement_wrong(count, "`low/Texts`"), ["docs/PROOFS.md doesn't name low/Texts"]
        )
        told = ["docs/PROOFS.md names low/Parts/Old, on which none of its clauses stands"]
        self.assertEqual(self.statement_wrong(f"{count}, `low/Texts`, `low/Parts/Old`."), told)
        told = ["docs/PROOFS.md doesn't say that the theorem stands on 1 definitions, 2 lines"]
        self.assertEqual(self.statement_wrong("2 definitions in 2 lines, `low/Texts`"), told)


class Words(unittest.TestCase):
    def test_the_shares_fit_the_whole(self) -> None:
        self.assertLessEqual(
            sum(share for file, share in checks.SHARES.items() if file.startswith("docs/")),
            checks.WHOLE,
        )

    def test_words_are_those_of_wc(self) -> None:
        self.assertEqual(texts.words_of("one  two\n| three-four |\n\u00a0".encode()), 6)

    def test_anchors_are_those_of_forges(self) -> None:
        self.assertEqual(
            texts.anchors_of(
                "# What a *well-formed* server is\n## `a` b\n## `a` b\n```\n# no\n```\n"
            ),
            {"what-a-well-formed-server-is", "a-b", "a-b-1"},
        )


if __name__ == "__main__":
    unittest.main()
