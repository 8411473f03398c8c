"""The definitions that a clause stands on."""

import re
import shutil
import subprocess
import sys
import tempfile
import unittest
from pathlib import Path

SCRIPT = Path(__file__).resolve().parent.parent / "statement"
FILES = {
    "crates/low/src/lib.rt": """ghost use Rattle.low.specs.Calls.{Follows};

pub fn follow(sessions: &[u8]) -> u8
    ensures safe { Follows sessions.now result }
{
    0
}
""",
    "crates/low/specs/Calls.antt": """use Rattle.low.specs.Server.Rows.{Row}

-- what following leaves
abbrev pub Follows : ℕ → ℕ → Type 0
Follows sessions result = IsLeft sessions × Row

-- a place and what has come to it
pub record Place : Type 0 where
  pub sessions : ℕ

abbrev pub IsLeft : ℕ → Type 0
IsLeft sessions = sessions ≡ 0

abbrev pub place_of : ℕ → Place
place_of n = record { sessions = n }
""",
    "crates/low/specs/Server/Rows.antt": """pub record Row : Type 0 where
  pub copies : ℕ

abbrev pub unused : ℕ
unused = 0
""",
}


class Tree(unittest.TestCase):
    """A repository with one crate."""

    def setUp(self) -> None:
        room = tempfile.TemporaryDirectory()
        self.addCleanup(room.cleanup)
        self.top = Path(room.name)
        for name, text in FILES.items():
            self.write(name, text)
        (self.top / "tools").mkdir()
        shutil.copy(SCRIPT, self.top / "tools/statement")
        for package in ("statements", "documents"):
            shutil.copytree(SCRIPT.parent / package, self.top / "tools" / package)

    def write(self, name: str, text: str) -> None:
        file = self.top / name
        file.parent.mkdir(parents=True, exist_ok=True)
        file.write_text(text, encoding="utf-8")

    def printed(self, *options: str, clause: str = "low::follow.safe") -> str:
        words = [sys.executable, str(self.top / "tools/statement"), "--clause", clause, *options]
        return subprocess.run(words, capture_output=True, text=True, check=True, timeout=30).stdout


class Found(Tree):
    """What a clause stands on."""

    def stands_on(self) -> list[str]:
        return self.printed().splitlines()[:-1]

    def test_definitions_are_found_in_folders_and_lines_counted(self) -> None:
        self.assertEqual(
            self.stands_on(),
            [
                "low.specs.Calls: 2 definitions, 4 lines",
                "low.specs.Server.Rows: 1 definitions, 2 lines",
                "3 definitions, 6 lines, 2 modules",
            ],
        )

    def test_a_clause_may_make_a_record_of_several_fields(self) -> None:
        clause = "    ensures kept { Follows (record { store = 0; ledger = { 1 } }) result }\n    ensures safe { Row }\n"
        self.write(
            "crates/low/src/keeping.rt",
            f"use Rattle.low.specs.Calls.{{Follows}};\n\npub fn keep(a: u8) -> u8\n{clause}{{\n    0\n}}\n",
        )
        self.assertEqual(self.printed(clause="low::keep.kept"), self.printed())

    def test_a_record_that_is_made_counts(self) -> None:
        calls = FILES["crates/low/specs/Calls.antt"].replace(
            "IsLeft sessions = sessions ≡ 0", "IsLeft sessions = place_of sessions ≡ place_of 0"
        )
        self.write("crates/low/specs/Calls.antt", calls)
        self.assertIn("low.specs.Calls: 4 definitions, 8 lines", self.stands_on())

    def test_nested_modules_are_read_and_their_heads_belong_to_what_is_in_them(self) -> None:
        calls = FILES["crates/low/specs/Calls.antt"].replace(
            "IsLeft sessions × Row", "Within sessions × ℕ"
        )
        nested = """
module _ {C : Type 0}
    (row : C → Row) where
  abbrev pub Around : C → Type 0
  Around c = row c ≡ row c

  module _ (place : C → Place) where
    -- named only from outside
    abbrev pub Within : ℕ → Type 0
    Within n = n ≡ 0

abbrev pub After : Type 0
After = Unit
"""
        self.write("crates/low/specs/Calls.antt", calls + nested)
        self.assertEqual(
            self.stands_on(),
            [
                "low.specs.Calls: 3 definitions, 6 lines",
                "low.specs.Server.Rows: 1 definitions, 2 lines",
                "4 definitions, 8 lines, 2 modules",
            ],
        )
        heads = (
            "module _ {C : Type 0}\n    (row : C → Row) where\nmodule _ (place : C → Place) where\n"
        )
        self.assertIn(
            f"-- named only from outside\n{heads}abbrev pub Within : ℕ → Type 0\nWithin n = n ≡ 0\n",
            self.printed("--text"),
        )

    def test_of_several_clauses_each_is_counted(self) -> None:
        more = "\n/// A law.\npub fn law()\n    ensures { Row }\n{}\n"
        self.write(
            "crates/low/src/laws.rt", "ghost use Rattle.low.specs.Server.Rows.{Row};\n" + more
        )
        lines = self.printed("--clause", "low::law.ensures").splitlines()
        self.assertIn("low::follow.safe: 3 definitions, 6 lines", lines)
        self.assertIn("low::law.ensures: 1 definitions, 2 lines", lines)
        self.assertIn("3 definitions, 6 lines, 2 modules", lines)

    def test_a_clause_that_is_not_there_is_named(self) -> None:
        words = [sys.executable, str(self.top / "tools/statement"), "--clause", "low::follow.gone"]
        ran = subprocess.run(words, capture_output=True, text=True, check=False, timeout=30)
        self.assertEqual(
            (ran.returncode, ran.stderr), (1, "statement: there is no clause low::follow.gone\n")
        )


class PassedOn(Tree):
    """The module that passes on each name."""

    def test_names_come_with_their_modules_in_reading_order(self) -> None:
        rows = FILES["crates/low/specs/Server/Rows.antt"] + "\nabbrev pub IsLeft : ℕ\nIsLeft = 1\n"
        rows += "\nunfoldable pub copies_of : Row → ℕ\ncopies_of row = row.copies\n"
        self.write("crates/low/specs/Server/Rows.antt", rows)
        calls = "use Rattle.low.specs.Server.Rows.{Row, IsLeft as NoneIsLeft, copies_of}\n\n"
        calls += "abbrev pub IsLeft : ℕ → Type 0\nIsLeft n = n ≡ NoneIsLeft\n\n"
        calls += "abbrev pub Follows : ℕ → Row → Type 0\nFollows n row = IsLeft (copies_of row)\n"
        self.write("crates/low/specs/Calls.antt", calls)
        lines = self.printed("--names").splitlines()
        self.assertIn("--   low::follow.safe", lines)
        self.assertEqual(
            [it for it in lines if not it.startswith("--")],
            [
                "pub use Rattle.low.specs.Server.Rows.{IsLeft, Row}",
                "unfoldable pub use Rattle.low.specs.Server.Rows.{copies_of}",
                "pub use Rattle.low.specs.Calls.{IsLeft as IsLeft_of_low, Follows}",
            ],
        )

    def test_long_lines_are_split(self) -> None:
        rows = "".join(f"\nabbrev pub is_left_{n} : ℕ\nis_left_{n} = {n}\n" for n in range(9))
        self.write("crates/low/specs/Server/Rows.antt", rows)
        names = [f"is_left_{n}" for n in range(9)]
        calls = f"use Rattle.low.specs.Server.Rows.{{{', '.join(names)}}}\n\n"
        calls += f"abbrev pub Follows : ℕ\nFollows = {' + '.join(names)}\n"
        self.write("crates/low/specs/Calls.antt", calls)
        uses = [it for it in self.printed("--names").splitlines() if it.startswith("pub use")]
        self.assertEqual(len(uses), 3)
        self.assertLessEqual(max(map(len, uses)), 100)
        self.assertEqual(re.findall(r"is_left_\d", "".join(uses)), names)


PROOFS = """## The theorem

It is the clause `safe` of `low::follow`:

> Whatever `follow` returns, the row stays.

Nothing else. By the law `rows_stay` rows stay, which is no script: <b>.
"""


class Pages(Tree):
    """The page for an auditor."""

    def setUp(self) -> None:
        super().setUp()
        self.write("docs/PROOFS.md", PROOFS)
        sections = "- Streaming: [Streaming Protocol](https://postgres.example/streaming)\n\n*Streaming. `low/Calls`.*\n"
        self.write("docs/PROTOCOL.md", sections)
        self.write("KITS", "# kits\nkit-1\n")
        law = "ghost use Rattle.low.specs.Calls.{IsLeft};\n\npub fn rows_stay()\n    ensures { IsLeft 0 }\n{}\n"
        self.write("crates/low/src/laws.rt", law)
        cases = "-- Worked cases.\nuse Rattle.low.specs.Calls.{IsLeft}\n\n-- nothing is left\nnone_left : IsLeft 0\nnone_left = refl\n"
        self.write("crates/low/proofs/CallRows.antt", cases)

    def page(self) -> str:
        file = self.top / "page.html"
        self.printed("--html", str(file))
        return file.read_text(encoding="utf-8")

    def test_a_sentence_stands_beside_the_clause_that_it_names(self) -> None:
        claims = self.page().split('<div class="claim">')
        self.assertIn("low::follow.safe", claims[1])
        self.assertIn("the row stays", claims[2])
        self.assertIn("as above", claims[2])
        self.assertIn("names no clause", claims[3])
        self.assertIn("low::rows_stay.ensures", claims[4])
        self.assertIn("no script: &lt;b&gt;.", claims[4])

    def test_each_name_is_a_link_that_leads_somewhere(self) -> None:
        page = self.page()
        goals = set(re.findall(r'href="#([^"]+)"', page))
        self.assertLessEqual(goals, set(re.findall(r' id="([^"]+)"', page)))
        self.assertIn("d-low.specs.Calls-IsLeft", goals)
        self.assertIn("d-low.specs.Server.Rows-Row", goals)
        self.assertNotIn("<script", page)

    def test_a_definition_names_its_section_and_its_examples(self) -> None:
        page = self.page()
        self.assertIn('<a href="https://postgres.example/streaming">Streaming Protocol</a>', page)
        self.assertIn('<a href="#e-low.proofs.CallRows-none_left">none_left</a>', page)
        self.assertIn("-- nothing is left", page)
        self.assertNotIn("= refl", page)

    def crates_promise(self, text: str) -> str:
        self.write("docs/PROOFS.md", f"## What each crate promises\n\n{text}\n")
        return self.page()

    def test_an_item_that_names_a_function_names_its_whole_contract(self) -> None:
        lib = FILES["crates/low/src/lib.rt"].replace(
            "    ensures safe", "    ensures same { IsLeft result }\n    ensures safe"
        )
        self.write("crates/low/src/lib.rt", lib)
        page = self.crates_promise("- `low`: `follow` leaves the row.\n- `low`: so it is (`safe`).")
        whole, part = page.split('<div class="claim">')[1:]
        self.assertIn("low::follow.same", whole)
        self.assertIn("low::follow.safe", whole)
        self.assertNotIn("low::follow.same", part)

    def test_the_head_of_a_table_says_nothing_and_what_is_open_claims_nothing(self) -> None:
        table = "| Command | Call |\n|---|---|\n| `same` | `follow`: `safe` |"
        claims = self.crates_promise(f"{table}\n\nOpen: the rest.").split('<div class="claim">')
        self.assertEqual(len(claims), 3)
        self.assertIn("low::follow.safe", claims[1])
        self.assertIn("not claimed", claims[2])

    def test_a_function_without_clauses_has_none_of_the_next_one(self) -> None:
        lib = "pub fn cause() -> u8 {\n    0\n}\n\n" + FILES["crates/low/src/lib.rt"]
        self.write("crates/low/src/lib.rt", lib)
        self.assertIn("names no clause", self.crates_promise("- `low`: `cause` is known."))


if __name__ == "__main__":
    unittest.main()
