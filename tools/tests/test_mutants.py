"""Which function a mutant changes, which mutants stand side by side, what refuses them, and what is
known of those that were refused."""

import os
import tempfile
import types
import unittest
from pathlib import Path
from typing import Any
from unittest import mock

from .scripts import loaded

mutants = loaded("mutants")

TEXT = """//! A module.

/// A free function.
pub fn free(count: usize) -> usize {
    count + 1
}

impl<T: Drop> Held<T> {
    pub fn push(&mut self) {
        self.count += 2;
    }
}

impl<T: Drop> Store for Held<T>
where
    T: Copy,
{
    fn push(&mut self) {
        free(3);
    }
}
"""


def end_of_name(word: str) -> set[str]:
    crate = types.SimpleNamespace(name="pgheld")
    found: set[str] = mutants.end_of_name_at(crate, "src/parts/held.rt", TEXT, TEXT.index(word))
    return found


class Names(unittest.TestCase):
    def test_a_free_function_has_its_whole_path(self) -> None:
        self.assertEqual(end_of_name("count + 1"), {"pgheld::parts::held::free"})

    def test_a_method_has_its_type_and_the_trait_of_its_impl(self) -> None:
        self.assertEqual(end_of_name("self.count += 2"), {"Held::push"})
        self.assertEqual(end_of_name("free(3)"), {"HeldStore::push"})

    def test_what_stands_in_no_function_has_no_name(self) -> None:
        self.assertEqual(end_of_name("A module"), set())


class Groups(unittest.TestCase):
    def mutant(self, name: str, start: int) -> Any:
        made = mutants.Mutant.__new__(mutants.Mutant)
        made.names, made.places, made.clauses = {name}, [("src/held.rt", start, 4, "new")], set()
        return made

    def test_a_caller_and_its_callee_are_tried_apart(self) -> None:
        caller, callee = self.mutant("pgheld::all", 10), self.mutant("pgheld::one", 90)
        self.assertFalse(caller.is_apart_from(callee, {"all": {"one"}}))
        self.assertTrue(caller.is_apart_from(callee, {"all": {"other"}}))

    def test_a_caller_and_its_callee_stand_beside_each_other(self) -> None:
        caller, callee = self.mutant("pgheld::all", 10), self.mutant("pgheld::one", 90)
        self.assertTrue(caller.is_beside(callee))
        self.assertEqual(
            mutants.grouped([caller, callee], lambda it, other: it.is_beside(other), 2),
            [[caller, callee]],
        )
        self.assertEqual(
            mutants.grouped([caller, callee], lambda it, other: it.is_beside(other), 1),
            [[caller], [callee]],
        )

    def test_namesakes_are_tried_at_once_and_one_function_is_not(self) -> None:
        self.assertTrue(
            self.mutant("Held::push", 10).is_apart_from(self.mutant("HeldStore::push", 90), {})
        )
        self.assertFalse(
            self.mutant("Held::push", 10).is_apart_from(self.mutant("Held::push", 90), {})
        )

    def test_places_that_overlap_are_tried_apart(self) -> None:
        self.assertFalse(self.mutant("a", 10).is_apart_from(self.mutant("b", 13), {}))

    def test_a_function_that_loses_clauses_is_tried_apart_from_its_callers(self) -> None:
        caller, callee, namesake = (
            self.mutant("Held::all", 10),
            self.mutant("pgheld::one", 90),
            self.mutant("pgheld::all", 170),
        )
        calls = {"all": {"one"}, "one": set()}
        self.assertTrue(caller.leaves_clauses(callee, calls))
        caller.clauses = {"made", "own"}
        self.assertTrue(caller.leaves_clauses(callee, calls))
        self.assertFalse(caller.leaves_clauses(namesake, calls))
        callee.clauses = {"made", "own"}
        self.assertFalse(caller.leaves_clauses(callee, calls))
        self.assertFalse(callee.leaves_clauses(caller, calls))


class Refusals(unittest.TestCase):
    """A check of `push` of `Held` and of `free`, which it calls."""

    def refusal(self, name: str, *said: str) -> str:
        run = mutants.Run.__new__(mutants.Run)
        run.crate = types.SimpleNamespace(name="pgheld", folder="no folder")
        run.texts, run.said = {"src/parts/held.rt": TEXT}, "\n".join(said)
        run.lines = dict(mutants.re.findall(r"^fn (\S+): (.*)", run.said, mutants.re.M))
        run.has_ended, run.is_unreadable = True, False
        mutant = mutants.Mutant.__new__(mutants.Mutant)
        mutant.names = {name}
        refusal: str = run.refusal_of(mutant)
        return refusal

    WAITS = "fn pgheld::parts::held::Held::push: not proved; it calls `pgheld::parts::held::free`, which is not proved"
    CALLEE = "fn pgheld::parts::held::free: no proof: expected answers"

    def test_a_function_whose_proof_alone_is_gone_does_not_refuse_its_mutant(self) -> None:
        self.assertEqual(self.refusal("pgheld::parts::held::free", self.CALLEE, self.WAITS), "")

    def test_a_callee_that_is_not_proved_says_nothing(self) -> None:
        self.assertEqual(self.refusal("Held::push", self.CALLEE, self.WAITS), "")

    def test_an_open_goal_of_its_own_refuses_a_caller(self) -> None:
        goal = "note: src/parts/held.rt:10:9: it is not proved that the sum fits"
        self.assertIn("the sum fits", self.refusal("Held::push", self.CALLEE, goal, self.WAITS))
        self.assertIn(
            "the sum fits",
            self.refusal("pgheld::parts::held::Held::push", self.CALLEE, goal, self.WAITS),
        )
        self.assertEqual(self.refusal("HeldStore::push", self.CALLEE, goal, self.WAITS), "")

    def test_a_wrong_answer_of_its_own_refuses_a_caller(self) -> None:
        wrong = (
            "./proofs/parts/held/Held/push/Answers.antt:3:5: error: `returns`: the two types differ"
        )
        self.assertIn("differ", self.refusal("Held::push", self.CALLEE, wrong, self.WAITS))
        self.assertEqual(self.refusal("HeldStore::push", self.CALLEE, wrong, self.WAITS), "")

    def test_an_answer_that_cites_a_name_that_is_gone_says_nothing(self) -> None:
        for why in (
            "`returns`: record `Lts.View.In-After` has no field `settle` (nearest: `set`)",
            "`goal.returns`: module `Goals`\n  has no `returns-clause-made` that can be named from here",
        ):
            wrong = f"./proofs/parts/held/Held/push/Answers.antt:3:5: error: {why}"
            self.assertEqual(self.refusal("Held::push", self.CALLEE, wrong, self.WAITS), "")

    def test_an_answer_that_rests_on_the_callee_says_nothing(self) -> None:
        wrong = "./proofs/parts/held/Held/push/Answers.antt:3:5: error: `returns`: `free_spec` was not admitted"
        self.assertEqual(self.refusal("Held::push", self.CALLEE, wrong, self.WAITS), "")


class Files(unittest.TestCase):
    def test_a_mutant_tells_its_clauses(self) -> None:
        file = Path(self.enterContext(tempfile.TemporaryDirectory()), "a.edit")
        file.write_text("clauses: made own\nfile: src/a.rt\nold: x\nnew: y\n", encoding="utf-8")
        self.assertEqual(mutants.clauses_in(file), {"made", "own"})
        self.assertEqual(mutants.pairs_in(file), [("src/a.rt", "x", "y")])

    def test_clauses_that_a_function_has_not_are_no_ones(self) -> None:
        folder = Path(self.enterContext(tempfile.TemporaryDirectory()))
        (folder / "src").mkdir()
        (folder / "src/a.rt").write_text(
            "fn a(b: u8) -> u8\n    ensures made { b ≡ b }\n    ensures own { b ≡ b }\n{\n    b\n}\n",
            encoding="utf-8",
        )
        pairs = [("src/a.rt", "    b\n", "    c\n")]
        for clauses, why in (
            (set(), "^$"),
            ({"made", "own"}, "^$"),
            ({"made", "kept"}, "ensures no kept$"),
            ({"own"}, "one clause of several"),
        ):
            self.assertRegex(mutants.wrong_clauses(folder, pairs, clauses), why)

    def test_those_that_a_killed_gate_has_hidden_are_found(self) -> None:
        folder = Path(self.enterContext(tempfile.TemporaryDirectory()))
        for name in (
            "mutants/c.edit",
            "must-fail/a.edit",
            "mutants/must-fail/b.edit",
            "mutants/must-fail/b.md",
        ):
            (folder / name).parent.mkdir(parents=True, exist_ok=True)
            (folder / name).touch()
        self.assertEqual([it.name for it in mutants.files_of_gate(folder)], ["a.edit", "b.edit"])
        self.assertEqual(
            [it.name for it in mutants.files_of_mutants(folder)], ["a.edit", "b.edit", "c.edit"]
        )


class Control(unittest.TestCase):
    """The copies without the changes, of a crate with mutants of two functions and of a
    definition."""

    def failed(self, **ran: Any) -> tuple[int, list[str]]:
        made: list[Any] = []
        for name in ("Held::push", "pgheld::free", ""):
            mutant = mutants.Mutant.__new__(mutants.Mutant)
            mutant.names, mutant.places, mutant.clauses, mutant.why = (
                {name} - {""},
                [("src/held.rt", 10 * len(made), 4, "")],
                set(),
                "",
            )
            mutant.label = name or "definition"
            made.append(mutant)
        crate = types.SimpleNamespace(name="pgheld", folder="no folder")
        trial = mutants.GateTrial(None, crate, types.SimpleNamespace(beside=None), "")
        check = types.SimpleNamespace(
            **{"has_ended": True, "is_unreadable": False, "refusal_of": lambda mutant: "", **ran}
        )
        with mock.patch.object(trial, "run", lambda *_: check):
            trial.control(made)
        return trial.failed, trial.lines

    def test_what_is_proved_passes_and_a_definition_is_not_tried(self) -> None:
        failed, lines = self.failed()
        self.assertEqual(failed, 0)
        self.assertEqual(
            [it for it in lines if "proved" in it],
            [f"{it}: proved without its change" for it in ("Held::push", "pgheld::free")],
        )
        self.assertIn("definition: not tried", lines[0])

    def test_what_is_refused_or_not_checked_fails(self) -> None:
        self.assertEqual(
            self.failed(refusal_of=lambda mutant: "a goal" if "free" in mutant.label else "")[0], 1
        )
        self.assertEqual(self.failed(has_ended=False)[0], 2)
        self.assertEqual(self.failed(is_unreadable=True)[0], 2)


class BesideProofs(unittest.TestCase):
    def ended(self, *results: tuple[int, int], line: str = "5 passed, 0 failed") -> tuple[int, str]:
        """The status and the last line, where so many mutants of each crate were tried, and so many
        not refused."""
        said: list[str] = []
        self.enterContext(
            mock.patch.object(mutants.Proofs, "run", lambda proofs, *command: proofs.end(line, 0))
        )
        self.enterContext(mock.patch.object(mutants, "say", lambda *lines: said.extend(lines)))
        status: int = mutants.try_beside_proofs(
            results, lambda it: it, types.SimpleNamespace(jobs=1)
        )
        return status, said[-1]

    def test_crates_and_mutants_are_counted(self) -> None:
        self.assertEqual(self.ended((3, 0), (0, 0), (2, 0)), (0, "10 passed, 0 failed"))
        self.assertEqual(self.ended((3, 1), (2, 2)), (1, "7 passed, 3 failed"))
        self.assertEqual(self.ended((3, 0), line="4 passed, 1 failed"), (1, "7 passed, 1 failed"))

    def test_where_there_is_no_mutant_nothing_was_tried(self) -> None:
        self.assertEqual(self.ended((0, 0), (0, 0)), (1, "5 passed, 1 failed"))


class Kept(unittest.TestCase):
    def setUp(self) -> None:
        self.folder = Path(self.enterContext(tempfile.TemporaryDirectory()))
        self.enterContext(mock.patch.dict(os.environ, XDG_CACHE_HOME=str(self.folder / "cache")))
        self.enterContext(
            mock.patch.multiple(mutants, TOP=self.folder, SCRIPTS=(self.folder / "script",))
        )
        (self.folder / "script").write_text("...\n")
        (self.folder / "crates.txt").write_text(
            "# crates\nlow: std\nown staticlib: low\nowner: own\n"
        )
        (self.folder / "KIT-ID").write_text("kit 1\n")
        (self.folder / "low").write_text("fn low() {}\n")
        (self.folder / "own").write_text("fn own() {}\n")
        self.edit = self.folder / "what.edit"
        self.edit.write_text("file: src/lib.rt\nold: a\nnew: b\n")

    def refused(self) -> Any:
        low = types.SimpleNamespace(name="low", folder=str(self.folder))
        crate = types.SimpleNamespace(name="own", folder=str(self.folder), below=lambda: [low])
        rtlib = types.SimpleNamespace(files_of=lambda folder: [f"{folder}/low", f"{folder}/own"])
        return mutants.Refused(types.SimpleNamespace(KIT=str(self.folder), rtlib=rtlib), crate)

    def test_what_was_refused_is_known_until_something_changes(self) -> None:
        self.assertFalse(self.refused().has(self.edit))
        self.refused().keep(self.edit)
        self.assertTrue(self.refused().has(self.edit))
        for name, text in (
            ("low", "fn low() { }\n"),
            ("KIT-ID", "kit 2\n"),
            ("script", "pass\n"),
            ("what.edit", "file: src/lib.rt\nold: a\nnew: c\n"),
        ):
            with self.subTest(name):
                before = (self.folder / name).read_text()
                (self.folder / name).write_text(text)
                self.assertFalse(self.refused().has(self.edit))
                (self.folder / name).write_text(before)
        self.assertTrue(self.refused().has(self.edit))

    def test_of_the_crates_only_those_below_count(self) -> None:
        self.refused().keep(self.edit)
        for line, still in (
            ("owner: own", True),
            ("own staticlib: low", False),
            ("low: std", False),
        ):
            with self.subTest(line):
                before = (self.folder / "crates.txt").read_text()
                (self.folder / "crates.txt").write_text(
                    before.replace(f"\n{line}\n", f"\n{line} more\n")
                )
                self.assertEqual(self.refused().has(self.edit), still)
                (self.folder / "crates.txt").write_text(before)

    def test_a_cache_that_cannot_be_written_keeps_nothing(self) -> None:
        (self.folder / "cache").write_text("no folder\n")
        self.refused().keep(self.edit)
        self.assertFalse(self.refused().has(self.edit))


if __name__ == "__main__":
    unittest.main()
