"""Which functions a crate's files have, by which names, and what a copy without their bodies is."""

import tempfile
import unittest
from pathlib import Path

from bodies import Bodies, callees, calls_in, functions, leave_open


class Names(unittest.TestCase):
    def test_the_head_of_a_block_tells_the_owner_that_a_check_prints(self) -> None:
        for head, owner in (
            ("impl Held {", ("Held", "")),
            ("impl<'a, T: Makes<Other<T>>, const N: usize> Held<'a, T, N> {", ("Held", "")),
            ("impl<T> Two<T, T> {", ("Two+T+T", "")),
            ("impl Held<u8> {", ("Held+u8", "")),
            ("impl<'a, T> Held<&'a mut T> {", ("Held+ref+T", "")),
            ("impl<F: Start> Store<FileStore<FileFrom<F>>> {", ("Store+FileStore+FileFrom+F", "")),
            (
                "impl<\n    D: Disk + Drop,\n    F: Fn(u8) -> Option<u8>,\n> Store<FileStore<D>, F>\nwhere\n    D: Copy,\n{",
                ("Store+FileStore+D+F", ""),
            ),
            ("impl fmt::Display for Held {", ("Held", "Display")),
            ("impl<T> Makes<Held<T>> for Two<T, u8> {", ("TwoU8", "MakesHeld")),
            ("impl<'a, T> Makes<&'a str> for &'a Held<T> {", ("RefHeld", "MakesRefStr")),
            ("impl<T: Copy> Takes for T {", ("Any", "Takes")),
            ("pub trait Has<T>: Drop + Makes<T> {", ("Has", "")),
        ):
            with self.subTest(head):
                text = f"{head}\n    fn name(&self) {{}}\n}}\n"
                self.assertEqual([(it.owner, it.trait) for it in functions(text)], [owner])


class Calls(unittest.TestCase):
    def test_a_body_leads_to_what_its_callees_lead_to(self) -> None:
        calls = calls_in(
            [
                "fn all() {\n    one();\n}\n\nfn one() {\n    // all()\n    Held::two(3);\n}\n",
                "fn two(count: usize) {\n    count;\n}\n",
            ]
        )
        self.assertEqual(calls, {"all": {"one"}, "one": {"two"}, "two": set()})
        self.assertEqual(callees(calls), {"all": {"one", "two"}, "one": {"two"}, "two": set()})


CLAUSED = """pub struct Held {
    count: usize,
}

impl Held {
    pub fn push(&mut self, count: usize) -> bool
        requires room { count < 9 }
        ensures made { self.new ≡ record self.old {
            count = (record {
                count = count;
            }).count } }
        // a note on what comes next
        ensures own { result ≡ true }
        ensures kept { result ≡ true }
    {
        self.count = count;
        free(count)
    }
}

pub trait Takes {
    fn take(&mut self) -> bool
        ensures took { result ≡ true };

    fn rest(&self) {}
}

impl<T> Takes for T {
    fn take(&mut self) -> bool {
        true
    }
}

fn free(count: usize) -> bool {
    count > 0
}
"""


class Emptied(unittest.TestCase):
    """A copy of a crate in which only the functions of its mutants have their bodies."""

    def bodies(self, text: str) -> Bodies:
        return Bodies("pgheld", {"src/parts/held.rt": text})

    def emptied(self, text: str, *kept: str) -> tuple[str, list[str]]:
        texts, names = self.bodies(text).emptied(lambda name: name in kept)
        return texts["src/parts/held.rt"], names

    def test_all_but_the_kept_functions_lose_their_bodies(self) -> None:
        text, names = self.emptied(CLAUSED, "pgheld::parts::held::free")
        self.assertEqual(
            sorted(names),
            ["pgheld::parts::held::AnyTakes::take", "pgheld::parts::held::Held::push"],
        )
        self.assertIn("        ensures kept { result ≡ true }\n    { unreachable!() }\n}", text)
        self.assertIn("    fn take(&mut self) -> bool { unreachable!() }\n}", text)
        self.assertIn("    count > 0", text)

    def test_methods_of_a_trait_stay_as_they_are(self) -> None:
        self.assertIn(
            "ensures took { result ≡ true };\n\n    fn rest(&self) {}", self.emptied(CLAUSED)[0]
        )

    def test_a_proof_is_left_open_where_the_checker_looks_for_it(self) -> None:
        folder = Path(self.enterContext(tempfile.TemporaryDirectory()))
        answers = folder / "parts/held/Held/push/Answers.antt"
        answers.parent.mkdir(parents=True)
        answers.touch()
        leave_open(folder, "pgheld::parts::held::Held::push")
        self.assertFalse(answers.exists())
        self.assertEqual(
            (answers.parent / "Proof.antt").read_text(encoding="utf-8"),
            "use Rattle.pgheld.proofs.parts.held.Held.push.Statement as stated\n"
            "pub push_spec : {M : Type 1} → stated.statement M\npush_spec = ?\n",
        )

    def test_a_function_keeps_the_clauses_that_its_mutant_breaks(self) -> None:
        bodies = self.bodies(CLAUSED)
        text = bodies.only_with(lambda name: {"made", "own"} if name.endswith("::push") else set())[
            "src/parts/held.rt"
        ]
        self.assertEqual(text, CLAUSED.replace("        ensures kept { result ≡ true }\n", ""))
        text = bodies.only_with(lambda name: {"own", "kept"} if name.endswith("::push") else set())[
            "src/parts/held.rt"
        ]
        self.assertNotIn("made", text)
        self.assertIn("requires room { count < 9 }\n", text)
