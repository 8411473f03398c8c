"""The script tools/refused_memory/run.sh: which requests it refuses, and how it tells what came of
them."""

import os
import re
import shutil
import subprocess
import tempfile
import unittest
from pathlib import Path

TOP = Path(__file__).resolve().parents[2]
# Test programs. `steady` asks ten times for memory, and stops at the first that it doesn't get;
# `careless` uses the seventh all the same.
PROGRAM = """
#include <stdio.h>
#include <stdlib.h>
#include <string.h>

int main(int argc, char **argv)
{
    if (!strcmp(argv[1], "--list")) {
        (void)!write(1, "steady: test\\ncareless: test\\ntests: 2\\n", 37);
        return 0;
    }
    for (int n = 1; n <= 10; n++) {
        char *volatile got = malloc(n);
        if (!got && !strcmp(argv[1], "careless") && n == 7)
            abort();
        if (!got) {
            (void)!write(1, "test stopped at 1\\n", 18);
            return 1;
        }
    }
    return 0;
}
"""

# A program that asks three times.
TOLD = """
#include <stdlib.h>
#include <unistd.h>

int main(void)
{
    for (int n = 1; n <= 3; n++) {
        char *volatile got = malloc(n);
        if (!got) {
            (void)!write(2, "out of memory\\n", 14);
            return 1;
        }
    }
    (void)!write(1, "done\\n", 5);
    return 0;
}
"""


@unittest.skipUnless(shutil.which("gcc"), "there is no gcc")
class Samples(unittest.TestCase):
    def setUp(self) -> None:
        room = tempfile.TemporaryDirectory()
        self.addCleanup(room.cleanup)
        self.top = Path(room.name)
        shutil.copytree(TOP / "tools/refused_memory", self.top / "tools/refused_memory")
        out = self.top / "crates/demo/out"
        out.mkdir(parents=True)
        (self.top / "demo.c").write_text("#include <unistd.h>\n" + PROGRAM)
        subprocess.run(["gcc", "-O0", "-o", out / "demo_tests", self.top / "demo.c"], check=True)

    def refuse(self, *words: str, seed: str = "7") -> tuple[int, list[str]]:
        """The exit status, and the lines that are printed."""
        done = subprocess.run(
            [self.top / "tools/refused_memory/run.sh", "--built", *words],
            env={**os.environ, "SEED": seed},
            stdin=subprocess.DEVNULL,
            capture_output=True,
            text=True,
            check=False,
        )
        return done.returncode, done.stdout.splitlines() + done.stderr.splitlines()

    def test_each(self) -> None:
        self.assertEqual(
            self.refuse("demo/steady"),
            (0, ["demo steady: 10 requests, 0 passed, 10 stopped, 0 crashed"]),
        )

    def test_a_crash(self) -> None:
        status, lines = self.refuse("demo")
        self.assertEqual(
            (status, lines[0]), (1, "demo steady: 10 requests, 0 passed, 10 stopped, 0 crashed")
        )
        self.assertRegex(lines[1], "^demo careless: status 134 with request 7 refused$")
        self.assertEqual(lines[-1], "demo careless: 10 requests, 0 passed, 9 stopped, 1 crashed")

    def test_one_of_each_part(self) -> None:
        """Whatever the seed: the crash is the seventh of ten, so the second half has it, and one
        draw in five finds it."""
        found = set()
        for seed in map(str, range(1, 13)):
            status, lines = self.refuse("--most", "2", "demo/careless", seed=seed)
            self.assertEqual(lines[0], f"SEED={seed}")
            told = re.fullmatch(
                r"demo careless: 2 of 10 requests, 0 passed, ([12]) stopped, ([01]) crashed",
                lines[-1],
            )
            assert told
            self.assertEqual((status, int(told[1])), (int(told[2]), 2 - int(told[2])))
            found.add(status)
            self.assertEqual(
                (status, lines), self.refuse("--most", "2", "demo/careless", seed=seed)
            )
        self.assertEqual(found, {0, 1})

    def test_a_sample_that_is_all(self) -> None:
        self.assertEqual(
            self.refuse("--most", "10", "demo/steady")[1][1],
            "demo steady: 10 requests, 0 passed, 10 stopped, 0 crashed",
        )

    def test_a_program_without_tests(self) -> None:
        """Its stored run, over what is built: nothing is proved for it."""
        crate = self.top / "crates/told"
        for folder in ("out", "data"):
            (crate / folder).mkdir(parents=True)
        for name, text in (("args", "x\n"), ("stdout", "done\n")):
            (crate / name).write_text(text)
        source = self.top / "told.c"
        source.write_text(TOLD)
        subprocess.run(["gcc", "-O0", "-o", crate / "out/told", source], check=True)
        self.assertEqual(
            self.refuse("told"), (0, ["told x: 3 requests, 0 passed, 3 stopped, 0 crashed"])
        )
        for said, status in (
            ("pgsub: store 8 Refused", 0),
            ("pgsub: store 8 Clash", 1),
            ("nothing", 1),
        ):
            source.write_text(
                TOLD.replace('"out of memory\\n", 14', f'"{said}\\n", {len(said) + 1}')
            )
            subprocess.run(["gcc", "-O0", "-o", crate / "out/told", source], check=True)
            self.assertEqual(self.refuse("told")[0], status, said)

    def test_wrong_words(self) -> None:
        for words in (
            ["--most"],
            ["--most", "0", "demo"],
            ["--most", "x", "demo"],
            ["--none", "demo"],
        ):
            self.assertEqual(self.refuse(*words)[0], 2, words)


if __name__ == "__main__":
    unittest.main()
