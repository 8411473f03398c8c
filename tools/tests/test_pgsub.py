"""The script ./pgsub: when it builds, what it leaves, and what it says."""

import fcntl
import os
import re
import shutil
import subprocess
import tempfile
import time
import unittest
from pathlib import Path

TOP = Path(__file__).resolve().parents[2]
KIT = "a-kit logic 1"
# A toolchain whose program prints what its source says. It takes what is in its folder, and says
# so.
RT = """#!/bin/sh
[ "$1" = version ] && { echo "${KIT-a-kit logic 1}"; exit; }
echo "$PWD" >> "$CALLS"
[ "$1" = try ] && exec "$(dirname "$0")/try" "$@"
echo "crate pgsub: modules loaded=0"
grep -q broken src/main.rt && { echo "it is broken" >&2; exit 1; }
mkdir -p out
{ echo '#!/bin/sh'; echo "echo $(cat src/main.rt)" '"$@"'; } > out/pgsub
chmod +x out/pgsub
"""
# Its `try` prints the words, then the files that it is given by their names, and ends as the first
# word after `--` says. Where it is to keep its program, that is there meanwhile.
TRY = """#!/bin/sh
if [ -n "$KEEP" ]; then
    mkdir "$TMPDIR/made"
    cp "$KEEP" "$TMPDIR/made/program"
    sleep 1
fi
shift
while [ "$1" != -- ]; do
    echo "${2%%=*} has $(cat "${2#*=}")"
    shift 2
done
echo "$@"
echo "told by the program" >&2
[ "$2" = fault ] && { echo "run=fault proved=no" >&2; exit 4; }
echo "checked: ended status=3" >&2
echo "races: not looked for" >&2
echo "run=ended status=3 runners=1 races=unchecked proved=no" >&2
exit 3
"""
# What it has compiled.
COMPILED = """#!/bin/sh
echo "${HOME-no home} $(cat here) $(pwd) $@"
touch made
exit 5
"""
UNPROVED = (
    "pgsub: this program is not proved: it is compiled with checks; that takes three minutes\n"
)
KEPT = "pgsub: this program is not proved: it was compiled with checks\n"


class Case(unittest.TestCase):
    def setUp(self) -> None:
        room = tempfile.TemporaryDirectory()
        self.addCleanup(room.cleanup)
        self.top, self.calls, self.cache = (
            Path(room.name, it) for it in ("checkout", "calls", "cache")
        )
        (self.top / "crates/pgsub/src").mkdir(parents=True)
        shutil.copy(TOP / "pgsub", self.top)
        for folder, file in (("tools", "building.py"), ("connect", "pgsub-run")):
            (self.top / folder).mkdir()
            shutil.copy(TOP / folder / file, self.top / folder)
        for name, text in (
            ("KITS", f"# kits\nanother\n{KIT}\n"),
            ("HANDLES", "none\n"),
            ("crates.txt", "pgsub:\n"),
        ):
            (self.top / name).write_text(text)
        self.rt = Path(room.name, "rt")
        for name, text in (("rt", RT), ("try", TRY)):
            Path(room.name, name).write_text(text)
            Path(room.name, name).chmod(0o755)
        self.program = self.top / "crates/pgsub/out/pgsub"
        shutil.copy(TOP / "crates/pgsub/src/build.rt", self.top / "crates/pgsub/src")
        self.write("first")

    def write(self, text: str, age: float = -100.0) -> None:
        path = self.top / "crates/pgsub/src/main.rt"
        path.write_text(text)
        os.utime(path, (time.time() + age,) * 2)

    def run_it(self, *words: str, **more: str) -> tuple[int, str, str]:
        environment = {
            **os.environ,
            "PYTHONDONTWRITEBYTECODE": "1",
            "RT": str(self.rt),
            "CALLS": str(self.calls),
            "XDG_CACHE_HOME": str(self.cache),
            **more,
        }
        ran = subprocess.run(
            [self.top / "pgsub", *words],
            capture_output=True,
            text=True,
            env=environment,
            cwd=self.top,
        )
        return ran.returncode, ran.stdout, ran.stderr

    def room(self) -> Path:
        """The folder in which it was built."""
        (found,) = (self.cache / "pgsub").iterdir()
        return found

    def builds(self) -> int:
        return len(self.calls.read_text().splitlines()) if self.calls.exists() else 0

    def test_builds_where_there_is_none(self) -> None:
        self.assertEqual(self.run_it("--is-current")[0], 1)
        status, out, err = self.run_it("a", "b")
        self.assertEqual((status, out), (0, "first a b\n"))
        found = re.search("an hour and more on four cores, .* its log is (/.+)\n", err)
        assert found
        self.assertFalse(os.path.exists(found[1]))
        self.assertEqual(self.run_it("c"), (0, "first c\n", ""))
        self.assertEqual(self.run_it("--is-current"), (0, "", ""))
        self.assertEqual(self.builds(), 1)
        self.assertEqual(self.calls.read_text(), f"{self.room()}/crates/pgsub\n")
        self.assertEqual(
            sorted(os.listdir(self.top)),
            ["HANDLES", "KITS", "connect", "crates", "crates.txt", "pgsub", "tools"],
        )

    def test_help_builds_nothing(self) -> None:
        for word in ("--help", "-h"):
            status, out, err = self.run_it(word)
            self.assertEqual((status, err, self.builds()), (0, "", 0))
            self.assertIn("./pgsub --build", out)
        self.run_it("a")
        self.assertEqual(self.run_it("--help"), (0, "first --help\n", ""))

    def test_an_older_program_is_run_and_told_of(self) -> None:
        self.run_it()
        self.write("second", 100.0)
        status, out, err = self.run_it("a")
        self.assertEqual((status, out), (0, "first a\n"))
        self.assertEqual(
            err, "pgsub: the program is older than its sources: ./pgsub --build makes it anew\n"
        )
        status, out, err = self.run_it("--is-current")
        self.assertEqual((status, out), (1, ""))
        self.assertIn("older than", err)

    def test_build(self) -> None:
        self.run_it()
        self.write("second", -1.0)
        status, out, err = self.run_it("--build")
        self.assertEqual((status, out), (0, ""))
        self.assertIn(
            "pgsub: pgsub is proved, 1 of 1 crates, compiling it takes some minutes more\n", err
        )
        self.assertEqual(self.run_it("a"), (0, "second a\n", ""))
        self.assertEqual(self.builds(), 2)

    def test_a_store_that_another_process_has_open(self) -> None:
        """The program's own line doesn't say so."""
        self.run_it()
        store = self.top / "my copy.db"
        told = (
            f"pgsub: another process has {store} open, as a follower does: `pgsub-connect export`"
            " copies its rows, `pgsub-connect snapshot` the store\n"
        )
        words = (
            ("dump", "--store", str(store)),
            ("apply", f"--store={store}", "--raw", "f"),
            ("follow", "--store", str(store)),
            ("dump", "--", "--store", str(store)),
        )
        store.touch()
        with store.open("r+") as file:
            self.assertEqual([self.run_it(*it)[2] for it in words], [""] * 4)
            fcntl.lockf(file, fcntl.LOCK_EX)
            self.assertEqual([self.run_it(*it)[2] for it in words], [told, told, "", ""])
            os.symlink(store, self.top / "link")
            status, out, err = self.run_it("dump", "--store", "link")
        self.assertEqual((status, out), (0, "first dump --store link\n"))
        self.assertIn("another process has link open", err)

    def git(self, *words: str) -> str:
        words = ("git", "-C", str(self.top), "-c", "user.name=a", "-c", "user.email=a@b.c", *words)
        return subprocess.run(words, check=True, capture_output=True, text=True).stdout.strip()

    def built_of(self) -> list[str]:
        """Builds the program. Returns the commit and the kit that its sources have then."""
        self.run_it("--build")
        return re.findall(
            r'^pub\(crate\) const (?:COMMIT|KIT): &str = "(.*)";$',
            (self.room() / "crates/pgsub/src/build.rt").read_text(),
            re.M,
        )

    def test_what_it_is_built_of(self) -> None:
        """The commit is the last one that changed the sources of the program, and is told where
        they were changed since."""
        self.assertEqual(self.built_of(), ["unknown", KIT])
        (self.top / ".gitignore").write_text("out/\n")
        self.git("init", "-q")
        self.git("add", ".")
        self.git("commit", "-qm", "first")
        first = self.git("rev-parse", "HEAD")
        self.assertEqual(self.built_of(), [first, KIT])
        (self.top / "KITS").write_text(f"{KIT}\nmore\n")
        self.git("commit", "-qam", "second")
        self.assertEqual(self.built_of(), [first, KIT])
        self.write("changed")
        self.assertEqual(self.built_of(), [f"{first}-changed", KIT])

    def test_what_fails_leaves_the_program(self) -> None:
        self.run_it()
        self.write("broken", -1.0)
        status, _, err = self.run_it("--build")
        self.assertEqual(status, 126)
        self.assertIn("it is broken", err)
        self.assertRegex(err, "building failed; the whole log is /\\S+\\n")
        self.assertEqual(self.run_it("a")[1], "first a\n")
        self.program.unlink()
        self.assertEqual(self.run_it("a")[:2], (126, ""))

    def test_sources_that_are_gone(self) -> None:
        old = self.top / "crates/pgold/src"
        old.mkdir(parents=True)
        (old / "lib.rt").write_text("x")
        self.run_it()
        shutil.rmtree(old.parent)
        self.run_it("--build")
        self.assertEqual(os.listdir(self.room() / "crates"), ["pgsub"])

    def test_another_kit(self) -> None:
        status, _, err = self.run_it("a", KIT="a-kit logic 2")
        self.assertEqual(
            (status, err),
            (126, f"pgsub: the toolchain is a-kit logic 2, and KITS names another;{KIT}\n"),
        )
        self.assertFalse(self.program.exists())

    def test_no_toolchain(self) -> None:
        status, _, err = self.run_it("a", RT="/nowhere/rt")
        self.assertEqual(status, 127)
        self.assertIn("has to be on the path", err)

    def test_try(self) -> None:
        """It says that nothing is proved, gives the program the files that the words name, and
        builds nothing."""
        (self.top / "here").write_text("a")
        (self.top.parent / "there").write_text("b")
        status, out, err = self.run_it(
            "--try", "apply", "here", f"{self.top.parent}/there", "nowhere"
        )
        self.assertEqual((status, err), (3, UNPROVED + "told by the program\n"))
        self.assertEqual(
            out, "here has a\ngiven/1/there has b\n-- apply here given/1/there nowhere\n"
        )
        self.assertEqual(self.calls.read_text(), f"{self.top}/crates/pgsub\n")
        self.assertFalse(self.program.exists())

    def tries(self, *words: str) -> tuple[int, str, str]:
        """A try whose program can be kept. The status, what was printed, and the last line told."""
        compiled = self.top.parent / "compiled"
        compiled.write_text(COMPILED)
        compiled.chmod(0o755)
        status, out, err = self.run_it("--try", *words, KEEP=str(compiled))
        return status, out, err.splitlines(keepends=True)[0]

    def test_a_second_try(self) -> None:
        """It compiles nothing: the program runs as before, without an environment, in a folder that
        goes with what it writes. Other sources are compiled anew."""
        (self.top / "here").write_text("a")
        self.assertEqual(self.tries("apply", "here")[::2], (3, UNPROVED))
        for _ in range(2):
            status, out, told = self.tries("apply", "here", "x y")
            self.assertEqual((status, told, self.builds()), (5, KEPT, 1))
            self.assertRegex(out, r"^no home a /\S+ apply here x y\n$")
            self.assertFalse(os.path.exists(out.split()[3]))
        self.assertFalse((self.top / "made").exists())
        kept = sorted((self.room() / "tried").iterdir())
        self.assertEqual(len(kept), 1)
        self.write("second")
        self.assertEqual(self.tries("apply", "here")[::2], (3, UNPROVED))
        self.assertEqual((self.builds(), self.tries("apply", "here")[2]), (2, KEPT))
        self.assertNotEqual(sorted((self.room() / "tried").iterdir()), kept)

    def test_a_fault_keeps_no_program(self) -> None:
        for count in (1, 2):
            self.assertEqual(self.tries("fault")[::2], (4, UNPROVED))
            self.assertEqual((self.builds(), os.listdir(self.room() / "tried")), (count, []))

    def test_a_try_that_gives_no_answer(self) -> None:
        status, _, err = self.run_it("--try", "fault")
        self.assertEqual(
            (status, err), (4, UNPROVED + "told by the program\nrun=fault proved=no\n")
        )

    def test_a_try_with_another_kit(self) -> None:
        self.assertEqual(self.run_it("--try", "apply", KIT="a-kit logic 2")[0], 126)

    def test_two_at_a_time(self) -> None:
        self.run_it()
        with open(self.room() / "lock", "w") as file:
            fcntl.flock(file, fcntl.LOCK_EX)
            self.assertIn("another build is at work", self.run_it("--build")[2])


if __name__ == "__main__":
    unittest.main()
