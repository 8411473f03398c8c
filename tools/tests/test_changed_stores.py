"""The cases of tools/changed_stores, over a stand-in for the program: one that answers as is
expected, and ones that don't."""

import contextlib
import io
import random
import sqlite3
import tempfile
import unittest
from collections.abc import Callable
from functools import partial
from pathlib import Path
from typing import Any
from unittest import mock

from built import TOP
from stores import changed, contents, sound
from stores.changed import Beside, Case, Start, Taken
from stores.named import Commit, State
from stores.text import Writer

from .scripts import loaded

script = loaded("changed_stores")

Answer = tuple[int, bytes, bytes]
ALWAYS = 1000
ALL = list(changed.cases())
Trial = tuple[Case | Beside, bool, Callable[[Any], None]]
# each with what it is of
TRIALS: list[Trial] = [
    (run.args[0], in_other_words, run) for _, in_other_words, run in script.trials()
]


def taken_of(of: Case | Beside) -> Taken | None:
    return of.outcome if isinstance(of.outcome, Taken) else None


def is_busy(of: Case | Beside) -> bool:
    """Whether the file is refused before the outcome."""
    return isinstance(of, Beside) and (not of.is_killed or of.has_journal)


def write(path: Path, state: State) -> None:
    """Makes a store in the place of whatever is there."""
    for it in path.parent.iterdir():
        it.unlink()
    Writer(path, random.Random(1)).make(1024)
    with script.opened(path) as base:
        base.execute("DELETE FROM pos")
        script.fill(base, state)


class Fake:
    """Answers as is expected of the program: it refuses so often, and else goes from state to
    state."""

    def __init__(self, of: Case | Beside):
        taken = taken_of(of)
        # how often with REFUSED, and then with the fault of the outcome
        self.busy, self.refusals = 2 * is_busy(of), 0 if taken else ALWAYS
        self.fault = str(of.outcome)
        self.fills = isinstance(of, Beside) or of.start is Start.FILLED
        self.states = (
            [taken.state, *(state for _, state in taken.steps)] if taken else [changed.FILLED]
        )

    def __call__(
        self, program: Path, command: str, _option: str, store: str, recording: str = ""
    ) -> Answer:
        path = Path(store)
        if self.fills and not path.exists():
            return self.hold(path, changed.FILLED)
        if self.busy or self.refusals:
            fault = changed.REFUSED if self.busy else self.fault
            self.busy, self.refusals = (
                max(self.busy - 1, 0),
                self.refusals if self.busy else self.refusals - 1,
            )
            return self.refuse(path, fault)
        if command == "apply":
            self.states.pop(0)
        return self.hold(path, self.states[0])

    def refuse(self, path: Path, fault: str) -> Answer:
        with path.with_name("copy.db-wal").open("ab") as log:
            log.write(b"nothing")
        return 3, b"", f"pgsub: {fault}\n".encode()

    def hold(self, path: Path, state: State) -> Answer:
        write(path, state)
        return 0, state.dump, b""


class TakesAll(Fake):
    def __init__(self, of: Case | Beside):
        super().__init__(of)
        self.busy = self.refusals = 0


class RefusesAll(Fake):
    def __init__(self, of: Case | Beside):
        super().__init__(of)
        self.refusals = ALWAYS


class TellsAnother(Fake):
    def refuse(self, path: Path, fault: str) -> Answer:
        return super().refuse(path, "store 9 Memory")


class EndsOtherwise(Fake):
    def refuse(self, path: Path, fault: str) -> Answer:
        return 1, *super().refuse(path, fault)[1:]


class Prints(Fake):
    def refuse(self, path: Path, fault: str) -> Answer:
        return 3, b"position 0/0\n", super().refuse(path, fault)[2]


class ChangesTheFile(Fake):
    def refuse(self, path: Path, fault: str) -> Answer:
        content = bytearray(path.read_bytes())
        content[-1] ^= 1
        path.write_bytes(content)
        return super().refuse(path, fault)


class ChangesItLater(ChangesTheFile):
    def refuse(self, path: Path, fault: str) -> Answer:
        return super().refuse(path, fault) if self.refusals % 2 else Fake.refuse(self, path, fault)


class CommitsToTheLog(Fake):
    def refuse(self, path: Path, fault: str) -> Answer:
        content, log = path.read_bytes(), path.with_name("copy.db-wal")
        with script.opened(path) as base:
            base.execute("PRAGMA journal_mode = WAL")
            base.execute("PRAGMA wal_autocheckpoint = 0")
            base.execute("PRAGMA user_version = 7")
            written = log.read_bytes()
        path.write_bytes(content)
        log.write_bytes(written)
        return 3, b"", f"pgsub: {fault}\n".encode()


class LosesTheLog(Fake):
    def refuse(self, path: Path, fault: str) -> Answer:
        path.with_name("copy.db-wal").unlink(missing_ok=True)
        return 3, b"", f"pgsub: {fault}\n".encode()


class MakesAFile(Fake):
    def refuse(self, path: Path, fault: str) -> Answer:
        path.with_name("copy.db.pgsub-new").touch()
        return super().refuse(path, fault)


class RemovesTheFile(Fake):
    def refuse(self, path: Path, fault: str) -> Answer:
        path.unlink()
        return super().refuse(path, fault)


class HoldsLess(Fake):
    """What it prints isn't what the file holds."""

    def hold(self, path: Path, state: State) -> Answer:
        super().hold(
            path,
            State(state.tables, state.rows[1:], state.position)
            if state.rows
            else State(position=1),
        )
        return 0, state.dump, b""


class PrintsLess(Fake):
    def hold(self, path: Path, state: State) -> Answer:
        status, out, err = super().hold(path, state)
        return status, out.partition(b"\n")[2], err


class AddsATable(Fake):
    def hold(self, path: Path, state: State) -> Answer:
        answer = super().hold(path, state)
        with script.opened(path) as base:
            base.execute("CREATE TABLE more (x)")
        return answer


class ForgetsItsLog(Fake):
    """The file hasn't what was written."""

    def hold(self, path: Path, state: State) -> Answer:
        super().hold(path, changed.FILLED)
        return 0, state.dump, b""


class Stays(Fake):
    """It takes the store, and no commit."""

    def __call__(
        self, program: Path, command: str, _option: str, store: str, recording: str = ""
    ) -> Answer:
        is_commit = command == "apply" and (Path(store).exists() or not self.fills)
        return super().__call__(program, "dump" if is_commit else command, _option, store)


def told(
    of: Case | Beside, in_other_words: bool, run: Callable[[Any], None], kind: type[Fake]
) -> str:
    with mock.patch.object(script, "ran", kind(of)):
        found: str = script.told_of(Path("/bin/false"), in_other_words, run)
    return found


def some(trials: list[Trial]) -> list[Trial]:
    """The first trial of each group."""
    return list(
        {
            (of.group if isinstance(of, Case) else of, in_other_words): (of, in_other_words, run)
            for of, in_other_words, run in reversed(trials)
        }.values()
    )


REFUSED = [it for it in TRIALS if taken_of(it[0]) is None]
TAKEN = [it for it in TRIALS if taken_of(it[0])]


class Programs(unittest.TestCase):
    """What is told of programs that answer so."""

    def check_none_passes(self, trials: list[Trial], *kinds: type[Fake]) -> None:
        for kind in kinds:
            with self.subTest(kind.__name__):
                self.assertEqual([it[0].name for it in trials if not told(*it, kind)], [])

    def test_all_is_as_expected(self) -> None:
        self.assertEqual([(it[0].name, found) for it in TRIALS if (found := told(*it, Fake))], [])

    def test_a_program_that_takes_all(self) -> None:
        self.check_none_passes([*REFUSED, *(it for it in TAKEN if is_busy(it[0]))], TakesAll)

    def test_a_program_that_refuses_all(self) -> None:
        self.check_none_passes(TAKEN, RefusesAll)

    def test_a_refusal_that_is_another(self) -> None:
        self.check_none_passes(some(REFUSED), TellsAnother, EndsOtherwise, Prints)

    def test_a_file_that_is_refused_and_changed(self) -> None:
        self.check_none_passes(
            some(REFUSED),
            ChangesTheFile,
            ChangesItLater,
            CommitsToTheLog,
            MakesAFile,
            RemovesTheFile,
        )
        self.check_none_passes([it for it in REFUSED if isinstance(it[0], Beside)], LosesTheLog)

    def test_a_store_that_holds_something_else(self) -> None:
        self.check_none_passes(some(TAKEN), HoldsLess, PrintsLess, AddsATable)

    def test_a_commit_that_is_not_stored(self) -> None:
        self.check_none_passes(some(TAKEN), ForgetsItsLog, Stays)

    def run_main(self, text: str, *words: str) -> tuple[int, list[str]]:
        """Runs the whole script over a program that is this text of the shell."""
        with tempfile.TemporaryDirectory() as folder, contextlib.redirect_stdout(
            io.StringIO()
        ) as out:
            program = Path(folder, "program")
            program.write_text(f"#!/bin/sh\n{text}\n")
            program.chmod(0o755)
            status = script.main(["--program", str(program), *words])
        return status, out.getvalue().splitlines()

    def test_the_whole_script(self) -> None:
        status, lines = self.run_main("exit 0")
        self.assertEqual(
            (status, len(lines), lines[-1]), (1, len(TRIALS) + 1, f"0 passed, {len(TRIALS)} failed")
        )
        status, lines = self.run_main(
            "echo 'pgsub: store 10 NotAStore' >&2; exit 3", "--only", "schema: a view"
        )
        self.assertEqual((status, lines), (0, ["1 passed, 0 failed"]))
        self.assertEqual(
            self.run_main("exit 0", "--only", "no such case"), (1, ["0 passed, 0 failed"])
        )

    def test_a_program_that_does_not_end(self) -> None:
        with mock.patch.object(script, "SECONDS", 0.1):
            _, lines = self.run_main("exec sleep 60", "--only", "schema: a view")
        self.assertEqual(lines[0], "FAILED schema: a view: dump: no answer in 0.1 seconds")

    def test_no_program(self) -> None:
        with self.assertRaises(SystemExit) as ended, contextlib.redirect_stderr(io.StringIO()):
            script.main(["--program", "/nowhere/pgsub"])
        self.assertEqual(ended.exception.code, 2)


class Room(unittest.TestCase):
    def setUp(self) -> None:
        self.room = Path(self.enterContext(tempfile.TemporaryDirectory()))
        self.count = 0

    def trial(self, in_other_words: bool = False) -> Any:
        """A trial in a folder of its own."""
        self.count += 1
        folder = self.room / str(self.count)
        folder.mkdir()
        return script.Trial(Path("/bin/false"), folder, in_other_words)

    def filled(self, in_other_words: bool = False) -> Any:
        trial = self.trial(in_other_words)
        with mock.patch.object(script, "ran", Fake(ALL[-1])):
            trial.make(Start.FILLED)
        return trial


class Cases(Room):
    """What the statements of the cases do, as SQLite reads it."""

    def changed(self, case: Case, in_other_words: bool) -> Any:
        """A trial whose file a case has changed."""
        trial = (
            self.filled(in_other_words)
            if case.start is Start.FILLED
            else self.trial(in_other_words)
        )
        if case.start is not Start.FILLED:
            trial.make(case.start)
        with script.opened(trial.path) as base:
            script.execute(base, case.change)
        return trial

    def test_each_name_is_one_trial(self) -> None:
        names = [name for name, _, _ in script.trials()]
        self.assertEqual(len(set(names)), len(names))

    def test_what_is_refused_is_no_store(self) -> None:
        for of, in_other_words, _ in TRIALS:
            if isinstance(of, Case) and taken_of(of) is None:
                with self.subTest(of.name, in_other_words=in_other_words):
                    trial = self.changed(of, in_other_words)
                    self.assertNotEqual(
                        sound.findings(trial.path, in_other_words=in_other_words), []
                    )

    def test_what_is_taken_holds_what_is_expected(self) -> None:
        for of, in_other_words, _ in TRIALS:
            if (
                isinstance(of, Case)
                and isinstance(of.outcome, Taken)
                and of.start is not Start.NO_FILE
            ):
                with self.subTest(of.name, in_other_words=in_other_words):
                    trial, state = self.changed(of, in_other_words), of.outcome.state
                    told = sound.findings(trial.path, state.contents, in_other_words)
                    if state.rows:
                        self.assertEqual(told, [])
                    elif told:
                        self.check_nothing_is_lost(trial.path, state)

    def check_nothing_is_lost(self, path: Path, state: State) -> None:
        """Whether the tables that are left hold no more than this."""
        with sound.at_rest(path) as base:
            left = {
                name
                for (name,) in base.execute("SELECT name FROM sqlite_schema WHERE type = 'table'")
            }
            for name, wanted in (
                ("rel", len(state.tables)),
                ("held", 0),
                ("pos", int(state.position > 0)),
            ):
                found = (
                    base.execute(f"SELECT count(*) FROM {name}").fetchone()[0]
                    if name in left
                    else 0
                )
                self.assertEqual(found, wanted, name)
            self.assertLessEqual(left, set(contents.TABLES))

    def test_other_words_say_the_same(self) -> None:
        self.assertEqual(
            {name: sound.plain(text) for name, text in changed.OTHER_WORDS.items()},
            {name: sound.plain(text) for name, text in contents.TABLES.items()},
        )
        trial = self.filled(in_other_words=True)
        self.assertIn("there is no table held as a store's", sound.findings(trial.path))
        self.assertEqual(
            sound.findings(trial.path, changed.FILLED.contents, in_other_words=True), []
        )
        with script.opened(trial.path) as base:
            base.execute("DROP TABLE pos")
            base.execute(
                "CREATE TABLE pos (id integer primary key not null check (id = 1), lsn blob not null) strict"
            )
        self.assertIn(
            "there is no table pos as a store's", sound.findings(trial.path, in_other_words=True)
        )


class Statements(Room):
    def test_they_are_told_apart(self) -> None:
        trigger = "CREATE TRIGGER gone AFTER DELETE ON held BEGIN DELETE FROM rel; END"
        self.assertEqual(
            list(script.statements_of(f"DELETE FROM held; {trigger}")),
            ["DELETE FROM held;", f"{trigger};"],
        )
        self.assertEqual(list(script.statements_of("")), [])

    def test_each_changes_something(self) -> None:
        trial = self.filled()
        for text in (
            "UPDATE held SET copies = 0 WHERE oid = 7",
            "DELETE FROM held; DELETE FROM held",
            "DROP TABLE IF EXISTS more",
        ):
            with self.subTest(text), script.opened(trial.path) as base, self.assertRaisesRegex(
                script.Wrong, "changes nothing"
            ):
                script.execute(base, text)

    def test_a_statement_that_is_not_rejected(self) -> None:
        case = Case("second position", changed.UNCHECKED, changed.SOUND, rejected=changed.SECOND)
        self.assertIn(
            "SQLite doesn't reject", told(case, False, partial(script.try_case, case), Fake)
        )

    def test_an_error_of_sqlite_is_told(self) -> None:
        case = Case("wrong", "DROP TABLE more", changed.NOT_A_STORE)
        self.assertEqual(
            told(case, True, partial(script.try_case, case), Fake), "no such table: more"
        )


class OtherProcesses(Room):
    def test_an_error_is_told(self) -> None:
        with self.assertRaisesRegex(script.Wrong, "no such table: more"):
            with script.other_process(self.filled().path, ("SELECT * FROM more",)):
                pass

    def test_it_locks_the_file_while_it_runs(self) -> None:
        for beside in changed.BESIDE:
            if not beside.is_killed:
                trial = self.filled()
                with script.other_process(trial.path, beside.statements), contextlib.closing(
                    sqlite3.connect(trial.path, 0)
                ) as base:
                    with self.subTest(beside.told), self.assertRaisesRegex(
                        sqlite3.OperationalError, "locked"
                    ):
                        base.execute("PRAGMA locking_mode = EXCLUSIVE")
                        base.execute("BEGIN EXCLUSIVE")
                self.assertEqual(sound.findings(trial.path, changed.FILLED.contents), [])

    def test_what_a_killed_one_leaves(self) -> None:
        for beside in changed.BESIDE:
            if beside.is_killed:
                trial = self.filled()
                with script.other_process(trial.path, beside.statements) as process:
                    process.kill()
                left = {
                    it.name.removeprefix("copy.db"): it.stat().st_size
                    for it in trial.folder.iterdir()
                }
                with self.subTest(beside.told):
                    self.assertGreater(left["-journal" if beside.has_journal else "-wal"], 1000)
                    if beside.statements[-1] == changed.MANY[-1]:
                        self.assertGreater(left["" if beside.has_journal else "-wal"], 500_000)
                    with script.opened(trial.path) as base:
                        if taken := taken_of(beside):
                            self.assertEqual(sound.findings_of(base, taken.state.contents), [])
                        else:
                            self.assertRegex(sound.findings_of(base)[0], "0 copies")


class Named(unittest.TestCase):
    """What tables, rows and commits are, beside an example."""

    def test_a_recording_and_a_dump(self) -> None:
        example = TOP / "examples/copies_in_a_file"
        commit = Commit(0x130, (changed.inserted(changed.T, "1", "a"),))
        # (there the key is an integer)
        self.assertEqual(
            commit.recording.splitlines(),
            (example / "in.pgx").read_text().replace("17ffffffff", "19ffffffff").splitlines(),
        )
        state = State((changed.T,), (changed.held(changed.T, "1", "a"),), 0x130)
        self.assertEqual(state.dump, (example / "stdout").read_bytes())

    def test_other_messages(self) -> None:
        told = [
            it.message().hex()
            for it in (changed.updated(changed.T, "1", None), changed.deleted(changed.F, "x"))
        ]
        self.assertEqual(told, ["55000040004e00027400000001316e", "44000040024f0001740000000178"])
        self.assertEqual(
            changed.inserted(changed.N, b"y").message().hex(), "49000040034e0001620000000179"
        )

    def test_the_order_of_a_dump(self) -> None:
        rows = (
            changed.held(changed.F, "y"),
            changed.held(changed.F, "x", copies=2),
            changed.held(changed.T, "1", None),
        )
        wanted = b'["public","t",["1",null],1]\n["public","f",["x"],2]\n["public","f",["y"],1]\nposition FFFFFFFF/FFFFFFFF\n'
        self.assertEqual(State((), rows, changed.GREATEST).dump, wanted)


if __name__ == "__main__":
    unittest.main()
