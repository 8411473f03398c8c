"""The model of a watch: what it finds of streams that are written by hand, by an enumeration of how
transactions come; and the tool, which has to fail over a watch with a bug."""

import contextlib
import io
import tempfile
import unittest
from collections import Counter
from collections.abc import Iterator, Sequence
from itertools import product
from pathlib import Path
from unittest import mock

from built import TOP
from watches_model import repeat_bugs, repeating, set_back
from watches_model.bugs import BUGS, Watcher
from watches_model.by_bytes import ROW
from watches_model.cases import STREAMS, Found, made, planted, unbroken
from watches_model.comparing import Compared
from watches_model.edits import EDITS
from watches_model.frames import abort, block, insert, keepalive, next_block, relation
from watches_model.frames import stream_commit
from watches_model.judging import RULES, judged
from watches_model.nesting import Entry, misfit, survivors
from watches_model.past import Commit
from watches_model.printed import session_difference

from .scripts import loaded

watches = loaded("watches")

# a watch, in place of the program: the model, or the model with the bug of this name
PROGRAM = """#!/usr/bin/env python3
import sys
sys.path.insert(0, {tools!r})
from histories_model.recording import sessions_of
from watches_model import bugs
watch = getattr(bugs, {bug!r})
watch = watch() if issubclass(watch, bugs.Watcher) else bugs.Watcher(watch)
with open(sys.argv[4], "rb") as file:
    contents = [b"".join(it) for it in sessions_of(file.read())]
status, text = watch.run(contents, int(sys.argv[3]))
print(text, end="")
sys.exit(status)
"""


def item(subxid: int) -> Entry:
    return Entry(0, subxid, False)


def ended(subxid: int) -> Entry:
    return Entry(0, subxid, True)


Used = frozenset[int]


def gone(part: Sequence[Entry]) -> bool:
    """Whether each item has an abort of its xid behind it."""
    return all(
        it.is_abort or any(other == ended(it.subxid) for other in part[at + 1 :])
        for at, it in enumerate(part)
    )


def readings(
    entries: Sequence[Entry], at: int, xid: int, used: Used
) -> Iterator[tuple[int, Used, list[int]]]:
    """Each way to read entries from one on as work of an xid: the entry behind them, the xids that
    are used then, and which entries survive."""
    yield at, used, []
    if at == len(entries):
        return
    if entries[at] == item(xid):
        for end, then, alive in readings(entries, at + 1, xid, used):
            yield end, then, [at, *alive]
    for sub in {it.subxid for it in entries} - used:
        for middle, then, inner in readings(entries, at, sub, used | {sub}):
            if middle > at:
                for end, last, alive in readings(entries, middle, xid, then):
                    yield end, last, [*inner, *alive]
    for middle in range(at + 1, len(entries) + 1):
        named = {it.subxid for it in entries[at:middle]}
        if not named & used and gone(entries[at:middle]):
            yield from readings(entries, middle, xid, used | named)


class Nesting(unittest.TestCase):
    def test_all_short_transactions(self) -> None:
        """What survives is what a reading as rule 2's definition has it lets survive."""
        kinds = [item(10), item(12), item(13), ended(12), ended(13)]
        found = Counter[bool]()
        for length in range(6):
            for entries in product(kinds, repeat=length):
                ways = [
                    alive
                    for end, _, alive in readings(entries, 0, 10, frozenset({10}))
                    if end == length
                ]
                survived = survivors(10, entries)
                found[survived is not None] += 1
                if survived is None:
                    self.assertEqual(ways, [], entries)
                else:
                    self.assertEqual([entries[it] for it in ways[0]], survived, entries)
                    self.assertTrue(all(it == ways[0] for it in ways), entries)
        self.assertGreater(min(found.values()), 1000)

    def test_a_misfit_is_the_last_entry_that_no_transaction_ends_from(self) -> None:
        kinds = [item(10), item(12), item(13), ended(12), ended(13)]
        for entries in product(kinds, repeat=5):
            if survivors(10, entries) is None:
                numbered = [it._replace(at=at) for at, it in enumerate(entries)]
                at = misfit(10, numbered).at
                for later in range(6):
                    fits = survivors(10, entries[later:]) is not None
                    self.assertEqual(fits, later > at, entries)


class Model(unittest.TestCase):
    def test_it_finds_what_is_expected_of_streams(self) -> None:
        found = planted(Watcher().run)
        self.assertEqual((found.passed, found.wrong), (len(STREAMS), []))

    def test_there_are_ten_streams_for_each_rule(self) -> None:
        """In each place."""
        for place in (", in the middle", ", after a cut", ", over a reconnection"):
            counts = Counter(it.rule for it in STREAMS if it.shows.endswith(place))
            self.assertEqual({*counts}, {*RULES})
            self.assertGreaterEqual(min(counts.values()), 10)
        self.assertEqual(len({(it.rule, it.shows) for it in STREAMS}), len(STREAMS))

    def test_one_commit_may_break_several_rules(self) -> None:
        """Any of them is right, with its own frame."""
        parts = [*ROW, keepalive(0x500), *block(11, insert(16385, 12)), abort(11, 12)]
        parts += [*next_block(11, insert(16385, 11), relation(xid=12))]
        content = b"".join([*parts, stream_commit(11, 0x12F, 0x12E)])
        verdict = judged(content, 2)
        self.assertEqual([it.rule for it in verdict.endings], ["rule 2", "order", "order"])
        self.assertEqual(verdict.at, len(content) - len(stream_commit(0, 0, 0)))
        parts[-2:-1] = []
        verdict = judged(b"".join([*parts, stream_commit(11, 0x12F, 0x12E)]), 2)
        rules = [it.rule for it in verdict.endings]
        self.assertEqual(rules, ["order", "order", "rule 3", "rule 4"])

    def test_another_rule_or_frame_differs(self) -> None:
        content = b"".join([keepalive(0x500), *ROW])
        lines = Watcher().lines(judged(content, 2))
        self.assertIsNone(session_difference(lines, judged(content, 2)))
        for old, new in (
            ("rule 4 broken at 194", "rule 4 broken at 193"),
            ("rule 4 broken at 194", "rule 4 kept before 194"),
            ("of the keepalive at 0", "of the keepalive at 23"),
            ("rule 3 not seen before 194", "rule 3 kept before 194"),
            ("rule 1 not watched", "rule 1 kept"),
        ):
            changed = [it.replace(old, new) for it in lines]
            self.assertNotEqual(changed, lines)
            self.assertIsNotNone(session_difference(changed, judged(content, 2)))


class Repeats(unittest.TestCase):
    def test_what_is_expected_of_streams(self) -> None:
        """By the model, which isn't where that is from."""
        live = repeat_bugs.Program().live
        self.assertEqual(
            [set_back.difference(it, live) for it in set_back.STREAMS[::3]], [None] * 43
        )
        self.assertEqual([set_back.alarm(it, live) for it in set_back.WELL], [None] * 5)

    def test_there_are_ten_streams_for_each_kind(self) -> None:
        counts = Counter(it.told for it in set_back.STREAMS)
        behind = [it for it in set_back.KINDS if not it.is_above()]
        self.assertEqual(sum(counts.values()), 10 * len(set_back.KINDS) + 8 * len(behind))
        self.assertGreaterEqual(min(counts.values()), 10)
        self.assertEqual(len({it.shows for it in set_back.STREAMS}), len(set_back.STREAMS))

    def test_histories_repeat_and_lose_and_are_set_back(self) -> None:
        """Commits come again, whole and streamed, a crash loses what is noted, and others come."""
        equal, told, lost = 0, 0, 0
        for name in repeating.names("1", 60):
            made, model = repeating.repeated(name), repeating.Model()
            for life, word in zip(made.lives, made.words):
                lines = model.lines(life, word)
                equal += int(lines[-1].split()[2])
                told += len(lines) > 2
                lost += word == repeating.LOST
                self.assertTrue(len(lines) == 2 or not made.is_well, name)
        self.assertGreater(min(equal, told, lost), 5)

    def test_records_that_a_crash_has_lost(self) -> None:
        """The front of them is right, too."""
        made = [Commit(it.end, it.lsn, it.xid, 0, (1, 7)) for it in set_back.HISTORY]
        compared = Compared(made[:50])
        self.assertEqual([compared.hear(it) for it in made[40:]], [None] * (len(made) - 40))
        self.assertEqual((compared.equal, len(compared.past.noted)), (10, len(made)))

    def test_more_than_is_noted_and_held(self) -> None:
        compared = Compared(limit=3, held=2)
        one, rest = set_back.HISTORY[0], set_back.HISTORY[1:6]
        for it in rest:
            frames = it._replace(changes=it.changes[:2]).whole()
            self.assertEqual([repeating.taken(compared, it) for it in frames], [None] * len(frames))
        self.assertEqual((compared.past.forgotten, len(compared.past.noted)), (2, 3))
        for frame in one.whole():
            self.assertIsNone(repeating.taken(compared, frame))
        self.assertEqual((compared.past.forgotten, len(compared.past.noted)), (5, 0))


class Tool(unittest.TestCase):
    def run_it(self, *words: str) -> tuple[int, list[str]]:
        with contextlib.redirect_stdout(io.StringIO()) as out:
            status: int = watches.main([*words])
        return status, out.getvalue().splitlines()

    def over(self, bug: str, *words: str) -> tuple[int, list[str]]:
        """Its status and lines over a watch with a bug, or with none."""
        with tempfile.TemporaryDirectory() as room:
            program = Path(room, "pgsub")
            program.write_text(PROGRAM.format(tools=str(TOP / "tools"), bug=bug))
            program.chmod(0o755)
            return self.run_it("--program", str(program), "--keep", room, *words)

    def test_a_watch_without_a_bug(self) -> None:
        status, lines = self.over("Watcher", "--only", "w-1-0")
        self.assertEqual(status, 0, lines)
        self.assertRegex(lines[-1], "^[1-9][0-9]* passed, 0 failed$")

    def test_a_watch_with_a_bug(self) -> None:
        for bug in ("TellsFrameAfter", "ForgetsRelations", "EndsWell"):
            status, lines = self.over(bug, "--only", "w-1-0")
            self.assertEqual(status, 1, bug)
            self.assertRegex(lines[-1], "^[0-9]+ passed, [1-9][0-9]* failed$")
            self.assertIn("FAILED w-1-0: ", lines[0])

    def test_streams_alone_are_too_few(self) -> None:
        """Where no edit breaks a rule, that rule wasn't tried."""
        with mock.patch.object(watches, "watched", lambda _, *given: Watcher().run(*given)):
            status, lines = self.run_it("--program", "/bin/true", "--count", "0")
        self.assertEqual(status, 1)
        self.assertEqual(lines[-1], f"{len(STREAMS)} passed, {len(RULES)} failed")
        found = Found()
        found.edited.update(RULES[1:])
        self.assertEqual(unbroken(found), ["no edit breaks order"])

    def test_each_planted_bug_is_found(self) -> None:
        status, lines = self.run_it("--planted", "--count", "60")
        bugs = len(BUGS) + len(repeat_bugs.BUGS) + 2
        self.assertEqual((status, lines[-1]), (0, f"{bugs} passed, 0 failed"))
        self.assertIn("no bug: nothing differs", lines)
        self.assertEqual(lines[-2], "no bug in comparing: nothing differs")

    def test_lives_that_repeat_commits(self) -> None:
        """Each kind of history, by a program without a bug, and by one that tells of no other
        commits."""
        for program, status in ((repeat_bugs.Program(), 0), (repeat_bugs.BUGS[0], 1)):
            by = mock.patch.object(watches, "live", lambda _, *it, by=program: by.live(*it))
            with by, tempfile.TemporaryDirectory() as room:
                words = "--program", "/bin/true", "--keep", room, "--only"
                told = [self.run_it(*words, f"{it}-1-0") for it in "rb"]
            self.assertEqual(max(it for it, _ in told), status)
            self.assertEqual([len(lines) for _, lines in told if lines], [2, 2 + status])

    def test_each_kind_of_edit_is_made(self) -> None:
        kinds = {kind for number in range(10) for kind, _, _ in made(f"w-1-{number}").sessions}
        self.assertEqual(kinds, {"whole", "cut", *EDITS})

    def test_a_session_is_cut_off_at_each_byte(self) -> None:
        case = next(it for it in map(made, ("c-1-0", "c-1-1", "c-1-2")) if it.contents()[0])
        whole = case.contents()[0]
        cuts = [content for kind, content, _ in case.sessions if kind == "cut"]
        self.assertEqual(
            cuts[: min(len(whole), 1500)], [whole[:it] for it in range(len(whole))][:1500]
        )

    def test_a_history_is_the_same_each_time(self) -> None:
        one, other = made("w-1-7"), made("w-1-7")
        self.assertEqual(one.contents(), other.contents())
        self.assertIn("whole", [kind for kind, _, _ in one.sessions])
