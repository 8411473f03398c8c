"""A server that breaks a rule of a well-formed one, or isn't watched any further: that it is kept
before anything behind it is confirmed, told, and stays until it is accepted."""

from __future__ import annotations

import json
import os
import signal
import unittest
from collections.abc import Sequence
from unittest import mock

from pgsub_connect import cli
from pgsub_connect.commands import follow
from pgsub_connect.commands.arguments.session import ACCEPTED
from pgsub_connect.drift.findings import REPEAT, RULE, UNWATCHED
from pgsub_connect.drift.remembered import Remembered
from pgsub_connect.follow.follower import Follower
from pgsub_connect.server.connection import Connection
from pgsub_connect.status.files import status_fields
from pgsub_connect.status.health import faults
from pgsub_connect.status.metrics import metrics_text
from pgsub_connect.store.checkpoint_lines import read_file
from pgsub_connect.stream.common import Tolerance
from pgsub_connect.stream.filter_end import FilterEnded
from pgsub_connect.stream.watch_lines import FilterSaid
from pgsub_connect.stream.messages import flushed
from pgsub_connect.stream.watch_lines import Told, told_of
from pgsub_feed.errors import UNFIT, Passing, Unfit
from pgsub_feed.interruption import never

from .test_following import FAKE
from .test_missing import FollowCase
from .vectors import begin, commit, insert

WHAT = "a commit's end 0/118 is not above the end 0/200 of the keepalive at 61"
LINE = f"pgsub: watch: rule 4 broken at 345: {WHAT}"
TEXT = f"rule 4 broken by the frame at byte 345 of a session: {WHAT}"
STAYS = f"{TEXT}; nothing of that is stored"
FULL = "pgsub: watch: not watched from 77 on: no more is held"
FULL_TEXT = "a session from its frame at byte 77 on: no more is held"
STRANGE = "pgsub: watch: rule 9 is new"
STRANGE_TEXT = "what the filter said of it can't be read: rule 9 is new"
# Commits that end at 0/108, 0/118 and 0/128.
THREE = [
    it for lsn in (0x100, 0x110, 0x120) for it in (begin(lsn, 7), insert(1), commit(lsn, lsn + 8))
]
# What is told of commits that came again.
AGAIN_TEXT = "the commit that ends at 0/118 came before with another xid"
AGAIN = f"pgsub: repeats: {AGAIN_TEXT}"
LOST = "pgsub: repeats: not compared from 77 on: memory"
LOST_TEXT = "commits that came again from the frame at byte 77 on: memory"
UNKEPT = "pgsub: repeats: can't write /x/copy.db.repeats: not kept"
UNKEPT_TEXT = (
    "commits that come again after the filter's end: can't write /x/copy.db.repeats: not kept"
)
KINDS = {
    LINE: (RULE, TEXT),
    AGAIN: (REPEAT, AGAIN_TEXT),
    FULL: (UNWATCHED, FULL_TEXT),
    STRANGE: (UNWATCHED, STRANGE_TEXT),
    LOST: (UNWATCHED, LOST_TEXT),
    UNKEPT: (UNWATCHED, UNKEPT_TEXT),
}


CONTRADICTIONS = (
    *(f"the commit that ends at 0/118 came before with another {it}" for it in ("LSN", "time")),
    "the commit that ends at FFFFFFFF/FFFFFFF8 came before with another list of changes",
    "the commit that ends at 0/118 wasn't between those that came before",
    "the commit that ends at 0/118 came before and is left out",
    "a commit's LSN 0/110 is below the end 0/118 of one that came before",
)
NOTED = (
    "pgsub: repeats: 1 commits are noted, up to 0/118",
    "pgsub: repeats: 0 commits are noted, up to 0/0",
    "pgsub: repeats: 65536 commits are noted, up to 1/118, 2 records unreadable",
)
COUNTED = "pgsub: repeats: 3 equal, 0 unknown, 1 forgotten"
UNUSABLE = "pgsub: repeats: can't use /x/copy.db.repeats: it is no file of noted commits"


class Lines(unittest.TestCase):
    def test_what_they_tell(self) -> None:
        for line, kind, text in (
            (LINE, RULE, TEXT),
            ("pgsub: watch: order broken at 0: order 2 NestedBegin", RULE, None),
            (FULL, UNWATCHED, FULL_TEXT),
            (STRANGE, UNWATCHED, STRANGE_TEXT),
            ("pgsub: watch: ", UNWATCHED, None),
            ("pgsub: watch: rule 4 broken at 345: ", UNWATCHED, None),
            ("pgsub: watch: rule 1 broken at 3: more", UNWATCHED, None),
            *((f"pgsub: repeats: {it}", REPEAT, it) for it in CONTRADICTIONS),
            (LOST, UNWATCHED, LOST_TEXT),
            (UNKEPT, UNWATCHED, UNKEPT_TEXT),
            ("pgsub: repeats: ", UNWATCHED, None),
            ("pgsub: repeats: the commit that ends at 0/118 is new", UNWATCHED, None),
            ("pgsub: repeats: 3 equal, 4 unknown", UNWATCHED, None),
        ):
            told = told_of(line)
            assert told
            self.assertEqual(told.kind, kind, line)
            self.assertIn(told.text, (text or told.text,))

    def test_others(self) -> None:
        said = "pgsub: read", "pgsub: store 1 Clash", "", "pgsub: watched: no", "pgsub: repeats"
        for line in (*said, *NOTED, COUNTED, UNUSABLE):
            self.assertIsNone(told_of(line))

    def test_counts_of_nothing_are_heard_alone(self) -> None:
        """Nobody who reads what a follower says has to know them."""
        none = "pgsub: repeats: 0 equal, 0 unknown, 0 forgotten"
        said = FilterSaid()
        with mock.patch("pgsub_connect.stream.watch_lines.log.info") as info:
            for line in (*NOTED, none, COUNTED):
                said.hear(line)
        told = [f"filter: {it}" for it in (NOTED[2], COUNTED)]
        self.assertEqual([it.args[0] for it in info.call_args_list], told)
        self.assertEqual((said.noted, said.said), (0x100000118, ""))

    def test_what_is_noted_is_no_reason_of_an_end(self) -> None:
        """The fault that it told before is."""
        for line, end in zip(NOTED, (0x118, 0, 0x100000118)):
            said = FilterSaid()
            for it in (line, "pgsub: store 1 Clash", COUNTED):
                said.hear(it)
            self.assertEqual((said.noted, said.reason(1)), (end, "pgsub: store 1 Clash"))
        said.hear(UNUSABLE)
        self.assertEqual(said.reason(3), UNUSABLE)

    def test_the_reason_of_an_end(self) -> None:
        """After it has told of a rule, a filter says that it can't read more."""
        said = FilterSaid()
        for line in (LINE, "pgsub: read"):
            said.hear(line)
        self.assertEqual((said.reason(17), said.reason(15)), (TEXT, "pgsub: read"))
        self.assertEqual((said.take_news(), said.take_news()), ([Told(RULE, TEXT)], []))

    def test_the_status_of_an_end(self) -> None:
        ended = FilterEnded(17, TEXT)
        self.assertEqual((ended.exit_status(), ended.is_rejection()), (UNFIT, True))
        self.assertTrue(ended.has_told_all())
        self.assertIn(TEXT, str(ended))


class Kept(FollowCase):
    def found(self, follower: Follower) -> dict[str, str]:
        """What the file of a checkpoint says."""
        checkpoint = follower.confirming.checkpoint
        return read_file(checkpoint.file, checkpoint.path).known.found

    def lines_of(self, kind: str) -> list[str]:
        return [it for it in self.said if f"found: {kind} at" in it]

    def run_with(self, follower: Follower, payloads: Sequence[bytes] = THREE) -> None:
        self.server.to_send = list(payloads)
        self.run_until(follower, lambda: self.confirmed() == 0x128)

    def test_before_what_comes_behind_is_confirmed(self) -> None:
        """And what comes behind is stored all the same."""
        for line, (kind, text) in KINDS.items():
            with self.subTest(line):
                self.says(f"tells {0x118} {line}")
                follower, sent = self.follower(), list[tuple[int, bool, bool]]()
                send = Connection.send

                def sends(
                    connection: Connection,
                    payload: bytes,
                    follower: Follower = follower,
                    kind: str = kind,
                ) -> None:
                    file = Remembered(self.store).found
                    sent.append((flushed(payload), kind in self.found(follower), kind in file))
                    send(connection, payload)

                with mock.patch.object(Connection, "send", sends):
                    self.run_with(follower)
                behind = [it[1:] for it in sent if it[0] >= 0x118]
                self.assertEqual(set(behind), {(True, True)})
                self.assertEqual(list(Remembered(self.store).found[kind].texts), [text])
                self.assertEqual(self.progress.findings.found, {kind: text})
                (told,) = self.lines_of(kind)
                self.assertTrue(told.endswith(f": {text}"), told)
                self.said.clear()
                for suffix in ("", ".connector", ".tables", ".says"):
                    os.unlink(self.store + suffix)
                self.server.forget()

    def test_at_each_start_until_it_is_accepted(self) -> None:
        for line, (kind, text) in KINDS.items():
            with self.subTest(line):
                self.says(f"tells {0x118} {line}")
                self.run_with(self.follower())
                os.unlink(self.store + ".says")
                for accept, told in (((), 1), (("names",), 1), ((kind,), 0), ((), 0)):
                    self.said.clear()
                    sessions = self.server.sessions + 1
                    follower = self.follower(accept=accept)
                    self.run_until(follower, lambda sessions=sessions: self.server.sessions == sessions)  # type: ignore[misc]
                    self.assertEqual(len(self.lines_of(kind)), told)
                    self.assertEqual(self.progress.findings.found, {kind: text} if told else {})
                os.unlink(self.store)
                self.server.forget()

    def test_what_is_told_right_before_a_rejection(self) -> None:
        """It is shown, too."""
        follower = self.follower()
        follower.watch.hear([Told(RULE, TEXT)], 0x108)
        self.patch(follower.life, "tell_rejected", lambda _: None)
        with self.assertRaises(FilterEnded):
            follower.life.note_end(FilterEnded(1, "pgsub: relation 5 UnknownRelation"))
        self.assertEqual(self.progress.findings.found, {RULE: TEXT})

    def test_where_the_disk_is_full(self) -> None:
        """The checkpoint says that there was something, and the log what."""
        self.says(f"tells {0x118} {LINE}")
        follower = self.follower()
        self.server.to_send = list(THREE)
        with mock.patch.object(Remembered, "put", side_effect=Passing("no space")):
            with self.assertRaisesRegex(Passing, "no space"):
                follower.run()
        self.assertIn(RULE, self.found(follower))
        self.assertIn(f"filter: {LINE}", self.said)


class Ends(FollowCase):
    """Of a follower that is to be strict."""

    def lines_of(self, kind: str) -> list[str]:
        return [it for it in self.said if f"found: {kind} at" in it]

    def test_at_the_first(self) -> None:
        """It has what came before, and tells what it was; the next start says it again."""
        for line in (LINE, AGAIN):
            with self.subTest(line):
                self.check_end(line, *KINDS[line])

    def check_end(self, line: str, kind: str, text: str) -> None:
        self.says(f"stops {0x118} {line}")
        self.server.to_send, sessions = list(THREE), self.server.sessions + 1
        with self.assertRaises(Unfit) as raised:
            self.follower(strict=True).run()
        told = f"the copy may be wrong .*--accept KIND.*\n{kind}: {text}; nothing of that is stored"
        self.assertRegex(str(raised.exception), told)
        self.assertEqual((self.stored(), self.server.sessions), (0x108, sessions))
        self.assertEqual(len(self.lines_of(kind)), 1)
        self.assertEqual((self.progress.restarts, self.counted()), (0, self.checkpoint.counted))
        with self.assertRaisesRegex(Unfit, told):
            self.follower(strict=True).run()
        self.assertEqual(self.server.sessions, sessions)
        for suffix in ("", ".connector", ".tables"):
            os.unlink(self.store + suffix)
        self.said.clear()
        self.server.forget()

    def test_whichever_is_seen_first(self) -> None:
        """The line, or that the filter has ended."""
        follower = self.follower(strict=True)
        follower.watch.hear([Told(RULE, TEXT)], 0x108)
        with self.assertRaisesRegex(Unfit, f"rule: {TEXT}; nothing of that is stored"):
            follower.watch.tend(False, never, 0x108)
        with self.assertRaisesRegex(Unfit, f"rule: {TEXT}; nothing of that is stored"):
            follower.life.note_end(FilterEnded(17, TEXT))

    def test_not_where_it_isnt_watched(self) -> None:
        for line in (FULL, STRANGE):
            with self.subTest(line):
                self.says(f"tells {0x118} {line}")
                self.server.to_send = list(THREE)
                self.run_until(self.follower(strict=True), lambda: self.confirmed() == 0x128)
                self.assertEqual(len(self.lines_of(UNWATCHED)), 1)
                self.assertIn(UNWATCHED, self.progress.findings.found)
                for suffix in ("", ".connector", ".tables"):
                    os.unlink(self.store + suffix)
                self.said.clear()
                self.server.forget()

    def test_what_was_accepted_passes(self) -> None:
        """It comes again, and is stored; and it is found again, since it isn't the same one for
        certain."""
        self.says(f"stops {0x118} {LINE}")
        self.server.to_send = list(THREE)
        with self.assertRaises(Unfit):
            self.follower(strict=True).run()
        self.says(f"tells {0x118} {LINE}")
        self.server.to_send = list(THREE)
        self.run_until(self.follower(strict=True, accept=[RULE]), lambda: self.confirmed() == 0x128)
        self.assertEqual(self.progress.findings.found, {RULE: TEXT})
        with self.assertRaisesRegex(Unfit, "rule: "):
            self.follower(strict=True).run()

    def test_a_line_that_doesnt_come(self) -> None:
        """The status alone says enough."""
        self.says(f"rejects {0x118} 17 pgsub: read")
        self.server.to_send = list(THREE)
        with self.assertRaises(FilterEnded) as raised:
            self.follower(strict=True).run()
        self.assertEqual(raised.exception.exit_status(), UNFIT)
        self.assertEqual(self.server.sessions, 1)


class Words(FollowCase):
    """Of the command, which the tests call in its own process."""

    def setUp(self) -> None:
        super().setUp()
        self.patch(follow, "Asker", mock.Mock())
        self.addCleanup(os.umask, os.umask(0o077))
        for number in (signal.SIGINT, signal.SIGTERM, signal.SIGUSR1):
            self.addCleanup(signal.signal, number, signal.getsignal(number))

    def command(self, *words: str) -> int:
        own = ["--store", self.store, "--dsn", self.server.dsn(), "--pgsub", FAKE]
        return cli.main(["follow", *own, "--status-file", self.folder + "/status", *words])

    def test_what_the_filter_is_told(self) -> None:
        for words, how in (
            ((), "tell"),
            (("--accept", "rule"), "tell"),
            (("--strict",), "stop"),
            (("--strict", "--accept", "values"), "stop"),
            (("--strict", "--accept", "rule"), "tell"),
            (("--strict", "--accept", "all"), "tell"),
        ):
            _, options = cli.arguments(
                ["follow", "--store", self.store, "--dsn", "", "--pgsub", FAKE, *words]
            )
            checkpoint = mock.Mock(file=0)
            parts = follow.made(follow.settled(options), checkpoint)
            self.assertEqual(parts.child.words[-2:], ["--watch", how], words)
            assert parts.child.repeats
            self.assertEqual(parts.child.repeats.path, self.store + ".repeats")
            # (without it while it loads the first rows, which are no session)
            assert parts.copier
            self.assertIs(parts.copier.filter, parts.child)
            checkpoint.forget_repeats.assert_not_called()

    def test_none_are_noted_while_rows_are_copied(self) -> None:
        """Which is no session, and may end for want of room."""
        words = ["follow", "--create", "--store", self.store, "--dsn", "", "--pgsub", FAKE]
        options = follow.settled(cli.arguments(words)[1])
        parts, seen = follow.made(options, mock.Mock(file=0)), list[object]()
        file = parts.child.repeats
        with mock.patch.object(parts.copier, "run", lambda: seen.append(parts.child.repeats)):
            follow.begin(options, parts)
        self.assertEqual((seen, file is None), ([None], False))
        self.assertIs(parts.child.repeats, file)

    def test_how_far_it_watches(self) -> None:
        """Commits that come while none are noted aren't compared later, either."""
        for words, told in (
            (("--watch", "rules"), ["--watch", "tell"]),
            (("--watch", "rules", "--strict"), ["--watch", "stop"]),
            (("--watch", "no"), []),
        ):
            _, options = cli.arguments(
                ["follow", "--store", self.store, "--dsn", "", "--pgsub", FAKE, *words]
            )
            checkpoint = mock.Mock(file=0)
            child = follow.made(follow.settled(options), checkpoint).child
            at = child.words.index("--watch") if "--watch" in child.words else len(child.words)
            self.assertEqual((child.words[at:], child.repeats), (told, None), words)
            checkpoint.forget_repeats.assert_called_once_with()

    def test_statuses(self) -> None:
        with open(self.store, "w", encoding="ascii") as file:
            file.write("0")
        self.says(f"stops {0x118} {LINE}")
        self.server.to_send = list(THREE)
        self.assertEqual(self.command("--strict", "--until", "0/128"), UNFIT)
        with open(self.folder + "/status", encoding="utf-8") as status:
            shown = json.load(status)
        self.assertEqual((shown["found"], shown["state"]), ({RULE: STAYS}, "failed"))
        os.unlink(self.store + ".says")
        self.server.to_send = list(THREE)
        accepted = "--strict", "--accept", "rule", "--until", "0/128"
        self.assertEqual(self.command(*accepted), 0)

    def test_they_can_be_accepted(self) -> None:
        self.assertLessEqual({RULE, REPEAT, UNWATCHED}, set(ACCEPTED))


class Shown(FollowCase):
    def test_in_status_and_metrics(self) -> None:
        follower = self.follower()
        follower.watch.hear([Told(RULE, TEXT), Told(UNWATCHED, FULL_TEXT)], 0x108)
        follower.watch.show()
        text = metrics_text(self.progress, 0.0, {})
        for kind in (RULE, UNWATCHED):
            self.assertIn(f'pgsub_found{{kind="{kind}"}} 1', text)
        fields = status_fields(self.progress, 0.0, 0.0, self.store)
        told = {it.text: it.cure for it in faults({**fields, "state": "following"}, 0.0, 60.0, ())}
        self.assertIn(TEXT, told["the copy may be wrong: rule"])
        self.assertIn("--accept rule", told["the copy may be wrong: rule"])
        unwatched = told["the server wasn't watched all the time"]
        self.assertIn(FULL_TEXT, unwatched)
        self.assertIn("--accept unwatched", unwatched)
        self.assertEqual(len(told), 2)


class Ending(unittest.TestCase):
    def test_which_kinds(self) -> None:
        for accept, strict, stops, ends in (
            ((), False, False, set[str]()),
            ((), True, True, {"rule", "repeat", "values", "missing"}),
            (("rule",), True, False, {"repeat", "values", "missing"}),
            (("all",), True, False, {"repeat", "values", "missing"}),
            (("values", "repeat"), True, True, {"rule", "repeat", "values", "missing"}),
        ):
            tolerance = Tolerance(accept, strict)
            tolerance.end()
            kinds = RULE, REPEAT, UNWATCHED, "values", "missing"
            found = {it for it in kinds if tolerance.ends_at(it)}
            self.assertEqual((tolerance.stops, found), (stops, ends))


if __name__ == "__main__":
    unittest.main()
