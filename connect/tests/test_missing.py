"""Changes that found no row: that they are counted before anything of them is confirmed, told, and
kept until they are accepted."""

from __future__ import annotations

import json
import os
import signal
import unittest
from collections.abc import Sequence
from pathlib import Path
from unittest import mock

from pgsub_connect import cli
from pgsub_connect.commands import follow
from pgsub_connect.commands.arguments.session import ACCEPTED
from pgsub_connect.commands.follow import ENDS
from pgsub_connect.drift.remembered import Remembered
from pgsub_connect.errors import MISSED, ServerError
from pgsub_connect.follow.follower import Follower
from pgsub_connect.server.connection import Connection
from pgsub_connect.server.session import Subscription
from pgsub_connect.status.files import status_fields
from pgsub_connect.status.progress import Progress
from pgsub_connect.status.state import Counted
from pgsub_connect.store.checkpoint import Checkpoint, read_known
from pgsub_connect.store.checkpoint_lines import Known, read_file
from pgsub_connect.stream.awake import Awake
from pgsub_connect.stream.common import Common, Tolerance
from pgsub_connect.stream.filter_end import FilterEnded, Missing
from pgsub_connect.stream.filter_input import FilterInput
from pgsub_connect.stream.messages import flushed
from pgsub_connect.stream.missed_rows import Misses, texts_of
from pgsub_feed.errors import UNFIT, Passing, Unfit

from .test_following import FAKE, Case
from .vectors import a_catalog, a_table, begin, commit, delete, insert, keepalive

# Commits, the first of which ends at 0/108.
ONE = [begin(0x100, 7), insert(1), commit(0x100, 0x108)]
FIRST_OF_T = "the first one of public.t (1) in the commit that ends at 0/108"
GAP = "not counted in the commits that end behind 0/0 and up to 0/108: the filter, the connector or the machine ended before"


def missing_commit(lsn: int, count: int = 1) -> list[bytes]:
    """A commit with so many changes that find no row; it ends at `lsn + 8`."""
    return [begin(lsn, 7), *[delete(1)] * count, commit(lsn, lsn + 8)]


def status(confirmed: int) -> bytes:
    return b"r" + confirmed.to_bytes(8, "big") * 3 + bytes(9)


def counted_in(checkpoint: Checkpoint) -> Counted | None:
    """What the file of a checkpoint says of changes that found no row."""
    return read_file(checkpoint.file, checkpoint.path).counted


class FollowCase(Case):
    def setUp(self) -> None:
        super().setUp()
        # (each run of a test has the file anew)
        self.patch(Checkpoint, "lock", lambda *_: None)

    def says(self, text: str) -> None:
        with open(self.store + ".says", "w", encoding="ascii") as file:
            file.write(text)

    def takes_late(self, follower: Follower) -> None:
        """Has the filter take no commit before it was told that nothing more comes."""
        self.says(f"late {self.folder}/goes_on")
        finish = follower.life.filter.finish

        def finishes() -> None:
            finish()
            Path(self.folder, "goes_on").touch()

        self.patch(follower.life.filter, "finish", finishes)

    def stored(self) -> int:
        with open(self.store, encoding="ascii") as file:
            return int(file.read())

    def counted(self) -> Counted | None:
        """What the file says."""
        return counted_in(self.checkpoint)

    def lines(self) -> list[str]:
        return [it for it in self.said if "found: missing" in it]


class Order(FollowCase):
    """What is on the disk before the server is told."""

    def events(self, follower: Follower) -> list[tuple[str, int, int]]:
        """What happens from now on: `sent` with what is confirmed, `wrote` and `synced` with the
        count and the position of the checkpoint."""
        happened: list[tuple[str, int, int]] = []
        send, write, sync = Connection.send, os.pwrite, os.fdatasync

        def note(what: str) -> None:
            counted = counted_in(follower.confirming.checkpoint)
            happened.append(
                (
                    what,
                    counted.count if counted else 0,
                    read_known(follower.confirming.checkpoint.path).position,
                )
            )

        def sends(connection: Connection, payload: bytes) -> None:
            happened.append(("sent", flushed(payload), 0))
            send(connection, payload)

        def writes(file: int, content: bytes, at: int) -> int:
            done = write(file, content, at)
            note("wrote")
            return done

        def syncs(file: int) -> None:
            sync(file)
            note("synced")

        self.patch(Connection, "send", sends)
        self.patch(os, "pwrite", writes)
        self.patch(os, "fdatasync", syncs)
        return happened

    def run_with(self, payloads: Sequence[bytes], end: int) -> list[tuple[str, int, int]]:
        follower, heard = self.follower(heartbeat=0.01), set[int]()
        happened = self.events(follower)
        self.server.to_send = list(payloads)

        def holds() -> bool:
            # (the second part of a line is said once the first one was read)
            child = follower.life.filter
            if child.runs and child.said.line and child.said.missing.total not in heard:
                heard.add(child.said.missing.total)
                Path(self.folder, "goes_on").touch()
            return self.confirmed() >= end

        self.run_until(follower, holds)
        return happened

    def test_missing_ones_are_counted_before_they_are_confirmed(self) -> None:
        for late in (False, True):
            with self.subTest(late=late):
                if late:
                    self.says(f"parts {self.folder}/goes_on")
                    os.unlink(self.store)
                    os.unlink(self.store + ".connector")
                    self.server.forget()
                happened = self.run_with(
                    [*ONE, *missing_commit(0x110, 2), *missing_commit(0x120)], 0x128
                )
                for lsn, count in ((0x118, 2), (0x128, 3)):
                    first = next(
                        index
                        for index, it in enumerate(happened)
                        if it[0] == "sent" and it[1] >= lsn
                    )
                    self.assertTrue(
                        any(
                            what == "synced" and noted >= count
                            for what, noted, _ in happened[:first]
                        ),
                        happened,
                    )
                self.assertEqual(self.counted(), Counted(0, 0x128, 3, 0x118, 1))

    def test_any_other_commit_is_confirmed_first(self) -> None:
        """And nothing is synced for it."""
        happened = self.run_with(ONE, 0x108)
        sent = happened.index(("sent", 0x108, 0))
        self.assertNotIn(
            0x108, [position for what, _, position in happened[:sent] if what != "sent"]
        )
        self.assertIn(("wrote", 0, 0x108), happened[sent:])
        self.assertNotIn(0x108, [position for what, _, position in happened if what == "synced"])
        self.assertEqual(self.counted(), Counted(0, 0x108))

    def test_what_only_a_keepalive_confirms_is_noted_first(self) -> None:
        happened = self.run_with([*ONE, keepalive(0x200, asks=True)], 0x200)
        sent = next(
            index for index, it in enumerate(happened) if it[0] == "sent" and it[1] >= 0x200
        )
        self.assertEqual(happened[sent - 1][0], "synced")
        self.assertEqual(
            (read_known(self.checkpoint.path).confirmed, self.counted()), (0x200, Counted(0, 0x108))
        )

    def test_what_a_keepalive_confirms_beside_a_commit_waits(self) -> None:
        """The commit is confirmed at once, without a sync; the rest a second later, or at once
        where the server asks."""
        for asked in (None, 0x200):
            with self.subTest(asked=asked):
                follower, happened = self.follower(), list[int | str]()
                follower.noting.note_all(ONE)
                self.checkpoint.begin_counting(0, False)
                self.patch(
                    follower.confirming,
                    "connection",
                    mock.Mock(send=lambda it: happened.append(flushed(it))),
                )
                self.patch(os, "fdatasync", lambda _: happened.append("synced"))
                follower.confirming.last_moved, follower.noting.asked = float("inf"), asked
                happened.clear()
                follower.confirming.forward([status(0x200)])
                rest: list[int | str] = ["synced", 0x200]
                self.assertEqual(happened, [0x108, *(rest if asked else [])])
                self.assertEqual(follower.confirming.position, 0x108)
                follower.confirming.last_moved = 0.0
                follower.confirming.forward([])
                follower.confirming.forward([])
                self.assertEqual(happened, [0x108, *rest])
                os.unlink(self.store + ".connector")

    def test_what_is_confirmed_already_isnt_confirmed_in_parts(self) -> None:
        """Commits that come again, below what a keepalive had confirmed."""
        follower, sent = self.follower(), list[int]()
        follower.noting.note_all(ONE)
        self.checkpoint.write(False, confirmed=0x180)
        self.checkpoint.begin_counting(0, False)
        self.patch(
            follower.confirming, "connection", mock.Mock(send=lambda it: sent.append(flushed(it)))
        )
        follower.confirming.last_moved = float("inf")
        follower.confirming.forward([status(0x108)])
        follower.noting.note_all([begin(0x110, 7), commit(0x110, 0x118)])
        follower.confirming.forward([status(0x200)])
        self.assertEqual((sent, follower.confirming.held), ([0x108], status(0x200)))

    def test_a_status_isnt_repeated_that_couldnt_be_noted(self) -> None:
        """Not by a heartbeat either."""
        follower, sent = self.follower(), list[int]()
        follower.confirming.told = follower.life.filter.status = status(0x100)
        follower.confirming.position = 0x100
        follower.noting.note_all(ONE)
        self.checkpoint.begin_counting(0x100, False)

        def serve(*_: object) -> tuple[list[int], list[int], list[bytes]]:
            follower.life.filter.status = status(0x108)
            follower.life.filter.said.missing = Missing(1, 0x108, 1)
            return [], [], [status(0x108)]

        self.patch(follower.life.filter, "serve", serve)
        self.patch(follower.life.filter, "runs", True)
        self.patch(
            follower.confirming, "connection", mock.Mock(send=lambda it: sent.append(flushed(it)))
        )
        with mock.patch("os.fdatasync", side_effect=OSError(28, "No space left on device")):
            with self.assertRaisesRegex(Passing, "No space"):
                follower.requests.upkeep.attend()
            follower.confirming.last_sent = 0.0
            follower.session.schedule.keep_alive(0.0)
        self.assertEqual(sent, [0x100])
        follower.requests.upkeep.attend()
        self.assertEqual(
            (sent[-1], self.checkpoint.counted), (0x108, Counted(0x100, 0x108, 1, 0x108, 1))
        )

    def test_a_status_that_cant_be_sent_is_noted(self) -> None:
        follower = self.follower()
        follower.noting.note_all(ONE)
        self.checkpoint.begin_counting(0, False)
        self.patch(
            follower.confirming,
            "connection",
            mock.Mock(send=mock.Mock(side_effect=ServerError("lost"))),
        )
        with self.assertRaises(ServerError):
            follower.confirming.forward([status(0x108)])
        self.assertEqual(
            (self.counted(), read_known(self.checkpoint.path).position), (Counted(0, 0x108), 0x108)
        )


class Calls(FollowCase):
    """What a commit takes of the system's calls."""

    def calls(self, is_wrapped: bool) -> tuple[list[int], list[bool]]:
        """What waits for the filter each time that it is looked what is ready, and of each read of
        the server whether it was told of."""
        follower = self.follower()
        waiting, told, is_ready = list[int](), list[bool](), list[bool]()
        serve, consume = follower.life.filter.serve, Connection.consume

        def serves(
            timeout: float,
            reads: Sequence[int] = (),
            writes: Sequence[int] = (),
            awake: Awake | None = None,
        ) -> tuple[list[int], list[int], list[bytes]]:
            waiting.append(follower.life.filter.input.waiting)
            readable, writable, statuses = serve(timeout, reads, writes, awake)
            is_ready.append(
                not (readable or writable) or any(it in (*readable, *writable) for it in reads)
            )
            return readable, writable, statuses

        def consumes(connection: Connection) -> None:
            if connection is follower.session.connection and follower.progress.state == "following":
                told.append(is_ready[-1])
            consume(connection)

        with mock.patch.multiple(Connection, consume=consumes, is_wrapped=lambda _: is_wrapped):
            real = follower.session.run

            def session() -> None:
                with mock.patch.object(follower.life.filter, "serve", serves):
                    real()

            self.patch(follower.session, "run", session)
            self.server.to_send = [
                *ONE,
                *[
                    it
                    for lsn in range(0x200, 0x300, 16)
                    for it in (begin(lsn, 7), insert(1), commit(lsn, lsn + 8))
                ],
            ]
            self.server.forget()
            self.run_until(follower, lambda: self.confirmed() == 0x2F8)
        return waiting, told

    def test_none_in_vain(self) -> None:
        waiting, told = self.calls(is_wrapped=False)
        self.assertEqual(set(waiting), {0})
        self.assertNotIn(False, told)

    def test_what_has_come_is_passed_on_first(self) -> None:
        """And what is confirmed: nothing else is done between the system's calls."""
        follower, happened = self.follower(), list[str]()

        def noted(where: object, name: str) -> None:
            real = getattr(where, name)

            def call(*words: object, **more: object) -> object:
                happened.append(name)
                return real(*words, **more)

            self.patch(where, name, call)

        for where, names in (
            (Connection, ("consume", "send")),
            (follower.life.filter, ("serve",)),
            (FilterInput, ("written_of",)),
            (follower.noting, ("note_all", "show")),
            (follower.watch, ("tend",)),
            (follower.adder, ("wants_session", "step")),
            (follower.misses, ("tell",)),
            (follower.confirming.checkpoint, ("note",)),
            (follower.snapshots, ("is_due",)),
        ):
            for name in names:
                noted(where, name)
        self.server.to_send = list(ONE)
        self.run_until(follower, lambda: self.confirmed() == 0x108)
        text = " ".join(happened)
        # (what came with the answer to the command is there without a read)
        self.assertRegex(text, "serve (consume )?written_of note_all")
        self.assertIn("serve send note", text)

    def test_what_an_encrypted_connection_has_read_already(self) -> None:
        """Nothing tells of it."""
        self.assertIn(False, self.calls(is_wrapped=True)[1])


class Killed(FollowCase):
    def test_between_the_store_and_the_note(self) -> None:
        """The filter is lost with what it had to say; the next one of the same run finds the store
        further."""
        self.says(f"dies {0x108}")
        follower = self.follower()
        self.server.to_send = [*missing_commit(0x100), *missing_commit(0x110)]
        self.run_until(
            follower, lambda: self.progress.server.sessions >= 2 and self.stored() == 0x108
        )
        self.assertIn(f"warning: found: missing at 0/0: {GAP}", self.said)
        self.assertEqual(counted_in(self.checkpoint), Counted(0, 0x108, gap=(0, 0x108)))
        self.assertEqual(self.progress.findings.found, {"missing": GAP})
        shown = status_fields(self.progress, 0.0, 0.0)
        self.assertEqual(
            (shown["not_counted"], shown["counted_upto"], shown["missing"]),
            (["0/0", "0/108"], "0/108", 0),
        )

    def test_a_connector_that_was_killed(self) -> None:
        """The store is further than it had noted: it isn't known what its commits found."""
        follower = self.follower()
        self.checkpoint.put(True, Known(), Counted(0, 0x100))
        with open(self.store, "w", encoding="ascii") as file:
            file.write(str(0x108))
        self.checkpoint.write(True, phase="following", position=0x100, confirmed=0x108)
        self.run_until(follower, lambda: self.server.sessions == 1)
        self.assertEqual(
            (self.counted(), len(self.lines())), (Counted(0, 0x108, gap=(0x100, 0x108)), 1)
        )
        for strict in (False, True):
            self.said.clear()
            follower = self.follower(strict=strict)
            if strict:
                with self.assertRaisesRegex(
                    Unfit,
                    "missing: not counted in the commits that end behind 0/100 and up to 0/108",
                ):
                    follower.run()
            else:
                self.run_until(follower, lambda: self.server.sessions == 2)
            self.assertEqual(len(self.lines()), 1)

    def test_by_an_older_version(self) -> None:
        """Whose file doesn't say what was counted."""
        self.follower()
        self.checkpoint.write(True, phase="following", position=0x108, confirmed=0x108)
        with open(self.store, "w", encoding="ascii") as file:
            file.write(str(0x200))
        self.run_until(self.follower(strict=True), lambda: self.server.sessions == 1)
        self.assertEqual((self.counted(), self.lines()), (Counted(0x200, 0x200), []))

    def test_no_filter_is_killed_where_something_else_ends_the_run(self) -> None:
        """It would leave commits of which nobody knows."""
        follower = self.follower()
        self.takes_late(follower)
        self.server.to_send = [*ONE, *missing_commit(0x110)]

        def tend(*_: object) -> bool:
            if follower.noting.commits == 2:
                raise Unfit("something else")
            return False

        self.patch(follower.watch, "tend", tend)
        with self.assertRaisesRegex(Unfit, "something else"):
            follower.run()
        self.assertFalse(follower.life.filter.is_running())
        self.assertEqual((self.stored(), self.counted()), (0x118, Counted(0, 0x118, 1, 0x118, 1)))
        self.assertEqual(len(self.lines()), 1)


class Rejected(FollowCase):
    """What came right before a commit that is rejected is stored and counted, and not confirmed."""

    def follow(self, status: int, said: str) -> Follower:
        self.says(f"rejects {0x128} {status} {said}")
        follower = self.follower()
        self.server.to_send = [
            *ONE,
            *missing_commit(0x110, 2),
            begin(0x120, 8),
            insert(1),
            commit(0x120, 0x128),
        ]
        return follower

    def check(self) -> None:
        """The stretch isn't told as one that isn't counted."""
        self.assertEqual((self.stored(), self.counted()), (0x118, Counted(0, 0x118, 2, 0x118, 1)))
        self.assertEqual(len(self.lines()), 1)
        self.assertIn("found: missing at 0/118: 2 changes found no row", self.lines()[0])

    def test_in_the_next_run(self) -> None:
        for said in ("pgsub: store 1 Clash", "pgsub: wire 1 BadTag"):
            with self.subTest(said), self.assertRaises(FilterEnded):
                self.follow(1, said).run()
            self.check()
            self.said.clear()
            sessions = self.server.sessions + 1
            self.run_until(self.follower(), lambda: self.server.sessions == sessions)  # noqa: B023
            self.check()
            self.said.clear()
            for suffix in ("", ".connector"):
                os.unlink(self.store + suffix)

    def test_in_the_same_run(self) -> None:
        """Where it goes on with whole transactions."""
        self.run_until(
            self.follow(10, "pgsub: spool 1 SpoolFull"), lambda: self.server.sessions == 2
        )
        self.check()

    def test_where_the_store_failed(self) -> None:
        """It may have stored what it couldn't tell."""
        self.run_until(self.follow(13, "pgsub: store 8 Refused"), lambda: self.server.sessions == 2)
        counted = self.counted()
        self.assertEqual(counted and counted.gap, (0, 0x118))

    def test_one_that_doesnt_open_its_store(self) -> None:
        """It has said nothing of what a killed one before it had stored."""
        child, words = self.follower().life.filter, ["/bin/sh", "-c", "exit 1", "sh"]
        self.says(f"dies {0x108}")
        for by, told in ((child.words, False), (words, False), (child.words, True), (words, True)):
            child.words = by
            with self.assertRaises(FilterEnded):
                child.start()
                child.push_payloads(ONE)
                child.finish()
                while True:
                    child.serve(0.1)
            self.assertIs(child.has_told_all, told)


class Told(FollowCase):
    def misses(self, accept: Sequence[str] = ()) -> Misses:
        self.checkpoint = Checkpoint(self.store)
        self.addCleanup(os.close, self.checkpoint.file)
        self.progress, remembered = Progress(), Remembered(self.store)
        remembered.begin_copy(a_catalog(a_table(1, "t")), 100)
        known = self.checkpoint, self.progress, remembered
        return Misses(Common(Subscription(), Tolerance(accept), *known))

    def test_the_first_at_once_and_more_each_ten_seconds(self) -> None:
        misses = self.misses()
        misses.begin_filter(0, False)
        with mock.patch("time.monotonic") as clock:
            for now, count, told in (
                (100.0, 0, 0),
                (100.1, 1, 1),
                (101.0, 3, 1),
                (109.9, 4, 1),
                (110.1, 4, 2),
                (115.0, 4, 2),
                (125.0, 4, 2),
                (126.0, 5, 3),
                (127.0, 9, 3),
            ):
                clock.return_value = now
                if misses.is_news(it := Missing(count, 0x108, 1)):
                    misses.note(it, 0x108)
                misses.tell()
                self.assertEqual(len(self.lines()), told, now)
            misses.tell(is_last=True)
            misses.tell(is_last=True)
        self.assertEqual(
            self.lines(),
            [
                f"warning: found: missing at 0/108: {text}, {FIRST_OF_T}"
                for text in (
                    "1 change found no row",
                    "4 changes found no row",
                    "5 changes found no row",
                    "9 changes found no row",
                )
            ],
        )
        self.assertEqual((misses.count, self.progress.findings.missing_in), (9, "public.t (1)"))

    def test_those_of_several_filters(self) -> None:
        misses = self.misses()
        for position, missed in ((0, Missing(2, 0x108, 1)), (0x110, Missing(1, 0x118, 9))):
            misses.begin_filter(position, False)
            misses.note(missed, position + 0x10)
            self.assertFalse(misses.is_news(missed))
        self.assertEqual(self.checkpoint.counted, Counted(0, 0x120, 3, 0x108, 1, gap=(0x10, 0x110)))
        assert self.checkpoint.counted
        self.assertEqual(len(texts_of(self.checkpoint.counted, misses.remembered)), 2)

    def test_while_following(self) -> None:
        """The line, the status file and its findings."""
        self.server.to_send = missing_commit(0x100, 3)
        found: list[dict[str, object]] = []

        def holds() -> bool:
            now = status_fields(self.progress, 0.0, 0.0)
            if self.confirmed() == 0x108 and now.get("counted_upto") == "0/108":
                found.append(now)
            return bool(found)

        self.run_until(self.follower(), holds)
        text = f"3 changes found no row, {FIRST_OF_T}"
        self.assertEqual(self.lines(), [f"warning: found: missing at 0/108: {text}"])
        fields = {
            "missing": 3,
            "missing_first": "0/108",
            "missing_in": "public.t (1)",
            "counted_since": "0/0",
            "counted_upto": "0/108",
            "found": {"missing": text},
        }
        self.assertEqual({name: found[0].get(name) for name in fields}, fields)
        self.assertNotIn("not_counted", found[0])
        self.assertEqual(
            [it for it in self.said if "rows not found" in it or "status 16" in it], []
        )

    def test_what_comes_at_the_very_end(self) -> None:
        """The filter may store a commit after the end was asked for."""
        follower = self.follower()
        self.takes_late(follower)
        self.server.to_send = missing_commit(0x100)
        self.run_until(
            follower,
            lambda: follower.noting.commits == 1 and not follower.life.filter.input.waiting,
        )
        self.assertEqual((self.counted(), len(self.lines())), (Counted(0, 0x108, 1, 0x108, 1), 1))
        self.assertIn("missing", self.progress.findings.found)

    def test_at_each_start(self) -> None:
        self.server.to_send = missing_commit(0x100)
        self.run_until(self.follower(), lambda: self.confirmed() == 0x108)
        for sessions in (2, 3):
            self.said.clear()
            self.run_until(self.follower(), lambda sessions=sessions: self.server.sessions == sessions)  # type: ignore[misc]
            self.assertEqual(
                self.lines(),
                [f"warning: found: missing at 0/108: 1 change found no row, {FIRST_OF_T}"],
            )

    def test_a_filter_that_is_to_end(self) -> None:
        """With this status it has ended well."""
        follower = self.follower()
        ended = FilterEnded(16, "")
        for end in (follower.life.finish, follower.session.end):
            with mock.patch.multiple(
                follower.life.filter,
                create=True,
                runs=True,
                takes=False,
                serve=mock.Mock(side_effect=ended),
            ):
                end()
        self.assertEqual(self.said, [])


class Strict(FollowCase):
    def test_ends_at_the_first(self) -> None:
        self.server.to_send = [
            *ONE,
            *missing_commit(0x110),
            *[it for lsn in range(0x200, 0x300, 16) for it in missing_commit(lsn)],
        ]
        follower = self.follower(strict=True)
        with self.assertRaisesRegex(
            Unfit,
            "--accept KIND.*\nmissing: .* found no row, the first one of public.t .1. in the commit that ends at 0/118",
        ):
            follower.run()
        counted = self.counted()
        assert counted
        self.assertEqual((counted.first, counted.gap, counted.upto), (0x118, None, self.stored()))

    def test_refuses_each_start_until_they_are_accepted(self) -> None:
        self.server.to_send = missing_commit(0x100)
        self.run_until(self.follower(), lambda: self.confirmed() == 0x108)
        for accept in ([], ["values"]):
            with self.assertRaisesRegex(Unfit, "missing: 1 change found no row"):
                self.follower(strict=True, accept=accept).run()
        self.assertEqual(self.server.sessions, 1)
        self.said.clear()
        self.run_until(
            self.follower(strict=True, accept=["missing"]), lambda: self.server.sessions == 2
        )
        self.assertEqual(
            (self.counted(), self.lines(), self.progress.findings.found),
            (Counted(0, 0x108), [], {}),
        )
        self.run_until(self.follower(strict=True), lambda: self.server.sessions == 3)

    def test_what_is_found_at_the_start_that_accepts_it(self) -> None:
        follower = self.follower(strict=True, accept=["missing"])
        self.checkpoint.put(
            True, Known("following", position=0x100, confirmed=0x108), Counted(0, 0x100)
        )
        with open(self.store, "w", encoding="ascii") as file:
            file.write(str(0x108))
        self.run_until(follower, lambda: self.server.sessions == 1)
        self.assertEqual((self.counted(), self.lines()), (Counted(0, 0x108), []))

    def test_a_table_that_is_added_waits_meanwhile(self) -> None:
        """Where it was told beside something else, it ends the following afterwards."""
        follower = self.follower(strict=True)
        self.checkpoint.begin_counting(0, False)
        follower.misses.note(Missing(1, 0x108, 1), 0x108)
        self.patch(follower.life, "serve", lambda *_: ([], [], []))
        self.patch(follower.life.filter, "runs", True)
        follower.confirming.last_sent = float("inf")
        follower.requests.upkeep.attend()
        self.assertEqual(len(self.lines()), 1)
        with self.assertRaises(Unfit):
            follower.life.tend_misses()


class Statuses(FollowCase):
    """Of the command, which the tests call in its own process: signals come to the main thread
    alone."""

    def command(self, *words: str) -> int:
        return cli.main(
            [
                "follow",
                "--store",
                self.store,
                "--dsn",
                self.server.dsn(),
                "--pgsub",
                FAKE,
                "--status-file",
                self.folder + "/status",
                *words,
            ]
        )

    def test_of_the_command(self) -> None:
        self.patch(follow, "Asker", mock.Mock())
        self.addCleanup(os.umask, os.umask(0o077))
        for number in (signal.SIGINT, signal.SIGTERM, signal.SIGUSR1):
            self.addCleanup(signal.signal, number, signal.getsignal(number))
        with open(self.store, "w", encoding="ascii") as file:
            file.write("0")
        for payloads, end, code in (
            (ONE, "0/108", 0),
            (missing_commit(0x110), "0/118", MISSED),
            (missing_commit(0x120)[:1], "0/118", 0),
        ):
            self.server.to_send = list(payloads)
            self.assertEqual(self.command("--until", end), code, end)
        with open(self.folder + "/status", encoding="utf-8") as file:
            shown = json.load(file)
        self.assertEqual(
            (shown["missing"], shown["state"], list(shown["found"])), (1, "stopped", ["missing"])
        )
        self.assertEqual(self.command("--strict", "--until", "0/118"), UNFIT)
        self.assertEqual(self.command("--strict", "--accept", "missing", "--until", "0/118"), 0)

    def test_help(self) -> None:
        self.assertIn("9 as 0, but changes", ENDS)
        self.assertIn("missing", ACCEPTED)


if __name__ == "__main__":
    unittest.main()
