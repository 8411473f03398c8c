"""Rows that are repaired within a running stream: what the store has in the end, and what is passed
on, wherever it is cut."""

from __future__ import annotations

import collections
import contextlib
import os
import struct
import time
import unittest
from collections.abc import Callable, Iterator
from unittest import mock

from pgsub_connect.copy.messages import relation as relation_body
from pgsub_connect.drift.findings import About
from pgsub_connect.drift.remembered import Remembered
from pgsub_connect.errors import Unrepaired
from pgsub_connect.follow import snapshots
from pgsub_connect.follow.drift_watch import Watch
from pgsub_connect.follow.repair import BLOCK, Repairing, Unusable, messages_in
from pgsub_connect.follow.snapshots import Snapshots
from pgsub_connect.server.catalog import Table
from pgsub_connect.store import file as snapshot
from pgsub_connect.stream.hold import Hold
from pgsub_connect.stream.memory_limit import BufferLimits
from pgsub_connect.verify.digests import Plan
from pgsub_connect.verify.repair_rows import Changes, changes_of
from pgsub_connect.verify.store import Request
from pgsub_feed.errors import Passing
from pgsub_feed.interruption import never
from pgsub_feed.reader.commits import XID
from pgsub_feed.tables.digests import text_of

from .adding_case import OTHER, THIRD, Case, Run, T
from .row_filter import Store
from .small_world import cells, insert, table
from .vectors import begin, commit, keepalive, logged

Row = tuple[str | None, ...]


def groups(rows: collections.Counter[Row], plan: Plan) -> dict[bytes, collections.Counter[bytes]]:
    """The texts of rows by their keys."""
    found: dict[bytes, collections.Counter[bytes]] = {}
    for row, count in rows.items():
        fields = [None if it is None else it.encode() for it in row]
        text = text_of(fields)
        found.setdefault(plan.key_text(fields, text), collections.Counter())[text] += count
    return found


class Repairs(Case):
    """A follower of a world, and what `verify --repair` does beside it. `points`: where the repairs
    were."""

    def setUp(self) -> None:
        super().setUp()
        for name in ("store.at_rest.LOOK", "copy.source.LOOK", "store.socket_file.STEP"):
            patch = mock.patch(f"pgsub_connect.{name}", 0.005)
            patch.start()
            self.addCleanup(patch.stop)
        self.points: list[int] = []
        # called with the name of each step of a repair
        self.hook: Callable[[str], None] = lambda name: None
        self.followed()
        self.spoil()

    def spoil(self) -> None:
        """Some rows are missing in the copy, which nobody follows, some are others, and some are
        too many."""
        with contextlib.closing(Store(self.store).base) as base:
            rows = base.execute(
                "SELECT ident FROM held WHERE oid = ? ORDER BY ident", (T,)
            ).fetchall()
            base.executemany(
                "DELETE FROM held WHERE oid = ? AND ident = ?", ((T, it) for it, in rows[:5])
            )
            for (ident,) in rows[5:10]:
                body = cells(ident[7:].decode(), "wrong")
                base.execute(
                    "UPDATE held SET body = ? WHERE oid = ? AND ident = ?", (body, T, ident)
                )
            for key in ("90000", "90001"):
                base.execute(
                    "INSERT INTO held VALUES (?, ?, ?, 1)", (T, cells(key), cells(key, "too many"))
                )

    def running(self, **options: object) -> Run:
        run = Run(self, **options)
        self.assertTrue(
            run.until(lambda: run.progress.state == "following"), (self.said, run.raised)
        )
        return run

    @contextlib.contextmanager
    def compared(self) -> Iterator[Request]:
        """Has the stream held, and the changes of the table T in the file."""
        with contextlib.closing(Request(self.store, 60.0, never, repairs=True)) as request:
            request.hold()
            self.hook("hold")
            point, lines = self.world.slot()
            self.points.append(point)
            self.hook("slot")
            request.tell(point)
            copy = Store(request.copied())
            self.hook("copied")
            with contextlib.closing(copy.base), contextlib.closing(
                Changes(request.changes, self.store)
            ) as changes:
                self.write(changes, self.world.known[T], lines.get(T, []), copy)
            yield request

    def write(self, changes: Changes, it: Table, lines: list[bytes], copy: Store) -> None:
        plan = Plan(it, 1)
        there = groups(
            collections.Counter(tuple(line[:-1].decode().split("\t")) for line in lines), plan
        )
        here = groups(copy.rows().get(T, collections.Counter()), plan)
        changes.begin(it)
        for key in sorted(there.keys() | here.keys()):
            theirs, ours = there.get(key, collections.Counter()), here.get(
                key, collections.Counter()
            )
            for message in changes_of(plan, theirs, ours) if theirs != ours else ():
                changes.put(message)

    def repair(self) -> None:
        with self.compared() as request:
            self.hook("written")
            request.pass_on([T])

    def ends(self, run: Run) -> None:
        """Ends once all is stored, and compares."""
        self.change()
        self.assertTrue(
            run.until(lambda: self.is_stored(run) and not run.follower.life.form.is_whole),
            (self.said, run.raised),
        )
        run.end()
        self.assertIsNone(run.raised)
        self.compare()
        self.assertFalse(
            [it for it in os.listdir(self.folder) if ".export." in it or it.endswith(".sock")]
        )

    def streams(self, since: int) -> list[bool]:
        """Whether large transactions come while they run, by session."""
        return ["streaming" in words for _, words in self.server.started[since:]]


class Repaired(Repairs):
    def test_the_whole_of_it(self) -> None:
        """A session of whole transactions begins, which ends with the repair, and the next one
        begins there."""
        run = self.running()
        self.repair()
        self.assertTrue(run.until(lambda: run.progress.server.sessions == 3))
        self.assertEqual(
            (self.streams(1), self.server.started[3][0]), ([True, False, True], self.points[0])
        )
        self.assertIn("rows of 1 table were repaired as of", " ".join(self.said))
        self.ends(run)

    def test_a_session_that_streams_nothing(self) -> None:
        run = self.running(proto=1)
        self.repair()
        self.assertTrue(run.until(lambda: run.progress.server.sessions == 2))
        self.assertEqual(self.server.started[2][0], self.points[0])
        self.ends(run)

    def test_commits_come_at_each_moment(self) -> None:
        for moment in ("hold", "slot", "copied", "written"):
            self.hook = lambda name, moment=moment: self.change() if name == moment else None  # type: ignore[misc]
            run = self.running()
            self.repair()
            self.ends(run)
            self.spoil()

    def test_what_is_passed_on(self) -> None:
        """Byte for byte: nothing is left out, the transaction stands at P, and nothing comes behind
        it in the session."""
        passed: list[bytes] = []
        run = self.running(proto=1)
        real = run.filter.push

        def push(piece: bytes) -> None:
            passed.append(bytes(piece))
            real(piece)

        run.calls.append(lambda: setattr(run.filter, "push", push))
        self.world.commit(insert(OTHER, (900, "x")))
        self.assertTrue(run.until(lambda: self.is_stored(run)))
        self.hook = (
            lambda name: self.world.commit(insert(T, (901, "y"))) if name == "copied" else None
        )
        with self.compared() as request:
            with open(request.changes, "rb") as file:
                written = file.read()
            request.pass_on([T])
        self.assertTrue(run.until(lambda: run.progress.server.sessions == 2))
        point, payloads = self.points[0], list(payloads_in(b"".join(passed)))
        first = next(
            at
            for at, it in enumerate(payloads)
            if it[25:26] == b"B" and it[42:46] == struct.pack(">I", XID)
        )
        last = next(at for at, it in enumerate(payloads) if at > first and it[25:26] == b"C")
        lsn = struct.pack(">Q", point - 1)
        head, clock = b"w" + lsn + lsn + bytes(8), payloads[first][34:42]
        self.assertEqual(payloads[first], head + b"B" + lsn + clock + struct.pack(">I", XID))
        self.assertEqual(payloads[last], head + b"C\0" + lsn + struct.pack(">Q", point) + clock)
        self.assertEqual(payloads[first + 1], head + relation_body(self.world.known[T]))
        self.assertEqual(
            b"".join(
                struct.pack(">I", len(it) - 25) + it[25:] for it in payloads[first + 1 : last]
            ),
            written,
        )
        self.assertGreater(last, first + 5)
        self.assertTrue(
            all(
                it[:1] == b"k" and int.from_bytes(it[1:9], "big") < point or it[25:26] in b"BRIC"
                for it in payloads[:first]
            )
        )
        self.assertEqual(payloads[last + 1], b"")
        self.ends(run)

    def test_nothing_differs(self) -> None:
        """The hold goes with the request, and the session that was begun for it ends."""
        run = self.running()
        with self.compared():
            self.assertTrue(run.until(lambda: run.progress.state == "repairing rows"))
        self.assertTrue(
            run.until(lambda: run.progress.server.sessions == 3 and not run.snapshots.hold.is_held),
            (self.said, run.raised),
        )
        self.assertTrue(run.until(lambda: run.progress.state == "following"))
        self.repair()
        self.ends(run)

    def test_another_request_comes_at_once(self) -> None:
        """It has the same name, of the same process."""
        run = self.running()
        for _ in range(3):
            with self.compared():
                pass
        self.repair()
        self.ends(run)

    def test_a_copy_that_takes_long(self) -> None:
        """Nothing is passed on meanwhile."""
        run, real = self.running(), snapshot.fold

        def fold(path: str) -> None:
            time.sleep(0.2)
            real(path)

        self.patch(snapshots, "fold", fold)
        self.hook = lambda name: self.change() if name == "slot" else None
        self.repair()
        self.ends(run)

    def test_the_filter_is_killed_with_the_changes(self) -> None:
        """None of them is stored, and the next repair does it."""
        run = self.running()
        with self.compared() as request:
            with open(self.store + ".dies", "w", encoding="utf-8") as file:
                file.write(str(self.points[-1]))
            with self.assertRaisesRegex(Passing, "repaired nothing: the session ended before"):
                request.pass_on([T])
        self.assertTrue(run.until(lambda: run.progress.state == "following"))
        self.repair()
        self.ends(run)

    def test_a_session_is_lost_while_it_is_compared(self) -> None:
        run = self.running()

        def lose(name: str) -> None:
            if name == "copied":
                sessions = run.progress.server.sessions
                run.filter.child.kill()
                self.assertTrue(run.until(lambda: run.progress.server.sessions > sessions))

        self.hook = lose
        with self.assertRaisesRegex(Passing, "repaired nothing"):
            self.repair()
        self.assertTrue(
            any("no row is repaired: the session ended before" in it for it in self.said)
        )
        self.hook = lambda name: None
        self.repair()
        self.ends(run)

    def test_who_asks_is_gone(self) -> None:
        """While the stream is held for it, or once the changes are on their way, which are stored
        all the same."""
        run = self.running()
        with self.compared():
            self.change()
        self.assertTrue(run.until(lambda: self.is_stored(run)), (self.said, run.raised))
        with self.compared() as request:
            assert request.asking
            request.asking.say(tables=[T])
            self.assertTrue(
                run.until(
                    lambda: run.snapshots.hold.is_sent
                    or any("were repaired" in it for it in self.said)
                )
            )
        self.ends(run)

    def test_the_end_is_asked_for(self) -> None:
        run = self.running()
        with self.compared() as request:
            run.follower.ending.stop_asked = True
            with self.assertRaises(Passing):
                request.pass_on([T])
        run.end()
        run = self.running()
        self.repair()
        self.ends(run)

    def test_what_may_be_buffered(self) -> None:
        """Following goes on in the same session where nothing was passed on."""
        run = self.running(proto=1)
        run.follower.requests.repairing.limits = BufferLimits(50, 1 << 24)
        with self.assertRaisesRegex(Unrepaired, "50 may be buffered"):
            self.repair()
        self.change()
        self.assertTrue(run.until(lambda: self.is_stored(run)), (self.said, run.raised))
        self.assertEqual(run.progress.server.sessions, 1)
        run.follower.requests.repairing.limits = BufferLimits(1 << 20, 30)
        with self.assertRaisesRegex(Unrepaired, "--max-frame"):
            self.repair()
        run.follower.requests.repairing.limits = BufferLimits(max_frame=1 << 20)
        self.repair()
        self.ends(run)

    def test_a_slot_that_is_behind(self) -> None:
        run = self.running(proto=1)
        with contextlib.closing(Request(self.store, 60.0, never, repairs=True)) as request:
            request.hold()
            request.tell(run.follower.confirming.reached())
            with self.assertRaisesRegex(Passing, "is it of a standby behind"):
                request.copied()
        self.repair()
        self.ends(run)

    def test_a_table_is_added_besides(self) -> None:
        """It is once the rows of the other one are repaired."""
        run = self.running()
        with self.compared() as request:
            run.remembered.want([THIRD])
            request.pass_on([T])
        self.assertTrue(run.until(lambda: not run.remembered.wanted), (self.said, run.raised))
        self.ends(run)

    def test_a_table_that_was_altered(self) -> None:
        """The session has described it otherwise; behind the repair another one describes it as it
        is."""
        it = self.world.known[T]
        self.change()
        run = self.running()
        self.assertTrue(run.until(lambda: self.is_stored(run)))
        self.world.known[T] = self.world.tables[T] = table(T, "renamed")
        self.repair()
        self.ends(run)
        self.assertNotEqual(it, self.world.known[T])


class Found(Repairs):
    """What was found of tables before their rows were compared goes, and nothing else."""

    def test_what_goes(self) -> None:
        remembered = Remembered(self.store)
        remembered.found.find("values", 5, "t has old values", About((T,)))
        remembered.found.find("values", 5, "other has old values", About((OTHER,)))
        remembered.save()
        run = self.running()
        run.checkpoint.note_found("values", 5)

        def find(name: str) -> None:
            if name == "written":
                run.remembered.found.find("values", 9, "t has old values behind", About((T,)))

        self.hook = find
        self.repair()
        self.ends(run)
        self.assertEqual(
            list(Remembered(self.store).found["values"].texts),
            ["other has old values", "t has old values behind"],
        )

    def test_the_last_of_a_kind(self) -> None:
        remembered = Remembered(self.store)
        remembered.found.find("values", 5, "t has old values", About((T,)))
        remembered.save()
        run = self.running()
        run.checkpoint.note_found("values", 5)
        self.repair()
        self.ends(run)
        self.assertEqual((Remembered(self.store).found, run.checkpoint.findings()), ({}, {}))

    def test_a_look_that_is_not_possible(self) -> None:
        self.patch(Watch, "look_again", lambda *_: False)
        remembered = Remembered(self.store)
        remembered.found.find("values", 5, "t has old values", About((T,)))
        remembered.save()
        run = self.running()
        self.repair()
        self.ends(run)
        self.assertEqual(list(Remembered(self.store).found), ["values"])


def payloads_in(stream: bytes) -> Iterator[bytes]:
    """The payloads of frames; b"" for CopyDone."""
    at = 0
    while at < len(stream):
        size = int.from_bytes(stream[at + 1 : at + 5], "big") + 1
        yield stream[at + 5 : at + size]
        at += size


class Files(Case):
    """The file with changes."""

    def lots(self, content: bytes, most: int | None = None) -> list[list[bytes]]:
        path = self.folder + "/changes"
        with open(path, "wb") as file:
            file.write(content)
        return list(messages_in(path, BufferLimits(most, 1 << 20)))

    def messages(self, content: bytes, most: int | None = None) -> list[bytes]:
        return [it for lot in self.lots(content, most) for it in lot]

    def test_messages(self) -> None:
        self.assertEqual(self.messages(b"\0\0\0\x02Rx\0\0\0\x01D"), [b"Rx", b"D"])
        self.assertEqual(self.messages(b""), [])

    def test_any_number_of_them(self) -> None:
        """A lot at a time is in memory, and a message is no longer than the filter takes."""
        message = b"I" + bytes(1 << 10)
        content = (struct.pack(">I", len(message)) + message) * 2000
        lots = self.lots(content)
        self.assertEqual([it for lot in lots for it in lot], [message] * 2000)
        self.assertLess(max(sum(map(len, it)) for it in lots), BLOCK + len(message))
        with self.assertRaisesRegex(Unusable, f"have {len(content)} bytes, and {1 << 20} may be"):
            self.messages(content, 1 << 20)
        with self.assertRaisesRegex(Unusable, f"a row has {1 << 31} bytes: .* --max-frame above"):
            self.messages(struct.pack(">I", 1 << 31) + b"I")

    def test_what_is_none(self) -> None:
        for content in (
            b"\0",
            b"\0\0\0\x02R",
            b"\0\0\0\0",
            b"\0\0\0\x01B",
            b"\0\0\0\x01T",
            b"\0\0\0\x01C",
        ):
            with self.assertRaisesRegex(Unusable, "isn't a file of changes"):
                self.messages(content)
        with self.assertRaisesRegex(Unusable, "the changes have 6 bytes, and 5 may be buffered"):
            self.messages(b"\0\0\0\x02Rx", 5)

    def test_whose_it_is(self) -> None:
        self.messages(b"")
        path = self.folder + "/changes"
        with mock.patch(
            "pgsub_connect.follow.repair.os.getuid", return_value=os.getuid() + 1
        ), mock.patch("os.fstat") as about:
            about.return_value = os.stat_result((0o100600, 0, 0, 1, os.getuid() + 2, 0, 0, 0, 0, 0))
            with self.assertRaisesRegex(Unusable, "somebody else"):
                next(messages_in(path, BufferLimits()))
        os.symlink(path, path + ".link")
        for wrong in (path + ".link", path + ".none", self.folder):
            with self.assertRaises(Unusable):
                next(messages_in(wrong, BufferLimits()))


class Held(unittest.TestCase):
    """What a hold for a repair passes on, and when a session is to begin."""

    def test_keepalives_within_a_transaction(self) -> None:
        """One that tells of P or more is left out: no server sends it."""
        payloads = [
            begin(0x100, 7),
            keepalive(0x1FF),
            keepalive(0x200),
            commit(0x100, 0x108),
            keepalive(0x200),
        ]
        for keeps, wanted in ((True, [*payloads[:2], payloads[3]]), (False, payloads[:4])):
            hold = Hold()
            hold.begin("copy", 5.0, keeps)
            hold.go(0x200)
            self.assertEqual((hold.passing(payloads, False), hold.kept), (wanted, payloads[4:]))

    def test_who_asked_is_gone(self) -> None:
        """The stream stays held once the changes are on their way: behind them nothing is passed on
        in the session."""
        for is_sent in (False, True):
            asked = Snapshots("/nowhere/copy.db", mock.Mock(), None, 0.0)
            asked.client = mock.Mock(is_gone=True, said=[])
            asked.hold.begin("/nowhere/copy", 5.0, True)
            asked.hold.is_sent = is_sent
            with logged():
                asked.look_after()
            self.assertEqual(asked.hold.is_held, is_sent)

    def test_sessions(self) -> None:
        it, form, asked = mock.Mock(), mock.Mock(), mock.Mock()
        asked.hold = Hold()
        it.life.form = form
        repairing = Repairing(asked, it)
        found = []
        for wants, streaming, streams, keeps in (
            (False, True, True, False),
            (True, True, True, False),
            (True, False, True, False),
            (False, False, True, True),
            (False, False, True, False),
            (True, False, False, False),
            (False, False, False, False),
        ):
            asked.wants_whole, asked.hold.keeps, asked.hold.is_held = wants, keeps, keeps
            form.is_streaming.return_value = streaming
            wanted = repairing.wants_session()
            found.append((wanted, repairing.begin_session(streams), repairing.is_whole))
        self.assertEqual(
            found,
            [
                (False, False, False),
                (True, True, True),
                (False, True, True),
                (False, True, True),
                (True, False, False),
                (False, True, False),
                (False, False, False),
            ],
        )


if __name__ == "__main__":
    unittest.main()
