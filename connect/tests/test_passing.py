"""What a follower passes on of what comes, what it records, and what it says of a commit that was
rejected."""

from __future__ import annotations

import collections
import os
import tempfile
import unittest
from collections.abc import Sequence
from unittest import mock

from pgsub_connect.drift.remembered import Remembered
from pgsub_connect.errors import ServerError
from pgsub_connect.follow.follower import Follower
from pgsub_connect.follow.settings import StreamForm
from pgsub_connect.record import Aside
from pgsub_connect.server.session import Subscription
from pgsub_connect.status.progress import Progress
from pgsub_connect.store.checkpoint import Checkpoint
from pgsub_connect.stream.filter import Filter
from pgsub_connect.stream.filter_end import REJECTED, FilterEnded
from pgsub_connect.stream.filter_input import PIECE, ROOM
from pgsub_feed.errors import UsageError

from .asking import snapshots_of
from .followed import followed
from .vectors import a_catalog, a_table, begin, commit, insert, keepalive, logged, logical
from .vectors import relation

FAKE = os.path.join(os.path.dirname(os.path.abspath(__file__)), "fake_filter.py")


class Source:
    """A connection on which payloads have come, and then nothing, the end (None) or an error."""

    def __init__(self, payloads: Sequence[bytes], then: bytes | Exception | None = b"") -> None:
        self.left, self.then = list(payloads), then

    def payloads(self, room: int, long: int) -> tuple[list[bytes], bool | None]:
        found: list[bytes] = []
        while self.left and room > 0:
            found.append(self.left.pop(0))
            room -= len(found[-1]) if len(found[-1]) < long else room
        if room <= 0:
            return found, True
        if isinstance(self.then, Exception):
            if not found:
                raise self.then
            return found, True
        return found, False if self.then is not None else None


def framed(*payloads: bytes) -> bytes:
    return b"".join(b"d" + (len(it) + 4).to_bytes(4, "big") + it for it in payloads)


def command_of(form: StreamForm) -> str:
    """What asks for a session of this form."""
    return Subscription(publications=["pgsub"]).start_command(0, form.proto, form.options())


class Case(unittest.TestCase):
    def setUp(self) -> None:
        folder = tempfile.TemporaryDirectory()
        self.addCleanup(folder.cleanup)
        self.store = folder.name + "/copy.db"
        remembered = Remembered(self.store)
        remembered.begin_copy(a_catalog(a_table(1, "t")), 100)
        self.child = Filter([FAKE, "follow", "--store", self.store], ())
        self.addCleanup(self.child.kill)
        self.child.input.pending, self.child.input.waiting, self.child.input.written = (
            collections.deque(),
            0,
            0,
        )
        self.recording = Aside(folder.name + "/r.pgx", False, 1 << 30)
        self.addCleanup(self.recording.out.close)
        told = followed((Checkpoint(self.store), Progress(), remembered), self.store, skip=0x210)
        asked = snapshots_of(self, self.store)
        self.follower = Follower(*told, self.child, self.recording, asked)

    def take(self, source: Source) -> bool | None:
        """Takes as much as there is room for, as a session does."""
        while (more := self.follower.session.take_payloads(source)) and self.child.has_room():  # type: ignore[arg-type]
            pass
        return more

    def pushed(self) -> bytes:
        return b"".join(self.child.input.pending)

    def recorded(self) -> bytes:
        self.recording.flush()
        with open(self.recording.path, encoding="ascii") as file:
            return bytes.fromhex(file.read())


class Passes(Case):
    def test_all_in_order(self) -> None:
        payloads = [
            begin(0x100, 7),
            relation(1, "t"),
            *[insert(1)] * 3,
            keepalive(0x90),
            commit(0x100, 0x108),
        ]
        for then, result in ((b"", False), (None, None)):
            self.child.input.pending.clear()
            self.assertIs(self.take(Source(payloads, then)), result)
            self.assertEqual(self.pushed(), framed(*payloads))

    def test_what_came_before_an_error(self) -> None:
        with self.assertRaises(ServerError):
            self.take(Source([begin(0x100, 7), insert(1)], ServerError("gone")))
        self.assertEqual(self.pushed(), framed(begin(0x100, 7), insert(1)))
        self.assertEqual(self.child.input.waiting, len(self.pushed()))

    def test_long_ones_between(self) -> None:
        long = insert(1) + bytes(3 * PIECE)
        payloads = [insert(1), long, long, insert(1), keepalive(1)]
        self.take(Source(payloads))
        self.assertEqual(self.pushed(), framed(*payloads))

    def test_no_more_than_there_is_room(self) -> None:
        source = Source([insert(1) + bytes(10000)] * 1000)
        self.assertIs(self.take(source), True)
        self.assertFalse(self.child.has_room())
        self.assertLess(self.child.input.waiting, ROOM + 2 * 10100)
        left = len(source.left)
        self.assertIs(self.take(source), True)
        self.assertEqual(len(source.left), left)

    def test_one_commit_without_its_changes(self) -> None:
        self.follower.life.form.skipping.begin_session(0x200)
        pair = [begin(0x210, 7), relation(1, "t"), insert(1), commit(0x210, 0x218)]
        with logged() as said:
            self.take(Source(pair))
        self.assertEqual(self.pushed(), framed(pair[0], pair[1], pair[3]))
        self.assertEqual(self.recorded(), framed(*pair))
        self.assertEqual(list(self.follower.noting.ends), [0x218])
        self.assertIn("skipped: transaction 7, final LSN 0/210, 1 change of public.t (1)", said[0])

    def test_the_recording_says_which_version_is_asked_for(self) -> None:
        """That of the session, which isn't always the one that was said."""
        follower = self.follower
        follower.life.form.proto, follower.life.form.streams = 1, False
        self.assertIn(
            "proto_version '1', publication_names",
            command_of(follower.life.form),
        )
        connection = mock.Mock()
        connection.parameter.return_value = "13.9"
        self.recording.begin_session(follower.start.recorded(connection, 0x100))
        self.recording.flush()
        with open(self.recording.path, encoding="ascii") as file:
            self.assertIn("# protocol version 1, from 0/100", file.read())

    def test_logical_messages(self) -> None:
        """They are asked for in whole transactions, and passed on as they come, but for those of a
        commit that is skipped."""
        form = self.follower.life.form = StreamForm(2, self.follower.life.form.skipping, True)
        self.assertEqual((form.choose(150018), form.asks_for()), (2, ["messages"]))
        command = command_of(form)
        self.assertIn("proto_version '2'", command)
        self.assertIn("messages 'true'", command)
        self.assertNotIn("streaming", command)
        self.assertFalse(form.stop_streaming("so"))
        with self.assertRaisesRegex(UsageError, "--messages needs PostgreSQL 14, and this is 13.9"):
            form.choose(130009)
        self.assertEqual(StreamForm(1, form.skipping, True).choose(150018), 1)
        pair = [begin(0x100, 7), logical(0xF0), insert(1), logical(0xF8), commit(0x100, 0x108)]
        payloads = [logical(0xE0, 0), *pair, logical(0x200, 0)]
        self.take(Source(payloads))
        self.assertEqual(self.pushed(), framed(*payloads))
        self.assertEqual(list(self.follower.noting.ends), [0x108])
        self.child.input.pending.clear()
        form.skipping.begin_session(0x200)
        skipped = [begin(0x210, 7), logical(0x208), insert(1), commit(0x210, 0x218)]
        with logged():
            self.take(Source(skipped))
        self.assertEqual(self.pushed(), framed(skipped[0], skipped[-1]))

    def test_whole_transactions_while_it_is_to_come(self) -> None:
        with logged():
            self.follower.life.form.skipping.begin_session(0x211)
        self.assertIn("streaming 'on'", command_of(self.follower.life.form))
        self.follower.life.form.skipping.begin_session(0x210)
        self.assertNotIn("streaming", command_of(self.follower.life.form))

    def test_up_to_an_lsn(self) -> None:
        """What comes behind it waits until the copy is taken, in the recording too."""
        hold = self.follower.snapshots.hold
        below, above = [begin(0x100, 7), insert(1), commit(0x100, 0x108)], [
            begin(0x110, 8),
            insert(1),
            commit(0x110, 0x118),
        ]
        hold.begin("copy", 10.0)
        hold.go(0x110)
        self.assertIs(self.follower.session.take_payloads(Source([*below, *above])), True)  # type: ignore[arg-type]
        self.assertEqual((self.pushed(), self.recorded()), (framed(*below), framed(*below)))
        self.assertEqual((list(self.follower.noting.ends), hold.stops()), ([0x108], True))
        hold.end()
        self.assertIs(self.follower.session.take_payloads(Source([keepalive(0x300)])), True)  # type: ignore[arg-type]
        self.assertIs(self.take(Source([keepalive(0x300)])), False)
        self.assertEqual(self.pushed(), framed(*below, *above, keepalive(0x300)))

    def test_up_to_an_lsn_from_within_a_transaction(self) -> None:
        hold = self.follower.snapshots.hold
        self.take(Source([begin(0x100, 7), insert(1)]))
        hold.begin("copy", 10.0)
        hold.go(0x110)
        rest = [keepalive(0x110), insert(1), commit(0x100, 0x108)]
        self.follower.session.take_payloads(Source([*rest, keepalive(0x110)]))  # type: ignore[arg-type]
        self.assertEqual(self.pushed(), framed(begin(0x100, 7), insert(1), *rest))
        self.assertEqual(hold.kept, [keepalive(0x110)])

    def test_the_end_of_a_session_with_what_waits(self) -> None:
        hold = self.follower.snapshots.hold
        hold.begin("copy", 10.0)
        hold.go(0x100)
        self.assertIsNone(self.follower.session.take_payloads(Source([begin(0x100, 7)], None)))  # type: ignore[arg-type]
        self.child.runs = False
        self.follower.session.disconnect()
        self.assertEqual((hold.kept, self.pushed()), ([], b""))


class Rejects(Case):
    def end(self, said: str) -> list[str]:
        """Passes two commits on, of which the store has the first, and has the filter end."""
        with open(self.store, "w", encoding="ascii") as file:
            file.write(str(0x108))
        self.take(
            Source(
                [
                    begin(0x100, 7),
                    insert(1),
                    commit(0x100, 0x108),
                    begin(0x110, 8),
                    insert(1),
                    commit(0x110, 0x118),
                ]
            )
        )
        with logged() as lines, self.assertRaises(FilterEnded):
            self.follower.life.note_end(FilterEnded(REJECTED, said))
        return lines

    def test_which_commit(self) -> None:
        for said in ("pgsub: store 1 Clash", "pgsub: relation 5 UnknownRelation 1"):
            text = "rejected: transaction 8, final LSN 0/110, 1 change of public.t (1): --skip 0/110 passes over it"
            self.assertEqual(self.end(said), [f"error: {text}"])
            self.assertFalse(self.child.is_running())
            self.follower.noting.begin_store()

    def test_not_a_commit(self) -> None:
        for said in ("pgsub: order 2 NestedBegin", "pgsub: decode 1 UnknownMessage", ""):
            self.assertEqual(self.end(said), [])

    def test_the_store_cant_be_opened_then(self) -> None:
        with mock.patch.object(
            self.child, "start", side_effect=FilterEnded(12, "pgsub: store 8 Refused")
        ):
            self.assertEqual(self.end("pgsub: store 1 Clash"), [])


if __name__ == "__main__":
    unittest.main()
