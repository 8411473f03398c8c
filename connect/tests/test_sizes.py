"""What was too large for the filter."""

from __future__ import annotations

import signal
import unittest

from pgsub_connect.stream.filter_end import (
    FRAME_TOO_LARGE,
    MEMORY,
    SPOOL_FULL,
    TOO_MANY_OPEN,
    FilterEnded,
)
from pgsub_connect.stream.memory_limit import (
    SMALL,
    LONGEST_FRAME,
    BufferLimits,
    KilledTwice,
    Kills,
    limit_text,
)
from pgsub_feed.errors import REJECTED

from .test_passing import Case, Source
from .vectors import begin, commit, insert, logged

KILLED = FilterEnded(-9, "")
# A filter that is told how much it may buffer, and one whose open transactions have no limit.
BOUNDED, ANY = BufferLimits(max_buffered=1000, max_frame=500), BufferLimits(max_frame=500)


class Killed(unittest.TestCase):
    def test_twice_in_one_transaction(self) -> None:
        kills = Kills(BOUNDED)
        kills.note(KILLED, 7, SMALL)
        with self.assertRaises(KilledTwice) as raised:
            kills.note(KILLED, 7, 5 * SMALL)
        text = str(raised.exception)
        for part in ("signal 9", "transaction 7", str(5 * SMALL), "--max-buffered", "memory"):
            self.assertIn(part, text)
        self.assertEqual(raised.exception.exit_status(), REJECTED)

    def test_twice_with_a_file(self) -> None:
        """No limit is asked for that there isn't."""
        kills = Kills(ANY)
        kills.note(KILLED, 7, SMALL)
        with self.assertRaisesRegex(KilledTwice, r"more memory than there was \(.*MemoryMax\)$"):
            kills.note(KILLED, 7, SMALL)

    def test_twice_at_a_limit_that_is_none_of_memory(self) -> None:
        """Each end names it, also the first one, and one in no large transaction."""
        kills, ended = Kills(BOUNDED), FilterEnded(-signal.SIGXFSZ, "")
        self.assertRegex(str(ended), r"^signal 25 ended the filter \(.* `ulimit -f`")
        kills.note(ended, 7, SMALL)
        with self.assertRaises(KilledTwice) as raised:
            kills.note(ended, 7, SMALL)
        self.assertIn("ulimit -f", str(raised.exception))
        self.assertNotIn("memory", str(raised.exception))

    def test_in_two(self) -> None:
        kills = Kills(BOUNDED)
        for xid in (7, 8, 7, 9):
            kills.note(KILLED, xid, SMALL)

    def test_small_ones_arent_why(self) -> None:
        kills = Kills(BOUNDED)
        for _ in range(3):
            kills.note(KILLED, 7, SMALL - 1)

    def test_what_ends_by_itself(self) -> None:
        """Of memory too, of which there may be more a little later."""
        kills = Kills(BOUNDED)
        for _ in range(3):
            kills.note(FilterEnded(MEMORY, "pgsub: out of memory"), 7, SMALL)


class Texts(unittest.TestCase):
    LIMITS = BOUNDED

    def test_full(self) -> None:
        for transaction, parts in (
            (
                (7, 1200),
                (
                    "transaction 7 had 1200 bytes so far",
                    "1000 may be",
                    "--max-buffered 2400 at least",
                    "isn't known, so that may be too little",
                ),
            ),
            ((7, 900), ("transaction 7 had 900 bytes so far", "--max-buffered 2000")),
            ((0, 0), ("more than 1000 may be", "--max-buffered 2000")),
        ):
            for part in parts:
                self.assertIn(
                    part, limit_text(FilterEnded(SPOOL_FULL, ""), self.LIMITS, transaction, 0)
                )

    def test_too_many_open(self) -> None:
        """No larger limit is asked for, since none helps."""
        for limits in (self.LIMITS, ANY):
            text = limit_text(FilterEnded(SPOOL_FULL, TOO_MANY_OPEN), limits, (7, 1200), 600)
            self.assertIn("more than 65536 transactions were open at once", text)
            self.assertNotIn("--max-buffered", text)

    def test_frame(self) -> None:
        for longest, wanted in (
            (
                600,
                "a message had 600 bytes, and 500 are accepted: give --max-frame 1208 --max-buffered 2416",
            ),
            (
                0,
                "a message had more than the 500 are accepted: give --max-frame 1000 --max-buffered 2000",
            ),
        ):
            self.assertEqual(
                limit_text(FilterEnded(FRAME_TOO_LARGE, ""), self.LIMITS, (0, 0), longest),
                f"{wanted}, and memory for it",
            )
        self.assertEqual(
            limit_text(FilterEnded(FRAME_TOO_LARGE, ""), ANY, (0, 0), 600),
            "a message had 600 bytes, and 500 are accepted: give --max-frame 1208, and memory for it",
        )
        limits = BufferLimits(1 << 40, LONGEST_FRAME - 5)
        text = limit_text(FilterEnded(FRAME_TOO_LARGE, ""), limits, (0, 0), LONGEST_FRAME - 6)
        self.assertIn(f"give --max-frame {LONGEST_FRAME}, and", text)
        limits = BufferLimits(1 << 40, LONGEST_FRAME)
        self.assertIn(
            "the most that can be",
            limit_text(FilterEnded(FRAME_TOO_LARGE, ""), limits, (0, 0), LONGEST_FRAME),
        )

    def test_others(self) -> None:
        for status in (1, 3, 12, 13, MEMORY, 15, -9):
            self.assertEqual(limit_text(FilterEnded(status, ""), self.LIMITS, (7, 1200), 600), "")
        self.assertEqual(limit_text(FilterEnded(SPOOL_FULL, ""), ANY, (7, 1200), 600), "")

    def test_memory(self) -> None:
        text = limit_text(FilterEnded(MEMORY, ""), self.LIMITS, (7, SMALL), 600)
        self.assertIn(f"transaction 7 had {SMALL} bytes so far: it needs more memory", text)


class Follows(Case):
    def end(self, status: int, said: str = "") -> list[str]:
        with logged() as lines:
            self.follower.life.note_end(FilterEnded(status, said))
        return lines

    def limit(self, limits: BufferLimits) -> None:
        self.follower.life.limits = limits

    def test_killed(self) -> None:
        """In a transaction that isn't complete, or isn't stored yet; what others did between
        doesn't matter."""
        for payloads in (
            [begin(0x100, 7), insert(1) + bytes(SMALL)],
            [begin(0x100, 7), insert(1) + bytes(SMALL), commit(0x100, 0x108)],
        ):
            self.follower.life.kills.xid = 0
            for repeat in range(2):
                self.follower.noting.begin_store()
                self.child.input.pending.clear()
                self.child.input.waiting = 0
                source = Source([begin(0x90, 6), insert(1), commit(0x90, 0x98), *payloads])
                while self.take(source):
                    self.child.input.pending.clear()
                    self.child.input.waiting = 0
                if repeat:
                    with self.assertRaisesRegex(
                        KilledTwice, f"twice in the transaction 7, of which {SMALL}"[:-3]
                    ):
                        self.end(-9)
                else:
                    self.assertEqual(
                        self.end(-9), ["warning: signal 9 ended the filter: it is started again"]
                    )

    def test_full(self) -> None:
        self.take(Source([begin(0x100, 7), *[insert(1)] * 10]))
        self.limit(BufferLimits(100))
        self.assertEqual(
            self.end(SPOOL_FULL),
            ["warning: open transactions were too much at a time: they come whole from now on"],
        )
        with logged() as lines, self.assertRaises(FilterEnded) as raised:
            self.follower.life.note_end(FilterEnded(SPOOL_FULL, "pgsub: spool 1 SpoolFull"))
        text = f"transaction 7 had {10 * len(insert(1))} bytes so far, and 100 may be buffered"
        self.assertIn(f"error: {text}", lines[0])
        # (the last error of the status file)
        self.assertIn(f"SpoolFull: {text}", raised.exception.with_cure())

    def test_too_many_open(self) -> None:
        """Whole transactions are asked for, of which one is open at a time."""
        self.take(Source([begin(0x100, 7), *[insert(1)] * 10]))
        self.limit(BufferLimits(100))
        many = "more than 65536 transactions were open at once"
        self.assertEqual(
            self.end(SPOOL_FULL, TOO_MANY_OPEN),
            [f"warning: {many}: they come whole from now on"],
        )
        with logged() as lines, self.assertRaises(FilterEnded) as raised:
            self.follower.life.note_end(FilterEnded(SPOOL_FULL, TOO_MANY_OPEN))
        self.assertIn(f"error: {many}, and no option allows that", lines[0])
        self.assertIn(f"TooManyOpen: {many}", raised.exception.with_cure())
        self.assertNotIn("--max-buffered", raised.exception.with_cure())

    def test_frame(self) -> None:
        long = insert(1) + bytes(1 << 17)
        self.take(Source([begin(0x100, 7), long, insert(1)]))
        self.limit(BufferLimits(max_frame=1 << 16))
        with logged() as lines, self.assertRaises(FilterEnded):
            self.follower.life.note_end(FilterEnded(FRAME_TOO_LARGE, "pgsub: wire 3 TooLarge"))
        self.assertIn(
            f"a message had {len(long)} bytes, and 65536 are accepted: give --max-frame", lines[0]
        )

    def test_memory_passes(self) -> None:
        for _ in range(3):
            self.assertEqual(
                self.end(MEMORY, "pgsub: memory"),
                ["warning: the filter ended with status 14: pgsub: memory: it is started again"],
            )


if __name__ == "__main__":
    unittest.main()
