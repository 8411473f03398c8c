"""Changes of a table that are kept aside, and frames that wait on the disk."""

from __future__ import annotations

import os
import unittest
from unittest import mock

from pgsub_connect.add import kept_changes, waiting_frames
from pgsub_connect.add.kept_changes import KeptChanges, split
from pgsub_connect.add.waiting_frames import WaitingFrames
from pgsub_connect.stream.messages import HEADERS

from .fake_server import Quiet
from .vectors import delete, insert, relation, truncate, update

T, OTHER, R = 1, 2, 0x200
FIRST, SECOND = relation(T, "t")[25:], relation(T, "was")[25:]


class Case(Quiet):
    def patch(self, where: object, name: str, by: object) -> None:
        patch = mock.patch.object(where, name, by)
        patch.start()
        self.addCleanup(patch.stop)


class Kept(Case):
    def setUp(self) -> None:
        super().setUp()
        self.folder = self.make_folder()
        self.kept = KeptChanges(T, self.folder, 0x100)
        self.addCleanup(self.kept.close)

    def payloads(self, told: int = R - 1) -> list[bytes]:
        self.kept.require()
        return [it for block in self.kept.blocks(told) for it in block]

    def told(self, *payloads: bytes, told: int = R - 1) -> list[bytes]:
        head = b"w" + 2 * told.to_bytes(8, "big") + bytes(8)
        return [head + it[25:] for it in payloads]

    def test_those_that_the_snapshot_does_not_see(self) -> None:
        """Whether they come before its LSN is known or behind."""
        for block in (1, 1 << 16):
            self.patch(kept_changes, "BLOCK", block)
            for cut in range(6):
                self.kept = KeptChanges(T, self.folder, 0x100)
                changes = [
                    *((0x1F0, it) for it in (insert(T), update(T))),
                    *((R, it) for it in (delete(T), insert(T))),
                    (0x210, truncate(T)),
                ]
                for lsn, change in changes[:cut]:
                    self.kept.add(lsn, change, FIRST)
                self.kept.begin_at(R)
                for lsn, change in changes[cut:]:
                    self.kept.add(lsn, change, FIRST)
                self.assertEqual(
                    self.payloads(), self.told(delete(T), insert(T), truncate(T)), (block, cut)
                )
                self.kept.close()

    def test_all_of_them(self) -> None:
        """Where the first comes behind its LSN, and where none does."""
        self.kept.add(0x210, insert(T), FIRST)
        self.kept.begin_at(R)
        self.assertGreater(self.kept.size(), len(insert(T)))
        self.assertEqual(self.payloads(0), self.told(insert(T), told=0))
        self.kept = KeptChanges(T, self.folder, 0x100)
        self.kept.add(0x1F0, insert(T), FIRST)
        self.kept.begin_at(R)
        self.assertEqual((self.kept.size(), self.payloads()), (0, []))

    def test_truncations(self) -> None:
        """Of several tables, and as often as the table is named; the options stay."""
        for oids, count in (((OTHER, T), 1), ((T, T), 2), ((OTHER,), 0), ((T, OTHER, 3), 1)):
            self.kept = KeptChanges(T, self.folder, 0x100)
            before = truncate(*oids)
            payload = before[:30] + b"\x03" + before[31:]
            self.kept.add_truncate(R, payload, FIRST)
            self.kept.begin_at(R)
            alone = truncate(T)
            wanted = alone[:30] + b"\x03" + alone[31:]
            self.assertEqual(self.payloads(), self.told(*[wanted] * count))
            self.kept.close()

    def test_other_definitions(self) -> None:
        """Those behind its LSN count."""
        for lsn, definition, others in (
            (0x1F0, SECOND, False),
            (R, SECOND, True),
            (0x210, SECOND, True),
            (R, FIRST, False),
            (R, b"", True),
        ):
            self.kept = KeptChanges(T, self.folder, 0x100)
            self.kept.add(lsn, insert(T), definition)
            self.kept.add(max(lsn, R), insert(T), FIRST)
            self.kept.begin_at(R)
            self.assertEqual(self.kept.has_others(FIRST), others, (hex(lsn), definition))
            self.kept.close()

    def test_a_disk_that_is_full(self) -> None:
        """The stream goes on, and it is told where they are needed."""
        self.patch(kept_changes, "BLOCK", 1)
        self.kept.add(R, insert(T), FIRST)
        with mock.patch.object(self.kept.frames, "append", side_effect=OSError(28, "full")):
            self.kept.add(R, insert(T), FIRST)
        self.kept.add(R, insert(T), FIRST)
        with self.assertRaisesRegex(OSError, "full"):
            self.kept.require()

    def test_frames(self) -> None:
        payloads = [insert(T), truncate(T)]
        frames = b"".join(HEADERS[len(it)] + it for it in payloads)
        self.assertEqual(list(split(frames)), payloads)


class Waiting(Case):
    def setUp(self) -> None:
        super().setUp()
        self.folder = self.make_folder()
        self.frames = WaitingFrames(self.folder)
        self.addCleanup(self.frames.close)

    def test_blocks(self) -> None:
        blocks = [bytes([it]) * (1000 * it) for it in range(1, 9)]
        for it in blocks:
            self.frames.append(it)
        self.assertEqual(self.frames.size(), sum(map(len, blocks)))
        self.assertEqual(list(self.frames.blocks(3)), blocks[3:])
        self.assertEqual(list(self.frames.blocks()), blocks)
        self.assertEqual(list(self.frames.blocks(8)), [])

    def test_nothing_is_left_in_the_folder(self) -> None:
        self.frames.append(b"x")
        self.assertEqual(os.listdir(self.folder), [])

    def test_what_was_passed_on_is_given_back(self) -> None:
        """Where the file system can do that."""
        self.patch(waiting_frames, "GIVEN", 1 << 20)
        for _ in range(8):
            self.frames.append(b"x" * (1 << 20))
        held = [os.fstat(self.frames.file.fileno()).st_blocks * 512 for _ in self.frames.blocks()]
        self.assertEqual(len(held), 8)
        self.assertGreaterEqual(held[0], 8 << 20)
        self.assertLessEqual(held[-1], 2 << 20)

    def test_a_disk_that_is_full(self) -> None:
        full = mock.Mock(side_effect=OSError(28, "No space left on device"))
        with mock.patch.object(self.frames, "file", mock.Mock(write=full)):
            with self.assertRaisesRegex(OSError, "No space"):
                self.frames.append(b"x")

    def test_a_file_that_is_cut_short(self) -> None:
        self.frames.append(b"x" * 100)
        os.truncate(self.frames.file.fileno(), 50)
        with self.assertRaisesRegex(OSError, "cut short"):
            list(self.frames.blocks())

    def test_a_write_that_writes_a_part(self) -> None:
        real = self.frames.file
        with mock.patch.object(self.frames, "file", mock.Mock(wraps=real)) as file:
            file.write = lambda piece: real.write(piece[:7])
            self.frames.append(b"0123456789" * 5)
        self.assertEqual(list(self.frames.blocks()), [b"0123456789" * 5])


if __name__ == "__main__":
    unittest.main()
