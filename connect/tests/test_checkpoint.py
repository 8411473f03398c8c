"""The checkpoint: whether store and slot fit together, what is durable when, a torn file, and the
lock."""

from __future__ import annotations

import contextlib
import dataclasses
import fcntl
import gc
import os
import unittest
from typing import Any
from unittest import mock

from pgsub_connect.commands.arguments.session import ACCEPTED
from pgsub_connect.status.state import Counted
from pgsub_connect.store import checkpoint as known_of
from pgsub_connect.store.at_rest import locked_checkpoint
from pgsub_connect.store.checkpoint import (
    MISSING,
    Checkpoint,
    check_gap,
    locked,
    read_known,
    spelled,
)
from pgsub_connect.store.checkpoint_lines import (
    COPYING,
    FOLLOWING,
    SIZE,
    VERSION,
    Known,
    checksum,
    line_of,
)
from pgsub_feed.errors import FileError, Passing, Stopped, Unfit

from .fake_server import Quiet


class Gaps(unittest.TestCase):
    """The store's position, the slot's, and what the checkpoint has of both: whether they fit."""

    TABLE = (
        # what is known                                            store  slot  fits
        (Known(), 0, 0, True),
        (Known(), 5, 0, False),
        (Known(), 0, 5, False),
        (Known("following", position=100, confirmed=100), 100, 100, True),
        (Known("following", position=100, confirmed=100), 100, 50, True),
        (Known("following", position=100, confirmed=100), 100, 101, False),
        (Known("following", position=100, confirmed=150), 100, 150, True),
        (Known("following", position=100, confirmed=150), 100, 151, False),
        (Known("following", position=100, confirmed=150), 99, 150, False),
        (Known("following", position=100, confirmed=150), 99, 99, True),
        (Known("following", position=100, confirmed=150), 120, 150, True),
        (Known("following", position=100, confirmed=100), 5000, 4096, True),
        (Known("copied", position=100, confirmed=100), 100, 100, True),
    )

    def test_all(self) -> None:
        for known, position, slot_at, fits in self.TABLE:
            with self.subTest(known=known, position=position, slot_at=slot_at):
                if fits:
                    check_gap(known, position, slot_at)
                else:
                    with self.assertRaises(Unfit):
                        check_gap(known, position, slot_at)

    def test_texts(self) -> None:
        """Each with what is to be done."""
        known = Known("following", position=100, confirmed=150)
        for known, position, slot_at, text in (
            (Known(), 100, 100, "its checkpoint isn't there"),
            (known, 99, 150, "so this is an older one"),
            (known, 100, 151, "somebody else moved the slot, or made it anew"),
        ):
            with self.assertRaisesRegex(Unfit, f"{text}. Copy anew, .*--accept gap, .*--repair"):
                check_gap(known, position, slot_at)


class FileCase(Quiet):
    def setUp(self) -> None:
        super().setUp()
        self.store = self.make_folder() + "/copy.db"

    def open(self) -> Checkpoint:
        checkpoint = Checkpoint(self.store)
        self.addCleanup(os.close, checkpoint.file)
        return checkpoint

    def open_again(self) -> Checkpoint:
        """As another run, while the first one has it still."""
        with mock.patch.object(Checkpoint, "lock"):
            return self.open()

    def content(self) -> bytes:
        with open(self.store + ".connector", "rb") as file:
            return file.read()


class File(FileCase):
    def test_what_is_written_is_read(self) -> None:
        before = os.umask(0o022)
        self.addCleanup(os.umask, before)
        fields = Known(FOLLOWING, "77", "sh\u00f6p", "pgsub", 2, 3, 4, 5, {"values": "0/7"}, "0/8")
        checkpoint = self.open()
        checkpoint.write(True, **dataclasses.asdict(fields))
        self.assertEqual(read_known(checkpoint.path), fields)
        self.assertEqual((len(self.content()), self.content()[-1:]), (SIZE, b"\n"))
        checkpoint.write(True, position=6)
        self.assertEqual((read_known(checkpoint.path).position, len(self.content())), (6, 2 * SIZE))

    def test_a_new_one(self) -> None:
        self.assertEqual(self.open().known, Known())

    def test_torn_or_foreign(self) -> None:
        for content in (
            b"x",
            b"[]",
            b"{",
            b'{"phase":"following"',
            b'{"other":1}',
            b'{"phase":"new"}' + b"\xff",
            b"5",
            b"null",
        ):
            with open(self.store + ".connector", "wb") as file:
                file.write(content)
            with self.assertRaises(FileError, msg=repr(content)):
                self.open()

    def test_fields_of_another_kind(self) -> None:
        """They have the right checksum, or none."""
        whole = spelled(Known())
        for fields in (
            '{"phase":"old"}',
            '{"phase":1}',
            '{"system":7}',
            '{"slot":null}',
            '{"timeline":true}',
            '{"confirmed":-1}',
            '{"position":1.0}',
            '{"position":1e999}',
            '{"position":NaN}',
            '{"position":18446744073709551616}',
            '{"found":[]}',
            '{"found":{"values":5}}',
            '{"found":{"values":"x"}}',
            '{"skipped":"5"}',
            '{"adding":{"x":5}}',
            '{"adding":{"5":"x"}}',
            '{"adding":{"99999999999":1}}',
            '{"other":1}',
            '{"encrypted":1}',
            "5",
            "[]",
            "null",
            "[" * 5000 + "]" * 5000,
            '{"position":' + "9" * 5000 + "}",
        ):
            if fields.startswith("{"):
                # (of two fields with one name the last counts)
                fields = f"{whole[:-1]},{fields[1:]}"
            for content in (line_of(1, fields, None), fields.encode()):
                with open(self.store + ".connector", "wb") as file:
                    file.write(content + b"\n")
                with self.assertRaises(FileError, msg=repr(content)):
                    self.open()
                with self.assertRaises(FileError, msg=repr(content)):
                    read_known(self.store + ".connector")

    def test_a_later_version(self) -> None:
        with mock.patch("pgsub_connect.store.checkpoint_lines.VERSION", 5):
            self.open().write(True, position=5)
        with self.assertRaisesRegex(FileError, r"of another version of this program \(5\)"):
            self.open_again()

    def test_too_long(self) -> None:
        with self.assertRaisesRegex(FileError, "too long"):
            self.open().write(True, database="x" * SIZE)
        self.assertEqual(self.content(), b"")

    def test_room_for_every_name_and_finding(self) -> None:
        """The longest names that a server has, all findings, and many tables that are being
        added."""
        most = (1 << 64) - 1
        self.assertLessEqual({*ACCEPTED} - {"all", "plaintext"}, {*known_of.KINDS})
        for database in ("\u0431" * 31, "\x01" * 63, '"' * 63):
            checkpoint = self.open_again()
            checkpoint.put(
                True,
                Known(FOLLOWING, str(most), database, "s" * 63, (1 << 32) - 1, most),
                None,
            )
            for kind in known_of.KINDS:
                checkpoint.note_found(kind, most)
            count = 0
            while checkpoint.has_room_for(count + 4000000000):
                checkpoint.write_adding({**checkpoint.adding(), count + 4000000000: most})
                count += 1
            self.assertGreater(count, 50)
            checkpoint.put(
                True,
                dataclasses.replace(
                    checkpoint.known, confirmed=most, position=most, skipped="FFFFFFFF/FFFFFFFF"
                ),
                Counted(most, most, most, most, (1 << 32) - 1, (most, most)),
            )
            self.assertEqual(self.open_again().known, checkpoint.known)

    def test_a_full_disk_passes(self) -> None:
        checkpoint = self.open()
        with mock.patch(
            "os.pwrite", side_effect=OSError(28, "No space left on device")
        ), self.assertRaisesRegex(Passing, "No space"):
            checkpoint.write(True, position=5)

    def test_notes_between_other_changes(self) -> None:
        """Each line is as if it was made anew, whatever the texts in it are."""
        checkpoint, text = self.open(), 'a","confirmed":5,"position":5,"'
        checkpoint.write(True, database=text, slot=text, confirmed=5, position=5)
        changes: tuple[tuple[int, int, dict[str, Any]], ...] = (
            (7, 6, {}),
            (8, 8, {"found": {text: "0/5"}}),
            (9, 8, {}),
            (9, 9, {"adding": {7: 5}}),
            (90, 80, {}),
        )
        for confirmed, position, fields in changes:
            checkpoint.write(False, **fields)
            checkpoint.note(confirmed, position)
            self.assertEqual(
                (checkpoint.known.confirmed, checkpoint.known.position), (confirmed, position)
            )
            line = line_of(
                checkpoint.number, known_of.spelled(checkpoint.known), checkpoint.counted
            )
            self.assertEqual(
                (read_known(checkpoint.path), line in self.content()), (checkpoint.known, True)
            )

    def test_a_note_that_cant_be_written(self) -> None:
        checkpoint = self.open()
        with mock.patch(
            "os.pwrite", side_effect=OSError(28, "No space left on device")
        ), self.assertRaisesRegex(Passing, "No space"):
            checkpoint.note(5, 4)
        self.assertEqual((checkpoint.known, checkpoint.counted), (Known(), None))

    def test_what_lies_above_the_position_is_durable(self) -> None:
        """Nothing else tells the next start of it. What the store shows itself isn't synced."""
        checkpoint = self.open()
        for confirmed, position, synced in (
            (100, 100, False),
            (100, 100, False),
            (150, 100, True),
            (150, 100, False),
            (150, 120, False),
            (200, 200, False),
            (201, 200, True),
            (50, 40, False),
        ):
            with mock.patch("os.fdatasync") as sync:
                checkpoint.note(confirmed, position)
            self.assertEqual(sync.called, synced, (confirmed, position))
        self.assertEqual(
            (read_known(checkpoint.path).confirmed, read_known(checkpoint.path).position),
            (201, 200),
        )

    def test_findings(self) -> None:
        checkpoint = self.open()
        self.assertTrue(checkpoint.note_found("values", 0x10))
        self.assertFalse(checkpoint.note_found("values", 0x20))
        checkpoint.note_found("names", 0x30)
        self.assertEqual(read_known(checkpoint.path).found, {"values": "0/10", "names": "0/30"})
        checkpoint.accept(["values"])
        self.assertEqual(read_known(checkpoint.path).found, {"names": "0/30"})
        checkpoint.forget_server()
        self.assertEqual(checkpoint.known, Known(found={"names": "0/30"}))
        checkpoint.accept(["all"])
        self.assertEqual(read_known(checkpoint.path).found, {})

    def test_a_write_that_fails_changes_nothing(self) -> None:
        checkpoint = self.open()
        checkpoint.begin_counting(5, False)
        known, counted = checkpoint.known, checkpoint.counted
        for call in ("os.pwrite", "os.fdatasync"):
            with mock.patch(
                call, side_effect=OSError(28, "No space left on device")
            ), self.assertRaises(Passing):
                checkpoint.note_missing(1, 6, 7, 8)
            self.assertEqual((checkpoint.known, checkpoint.counted), (known, counted))

    def test_the_lock(self) -> None:
        self.open()
        with mock.patch.object(known_of, "PATIENCE", 0.0), self.assertRaisesRegex(
            Passing, "another process"
        ):
            self.open()
        check = mock.Mock(side_effect=[None, Stopped])
        with mock.patch("time.sleep"), self.assertRaises(Stopped):
            Checkpoint(self.store, check=check)
        self.assertEqual(len(self.said), 1)

    def test_a_file_that_was_removed_meanwhile(self) -> None:
        """As by `drop`, for which a start waits, and where another one has begun since: the lock is
        of the file that is there."""
        path, files = self.store + ".connector", list[int]()

        def begin() -> None:
            files.append(os.open(path, os.O_RDWR | os.O_CREAT))
            fcntl.flock(files[-1], fcntl.LOCK_EX)

        def drop() -> None:
            os.unlink(path)
            os.close(files.pop())

        def drop_and_begin() -> None:
            drop()
            begin()

        for checks in (
            [drop],
            [drop_and_begin, lambda: None, drop],
            [drop_and_begin, lambda: os.close(files.pop())],
        ):
            begin()
            # (what is left of other tests may have files open)
            gc.collect()
            before, calls = len(os.listdir("/proc/self/fd")), iter(checks)
            with mock.patch("time.sleep"):
                checkpoint = Checkpoint(self.store, lambda calls=calls: next(calls, lambda: None)())  # type: ignore[misc]
            self.assertTrue(os.path.samestat(os.stat(path), os.fstat(checkpoint.file)))
            self.assertIsNone(locked_checkpoint(self.store))
            self.assertEqual((files, len(os.listdir("/proc/self/fd"))), ([], before))
            os.close(checkpoint.file)

    def test_whoever_has_opened_it_before_it_was_removed(self) -> None:
        """And before another one began: that one is seen."""
        path, was = self.store + ".connector", fcntl.flock

        def removed_before(begins: bool) -> contextlib.AbstractContextManager[object]:
            """As where `drop` comes between the opening of the file and its lock."""
            os.close(Checkpoint(self.store).file)
            first = iter([True])

            def flock(file: int, how: int) -> None:
                if next(first, False):
                    os.unlink(path)
                    if begins:
                        self.open()
                was(file, how)

            return mock.patch("fcntl.flock", flock)

        with removed_before(False):
            file = locked_checkpoint(self.store)
        assert file is not None
        os.close(file)
        with removed_before(False), self.assertRaisesRegex(
            Passing, "was removed meanwhile"
        ), locked(path):
            pass
        with removed_before(True):
            self.assertIsNone(locked_checkpoint(self.store))


class Counts(FileCase):
    """Changes that found no row."""

    def reopened(self) -> Counted | None:
        """What another run reads."""
        return self.open_again().counted

    def test_what_is_written_is_read(self) -> None:
        most = (1 << 64) - 1
        checkpoint = self.open()
        for counted in (
            Counted(1, 2),
            Counted(most, most, most, most, (1 << 32) - 1, (most, most)),
        ):
            checkpoint.put(True, Known(FOLLOWING), counted)
            self.assertEqual(self.reopened(), counted)

    def test_a_new_file_counts_none(self) -> None:
        for content in (b"", line_of(1, spelled(Known(FOLLOWING, position=1280)), None)):
            with open(self.store + ".connector", "wb") as file:
                file.write(content)
            checkpoint = self.open_again()
            self.assertIsNone(checkpoint.counted)
            checkpoint.note(0x600, 0x600)
            self.assertFalse(checkpoint.begin_counting(0x600, False))
            self.assertEqual(self.reopened(), Counted(0x600, 0x600))

    def written(self, counted: str) -> Checkpoint:
        """One whose line has that, with the right checksum."""
        rest = f'"number":1,"known":{spelled(Known())},"counted":{counted}}}\n'.encode()
        with open(self.store + ".connector", "wb") as file:
            file.write(b'{"version":%d,"crc32":"%08x",' % (VERSION, checksum(VERSION, rest)) + rest)
        return self.open_again()

    def test_torn_or_foreign(self) -> None:
        whole = '{"since":1,"upto":2,"count":0,"first":0,"relation":0,"gap":null'
        self.assertEqual(self.written(whole + "}").counted, Counted(1, 2))
        for content in (
            *("x", "[]", "5", "{}", '{"since":1}'),
            whole + ',"upto":"2"}',
            whole + ',"gap":[1]}',
            whole + ',"gap":5}',
            whole + ',"other":3}',
        ):
            with self.assertRaises(FileError, msg=repr(content)):
                self.written(content)

    def test_up_to_where_is_noted_with_the_position(self) -> None:
        """And costs no sync."""
        checkpoint = self.open()
        checkpoint.begin_counting(100, False)
        with mock.patch("os.fdatasync") as sync:
            for position in (120, 120, 130):
                checkpoint.note(position, position)
                self.assertEqual(self.reopened(), Counted(100, position))
        sync.assert_not_called()

    def test_missing_ones_are_durable(self) -> None:
        checkpoint = self.open()
        checkpoint.begin_counting(100, False)
        for more, first, relation, position, counted in (
            (3, 110, 7, 120, Counted(100, 120, 3, 110, 7)),
            (2, 130, 8, 140, Counted(100, 140, 5, 110, 7)),
        ):
            with mock.patch("os.fdatasync") as sync:
                checkpoint.note_missing(more, first, relation, position)
            sync.assert_called_once()
            self.assertEqual(
                (self.reopened(), read_known(checkpoint.path).position), (counted, position)
            )
        self.assertEqual(checkpoint.findings(), {MISSING: "0/6E"})

    def test_a_store_further_than_it_was_counted(self) -> None:
        checkpoint = self.open()
        for position, found, counted in (
            (100, False, Counted(100, 100)),
            (100, False, Counted(100, 100)),
            (120, True, Counted(100, 120, gap=(100, 120))),
            (120, False, Counted(100, 120, gap=(100, 120))),
            (150, True, Counted(100, 150, gap=(100, 150))),
        ):
            self.assertEqual(checkpoint.begin_counting(position, False), found)
            self.assertEqual(self.reopened(), counted)
        self.assertEqual(checkpoint.findings(), {MISSING: "0/64"})
        checkpoint.note(160, 160)
        checkpoint.begin_counting(180, False)
        self.assertEqual(self.reopened(), Counted(100, 180, gap=(100, 180)))

    def test_an_older_store(self) -> None:
        """What it gets again is counted again."""
        checkpoint = self.open()
        checkpoint.begin_counting(100, False)
        checkpoint.note(200, 200)
        self.assertFalse(checkpoint.begin_counting(90, False))
        self.assertEqual(
            (self.reopened(), read_known(checkpoint.path).position), (Counted(90, 90), 200)
        )
        self.assertTrue(checkpoint.begin_counting(95, False))

    def test_accepted(self) -> None:
        for kinds, left in (
            (["values"], Counted(100, 120, 3, 110, 7, (100, 110))),
            (["missing"], Counted(100, 120)),
            (["all"], Counted(100, 120)),
        ):
            checkpoint = self.open_again()
            checkpoint.put(True, Known(), Counted(100, 120, 3, 110, 7, (100, 110)))
            checkpoint.accept(kinds)
            self.assertEqual(self.reopened(), left)
        checkpoint.begin_counting(100, False)
        self.assertFalse(checkpoint.begin_counting(120, True), "what is found now is accepted, too")
        self.assertEqual(self.reopened(), Counted(100, 120))

    def test_forgotten_with_the_copy_alone(self) -> None:
        checkpoint = self.open()
        counted = Counted(100, 120, 3, 110, 7)
        checkpoint.put(True, Known(FOLLOWING), counted)
        checkpoint.forget_server()
        checkpoint.write(True)
        self.assertEqual(self.reopened(), counted)
        checkpoint.begin_anew()
        checkpoint.write(True, phase=COPYING)
        self.assertIsNone(self.reopened())
        self.assertEqual(checkpoint.findings(), {})


if __name__ == "__main__":
    unittest.main()
