"""The lines of the checkpoint: what a power cut leaves, and who may open it."""

from __future__ import annotations

import errno
import json
import os
from unittest import mock

from pgsub_connect.status.state import Counted
from pgsub_connect.store import checkpoint as known_of
from pgsub_connect.store.at_rest import locked_checkpoint
from pgsub_connect.store.checkpoint import Checkpoint, read_known
from pgsub_connect.store.checkpoint_lines import SIZE, TEXT, Known, line_of, spelled_counted
from pgsub_feed.errors import FileError

from .test_checkpoint import FileCase


class Crashes(FileCase):
    """What a power cut leaves: writes that weren't synced may be there in part or not at all."""

    def torn(self, content: bytes) -> Checkpoint:
        with open(self.store + ".connector", "wb") as file:
            file.write(content)
        return self.open_again()

    def test_any_part_of_a_write(self) -> None:
        """The line that the disk has counts, or the new one, whatever sectors of this reach it."""
        long = "\u0431" * 31
        checkpoint = self.open()
        checkpoint.write(
            True,
            database=long,
            slot="s" * 63,
            found={it: "FFFFFFFF/FFFFFFFF" for it in known_of.KINDS},
        )
        for durably, position in (
            (False, 5),
            (False, 6),
            (True, 7),
            (False, 8),
            (True, 9),
            (True, 10),
        ):
            before, durable = self.content(), self.open_again().known
            at_least = checkpoint.known if durably else durable
            checkpoint.write(durably, position=position)
            after = self.content()
            before = before.ljust(len(after), b"\0")
            for sectors in range(1 << 4):
                # (in four parts, since blanks fill the rest)
                parts = [
                    (after if sectors >> number % 4 & 1 else before)[at : at + 512]
                    for number, at in enumerate(range(0, len(after), 512))
                ]
                self.assertIn(
                    self.torn(b"".join(parts)).known, (durable, at_least, checkpoint.known), sectors
                )
            self.torn(after)

    def test_writes_that_arent_synced_leave_the_one_that_is(self) -> None:
        checkpoint = self.open()
        checkpoint.write(True, position=5, confirmed=9)
        synced = self.content()
        for position in (6, 7, 8):
            checkpoint.note(position, position)
        at = (
            0
            if line_of(1, known_of.spelled(Known(position=5, confirmed=9)), None)
            == synced[: synced.index(b"\n") + 1]
            else 1
        )
        self.assertEqual(
            self.content()[at * SIZE : (at + 1) * SIZE], synced[at * SIZE : (at + 1) * SIZE]
        )
        for spoiled in (b"\0" * SIZE, b"x" * SIZE):
            found = self.torn(synced[:SIZE] + spoiled)
            self.assertEqual((found.known.position, found.known.confirmed), (5, 9))

    def test_what_another_run_has_left(self) -> None:
        """The newer line counts, and is on the disk before the other one is written over."""
        checkpoint = self.open()
        checkpoint.write(True, position=5)
        checkpoint.write(False, position=6)
        with mock.patch("os.fsync") as sync:
            again = self.open_again()
        sync.assert_called_once()
        again.write(False, position=7)
        content = self.content()
        self.assertEqual(
            self.torn(content.replace(b'"position":7', b'"position":9')).known.position, 6
        )

    def test_flipped(self) -> None:
        """One bit of both lines, wherever it is, is seen; of one line, the other one counts."""
        checkpoint = self.open()
        checkpoint.write(True, database="shop", position=5)
        checkpoint.write(True, position=6)
        content = self.content()
        for at in range(content.index(b"\n")):
            for places, wanted in (([at], 6), ([at + SIZE], 5), ([at, at + SIZE], None)):
                spoiled = bytearray(content)
                for it in places:
                    spoiled[it] ^= 1
                try:
                    found: int | None = self.torn(bytes(spoiled)).known.position
                except FileError:
                    found = None
                self.assertEqual(found, wanted, at)


class Counts(FileCase):
    def test_text(self) -> None:
        """It is that of JSON, whatever is counted."""
        largest = (1 << 64) - 1
        for it in (
            Counted(0, 0),
            Counted(1, 2, 3, 4, 5),
            Counted(largest, largest, largest, largest, largest, (largest, 7)),
            Counted(1, 2, gap=(3, 4)),
        ):
            self.assertEqual(spelled_counted(it), TEXT.encode(vars(it)))
        self.assertEqual(spelled_counted(None), TEXT.encode(None))


class Locked(FileCase):
    """Whoever can open it can lock it, so it is its owner's alone."""

    def test_whatever_the_umask_and_an_earlier_version(self) -> None:
        self.addCleanup(os.umask, os.umask(0))
        for earlier in (None, 0o644, 0o666):
            if earlier is not None:
                os.chmod(self.store + ".connector", earlier)
            self.open_again()
            self.assertEqual(os.stat(self.store + ".connector").st_mode & 0o777, 0o600)

    def test_another_account_may_read_the_store_without_it(self) -> None:
        """Nobody can keep it from a start then: the store's own file is locked alone."""
        self.open()
        uid, opened = os.stat(self.store + ".connector").st_uid, os.open

        def denied(path: str, *more: int) -> int:
            if path == self.store + ".connector":
                raise PermissionError(errno.EACCES, "Permission denied", path)
            return opened(path, *more)

        with mock.patch("os.open", denied):
            with self.assertRaisesRegex(FileError, "Permission denied"):
                locked_checkpoint(self.store)
            with mock.patch("os.geteuid", lambda: uid + 1):
                file = locked_checkpoint(self.store)
        assert file is not None
        os.close(file)
