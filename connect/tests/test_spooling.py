"""The file of open transactions: its folder, what the filter is told, and how that begins and ends."""

from __future__ import annotations

import dataclasses
import errno
import os
import stat
from collections.abc import Callable
from pathlib import Path
from unittest import mock

from pgsub_connect.commands import follow
from pgsub_connect.commands.arguments import session
from pgsub_connect.follow import feed
from pgsub_connect.store import spool_folder
from pgsub_connect.store.placing import check_apart
from pgsub_connect.store.spool_folder import SpoolFolder, judge_spool, remove_spool
from pgsub_connect.stream import memory_limit
from pgsub_connect.stream.filter import Filter
from pgsub_connect.stream.filter_end import NO_ROOM, NOT_WRITTEN, OF_SPOOL, FilterEnded
from pgsub_connect.stream.left_file import LeftFile
from pgsub_connect.stream.memory_limit import BufferLimits
from pgsub_connect.stream.room import rooms
from pgsub_feed.errors import FileError, Passing, UsageError

from . import test_filtering
from .fake_server import Quiet
from .settled import options_of, settled
from .test_filtering import FAKE
from .vectors import begin, commit, insert

REFUSED = 13


class Case(Quiet):
    def setUp(self) -> None:
        super().setUp()
        self.store = self.make_folder() + "/copy.db"
        self.folder = Path(self.store + ".spool")
        self.spool = SpoolFolder(self.store)

    def mode(self) -> int:
        return stat.S_IMODE(os.stat(self.folder).st_mode)

    def put(self, *names: str) -> None:
        self.folder.mkdir(exist_ok=True)
        for name in names:
            (self.folder / name).write_bytes(b"old")

    def left(self) -> list[str]:
        return sorted(os.listdir(self.folder))


class Folder(Case):
    def test_it_is_made_for_its_owner_alone(self) -> None:
        for mask in (0, 0o777):
            before = os.umask(mask)
            try:
                self.spool.begin()
            finally:
                os.umask(before)
            self.assertEqual(self.mode(), 0o700)
            self.folder.rmdir()

    def test_its_mode_is_mended(self) -> None:
        self.folder.mkdir()
        self.folder.chmod(0o777)
        self.spool.begin()
        self.assertEqual(self.mode(), 0o700)

    def test_it_is_emptied_before_and_after(self) -> None:
        """What a disk has of its own stays."""
        for call in (self.spool.begin, self.spool.end):
            self.put("transactions", "more")
            (self.folder / "lost+found").mkdir(exist_ok=True)
            call()
            self.assertEqual(self.left(), ["lost+found"])

    def test_a_link_in_it_isnt_followed(self) -> None:
        target = Path(self.store + ".other")
        target.write_text("mine")
        self.put()
        (self.folder / "transactions").symlink_to(target)
        self.spool.begin()
        self.assertEqual((self.left(), target.read_text()), ([], "mine"))

    def test_what_isnt_a_folder_of_ones_own(self) -> None:
        other = Path(self.store + ".other")
        other.mkdir()
        (other / "mine").touch()
        makes: tuple[tuple[str, Callable[[], object]], ...] = (
            ("a link", lambda: self.folder.symlink_to(other)),
            ("a link", lambda: self.folder.symlink_to("/nowhere")),
            ("a file", self.folder.touch),
        )
        for what, make in makes:
            make()
            text = f"copy.db.spool: {what} in the place of the folder .*: remove it, or keep"
            with self.assertRaisesRegex(FileError, text):
                self.spool.begin()
            with self.assertRaisesRegex(FileError, text):
                spool_folder.check_spool(self.store)
            self.spool.end()
            self.assertEqual(os.listdir(other), ["mine"])
            self.folder.unlink()

    def test_one_of_another_account(self) -> None:
        self.put("transactions")
        with mock.patch("os.geteuid", lambda: os.getuid() + 1):
            with self.assertRaisesRegex(FileError, "a folder of another account"):
                self.spool.begin()
        self.assertEqual(self.left(), ["transactions"])

    def test_a_disk_without_room_for_it_passes(self) -> None:
        for number, kind in ((errno.ENOSPC, Passing), (errno.EACCES, FileError)):
            failed = OSError(number, os.strerror(number))
            with mock.patch("os.mkdir", side_effect=failed):
                with self.assertRaisesRegex(kind, f"copy.db.spool: {os.strerror(number)}"):
                    self.spool.begin()

    def test_what_the_disk_had_for_it(self) -> None:
        self.put("transactions")
        self.spool.end()
        disk = os.statvfs(self.folder)
        about = disk.f_bavail * disk.f_frsize
        self.assertLess(abs(self.spool.had - about), about // 10)
        with mock.patch.object(spool_folder, "size_in", lambda _: 1 << 60):
            self.put()
            self.spool.end()
        self.assertGreater(self.spool.had, 1 << 60)

    def test_an_empty_one_goes_at_the_end(self) -> None:
        for names in ((), ("mine",)):
            self.put(*names)
            self.spool.remove()
            self.assertEqual(self.folder.exists(), bool(names))

    def test_it_is_removed_with_its_files(self) -> None:
        self.put("transactions", "more")
        remove_spool(str(self.folder))
        self.assertFalse(self.folder.exists())
        self.put("transactions")
        (self.folder / "lost+found").mkdir()
        remove_spool(str(self.folder))
        self.assertEqual(self.left(), ["lost+found"])

    def test_of_a_link_what_it_leads_to_stays(self) -> None:
        other = Path(self.store + ".other")
        other.mkdir()
        (other / "mine").touch()
        self.folder.symlink_to(other)
        remove_spool(str(self.folder))
        self.assertEqual((os.path.lexists(self.folder), os.listdir(other)), (False, ["mine"]))

    def test_another_disk_stays(self) -> None:
        self.put("transactions")
        with mock.patch("os.path.ismount", lambda _: True):
            remove_spool(str(self.folder))
        self.assertEqual(self.left(), [])

    def test_no_file_is_written_there(self) -> None:
        for path in (self.folder, self.folder / "rows.db"):
            with self.assertRaisesRegex(UsageError, "a file of the store itself"):
                check_apart(self.store, [("--tables", str(path))], [])
        check_apart(self.store, [("--tables", str(self.folder) + "2")], [])


class Checked(Case):
    def test_its_size_is_told(self) -> None:
        self.assertIsNone(judge_spool(self.store))
        self.put()
        self.assertIsNone(judge_spool(self.store))
        (self.folder / "transactions").write_bytes(bytes(5000))
        found = judge_spool(self.store)
        assert found
        text = f"5000 bytes of open transactions are in {self.folder}"
        self.assertEqual((found.level, found.name, found.text), ("ok", "spool", text))

    def test_another_account_asks(self) -> None:
        """Root of a follower's store, say, or who may read that, but not enter the folder."""
        Path(self.store).touch()
        self.put("transactions")
        with mock.patch("os.geteuid", lambda: os.getuid() + 1):
            found = judge_spool(self.store)
            self.assertEqual(found and found.level, "ok")
            with mock.patch.object(spool_folder, "size_in", side_effect=PermissionError):
                self.assertIsNone(judge_spool(self.store))
            os.unlink(self.store)
            found = judge_spool(self.store)
            self.assertEqual(found and found.level, "error")

    def test_what_cant_be_used(self) -> None:
        self.folder.symlink_to("/tmp")
        found = judge_spool(self.store)
        assert found
        self.assertEqual((found.level, "a link" in found.text), ("error", True))


class Words(Case):
    """What the filter is told."""

    def made(self, *words: str) -> Filter:
        options = options_of(["follow", "--store", self.store, "--pgsub", "/bin/pgsub", *words])
        found = follow.make_filter(session.settled_sizes(options), mock.Mock(file=3))
        self.assertEqual(found.words[:4], ["/bin/pgsub", "follow", "--store", self.store])
        return found

    def told(self, *words: str) -> dict[str, str]:
        found = self.made(*words).told()[4:]
        return dict(zip(found[::2], found[1::2]))

    def test_a_file_from_the_beginning(self) -> None:
        """Of any size, also where there is a feed: a commit comes back part after part."""
        path = str(self.folder / "transactions")
        for feed in ((), ("--feed", str(self.folder) + ".feed")):
            for known in (1 << 28, 1 << 30, 1 << 33, None):
                with mock.patch.object(memory_limit, "memory", lambda: known):  # noqa: B023
                    told, child = self.told(*feed), self.made(*feed)
                stays = min(64 << 20, (known or 1 << 40) // 8)
                frame = {"--max-frame": str(min(1 << 30, (known or 1 << 40) // 2))}
                self.assertEqual(told, {"--spool": path, "--spool-memory": str(stays), **frame})
                self.assertEqual(child.spool and child.spool.path, path)

    def test_a_limit_of_both(self) -> None:
        """What an operator allows in all is no more memory than there is."""
        for most in ((1 << 26) - 1, 1 << 31):
            with mock.patch.object(memory_limit, "memory", lambda: 1 << 32):
                told = self.told("--max-buffered", str(most))
            self.assertEqual(told["--max-buffered"], str(most))
            self.assertEqual(told["--spool-memory"], str(64 << 20))

    def test_what_a_killed_run_left(self) -> None:
        for words in ((), ("--spool-memory", "no"), ("--spool-memory", "1MB")):
            self.put("transactions")
            self.made(*words)
            self.assertFalse(self.folder.exists(), words)

    def test_no_file(self) -> None:
        with mock.patch.object(memory_limit, "memory", lambda: 1 << 30):
            told = self.told("--spool-memory", "no")
            self.assertIsNone(self.made("--spool-memory", "no").spool)
        half = str(1 << 29)
        self.assertEqual(told, {"--max-buffered": half, "--max-frame": half})

    def test_what_the_operator_says(self) -> None:
        told = self.told("--spool-memory", "5MB", "--max-buffered", "7000")
        self.assertEqual((told["--spool-memory"], told["--max-buffered"]), ("5242880", "7000"))
        for text in ("0", "none", "-1"):
            with self.assertRaises(SystemExit):
                self.told("--spool-memory", text)

    def test_what_stays_in_memory(self) -> None:
        """A part of what a group has."""
        for known, most in ((None, 64 << 20), (1 << 40, 64 << 20), (1 << 28, 1 << 25), (4, 1)):
            with mock.patch.object(memory_limit, "memory", lambda: known):  # noqa: B023
                self.assertEqual(memory_limit.default_in_memory(), most)

    def test_what_rows_that_are_added_may_have(self) -> None:
        """As much as other transactions."""
        with mock.patch.object(memory_limit, "memory", lambda: 1 << 30):
            for words, most, longest in (
                ((), None, 1 << 29),
                (("--spool-memory", "1MB"), None, 1 << 29),
                (("--spool-memory", "no"), 1 << 29, 1 << 29),
                (("--max-buffered", "5000"), 5000, 5000),
            ):
                options = options_of(["follow", "--store", self.store, *words])
                limits = session.settled_sizes(options).limits()
                self.assertEqual(limits, BufferLimits(most, longest))

    def test_what_a_follower_leaves(self) -> None:
        """No folder, unless something is in it."""
        words = ["follow", "--store", self.store, "--dsn", "", "--pgsub", FAKE]
        for more in ((), ("--spool-memory", "1MB"), ("--spool-memory", "no")):
            for names in ((), ("mine",)):
                parts = follow.made(settled([*words, *more]), mock.Mock(file=0))
                self.put(*names)
                dataclasses.replace(parts, threads=()).finish()
                self.assertEqual(self.folder.exists(), bool(names) or "no" in more)
                remove_spool(str(self.folder))

    def test_its_size_is_shown_from_the_start(self) -> None:
        words = ["follow", "--store", self.store, "--dsn", "", "--pgsub", FAKE]
        for more, size in (((), 3), (("--spool-memory", "no"), None)):
            parts = follow.made(settled([*words, *more]), mock.Mock(file=0))
            self.put("transactions")
            self.assertEqual(parts.common.progress.spool.bytes(), size)
            dataclasses.replace(parts, threads=()).finish()
            remove_spool(str(self.folder))

    def test_a_start_is_refused_before_anything_is_made(self) -> None:
        self.folder.touch()
        words = ("--dsn", "dbname=x", "--create", "--all-tables")
        options = options_of(["follow", "--store", self.store, *words])
        with self.assertRaisesRegex(FileError, "a file in the place"):
            follow.check_start(options)
        follow.check_start(
            options_of(["follow", "--store", self.store, *words, "--spool-memory", "no"])
        )


class Started(test_filtering.Case):
    """A filter that has one."""

    def filter(self, *words: str) -> Filter:
        self.spool = SpoolFolder(self.store)
        words = words or ("/usr/bin/python3", "-S", "-E", FAKE, "follow")
        told = [*words, "--store", self.store]
        found = Filter(told, (), left=LeftFile(self.store, 30), spool=self.spool)
        self.addCleanup(found.kill)
        return found

    def sizes(self) -> dict[str, int]:
        folder = Path(self.store + ".spool")
        return {it.name: it.stat().st_size for it in folder.iterdir()}

    def test_the_folder_is_empty_before_and_after(self) -> None:
        for ends in (lambda it: (it.finish(), self.end(it)), Filter.kill):
            child = self.filter()
            Path(self.store + ".spool").mkdir(exist_ok=True)
            Path(self.store + ".spool/left").touch()
            child.start()
            self.assertEqual(self.sizes(), {"transactions": 0})
            child.push_payloads([begin(0x100, 7), insert(1), commit(0x100, 0x108)])
            while not child.serve(1.0)[2]:
                pass
            self.assertGreater(self.sizes()["transactions"], 0)
            ends(child)
            self.assertEqual(self.sizes(), {})
            os.unlink(self.store)

    def test_the_position_alone_needs_no_file(self) -> None:
        """No folder is made for a filter that is asked for nothing else."""
        child = self.filter()
        child.start()
        child.finish()
        self.end(child)
        self.spool.remove()
        check = mock.Mock(side_effect=[None] * 20)
        self.assertEqual(feed.opened_at(child, check), child.confirmed())
        self.assertFalse(os.path.exists(self.spool.folder))

    def test_a_file_that_cant_be_made(self) -> None:
        """The filter says so before it opens its store; another try may do."""
        child = self.filter()
        with mock.patch.object(SpoolFolder, "begin"), self.assertRaises(FilterEnded) as raised:
            child.start()
        ended = raised.exception
        self.assertEqual((ended.status, ended.said), (REFUSED, NOT_WRITTEN))
        self.assertEqual((ended.is_rejection(), os.path.exists(self.store)), (False, False))

    def test_what_is_known_after_a_fault(self) -> None:
        """All that was stored was told, and the store is as it was left."""
        for line in (*OF_SPOOL, "pgsub: store 8 Refused"):
            child = self.filter()
            child.start()
            self.says(f"status {REFUSED} {line}")
            child.finish()
            self.end(child)
            child.start()
            child.push_payloads([begin(0x100, 7)])
            ended = self.end(child)
            is_of_spool = line in OF_SPOOL
            self.assertEqual((ended.said, ended.is_of_spool()), (line, is_of_spool))
            self.assertFalse(ended.is_rejection())
            self.assertEqual((child.has_told_all, ended.has_told_all()), (is_of_spool,) * 2)
            os.unlink(self.store + ".says")
            child.start()
            self.assertEqual(child.trusts, is_of_spool, line)
            child.kill()

    def test_its_disk_is_looked_at(self) -> None:
        words = ["pgsub", "follow", "--spool", "/proc/self/transactions"]
        self.assertEqual(list(rooms(words)), [("/proc/self/transactions", 0)])
        for status, said, is_of_spool in ((REFUSED, NO_ROOM, True), (12, NO_ROOM, False)):
            self.assertEqual(FilterEnded(status, said).is_of_spool(), is_of_spool)
