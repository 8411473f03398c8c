"""Which segments of a feed go: by size, by age, by what readers have, and never what the store may
need."""

from __future__ import annotations

import os
from unittest import mock

from pgsub_connect.follow.retention import Limits, feed_bytes, read_readers, retire
from pgsub_feed.errors import FileError
from pgsub_feed.reader.folder import segments
from pgsub_feed.reader.folder import Noted

from .feeds import FeedCase, insert

SIZE, NOW = 5000, 1000.0


class Retaining(FeedCase):
    """Segments that begin at 0, 0x100 .. 0x500, the last one without a commit."""

    def setUp(self) -> None:
        super().setUp()
        for end in range(0x100, 0x600, 0x100):
            path = self.feed.path
            self.feed.commit(end, [insert("1", "x")])
            self.feed.end()
            os.truncate(path, SIZE)
            os.utime(path, (NOW - end, NOW - end))

    def read(self, **lsns: int) -> None:
        for name, lsn in lsns.items():
            Noted(str(self.path), name, str(self.folder / "rows.db"), 0o600).note(lsn, is_last=True)

    def left(self, limits: Limits, position: int = 0x510) -> tuple[list[int], set[str]]:
        """The bases of the segments that are left, and the readers that hadn't read the others."""
        before = len(segments(str(self.path)))
        retired = retire(str(self.path), limits, position, NOW)
        bases = [base for base, _ in segments(str(self.path))]
        self.assertEqual(retired.segments, before - len(bases))
        return bases, retired.readers

    def test_nobody_reads_it(self) -> None:
        self.assertEqual(self.left(Limits()), ([0, 0x100, 0x200, 0x300, 0x400, 0x500], set()))

    def test_what_all_have(self) -> None:
        self.read(one=0x300, two=0x250)
        self.assertEqual(read_readers(str(self.path)), {"one": 0x300, "two": 0x250})
        self.assertEqual(self.left(Limits()), ([0x200, 0x300, 0x400, 0x500], set()))
        self.read(two=0x600)
        self.assertEqual(self.left(Limits()), ([0x300, 0x400, 0x500], set()))

    def test_by_age(self) -> None:
        # (the oldest one was written last, so nothing goes before it is old enough)
        self.assertEqual(
            self.left(Limits(oldest=0x100)), ([0, 0x100, 0x200, 0x300, 0x400, 0x500], set())
        )
        self.assertEqual(self.left(Limits(oldest=0xFF)), ([0x500], set()))

    def test_by_age_and_readers(self) -> None:
        self.read(slow=0x200)
        self.assertEqual(self.left(Limits(oldest=0)), ([0x200, 0x300, 0x400, 0x500], set()))

    def test_by_size(self) -> None:
        self.assertEqual(feed_bytes(str(self.path)), 5 * SIZE + 1024)
        self.read(slow=0x100, quick=0x500)
        self.assertEqual(self.left(Limits(most_bytes=3 * SIZE)), ([0x300, 0x400, 0x500], {"slow"}))
        self.assertEqual(self.left(Limits(most_bytes=0)), ([0x500], {"slow"}))

    def test_what_the_store_needs(self) -> None:
        self.read(one=0x500)
        self.assertEqual(
            self.left(Limits(most_bytes=0, oldest=0), 0x280), ([0x200, 0x300, 0x400, 0x500], set())
        )
        # (the commit at the position is the last one of the segment that begins at 0x200)
        self.assertEqual(
            self.left(Limits(most_bytes=0, oldest=0), 0x300), ([0x200, 0x300, 0x400, 0x500], set())
        )

    def test_a_commit_that_isnt_there_yet(self) -> None:
        """The lines of a long one are in the last segment, which stays, before its own line is."""
        self.feed.put(bytes(256) + self.feed.text(0x600, [insert("1", "x" * 4000)])[256:])
        self.read(one=0x500)
        self.assertEqual(feed_bytes(str(self.path)), 5 * SIZE + self.feed.size)
        self.assertEqual(self.left(Limits(most_bytes=0, oldest=0)), ([0x500], set()))

    def test_a_reader_without_an_lsn(self) -> None:
        self.read(one=0x500)
        (self.path / "readers/one").write_text("x")
        with self.assertRaisesRegex(FileError, "readers/one: 'x' is not an LSN"):
            self.left(Limits())

    def test_an_lsn_is_noted_once_the_rows_are_on_the_disk(self) -> None:
        """SQLite has a file's log beside that file, whatever links to it."""
        (self.folder / "far").mkdir()
        (self.folder / "far/rows.db-wal").touch()
        (self.folder / "rows.db").symlink_to("far/rows.db")
        synced = list[str]()
        with mock.patch(
            "os.fsync",
            lambda file: synced.append(
                os.path.relpath(os.readlink(f"/proc/self/fd/{file}"), self.folder)
            ),
        ):
            self.read(one=0x500)
        self.assertEqual(
            (synced[0], synced[-2:]),
            ("far/rows.db-wal", ["copy.feed/readers/one.new", "copy.feed/readers"]),
        )
