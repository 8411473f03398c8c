"""Where in a stream a transaction of the connector's own may stand."""

from __future__ import annotations

import unittest

from pgsub_connect.stream.place import Place

from .vectors import begin, commit, insert, keepalive

T = 1


def pair(lsn: int, end: int = 0) -> list[bytes]:
    return [begin(lsn, 7), insert(T), commit(lsn, end or lsn + 8)]


class Places(unittest.TestCase):
    def setUp(self) -> None:
        self.place = Place()
        self.begin()

    def begin(self) -> None:
        """Begins with a stream that goes on."""
        self.place.begin(0x100)
        self.place.go_on()

    def passed(self, *payloads: bytes, is_inside: bool = False) -> tuple[list[bytes], list[bytes]]:
        return self.place.passing(list(payloads), is_inside)

    def test_all_passes_as_long_as_none_is_looked_for(self) -> None:
        payloads = [*pair(0x200), keepalive(0x300), *pair(0x400)]
        self.assertEqual(self.passed(*payloads), (payloads, []))
        self.assertFalse(self.place.stops())

    def test_before_a_begin(self) -> None:
        self.place.seek(0x80)
        self.assertEqual(self.passed(*pair(0x200)), ([], pair(0x200)))
        self.assertEqual((self.place.point, self.place.stops()), (0x200, True))

    def test_none_where_a_commit_begins_where_the_last_one_ended(self) -> None:
        self.passed(*pair(0x200, 0x208))
        self.place.seek(0x80)
        behind = pair(0x210)
        self.assertEqual(self.passed(*pair(0x208, 0x20C), *behind), (pair(0x208, 0x20C), behind))
        self.assertEqual(self.place.point, 0x210)

    def test_none_within_a_transaction(self) -> None:
        self.passed(begin(0x200, 7))
        self.place.seek(0x80)
        first = [keepalive(0x300), commit(0x200, 0x208)]
        self.assertEqual(self.passed(*first, is_inside=True), (first, []))
        # (nothing that was passed on is above it)
        behind = [keepalive(0x300), *pair(0x2F0), *pair(0x308)]
        self.assertEqual(self.passed(*behind), (behind[:-3], behind[-3:]))
        self.assertEqual(self.place.point, 0x308)

    def test_the_last_keepalive_is_kept_back(self) -> None:
        self.assertEqual(self.passed(*pair(0x200), keepalive(0x300)), (pair(0x200), []))
        self.assertEqual(self.passed(), ([], []))
        self.assertEqual(self.passed(keepalive(0x300)), ([], []))
        self.assertEqual(self.passed(keepalive(0x310)), ([keepalive(0x300)] * 2, []))
        self.place.seek(0x80)
        self.assertEqual(self.passed(), ([], [keepalive(0x310)]))
        self.assertEqual(self.place.point, 0x310)

    def test_others_are_not(self) -> None:
        for payloads in (
            [keepalive(0x100)],
            [keepalive(0x200), *pair(0x200)],
            [begin(0x200, 7), keepalive(0x300)],
        ):
            self.begin()
            self.assertEqual(self.passed(*payloads), (payloads, []))

    def test_none_is_where_commits_wait(self) -> None:
        """Also where they do so from some moment on."""
        self.place.begin(0x100, is_urgent=True)
        self.assertFalse(self.place.stops())
        self.assertEqual(self.passed(keepalive(0x200)), ([keepalive(0x200)], []))
        self.begin()
        self.passed(keepalive(0x200))
        self.assertEqual(self.place.hurry(), [keepalive(0x200)])
        self.assertEqual(self.passed(keepalive(0x200)), ([keepalive(0x200)], []))
        self.place.begin(0x100)
        self.assertEqual((self.place.hurry(), self.place.stops()), ([], False))
        self.place.seek(0x80)
        self.assertEqual(self.passed(keepalive(0x300)), ([], [keepalive(0x300)]))

    def test_what_was_kept_back_goes_on(self) -> None:
        self.passed(keepalive(0x200))
        self.assertEqual((self.place.end(), self.place.end()), ([keepalive(0x200)], []))
        self.assertFalse(self.place.is_open)

    def test_at_the_point_of_a_slot(self) -> None:
        """Nothing was passed on since before it was asked for."""
        for behind, point in (
            (pair(0x200), 0x200),
            ([keepalive(0x200)], 0x200),
            (pair(0x210), 0x200),
        ):
            self.place.begin(0x100)
            self.assertTrue(self.place.stops())
            self.place.seek(0x200)
            self.assertFalse(self.place.stops())
            first = [*pair(0x1F0, 0x1F8), keepalive(0x1F8)]
            self.assertEqual(self.passed(*first, *behind), (first, behind))
            self.assertEqual(self.place.point, point)

    def test_a_stream_behind_the_slot(self) -> None:
        """What is below the slot's point is in the rows: they don't stand before that."""
        for behind in (pair(0x500), [keepalive(0x500)], pair(0x510)):
            self.begin()
            self.passed(keepalive(0x3F0))
            self.place.seek(0x500)
            first = [*pair(0x400), keepalive(0x4F8)]
            self.assertEqual(self.passed(*first, *behind), ([keepalive(0x3F0), *first], behind))
            self.assertEqual(self.place.point, 0x500)

    def test_held_for_too_long(self) -> None:
        """The slot's point may be below what was passed on then."""
        self.place.begin(0x100)
        self.place.go_on()
        self.passed(*pair(0x300))
        self.place.seek(0x200)
        self.assertEqual(self.passed(*pair(0x400)), ([], pair(0x400)))
        self.assertEqual(self.place.point, 0x400)


if __name__ == "__main__":
    unittest.main()
