"""The decoder and the subscriber as a library, without one: room for what a call writes, a
recording's sessions, and a subscriber's calls."""

from __future__ import annotations

import unittest
from collections.abc import Callable

from pgsub_connect.embedded import ROOM, Fault, Library, Room, Subscriber, with_room


class Rooms(unittest.TestCase):
    def call(self, text: bytes, number: int = 0) -> tuple[list[int], int, str]:
        """The sizes of the rooms that a call gets which writes this, its number, and the text."""
        sizes = []

        def writes(room: Room) -> int:
            sizes.append(len(room.bytes))
            room.length.value = len(text)
            if len(text) > len(room.bytes):
                return ROOM
            room.bytes.raw = text
            return number

        number, room = with_room(writes, 4)
        return sizes, number, room.text()

    def test_room_grows_once(self) -> None:
        self.assertEqual(self.call(b"abcd"), ([4], 0, "abcd"))
        self.assertEqual(self.call(b"abcde"), ([4, 5], 0, "abcde"))
        self.assertEqual(self.call(b"", 9), ([4], 9, ""))

    def test_text_without_room_is_empty(self) -> None:
        room = Room(2)
        room.length.value = 3
        self.assertEqual(room.text(), "")


class Recorded(Library):
    """Sessions whose lines are their bytes, one each; the session `b"!"` has a fault."""

    def __init__(self) -> None:
        """Loads nothing."""

    def show_session(self, session: bytes, version: int = 2) -> tuple[list[str], Fault | None]:
        return [str(it) for it in session], Fault(3, "order 1") if session == b"!" else None


class Sessions(unittest.TestCase):
    def test_lines_of_sessions(self) -> None:
        self.assertEqual([*Recorded().show([])], [])
        self.assertEqual([*Recorded().show([b"\1\2", b"", b"\3"])], ["1", "2", "--", "--", "3"])

    def test_fault_comes_after_its_lines(self) -> None:
        lines = []
        with self.assertRaises(Fault) as raised:
            for line in Recorded().show([b"\1", b"!", b"\2"]):
                lines.append(line)
        self.assertEqual(
            (lines, raised.exception.number, str(raised.exception)),
            (["1", "--", "33"], 3, "order 1"),
        )

    def test_fault_without_text_is_named(self) -> None:
        self.assertEqual(str(Fault(9, "")), "memory")
        self.assertEqual(str(Fault(77, "")), "77")


class Answers(Library):
    """Calls that are noted, and answered with a number and, where there is room, with bytes."""

    def __init__(self, numbers: dict[str, int] | None = None, written: bytes = b"") -> None:
        """Loads nothing."""
        self.numbers, self.given = numbers or {}, written
        self.noted: list[tuple[object, ...]] = []

    def call(self, name: str, *words: object) -> int:
        self.noted.append((name, *(it for it in words[1:] if isinstance(it, (int, bytes)))))
        if name in ("feed", "replies", "rows"):
            return self.write(words[-3], words[-1]) or self.numbers.get(name, 0)
        return self.numbers.get(name, 0)

    def write(self, room: object, length: object) -> int:
        """Writes to a room as a call does."""
        length._obj.value = len(self.given)  # type: ignore[attr-defined]
        if len(self.given) > len(room):  # type: ignore[arg-type]
            return ROOM
        room[: len(self.given)] = self.given  # type: ignore[index]
        return 0

    def close(self, handle: object) -> None:
        """Notes that it is freed."""
        self.noted.append(("close",))


class Subscribers(unittest.TestCase):
    def fault_of(self, call: Callable[[], object]) -> tuple[int, str]:
        with self.assertRaises(Fault) as raised:
            call()
        return raised.exception.number, str(raised.exception)

    def test_calls_are_passed(self) -> None:
        library = Answers()
        with Subscriber(library, 1) as copy:
            copy.feed(b"ab", 7)
            copy.status(8, True)
            copy.disconnect()
            self.assertEqual(copy.position(), (0, 0))
        self.assertEqual(
            [it[0] for it in library.noted],
            ["open", "feed", "status", "disconnect", "position", "close"],
        )
        self.assertEqual(library.noted[1:3], [("feed", b"ab", 2, 7, 256), ("status", 8, True)])

    def test_lines_and_replies_are_what_is_written(self) -> None:
        copy = Subscriber(Answers(written=b"[1]\n[2]\n"))
        self.assertEqual((copy.rows(), copy.replies()), (["[1]", "[2]"], b"[1]\n[2]\n"))
        self.assertEqual(Subscriber(Answers()).rows(), [])
        long = b"x" * 5000
        self.assertEqual(Subscriber(Answers(written=long)).replies(), long)

    def test_numbers_are_faults(self) -> None:
        self.assertEqual(
            self.fault_of(lambda: Subscriber(Answers({"open": 11}), 3)),
            (11, "no such protocol version"),
        )
        copy = Subscriber(Answers({"feed": 3, "rows": 12, "status": 9}, b"order 1"))
        self.assertEqual(self.fault_of(lambda: copy.feed(b"")), (3, "order 1"))
        self.assertEqual(self.fault_of(copy.rows), (12, "the subscriber is closed"))
        self.assertEqual(self.fault_of(copy.status), (9, "memory"))
