"""A follower that ends at once while it adds a table: what is noted, and how the next one goes on.
"""

from __future__ import annotations

import contextlib
import unittest
from collections.abc import Callable
from unittest import mock

from pgsub_connect.add.adder import Adder
from pgsub_connect.add.replacement import Leaving, LeftOut
from pgsub_connect.add.turn import RowsSender
from pgsub_connect.drift.remembered import Remembered
from pgsub_connect.follow.session import Session
from pgsub_connect.follow.session_start import SessionStart
from pgsub_connect.store.checkpoint import read_known

from .adding_case import Case, Run, T
from .small_world import WorldSource


class Cut(BaseException):
    """Ends a follower at once, as a kill does."""


class Cuts(Case):
    """A run that ends at once, wherever that is, leaves what the next one goes on from."""

    def setUp(self) -> None:
        super().setUp()
        self.followed()
        self.spoil()

    def cut(self, patches: list[tuple[object, str]], after: bool, times: int = 0) -> dict[int, int]:
        """Follows until a call is made for the last time. Returns what the checkpoint says then."""
        left, stack = [times], contextlib.ExitStack()
        for where, name in patches:
            real = getattr(where, name)

            def call(*words: object, real: Callable[..., object] = real, **more: object) -> object:
                if left[0]:
                    left[0] -= 1
                    return real(*words, **more)
                if after:
                    real(*words, **more)
                raise Cut

            stack.enter_context(mock.patch.object(where, name, call))
        self.want(T)
        self.change()
        with stack:
            run = Run(self)
            self.assertFalse(run.until(lambda: False))
        self.assertIsInstance(run.raised, Cut)
        WorldSource.open = 0
        return read_known(self.store + ".connector").adding

    def test_all(self) -> None:
        for where, name, after, times, noted in (
            (LeftOut, "fill", False, 0, {}),
            (LeftOut, "fill", True, 0, {T: 0}),
            (Adder, "begin_reading", True, 0, {T: 0}),
            (Adder, "end_reading", False, 0, {T: 0}),
            (Adder, "end_reading", True, 0, {T: 1}),
            (Adder, "send", False, 0, {T: 1}),
            (RowsSender, "push", True, 2, {T: 1}),
            (RowsSender, "push", True, 4, {T: 1}),
            (Adder, "send", True, 0, {T: 1}),
            (Adder, "finish", False, 0, {T: 1}),
            (Adder, "forget", True, 0, {}),
        ):
            with self.subTest(name=name, after=after):
                found = self.cut([(where, name)], after, times)
                self.assertEqual({oid: min(point, 1) for oid, point in found.items()}, noted)
                self.change()
                self.goes_on()

    def test_where_the_session_ends_with_the_rows(self) -> None:
        """As where the server has described the table otherwise before."""
        self.patch(Leaving, "has_described_otherwise", lambda *_: True)
        for where, name, after, noted in (
            (Adder, "send", False, [T]),
            (Adder, "send", True, [T]),
            (Adder, "finish", False, [T]),
            (Adder, "finish", True, []),
            (Session, "renew", False, []),
            (Session, "renew", True, []),
        ):
            with self.subTest(name=name, after=after):
                self.assertEqual(list(self.cut([(where, name)], after)), noted)
                self.change()
                self.goes_on()

    def test_between_two_files(self) -> None:
        """The table isn't wanted any more, and the checkpoint has it still."""
        self.assertEqual(list(self.cut([(Remembered, "added")], True)), [T])
        self.goes_on()

    def test_the_rows_are_stored_before_it_is_noted(self) -> None:
        """The store's position tells so, and they aren't read again."""
        found = self.cut([(Adder, "finish")], False)
        WorldSource.hook = staticmethod(mock.Mock())
        self.goes_on()
        WorldSource.hook.assert_not_called()  # type: ignore[attr-defined]
        self.assertGreater(found[T], 0)

    def test_an_lsn_without_its_rows_is_forgotten(self) -> None:
        """Before a session passes anything on, since the position may pass that LSN by."""
        self.cut([(Adder, "send")], False)
        noted = []
        real = SessionStart.start_replication

        def start(it: SessionStart, *words: object) -> None:
            noted.append(dict(read_known(it.confirming.checkpoint.path).adding))
            real(it, *words)  # type: ignore[arg-type]

        self.patch(SessionStart, "start_replication", start)
        self.goes_on()
        self.assertEqual(noted[0], {T: 0})


if __name__ == "__main__":
    unittest.main()
