"""Sinks that a test runs over a feed of its own."""

from __future__ import annotations

from collections.abc import Sequence
from typing import Any
from unittest import mock

from feed_text import Line, Message

from pgsub_connect.commands import sink
from pgsub_connect.commands.sink import Options
from pgsub_feed.interruption import never

from .fake_redis import FakeCalls, FakeRedis
from .feeds import FeedCase
from .vectors import logged


class SinkCase(FeedCase):
    """A test of a sink."""

    url = ""

    def setUp(self) -> None:
        super().setUp()
        self.at = self.feed.at

    def take(self, *lines: Line, messages: Sequence[Message] = ()) -> None:
        """Adds a commit."""
        self.at += 0x100
        self.feed.commit(self.at, lines, messages=messages)

    def run_it(self, **more: Any) -> list[str]:
        """Writes what is there, and returns what is told beside the last line."""
        with logged() as told:
            words: dict[str, Any] = {"url": self.url, "once": True, **more}
            options = Options(feed=str(self.path), **words)
            sink.run(options, never)
        return told[:-1]

    def fails(self, kind: type[Exception], text: str, **more: Any) -> None:
        with self.assertRaisesRegex(kind, text):
            self.run_it(**more)


class RedisCase(SinkCase):
    """Over a Redis in memory."""

    url = "redis://h"

    def setUp(self) -> None:
        super().setUp()
        self.server = FakeRedis()
        patched = mock.patch(
            "pgsub_feed.sinks.redis_calls.Connection",
            lambda _, check: FakeCalls(self.server, check),
        )
        patched.start()
        self.addCleanup(patched.stop)

    def after(self, *lines: Line) -> dict[str, dict[str, str]]:
        """The rows after one more commit."""
        self.take(*lines)
        self.run_it()
        return self.server.rows()


def stock(*rows: Sequence[str | None]) -> dict[str, dict[str, str]]:
    """Rows of the table `stock`, as hashes."""
    found = {}
    for row in rows:
        found[f"stock:{row[0]}"] = {
            name: it for name, it in zip(("id", "name"), row) if it is not None
        }
    return found
