"""A server in the place of one that is there: it answers queries by what stands in them, and keeps
what it was told."""

from __future__ import annotations

import contextlib
import os
import tempfile
import unittest
from collections.abc import Callable, Iterator
from typing import cast
from unittest import mock

from pgsub_connect.errors import ServerError
from pgsub_connect.server.connection import Connection
from pgsub_connect.server.transport import Protection

Row = list[str | None]
Answer = list[Row] | ServerError | Callable[[str], list[Row]]


class FakeServer:
    """Answers are looked up in the order in which they were given, the last first."""

    def __init__(self, version: int = 150018) -> None:
        self.server_version = version
        self.answers: list[tuple[str, Answer]] = []
        self.commands: list[str] = []
        self.lines: list[bytes] = []
        self.opened = self.closed = 0
        # the connections that are open
        self.open: list[FakeConnection] = []

    def answer(self, part: str, answer: Answer) -> None:
        self.answers.insert(0, (part, answer))

    def rows_for(self, command: str) -> list[Row]:
        self.commands.append(command)
        for part, answer in self.answers:
            if part in command:
                if isinstance(answer, ServerError):
                    raise answer
                return answer(command) if callable(answer) else answer
        return []

    def connect(self, dsn: str, **_: object) -> Connection:
        """Takes the place of the class Connection."""
        self.opened += 1
        return cast(Connection, FakeConnection(self))

    def told(self, part: str) -> list[str]:
        """What it was told with this in it."""
        return [command for command in self.commands if part in command]

    def index(self, part: str) -> int:
        """When it was told this first."""
        return next(index for index, command in enumerate(self.commands) if part in command)


class FakeConnection:
    """A connection to it. Its socket is that of a pipe in which nothing comes."""

    def __init__(self, server: FakeServer) -> None:
        self.server = server
        self.check: Callable[[], None] = lambda: None
        self.protection = Protection()
        self.broken: ServerError | None = None
        self.ends = os.pipe()
        server.open.append(self)

    @contextlib.contextmanager
    def checked_by(self, check: Callable[[], None]) -> Iterator[None]:
        own, self.check = self.check, check
        try:
            yield
        finally:
            self.check = own

    def set_check(self, check: Callable[[], None]) -> None:
        self.check = check

    def rows(self, command: str, limit: float = 0) -> list[Row]:
        return self.server.rows_for(command)

    def many_rows(self, query: str, limit: float = 0) -> list[Row]:
        return self.server.rows_for(query)

    def value(self, command: str, limit: float = 0) -> str | None:
        rows = self.server.rows_for(command)
        return rows[0][0] if rows else None

    def text(self, command: str) -> str:
        return self.value(command) or ""

    def run(self, command: str, wanted: object = None, limit: float = 0) -> None:
        self.server.rows_for(command)

    def copied_blocks(self, command: str, size: int) -> Iterator[list[bytes]]:
        self.server.rows_for(command)
        block: list[bytes] = []
        for line in self.server.lines:
            block.append(line)
            if sum(map(len, block)) >= size:
                yield block
                block = []
        if block:
            yield block

    def version(self) -> int:
        return self.server.server_version

    def parameter(self, name: str) -> str:
        return "15.18"

    def socket(self) -> int:
        return self.ends[0]

    def pid(self) -> int:
        return 4711

    def consume(self) -> None:
        raise ServerError("lost")

    def close(self) -> None:
        self.server.closed += 1
        self.server.open.remove(self)
        for end in self.ends:
            os.close(end)


def with_level(level: str, text: str) -> str:
    """A line that was logged, as tests compare it."""
    return text if level == "info" else f"{level}: {text}"


def connection_to(server: FakeServer) -> Connection:
    return server.connect("")


class Quiet(unittest.TestCase):
    """A test that keeps the lines on standard error."""

    def make_folder(self) -> str:
        """A folder that goes with the test."""
        folder = tempfile.TemporaryDirectory()
        self.addCleanup(folder.cleanup)
        return folder.name

    def setUp(self) -> None:
        self.said: list[str] = []
        patch = mock.patch(
            "pgsub_feed.log.line", lambda level, text: self.said.append(with_level(level, text))
        )
        patch.start()
        self.addCleanup(patch.stop)
