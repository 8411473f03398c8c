"""Sessions at a server, whose values come as the server's texts."""

from __future__ import annotations

from collections.abc import Iterator
from typing import Optional, cast

import psycopg

Text = Optional[str]


class Session:
    """A connection on which each command is a transaction of its own, unless it says BEGIN."""

    def __init__(self, dsn: str) -> None:
        self.raw = psycopg.connect(dsn, autocommit=True, client_encoding="UTF8")

    def __enter__(self) -> Session:
        return self

    def __exit__(self, *_: object) -> None:
        self.close()

    def close(self) -> None:
        self.raw.close()

    def run(self, *commands: str) -> None:
        for command in commands:
            self.raw.execute(command.encode())

    def rows(self, query: str) -> list[tuple[Text, ...]]:
        result = self.raw.execute(query.encode()).pgresult
        assert result is not None
        width = range(result.nfields)
        values = [[result.get_value(row, it) for it in width] for row in range(result.ntuples)]
        return [tuple(None if it is None else it.decode() for it in row) for row in values]

    def column(self, query: str) -> list[str]:
        """The first column, in which no null is."""
        return [row[0] or "" for row in self.rows(query)]

    def value(self, query: str) -> str:
        """The first value of the first row, "" where there is none."""
        rows = self.rows(query)
        return (rows[0][0] or "") if rows else ""

    def copied(self, query: str) -> Iterator[tuple[Text, ...]]:
        """The rows of a query, by COPY."""
        with self.raw.cursor() as cursor, cursor.copy(f"COPY ({query}) TO STDOUT".encode()) as copy:
            if query.startswith("SELECT  FROM"):
                # (psycopg takes an empty line for one of a column)
                yield from (() for line in copy if line)
            else:
                yield from cast("Iterator[tuple[Text, ...]]", copy.rows())
