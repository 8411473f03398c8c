"""Texts that no program of ours has written."""

from __future__ import annotations

import json
from collections.abc import Iterator
from typing import Any

from pgsub_feed.json_texts import LONGEST

DEEP = 100000
# What is no JSON, or no object of it, or one that no program should read.
TEXTS = (
    b"",
    b"x",
    b"{",
    b"[]",
    b"5",
    b'"x"',
    b"null",
    b"NaN",
    b"\xff\xfe",
    b"\0",
    b"{}",
    b"[" * DEEP,
    b"[" * DEEP + b"]" * DEEP,
    b'{"a":' * DEEP + b"1" + b"}" * DEEP,
    b"9" * 5000,
    b"1e999",
    b'{"a":"\\ud800"}',
    b'{"a":1}' + b" " * LONGEST,
)
# Values of a kind that isn't the one that a field has.
VALUES = (
    "null",
    "true",
    "-1",
    "1.5",
    "1e999",
    "-1e999",
    "NaN",
    "Infinity",
    "18446744073709551616",
    "9" * 400,
    '""',
    '"x"',
    '"\\u0000"',
    '"\\ud800"',
    "[]",
    "[1]",
    "[[]]",
    "{}",
    '{"x":{}}',
    "[" * 60 + "]" * 60,
)


def altered(said: Any) -> Iterator[str]:
    """Texts of an object in which one value, at whatever depth, is another one or missing."""
    text = json.dumps(said)
    for path in paths(said):
        for value in (*VALUES, None):
            copy = json.loads(text)
            *way, last = path
            within = copy
            for it in way:
                within = within[it]
            if value is None:
                del within[last]
                yield json.dumps(copy)
            else:
                within[last] = "@here@"
                yield json.dumps(copy).replace('"@here@"', value)


def paths(said: Any) -> Iterator[tuple[Any, ...]]:
    """The ways to all values in an object."""
    found = (
        said.items()
        if isinstance(said, dict)
        else enumerate(said)
        if isinstance(said, list)
        else ()
    )
    for name, it in found:
        yield (name,)
        yield from ((name, *more) for more in paths(it))
