"""JSON that others may have written: files beside a store, and what a peer says.

Whatever it is, what comes of it is a value of the kind that was asked for, or an `Unreadable`.
"""

import json
import math
import os
import stat
from collections.abc import Callable
from typing import Any, NoReturn, TypeVar

from .texts import parse_lsn

# How deep objects and lists may lie in each other, and how many bytes a text may have; one of what
# is remembered of all tables grows with these.
DEEPEST, LONGEST, LARGEST = 50, 16 << 20, 1 << 30
# The greatest LSN, time or count, and the greatest OID.
GREATEST, GREATEST_OID = (1 << 64) - 1, (1 << 32) - 1
Value = TypeVar("Value")


class Unreadable(ValueError):
    """It isn't what was asked for."""


def compact(value: object) -> str:
    """A value as one line without blanks."""
    return json.dumps(value, ensure_ascii=False, separators=(",", ":"))


def parsed(text: str | bytes, longest: int = LONGEST) -> Any:
    """What a text of JSON says; without NaN and infinities, which no standard has."""
    found = loaded(text, longest)
    level = outer_of([found])
    for _ in range(DEEPEST):
        level = [it for outer in level for it in outer_of(outer)]
    if level:
        raise Unreadable(f"deeper than {DEEPEST}")
    return found


def loaded(text: str | bytes, longest: int = LONGEST) -> Any:
    """The same, however deep, for who takes values of declared types from it, which have an end."""
    if len(text) > longest:
        raise Unreadable(f"longer than {longest} bytes")
    try:
        return json.loads(text, parse_constant=refuse, parse_float=finite)
    except (ValueError, RecursionError) as error:
        raise Unreadable(str(error)) from None


def refuse(text: str) -> NoReturn:
    raise Unreadable(f"{text} isn't JSON")


def finite(text: str) -> float:
    number = float(text)
    if not math.isfinite(number):
        refuse(text)
    return number


def outer_of(value: dict[str, Any] | list[Any]) -> list[Any]:
    """What lies in a value and has something in it itself."""
    within = value.values() if isinstance(value, dict) else value
    return [it for it in within if isinstance(it, (dict, list))]


def reader_of(kind: type[Value], what: str) -> Callable[[Any], Value]:
    """What takes values of a kind; an Unreadable says what any other one is."""

    def read(value: Any) -> Value:
        if not isinstance(value, kind):
            raise Unreadable(what)
        return value

    return read


object_of: Callable[[Any], dict[str, Any]] = reader_of(dict, "no object")
list_of: Callable[[Any], list[Any]] = reader_of(list, "no list")
text_of = reader_of(str, "no text")
flag_of = reader_of(bool, "neither true nor false")


def whole_of(value: Any, least: int = 0, most: int = GREATEST) -> int:
    """A whole number. (A bool is none, nor is 1.0.)"""
    if type(value) is not int or not least <= value <= most:
        raise Unreadable(f"no whole number from {least} to {most}")
    return value


def number_of(value: Any) -> float:
    if type(value) not in (int, float) or abs(value) > GREATEST:
        raise Unreadable("no number")
    return float(value)


def signed_of(value: Any) -> int:
    """A number of 32 bits."""
    if type(value) is int and -(1 << 31) <= value <= 1 << 31:
        return value
    return whole_of(value, -(1 << 31), 1 << 31)


def oid_of(value: Any) -> int:
    """An OID, as a number or as the name of an object's field."""
    # (there are many)
    if type(value) is int and 0 <= value <= GREATEST_OID:
        return value
    if isinstance(value, str) and value.isascii() and value.isdecimal() and len(value) <= 10:
        value = int(value)
    return whole_of(value, most=GREATEST_OID)


def lsn_of(value: Any) -> int:
    """An LSN, of its text."""
    try:
        return parse_lsn(text_of(value))
    except ValueError as error:
        raise Unreadable(str(error)) from None


def open_plain(path: str) -> int:
    """Opens a file for reading, where it is one: nothing is waited for, as a pipe would be."""
    file = os.open(path, os.O_RDONLY | os.O_NONBLOCK | os.O_NOCTTY | os.O_CLOEXEC)
    if stat.S_ISREG(os.fstat(file).st_mode):
        return file
    os.close(file)
    raise Unreadable("not a file")


def read_whole(file: int, longest: int = LONGEST) -> bytes:
    """All of an open file, where it isn't longer."""
    parts, left = list[bytes](), longest + 1
    while left > 0 and (part := os.read(file, min(left, 1 << 20))):
        parts.append(part)
        left -= len(part)
    if left <= 0:
        raise Unreadable(f"longer than {longest} bytes")
    return b"".join(parts)


def read_plain(path: str, longest: int = LONGEST) -> bytes:
    """All of a file."""
    file = open_plain(path)
    try:
        return read_whole(file, longest)
    finally:
        os.close(file)
