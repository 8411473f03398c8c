"""The lies: each is what comes in the place of an honest answer, as pieces of bytes and pauses in
seconds."""

from __future__ import annotations

import dataclasses
import struct
from collections.abc import Callable, Iterator

from server_messages import READY, command_done, described, error, message, row

from .messages import Message, cells_of

# What a lie sends: bytes, or a pause.
Said = Iterator[bytes | float]
BLOCK = 1 << 16
MEGABYTE = 1 << 20


@dataclasses.dataclass(frozen=True)
class Lie:
    """`call` gets the honest answer. `frame`: how long the longest message is; `place`: the words
    of the query whose answer it is."""

    name: str
    call: Callable[[list[Message]], Said]
    frame: int = 0
    place: str = ""
    # whether it goes on for ever, so that the connector has to be asked to end
    endless: bool = False


def copy_line(payload: bytes) -> bytes:
    return message(b"d", payload)


def again(piece: bytes, pause: float = 0.0) -> Said:
    """The same for ever."""
    while True:
        yield piece
        if pause:
            yield pause


def in_blocks(piece: bytes) -> bytes:
    return piece * max(1, BLOCK // len(piece))


def endless_rows(honest: list[Message]) -> Said:
    yield described(1)
    yield from again(in_blocks(row(b"x" * 50)))


def endless_columns(honest: list[Message]) -> Said:
    """Rows as wide as they are to be, whose texts are never the same."""
    width = len(cells_of(honest)[0]) if cells_of(honest) else 7
    yield described(width)
    for it in range(1 << 40):
        yield b"".join(
            row(*(b"%d" % (it * 100000 + at) for _ in range(width))) for at in range(100)
        )


def dripped_rows(honest: list[Message]) -> Said:
    yield described(1)
    yield from again(row(b"1"), 0.2)


def dripped_bytes(honest: list[Message]) -> Said:
    for it in b"".join(body.whole() for body in honest):
        yield bytes([it])
        yield 0.05


def endless_notices(honest: list[Message]) -> Said:
    yield from again(in_blocks(error("take care " * 100, "01000", b"N", "LoadPublications")))


def endless_results(honest: list[Message]) -> Said:
    yield from again(in_blocks(command_done("SET")))


def endless_parameters(honest: list[Message]) -> Said:
    yield from again(in_blocks(message(b"S", b"TimeZone\0UTC\0")))


def huge_error(honest: list[Message]) -> Said:
    yield error("no " * (4 * MEGABYTE), "42P01") + READY


def huge_value(honest: list[Message]) -> Said:
    yield described(1) + row(b"7" * (30 * MEGABYTE)) + command_done("SELECT 1") + READY


def rewritten(
    honest: list[Message], change: Callable[[list[bytes | None]], list[bytes | None]], rows: int = 0
) -> Said:
    """The rows of the honest answer, each changed; where there is none, one of three columns."""
    found = [change(it) for it in cells_of(honest)] or [change([b"1", b"2", b"3"])]
    found = found * rows if rows else found
    yield described(len(found[0])) + b"".join(row(*it) for it in found) + command_done(
        "SELECT 1"
    ) + READY


def latin_1(honest: list[Message]) -> Said:
    yield from rewritten(honest, lambda it: [b"caf\xe9"] * len(it))


def no_numbers(honest: list[Message]) -> Said:
    yield from rewritten(honest, lambda it: [b"many"] * len(it))


def nulls(honest: list[Message]) -> Said:
    yield from rewritten(honest, lambda it: [None] * len(it))


def great_numbers(honest: list[Message]) -> Said:
    yield from rewritten(honest, lambda it: [b"9" * 5000] * len(it))


def negative_numbers(honest: list[Message]) -> Said:
    yield from rewritten(honest, lambda it: [b"-1"] * len(it))


def narrow(honest: list[Message]) -> Said:
    yield from rewritten(honest, lambda it: it[:-1])


def wide(honest: list[Message]) -> Said:
    yield from rewritten(honest, lambda it: [*it, b"1"])


def long_names(honest: list[Message]) -> Said:
    yield from rewritten(
        honest,
        lambda it: [
            (b"n" * 100_000 if value and not value.isdigit() and len(value) > 1 else value)
            for value in it
        ],
    )


def twice(honest: list[Message]) -> Said:
    yield from rewritten(honest, lambda it: it, 2)


def nothing(honest: list[Message]) -> Said:
    yield described(1) + command_done("SELECT 0") + READY


def no_answer(honest: list[Message]) -> Said:
    yield message(b"I", b"") + READY


def other_messages(honest: list[Message]) -> Said:
    yield message(b"!", b"what") + READY


def copy_in(honest: list[Message]) -> Said:
    yield message(b"G", b"\0\0\0") + READY


def copy_out(honest: list[Message]) -> Said:
    yield message(b"H", b"\0\0\0")
    yield from again(in_blocks(copy_line(b"1\t2\n")))


def wrong_lengths(honest: list[Message]) -> Said:
    yield b"D" + struct.pack(">i", 3) + READY


def long_length(honest: list[Message]) -> Said:
    yield b"D" + struct.pack(">i", 0x7FFFFFFF)
    yield from again(b"x", 0.01)


def ends(honest: list[Message]) -> Said:
    yield from ()


def circle(honest: list[Message]) -> Said:
    """Three partitions, each below another."""
    rows = ((b"%d" % (it + 1), b"%d" % ((it + 1) % 3 + 1)) for it in range(3))
    yield described(7) + b"".join(
        row(oid, above, b"public.t", b"t", b"t", b"7", b"7") for oid, above in rows
    )
    yield command_done("SELECT 3") + READY


# Lies in the place of rows that are copied, and of a stream.


def copied(honest: list[Message], line: bytes) -> Said:
    yield message(b"H", b"\0\0\0") + copy_line(line) + message(b"c", b"") + command_done(
        "COPY 1"
    ) + READY


def narrow_rows(honest: list[Message]) -> Said:
    yield from copied(honest, b"1\n")


def wide_rows(honest: list[Message]) -> Said:
    yield from copied(honest, b"1\t2\t3\t4\n")


def latin_1_rows(honest: list[Message]) -> Said:
    yield from copied(honest, b"1\tcaf\xe9\n")


def no_lines(honest: list[Message]) -> Said:
    yield from copied(honest, b"\\N\\\t\t")


def huge_row(honest: list[Message]) -> Said:
    yield from copied(honest, b"1\t" + b"7" * (30 * MEGABYTE) + b"\n")


def endless_copy(honest: list[Message]) -> Said:
    yield message(b"H", b"\0\0\0")
    number = 0
    while True:
        yield b"".join(copy_line(b"%d\t1\n" % it) for it in range(number, number + 1000))
        number += 1000
        yield 0.01


def dripped_copy(honest: list[Message]) -> Said:
    """A row of a gigabyte by and by."""
    yield message(b"H", b"\0\0\0") + b"d" + struct.pack(">i", 1 << 30)
    yield from again(b"x" * 100, 0.05)


def streamed(*payloads: bytes) -> Said:
    yield message(b"W", b"\0\0\0") + b"".join(copy_line(it) for it in payloads)
    yield from again(b"", 0.2)


def wal_data(body: bytes) -> bytes:
    return b"w" + struct.pack(">QQq", 1 << 40, 1 << 40, 0) + body


def short_payloads(honest: list[Message]) -> Said:
    yield from streamed(b"w", b"k", b"wx", wal_data(b""), b"?")


def broken_relation(honest: list[Message]) -> Said:
    begun = wal_data(b"B" + struct.pack(">QqI", 1 << 40, 0, 7))
    yield from streamed(
        begun, wal_data(b"R" + struct.pack(">I", 7) + b"\xff\0\xff\0d\xff\xff" + b"\1\xff\0" * 9)
    )


def wide_truncate(honest: list[Message]) -> Said:
    begun = wal_data(b"B" + struct.pack(">QqI", 1 << 40, 0, 7))
    yield from streamed(
        begun, wal_data(b"T" + struct.pack(">IB", 1 << 20, 0) + b"\0\0\x40\x01" * (1 << 20))
    )


def endless_keepalives(honest: list[Message]) -> Said:
    yield message(b"W", b"\0\0\0")
    yield from again(in_blocks(copy_line(b"k" + struct.pack(">Qq", 1 << 40, 0) + b"\1")), 0.001)


def huge_payload(honest: list[Message]) -> Said:
    yield from streamed(wal_data(b"M" + b"x" * (30 * MEGABYTE)))


def dripped_payload(honest: list[Message]) -> Said:
    yield message(b"W", b"\0\0\0") + b"d" + struct.pack(">i", 1 << 30)
    yield from again(b"x" * 100, 0.05)


def ended_stream(honest: list[Message]) -> Said:
    yield message(b"W", b"\0\0\0") + message(b"c", b"") + error(
        "x" * (2 * MEGABYTE), "XX000"
    ) + READY


FRAME = 30 * MEGABYTE
ANSWERS = (
    Lie("endless-rows", endless_rows, endless=True),
    Lie("endless-columns", endless_columns, endless=True),
    Lie("dripped-rows", dripped_rows, endless=True),
    Lie("dripped-bytes", dripped_bytes, endless=True),
    Lie("endless-notices", endless_notices, endless=True),
    Lie("endless-results", endless_results, endless=True),
    Lie("endless-parameters", endless_parameters, endless=True),
    Lie("huge-error", huge_error, FRAME),
    Lie("huge-value", huge_value, FRAME),
    Lie("latin-1", latin_1),
    Lie("no-numbers", no_numbers),
    Lie("nulls", nulls),
    Lie("great-numbers", great_numbers),
    Lie("negative-numbers", negative_numbers),
    Lie("narrow", narrow),
    Lie("wide", wide),
    Lie("long-names", long_names),
    Lie("twice", twice),
    Lie("nothing", nothing),
    Lie("no-answer", no_answer),
    Lie("other-messages", other_messages),
    Lie("copy-in", copy_in),
    Lie("copy-out", copy_out, endless=True),
    Lie("wrong-lengths", wrong_lengths),
    Lie("long-length", long_length, endless=True),
    Lie("ends", ends),
)
CIRCLES = (Lie("circle", circle, place="WITH RECURSIVE t (oid, parent)"),)
COPIES = tuple(
    Lie(name, call, frame, place="COPY ", endless=endless)
    for name, call, frame, endless in (
        ("narrow-rows", narrow_rows, 0, False),
        ("wide-rows", wide_rows, 0, False),
        ("latin-1-rows", latin_1_rows, 0, False),
        ("no-lines", no_lines, 0, False),
        ("huge-row", huge_row, FRAME, False),
        ("endless-copy", endless_copy, 0, True),
        ("dripped-copy", dripped_copy, 0, True),
    )
)
STREAMS = tuple(
    Lie(name, call, frame, place="START_REPLICATION", endless=True)
    for name, call, frame in (
        ("short-payloads", short_payloads, 0),
        ("broken-relation", broken_relation, 0),
        ("wide-truncate", wide_truncate, 4 * MEGABYTE),
        ("endless-keepalives", endless_keepalives, 0),
        ("huge-payload", huge_payload, FRAME),
        ("dripped-payload", dripped_payload, 0),
        ("ended-stream", ended_stream, 2 * MEGABYTE),
    )
)
# (no query has this in it)
NONE = Lie("none", ends, place="\0")
