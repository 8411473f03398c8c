"""libpq itself: its calls by ctypes where psycopg makes them so too, waits in ticks, the rows of a
query as they come, within a limit, so that no server fills the memory, and the many messages of a
session that is copied from and to, which nothing waits for."""

from __future__ import annotations

import contextlib
import ctypes
import mmap
import resource
import select
import sys
from pathlib import Path
from typing import Any

from pgsub_feed.texts import LONGEST, said_text

from ..errors import WrongAnswer
from .copied_text import NULL, unescaped
from .library import errors, pq

# PQERRORS_DEFAULT and PQERRORS_VERBOSE.
DEFAULT, VERBOSE = 1, 2

LIBPQ = ctypes.PyDLL("libpq.so.5") if pq.__impl__ == "python" else None


def typed(call: Any, gives: Any, *takes: Any) -> Any:
    """A call by ctypes with its types. Without these it takes twice as long."""
    if call:
        call.restype, call.argtypes = gives, takes
    return call


# Python's own call to make bytes of a place in memory.
AT = ctypes.c_void_p, ctypes.c_ssize_t
BYTES_AT = typed(ctypes.pythonapi["PyBytes_FromStringAndSize"], ctypes.py_object, *AT)
# A call of libpq that psycopg lacks.
GSS_IN_USE: Any = getattr(LIBPQ, "PQgssEncInUse", None)


def is_by_gssapi(raw: pq.abc.PGconn) -> bool | None:
    """Whether a connection is encrypted by GSSAPI, None where that can't be told."""
    pointer = getattr(raw, "pgconn_ptr", None)
    if GSS_IN_USE is None or pointer is None:
        return None
    return bool(GSS_IN_USE(ctypes.c_void_p(pointer)))


def set_verbosity(raw: pq.abc.PGconn, verbosity: int) -> None:
    """Sets how much libpq's errors say, by the one call of libpq that psycopg lacks.

    psycopg[binary] has a libpq of its own. The system's may be of another version, and would write
    into that one's connection at a place where something else is.
    """
    if pq.__impl__ == "binary":
        return
    pointer = getattr(raw, "pgconn_ptr", None)
    with contextlib.suppress(OSError, AttributeError):
        ctypes.CDLL("libpq.so.5").PQsetErrorVerbosity(
            ctypes.c_void_p(pointer), ctypes.c_int(verbosity)
        )


# How long a wait may go on before that is looked at, in seconds.
TICK = 0.5


def ready(socket: int, *, reads: bool, writes: bool) -> bool:
    """Waits for a socket, a tick at most. Returns whether it can be read."""
    return bool(select.select([socket] * reads, [socket] * writes, [], TICK)[0])


Row = list[str | None]
CELL = (ctypes.c_void_p, ctypes.c_int, ctypes.c_int)
GET_VALUE = typed(LIBPQ and LIBPQ.PQgetvalue, ctypes.c_void_p, *CELL)
GET_LENGTH = typed(LIBPQ and LIBPQ.PQgetlength, ctypes.c_int, *CELL)
IS_NULL = typed(LIBPQ and LIBPQ.PQgetisnull, ctypes.c_int, *CELL)
# What a query's rows may take of the memory, about: those of 300,000 columns take half.
MOST = 64 << 20
# What a row takes beside its values, each of these, and a text beside its characters.
ROW, VALUE, TEXT = 72, 8, 57
# Short texts that come again and again are kept once: how long they are, and how many.
SHORT, KEPT = 16, 4096
# How slow a server may send, in bytes a second, beyond the time that an answer may take.
SLOWEST = 1 << 16


class Rows:
    """The rows up to now."""

    def __init__(self) -> None:
        self.rows: list[Row] = []
        self.received = self.taken = 0
        self.kept: dict[bytes, str] = {}

    def add(self, result: pq.abc.PGresult) -> None:
        """Adds the one row of a result."""
        width = result.nfields
        self.taken += ROW + VALUE * width
        self.rows.append([self.text(it) for it in values_of(result, width)])
        self.check()

    def check(self) -> None:
        if self.taken > MOST:
            text = f"the server's answer is longer than {MOST >> 20} MB"
            raise WrongAnswer(f"{text}, after {len(self.rows)} rows: it is read no further")

    def add_lines(self, lines: list[bytes]) -> None:
        """Adds rows in COPY's text."""
        text_of = self.text
        for line in lines:
            cells = line[:-1].split(b"\t")
            self.taken += ROW + VALUE * len(cells)
            if b"\\" in line:
                self.rows.append([None if it == NULL else text_of(plain(it)) for it in cells])
            else:
                self.rows.append([text_of(it) for it in cells])
            self.check()

    def text(self, value: bytes | None) -> str | None:
        if value is None:
            return None
        self.received += len(value)
        if (known := self.kept.get(value)) is not None:
            return known
        text = decoded(value)
        self.taken += TEXT + len(value)
        if len(value) <= SHORT:
            if len(self.kept) >= KEPT:
                self.kept.clear()
            self.kept[value] = text
        return text

    def seconds(self) -> float:
        """How much more time what has come was worth, on a slow line."""
        return self.received / SLOWEST


def plain(cell: bytes) -> bytes:
    """The value of a cell of COPY's text."""
    return unescaped(cell) if b"\\" in cell else cell


def values_of(result: pq.abc.PGresult, width: int) -> list[bytes | None]:
    """The values of a result's one row. By libpq's own calls that takes half the time."""
    pointer = getattr(result, "pgresult_ptr", None) if GET_VALUE else None
    if pointer is None:
        return [result.get_value(0, it) for it in range(width)]
    values: list[bytes | None] = []
    for it in range(width):
        if length := GET_LENGTH(pointer, 0, it):
            values.append(BYTES_AT(GET_VALUE(pointer, 0, it), length))
        else:
            values.append(None if IS_NULL(pointer, 0, it) else b"")
    return values


def decoded(value: bytes) -> str:
    try:
        return value.decode()
    except UnicodeDecodeError:
        shown = said_text(value[:LONGEST].decode("latin-1").encode("unicode_escape"))
        text = f"a name or text of the database isn't UTF-8: {shown}: rename what has it"
        raise WrongAnswer(text) from None


# What PQgetCopyData returns after the last message, and for an error.
ENDED, FAILED = -1, -2
# libpq's own calls, where psycopg makes them by ctypes too.
GET_COPY_DATA = typed(
    LIBPQ and LIBPQ.PQgetCopyData, ctypes.c_int, ctypes.c_void_p, ctypes.c_void_p, ctypes.c_int
)
FREE = typed(LIBPQ and LIBPQ.PQfreemem, None, ctypes.c_void_p)
# The one that copies a message to a place of the caller's, for which there is nothing to free. (It
# is given values with their types, made once: to give those of numbers costs as much again.)
GET_LINE = typed(getattr(LIBPQ, "PQgetlineAsync", None), ctypes.c_int)
CONSUME_INPUT = typed(LIBPQ and LIBPQ.PQconsumeInput, ctypes.c_int, ctypes.c_void_p)
PUT_COPY_DATA = typed(
    LIBPQ and LIBPQ.PQputCopyData, ctypes.c_int, ctypes.c_void_p, ctypes.c_char_p, ctypes.c_int
)
FLUSH = typed(LIBPQ and LIBPQ.PQflush, ctypes.c_int, ctypes.c_void_p)
PLACE_OF = typed(ctypes.pythonapi["PyBytes_AsString"], ctypes.c_void_p, ctypes.py_object)
MADVISE = typed(
    ctypes.CDLL(None).madvise, ctypes.c_int, ctypes.c_void_p, ctypes.c_size_t, ctypes.c_int
)
# In pieces of how many bytes a longer message is moved, and how long the system's pages are.
MOVED, PAGE = 1 << 20, mmap.PAGESIZE
# As long as any message may be, and how much room that is.
LONGEST_MESSAGE, ROOM = (1 << 31) - 1, 1 << 31
# Linux's flag of a mapping for which no memory is set aside, and where it says whether it has that.
NO_RESERVE, OVERCOMMIT = 0x4000, Path("/proc/sys/vm/overcommit_memory")
LIMITS = resource.RLIMIT_AS, resource.RLIMIT_DATA
# Payloads, what PQgetCopyData returned behind them, and how much room is left.
Taken = tuple[list[bytes], int, int]


class Slow:
    """What a session asks of libpq for its messages, by psycopg: where it isn't the one over
    Debian's libpq, or where this is closed. Nothing of it waits."""

    def __init__(self, raw: pq.abc.PGconn) -> None:
        self.raw = raw

    def consume(self) -> bool:
        """Reads what has come on the socket. Returns false where that failed."""
        try:
            self.raw.consume_input()
            return True
        except errors.OperationalError:
            return False

    def take(self, room: int, long: int) -> Taken:
        """Takes payloads of CopyData, as far as there is room for so many bytes, or to the first
        one that is at least so long."""
        found, length = list[bytes](), 1
        while room > 0:
            try:
                length, view = self.raw.get_copy_data(1)
            except errors.OperationalError:
                return found, FAILED, room
            if length <= 0:
                break
            found.append(bytes(view))
            room -= length if length < long else room
        return found, length, room

    def send(self, payload: bytes) -> int:
        """Sends a CopyData, as `flush` does what is there."""
        try:
            self.raw.put_copy_data(payload)
            return self.raw.flush()
        except errors.OperationalError:
            return FAILED

    def flush(self) -> int:
        """Sends as much as the socket takes. Returns 1 where some of it waits, 0 where nothing
        does, and less where that failed."""
        try:
            return self.raw.flush()
        except errors.OperationalError:
            return FAILED


class Quick(Slow):
    """Does so by libpq's own calls: psycopg's way to them by ctypes costs as much again."""

    def __init__(self, raw: pq.abc.PGconn, pointer: int) -> None:
        super().__init__(raw)
        self.pointer, self.buffer = pointer, ctypes.c_void_p()
        self.place = ctypes.addressof(self.buffer)

    def consume(self) -> bool:
        return bool(CONSUME_INPUT(self.pointer))

    def take(self, room: int, long: int) -> Taken:
        get, pointer, buffer, place = GET_COPY_DATA, self.pointer, self.buffer, self.place
        found: list[bytes] = []
        length = 1
        while room > 0:
            length = get(pointer, place, 1)
            if length <= 0:
                break
            payload = buffer.value
            is_long = length >= MOVED
            found.append(moved(payload or 0, length) if is_long else BYTES_AT(payload, length))
            FREE(payload)
            room -= length if length < long else room
        return found, length, room

    def send(self, payload: bytes) -> int:
        put = PUT_COPY_DATA(self.pointer, payload, len(payload))
        return FAILED if put < 0 else int(FLUSH(self.pointer))

    def flush(self) -> int:
        return int(FLUSH(self.pointer))


class Landing:
    """Room for any message: addresses, to which the system gives memory once they are used."""

    def __init__(self) -> None:
        flags = mmap.MAP_PRIVATE | mmap.MAP_ANONYMOUS | NO_RESERVE
        self.memory = mmap.mmap(-1, ROOM, flags=flags)
        # (a huge page is more than most messages ever need)
        with contextlib.suppress(OSError):
            self.memory.madvise(mmap.MADV_NOHUGEPAGE)
        self.place = ctypes.addressof(ctypes.c_char.from_buffer(self.memory))

    def taken(self, length: int) -> bytes:
        """The bytes of a message there."""
        return moved(self.place, length) if length >= MOVED else self.memory[:length]


def landing() -> Landing | None:
    """Such room; None where addresses are few, or cost what others need."""
    is_limited = any(resource.getrlimit(it)[0] != resource.RLIM_INFINITY for it in LIMITS)
    if is_limited or sys.maxsize <= ROOM:
        return None
    try:
        is_reserved = OVERCOMMIT.read_text(encoding="ascii").startswith("2")
        return None if is_reserved else Landing()
    except OSError:
        return None


class Quickest(Quick):
    """Has libpq copy each message to one place, by one call where else there are three.

    The place has room for any message. So libpq never gives a part of one, which couldn't be told
    from a whole one that ends where the room does.
    """

    def __init__(self, raw: pq.abc.PGconn, pointer: int, landing: Landing) -> None:
        super().__init__(raw, pointer)
        self.landing = landing
        addresses = map(ctypes.c_void_p.from_param, (pointer, landing.place))
        self.words: tuple[Any, ...] = (*addresses, ctypes.c_int.from_param(LONGEST_MESSAGE))

    def take(self, room: int, long: int) -> Taken:
        get, (pointer, place, most), memory = GET_LINE, self.words, self.landing.memory
        found: list[bytes] = []
        short, length = min(long, MOVED), 1
        while room > 0:
            length = get(pointer, place, most)
            if length < short:
                if length <= 0:
                    break
                found.append(memory[:length])
                room -= length
            else:
                found.append(self.landing.taken(length))
                room -= length if length < long else room
        if length:
            # (the error of a connection that failed comes as a result, as that of the server does)
            return found, length, room
        # (0 may stand for a message without bytes too, behind which there may be others)
        more, length, room = super().take(room, long)
        found += more
        return found, length, room


def moved(place: int, length: int) -> bytes:
    """The bytes at a place in memory whose owner only frees it afterwards. The system gets it back
    piece by piece meanwhile: else a long row would be there once more."""
    whole: bytes = BYTES_AT(None, length)
    to = PLACE_OF(whole)
    for at in range(0, length, MOVED):
        size = min(MOVED, length - at)
        ctypes.memmove(to + at, place + at, size)
        first, last = -(-(place + at) // PAGE) * PAGE, (place + at + size) // PAGE * PAGE
        if last > first:
            MADVISE(first, last - first, mmap.MADV_DONTNEED)
    return whole


def wire_of(raw: pq.abc.PGconn) -> Slow:
    """That of an open connection."""
    pointer = getattr(raw, "pgconn_ptr", None) if GET_COPY_DATA else None
    if pointer is None:
        return Slow(raw)
    place = landing() if GET_LINE else None
    return Quick(raw, pointer) if place is None else Quickest(raw, pointer, place)
