"""The decoder and the subscriber as a library for Python.

It loads a shared object that is linked from the static library of crates/pgsub_c, whose header
`pgsub.h` tells what each call does:

    cc -shared -o libpgsub.so -Wl,--whole-archive libpgsub_c.a -Wl,--no-whole-archive libos_c.a
    liblibc_c.a

A recording's sessions, each as its bytes, have the lines that `pgsub show` prints:

    for line in Library("./libpgsub.so").show(sessions):
        print(line)

A subscriber keeps its rows in memory:

    with Subscriber(Library("./libpgsub.so")) as copy:
        for chunk in chunks:
            copy.feed(chunk, clock)
            send(copy.replies())
        print("\\n".join(copy.rows()))
"""

from __future__ import annotations

import ctypes
from collections.abc import Callable, Iterable, Iterator
from functools import partial

ROOM = 10
# what the text of a fault has at most
TEXT = 256
NAMES = dict(enumerate(("wire", "decode", "order", "relation", "spool", "store"), 1))
NAMES |= {8: "closed", 9: "memory", 11: "no such protocol version"}
NAMES |= {12: "the subscriber is closed", 13: "the subscriber is open"}


class Fault(Exception):
    """What a call was rejected with: the number of the fault, and its text."""

    def __init__(self, number: int, text: str) -> None:
        super().__init__(text or NAMES.get(number, str(number)))
        self.number = number


class Room:
    """Bytes that a call may write."""

    def __init__(self, size: int) -> None:
        self.bytes = ctypes.create_string_buffer(size)
        self.length = ctypes.c_size_t()

    def words(self) -> tuple[object, int, object]:
        """How they are passed."""
        return self.bytes, len(self.bytes), ctypes.byref(self.length)

    def text(self) -> str:
        """What was written, if it fitted."""
        length = self.length.value
        return self.bytes.raw[:length].decode() if length <= len(self.bytes) else ""


class Handle(ctypes.Structure):
    """`pgsub_handle`, closed at first."""

    _fields_ = [("at", ctypes.c_void_p), ("is_open", ctypes.c_bool)]


class Library:
    """The calls of the shared object at a path."""

    def __init__(self, path: str) -> None:
        self.calls = calls = ctypes.CDLL(path)
        size, number = ctypes.c_size_t, ctypes.c_uint32
        bytes_, room = (ctypes.c_char_p, size), (ctypes.c_void_p, size, ctypes.POINTER(size))
        handle, clock, lsn = ctypes.POINTER(Handle), ctypes.c_int64, ctypes.POINTER(ctypes.c_uint64)
        for name, *words in (
            ("decode", *bytes_, ctypes.c_bool, *room),
            ("show", number, *bytes_, *room, *room),
            ("open", number, handle),
            ("feed", handle, *bytes_, clock, *room),
            ("status", handle, clock, ctypes.c_bool),
            ("replies", handle, *room),
            ("rows", handle, *room),
            ("position", handle, lsn, lsn),
            ("disconnect", handle),
        ):
            call = getattr(calls, f"pgsub_{name}")
            call.argtypes, call.restype = words, number
        calls.pgsub_close.argtypes, calls.pgsub_close.restype = [handle], None

    def call(self, name: str, *words: object) -> int:
        """The number that a call returns."""
        return int(getattr(self.calls, f"pgsub_{name}")(*words))

    def close(self, handle: Handle) -> None:
        """Frees what a handle holds."""
        self.calls.pgsub_close(handle)

    def decode(self, payload: bytes, in_block: bool = False) -> str:
        """The line of a CopyData's payload. `in_block`: between Stream Start and Stream Stop."""
        decode = partial(self.call, "decode", payload, len(payload), in_block)
        number, room = with_room(lambda room: decode(*room.words()))
        if number:
            raise Fault(number, room.text())
        return room.text().rstrip("\n")

    def show_session(self, session: bytes, version: int = 2) -> tuple[list[str], Fault | None]:
        """The lines of a session's frames, and the fault that ends them."""
        text, show = Room(TEXT), partial(self.call, "show", version, session, len(session))
        number, room = with_room(lambda room: show(*room.words(), *text.words()))
        # (a text has line feeds only where a line ends)
        return room.text().split("\n")[:-1], Fault(number, text.text()) if number else None

    def show(self, sessions: Iterable[bytes], version: int = 2) -> Iterator[str]:
        """The lines of a recording's sessions, with `--` between, up to the first fault."""
        for at, session in enumerate(sessions):
            if at:
                yield "--"
            lines, fault = self.show_session(session, version)
            yield from lines
            if fault:
                raise fault


class Subscriber:
    """A subscriber whose rows are in memory. It isn't for several threads."""

    def __init__(self, library: Library, version: int = 2) -> None:
        self.library, self.handle = library, Handle()
        self.check(library.call("open", version, self.handle))

    def check(self, number: int, room: Room | None = None) -> None:
        """Raises the fault with this number, with the text that was written."""
        if number:
            raise Fault(number, room.text() if room else "")

    def feed(self, piece: bytes, clock: int = 0) -> None:
        """Feeds a chunk of a session's bytes. `clock`: microseconds since 2000-01-01 00:00 UTC.
        Raises the first fault, up to which all is applied; from then on each chunk is rejected,
        until `disconnect`."""
        text, words = Room(TEXT), (piece, len(piece), clock)
        self.check(self.library.call("feed", self.handle, *words, *text.words()), text)

    def status(self, clock: int = 0, ask: bool = False) -> None:
        """Appends a Standby status update to the replies. `ask` asks the server for a reply."""
        self.check(self.library.call("status", self.handle, clock, ask))

    def replies(self) -> bytes:
        """The frames that wait to be sent to the server, which then wait no longer."""
        return self.written("replies")

    def rows(self) -> list[str]:
        """The lines that `pgsub dump` prints of the rows."""
        # (a text has line feeds only where a line ends)
        return self.written("rows").decode().split("\n")[:-1]

    def written(self, name: str) -> bytes:
        """What a call writes."""
        number, room = with_room(lambda room: self.library.call(name, self.handle, *room.words()))
        self.check(number)
        return room.bytes.raw[: room.length.value]

    def position(self) -> tuple[int, int]:
        """The LSNs up to which the rows are complete, and the server may forget."""
        position, confirmed = ctypes.c_uint64(), ctypes.c_uint64()
        self.check(self.library.call("position", self.handle, position, confirmed))
        return position.value, confirmed.value

    def disconnect(self) -> None:
        """Forgets the session. The rows and the position stay."""
        self.check(self.library.call("disconnect", self.handle))

    def close(self) -> None:
        """Frees it. Each call but this one is a fault from then on."""
        self.library.close(self.handle)

    def __enter__(self) -> Subscriber:
        return self

    def __exit__(self, *_: object) -> None:
        self.close()


def with_room(call: Callable[[Room], int], size: int = 1 << 12) -> tuple[int, Room]:
    """Calls with room, and again where that was too small; the number, and what was written."""
    room = Room(size)
    number = call(room)
    if number == ROOM:
        room = Room(room.length.value)
        number = call(room)
    return number, room
