"""The messages of the server in the frames of a session (docs/PROTOCOL.md: Frames, Messages of the
server, Logical messages)."""

import struct
from collections.abc import Callable
from functools import lru_cache
from importlib import import_module
from typing import Any, NamedTuple

_reader: Any = import_module("histories_model.reader")
MAX_FRAME = 16777216
TOO_LARGE = "wire 3 TooLarge"
ITEMS = "RIUDT"


class Message(NamedTuple):
    """A logical message, with those of its fields that a rule speaks of. The xid of an item is that
    of its block's subtransaction."""

    letter: str
    xid: int | None = None
    other: int = 0
    lsn: int = 0
    end: int = 0
    first: bool = False
    oids: tuple[int, ...] = ()


class Keepalive(NamedTuple):
    end: int


class Done(NamedTuple):
    """CopyDone."""


class Wrong(Exception):
    """What comes next is nothing of a session: the fault, and the rule that it breaks or None."""

    def __init__(self, fault: str, rule: str | None) -> None:
        super().__init__(fault)
        self.fault, self.rule = fault, rule


Sent = Message | Keepalive | Done


def wire(number: int, rule: str | None, byte: int | None = None) -> Wrong:
    told = f"wire {number} {_reader.WIRE[number]}"
    return Wrong(told if byte is None else f"{told} {byte}", rule)


def framed(content: bytes, at: int, is_done: bool) -> bytes | None:
    """The next frame; None where less than one is left."""
    if at == len(content):
        return None
    # (something foreign may end a session, so that it breaks no rule)
    if is_done:
        raise wire(4, None)
    if content[at] not in b"dc":
        raise wire(1, None, content[at])
    if len(content) - at < 5:
        return None
    length: int = struct.unpack_from(">I", content, at + 1)[0]
    if length < 4 or length > 2147483647 or (content[at] == ord("c") and length != 4):
        raise wire(2, "rule 5")
    if length - 4 > MAX_FRAME:
        raise Wrong(TOO_LARGE, None)
    frame = content[at : at + 1 + length]
    return frame if len(frame) == 1 + length else None


# (most frames of a session come again with each edit)
@lru_cache(1024)
def said(frame: bytes, in_block: bool) -> Sent:
    """What a frame says."""
    if frame[:1] == b"c":
        return Done()
    payload = frame[5:]
    if not payload:
        raise wire(6, "rule 5")
    if payload[:1] == b"k":
        if len(payload) != 18:
            raise wire(6 if len(payload) < 18 else 7, "rule 5")
        if payload[17] > 1:
            raise wire(8, "rule 5")
        return Keepalive(struct.unpack_from(">Q", payload, 1)[0])
    if payload[:1] != b"w":
        raise wire(5, "rule 5", payload[0])
    if len(payload) < 25:
        raise wire(6, "rule 5")
    try:
        letter, fields = _reader.decode(payload[25:], in_block)
    except _reader.Fault as fault:
        raise Wrong(str(fault), "rule 6" if "NotUtf8" in str(fault) else "rule 7") from None
    return MAKERS[letter.decode()](letter.decode(), *fields)


def item(letter: str, xid: int | None, it: Any) -> Message:
    return Message(letter, xid, oids=(it.oid,) if letter == "R" else tuple(it.definitions))


MAKERS: dict[str, Callable[..., Message]] = {
    "B": lambda letter, lsn, _time, xid: Message(letter, xid, lsn=lsn),
    "C": lambda letter, _xid, lsn, end, _time: Message(letter, lsn=lsn, end=end),
    "O": lambda letter, *_: Message(letter),
    "Y": lambda letter, *_: Message(letter),
    "M": lambda letter, *_: Message(letter),
    "E": Message,
    "S": lambda letter, xid, first: Message(letter, xid, first=bool(first)),
    "c": lambda letter, xid, lsn, end, _time: Message(letter, xid, lsn=lsn, end=end),
    "A": lambda letter, xid, subxid: Message(letter, xid, other=subxid),
    **{letter: item for letter in ITEMS},
}
