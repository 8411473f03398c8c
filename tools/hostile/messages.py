"""What an honest server's messages have in them."""

from __future__ import annotations

from collections.abc import Callable
from typing import NamedTuple

from server_messages import message


class Message(NamedTuple):
    """A message as it came."""

    tag: bytes
    body: bytes

    def whole(self) -> bytes:
        return message(self.tag, self.body)


def read_message(read: Callable[[int], bytes]) -> Message | None:
    """The next message, None after the last."""
    head = read(5)
    if len(head) < 5:
        return None
    return Message(head[:1], read(int.from_bytes(head[1:], "big") - 4))


def cells_of(honest: list[Message]) -> list[list[bytes | None]]:
    """The rows of an answer."""
    return [cells_in(it.body) for it in honest if it.tag == b"D"]


def cells_in(body: bytes) -> list[bytes | None]:
    at, cells = 2, list[bytes | None]()
    for _ in range(int.from_bytes(body[:2], "big")):
        length = int.from_bytes(body[at : at + 4], "big", signed=True)
        cells.append(None if length < 0 else body[at + 4 : at + 4 + length])
        at += 4 + max(length, 0)
    return cells
