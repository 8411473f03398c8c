"""The order of messages (docs/PROTOCOL.md, of that name)."""

from .messages import ITEMS, Message

FAULTS = {
    1: "OutsideTransaction",
    2: "NestedBegin",
    3: "CommitWithoutBegin",
    4: "CommitLsnDiffers",
    5: "NestedStart",
    6: "StopWithoutStart",
    7: "FirstFlagOnOpen",
    8: "LaterFlagOnUnknown",
    9: "CommitOfUnknown",
    10: "StreamInVersion1",
    11: "CommitMisplaced",
    12: "AbortMisplaced",
}


class Order:
    """Where a session is: in a pair, in a block or in neither, and which xids are open."""

    def __init__(self, version: int) -> None:
        self.version = version
        self.place = ""
        self.xid = self.final = 0
        self.open: set[int] = set()

    def fault(self, message: Message) -> str | None:
        """Why it can't come next."""
        number = self.number(message)
        return f"order {number} {FAULTS[number]}" if number else None

    def number(self, message: Message) -> int:
        letter, xid, place = message.letter, message.xid, self.place
        if letter in "SEcA" and self.version == 1:
            return 10
        if letter == "M":
            return 0
        if letter in "OY" + ITEMS:
            return 0 if place else 1
        if letter == "B":
            return 2 if place or xid in self.open else 0
        if letter == "C":
            if place != "pair":
                return 11 if place else 3
            return 0 if message.lsn == self.final else 4
        if letter == "S":
            if place:
                return 5
            return (7 if message.first else 8) if message.first == (xid in self.open) else 0
        if letter == "E":
            return 0 if place == "block" else 6
        if place:
            return 11 if letter == "c" else 12
        return 9 if letter == "c" and xid not in self.open else 0

    def take(self, message: Message) -> None:
        """Goes on behind a message that may come next."""
        letter, xid = message.letter, message.xid
        if letter == "B" and xid is not None:
            self.place, self.xid, self.final = "pair", xid, message.lsn
        elif letter == "S" and xid is not None:
            self.place, self.xid = "block", xid
            self.open.add(xid)
        elif letter in "CE":
            self.place = ""
        elif xid is not None and (letter == "c" or (letter == "A" and xid == message.other)):
            self.open.discard(xid)
