"""What is to be found of a session (docs/PROTOCOL.md, What a well-formed server is)."""

from dataclasses import dataclass, field
from typing import NamedTuple

from .messages import TOO_LARGE, Done, Keepalive, Message, Wrong, framed, said
from .nesting import Entry, misfit, survivors
from .order import Order

RULES = ("order", "rule 2", "rule 3", "rule 4", "rule 5", "rule 6", "rule 7")
WHOLE = "the end of the bytes"


class Ending(NamedTuple):
    """Why a watch ends: the rule that is broken or None, and the words for it."""

    rule: str | None
    told: str


@dataclass
class Verdict:
    """How a session ends at a frame, or where that is None with its bytes. Where one commit breaks
    several rules, each of these endings is right."""

    at: int | None = None
    endings: list[Ending] = field(default_factory=lambda: [Ending(None, WHOLE)])
    # the rules that something came for which could break them; and those of which that is open
    tried: set[str] = field(default_factory=set)
    maybe: set[str] = field(default_factory=set)

    def is_watched(self) -> bool:
        return self.endings[0].told != TOO_LARGE

    def is_broken(self) -> bool:
        return self.endings[0].rule is not None


def lsn_text(lsn: int) -> str:
    return f"{lsn >> 32:X}/{lsn & 0xFFFFFFFF:X}"


class Judge:
    """A watch over a session that starts at 0/0."""

    def __init__(self, version: int) -> None:
        self.order = Order(version)
        self.described: set[int] = set()
        self.pair: list[Entry] = []
        self.streams: dict[int, list[Entry]] = {}
        # where the last commit came and its end; and each keepalive
        self.last = (0, 0)
        self.keepalives: list[tuple[int, int]] = []
        self.has_change = False
        self.verdict = Verdict()

    def session(self, content: bytes) -> Verdict:
        at, is_done = 0, False
        try:
            while (frame := framed(content, at, is_done)) is not None:
                sent = said(frame, self.order.place == "block")
                endings = self.hear(at, sent)
                if endings:
                    self.verdict.endings = endings
                    break
                is_done = isinstance(sent, Done)
                at += len(frame)
            else:
                return self.verdict
        except Wrong as wrong:
            self.verdict.endings = [Ending(wrong.rule, wrong.fault)]
        self.verdict.at = at
        return self.verdict

    def hear(self, at: int, sent: Message | Keepalive | Done) -> list[Ending]:
        """Why no history is left with this frame, or nothing."""
        if isinstance(sent, Done):
            self.verdict.maybe.add("rule 5")
            return []
        if isinstance(sent, Keepalive):
            self.keepalives.append((at, sent.end))
            self.verdict.tried.add("rule 5")
            return []
        fault = self.order.fault(sent)
        if fault:
            return [Ending("order", fault)]
        endings = self.message(at, sent)
        self.order.take(sent)
        if not endings:
            self.note(sent)
        return endings

    def note(self, message: Message) -> None:
        """Notes what may have been broken, and wasn't."""
        self.verdict.tried |= {"order", "rule 5", "rule 6", "rule 7"}
        self.has_change |= message.letter in "IUDT"
        if message.letter == "c":
            self.verdict.tried.add("rule 2")
        if message.letter in "cC" and self.has_change:
            self.verdict.maybe |= {"rule 3", "rule 4"} if self.keepalives else {"rule 3"}

    def message(self, at: int, message: Message) -> list[Ending]:
        letter, xid, order = message.letter, message.xid, self.order
        if letter in "RIUDT":
            in_block = order.place == "block"
            entry = Entry(at, xid or 0 if in_block else 0, False, letter == "R", message.oids)
            (self.streams[order.xid] if in_block else self.pair).append(entry)
        elif letter == "B":
            self.pair = []
        elif letter == "C":
            return self.commit(at, message, self.pair)
        elif letter == "S" and message.first and xid is not None:
            self.streams[xid] = []
        elif letter == "A" and xid in self.order.open and xid is not None:
            if xid != message.other:
                self.streams[xid].append(Entry(at, message.other, True))
        elif letter == "c" and xid is not None:
            return self.stream_commit(at, message, xid)
        return []

    def stream_commit(self, at: int, message: Message, xid: int) -> list[Ending]:
        entries = self.streams[xid]
        alive = survivors(xid, entries)
        if alive is not None:
            return self.commit(at, message, alive)
        wrong = misfit(xid, entries)
        told = f"what came at {wrong.at} of subtransaction {wrong.subxid} is not nested"
        return [Ending("rule 2", told), *self.misplaced(message)]

    def misplaced(self, message: Message) -> list[Ending]:
        """Why a commit can't come behind the one before it."""
        found = []
        at, end = self.last
        told = "a commit's"
        if message.lsn < end:
            found.append(
                f"{told} LSN {lsn_text(message.lsn)} is below the end {lsn_text(end)} of the commit at {at}"
            )
        if message.end <= message.lsn:
            found.append(
                f"{told} end {lsn_text(message.end)} is not above its LSN {lsn_text(message.lsn)}"
            )
        return [Ending("order", it) for it in found]

    def commit(self, at: int, message: Message, alive: list[Entry]) -> list[Ending]:
        """A transaction commits, of which these items survive."""
        endings = self.misplaced(message)
        described = set(self.described)
        undescribed = None
        for it in alive:
            if it.is_relation:
                described |= {*it.oids}
            else:
                missing = [oid for oid in it.oids if oid not in described]
                undescribed = undescribed or (missing and (it.at, missing[0])) or None
        if undescribed:
            told = f"the change at {undescribed[0]} is committed and relation {undescribed[1]} not described"
            endings.append(Ending("rule 3", told))
        changes = any(it.oids for it in alive if not it.is_relation)
        endings += self.below_keepalive(message.end) if changes else []
        if not endings:
            self.last, self.described = (at, message.end), described
            if changes:
                self.verdict.tried |= {"rule 3", "rule 4"} if self.keepalives else {"rule 3"}
        return endings

    def below_keepalive(self, end: int) -> list[Ending]:
        """Whether a keepalive said that nothing up to here is to come: the first of those that said
        the most."""
        at, told = max(self.keepalives, key=lambda it: it[1], default=(0, 0))
        if not self.keepalives or end > told:
            return []
        words = f"a commit's end {lsn_text(end)} is not above the end {lsn_text(told)} of the keepalive at {at}"
        return [Ending("rule 4", words)]


def judged(content: bytes, version: int) -> Verdict:
    return Judge(version).session(content)
