"""Planted bugs: watches that each do one thing wrong, to see which stream or history finds it. They
are the model with a bug, in place of the program."""

from collections.abc import Sequence

from .judging import Ending, Judge, Verdict, lsn_text
from .messages import Done, Keepalive, Message
from .nesting import Entry
from .printed import lines_of, status_of


class Watcher:
    """no bug"""

    def __init__(self, judge: type[Judge] = Judge) -> None:
        self.judge = judge
        self.told = (judge.__doc__ if judge is not Judge else self.__doc__) or ""

    def verdicts(self, contents: Sequence[bytes], version: int) -> list[Verdict]:
        return [self.judge(version).session(it) for it in contents]

    def lines(self, verdict: Verdict) -> list[str]:
        return lines_of(verdict, verdict.endings[0], verdict.tried)

    def status(self, verdicts: Sequence[Verdict]) -> int:
        return status_of(verdicts)

    def run(self, contents: Sequence[bytes], version: int) -> tuple[int, str]:
        """The exit status, and what is printed."""
        verdicts = self.verdicts(contents, version)
        lines = [line for it in verdicts for line in self.lines(it)]
        return self.status(verdicts), "".join(f"{it}\n" for it in lines)


class ForgetsSubxid(Judge):
    """an item in a block is taken for one of the transaction itself"""

    def stream_commit(self, at: int, message: Message, xid: int) -> list[Ending]:
        entries = self.streams[xid]
        self.streams[xid] = [it if it.is_abort else it._replace(subxid=xid) for it in entries]
        return super().stream_commit(at, message, xid)


class AllowsUnnested(Judge):
    """what is aborted is gone, wherever its abort stands"""

    def stream_commit(self, at: int, message: Message, xid: int) -> list[Ending]:
        aborted = {it.subxid for it in self.streams[xid] if it.is_abort}
        alive = [it for it in self.streams[xid] if it.subxid not in aborted]
        return self.commit(at, message, alive)


class AllowsCrossing(Judge):
    """subtransactions may cross, where none is aborted"""

    def stream_commit(self, at: int, message: Message, xid: int) -> list[Ending]:
        if not any(it.is_abort for it in self.streams[xid]):
            return self.commit(at, message, self.streams[xid])
        return super().stream_commit(at, message, xid)


class NamesFirstItem(Judge):
    """the first item of a transaction that isn't nested is named"""

    def stream_commit(self, at: int, message: Message, xid: int) -> list[Ending]:
        endings = super().stream_commit(at, message, xid)
        if endings and endings[0].rule == "rule 2":
            first = self.streams[xid][0]
            told = f"what came at {first.at} of subtransaction {first.subxid} is not nested"
            return [Ending("rule 2", told)]
        return endings


class TakesEqualForSmaller(Judge):
    """a commit whose LSN is the end of the one before is taken for one below it"""

    def misplaced(self, message: Message) -> list[Ending]:
        at, end = self.last
        if at and message.lsn == end:
            where = lsn_text(end)
            told = f"a commit's LSN {where} is below the end {where} of the commit at {at}"
            return [Ending("order", told)]
        return super().misplaced(message)


class AllowsAnyEnd(Judge):
    """a commit may end at its LSN or below"""

    def misplaced(self, message: Message) -> list[Ending]:
        return [it for it in super().misplaced(message) if "not above its LSN" not in it.told]


class ForgetsLastCommit(Judge):
    """a commit may come below the one before"""

    def misplaced(self, message: Message) -> list[Ending]:
        self.last = (0, 0)
        return super().misplaced(message)


class AllowsOtherLsn(Judge):
    """a Commit may name another LSN than its Begin"""

    def hear(self, at: int, sent: Message | Keepalive | Done) -> list[Ending]:
        if isinstance(sent, Message) and sent.letter == "C":
            self.order.final = sent.lsn
        return super().hear(at, sent)


class KeepsAborted(Judge):
    """an xid stays open behind the abort of all"""

    def hear(self, at: int, sent: Message | Keepalive | Done) -> list[Ending]:
        was = set(self.order.open)
        found = super().hear(at, sent)
        if isinstance(sent, Message) and sent.letter == "A":
            self.order.open = was
        return found


class MissesKeepalives(Judge):
    """keepalives in pairs and blocks aren't heard"""

    def hear(self, at: int, sent: Message | Keepalive | Done) -> list[Ending]:
        if isinstance(sent, Keepalive) and self.order.place:
            return []
        return super().hear(at, sent)


class LastKeepalive(Judge):
    """the last keepalive counts, not the greatest"""

    def below_keepalive(self, end: int) -> list[Ending]:
        self.keepalives = self.keepalives[-1:]
        return super().below_keepalive(end)


class EqualKeepalive(Judge):
    """a commit may end where a keepalive does"""

    def below_keepalive(self, end: int) -> list[Ending]:
        return super().below_keepalive(end + 1)


class NoChangesBelow(Judge):
    """a commit without changes has to end above the keepalives"""

    def commit(self, at: int, message: Message, alive: list[Entry]) -> list[Ending]:
        return super().commit(at, message, alive) or self.below_keepalive(message.end)


class KnowsRolledBack(Judge):
    """a Relation counts though its subtransaction is rolled back"""

    def stream_commit(self, at: int, message: Message, xid: int) -> list[Ending]:
        for it in self.streams[xid]:
            self.described |= {*it.oids} if it.is_relation else set()
        return super().stream_commit(at, message, xid)


class KnowsAtOnce(Judge):
    """a Relation counts when it arrives"""

    def message(self, at: int, message: Message) -> list[Ending]:
        self.described |= {*message.oids} if message.letter == "R" else set()
        return super().message(at, message)


class ForgetsRelations(Judge):
    """a Relation counts for its own transaction alone"""

    def commit(self, at: int, message: Message, alive: list[Entry]) -> list[Ending]:
        found = super().commit(at, message, alive)
        self.described = set()
        return found


class FirstOfTruncate(Judge):
    """of a Truncate the first table alone is looked at"""

    def commit(self, at: int, message: Message, alive: list[Entry]) -> list[Ending]:
        return super().commit(at, message, [it._replace(oids=it.oids[:1]) for it in alive])


class TellsFrameAfter(Watcher):
    """the frame behind the one that breaks a rule is told"""

    def verdicts(self, contents: Sequence[bytes], version: int) -> list[Verdict]:
        found = super().verdicts(contents, version)
        for it, content in zip(found, contents):
            if it.at is not None:
                it.at += 1 + int.from_bytes(content[it.at + 1 : it.at + 5], "big")
        return found


class WatchesFirstSession(Watcher):
    """what comes behind a disconnection isn't watched"""

    def verdicts(self, contents: Sequence[bytes], version: int) -> list[Verdict]:
        first = super().verdicts(contents[:1], version)
        return first + [Verdict() for _ in contents[1:]]


class WatchesOneSession(Watcher):
    """the next session goes on with what the one before described"""

    def verdicts(self, contents: Sequence[bytes], version: int) -> list[Verdict]:
        found, described = [], set[int]()
        for content in contents:
            judge = self.judge(version)
            judge.described |= described
            found.append(judge.session(content))
            described = judge.described
        return found


class EndsWell(Watcher):
    """the exit status is 0 though a rule is broken"""

    def status(self, verdicts: Sequence[Verdict]) -> int:
        return 0


class KeptUnseen(Watcher):
    """a rule is kept for which nothing came"""

    def lines(self, verdict: Verdict) -> list[str]:
        return [it.replace("not seen", "kept") for it in super().lines(verdict)]


class KeptPastFrame(Watcher):
    """it isn't told where the watch ended"""

    def lines(self, verdict: Verdict) -> list[str]:
        return [it.partition(" before ")[0] for it in super().lines(verdict)]


class KeptTooLarge(Watcher):
    """a rule is kept though a frame was too long to be watched"""

    def lines(self, verdict: Verdict) -> list[str]:
        return [it.replace("not watched from", "kept before") for it in super().lines(verdict)]


class TextsAreMessages(Watcher):
    """a text that isn't UTF-8 breaks rule 7"""

    def lines(self, verdict: Verdict) -> list[str]:
        endings = [
            Ending("rule 7" if rule == "rule 6" else rule, it) for rule, it in verdict.endings
        ]
        verdict.endings = endings
        return super().lines(verdict)


class ForeignBreaks(Watcher):
    """something foreign at the end breaks rule 5"""

    def lines(self, verdict: Verdict) -> list[str]:
        rule, told = verdict.endings[0]
        is_foreign = told.startswith(("wire 1 ", "wire 4 "))
        verdict.endings[0] = Ending("rule 5" if is_foreign else rule, told)
        return super().lines(verdict)


JUDGES = (
    ForgetsSubxid,
    AllowsUnnested,
    AllowsCrossing,
    NamesFirstItem,
    TakesEqualForSmaller,
    AllowsAnyEnd,
    ForgetsLastCommit,
    AllowsOtherLsn,
    KeepsAborted,
    MissesKeepalives,
    LastKeepalive,
    EqualKeepalive,
    NoChangesBelow,
    KnowsRolledBack,
    KnowsAtOnce,
    ForgetsRelations,
    FirstOfTruncate,
)
BUGS = (
    *(Watcher(it) for it in JUDGES),
    TellsFrameAfter(),
    WatchesFirstSession(),
    WatchesOneSession(),
    EndsWell(),
    KeptUnseen(),
    KeptPastFrame(),
    KeptTooLarge(),
    TextsAreMessages(),
    ForeignBreaks(),
)
