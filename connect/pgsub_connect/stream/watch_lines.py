"""What a filter says on its standard error. Of the server that it watches: which rule of a
well-formed one a session breaks, and from where on one isn't watched. Of commits that come again:
which of them aren't those that came before, and from where on they aren't compared. A frame's place
is in bytes from the first one of the session that the filter was given."""

import os
import re
import select
from typing import IO, NamedTuple

from pgsub_feed import log
from pgsub_feed.texts import parse_lsn

from ..drift.findings import REPEAT, RULE, UNWATCHED
from .filter_end import BREACH, OF_MESSAGES, REFUSED, Missing, missing_of
from .filter_input import PIECE

# How each of its lines begins.
WATCH, REPEATS = "pgsub: watch: ", "pgsub: repeats: "
BROKEN = re.compile(r"(order|rule [2-7]) broken at ([0-9]{1,20}): (.+)")
LEFT = re.compile(r"not watched from ([0-9]{1,20}) on: (.+)")
LSN = r"[0-9A-F]{1,8}/[0-9A-F]{1,8}"
# How a commit isn't one of those that came before.
CONTRADICTED = re.compile(
    f"(the commit that ends at {LSN} (?:came before with another .+|wasn't between those that came before"
    f"|came before and is left out)|a commit's LSN {LSN} is below the end {LSN} of one that came before)"
)
UNCOMPARED = re.compile(r"not compared from ([0-9]{1,20}) on: (.+)")
UNKEPT = re.compile(r"(can't write .+: not kept)")
# What is told of these, and of which kind that is.
FORMS = {
    WATCH: (
        (BROKEN, RULE, "{} broken by the frame at byte {} of a session: {}"),
        (LEFT, UNWATCHED, "a session from its frame at byte {} on: {}"),
    ),
    REPEATS: (
        (CONTRADICTED, REPEAT, "{}"),
        (UNCOMPARED, UNWATCHED, "commits that came again from the frame at byte {} on: {}"),
        (UNKEPT, UNWATCHED, "commits that come again after the filter's end: {}"),
    ),
}
UNREAD = "what the filter said of it can't be read: "
# The line with what it has noted, at its beginning, and that with what it found, at its end.
NOTED = re.compile(f"{REPEATS}[0-9]{{1,20}} commits are noted, up to ({LSN})(?:, .+)?")
COUNTED = re.compile(
    f"{REPEATS}[0-9]{{1,20}} equal, [0-9]{{1,20}} unknown, [0-9]{{1,20}} forgotten"
)
# Those of them that tell nothing.
NOTHING = re.compile(
    f"{REPEATS}(?:[0-9]{{1,20}} commits are noted, up to {LSN}|0 equal, 0 unknown, 0 forgotten)"
)
# Why it can't begin.
UNUSABLE = re.compile(f"{REPEATS}can't use .+: .+")


class Told(NamedTuple):
    """What a line tells: a finding of this kind."""

    kind: str
    text: str


def told_of(line: str) -> Told | None:
    """What a line on standard error says of the server, or of commits that came again; None where
    it says something else, counts commits or can't note them. One that can't be read may tell of
    anything."""
    head = next((it for it in FORMS if line.startswith(it)), None)
    if head is None or any(it.fullmatch(line) for it in (NOTED, COUNTED, UNUSABLE)):
        return None
    said = line.removeprefix(head)
    for form, kind, text in FORMS[head]:
        if found := form.fullmatch(said):
            return Told(kind, text.format(*found.groups()))
    return Told(UNWATCHED, UNREAD + said)


def counted_in(line: str) -> int | None:
    """Where the last of the commits ends that a filter has noted before, 0 where a line counts those
    that came again; None where it is another one."""
    if found := NOTED.fullmatch(line):
        return parse_lsn(found[1])
    return 0 if COUNTED.fullmatch(line) else None


def is_unusable(line: str) -> bool:
    """Whether it says that the file can't be used in which commits are noted."""
    return bool(UNUSABLE.fullmatch(line))


class FilterSaid:
    """Notes what is told of missed rows and the server, passes on the rest, keeps the last line."""

    def __init__(self, file: IO[bytes] | None = None) -> None:
        self.speaks, self.number = file is not None, file.fileno() if file else -1
        # the last line, and the one before it
        self.line, self.said, self.before = b"", "", ""
        # what it has said of changes that found no row since it began
        self.missing = Missing()
        # what it has said of the server since the caller looked last, and the last of that
        self.news: list[Told] = []
        self.told = ""
        # where the last commit ends that it had noted when it began
        self.noted = 0
        self.hearing = select.poll()
        if file:
            os.set_blocking(self.number, False)
            self.hearing.register(self.number, select.POLLIN)

    def has_said(self) -> bool:
        """Whether there is something on standard error, or its end."""
        return self.speaks and bool(self.hearing.poll(0))

    def read(self) -> None:
        """Takes all that it has said."""
        length = PIECE
        # (a pipe has no more than that at a time)
        while self.speaks and length == PIECE:
            try:
                piece = os.read(self.number, PIECE)
            except BlockingIOError:
                return
            length = len(piece)
            self.speaks = length > 0
            *lines, self.line = (self.line + piece).split(b"\n")
            for line in lines:
                self.hear(line.decode(errors="replace"))

    def hear(self, line: str) -> None:
        if missing := missing_of(line):
            self.missing = missing
            return
        if not NOTHING.fullmatch(line):
            log.info(f"filter: {line}")
        if told := told_of(line):
            self.news.append(told)
            self.told = told.text
        elif (noted := counted_in(line)) is not None:
            self.noted = max(noted, self.noted)
        else:
            self.before, self.said = self.said, line

    def take_news(self) -> list[Told]:
        """What it has said of the server since the last call."""
        news, self.news = self.news, []
        return news

    def reason(self, status: int) -> str:
        """What it has said of why it ended with a status."""
        if status == REFUSED and self.before in OF_MESSAGES:
            return self.before
        return self.told if status == BREACH and self.told else self.said
