"""The side of the feed: gives commits to one reader, and notes where that one is."""

import contextlib

from ..column_types import FORMAT as TYPES_FORMAT, FeedTypes
from ..errors import Damaged, Failure, Stopped, UsageError
from ..formats.lines import Told
from ..interruption import Check
from ..json_texts import compact
from ..reader.commits import HEAD, Commit, Head
from ..reader.folder import noted_of
from ..reader.decoding import Decoder
from ..reader.lines import DEFINITION, FORMAT
from ..reader.polling import Poll
from ..reader.whole import Whole
from ..relation import Relation
from ..texts import lsn_text, parse_lsn
from .pipes import Cut, Pipes

# The mode of a reader's file.
MODE = 0o600


def head_line(head: Head) -> bytes:
    """The head of a segment that begins where the feed does."""
    return told(feed=FORMAT, **HEAD.written(head))


def told(**more: object) -> bytes:
    return compact(more).encode() + b"\n"


class Serving:
    """One reader, from its LSN on. With a name the feed keeps what it lacks."""

    def __init__(
        self, feed: str, pipes: Pipes, follows: bool, name: str | None, check: Check
    ) -> None:
        self.pipes, self.check_stop = pipes, check
        # the LSN that it has, and that of the last commit that was written
        self.at = self.first()
        self.noted = noted_of(feed, self.at, name, MODE) if name else None
        self.reader = Whole(feed, self.at)
        self.poll = Poll(self.reader, follows, self.check)
        self.sent = self.at or 0
        # what the catalog says, and which of it the reader has; what reads definitions, and which of
        # them the reader has
        self.types = FeedTypes(feed, self.check)
        self.given = self.types.text
        self.decoder, self.told = Decoder(), Told()

    def first(self) -> int | None:
        line = self.pipes.line().strip()
        return lsn_of(line) if line else None

    def check(self) -> None:
        """Hears what the reader has, and whether it is still there."""
        self.check_stop()
        self.hear()
        if self.pipes.has_ended:
            raise Cut("the reader has ended")

    def hear(self) -> None:
        while self.pipes.look():
            pass
        for line in self.pipes.lines():
            at = lsn_of(line.strip())
            if not (self.at or 0) <= at <= self.sent:
                text = f"the reader has {lsn_text(at)}, between {lsn_text(self.at or 0)} and {lsn_text(self.sent)} where it can be"
                raise UsageError(text)
            self.at = at
            if self.noted:
                self.noted.note(at)

    def run(self) -> None:
        """Writes commit after commit."""
        is_told = False
        while (commit := self.poll.next()) or self.poll.is_following:
            if self.reader.head and not is_told:
                self.pipes.put(head_line(self.reader.head))
                is_told = True
            if commit:
                self.give(commit)
            else:
                self.poll.rest()
        self.pipes.put(told(done=lsn_text(self.sent)))
        self.wait_for_end()

    def give(self, commit: Commit) -> None:
        try:
            self.give_definitions(commit)
            self.sent = commit.end
            self.pipes.put(self.reader.own_line(commit))
            for lines in self.reader.raw(commit):
                self.pipes.put(b"\n".join([*lines, b""]))
        except Damaged as damaged:
            # (cut off by the filter: the reader, which lacks the rest, comes again)
            raise Cut(damaged.told()) from None
        self.check()

    def give_definitions(self, commit: Commit) -> None:
        """Writes the definitions that the commit names and the reader lacks, and what is new of the
        catalog."""
        self.told.begin()
        for at, line in self.reader.definitions(commit):
            self.give_types(commit, line)
            self.pipes.put(self.told.add(at, line))
        if commit.base is not None:
            for lines in self.reader.raw(commit):
                for line in lines:
                    self.give_types(commit, line)

    def give_types(self, commit: Commit, line: bytes) -> None:
        """Writes what is new of the catalog, where a line defines a table."""
        if line.startswith(DEFINITION) and (relation := self.defined(line)):
            self.types.of(relation, commit)
        if (content := self.types.text) is not self.given:
            self.pipes.put(told(types=TYPES_FORMAT, bytes=len(content)) + content)
            self.given = content

    def defined(self, line: bytes) -> Relation | None:
        """What a line defines. (Of one that is spoiled the reader says so.)"""
        with contextlib.suppress(KeyError, TypeError, ValueError):
            return self.decoder.defined(line).relation
        return None

    def wait_for_end(self) -> None:
        """(The last that the reader has is still to come.)"""
        with contextlib.suppress(Cut):
            while True:
                self.check()
                self.pipes.look(1.0)

    def finish(self) -> None:
        self.reader.close()
        if self.noted and self.at is not None:
            self.noted.note(self.at, is_last=True)


def lsn_of(line: bytes) -> int:
    try:
        return parse_lsn(line.decode())
    except ValueError:
        raise UsageError(f"the reader writes what is no LSN: {line[:40]!r}") from None


def serve(feed: str, pipes: Pipes, follows: bool, name: str | None, check: Check) -> None:
    """Serves the reader behind these pipes until it ends."""
    serving: Serving | None = None
    try:
        serving = Serving(feed, pipes, follows, name, check)
        serving.run()
    except Cut:
        pass
    except Failure as failure:
        with contextlib.suppress(Cut, Stopped):
            pipes.put(told(fault=failure.exit_status(), text=failure.told()))
        raise
    finally:
        if serving:
            serving.finish()
