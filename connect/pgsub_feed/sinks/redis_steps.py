"""How far a commit is written. One with many changes gets several MULTIs, of which each but the last
says in `pgsub:part` how many of its changes are there, and leaves the LSN as it is.

A sink that goes on reads the commit from its beginning, and passes over so many. So each change has
its effect once, whatever it does, and no stream has an entry twice. What the feed has in the place
of such a commit may be another one, as after a failover: the mark tells them apart.
"""

import dataclasses
import json
import zlib
from collections.abc import Callable, Iterator

from ..errors import Unfit
from ..formats.keys import content_of, entry
from ..interruption import Check
from ..json_texts import GREATEST, compact, lsn_of, object_of, parsed, whole_of
from ..reader.commits import Commit, Event, Message, Part, TableLine
from ..reader.following import Read
from ..texts import lsn_text

# After how many changes it is looked whether to end.
OFTEN = 1000


@dataclasses.dataclass(frozen=True)
class Mark:
    """Of a commit of which a part is written: its end, how many changes it has, how many of its
    messages and changes are there, and the checksum of the last one of these."""

    end: int
    changes: int
    done: int
    last: int

    def text(self) -> str:
        return json.dumps({**dataclasses.asdict(self), "end": lsn_text(self.end)})


def read_mark(text: bytes) -> Mark:
    """A ValueError or KeyError says that it is none."""
    told = object_of(parsed(text))
    changes, done, last = (whole_of(told[it], 0, GREATEST) for it in ("changes", "done", "last"))
    return Mark(lsn_of(told["end"]), changes, done, last)


def checksum(it: Event | None) -> int:
    """That of a message or change, wherever its definition stands; 0 of none."""
    if it is None:
        return 0
    told = [it.lsn, it.prefix, content_of(it)] if isinstance(it, Message) else entry(it)
    return zlib.crc32(compact(told).encode())


class Steps:
    """The parts of a commit that aren't written yet. `mark` says how much of it is, and `passed` is
    told what is passed over for that."""

    def __init__(
        self,
        commit: Commit,
        read: Read,
        mark: Mark | None,
        passed: Callable[[Event, Commit], None],
        check: Check,
        where: str,
    ) -> None:
        self.commit, self.read, self.mark, self.passed = commit, read, mark, passed
        self.check, self.where = check, where
        # how many messages and changes were given, or are there, and the last of them
        self.done = mark.done if mark else 0
        self.last: Event | None = None
        # how often all of it was read, and whether there is nothing more to give
        self.readings, self.is_over = 0, False
        if mark and (mark.end, mark.changes) != (commit.end, commit.changes):
            raise self.other(f"the next one ends at {commit.text()}")

    def other(self, found: str) -> Unfit:
        end = lsn_text(self.mark.end) if self.mark else ""
        text = f"it has a part of a commit that ends at {end}, and in the feed {found}"
        return Unfit(f"{self.where}: {text}: remove pgsub:lsn and the rows to begin anew")

    def parts(self) -> Iterator[Part]:
        """Them. The definition of a table comes before the first change of it that is given."""
        while not self.is_over:
            yield from self.some()

    def some(self) -> Iterator[Part]:
        """Those of one reading, up to where another one has begun."""
        passed, count, reading = self.done, 0, self.readings
        held = dict[int, TableLine]()
        for part in self.read():
            if isinstance(part, TableLine):
                # (what was written already may have had another definition of it since)
                held[part.relation.oid] = part
                if count < passed:
                    continue
            else:
                count += 1
                if count % OFTEN == 0:
                    self.check()
                if count <= passed:
                    self.pass_over(part, count)
                    continue
            yield from self.given(part, held, count)
            if reading != self.readings:
                return
        self.is_over = True

    def given(self, part: Part, held: dict[int, TableLine], count: int) -> Iterator[Part]:
        if not isinstance(part, Message) and (line := held.pop(part.relation.oid, None)):
            yield line
        if not isinstance(part, TableLine):
            self.done, self.last = count, part
            yield part

    def pass_over(self, it: Event, count: int) -> None:
        """Passes over what is there."""
        if self.mark and count == self.mark.done and checksum(it) != self.mark.last:
            raise self.other("that has other changes")
        self.last = it
        self.passed(it, self.commit)

    def prove(self) -> None:
        """Reads all of it before a part is written, so that nothing is of one that can't be read."""
        if self.readings:
            return
        for count, _ in enumerate(self.read()):
            if count % OFTEN == 0:
                self.check()
        self.readings += 1

    def reached(self) -> Mark:
        """What says that all is there that was given."""
        return Mark(self.commit.end, self.commit.changes, self.done, checksum(self.last))
