"""What a program of one's own reads a feed with."""

import contextlib
import dataclasses
import datetime
import os
from collections.abc import Iterable, Iterator, Sequence

from .changes import Change, Commit, LongChanges, Truncate, change_of
from .column_types import FeedTypes, KnownTypes
from .errors import Damaged, UsageError
from .interruption import Check, never
from .pipe.following import SCHEME, Remote
from .reader import commits
from .reader.blocks import LONG, Blocks, blocks_of
from .reader.commits import Message
from .reader.folder import READERS, noted_of
from .reader.following import Chosen
from .reader.polling import Poll
from .reader.segments import Reader
from .reader.whole import Whole
from .relation import Relation
from .sinks.first_rows import exported
from .texts import is_plain_name

EPOCH = datetime.datetime(1970, 1, 1, tzinfo=datetime.timezone.utc)


def read(
    folder: str | os.PathLike[str],
    after: int | None = None,
    *,
    follow: bool = False,
    tables: Iterable[str] = (),
    base: str | os.PathLike[str] | None = None,
    reader: str | None = None,
    mode: int = 0o600,
    check: Check = never,
) -> Iterator[Commit]:
    """The commits of a feed that end after an LSN, each whole, in their order. `follow`: it goes on
    with those that come. `ssh://USER@HOST:PORT/PATH` is the feed of another host, whose
    `pgsub-feed` gives them; where the way there is cut another one is made.

    After 0, of who has no rows, it begins with those from before the first commit: of a `base`, an
    export with texts, or beside the feed. So it does after None, or with all commits that are there
    where it has no such rows.

    The changes of a long commit, of over 8 MiB, are read from the feed as they are asked for, so
    that none has to fit the memory; of a feed elsewhere from a temporary file (TMPDIR).

    The `types` of a change's table are what the server's catalog has said of it: names, labels, keys
    and what is never null. A commit with a new definition is given once the follower has looked.

    `tables`: only changes of these, named as for `--table`, and all messages. With a `reader`'s name the feed keeps
    what this one hasn't done: a commit is done once the next one is asked for, so what came of it
    has to be on the disk by then. `check` is called while nothing comes, and may raise to end it.

    An Unfit says that the feed lacks commits after the LSN, or has others there: begin anew. A
    Damaged says that the feed can't be read. Without `follow` a feed without segments has none.
    """
    feed = os.fspath(folder)
    check_asked(feed, tables, reader, base)
    is_here = not feed.startswith(SCHEME)
    build = Build(tables, FeedTypes(feed, check) if is_here else KnownTypes())
    if is_here:
        return read_here(feed, after, follow, build, base, reader, mode, check)
    return Remote(feed, after, follow, reader, check, build, build.types).commits()


def check_asked(
    feed: str, tables: Iterable[str], reader: str | None, base: str | os.PathLike[str] | None
) -> None:
    """Rejects a name by which a reader's file keeps nothing, and what else can't be meant."""
    if isinstance(tables, str):
        # (each of its letters would be a name)
        raise UsageError(f"tables={tables!r}: name them in a list, as [{tables!r}]")
    if reader is not None and not is_plain_name(reader):
        # (another file would be written, or one that keeps no segment)
        raise UsageError(f"reader={reader!r} is no name for a file in {feed}/{READERS}")
    if base and feed.startswith(SCHEME):
        raise UsageError(f"{feed}: its host has its base")


def read_here(
    feed: str,
    after: int | None,
    follow: bool,
    build: "Build",
    base: str | os.PathLike[str] | None,
    reader: str | None,
    mode: int,
    check: Check,
) -> Iterator[Commit]:
    """The same of a folder."""
    noted = noted_of(feed, after, reader, mode) if reader else None
    done = after
    try:
        with contextlib.ExitStack() as opened:
            rows = opened.enter_context(exported(os.fspath(base), build.names)) if base else None
            found = opened.enter_context(contextlib.closing(Whole(feed, after, rows)))
            for commit in whole(Poll(found, follow, check), build):
                yield commit
                done = commit.lsn
                if noted:
                    noted.note(done)
    finally:
        if noted and done is not None:
            noted.note(done, is_last=True)


class Build:
    """Makes commits of parts. First rows begin with a TRUNCATE of what may be there."""

    def __init__(self, tables: Iterable[str], types: KnownTypes) -> None:
        self.names, self.types = tuple(tables), types
        # by OID the last definition, and what was made of it
        self.last = dict[int, tuple[Relation, Relation]]()
        self.chosen, self.cleared = Chosen(self.names), set[int]()

    def __call__(self, commit: commits.Commit, parts: Iterable[commits.Part]) -> Commit:
        if isinstance(parts, Blocks):
            return self.long(commit, parts)
        tables, changes = dict[int, Relation](), list[Change]()
        told, messages = dict[Relation, None](), list[Message]()
        for part in parts:
            if isinstance(part, Message):
                messages.append(part)
            elif not self.chosen(part.relation):
                continue
            elif isinstance(part, commits.TableLine):
                table = tables[part.relation.oid] = self.typed(part.relation, commit)
                told[table] = None
                changes += self.clear(commit, table)
            else:
                changes.append(change_of(part, tables[part.relation.oid]))
        return made(commit, told, tuple(changes), messages)

    def long(self, commit: commits.Commit, blocks: Blocks) -> Commit:
        """The same of a long commit. All of it is read, and nothing of its changes is kept."""
        tables, ends = dict[Relation, Relation](), list[int]()
        is_chosen, messages, count = dict[int, bool](), list[Message](), 0
        for parts in blocks.all():
            for part in parts:
                if isinstance(part, Message):
                    messages.append(part)
                elif isinstance(part, commits.TableLine):
                    relation = part.relation
                    if has := self.chosen(relation):
                        tables[relation] = self.typed(relation, commit)
                    is_chosen[relation.oid] = has
                else:
                    count += is_chosen[part.relation.oid]
            ends.append(count)
        told = dict.fromkeys(tables.values())
        return made(commit, told, LongChanges(blocks, tables, ends), messages)

    def typed(self, relation: Relation, commit: commits.Commit) -> Relation:
        """A definition with what the catalog said of it."""
        types = self.types.of(relation, commit)
        before, made = self.last.get(relation.oid, (None, relation))
        if before is not relation or made.types is not types:
            made = dataclasses.replace(relation, types=types)
            self.last[relation.oid] = relation, made
        return made

    def clear(self, commit: commits.Commit, relation: Relation) -> list[Truncate]:
        if commit.base == 0:
            self.cleared.clear()
        if commit.base is None or relation.oid in self.cleared:
            return []
        self.cleared.add(relation.oid)
        return [Truncate(relation)]


def made(
    commit: commits.Commit,
    tables: Iterable[Relation],
    changes: Sequence[Change],
    messages: Iterable[Message],
) -> Commit:
    time = None
    if commit.ts_us is not None:
        time = EPOCH + datetime.timedelta(microseconds=commit.ts_us)
    about = commit.end, commit.prev, commit.xid, time
    return Commit(*about, tuple(tables), changes, commit.base is not None, tuple(messages))


def parts_of(reader: Reader, commit: commits.Commit) -> Iterable[commits.Part]:
    """What the commit has that the reader has taken last: of a long one in blocks."""
    if commit.bytes > LONG:
        return blocks_of(reader, commit)
    return reader.parts(commit)


def whole(poll: Poll, build: Build) -> Iterator[Commit]:
    """Commit after commit."""
    for commit in poll.commits():
        try:
            found = build(commit, parts_of(poll.reader, commit))
        except Damaged as damaged:
            poll.try_again(damaged, commit, commit.prev)
        else:
            yield found
