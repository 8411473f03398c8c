"""What is remembered of the publications that are followed, in a file beside the store, and what
was found by it. The module `drift.remembered_lines` tells what the file has.

It is replaced as a whole: written to a new file, which gets the name once the disk has it. What
Relation messages said since may follow, a line of JSON for each time that it was put on the disk:
so that costs by what is new, and not by all tables. A last line that isn't complete was never
synced. So a reader (`pgsub-connect names`) may look at it at any time.
"""

import contextlib
from collections.abc import Iterable
from typing import NamedTuple

from pgsub_feed.errors import FileError
from pgsub_feed.json_texts import flag_of, list_of, text_of, whole_of
from pgsub_feed.program import collected_rarely

from .baseline import FORMAT, Baseline
from .remembered_lines import KEPT, NOTED, DurableFile, line_of, noted_in, read_lines


class Summary(NamedTuple):
    """What of it a start needs before it has the lock of the checkpoint."""

    publications: list[str]
    feed: str
    has_base: bool
    messages: int


def summary_of(store: str) -> Summary:
    """That of a store. (To take all of a thousand tables up takes half as long as a start else.)"""
    try:
        said, _ = read_lines(store + ".tables", is_last=False)
        if said["format"] == FORMAT:
            names = said["catalog"]["names"] if said["catalog"] else []
            told = text_of(said["feed"]), flag_of(said["base"]), whole_of(said.get("messages", 0))
            return Summary([text_of(it) for it in list_of(names)], *told)
    except (OSError, ValueError, TypeError, KeyError):
        # (who reads all of it tells what is wrong)
        pass
    it = Remembered(store)
    return Summary(it.publications(), it.feed, it.has_base, it.messages)


class Remembered(Baseline):
    """What is remembered, and its file."""

    def __init__(self, store: str, mode: int = 0o600) -> None:
        self.path = store + ".tables"
        self.file = DurableFile(self.path, mode)
        super().__init__()
        with contextlib.suppress(FileNotFoundError):
            self.read()

    def note_feed(self, folder: str, has_base: bool = False, messages: int = 0) -> None:
        """Notes durably which folder has the store's feed, "" where it has none any more.
        `has_base`: the rows that are being copied are to lie beside it; `messages`: how many bytes
        of them it gets of a transaction at most."""
        if (folder, has_base, messages) != (self.feed, self.has_base, self.messages):
            self.feed, self.has_base, self.messages = folder, has_base, messages
            self.save()

    def keep_made(self, made: dict[str, int]) -> None:
        """Notes publications durably before others see them, for the run after a killed one."""
        self.note_made(made)
        self.save()

    def forget_made(self, names: Iterable[str]) -> None:
        """Notes durably that publications that were made are gone again."""
        if gone := self.made.keys() & set(names):
            self.made = {name: oid for name, oid in self.made.items() if name not in gone}
            self.save()

    def want(self, oids: Iterable[int], unwanted: Iterable[int] = ()) -> None:
        """Notes durably whose rows are to be added, anew if refused, and whose are to go."""
        self.outstanding.want(oids, unwanted)
        self.save()

    def want_later(self, oids: Iterable[int]) -> None:
        """Notes durably which tables the initial copy leaves to be added with all changes."""
        self.outstanding.partial.update(oids)
        self.want(self.outstanding.partial)

    def note_copied(self, oid: int, rows: int) -> None:
        """Notes how many rows of a table were read: it is stored whole where it has them."""
        self.outstanding.copied[oid] = rows

    def end_copy(self) -> None:
        """Notes durably that all rows are there."""
        if self.outstanding.copied:
            self.outstanding.copied.clear()
            self.save()

    def refuse(self, oid: int, why: str) -> None:
        """Notes durably why a table can't be added."""
        self.outstanding.wanted[oid] = why
        self.save()

    def added(self, oid: int, texts: Iterable[str] = ()) -> list[str]:
        """Notes durably that a table was added, or won't be. Returns the kinds that go by it."""
        was_unwanted = self.outstanding.added(oid)
        gone = self.are_right(oid, texts)
        if was_unwanted:
            self.outstanding.unwanted.discard(oid)
            self.left.discard(oid)
            self.sent.pop(oid, None)
            if not (self.catalog and oid in self.catalog.tables):
                self.names.forget(oid)
            self.save()
        return gone

    def are_right(self, oid: int, texts: Iterable[str]) -> list[str]:
        """Notes durably that a table's rows are right. Returns the kinds that go by that."""
        texts = [it for it in texts if self.found.is_mended(it, oid, self.catalog)]
        gone = self.found.drop(texts)
        self.save()
        return gone

    def read(self) -> None:
        try:
            said, more = read_lines(self.path)
            if said["format"] != FORMAT:
                text = f"of another version of this program (format {said['format']})"
                raise FileError(f"{self.path}: {text}")
            # (an earlier version asked for no messages)
            with collected_rarely():
                self.restore(KEPT.read({"messages": 0, **said}))
            self.follow(more)
        except FileNotFoundError:
            raise
        except OSError as error:
            raise FileError(f"{self.path}: {error.strerror}") from None
        except (ValueError, TypeError, KeyError, AttributeError):
            raise FileError(
                f"{self.path}: not a file of tables of this program, or a torn one. Remove it, and what the server has then is"
                " remembered; what it changed before isn't found"
            ) from None

    def follow(self, lines: list[bytes]) -> None:
        """Takes what messages said since the first line. Only the last line may be torn."""
        for at, line in enumerate(lines):
            try:
                noted = noted_in(line)
            except ValueError:
                if at + 1 < len(lines):
                    raise
                return
            for relation, lsn in noted:
                self.note(relation, lsn, -1)
        # (the next one is written whole, and what was found is told at each start)
        self.found.take_news()
        self.unsaved.clear()

    def put(self) -> None:
        """Puts what is new on the disk: behind the rest, where that is right and not too long."""
        line = line_of(NOTED, self.unsaved.noted)
        if self.unsaved.is_other or not self.file.add(line):
            self.save()
        else:
            self.unsaved.added()

    def save(self) -> None:
        """Replaces the file. The disk has it before this returns."""
        if self.catalog is None and not (self.made or self.feed):
            self.file.remove()
        else:
            self.file.replace(line_of(KEPT, self.kept()))
        self.unsaved.clear()

    def begin_anew(self) -> None:
        """Forgets all but the publications that were made, as where the store is made anew."""
        made = self.made
        self.forget()
        self.made = made
        if made:
            self.save()
        else:
            self.remove()

    def remove(self) -> None:
        """Forgets all, and the file goes."""
        self.forget()
        self.file.remove()
