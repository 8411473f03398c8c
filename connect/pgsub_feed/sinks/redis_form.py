"""How much one MULTI of Redis gets, and how changes are written: as hashes, or as entries of streams."""

from collections.abc import Collection, Iterable, Iterator, Sized

from ..reader.commits import Change, Commit, Event, Message, Missed
from .redis_calls import Command, Said
from .relations import Holder, Kept

# How many commands and bytes one MULTI gets, and how many changes and bytes, as the feed has them, a
# commit has at most that is written by one.
MOST, ROOM = 10000, 8 << 20


def is_long(changes: int, size: int) -> bool:
    """Whether one MULTI isn't to have so many changes and bytes."""
    return changes > MOST or size > ROOM


class Form(Holder):
    """How rows and changes are written: they wait for `commands`, or `clear` forgets them."""

    name: str
    is_keyed_only: bool
    # what waits, each of it about one command, and how many bytes it has at most
    waiting: Sized
    size = 0

    def is_full(self) -> bool:
        """Whether as much waits as one MULTI gets."""
        return len(self.waiting) >= MOST or self.size >= ROOM

    def has_room(self, commit: Commit) -> bool:
        """Whether a commit has room in one MULTI beside what waits."""
        waits = len(self.waiting)
        return not waits or not is_long(waits + commit.changes, self.size + commit.bytes)

    def note(self, it: Event, commit: Commit) -> None:
        """A change or message that is there already, of a commit that isn't there as a whole."""

    def change(self, kept: Kept, it: Change | Missed, commit: Commit) -> None:
        """A change of a commit, or a row of a base."""

    def message(self, it: Message, commit: Commit) -> None:
        """A message of a commit."""

    def watched(self) -> list[str]:
        """The keys beside those of the sink that decide whether the commands can be run."""
        return []

    def prepare(self) -> None:
        """Looks at these, once they are watched."""

    def commands(self) -> list[Command]:
        """What writes all that waits."""
        raise NotImplementedError

    def accepts(self, said: Said) -> bool:
        """Whether one of these commands may end with this error."""
        return False

    def unkeyed(self) -> Collection[int]:
        """The OIDs of tables whose rows that wait don't have a key each."""
        return ()

    def clear(self) -> None:
        """Forgets what waits."""

    def check_new(self) -> None:
        """Looks at what there is before anything is begun."""

    def note_begun(self) -> None:
        """All tables of the base are made: what there is may be of these by now."""

    def doomed(self) -> list[str]:
        """The names of tables with more rows than what waits can name, which are to be removed
        behind it, before anything else comes."""
        return []

    def removals(self, names: Iterable[str]) -> Iterator[list[Command]]:
        """What removes all that the tables with these names have, some at a time."""
        raise NotImplementedError
