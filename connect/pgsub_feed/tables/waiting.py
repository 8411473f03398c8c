"""Changes of a table that wait to be made: as they came, or those of each row joined."""

from collections.abc import Callable, Iterator
from typing import Protocol

from ..reader.commits import Cells, Change
from ..reader.lines import as_change
from ..relation import Relation
from .table import Kept

# How many changes of one kind are made at once, and how many rows wait at most.
MOST, MOST_ROWS = 1000, 20000


class Waiting(Protocol):
    """Changes of one table, of commits from that on which ends at an LSN."""

    at: int

    def add(self, change: Change) -> bool:
        """Adds a change; false where those that wait, or where none does this one, go first."""

    def taken(self) -> Iterator[list[Change]]:
        """Takes them all, those of one kind together."""


class Ordered:
    """Changes in the order in which they came, but for truncations."""

    def __init__(self, at: int) -> None:
        self.at = at
        self.changes: list[Change] = []

    def add(self, change: Change) -> bool:
        changes = self.changes
        if changes and (changes[0].op != change.op or len(changes) >= MOST):
            return False
        if change.op == "t":
            return False
        changes.append(change)
        return True

    def taken(self) -> Iterator[list[Change]]:
        changes, self.changes = self.changes, []
        if changes:
            yield changes


class Joined:
    """Changes of a table with a key: of each row what it was before them, and what it is then."""

    def __init__(self, at: int, kept: Kept, relation: Relation) -> None:
        self.at, self.relation = at, relation
        self.key: Callable[[Cells], object] = kept.key
        self.rows: dict[object, tuple[Cells | None, Cells | None]] = {}

    def add(self, change: Change) -> bool:
        op, _, _, before, after = change
        rows, key = self.rows, self.key
        if len(rows) >= MOST_ROWS:
            return False
        if op == "c" and after is not None:
            return self.put(key(after), after)
        if before is None:
            return False
        old = key(before)
        was = rows.get(old)
        if after is not None and key(after) == old:
            if was is None:
                rows[old] = before, after
            elif was[1] != before:
                return False
            else:
                rows[old] = was[0], after
            return True
        return self.move(old, was, before, after)

    def put(self, key: object, row: Cells) -> bool:
        """A row comes. (There is none with its key; a key with null is none of SQLite's.)"""
        was = self.rows.get(key)
        if was is not None and was[1] is not None or key is None:
            return False
        if isinstance(key, tuple) and None in key:
            return False
        self.rows[key] = was and was[0], row
        return True

    def move(
        self,
        old: object,
        was: tuple[Cells | None, Cells | None] | None,
        before: Cells,
        after: Cells | None,
    ) -> bool:
        """A row goes, and comes again where it has another key now."""
        if was is not None and was[1] != before:
            return False
        if after is not None and not self.put(self.key(after), after):
            return False
        if was is None:
            self.rows[old] = before, None
        elif was[0] is None:
            del self.rows[old]
        else:
            self.rows[old] = was[0], None
        return True

    def taken(self) -> Iterator[list[Change]]:
        """(Rows that go make room for those that come.)"""
        rows, self.rows = self.rows, {}
        kinds: dict[str, list[Change]] = {"d": [], "u": [], "c": []}
        for number, (before, after) in enumerate(rows.values()):
            op = "d" if after is None else "u" if before is not None else "c"
            kinds[op].append(as_change((op, self.relation, number, before, after)))
        yield from filter(None, kinds.values())
