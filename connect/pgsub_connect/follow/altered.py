"""Tables that were altered by commands that the stream doesn't have: their rows come anew beside
it, as where somebody asks for that, without being asked.

| Of a table | Done |
|---|---|
| columns were added, and are null in all rows that were there | nothing is wrong, and nothing stays found |
| it is larger than what is copied unasked, or commits at the server wait for the follower | told, with the cure |
| any other | copied anew, as soon as that is possible, and again later each time where something is still found |
| its rows can't be added | told, until something else is found of it |
"""

import time

from pgsub_feed import log
from pgsub_feed.texts import counted

from ..drift.doubts import are_empty
from ..drift.findings import MOST, VALUES
from ..drift.remembered import Remembered
from ..server.catalog import Table
from ..server.connection import Connection
from ..server.publication_setup import names_of
from ..server.publications import sizes_of
from ..status.progress import ServerState
from ..stream.gate import CURE

# After how many seconds a table that was copied anew is copied anew again, at first and at most;
# and after how many it is looked what is still found of one that is being copied.
FIRST_DELAY, LONGEST_DELAY, LATER = 10.0, 600.0, 60.0


class Tries:
    """When each table was copied anew last, unasked: what was found of it then, and when and after
    how many seconds that may be done again."""

    def __init__(self) -> None:
        self.texts: dict[int, set[str]] = {}
        self.next: dict[int, float] = {}
        self.delays: dict[int, float] = {}

    def may(self, oid: int) -> bool:
        return time.monotonic() >= self.next.get(oid, 0.0)

    def note(self, oid: int, texts: set[str]) -> None:
        """A table is copied anew because of these."""
        now, delay = time.monotonic(), self.delays.get(oid, 0.0)
        is_calm = now - self.next.get(oid, now) > LONGEST_DELAY
        self.delays[oid] = min(2 * delay, LONGEST_DELAY) if delay and not is_calm else FIRST_DELAY
        self.texts[oid], self.next[oid] = texts, now + self.delays[oid]

    def under_way(self, oid: int, texts: set[str]) -> None:
        """A run finds a table under way already, because of these."""
        self.texts.setdefault(oid, texts)


class Altered:
    """What is done about them. `most`: how many bytes are copied unasked, None where none are."""

    def __init__(
        self, most: int | None, store: str, remembered: Remembered, server: ServerState
    ) -> None:
        self.most, self.store = most, store
        self.remembered, self.server, self.tries = remembered, server, Tries()
        # texts of tables that stay, what was told of them, and when the next may be copied anew
        self.lasting: set[str] = set()
        self.told: set[tuple[int, frozenset[str]]] = set()
        self.due = float("inf")

    def is_due(self) -> bool:
        """Whether a table that has waited may be copied anew now."""
        return time.monotonic() >= self.due

    def look_later(self, seconds: float) -> None:
        """A look wasn't possible now, or something was found without one."""
        if self.most is not None:
            self.due = min(self.due, time.monotonic() + seconds)

    def is_open(self, kind: str, text: str) -> bool:
        """Whether something is still to be done about what was found."""
        is_looked_at = self.most is not None and kind == VALUES and kind in self.remembered.found
        return is_looked_at and text in self.remembered.found[kind].texts.keys() - self.lasting

    def look(self, connection: Connection) -> list[str]:
        """Has tables copied anew after a look. Returns the kinds of which nothing stays found."""
        self.lasting, self.due = set(), float("inf")
        if self.most is None:
            return []
        found = self.found()
        for oid, texts in found.items():
            if self.remembered.wanted.get(oid) == "":
                self.tries.under_way(oid, texts)
                self.due = time.monotonic() + LATER
        found = {oid: it for oid, it in found.items() if self.is_left(oid, it)}
        tables = [it for oid in found if (it := self.table(oid))]
        if tables:
            self.server.note_standbys(connection.text("SHOW synchronous_standby_names"))
        sizes = sizes_of(connection, tables)
        gone: list[str] = []
        wanted: list[Table] = []
        for table in tables:
            if why := self.obstacle(table, sizes.get(table.oid, 0)):
                self.stay(table, found[table.oid], why)
            elif self.is_right(connection, table, found[table.oid]):
                log.info(f"{table.text_with_oid()} was altered, and its rows are right as they are")
                gone += self.remembered.are_right(table.oid, found[table.oid])
            elif self.tries.may(table.oid):
                wanted.append(table)
            else:
                self.due = min(self.due, self.tries.next[table.oid])
        self.want(wanted, found)
        return gone

    def found(self) -> dict[int, set[str]]:
        """What was found of each table. What is of none that is published stays."""
        values = self.remembered.found.get(VALUES)
        found, others = self.remembered.by_table(values.texts if values else ())
        self.lasting.update(others)
        return {oid: set(it) for oid, it in found.items()}

    def is_left(self, oid: int, texts: set[str]) -> bool:
        """Whether nothing is done about a table yet, or there is something new about it."""
        if self.remembered.wanted.get(oid) and texts <= self.tries.texts.get(oid, set()):
            self.lasting |= texts
            return False
        return self.remembered.wanted.get(oid) != ""

    def table(self, oid: int) -> Table | None:
        return self.remembered.catalog.tables.get(oid) if self.remembered.catalog else None

    def obstacle(self, table: Table, size: int) -> str:
        """Why a table isn't copied unasked, "" where it is."""
        assert self.most is not None
        if self.server.is_waited_for:
            return f"commits at the server wait for the follower: {CURE}"
        if size > self.most:
            return f"it has {size} bytes, above --on-alter-max-bytes {self.most}"
        return ""

    def stay(self, table: Table, texts: set[str], why: str) -> None:
        """A table stays as it is, which is told once."""
        self.lasting |= texts
        cure = f"pgsub-connect refresh --store {self.store} copies it anew"
        if (key := (table.oid, frozenset(texts))) not in self.told:
            self.told.add(key)
            text = f"{table.text_with_oid()} was altered, and isn't copied anew unasked"
            log.warning(f"{text}: {why}. {cure}")

    def is_right(self, connection: Connection, table: Table, texts: set[str]) -> bool:
        """Whether the rows are surely right: of many findings of a table not all are kept."""
        added = [self.remembered.found.about(it).added for it in sorted(texts)]
        if not all(added) or len(self.remembered.found[VALUES].texts) >= MOST:
            return False
        return are_empty(connection, table, added)

    def want(self, tables: list[Table], found: dict[int, set[str]]) -> None:
        """Has tables copied anew."""
        if not tables:
            return
        for it in tables:
            self.tries.note(it.oid, found[it.oid])
        names, many = names_of([it.text() for it in tables]), counted(len(tables), "table")
        log.info(f"{many} altered, copied anew beside what is followed: {names}")
        self.remembered.want([it.oid for it in tables])
        self.due = min(self.due, time.monotonic() + LATER)
