"""What the store beside a feed knows of the server's tables that no Relation message tells: their
primary keys and indexes, as its follower has seen them in the catalog at its last look.

They are in the first line of the file `STORE.tables`, which the follower replaces. `FOLDER/keys` of
the feed has the LSN up to which they are right: where a commit may have come after another key, the
follower looks at the server first.
"""

import dataclasses
import os
from typing import NamedTuple

from . import json_texts
from .column_types import CatalogFile, comes
from .errors import Passing
from .interruption import Check
from .json_values import Lsn, Oid, form_of
from .tables.set_aside import store_at
from .texts import lsn_text, parse_lsn

FORMAT, KEYS = 2, "keys"


class Index(NamedTuple):
    """An index of the server's: its columns, and whether each is in descending order. `why` says
    why tables of SQLite can't have it, "" where they can."""

    oid: Oid
    name: str
    columns: tuple[tuple[str, bool], ...]
    why: str = ""


@dataclasses.dataclass(frozen=True)
class KnownTable:
    """The columns of a table's primary key, none where it has none, and its indexes."""

    primary: tuple[str, ...]
    indexes: tuple[Index, ...] = ()


@dataclasses.dataclass(frozen=True)
class KnownCatalog:
    """What the last look has found: nothing that was committed above that LSN was seen."""

    lsn: Lsn = 0
    tables: dict[Oid, KnownTable] = dataclasses.field(default_factory=dict)


CATALOG = form_of(KnownCatalog | None)


class KnownTables(CatalogFile):
    """Those that a store knows."""

    KIND, WITHOUT = "tables", "tables get the keys of their replica identities alone"

    def __init__(self, store: str, feed: str = "") -> None:
        super().__init__(store + ".tables")
        self.path, self.feed = store, feed
        # an LSN up to which they are right
        self.right = 0
        # of the last look
        self.first, self.tables = b"", dict[int, KnownTable]()

    def primary(self, oid: int) -> tuple[str, ...] | None:
        """The columns of a table's primary key; None of a table that isn't known."""
        return self.tables[oid].primary if oid in self.tables else None

    def indexes(self, oid: int) -> tuple[Index, ...]:
        return self.tables[oid].indexes if oid in self.tables else ()

    def read(self) -> None:
        with open(json_texts.open_plain(self.file), "rb") as file:
            first = file.readline(json_texts.LARGEST)
        # (what follows are Relation messages, which tell none of it)
        if first == self.first:
            return
        said = json_texts.object_of(json_texts.parsed(first, json_texts.LARGEST))
        if said.get("format") != FORMAT:
            raise json_texts.Unreadable("of another version of this program")
        # (before rows are copied it has none)
        found = CATALOG.read(said["catalog"]) or KnownCatalog()
        self.lsn, self.tables, self.first = found.lsn, found.tables, first

    def wait(self, oid: int, lsn: int, check: Check) -> None:
        """Waits until a table is known, as long as the server wasn't looked at after this LSN: its
        follower does so once the stream has a new table."""
        self.wait_for(lambda: oid in self.tables, lsn, check)

    def require(self, lsn: int, check: Check) -> None:
        """Waits until they are right for a commit that ends at this LSN, and looks at them. Raises a
        Passing where that takes too long."""

        def are_right() -> bool:
            at = read_keys(self.feed) if self.right < lsn and self.feed else None
            self.right = self.right if at is None else at
            return at is None or at >= lsn

        if not comes(are_right, check):
            raise Passing(
                f"the primary keys aren't known that tables have at {lsn_text(lsn)}: the follower of {self.path} hasn't looked at the"
                f" server since {lsn_text(self.right)}. Is it running, and can it?"
            )
        self.look()


def known_beside(feed: str, store: str = "") -> KnownTables | None:
    """Those of a store, by default of the one whose feed is here; None where there is none."""
    store = store or store_at(os.path.abspath(feed))
    return KnownTables(store, feed) if store else None


def read_keys(folder: str) -> int | None:
    """The LSN up to which they are right; None where a feed doesn't say."""
    try:
        with open(json_texts.open_plain(os.path.join(folder, KEYS)), "rb") as file:
            return parse_lsn(file.read(64).decode("ascii").strip())
    except FileNotFoundError:
        return None
    except (OSError, ValueError):
        return 0
