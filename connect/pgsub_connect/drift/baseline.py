"""What a server is compared with: what is remembered of its publications, and was found."""

import dataclasses
from collections.abc import Iterable

from pgsub_feed.relation import Relation, Shape

from ..server.catalog import Catalog, Table
from .differences import differences, gone, shape_differences
from .findings import NAMES, Findings, tables_of
from .names import Names
from .remembered_lines import Kept, Outstanding, Sent, Unsaved

FORMAT = 2


class Baseline:
    """All of it. `found`: what was found; `names`: which table has each name; `outstanding`: whose
    rows are to come or go; `unsaved`: what isn't on the disk yet."""

    def __init__(self) -> None:
        self.forget()

    def forget(self) -> None:
        self.unsaved, self.outstanding = Unsaved(), Outstanding()
        self.found, self.names = Findings(self.touch), Names(self.touch)
        self.catalog: Catalog | None = None
        # the publications that --create has made, and their OIDs
        self.made: dict[str, int] = {}
        # the folder of the store's feed
        self.feed = ""
        # how many bytes of messages that gets of a transaction at most, 0 where it gets none
        self.messages = 0
        # whether the rows that are copied first are to lie beside it
        self.has_base = False
        # the OID and the name of the database; None where they weren't noted yet
        self.database: tuple[int, str] | None = None
        self.sent: dict[int, Sent] = {}
        self.left: set[int] = set()

    @property
    def wanted(self) -> dict[int, str]:
        return self.outstanding.wanted

    @property
    def unwanted(self) -> set[int]:
        return self.outstanding.unwanted

    @property
    def partial(self) -> set[int]:
        return self.outstanding.partial

    @property
    def copied(self) -> dict[int, int]:
        return self.outstanding.copied

    def touch(self) -> None:
        """Something is new that has to be on the disk before anything more is confirmed."""
        self.unsaved.change(True)

    def publications(self) -> list[str]:
        """The names of those that are followed."""
        return list(self.catalog.names) if self.catalog else []

    def is_known(self, oid: int) -> bool:
        """Whether a Relation message of this OID is no news."""
        return self.catalog is not None and (
            oid in self.catalog.tables or oid in self.catalog.partitions or oid in self.sent
        )

    def is_unpublished(self, oid: int, lsn: int) -> bool:
        """Whether a table wasn't published under its name at the last look before a commit."""
        catalog = self.catalog
        return catalog is not None and lsn > catalog.lsn and oid not in catalog.tables

    def is_partition(self, oid: int) -> bool:
        """Whether this is a partition whose rows are sent under another name."""
        catalog = self.catalog
        return catalog is not None and oid in catalog.partitions and oid not in catalog.tables

    def last_sent(self, oid: int) -> int:
        """The LSN of the commit with this OID's last Relation message, -1 where there is none."""
        return self.sent[oid].lsn if oid in self.sent else -1

    def text_of(self, oid: int) -> str:
        """A table's name and OID."""
        name = self.name_of(oid)
        return f"{name} ({oid})" if name else f"table {oid}"

    def name_of(self, oid: int) -> str:
        """The name that a table has, or had; "" where that isn't known."""
        table = self.catalog.tables.get(oid) if self.catalog else None
        return ".".join((table.namespace, table.name) if table else self.names.key_of(oid) or ())

    def begin_copy(self, catalog: Catalog, point: int) -> None:
        """Remembers what a server had at the LSN as of which its rows are copied."""
        self.begin(dataclasses.replace(catalog, lsn=point), point)

    def begin(self, catalog: Catalog, copied: int | None = None) -> None:
        """Remembers what a server has alone. `copied`: as of which LSN the store has all rows."""
        made, fed = self.made, (self.feed, self.messages, self.has_base)
        self.forget()
        self.catalog, self.made = catalog, made
        self.feed, self.messages, self.has_base = fed
        for oid, table in catalog.tables.items():
            if copied is not None:
                self.sent[oid] = Sent(copied, table.shape)
            self.names.rename((table.namespace, table.name), oid, catalog.lsn)
        self.touch()

    def note_made(self, made: dict[str, int]) -> None:
        """Notes publications that were made for this store, with their OIDs."""
        if made:
            self.made = {**self.made, **made}
            self.touch()

    def look(self, now: Catalog) -> list[str]:
        """Compares what a server has, and remembers it. Returns what is new, and harmless."""
        before = self.catalog
        assert before is not None
        harmless = []
        for kind, text, about in differences(before, now):
            if kind:
                self.found.find_told(kind, now.lsn, text, about)
            else:
                harmless.append(text)
        self.left = (self.left | before.tables.keys()) - now.tables.keys()
        for oid in self.sent.keys() - now.tables.keys() - now.partitions.keys() - self.left:
            kind, text, about = gone(oid, self.name_of(oid) or "table")
            self.found.find(kind, now.lsn, text, about)
            self.left.add(oid)
        self.names.release_all(now)
        for oid, table in now.tables.items():
            if text := self.names.rename((table.namespace, table.name), oid, now.lsn):
                self.found.find_told(NAMES, now.lsn, text)
        # (without these two the next look only sees less harmless news)
        is_urgent = dataclasses.replace(before, lsn=now.lsn, highest=now.highest) != now
        self.unsaved.change(is_urgent)
        self.catalog = now
        return harmless

    def name_new(self, namespace: str, table: str, oid: int, lsn: int) -> None:
        """Notes the name of a table that wasn't there at the last look, unless that is known."""
        if self.catalog and oid not in self.catalog.tables:
            self.note_name(self.names.rename((namespace, table), oid, lsn), lsn)

    def note_name(self, text: str, lsn: int) -> None:
        """Notes what is to be said of a name that another table had."""
        if text:
            self.found.find(NAMES, lsn, text)

    def note(self, relation: Relation, lsn: int, last: int) -> None:
        """Takes a Relation message into account. `last`: up to where this OID's are known."""
        if self.catalog is None or lsn <= last:
            return
        with self.unsaved.noting(relation, lsn):
            self.take(relation, lsn, self.catalog)

    def take(self, relation: Relation, lsn: int, catalog: Catalog) -> None:
        oid, sent, is_later = relation.oid, self.sent.get(relation.oid), lsn > catalog.lsn
        table = catalog.tables.get(oid) if is_later else None
        # Before the last look, which tells what led to it, each message is a step after the other.
        before = table.shape if table else sent.shape if sent else None
        text = relation.text()
        told = list(shape_differences(oid, text, before, relation.shape)) if before else []
        for difference in told:
            self.found.find(difference.kind, lsn, difference.text, difference.about)
        if is_later or oid not in self.names.held:
            rename = self.names.rename if is_later else self.names.rename_earlier
            self.note_name(rename((relation.namespace, relation.name), oid, lsn), lsn)
        self.sent[oid] = Sent(lsn, relation.shape)
        self.unsaved.note(sent is None or sent.shape != relation.shape)
        if table:
            catalog.tables[oid] = described(table, relation, bool(told))

    def is_altered(self, relation: Relation) -> bool:
        """Whether a Relation message has other columns than its table had at the last look."""
        table = self.catalog.tables.get(relation.oid) if self.catalog else None
        return table is not None and names_and_types(table.shape) != names_and_types(relation.shape)

    def has_name(self, oid: int) -> bool:
        """Whether no other table has the name by which this one was described last."""
        return oid in self.names.held

    def note_again(self, oid: int, lsn: int) -> None:
        """A Relation message has come again as it was."""
        if lsn > self.sent[oid].lsn:
            self.sent[oid] = dataclasses.replace(self.sent[oid], lsn=lsn)
            self.unsaved.note()

    def described(self, oid: int) -> Relation | None:
        """A table as it was described last, by which its rows can go; None where unknown."""
        sent, key = self.sent.get(oid), self.names.key_of(oid)
        return Relation(oid, *key, sent.shape) if key and sent and sent.shape else None

    def found_of(self, oid: int) -> list[str]:
        """What was found of the rows of a table."""
        return self.found.of(oid, self.catalog)

    def tables_of(self, text: str) -> list[int]:
        """The published tables that a text is about."""
        return tables_of(self.found.about(text), self.catalog)

    def by_table(self, texts: Iterable[str]) -> tuple[dict[int, list[str]], list[str]]:
        """What was found by the OIDs of the published tables that it is about, but for those whose
        rows came anew since; and what is about none of them."""
        found, others = dict[int, list[str]](), list[str]()
        for text in texts:
            oids, mended = self.tables_of(text), self.found.mended.get(text, ())
            others += [] if oids else [text]
            for oid in oids:
                if oid not in mended:
                    found.setdefault(oid, []).append(text)
        return found, others

    def never_copied(self, oid: int) -> None:
        """Forgets a table that went before any row of it was copied."""
        self.sent.pop(oid, None)
        if self.catalog:
            self.catalog.tables.pop(oid, None)
        self.names.forget_last(oid)
        self.unsaved.change()

    def replaced(self, relation: Relation, lsn: int) -> None:
        """Notes that a table's rows are of a commit: no Relation message before it is news."""
        self.sent[relation.oid] = Sent(lsn, relation.shape)
        self.unsaved.change()

    def note_database(self, oid: int, name: str) -> str:
        """Notes the database that is followed. Returns what is to be told of another name."""
        before, self.database = self.database, (oid, name)
        if before != self.database:
            self.unsaved.note()
        was = before[1] if before else name
        return f"the database {was} was renamed: it is {name} now" if was != name else ""

    def restore(self, kept: Kept) -> None:
        """Takes what a file has kept of it."""
        self.made, self.feed, self.messages = kept.made, kept.feed, kept.messages
        self.has_base = kept.base
        self.database, self.catalog = kept.database, kept.catalog
        self.sent, self.left, self.outstanding = kept.sent, kept.left, kept.outstanding
        self.names.restore(kept.names)
        self.found.restore(kept.found, kept.mended, kept.told)

    def kept(self) -> Kept:
        """What a file is to have of it."""
        fed = self.feed, self.messages, self.has_base
        begun = FORMAT, self.made, *fed, self.database, self.catalog
        found = dict(self.found), self.found.mended, self.found.told
        return Kept(*begun, self.sent, self.names.rows(), *found, self.outstanding, self.left)


def described(table: Table, relation: Relation, is_told: bool) -> Table:
    """A table as a Relation message describes it. `is_told`: what changed by that was found."""
    numbers = {it.name: it.number for it in table.columns}
    columns = tuple(it._replace(number=numbers.get(it.name, 0)) for it in relation.shape.columns)
    named = {"namespace": relation.namespace, "name": relation.name}
    # (the next look isn't to tell it in other words)
    altered, shape = "" if is_told else table.altered, Shape(relation.shape.identity, columns)
    return dataclasses.replace(table, **named, shape=shape, altered=altered)


def names_and_types(shape: Shape) -> list[tuple[str, int, int]]:
    return [(it.name, it.type_oid, it.modifier) for it in shape.columns]
