"""What was found of one kind: its texts, and what each of them is about.

Tables whose rows are missing or wrong are copied anew by what is kept of them, so at least one text
of each table is.
"""

import dataclasses
from collections.abc import Callable, Iterable
from typing import NamedTuple

from pgsub_feed.json_values import Lsn, Oid
from pgsub_feed.texts import lsn_text, shortened

from ..server.catalog import Catalog, types_having

NAMES, PUBLICATION, VALUES = "names", "publication", "values"
# The server broke a rule, sent other commits than before, or wasn't watched all the time.
RULE, REPEAT, UNWATCHED = "rule", "repeat", "unwatched"
# How many texts of one kind are kept, but for the first one of each table.
MOST = 100


class About(NamedTuple):
    """What a text is about: tables, those of a publication, or those with a column of a type."""

    tables: tuple[Oid, ...] = ()
    publication: str = ""
    type_oid: Oid = 0
    # the changes that the publication doesn't send: as long as it is so, no copy mends it
    lacks: str = ""
    # whether rows are missing that were there before
    is_missing: bool = False
    # the name by which no rows are sent any more, so that those that the table had stay
    gone: str = ""
    # the column that was added, and is no renamed one: null is right where nothing filled it in
    added: str = ""


NOTHING = About()


class Difference(NamedTuple):
    """One of them. A kind of "" says that nothing can be wrong because of it."""

    kind: str
    text: str
    about: About = NOTHING


@dataclasses.dataclass
class Found:
    """What was found since an LSN. `more`: how many texts aren't kept that are of no one table."""

    lsn: Lsn
    texts: dict[str, About]
    more: int = 0

    def __post_init__(self) -> None:
        # the tables that the texts are about
        self.tables = {oid for it in self.texts.values() for oid in it.tables}

    def add(self, text: str, about: About) -> None:
        """Notes a text, or leaves it to the log where its table has many already."""
        if len(self.texts) < MOST or not self.tables.issuperset(about.tables):
            self.texts[text] = about
            self.tables.update(about.tables)
        elif not about.tables:
            self.more += 1

    def drop(self, texts: Iterable[str]) -> None:
        gone = set(texts)
        self.texts = {text: about for text, about in self.texts.items() if text not in gone}
        self.__post_init__()

    def is_empty(self) -> bool:
        return not self.texts and not self.more


class Findings(dict[str, Found]):
    """What was found, by kind. `told`: texts that a Relation message up to an LSN may give again;
    `mended`: by a text of several tables, those whose rows came anew since; `news`: what was found
    since the caller looked last. `touch` is called where there is something new."""

    def __init__(self, touch: Callable[[], None]) -> None:
        super().__init__()
        self.touch = touch
        self.told: dict[str, int] = {}
        self.mended: dict[str, list[int]] = {}
        self.news: list[str] = []

    def find(self, kind: str, lsn: int, text: str, about: About = NOTHING) -> bool:
        """Notes what was found, and what it is about. Returns false where it was known."""
        if self.told.get(text, -1) >= lsn:
            return False
        text, found = shortened(text), self.setdefault(kind, Found(lsn, {}))
        if text in found.texts:
            self.mended.pop(text, None)
            return False
        found.add(text, about)
        self.news.append(f"{kind} at {lsn_text(lsn)}: {text}")
        self.touch()
        return True

    def find_told(self, kind: str, lsn: int, text: str, about: About = NOTHING) -> None:
        """Notes what a look at the server has found, and a Relation message may give again."""
        self.find(kind, lsn, text, about)
        self.told[text] = lsn

    def take_news(self) -> list[str]:
        """What was found since the last call."""
        news, self.news = self.news, []
        return news

    def forget_told(self, position: int) -> None:
        """Forgets what a Relation message may tell again, once the store has those messages."""
        self.told = {text: lsn for text, lsn in self.told.items() if lsn > position}

    def accept(self, kinds: list[str]) -> None:
        """Forgets what was found of these kinds."""
        for kind in [it for it in self if it in kinds or "all" in kinds]:
            del self[kind]
            self.touch()

    def drop(self, texts: Iterable[str]) -> list[str]:
        """Forgets texts. Returns the kinds that go by that."""
        texts, gone = list(texts), []
        for kind, found in list(self.items()):
            found.drop(texts)
            if found.is_empty():
                del self[kind]
                gone.append(kind)
        return gone

    def about(self, text: str) -> About:
        """What a text that was found is about."""
        return next((it.texts[text] for it in self.values() if text in it.texts), NOTHING)

    def of(self, oid: int, catalog: Catalog | None) -> list[str]:
        """What was found of a table's rows. Names stay shared, whatever rows there are."""
        texts = [text for kind, found in self.items() if kind != NAMES for text in found.texts]
        several = ((it, tables_of_several(self.about(it), catalog)) for it in texts)
        return [it for it, tables in several if oid in (tables or self.about(it).tables)]

    def is_mended(self, text: str, oid: int, catalog: Catalog | None) -> bool:
        """Notes that a table's rows are right. Returns whether those of a text's others are."""
        others = tables_of_several(self.about(text), catalog)
        if others is None:
            return True
        self.mended[text] = sorted({*self.mended.get(text, ()), oid})
        if not set(others) <= set(self.mended[text]) or lasts(self.about(text), catalog):
            return False
        del self.mended[text]
        return True

    def restore(
        self, found: dict[str, Found], mended: dict[str, list[int]], told: dict[str, int]
    ) -> None:
        """Takes what a file has kept of it."""
        self.clear()
        self.update(found)
        self.mended, self.told = mended, told


def lasts(about: About, catalog: Catalog | None) -> bool:
    """Whether changes of a kind aren't sent, so that rows are right only for now."""
    if catalog is None or not about.lacks:
        return False
    tables = (catalog.tables[oid] for oid in about.tables if oid in catalog.tables)
    names = {about.publication} if about.publication else {it for t in tables for it in t.parts}
    there = [it for name, it in catalog.publications.items() if name in names]
    return bool(there) and not any(about.lacks in it.actions for it in there)


def tables_of(about: About, catalog: Catalog | None) -> list[int]:
    """The published tables that a text is about, also by a publication or a column's type."""
    others = tables_of_several(about, catalog)
    if others is not None:
        return others
    return [it for it in about.tables if catalog and it in catalog.tables]


def tables_of_several(about: About, catalog: Catalog | None) -> list[int] | None:
    """The published tables that a text is about which is of a type, of a publication that is there,
    or of what isn't sent; None of any other."""
    tables = catalog.tables.values() if catalog else ()
    if about.type_oid:
        types = types_having([about.type_oid], catalog.types if catalog else {})
        return [it.oid for it in tables if not types.isdisjoint(c.type_oid for c in it.columns)]
    if catalog and about.publication in catalog.publications:
        return [it.oid for it in tables if about.publication in it.parts]
    if about.lacks and not about.publication:
        return [it.oid for it in tables if it.oid in about.tables]
    return None
