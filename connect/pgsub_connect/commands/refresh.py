"""`pgsub-connect refresh`: compares the publications with what the copy has, tells it, and has it
mended after asking.

What the copy has is known from `STORE.tables`: what was there when its rows were read, what has
changed since, and what was found and not accepted. Of the server only the catalog is read.

| Told | Means | Done |
|---|---|---|
| `missing` | rows that were there before the table, or a part of it, was published aren't in the copy | copied anew |
| `changed` | its columns, its rows' filter or its partitions were altered: rows in the copy may be other ones | copied anew |
| `extra` | it isn't published any more, and its rows are in the copy as they were then | they go |
| `other` | what is of no one published table | nothing |
"""

import dataclasses
import json
from typing import NamedTuple

from pgsub_feed import log
from pgsub_feed.errors import FileError
from pgsub_feed.interruption import Check
from pgsub_feed.options import flag
from pgsub_feed.texts import counted

from ..drift.doubts import resolved
from ..drift.findings import PUBLICATION, VALUES
from ..drift.remembered import Remembered
from ..server.catalog import Catalog
from ..server.catalog_reader import read_catalog
from ..server.publication_setup import names_of
from ..server.session import check_followed
from ..store.at_rest import check_there
from ..store.checkpoint import read_known
from . import add
from .arguments.server import StoreOptions, settled_store
from .arguments.words import ADDED, store_option
from .drop import ask_terminal

ABOUT = "tell which tables lack rows, were altered, or left the publication, and mend it"
ENDS = ADDED

DONE, LEFT = 0, 1
MISSING, CHANGED, EXTRA, OTHER = "missing", "changed", "extra", "other"


@dataclasses.dataclass(frozen=True)
class Options(StoreOptions):
    """Which store is compared, and whether it is mended without asking."""

    store: str = store_option("the store that is compared with what is published")
    yes: bool = flag("mend it without asking")


class Told(NamedTuple):
    """What is wrong of a table, by its OID and name; 0 and "" of what is of no one table."""

    what: str
    oid: int
    table: str
    why: list[str]

    def line(self) -> str:
        named = {"table": self.table, "oid": self.oid} if self.oid else {}
        told: dict[str, object] = {"is": self.what, **named, "why": self.why}
        return log.escaped(json.dumps(told, ensure_ascii=False))


def compared(remembered: Remembered, now: Catalog) -> list[Told]:
    """All that is wrong by what is remembered, which changes, and by what a server has now."""
    before = remembered.catalog
    assert before is not None
    known = set(before.tables)
    remembered.look(now)
    texts = [text for kind in (PUBLICATION, VALUES) for text in texts_of(remembered, kind)]
    found, others = remembered.by_table(texts)
    told = []
    for oid in sorted(found.keys() & now.tables.keys()):
        is_missing = oid not in known or any(
            remembered.found.about(it).is_missing for it in found[oid]
        )
        what = MISSING if is_missing else CHANGED
        told.append(Told(what, oid, remembered.name_of(oid), found[oid]))
    for text in others:
        about = remembered.found.about(text)
        is_left = bool(about.gone) and not remembered.left.isdisjoint(about.tables)
        of = (EXTRA, about.tables[0], about.gone) if is_left else (OTHER, 0, "")
        told.append(Told(*of, [text]))
    return told


def texts_of(remembered: Remembered, kind: str) -> list[str]:
    found = remembered.found.get(kind)
    if found is None:
        return []
    return [*found.texts, *([f"{kind}: and {found.more} more, see the log"] if found.more else [])]


def kinds_left(told: list[Told], remembered: Remembered) -> list[str]:
    """The kinds of what nothing is done about here: also of a table that left before any change of
    it came, which has no rows that could go."""
    texts = set[str]()
    for it in told:
        if it.what == OTHER or it.what == EXTRA and not remembered.described(it.oid):
            texts.update(it.why)
    return [
        kind for kind in (PUBLICATION, VALUES) if texts.intersection(texts_of(remembered, kind))
    ]


settled = settled_store


def run(options: Options, check: Check) -> int:
    """Compares, asks and has it done; the exit status."""
    check_there(options.store)
    known = read_known(options.store + ".connector")
    subscription = dataclasses.replace(options.subscription(), slot=known.slot or options.slot)
    remembered = Remembered(options.store, options.mode)
    if remembered.catalog is None:
        raise FileError(f"{remembered.path}: there is no such file yet: the next session makes it")
    with subscription.connected("tables", check) as connection:
        check_followed(connection, known.system, known.database, remembered.database)
        now = read_catalog(connection, subscription.publications)
        now = resolved(connection, remembered.catalog, now)
    told = compared(remembered, now)
    for it in told:
        print(it.line(), flush=True)
    if kinds := kinds_left(told, remembered):
        accepts = " ".join(f"--accept {kind}" for kind in kinds)
        log.info(f"what isn't mended here stays found until the follower is started with {accepts}")
    tables = {it.oid: it.table for it in told if it.what in (MISSING, CHANGED)}
    extra = {it.oid: it.table for it in told if it.what == EXTRA and remembered.described(it.oid)}
    for some in (tables, extra):
        for oid in [it for it in some if remembered.wanted.get(it) == ""]:
            log.info(f"{some.pop(oid)} is under way already")
    if not tables and not extra:
        log.info("there is nothing to do")
        return DONE
    parts = [
        text.format(counted(len(it), "table")) + names_of(list(it.values()))
        for text, it in (("copy {} anew: ", tables), ("remove the rows of {}: ", extra))
        if it
    ]
    if not options.yes and not ask_terminal(f"{'; '.join(parts)}?", check, "refresh"):
        return LEFT
    return add.add(options.store, options.mode, tables, extra, check)
