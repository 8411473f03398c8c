"""What has changed between two readings of a server's publications, and between two Relation
messages, in plain words.

Each difference has the kind of fault that it may be in the copy:

| Kind | What may be wrong |
|---|---|
| `names` | a name is another table's now: rows of both are shown under it |
| `publication` | rows are missing, or stay, because the publication has other tables, partitions or rows, or had for a time |
| `values` | values in rows that were there before were changed by a command that isn't in the stream |
"""

from collections.abc import Iterable, Iterator

from pgsub_feed.relation import Column, Shape

from ..server.catalog import ACTIONS, Catalog, Part, Partition, Publication, Table
from .findings import PUBLICATION, VALUES, About, Difference
from .partition_differences import UNLOGGED, is_made_in, of_logging, partition_differences, root_of

# How many columns, labels and the like a text names.
NAMED = 20


def shape_differences(oid: int, table: str, old: Shape, new: Shape) -> Iterator[Difference]:
    """What of another definition may have changed values in rows. Columns that went have not."""
    about = About((oid,))
    for column in added_columns(old, new):
        text = f"column {column.name} of {table} was added or renamed: rows that were there have nulls in it"
        is_new = not is_renamed(column, old, new)
        yield Difference(VALUES, text, about._replace(added=column.name) if is_new else about)
    yield from (Difference(VALUES, text, about) for text in shape_texts(table, old, new))


def added_columns(old: Shape, new: Shape) -> list[Column]:
    names = {it.name for it in old.columns}
    return [it for it in new.columns if it.name not in names]


def is_renamed(column: Column, old: Shape, new: Shape) -> bool:
    """Whether a column that has a new name may have had another one. A Relation message has no
    numbers, so there it may where another column went."""
    if column.number and all(it.number for it in old.columns):
        return column.number in {it.number for it in old.columns}
    return bool(added_columns(new, old))


def shape_texts(table: str, old: Shape, new: Shape) -> Iterator[str]:
    was = {it.name: it for it in old.columns}
    for column in new.columns:
        same = was.get(column.name)
        if same is not None and column.number and same.number and column.number != same.number:
            yield f"column {column.name} of {table} was dropped and made anew: its values may be the old ones"
        elif same is not None and same[1:3] != column[1:3]:
            yield f"column {column.name} of {table} has another type: its values may be written in another way"
    kept = {it.name for it in new.columns} & was.keys()
    names, before = ([it.name for it in shape.columns if it.name in kept] for shape in (new, old))
    if names != before:
        yield f"columns of {table} have changed their names among each other, or were made anew"
    if (old.identity, keys_of(old)) != (new.identity, keys_of(new)):
        key = ", ".join(keys_of(new)[:NAMED]) or "no column"
        key = "all columns" if new.identity == "f" else key
        yield f"table {table} has another replica identity: {key}"


def keys_of(shape: Shape) -> list[str]:
    return [it.name for it in shape.columns if it.key and shape.identity in "di"]


def type_differences(oid: int, old: dict[str, str], new: dict[str, str]) -> Iterator[Difference]:
    """Labels that were renamed, and parts of composite types. A new label changes no value."""
    name, about = f"type {new.get('name', '')} ({oid})", About(type_oid=oid)
    renamed = sorted(
        f"{old[it]} became {new[it]}"
        for it in old.keys() & new.keys()
        if it.isdigit() and old[it] != new[it]
    )
    if renamed:
        labels = ", ".join(renamed[:NAMED])
        text = f"{name}: {labels}: values that were there have the old labels"
        yield Difference(VALUES, text, about)
    if {it: old[it] for it in old if it[0] == "#"} != {it: new[it] for it in new if it[0] == "#"}:
        text = f"{name} consists of other parts: values that were there have the old ones"
        yield Difference(VALUES, text, about)


TRUNCATE = ACTIONS[3]


def differences(before: Catalog, now: Catalog) -> Iterator[Difference]:
    """All of them but those of names."""
    for name in sorted(before.publications.keys() | now.publications.keys()):
        old, new = before.publications.get(name), now.publications.get(name)
        if old is None:
            since = "was gone, and is there again" if name in before.names else "is followed"
            text = f"publication {name} {since}: changes from before aren't sent"
            yield Difference(PUBLICATION, text, About(publication=name, is_missing=True))
        elif new is None:
            text = f"publication {name} {'is gone' if name in now.names else 'is not followed any more'}"
            yield Difference(PUBLICATION, text, About(publication=name))
        else:
            yield from publication_differences(name, old, new)
    for oid in sorted(before.tables.keys() | now.tables.keys()):
        yield from table_differences(oid, before, now)
    yield from partition_differences(before, now)
    for oid in sorted(before.types.keys() & now.types.keys()):
        yield from type_differences(oid, before.types[oid], now.types[oid])


def publication_differences(
    name: str, before: Publication, now: Publication
) -> Iterator[Difference]:
    about = About(publication=name)
    if before.oid != now.oid:
        text = f"publication {name} was dropped and made anew: changes in between aren't sent"
        yield Difference(PUBLICATION, text, about._replace(is_missing=True))
    for word in [it for it in before.actions if it not in now.actions]:
        text = f"publication {name} has no {word}s any more"
        yield Difference(PUBLICATION, text, about._replace(lacks=word))
    for word in [it for it in now.actions if it not in before.actions]:
        yield Difference(PUBLICATION, f"publication {name} has {word}s only from now on", about)
    if before.via_root != now.via_root:
        names = "the root's name" if now.via_root else "their own names"
        text = f"publication {name} has rows of partitions under {names} now: the older rows stay as they were"
        yield Difference(PUBLICATION, text, about)
    if before == now and before.owner == now.owner and "" != before.since != now.since:
        text = f"publication {name} was altered, and has the options that it had: changes in between may be missing"
        yield Difference(PUBLICATION, text, about)
    if before.generated != now.generated:
        text = f"publication {name} has generated columns {'only from now on' if now.generated else 'no more'}"
        yield Difference(PUBLICATION, text, about)


def table_differences(oid: int, before: Catalog, now: Catalog) -> Iterator[Difference]:
    old, new = before.tables.get(oid), now.tables.get(oid)
    if old is None and new is not None:
        if oid in before.partitions:
            text = f"partition {new.text_with_oid()} is sent under its own name now: the rows that it had don't change"
            yield Difference(PUBLICATION, text, About((oid,)))
        elif not new.logged:
            yield Difference("", f"table {new.text_with_oid()} is new. {UNLOGGED}")
        elif is_complete(new, before, now):
            text = f"table {new.text_with_oid()} is new, and followed from its first row on"
            yield Difference("", text)
        else:
            text = f"table {new.text_with_oid()} joined: the rows that it had before are missing"
            yield Difference(PUBLICATION, text, About((oid,), is_missing=True))
    elif new is None and old is not None:
        if oid in now.partitions and root_of(oid, now):
            text = f"partition {old.text_with_oid()} is sent under another name now: the rows that it had don't change"
            yield Difference(PUBLICATION, text, About((oid,), gone=f"{old.namespace}.{old.name}"))
        else:
            yield gone(oid, f"{old.namespace}.{old.name}")
    elif old is not None and new is not None:
        yield from altered_differences(oid, old, new, before, now)


def altered_differences(
    oid: int, old: Table, new: Table, before: Catalog, now: Catalog
) -> Iterator[Difference]:
    """Those of a table that is there in both readings. (Most are the same in both.)"""
    if old == new:
        return
    table, about = f"table {new.text_with_oid()}", About((oid,))
    yield from of_logging(table, (oid,), old.logged, new.logged)
    told = []
    for name in sorted(old.parts.keys() & new.parts.keys()):
        if old.parts[name].listed != new.parts[name].listed:
            text = f"{table} has another column list: rows that were there have nulls in the columns that joined"
            told.append(Difference(PUBLICATION, text, about))
    told += sent_differences(old, new, before, now)
    if not told and has_left(old, new, before, now):
        text = f"{table} left and joined again: changes in between weren't sent"
        told.append(Difference(PUBLICATION, text, about))
    yield from told
    shapes = list(shape_differences(oid, new.text_with_oid(), old.shape, new.shape))
    # (by USING, without another type)
    if not shapes and oid not in now.kept and written_anew(oid, before, now):
        text = f"{table} was written anew, and columns of it were altered: values that were there may be others now"
        shapes.append(Difference(VALUES, text, about))
    yield from shapes


def written_anew(oid: int, before: Catalog, now: Catalog) -> list[Table | Partition]:
    """Of a table whose columns were altered: itself or its partitions, as far as an ALTER TABLE may
    have written them anew.

    That gives a table that keeps long values another place for these. VACUUM FULL, CLUSTER and
    TRUNCATE don't.
    """
    old, new = before.tables[oid], now.tables[oid]
    if "" in (old.altered, new.altered) or old.altered == new.altered:
        return []
    pairs: list[tuple[Table | Partition, Table | Partition]] = [(old, new)]
    if not new.node:
        both = sorted(before.partitions.keys() & now.partitions.keys())
        own = [it for it in both if root_of(it, now) == oid == root_of(it, before)]
        pairs = [(before.partitions[it], now.partitions[it]) for it in own]
    pairs = [(was, are) for was, are in pairs if was.node not in (0, are.node)]
    return [are for was, are in pairs if not are.toast or are.toast != was.toast]


def asks_rows(oid: int, before: Catalog, now: Catalog) -> list[int]:
    """Those of which only their rows tell whether it was done; none where one is certain."""
    oids = []
    for it in written_anew(oid, before, now):
        was = before.tables.get(it.oid) or before.partitions.get(it.oid)
        if it.toast and was and was.toast:
            return []
        oids.append(it.oid)
    return oids


def gone(oid: int, name: str) -> Difference:
    """A table, with this name and OID, isn't published any more."""
    text = f"table {name} ({oid}) was dropped, or left the publication: the rows that it had stay"
    return Difference(PUBLICATION, text, About((oid,), gone=name))


def is_complete(table: Table, before: Catalog, now: Catalog) -> bool:
    """Whether a table that joined was published from its first row on.

    It was made after `before` was read, nobody has written it anew, as where it became a logged
    one, and it is in a publication of all tables, or in one of its schema without having been moved
    there. Or it was made as a partition of what was published.
    """
    if is_made_in(table.oid, before, now) or table.oid in now.fresh:
        return True
    if table.oid <= before.highest or not table.unwritten:
        return False
    for name, part in table.parts.items():
        old = before.publications.get(name)
        if part.whole and old == now.publications[name] and (old.whole or table.untouched):
            return True
    return False


def sent_differences(old: Table, new: Table, before: Catalog, now: Catalog) -> Iterator[Difference]:
    """What is sent of a table otherwise, by whichever publication. What one of them has altered for
    all its tables is told by that."""
    was, are = ways_of(old, before, now), ways_of(new, now, before)
    table, about = f"table {new.text_with_oid()}", About((new.oid,))
    for word in sorted(was.keys() - are.keys(), key=ACTIONS.index):
        text = f"{table} has no {word}s any more"
        yield Difference(PUBLICATION, text, about._replace(lacks=word))
    if joined := are.keys() - was.keys():
        yield Difference(PUBLICATION, f"{table} has {words_text(joined)} only from now on", about)
    both = was.keys() & are.keys()
    others: dict[tuple[str, str], list[str]] = {}
    for word in both:
        if was[word].keys() != are[word].keys():
            others.setdefault((filter_text(was[word]), filter_text(are[word])), []).append(word)
    for (earlier, later), words in sorted(others.items()):
        which = "" if len(words) == len(both - {TRUNCATE}) else f" for {words_text(words)}"
        text = f"{table} has the row filter {later}{which} now, and before {earlier}"
        yield Difference(PUBLICATION, text, about)


# By action and row filter, None for all rows: the parts of publications that send these rows.
Ways = dict[str, dict[str | None, dict[str, Part]]]


def ways_of(table: Table, catalog: Catalog, other: Catalog) -> Ways:
    """Those of the actions that the publications have in both readings."""
    found: Ways = {}
    for name, part in table.parts.items():
        there = [it.publications[name] for it in (catalog, other) if name in it.publications]
        actions = set(ACTIONS).intersection(*(it.actions for it in there)) if there else ()
        for word in actions:
            row_filter = part.row_filter if word != TRUNCATE else None
            found.setdefault(word, {}).setdefault(row_filter, {})[name] = part
    return {word: {None: it[None]} if None in it else it for word, it in found.items()}


def has_left(old: Table, new: Table, before: Catalog, now: Catalog) -> bool:
    """Whether some rows of a table, sent in both readings, weren't in between."""
    was, are = ways_of(old, before, now), ways_of(new, now, before)
    oids = {name: it.oid for name, it in before.publications.items()}
    # (what is sent by a publication that is new itself is told by that)
    kept = {name for name, it in now.publications.items() if oids.get(name) == it.oid}
    return any(
        parts.keys() <= kept
        and not any(stays(was[word][row_filter].get(name), part) for name, part in parts.items())
        for word, ways in are.items()
        for row_filter, parts in ways.items()
    )


def stays(old: Part | None, new: Part) -> bool:
    """Whether a publication had a table all the time between two readings."""
    if old is None or old.since is None or new.since is None:
        return old is not None
    return old.since == new.since or not set(old.since).isdisjoint(new.since)


def filter_text(ways: Iterable[str | None]) -> str:
    return " or ".join(sorted(filter(None, ways))) or "none"


def words_text(words: Iterable[str]) -> str:
    """`inserts, updates and deletes`, in the order in which the server has them."""
    *first, last = (f"{word}s" for word in sorted(words, key=ACTIONS.index))
    return f"{', '.join(first)} and {last}" if first else last
