"""What has changed between two readings of the partitions whose rows are sent under another name."""

from collections.abc import Iterator

from ..server.catalog import Catalog
from .findings import PUBLICATION, About, Difference

# What is said of a table or partition that is new, and unlogged or foreign.
UNLOGGED = "Its changes are in no log, so its rows aren't in the copy"


def of_logging(name: str, tables: tuple[int, ...], old: bool, new: bool) -> Iterator[Difference]:
    """Whether changes are in the log, of what its rows were copied or not."""
    if old and not new:
        text = f"{name} is unlogged now: its changes aren't sent, and the rows that it had stay as they were"
        yield Difference(PUBLICATION, text, About(tables))
    elif new and not old:
        text = f"{name} was unlogged, and isn't any more: the rows that it had before are missing"
        yield Difference(PUBLICATION, text, About(tables, is_missing=True))


def attached(before: Catalog, now: Catalog) -> dict[int, list[str]]:
    """The partitions that weren't published, and were attached to what was: each with the
    transactions that did so. Rows that are older than these weren't sent."""
    found = {}
    for oid, partition in now.partitions.items():
        is_known = oid in before.partitions or oid in before.tables
        if is_known or not (partition.leaf and partition.logged) or is_made_in(oid, before, now):
            continue
        ways, at = [partition.since], partition.parent
        while at and at not in before.partitions and at in now.partitions:
            ways.append(now.partitions[at].since)
            at = now.partitions[at].parent
        if at in before.partitions and all(ways):
            found[oid] = ways
    return found


def is_made_in(oid: int, before: Catalog, now: Catalog) -> bool:
    """Whether a partition was made as one below a partitioned table that was known."""
    partition = now.partitions.get(oid)
    while partition is not None:
        if not partition.made:
            return False
        if partition.parent in before.partitions:
            return True
        partition = now.partitions.get(partition.parent)
    return False


def partition_differences(before: Catalog, now: Catalog) -> Iterator[Difference]:
    """Those of partitions under another name. Any other is a published table itself."""
    for oid in sorted(before.partitions.keys() | now.partitions.keys()):
        was, root = root_of(oid, before), root_of(oid, now)
        if was != root and was in now.tables:
            partition = f"partition {before.partitions[oid].name} ({oid}) of {now.tables[was].text_with_oid()}"
            text = f"{partition} was detached or dropped: its rows stay"
            yield Difference(PUBLICATION, text, About((was,)))
        if was != root and root in before.tables:
            partition = f"partition {now.partitions[oid].name} ({oid}) of {now.tables[root].text_with_oid()}"
            if not now.partitions[oid].logged:
                yield Difference("", f"{partition} is new. {UNLOGGED}")
            elif is_made_in(oid, before, now) or oid in now.fresh:
                yield Difference("", f"{partition} is new, and followed from its first row on")
            else:
                text = f"{partition} was attached: the rows that it had before are missing"
                yield Difference(PUBLICATION, text, About((root,), is_missing=True))
        if was == root and was in now.tables:
            old, new = before.partitions[oid], now.partitions[oid]
            partition = f"partition {new.name} ({oid}) of {now.tables[root].text_with_oid()}"
            yield from of_logging(partition, (root,), old.logged, new.logged)
    yield from truncations(before, now)
    yield from dict.fromkeys(detachments(before, now))


def detachments(before: Catalog, now: Catalog) -> Iterator[Difference]:
    """Partitions under another name that were detached in between, or one above them was."""
    for oid in sorted(before.partitions.keys() & now.partitions.keys()):
        root, at = root_of(oid, now), oid
        while root == root_of(oid, before) and root and at != root:
            old, new = before.partitions.get(at), now.partitions[at]
            is_known = old and "" not in (old.since, new.since)
            if old and is_known and (old.parent, old.since) != (new.parent, new.since):
                partition = f"partition {new.name} ({at}) of {now.tables[root].text_with_oid()}"
                how = "was detached and attached again: changes in between weren't sent"
                yield Difference(PUBLICATION, f"{partition} {how}", About((root,)))
            at = new.parent


def truncations(before: Catalog, now: Catalog) -> Iterator[Difference]:
    """Partitions under another name whose rows are in another file: their TRUNCATE isn't sent."""
    for oid, root in written_partitions(before, now).items():
        # (rows that are older than the earlier reading tell that it wasn't truncated)
        if oid not in now.kept:
            partition = f"partition {now.partitions[oid].name} ({oid}) of {now.tables[root].text_with_oid()}"
            text = f"{partition} was truncated or written anew: if it was truncated, its rows stay"
            yield Difference(PUBLICATION, text, About((root,)))


def written_partitions(before: Catalog, now: Catalog) -> dict[int, int]:
    """Those partitions, each with the table under whose name it comes.

    Where all partitions of a table are, that was done by way of the table, which is sent.
    """
    parts: dict[int, list[int]] = {}
    for oid in sorted(before.partitions.keys() & now.partitions.keys() - now.tables.keys()):
        root, is_logged = root_of(oid, now), all(it.partitions[oid].logged for it in (before, now))
        if root and root == root_of(oid, before) and is_logged:
            parts.setdefault(root, []).append(oid)
    found = dict[int, int]()
    for root, oids in parts.items():
        anew = [it for it in oids if before.partitions[it].node not in (0, now.partitions[it].node)]
        found |= {it: root for it in anew} if len(anew) < len(oids) or len(anew) == 1 else {}
    return found


def root_of(oid: int, catalog: Catalog) -> int:
    """The topmost published table above a partition; 0 of none, and of one with partitions."""
    partition = catalog.partitions.get(oid)
    if partition is None or not partition.leaf:
        return 0
    root = 0
    while partition is not None:
        root = partition.parent if partition.parent in catalog.tables else root
        partition = catalog.partitions.get(partition.parent)
    return root
