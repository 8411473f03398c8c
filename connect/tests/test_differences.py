"""What is said of two readings of a server's publications."""

from __future__ import annotations

import dataclasses
import unittest
from collections.abc import Sequence

from pgsub_connect.drift.differences import differences, shape_differences
from pgsub_connect.drift.findings import NAMES, NOTHING, PUBLICATION, VALUES, About, Difference
from pgsub_connect.server.catalog import Catalog, Part, Partition, Publication, Table
from pgsub_connect.server.catalog_reader import note_since, ways_to

from .vectors import ID, NAME, PGSUB, a_catalog, a_shape, a_table

T, U = a_table(1, "t"), a_table(2, "u")
ALL_TABLES = dataclasses.replace(PGSUB, whole=True)
VIA_ROOT = dataclasses.replace(PGSUB, via_root=True)
WHOLE = Part(None, None, True)
ROOT = a_table(10, "root", kind="p")
TREE = (Partition(10, 0, "public.root", False), Partition(11, 10, "public.p1", True))
FILES = (
    *TREE[:1],
    Partition(11, 10, "public.p1", True, node=11),
    Partition(12, 10, "public.p2", True, node=12),
)
ANEW = tuple(dataclasses.replace(it, node=it.node and it.node + 100) for it in FILES)
NEW = Partition(12, 10, "public.p2", True)
MADE = dataclasses.replace(NEW, made=True)
SUB = Partition(13, 10, "public.sub", False, made=True)
MOOD = {"name": "public.mood", "501": "sad", "502": "ok"}
PAIR = {"name": "public.pair", "#1": "23 -1", "#2": "25 -1"}
COLUMNS = [ID, NAME]


# a publication of Inserts alone, and all of a table and a part of its rows
INSERTS = Publication(901, False, ("insert", "truncate"), False, False)
EACH, SOME, FEW = (
    Part(None, None, False),
    Part("(k > 10)", None, False),
    Part("(k > 20)", None, False),
)


def followed(publications: dict[str, Publication], **parts: Part) -> Catalog:
    """A server with these publications, of which some have parts of one table."""
    table = dataclasses.replace(T, parts=parts)
    return dataclasses.replace(
        a_catalog(*([table] if parts else []), names=list(publications)), publications=publications
    )


def by(*since: str, row_filter: str | None = None) -> Part:
    """A part that a publication has by these entries."""
    return Part(row_filter, None, False, since)


def written(by: str, owner: int = 10, **options: object) -> Publication:
    """A publication whose options this transaction has written."""
    return dataclasses.replace(PGSUB, since=by, owner=owner, **options)


def attached(*by: str) -> tuple[Partition, ...]:
    """Partitions below one another, each with the transaction that has attached it to the one
    before."""
    rows = (
        (10, 0, "root", False),
        (13, 10, "sub", False),
        (11, 13, "p1", True),
        (12, 13, "p2", True),
    )
    return tuple(
        Partition(oid, parent, f"public.{name}", leaf, since=who)
        for (oid, parent, name, leaf), who in zip(rows, ("", *by))
    )


A_B, A_INSERTS = {"a": PGSUB, "b": PGSUB}, {"a": PGSUB, "b": INSERTS}
UPDATES, ONLY = (
    dataclasses.replace(INSERTS, actions=it)
    for it in (("insert", "update", "truncate"), ("insert",))
)


def altered(table: Table, node: int, by: str) -> Table:
    """A table whose rows are in this file, and whose columns these transactions have made."""
    return dataclasses.replace(table, node=node, altered=by)


def kept_at(table: Table, toast: int, node: int, by: str) -> Table:
    """So it is, and has its long values at a place of its own."""
    return dataclasses.replace(altered(table, node, by), toast=toast)


def unlogged(partition: Partition) -> Partition:
    return dataclasses.replace(partition, logged=False)


def shown(catalog: Catalog, kept: Sequence[int] = (), fresh: Sequence[int] = ()) -> Catalog:
    """A reading with what the rows have told."""
    return dataclasses.replace(catalog, kept=frozenset(kept), fresh=frozenset(fresh))


# what it is, what was there, what is there, the kinds of what is said, a word of the first text
Case = tuple[str, Catalog, Catalog, list[str], str]
CASES: list[Case] = [
    ("nothing", a_catalog(T), a_catalog(T, lsn=200, highest=2000), [], ""),
    ("a table renamed", a_catalog(T), a_catalog(a_table(1, "renamed")), [], ""),
    ("a table joins", a_catalog(T), a_catalog(T, U), [PUBLICATION], "public.u (2) joined"),
    ("a table goes", a_catalog(T, U), a_catalog(T), [PUBLICATION], "public.u (2) was dropped"),
    (
        "a publication goes",
        a_catalog(T),
        a_catalog(publication=None),
        [PUBLICATION] * 2,
        "publication pgsub is gone",
    ),
    (
        "a publication isn't followed any more",
        a_catalog(),
        a_catalog(publication=None, names=[]),
        [PUBLICATION],
        "not followed",
    ),
    (
        "a publication comes back",
        a_catalog(publication=None),
        a_catalog(),
        [PUBLICATION],
        "was gone",
    ),
    (
        "a publication is added",
        a_catalog(publication=None, names=[]),
        a_catalog(),
        [PUBLICATION],
        "is followed",
    ),
    (
        "a publication is made anew",
        a_catalog(),
        a_catalog(publication=dataclasses.replace(PGSUB, oid=901)),
        [PUBLICATION],
        "made anew",
    ),
    (
        "deletes stop",
        a_catalog(),
        a_catalog(publication=dataclasses.replace(PGSUB, actions=("insert", "update"))),
        [PUBLICATION] * 2,
        "no deletes",
    ),
    (
        "updates begin",
        a_catalog(publication=dataclasses.replace(PGSUB, actions=("insert", "delete", "truncate"))),
        a_catalog(),
        [PUBLICATION],
        "updates only from now on",
    ),
    (
        "generated columns",
        a_catalog(),
        a_catalog(publication=dataclasses.replace(PGSUB, generated=True)),
        [PUBLICATION],
        "generated",
    ),
    (
        "a row filter",
        a_catalog(T),
        a_catalog(a_table(1, "t", part=Part("(id > 3)", None, False))),
        [PUBLICATION],
        "row filter (id > 3)",
    ),
    (
        "a column list",
        a_catalog(T),
        a_catalog(a_table(1, "t", part=Part(None, (1, 2), False))),
        [PUBLICATION],
        "column list",
    ),
    # by which publications a table is sent
    (
        "all rows, by another one",
        followed(A_B, b=SOME),
        followed(A_B, a=EACH, b=SOME),
        [PUBLICATION],
        "public.t (1) has the row filter none now, and before (k > 10)",
    ),
    (
        "other rows, by another one",
        followed(A_B, b=SOME),
        followed(A_B, a=FEW, b=SOME),
        [PUBLICATION],
        "(k > 10) or (k > 20) now, and before (k > 10)",
    ),
    (
        "by Inserts alone",
        followed(A_INSERTS, a=EACH, b=EACH),
        followed(A_INSERTS, b=EACH),
        [PUBLICATION] * 2,
        "public.t (1) has no updates any more",
    ),
    (
        "by all once it has a key",
        followed(A_INSERTS, b=EACH),
        followed(A_INSERTS, a=EACH),
        [PUBLICATION],
        "public.t (1) has updates and deletes only from now on",
    ),
    (
        "some Inserts, and each Update",
        followed({"a": UPDATES, "b": PGSUB}, b=SOME),
        followed({"a": UPDATES, "b": PGSUB}, a=EACH, b=SOME),
        [PUBLICATION],
        "public.t (1) has the row filter none for inserts and updates now, and before (k > 10)",
    ),
    (
        "by all once it has a key, of Inserts alone",
        followed({"a": PGSUB, "b": ONLY}, b=EACH),
        followed({"a": PGSUB, "b": ONLY}, a=EACH),
        [PUBLICATION],
        "public.t (1) has updates, deletes and truncates only from now on",
    ),
    ("also by another one", followed(A_B, a=EACH), followed(A_B, a=EACH, b=SOME), [], ""),
    ("by one of two", followed(A_B, a=EACH, b=EACH), followed(A_B, b=EACH), [], ""),
    (
        "no filter of a TRUNCATE",
        followed(A_INSERTS, a=EACH, b=SOME),
        followed(A_INSERTS, a=EACH, b=FEW),
        [],
        "",
    ),
    (
        "what the publication tells",
        followed({"a": PGSUB}, a=EACH),
        followed({"a": INSERTS}, a=EACH),
        [PUBLICATION] * 3,
        "made anew",
    ),
    # what left and joined again between two looks
    (
        "left and joined",
        a_catalog(a_table(1, "t", part=by("16401"))),
        a_catalog(a_table(1, "t", part=by("16402"))),
        [PUBLICATION],
        "public.t (1) left and joined again",
    ),
    (
        "stayed",
        a_catalog(a_table(1, "t", part=by("16401"))),
        a_catalog(a_table(1, "t", part=by("16401"))),
        [],
        "",
    ),
    (
        "its schema, too",
        a_catalog(a_table(1, "t", part=by("16401"))),
        a_catalog(a_table(1, "t", part=by("16401", "16402"))),
        [],
        "",
    ),
    (
        "left its schema and came back",
        a_catalog(a_table(1, "t", part=by("16401@700"))),
        a_catalog(a_table(1, "t", part=by("16401@702"))),
        [PUBLICATION],
        "public.t (1) left and joined again",
    ),
    (
        "left it, and was listed",
        a_catalog(a_table(1, "t", part=by("16401@700", "16402"))),
        a_catalog(a_table(1, "t", part=by("16401@702", "16402"))),
        [],
        "",
    ),
    (
        "one above it left its schema",
        a_catalog(a_table(1, "t", part=by("16401@700/741"))),
        a_catalog(a_table(1, "t", part=by("16401@702/741"))),
        [PUBLICATION],
        "left and joined again",
    ),
    (
        "from when it wasn't known",
        a_catalog(T),
        a_catalog(a_table(1, "t", part=by("16401"))),
        [],
        "",
    ),
    (
        "by all tables",
        a_catalog(a_table(1, "t", part=by())),
        a_catalog(a_table(1, "t", part=by())),
        [],
        "",
    ),
    (
        "a filter and back",
        a_catalog(a_table(1, "t", part=by("1", row_filter="f"))),
        a_catalog(a_table(1, "t", part=by("2", row_filter="f"))),
        [PUBLICATION],
        "left and joined again",
    ),
    (
        "told by its filter",
        a_catalog(a_table(1, "t", part=by("1"))),
        a_catalog(a_table(1, "t", part=by("2", row_filter="f"))),
        [PUBLICATION],
        "row filter f",
    ),
    (
        "told by its columns",
        a_catalog(a_table(1, "t", part=by("1"))),
        a_catalog(a_table(1, "t", part=Part(None, (1,), False, ("2",)))),
        [PUBLICATION],
        "another column list",
    ),
    (
        "told by its publication",
        a_catalog(a_table(1, "t", part=by("1"))),
        a_catalog(a_table(1, "t", part=by("2")), publication=dataclasses.replace(PGSUB, oid=901)),
        [PUBLICATION],
        "made anew",
    ),
    (
        "sent by another one meanwhile",
        followed(A_B, a=by("1"), b=by("2")),
        followed(A_B, a=by("3"), b=by("2")),
        [],
        "",
    ),
    (
        "left both",
        followed(A_B, a=by("1"), b=by("2")),
        followed(A_B, a=by("3"), b=by("4")),
        [PUBLICATION],
        "left and joined again",
    ),
    (
        "from one to another",
        followed(A_B, a=by("1")),
        followed(A_B, b=by("2")),
        [PUBLICATION],
        "left and joined again",
    ),
    (
        "its Updates left",
        followed(A_INSERTS, a=by("1"), b=by("2")),
        followed(A_INSERTS, a=by("3"), b=by("2")),
        [PUBLICATION],
        "left and joined again",
    ),
    (
        "another publication is followed",
        followed({"a": PGSUB}, a=by("1")),
        followed({"b": PGSUB}, b=by("2")),
        [PUBLICATION] * 2,
        "not followed",
    ),
    (
        "options and back",
        a_catalog(publication=written("700")),
        a_catalog(publication=written("800")),
        [PUBLICATION],
        "pgsub was altered",
    ),
    (
        "another owner",
        a_catalog(publication=written("700")),
        a_catalog(publication=written("800", 20)),
        [],
        "",
    ),
    ("options that weren't known", a_catalog(), a_catalog(publication=written("800")), [], ""),
    (
        "other options",
        a_catalog(publication=written("700")),
        a_catalog(publication=written("800", generated=True)),
        [PUBLICATION],
        "generated",
    ),
    (
        "attached again",
        a_catalog(ROOT, partitions=attached("7", "8", "9")),
        a_catalog(ROOT, partitions=attached("7", "18", "9")),
        [PUBLICATION],
        "public.p1 (11) of public.root (10) was detached and attached again",
    ),
    (
        "attached again with what is below",
        a_catalog(ROOT, partitions=attached("7", "8", "9")),
        a_catalog(ROOT, partitions=attached("17", "8", "9")),
        [PUBLICATION],
        "public.sub (13) of public.root (10)",
    ),
    (
        "attached when it wasn't known",
        a_catalog(ROOT, partitions=attached("", "", "")),
        a_catalog(ROOT, partitions=attached("7", "8", "9")),
        [],
        "",
    ),
    (
        "attached elsewhere",
        a_catalog(ROOT, partitions=(*TREE[:1], dataclasses.replace(TREE[1], since="8"))),
        a_catalog(ROOT, partitions=attached("7", "18")),
        [PUBLICATION],
        "public.p1 (11)",
    ),
    # tables that are new under a publication of all tables, or of a schema
    (
        "made under all tables",
        a_catalog(publication=ALL_TABLES),
        a_catalog(a_table(1001, "n", part=WHOLE, fresh=True), publication=ALL_TABLES),
        [""],
        "is new",
    ),
    (
        "became a logged one",
        a_catalog(publication=ALL_TABLES),
        a_catalog(a_table(1001, "n", part=WHOLE), publication=ALL_TABLES),
        [PUBLICATION],
        "joined",
    ),
    (
        "was there before",
        a_catalog(publication=ALL_TABLES),
        a_catalog(a_table(999, "n", part=WHOLE, fresh=True), publication=ALL_TABLES),
        [PUBLICATION],
        "joined",
    ),
    (
        "made in a schema",
        a_catalog(),
        a_catalog(a_table(1001, "n", part=WHOLE, fresh=True)),
        [""],
        "is new",
    ),
    (
        "moved into a schema",
        a_catalog(),
        a_catalog(dataclasses.replace(a_table(1001, "n", part=WHOLE, fresh=True), untouched=False)),
        [PUBLICATION],
        "joined",
    ),
    (
        "new, and added by hand",
        a_catalog(),
        a_catalog(a_table(1001, "n", fresh=True)),
        [PUBLICATION],
        "joined",
    ),
    # partitions under their root's name
    (
        "attached",
        a_catalog(ROOT, partitions=TREE),
        a_catalog(ROOT, partitions=(*TREE, NEW)),
        [PUBLICATION],
        "public.p2 (12)",
    ),
    (
        "made as a partition",
        a_catalog(ROOT, partitions=TREE),
        a_catalog(ROOT, partitions=(*TREE, MADE)),
        [""],
        "is new",
    ),
    (
        "made in a new one",
        a_catalog(ROOT, partitions=TREE),
        a_catalog(ROOT, partitions=(*TREE, SUB, dataclasses.replace(MADE, parent=13))),
        [""],
        "is new",
    ),
    (
        "made in one that was attached",
        a_catalog(ROOT, partitions=TREE),
        a_catalog(
            ROOT,
            partitions=(
                *TREE,
                dataclasses.replace(SUB, made=False),
                dataclasses.replace(MADE, parent=13),
            ),
        ),
        [PUBLICATION],
        "was attached",
    ),
    (
        "detached",
        a_catalog(ROOT, partitions=TREE),
        a_catalog(ROOT, partitions=TREE[:1]),
        [PUBLICATION],
        "detached or dropped",
    ),
    (
        "truncated",
        a_catalog(ROOT, partitions=FILES),
        a_catalog(ROOT, partitions=(*FILES[:2], ANEW[2])),
        [PUBLICATION],
        "public.p2 (12)",
    ),
    ("truncated all", a_catalog(ROOT, partitions=FILES), a_catalog(ROOT, partitions=ANEW), [], ""),
    (
        "truncated the only one",
        a_catalog(ROOT, partitions=FILES[:2]),
        a_catalog(ROOT, partitions=ANEW[:2]),
        [PUBLICATION],
        "truncated",
    ),
    (
        "files that weren't known",
        a_catalog(ROOT, partitions=TREE),
        a_catalog(ROOT, partitions=FILES[:2]),
        [],
        "",
    ),
    (
        "a root comes with its partitions",
        a_catalog(),
        a_catalog(ROOT, partitions=TREE),
        [PUBLICATION],
        "public.root (10) joined",
    ),
    # partitions under their own names
    (
        "truncated, under its own name",
        a_catalog(a_table(11, "p1"), partitions=FILES[:2]),
        a_catalog(a_table(11, "p1"), partitions=ANEW[:2]),
        [],
        "",
    ),
    (
        "made as one, under its own name",
        a_catalog(partitions=TREE),
        a_catalog(a_table(12, "p2"), partitions=(*TREE, MADE)),
        [""],
        "new",
    ),
    (
        "attached, under its own name",
        a_catalog(partitions=TREE),
        a_catalog(a_table(12, "p2"), partitions=(*TREE, NEW)),
        [PUBLICATION],
        "joined",
    ),
    (
        "via root",
        a_catalog(a_table(11, "p1"), partitions=TREE),
        a_catalog(ROOT, publication=VIA_ROOT, partitions=TREE),
        [PUBLICATION] * 3,
        "the root's name",
    ),
    (
        "not via root",
        a_catalog(ROOT, publication=VIA_ROOT, partitions=TREE),
        a_catalog(a_table(11, "p1"), partitions=TREE),
        [PUBLICATION] * 3,
        "their own names",
    ),
    # partitions that had no rows when they were attached
    (
        "attached without rows",
        a_catalog(ROOT, partitions=TREE),
        shown(a_catalog(ROOT, partitions=(*TREE, NEW)), fresh=[12]),
        [""],
        "partition public.p2 (12) of public.root (10) is new",
    ),
    (
        "attached without rows, under its own name",
        a_catalog(partitions=TREE),
        shown(a_catalog(a_table(12, "p2"), partitions=(*TREE, NEW)), fresh=[12]),
        [""],
        "table public.p2 (12) is new",
    ),
    # what is in no log
    (
        "unlogged now",
        a_catalog(ROOT, partitions=FILES),
        a_catalog(ROOT, partitions=(*FILES[:2], unlogged(ANEW[2]))),
        [PUBLICATION],
        "partition public.p2 (12) of public.root (10) is unlogged now",
    ),
    (
        "unlogged still",
        a_catalog(ROOT, partitions=(*FILES[:2], unlogged(FILES[2]))),
        a_catalog(ROOT, partitions=(*FILES[:2], unlogged(ANEW[2]))),
        [],
        "",
    ),
    (
        "logged again",
        a_catalog(ROOT, partitions=(*FILES[:2], unlogged(FILES[2]))),
        a_catalog(ROOT, partitions=(*FILES[:2], ANEW[2])),
        [PUBLICATION],
        "public.p2 (12) of public.root (10) was unlogged, and isn't any more",
    ),
    (
        "a new one that is unlogged",
        a_catalog(ROOT, partitions=TREE),
        a_catalog(ROOT, partitions=(*TREE, unlogged(NEW))),
        [""],
        "aren't in the copy",
    ),
    (
        "unlogged now, under its own name",
        a_catalog(a_table(11, "p1"), partitions=TREE),
        a_catalog(
            dataclasses.replace(a_table(11, "p1"), logged=False),
            partitions=(TREE[0], unlogged(TREE[1])),
        ),
        [PUBLICATION],
        "table public.p1 (11) is unlogged now",
    ),
    (
        "logged again, under its own name",
        a_catalog(
            dataclasses.replace(a_table(11, "p1"), logged=False),
            partitions=(TREE[0], unlogged(TREE[1])),
        ),
        a_catalog(a_table(11, "p1"), partitions=TREE),
        [PUBLICATION],
        "table public.p1 (11) was unlogged",
    ),
    (
        "a new one that is unlogged, under its own name",
        a_catalog(partitions=TREE),
        a_catalog(
            dataclasses.replace(a_table(12, "p2"), logged=False), partitions=(*TREE, unlogged(NEW))
        ),
        [""],
        "aren't in the copy",
    ),
    # types
    (
        "a label renamed",
        a_catalog(types={500: MOOD}),
        a_catalog(types={500: {**MOOD, "501": "blue"}}),
        [VALUES],
        "sad became blue",
    ),
    (
        "a label added",
        a_catalog(types={500: MOOD}),
        a_catalog(types={500: {**MOOD, "503": "great"}}),
        [],
        "",
    ),
    (
        "a type renamed",
        a_catalog(types={500: MOOD}),
        a_catalog(types={500: {**MOOD, "name": "public.humour"}}),
        [],
        "",
    ),
    (
        "a part of a composite type",
        a_catalog(types={500: PAIR}),
        a_catalog(types={500: {**PAIR, "#3": "25 -1"}}),
        [VALUES],
        "other parts",
    ),
    # definitions
    (
        "a column joins",
        a_catalog(T),
        a_catalog(a_table(1, "t", a_shape([*COLUMNS, (0, "c", 23, -1)]))),
        [VALUES],
        "column c of public.t (1)",
    ),
    ("a column goes", a_catalog(T), a_catalog(a_table(1, "t", a_shape([ID]))), [], ""),
    (
        "a column renamed",
        a_catalog(T),
        a_catalog(a_table(1, "t", a_shape([ID, (0, "title", 25, -1)]))),
        [VALUES],
        "column title",
    ),
    (
        "a column made anew",
        a_catalog(T),
        a_catalog(a_table(1, "t", a_shape(COLUMNS, numbers=[1, 3]))),
        [VALUES],
        "made anew",
    ),
    (
        "a type",
        a_catalog(T),
        a_catalog(a_table(1, "t", a_shape([ID, (0, "name", 1043, 24)]))),
        [VALUES],
        "another type",
    ),
    (
        "a modifier",
        a_catalog(T),
        a_catalog(a_table(1, "t", a_shape([ID, (0, "name", 25, 8)]))),
        [VALUES],
        "another type",
    ),
    (
        "an identity",
        a_catalog(T),
        a_catalog(a_table(1, "t", a_shape([(1, "id", 23, -1), (1, "name", 25, -1)], "f"))),
        [VALUES],
        "all columns",
    ),
    (
        "values computed anew",
        a_catalog(altered(T, 1, "700")),
        a_catalog(altered(T, 2, "700 800")),
        [VALUES],
        "public.t (1) was written anew",
    ),
    ("written anew", a_catalog(altered(T, 1, "700")), a_catalog(altered(T, 2, "700")), [], ""),
    (
        "columns altered",
        a_catalog(altered(T, 1, "700")),
        a_catalog(altered(T, 1, "700 800")),
        [],
        "",
    ),
    ("not known before", a_catalog(T), a_catalog(altered(T, 1, "700")), [], ""),
    (
        "told by its type",
        a_catalog(altered(T, 1, "700")),
        a_catalog(altered(a_table(1, "t", a_shape([ID, (0, "name", 1043, 24)])), 2, "8")),
        [VALUES],
        "another type",
    ),
    (
        "values of partitions computed anew",
        a_catalog(altered(ROOT, 0, "700"), partitions=FILES),
        a_catalog(altered(ROOT, 0, "800"), partitions=ANEW),
        [VALUES],
        "public.root (10) was written anew",
    ),
    (
        "another place for long values",
        a_catalog(kept_at(T, 5, 1, "700")),
        a_catalog(kept_at(T, 6, 2, "800")),
        [VALUES],
        "public.t (1) was written anew",
    ),
    (
        "the same place for them",
        a_catalog(kept_at(T, 5, 1, "700")),
        a_catalog(kept_at(T, 5, 2, "800")),
        [],
        "",
    ),
    (
        "a place that wasn't known",
        a_catalog(altered(T, 1, "700")),
        a_catalog(kept_at(T, 5, 2, "800")),
        [VALUES],
        "public.t (1) was written anew",
    ),
    (
        "rows that have told it",
        a_catalog(altered(T, 1, "700")),
        shown(a_catalog(altered(T, 2, "800")), kept=[1]),
        [],
        "",
    ),
    (
        "rows of another table",
        a_catalog(altered(T, 1, "700")),
        shown(a_catalog(altered(T, 2, "800")), kept=[2]),
        [VALUES],
        "public.t (1)",
    ),
    (
        "columns of a root altered",
        a_catalog(altered(ROOT, 0, "700"), partitions=FILES),
        a_catalog(altered(ROOT, 0, "800"), partitions=FILES),
        [],
        "",
    ),
    (
        "a key",
        a_catalog(T),
        a_catalog(a_table(1, "t", a_shape([ID, (1, "name", 25, -1)]))),
        [VALUES],
        "id, name",
    ),
    (
        "a key that goes",
        a_catalog(T),
        a_catalog(a_table(1, "t", a_shape([(0, "id", 23, -1), NAME]))),
        [VALUES],
        "no column",
    ),
]


class Readings(unittest.TestCase):
    def test_cases(self) -> None:
        for about, before, now, kinds, word in CASES:
            with self.subTest(about):
                said = list(differences(before, now))
                self.assertEqual([it.kind for it in said], kinds, said)
                self.assertIn(word, said[0].text if said else "")
                self.assertNotIn(NOTHING, [it.about for it in said if it.kind])

    def test_what_they_are_about(self) -> None:
        """Rows of partitions are those of their root."""
        for before, now, about in (
            (a_catalog(T), a_catalog(T, U), About((2,), is_missing=True)),
            (a_catalog(T, U), a_catalog(T), About((2,), gone="public.u")),
            (a_catalog(ROOT, partitions=TREE), a_catalog(ROOT, partitions=TREE[:1]), About((10,))),
            (
                a_catalog(),
                a_catalog(publication=dataclasses.replace(PGSUB, oid=901)),
                About(publication="pgsub", is_missing=True),
            ),
            (
                a_catalog(),
                a_catalog(
                    publication=dataclasses.replace(PGSUB, actions=("insert", "update", "truncate"))
                ),
                About(publication="pgsub", lacks="delete"),
            ),
            (
                followed({"a": UPDATES, "b": INSERTS}, a=EACH, b=EACH),
                followed({"a": UPDATES, "b": INSERTS}, b=EACH),
                About((1,), lacks="update"),
            ),
            (
                a_catalog(types={500: MOOD}),
                a_catalog(types={500: {**MOOD, "501": "blue"}}),
                About(type_oid=500),
            ),
        ):
            self.assertEqual([it.about for it in differences(before, now)], [about])

    def test_names_are_no_business_of_theirs(self) -> None:
        swapped = a_catalog(a_table(1, "u"), a_table(2, "t"))
        self.assertEqual(list(differences(a_catalog(T, U), swapped)), [])
        self.assertNotIn(NAMES, [it.kind for it in differences(a_catalog(T), swapped)])


class Ways(unittest.TestCase):
    def test_what_says_that_a_publication_has_a_table(self) -> None:
        """Itself, or one that it is a partition of; others may have attached that to one of
        theirs."""
        tree = {it.oid: it for it in attached("7", "8", "9")}
        cases: list[tuple[int, dict[int, list[str]], list[str]]] = [
            (11, {11: ["501"]}, ["501"]),
            (11, {10: ["502"]}, ["502/8/7"]),
            (11, {13: ["503", "504"], 10: ["502"]}, ["502/8/7", "503/8", "504/8"]),
            (11, {12: ["505"]}, []),
            (10, {10: ["502"]}, ["502"]),
            (99, {99: ["506"]}, ["506"]),
            (99, {}, []),
        ]
        for oid, members, ways in cases:
            self.assertEqual(sorted(ways_to(oid, members, tree)), ways)
        leaf, alone = a_table(11, "p1"), a_table(99, "t")
        note_since({11: leaf, 99: alone}, {"pgsub": {10: ["502"]}}, tree)
        self.assertEqual(
            (leaf.parts["pgsub"].since, alone.parts["pgsub"].since), (("502/8/7",), ())
        )


class Definitions(unittest.TestCase):
    """Two Relation messages: their columns have no numbers."""

    def said(
        self, before: list[tuple[int, str, int, int]], now: list[tuple[int, str, int, int]]
    ) -> list[Difference]:
        return list(
            shape_differences(
                1,
                "public.t (1)",
                a_shape(before, numbers=[0] * len(before)),
                a_shape(now, numbers=[0] * len(now)),
            )
        )

    def test_names_changed_among_each_other(self) -> None:
        said = self.said(
            [ID, (0, "a", 23, -1), (0, "b", 23, -1)], [ID, (0, "b", 23, -1), (0, "a", 23, -1)]
        )
        self.assertEqual([it.kind for it in said], [VALUES])
        self.assertIn("among each other", said[0].text)

    def test_made_anew_before_another(self) -> None:
        said = self.said([ID, (0, "a", 23, -1), NAME], [ID, NAME, (0, "a", 23, -1)])
        self.assertEqual([it.kind for it in said], [VALUES])

    def test_the_same_texts_as_of_readings(self) -> None:
        now = [ID, (0, "name", 1043, 24), (0, "c", 23, -1)]
        read = differences(a_catalog(T), a_catalog(a_table(1, "t", a_shape(now))))
        self.assertEqual(self.said(COLUMNS, now), list(read))

    def test_dropped(self) -> None:
        self.assertEqual(self.said([ID, NAME, (0, "a", 23, -1)], [ID, (0, "a", 23, -1)]), [])


if __name__ == "__main__":
    unittest.main()
