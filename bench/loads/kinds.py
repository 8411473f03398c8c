"""The loads: what each makes of tables, rows and changes, in SQL."""

from __future__ import annotations

import dataclasses
import math
from collections.abc import Callable
from dataclasses import dataclass

# Rows are chosen at random by multiplying modulo another prime, which gives each number below it once.
FACTOR = 48271
# How many rows have a text that isn't sent again.
UNSENT = 2000
TEXTS = "a text, b text, c text"
# Stands for those that are chosen.
CHOSEN = "{chosen}"
# Behind all changes.
LAST = "INSERT INTO measured (id) VALUES (0)"
VALUES = "'text a ' || it, 'text b ' || it, 'text c ' || it"


@dataclass(frozen=True)
class Kind:
    """A load: the tables, the rows that are there before, and its changes, made by these
    statements."""

    name: str
    changes: int
    tables: list[str]
    fill: list[str]
    make: list[str]
    last: str = LAST


@dataclass(frozen=True)
class Load:
    """A load of any size: so many changes where nothing else is asked, and at most so many where
    the time grows by the square."""

    name: str
    changes: int
    of: Callable[[str, int], Kind]
    most: int | None = None

    def sized(self, changes: int | None = None) -> Kind:
        asked = changes or self.changes
        return self.of(self.name, min(asked, self.most or asked))


def prime_above(number: int) -> int:
    """The least prime above a number, but for FACTOR."""
    found = number + 1
    while found == FACTOR or any(found % it == 0 for it in range(2, math.isqrt(found) + 1)):
        found += 1
    return found


def table(columns: str = f"id bigint PRIMARY KEY, {TEXTS}") -> str:
    return f"CREATE TABLE measured ({columns})"


def full() -> str:
    return "ALTER TABLE measured REPLICA IDENTITY FULL"


def transactions(changes: int, each: int, statement: str) -> list[str]:
    """Runs a statement for each so many changes, of which `at` is the first one's number and `till`
    the last one's."""
    return [
        f"DO $$ DECLARE till bigint; BEGIN FOR at IN 1 .. {changes} BY {each} LOOP"
        f" till := least(at + {each - 1}, {changes}); {statement}; COMMIT; END LOOP; END $$"
    ]


def rows(count: int, values: str = f"it, {VALUES}") -> list[str]:
    """Makes rows in one statement."""
    return [
        f"INSERT INTO measured SELECT {values} FROM generate_series(1, {count}) it",
        "ANALYZE measured",
    ]


def chosen(prime: int) -> str:
    """The ids of the changes of a transaction, at random."""
    return f"id = ANY (ARRAY(SELECT it * {FACTOR}::bigint % {prime} FROM generate_series(at, till) it))"


def inserts(
    each: int, columns: str = f"id bigint PRIMARY KEY, {TEXTS}", values: str = f"it, {VALUES}"
) -> Callable[[str, int], Kind]:
    statement = f"INSERT INTO measured SELECT {values} FROM generate_series(at, till) it"

    def made(name: str, changes: int) -> Kind:
        return Kind(name, changes, [table(columns)], [], transactions(changes, each, statement))

    return made


def uuid_inserts(name: str, changes: int) -> Kind:
    columns, values = f"id uuid PRIMARY KEY, {TEXTS}", f"gen_random_uuid(), {VALUES}"
    made = inserts(100, columns, values)(name, changes)
    last = "INSERT INTO measured (id) VALUES (gen_random_uuid())"
    return dataclasses.replace(made, last=last)


def wide_inserts(name: str, changes: int) -> Kind:
    columns = ", ".join(f"c{it} text" for it in range(1, 50))
    values = ", ".join(f"'text {it}'" for it in range(1, 50))
    return inserts(100, f"id bigint PRIMARY KEY, {columns}", f"it, {values}")(name, changes)


def large_inserts(name: str, changes: int) -> Kind:
    return inserts(10, values="it, repeat(md5(it::text), 256), 'b', 'c'")(name, changes)


def one_transaction(name: str, changes: int) -> Kind:
    return inserts(changes)(name, changes)


def keyless_inserts(name: str, changes: int) -> Kind:
    made = inserts(100, f"id bigint, {TEXTS}")(name, changes)
    return dataclasses.replace(made, tables=[*made.tables, full()])


def changed(statement: str, *more: str) -> Callable[[str, int], Kind]:
    """Changes of rows that are there, 100 a transaction, each of another row: `{chosen}` are those
    at random."""

    def made(name: str, changes: int) -> Kind:
        count = prime_above(changes)
        make = transactions(changes, 100, statement.format(chosen=chosen(count)))
        return Kind(name, changes, [table(), *more], rows(count), make)

    return made


def keyless_deletes(name: str, changes: int) -> Kind:
    made = changed(f"DELETE FROM measured WHERE {CHOSEN}")(name, changes)
    return dataclasses.replace(made, tables=[table(f"id bigint, {TEXTS}"), full()])


def beside_unsent(name: str, changes: int) -> Kind:
    """Updates of rows with a text that isn't sent again, the same ones over and over."""
    these = f"BETWEEN at % {UNSENT} AND at % {UNSENT} + till - at"
    statement = f"UPDATE measured SET a = 'changed ' || at WHERE id {these}"
    tables = [
        table("id bigint PRIMARY KEY, a text, large text"),
        "ALTER TABLE measured ALTER large SET STORAGE EXTERNAL",
    ]
    values = "it, 'text', repeat(md5(it::text), 256)"
    make = transactions(changes, 100, statement)
    return Kind(name, changes, tables, rows(UNSENT, values), make)


def many_tables(name: str, changes: int) -> Kind:
    tables = [f"CREATE TABLE t_{it} (id bigint PRIMARY KEY, {TEXTS})" for it in range(1000)]
    insert = "INSERT INTO t_%s VALUES (%s, ''a'', ''b'', ''c'')"
    statement = f"EXECUTE format('{insert}', at % 1000, at)"
    return Kind(name, changes, [table(), *tables], [], transactions(changes, 1, statement))


UPDATE = f"UPDATE measured SET a = 'changed ' || id WHERE {CHOSEN}"
# so many that a turn takes some seconds, of which the start is a small part
KINDS = [
    Load("inserts, rising keys, 100 a transaction", 1_000_000, inserts(100)),
    Load("inserts, uuid keys, 100 a transaction", 200_000, uuid_inserts),
    Load("inserts, 1 a transaction", 200_000, inserts(1)),
    Load("inserts of 50 columns, 100 a transaction", 200_000, wide_inserts),
    Load("inserts of 8 kB texts, 10 a transaction", 40_000, large_inserts),
    Load("inserts into a table without a key", 500_000, keyless_inserts),
    Load("deletes in order", 400_000, changed("DELETE FROM measured WHERE id BETWEEN at AND till")),
    Load("deletes at random", 100_000, changed(f"DELETE FROM measured WHERE {CHOSEN}")),
    # (the subscription reads the whole table for each)
    Load("deletes from a table without a key", 5_000, keyless_deletes, 5_000),
    Load("updates at random", 100_000, changed(UPDATE)),
    Load("updates at random, REPLICA IDENTITY FULL", 100_000, changed(UPDATE, full())),
    Load("updates beside 8 kB that aren't sent", 20_000, beside_unsent),
    Load("inserts into 1,000 tables, 1 a transaction", 100_000, many_tables),
    Load("inserts, one transaction", 5_000_000, one_transaction),
]
