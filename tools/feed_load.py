"""A feed of changes of every kind, at random, by the writer that readers are tried on
(tools/feed_text.py)."""

from __future__ import annotations

import random
from typing import Any

from feed_text import Cell, Column, Definition, Line

ID, NAME, MORE = Column("id", 23, -1, True), Column("name", 25), Column("more", 25)
# The shapes that a table with a key may have.
SHAPES = ([ID, NAME], [ID], [ID, NAME, MORE], [NAME, ID], [ID, Column("name", 25, -1, True)])
# How many keys there are.
KEYS = 1000
BAG = 4


def definition(oid: int, name: str, columns: list[Column], letter: str = "d") -> Definition:
    return Definition(oid, "public", name, letter, tuple(columns))


class Load:
    """Tables with rows. Three have a key, get other shapes and each other's names; one, the last,
    has none. `lines` makes changes."""

    def __init__(self, rng: random.Random) -> None:
        self.rng, self.count = rng, 0
        self.names = {1: "a", 2: "b:c", 3: "d.e"}
        self.tables = {oid: definition(oid, name, [ID, NAME]) for oid, name in self.names.items()}
        self.rows: dict[int, dict[str, list[Any]]] = {1: {}, 2: {}, 3: {}}
        self.bag, self.copies = definition(BAG, "bag", [ID, NAME], "f"), list[list[Cell]]()

    def alter(self, oid: int) -> list[Line]:
        """Gives a table another shape, in which rows are carried by the names of the columns. A row
        tells it."""
        old, columns = self.tables[oid], self.rng.choice(SHAPES)
        self.tables[oid] = definition(oid, self.names[oid], columns)
        for key, row in self.rows[oid].items():
            named = {column.name: it for column, it in zip(old.columns, row)}
            self.rows[oid][key] = [named.get(column.name) for column in columns]
        return self.insert(oid, str(KEYS + self.count))

    def swap(self) -> None:
        """Two tables get each other's names. (What comes next of each tells it.)"""
        first, second = self.rng.sample(sorted(self.names), 2)
        self.names[first], self.names[second] = self.names[second], self.names[first]
        for oid in (first, second):
            self.tables[oid] = definition(oid, self.names[oid], list(self.tables[oid].columns))

    def row(self, of: Definition, id: str) -> list[Cell]:
        self.count += 1
        values = (f"v{self.count}", f"v:{self.count}", "é", f"%{self.count}")
        return [
            id
            if it.name == "id"
            else None
            if not it.key and self.rng.random() < 0.2
            else self.rng.choice(values)
            for it in of.columns
        ]

    def insert(self, oid: int, id: str) -> list[Line]:
        of, rows = self.tables[oid], self.rows[oid]
        if id in rows:
            return []
        rows[id] = self.row(of, id)
        return [Line(of, "c", None, rows[id])]

    def line(self) -> list[Line]:
        """One change, or none."""
        rng, oid = self.rng, self.rng.choice((1, 2, 3, BAG))
        if oid == BAG:
            return self.of_bag()
        chance, of, rows = rng.random(), self.tables[oid], self.rows[oid]
        if chance < 0.02:
            return self.alter(oid)
        if chance < 0.03:
            self.swap()
            return []
        if chance < 0.05:
            rows.clear()
            return [Line(of, "t")]
        if chance < 0.5 or not rows:
            return self.insert(oid, str(rng.randrange(KEYS)))
        id = rng.choice(sorted(rows))
        before = rows.pop(id)
        if chance < 0.6:
            return [Line(of, "d", before)]
        new = str(rng.randrange(KEYS)) if chance < 0.75 else id
        new = id if new in rows else new
        rows[new] = self.row(of, new)
        return [Line(of, "u", before, rows[new])]

    def of_bag(self) -> list[Line]:
        """A change of the table without a key, of which rows may be equal."""
        if self.rng.random() < 0.6 or not self.copies:
            self.copies.append([str(self.rng.randrange(5)), "x"])
            return [Line(self.bag, "c", None, self.copies[-1])]
        before = self.copies.pop(self.rng.randrange(len(self.copies)))
        return [Line(self.bag, "d", before)]

    def lines(self, most: int) -> list[Line]:
        """The changes of a commit."""
        return [line for _ in range(self.rng.randrange(most)) for line in self.line()]

    def anew(self) -> list[Line]:
        """All rows of some table, as they come anew."""
        rows: dict[int, list[list[Any]]] = {it: list(self.rows[it].values()) for it in self.rows}
        of, there = self.rng.choice(
            [(self.bag, self.copies), *((self.tables[it], rows[it]) for it in rows)]
        )
        return [Line(of, "t"), *(Line(of, "c", None, it) for it in there)]

    def last(self) -> list[Line]:
        """What tells the shape and the name that each table has at the end."""
        return [line for oid in self.names for line in self.insert(oid, str(10 * KEYS + oid))]
