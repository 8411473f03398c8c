"""Random feeds: histories in the bytes of a feed, with the rows after each commit, and what a file
of tables has of these."""

import sqlite3
from collections import Counter

import feed_replay
import feed_text
from feed_folder import Folder
from stores.contents import make_tables

from . import history
from . import tables as model
from .reader import Reader
from .wire import NULL, UNSENT, Column, Definition, text

# types of which each number is a value, and a type that isn't known
NUMBERS, TEXTS = (20, 21, 23, 25, 700, 701, 1043, 1700, 99999), (25, 1043, 99999)
INTEGERS, FLOATS, NUMERIC = (20, 21, 23), (700, 701), 1700
NAMES = [it for it in history.NAMES if it not in (b"", b"A")]
# The xid of a commit that the follower has made.
ANEW = 2


class Values(history.Values):
    """What a server can have: the columns of a table have different names, and a cell is a value of
    its type.

    In half of the histories all columns are texts, and in the others each cell is a number.
    """

    def __init__(self, rng):
        super().__init__(rng)
        self.types = rng.choice((NUMBERS, TEXTS))

    def cell(self):
        if self.types == NUMBERS:
            return (
                NULL
                if self.rng.random() < 0.1
                else text(b"%d" % self.rng.choice((0, 1, 7, -5, 32767, self.rng.randint(-99, 99))))
            )
        cell = super().cell()
        # (binary values of these types are text)
        return text(cell[5:].hex().encode()) if cell[:1] == b"b" else cell

    def key_cell(self):
        cell = super().key_cell()
        return text(b"3") if cell[:1] == b"b" else cell

    def column(self, letter, place):
        names = [it for it in history.NAMES if it]
        return Column(
            self.flag(letter, place),
            self.rng.choice(names),
            self.rng.choice(self.types),
            self.rng.choice((-1, -1, 4)),
        )

    def definition(self, oid):
        return self.distinct(super().definition(oid))

    def altered(self, was):
        return self.distinct(super().altered(was))

    def distinct(self, it):
        """A definition without names that a server can't have."""
        taken, columns = set(), []
        for place, column in enumerate(it.columns):
            name = column.name or b"empty"
            while name in taken:
                name += b" %d" % place
            taken.add(name)
            kind = column.type_oid if column.type_oid in self.types else self.rng.choice(self.types)
            columns.append(Column(column.flag, name, kind, column.modifier))
        name = it.name if it.name in NAMES else b"t"
        return Definition(it.oid, it.namespace, name, it.letter, columns)


class Maker(history.Maker):
    """Makes the transactions of a feed: none is rejected."""

    few = 8
    bad_share = 0
    truncates, alters = 0.004, 0.03

    def make_values(self):
        return Values(self.rng)

    def count(self):
        return self.rng.randint(60, 200)


def cell_of(cell):
    if cell in (NULL, UNSENT):
        return None if cell == NULL else feed_text.UNSENT
    return cell[5:].decode() if cell[:1] == b"t" else cell[5:]


def row_of(cells):
    return None if cells is None else [cell_of(it) for it in cells]


def definition_of(it):
    columns = tuple(
        feed_text.Column(column.name.decode(), column.type_oid, column.modifier, bool(column.flag))
        for column in it.columns
    )
    return feed_text.Definition(
        it.oid, it.namespace.decode(), it.name.decode(), it.letter.decode(), columns
    )


def lines_of(tables, change):
    """The lines of a change to these tables, which is made to them."""
    definitions = [definition_of(it) for it in change.definitions]
    if change.letter == b"T":
        model.apply_change(tables, change)
        return [feed_text.Line(it, "t") for it in definitions]
    definition = change.definitions[0]
    found = None
    if change.letter != b"I":
        found = model.rows_under(tables, definition).get(
            model.searched_identity(change, definition), (None,)
        )[0]
    model.apply_change(tables, change)
    if change.letter == b"I":
        return [feed_text.Line(definitions[0], "c", None, row_of(change.new))]
    if found is None:
        kind = change.old_kind.decode() if change.old_kind else None
        return [feed_text.Line(definitions[0], "x", row_of(change.old), row_of(change.new), kind)]
    if change.letter == b"D":
        return [feed_text.Line(definitions[0], "d", row_of(found), None)]
    return [
        feed_text.Line(definitions[0], "u", row_of(found), row_of(model.resolve(change.new, found)))
    ]


class Fed:
    """A history as a feed's commits, and the rows at each LSN."""

    def __init__(self, rng):
        tables, at = {}, 0
        self.commits, self.rows = [], {0: {}}
        # what a store has at an LSN, which an export gives whole
        self.stores = {}
        for transaction in Maker(rng).history():
            if transaction.end <= at:
                continue
            if tables and transaction.end > at + 1 and rng.random() < 0.1:
                at = self.add_anew(tables, at + 1, rng)
            lines = [line for change in transaction.changes for line in lines_of(tables, change)]
            about = (
                feed_text.About(transaction.lsn, transaction.xid, rng.getrandbits(50))
                if rng.random() < 0.9
                else None
            )
            self.commits.append((transaction.end, lines, about))
            at = transaction.end
            self.rows[at] = rows_in(tables)
            if rng.random() < 0.2 and can_be_exported(tables):
                self.stores[at] = model.contents(tables, at)

    def add_anew(self, tables, at, rng):
        """The follower's own commit, in which the rows of some table come anew; returns its end."""
        definition, rows = rng.choice(list(tables.values()))
        of = definition_of(definition)
        lines = [feed_text.Line(of, "t")]
        for cells, copies in rows.values():
            lines += [feed_text.Line(of, "c", None, row_of(cells))] * copies
        self.commits.append((at, lines, feed_text.About(at - 1, ANEW, 0)))
        self.rows[at] = rows_in(tables)
        return at


def can_be_exported(tables):
    """Whether an export has all rows: each table has another name, and columns."""
    names = {(it.namespace or b"pg_catalog", it.name) for it, _ in tables.values()}
    return len(names) == len(tables) and all(it.columns for it, _ in tables.values())


def write_store(path, contents):
    """Makes the file of a store."""
    base = sqlite3.connect(path)
    make_tables(base)
    for oid, it in contents.relations.items():
        base.execute(
            "INSERT INTO rel VALUES (?, ?, ?, ?, ?)",
            (oid, it.namespace, it.name, it.letter, it.columns),
        )
    for (oid, identity), row in contents.rows.items():
        base.execute("INSERT INTO held VALUES (?, ?, ?, ?)", (oid, identity, row.body, row.copies))
    base.execute("UPDATE pos SET lsn = ?", (contents.position.to_bytes(8, "big"),))
    base.commit()
    base.close()


class Feeding(Reader):
    """A subscriber that writes the feed of what it stores."""

    # what it keeps the feed in
    folder = Folder

    def __init__(self, version, writer=None):
        super().__init__(version)
        self.writer, self.about, self.lines = writer, None, []
        # the messages of the transaction that is under way, where it isn't streamed
        self.heard = []

    def restarted(self):
        new = super().restarted()
        new.writer = self.writer
        return new

    def step(self, letter, fields, length):
        if letter in b"Cc":
            self.about = feed_text.About(
                fields[1], self.top if letter == b"C" else fields[0], fields[3]
            )
        if letter == b"B":
            self.heard = []
        if letter == b"M" and fields[0] is None:
            self.hear(*fields[1:])
        super().step(letter, fields, length)

    def hear(self, flags, lsn, prefix, content):
        """A message that isn't in a block. One outside of a transaction goes with the next Begin."""
        if flags:
            self.heard.append(feed_text.Message(lsn, prefix.decode(), bytes(content)))

    def commit(self, xid, end):
        before, self.lines = self.position, []
        super().commit(xid, end)
        if self.writer and self.position > before:
            self.tell(end)

    def tell(self, end):
        self.writer.commit(end, self.lines, self.about, self.heard)

    def apply(self, tables, it):
        lines = lines_of(tables, it)
        self.lines += lines
        self.trial_missed += [line.definition.oid for line in lines if line.op == "x"]


def values_of(type_oid, modifier, cell):
    """A cell as SQLite has it: a numeric without limits is a number and a text."""
    is_number = type_oid in FLOATS or type_oid == NUMERIC
    read = int if type_oid in INTEGERS else float if is_number else str
    value = None if cell is None else read(cell)
    return (value, cell) if type_oid == NUMERIC and modifier < 4 else (value,)


def told_row(types, cells):
    """A row of columns with these types and modifiers."""
    values = [values_of(*kind, cell) for kind, cell in zip(types, cells)]
    return tuple(it for several in values for it in several) or (None,)


def rows_in(tables):
    """By OID how often each row is in a table, with values as SQLite has them."""
    found = {}
    for oid, (definition, rows) in tables.items():
        counted = Counter()
        for cells, copies in rows.values():
            types = [(it.type_oid, it.modifier) for it in definition.columns]
            counted[told_row(types, map(cell_of, cells))] += copies
        found[oid] = counted
    return found


def replayed(folder):
    """The LSN that a feed's folder leads to, and its rows, by what the format says."""
    state = feed_replay.replay(folder)
    found = {}
    for oid, rows in state.rows.items():
        types = [it[1:] for it in state.definitions[oid]["columns"]]
        found[oid] = Counter()
        for row, copies in (+rows).items():
            found[oid][told_row(types, row)] += copies
    return state.at, found


def read_file(path):
    """The LSN of a file of tables, and its rows, read in one transaction."""
    base = sqlite3.connect(f"file:{path}?mode=ro", uri=True, timeout=30, isolation_level=None)
    try:
        base.execute("BEGIN")
        high, low = base.execute("SELECT lsn FROM pgsub_position").fetchone()[0].split("/")
        names = base.execute(
            "SELECT oid, name FROM pgsub_relations WHERE name IS NOT NULL"
        ).fetchall()
        rows = {
            oid: Counter(base.execute('SELECT * FROM "%s"' % name.replace('"', '""')))
            for oid, name in names
        }
        return (int(high, 16) << 32) + int(low, 16), rows
    finally:
        base.close()
