"""Random histories of a server: transactions with their changes, subtransactions and rolled-back
parts, in commit order."""

from . import tables as model
from .wire import NULL, UNSENT, Change, Column, Definition, binary, text

NAMES = (
    b"a",
    b"b",
    b"c",
    b"id",
    b"v",
    b"w",
    b"x",
    b"y",
    b"long name",
    b'quote"',
    b"back\\slash",
    "größe".encode(),
    "表".encode(),
    b"",
    b"tab\there",
    b"A",
)
NAMESPACES = (b"public", b"public", b"public", b"", b"pg_catalog", b"other", "schéma".encode())
LETTERS = (b"d",) * 9 + (b"i",) * 4 + (b"f",) * 6 + (b"n",) * 2
SHORT = (
    b"",
    b"a",
    b"b",
    b"c",
    b"1",
    b"2",
    b"3",
    b"0",
    b"\0",
    b"\n",
    b'"',
    b"\\",
    b"\x01\x1f\x7f",
    b"null",
    b"\b\f\r\t",
)
RANGES = (
    (0x20, 0x7E),
    (0, 0x1F),
    (0x7F, 0x7FF),
    (0x800, 0xD7FF),
    (0xE000, 0xFFFF),
    (0x10000, 0x10FFFF),
)
MOST_LSN = 2**64 - 1


class Transaction:
    """A transaction. Parts are ("change", change), ("kept", xid, parts) and ("gone", xids)."""

    __slots__ = ("xid", "lsn", "end", "parts", "changes", "bad")

    def __init__(self, xid, lsn, end, parts):
        self.xid, self.lsn, self.end, self.parts = xid, lsn, end, parts
        self.changes = list(kept(parts))
        self.bad = False


def kept(parts):
    """The surviving changes, in order."""
    for part in parts:
        if part[0] == "change":
            yield part[1]
        elif part[0] == "kept":
            yield from kept(part[2])


def has_changes(transaction):
    return any(change.letter != b"T" or change.definitions for change in transaction.changes)


def other_width(cells, rng):
    """Cells of another number, but never more than a tuple may have."""
    if cells and (len(cells) == 1600 or rng.random() < 0.5):
        return list(cells)[:-1]
    return list(cells) + [NULL]


class Values:
    """Random cells, names and definitions."""

    def __init__(self, rng):
        self.rng = rng

    def unicode(self, length):
        rng = self.rng
        low, high = rng.choice(RANGES)
        return "".join(chr(rng.randint(low, high)) for _ in range(length)).encode()

    def cell(self):
        rng = self.rng
        luck = rng.random()
        if luck < 0.5:
            return text(rng.choice(SHORT))
        if luck < 0.62:
            return NULL
        if luck < 0.8:
            return text(b"%d" % rng.randint(0, 99))
        if luck < 0.88:
            return text(self.unicode(rng.randint(1, 12)))
        if luck < 0.97:
            return binary(rng.randbytes(rng.randint(0, 12)))
        length = rng.randint(20, 300) if luck < 0.995 else rng.randint(1000, 9000)
        if luck > 0.9998:
            length = rng.randint(60000, 300000)
        if rng.random() < 0.3:
            return binary(rng.randbytes(length))
        return text(self.unicode(5) * (length // 5))

    def key_cell(self):
        luck = self.rng.random()
        if luck < 0.8:
            return text(b"%d" % self.rng.randint(0, 12))
        return self.cell() if luck < 0.9 else binary(bytes([self.rng.randint(48, 52)]))

    def number(self, bits):
        """A number of so many bits, often small or great."""
        luck = self.rng.random()
        if luck < 0.4:
            return self.rng.randint(0, 1000)
        return 2**bits - 1 if luck < 0.5 else self.rng.getrandbits(bits)

    def signed(self, bits):
        return (
            self.number(bits) - 2 ** (bits - 1)
            if self.rng.random() < 0.5
            else self.rng.randint(-1, 1000)
        )

    def flag(self, letter, place):
        if letter == b"f":
            return int(self.rng.random() < 0.9)
        if letter == b"n":
            return int(self.rng.random() < 0.1)
        return int(self.rng.random() < (0.93 if place == 0 else 0.15))

    def column(self, letter, place):
        return Column(
            self.flag(letter, place),
            self.rng.choice(NAMES),
            self.rng.choice((23, 25, 17, 2**32 - 1)),
            self.rng.choice((-1, -1, 4, -(2**31))),
        )

    def width(self):
        rng = self.rng
        luck = rng.random()
        if luck < 0.03:
            return 0
        if luck < 0.9:
            return rng.randint(1, 4)
        if luck < 0.999:
            return rng.randint(5, 12) if luck < 0.99 else rng.randint(13, 60)
        return rng.choice((1599, 1600))

    def definition(self, oid):
        rng = self.rng
        letter = rng.choice(LETTERS)
        columns = []
        for place in range(self.width()):
            column = self.column(letter, place)
            if column.name in (other.name for other in columns) and rng.random() < 0.95:
                column.name += b"%d" % place
            columns.append(column)
        return Definition(oid, rng.choice(NAMESPACES), rng.choice(NAMES), letter, columns)

    def altered(self, was):
        """The definition after its table was altered."""
        rng = self.rng
        columns, letter, namespace, name = list(was.columns), was.letter, was.namespace, was.name
        for _ in range(rng.choice((1, 1, 1, 2, 3))):
            luck = rng.random()
            place = rng.randrange(len(columns)) if columns else 0
            if luck < 0.3 and len(columns) < 1600:
                columns.insert(rng.randint(0, len(columns)), self.column(letter, 1))
            elif luck < 0.5 and columns:
                del columns[place]
            elif luck < 0.6 and columns:
                one = columns[place]
                columns[place] = Column(one.flag, rng.choice(NAMES), one.type_oid, one.modifier)
            elif luck < 0.7 and columns:
                one = columns[place]
                columns[place] = Column(1 - one.flag, one.name, one.type_oid, one.modifier)
            elif luck < 0.8:
                letter = rng.choice(LETTERS)
            elif luck < 0.85 and columns:
                one = columns[place]
                columns[place] = Column(one.flag, one.name, rng.getrandbits(32), rng.randint(-5, 5))
            elif luck < 0.93:
                rng.shuffle(columns)
            else:
                namespace, name = rng.choice(NAMESPACES), rng.choice(NAMES)
        return Definition(was.oid, namespace, name, letter, columns)


class Maker:
    """Makes the transactions of one history, and follows the tables meanwhile so that most changes
    meet a row."""

    # a table that has more rows gets fewer Inserts
    few = 3
    # how many histories have a transaction that is rejected
    bad_share = 0.3
    # how often a change truncates, and how often its table was altered before it
    truncates, alters = 0.03, 0.06
    # of a number below 1 that says which change comes: from here on a Delete
    deletes_from = 0.85

    def __init__(self, rng):
        self.rng = rng
        self.values = self.make_values()
        self.tables = {}
        self.definitions = {}
        oids = [
            rng.choice((16384, 1, 0, 2**31, 2**31 - 1, 2**32 - 1, rng.getrandbits(32))) + step
            for step in range(1, 9)
        ]
        self.oids = [oid % 2**32 for oid in oids[: rng.choice((1, 2, 2, 3, 5))]]
        for oid in self.oids:
            self.definitions[oid] = self.values.definition(oid)

    def make_values(self):
        return Values(self.rng)

    def count(self):
        """How many transactions a history has."""
        rng = self.rng
        luck = rng.random()
        return (
            rng.randint(0, 3)
            if luck < 0.3
            else rng.randint(2, 9)
            if luck < 0.95
            else rng.randint(10, 40)
        )

    def sizes(self):
        """About how many changes a transaction has, at least and at most."""
        luck = self.rng.random()
        return (
            (0, 0)
            if luck < 0.08
            else (1, 6)
            if luck < 0.85
            else (5, 30)
            if luck < 0.99
            else (50, 400)
        )

    def history(self):
        rng = self.rng
        count = self.count()
        bad_at = rng.randrange(count) if count and rng.random() < self.bad_share else None
        lsn = rng.choice(
            (
                0,
                1,
                0x100,
                2**32 - 40,
                rng.getrandbits(40),
                MOST_LSN - 2**20 - rng.getrandbits(40),
            )
        )
        history = []
        for place in range(count):
            lsn += rng.choice((0, 0, 1, 100))
            end = lsn + rng.choice((1, 1, 48, 1000))
            transaction = self.transaction(lsn, end, place == bad_at)
            history.append(transaction)
            lsn = end
        return history

    def transaction(self, lsn, end, bad):
        rng = self.rng
        self.free = (
            rng.sample(range(690, 760), 40)
            if rng.random() < 0.9
            else [rng.getrandbits(32) for _ in range(40)]
        )
        if len(set(self.free)) < 40:
            self.free = list(range(690, 730))
        before = model.copied(self.tables) if bad else None
        definitions = dict(self.definitions)
        xid = self.free.pop()
        sizes = self.sizes()
        self.bad = bad
        parts = self.parts(rng.randint(*sizes), 0)
        transaction = Transaction(xid, lsn, end, parts)
        if bad and not self.bad:
            transaction.bad = True
            self.tables, self.definitions = before, definitions
        return transaction

    def parts(self, budget, depth):
        """Parts with about so many changes."""
        rng = self.rng
        parts = []
        while budget > 0 or (rng.random() < 0.05 and depth < 3):
            luck = rng.random()
            if luck < 0.08 and depth < 4 and len(self.free) > 8:
                share = rng.randint(0, max(budget, 0))
                parts.append(("kept", self.free.pop(), self.parts(share, depth + 1)))
                budget -= share
            elif luck < 0.16 and len(self.free) > 8:
                parts.append(("gone", [self.free.pop() for _ in range(rng.choice((1, 1, 2, 4)))]))
            else:
                budget -= 1
                change = self.change()
                if change:
                    parts.append(("change", change))
        return parts

    def change(self):
        """A change that the tables take, or once in a bad transaction one that they don't; None
        where none is found."""
        rng = self.rng
        if self.bad and rng.random() < 0.4:
            for _ in range(12):
                change = self.candidate(True)
                try:
                    model.apply_change(self.tables, change)
                except model.StoreFault:
                    self.bad = False
                return change
        for _ in range(4):
            oid = rng.choice(self.oids)
            was = self.definitions[oid]
            if rng.random() < self.alters:
                self.definitions[oid] = self.values.altered(was)
            change = self.candidate(False, oid)
            try:
                model.apply_change(self.tables, change)
                return change
            except model.StoreFault:
                if oid in self.tables and rng.random() < 0.7:
                    self.definitions[oid] = self.tables[oid][0]
        return None

    def candidate(self, careless, oid=None):
        rng = self.rng
        oid = rng.choice(self.oids) if oid is None else oid
        definition = self.definitions[oid]
        if careless and rng.random() < 0.2:
            definition = self.values.altered(definition)
        try:
            rows = model.rows_under(self.tables, definition)
        except model.StoreFault:
            rows = {}
        luck = rng.random()
        if luck < self.truncates:
            named = [
                self.definitions[other]
                for other in rng.choices(self.oids, k=rng.choice((0, 1, 1, 2, 3)))
            ]
            return Change(b"T", named, options=rng.randint(0, 3))
        if luck < (0.3 if len(rows) > self.few else 0.75):
            return Change(b"I", [definition], new=self.insert_row(definition, rows, careless))
        return self.change_of_row(definition, rows, careless, luck)

    def row(self, definition):
        values = self.values
        return [
            values.key_cell() if column.flag else values.cell() for column in definition.columns
        ]

    def insert_row(self, definition, rows, careless):
        rng = self.rng
        cells = self.row(definition)
        if not definition.keyed and rows and rng.random() < 0.4:
            return list(rng.choice(list(rows.values()))[0])
        if careless:
            luck = rng.random()
            if luck < 0.3 and rows:
                return list(rng.choice(list(rows.values()))[0])
            if luck < 0.5 and cells:
                cells[rng.randrange(len(cells))] = UNSENT
            elif luck < 0.7:
                return other_width(cells, rng)
        return cells

    def change_of_row(self, definition, rows, careless, luck):
        """An Update or Delete, mostly of a row that is stored."""
        rng = self.rng
        found = (
            list(rng.choice(list(rows.values()))[0])
            if rows and rng.random() < 0.92
            else self.row(definition)
        )
        is_delete = luck > self.deletes_from
        old_kind, old = self.old_tuple(definition, found, is_delete)
        if is_delete:
            change = Change(b"D", [definition], old_kind, old)
        else:
            new = list(found)
            for place, column in enumerate(definition.columns):
                chance = rng.random()
                if column.flag and definition.keyed:
                    if old_kind and chance < 0.5:
                        new[place] = UNSENT if chance < 0.1 else self.values.key_cell()
                elif chance < 0.5:
                    new[place] = UNSENT if chance < 0.25 else self.values.cell()
            change = Change(b"U", [definition], old_kind, old, new)
        if careless and not (
            definition.keyed and rng.random() < 0.4 and self.aim_at_other(change, rows)
        ):
            self.spoil(change)
            while rng.random() < 0.3:
                self.spoil(change)
        return change

    def aim_at_other(self, change, rows):
        """Gives an Update the identity of another row, mostly."""
        definition = change.definitions[0]
        if change.letter != b"U" or change.old is None or len(rows) < 2:
            return False
        other = self.rng.choice(list(rows.values()))[0]
        for place in definition.key:
            change.new[place] = other[place]
        return True

    def old_tuple(self, definition, found, is_delete):
        rng = self.rng
        if not definition.keyed:
            return b"O", found
        luck = rng.random()
        if luck < 0.3:
            return b"O", found
        if luck < 0.65 and not is_delete:
            return None, None
        cells = [
            cell if column.flag or rng.random() < 0.1 else NULL
            for cell, column in zip(found, definition.columns)
        ]
        return b"K", [
            UNSENT if cell == NULL and not column.flag and rng.random() < 0.02 else cell
            for cell, column in zip(cells, definition.columns)
        ]

    def spoil(self, change):
        """Gives an Update or Delete something for which it has to be rejected, mostly."""
        rng = self.rng
        definition = change.definitions[0]
        luck = rng.random()
        cells = change.old if change.old is not None else change.new
        if luck < 0.3 and cells:
            cells = list(cells)
            # it may have lost a cell already
            cells[
                (definition.key[0] if definition.keyed else rng.randrange(len(cells))) % len(cells)
            ] = UNSENT
            if change.old is not None:
                change.old = cells
            else:
                change.new = cells
        elif luck < 0.5:
            if change.old is not None and rng.random() < 0.5:
                change.old = other_width(change.old, rng)
            elif change.new is not None:
                change.new = other_width(change.new, rng)
        elif luck < 0.7 and change.letter == b"U":
            change.old_kind, change.old = (
                (None, None) if rng.random() < 0.5 else (b"K", change.old or change.new)
            )
        elif luck < 0.8 and change.letter == b"D":
            change.old_kind = b"K" if change.old_kind == b"O" else b"O"
