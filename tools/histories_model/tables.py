"""Tables of rows, what a change does to them, and how they are printed.

Tables are a dict from OID to (definition, rows), and rows a dict from encoded identity to (cells,
copies).
"""

import json

from stores.contents import Contents, Relation, Row

from .wire import NULL, UNSENT, lsn_text, tuple_data

MOST_COPIES = 2147483647
NAMES = {
    1: "Clash",
    2: "NoIdentity",
    3: "UnknownIdentity",
    4: "UnchangedInInsert",
    5: "Width",
    7: "TooManyCopies",
}
CLASH, NO_IDENTITY, UNKNOWN_IDENTITY, UNCHANGED_IN_INSERT, WIDTH, TOO_MANY = 1, 2, 3, 4, 5, 7


class StoreFault(Exception):
    """A change has to be rejected."""

    def __init__(self, number):
        super().__init__(number)
        self.number = number

    def text(self):
        return f"store {self.number} {NAMES[self.number]}"


def carry(was, definition, rows):
    """Rows of one definition as rows of another: cells by column name, identities anew."""
    sources = {}
    for place, column in enumerate(was.columns):
        sources.setdefault(column.name, place)
    places = [sources.get(column.name) for column in definition.columns]
    carried = {}
    for cells, copies in rows.values():
        row = tuple(NULL if place is None else cells[place] for place in places)
        identity = definition.identity(row)
        if definition.keyed:
            if identity in carried or copies > 1:
                raise StoreFault(CLASH)
            carried[identity] = (row, 1)
        else:
            copies += carried[identity][1] if identity in carried else 0
            if copies > MOST_COPIES:
                raise StoreFault(TOO_MANY)
            carried[identity] = (row, copies)
    return carried


def rows_under(tables, definition):
    """The rows of a table as a change with this definition finds them: the stored dict itself where
    the shape is the same."""
    if definition.oid not in tables:
        return {}
    was, rows = tables[definition.oid]
    return carry(was, definition, rows) if rows and was.shape != definition.shape else rows


def searched_identity(change, definition):
    """The encoded identity of the row that an Update or Delete looks for."""
    for cells in (change.old, change.new):
        if cells is not None and len(cells) != definition.width:
            raise StoreFault(WIDTH)
    if not definition.keyed and not (definition.letter == b"f" and change.old_kind == b"O"):
        raise StoreFault(NO_IDENTITY)
    cells = change.new if change.old is None else change.old
    if UNSENT in ([cells[place] for place in definition.key] if definition.keyed else cells):
        raise StoreFault(UNKNOWN_IDENTITY)
    return definition.identity(cells)


def add(definition, rows, cells, without=None):
    """Adds a row, and removes one copy of the row whose identity is `without` first. Rows stay as
    they are at a fault."""
    identity = definition.identity(cells)
    copies = rows[identity][1] if identity in rows else 0
    if identity == without:
        copies -= 1
    if definition.keyed and copies:
        raise StoreFault(CLASH)
    if copies + 1 > MOST_COPIES:
        raise StoreFault(TOO_MANY)
    if without is not None:
        remove(rows, without)
    rows[identity] = (cells, copies + 1)


def remove(rows, identity):
    cells, copies = rows[identity]
    if copies == 1:
        del rows[identity]
    else:
        rows[identity] = (cells, copies - 1)


def resolve(new, found):
    """A new row in which each cell that wasn't sent is that of the row that was found."""
    return tuple(old if cell == UNSENT else cell for cell, old in zip(new, found))


def apply_change(tables, change):
    """Applies one change, and returns whether it found the row that it looked for. At a fault the
    tables are unchanged."""
    if change.letter == b"T":
        for definition in change.definitions:
            tables[definition.oid] = (definition, {})
        return True
    definition = change.definitions[0]
    rows = rows_under(tables, definition)
    found = True
    if change.letter == b"I":
        if len(change.new) != definition.width:
            raise StoreFault(WIDTH)
        if UNSENT in change.new:
            raise StoreFault(UNCHANGED_IN_INSERT)
        add(definition, rows, tuple(change.new))
    else:
        identity = searched_identity(change, definition)
        found = identity in rows
        if found:
            if change.letter == b"U":
                add(definition, rows, resolve(change.new, rows[identity][0]), identity)
            else:
                remove(rows, identity)
    tables[definition.oid] = (definition, rows)
    return found


def copied(tables):
    return {oid: (definition, dict(rows)) for oid, (definition, rows) in tables.items()}


def contents(tables, position):
    """What a store's file holds of these tables."""
    held = Contents(position=position)
    for oid, (definition, rows) in tables.items():
        held.relations[oid] = Relation(
            definition.namespace.decode(),
            definition.name.decode(),
            definition.letter[0],
            definition.columns_rest,
        )
        for identity, (cells, copies) in rows.items():
            held.rows[oid, identity] = Row(tuple_data(cells), copies)
    return held


def cell_value(cell):
    if cell == NULL:
        return None
    return cell[5:].decode() if cell[:1] == b"t" else {"hex": cell[5:].hex()}


def compact(value):
    return json.dumps(value, ensure_ascii=False, separators=(",", ":"))


def dump(tables, position):
    """What `apply` prints."""
    lines = []
    for oid in sorted(tables):
        definition, rows = tables[oid]
        namespace, name = (definition.namespace or b"pg_catalog").decode(), definition.name.decode()
        for identity in sorted(rows):
            cells, copies = rows[identity]
            lines.append(compact([namespace, name, [cell_value(cell) for cell in cells], copies]))
    lines.append(f"position {lsn_text(position)}\n")
    return "\n".join(lines).encode()
