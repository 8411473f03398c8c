"""A feed's commits as `pgsub-feed` prints them.

| Format | Prints |
|---|---|
| `lines` | the feed's own lines, before each commit with the definitions that its changes name |
| `objects` | an object for each message and change, its rows by the names of the columns |

Values are typed by the OID of the type: numbers where JSON has them, but a numeric, of which those
who read JSON would take the nearest number alone; `bool` as true and false; and all else as the
server prints it.
"""

import math
import re
from collections.abc import Iterable, Iterator
from typing import Any

from ..errors import Unfit
from ..json_texts import compact
from ..reader.commits import Cell, Change, Commit, Event, Message, Unsent
from ..reader.following import Chosen
from ..reader.decoding import MOST_DEFINITIONS
from ..reader.segments import Reader
from ..relation import Relation
from ..tables.floats import printed_float
from ..tables.table import Valued
from ..tables.values import AS_TEXT, BOOL, BYTEA
from ..texts import lsn_text
from .keys import content_of

Row = dict[str, Any] | None


# Those that JSON leaves as they are, and terminals take for commands.
CONTROLS = re.compile("[\x7f-\x9f]")


def json_line(value: object) -> bytes:
    """A value as a line without control characters."""
    return CONTROLS.sub(lambda it: f"\\u{ord(it[0]):04x}", compact(value)).encode() + b"\n"


class Objects:
    """Rows as objects, of the tables that are chosen."""

    def __init__(self, chosen: Chosen) -> None:
        self.chosen = chosen
        self.known: dict[int, Valued] = {}

    def valued(self, relation: Relation) -> Valued:
        found = self.known.get(relation.oid)
        if found is None or found.relation != relation:
            found = self.known[relation.oid] = Valued(relation.name, relation, AS_TEXT)
        return found

    def row(self, relation: Relation, cells: Iterable[Cell | Unsent] | None) -> Row:
        """A row by the names of its columns, without cells that weren't sent."""
        if cells is None:
            return None
        valued = self.valued(relation)
        named = zip(relation.shape.columns, cells, strict=True)
        return {
            it.name: self.value(valued, at, cell)
            for at, (it, cell) in enumerate(named)
            if not isinstance(cell, Unsent)
        }

    def value(self, valued: Valued, at: int, cell: Cell) -> object:
        kind = valued.relation.shape.columns[at].type_oid
        try:
            value = valued.value(at, cell)
        except Unfit:
            # (the type was altered, and the row is from before)
            return f"\\x{cell.hex()}" if isinstance(cell, bytes) else cell
        if isinstance(value, bytes):
            is_text = kind != BYTEA
            return value.decode(errors="backslashreplace") if is_text else f"\\x{value.hex()}"
        if isinstance(value, float) and math.isinf(value):
            # (JSON hasn't them)
            return printed_float(value, False)
        return bool(value) if kind == BOOL and value is not None else value


class Told:
    """Which definitions somebody was told who hasn't the feed, by the offsets that changes name."""

    def __init__(self) -> None:
        self.lines: dict[int, bytes] = {}

    def begin(self) -> None:
        """Begins a commit. Where there are too many, somebody elsewhere has forgotten them, too."""
        if len(self.lines) >= MOST_DEFINITIONS:
            self.lines.clear()

    def add(self, at: int, line: bytes) -> bytes:
        """The line of a definition with its offset, empty where it was told."""
        if self.lines.get(at) == line:
            return b""
        self.lines[at] = line
        return b'{"at":%d,%b\n' % (at, line[1:])


class Lines:
    """The feed's own lines, whole commits."""

    def __init__(self) -> None:
        self.told = Told()

    def print(self, reader: Reader, commit: Commit) -> Iterator[bytes]:
        self.told.begin()
        for at, line in reader.definitions(commit):
            yield self.told.add(at, line)
        yield reader.own_line(commit)
        for lines in reader.raw(commit):
            yield from (line + b"\n" for line in lines)


class ByName(Objects):
    """An object for each message and change, its `id` made of the commit's LSN and its number in
    there."""

    def print(self, reader: Reader, commit: Commit) -> Iterator[bytes]:
        about: dict[str, object] = {"xid": commit.xid, "ts_us": commit.ts_us}
        for it in self.chosen.events(reader.parts(commit)):
            kind = "m" if isinstance(it, Message) else ""
            number: dict[str, object] = {"id": f"{commit.text()}:{kind}{it.n}"}
            yield json_line(number | about | self.told(it))

    def told(self, it: Event) -> dict[str, object]:
        if isinstance(it, Message):
            where = {"op": "m", "lsn": lsn_text(it.lsn)}
            return {**where, "prefix": it.prefix, "content": content_of(it)}
        relation = it.relation
        named = {"schema": relation.namespace, "table": relation.name}
        if isinstance(it, Change):
            before, after = (self.row(relation, row) for row in (it.before, it.after))
            return {"op": it.op, **named, "before": before, "after": after}
        old, new = (self.row(relation, row) for row in (it.old_cells(), it.new))
        return {"op": "x", **named, "sent": it.sent, "old": old, "new": new}
