"""What tables, rows and values are called outside of SQL: a name without dots of its own, the
values of a key as one text, and changes as objects by the names of the columns.

| Text | Is |
|---|---|
| `stock` | the table `stock` of the schema `public` |
| `sales.orders` | the table `orders` of the schema `sales` |
| `A-1` | the row with this key |
| `1:2` | that with a key of two columns |

In a name `%`, `:` and `.` are written as `%25`, `%3A` and `%2E`, in a value `%` and `:` so; null is
`%null`, and a binary value `%x` with its digits. So no two have one text.
"""

import string
from collections.abc import Collection, Sequence
from typing import Optional

from ..json_texts import compact
from ..reader.commits import Cell, Change, Message, Missed, Unsent
from ..relation import Relation

NULL = "%null"
VALUE = str.maketrans({"%": "%25", ":": "%3A"})
NAME = str.maketrans({"%": "%25", ":": "%3A", ".": "%2E"})
# What stays as it is in a name of an index, and in a token of a subject.
OF_INDEX = frozenset((string.ascii_lowercase + string.digits + "_-").encode())
OF_TOKEN = frozenset(range(0x21, 0x7F)) - frozenset(b"%.*>")


def key_of(relation: Relation, primary: Collection[str] = ()) -> list[int]:
    """The numbers of the columns by which rows are found; none where there is no key. `primary`:
    those of the primary key, where that isn't told by the replica identity."""
    columns = relation.shape.columns
    is_told = relation.shape.identity in ("d", "i")
    names = primary or [it.name for it in columns if it.key and is_told]
    return [at for at, it in enumerate(columns) if it.name in names]


def full(schema: str) -> str:
    return schema or "pg_catalog"


def table_text(schema: str, table: str) -> str:
    """A table's name: its own in `public`, and else with the schema."""
    name = table.translate(NAME)
    return name if schema == "public" else f"{full(schema).translate(NAME)}.{name}"


def value_text(cell: Cell) -> str:
    if cell is None:
        return NULL
    return "%x" + cell.hex() if isinstance(cell, bytes) else cell.translate(VALUE)


def row_text(key: Sequence[int], cells: Sequence[Cell]) -> str:
    """A row's key."""
    return ":".join([value_text(cells[at]) for at in key])


def escaped(text: str, kept: frozenset[int], digits: str = "%{:02X}") -> str:
    return "".join(chr(it) if it in kept else digits.format(it) for it in text.encode())


def index_text(schema: str, table: str) -> str:
    """A table's name as that of an index, which has no capitals, and begins with no sign."""
    name = escaped(table, OF_INDEX, "%{:02x}")
    if schema != "public":
        name = escaped(full(schema), OF_INDEX, "%{:02x}") + "." + name
    return f"%{ord(name[0]):02x}{name[1:]}" if name[0] in "_-" else name


def subject(stream: str, schema: str, table: str) -> str:
    """The subject of a table's messages."""
    return f"{stream}.{escaped(full(schema), OF_TOKEN)}.{escaped(table, OF_TOKEN)}"


def object_text(relation: Relation, cells: Sequence[Cell | Unsent]) -> str:
    """A row, without cells that weren't sent."""
    named = zip(relation.shape.columns, cells, strict=True)
    return compact(
        {
            column.name: {"hex": it.hex()} if isinstance(it, bytes) else it
            for column, it in named
            if not isinstance(it, Unsent)
        }
    )


def content_of(it: Message) -> str | dict[str, str]:
    """What JSON has of a message's content."""
    return it.content if isinstance(it.content, str) else {"hex": it.content.hex()}


def entry(it: Change | Missed) -> dict[str, str]:
    """What is told of a change, each value a text in JSON but for `op`."""
    rows: dict[str, Optional[Sequence[Cell | Unsent]]]
    if isinstance(it, Missed):
        told, rows = {"op": "x", "sent": f'"{it.sent}"'}, {"old": it.old_cells(), "new": it.new}
    else:
        told, rows = {"op": it.op}, {"before": it.before, "after": it.after}
    return {
        **told,
        "oid": str(it.relation.oid),
        **{name: object_text(it.relation, row) for name, row in rows.items() if row is not None},
    }
