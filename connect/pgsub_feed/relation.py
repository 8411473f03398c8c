"""What a Relation message says of a table, as a feed has it in each commit."""

import dataclasses
from typing import NamedTuple

from .json_values import Oid, Signed, unkept


class Column(NamedTuple):
    """A published column. `number`: its attribute's, 0 where only a Relation message is known."""

    name: str
    type_oid: Oid
    modifier: Signed
    key: bool
    number: int = 0


@dataclasses.dataclass(frozen=True)
class Shape:
    """What a Relation message says of a table beside its name."""

    identity: str
    columns: tuple[Column, ...]


class BaseType(NamedTuple):
    """What a domain is of, at the end: its name with the modifier, OID and modifier."""

    name: str
    oid: Oid
    modifier: Signed


class ColumnType(NamedTuple):
    """The type of a column. `name`: as `format_type` prints it, with the schema of any that isn't
    PostgreSQL's own; `labels`: of an enumeration, or of the one that an array's elements are, in
    order; `base`: what a domain is of, None of any other."""

    name: str
    not_null: bool = False
    labels: tuple[str, ...] = ()
    base: BaseType | None = None


class TableTypes(NamedTuple):
    """The types of a table's columns by name, and the columns of its primary key, none where it
    has none, or a deferrable one."""

    columns: dict[str, ColumnType]
    primary: tuple[str, ...] = ()


@dataclasses.dataclass(frozen=True)
class Relation:
    """A Relation message. `types`: what the catalog has said of it, None where that isn't known."""

    oid: Oid
    namespace: str
    name: str
    shape: Shape
    types: TableTypes | None = unkept(None)

    def text(self) -> str:
        return f"{self.namespace}.{self.name} ({self.oid})"

    def base_of(self, name: str) -> BaseType | None:
        """What the domain of a column is of, None where it has another type, or none is known."""
        found = self.types.columns.get(name) if self.types else None
        return found.base if found else None
