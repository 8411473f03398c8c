"""Reads a feed of commits: `read` gives them to a program of one's own, with what is in `changes`.

`reader` has a feed's folder, lines and commits, `relation` and `changes` what is in them,
`column_types` and `known_tables` what the server's catalog says beside that;
`pipe` carries it to other hosts, `tables` keeps tables of SQLite that follow a feed, `sinks` Redis,
NATS and Kafka, and `formats`, `debezium` and `undo` are texts of commits, which `command` prints.
`errors` says why something ends.
"""

import importlib
from typing import TYPE_CHECKING, Any

if TYPE_CHECKING:
    from .changes import Change, Commit, Delete, Insert, Missed, Row, Truncate, Update, python_value
    from .consumer import read
    from .errors import Damaged, FileError, Passing, Unfit
    from .reader.commits import Message
    from .relation import BaseType, Column, ColumnType, Relation, TableTypes
    from .texts import lsn_text, parse_lsn

__all__ = ["BaseType", "Change", "Column", "ColumnType", "Commit", "Damaged", "Delete", "FileError"]
__all__ += ["Insert", "Message", "Missed", "Passing", "Relation", "Row", "TableTypes", "Truncate"]
__all__ += ["Unfit", "Update", "lsn_text", "parse_lsn", "python_value", "read"]
# Where each is; it is imported once it is asked for, so that a short command begins at once.
HOMES = {
    "consumer": ("read",),
    "errors": ("Damaged", "FileError", "Passing", "Unfit"),
    "reader.commits": ("Message",),
    "relation": ("BaseType", "Column", "ColumnType", "Relation", "TableTypes"),
    "texts": ("lsn_text", "parse_lsn"),
}


def __getattr__(name: str) -> Any:
    if name not in __all__:
        raise AttributeError(f"module {__name__} has no attribute {name}")
    home = next((home for home, names in HOMES.items() if name in names), "changes")
    return getattr(importlib.import_module(f".{home}", __name__), name)
