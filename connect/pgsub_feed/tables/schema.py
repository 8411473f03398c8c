"""What a file of tables that follows a feed has, and how far it is.

| Table | Has |
|---|---|
| `pgsub_position` | `lsn`, the end of the last commit whose changes are in it |
| `pgsub_tables` | by `name`, that of a table here: `schema`, `table` and `oid` of the publisher's |
| `pgsub_relations` | by `oid` the definition that was told last, as in the feed, with how its numerics are kept, and the table here, null of one that wasn't chosen, or is set aside |
| `pgsub_feed` | the folder of the feed, what it is a feed of, and the tables that were chosen |
| `pgsub_aside` | by `oid` the tables that are set aside, as the module `tables.set_aside` says |
| `pgsub_digests` | where that was asked for, by `oid` a digest of the table's rows, as the module `tables.digests` says |
| any other | the rows of one of the publisher's tables |

Where another table got the name of one, the older one's rows are in `pgsub_old OID`: it may come
back under another name.
"""

import contextlib
import json
import sqlite3

from ..json_texts import compact
from ..reader.lines import read_relation
from ..relation import Relation
from ..texts import parse_lsn
from .names import POSITION, TABLES
from .sqlite_files import FOLLOWING, opened
from .target import Target

# The version of a file without digests, and of an export. (Those of 1 and 2 have numerics as texts.)
FORMAT = 3
RELATIONS, FEED = "pgsub_relations", "pgsub_feed"
SCHEMA = (
    f"CREATE TABLE {POSITION} (lsn TEXT NOT NULL) STRICT",
    f'CREATE TABLE {TABLES} (name TEXT PRIMARY KEY, schema TEXT NOT NULL, "table" TEXT NOT NULL, oid INTEGER NOT NULL) STRICT',
    f"CREATE TABLE {RELATIONS} (oid INTEGER PRIMARY KEY, name TEXT, definition TEXT) STRICT",
    f"INSERT INTO {POSITION} VALUES ('0/0')",
    f"PRAGMA user_version = {FORMAT}",
)
MORE = (
    f"CREATE TABLE {FEED} (folder TEXT NOT NULL, system TEXT, database TEXT, slot TEXT, chosen TEXT NOT NULL) STRICT",
    f"PRAGMA application_id = {FOLLOWING}",
)

# What is told of a file whose numerics are kept in another way.
FORMS = "it has numerics by --numeric %s, not %s"


def relation_text(it: Relation, **more: object) -> str:
    """A definition as the feed has it, and more."""
    columns = [[column.name, column.type_oid, column.modifier] for column in it.shape.columns]
    is_keyed = it.shape.identity in ("d", "i")
    key = [column.name for column in it.shape.columns if column.key and is_keyed] or None
    told = {
        "oid": it.oid,
        "schema": it.namespace,
        "table": it.name,
        "identity": it.shape.identity,
        "key": key,
        "columns": columns,
        **more,
    }
    return compact(told)


def table_line(it: Relation) -> bytes:
    """The line of a definition, without its end."""
    return b'{"op":"table",' + relation_text(it).encode()[1:]


def full_name(relation: Relation) -> tuple[str, str]:
    return relation.namespace or "pg_catalog", relation.name


def definition(target: Target) -> str:
    """That of a table, with how its numerics are kept, and the columns of its primary key, where
    the replica identity is another."""
    return relation_text(target.told, numeric=target.form, primary=target.primary)


def read_definition(text: str) -> tuple[Relation, str, tuple[str, ...]]:
    """What `definition` has made a text of."""
    found = json.loads(text)
    return read_relation(found), found["numeric"], tuple(found["primary"])


def path_bytes(path: str) -> bytes:
    """A path for SQLite, which takes no text for one that is no UTF-8."""
    return path.encode(errors="surrogateescape")


def read_folder(db: sqlite3.Connection) -> str:
    """The folder of the feed."""
    folder: bytes = db.execute(f"SELECT CAST(folder AS BLOB) FROM {FEED}").fetchone()[0]
    return folder.decode(errors="surrogateescape")


def read_position(path: str) -> tuple[int, str]:
    """The LSN of a file of tables, and the folder of its feed."""
    with contextlib.closing(opened(path)) as db:
        return parse_lsn(db.execute(f"SELECT lsn FROM {POSITION}").fetchone()[0]), read_folder(db)


def read_numeric(path: str) -> str:
    """How the tables of a file have numerics; "" where there are none that tell."""
    with contextlib.suppress(sqlite3.Error, KeyError, TypeError, ValueError), contextlib.closing(
        opened(path)
    ) as db:
        told = f"SELECT definition FROM {RELATIONS} WHERE definition IS NOT NULL LIMIT 1"
        return read_definition(db.execute(told).fetchone()[0])[1]
    return ""
