"""Tables of every shape, whose rows and definitions have to be the same by the initial copy and by
the stream."""

from __future__ import annotations

import shutil
import sqlite3
import tempfile
from collections.abc import Iterator
from pathlib import Path
from typing import Any

from ..errors import Failed
from ..place import Place
from ..rows import literal, quoted, rows_of_store
from .case import Case

TABLES = {
    "listed": "id int PRIMARY KEY, a varchar(10), m mood, p positive, n numeric(10,2), t timestamptz(3), arr int[], c char(5),"
    " bits bit(3), i interval, j jsonb, u uuid, ip inet, r tstzrange, f real, k regclass, nm name, b box, by bytea",
    "filtered": "id int PRIMARY KEY, secret text, shown text",
    "rooted": "id int, at date, PRIMARY KEY (id, at)",
    "by_index": "k int NOT NULL, z int, y text NOT NULL, g int GENERATED ALWAYS AS (k * 2) STORED",
    "whole": "a int, gone int, b text",
    "deferred": "id int PRIMARY KEY DEFERRABLE, v text",
    "nothing": "id int PRIMARY KEY, v text",
    "parent": "id int PRIMARY KEY",
    "keyless": "v text",
    "bare": "",
}
MORE = (
    "CREATE TABLE rooted_old PARTITION OF rooted FOR VALUES FROM ('2020-01-01') TO ('2021-01-01')",
    "CREATE TABLE rooted_rest PARTITION OF rooted DEFAULT",
    "CREATE UNIQUE INDEX by_index_yk ON by_index (y, k) INCLUDE (z)",
    "ALTER TABLE by_index REPLICA IDENTITY USING INDEX by_index_yk",
    "ALTER TABLE whole DROP COLUMN gone",
    "ALTER TABLE whole REPLICA IDENTITY FULL",
    "ALTER TABLE nothing REPLICA IDENTITY NOTHING",
    "CREATE TABLE child (extra text, PRIMARY KEY (id)) INHERITS (parent)",
)
ROWS = (
    "INSERT INTO listed VALUES (1, 'x', 'sad', 3, 1.5, '2020-01-01 10:00+05', '{1,NULL,3}', 'ab', '101', '1 year 2 days',"
    " '{\"b\":1,\"a\":[1.0]}', 'a0eebc99-9c0b-4ef8-bb6d-6bb9bd380a11', '10.0.0.1/8', '[2020-01-01,2020-02-01)', 0.1,"
    " 'listed', 'nm', '(1,2),(3,4)', '\\x00ff')",
    "INSERT INTO listed (id, a) VALUES (2, NULL), (3, E'\\t\\\\N\\n'), (4, '')",
    "INSERT INTO filtered SELECT it, 'secret', 'shown' FROM generate_series(1, 10) it",
    "INSERT INTO rooted VALUES (1, '2020-05-05'), (2, '2022-01-01')",
    "INSERT INTO by_index VALUES (1, 2, 'y')",
    "INSERT INTO whole VALUES (1, 'x'), (1, 'x'), (NULL, NULL)",
    "INSERT INTO deferred VALUES (1, 'd')",
    "INSERT INTO nothing VALUES (1, 'n')",
    "INSERT INTO parent VALUES (1)",
    "INSERT INTO child VALUES (2, 'e')",
    "INSERT INTO keyless VALUES ('v'), ('v')",
    "INSERT INTO bare DEFAULT VALUES",
)


def publication(version: int) -> str:
    filtered = "filtered (id, shown) WHERE (id > 5)" if version >= 15 else "filtered"
    names = ", ".join(name if name != "filtered" else filtered for name in TABLES)
    return f"CREATE PUBLICATION pgsub FOR TABLE {names} WITH (publish_via_partition_root)"


def create(version: int) -> Iterator[str]:
    yield "CREATE TYPE mood AS ENUM ('sad', 'ok')"
    yield "CREATE DOMAIN positive AS int CHECK (value > 0)"
    for name, columns in TABLES.items():
        yield f"CREATE TABLE {name} ({columns})" + (
            " PARTITION BY RANGE (at)" if name == "rooted" else ""
        )
    yield from MORE
    yield publication(version)


def definitions_of(store: Path) -> list[Any] | None:
    """The stored definitions, read from a copy of the files; None where they aren't SQLite's."""
    with tempfile.TemporaryDirectory() as folder:
        for it in (store, Path(f"{store}-wal")):
            if it.exists():
                shutil.copy(it, folder)
        connection = sqlite3.connect(Path(folder) / store.name)
        try:
            return sorted(connection.execute("SELECT * FROM rel"))
        except sqlite3.DatabaseError:
            return None
        finally:
            connection.close()


def same_by_stream(place: Place) -> None:
    """Copies rows and definitions of tables of every shape as the stream has them."""
    place.run(*create(place.options.installed.version), *ROWS)
    place.follow("--create")
    copied, definitions = place.rows(), definitions_of(place.store)
    place.equal()
    place.run(f"TRUNCATE {', '.join(TABLES)}", *ROWS)
    place.follow()
    streamed = rows_of_store(place.options.program, place.store)[0]
    if copied != streamed:
        raise Failed(f"{copied} and {streamed}")
    if definitions != definitions_of(place.store):
        raise Failed(f"{definitions} and {definitions_of(place.store)}")
    if len(copied) != len(TABLES) + 1:
        raise Failed(f"rows of {sorted(copied)}")


ODD_NAMES = (
    'we"ird',
    "it's",
    "back\\slash",
    "new\nline",
    "Großes Ä",
    "tab\t, comma",
    "{brace}",
    "%s",
    "select",
    " ",
)


def odd_names(place: Place) -> None:
    """So it is with any names of schemas, tables and columns, and where a backslash is an escape in
    the server's strings."""
    listed = []
    for number, name in enumerate(ODD_NAMES):
        schema, table, column = (
            quoted(name),
            quoted(ODD_NAMES[number - 1]),
            quoted(ODD_NAMES[number - 2]),
        )
        place.run(
            f"CREATE SCHEMA {schema}",
            f"CREATE TABLE {schema}.{table} ({column} text PRIMARY KEY, id int)",
            f"INSERT INTO {schema}.{table} VALUES ({literal(name)}, {number}), (E'\\\\N', 100), ('', 200)",
        )
        filtered = f" WHERE ({column} <> 'a\\b')" if place.options.installed.version >= 15 else ""
        listed.append(f"{schema}.{table}{filtered}")
    place.run(
        f"CREATE PUBLICATION pgsub FOR TABLE {', '.join(listed)}",
        "ALTER DATABASE shop SET standard_conforming_strings = off",
    )
    place.follow("--create", "--strict")
    if place.equal() != 3 * len(ODD_NAMES):
        raise Failed(f"{place.rows()}")
    for number, name in enumerate(ODD_NAMES):
        column = quoted(ODD_NAMES[number - 2])
        place.run(
            f"UPDATE {quoted(name)}.{quoted(ODD_NAMES[number - 1])} SET {column} = {column} || 'x', id = id + 1"
        )
    place.follow("--strict")
    place.equal()


CASES = (
    Case("tables-of-every-shape", same_by_stream),
    Case("names-of-every-kind", odd_names),
)
