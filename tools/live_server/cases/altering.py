"""Random commands at the server: afterwards the copy has its rows, or it was told of which tables
it may not have them."""

from __future__ import annotations

import collections
import contextlib
import json
import random
import shutil
import sqlite3
import tempfile
import time
from pathlib import Path
from signal import SIGTERM

import psycopg

from ..child import Child
from ..errors import Failed
from ..follower import checkpoint_of, remembered_of
from ..place import MISSED, OK, REJECTED, SERVER, UNFIT, Place
from ..rows import compare, literal, quoted, rows_of_server
from .case import Case
from .common import verify_words

DIFFERENT = 1
ROUNDS = 8
# How many commands there are at most between two looks at the rows, and how many are tried for it:
# most of them the server rejects.
MOST, TRIED = 6, 60
BEGIN = (
    "DROP SCHEMA IF EXISTS public CASCADE",
    "DROP SCHEMA IF EXISTS other CASCADE",
    "CREATE SCHEMA public",
    "CREATE SCHEMA other",
    "CREATE TYPE mood AS ENUM ('sad', 'ok', 'fine')",
    "CREATE TYPE pair AS (x int, y text)",
    "CREATE TABLE keyed (id int PRIMARY KEY, a int, b text, m mood, p pair, l mood[])",
    "CREATE TABLE whole (id int, a int, b text)",
    "ALTER TABLE whole REPLICA IDENTITY FULL",
    "CREATE TABLE parted (id int PRIMARY KEY, a int) PARTITION BY RANGE (id)",
    "CREATE TABLE part1 PARTITION OF parted FOR VALUES FROM (0) TO (100)",
    "CREATE TABLE part2 PARTITION OF parted FOR VALUES FROM (100) TO (200)",
    "INSERT INTO keyed SELECT it, it, 'w' || it, 'sad', ROW (it, 'y')::pair, '{sad,ok}' FROM generate_series(1, 8) it",
    "INSERT INTO whole SELECT it, it, 'w' || it FROM generate_series(1, 5) it",
    "INSERT INTO parted SELECT it * 20, it FROM generate_series(0, 9) it",
)
PUBLICATIONS = (
    "FOR ALL TABLES",
    "FOR ALL TABLES WITH (publish_via_partition_root)",
    "FOR TABLE keyed, whole, parted",
    "FOR TABLE keyed, whole, parted WITH (publish_via_partition_root)",
    "FOR TABLES IN SCHEMA public",
)
TABLES = ("keyed", "whole", "keyed", "whole", "parted", "part1", "part2", "part3", "extra")
COLUMNS, OTHERS = ("a", "b", "c", "d"), ("extra", "keyed", "whole", "old")
COMMANDS = (
    "UPDATE {table} SET a = a + 1",
    "DELETE FROM {table} WHERE id % 3 = {number} % 3",
    "INSERT INTO {table} (id) VALUES ({number} % 300)",
    "TRUNCATE {table}",
    "VACUUM FULL {table}",
    "CLUSTER {table}",
    "DROP TABLE {table}",
    "ALTER TABLE {table} SET (fillfactor = 50)",
    "ALTER TABLE {table} ADD COLUMN {column} int DEFAULT {number}",
    "ALTER TABLE {table} DROP COLUMN {column}",
    "ALTER TABLE {table} ADD COLUMN {column} text DEFAULT md5(random()::text)",
    "ALTER TABLE {table} DROP COLUMN {column}, ADD COLUMN {column} int DEFAULT 5",
    "ALTER TABLE {table} ADD COLUMN doubled int GENERATED ALWAYS AS (id * 2) STORED",
    "ALTER TABLE {table} RENAME COLUMN {column} TO d",
    "ALTER TABLE {table} ALTER {column} TYPE bigint",
    "ALTER TABLE {table} ALTER {column} TYPE int USING length({column}::text)",
    "ALTER TABLE {table} ALTER id TYPE bigint",
    "ALTER TABLE {table} ALTER {column} TYPE text USING 'z' || {column}::text",
    "ALTER TABLE {table} ALTER {column} SET DEFAULT NULL",
    "ALTER TABLE {table} RENAME TO {other}",
    "CREATE TABLE {table} (id int PRIMARY KEY, a int, b text)",
    "CREATE TABLE extra AS SELECT {number} AS id, 1 AS a",
    "CREATE TABLE part3 (id int PRIMARY KEY, a int)",
    "CREATE TABLE part3 PARTITION OF parted FOR VALUES FROM (200) TO (300)",
    "ALTER TABLE parted ATTACH PARTITION part3 FOR VALUES FROM (200) TO (300)",
    "ALTER TABLE parted ATTACH PARTITION part1 FOR VALUES FROM (0) TO (100)",
    "ALTER TABLE parted DETACH PARTITION {table}",
    "ALTER TABLE {table} REPLICA IDENTITY FULL",
    "ALTER TABLE {table} REPLICA IDENTITY DEFAULT",
    "ALTER TYPE mood RENAME VALUE 'sad' TO 'blue'",
    "ALTER TYPE mood RENAME VALUE 'ok' TO 'sad'",
    "ALTER TYPE mood ADD VALUE 'v{number}'",
    "ALTER TYPE pair RENAME ATTRIBUTE y TO z",
    "ALTER TABLE {table} SET SCHEMA other",
    "ALTER TABLE other.{table} SET SCHEMA public",
    "ALTER PUBLICATION pgsub ADD TABLE {table}",
    "ALTER PUBLICATION pgsub DROP TABLE {table}",
    "ALTER PUBLICATION pgsub SET (publish_via_partition_root = true)",
    "ALTER PUBLICATION pgsub SET (publish_via_partition_root = false)",
    "ALTER PUBLICATION pgsub SET (publish = 'insert')",
    "ALTER PUBLICATION pgsub SET (publish = 'insert,update,delete')",
    "ALTER PUBLICATION pgsub SET (publish = 'insert,update,delete,truncate')",
    "ALTER PUBLICATION pgsub SET TABLE keyed WHERE (id > 3), whole, parted",
    "ALTER PUBLICATION pgsub SET TABLE keyed (id, a), whole, parted",
    "SELECT pg_terminate_backend(pid) FROM pg_stat_activity WHERE backend_type = 'walsender'",
)


class Commands:
    """What is run at the server. `done` is what it has accepted."""

    def __init__(self, place: Place, rng: random.Random) -> None:
        self.place, self.rng = place, rng
        self.number = 1000
        self.done: list[str] = []

    def run(self, command: str) -> None:
        """Runs a command, unless the server rejects it."""
        try:
            self.place.run(command)
        except psycopg.Error:
            return
        self.done.append(command)

    def run_some(self) -> None:
        wanted = self.rng.randint(1, MOST)
        for _ in range(TRIED):
            if len(self.done) >= wanted:
                return
            choice, self.number = self.rng.choice, self.number + 1
            self.run(
                choice(COMMANDS).format(
                    table=choice(TABLES),
                    column=choice(COLUMNS),
                    other=choice(OTHERS),
                    number=self.number,
                )
            )
            time.sleep(choice((0, 0, 0.3)))

    def touch_all(self) -> None:
        """Changes each published table, so that its definition comes."""
        names = "SELECT quote_ident(schemaname) || '.' || quote_ident(tablename) FROM pg_publication_tables WHERE pubname = 'pgsub'"
        with self.place.cluster.connect() as session:
            tables = session.column(names)
        for table in tables:
            self.number += 1
            self.run(f"INSERT INTO {table} (id) VALUES ({self.number + 5000})")
            self.run(f"UPDATE {table} SET id = id WHERE id = (SELECT min(id) FROM {table})")


def begin(place: Place, rng: random.Random) -> None:
    """Copies tables of which nothing was followed before."""
    if place.store.exists():
        place.subcommand("drop", "--store", str(place.store), "--dsn", place.dsn(), "--yes")
        place.run("DROP PUBLICATION pgsub")
    place.run(*BEGIN)
    version = place.options.installed.version
    place.run(
        f"CREATE PUBLICATION pgsub {rng.choice(PUBLICATIONS if version >= 15 else PUBLICATIONS[:-1])}"
    )
    place.follow("--create")


def has_followed(place: Place, child: Child | None) -> bool:
    """Follows until all is confirmed, the last time with a look at what is published now. Returns
    whether that was possible; else the follower has told why not."""
    for started in (child, None) if child else (None,):
        it = started or place.start()
        try:
            place.catch_up(it)
        except Failed:
            if it.is_running() or it.process.returncode not in (REJECTED, SERVER, UNFIT):
                raise
            return False
        it.signal(SIGTERM)
        if (status := it.end()) not in (OK, MISSED):
            raise Failed(f"status {status}: {it.said()}")
    return True


def told(place: Place) -> set[int]:
    """The OIDs of the tables about which something was found that may have made their rows
    wrong."""
    remembered = remembered_of(place.store)
    found: set[int] = set()
    for of_kind in remembered["found"].values():
        for tables, publication, type_oid, *_ in of_kind["texts"].values():
            found.update(tables)
            for it in remembered["catalog"]["tables"].values():
                types = [column[1] for column in it["shape"]["columns"]]
                if publication in it["parts"] or type_oid in types:
                    found.add(it["oid"])
    return found


def names_in_copy(place: Place) -> dict[int, tuple[str, str]]:
    """By OID the name that the copy has for each table."""
    with tempfile.TemporaryDirectory() as folder:
        for it in place.files():
            shutil.copy(it, folder)
        with contextlib.closing(sqlite3.connect(Path(folder) / place.store.name)) as base:
            return {
                int(oid): (schema, table)
                for oid, schema, table in base.execute("SELECT oid, nsp, name FROM rel")
            }


def oid_of(place: Place, schema: str, table: str) -> set[int]:
    """That of the table with a name at the server, if there is one."""
    with place.cluster.connect(place.database) as session:
        name = f"{quoted(schema)}.{quoted(table)}"
        return {
            int(it)
            for it in session.column(f"SELECT pg_catalog.to_regclass({literal(name)})::oid")
            if it
        }


def oids_of(place: Place, schema: str, table: str) -> set[int]:
    """The tables that have a name at the server, or have it in the copy."""
    return {oid for oid, name in names_in_copy(place).items() if name == (schema, table)} | oid_of(
        place, schema, table
    )


def check_told(place: Place) -> None:
    """Fails where a table differs of which nothing was told, or the first change that found no row
    was one of such a table."""
    known, found = told(place), place.found()
    counted = checkpoint_of(place.store)[1]
    if counted.get("count") and counted["relation"] not in known:
        raise Failed(
            f"a change of table {counted['relation']} found no row, of which nothing was found: {found}"
        )
    there, here = rows_of_server(place.cluster, "pgsub", database=place.database), place.rows()
    for name in sorted(there.keys() | here.keys()):
        if there.get(name) == here.get(name):
            continue
        oids = oids_of(place, *name)
        # (of tables that have had one name the copy shows all rows under it)
        if known.isdisjoint(oids) and not ("names" in found and len(oids) > 1):
            compare(
                {name: there.get(name, collections.Counter())},
                {name: here.get(name, collections.Counter())},
            )


def check_verified(place: Place) -> None:
    """Fails where `verify` doesn't tell a published table whose rows differ, or tells one whose
    rows and columns don't."""
    there, here, names = (
        rows_of_server(place.cluster, "pgsub", database=place.database),
        place.rows(),
        names_in_copy(place),
    )
    child = place.start()
    child.wait_for("following slot")
    verifier = place.started(verify_words(place, "--show", "1000", "--hold", "30"))
    status, said = verifier.end(), verifier.said()
    child.signal(SIGTERM)
    if status not in (OK, DIFFERENT) or child.end() not in (OK, MISSED):
        raise Failed(f"verify: status {status}: {said}; {child.said()}")
    told = {
        it["table"]: it
        for it in map(json.loads, [it for it in said.splitlines() if it.startswith("{")])
    }
    with place.cluster.connect(place.database) as session:
        published = session.rows(
            "SELECT DISTINCT schemaname, tablename FROM pg_publication_tables WHERE pubname = 'pgsub'"
        )
    for schema, table in published:
        name = (schema or "", table or "")
        oids = {oid for oid, it in names.items() if it == name} | oid_of(place, *name)
        # (rows of several tables, or of one that had another name, are shown under it)
        if (
            len(oids) == 1
            and names.get(next(iter(oids)), name) == name
            and is_wrong(told.get(".".join(name)), there.get(name) != here.get(name))
        ):
            raise Failed(
                f"{name} {'differs' if there.get(name) != here.get(name) else 'is equal'}, and verify says {said}"
            )


def is_wrong(told: dict[str, object] | None, differs: bool) -> bool:
    return not told if differs else told is not None and "columns" not in told


def altered(place: Place) -> None:
    """After random commands the copy has the server's rows, but for those of tables of which it was
    told what may be wrong with them."""
    rng = random.Random(f"altering {place.options.seed}")
    for _ in range(ROUNDS):
        place.on_alter = rng.choice(("refresh", "tell"))
        begin(place, rng)
        child = place.start() if rng.random() < 0.5 else None
        if child:
            place.catch_up(child)
        commands = Commands(place, rng)
        commands.run_some()
        commands.touch_all()
        try:
            if has_followed(place, child):
                check_told(place)
                check_verified(place)
        except Failed as error:
            raise Failed(f"{error}; the commands were {commands.done}") from None


CASES = (Case("random-commands", altered),)
