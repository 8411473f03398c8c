"""What a feed says of types beside its definitions: as the server's catalog had it at each commit."""

from __future__ import annotations

import json
import signal
import subprocess
import sys
from pathlib import Path
from typing import Any

from connect_schemas import checked

from ..child import Child
from ..errors import Failed
from ..follower import wait_until
from ..place import Place
from .case import Case
from .common import feed_of

# Prints a line for each change that the library reads: its table, and what is known of that.
READ = """
import json, sys, pgsub_feed
for commit in pgsub_feed.read(sys.argv[1], 0, follow=True, reader="describing"):
    for it in commit.changes:
        if not isinstance(it, pgsub_feed.Truncate):
            print(json.dumps([it.table.name, it.table.types]), flush=True)
"""
TYPES = (
    'CREATE SCHEMA "other S"',
    "CREATE TYPE mood AS ENUM ('sad', 'ok')",
    "ALTER TYPE mood ADD VALUE 'so, so' BEFORE 'ok'",
    'CREATE TYPE "other S"."Mood x" AS ENUM (\'a\')',
    "CREATE DOMAIN price AS numeric(10, 2) NOT NULL",
    "CREATE DOMAIN dear AS price CHECK (value > 0)",
    "CREATE DOMAIN moody AS mood",
)
TABLE = (
    'CREATE TABLE {} (b int, a varchar(7), m mood, ms mood[], x "other S"."Mood x"[] NOT NULL, p price,'
    " d dear, y moody, t timestamptz(3) NOT NULL DEFAULT now(), PRIMARY KEY (a, b))"
)
ROW = "INSERT INTO {} VALUES ({}, 'k', 'ok', '{{sad,NULL}}', '{{a}}', 1.5, 2.5, 'sad')"
BASES = {"p": "numeric(10,2)", "d": "numeric(10,2)", "y": "public.mood"}
# What the information schema says of the columns of a table: the name of each, and whether it may
# be null.
COLUMNS = (
    "SELECT json_agg(json_build_array(column_name, is_nullable = 'NO'))"
    " FROM information_schema.columns WHERE table_schema = 'public' AND table_name = '{}'"
)
LABELS = (
    "SELECT json_object_agg(c.column_name, (SELECT json_agg(it) FROM unnest(enum_range(NULL::mood)) it))"
    " FROM information_schema.columns c WHERE table_schema = 'public' AND table_name = '{}'"
    " AND (udt_name IN ('mood', '_mood'))"
)
KEY = (
    "SELECT json_agg(k.column_name ORDER BY k.ordinal_position) FROM information_schema.key_column_usage k"
    " JOIN information_schema.table_constraints USING (constraint_schema, constraint_name)"
    " WHERE constraint_type = 'PRIMARY KEY' AND k.table_schema = 'public' AND k.table_name = '{}'"
)


def names_of(place: Place, table: str) -> dict[str, str]:
    """The types of its columns, as `format_type` prints them where no schema is searched."""
    query = (
        "SELECT json_object_agg(attname, format_type(atttypid, atttypmod)) FROM pg_attribute"
        f" WHERE attrelid = 'public.{table}'::regclass AND attnum > 0 AND NOT attisdropped"
    )
    with place.cluster.connect(place.database) as session:
        session.run("SET search_path = ''")
        found: dict[str, str] = json.loads(session.value(query))
    return found


class Reader:
    """A program that reads the feed by the library."""

    def __init__(self, place: Place) -> None:
        self.place, self.seen = place, 0
        environment = {"PYTHONPATH": str(place.options.connect.parent)}
        words = [sys.executable, "-c", READ, str(feed_of(place))]
        self.child = place.started(words, environment)

    def next(self) -> tuple[str, Any]:
        """The table of the next change, and what the library knows of it."""

        def lines() -> list[str]:
            return [it for it in self.child.said().splitlines() if it.startswith("[")]

        wait_until(lambda: len(lines()) > self.seen, "reading a change", 60, self.child.check)
        self.seen += 1
        table, types = json.loads(lines()[self.seen - 1])
        return table, types

    def check(self, table: str) -> None:
        """The next change is of this table, and known of it is what the server says now."""
        found, types = self.next()
        if found != table or types is None:
            raise Failed(f"a change of {found} in place of {table}, of which is known: {types}")
        compare(self.place, table, *types)


def compare(place: Place, table: str, columns: dict[str, Any], primary: list[str]) -> None:
    labels = json.loads(place.value(LABELS.format(table)) or "{}")
    for name, not_null in json.loads(place.value(COLUMNS.format(table))):
        _, said_not_null, said_labels, base = columns[name]
        expected = (not_null, labels.get(name, ["a"] if name == "x" else []), BASES.get(name))
        if (said_not_null, said_labels, base and base[0]) != expected:
            raise Failed(f"{table}.{name}: {columns[name]} in place of {expected}")
    names = {name: it[0] for name, it in columns.items()}
    if names != names_of(place, table):
        raise Failed(f"{table}: {names} in place of {names_of(place, table)}")
    if primary != (key := json.loads(place.value(KEY.format(table)) or "[]")):
        raise Failed(f"{table}: the primary key {primary} in place of {key}")


def restart(place: Place, child: Child) -> Child:
    """A follower that is killed and started again."""
    child.signal(signal.SIGKILL)
    child.end()
    child = place.start("--feed", str(feed_of(place)))
    place.catch_up(child)
    return child


def debezium(place: Place) -> dict[str, Any]:
    """The fields of the last message of the table first."""
    program = str(place.options.connect.parent / "pgsub-feed")
    words = ["--feed", str(feed_of(place)), "--format", "debezium", "--schemas", "--table", "first"]
    done = subprocess.run([program, *words], capture_output=True, check=True)
    lines = done.stdout.splitlines()
    for it in lines:
        checked(it.decode())
    schema = json.loads(lines[-1])["schema"]
    after = next(it for it in schema["fields"] if it["field"] == "after")
    return {it["field"]: it for it in after["fields"]}


def described(place: Place) -> None:
    """A program that reads a feed knows of each change its types, labels, bases, NOT NULL and primary
    key: of first rows, new tables and altered ones, over kills, and where the catalog is newer."""
    place.run(*TYPES, TABLE.format("first"), "CREATE PUBLICATION pgsub FOR ALL TABLES")
    place.run(ROW.format("first", 1))
    child = place.start("--create", "--feed", str(feed_of(place)))
    place.catch_up(child)
    reader = Reader(place)
    reader.check("first")
    place.run(TABLE.format("second"), "ALTER TABLE second REPLICA IDENTITY FULL")
    place.run(ROW.format("second", 1))
    reader.check("second")
    place.run("ALTER TABLE second ADD more mood, ALTER a TYPE text", ROW.format("second", 2))
    reader.check("second")
    place.run("ALTER TABLE second DROP CONSTRAINT second_pkey, ALTER b DROP NOT NULL, DROP more")
    place.run(ROW.format("second", 3))
    reader.check("second")
    child = restart(place, child)
    place.run("ALTER TYPE mood ADD VALUE 'new'", "ALTER TABLE first ADD note text")
    place.run(ROW.format("first", 4))
    reader.check("first")
    child.signal(signal.SIGKILL)
    child.end()
    place.run(ROW.format("first", 5), TABLE.format("third"), ROW.format("third", 1))
    place.run("ALTER TABLE first DROP note, DROP m")
    child = place.start("--feed", str(feed_of(place)))
    place.catch_up(child)
    newer(reader)
    reader.check("third")
    place.run(ROW.format("first", 6).replace("'ok', ", ""))
    reader.check("first")
    check_fields(debezium(place))
    child.stop()


def newer(reader: Reader) -> None:
    """The catalog hasn't the columns any more that a change has: known is what was before."""
    table, types = reader.next()
    if table != "first" or types is None or "note" not in types[0] or "m" not in types[0]:
        raise Failed(f"a change of {table}, of which is known: {types}")


def check_fields(fields: dict[str, Any]) -> None:
    labels = "sad,so, so,ok,new"
    found = {name: it["optional"] for name, it in fields.items()}
    expected = {it: it not in ("a", "b", "x", "p", "t") for it in found}
    enum = fields["ms"]["items"]["parameters"]["allowed"], fields["y"]["parameters"]["allowed"]
    scale = fields["p"]["parameters"]["scale"], fields["d"]["parameters"]["scale"]
    if (found, enum, scale) != (expected, (labels, labels), ("2", "2")):
        raise Failed(f"Debezium's schema has {fields}")


CASES = (Case("feed-describes-types", described),)
