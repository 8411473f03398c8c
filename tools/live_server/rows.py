"""What a server has of published tables, what a store has, and whether these are the same. Nothing
of the connector is used.

What a store has is what the program dumps, and SQLite has to find the same in its file.
"""

from __future__ import annotations

import collections
import json
import subprocess
from collections.abc import Iterable, Iterator
from pathlib import Path
from typing import Dict, Optional, Tuple

from stores import contents, sound
from stores.form import cells_of

from .cluster import Cluster
from .errors import Failed
from .sessions import Session

Row = Tuple[Optional[str], ...]
# By schema and name of a table: how often it has each row.
Rows = Dict[Tuple[str, str], "collections.Counter[Row]"]
# On these the text of values depends.
SETTINGS = {
    "search_path": "",
    "datestyle": "ISO",
    "intervalstyle": "postgres",
    "extra_float_digits": "3",
    "bytea_output": "hex",
    "timezone": "UTC",
    "lc_monetary": "C",
    "quote_all_identifiers": "off",
    "xmlbinary": "base64",
}
FILTERS, EXACT = 150000, 180000


def quoted(name: str) -> str:
    return '"' + name.replace('"', '""') + '"'


def literal(text: str) -> str:
    return "'" + text.replace("'", "''") + "'"


def published(session: Session, publications: Iterable[str]) -> Iterator[tuple[str, str, str]]:
    """Each published table: its schema, its name, and the query for the rows and columns that are
    published of it."""
    names = ", ".join(map(literal, publications))
    version = session.raw.info.server_version
    fine = "t.attnames::text[], t.rowfilter" if version >= FILTERS else "NULL::text[], NULL"
    listed = "t.attnames IS NULL OR a.attname = ANY (t.attnames)"
    generated = "true" if version >= EXACT else "a.attgenerated = ''"
    columns = (
        "SELECT string_agg(quote_ident(a.attname), ', ' ORDER BY a.attnum) FROM pg_attribute a"
        f" WHERE a.attrelid = c.oid AND a.attnum > 0 AND NOT a.attisdropped AND {generated} AND ({listed})"
    )
    rows = session.rows(
        f"SELECT t.schemaname, t.tablename, t.rowfilter, c.relkind, ({columns})"
        f" FROM (SELECT t.schemaname, t.tablename, {fine} FROM pg_publication_tables t WHERE t.pubname IN ({names}))"
        " t (schemaname, tablename, attnames, rowfilter)"
        " JOIN pg_namespace n ON n.nspname = t.schemaname JOIN pg_class c ON c.relnamespace = n.oid AND c.relname = t.tablename"
    )
    for schema, table, row_filter, kind, listing in rows:
        name = f"{'' if kind == 'p' else 'ONLY '}{quoted(schema or '')}.{quoted(table or '')}"
        query = f"SELECT {listing or ''} FROM {name}" + (
            f" WHERE {row_filter}" if row_filter else ""
        )
        yield schema or "", table or "", query


def rows_of_server(cluster: Cluster, *publications: str, database: str = "shop") -> Rows:
    """The rows of each published table that has any."""
    rows: Rows = {}
    with cluster.connect(database) as session:
        session.run(*(f"SET {name} = '{value}'" for name, value in SETTINGS.items()))
        for schema, table, query in list(published(session, publications)):
            found = collections.Counter(session.copied(query))
            if found:
                rows[schema, table] = found
    return rows


def rows_of_store(program: Path, store: Path) -> tuple[Rows, str]:
    """The rows that a store holds, and its position. Fails where its file isn't sound, or holds
    others."""
    dumped = rows_of_dump(program, store)
    read = rows_of_file(store)
    if read[1] != dumped[1]:
        raise Failed(f"{store.name} has the position {read[1]}, and the dump {dumped[1]}")
    compare(dumped[0], read[0])
    return dumped


def need_none(store: Path, told: list[str]) -> None:
    """Fails where SQLite has found something wrong with a store's file and its log."""
    if told:
        raise Failed("\n   ".join([f"the file {store.name}", *told]))


def check_file(store: Path) -> None:
    """Fails where something is wrong with these; they may hold no store yet."""
    need_none(store, sound.findings_with_log(store))


def rows_of_file(store: Path) -> tuple[Rows, str]:
    """The rows and the position that SQLite reads in a store's file and its log, which have to be
    sound."""
    with sound.copied(store) as base:
        need_none(store, sound.findings_of(base))
        held = contents.read(base)
    rows: Rows = {}
    for (oid, _), row in held.rows.items():
        relation = held.relations[oid]
        # (a cell is a letter, and for a text its length in four bytes and the text)
        cells = tuple(None if it == b"n" else it[5:].decode() for it in cells_of(row.body))
        rows.setdefault((relation.namespace or "pg_catalog", relation.name), collections.Counter())[
            cells
        ] += row.copies
    return rows, f"{held.position >> 32:X}/{held.position & 0xFFFFFFFF:X}"


def rows_of_dump(program: Path, store: Path) -> tuple[Rows, str]:
    """Those that the program dumps."""
    done = subprocess.run([program, "dump", "--store", store], capture_output=True, check=False)
    if done.returncode:
        raise Failed(f"dump: status {done.returncode}: {done.stderr.decode(errors='replace')}")
    *lines, last = done.stdout.decode().splitlines()
    rows: Rows = {}
    for line in lines:
        schema, table, values, count = json.loads(line)
        rows.setdefault((schema, table), collections.Counter())[tuple(values)] += count
    return rows, last.removeprefix("position ")


def compare(expected: Rows, found: Rows) -> int:
    """Fails at the first table that differs. Returns how many rows there are."""
    for table in sorted({*expected, *found}):
        ours, theirs = found.get(table, collections.Counter()), expected.get(
            table, collections.Counter()
        )
        if ours != theirs:
            lacks, has = list((theirs - ours).items())[:3], list((ours - theirs).items())[:3]
            raise Failed(
                f"{'.'.join(table)}: the copy lacks {str(lacks)[:600]}, and has {str(has)[:600]} instead"
            )
    return sum(sum(rows.values()) for rows in found.values())
