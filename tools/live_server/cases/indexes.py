"""The server's indexes in `rows.db` and in exports."""

from __future__ import annotations

from pathlib import Path
from typing import List

from ..child import Child
from ..errors import Failed
from ..feeds import compare_tables, reading
from ..follower import wait_until
from ..place import Place
from .case import Case
from .common import now_in_tables, rows_file

TABLES = (
    "CREATE TABLE stock (id int, region text, note text, price numeric, PRIMARY KEY (region, id))",
    "CREATE INDEX by_note ON stock (note)",
    "CREATE UNIQUE INDEX by_price ON stock (price DESC NULLS LAST, id) INCLUDE (note)",
    "CREATE INDEX by_part ON stock (note) WHERE id > 7",
    "CREATE INDEX by_lower ON stock (lower(note))",
    "CREATE INDEX by_hash ON stock USING hash (region)",
    "INSERT INTO stock SELECT it, 'north', 'n' || it % 7, it FROM generate_series(1, 200) it",
    "CREATE TABLE other (id int PRIMARY KEY, v int UNIQUE)",
    "ALTER TABLE other REPLICA IDENTITY FULL",
    "INSERT INTO other VALUES (1, 1)",
    "CREATE PUBLICATION pgsub FOR ALL TABLES",
)
# Each index that is made, by its name, with its columns. (The key has another order in SQLite.)
NOTE, PRICE = "by_note note", "by_price price DESC, id, note"
PRIMARY, UNIQUE = "stock_pkey region, id", "other_v_key v"
LEFT = (("by_part", "it is partial"), ("by_lower", "it has an expression"), ("by_hash", "it is of"))
NAMES = "SELECT name FROM sqlite_schema WHERE type = 'index' AND name GLOB 'index [0-9]*'"
COLUMNS = (
    "SELECT name || iif(\"desc\", ' DESC', '') FROM pragma_index_xinfo(?) WHERE key ORDER BY seqno"
)
PLAN = "EXPLAIN QUERY PLAN SELECT price FROM stock WHERE note = 'n3'"


def indexes(path: Path) -> List[str]:
    with reading(path) as base:
        names = [name for (name,) in base.execute(NAMES)]
        found = {name: base.execute(COLUMNS, (name,)).fetchall() for name in names}
    return sorted(
        f"{name.split(' ', 2)[2]} {', '.join(column for (column,) in columns)}"
        for name, columns in found.items()
    )


def check(place: Place, child: Child, *expected: str) -> None:
    """The tables have the server's rows, and soon these indexes: they may begin before the follower
    has looked at the server."""
    now_in_tables(place)
    what = f"making {sorted(expected)}"
    wait_until(lambda: indexes(rows_file(place)) == sorted(expected), what, 30, child.check)
    compare_tables(place.cluster, rows_file(place), "pgsub", database=place.database)


def add(place: Place, table: str) -> None:
    place.subcommand("add", "--dsn", place.dsn(), "--store", str(place.store), "--table", table)


def begin(place: Place, *more: str) -> Child:
    child = place.start("--tables", str(rows_file(place)), "--indexes", *more)
    place.catch_up(child)
    wait_until(rows_file(place).exists, "making the tables", check=child.check)
    return child


def made(place: Place) -> None:
    """They are as on the server: after the copy, `add`, rows that are made anew, a restart, and once
    the server has others."""
    place.run(*TABLES)
    child = begin(place, "--create")
    check(place, child, NOTE, PRICE, PRIMARY, UNIQUE)
    for name, why in LEFT:
        child.wait_for(f"without the index {name}: {why}")
    with reading(rows_file(place)) as base:
        if "by_note" not in str(plan := base.execute(PLAN).fetchall()):
            raise Failed(f"the plan is {plan}")
    add(place, "stock")
    place.run("UPDATE stock SET price = 5 - price, region = 'south' WHERE id < 100")
    check(place, child, NOTE, PRICE, PRIMARY, UNIQUE)
    place.run("ALTER TABLE stock DROP note, ADD more text", "UPDATE other SET v = 2")
    place.run("INSERT INTO stock VALUES (1000, 'west', 5, '1')")
    check(place, child, PRIMARY, UNIQUE)
    place.run("CREATE INDEX by_id ON other (id, v)", "UPDATE other SET v = 3")
    check(place, child, "by_id id, v", PRIMARY, UNIQUE)
    child.stop()
    place.run("CREATE INDEX by_region ON stock (region)", "DROP INDEX by_id")
    child = begin(place)
    check(place, child, "by_region region", PRIMARY, UNIQUE)
    child.stop()
    path = place.folder / "export.db"
    place.subcommand("export", "--store", str(place.store), "--into", str(path), "--indexes")
    if (found := indexes(path)) != sorted(["by_region region", PRIMARY, UNIQUE]):
        raise Failed(f"the export has the indexes {found}")


CASES = (Case("indexes-of-the-server", made),)
