"""Tables that are dropped, made anew and renamed, so that a name is another table's."""

from __future__ import annotations

import json

from ..errors import Failed
from ..place import Place
from .case import Case


def made_anew(place: Place) -> None:
    """A table is dropped and made anew: the rows of both are under one name, which is told and kept
    until it is accepted."""
    place.stock(published=False)
    place.run("CREATE PUBLICATION pgsub FOR ALL TABLES")
    place.follow("--create")
    place.run(
        "DROP TABLE stock",
        "CREATE TABLE stock (sku int PRIMARY KEY, quantity int)",
        "INSERT INTO stock VALUES (1, 100), (3, 300)",
    )
    place.finds("names", "public.stock", place.follow())
    oid = place.value("SELECT 'stock'::regclass::oid")
    names = [
        json.loads(line)
        for line in place.subcommand("names", "--store", str(place.store)).splitlines()
    ]
    if not any(oid in json.dumps(it) for it in names):
        raise Failed(f"names doesn't tell {oid}: {names}")
    place.is_strict_about("names")


def swapped_by_renames(place: Place) -> None:
    """While it follows, a table is replaced by another one through renames: told at once, in the
    status file too."""
    place.stock(published=False)
    place.run("CREATE PUBLICATION pgsub FOR ALL TABLES")
    status = place.folder / "status"
    child = place.start("--create", "--status-file", str(status))
    place.catch_up(child)
    place.run(
        "CREATE TABLE stock_new (LIKE stock INCLUDING ALL)",
        "INSERT INTO stock_new SELECT * FROM stock",
        "BEGIN; ALTER TABLE stock RENAME TO stock_old; ALTER TABLE stock_new RENAME TO stock; COMMIT",
        "DROP TABLE stock_old",
        "UPDATE stock SET quantity = 7",
    )
    child.wait_for("found: names", 30)
    place.catch_up(child)
    place.finds("names", "public.stock", child.stop())
    if "names" not in place.status(status)["found"]:
        raise Failed(f"the status file has {place.status(status)}")


CASES = (
    Case("table-made-anew", made_anew),
    Case("table-swapped-by-renames", swapped_by_renames),
)
