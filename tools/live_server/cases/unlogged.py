"""What is published and in no log, what keeps names of other objects, and what a look doubts and
the rows tell."""

from __future__ import annotations

from collections import Counter

from ..errors import Failed
from ..place import OK, SERVER, Place
from .case import Case

# What rows-moved-and-columns-altered has: with a key, with long values too, with neither.
NAMES = ("short", "long", "bare")
FILL = "INSERT INTO {} (id, v) SELECT n, n FROM generate_series(1, 100) n"
TOLD = "unlogged or foreign, so no change of them is sent, and their rows aren't copied"


def parted(place: Place, options: str) -> None:
    """A table with a partition that is logged, one that is unlogged, and one that is foreign, whose
    file isn't there."""
    place.run(
        "CREATE EXTENSION file_fdw",
        "CREATE SERVER files FOREIGN DATA WRAPPER file_fdw",
        "CREATE TABLE sales (id int, word text) PARTITION BY RANGE (id)",
        "CREATE TABLE sales1 PARTITION OF sales FOR VALUES FROM (10) TO (19)",
        "CREATE UNLOGGED TABLE sales2 PARTITION OF sales FOR VALUES FROM (20) TO (29)",
        "CREATE FOREIGN TABLE sales3 PARTITION OF sales FOR VALUES FROM (30) TO (39) SERVER files"
        " OPTIONS (filename '/nonexistent')",
        *(f"ALTER TABLE {it} REPLICA IDENTITY FULL" for it in ("sales", "sales1")),
        "INSERT INTO sales VALUES (11, 'old'), (12, 'old'), (21, 'old')",
        f"CREATE PUBLICATION pgsub FOR TABLE sales {options}",
    )


def has(place: Place, name: str, *rows: tuple[str, str]) -> None:
    """Fails where the store has others of this table."""
    found = place.rows().get(("public", name), Counter())
    if found != Counter(rows):
        raise Failed(f"the store has {found} of {name}")


def add(place: Place, *tables: str) -> None:
    """Copies tables anew, and follows until all of them are there."""
    words = [word for it in tables for word in ("--table", it)]
    place.subcommand("add", "--dsn", place.dsn(), "--store", str(place.store), *words)
    child = place.start()
    for it in tables:
        oid = place.value(f"SELECT '{it}'::regclass::oid")
        child.wait_for(f"public.{it} ({oid}) is there, complete as of")
    place.catch_up(child)
    child.stop()


def under_a_root(place: Place) -> None:
    """Rows of unlogged and foreign partitions aren't copied under their root's name, which is told;
    where one becomes logged or unlogged, that is found by a look, and mended by adding the table.
    """
    parted(place, "WITH (publish_via_partition_root)")
    said = place.follow("--create")
    if f"{TOLD}: public.sales2, public.sales3" not in said:
        raise Failed(f"that some rows aren't copied isn't told: {said}")
    has(place, "sales", ("11", "old"), ("12", "old"))
    place.run(
        "UPDATE sales SET word = 'new' WHERE id < 30",
        "INSERT INTO sales VALUES (13, 'new'), (22, 'new')",
    )
    place.follow("--strict")
    has(place, "sales", ("11", "new"), ("12", "new"), ("13", "new"))
    place.run(
        "ALTER TABLE sales2 REPLICA IDENTITY FULL",
        "ALTER TABLE sales2 SET LOGGED",
        "INSERT INTO sales VALUES (23, 'later')",
    )
    place.finds("publication", "sales2", place.follow())
    add(place, "sales")
    has(
        place,
        "sales",
        ("11", "new"),
        ("12", "new"),
        ("13", "new"),
        ("21", "new"),
        ("22", "new"),
        ("23", "later"),
    )
    place.follow("--strict")
    place.run("ALTER TABLE sales1 SET UNLOGGED", "UPDATE sales SET word = 'newer' WHERE id < 30")
    place.finds("publication", "is unlogged now", place.follow())
    place.is_strict_about("publication")
    add(place, "sales")
    has(place, "sales", ("21", "newer"), ("22", "newer"), ("23", "newer"))


def by_themselves(place: Place) -> None:
    """So it is where partitions come under their own names."""
    parted(place, "")
    said = place.follow("--create")
    if f"{TOLD}: public.sales2, public.sales3" not in said:
        raise Failed(f"that some rows aren't copied isn't told: {said}")
    has(place, "sales1", ("11", "old"), ("12", "old"))
    has(place, "sales2")
    place.run("ALTER TABLE sales1 SET UNLOGGED", "UPDATE sales SET word = 'newer' WHERE id < 30")
    place.finds("publication", "public.sales1", place.follow())
    place.run("ALTER TABLE sales1 SET LOGGED")
    place.finds("publication", "was unlogged", place.follow())
    place.is_strict_about("publication")


def of_all_tables(place: Place) -> None:
    """A table of a publication for all tables that a look sees unlogged has left it, and lacks rows
    once it is logged again."""
    place.stock(published=False)
    place.run("CREATE PUBLICATION pgsub FOR ALL TABLES")
    place.follow("--create")
    place.run("ALTER TABLE stock SET UNLOGGED", "UPDATE stock SET quantity = 77")
    place.finds("publication", "public.stock", place.follow())
    place.run("ALTER TABLE stock SET LOGGED")
    place.finds("publication", "joined", place.follow())
    add(place, "stock")
    place.equal()


def names_of_objects(place: Place) -> None:
    """Columns whose values are names of other objects are told at each start: a rename of these
    isn't sent."""
    place.run(
        "CREATE TABLE other ()",
        "CREATE TABLE stock (id int PRIMARY KEY, what regclass, kinds regtype[])",
        "INSERT INTO stock VALUES (1, 'other', '{int}')",
        "CREATE PUBLICATION pgsub FOR TABLE stock",
    )
    for more in ("--create", "--strict"):
        if "public.stock.kinds, public.stock.what" not in (said := place.follow(more)):
            raise Failed(f"columns that name other objects aren't told: {said}")


def attached_empty(place: Place) -> None:
    """A partition that had no rows when it was attached is followed from its first row on, and
    nothing is found: under its root's name and its own."""
    for options, name in (("WITH (publish_via_partition_root)", "sales"), ("", "parted")):
        place.run(
            f"CREATE TABLE {name} (id int PRIMARY KEY) PARTITION BY RANGE (id)",
            f"CREATE TABLE {name}1 PARTITION OF {name} FOR VALUES FROM (10) TO (19)",
            f"CREATE PUBLICATION {name} FOR TABLE {name} {options}",
        )
    words = ("--publication", "sales", "--publication", "parted")
    place.follow("--create", *words)
    for number in (2, 3):
        for name in ("sales", "parted"):
            place.run(
                f"CREATE TABLE {name}{number} (id int PRIMARY KEY)",
                f"ALTER TABLE {name} ATTACH PARTITION {name}{number}"
                f" FOR VALUES FROM ({number}0) TO ({number}9)",
                f"INSERT INTO {name} VALUES ({number}1), ({number}2)",
                f"UPDATE {name} SET id = {number}3 WHERE id = {number}2",
            )
        place.follow("--strict")
        place.equal("sales", "parted")


def moved_rows(place: Place) -> None:
    """What alters columns and what writes a table's file anew, each without changing a value, is no
    finding together; where one of them computes values, it is, whatever else is done to the table.
    """
    place.run(
        "CREATE ROLE reader",
        "CREATE TABLE short (id int PRIMARY KEY, v int)",
        "CREATE TABLE long (id int PRIMARY KEY, v int, w text)",
        "CREATE TABLE bare (id int, v int)",
        "ALTER TABLE bare REPLICA IDENTITY FULL",
        *(FILL.format(it) for it in NAMES),
        "CREATE PUBLICATION pgsub FOR TABLE short, long, bare",
    )
    place.follow("--create")
    cluster = "CLUSTER short USING short_pkey", "CLUSTER long USING long_pkey", "VACUUM FULL bare"
    for commands in (
        ("GRANT SELECT (v) ON {} TO reader", "VACUUM FULL {}"),
        ("ALTER TABLE {} ALTER v SET STATISTICS 7", "VACUUM FULL {}"),
        ("ALTER TABLE {} ALTER v SET DEFAULT 7",),
        ("ALTER TABLE {} ALTER v SET NOT NULL", "TRUNCATE {}", FILL),
    ):
        place.run(*(command.format(name) for name in NAMES for command in commands))
        place.run(*(cluster if "SET DEFAULT" in commands[0] else ()))
        place.follow("--strict")
        place.equal()
    computes = "ALTER TABLE {} ALTER v TYPE int USING v * 2"
    for others in (
        (),
        ("GRANT SELECT (v) ON {} TO reader WITH GRANT OPTION",),
        ("GRANT SELECT ON {} TO reader", "ALTER TABLE {} ALTER v DROP NOT NULL", "VACUUM FULL {}"),
    ):
        place.run(*(command.format(name) for name in NAMES for command in (computes, *others)))
        said = place.follow()
        for name in NAMES:
            place.finds("values", f"table public.{name}", said)
        add(place, *NAMES)
        place.equal()


def lists_that_differed(place: Place) -> None:
    """Two publications have different column lists of a table for a moment, in which it is changed.
    The server can't send that, nor later: the last line names what goes on, which mends all tables.
    """
    place.run(
        *(
            f"CREATE TABLE {it} (id int PRIMARY KEY, a int, b int)"
            for it in ("stock", "one", "other")
        ),
        "CREATE PUBLICATION pa FOR TABLE stock (id, a), one",
        "CREATE PUBLICATION pb FOR TABLE stock (id, a), other",
    )
    both = ("--publication", "pa", "--publication", "pb")
    place.follow("--create", *both)
    fill = [
        f"INSERT INTO {it} SELECT n, n, n FROM generate_series(%d, %d) n"
        for it in ("one", "other", "stock")
    ]
    for number, commands in enumerate(
        (
            (),
            ("ALTER PUBLICATION pb SET TABLE stock (id, b), other",),
            ("ALTER PUBLICATION pb SET TABLE stock (id, a), other",),
        )
    ):
        place.run(*commands, *(it % (10 * number, 10 * number + 4) for it in fill))
    for _ in range(2):
        said = place.ends(SERVER, "cannot use different column lists", *both)
        if "--publication pa --until now" not in said.splitlines()[-1]:
            raise Failed(f"the last line names no cure: {said}")
    place.ends(OK, "", "--publication", "pa", "--until", "now")
    place.run(*(it % (30, 34) for it in fill))
    place.follow(*both)
    child = place.start(*both)
    child.wait_for("following slot")
    place.subcommand("refresh", "--dsn", place.dsn(), "--store", str(place.store), "--yes")
    place.catch_up(child)
    child.stop()
    rows: dict[tuple[str, str], dict[tuple[str, ...], int]] = {
        ("public", name): {(str(10 * it + n),) * 3: 1 for it in range(4) for n in range(5)}
        for name in ("one", "other")
    }
    rows["public", "stock"] = {(str(10 * it + n),) * 2: 1 for it in range(4) for n in range(5)}
    if place.rows() != rows:
        raise Failed(f"the store has {place.rows()}")
    place.follow("--strict", *both)


CASES = (
    Case("column-lists-that-differed", lists_that_differed, since=15),
    Case("unlogged-partitions-under-their-root", under_a_root),
    Case("unlogged-partitions-by-themselves", by_themselves),
    Case("unlogged-table-of-all-tables", of_all_tables),
    Case("names-of-other-objects", names_of_objects),
    Case("empty-partition-attached", attached_empty),
    Case("rows-moved-and-columns-altered", moved_rows),
)
