"""Publications that change beside the store."""

from __future__ import annotations

from ..errors import Failed
from ..place import MISSED, SERVER, UNFIT, USAGE, Place
from .case import Case


def table_joins(place: Place) -> None:
    """A table with rows joins the publication: they are missing, which is told."""
    place.stock()
    place.run("CREATE TABLE old (id int PRIMARY KEY)", "INSERT INTO old VALUES (1), (2)")
    place.follow("--create")
    place.run("ALTER PUBLICATION pgsub ADD TABLE old")
    place.finds("publication", "public.old", place.follow())
    place.is_strict_about("publication")


def table_joins_while_following(place: Place) -> None:
    """So it is where the table joins while it is followed: its first change tells."""
    place.stock()
    place.run("CREATE TABLE old (id int PRIMARY KEY)", "INSERT INTO old VALUES (1), (2)")
    child = place.start("--create")
    place.catch_up(child)
    place.run("ALTER PUBLICATION pgsub ADD TABLE old", "INSERT INTO old VALUES (3)")
    child.wait_for("found: publication", 30)
    place.finds("publication", "public.old", child.stop())


def new_table_of_all(place: Place) -> None:
    """A new table of a publication for all tables is followed from its first row on, and nothing is
    found."""
    place.stock(published=False)
    place.run("CREATE PUBLICATION pgsub FOR ALL TABLES")
    place.follow("--create")
    place.run("CREATE TABLE fresh (id int PRIMARY KEY)", "INSERT INTO fresh VALUES (1)")
    if "public.fresh" not in place.follow("--strict"):
        raise Failed("the new table isn't told")
    place.equal()


def parted(place: Place, options: str) -> None:
    place.run(
        "CREATE TABLE sales (id int PRIMARY KEY) PARTITION BY RANGE (id)",
        *(
            f"CREATE TABLE sales{it} PARTITION OF sales FOR VALUES FROM ({it}0) TO ({it}9)"
            for it in (1, 2, 3)
        ),
        "INSERT INTO sales VALUES (11), (21), (31)",
        f"CREATE PUBLICATION pgsub FOR TABLE sales {options}",
    )


def partition_detached(place: Place) -> None:
    """A partition is detached and dropped under its root's name: its rows stay, which is told."""
    parted(place, "WITH (publish_via_partition_root)")
    place.follow("--create")
    place.run(
        "ALTER TABLE sales DETACH PARTITION sales1",
        "DROP TABLE sales1",
        "INSERT INTO sales VALUES (22)",
    )
    place.finds("publication", "sales1", place.follow())
    place.is_strict_about("publication")


def partition_attached(place: Place) -> None:
    """A table with rows is attached as a partition under its root's name: they are missing, which
    is told."""
    parted(place, "WITH (publish_via_partition_root)")
    place.follow("--create")
    place.run(
        "CREATE TABLE sales4 (id int PRIMARY KEY)",
        "INSERT INTO sales4 VALUES (41)",
        "ALTER TABLE sales ATTACH PARTITION sales4 FOR VALUES FROM (40) TO (49)",
        "INSERT INTO sales VALUES (42)",
    )
    place.finds("publication", "sales4", place.follow())
    place.is_strict_about("publication")


def partition_truncated(place: Place) -> None:
    """A partition is truncated under its root's name, which the server doesn't send: told."""
    parted(place, "WITH (publish_via_partition_root)")
    place.follow("--create")
    place.run("TRUNCATE sales1", "INSERT INTO sales VALUES (22)")
    place.finds("publication", "sales1", place.follow())


def partition_made(place: Place) -> None:
    """A new partition is followed from its first row on, and nothing is found."""
    parted(place, "WITH (publish_via_partition_root)")
    place.follow("--create")
    place.run(
        "CREATE TABLE sales5 PARTITION OF sales FOR VALUES FROM (50) TO (59)",
        "INSERT INTO sales VALUES (51)",
    )
    if "sales5" not in place.follow("--strict"):
        raise Failed("the new partition isn't told")
    place.equal()


def attached_again(place: Place, options: str, text: str) -> None:
    """A partition is detached, loaded and attached between two looks."""
    parted(place, options)
    place.follow("--create")
    place.run(
        "ALTER TABLE sales DETACH PARTITION sales1",
        "INSERT INTO sales1 VALUES (12)",
        "ALTER TABLE sales ATTACH PARTITION sales1 FOR VALUES FROM (10) TO (19)",
        "INSERT INTO sales VALUES (32)",
    )
    place.finds("publication", text, place.follow())
    place.is_strict_about("publication")


def partition_attached_again(place: Place) -> None:
    """A partition is detached, loaded and attached again between two looks, under its root's name:
    told."""
    attached_again(place, "WITH (publish_via_partition_root)", "was detached and attached again")


def partition_attached_again_by_itself(place: Place) -> None:
    """So it is where the partition comes under its own name."""
    attached_again(place, "", "left and joined again")


def table_left_and_joined(place: Place) -> None:
    """A table leaves the publication, is changed, and joins again between two looks: told, until it
    was added. Another owner isn't."""
    place.stock()
    place.follow("--create")
    place.run(
        "CREATE ROLE owner",
        "ALTER PUBLICATION pgsub OWNER TO owner",
        "ALTER PUBLICATION pgsub SET TABLE stock",
        "VACUUM (FREEZE) pg_publication",
    )
    place.follow("--strict")
    for statements in (
        (
            "ALTER PUBLICATION pgsub DROP TABLE stock",
            "UPDATE stock SET quantity = quantity + 1",
            "ALTER PUBLICATION pgsub ADD TABLE stock",
        ),
        (
            "BEGIN; ALTER PUBLICATION pgsub DROP TABLE stock; ALTER PUBLICATION pgsub ADD TABLE stock; UPDATE stock SET quantity = quantity + 1; COMMIT",
        ),
    ):
        place.run(*statements)
        place.finds("publication", "public.stock", place.follow())
        place.subcommand(
            "add", "--dsn", place.dsn(), "--store", str(place.store), "--table", "stock"
        )
        place.follow()
        place.equal()
        place.follow("--strict")


def options_and_back(place: Place) -> None:
    """What a publication sends is altered and altered back between two looks: told."""
    place.stock()
    place.follow("--create")
    place.run("ALTER PUBLICATION pgsub SET (publish = 'insert')")
    place.run(
        "UPDATE stock SET quantity = quantity + 1",
        "ALTER PUBLICATION pgsub SET (publish = 'insert, update, delete, truncate')",
    )
    place.finds("publication", "was altered, and has the options that it had", place.follow())
    place.is_strict_about("publication")


def another_publication(place: Place) -> None:
    """A table is sent by another publication than before, or by one more, with other rows or other
    changes: told."""
    place.run(
        "CREATE TABLE stock (id int PRIMARY KEY, word text)",
        "INSERT INTO stock SELECT it, 'old' FROM generate_series(1, 10) it",
        "CREATE TABLE other (id int PRIMARY KEY)",
        "CREATE PUBLICATION few FOR TABLE stock WHERE (id > 8)",
        "CREATE PUBLICATION inserts FOR TABLE stock WITH (publish = 'insert')",
        "CREATE PUBLICATION pgsub FOR TABLE other",
    )
    words = [it for name in ("few", "inserts", "pgsub") for it in ("--publication", name)]
    place.follow("--create", *words)
    for statement, text in (
        (
            "ALTER PUBLICATION pgsub ADD TABLE stock",
            "has the row filter none for updates and deletes now, and before (id > 8)",
        ),
        ("ALTER PUBLICATION few SET TABLE other", ""),
        ("ALTER PUBLICATION pgsub DROP TABLE stock", "has no updates any more"),
        (
            "ALTER PUBLICATION pgsub ADD TABLE stock",
            "has updates, deletes and truncates only from now on",
        ),
    ):
        place.run(statement)
        said = place.follow()
        if text:
            place.finds("publication", text, said)
        place.follow("--accept", "publication")
        place.follow("--strict")


def made_later(place: Place) -> None:
    """A slot is older than the publication, which was made by hand: the server leaves out the
    changes from before, which is told."""
    place.run(
        "CREATE TABLE stock (id int PRIMARY KEY)",
        f"SELECT pg_create_logical_replication_slot('{place.slot}', 'pgoutput')",
    )
    place.run("INSERT INTO stock VALUES (1)")
    place.run("CREATE PUBLICATION pgsub FOR TABLE stock", "INSERT INTO stock VALUES (2)")
    place.finds("publication", 'skipped loading publication "pgsub"', place.follow("--no-copy"))
    place.ends(UNFIT, "skipped loading publication", "--strict")
    place.subcommand("add", "--dsn", place.dsn(), "--store", str(place.store), "--table", "stock")
    place.follow()
    place.equal()
    place.follow("--strict")


def via_root(place: Place) -> None:
    """The rows of partitions come under another name from now on: the older ones stay as they were,
    which is told."""
    parted(place, "")
    place.follow("--create")
    place.run(
        "ALTER PUBLICATION pgsub SET (publish_via_partition_root)", "INSERT INTO sales VALUES (12)"
    )
    place.finds("publication", "partition", place.follow())
    place.is_strict_about("publication")


def via_root_while_following(place: Place) -> None:
    """So it is where that changes while they are followed: the first change under the root's name
    tells, which finds no row."""
    parted(place, "")
    child = place.start("--create")
    place.catch_up(child)
    place.run(
        "ALTER PUBLICATION pgsub SET (publish_via_partition_root)",
        "UPDATE sales SET id = 12 WHERE id = 11",
    )
    child.wait_for("found: publication", 30)
    place.finds("publication", "public.sales", child.stop(status=MISSED))


def inserts_only(place: Place) -> None:
    """A publication leaves out Updates and Deletes: told at once, and found where it does so only
    later."""
    place.stock()
    place.follow("--create")
    place.run("ALTER PUBLICATION pgsub SET (publish = 'insert')")
    said = place.follow()
    place.finds("publication", "no updates any more", said)
    if "no updates" not in place.follow():
        raise Failed("a publication without updates isn't told at the next start")


def row_filter(place: Place) -> None:
    """A row filter or a column list is altered: told."""
    place.stock()
    place.follow("--create")
    place.run("ALTER PUBLICATION pgsub SET TABLE stock (sku, quantity) WHERE (sku > 1)")
    said = place.follow()
    place.finds("publication", "row filter", said)
    place.is_strict_about("publication")


def made_again(place: Place) -> None:
    """A publication is dropped and made again: changes in between can't be read, and it says what
    helps."""
    place.stock()
    place.follow("--create")
    place.run("DROP PUBLICATION pgsub")
    place.change()
    place.run("CREATE PUBLICATION pgsub FOR TABLE stock")
    end = place.cluster.log_end()
    if place.options.installed.version < 18:
        said = place.ends(SERVER, 'publication "pgsub" does not exist')
        if "made anew" not in said and "made again" not in said and "dropped" not in said:
            raise Failed(f"it doesn't say that the publication was made again: {said}")
        place.run(f"SELECT pg_replication_slot_advance('{place.slot}', '{end}')")
        said = place.follow("--accept-gap")
    else:
        # (from 18 on the server passes over what it can't read)
        said = place.follow()
    place.finds("publication", "made anew", said)


def other_tables(place: Place) -> None:
    """`--table` beside a publication of other tables is an error, and nothing is copied."""
    place.stock()
    place.run("CREATE TABLE other (id int PRIMARY KEY)")
    child = place.start("--create", "--table", "other")
    status = child.end()
    if status not in (USAGE, SERVER, 5) or "other" not in child.said():
        raise Failed(f"status {status}: {child.said()}")
    if place.files():
        raise Failed("rows were copied")
    if place.value("SELECT count(*) FROM pg_replication_slots") != "0":
        raise Failed("a slot is left")


def of_schema(place: Place) -> None:
    """A table that is made in a published schema is followed from its first row on; one that is
    moved there lacks its rows: told."""
    place.run(
        "CREATE SCHEMA sales",
        "CREATE TABLE sales.stock (id int PRIMARY KEY)",
        "INSERT INTO sales.stock VALUES (1)",
        "CREATE TABLE old (id int PRIMARY KEY)",
        "INSERT INTO old VALUES (1), (2)",
        "CREATE PUBLICATION pgsub FOR TABLES IN SCHEMA sales",
    )
    place.follow("--create")
    place.run("CREATE TABLE sales.fresh (id int PRIMARY KEY)", "INSERT INTO sales.fresh VALUES (1)")
    if "sales.fresh" not in place.follow("--strict"):
        raise Failed("the new table isn't told")
    place.equal()
    place.run("ALTER TABLE old SET SCHEMA sales", "INSERT INTO sales.old VALUES (3)")
    place.finds("publication", "sales.old", place.follow())
    place.is_strict_about("publication")


def several(place: Place) -> None:
    """Several publications are copied and followed as one: a row comes where one of their filters
    has it, and comes once."""
    place.run(
        "CREATE TABLE stock (id int PRIMARY KEY, word text)",
        "INSERT INTO stock SELECT it, 'old' FROM generate_series(1, 10) it",
        "CREATE TABLE sales (id int PRIMARY KEY) PARTITION BY RANGE (id)",
        "CREATE TABLE sales1 PARTITION OF sales FOR VALUES FROM (10) TO (20)",
        "INSERT INTO sales VALUES (11), (12)",
        "CREATE PUBLICATION few FOR TABLE stock WHERE (id < 3)",
        "CREATE PUBLICATION pgsub FOR TABLE stock WHERE (id > 8)",
        "CREATE PUBLICATION roots FOR TABLE sales WITH (publish_via_partition_root)",
        "CREATE PUBLICATION leaves FOR TABLE sales1",
    )
    words = [it for name in ("few", "pgsub", "roots", "leaves") for it in ("--publication", name)]
    place.follow("--create", *words)
    for changes in (
        (),
        (
            "UPDATE stock SET id = id + 100 WHERE id IN (2, 5)",
            "DELETE FROM stock WHERE id = 9",
            "INSERT INTO sales VALUES (13)",
        ),
    ):
        place.run(*changes)
        place.follow("--strict")
        with place.cluster.connect() as session:
            expected = {
                ("public", "stock"): {
                    (it, word): 1
                    for it, word in session.rows(
                        "SELECT id::text, word FROM stock WHERE id < 3 OR id > 8"
                    )
                },
                ("public", "sales"): {
                    (it,): 1 for it in session.column("SELECT id::text FROM sales")
                },
            }
        if place.rows() != expected:
            raise Failed(f"{place.rows()} in place of {expected}")


CASES = (
    Case("table-joins", table_joins),
    Case("table-joins-while-following", table_joins_while_following),
    Case("new-table-of-all-tables", new_table_of_all),
    Case("partition-detached", partition_detached),
    Case("partition-attached", partition_attached),
    Case("partition-truncated", partition_truncated),
    Case("partition-made", partition_made),
    Case("partition-attached-again", partition_attached_again),
    Case("partition-attached-again-by-itself", partition_attached_again_by_itself),
    Case("table-left-and-joined", table_left_and_joined),
    Case("publication-altered-and-back", options_and_back),
    Case("table-of-another-publication", another_publication, since=15),
    Case("publication-made-later", made_later, since=18),
    Case("partitions-under-another-name", via_root),
    Case("partitions-under-another-name-while-following", via_root_while_following),
    Case("publication-of-inserts", inserts_only),
    Case("row-filter-altered", row_filter, since=15),
    Case("publication-made-again", made_again),
    Case("publication-of-other-tables", other_tables),
    Case("publication-of-a-schema", of_schema, since=15),
    Case("several-publications", several, since=15),
)
