"""What changes values without a change that is sent: settings, commands that write rows anew,
generated columns."""

from __future__ import annotations

from ..errors import Failed
from ..place import MISSED, Place
from .case import Case


def text_settings(place: Place) -> None:
    """Settings of the database that change how values are printed have no effect on the copy."""
    place.run(
        "CREATE TABLE printed (r regclass, m money, f float8, t timestamptz, i interval, b bytea, x text)",
        "ALTER TABLE printed REPLICA IDENTITY FULL",
        'CREATE TABLE "Mixed Case" ()',
        "INSERT INTO printed SELECT '\"Mixed Case\"'::regclass, 12.5, 0.1, now(), '1 day 2 hours', '\\x00ff', it"
        " FROM generate_series(1, 4) it",
        "INSERT INTO printed SELECT 'printed'::regclass, 1, 1.0 / 3, now(), '-1 mon', '\\x01', it FROM generate_series(5, 8) it",
        "CREATE PUBLICATION pgsub FOR TABLE printed",
    )
    place.follow("--create")
    for name, value in (
        ("quote_all_identifiers", "on"),
        ("extra_float_digits", "0"),
        ("datestyle", "German"),
        ("intervalstyle", "sql_standard"),
        ("bytea_output", "escape"),
        ("timezone", "Asia/Tokyo"),
        ("lc_monetary", "C.UTF-8"),
    ):
        place.run(f"ALTER DATABASE shop SET {name} = '{value}'")
    place.run(
        "DELETE FROM printed WHERE x IN ('1', '5')", "UPDATE printed SET x = 'new' WHERE x = '6'"
    )
    place.follow()
    place.equal()


def transaction_timeout(place: Place) -> None:
    """A limit of time on transactions doesn't end a copy."""
    place.run(
        "CREATE TABLE long (id int PRIMARY KEY, word text)",
        "INSERT INTO long SELECT it, repeat('x', 500) FROM generate_series(1, 60000) it",
        "CREATE PUBLICATION pgsub FOR TABLE long",
        "ALTER DATABASE shop SET transaction_timeout = '300ms'",
    )
    child = place.start("--create")
    place.catch_up(child)
    if "begins anew" in child.stop():
        raise Failed(f"the copy began anew: {child.said()}")
    place.run("ALTER DATABASE shop RESET transaction_timeout")
    place.equal()


def values_written_anew(place: Place) -> None:
    """ALTER TABLE writes values anew, which isn't sent: told."""
    place.run(
        "CREATE TABLE price (id int PRIMARY KEY, cents int)",
        "INSERT INTO price VALUES (1, 100), (2, 200)",
        "CREATE PUBLICATION pgsub FOR TABLE price",
    )
    place.follow("--create")
    place.run(
        "ALTER TABLE price ALTER cents TYPE numeric USING cents / 100.0",
        "ALTER TABLE price ADD currency text DEFAULT 'EUR'",
        "INSERT INTO price VALUES (3, 3)",
    )
    said = place.follow()
    place.finds("values", "column cents", said)
    place.finds("values", "column currency", said)
    place.is_strict_about("values")


def values_computed_anew(place: Place) -> None:
    """So it is where the type stays the same, of a table with partitions too; and what only moves
    rows isn't told."""
    place.run(
        "CREATE TABLE price (id int PRIMARY KEY, cents int)",
        "INSERT INTO price VALUES (1, 100), (2, 200)",
        "CREATE TABLE parted (id int PRIMARY KEY, cents int) PARTITION BY RANGE (id)",
        "CREATE TABLE part1 PARTITION OF parted FOR VALUES FROM (1) TO (9)",
        "INSERT INTO parted VALUES (1, 100)",
        "CREATE PUBLICATION pgsub FOR TABLE price, parted WITH (publish_via_partition_root)",
    )
    place.follow("--create")
    for commands in (
        (
            "VACUUM FULL price",
            "CLUSTER price USING price_pkey",
            "ANALYZE price, parted",
            "REINDEX TABLE price",
        ),
        (
            "ALTER TABLE price ALTER id SET STATISTICS 7",
            "ALTER TABLE price ALTER cents SET DEFAULT 3",
            "INSERT INTO price VALUES (4)",
        ),
    ):
        place.run(*commands)
        place.follow("--strict")
        place.equal()
    for name in ("price", "parted"):
        place.run(
            f"ALTER TABLE {name} ALTER cents TYPE int USING cents * 10",
            f"INSERT INTO {name} VALUES (3, 3)",
        )
        place.finds("values", f"public.{name}", place.follow())
        place.is_strict_about("values")


def key_type(place: Place) -> None:
    """The type of a key is altered while it is followed: told with the next change of the table,
    which finds no row by such a key."""
    place.stock()
    child = place.start("--create")
    place.catch_up(child)
    place.run(
        "ALTER TABLE stock ALTER sku TYPE numeric(10, 2)",
        "UPDATE stock SET quantity = 9 WHERE sku = 1",
    )
    child.wait_for("found: values", 30)
    place.finds("values", "column sku", child.stop(status=MISSED))


def label_renamed(place: Place) -> None:
    """A label of an enumeration is renamed: told."""
    place.run(
        "CREATE TYPE mood AS ENUM ('sad', 'ok')",
        "CREATE TABLE person (id int PRIMARY KEY, m mood)",
        "INSERT INTO person VALUES (1, 'sad')",
        "CREATE PUBLICATION pgsub FOR TABLE person",
    )
    place.follow("--create")
    place.run("ALTER TYPE mood RENAME VALUE 'sad' TO 'blue'")
    place.finds("values", "mood", place.follow())
    place.is_strict_about("values")


def identity_altered(place: Place) -> None:
    """Another replica identity is told, for rows are found by other columns then."""
    place.stock()
    place.follow("--create")
    place.run("ALTER TABLE stock REPLICA IDENTITY FULL", "UPDATE stock SET quantity = 8")
    place.finds("values", "replica identity", place.follow())


def generated(place: Place) -> None:
    """Stored generated columns are copied where the publication has them."""
    place.run(
        "CREATE TABLE doubled (a int, b int GENERATED ALWAYS AS (a * 2) STORED)",
        "ALTER TABLE doubled REPLICA IDENTITY FULL",
        "INSERT INTO doubled VALUES (1), (2)",
        "CREATE PUBLICATION pgsub FOR TABLE doubled WITH (publish_generated_columns = stored)",
    )
    place.follow("--create")
    place.equal()
    place.run(
        "UPDATE doubled SET a = 5 WHERE a = 1",
        "DELETE FROM doubled WHERE a = 2",
        "INSERT INTO doubled VALUES (7)",
    )
    place.follow("--strict")
    place.equal()


def generated_listed(place: Place) -> None:
    """So are those that a column list names."""
    place.run(
        "CREATE TABLE doubled (a int PRIMARY KEY, b int GENERATED ALWAYS AS (a * 2) STORED, c int)",
        "INSERT INTO doubled (a, c) VALUES (1, 1), (2, 2)",
        "CREATE PUBLICATION pgsub FOR TABLE doubled (a, b)",
    )
    place.follow("--create")
    place.equal()
    place.run(
        "UPDATE doubled SET a = 5 WHERE a = 1",
        "DELETE FROM doubled WHERE a = 2",
        "INSERT INTO doubled (a) VALUES (7)",
    )
    place.follow("--strict")
    place.equal()


def generated_key(place: Place) -> None:
    """A primary key that is generated is copied, so that rows are found by it."""
    place.run(
        "CREATE TABLE doubled (a int, b int GENERATED ALWAYS AS (a * 2) STORED PRIMARY KEY)",
        "INSERT INTO doubled VALUES (1), (2)",
        "CREATE PUBLICATION pgsub FOR TABLE doubled WITH (publish_generated_columns = stored)",
    )
    place.follow("--create")
    place.run(
        "UPDATE doubled SET a = 5 WHERE a = 1",
        "DELETE FROM doubled WHERE a = 2",
        "INSERT INTO doubled VALUES (7)",
    )
    place.follow("--strict")
    place.equal()


CASES = (
    Case("settings-that-change-texts", text_settings),
    Case("limit-of-time-on-transactions", transaction_timeout, since=17),
    Case("values-written-anew", values_written_anew),
    Case("values-computed-anew", values_computed_anew),
    Case("type-of-a-key-altered", key_type),
    Case("enumeration-label-renamed", label_renamed),
    Case("replica-identity-altered", identity_altered),
    Case("generated-columns", generated, since=18),
    Case("generated-columns-in-a-list", generated_listed, since=18),
    Case("generated-key", generated_key, since=18),
)
