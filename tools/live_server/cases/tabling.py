"""Tables of SQLite that follow a feed: tables that are altered or set aside, repairs, and readers
of another account."""

from __future__ import annotations

import os
import pwd
import signal
import subprocess
from typing import Dict, Tuple

from ..child import Child
from ..errors import Failed
from ..feeds import compare_tables, reading
from ..follower import tables_of, wait_until
from ..place import Place
from .case import Case
from .common import PLANTED, TABLES, now_in_tables, plant, rows_file, verify

STOCK = (
    "CREATE TABLE stock (sku int PRIMARY KEY, quantity int, note text)",
    "INSERT INTO stock VALUES (1, 5, 'a'), (2, 0, NULL)",
)
# What is done to a table, step by step: the rows are equal after each.
STEPS: dict[str, Tuple[str, ...]] = {
    "a column more": ("ALTER TABLE stock ADD price numeric(10, 2)", "UPDATE stock SET price = sku"),
    "a column less": (
        "ALTER TABLE stock DROP note",
        "UPDATE stock SET quantity = quantity + 1 WHERE sku = 1",
    ),
    "one that was there again": (
        "ALTER TABLE stock ADD note text",
        "UPDATE stock SET note = 'again'",
    ),
    "another name of a column": (
        'ALTER TABLE stock RENAME quantity TO "Quantity, of it"',
        'UPDATE stock SET "Quantity, of it" = 3',
    ),
    "another type": (
        'ALTER TABLE stock ALTER "Quantity, of it" TYPE text',
        "INSERT INTO stock VALUES (3, 'three')",
    ),
    "and one of numbers": (
        "DELETE FROM stock WHERE sku = 3",
        'ALTER TABLE stock ALTER "Quantity, of it" TYPE float8 USING 3',
        "INSERT INTO stock VALUES (3, '-0')",
    ),
    "another key": (
        "UPDATE stock SET note = sku",
        "ALTER TABLE stock DROP CONSTRAINT stock_pkey, ADD PRIMARY KEY (note)",
        "UPDATE stock SET note = note || 'x' WHERE sku < 3",
    ),
    "no key": (
        "ALTER TABLE stock REPLICA IDENTITY FULL",
        "INSERT INTO stock SELECT 7, 7, 7, 'seven' || it FROM generate_series(1, 2) it",
        "DELETE FROM stock WHERE note = 'seven1'",
    ),
    "a key again": ("ALTER TABLE stock REPLICA IDENTITY DEFAULT", "UPDATE stock SET price = 0"),
    "another name": (
        'ALTER TABLE stock RENAME TO "Stock"',
        'UPDATE "Stock" SET price = 1 WHERE sku = 1',
    ),
    "another schema": (
        "CREATE SCHEMA s",
        'ALTER TABLE "Stock" SET SCHEMA s',
        'UPDATE s."Stock" SET price = 2 WHERE sku = 1',
    ),
    "another table with the first name": (
        "CREATE TABLE stock (a text CONSTRAINT third_pkey PRIMARY KEY)",
        "INSERT INTO stock VALUES ('new')",
    ),
    "names that change places": (
        "ALTER TABLE stock RENAME TO third",
        'ALTER TABLE s."Stock" SET SCHEMA public',
        'ALTER TABLE "Stock" RENAME TO stock',
        "INSERT INTO third VALUES ('x')",
        "UPDATE stock SET price = 3",
    ),
    "a truncation": ("TRUNCATE stock, third", "INSERT INTO third VALUES ('after')"),
    "a table that is made anew": ("DROP TABLE stock", *STOCK, "DELETE FROM stock WHERE sku = 1"),
    "a table without columns": (
        "CREATE TABLE bare ()",
        "ALTER TABLE bare REPLICA IDENTITY FULL",
        "INSERT INTO bare DEFAULT VALUES",
        "DELETE FROM bare",
    ),
}


def shapes(place: Place) -> None:
    """Tables that are altered, renamed, dropped and made anew have the server's rows after each
    step."""
    place.run(*STOCK, "CREATE PUBLICATION pgsub FOR ALL TABLES")
    child = place.start("--create", "--tables", str(rows_file(place)))
    place.catch_up(child)
    wait_until(rows_file(place).exists, "making the tables", check=child.check)
    for step, commands in STEPS.items():
        place.run(*commands)
        now_in_tables(place)
        try:
            compare_tables(place.cluster, rows_file(place), "pgsub", database=place.database)
        except Failed as failed:
            raise Failed(f"{step}: {failed}") from None
    child.stop()


def read_as(place: Place, query: str) -> str:
    """What sqlite3 prints for another account, which has the file's group."""
    other, group = pwd.getpwnam("nobody").pw_uid, rows_file(place).stat().st_gid
    words = ["sqlite3", "-readonly", "-cmd", ".timeout 5000", str(rows_file(place)), query]
    done = subprocess.run(
        words,
        user=other,
        group=group,
        extra_groups=[],
        capture_output=True,
        text=True,
        check=False,
    )
    return done.stdout + done.stderr


def kill_tables(child: Child) -> None:
    wait_until(lambda: bool(tables_of(child.process.pid)), "starting the tables", check=child.check)
    for pid in tables_of(child.process.pid):
        os.kill(pid, signal.SIGKILL)


def other_account(place: Place) -> None:
    """With --mode 640, an account of the file's group reads the tables while they follow, after a
    kill, and after the end; no other does."""
    place.stock()
    place.folder.chmod(0o711)
    child = place.start("--create", "--tables", str(rows_file(place)), "--mode", "640")
    place.catch_up(child)
    wait_until(rows_file(place).exists, "making the tables", check=child.check)
    query = "SELECT group_concat(quantity) FROM (SELECT quantity FROM stock ORDER BY sku)"
    for number in range(1, 4):
        place.run("UPDATE stock SET quantity = quantity + 1")
        now_in_tables(place)
        if (found := read_as(place, query)) != f"{5 + number},{number}\n":
            raise Failed(f"another account reads {found}")
        if number == 2:
            kill_tables(child)
    child.kill()
    if (found := read_as(place, query)) != "8,3\n":
        raise Failed(f"after a kill another account reads {found}")
    child = place.start("--tables", str(rows_file(place)), "--mode", "640")
    place.catch_up(child)
    now_in_tables(place)
    child.stop()
    if (found := read_as(place, query)) != "8,3\n" or rows_file(place).with_name(
        "rows.db-wal"
    ).exists():
        raise Failed(f"after the end another account reads {found}")
    rows_file(place).chmod(0o600)
    if "unable to open" not in (found := read_as(place, query)):
        raise Failed(f"an account without the right reads {found}")


def reader_of(place: Place) -> str:
    """The LSN up to which the feed may forget commits, as the tables say."""
    return (place.beside(".feed") / "readers/tables").read_text()


def asides(place: Place) -> Dict[str, str]:
    """Those of the status file."""
    found: Dict[str, str] = place.status(place.folder / "status").get("tables_aside", {})
    return found


def check_status(place: Place, status: int, text: str) -> None:
    said = place.subcommand("status", "--status-file", str(place.folder / "status"), status=status)
    if text not in said:
        raise Failed(f"status {status} without {text!r}: {said}")


def check_equal(place: Place) -> None:
    now_in_tables(place)
    compare_tables(place.cluster, rows_file(place), "pgsub", database=place.database)
    place.subcommand("verify", "--dsn", place.dsn(), "--tables", str(rows_file(place)))


def check_aside(place: Place, child: Child, why: str) -> None:
    """The table `t` isn't there, and is named everywhere; the others and the reader of the feed go
    on."""
    place.run("UPDATE other SET v = v + 1")
    now_in_tables(place)
    with reading(rows_file(place)) as base:
        if (found := base.execute('SELECT schema, "table" FROM pgsub_aside').fetchall()) != [
            ("public", "t")
        ]:
            raise Failed(f"set aside are {found}")
        if base.execute("SELECT count(*) FROM sqlite_schema WHERE name = 't'").fetchone() != (0,):
            raise Failed("rows that aren't right can be read")
        if base.execute("SELECT v FROM other").fetchone() != (
            int(place.value("SELECT v FROM other")),
        ):
            raise Failed("the others don't go on")
    wait_until(lambda: why in asides(place).get("public.t", ""), f"showing {why}", 20, child.check)
    check_status(place, 1, "public.t")
    said = place.subcommand(
        "verify", "--dsn", place.dsn(), "--tables", str(rows_file(place)), status=1
    )
    if "public.t is set aside" not in said or "--table public.t" not in said:
        raise Failed(said)
    before = reader_of(place)
    place.run("UPDATE other SET v = v + 1")
    now_in_tables(place)
    wait_until(lambda: reader_of(place) != before, "reading on", 20, child.check)


def set_aside(place: Place) -> None:
    """One table whose rows nobody sends any more is set aside, the others go on, also after a
    restart, and it comes again by `add`."""
    place.run(
        "CREATE TABLE t (id int PRIMARY KEY, v text)",
        "INSERT INTO t SELECT it, repeat('x', it) FROM generate_series(1, 9) it",
        "CREATE TABLE other (id int PRIMARY KEY, v int)",
        "INSERT INTO other VALUES (1, 1)",
        "CREATE TABLE bare ()",
        "ALTER TABLE bare REPLICA IDENTITY FULL",
        "INSERT INTO bare DEFAULT VALUES",
        "INSERT INTO bare DEFAULT VALUES",
        "CREATE TABLE pgsub_position (id int PRIMARY KEY)",
        "INSERT INTO pgsub_position VALUES (7)",
        "CREATE PUBLICATION pgsub FOR ALL TABLES",
    )
    words = ("--tables", str(rows_file(place)), "--status-file", str(place.folder / "status"))
    child = place.start("--create", *words)
    place.catch_up(child)
    wait_until(rows_file(place).exists, "making the tables", check=child.check)
    place.run(
        'CREATE TABLE "T" (id int PRIMARY KEY)',
        'INSERT INTO "T" VALUES (1)',
        "INSERT INTO t VALUES (10, 'x')",
    )
    # (a table without columns that has rows, and gets one)
    place.run(
        "ALTER TABLE bare ADD COLUMN a int",
        "DELETE FROM bare WHERE ctid = '(0,1)'",
        "INSERT INTO bare VALUES (7)",
    )
    check_equal(place)
    check_status(place, 1, "column a of public.bare (")
    place.subcommand("add", "--dsn", place.dsn(), "--store", str(place.store), "--table", "bare")
    check_equal(place)
    check_status(place, 0, "ok")
    place.run(
        "ALTER TABLE t ALTER COLUMN v TYPE int USING length(v)", "INSERT INTO t VALUES (11, 5)"
    )
    check_aside(place, child, "the column v has a value that isn't one of its type")
    place.run("UPDATE t SET v = v + 1", "DELETE FROM t WHERE id = 3")
    child.stop()
    child = place.start(*words)
    place.catch_up(child)
    check_aside(place, child, "the column v has a value")
    place.subcommand("add", "--dsn", place.dsn(), "--store", str(place.store), "--table", "t")
    wait_until(lambda: not asides(place), "having it again", 20, child.check)
    place.run("UPDATE t SET v = 0 WHERE id = 5")
    check_equal(place)
    check_status(place, 0, "ok")
    child.stop()


def repaired(place: Place) -> None:
    """A repair of what somebody changed in the store leaves tables that never had it as they are
    right."""
    place.run(*TABLES)
    words = (
        "--tables",
        str(rows_file(place)),
        "--digests",
        "--status-file",
        str(place.folder / "status"),
    )
    child = place.start("--create", *words)
    place.catch_up(child)
    wait_until(rows_file(place).exists, "making the tables", check=child.check)
    now_in_tables(place)
    for name, (change, _) in PLANTED.items():
        place.run("UPDATE stock SET note = 'x' WHERE sku = 3")
        now_in_tables(place)
        child.stop()
        plant(place, place.store, change)
        child = place.start(*words)
        child.wait_for("following slot")
        verify(place, "--repair")
        place.run(
            "UPDATE stock SET note = note || '.' WHERE sku < 20",
            "INSERT INTO log VALUES ('line 3', NULL)",
        )
        try:
            check_equal(place)
        except Failed as failed:
            raise Failed(f"{name}: {failed}") from None
        if found := asides(place):
            raise Failed(f"{name}: set aside are {found}")
        place.subcommand(
            "verify", "--dsn", place.dsn(), "--tables", str(rows_file(place)), "--digests"
        )
    child.stop()
    place.equal()


CASES = (
    Case("feed-tables-altered", shapes),
    Case("feed-tables-set-aside", set_aside),
    Case("feed-tables-of-a-repaired-copy", repaired),
    Case("feed-tables-of-another-account", other_account, root=True),
)
