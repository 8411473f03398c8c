"""What was: tables as of an LSN, and commits that are taken back at the publisher."""

from __future__ import annotations

import contextlib
import random
import time
from collections.abc import Iterator

import psycopg

from ..errors import Failed
from ..feeds import Tables, compare_file
from ..feeds import settle as settle_session
from ..feeds import tables_of_server, tables_of_session
from ..follower import wait_until
from ..load import SCHEMA, TABLES, Mix, Worker
from ..place import UNFIT, Place
from .case import Case
from .common import feed_of, now_in_tables, position_of, rows_file, undo

LSNS = 20
# (18 may crash where it makes a slot beside a transaction that is rolled back and doesn't fit)
OPTIONS = "options='-c logical_decoding_work_mem=1GB -c lock_timeout=0'"


@contextlib.contextmanager
def snapshot_with_lsn(place: Place) -> Iterator[tuple[str, str]]:
    """A snapshot that is exported meanwhile, of all that was committed up to an LSN, by a slot that
    is made for it."""
    pq = psycopg.pq
    connection = pq.PGconn.connect(f"{place.dsn()} {OPTIONS} replication=database".encode())
    try:
        made = connection.exec_(
            b"CREATE_REPLICATION_SLOT looking TEMPORARY LOGICAL pgoutput EXPORT_SNAPSHOT"
        )
        if made.status != pq.ExecStatus.TUPLES_OK:
            raise Failed(f"no slot: {made.error_message.decode()}")
        lsn, name = (made.get_value(0, it) or b"" for it in (1, 2))
        yield lsn.decode(), name.decode()
    finally:
        connection.finish()


def tables_now(place: Place) -> tuple[str, Tables]:
    """What a snapshot has, in a transaction of its own, and its LSN. No table is truncated
    meanwhile: that takes rows from snapshots, too."""
    with place.cluster.connect(place.database) as session:
        session.run(
            "BEGIN ISOLATION LEVEL REPEATABLE READ",
            f"LOCK TABLE {', '.join(TABLES)}, kept IN ACCESS SHARE MODE",
        )
        settle_session(session)
        with snapshot_with_lsn(place) as (lsn, name):
            session.run(f"SET TRANSACTION SNAPSHOT '{name}'")
            return lsn, tables_of_session(session, "pgsub")


def tables_soon(place: Place) -> tuple[str, Tables]:
    """The same, until no lock was waited for too long."""
    while True:
        with contextlib.suppress(psycopg.errors.LockNotAvailable, psycopg.errors.DeadlockDetected):
            return tables_now(place)


def looked_at(place: Place, truncates: bool, seed: str, count: int) -> list[tuple[str, Tables]]:
    """What snapshots have while changes of every kind are made."""
    workers = [Worker(place.cluster, f"past {seed} {it}", 0.05) for it in range(3)]
    for it in workers:
        it.truncates = truncates
        it.start()
    try:
        found = []
        for _ in range(count):
            time.sleep(0.3 * random.random())
            found.append(tables_soon(place))
        return found
    finally:
        for it in workers:
            it.ended.set()
        for it in workers:
            it.join(60)


def as_of(place: Place, base: str, into: str, lsn: str, theirs: Tables) -> None:
    """Has a file taken to an LSN, and compares it with what a snapshot had there."""
    path = place.folder / into
    place.subcommand(
        "tables",
        "--feed",
        str(feed_of(place)),
        "--base",
        str(place.folder / base),
        "--into",
        str(path),
        "--at",
        lsn,
    )
    compare_file(path, theirs)


def past(place: Place) -> None:
    """Tables as of twenty LSNs, from an export and back from later ones, are what REPEATABLE READ
    snapshots had there."""
    # (who waits for a lock may be whom the slot waits for)
    place.run(
        *SCHEMA,
        "CREATE PUBLICATION pgsub FOR ALL TABLES",
        f"ALTER DATABASE {place.database} SET lock_timeout = '1s'",
    )
    mix = Mix(random.Random("past"))
    with place.cluster.connect(place.database) as session:
        for _ in range(100):
            mix.attempt(session)
    child = place.start(
        "--create",
        "--tables",
        str(rows_file(place)),
        "--feed-max-age",
        "1d",
        "--feed-segment-bytes",
        "1000000",
    )
    place.catch_up(child)
    place.subcommand("export", "--store", str(place.store), "--into", str(place.folder / "base.db"))
    whole, truncated = (looked_at(place, it, str(it), LSNS // 2) for it in (False, True))
    place.catch_up(child)
    now_in_tables(place)
    for number, (lsn, theirs) in enumerate([*whole, *truncated]):
        as_of(place, "base.db", f"{number}.db", lsn, theirs)
    for lsn, theirs in [*reversed(whole), *whole]:
        as_of(place, f"{len(whole) - 1}.db", "back.db", lsn, theirs)
    back = (
        "--feed",
        str(feed_of(place)),
        "--base",
        str(rows_file(place)),
        "--into",
        str(place.folder / "none.db"),
        "--at",
        whole[0][0],
    )
    if "truncates" not in place.subcommand("tables", *back, status=UNFIT):
        raise Failed("rows that were truncated came back")
    if len({str(theirs) for _, theirs in [*whole, *truncated]}) < LSNS:
        raise Failed("nothing was changed between two of the LSNs")
    child.stop()


MADE = (
    "CREATE TABLE stock (sku text PRIMARY KEY, quantity int, note text)",
    "CREATE TABLE numbered (id int GENERATED ALWAYS AS IDENTITY PRIMARY KEY, price numeric)",
    "CREATE TABLE bag (word text, n float8, j json)",
    "ALTER TABLE bag REPLICA IDENTITY FULL",
    "CREATE TABLE parted (id int, word text) PARTITION BY RANGE (id)",
    "ALTER TABLE parted REPLICA IDENTITY FULL",
    "CREATE TABLE low PARTITION OF parted FOR VALUES FROM (MINVALUE) TO (50)",
    "ALTER TABLE low REPLICA IDENTITY FULL",
    "CREATE TABLE high PARTITION OF parted FOR VALUES FROM (50) TO (MAXVALUE)",
    "ALTER TABLE high REPLICA IDENTITY FULL",
    "CREATE TABLE heir (more int) INHERITS (bag)",
    "ALTER TABLE heir REPLICA IDENTITY FULL",
    "INSERT INTO stock SELECT 'sku ' || it, it, CASE WHEN it % 3 > 0 THEN repeat('note ', it) END FROM generate_series(1, 100) it",
    "INSERT INTO numbered (price) SELECT it / 100.0 FROM generate_series(1, 100) it",
    "INSERT INTO bag SELECT 'word ' || it % 5, nullif(it % 3, 2), '{\"a\":  1}' FROM generate_series(1, 30) it",
    "INSERT INTO bag VALUES ('zero', 0), ('zero', '-0'), ('zero', '-0')",
    "INSERT INTO heir SELECT *, 1 FROM ONLY bag",
    "INSERT INTO parted SELECT it, 'word' FROM generate_series(1, 100) it",
    "CREATE PUBLICATION pgsub FOR ALL TABLES WITH (publish_via_partition_root)",
)
BAD = (
    "DELETE FROM stock WHERE quantity > 50",
    "UPDATE stock SET quantity = 0, note = NULL WHERE quantity > 25",
    "UPDATE numbered SET price = price * 1000",
    "DELETE FROM numbered WHERE id % 2 = 0",
    "DELETE FROM ONLY bag WHERE n IS NULL OR word = 'word 1'",
    "UPDATE ONLY bag SET n = 7",
    "BEGIN; UPDATE parted SET id = 101 - id WHERE id < 10; DELETE FROM parted WHERE id BETWEEN 40 AND 60; INSERT INTO parted VALUES (1, 'x'); COMMIT",
    "BEGIN; INSERT INTO stock VALUES ('new', 1); UPDATE stock SET sku = 'newer' WHERE sku = 'new'; DELETE FROM stock WHERE sku = 'newer'; COMMIT",
)
# What somebody does meanwhile, what takes that back, and what is told.
MEANWHILE = (
    (
        "UPDATE stock SET note = 'mine' WHERE sku = 'sku 30'",
        "UPDATE stock SET note = NULL WHERE sku = 'sku 30'",
        "stock: the row is another one by now",
    ),
    (
        "INSERT INTO stock VALUES ('sku 60')",
        "DELETE FROM stock WHERE sku = 'sku 60'",
        "stock: there is a row with this key by now",
    ),
    (
        "DELETE FROM stock WHERE sku = 'sku 26'",
        "INSERT INTO stock VALUES ('sku 26', 0)",
        "stock: the row is another one by now",
    ),
    (
        "UPDATE numbered SET price = 10.00 WHERE id = 1",
        "UPDATE numbered SET price = 1 / 100.0 * 1000 WHERE id = 1",
        "numbered: the row is another one by now",
    ),
    (
        "UPDATE ONLY bag SET n = 8 WHERE word = 'zero'",
        "UPDATE ONLY bag SET n = 7 WHERE word = 'zero'",
        "bag: the row is another one by now",
    ),
    (
        "DELETE FROM parted WHERE word = 'x'",
        "INSERT INTO parted VALUES (1, 'x')",
        "parted: the row is another one by now",
    ),
)


def state(place: Place) -> Tables:
    return tables_of_server(place.cluster, "pgsub", database=place.database)


def check_rejected(place: Place, script: str, text: str) -> None:
    """Runs a script, which has to end in an error, and to leave all as it was."""
    before = state(place)
    try:
        place.run(script)
    except psycopg.Error as error:
        if text not in str(error):
            raise Failed(f"it says {error} in place of {text!r}") from None
    else:
        raise Failed(f"what somebody had changed was taken back, without {text!r}")
    if state(place) != before:
        raise Failed(f"something was changed, with {text!r}")


def undone(place: Place) -> None:
    """Bad commits are taken back; where somebody has changed one of their rows, nothing is touched,
    and the row is told."""
    place.run(*MADE)
    child = place.start("--create", "--tables", str(rows_file(place)))
    place.catch_up(child)
    wait_until(rows_file(place).exists, "making the tables", check=child.check)
    place.run("INSERT INTO stock VALUES ('good', 1)")
    now_in_tables(place)
    since, before = position_of(place), state(place)
    place.run(*(command for it in BAD for command in it.split("; ")))
    now_in_tables(place)
    script, of_stock = (
        undo(place, since, position_of(place), *more) for more in ((), ("--table", "stock"))
    )
    place.run("INSERT INTO numbered (price) VALUES (5)")
    for change, back, text in MEANWHILE:
        place.run(change)
        check_rejected(place, script, text)
        place.run(back)
    place.run("DELETE FROM numbered WHERE price = 5")
    bad = state(place)
    place.run(of_stock)
    if state(place) != {**bad, ("public", "stock"): before["public", "stock"]}:
        raise Failed("one table's changes aren't taken back, or others are")
    check_rejected(place, of_stock, "public.stock: the row is another one by now")
    place.run(*(command for it in (BAD[0], BAD[1]) for command in it.split("; ")))
    place.run(script)
    if (after := state(place)) != before:
        raise Failed(f"it isn't as it was: {[it for it in before if after.get(it) != before[it]]}")
    place.catch_up(child)
    child.stop()
    place.equal()


CASES = (
    Case("tables-as-of-an-lsn", past),
    Case("commits-taken-back", undone),
)
