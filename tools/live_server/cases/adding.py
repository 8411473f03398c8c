"""`add`: tables are copied one by one beside a running stream, under load, cut at each step, and
refused."""

from __future__ import annotations

import functools
import itertools
import json
import os
import random
import signal
import sys
import time
from collections.abc import Callable, Sequence

from ..child import Child
from ..errors import Failed
from ..follower import Supervisor, filters_of, is_adding, wait_until
from ..pgbench import PgBench
from ..place import MISSED, OK, PASSING, REJECTED, SERVER, Place
from .case import Case
from .common import changing, check_slots, moving, verified, verify

REFUSED = 1
MORE = (
    "CREATE TABLE more (id int PRIMARY KEY, note text)",
    "INSERT INTO more SELECT it, 'note ' || it FROM generate_series(1, 20000) it",
)


def words(place: Place, *tables: str) -> list[str]:
    named = [word for it in tables for word in ("--table", it)]
    return [
        str(place.options.connect),
        "add",
        "--dsn",
        place.dsn(),
        "--store",
        str(place.store),
        *named,
    ]


def add(place: Place, *tables: str, status: int = OK, text: str = "", seconds: float = 90) -> str:
    """Adds tables, and waits until they are there."""
    return place.has_ended(place.started(words(place, *tables)), status, text, seconds)


def check_left(place: Place) -> None:
    """Fails where a table is still being added, or the server has a slot of it."""
    check_slots(place)
    if place.checkpoint().get("adding"):
        raise Failed(f"left: {place.checkpoint()}")


def joined(place: Place) -> None:
    """A table with rows joins the publication: its rows are there after it was added, and nothing
    is wrong any more. That an Update had found no row before stays told."""
    place.stock()
    place.run(*MORE)
    child = place.start("--create")
    place.catch_up(child)
    place.run(
        "ALTER PUBLICATION pgsub ADD TABLE more",
        "INSERT INTO more VALUES (0, E'a\\tb\\\\c\\nd'), (-1, NULL)",
        "UPDATE more SET note = 'x' WHERE id = 7",
    )
    place.catch_up(child)
    wait_until(lambda: "publication" in place.found(), "finding it", 30, child.check)
    add(place, "more")
    if place.found():
        raise Failed(f"it still has {place.found()}")
    place.change()
    place.run("UPDATE more SET note = 'y' WHERE id > 19990", "DELETE FROM more WHERE id = 3")
    place.catch_up(child)
    verify(place)
    check_left(place)
    child.stop(status=MISSED)
    place.equal()


def under_load(place: Place) -> None:
    """Tables are added again and again while moves between accounts are followed; large
    transactions come in parts before and after."""
    with moving(place) as child:
        for tables in (("account",), ("padding", "move"), ("account", "padding", "move")):
            add(place, *tables)
            child.check()
    verify(place)
    check_left(place)
    place.catch_up(child)
    child.stop()
    place.equal()


def under_all(place: Place) -> None:
    """So they are while changes of every kind are followed, TRUNCATEs and rolled-back
    subtransactions among them."""
    with changing(place, "add") as child:
        tables = place.value(
            "SELECT string_agg(relname, ' ') FROM pg_class WHERE relkind = 'r' AND relnamespace = 'public'::regnamespace"
        ).split()
        for table in tables[:4]:
            add(place, table)
            child.check()
    verified(place)
    child.stop()
    place.equal()


def stopped(place: Place) -> None:
    """Where nobody follows, the next start adds them."""
    place.stock()
    place.follow("--create")
    place.change()
    if "the next start adds public.stock" not in add(place, "stock"):
        raise Failed("it doesn't say when")
    child = place.start()
    child.wait_for("is there, complete as of")
    place.change()
    place.catch_up(child)
    check_left(place)
    child.stop()
    place.equal()


def clashes(place: Place) -> None:
    """A table that the follower ends with, by a Clash, is added: it goes on."""
    place.stock()
    place.follow("--create")
    # (the column that is the key by now has equal values in old rows of the copy)
    place.run("UPDATE stock SET quantity = 4", "ALTER PUBLICATION pgsub SET (publish = 'insert')")
    place.follow()
    place.run(
        "UPDATE stock SET sku = sku + 10",
        "ALTER PUBLICATION pgsub SET (publish = 'insert, update, delete, truncate')",
        "INSERT INTO stock VALUES (1, 7)",
    )
    place.ends(REJECTED, "Clash")
    add(place, "stock")
    child = place.start()
    child.wait_for("is there, complete as of")
    place.change()
    place.catch_up(child)
    verify(place)
    child.stop()
    place.equal()


# Runs the connector, which is killed where a call is made.
KILLED_AT = """
import os, sys
sys.path.insert(0, {house!r})
from pgsub_connect import cli
from pgsub_connect.add import adder, replacement, turn
from pgsub_connect.drift import remembered
where, name = {where}, {name!r}
real, left = getattr(where, name), [{times}]
def last(*words, **more):
    if left[0]:
        left[0] -= 1
        return real(*words, **more)
    {before}
    os._exit(77)
setattr(where, name, last)
adder.HELD = {held}
sys.argv[0] = {house!r} + "/pgsub-connect"
cli.run()
"""


def killed_at(
    place: Place, where: str, name: str, after: bool, times: int = 0, held: float = 1.0
) -> Child:
    """Starts the connector, which ends at once where it makes a call of those that add tables for
    so many times and once more. `held`: for how many seconds it holds the stream for rows."""
    before = "real(*words, **more)" if after else "pass"
    code = KILLED_AT.format(
        house=str(place.options.connect.parent),
        where=where,
        name=name,
        before=before,
        times=times,
        held=held,
    )
    return place.started([sys.executable, "-c", code, *place.words()[1:]])


# What is cut: a call of those that add tables, whether before or after it was made, and how often
# it is made before.
CUTS = (
    ("replacement.LeftOut", "fill", False, 0),
    ("replacement.LeftOut", "fill", True, 0),
    ("adder.Adder", "begin_reading", True, 0),
    ("turn.Source", "make_slot", True, 0),
    ("turn.Source", "see", True, 0),
    ("adder.Adder", "end_reading", False, 0),
    ("adder.Adder", "end_reading", True, 0),
    ("adder.Adder", "send", False, 0),
    ("turn.RowsSender", "push", True, 3),
    ("turn.RowsSender", "push", True, 5),
    ("turn.Rows", "closing", True, 0),
    ("adder.Adder", "send", True, 0),
    ("adder.Adder", "finish", False, 0),
    ("remembered.Remembered", "added", True, 0),
    ("adder.Adder", "forget", True, 0),
)


def cut(place: Place) -> None:
    """The connector is killed at each step, whether the stream is held for the rows or goes on: it
    goes on, and the copy is that of the server."""
    place.stock()
    place.run(*MORE)
    place.follow("--create")
    place.run("ALTER PUBLICATION pgsub ADD TABLE more", "INSERT INTO more VALUES (-1, 'new')")
    place.follow()
    for (where, name, after, times), held in itertools.product(CUTS, (1.0, -1.0)):
        add(place, "more")
        change_all(place)
        place.has_ended(killed_at(place, where, name, after, times, held), 77, "")
        change_all(place)
        goes_on(place, f"cut at {name}")


def change_all(place: Place) -> None:
    place.change()
    place.run(
        "UPDATE more SET note = note || '.' WHERE id % 1000 = 0",
        "DELETE FROM more WHERE id = (SELECT max(id) FROM more)",
        "INSERT INTO more SELECT min(id) - 1, 'new' FROM more",
    )


def goes_on(place: Place, what: str) -> None:
    """A start goes on with what was cut, up to the end, and the rows are the server's."""
    child = place.start()
    place.catch_up(child)
    wait_until(
        lambda: not place.checkpoint().get("adding"), f"adding the table, {what}", 60, child.check
    )
    place.run("UPDATE more SET note = note || '!' WHERE id % 2000 = 0")
    place.catch_up(child)
    check_left(place)
    child.stop()
    place.equal()


def parts_killed(place: Place) -> None:
    """Filter, session and the connection that reads rows are lost while a table is added: it is
    tried again."""
    place.stock()
    place.run(*MORE)
    place.run("ALTER PUBLICATION pgsub ADD TABLE more")
    place.follow("--create")
    proxy = place.proxy()

    def lose(kind: str) -> Callable[[], None]:
        return lambda: place.run(
            f"SELECT pg_terminate_backend(pid) FROM pg_stat_activity WHERE {kind} AND pid <> pg_backend_pid()"
        )

    def kill() -> None:
        for it in filters_of(child.process.pid):
            os.kill(it, signal.SIGKILL)

    # (it has the snapshot by then)
    reading = "state = 'idle in transaction'"
    for call in (lose("backend_type = 'walsender'"), lose(reading), kill):
        proxy.before('" FROM ONLY "public"."more"', call)
        child = place.start(dsn=place.dsn(proxy.folder))
        child.wait_for("following slot")
        adding = place.started(words(place, "more"))
        change_all(place)
        place.has_ended(adding, OK, "")
        change_all(place)
        place.catch_up(child)
        check_left(place)
        child.stop()
        place.equal()


def beside(place: Place) -> None:
    """While the rows of a table are read, which takes long, others are followed, and its changes are
    kept."""
    place.stock()
    place.run(*MORE)
    place.run("ALTER PUBLICATION pgsub ADD TABLE more")
    place.follow("--create")
    proxy = place.proxy()
    child = place.start(dsn=place.dsn(proxy.folder))
    child.wait_for("following slot")

    def change(*commands: str) -> None:
        """Is called before the rows come: what is committed is confirmed before they do."""
        change_all(place)
        place.run(*commands)
        change_all(place)
        end = place.value("SELECT pg_current_wal_insert_lsn()")
        place.run("UPDATE stock SET quantity = quantity + 1 WHERE sku = 1")
        wait_until(
            lambda: place.has_confirmed(end, place.cluster), "following meanwhile", 30, child.check
        )

    for commands in (
        ("UPDATE more SET id = -id WHERE id % 3 = 0", "DELETE FROM more WHERE id % 5 = 1"),
        ("DELETE FROM more", "INSERT INTO more VALUES (5, 'five'), (-9, NULL)", "TRUNCATE stock"),
        ("BEGIN; UPDATE more SET note = 'x'; ROLLBACK",),
    ):
        proxy.before('" FROM ONLY "public"."more"', functools.partial(change, *commands))
        adding = place.started(words(place, "more"))
        place.has_ended(adding, OK, "", 90)
        change_all(place)
        place.catch_up(child)
        verify(place)
        check_left(place)
    child.stop()
    place.equal()


def too_large(place: Place) -> None:
    """A table above what may be buffered is refused before anything is done; one that isn't known
    to be keeps its old rows, and is told."""
    place.stock()
    place.run(
        "CREATE TABLE more (id int PRIMARY KEY, note text)",
        "INSERT INTO more SELECT it, repeat('x', 100) FROM generate_series(1, 5000) it",
    )
    place.follow("--create")
    child = place.start("--max-buffered", "100000")
    child.wait_for("following slot")
    place.run("ALTER PUBLICATION pgsub ADD TABLE more")
    add(place, "more", status=SERVER, text="--max-buffered")
    place.change()
    place.catch_up(child)
    child.stop()
    child = place.start("--max-buffered", "600000")
    child.wait_for("following slot")
    add(place, "more", status=REFUSED, text="--max-buffered")
    place.finds("publication", "can't be added", child.said())
    place.change()
    place.catch_up(child)
    child.stop()
    child = place.start()
    child.wait_for("is there, complete as of")
    place.catch_up(child)
    child.stop()
    place.equal()


def altered(place: Place) -> None:
    """A table that is truncated between slot and lock is read again; one that is altered then is
    that of the slot, and it is told."""
    place.stock()
    place.follow("--create")
    proxy = place.proxy()
    proxy.before(
        "LOCK TABLE", lambda: place.run("TRUNCATE stock", "INSERT INTO stock VALUES (3, 3)")
    )
    child = place.start(dsn=place.dsn(proxy.folder))
    child.wait_for("following slot")
    add(place, "stock")
    if "it is added later" not in child.said() or place.found():
        raise Failed(child.said())
    place.catch_up(child)
    verify(place)
    proxy.before(
        "LOCK TABLE", lambda: place.run("ALTER TABLE stock ADD COLUMN price int DEFAULT 5")
    )
    add(place, "stock")
    place.finds("values", "price", child.said())
    add(place, "stock")
    if place.found():
        raise Failed(f"it still has {place.found()}")
    child.stop()
    place.equal()


ANEW = "a session begins anew"


def root_altered(place: Place) -> None:
    """A partitioned table whose changes are sent under its own name is altered without its
    partitions before its rows are read, and back after that. A session that has described it isn't
    told: it ends with the rows, and the next one describes it as it is."""
    place.stock()
    place.run(
        "CREATE TABLE parted (id int PRIMARY KEY, note text) PARTITION BY RANGE (id)",
        "CREATE TABLE parted_1 PARTITION OF parted FOR VALUES FROM (0) TO (1000)",
        "INSERT INTO parted SELECT it, 'note ' || it FROM generate_series(1, 100) it",
        "ALTER PUBLICATION pgsub ADD TABLE parted",
        "ALTER PUBLICATION pgsub SET (publish_via_partition_root = true)",
    )
    place.follow("--create")
    proxy = place.proxy()
    # (a session that streams nothing doesn't end because all tables are there)
    child = place.start("--proto", "1", dsn=place.dsn(proxy.folder))
    child.wait_for("following slot")

    def add_both(sessions: int, *commands: str) -> None:
        """Adds both tables, with changes and more between the slots of the first and the second."""
        before = child.said().count(ANEW)
        proxy.before(
            "LOCK TABLE",
            lambda: place.run("UPDATE parted SET note = note || '.' WHERE id = 1", *commands),
        )
        add(place, "stock", "parted")
        place.run(
            "ALTER TABLE parted REPLICA IDENTITY DEFAULT",
            "UPDATE parted SET note = note || '!' WHERE id < 10",
            "DELETE FROM parted WHERE id = (SELECT min(id) FROM parted WHERE id > 20)",
            "UPDATE parted SET id = 1001 - id WHERE id > 90",
        )
        place.change()
        place.catch_up(child)
        if child.said().count(ANEW) != before + sessions:
            raise Failed(child.said())

    # One session for both, and another one behind the rows.
    add_both(1)
    add_both(2, "ALTER TABLE parted REPLICA IDENTITY FULL")
    verify(place)
    check_left(place)
    child.stop()
    place.equal()


def long_transaction(place: Place) -> None:
    """Following goes on while the server makes no slot because of a transaction that runs; the
    table is added once it has ended."""
    place.stock()
    place.follow("--create")
    child = place.start()
    child.wait_for("following slot")
    with place.cluster.connect(place.database) as writer:
        writer.run("BEGIN", "INSERT INTO stock VALUES (50, 50)")
        adding = place.started(words(place, "stock"))
        child.wait_for("made no slot", 40)
        place.change()
        end = place.value("SELECT pg_current_wal_insert_lsn()")
        wait_until(
            lambda: place.has_confirmed(end, place.cluster), "following meanwhile", 40, child.check
        )
        writer.run("COMMIT")
    place.has_ended(adding, OK, "", 120)
    place.catch_up(child)
    check_left(place)
    child.stop()
    place.equal()


def synchronous(place: Place) -> None:
    """Commits that wait for the follower go on while the slot is made, and the table is added."""
    place.stock()
    place.follow("--create")
    place.set(synchronous_standby_names="pgsub")
    child = place.start()
    child.wait_for("following slot")
    adding = place.started(words(place, "stock"))
    for _ in range(10):
        place.change()
        time.sleep(0.05)
    place.has_ended(adding, OK, "", 120)
    place.catch_up(child)
    child.stop()
    place.equal()
    place.set(synchronous_standby_names="")


PUBLISHED = ("pgbench_accounts", "pgbench_tellers", "pgbench_branches")


def under_kills(place: Place) -> None:
    """Tables are added, copied anew and taken out of the publication under pgbench's load, while
    filter, connector, session and server are killed."""
    rng = random.Random(f"add {place.options.seed}")
    load = PgBench(place.cluster, 1, 50)
    place.run(
        "DROP PUBLICATION pgsub", f"CREATE PUBLICATION pgsub FOR TABLE {', '.join(PUBLISHED)}"
    )
    supervisor = Supervisor(place.words("--create"), place.log)
    load.begin()
    supervisor.begin()
    try:
        wait_until(place.store.exists, "the first copy", 120, supervisor.check)
        for _ in range(10):
            is_there = (
                place.value(
                    "SELECT count(*) FROM pg_publication_tables WHERE tablename = 'pgbench_history'"
                )
                == "1"
            )
            if rng.random() < 0.5:
                place.run(
                    f"ALTER PUBLICATION pgsub {'DROP' if is_there else 'ADD'} TABLE pgbench_history"
                )
                is_there = not is_there
            tables = rng.sample([*PUBLISHED, *(["pgbench_history"] if is_there else [])], 2)
            child = place.started(words(place, *tables))
            time.sleep(rng.random() * 3)
            kill(
                place,
                supervisor,
                rng.choice(
                    ("filter", "filter", "connector", "connector", "session", "server", "nothing")
                ),
            )
            status = child.end(120)
            if status not in (OK, PASSING):
                raise Failed(f"status {status}: {child.said()[-3000:]}")
        if (
            place.value(
                "SELECT count(*) FROM pg_publication_tables WHERE tablename = 'pgbench_history'"
            )
            == "0"
        ):
            place.run("ALTER PUBLICATION pgsub ADD TABLE pgbench_history")
        wait_until(
            lambda: has_added(place, (*PUBLISHED, "pgbench_history")),
            "adding all tables",
            180,
            supervisor.check,
        )
        load.end()
        verify(place)
    finally:
        load.end()
        supervisor.finish()
    place.equal()


def has_added(place: Place, tables: Sequence[str]) -> bool:
    """Adds tables. Returns whether they are there, and all else that was to be added."""
    status = place.started(words(place, *tables)).end(120)
    return status == OK and not is_adding(place.store)


def kill(place: Place, supervisor: Supervisor, victim: str) -> None:
    if victim == "filter":
        supervisor.kill_filter()
    elif victim == "connector":
        supervisor.kill_connector()
    elif victim == "session":
        place.value(
            "SELECT count(pg_terminate_backend(active_pid)) FROM pg_replication_slots WHERE active"
        )
    elif victim == "server":
        place.cluster.stop("immediate")
        place.cluster.start()


def refresh(place: Place, status: int = OK) -> list[str]:
    """Has all copied anew that isn't right. Returns what was told, of which table."""
    words = [
        str(place.options.connect),
        "refresh",
        "--dsn",
        place.dsn(),
        "--store",
        str(place.store),
        "--yes",
    ]
    said = place.has_ended(place.started(words), status, "")
    return [
        f"{it['is']} {it.get('table')}"
        for it in map(json.loads, [it for it in said.splitlines() if it.startswith("{")])
    ]


def refreshed(place: Place) -> None:
    """Tables, partitions and columns that were added, and a table that left: all is told, copied
    anew, and nothing is wrong any more."""
    place.stock()
    place.run(
        "CREATE TABLE gone (id int PRIMARY KEY)",
        "INSERT INTO gone VALUES (1)",
        "ALTER PUBLICATION pgsub ADD TABLE gone",
        "CREATE TABLE parted (id int PRIMARY KEY, note text) PARTITION BY RANGE (id)",
        "CREATE TABLE parted_1 PARTITION OF parted FOR VALUES FROM (0) TO (10)",
        "INSERT INTO parted VALUES (1, 'a')",
        "CREATE TABLE parted_2 (LIKE parted INCLUDING ALL)",
        "INSERT INTO parted_2 VALUES (11, 'b')",
        "ALTER PUBLICATION pgsub ADD TABLE parted",
        "ALTER PUBLICATION pgsub SET (publish_via_partition_root = true)",
    )
    place.follow("--create")
    child = place.start()
    place.catch_up(child)
    if refresh(place):
        raise Failed("it tells what isn't so")
    place.run(
        "CREATE TABLE more (id int PRIMARY KEY, note text)",
        "INSERT INTO more SELECT it, 'note ' || it FROM generate_series(1, 100) it",
        "ALTER PUBLICATION pgsub ADD TABLE more",
        "ALTER PUBLICATION pgsub DROP TABLE gone",
        "ALTER TABLE stock ADD COLUMN price int DEFAULT 5",
        "ALTER TABLE parted ATTACH PARTITION parted_2 FOR VALUES FROM (10) TO (20)",
    )
    told = refresh(place)
    if told != [
        "changed public.stock",
        "missing public.parted",
        "missing public.more",
        "extra public.gone",
    ]:
        raise Failed(f"told: {told}")
    place.run(
        "UPDATE parted SET note = 'c'",
        "UPDATE stock SET price = 6 WHERE sku = 1",
        "DELETE FROM more WHERE id < 50",
    )
    place.catch_up(child)
    verify(place)
    if refresh(place) or place.found():
        raise Failed(f"found: {place.found()}")
    place.catch_up(child)
    check_left(place)
    child.stop()
    place.equal()


CASES = (
    Case("add-a-table-that-joined", joined),
    Case("add-under-moves", under_load),
    Case("add-under-every-change", under_all),
    Case("add-while-stopped", stopped),
    Case("add-a-table-that-clashes", clashes),
    Case("add-cut-at-each-step", cut),
    Case("add-parts-killed", parts_killed),
    Case("add-beside-the-stream", beside),
    Case("add-too-large", too_large),
    Case("add-altered-meanwhile", altered),
    Case("add-a-root-that-is-altered-alone", root_altered),
    Case("add-beside-a-long-transaction", long_transaction),
    Case("add-synchronous", synchronous),
    Case("refresh", refreshed, since=15),
    Case("add-under-kills", under_kills),
)
