"""What a start does in situations that a store, its slot and their server can be in: goes on,
begins anew, or rejects."""

from __future__ import annotations

import shutil
import signal
import subprocess
from functools import partial
from pathlib import Path

from ..errors import Failed
from ..feeds import compare_tables
from ..follower import wait_until
from ..place import FILE, LOG, PASSING, REJECTED, SERVER, UNFIT, USAGE, Place, killed_at
from ..rows import compare, quoted, rows_of_server, rows_of_store
from .case import Case
from .common import mend, now_in_tables
from .copying import added


def move(source: Path, target: Path) -> None:
    if source.exists():
        shutil.move(source, target)


def saved(place: Place, suffix: str) -> None:
    """Copies the store's files."""
    for it in place.files():
        shutil.copy(it, f"{it}{suffix}")


def put_back(place: Place, suffix: str) -> None:
    """Puts copied files into the place of the store's."""
    for it in place.files():
        it.unlink()
    for it in (place.store, place.beside(LOG)):
        move(Path(f"{it}{suffix}"), it)


def going_on(place: Place) -> None:
    """Goes on where it ended, with more rows, and after a keepalive moved the slot."""
    place.stock(published=False)
    place.follow("--create", "--table", "stock")
    place.equal()
    for _ in range(2):
        place.change()
        place.follow("--create")
        place.equal()
    place.follow()
    place.run("CREATE TABLE other ()", "DROP TABLE other")
    place.follow("--no-copy")
    place.follow()
    place.equal()


def backup(place: Place) -> None:
    """Rejects a store from a backup, and takes the right one back."""
    place.stock()
    place.follow("--create")
    saved(place, ".backup")
    place.change()
    place.follow()
    saved(place, ".right")
    put_back(place, ".backup")
    place.ends(UNFIT, "this is an older one")
    put_back(place, ".right")
    place.follow()
    place.equal()


def backup_with_checkpoint(place: Place) -> None:
    """Rejects a store that was put back with its checkpoint, until the gap is accepted."""
    place.stock()
    place.follow("--create")
    saved(place, ".backup")
    shutil.copy(place.beside(".connector"), place.beside(".connector.backup"))
    place.change()
    place.follow()
    put_back(place, ".backup")
    move(place.beside(".connector.backup"), place.beside(".connector"))
    place.ends(UNFIT, "somebody else moved the slot")
    place.follow("--accept-gap")
    place.follow()


def without_checkpoint(place: Place) -> None:
    """Rejects a store without its checkpoint, until it is said to be of this server."""
    place.stock()
    place.follow("--create")
    place.beside(".connector").unlink()
    place.ends(UNFIT, "its checkpoint isn't there")
    place.change()
    place.follow("--accept-gap")
    place.equal()
    place.follow()


def torn_checkpoint(place: Place) -> None:
    """Rejects a checkpoint that another program wrote."""
    place.stock()
    place.follow("--create")
    place.beside(".connector").write_bytes(b'{"phase": ')
    place.ends(FILE, "not a checkpoint")


def open_elsewhere(place: Place) -> None:
    """Waits for a store that somebody else has open."""
    place.stock()
    place.follow("--create")
    place.change()
    words = [str(place.options.program), "follow", "--store", str(place.store)]
    with subprocess.Popen(words, stdin=subprocess.PIPE, stdout=subprocess.PIPE) as holder:
        assert holder.stdout
        holder.stdout.read(1)
        child = place.start()
        child.wait_for("is tried again")
        holder.communicate()
    place.catch_up(child)
    child.stop()
    place.equal()


def signals(place: Place) -> None:
    """Ends at a signal while the server makes the slot, and leaves none."""
    place.stock()
    waiting = "SELECT count(*) FROM pg_stat_activity WHERE state = 'active' AND query LIKE 'CREATE_REPLICATION_SLOT %'"
    for words in (("--create",), ("--create", "--no-copy")):
        with place.cluster.connect() as writer:
            writer.run("BEGIN", "INSERT INTO stock VALUES (99, 9)")
            child = place.start(*words)
            wait_until(lambda: place.value(waiting) == "1", "making a slot", 60, child.check)
            child.stop(signal.SIGINT, within=5)
            wait_until(
                lambda: place.value("SELECT count(*) FROM pg_replication_slots") == "0",
                "dropping the slot",
            )
    place.follow("--create")
    place.equal()


def snapshots(place: Place) -> None:
    """Copies the store for readers, also while the server is away."""
    place.stock()
    rows = place.folder / "rows?#%41.db"
    child = place.start("--create", "--snapshot", str(rows))
    place.catch_up(child)
    place.cluster.stop()
    child.signal(signal.SIGUSR1)
    wait_until(rows.exists, "copying the store", 60, child.check)
    place.cluster.start()
    compare(rows_of_server(place.cluster, "pgsub"), rows_of_store(place.options.program, rows)[0])
    place.change()
    place.catch_up(child)
    child.stop()
    place.equal()


def odd_names(place: Place) -> None:
    """Follows a publication with quotes and a backslash in its name."""
    name = 'it\'s \\ an "odd" one'
    place.stock(published=False)
    place.run(f"CREATE PUBLICATION {quoted(name)} FOR TABLE stock")
    place.follow("--create", "--publication", name)
    place.change()
    place.follow("--publication", name)
    place.equal(name)


def store_gone(place: Place) -> None:
    """Rejects where the store is gone, and begins anew where its slot and checkpoint are gone
    too."""
    place.stock()
    place.ends(UNFIT, "there is no store")
    place.follow("--create")
    for it in place.files():
        it.unlink()
    place.ends(UNFIT, "is there already", "--create")
    place.ends(UNFIT, "is gone")
    place.run(f"SELECT pg_drop_replication_slot('{place.slot}')")
    place.beside(".connector").unlink()
    place.change()
    place.follow("--create")
    place.equal()


def slot_gone(place: Place) -> None:
    """Rejects where the slot is gone, or was made anew. What it says then mends the copy, whose
    commits of before don't come again."""
    place.stock()
    place.follow("--create")
    place.change()
    place.follow()
    place.run(f"SELECT pg_drop_replication_slot('{place.slot}')")
    place.ends(UNFIT, "has no slot")
    place.change()
    place.run(f"SELECT pg_create_logical_replication_slot('{place.slot}', 'pgoutput')")
    said = place.ends(UNFIT, "somebody else moved the slot, or made it anew")
    if "--accept gap" not in said or "verify --repair" not in said:
        raise Failed(f"what mends it isn't told: {said}")
    mend(place, "gap")


def others(place: Place) -> None:
    """Rejects another database, and a slot of another plugin."""
    place.stock()
    place.follow("--create")
    told = "and this is postgres: name that one by --dsn"
    place.ends(UNFIT, told, dsn=place.cluster.dsn("postgres"))
    place.run(
        f"SELECT pg_drop_replication_slot('{place.slot}')",
        f"SELECT pg_create_logical_replication_slot('{place.slot}', 'test_decoding')",
    )
    place.ends(UNFIT, "is of the plugin test_decoding, and not one of pgoutput")


def not_there(place: Place) -> None:
    """Ends where the server isn't there at the start, where it has no such database, and at a usage
    error."""
    place.ends(PASSING, "No such file", "--create", dsn="host=/nowhere dbname=shop")
    place.ends(SERVER, "does not exist", "--create", dsn=place.cluster.dsn("nothing"))
    place.ends(USAGE, "--table needs --create", "--table", "stock")


def rejected(place: Place) -> None:
    """Ends where the stream is rejected, at each start, until the slot is moved and the gap
    accepted."""
    place.stock()
    place.run(
        "CREATE TABLE large (id int PRIMARY KEY, word text)",
        "ALTER PUBLICATION pgsub ADD TABLE large",
    )
    place.follow("--create")
    place.run("ALTER TABLE large ALTER word SET STORAGE EXTERNAL", many(1, 20))
    after = place.cluster.log_end()
    for _ in range(2):
        place.ends(REJECTED, "pgsub: spool 1 SpoolFull", "--max-buffered", "1000000")
    place.run(f"SELECT pg_replication_slot_advance('{place.slot}', '{after}')")
    place.ends(UNFIT, "somebody else moved the slot")
    place.change()
    place.follow("--accept-gap")
    place.run("TRUNCATE large")
    place.follow()
    place.equal()


def many(first: int, count: int) -> str:
    """Inserts so many rows of 100,000 bytes."""
    return f"INSERT INTO large SELECT it, repeat('y', 100000) FROM generate_series({first}, {first + count - 1}) it"


def open_transactions(place: Place) -> None:
    """Takes transactions whole where they are too much to be open at a time."""
    place.run(
        "CREATE TABLE large (id int PRIMARY KEY, word text)",
        "ALTER TABLE large ALTER word SET STORAGE EXTERNAL",
    )
    place.run("CREATE PUBLICATION pgsub FOR TABLE large")
    place.follow("--create")
    with place.cluster.connect() as first, place.cluster.connect() as second:
        first.run("BEGIN", many(1, 20))
        second.run("BEGIN", many(100, 20))
        first.run("COMMIT")
        second.run("COMMIT")
    if "they come whole from now on" not in place.follow("--max-buffered", "3000000"):
        raise Failed("they fitted")
    place.equal()


def slot_given_up(place: Place) -> None:
    """Ends where the server gave up the slot's log."""
    place.stock()
    place.follow("--create")
    place.set(max_slot_wal_keep_size="1MB")
    for _ in range(4):
        place.change()
        place.run("SELECT pg_switch_wal()")
    place.run("CHECKPOINT")
    lost = "SELECT wal_status FROM pg_replication_slots"
    if place.value(lost) != "lost":
        raise Failed(f"the slot is {place.value(lost)}")
    place.ends(SERVER, place.slot)


def without_copy(place: Place) -> None:
    """Begins at a slot without rows, if told to."""
    place.stock()
    place.run(f"SELECT pg_create_logical_replication_slot('{place.slot}', 'pgoutput')")
    place.ends(UNFIT, "is there already", "--create")
    place.run("INSERT INTO stock VALUES (77, 7)")
    place.follow("--no-copy")
    if place.rows() != {("public", "stock"): {("77", "7"): 1}}:
        raise Failed(f"{place.rows()}")
    place.follow()


def cut_copy(name: str, after: bool, place: Place) -> None:
    """Begins anew or goes on after a copy that was cut off there."""
    place.stock()
    place.run(
        "CREATE TABLE other (id int PRIMARY KEY)",
        "INSERT INTO other VALUES (1), (2)",
        "ALTER PUBLICATION pgsub ADD TABLE other",
    )
    killed_at(place, name, after)
    place.change()
    place.run("DELETE FROM other WHERE id = 1", "INSERT INTO other VALUES (3)")
    added(place, place.start("--create"))
    if place.value("SELECT count(*) FROM pg_replication_slots") != "1":
        raise Failed("a slot is left")


CUTS = (
    ("before-anything-was-made", "copier.slot_position", True),
    ("before-the-temporary-slot", "copier.CopiedTables.published", True),
    ("before-the-snapshot-was-taken", "copier.CopySlot.hold_snapshot", False),
    ("before-the-lasting-slot", "copier.Copier.make_lasting", False),
    ("behind-the-lasting-slot", "copier.Copier.make_lasting", True),
    ("before-the-first-row", "copier.Copier.send_part", False),
    ("with-a-part-of-the-rows", "copier.Copier.send_part", True),
    ("before-the-end-of-the-load", "copier.Copier.end_copy", False),
    ("before-the-point", "copier.Sender.end", False),
    ("with-all-rows", "copier.Sender.end", True),
    ("with-all-rows-and-the-slot", "copier.Copier.keep", False),
    ("after-it-was-complete", "copier.Copier.keep", True),
)


def cut(name: str, after: bool) -> partial[None]:
    call = partial(cut_copy, name, after)
    call.__doc__ = cut_copy.__doc__
    return call


def leave_nothing(place: Place) -> None:
    """Starts that the server refuses leave no file, slot or publication."""
    place.stock(published=False)
    place.run("CREATE TABLE bare (id int)", "CREATE ROLE reader LOGIN REPLICATION")
    reader, rows = place.cluster.dsn(place.database, user="reader"), place.folder / "rows.db"
    for words, dsn in (
        (("--create", "--table", "nowhere"), ""),
        (("--create", "--table", "bare", "--tables", str(rows)), ""),
        (("--create", "--table", "stock", "--feed", str(place.beside(".feed"))), reader),
        (("--create", "--no-copy", "--table", "nowhere"), ""),
        (("--create", "--no-copy", "--table", "stock"), reader),
        (("--no-copy", "--tables", str(rows)), ""),
        (("--create", "--table", "stock", "--pgsub", "/nowhere/pgsub"), ""),
        ((), ""),
    ):
        child = place.start(*words, dsn=dsn)
        if child.end() == 0:
            raise Failed(f"{words} wasn't refused: {child.said()}")
        left = [it.name for it in place.folder.iterdir() if it.name != "said"]
        made = place.value(
            "SELECT (SELECT count(*) FROM pg_publication) + (SELECT count(*) FROM pg_replication_slots)"
        )
        if left or made != "0":
            raise Failed(f"{words} left {left} and {made} at the server: {child.said()}")


def goes_on_by_the_store(place: Place) -> None:
    """A start with the store alone goes on with slot, feed and tables; with another slot it is
    refused."""
    place.stock()
    rows, place.slot = place.folder / "rows.db", "app"
    place.follow("--create", "--tables", str(rows))
    place.change()
    words = place.follow_words()
    child = place.started([*words, "--slot", "pgsub"])
    place.has_ended(child, UNFIT, "follows the slot app, and not pgsub: leave --slot out")
    child = place.started([*words, "--pgsub", str(place.options.program)])
    place.catch_up(child)
    now_in_tables(place)
    compare_tables(place.cluster, rows, "pgsub", database=place.database)
    child.stop()
    place.equal()


CASES = (
    Case("refused-starts-leave-nothing", leave_nothing),
    Case("goes-on-by-the-store-alone", goes_on_by_the_store),
    Case("goes-on-where-it-ended", going_on),
    Case("store-from-a-backup", backup),
    Case("store-and-checkpoint-from-a-backup", backup_with_checkpoint),
    Case("store-without-its-checkpoint", without_checkpoint),
    Case("checkpoint-of-another-program", torn_checkpoint),
    Case("store-open-elsewhere", open_elsewhere),
    Case("signal-while-the-slot-is-made", signals),
    Case("snapshot-while-the-server-is-away", snapshots),
    Case("publication-with-an-odd-name", odd_names),
    Case("store-is-gone", store_gone),
    Case("slot-is-gone", slot_gone),
    Case("another-database-or-plugin", others),
    Case("server-is-not-there", not_there),
    Case("transaction-above-the-limit", rejected),
    Case("open-transactions-above-the-limit", open_transactions, since=14),
    Case("slot-whose-log-was-given-up", slot_given_up),
    Case("slot-without-a-copy", without_copy),
    *(Case(f"copy-cut-off-{name}", cut(call, after)) for name, call, after in CUTS),
)
