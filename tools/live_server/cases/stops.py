"""What stops a follower, how it is told, and how it goes on."""

from __future__ import annotations

import contextlib
import os
import re
import shutil
import signal
import time
from pathlib import Path

from ..child import Child
from ..errors import Failed
from ..follower import wait_until
from ..place import FILE, OK, PASSING, REJECTED, SERVER, Place
from .case import Case


def rejected_commit(place: Place) -> None:
    """A commit that is rejected is told with its transaction, LSN and tables; --skip passes over
    exactly that one."""
    place.stock(published=False)
    place.run("CREATE TABLE other (id int PRIMARY KEY)")
    place.run("CREATE PUBLICATION pgsub FOR TABLE stock, other WITH (publish = 'insert')")
    place.follow("--create")
    place.run(
        "DELETE FROM stock WHERE sku = 1",
        "BEGIN; INSERT INTO other VALUES (1); INSERT INTO stock VALUES (1, 7); COMMIT",
    )
    place.run("INSERT INTO other VALUES (2)")
    said = place.ends(REJECTED, "pgsub: store 1 Clash")
    told = re.search(r"rejected: transaction \d+, final LSN ([0-9A-F/]+), (.*)", said)
    if not told or "public.stock" not in told[2] or "public.other" not in told[2]:
        raise Failed(f"it doesn't tell the commit: {said}")
    place.ends(REJECTED, told[1])
    if f"final LSN {told[1]}" not in place.follow("--skip", told[1]):
        raise Failed("it doesn't tell what was skipped")
    if (
        place.rows()["public", "other"] != {("2",): 1}
        or ("1", "5") not in place.rows()["public", "stock"]
    ):
        raise Failed(f"it skipped another one: {place.rows()}")
    if place.checkpoint()["skipped"] != told[1]:
        raise Failed(f"the checkpoint has {place.checkpoint()}")
    place.follow()


def large_transaction(place: Place) -> None:
    """A transaction above 64 MiB is followed, and a row above 16 MiB."""
    place.run(
        "CREATE TABLE large (id int PRIMARY KEY, word text)",
        "ALTER TABLE large ALTER word SET STORAGE EXTERNAL",
    )
    place.run("CREATE PUBLICATION pgsub FOR TABLE large")
    place.follow("--create")
    place.run("INSERT INTO large SELECT it, repeat('y', 1000000) FROM generate_series(1, 70) it")
    place.run("INSERT INTO large VALUES (100, repeat('z', 20000000))")
    place.follow("--proto", "1")
    place.equal()


def long_row(place: Place) -> None:
    """A row of 100 MB takes at most three times its length in the connector."""
    place.run(
        "CREATE TABLE large (id int PRIMARY KEY, word text)",
        "ALTER TABLE large ALTER word SET STORAGE EXTERNAL",
    )
    place.run("CREATE PUBLICATION pgsub FOR TABLE large")
    child = place.start("--create")
    place.catch_up(child)
    before = most_memory(child)
    place.run("INSERT INTO large VALUES (100, repeat('z', 100000000))")
    place.catch_up(child)
    taken = most_memory(child) - before
    child.stop()
    place.equal()
    if taken > 300_000_000:
        raise Failed(f"it took {taken} bytes more")


def most_memory(child: Child) -> int:
    """The most memory that a connector has had, in bytes."""
    found = re.search(r"VmHWM:\s+(\d+) kB", Path(f"/proc/{child.process.pid}/status").read_text())
    assert found
    return 1024 * int(found[1])


def second_connector(place: Place) -> None:
    """A second connector on the same store waits, and ends with the status of what may pass."""
    place.stock()
    child = place.start("--create")
    place.catch_up(child)
    place.ends(PASSING, "another process follows into this store", seconds=90)
    place.change()
    place.catch_up(child)
    child.stop()
    place.equal()


def not_built(place: Place) -> None:
    """The connector of a checkout runs the program that is there, and never builds one."""
    checkout = place.folder / "checkout"
    shutil.copytree(place.options.connect.parent, checkout / place.options.connect.parent.name)
    wrapper, out = checkout / "pgsub", checkout / "crates/pgsub/out"
    wrapper.write_text(f"#!/bin/sh\ntouch {checkout}/built\nexit 126\n")
    wrapper.chmod(0o755)
    place.stock()
    words = place.words("--create")
    words[0] = str(checkout / place.options.connect.parent.name / place.options.connect.name)
    at = words.index("--pgsub")
    words = words[:at] + words[at + 2 :]
    environment = {"PATH": "/usr/bin:/bin"}
    out.mkdir(parents=True)
    place.has_ended(place.started(words, environment), FILE, "No such file", 30)
    (out / "pgsub").write_text(f'#!/bin/sh\nexec {place.options.program} "$@"\n')
    (out / "pgsub").chmod(0o755)
    child = place.started(words, environment)
    place.catch_up(child)
    child.stop()
    place.equal()
    if (checkout / "built").exists():
        raise Failed("the program was built")


def heard_in_catalog(place: Place) -> None:
    """SIGTERM is heard while making the publication waits for a lock, and no publication is made
    afterwards."""
    place.stock(published=False)
    with place.cluster.connect() as writer:
        writer.run("BEGIN", "LOCK TABLE stock IN ACCESS EXCLUSIVE MODE")
        child = place.start("--create", "--table", "stock")
        waiting = "SELECT count(*) FROM pg_stat_activity WHERE wait_event_type = 'Lock'"
        wait_until(lambda: place.value(waiting) != "0", "waiting for the lock", 60, child.check)
        child.stop(within=5)
        wait_until(lambda: place.value(waiting) == "0", "ending the command at the server", 10)
    if place.value("SELECT count(*) FROM pg_publication") != "0":
        raise Failed("the publication is there")


def heard_while_opening(place: Place) -> None:
    """SIGTERM is heard while the filter opens its store."""
    place.stock()
    place.follow("--create")
    program = place.folder / "slow"
    program.write_text("#!/bin/sh\nsleep 40\n")
    program.chmod(0o755)
    child = place.start("--pgsub", str(program))
    wait_until(lambda: bool(child.filters()), "starting the filter", 30, child.check)
    child.stop(within=5)


def heard_while_connecting(place: Place) -> None:
    """SIGTERM is heard while a server that accepts connections doesn't answer."""
    place.stock()
    place.follow("--create")
    proxy = place.proxy()
    proxy.freeze()
    child = place.start(dsn=place.dsn(proxy.folder))
    wait_until(lambda: bool(proxy.open), "connecting", 30, child.check)
    child.stop(within=5)


def filter_killed(place: Place) -> None:
    """A filter that is killed twice in the same transaction ends the following, and the
    transaction's size is told."""
    place.run(
        "CREATE TABLE large (id int PRIMARY KEY, word text)",
        "CREATE PUBLICATION pgsub FOR TABLE large",
    )
    place.follow("--create")
    place.run(
        "BEGIN; INSERT INTO large SELECT it, repeat('y', 1000) FROM generate_series(1, 20000) it; COMMIT"
    )
    proxy = place.proxy()
    proxy.limit = 4_000_000
    child = place.start("--proto", "1", dsn=place.dsn(proxy.folder))
    for stops in (1, 2):
        wait_until(lambda stops=stops: proxy.stopped == stops, "passing on", 60, child.check)  # type: ignore[misc]
        time.sleep(1)
        for pid in child.filters():
            os.kill(pid, signal.SIGKILL)
    place.has_ended(child, REJECTED, "twice in the transaction", 60)
    if "bytes" not in child.said():
        raise Failed(f"it doesn't tell the size: {child.said()}")
    place.follow()
    place.equal()


def disk_full(place: Place, *more: str) -> None:
    """A disk that is full passes: it goes on once there is room, and that is told."""
    folder = place.small_disk(16)
    place.store, filler = folder / "copy.db", folder / "filler"
    place.run(
        "CREATE TABLE more (id int PRIMARY KEY, word text)",
        "CREATE PUBLICATION pgsub FOR TABLE more",
    )
    place.follow("--create", *more)
    fill(filler)
    place.run("INSERT INTO more SELECT it, repeat('y', 1000) FROM generate_series(1, 200) it")
    child = place.start()
    wait_until(
        lambda: not child.is_running()
        or "tried again" in child.said()
        or "started again" in child.said(),
        "failing",
        30,
    )
    filler.unlink()
    ends = ("store 8 Refused", "feed 3 Refused")
    if any(it in child.said() for it in ends) and "pgsub: the disk is full" not in child.said():
        raise Failed(f"it doesn't tell that the disk is full: {child.said()}")
    try:
        place.catch_up(child)
    except Failed:
        # (what the connector itself has to write may end it)
        place.has_ended(child, PASSING, "No space")
        child = place.start()
        place.catch_up(child)
    child.stop()
    place.equal()


def disk_full_of_a_feed(place: Place) -> None:
    """So does one that has a feed, too."""
    disk_full(place, "--feed", str(place.beside(".feed")))


def fill(file: Path) -> None:
    """Takes all the room of a file system."""
    with contextlib.suppress(OSError), open(file, "wb", buffering=0) as out:
        for size in (1 << 16, 512, 1):
            with contextlib.suppress(OSError):
                while True:
                    out.write(bytes(size))


def interrupted_twice(place: Place) -> None:
    """A second signal ends it at once, and nothing is lost by that."""
    place.stock()
    child = place.start("--create")
    place.catch_up(child)
    filters = child.filters()
    for pid in filters:
        os.kill(pid, signal.SIGSTOP)
    child.signal(signal.SIGTERM)
    time.sleep(1)
    child.signal(signal.SIGTERM)
    status = child.end(10)
    for pid in filters:
        os.kill(pid, signal.SIGKILL)
    if status not in (OK, 128 + signal.SIGTERM):
        raise Failed(f"status {status}")
    place.change()
    place.follow()
    place.equal()


def unsendable_value(place: Place) -> None:
    """A text that isn't UTF-8, in a database of SQL_ASCII, ends the following after some tries."""
    place.own_server(encoding="SQL_ASCII")
    place.run(
        "CREATE TABLE stock (sku int PRIMARY KEY, name text)",
        "CREATE PUBLICATION pgsub FOR TABLE stock",
    )
    child = place.start("--create")
    place.catch_up(child)
    place.run("INSERT INTO stock VALUES (1, 'good')", "INSERT INTO stock VALUES (2, E'\\377')")
    said = place.has_ended(child, SERVER, "the server can't send a change behind", 90)
    if "copies anew" not in said or "associated LSN" not in said:
        raise Failed(f"no cure: {said}")
    place.ends(SERVER, "the server can't send a change behind")


CASES = (
    Case("value-that-cant-be-sent", unsendable_value),
    Case("commit-that-is-rejected", rejected_commit),
    Case("transaction-above-64-megabytes", large_transaction),
    Case("row-of-100-megabytes", long_row),
    Case("second-connector-on-a-store", second_connector),
    Case("program-is-never-built", not_built),
    Case("signal-while-a-lock-is-waited-for", heard_in_catalog),
    Case("signal-while-the-store-is-opened", heard_while_opening),
    Case("signal-while-connecting", heard_while_connecting),
    Case("filter-killed-twice-in-a-transaction", filter_killed),
    Case("signal-twice", interrupted_twice),
    Case("disk-that-is-full", disk_full, root=True),
    Case("disk-that-is-full-of-a-feed", disk_full_of_a_feed, root=True),
)
