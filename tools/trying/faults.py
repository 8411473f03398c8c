"""Six faults that are planted in a follower. `pgsub-connect status`, which finds the follower by
itself, tells each with what mends it and status 1; once that was done, all is well again."""

import contextlib
import os
import signal
import subprocess
import time
from collections.abc import Callable, Iterator
from pathlib import Path

from .machine import ENVIRONMENT, SECONDS, USER, Counts, Following, Wrong, run

NAME = "faults"
CREATED = ("--create", "--table", "goods", "--slot", NAME, "--publication", NAME)
# How often the program may end until that is told, and how many segments of log the server writes
# for a slot to lose what it needs.
ENDS, SEGMENTS = 3, 4
WELL = "ok (following"


class Planted:
    """A follower of a table of its own."""

    def __init__(self, folder: Path) -> None:
        self.folder = folder
        run("mkdir", str(folder), user=USER)
        self.sql("CREATE TABLE goods (id int PRIMARY KEY, price numeric)")
        self.sql("INSERT INTO goods SELECT n, n FROM generate_series(1, 1000) n")
        self.following = Following(folder, *CREATED)
        self.expect(0, WELL)

    def sql(self, text: str, user: str = USER) -> None:
        run("psql", "-q", "-c", text, "shop", user=user)

    def command(self, *words: str) -> None:
        named = [] if "--tables" in words else ["--store", str(self.folder / "copy.db")]
        run("pgsub-connect", *words, *named, user=USER)

    def status(self) -> tuple[int, str]:
        words = ["runuser", "-u", USER, "--", "pgsub-connect", "status"]
        ran = subprocess.run(
            words, cwd=self.folder, env=ENVIRONMENT, capture_output=True, text=True, check=False
        )
        return ran.returncode, ran.stdout

    def expect(self, status: int, *told: str) -> None:
        """Waits until it is told so."""
        until = time.monotonic() + SECONDS
        while (found := self.status())[0] != status or any(it not in found[1] for it in told):
            if time.monotonic() > until:
                raise Wrong(f"wanted {status}, {told}: {found}: {self.following.said()}")
            time.sleep(0.5)

    @contextlib.contextmanager
    def stopped(self) -> Iterator[None]:
        """The follower ends, which is told, too, and is started again."""
        self.following.stop()
        self.expect(1, "the follower has ended", "`pgsub-connect follow --store ", "goes on")
        yield
        self.following = Following(self.folder)

    def find(self) -> None:
        """A table with rows joins the publication."""
        with self.stopped():
            self.sql("CREATE TABLE late (id int PRIMARY KEY)")
            self.sql("INSERT INTO late VALUES (1), (2)")
            self.sql(f"ALTER PUBLICATION {NAME} ADD TABLE late")
        self.expect(1, "the copy may be wrong: publication", "`pgsub-connect refresh --store ")
        self.command("refresh", "--yes", "--dsn", "dbname=shop")

    def set_aside(self) -> None:
        """Something of the user's forbids the rows of a table in `rows.db`."""
        run("sqlite3", self.rows(), "CREATE UNIQUE INDEX prices ON goods (price)", user=USER)
        self.sql("INSERT INTO goods VALUES (2000, 5)")
        self.expect(1, "set aside in the tables", "`pgsub-connect add --store ", "public.goods: ")
        self.command("add", "--dsn", "dbname=shop", "--table", "public.goods")

    def leave_reader(self) -> None:
        """A reader of the feed goes on no more."""
        reader = self.folder / "copy.db.feed/readers/mine"
        at = run("sqlite3", self.rows(), "SELECT lsn FROM pgsub_position", user=USER)
        run("sh", "-c", f"echo {at} > {reader}", user=USER)
        self.sql("UPDATE goods SET price = price + 1")
        self.expect(1, "the reader mine has ended or hangs", "remove `readers/mine`")
        run("rm", str(reader), user=USER)

    def kill_program(self) -> None:
        """The program is killed again and again."""
        killed: set[int] = set()
        for _ in range(ENDS):
            killed.add(self.kill_next(killed))
        told = f"the program `pgsub` has ended {ENDS} times in ten minutes"
        self.expect(1, told, "mend that: ")
        with self.stopped():
            pass

    def kill_next(self, killed: set[int]) -> int:
        """Kills the program that was started after these; its number."""
        words, until = ["pgrep", "-u", USER, "-x", "pgsub"], time.monotonic() + SECONDS
        while time.monotonic() < until:
            time.sleep(1)
            ran = subprocess.run(words, capture_output=True, text=True, check=False)
            for it in set(map(int, ran.stdout.split())) - killed:
                os.kill(it, signal.SIGKILL)
                return it
        raise Wrong(f"the program isn't started again: {self.following.said()}")

    def take_away_rows(self) -> None:
        """`rows.db` is removed."""
        run("sh", "-c", f"rm {self.rows()}*", user=USER)
        self.expect(1, "rows.db isn't there", "if it was removed, start the follower again")
        with self.stopped():
            pass
        self.command("wait", "0/1", "--tables", self.rows())

    def lose_slot(self) -> None:
        """The server removes log that the slot needs."""
        with self.stopped():
            self.keep("1MB")
            for _ in range(SEGMENTS):
                self.sql("UPDATE goods SET price = price + 1")
                self.sql("SELECT pg_switch_wal()", "postgres")
            self.sql("CHECKPOINT", "postgres")
        self.expect(1, "the slot is lost", "`pgsub-connect drop --store ", "copy anew")
        self.following.process.wait(SECONDS)
        self.keep("-1")
        self.drop()
        # (it stays where another slot may use it, and has a table more by now)
        self.sql(f"DROP PUBLICATION IF EXISTS {NAME}")
        self.following = Following(self.folder, *CREATED)

    def keep(self, size: str) -> None:
        """How much log the server keeps for a slot."""
        self.sql(f"ALTER SYSTEM SET max_slot_wal_keep_size = '{size}'", "postgres")
        self.sql("SELECT pg_reload_conf()", "postgres")

    def drop(self) -> None:
        self.command("drop", "--all", "--yes", "--dsn", "dbname=shop")

    def is_well(self) -> None:
        self.expect(0, WELL)

    def end(self) -> None:
        self.following.stop()
        self.drop()

    def rows(self) -> str:
        return str(self.folder / "rows.db")


def try_faults(counts: Counts, folder: Path) -> None:
    planted: list[Planted] = []
    counts.tried("a follower that is well", lambda: planted.append(Planted(folder)))
    for it in planted:
        faults: tuple[tuple[str, Callable[[], None]], ...] = (
            ("a finding", it.find),
            ("a table set aside", it.set_aside),
            ("a reader that has ended", it.leave_reader),
            ("a program that is killed", it.kill_program),
            ("no rows.db", it.take_away_rows),
            ("a lost slot", it.lose_slot),
        )
        for what, plant in faults:
            counts.tried(f"status tells of {what}", plant)
            counts.tried(f"the cure mends {what}", it.is_well)
        counts.tried("all of it is dropped", it.end)
