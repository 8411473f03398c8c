"""How each mode of the connector is run against the liar, and what is made before by honest
answers."""

from __future__ import annotations

import dataclasses
import subprocess
from collections.abc import Callable
from pathlib import Path

import psycopg
from live_server.child import Child
from live_server.follower import wait_until

from .errors import Failed
from .liar import Liar

LIMITS = ("--max-buffered", "33554432", "--heartbeat", "1", "--silence", "20")
SECONDS = 60


@dataclasses.dataclass
class Stage:
    """One worker's database on the server, and the files of one run."""

    connector: Path
    program: Path
    socket: Path
    user: str
    database: str
    folder: Path
    liar: Liar
    # what runs beside the connector, to its end
    beside: Child | None = None

    def dsn(self, host: Path) -> str:
        return f"host={host} dbname={self.database} user={self.user}"

    def honest(self) -> str:
        return self.dsn(self.socket.parent)

    def lying(self) -> str:
        return self.dsn(self.liar.folder)

    def store(self) -> str:
        return str(self.folder / "copy.db")

    def words(self, command: str, dsn: str, *more: str) -> list[str]:
        return [str(self.connector), command, "--dsn", dsn, "--slot", self.database, *more]

    def following(self, dsn: str, *more: str) -> list[str]:
        return self.words(
            "follow", dsn, "--store", self.store(), "--pgsub", str(self.program), *LIMITS, *more
        )

    def copied(self) -> None:
        """Makes a store by honest answers."""
        words = self.following(self.honest(), "--create", "--table", "stock", "--until", "now")
        done = subprocess.run(
            words, capture_output=True, stdin=subprocess.DEVNULL, timeout=SECONDS, check=False
        )
        if done.returncode:
            said = done.stderr.decode(errors="replace")
            raise Failed(f"an honest copy ended with {done.returncode}: {said}")

    def followed(self) -> None:
        """Has a follower run beside."""
        self.copied()
        self.beside = Child(self.following(self.honest()), self.folder / "beside")
        self.beside.wait_for("following slot", SECONDS)

    def connect(self) -> psycopg.Connection[tuple[object, ...]]:
        return psycopg.connect(self.honest(), autocommit=True)

    def clean(self) -> None:
        """Ends what runs beside, and drops what was made at the server."""
        if self.beside:
            self.beside.kill()
            self.beside = None
        self.liar.cut()
        slots = f"FROM pg_replication_slots WHERE database = '{self.database}'"
        with self.connect() as connection:
            connection.execute(
                f"SELECT pg_terminate_backend(active_pid) {slots} AND active_pid IS NOT NULL"
            )
            wait_until(
                lambda: not connection.execute(f"SELECT {slots} AND active").fetchall(),
                "the end of sessions",
                SECONDS,
            )
            connection.execute(
                f"SELECT pg_drop_replication_slot(slot_name) {slots} AND NOT temporary"
            )
            for (name,) in connection.execute(
                "SELECT quote_ident(pubname) FROM pg_publication"
            ).fetchall():
                connection.execute(f"DROP PUBLICATION {name}".encode())


@dataclasses.dataclass(frozen=True)
class Mode:
    """`before` is done by honest answers; `words` are those of the run."""

    name: str
    before: Callable[[Stage], None]
    words: Callable[[Stage], list[str]]


def nothing(stage: Stage) -> None:
    """Needs nothing."""


def adds(stage: Stage) -> None:
    """A store whose next follower adds a table."""
    stage.copied()
    words = stage.words("add", stage.honest(), "--store", stage.store(), "--table", "stock")
    subprocess.run(
        words, capture_output=True, stdin=subprocess.DEVNULL, timeout=SECONDS, check=True
    )


MODES = (
    Mode(
        "check", nothing, lambda it: it.words("check", it.lying(), "--create", "--table", "stock")
    ),
    Mode(
        "create",
        nothing,
        lambda it: it.following(it.lying(), "--create", "--table", "stock", "--until", "now"),
    ),
    Mode("follow", Stage.copied, lambda it: it.following(it.lying(), "--until", "now")),
    Mode("adding", adds, lambda it: it.following(it.lying(), "--until", "now")),
    Mode(
        "record",
        nothing,
        lambda it: it.words(
            "record",
            it.lying(),
            "--create",
            "temporary",
            "--table",
            "stock",
            "--record",
            str(it.folder / "r.pgx"),
            "--until",
            "now",
        ),
    ),
    Mode(
        "verify", Stage.followed, lambda it: it.words("verify", it.lying(), "--store", it.store())
    ),
    Mode(
        "repair",
        Stage.followed,
        lambda it: it.words("verify", it.lying(), "--store", it.store(), "--repair"),
    ),
    Mode(
        "add",
        Stage.copied,
        lambda it: it.words("add", it.lying(), "--store", it.store(), "--table", "stock"),
    ),
    Mode(
        "refresh",
        Stage.copied,
        lambda it: it.words("refresh", it.lying(), "--store", it.store(), "--yes"),
    ),
    Mode(
        "drop",
        Stage.copied,
        lambda it: it.words("drop", it.lying(), "--store", it.store(), "--yes"),
    ),
)
