"""Where a case takes place: a server with an empty database, and a folder for the files of one
store."""

from __future__ import annotations

import contextlib
import json
import shutil
import subprocess
import sys
import tempfile
import time
from collections.abc import Mapping
from pathlib import Path
from typing import Any

import psycopg

from .child import Child
from .cluster import Cluster
from .errors import Failed, Unusable
from .follower import checkpoint_of, is_confirmed, wait_until
from .options import Options
from .proxy import Proxy
from .rows import Rows, compare, rows_of_server, rows_of_store

OK, REJECTED, USAGE, FILE, SERVER, UNFIT, BUG, PASSING, NO_SLOT, MISSED = range(10)
LOG = "-wal"


class Place:
    """One store, and a server whose database `shop` is empty at first."""

    def __init__(self, options: Options, cluster: Cluster) -> None:
        self.options, self.cluster = options, cluster
        self.folder = Path(tempfile.mkdtemp(prefix="case-", dir=options.folder))
        self.store, self.slot, self.database = self.folder / "copy.db", "pgsub", "shop"
        self.log = self.folder / "said"
        self.closing = contextlib.ExitStack()
        self.row = 100
        # what is done about tables that are altered: most cases are about what is told
        self.on_alter = "tell"

    # the server

    def run(self, *commands: str) -> None:
        self.cluster.run(*commands, database=self.database)

    def value(self, query: str) -> str:
        return self.cluster.value(query, self.database)

    def stock(self, published: bool = True) -> None:
        """A table with two rows, and a publication of it."""
        self.run(
            "CREATE TABLE stock (sku int PRIMARY KEY, quantity int)",
            "INSERT INTO stock VALUES (1, 5), (2, 0)",
        )
        if published:
            self.run("CREATE PUBLICATION pgsub FOR TABLE stock")

    def change(self) -> None:
        """A new row of that table, and an update of all."""
        self.row += 1
        self.run(
            f"INSERT INTO stock VALUES ({self.row}, 0)", "UPDATE stock SET quantity = quantity + 1"
        )

    def set(self, **settings: str) -> None:
        """Settings of the server that need no restart. They go with the case."""
        self.run(
            *(f"ALTER SYSTEM SET {name} = '{value}'" for name, value in settings.items()),
            "SELECT pg_reload_conf()",
        )

    def own_cluster(self, settings: Mapping[str, str] = {}, encoding: str = "UTF8") -> Cluster:
        """Goes on with a server of the case's own. It isn't started yet."""
        self.cluster = Cluster(self.options.installed, self.options.folder, settings, encoding)
        self.closing.callback(self.cluster.remove)
        return self.cluster

    def own_server(self, settings: Mapping[str, str] = {}, encoding: str = "UTF8") -> Cluster:
        """Goes on with a server of the case's own, which runs and has the database."""
        cluster = self.own_cluster(settings, encoding)
        cluster.start()
        cluster.run("CREATE DATABASE shop", database="postgres")
        return cluster

    def copy_of(self, server: Cluster) -> Cluster:
        """Another server, with a copy of the files of one that is stopped. It isn't started yet."""
        cluster = Cluster(self.options.installed, self.options.folder, files=server.data)
        self.closing.callback(cluster.remove)
        return cluster

    def small_disk(self, megabytes: int) -> Path:
        """A folder on a file system of its own."""
        folder = self.folder / "disk"
        folder.mkdir()
        subprocess.run(
            ["mount", "-t", "tmpfs", "-o", f"size={megabytes}M,mode=700", "tmpfs", folder],
            check=True,
        )
        self.closing.callback(lambda: subprocess.run(["umount", "-l", folder], check=False))
        return folder

    def proxy(self, cluster: Cluster | None = None) -> Proxy:
        """A proxy before the server."""
        server = cluster or self.cluster
        proxy = Proxy(
            server.folder / f".s.PGSQL.{server.port}",
            Path(tempfile.mkdtemp(prefix="proxy-", dir=self.folder)),
        )
        self.closing.callback(proxy.close)
        return proxy

    def dsn(self, host: Path | None = None) -> str:
        dsn = self.cluster.dsn(self.database)
        return dsn.replace(f"host={self.cluster.folder}", f"host={host}") if host else dsn

    # the connector

    def words(self, *more: str, dsn: str = "", store: Path | None = None) -> list[str]:
        return self.options.words(
            dsn or self.dsn(),
            store or self.store,
            *("--slot", self.slot, "--heartbeat", "1", "--on-alter", self.on_alter),
            *more,
        )

    def start(
        self,
        *more: str,
        dsn: str = "",
        store: Path | None = None,
        environment: Mapping[str, str] = {},
    ) -> Child:
        return self.started(self.words(*more, dsn=dsn, store=store), environment)

    def follow_words(self) -> list[str]:
        """The words that follow into the store as a user writes them, without the program's."""
        connect, store = str(self.options.connect), str(self.store)
        return [connect, "follow", "--dsn", self.dsn(), "--store", store]

    def started(self, words: list[str], environment: Mapping[str, str] = {}) -> Child:
        child = Child(words, self.log, environment)
        self.closing.callback(child.kill)
        return child

    def catch_up(self, child: Child, cluster: Cluster | None = None) -> None:
        """Waits until all is confirmed, and a keepalive has moved the slot beyond the last
        commit."""
        server = cluster or self.cluster
        # (a slot that was just made has confirmed all that was before it)
        child.wait_for("following slot")
        query = "SELECT pg_current_wal_insert_lsn() FROM pg_logical_emit_message(false, '', '')"
        end = server.value(query, self.database)
        wait_until(lambda: self.has_confirmed(end, server), f"confirming {end}", 60, child.check)
        time.sleep(0.3)

    def has_confirmed(self, end: str, cluster: Cluster | None = None) -> bool:
        return is_confirmed(cluster or self.cluster, self.slot, end, self.database)

    def follow(self, *more: str, dsn: str = "", status: int = OK) -> str:
        """Follows until all is confirmed, and ends with this status. Returns what the connector
        said."""
        child = self.start(*more, dsn=dsn)
        self.catch_up(child)
        return child.stop(status=status)

    def ends(self, status: int, text: str, *more: str, dsn: str = "", seconds: float = 90) -> str:
        """Starts, and expects the end by itself. Returns what was said."""
        return self.has_ended(self.start(*more, dsn=dsn), status, text, seconds)

    def has_ended(self, child: Child, status: int, text: str, seconds: float = 90) -> str:
        found = child.end(seconds)
        if found != status or text not in child.said():
            raise Failed(f"status {found} in place of {status} with {text!r}: {child.said()}")
        return child.said()

    def subcommand(self, command: str, *more: str, status: int = OK) -> str:
        """Runs another subcommand to its end, and returns what it said."""
        words = [str(self.options.connect), command, *more]
        return self.has_ended(self.started(words), status, "")

    # the files

    def equal(self, *publications: str) -> int:
        """Fails where the store doesn't have the server's rows."""
        names = publications or ("pgsub",)
        return compare(rows_of_server(self.cluster, *names, database=self.database), self.rows())

    def rows(self) -> Rows:
        return rows_of_store(self.options.program, self.store)[0]

    def files(self) -> list[Path]:
        return [it for it in (self.store, self.beside(LOG)) if it.exists()]

    def beside(self, suffix: str) -> Path:
        return Path(f"{self.store}{suffix}")

    def checkpoint(self) -> dict[str, Any]:
        """The fields of its first line."""
        return checkpoint_of(self.store)[0]

    def found(self) -> dict[str, str]:
        """What was found that may have made the copy wrong, by kind."""
        return dict(self.checkpoint().get("found", {}))

    def finds(self, kind: str, text: str, said: str) -> None:
        """Fails unless a run has found and told something, and keeps it."""
        if f"found: {kind}" not in said or text not in said:
            raise Failed(f"it didn't tell {kind} with {text!r}: {said}")
        if kind not in self.found():
            raise Failed(f"the checkpoint doesn't keep {kind}: {self.found()}")

    def is_strict_about(self, kind: str) -> None:
        """What was found ends a strict start, and is forgotten once it is accepted."""
        self.ends(UNFIT, kind, "--strict")
        self.follow(*(word for it in self.found() for word in ("--accept", it)))
        if self.found():
            raise Failed(f"it still has {self.found()}")
        self.follow("--strict")

    def status(self, path: Path) -> dict[str, Any]:
        """The object of a status file."""
        found: dict[str, Any] = json.loads(path.read_text())
        return found

    def close(self) -> None:
        self.closing.close()
        shutil.rmtree(self.folder, ignore_errors=True)


class Shared:
    """A server that one case after the other has, each with an empty database."""

    def __init__(self, options: Options) -> None:
        self.options = options
        self.cluster: Cluster | None = None

    def fresh(self) -> Cluster:
        """The server, without anything of the case before."""
        if self.cluster:
            try:
                self.clean(self.cluster)
                return self.cluster
            except (Unusable, psycopg.Error):
                self.close()
        self.cluster = Cluster(self.options.installed, self.options.folder)
        self.cluster.start()
        self.cluster.run("CREATE DATABASE shop", database="postgres")
        return self.cluster

    def clean(self, cluster: Cluster) -> None:
        with cluster.connect("postgres") as session:
            session.run(
                "ALTER SYSTEM RESET ALL",
                "SELECT pg_reload_conf()",
                "SELECT pg_terminate_backend(pid) FROM pg_stat_activity WHERE datname = 'shop'",
            )
            for name in session.column(
                "SELECT gid FROM pg_prepared_xacts WHERE database = 'postgres'"
            ):
                session.run(f"ROLLBACK PREPARED '{name}'")
            slots = "SELECT count(*) FROM pg_replication_slots WHERE active"
            wait_until(lambda: session.value(slots) == "0", "ending all sessions")
            session.run("SELECT pg_drop_replication_slot(slot_name) FROM pg_replication_slots")
            session.run("DROP DATABASE shop WITH (FORCE)", "CREATE DATABASE shop")
            for name in session.column(
                "SELECT quote_ident(rolname) FROM pg_roles WHERE NOT rolsuper AND rolname !~ '^pg_'"
            ):
                session.run(f"DROP ROLE {name}")

    def close(self) -> None:
        if self.cluster:
            self.cluster.remove()
        self.cluster = None


def killed_at(place: Place, name: str, after: bool) -> None:
    """Runs the connector, which ends at once where it makes a call, as of its module `copier`."""
    code = KILLED_AT.format(
        house=str(place.options.connect.parent),
        name=name,
        before="real(*words)" if after else "pass",
    )
    words = [sys.executable, "-c", code, *place.words("--create")[1:]]
    place.has_ended(place.started(words), 77, "")


# Runs the connector, which is killed where a call is made.
KILLED_AT = """
import os, sys
sys.path.insert(0, {house!r})
from pgsub_connect import cli
from pgsub_connect.copy import copier
real = {name}
def last(*words, **more):
    # (the socket gets its name within its folder)
    if "src_dir_fd" in more:
        return real(*words, **more)
    {before}
    os._exit(77)
{name} = last
sys.argv[0] = {house!r} + "/pgsub-connect"
cli.run()
"""
